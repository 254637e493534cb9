"""All rows of patterns of ECMA-262."""

from rows.grammars.common import rows_of, searches
from rows.grammars.properties import class_rows, escape_rows, name_rows, property_rows
from rows.grammars.beside import (beside_rows, beside_search_rows, item_rows, item_search_rows, many_piece_rows,
                                  nested_piece_rows, third_rows, told_beside_rows)
from rows.grammars.classes import far_member_rows, look_rows, member_rows, one_character_rows, ruled_rows
from rows.grammars.looks import (GLANCES, LOOKS_AHEAD, ahead_at_front, ahead_of_c, edge_pair_rows, edge_rows, far_rows,
                                 front_limit_rows, front_rows, inner_look_rows, look_limit_rows, near_both_rows,
                                 repeated_look_rows, repeated_term_rows, table_rows)
from rows.grammars.tables import kind_rows, like_class_rows, table_limit_rows
from rows.grammars.limits import ahead_syntax_rows, limit_rows
from rows.grammars.members import end_rows
from rows.grammars.lenient import lenient_rows
from rows.grammars.whole_patterns import character_rows, place_rows, whole_property_rows, whole_rows
from rows.grammars.places import (class_member_rows, edge_character_rows, large_rows, many_rows, needed_rows,
                                  never_rows, placed_piece_rows, placed_reason_rows, placed_term_rows, reading_rows,
                                  reference_rows, repeated_count_rows, set_pair_rows)
from rows.grammars.edges import (deep_rows, far_content_rows, far_number_rows, far_piece_rows, far_reason_rows,
                                 front_within_rows, inner_edge_rows, inner_loop_rows, joined_edge_rows, length_rows,
                                 near_name_rows, off_name_rows, value_sign_rows, wrapped_rows)
from rows.grammars.likeness import (alike_rows, closed_kind_rows, half_pair_rows, like_hexadecimal_rows,
                                    mixed_depth_rows, pair_name_rows, text_end_rows)
from rows.grammars.notations import (class_content_rows, class_reason_rows, cluster_rows, notation_rows,
                                     other_class_rows, page_edge_rows, passed_over_rows, sign_code_rows)
from rows.grammars.reasons import (behind_call_rows, coded_name_rows, coded_place_rows, half_reason_rows, no_times_rows,
                                   place_reason_rows, tableless_rows, wide_escape_rows)
from rows.grammars.shared import extension_rows
from rows.grammars.choices import choice_rows, inside_rows, wide_text_rows
from rows.grammars.nested import inner_body_rows, rowed_assertion_rows
from rows.grammars.steps import nested_step_rows, step_rows
from rows.grammars.sweeps import category_run_rows, extension_end_rows, gap_rows, set_sweep_rows
from rows.grammars.sizes import (category_edge_rows, common_pattern_rows, count_end_rows, deep_quantifier_rows,
                                 depth_rows, edge_of_row_rows, escape_pair_rows, far_row_rows, far_text_rows,
                                 front_row_rows, front_table_rows, language_word_rows, long_literal_rows,
                                 long_sides_rows, name_edge_rows, name_sequence_rows, nested_look_rows,
                                 option_in_row_rows, row_member_rows, row_of_classes_rows, unlike_alternative_rows)

def ahead_rows():
    """The rows of lookaheads."""
    yield ("lookaheads of one character, `(?= )` and `(?! )`, with each body, before each text of a and b; within "
           "groups, loops and lookbehinds")
    yield ahead_of_c(GLANCES, range(3))
    yield ahead_at_front(GLANCES, range(4), ["[ab]*$"])
    yield from ruled_rows(LOOKS_AHEAD, range(5))
    yield from one_character_rows(lambda sign, body: f"a(?{sign}{body})", lambda beside: f"a{beside}", "$")
    texts_of_letters = ("", "Ab", "aB", "\u00c9a", "\u00e9A", "A")
    yield searches([["^(?=\\p{Lu})\\p{L}+$", text, text[:1] in ("A", "\u00c9")] for text in texts_of_letters])
    yield from ahead_syntax_rows()
    yield from front_rows()
    yield from far_rows()
    yield from near_both_rows()
    yield from edge_rows()
    yield from edge_pair_rows()
    yield from inner_look_rows()
    yield from repeated_look_rows()
    yield from repeated_term_rows()
    yield from front_limit_rows()
    yield from look_limit_rows()
    yield from table_rows()
    yield from table_limit_rows()
    yield from like_class_rows()
    yield from kind_rows()


def ecma_rows():
    """The rows of patterns of ECMA-262."""
    return rows_of(escape_rows, name_rows, class_rows, member_rows, look_rows, ahead_rows, limit_rows, property_rows,
                   whole_rows, whole_property_rows, character_rows, place_rows, needed_rows, many_rows,
                   repeated_count_rows, never_rows, large_rows, placed_reason_rows, class_member_rows, set_pair_rows,
                   placed_term_rows, placed_piece_rows, reading_rows, reference_rows, edge_character_rows,
                   near_name_rows, far_number_rows, far_reason_rows, length_rows, off_name_rows, joined_edge_rows,
                   deep_rows, front_within_rows, value_sign_rows, inner_loop_rows, inner_edge_rows, wrapped_rows,
                   mixed_depth_rows, closed_kind_rows, half_pair_rows, pair_name_rows, text_end_rows, alike_rows,
                   like_hexadecimal_rows, sign_code_rows, cluster_rows, passed_over_rows, notation_rows,
                   other_class_rows, class_reason_rows, page_edge_rows, class_content_rows, language_word_rows,
                   common_pattern_rows, long_literal_rows, far_text_rows, nested_look_rows, deep_quantifier_rows,
                   count_end_rows, category_edge_rows, name_edge_rows, front_table_rows, name_sequence_rows,
                   escape_pair_rows, depth_rows, row_of_classes_rows, option_in_row_rows, long_sides_rows, far_row_rows,
                   front_row_rows, unlike_alternative_rows, edge_of_row_rows, extension_rows, row_member_rows,
                   place_reason_rows, wide_escape_rows, behind_call_rows, half_reason_rows, tableless_rows,
                   no_times_rows, coded_name_rows, coded_place_rows, end_rows, beside_rows, third_rows,
                   told_beside_rows, nested_piece_rows, beside_search_rows, item_rows, item_search_rows,
                   many_piece_rows, step_rows, nested_step_rows, choice_rows, inside_rows, wide_text_rows,
                   set_sweep_rows, inner_body_rows, rowed_assertion_rows, gap_rows, category_run_rows,
                   extension_end_rows, far_piece_rows, far_content_rows, far_member_rows, lenient_rows)
