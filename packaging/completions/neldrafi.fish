# Completion of neldrafi for fish.

set -l subcommands text formats check explain infer
set -l none "not __fish_seen_subcommand_from $subcommands"

complete -c neldrafi -f -n $none -a text -d 'Say whether texts are of a format'
complete -c neldrafi -f -n $none -a formats -d 'List the formats'
complete -c neldrafi -f -n $none -a check -d 'Check files by a JSON Schema'
complete -c neldrafi -f -n $none -a explain -d 'Say in words what a JSON Schema checks'
complete -c neldrafi -f -n $none -a infer -d 'Propose a JSON Schema for files'
complete -c neldrafi -f -n $none -s V -l version -d 'The version'
complete -c neldrafi -s h -l help -d 'Options and examples'
complete -c neldrafi -f -n '__fish_seen_subcommand_from formats'
set -l names "(neldrafi formats | string match -rg '^(\S+)' | tail -n +2)"
complete -c neldrafi -f -n '__fish_seen_subcommand_from text' -a $names
complete -c neldrafi -n '__fish_seen_subcommand_from text check explain' -x -l draft -a '4 6 7 2019-09 2020-12' -d 'The draft'
complete -c neldrafi -n '__fish_seen_subcommand_from check' -x -l color -a 'auto always never' -d 'When there are colours'
complete -c neldrafi -n '__fish_seen_subcommand_from check' -x -l max-errors -d 'Stop after so many messages'
complete -c neldrafi -n '__fish_seen_subcommand_from text check' -s q -l quiet -d 'No standard output'
complete -c neldrafi -n '__fish_seen_subcommand_from text formats explain' -x -l output -a 'text json' -d 'The form of each line'
complete -c neldrafi -n '__fish_seen_subcommand_from check' -x -l output -a 'text json github junit sarif' -d 'The form of each line'
complete -c neldrafi -n '__fish_seen_subcommand_from check explain' -l allow-unknown -d 'Ignore unknown keywords and formats'
complete -c neldrafi -n '__fish_seen_subcommand_from check' -x -l as -a 'json jsonl csv tsv text' -d 'What each file is'
complete -c neldrafi -n '__fish_seen_subcommand_from infer' -x -l as -a 'json jsonl csv tsv' -d 'What each file is'
complete -c neldrafi -n '__fish_seen_subcommand_from check infer' -x -l delimiter -d 'What separates the fields of CSV'
complete -c neldrafi -n '__fish_seen_subcommand_from check infer' -x -l empty -a 'absent text' -d 'What an empty field is'
complete -c neldrafi -n '__fish_seen_subcommand_from check infer' -l no-header -d 'The first record is data too'
complete -c neldrafi -n '__fish_seen_subcommand_from check explain' -x -l document -d 'A further document, URI=FILE'
complete -c neldrafi -n '__fish_seen_subcommand_from check' -x -l formats -a 'check annotate' -d 'Whether formats are checked'
complete -c neldrafi -n '__fish_seen_subcommand_from check' -l summary -d 'Counts on standard error'
complete -c neldrafi -n '__fish_seen_subcommand_from check' -x -l name -d 'The name of standard input'
