#compdef neldrafi
# Completion of neldrafi for zsh.

_neldrafi_formats() {
    local -a names
    names=(${(f)"$($words[1] formats 2> /dev/null | sed -n '2,$s/ .*//p')"})
    compadd -a names
}

_neldrafi() {
    local -a quiet color draft most help output unknown document
    quiet=('(-q --quiet)'{-q,--quiet}'[write nothing to standard output]')
    color=('--color[when messages have colours]:when:(auto always never)')
    draft=('--draft[the draft of JSON Schema]:draft:(4 6 7 2019-09 2020-12)')
    most=('--max-errors[stop after N messages about a file]:N:')
    output=('--output[the form of each line]:form:(text json)')
    unknown=('--allow-unknown[ignore unknown keywords and formats]')
    document=('*--document[a further document]:URI=FILE:')
    help=('(-h --help)'{-h,--help}'[options and examples]')
    if (( CURRENT == 2 )); then
        local -a subcommands=(
            'text:say whether texts are of a format'
            'formats:list the formats'
            'check:check files by a JSON Schema'
            'explain:say in words what a JSON Schema checks'
            'infer:propose a JSON Schema for files'
        )
        _describe subcommand subcommands
        _arguments $help '(-V --version)'{-V,--version}'[the version]'
        return
    fi
    case $words[2] in
    text) _arguments $help $quiet $draft $output '2:format:_neldrafi_formats' ;;
    formats) _arguments $help $output ;;
    explain) _arguments $help $draft $output $unknown $document '*:file:_files' ;;
    infer)
        _arguments $help '--as[what each file is]:kind:(json jsonl csv tsv)' \
            '--delimiter[what separates the fields of CSV]:character:' \
            '--empty[what an empty field is]:what:(absent text)' '--no-header[the first record is data too]' \
            '*:file:_files'
        ;;
    check)
        _arguments $help $quiet $color $draft $most $unknown $document \
            '--as[what each file is]:kind:(json jsonl csv tsv text)' \
            '--delimiter[what separates the fields of CSV]:character:' \
            '--empty[what an empty field is]:what:(absent text)' '--no-header[the first record is data too]' \
            '--formats[whether formats are checked]:how:(check annotate)' '--name[the name of standard input]:name:' \
            '--output[the form of each line]:form:(text json github junit sarif)' \
            '--summary[write counts to standard error]' \
            '*:file:_files'
        ;;
    esac
}

_neldrafi "$@"
