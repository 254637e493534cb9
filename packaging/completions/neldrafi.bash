# Completion of neldrafi for bash.

# The options of a subcommand.
_neldrafi_options() {
    case $1 in
    text) echo --draft --output --quiet --help ;;
    formats) echo --output --help ;;
    check)
        echo --allow-unknown --as --color --delimiter --document --draft --empty --formats --max-errors --name \
            --no-header --output --quiet --summary --help
        ;;
    explain) echo --allow-unknown --document --draft --output --help ;;
    infer) echo --as --delimiter --empty --no-header --help ;;
    *) echo --help --version ;;
    esac
}

# The names of the formats, as the command itself lists them.
_neldrafi_formats() {
    "$1" formats 2> /dev/null | sed -n '2,$s/ .*//p'
}

_neldrafi() {
    local command=${COMP_WORDS[0]} subcommand=${COMP_WORDS[1]} word=${COMP_WORDS[COMP_CWORD]}
    local before=${COMP_WORDS[COMP_CWORD - 1]} words=
    if [ "$COMP_CWORD" = 1 ]; then
        words="text formats check explain infer $(_neldrafi_options)"
    elif [ "$before" = --draft ]; then
        words='4 6 7 2019-09 2020-12'
    elif [ "$before" = --output ]; then
        words='text json'
        [ "$subcommand" != check ] || words+=' github junit sarif'
    elif [ "$before" = --color ]; then
        words='auto always never'
    elif [ "$before" = --as ]; then
        words='json jsonl csv tsv'
        [ "$subcommand" = infer ] || words+=' text'
    elif [ "$before" = --empty ]; then
        words='absent text'
    elif [ "$before" = --formats ]; then
        words='check annotate'
    elif [[ $before == --@(delimiter|document|max-errors|name) ]]; then
        words=
    elif [[ $word == -* ]]; then
        words=$(_neldrafi_options "$subcommand")
    elif [ "$subcommand" = text ]; then
        words=$(_neldrafi_formats "$command")
    elif [ "$subcommand" != formats ]; then
        compopt -o filenames 2> /dev/null
        mapfile -t COMPREPLY < <(compgen -f -- "$word")
        return
    fi
    mapfile -t COMPREPLY < <(compgen -W "$words" -- "$word")
}

complete -F _neldrafi neldrafi
