# Completions of kalah for bash.

# Offers the options of a subcommand that may still be given, each at most once.
_kalah_options() {
    local options=$1 given=" ${COMP_WORDS[*]:2:COMP_CWORD - 2} " option left=
    case "${COMP_WORDS[1]}$given" in
        *' '-h' '* | *' '--help' '*) options= ;;
        ask*' '--steps' '*) options='-h --help' ;;
        ask*' '--values' '* | ask*' '--table[\ =]*) options=${options/--steps/} ;;
    esac
    for option in $options; do
        [[ $given == *" $option"[\ =]* ]] || left+=" $option"
    done
    COMPREPLY=($(compgen -W "$left" -- "${COMP_WORDS[COMP_CWORD]}"))
}

_kalah() {
    local current=${COMP_WORDS[COMP_CWORD]} previous=${COMP_WORDS[COMP_CWORD - 1]}
    COMPREPLY=()
    # Bash takes `--first=1` for three words.
    [ "$current" = = ] && current=
    [ "$previous" = = ] && previous=${COMP_WORDS[COMP_CWORD - 2]}
    if [ "$COMP_CWORD" -eq 1 ]; then
        case $current in
            -*) COMPREPLY=($(compgen -W '-h --help -V --version' -- "$current")) ;;
            *) COMPREPLY=($(compgen -W 'solve values show play moves ask steps count' -- "$current")) ;;
        esac
        return
    fi
    case $previous in
        --workers | --table) return ;;
        --first)
            COMPREPLY=($(compgen -W '1 2 3 4 5 6' -- "$current"))
            return
            ;;
    esac
    case ${COMP_WORDS[1]}:$current in
        solve:-* | values:-*) _kalah_options '--workers --table --progress -h --help' ;;
        show:-*) _kalah_options '--plain --lines --table -h --help' ;;
        play:-*) _kalah_options '--table --boards --values --first -h --help' ;;
        moves:-*) _kalah_options '--boards -h --help' ;;
        ask:-*) _kalah_options '--values --steps --table -h --help' ;;
        steps:-*) _kalah_options '--workers --progress -h --help' ;;
        count:-*) _kalah_options '-h --help' ;;
        solve:* | values:* | steps:*)
            compopt -o filenames 2> /dev/null
            mapfile -t COMPREPLY < <(compgen -f -- "$current")
            ;;
    esac
}

complete -F _kalah kalah
