# Completion for bash: source this file, or put it in bash's folder of completions as mukthiban.

_mukthiban() {
    local word=${COMP_WORDS[COMP_CWORD]} before=${COMP_WORDS[COMP_CWORD - 1]} command=${COMP_WORDS[1]} options
    local commands="check audit age ls map status cat lift verify put cp mkdir mv rm merge whole defrag kiosk new help"
    COMPREPLY=()
    if [ "$COMP_CWORD" = 1 ]; then
        COMPREPLY=($(compgen -W "$commands --help --version" -- "$word"))
        return
    fi
    case $command in
        help) COMPREPLY=($(compgen -W "$commands" -- "$word")); return ;;
        check) options="--strict" ;;
        lift) options="--strict --salvage" ;;
        ls) options="--all" ;;
        map) options="--svg" ;;
        put | cp) options="--replace" ;;
        rm) options="-r" ;;
        whole) options="--plan --from" ;;
        new) options="--blocks --block-len --dirs --files --kiosk --buckets" ;;
    esac
    case $before in
        --blocks | --block-len | --dirs | --files | --buckets | --wait) return ;;
    esac
    case $word in
        -*) COMPREPLY=($(compgen -W "$options --json --quiet --verbose --wait --help" -- "$word")) ;;
        *) COMPREPLY=($(compgen -f -- "$word")) ;;
    esac
}
complete -o filenames -F _mukthiban mukthiban
