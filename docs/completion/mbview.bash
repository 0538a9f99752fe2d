# Completion of the words of mbview for bash.
_mbview() {
    local word=${COMP_WORDS[COMP_CWORD]} commands=' summary compare svg vcd list check diff html help' options=''
    case ${COMP_WORDS[1]} in
        help) options=' --man --completion' ;;
        summary) options=' --from --to --partition --process --kind --port --known --ticks --table --csv -h --help' ;;
        compare) options=' --from --to --partition --process --kind --port --known --ticks --table --csv -h --help' ;;
        svg) options=' --from --to --partition --process --kind --port --known --ticks --table --width -h --help' ;;
        vcd) options=' --from --to --partition --process --kind --port --known --ticks --table --gtkw -h --help' ;;
        list) options=' --from --to --partition --process --kind --port --known --table -h --help' ;;
        check) options=' --from --to --partition --no --at-most --missed --table -h --help' ;;
        diff) options=' --partition --table -h --help' ;;
        html) options=' --partition --process --kind --port --known --ticks --table --state -h --help' ;;
        help) options='' ;;
        *) options=' -h --help -V --version' ;;
    esac
    COMPREPLY=()
    if [[ $word == -* ]]; then
        COMPREPLY=($(compgen -W "$options" -- "$word"))
    elif [[ $COMP_CWORD == 1 || ($COMP_CWORD == 2 && ${COMP_WORDS[1]} == help) ]]; then
        COMPREPLY=($(compgen -W "$commands" -- "$word"))
    fi
}
complete -o default -F _mbview mbview
