# Completion of the words of mb for bash.
_mb() {
    local word=${COMP_WORDS[COMP_CWORD]} commands=' check build run replay inputs state cost dis upgrade load lint help' options=''
    case ${COMP_WORDS[1]} in
        help) options=' --man --completion' ;;
        check) options=' --explain --explain-json -h --help' ;;
        build) options=' --explain --explain-json -h --help' ;;
        run) options=' --explain --explain-json --progress --until -h --help' ;;
        replay) options=' --explain --explain-json -h --help' ;;
        inputs) options=' --explain --explain-json --progress -h --help' ;;
        state) options=' --explain --explain-json --json --partition --every --until --sources -h --help' ;;
        cost) options=' --explain --explain-json -h --help' ;;
        dis) options=' --explain --explain-json -h --help' ;;
        upgrade) options=' --explain --explain-json -h --help' ;;
        load) options=' --explain --explain-json --csv --svg -h --help' ;;
        lint) options=' --explain --explain-json -h --help' ;;
        help) options='' ;;
        *) options=' -h --help -V --version' ;;
    esac
    COMPREPLY=()
    if [[ $word == -* ]]; then
        COMPREPLY=($(compgen -W "$options" -- "$word"))
    elif [[ $COMP_CWORD == 1 || ($COMP_CWORD == 2 && ${COMP_WORDS[1]} == help) ]]; then
        COMPREPLY=($(compgen -W "$commands" -- "$word"))
    fi
}
complete -o default -F _mb mb
