# Completes the command line of world_load in bash.

_world_load() {
    local word=${COMP_WORDS[COMP_CWORD]} words
    case ${COMP_WORDS[COMP_CWORD - 1]} in
    --socket) mapfile -t COMPREPLY < <(compgen -f -- "$word"); return ;;
    --port | --connections | --lines | --cells | --batches | --seconds) words= ;;
    *) words='--port --socket --connections --lines --cells --batches --seconds --help --version' ;;
    esac
    mapfile -t COMPREPLY < <(compgen -W "$words" -- "$word")
}
complete -o filenames -F _world_load world_load
