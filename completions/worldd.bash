# Completes the command line of worldd in bash.

_worldd() {
    local word=${COMP_WORDS[COMP_CWORD]} last=${COMP_WORDS[COMP_CWORD - 1]} command=${COMP_WORDS[1]} words
    if [ "$COMP_CWORD" -eq 1 ]; then
        words='steps create recover inspect status backup salvage serve help --help --version'
    else
        case "$command $last" in
        *' --dir' | *' --to') mapfile -t COMPREPLY < <(compgen -d -- "$word"); return ;;
        'create --words' | *' --socket') mapfile -t COMPREPLY < <(compgen -f -- "$word"); return ;;
        *' --method') words='zigzag pingpong' ;;
        *' --socket-mode') words='0600 0660 0666' ;;
        *' --statuses') words='plain detailed' ;;
        *' --cells' | *' --every' | *' --port' | *' --clients' | *' --idle' | *' --report' | *' --exit-when-closed') words= ;;
        'help '*) words='steps create recover inspect status backup salvage serve' ;;
        'create '*) words='--dir --cells --words --guard --statuses --help' ;;
        'inspect '*) words='--dir --words --refuse-losses --statuses --help' ;;
        'recover '*) words='--dir --refuse-losses --statuses --help' ;;
        'status '*) words='--dir --refuse-losses --check --statuses --help' ;;
        'backup '*) words='--dir --to --refuse-losses --statuses --help' ;;
        'salvage '*) words='--dir --to --statuses --help' ;;
        'serve '*)
            words='--dir --method --every --port --socket --socket-mode --clients --unlimited-clients --idle --report
                --exit-when-log-down --exit-when-closed --exit-when-images-down --exit-when-replaced --guard --accept-loss
                --refuse-losses --statuses --help'
            ;;
        'steps '*) words='--statuses --help' ;;
        *) words=--help ;;
        esac
    fi
    mapfile -t COMPREPLY < <(compgen -W "$words" -- "$word")
}
complete -o filenames -F _worldd worldd
