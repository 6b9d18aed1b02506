# Completion of taskrun's words for bash: source completions/taskrun.bash
_taskrun() {
    local word=${COMP_WORDS[COMP_CWORD]}
    COMPREPLY=()
    if [ "$COMP_CWORD" -eq 1 ]; then
        mapfile -t COMPREPLY < <(compgen -W 'run replay gen' -- "$word")
    elif [ "${COMP_WORDS[1]}" = gen ]; then
        case $COMP_CWORD in
            2) mapfile -t COMPREPLY < <(compgen -W '0 1 7' -- "$word") ;;
            3) mapfile -t COMPREPLY < <(compgen -W '1 64 1024 4096' -- "$word") ;;
        esac
    fi
}
complete -F _taskrun taskrun ./taskrun
