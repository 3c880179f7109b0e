# Completion of bouncer(1) for bash.
_bouncer() {
    local word=${COMP_WORDS[COMP_CWORD]}
    COMPREPLY=()
    if [ "$COMP_CWORD" = 1 ]; then
        mapfile -t COMPREPLY < <(compgen -W 'init run check renew fold world replay draw show help --help --version' -- "$word")
    elif [ "$COMP_CWORD" = 2 ]; then
        case ${COMP_WORDS[1]} in
            run | check | renew | replay | draw | show) compopt -o filenames && mapfile -t COMPREPLY < <(compgen -f -- "$word") ;;
            init) compopt -o filenames && mapfile -t COMPREPLY < <(compgen -d -- "$word") ;;
            world) mapfile -t COMPREPLY < <(compgen -W '3 5 7' -- "$word") ;;
        esac
    elif [ "${COMP_WORDS[1]}" = renew ] && [ $((COMP_CWORD % 2)) = 1 ]; then
        mapfile -t COMPREPLY < <(compgen -W '--forget' -- "$word")
    elif [ "${COMP_WORDS[1]}" = show ]; then
        mapfile -t COMPREPLY < <(compgen -W '--all' -- "$word")
    fi
}
complete -F _bouncer bouncer
