# Completions of rc for bash.
_rc() {
    local word=${COMP_WORDS[COMP_CWORD]}
    COMPREPLY=()
    if [ "$COMP_CWORD" = 1 ]; then
        mapfile -t COMPREPLY < <(compgen -W "tree fates why slots json replay gen explain --help --version" -- "$word")
    elif [ "$COMP_CWORD" = 2 ]; then
        case ${COMP_WORDS[1]} in
            tree | fates | why | slots | json | replay) mapfile -t COMPREPLY < <(compgen -f -- "$word") ;;
        esac
    fi
}
complete -o filenames -F _rc rc
