# Completion of the words of `saber` for bash. To use it: . completion/saber.bash
_saber() {
    local word=${COMP_WORDS[COMP_CWORD]} before=${COMP_WORDS[COMP_CWORD - 1]}
    case $before in
        --dir) mapfile -t COMPREPLY < <(compgen -d -- "$word") ;;
        --stack | --heap | --turns | --make) COMPREPLY=() ;;
        *) mapfile -t COMPREPLY < <(compgen -W '--stack --heap --turns --dir --make --trace --coverage --count --help --version --build' -- "$word") ;;
    esac
}
complete -F _saber saber
# the tools beside it take modules, or their files
complete -f -X '!*.c' -o plusdirs saber-run saber-why saber-lcov saber-prep
complete -F _saber saber-shell
