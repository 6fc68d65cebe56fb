# Completion of ./guards in bash: source tools/complete/guards.bash
_guards() {
    local before=("${COMP_WORDS[@]:1:COMP_CWORD-1}") word=${COMP_WORDS[COMP_CWORD]}
    [ "${before[0]-}" = --unproved ] && before=("${before[@]:1}")
    case "${before[*]-}" in
    '') mapfile -t COMPREPLY < <(compgen -W 'run check demo audit --unproved --help' -- "$word") ;;
    run) mapfile -t COMPREPLY < <(compgen -W '--trace --last' -- "$word") ;;
    'run --trace') mapfile -t COMPREPLY < <(compgen -W '--last' -- "$word") ;;
    'run --last '[0-9]*) mapfile -t COMPREPLY < <(compgen -W '--trace' -- "$word") ;;
    *'<') mapfile -t COMPREPLY < <(compgen -f -X '!*.toml' -- "$word" && compgen -d -- "$word") ;;
    esac
}
complete -o default -F _guards guards ./guards
