# Completion of relay's command line for bash: source it, or copy it to /etc/bash_completion.d/relay.
_relay() {
    local word=${COMP_WORDS[COMP_CWORD]} commands='serve edge check-config stats stop push pull remux check segment hls replay drill soak loop'
    COMPREPLY=()
    case $COMP_CWORD,${COMP_WORDS[1]-} in
    1,*) mapfile -t COMPREPLY < <(compgen -W "$commands help --help --version" -- "$word") ;;
    2,help) mapfile -t COMPREPLY < <(compgen -W "$commands exit-codes" -- "$word") ;;
    2,serve | 2,edge | 2,check-config | 2,stats | 2,stop) mapfile -t COMPREPLY < <(compgen -f -- "$word") ;;
    3,stats) mapfile -t COMPREPLY < <(compgen -W --json -- "$word") ;;
    2,push) mapfile -t COMPREPLY < <(compgen -W '--pace --help' -- "$word") ;;
    *,pull) mapfile -t COMPREPLY < <(compgen -W '--for --from-zero --help' -- "$word") ;;
    2,*) mapfile -t COMPREPLY < <(compgen -W --help -- "$word") ;;
    esac
}
complete -o filenames -o bashdefault -F _relay relay
