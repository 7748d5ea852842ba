# Completions of callboard for bash.
_callboard() {
    local word=${COMP_WORDS[COMP_CWORD]} before=${COMP_WORDS[COMP_CWORD - 1]}
    COMPREPLY=()
    case $before in
        --print)
            mapfile -t COMPREPLY < <(compgen -W 'lines journal trades book' -- "$word")
            return
            ;;
        --sync)
            mapfile -t COMPREPLY < <(compgen -W 'none' -- "$word")
            return
            ;;
        --journal)
            mapfile -t COMPREPLY < <(compgen -f -- "$word")
            return
            ;;
        --low | --high | --reference | --open | --calls | --range | --members | --reserve)
            return
            ;;
    esac
    if [[ $word == -* ]]; then
        mapfile -t COMPREPLY < <(compgen -W '--low --high --reference --open --calls --range --members
            --floor --history --print --audit --results --live --reserve --journal --sync --help --version' -- "$word")
    fi
}
complete -F _callboard callboard
