# Completion of rt_summary for bash: source this file, or put it into /usr/share/bash-completion/completions/rt_summary.

_rt_summary() {
    local word=${COMP_WORDS[COMP_CWORD]} previous=${COMP_WORDS[COMP_CWORD - 1]}
    COMPREPLY=()
    case $previous in
        --fail-on) mapfile -t COMPREPLY < <(compgen -W 'error warning never' -- "$word") ;;
        --ignore) ;;
        *)
            case $word in
                --*) mapfile -t COMPREPLY < <(compgen -W '--fail-on --files --help --ignore --ignore-file --json --list --version' -- "$word") ;;
                *) mapfile -t COMPREPLY < <(compgen -f -- "$word") ;;
            esac ;;
    esac
}

complete -o filenames -F _rt_summary rt_summary
