# Completion of rt_command for bash: source this file, or put it into /usr/share/bash-completion/completions/rt_command.

# Of each command: how many files it takes, and its options.
declare -gA _rt_command_takes=(
    [check]='16 --timetable --now'
    [follow]='0 --timetable --list'
    [predict]='1 --timetable --zone-rule --zone-file --now'
    [show]='1'
    [encode]='1'
    [merge]='16'
    [trial]='0'
    [verify]='1'
    [alerts]='16 --now --agency --route --trip --stop'
)

_rt_command() {
    local word=${COMP_WORDS[COMP_CWORD]} previous=${COMP_WORDS[COMP_CWORD - 1]}
    COMPREPLY=()
    if ((COMP_CWORD == 1)); then
        mapfile -t COMPREPLY < <(compgen -W "${!_rt_command_takes[*]}" -- "$word")
        return
    fi
    [[ -v _rt_command_takes[${COMP_WORDS[1]}] ]] || return
    local takes files=0 used=' ' i=2
    read -ra takes <<< "${_rt_command_takes[${COMP_WORDS[1]}]}"
    while ((i < COMP_CWORD)); do
        case ${COMP_WORDS[i]} in
            --zone-*) used+='--zone-rule --zone-file ' i=$((i + 2)) ;;
            --agency | --route | --trip | --stop) used+='--agency --route --trip --stop ' i=$((i + 2)) ;;
            --*) used+="${COMP_WORDS[i]} " i=$((i + 2)) ;;
            *) files=$((files + 1)) i=$((i + 1)) ;;
        esac
    done
    if ((i > COMP_CWORD)); then
        case $previous in
            --timetable) mapfile -t COMPREPLY < <(compgen -d -- "$word") ;;
            --list | --zone-file) mapfile -t COMPREPLY < <(compgen -f -- "$word") ;;
        esac
        return
    fi
    # Options stand before the files, each at most once.
    local option options=()
    for option in "${takes[@]:1}"; do
        ((files == 0)) && [[ $used != *" $option "* ]] && options+=("$option")
    done
    mapfile -t COMPREPLY < <(
        compgen -W "${options[*]}" -- "$word"
        ((files < takes[0])) && compgen -f -- "$word"
    )
}

complete -o filenames -F _rt_command rt_command
