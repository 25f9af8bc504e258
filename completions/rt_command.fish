# Completion of rt_command for fish: put this file into ~/.config/fish/completions.

# Whether the word before the cursor is one of these options, so that its value comes.
function __rt_command_value_of
    contains -- (commandline -opc)[-1] $argv
end
# Whether this command may take one of these options here: no file and none of them stands before.
function __rt_command_takes
    set -l words (commandline -opc)
    test (count $words) -ge 2; and test $words[2] = $argv[1]; or return 1
    test (math (count $words) % 2) -eq 0; or return 1
    test (count $words) -eq 2; and return 0
    for i in (seq 3 2 (count $words))
        string match -q -- '--*' $words[$i]; or return 1
        contains -- $words[$i] $argv[2..]; and return 1
    end
    return 0
end
function __rt_command_folder
    __fish_complete_directories (commandline -ct)
end

complete -c rt_command -n '__rt_command_value_of --timetable' -f -k -a '(__rt_command_folder)'
complete -c rt_command -n '__rt_command_value_of --now --zone-rule --agency --route --trip --stop' -f
complete -c rt_command -n __fish_use_subcommand -f

complete -c rt_command -n __fish_use_subcommand -a check -d 'judge snapshots'
complete -c rt_command -n '__rt_command_takes check --timetable' -a --timetable -d 'folder of the timetable'
complete -c rt_command -n '__rt_command_takes check --now' -a --now -d 'moment in seconds since 1970'

complete -c rt_command -n __fish_use_subcommand -a follow -d 'follow feeds through a list of snapshots'
complete -c rt_command -n '__rt_command_takes follow --timetable' -a --timetable -d 'folder of the timetable'
complete -c rt_command -n '__rt_command_takes follow --list' -a --list -d 'rows of feed, moment and path'

complete -c rt_command -n __fish_use_subcommand -a predict -d 'predict the stop times of a snapshot'
complete -c rt_command -n '__rt_command_takes predict --timetable' -a --timetable -d 'folder of the timetable'
complete -c rt_command -n '__rt_command_takes predict --zone-rule --zone-file' -a --zone-rule -d 'zone as a rule of POSIX'
complete -c rt_command -n '__rt_command_takes predict --zone-rule --zone-file' -a --zone-file -d 'zone as a compiled file'
complete -c rt_command -n '__rt_command_takes predict --now' -a --now -d 'moment in seconds since 1970'

complete -c rt_command -n __fish_use_subcommand -a show -d 'write a snapshot as JSON'

complete -c rt_command -n __fish_use_subcommand -a encode -d 'write the snapshot that JSON says'

complete -c rt_command -n __fish_use_subcommand -a merge -d 'write several snapshots as one'

complete -c rt_command -n __fish_use_subcommand -a trial -d 'follow two feeds made from a number'
complete -c rt_command -n '__fish_seen_subcommand_from trial' -f

complete -c rt_command -n __fish_use_subcommand -a verify -d 'judge a report by itself'

complete -c rt_command -n __fish_use_subcommand -a alerts -d 'tell which alerts are in force'
complete -c rt_command -n '__rt_command_takes alerts --now' -a --now -d 'moment in seconds since 1970'
complete -c rt_command -n '__rt_command_takes alerts --agency --route --trip --stop' -a --agency -d 'agency that they concern'
complete -c rt_command -n '__rt_command_takes alerts --agency --route --trip --stop' -a --route -d 'route that they concern'
complete -c rt_command -n '__rt_command_takes alerts --agency --route --trip --stop' -a --trip -d 'trip that they concern'
complete -c rt_command -n '__rt_command_takes alerts --agency --route --trip --stop' -a --stop -d 'stop that they concern'
