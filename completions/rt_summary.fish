# Completion of rt_summary for fish: put this file into ~/.config/fish/completions.

complete -c rt_summary -l json -d 'write one line of JSON'
complete -c rt_summary -l ignore -x -d 'leave out the lines of these rules'
complete -c rt_summary -l ignore-file -r -F -d 'leave out those of the rules in this file'
complete -c rt_summary -l fail-on -x -a 'error warning never' -d 'when the status is 1'
complete -c rt_summary -l list -r -F -d 'the list that follow was given'
complete -c rt_summary -l files -r -F -d 'the files that check was given'
complete -c rt_summary -l help -d 'write the words'
complete -c rt_summary -l version -d 'write the version'
