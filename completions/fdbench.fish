# Completion of fdbench for fish (docs/program.md). bench/completions.py compares it with the program's help.
complete -c fdbench -f
complete -c fdbench -n __fish_use_subcommand -a check -d 'print ok where a scenario file is accepted'
complete -c fdbench -n __fish_use_subcommand -a list -d 'run a scenario by one global event list'
complete -c fdbench -n __fish_use_subcommand -a run -d 'run a scenario by windows that workers share'
complete -c fdbench -n __fish_use_subcommand -a compare -d 'run a scenario both ways and print same or different'
complete -c fdbench -n __fish_use_subcommand -a help -d 'print a help text'
complete -c fdbench -n '__fish_seen_subcommand_from help' -a 'check list run compare'
complete -c fdbench -n '__fish_seen_subcommand_from check list run compare' -F
complete -c fdbench -l help -s h -d 'print a help text'
complete -c fdbench -n '__fish_seen_subcommand_from list run' -l print -x -a 'trace report both' -d 'what is printed'
complete -c fdbench -n '__fish_seen_subcommand_from run compare' -l workers -x -d 'how many workers share each window, 1 to 64'
complete -c fdbench -n '__fish_seen_subcommand_from run compare' -l window -x -d 'how many ticks a window has'
