# Completion of fdstudy for fish (docs/study.md). bench/completions.py compares it with the program's help.
set -g fdstudy_columns pairs layer runs limited entries sent lost pair_ticks mistakes mistake_ticks mistake_recurrence \
    mistaken_ppm mistakes_squared_sum runs_with_mistakes mistakes_error recurrence_sum recurrence_count \
    duration_sum duration_count duration_p99 duration_max good_sum good_count detections undetected \
    at_once detection_sum detection_p50 detection_p90 detection_p99 detection_max detection_bound \
    strong_completeness weak_completeness strong_accuracy weak_accuracy eventual_strong_accuracy \
    eventual_weak_accuracy to_decide decided decision_tick_sum decision_tick_max all_decided \
    last_decision_p50 last_decision_p90 last_decision_p99 last_decision_max rounds_p50 rounds_p99 \
    rounds_max disagreements mistake_run detection_max_run disagreement_run
complete -c fdstudy -f
complete -c fdstudy -n __fish_use_subcommand -a check -d 'say where a scenario file or a study breaks a rule, or what it has'
complete -c fdstudy -n __fish_use_subcommand -a letters -d 'print a row for each letter of a run'
complete -c fdstudy -n __fish_use_subcommand -a draw -d 'draw a run as SVG'
complete -c fdstudy -n __fish_use_subcommand -a show -d 'print the scenario file of one run of a study'
complete -c fdstudy -n __fish_use_subcommand -a sweep -d 'run a study and print its table'
complete -c fdstudy -n __fish_use_subcommand -a help -d 'print a help text'
complete -c fdstudy -n '__fish_seen_subcommand_from help' -a 'check letters draw show sweep'
complete -c fdstudy -n '__fish_seen_subcommand_from check letters draw show sweep' -F
complete -c fdstudy -l help -s h -d 'print a help text'
complete -c fdstudy -n __fish_use_subcommand -l version -s V -d 'print the version'
complete -c fdstudy -n '__fish_seen_subcommand_from check letters draw show sweep' -l network -r -F -d 'a network file that is laid over the scenario'
complete -c fdstudy -n '__fish_seen_subcommand_from check letters draw show sweep' -l set -x -d 'a key with its value in all runs: KEY=VALUE'
complete -c fdstudy -n '__fish_seen_subcommand_from check show sweep' -l seeds -x -d 'the seeds of the runs: A..=B'
complete -c fdstudy -n '__fish_seen_subcommand_from check show sweep' -l vary -x -d 'a key with the values that make the points: KEY=VALUE,..'
complete -c fdstudy -n '__fish_seen_subcommand_from check show sweep' -l over -x -d 'a key with values that copy the letters of each seed: KEY=VALUE,..'
complete -c fdstudy -n '__fish_seen_subcommand_from check show sweep' -l deal -x -d 'a key with values that are dealt to the seeds in turn: KEY=VALUE,..'
complete -c fdstudy -n '__fish_seen_subcommand_from check sweep' -l shard -x -d 'only the K-th of N blocks of the points: K/N'
complete -c fdstudy -n '__fish_seen_subcommand_from check sweep' -l threads -x -d 'how many threads share the runs, 1 to 64'
complete -c fdstudy -n '__fish_seen_subcommand_from check sweep' -l columns -x -a '(__fish_append , $fdstudy_columns)' -d 'the columns that are printed'
complete -c fdstudy -n '__fish_seen_subcommand_from check sweep' -l each -x -a 'point run' -d 'what has a row'
complete -c fdstudy -n '__fish_seen_subcommand_from check sweep' -l pairs -x -d 'a group of pairs that has rows of its own: OBSERVERS:SUBJECTS'
complete -c fdstudy -n '__fish_seen_subcommand_from draw' -l as -x -a 'suspicions letters' -d 'which picture'
complete -c fdstudy -n '__fish_seen_subcommand_from draw' -l from -x -d 'the first tick that is drawn'
complete -c fdstudy -n '__fish_seen_subcommand_from draw' -l until -x -d 'the tick before which the picture ends'
complete -c fdstudy -n '__fish_seen_subcommand_from draw' -l of -x -d 'processes whose letters alone are drawn: P,Q'
complete -c fdstudy -n '__fish_seen_subcommand_from show' -l point -x -d 'which point, from 1'
complete -c fdstudy -n '__fish_seen_subcommand_from show' -l run -x -d 'which run of the point, from 1'
