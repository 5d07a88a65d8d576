# Completion of fdstudy for bash (docs/study.md). bench/completions.py compares it with the program's help.
_fdstudy() {
    local word=${COMP_WORDS[COMP_CWORD]} before=${COMP_WORDS[COMP_CWORD - 1]} options front
    local columns='
        pairs layer runs limited entries sent lost pair_ticks mistakes mistake_ticks mistake_recurrence mistaken_ppm
        mistakes_squared_sum runs_with_mistakes mistakes_error recurrence_sum recurrence_count duration_sum
        duration_count duration_p99 duration_max good_sum good_count detections undetected at_once detection_sum
        detection_p50 detection_p90 detection_p99 detection_max detection_bound strong_completeness
        weak_completeness strong_accuracy weak_accuracy eventual_strong_accuracy eventual_weak_accuracy to_decide
        decided decision_tick_sum decision_tick_max all_decided last_decision_p50 last_decision_p90
        last_decision_p99 last_decision_max rounds_p50 rounds_p99 rounds_max disagreements mistake_run
        detection_max_run disagreement_run'
    local path='--network --set --help'
    local grid="--seeds --vary --over --deal $path"
    local study="--shard --threads --columns --each --pairs $grid"
    COMPREPLY=()
    if [ "$COMP_CWORD" -eq 1 ]; then
        mapfile -t COMPREPLY < <(compgen -W 'check letters draw show sweep help --help --version' -- "$word")
        return
    fi
    case $before in
        --as)
            mapfile -t COMPREPLY < <(compgen -W 'suspicions letters' -- "$word")
            return
            ;;
        --each)
            mapfile -t COMPREPLY < <(compgen -W 'point run' -- "$word")
            return
            ;;
        --columns)
            # several names, with a comma between two
            front=${word%"${word##*,}"}
            mapfile -t COMPREPLY < <(compgen -P "$front" -W "$columns" -- "${word##*,}")
            compopt -o nospace 2>/dev/null
            return
            ;;
        --seeds | --vary | --over | --deal | --set | --shard | --threads | --pairs | --point | --run | --from | --until | --of)
            return
            ;;
    esac
    case ${COMP_WORDS[1]} in
        check | sweep) options=$study ;;
        show) options="--point --run $grid" ;;
        draw) options="--as --from --until --of $path" ;;
        letters) options=$path ;;
        help)
            mapfile -t COMPREPLY < <(compgen -W 'check letters draw show sweep' -- "$word")
            return
            ;;
        *) return ;;
    esac
    case $word in
        -*) mapfile -t COMPREPLY < <(compgen -W "$options" -- "$word") ;;
        *) mapfile -t COMPREPLY < <(compgen -f -- "$word") ;;
    esac
}
complete -o filenames -F _fdstudy fdstudy
