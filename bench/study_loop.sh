#!/bin/sh
# study_loop.sh PROGRAM SCENARIO FIRST STEP LAST SEEDS AT_ONCE: sums over seeds of the reports of many time-outs, one run a
# process: what one writes without fdstudy. bench/study.py times it.
set -eu
program=$1 scenario=$2 first=$3 step=$4 last=$5 seeds=$6 at_once=$7
out=$(mktemp -d)
trap 'rm -rf "$out"' EXIT
export program scenario seeds out
one_time_out='
for seed in $(seq 1 "$seeds"); do
    sed -e "s/^timeout = .*/timeout = $0/" -e "s/^seed = .*/seed = $seed/" "$scenario" | "$program" list -
done | awk -F, -v timeout="$0" "
    \$1 == \"run\" && \$5 == \"entries\" { entries += \$6 }
    \$5 == \"mistakes\" { mistakes += \$6 }
    \$5 == \"mistake_ticks\" { ticks += \$6 }
    \$5 == \"detection\" && \$6 ~ /^[0-9]+\$/ { sum += \$6 }
    END { printf \"%d,%d,%d,%d,%d\\n\", timeout, entries, mistakes, ticks, sum }" > "$out/$0"'
seq "$first" "$step" "$last" | xargs -P "$at_once" -n 1 sh -c "$one_time_out"
echo timeout,entries,mistakes,mistake_ticks,detection_sum
for time_out in $(seq "$first" "$step" "$last"); do cat "$out/$time_out"; done
