#!/bin/bash
# Runs three scenarios many times by windows, with workers and windows chosen at random, and compares each trace and report
# with that of the single event list. Prints how many runs there were and how many differed; status 1 where one did. The
# program is proved and built first, where that is needed. The number of runs of each scenario may be given.
root=$(CDPATH='' cd -- "$(dirname -- "$0")/.." && pwd) || exit 1
runs=${1:-200}
fdbench="$root/fdbench"
folder=$(mktemp -d) || exit 1
trap 'rm -r "$folder"' EXIT

differences=0

# Runs the file of the first word so often, with windows of 1 to as many ticks as the second says.
stress() {
    "$fdbench" list "$1" --print both > "$folder/listed" || exit 1
    local run workers window
    for ((run = 1; run <= runs; run++)); do
        workers=$((RANDOM % 64 + 1))
        window=$((RANDOM % $2 + 1))
        "$fdbench" run "$1" --workers "$workers" --window "$window" --print both > "$folder/run"
        if ! cmp -s "$folder/listed" "$folder/run"; then
            echo "different: $1 --workers $workers --window $window"
            differences=$((differences + 1))
        fi
    done
}

stress "$root/examples/lossy_coordinator.toml" 2
stress "$root/bench/sixty_four.toml" 4
stress "$root/bench/crowd_64.toml" 2
echo "$((3 * runs)) runs, $differences different"
[ "$differences" -eq 0 ]
