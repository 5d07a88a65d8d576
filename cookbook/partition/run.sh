#!/bin/sh
# Runs a partition that heals after 60, 170 and 1000 ms, prints who decided what, and when, and draws suspicions.svg (1000 ms)
# and letters.svg (170 ms).
set -eu
cd "$(dirname "$0")"
mkdir -p out
for end in 60 170 1000; do
    ../../fdstudy show cluster.toml --seeds 1 --vary "outage[*].until=$end" --point 1 > "out/until_$end.toml"
    ../../fdbench list "out/until_$end.toml" --print trace > "out/trace_$end.csv"
    echo "healed at $end ms: tick,process,note"
    awk -F, '{ n = split($8, notes, " "); for (i = 1; i <= n; i++) if (notes[i] ~ /^decided/) print $1 "," $2 "," notes[i] }' \
        "out/trace_$end.csv"
done
../../fdstudy draw out/until_1000.toml --as suspicions > out/suspicions.svg
../../fdstudy draw out/until_170.toml --as letters --from 145 --until 195 > out/letters.svg
# the pictures take their places once all are drawn
mv out/suspicions.svg out/letters.svg .
