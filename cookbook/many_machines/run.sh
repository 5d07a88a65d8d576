#!/bin/sh
# Runs a study as eight shards by GNU parallel, puts their outputs together, and compares them with the study in one piece.
# Draws what each shard found, shards.svg. Wants parallel and gnuplot.
set -eu
cd "$(dirname "$0")"
mkdir -p out
./one_shard.sh 1 1 > out/whole.csv
parallel --will-cite './one_shard.sh {} 8 > out/shard_{}.csv' ::: 1 2 3 4 5 6 7 8
cat out/shard_1.csv out/shard_2.csv out/shard_3.csv out/shard_4.csv \
    out/shard_5.csv out/shard_6.csv out/shard_7.csv out/shard_8.csv > out/together.csv
cmp out/whole.csv out/together.csv
gnuplot picture.gp > out/shards.svg
# the pictures take their places once all are drawn
mv out/shards.svg .
echo "the same: $(wc -l < out/whole.csv) lines"
