#!/bin/sh
# Runs both clusters under many periods and time-outs, writes out/cluster_5.csv and out/cluster_50.csv, and draws
# cluster_5.svg and cluster_50.svg. Wants gnuplot.
set -eu
cd "$(dirname "$0")"
mkdir -p out
../../fdstudy sweep cluster_5.toml --seeds 1..=1000 --vary detector.period=50,100,200 \
    --vary detector.timeout=60..=620:40 --deal 'crash[1].at=10000..=10180:20' > out/cluster_5.csv
../../fdstudy sweep cluster_50.toml --seeds 1..=500 --vary detector.period=50,100,200 \
    --vary detector.timeout=140..=620:120 --deal 'crash[1].at=2500..=2660:40' > out/cluster_50.csv
gnuplot -e "processes = 5" picture.gp > out/cluster_5.svg
gnuplot -e "processes = 50" picture.gp > out/cluster_50.svg
# the pictures take their places once all are drawn
mv out/cluster_5.svg out/cluster_50.svg .
