#!/bin/sh
# Runs both detectors under many settings, writes out/time_outs.csv and out/freshness.csv, and draws freshness.svg. Wants
# gnuplot.
set -eu
cd "$(dirname "$0")"
mkdir -p out
../../fdstudy sweep time_outs.toml --seeds 1..=500 --vary detector.timeout=60..=360:20 \
    --deal 'crash[1].at=90000..=90090:10' > out/time_outs.csv
../../fdstudy sweep freshness.toml --seeds 1..=500 --vary detector.delta=20..=300:20 \
    --deal 'crash[1].at=90000..=90090:10' > out/freshness.csv
gnuplot picture.gp > out/freshness.svg
# the pictures take their places once all are drawn
mv out/freshness.svg .
