#!/bin/sh
# Runs consensus under many time-outs and losses, writes out/consensus.csv, and draws decision.svg, rounds.svg and
# decided.svg. Wants gnuplot.
set -eu
cd "$(dirname "$0")"
mkdir -p out
../../fdstudy sweep cluster.toml --seeds 1..=500 --vary link.loss=0,5,20,50 --vary detector.timeout=10..=200:10 \
    > out/consensus.csv
gnuplot -e "what = 'decision'" picture.gp > out/decision.svg
gnuplot -e "what = 'rounds'" picture.gp > out/rounds.svg
gnuplot -e "what = 'decided'" picture.gp > out/decided.svg
# the pictures take their places once all are drawn
mv out/decision.svg out/rounds.svg out/decided.svg .
