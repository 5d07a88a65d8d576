#!/bin/sh
# Runs freshness points under 20 settings, and freshness points and time-outs with the same letters, writes out/*.csv,
# settings.csv and bounds.csv, prints the page's tables, and draws theory.svg and comparison.svg. Wants python3 and
# gnuplot.
set -eu
cd "$(dirname "$0")"
mkdir -p out

# the 20 settings
../../fdstudy sweep freshness.toml --seeds 1..=50 --vary processes=2 --vary horizon=100000 \
    --vary link.min=10 --vary link.max=29 \
    --vary detector.eta=4,30 --vary link.loss=0,100 --vary detector.delta=8,14,22,35 > out/two.csv
../../fdstudy sweep freshness.toml --seeds 1..=10 --vary processes=3 --vary horizon=50000 \
    --vary link.min=2 --vary link.max=4 \
    --vary detector.eta=1 --vary link.loss=0,300 --vary detector.delta=1,3 > out/three.csv

# both detectors with the same letters; as the time-outs that are short grow fast, their runs are short
../../fdstudy sweep freshness.toml --seeds 1..=160 --vary processes=16 --vary horizon=100000 \
    --vary 'crash[1].at=90001' --vary link.min=100 --vary link.max=400 --vary link.loss=10 \
    --vary detector.eta=1000 --vary detector.delta=100..=2500:100 > out/points.csv
../../fdstudy sweep time_outs.toml --seeds 1..=160 --vary horizon=20000 --vary 'crash[1].at=15001' \
    --vary detector.timeout=691..=1291:100 > out/short.csv
../../fdstudy sweep time_outs.toml --seeds 1..=160 --vary horizon=100000 --vary 'crash[1].at=90001' \
    --vary detector.timeout=1391..=3091:100 > out/long.csv

python3 theory.py
mv out/settings.csv out/bounds.csv .
gnuplot -e 'what = "theory"' picture.gp > out/theory.svg
gnuplot -e 'what = "comparison"' picture.gp > out/comparison.svg
# the pictures take their places once all are drawn
mv out/theory.svg out/comparison.svg .
