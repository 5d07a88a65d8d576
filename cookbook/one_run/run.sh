#!/bin/sh
# Draws one run, suspicions.svg and letters.svg, and writes its texts: out/trace.csv, out/report.csv and out/letters.csv.
set -eu
cd "$(dirname "$0")"
mkdir -p out
../../fdstudy draw cluster.toml --as suspicions > out/suspicions.svg
../../fdstudy draw cluster.toml --as letters > out/letters.svg
# the pictures take their places once all are drawn
mv out/suspicions.svg out/letters.svg .
../../fdbench list cluster.toml --print trace > out/trace.csv
../../fdbench list cluster.toml --print report > out/report.csv
../../fdstudy letters cluster.toml > out/letters.csv
grep -E 'tick|round|decided|suspect|trust' out/trace.csv
