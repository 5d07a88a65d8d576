#!/bin/sh
# Writes the texts of a run and of a study to out/, loads them into out/run.db, asks three questions by SQL, makes a table
# of rates by Python, and draws rates.svg. Wants sqlite3, python3 and gnuplot.
set -eu
cd "$(dirname "$0")"
mkdir -p out
../../fdbench list cluster.toml --print trace > out/trace.csv
../../fdbench list cluster.toml --print report > out/report.csv
../../fdstudy letters cluster.toml > out/letters.csv
../../fdstudy sweep cluster.toml --seeds 1..=100 --vary detector.period=25,50,100 --vary detector.timeout=70..=370:50 \
    --deal 'crash[1].at=15000..=15080:20' > out/study.csv
rm -f out/run.db
sqlite3 out/run.db < load.sql
sqlite3 out/run.db < questions.sql
python3 rates.py out/study.csv
gnuplot picture.gp > out/rates.svg
# the pictures take their places once all are drawn
mv out/rates.svg .
