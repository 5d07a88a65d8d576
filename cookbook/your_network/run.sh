#!/bin/sh
# Says how large the study is, runs time-outs over the network, runs the settings that were chosen for 30 hours of it, and
# draws what a cut does, cut.svg.
set -eu
cd "$(dirname "$0")/../.."
files="cookbook/your_network/cluster.toml --network cookbook/your_network/cluster.network.toml"
study="--seeds 1..=20 --vary detector.timeout=200,300,550,1000,1700,4300 --deal crash[1].at=590000..=590090:10"
pairs="--pairs 1..=4:1..=4+5..=7:5..=7 --pairs 1..=4:5..=7+5..=7:1..=4"
found=runs,runs_with_mistakes,mistakes,detection_p50,detection_p99,detection_max
set -f
mkdir -p cookbook/your_network/out
./fdstudy check $files $study --threads 4
./fdstudy sweep $files $study $pairs --columns pairs,detector.timeout,$found
./fdstudy sweep $files --seeds 1001..=1180 --vary detector.period,detector.timeout=100:550,500:5100 \
    --deal crash[1].at=590000..=590495:55 $pairs --columns pairs,detector.period,detector.timeout,$found
./fdstudy show $files $study --point 4 --run 2 |
    ./fdstudy draw - --as suspicions --from 401500 --until 404000 > cookbook/your_network/out/cut.svg
mv cookbook/your_network/out/cut.svg cookbook/your_network/cut.svg
