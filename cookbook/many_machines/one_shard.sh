#!/bin/sh
# one_shard.sh K N: the K-th of N shards of the study, on one thread.
set -eu
cd "$(dirname "$0")"
exec ../../fdstudy sweep ../choose_a_time_out/cluster_5.toml --seeds 1..=200 --vary detector.period=50,100,200 \
    --vary detector.timeout=60..=620:40 --deal 'crash[1].at=10000..=10180:20' \
    --columns detector.period,detector.timeout,detections,detection_sum --shard "$1/$2" --threads 1
