#!/bin/sh
# A Slurm job array: each task runs one shard. sbatch --array=1-8 job.sbatch, in this folder, which all nodes share.
#SBATCH --job-name=fdstudy
#SBATCH --cpus-per-task=1
#SBATCH --time=00:10:00
#SBATCH --output=out/task_%a.log
set -eu
mkdir -p out
./one_shard.sh "$SLURM_ARRAY_TASK_ID" 8 > "out/shard_$SLURM_ARRAY_TASK_ID.csv"
