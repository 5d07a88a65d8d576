#!/bin/sh
# A Slurm job array: each task makes one shard. In this folder, which all nodes share: sbatch --array=1-64 job.sbatch STUDY
#SBATCH --job-name=suite
#SBATCH --cpus-per-task=1
#SBATCH --time=00:30:00
#SBATCH --output=out/task_%a.log
set -eu
mkdir -p out
python3 suite.py shard "$1" "$SLURM_ARRAY_TASK_ID/64" > "out/$1_$SLURM_ARRAY_TASK_ID.csv"
