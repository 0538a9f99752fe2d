#!/bin/sh
# The same campaign as an array of jobs, one for each tick of a fault. Submit it
# from this folder, behind `make prepare`.
#SBATCH --job-name=campaign
#SBATCH --array=350-549
#SBATCH --ntasks=1
#SBATCH --time=00:01:00
exec make "out/$SLURM_ARRAY_TASK_ID.verdict"
