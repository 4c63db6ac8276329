#!/bin/sh
# A list of days as an array job, a task for each line:
#   sbatch --array="1-$(grep -c '' LIST)" examples/cluster/days.slurm LIST
# DESK names the command where it is not on the PATH (tools/desk of a checkout).
#SBATCH --job-name=days
#SBATCH --ntasks=1
#SBATCH --cpus-per-task=1
#SBATCH --mem=1G
#SBATCH --time=02:00:00
#SBATCH --output=days.%A_%a.log
exec "${DESK:-desk}" days "$1" --line "$SLURM_ARRAY_TASK_ID"
