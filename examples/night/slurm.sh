#!/bin/sh
#SBATCH --job-name=night
#SBATCH --ntasks=1
#SBATCH --mem=256M
#SBATCH --time=00:30:00
#SBATCH --requeue
# A night as an array job of Slurm, one part a task. PARTS is on a file system that all nodes see:
#
#     count=$(sh names.sh BOOKS PARTS)
#     night=$(sbatch --parsable --array=0-$((count - 1)) slurm.sh PARTS)
#     sbatch --dependency=afterok:$night --wrap 'mixegorta books --join PARTS/names.*.json'
#
# A task that is lost is queued again by Slurm and finds nothing of its own, since a part's report is there whole or not at all.
set -eu
exec sh "${NIGHT:-$(dirname "$0")}/part.sh" "$1/names.$(printf %06d "$SLURM_ARRAY_TASK_ID")"
