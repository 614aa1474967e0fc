#!/usr/bin/env bash
# An array of runs on a cluster with Slurm, a seed a task:
#   sbatch --array=1-1000 bin/ensemble.slurm FILE [FOLDER]
# runs FILE with the task's number as its seed in FOLDER/SEED (FILE.runs/SEED where no folder is given). Install the program first
# (bin/install ~/bin) where the nodes have no Rattle kit; SMOL names it then, by its whole path.
#SBATCH --job-name=smol
#SBATCH --ntasks=1
#SBATCH --cpus-per-task=1
set -eu +f
[ $# = 1 ] || [ $# = 2 ] || { echo "usage: sbatch --array=FROM-TO bin/ensemble.slurm FILE [FOLDER]" >&2 && exit 1; }
file=$(readlink -m -- "$1" && echo x) # the line feeds at a name's end stay
file=${file%$'\nx'}
seed=${SLURM_ARRAY_TASK_ID:?run it by sbatch --array}
folder=${2-$1.runs}/$seed
mkdir -p -- "$folder"
cd -- "$folder"
trap '' XFSZ # a file that may not grow is a failed write then, and no signal
exec "${SMOL:-smol}" "$file" --seed "$seed" >stdout 2>stderr
