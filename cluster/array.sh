#!/bin/sh
#SBATCH --array=0-6
# sbatch array.sh RUNS
# sbatch array.sh LINES DIR PROG WORD..
# Each task of a Slurm array runs its part of the commands of the file RUNS, as `coz-study plan` prints them; or
# makes one shard of a profile of the file LINES, with as many workers as it has processors. A task has one
# processor, or as many as --cpus-per-task says. coz-shard is that of cluster/ in the folder in which you submit, or
# else the installed one.
set -eu
case ${1:-} in -h | --help) sed -n '2,/^[^#]/{/^#SBATCH/d;s/^# \{0,1\}//p}' "$0"; exit 0 ;; esac
task=$SLURM_ARRAY_TASK_ID tasks=$SLURM_ARRAY_TASK_COUNT
if [ $# = 1 ]; then
    # When this shell ends, Slurm kills what is left of the task. So if the task is cancelled, both shells wait for
    # the command, which removes what is half.
    trap 'exit 143' TERM
    runs=$(awk -v i="$task" -v n="$tasks" 'NR % n == (i + 1) % n' "$1")
    printf '%s\n' "trap 'exit 143' TERM" "$runs" | sh -e
    exit
fi
lines=$1 dir=$2 prog=$3; shift 3
shard=cluster/coz-shard
[ -x "$shard" ] || shard=coz-shard
exec "$shard" "$task" "$tasks" "$lines" "$dir" "$prog" --workers "${SLURM_CPUS_ON_NODE:-1}" "$@"
