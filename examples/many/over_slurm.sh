#!/bin/sh
# over_slurm.sh RUN SHARED [COUNT]: does the jobs of RUN/todo by Slurm, in job arrays of at most 1,000 tasks with COUNT jobs each (else one). It ends
# with 0 where none failed.
#
# SHARED is a folder that this machine and all nodes have. A new folder in it gets what the nodes need: the program, one.sh, the jobs and the
# descriptions. What the nodes leave in its folder out is taken over with care, since each of them can write anything there, and the folder is
# removed; so too where this script is ended early, which cancels the array. RUN itself should be where no node can write. Of the environment the
# tasks get PATH alone. Options of sbatch, such as a partition, are set by its variables (SBATCH_PARTITION).
set -u
here=$(CDPATH='' cd -- "$(dirname -- "$0")" && pwd)
[ "$#" -ge 2 ] || { sed -n '2,8s/^# \{0,1\}//p' "$0" >&2; exit 64; }
run=$1 count=${3:-1} waiting='' failed=0
# A folder whose name begins with `-` is no option.
case $run in -*) run=./$run ;; esac
program=${MATBENCH:-$here/../../crates/mat_main/out/mat_main}
case $count in
0* | *[!0-9]*) echo "over_slurm.sh: COUNT is a number from 1" >&2; exit 64 ;;
esac
all=$(wc -l <"$run/todo") || exit 66
[ "$all" -gt 0 ] || exit 0

# shellcheck disable=SC2317 # `trap` calls it.
# Ends sbatch, so that it hands in no array from then on, and cancels by the name, which no other array has: sbatch may have told no id yet.
cancel() {
    kill "${!:-}" 2>/dev/null
    wait
    scancel -n "$name"
}

# shellcheck disable=SC2317 # `trap` calls it.
finish() {
    [ -z "$waiting" ] || cancel
    python3 "$here/jobs.py" take "$run" "$share"
    rm -rf "$share"
}

shared=$(CDPATH='' cd -- "$2" && pwd) || exit 71
share=$(mktemp -d "$shared/matbench.XXXXXX") || exit 71
name=${share##*/}
trap finish EXIT
trap 'exit 143' HUP INT TERM

mkdir "$share/in" "$share/out" && cp "$program" "$share/mat_main" && cp "$here/one.sh" "$share" || exit 71
cut -f 1 "$run/todo" | (cd "$run/in" && xargs cp -t "$share/in" --) || exit 71
split -l "$((1000 * count))" "$run/todo" "$share/todo." || exit 71

for todo in "$share"/todo.*; do
    waiting=yes
    sbatch --wait --quiet --job-name="$name" --output=/dev/null --export=PATH --ntasks=1 --cpus-per-task=1 \
        --chdir="$share" --array="1-$((($(wc -l <"$todo") + count - 1) / count))" "$here/array_task.sh" "$todo" "$count" &
    wait "$!" || failed=1
    waiting=''
done
exit "$failed"
