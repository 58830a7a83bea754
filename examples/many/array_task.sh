#!/bin/sh
# array_task.sh TODO COUNT: a task of a job array, in the folder that the nodes share: does COUNT jobs, one after the other, and ends with 1 where
# one failed. Those of task 1 are the first lines of TODO, those of task 2 the next ones, and so on.
last=$((SLURM_ARRAY_TASK_ID * $2))
sed -n "$((last - $2 + 1)),${last}p" "$1" | {
    failed=0
    while IFS=$(printf '\t') read -r id words; do
        sh one.sh . ./mat_main "$id" "$words" || failed=1
    done
    exit "$failed"
}
