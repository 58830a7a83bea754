#!/bin/sh
# over_parallel.sh RUN HOSTS: does the jobs of RUN/todo by GNU parallel on the hosts of a file. It ends with 0 where all ran and none failed.
#
# A line of HOSTS is `:`, which is this machine, or a host as ssh takes it, such as user@host; with `3/` in front three jobs at a time run there,
# else as many as it has processors, on another host at most 99. A host needs ssh, sh and the C library of the program, which is sent to it once, into the folder
# matbench-many. One that does not answer is left out; a job that fails is tried on another host, three times in all. MANY_SSH names another
# command than ssh, such as 'ssh -F FILE'.
set -u
here=$(CDPATH='' cd -- "$(dirname -- "$0")" && pwd)
[ "$#" -eq 2 ] || { sed -n '2,7s/^# \{0,1\}//p' "$0" >&2; exit 64; }
run=$1 hosts=$2
# A folder whose name begins with `-` is no option.
case $run in -*) run=./$run ;; esac
program=${MATBENCH:-$here/../../crates/mat_main/out/mat_main}

# Sends the program to a host, starts it there, and prints how many processors the host says it has.
send() {
    sh "$here/by_ssh.sh" "$1" 'mkdir -p matbench-many && cd matbench-many && cat >new.$$ &&
        chmod 755 new.$$ && mv -f new.$$ mat_main && ./mat_main --version >/dev/null && nproc' <"$program" 2>"$run/hosts.note" | head -c 20
}

all=$(wc -l <"$run/todo") || exit 66
[ "$all" -gt 0 ] || { echo "0 jobs ran, 0 failed"; exit 0; }
parallel --version 2>/dev/null | grep -q '^GNU parallel' ||
    { echo "over_parallel.sh: GNU parallel is missing; on Debian: apt-get install parallel" >&2; exit 69; }
: >"$run/hosts"
while read -r line || [ -n "$line" ]; do
    case $line in
    '' | '#'*) continue ;;
    : | */:) echo "$line" >>"$run/hosts"; continue ;;
    esac
    host=${line#*/}
    jobs=$(send "$host")
    case $jobs in
    '' | 0* | *[!0-9]*)
        printf '%s\n' "over_parallel.sh: $host: left out: $(tr -cd '\040-\176' <"$run/hosts.note" | head -c 200)" >&2
        continue ;;
    ???*) jobs=99 ;;
    esac
    case $line in
    */*) jobs=${line%%/*} ;;
    esac
    echo "$jobs/$host" >>"$run/hosts"
done <"$hosts"
[ -s "$run/hosts" ] || { echo "over_parallel.sh: no host is left" >&2; exit 69; }

: >"$run/log"
parallel --plain --quote --sshloginfile "$run/hosts" --ssh "$here/on_host.sh" --retries 3 --joblog "$run/log" --colsep '\t' \
    sh "$here/one.sh" "$run" "$program" '{1}' '{2}' :::: "$run/todo"
status=$?
ran=$(sed 1d "$run/log" | wc -l)
failed=$(awk -F '\t' 'NR > 1 && ($7 != 0 || $8 != 0)' "$run/log" | wc -l)
[ "$ran" -eq "$all" ] || echo "over_parallel.sh: GNU parallel ended with $status before all $all jobs had run" >&2
echo "$ran jobs ran, $failed failed"
[ "$ran" -eq "$all" ] && [ "$failed" -eq 0 ]
