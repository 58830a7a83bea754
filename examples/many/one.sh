#!/bin/sh
# one.sh RUN PROGRAM ID WORDS: does one job of the folder RUN, here or, where the variable MANY_HOST names one, on that host.
#
# The description RUN/in/ID goes to the standard input of the program; what it writes becomes RUN/out/ID.cert, by rename and only where the
# program ends with 0; the status, the host and the note become RUN/out/ID.status. A host sees a command line and a stream of bytes, and gives one:
# it is told no name of a file, and names none. The script ends with the status of the program.
set -u
run=$1 program=$2 id=$3 words=$4
# A folder whose name begins with `-` is no option.
case $run in -*) run=./$run ;; esac
host=${MANY_HOST:-}

part=$(mktemp "$run/out/$id.part.XXXXXX") && note=$(mktemp "$run/out/$id.part.XXXXXX") || exit 71
trap 'rm -f "$part" "$note"' EXIT
trap 'exit 143' HUP INT TERM

# WORDS are from the list, a command and at most a number. No file grows beyond a certificate's 64 MB: `ulimit -f` counts pieces of 512 bytes.
(
    [ -z "$host" ] || exec sh "$(dirname -- "$0")/by_ssh.sh" "$host" "exec matbench-many/mat_main $words -"
    ulimit -f 131073
    # shellcheck disable=SC2086
    exec "$program" $words -
) <"$run/in/$id" >"$part" 2>"$note"
status=$?

[ "$status" -eq 0 ] && mv -f "$part" "$run/out/$id.cert"
said=$(tr -cd '\040-\176' <"$note" | head -c 200)
printf '%s\n' "$status on ${host:-${SLURMD_NODENAME:-this machine}}${said:+: $said}" >"$note" && mv -f "$note" "$run/out/$id.status"
exit "$status"
