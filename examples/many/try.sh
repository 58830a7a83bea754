#!/bin/sh
# try.sh [FOLDER]: the scripts' own test, in a new folder that is removed if nothing was wrong, or in FOLDER.
#
# Each step says `ok` and what was tried, or what came instead. The last line is `N passed, M failed`, which counts steps. Steps that need GNU
# parallel, ssh to this machine or Slurm are left out, and told, if it is not installed: nothing is installed for the test. sshd and Slurm are
# started for the test, with a key and ports of their own, and ended by their process ids. Hosts that fail or lie are stand-ins for ssh.
set -u
here=$(CDPATH='' cd -- "$(dirname -- "$0")" && pwd)
top=$here/../..
PATH=$PATH:/usr/sbin
given=$#
folder=${1:-$(mktemp -d)}
mkdir -p "$folder" && folder=$(cd "$folder" && pwd) || exit 71
program=${MATBENCH:-$top/crates/mat_main/out/mat_main}
[ -x "$program" ] || { echo "try.sh: $program: there is no such program; ./matbench --version puts it there" >&2; exit 70; }
# Then no script builds the program of this checkout.
export MATBENCH="$program"
steps=0 wrong=0

# Whether a process runs a program of this name: runs ID NAME
runs() { [ "$(cat "/proc/$1/comm" 2>/dev/null)" = "$2" ]; }

# Ends the sshd of the test, if its id is not another program's by now.
end_sshd() {
    [ -s "$folder/sshd.pid" ] || return 0
    sshd=$(head -n 1 "$folder/sshd.pid")
    ! runs "$sshd" sshd || kill "$sshd"
}

clean_up() {
    end_sshd
    [ -d "$folder/slurm" ] && sh "$here/slurm_here.sh" stop "$folder/slurm"
    [ "$given" = 0 ] && [ "$wrong" -eq 0 ] && rm -rf "$folder"
}
trap clean_up EXIT
trap 'exit 143' HUP INT TERM

# Compares: expect WHAT WANTED GIVEN
expect() {
    steps=$((steps + 1))
    if [ "$2" = "$3" ]; then
        echo "ok: $1"
    else
        wrong=$((wrong + 1))
        printf 'WRONG: %s\n  wanted: %s\n  there is: %s\n' "$1" "$2" "$3"
    fi
}

# Waits until a folder has so many files of a name, a minute at most: wait_for COUNT FOLDER PATTERN
wait_for() {
    for _ in $(seq 600); do
        [ "$(find "$2" -name "$3" | wc -l)" -ge "$1" ] && return
        sleep 0.1
    done
}

# The addresses to which this machine listens on a port and the next one, as Linux has them: listening PORT
listening() {
    awk -v "ports=^($(printf '%04X|%04X' "$1" "$(($1 + 1))"))$" '
        $4 == "0A" { split($2, it, ":"); if (it[2] ~ ports) { found = found sep it[1]; sep = " " } } END { print found }' /proc/net/tcp /proc/net/tcp6
}

lay() { python3 "$here/jobs.py" lay "$folder/list" "$1"; }
spread() { sh "$here/over_parallel.sh" "$1" "$2" 2>&1; }
judge() { python3 "$here/jobs.py" judge "$folder/list" "$1" 4; }
last() { tail -n 1; }

# Makes a program that takes a second, that kills itself as often as there are traps, and always at `trees` where there is a file `deadly`.
make_slow_program() {
    cat >"$folder/slow" <<END
#!/bin/sh
for trap in "$folder"/trap.*; do rm "\$trap" 2>/dev/null && kill -9 \$\$; done
[ "\$1" = trees ] && [ -e "$folder/deadly" ] && kill -9 \$\$
sleep 1
exec "$program" "\$@"
END
    chmod 755 "$folder/slow"
}

# Makes a stand-in for ssh: the last two words are the host and the command, which runs here.
make_hosts() {
    cat >"$folder/ssh" <<END
#!/bin/sh
while [ "\$#" -gt 2 ]; do shift; done
mkdir -p "$folder/home" && cd "$folder/home" || exit 255
case \$1:\$2 in
endless:mkdir*) exec yes '\033[2Jnot yet' >&2 ;;
vast:mkdir*) sh -c "\$2" >/dev/null && echo 1024 ;;
*:mkdir*) exec sh -c "\$2" ;;
liar:*) sh -c "\$2" | sed 's/^rung 2 .*/&0/' ;;
dying:*) sleep 0.2; echo 'Connection closed' >&2; exit 255 ;;
cut:*) sh -c "\$2" | head -n 3 ;;
flood:*) exec yes 'certificate 1' ;;
rude:*) printf '\033[2Jgone\\\\033[2J\n' >&2; exit 7 ;;
*) exec sh -c "\$2" ;;
esac
END
    chmod 755 "$folder/ssh"
}

# Makes two programs under the name of GNU parallel: another one, and one that ends before the first job.
make_false_parallels() {
    mkdir -p "$folder/another" "$folder/idle"
    printf '#!/bin/sh\nexit 1\n' >"$folder/another/parallel"
    printf '#!/bin/sh\necho GNU parallel\n' >"$folder/idle/parallel"
    chmod 755 "$folder/another/parallel" "$folder/idle/parallel"
}

# Does the jobs one after the other, as those who have no other machine. The certificates are used further down.
try_alone() {
    lay "$folder/alone" >/dev/null
    while IFS=$(printf '\t') read -r id words; do
        sh "$here/one.sh" "$folder/alone" "$program" "$id" "$words" </dev/null
    done <"$folder/alone/todo"
    expect "one job after the other, on this machine" "20 right, 0 refused, 0 missing" "$(judge "$folder/alone" | last)"
    (cd "$folder" && lay -run >/dev/null && head -n 1 ./-run/todo | while IFS=$(printf '\t') read -r id words; do
        sh "$here/one.sh" -run "$program" "$id" "$words" </dev/null
    done)
    expect "one job of a folder whose name begins with -" "1 right, 0 refused, 19 missing" "$(judge "$folder/-run" | last)"
}

try_this_machine() {
    expect "a folder whose name begins with -" "19 jobs ran, 0 failed" "$(cd "$folder" && lay -run >/dev/null && spread -run hosts | last)"
    expect "the whole script" "20 right, 0 refused, 0 missing" "$(sh "$here/whole.sh" "$folder/whole" parallel 20 40 2>&1 | last)"
    lay "$folder/killed" >/dev/null
    touch "$folder/trap.1" "$folder/trap.2"
    expect "two jobs are killed, and tried again" "20 jobs ran, 0 failed" "$(MATBENCH=$folder/slow spread "$folder/killed" "$folder/hosts" | last)"
    expect "and all is right" "20 right, 0 refused, 0 missing" "$(judge "$folder/killed" | last)"

    lay "$folder/deadly.run" >/dev/null
    touch "$folder/deadly"
    expect "four jobs are killed whenever they are tried" "20 jobs ran, 4 failed" "$(MATBENCH=$folder/slow spread "$folder/deadly.run" "$folder/hosts" | last)"
    rm "$folder/deadly"
    expect "they are missing" "missing: graph_3: status 137 on this machine" "$(judge "$folder/deadly.run" | head -n 1)"
    expect "and no other" "16 right, 0 refused, 4 missing" "$(judge "$folder/deadly.run" | last)"
    expect "they alone are to be done" "4 to do, 16 there, 0 not sent" "$(lay "$folder/deadly.run")"
    expect "another program has the name of GNU parallel" "over_parallel.sh: GNU parallel is missing; on Debian: apt-get install parallel" \
        "$(PATH=$folder/another:$PATH spread "$folder/deadly.run" "$folder/hosts")"
    PATH=$folder/idle:$PATH sh "$here/over_parallel.sh" "$folder/deadly.run" "$folder/hosts" >"$folder/told" 2>&1
    expect "GNU parallel ends before the first job, beside the log of an earlier run" "status 1: 0 jobs ran, 0 failed" "status $?: $(last <"$folder/told")"
    expect "they are run again" "4 jobs ran, 0 failed" "$(spread "$folder/deadly.run" "$folder/hosts" | last)"
    expect "and all is right" "20 right, 0 refused, 0 missing" "$(judge "$folder/deadly.run" | last)"
}

# Kills the spreading, and begins it again.
try_killed_spreading() {
    lay "$folder/cut" >/dev/null
    MATBENCH=$folder/slow setsid sh "$here/over_parallel.sh" "$folder/cut" "$folder/hosts" >/dev/null 2>&1 &
    spreading=$!
    wait_for 2 "$folder/cut/out" '*.cert'
    kill -9 "-$spreading"
    wait "$spreading" 2>/dev/null
    touch "$folder/cut/out/pair_1.part.left"
    sleep 3
    expect "the spreading is killed; some are there" "some" "$(lay "$folder/cut" | awk '$1 > 0 && $4 > 0 { print "some" }')"
    expect "no unfinished file is left" "0" "$(find "$folder/cut/out" -name '*.part.*' | wc -l)"
    spread "$folder/cut" "$folder/hosts" >/dev/null
    expect "the others are run, and all is right" "20 right, 0 refused, 0 missing" "$(judge "$folder/cut" | last)"
}

# Hosts that lie or fail at their jobs.
try_bad_hosts() {
    printf '2/liar\n' >"$folder/hosts.liar"
    lay "$folder/liar" >/dev/null
    spread "$folder/liar" "$folder/hosts.liar" >/dev/null
    expect "certificates that are changed on the way are refused" "refused: pair_1: no weight 2 0: status 0 on liar" "$(judge "$folder/liar" | head -n 1)"
    expect "and no other" "12 right, 8 refused, 0 missing" "$(judge "$folder/liar" | last)"
    expect "they alone are to be done" "8 to do, 12 there, 0 not sent" "$(lay "$folder/liar")"
    spread "$folder/liar" "$folder/hosts" >/dev/null
    expect "and are right then" "20 right, 0 refused, 0 missing" "$(judge "$folder/liar" | last)"

    printf '2/dying\n2/good\n1/nowhere\n' >"$folder/hosts.dying"
    lay "$folder/dying" >/dev/null
    expect "a host fails at every job; another does them" "20 jobs ran, 0 failed" "$(spread "$folder/dying" "$folder/hosts.dying" | last)"
    expect "and all is right" "20 right, 0 refused, 0 missing" "$(judge "$folder/dying" | last)"

    printf '4/cut\n' >"$folder/hosts.cut"
    lay "$folder/short" >/dev/null
    spread "$folder/short" "$folder/hosts.cut" >/dev/null
    expect "certificates that are cut off are refused" "refused: pair_1: refused: certificate 7 EndsEarly line 4: status 0 on cut" "$(judge "$folder/short" | head -n 1)"
    expect "all of them" "0 right, 20 refused, 0 missing" "$(judge "$folder/short" | last)"
}

# Hosts that write what they should not, or say what they have not.
try_rude_hosts() {
    printf '4/rude\n' >"$folder/hosts.rude"
    lay "$folder/rude" >/dev/null
    spread "$folder/rude" "$folder/hosts.rude" >/dev/null
    expect "a note with signs for a terminal is shown without them" "missing: pair_1: status 7 on rude: [2Jgone\033[2J" \
        "$(judge "$folder/rude" | head -n 1)"
    expect "and none is in its file" "0" "$(tr -d '\n\040-\176' <"$folder/rude/out/pair_1.status" | wc -c)"

    head -n 1 "$folder/list" >"$folder/list.one"
    printf '1/flood\n' >"$folder/hosts.flood"
    python3 "$here/jobs.py" lay "$folder/list.one" "$folder/flood" >/dev/null
    expect "a certificate without an end is cut off" "1 jobs ran, 1 failed" "$(spread "$folder/flood" "$folder/hosts.flood" | last)"
    expect "and is missing" "0 right, 0 refused, 1 missing" "$(python3 "$here/jobs.py" judge "$folder/list.one" "$folder/flood" | last)"

    printf 'endless\n' >"$folder/hosts.endless"
    spread "$folder/flood" "$folder/hosts.endless" >"$folder/told"
    expect "a host that writes without end before any job is left out" "over_parallel.sh: no host is left" "$(last <"$folder/told")"
    expect "its note is cut off" "67109376" "$(wc -c <"$folder/flood/hosts.note")"
    expect "and is shown without signs for a terminal" "0" "$(tr -d '\n\040-\176' <"$folder/told" | wc -c)"

    printf 'vast\n' >"$folder/hosts.vast"
    spread "$folder/flood" "$folder/hosts.vast" >/dev/null
    expect "a host with 1,024 processors gets 99 jobs at a time" "99/vast" "$(cat "$folder/flood/hosts")"
    expect "and does the job" "1 right, 0 refused, 0 missing" "$(python3 "$here/jobs.py" judge "$folder/list.one" "$folder/flood" | last)"
}

# How hosts and files are named.
try_names() {
    expect "a host that looks like an option is none" "-- -V true" "$(MANY_SSH="echo" sh "$here/by_ssh.sh" -V true | sed 's/.* --/--/')"
    printf '2/first\n2/last' >"$folder/hosts.cut_off"
    lay "$folder/cut_off" >/dev/null
    spread "$folder/cut_off" "$folder/hosts.cut_off" >/dev/null
    expect "the last line of the hosts has no newline" "2/first 2/last" "$(tr '\n' ' ' <"$folder/cut_off/hosts" | sed 's/ $//')"

    odd="$folder/an odd 'name' \$(id) \"ü\" *.txt"
    cp "$folder/problems/pair_40_1.txt" "$odd"
    printf 'odd\tintersect\t%s\n' "$odd" >"$folder/list.odd"
    python3 "$here/jobs.py" lay "$folder/list.odd" "$folder/odd" >/dev/null
    spread "$folder/odd" "$folder/hosts" >/dev/null
    expect "a name with odd characters" "1 right, 0 refused, 0 missing" "$(python3 "$here/jobs.py" judge "$folder/list.odd" "$folder/odd" | last)"
}

try_lists() {
    for line in '../up\tintersect\tx' '-n\tintersect\tx' 'a\tintersect;id\tx' 'a\tintersect x' 'a\tshow\tx' 'a\tcuts\tx' 'a\ttrees 65\tx'; do
        printf '%b\n' "$line" >"$folder/list.bad"
        expect "a list with the line $line" "jobs.py: $folder/list.bad: line 1 is not ID, WORDS and FILE with a tab between them" \
            "$(python3 "$here/jobs.py" lay "$folder/list.bad" "$folder/bad" 2>&1)"
    done
    printf 'a\tbest\tx\na\tbest\ty\n' >"$folder/list.bad"
    expect "an id that stands twice" "jobs.py: $folder/list.bad: line 2: this id stood before" "$(python3 "$here/jobs.py" lay "$folder/list.bad" "$folder/bad" 2>&1)"
    printf 'matroids 1\npair x\n' >"$folder/faulty.txt"
    printf 'faulty\tintersect\t%s\n' "$folder/faulty.txt" >"$folder/list.faulty"
    expect "a faulty description is not sent" "not sent: faulty: refused: description 4 NumberSpelling line 2" \
        "$(python3 "$here/jobs.py" lay "$folder/list.faulty" "$folder/faulty" | head -n 1)"
    expect "and is missing" "missing: faulty: status 3 on this machine: refused: description 4 NumberSpelling line 2" \
        "$(python3 "$here/jobs.py" judge "$folder/list.faulty" "$folder/faulty" | head -n 1)"
}

# Writes what a node could leave in a folder that it shares.
leave_in_shared_folder() {
    lay "$folder/shared.run" >/dev/null
    mkdir -p "$folder/share/out"
    right=$folder/alone/right
    cp "$right"/*.cert "$folder/share/out"
    put pair_1 && ln -s "$right/pair_1.cert" "$folder/share/out/pair_1.cert"
    put list_2 && mkfifo "$folder/share/out/list_2.cert"
    put graph_3 && mkdir "$folder/share/out/graph_3.cert"
    put rooted_4
    put table_5 && cp "$right/table_10.cert" "$folder/share/out/table_5.cert"
    put pair_6 && : >"$folder/share/out/pair_6.cert"
    put graph_8 && "$program" trees 1 "$folder/problems/graph_40_8.txt" >"$folder/share/out/graph_8.cert"
    put pair_11 && head -c 67108865 /dev/zero >"$folder/share/out/pair_11.cert"
}

put() { rm -f "$folder/share/out/$1.cert"; }
given() { grep ": $1" "$folder/told"; }

try_shared_folder() {
    leave_in_shared_folder
    { python3 "$here/jobs.py" take "$folder/shared.run" "$folder/share"; judge "$folder/shared.run"; } >"$folder/told"
    expect "a link to a right certificate" "not taken: pair_1.cert: no plain file" "$(given pair_1.cert)"
    expect "a pipe" "not taken: list_2.cert: no plain file" "$(given list_2.cert)"
    expect "a folder" "not taken: graph_3.cert: no plain file" "$(given graph_3.cert)"
    expect "nothing" "missing: rooted_4" "$(given rooted_4)"
    expect "the certificate of another problem of the same size" "refused: table_5: no sum 0 0" "$(given table_5)"
    expect "an empty file" "refused: pair_6: refused: certificate 7 EndsEarly line 1" "$(given pair_6)"
    expect "a right answer to another question" "refused: graph_8: an answer to another question than trees 2" "$(given graph_8)"
    expect "a byte more than 64 MB" "refused: pair_11: refused: too long" "$(given pair_11)"
    expect "and the others" "12 right, 4 refused, 4 missing" "$(last <"$folder/told")"
    sed -i '3s/weights [-0-9]*/weights 1001/' "$folder/problems/pair_40_16.txt"
    expect "a description that was changed since" "refused: pair_16: no sum 0 0 (its file was changed since it was sent)" \
        "$(judge "$folder/shared.run" | grep pair_16)"
    python3 "$here/draw.py" 20 40 1 "$folder/problems" >/dev/null
}

make_sshd() {
    ssh-keygen -q -t ed25519 -N '' -f "$folder/host_key" && ssh-keygen -q -t ed25519 -N '' -f "$folder/key"
    cp "$folder/key.pub" "$folder/authorized"
    printf '%s\n' 'Port 16022' 'ListenAddress 127.0.0.1' "HostKey $folder/host_key" "PidFile $folder/sshd.pid" 'UsePAM no' 'StrictModes no' \
        "AuthorizedKeysFile $folder/authorized" 'PasswordAuthentication no' 'PermitRootLogin prohibit-password' \
        "ForceCommand mkdir -p $folder/home && cd $folder/home && exec sh -c \"\$SSH_ORIGINAL_COMMAND\"" >"$folder/sshd_config"
    printf '%s\n' 'Host *' 'HostName 127.0.0.1' 'Port 16022' "IdentityFile $folder/key" 'IdentitiesOnly yes' 'HostKeyAlias here' \
        "UserKnownHostsFile $folder/known" >"$folder/ssh_config"
    echo "here $(cat "$folder/host_key.pub")" >"$folder/known"
    "$(command -v sshd)" -f "$folder/sshd_config"
}

try_ssh() {
    make_sshd
    printf '2/one\n2/two\n:\n' >"$folder/hosts.ssh"
    lay "$folder/ssh.run" >/dev/null
    expect "two hosts and this machine" "20 jobs ran, 0 failed" \
        "$(MANY_SSH="ssh -F $folder/ssh_config" spread "$folder/ssh.run" "$folder/hosts.ssh" | last)"
    expect "and all is right" "20 right, 0 refused, 0 missing" "$(judge "$folder/ssh.run" | last)"
}

try_array_task() {
    mkdir -p "$folder/task/in" "$folder/task/out"
    cp "$here/one.sh" "$folder/task"
    # shellcheck disable=SC2016
    printf '#!/bin/sh\n[ "$1" != trees ]\n' >"$folder/task/mat_main"
    chmod 755 "$folder/task/mat_main"
    touch "$folder/task/in/first" "$folder/task/in/second"
    printf 'first\ttrees 2\nsecond\tbest\n' >"$folder/task/todo"
    (cd "$folder/task" && SLURM_ARRAY_TASK_ID=1 sh "$here/array_task.sh" todo 2)
    expect "a job fails that is not the last of its task" "1" "$?"
    expect "and the other is done" "second.cert" "$(cd "$folder/task/out" && ls -- *.cert)"
}

# Folders that slurm_here.sh leaves alone, and a process that it leaves alone.
try_slurm_folders() {
    mkdir -p "$folder/other/state"
    for word in start stop; do
        expect "$word in a folder with other things" "slurm_here.sh: $folder/other is no folder of slurm_here.sh start, and is left alone" \
            "$(sh "$here/slurm_here.sh" "$word" "$folder/other" 2>&1)"
    done
    expect "they are still there" "state" "$(ls -A "$folder/other")"

    mkdir -p "$folder/open" && touch "$folder/open/made_by_slurm_here" && chmod 777 "$folder/open"
    for word in start stop; do
        expect "$word in a folder where others may write" \
            "slurm_here.sh: $folder/open belongs to another user, or others may write there, and is left alone" \
            "$(sh "$here/slurm_here.sh" "$word" "$folder/open" 2>&1)"
    done
    expect "the whole script, in such a folder" "whole.sh: $folder/open belongs to another user, or others may write there" \
        "$(sh "$here/whole.sh" "$folder/open" slurm 1 40 2>&1)"
    try_foreign_folder
    sleep 60 &
    sleeping=$!
    mkdir -p "$folder/reused" && touch "$folder/reused/made_by_slurm_here"
    for name in munged slurmctld slurmd; do echo "$sleeping" >"$folder/reused/$name.pid"; done
    sh "$here/slurm_here.sh" stop "$folder/reused"
    expect "stop, if another program has the process ids by now" "still there" "$(kill -0 "$sleeping" && echo "still there")"
    kill "$sleeping"
}

# A folder of another user, which only root can make.
try_foreign_folder() {
    if [ "$(id -u)" -ne 0 ]; then
        echo "not run: a folder of another user: only root can make one"
        return
    fi
    mkdir -p "$folder/foreign" && touch "$folder/foreign/made_by_slurm_here" && chown 65534 "$folder/foreign"
    expect "start in a folder of another user" \
        "slurm_here.sh: $folder/foreign belongs to another user, or others may write there, and is left alone" \
        "$(sh "$here/slurm_here.sh" start "$folder/foreign" 2>&1)"
}

# Spreads over a Slurm, and kills a task.
try_killed_task() {
    expect "the whole script" "20 right, 0 refused, 0 missing" "$(sh "$here/whole.sh" "$folder/whole_slurm" slurm 20 40 2>&1 | last)"
    sh "$here/slurm_here.sh" start "$folder/slurm" >/dev/null
    export SLURM_CONF="$folder/slurm/slurm.conf"
    expect "Slurm listens to this machine alone" "0100007F 0100007F" "$(listening "${MANY_PORT:-16817}")"
    lay "$folder/slurm.run" >/dev/null
    mkdir -p "$folder/nodes"
    MATBENCH=$folder/slow sh "$here/over_slurm.sh" "$folder/slurm.run" "$folder/nodes" &
    spreading=$!
    wait_for 1 "$folder/nodes" '*.part.*'
    scancel "$(squeue -h -t running -o %i | head -n 1)"
    wait "$spreading"
    expect "a task is killed, and its job is missing" "19 right, 0 refused, 1 missing" "$(judge "$folder/slurm.run" | last)"
    expect "it alone is to be done" "1 to do, 19 there, 0 not sent" "$(lay "$folder/slurm.run")"
    mv "$folder/slurm.run" "$folder/-slurm.run"
    (cd "$folder" && sh "$here/over_slurm.sh" -slurm.run nodes)
    mv "$folder/-slurm.run" "$folder/slurm.run"
    expect "and all is right, with folders named from this one" "20 right, 0 refused, 0 missing" "$(judge "$folder/slurm.run" | last)"

}

# Ends the spreading over a Slurm, and begins it again.
try_ended_spreading() {
    lay "$folder/ended.run" >/dev/null
    MATBENCH=$folder/slow sh "$here/over_slurm.sh" "$folder/ended.run" "$folder/nodes" 2 &
    spreading=$!
    wait_for 2 "$folder/nodes" '*.cert'
    kill "$spreading"
    wait "$spreading"
    expect "the spreading is ended; some are there" "some" "$(lay "$folder/ended.run" | awk '$1 > 0 && $4 > 0 { print "some" }')"
    sh "$here/over_slurm.sh" "$folder/ended.run" "$folder/nodes" 5
    expect "the others are run, and all is right" "20 right, 0 refused, 0 missing" "$(judge "$folder/ended.run" | last)"
    expect "nothing is left in the shared folder" "0" "$(find "$folder/nodes" -mindepth 1 | wc -l)"
}

python3 "$here/draw.py" 20 40 1 "$folder/problems" >"$folder/list" || exit 70
echo : >"$folder/hosts"
make_slow_program
make_hosts
make_false_parallels
unset SLURM_CONF

has_parallel=no
if parallel --version 2>/dev/null | grep -q '^GNU parallel'; then has_parallel=yes; fi
try_alone
if [ "$has_parallel" = yes ]; then
    echo "-- over this machine, by GNU parallel"
    try_this_machine
    try_killed_spreading
    echo "-- over hosts that fail or lie"
    export MANY_SSH="$folder/ssh"
    try_bad_hosts
    try_rude_hosts
    echo "-- names"
    try_names
    unset MANY_SSH
else
    echo "not run: what GNU parallel spreads: it is not installed"
fi
echo "-- lists"
try_lists
echo "-- what others write into a shared folder"
try_shared_folder

echo "-- over ssh to this machine"
[ "$(id -u)" -ne 0 ] || [ -d /run/sshd ] || mkdir -m 755 /run/sshd
if command -v sshd >/dev/null && [ -d /run/sshd ] && [ "$has_parallel" = yes ]; then
    try_ssh
else
    echo "not run: over ssh to this machine: there is no sshd, no folder /run/sshd for it, or no GNU parallel"
fi

echo "-- a task of an array"
try_array_task
echo "-- over a Slurm of one node"
try_slurm_folders
if command -v slurmd >/dev/null && command -v munged >/dev/null; then
    try_killed_task
    try_ended_spreading
else
    echo "not run: over a Slurm of one node: there is no slurmd, or no munged"
fi

echo "$((steps - wrong)) passed, $wrong failed"
[ "$wrong" -eq 0 ]
