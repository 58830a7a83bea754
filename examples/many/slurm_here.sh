#!/bin/sh
# slurm_here.sh start FOLDER, slurm_here.sh stop FOLDER: a Slurm of one node, which is this machine, to try job arrays with.
#
# `start` makes a key, starts munged, slurmctld and slurmd with settings, sockets, logs and process ids in FOLDER, on the ports 16817 and 16818
# of this machine (or MANY_PORT and the next), and waits until the node is idle. FOLDER is new, empty or one of `start`, belongs to you, and nobody
# else may write there; else it is left alone. No file of the system is changed, and a Slurm that runs here already is left alone. The commands of
# Slurm find this one by the variable SLURM_CONF, as in `SLURM_CONF=FOLDER/slurm.conf sinfo`. `stop` ends the three processes of a folder of `start`.
# A cluster has its own Slurm; this is none for work: its one user is the one who starts it, it keeps no accounts, and no other machine reaches it.
set -u
port=${MANY_PORT:-16817}
[ "$#" -eq 2 ] || { sed -n '2,8s/^# \{0,1\}//p' "$0" >&2; exit 64; }
PATH=$PATH:/usr/sbin
[ "$1" != start ] || (umask 022 && mkdir -p -- "$2") || exit 71
CDPATH='' cd -- "$2" && folder=$(pwd -P) || exit 71
mark=made_by_slurm_here

# Whether a process runs a program of this name: runs ID NAME
runs() { [ "$(cat "/proc/$1/comm" 2>/dev/null)" = "$2" ]; }

# Ends the process of a program whose id is in its file, and waits for its end. If the id is another program's by now, that is left alone.
end() {
    [ -s "$1.pid" ] || return 0
    pid=$(head -n 1 "$1.pid")
    ! runs "$pid" "$1" || kill "$pid" 2>/dev/null
    for _ in $(seq 100); do
        runs "$pid" "$1" || break
        sleep 0.1
    done
    rm -f "$1.pid"
}

stop() {
    end slurmd
    end slurmctld
    end munged
}

# Whether the folder belongs to the user, and nobody else may write there, so that all its settings are the user's own.
is_private() {
    # shellcheck disable=SC3067
    [ -O . ] && [ -z "$(find . -prune -perm /022)" ]
}

is_empty() {
    inside=$(ls -A) && [ -z "$inside" ]
}

leave_alone() {
    echo "slurm_here.sh: $folder $1, and is left alone" >&2
    exit 71
}

fail() {
    echo "slurm_here.sh: $1 did not start; the logs in $folder say why" >&2
    stop
    exit 70
}

# Writes the settings of a Slurm whose one node is this machine.
write_settings() {
    node=$(hostname -s)
    user=$(id -un)
    cat >slurm.conf <<END
ClusterName=here
SlurmctldHost=$node(127.0.0.1)
SlurmctldPort=$port
SlurmdPort=$((port + 1))
CommunicationParameters=NoInAddrAny,NoCtldInAddrAny
SlurmUser=$user
SlurmdUser=$user
AuthType=auth/munge
AuthInfo=socket=$folder/munge
CryptoType=crypto/munge
StateSaveLocation=$folder/state
SlurmdSpoolDir=$folder/spool
SlurmctldPidFile=$folder/slurmctld.pid
SlurmdPidFile=$folder/slurmd.pid
SlurmctldLogFile=$folder/slurmctld.log
SlurmdLogFile=$folder/slurmd.log
ProctrackType=proctrack/linuxproc
TaskPlugin=task/none
JobAcctGatherType=jobacct_gather/none
AccountingStorageType=accounting_storage/none
SelectType=select/cons_tres
SelectTypeParameters=CR_CPU
MpiDefault=none
SchedulerParameters=batch_sched_delay=0
ReturnToService=2
NodeName=$node NodeAddr=127.0.0.1 CPUs=$(nproc) State=UNKNOWN
PartitionName=all Nodes=$node Default=YES MaxTime=INFINITE State=UP
END
}

# Waits until the node takes tasks, half a minute at most.
wait_until_idle() {
    for _ in $(seq 300); do
        [ "$(sinfo -h -o %T 2>/dev/null)" = idle ] && echo "the node $node is idle: SLURM_CONF=$folder/slurm.conf" && return
        sleep 0.1
    done
    fail "the node"
}

start() {
    [ -e "$mark" ] || is_empty || leave_alone "$other"
    : >"$mark" || exit 71
    for command in munged slurmctld slurmd sbatch sinfo; do
        command -v "$command" >/dev/null || { echo "slurm_here.sh: $command is missing: apt-get install slurm-wlm munge" >&2; exit 69; }
    done
    echo "a key for munge"
    rm -rf state spool
    mkdir state spool
    (umask 077 && head -c 128 /dev/urandom >munge.key)
    echo "munged, which lets the three trust each other's messages"
    munged --force --key-file="$folder/munge.key" --socket="$folder/munge" --pid-file="$folder/munged.pid" --log-file="$folder/munged.log" \
        --seed-file="$folder/munged.seed" >munged.out 2>&1 || { cat munged.out >&2; exit 70; }

    write_settings
    export SLURM_CONF="$folder/slurm.conf"
    echo "slurmctld, which holds the queue"
    slurmctld || fail slurmctld
    echo "slurmd, which runs tasks on this machine"
    slurmd || fail slurmd
    wait_until_idle
}

is_private || leave_alone "belongs to another user, or others may write there"
other="is no folder of slurm_here.sh start"
case $1 in
start) start ;;
stop) [ -e "$mark" ] || leave_alone "$other"; stop ;;
*) echo "slurm_here.sh: start or stop" >&2; exit 64 ;;
esac
