#!/bin/sh
# whole.sh FOLDER [parallel|slurm [COUNT SIZE]]: the whole of it, with drawn problems.
#
# It installs what is missing from Debian's packages, or says what is missing; draws COUNT problems of SIZE elements (else 40 of 60) into FOLDER;
# spreads them, by GNU parallel over the hosts of the file that MANY_HOSTS names (else over this machine alone) or by a Slurm of one node that it
# starts and stops (slurm_here.sh; none is started where SLURM_CONF names one); and judges what came back. The last line counts. FOLDER is new, or
# belongs to you, and nobody else may write there.
set -u
here=$(CDPATH='' cd -- "$(dirname -- "$0")" && pwd)
[ "$#" -ge 1 ] || { sed -n '2,7s/^# \{0,1\}//p' "$0" >&2; exit 64; }
folder=$1 way=${2:-parallel} count=${3:-40} size=${4:-60}
PATH=$PATH:/usr/sbin

# Sees to it that each command is there: need PACKAGES COMMAND ..
need() {
    packages=$1
    shift
    for command; do
        command -v "$command" >/dev/null && continue
        if [ "$(id -u)" -ne 0 ] || ! command -v apt-get >/dev/null; then
            echo "whole.sh: $command is missing; on Debian: apt-get install $packages" >&2
            exit 69
        fi
        echo "installing $packages"
        # shellcheck disable=SC2086
        { apt-get update && DEBIAN_FRONTEND=noninteractive apt-get install -y --no-install-recommends $packages; } >"$folder/apt.log" 2>&1 ||
            { echo "whole.sh: $packages could not be installed; $folder/apt.log says why" >&2; exit 69; }
        return
    done
}

(umask 022 && mkdir -p -- "$folder") && folder=$(CDPATH='' cd -- "$folder" && pwd -P) || exit 71
# shellcheck disable=SC3067
if [ ! -O "$folder" ] || [ -n "$(find "$folder" -prune -perm /022)" ]; then
    echo "whole.sh: $folder belongs to another user, or others may write there" >&2
    exit 71
fi
need python3 python3
case $way in
parallel) need parallel parallel ;;
slurm) need "slurm-wlm munge" munged slurmctld slurmd sbatch ;;
*) echo "whole.sh: parallel or slurm, and not $way" >&2; exit 64 ;;
esac
[ -n "${MATBENCH:-}" ] || "$here/../../matbench" --version || exit
ldd "${MATBENCH:-$here/../../crates/mat_main/out/mat_main}"

python3 "$here/draw.py" "$count" "$size" 1 "$folder/problems" >"$folder/list" &&
    python3 "$here/jobs.py" lay "$folder/list" "$folder/run" || exit
if [ "$way" = parallel ]; then
    [ -n "${MANY_HOSTS:-}" ] || { echo : >"$folder/hosts" && MANY_HOSTS=$folder/hosts; }
    sh "$here/over_parallel.sh" "$folder/run" "$MANY_HOSTS"
else
    mkdir -p "$folder/shared"
    if [ -z "${SLURM_CONF:-}" ]; then
        sh "$here/slurm_here.sh" start "$folder/slurm" || exit
        trap 'sh "$here/slurm_here.sh" stop "$folder/slurm"' EXIT
        trap 'exit 143' HUP INT TERM
        export SLURM_CONF="$folder/slurm/slurm.conf"
    fi
    sh "$here/over_slurm.sh" "$folder/run" "$folder/shared" 5
fi
python3 "$here/jobs.py" judge "$folder/list" "$folder/run" "$(nproc)"
