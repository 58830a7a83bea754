#!/bin/sh
# Times how long it takes from a fresh clone to the program that is proved there, by ./prove, or by ./matbench in revisions that have no ./prove:
# at the revision BEFORE, if it is set; at HEAD by the launcher of the revision LAUNCHER, if it is set, which has to be one without ./prove; and
# then at HEAD.
#
#     [BEFORE=REVISION] [LAUNCHER=REVISION] [CPUS=0,1] bench/launcher.sh
#
# Each time the revision is cloned into a fresh folder, and builds with a kit, a home and a folder for temporary files of its own. That kit
# consists of links to the installed one, but for bin/rt and bin/rtlib.py, which are copied: rt looks for its kit where these lie, and
# keeps what passed in rattle-kept beside it. So no build finds anything kept, and the installed kit's folder stays as it is. CPUS is a
# list for taskset -c; without it all processors are used. Changes that are not committed are left out. It needs 15 GB of free disk in
# TMPDIR, or in /var/tmp, of which 5 GB stay free: with less, rt keeps nothing. Where a build fails, the script ends with its status and
# prints no time.
set -eu
top=$(dirname -- "$(dirname -- "$(readlink -f -- "$0")")")
kit=$(dirname "$(rt doc)")
work=$(mktemp -d "${TMPDIR:-/var/tmp}/launcher-XXXXXX")
# (rt that is run by root runs the tests as nobody, who has to reach the kit and the folder for temporary files)
chmod 711 "$work"
trap 'rm -rf "$work"' EXIT
trap 'exit 1' HUP INT TERM

# Makes a kit beside which nothing is kept.
make_kit() {
    mkdir -p "$1/bin"
    for file in "$kit"/*; do
        [ "$file" = "$kit/bin" ] || ln -s "$file" "$1/"
    done
    for file in "$kit"/bin/*; do
        case $file in
            */rt | */rtlib.py) cp -p "$file" "$1/bin/" ;;
            *) ln -s "$file" "$1/bin/" ;;
        esac
    done
}

# The processor seconds of what a subshell has run, from the lines of `times`.
processor_seconds() {
    awk 'NR == 2 { split($1 "m" $2, it, /[ms]+/); print int(60 * (it[1] + it[3]) + it[2] + it[4] + 0.5) }'
}

# Proves and builds the program of a checkout. ./prove ends with 1 if it is not the released one.
build() {
    if [ -e "$1/prove" ]; then
        # shellcheck disable=SC2086
        ${CPUS:+taskset -c $CPUS} "$1/prove" || [ "$?" -eq 1 ]
    else
        # shellcheck disable=SC2086
        ${CPUS:+taskset -c $CPUS} "$1/matbench" --version
    fi
}

# Builds one revision from nothing, by the launcher of another if one is given, and prints its time.
time_of() {
    place=$work/$2
    mkdir -p "$place/home" "$place/tmp"
    make_kit "$place/kit/rattle"
    git clone -q "$top" "$place/checkout"
    git -C "$place/checkout" checkout -q --detach "$1"
    [ -z "${3:-}" ] || { git -C "$top" show "$3:matbench" >"$place/checkout/matbench" && rm -f "$place/checkout/prove"; }
    echo "$2: $(git -C "$place/checkout" log -1 --format='%h %s')${3:+, by the launcher of $3}, load before $(cut -d ' ' -f 1-3 /proc/loadavg)"
    begun=$(date +%s)
    (
        export PATH="$place/kit/rattle/bin:$PATH" HOME="$place/home" TMPDIR="$place/tmp"
        build "$place/checkout"
        times >"$place/times"
    )
    echo "$2: $(($(date +%s) - begun)) seconds on the clock, $(processor_seconds <"$place/times") processor seconds, on ${CPUS:+CPUS=$CPUS of }$(nproc) processors"
    rm -rf "$place"
}

git -C "$top" diff --quiet HEAD || echo "note: what is not committed is left out" >&2
[ -z "${BEFORE:-}" ] || time_of "$(git -C "$top" rev-parse "$BEFORE")" before
[ -z "${LAUNCHER:-}" ] || time_of "$(git -C "$top" rev-parse HEAD)" by_launcher "$LAUNCHER"
time_of "$(git -C "$top" rev-parse HEAD)" this
