#!/bin/sh
# Tries the release in a new minimal Debian, into which a clone of HEAD is laid. Neither the kit nor anything else of this machine is there.
#
#   release/try_elsewhere.sh          tries the program, the wheel, the page, the archive for C, and what README.md shows
#   release/try_elsewhere.sh PART..   tries these of the parts program, wheel, page, archive and readme
#
# It runs as root, and needs debootstrap, git, unshare and a network to a mirror of Debian. What is tried runs without a network.
# The new system takes some 1.5 GB in TMPDIR, or else in /var/tmp. It is removed at the end.
# Each line that begins with `ok` or `WRONG` is a test. The last line counts them, and the status is 1 if one is wrong, and 2 if nothing could be tried.
#
# Variables:
#   SUITE=bookworm   the version of Debian, if the minimal system is made
#   MIRROR=ADDRESS   the mirror of Debian
#   BASE=FILE        a tar archive of the minimal system: it is unpacked if it is there, and else made
#   PICTURES=FOLDER  gets a picture of the page, and the log
#   KEEP=1           the new system is not removed
#
# shellcheck disable=SC2016,SC2086
set -eu
umask 022
here=$(dirname -- "$(readlink -f -- "$0")")
suite=${SUITE:-bookworm}
mirror=${MIRROR:-http://deb.debian.org/debian}
# The packages of each part. The first part, the program, has nothing that the minimal system does not have.
wheel_packages='python3 python3-venv'
page_packages='python3 chromium fonts-dejavu-core'
archive_packages='gcc libc6-dev pkg-config xz-utils'
# The first version of Chromium that runs 64-bit WebAssembly memory, as docs/BINDINGS.md says.
oldest_chromium=133
# The clone, by its path in the new system. Folders of users have spaces in their names too.
place='/srv/a checkout'
answer_of_people='./matbench intersect examples/people.txt'
all_parts='program wheel page archive readme'
passed=0 failed=0 child='' work='' is_updated=''

fail() {
    echo "try_elsewhere.sh: $1" >&2
    exit 2
}

# Ends what still runs, and removes the new system. No mount is left: each was made in a namespace that ends with its processes.
clean_up() {
    [ -z "$child" ] || kill -s KILL "$child" 2>/dev/null || true
    [ -n "$work" ] || return 0
    if [ -n "${KEEP:-}" ]; then
        echo "kept: $work"
    else
        rm -rf --one-file-system "$work" 2>/dev/null || { sleep 1 && rm -rf --one-file-system "$work"; }
    fi
}

# --- the new system ---

# Ends if a word names no part.
end_if_no_part() {
    for part in "$@"; do
        case " $all_parts " in
            *" $part "*) ;;
            *) fail "there is no part $part: the parts are $all_parts" ;;
        esac
    done
}

# Ends if something is missing that it needs.
end_if_lacking() {
    for needed in debootstrap git tar timeout unshare; do
        command -v "$needed" >/dev/null 2>&1 || fail "there is no command $needed"
    done
    [ "$(id -u)" -eq 0 ] || fail "it has to run as root, which makes the new system and its namespaces"
    [ "$(uname -m)" = x86_64 ] || fail "the release is for x86-64"
    git -C "$here" rev-parse --verify -q HEAD >/dev/null || fail "this is no checkout of git"
}

# Runs a script with its words in namespaces of its own, for at most so many seconds: apart SECONDS SWITCH SCRIPT WORD..
# When it ends, all processes that it started end, and all mounts that it made are gone. The switch is --net for no network, or --mount, which
# is given anyway.
apart() {
    seconds=$1 switch=$2
    shift 2
    unshare "$switch" --mount --pid --fork --kill-child timeout --kill-after=10 "$seconds" sh -c "$@" &
    child=$!
    wait "$child" && ended=0 || ended=$?
    child=
    return "$ended"
}

# Runs a command at the top of the clone in the new system: in_system SWITCH USER COMMAND WORD..
in_system() {
    switch=$1 user=$2
    shift 2
    apart 900 "$switch" 'root=$1 user=$2 place=$3
        shift 3
        mount -t proc proc "$root/proc" && mount -t tmpfs -o mode=1777 tmpfs "$root/dev/shm" || exit 125
        chroot --userspec="$user" "$root" env -i --chdir="$place" PATH=/usr/sbin:/usr/bin:/sbin:/bin HOME=/root LC_ALL=C.UTF-8 \
            DEBIAN_FRONTEND=noninteractive "$@"
        exit "$?"' sh "$root" "$user" "$place" "$@"
}

# The same as root and without a network. It leaves `status`, and what the command prints in the files out and err.
call() {
    call_as root "$@"
}

call_as() {
    in_system --net "$@" </dev/null >"$work/out" 2>"$work/err" && status=0 || status=$?
}

# Makes the minimal system.
make_system() {
    if [ -n "${BASE:-}" ] && [ -e "$BASE" ]; then
        tar -C "$root" --numeric-owner -xpf "$BASE" || fail "the system in $BASE could not be unpacked"
    else
        apart 3600 --mount 'exec debootstrap --variant=minbase "$@"' sh "$suite" "$root" "$mirror" >"$work/log" 2>&1 || {
            tail -n 3 "$work/log" >&2
            fail "debootstrap could not make Debian $suite"
        }
        [ -z "${BASE:-}" ] || { tar -C "$root" --numeric-owner -cf "$BASE.new" . && mv -f "$BASE.new" "$BASE"; } ||
            fail "the system could not be packed into $BASE"
    fi
    cat /etc/resolv.conf >"$root/etc/resolv.conf"
    mkdir -p "$root/root/.local/bin"
}

# Lays a clone of HEAD into the system.
lay_clone() {
    mkdir -p "$root/srv"
    clone=$root$place
    git clone -q --no-hardlinks "$(git -C "$here" rev-parse --show-toplevel)" "$clone" || fail "git could not clone this checkout"
    version=$(sed -n 's/^pub(crate) const VERSION: &str = "matbench \([0-9.]*\)\\n";$/\1/p' "$clone/crates/mat_main/src/help.rt")
    [ -n "$version" ] || fail "the program's source has no version"
    block docs/BINDINGS.md "In C" "certificate 1" >"$work/certificate"
    [ -s "$work/certificate" ] || fail "docs/BINDINGS.md shows no certificate of people.txt"
}

# Prints the first code block of a section that has this mark behind its backquotes, or begins with this line: block FILE SECTION MARK
block() {
    awk -v heading="## $2" -v mark="$3" '
        !inside && /^## / { here = $0 == heading }
        here && /^```/ {
            if (inside && (is_marked || index(text, mark "\n") == 1)) { printf "%s", text; exit }
            inside = !inside; is_marked = $0 == "```" mark; text = ""
            next
        }
        here && inside { text = text $0 "\n" }' "$clone/$1"
}

# --- verdicts ---

ok() {
    echo "ok: $1"
    passed=$((passed + 1))
}

# Says what is wrong, and the first lines that the last call printed.
wrong() {
    echo "WRONG: $1"
    for stream in err out; do
        head -n 5 "$work/$stream" | cut -c 1-200 | sed "s/^/    $stream: /"
    done
    failed=$((failed + 1))
}

not_run() {
    echo "not run: $1: $2"
}

# A test of the last call: expect WHAT TEST WORD..
expect() {
    what=$1
    shift
    if "$@"; then ok "$what"; else wrong "$what (status $status)"; fi
}

# Whether the last call ended with 0 and printed just this, or printed the certificate of docs/BINDINGS.md.
printed() {
    [ "$status" -eq 0 ] && [ "$(cat "$work/out")" = "$1" ]
}

printed_certificate() {
    [ "$status" -eq 0 ] && cmp -s "$work/certificate" "$work/out"
}

is_silent() {
    [ ! -s "$work/err" ]
}

# Whether the last call gave no answer, and said why: refused_with STATUS PATTERN
refused_with() {
    [ "$status" -eq "$1" ] && [ ! -s "$work/out" ] && grep -q "$2" "$work/err"
}

printed_silently() {
    printed_certificate && is_silent
}

# Whether the last call printed the certificate, and on standard error just two lines: what the program is, and one that has these words.
printed_with_two_lines() {
    printed_certificate && [ "$(wc -l <"$work/err")" -eq 2 ] &&
        sed -n 1p "$work/err" | grep -q 'the released program, proved elsewhere from exactly these sources' && sed -n 2p "$work/err" | grep -q "$1"
}

# Whether the last call ended with 0, and has this line in what it printed, or has printed a picture.
has_line() {
    [ "$status" -eq 0 ] && grep -qx "$1" "$work/out"
}

has_drawn() {
    [ "$status" -eq 0 ] && head -c 100 "$work/out" | grep -q '^<svg ' && [ "$(tail -n 1 "$work/out")" = "</svg>" ]
}

# --- the program, in the minimal system ---

try_nothing_is_there() {
    call sh -c 'for it in rt python3 cc git; do ! command -v "$it" || exit 1; done'
    expect "neither rt nor python3, cc or git is there" [ "$status" -eq 0 ]
    call sh -c '! tail -n +2 /proc/net/route | grep .'
    expect "no network is there" [ "$status" -eq 0 ]
}

# What release/PROVENANCE.md says of the files. The launcher names it in its first line.
try_files() {
    call grep -c '^| `matbench' release/PROVENANCE.md
    expect "release/PROVENANCE.md is there, and names files" [ "$status" -eq 0 ]
    call sh -c 'cd release && sha256sum --quiet -c SHA256SUMS'
    expect "the files of the release have the checksums of SHA256SUMS" [ "$status" -eq 0 ]
}

try_first_calls() {
    began=$(date +%s%3N)
    call $answer_of_people
    took=$(($(date +%s%3N) - began))
    expect "the first call prints the certificate that docs/BINDINGS.md shows, and two lines on standard error" printed_with_two_lines './prove proves it here'
    expect "it took at most 2,000 ms: $took ms" [ "$took" -le 2000 ]
    call $answer_of_people
    expect "the second call prints the same, and nothing on standard error" printed_silently
    call ./matbench --version
    expect "--version prints matbench $version" printed "matbench $version"
    cp "$work/certificate" "$root/tmp/people.answer"
    call ./matbench check examples/people.txt /tmp/people.answer
    expect "check says yes" printed yes
    call ./matbench --tell examples/people.txt /tmp/people.answer
    expect "--tell has the best plan in words" has_line 'BEST: 4 elements, weight 25.'
    call ./matbench --picture examples/people.txt /tmp/people.answer
    expect "--picture prints a picture" has_drawn
}

# A user who cannot write the checkout, before and after the program is in its place.
try_other_user() {
    rm -rf "$clone/crates/mat_main/out"
    call_as 65534:65534 $answer_of_people
    expect "a user who cannot write the checkout gets the same, and two lines" printed_with_two_lines 'cannot be written to, so each command unpacks it'
    [ -z "$(find "$root/tmp" -mindepth 1 -user 65534)" ] && leftovers=0 || leftovers=1
    expect "nothing of that call is left in /tmp" [ "$leftovers" -eq 0 ]
    call $answer_of_people
    call_as 65534:65534 $answer_of_people
    expect "if the program is in its place, that user gets the same, and nothing on standard error" printed_silently
}

try_prove() {
    call ./prove
    expect "./prove says that it needs rt, and ends with 70" refused_with 70 'needs rt, which is not on the search path'
}

# The release must not answer for a source that was changed, nor if it is damaged.
try_changed_source() {
    source=$clone/crates/mat_main/src/main.rt
    cp "$source" "$work/source"
    echo '// A comment.' >>"$source"
    call $answer_of_people
    expect "if a source is changed, the program in its place does not answer: building needs rt, status 70" refused_with 70 'building it needs rt'
    rm -rf "$clone/crates/mat_main/out"
    call $answer_of_people
    expect "nor is the release unpacked for it" refused_with 70 'building it needs rt'
    cp "$work/source" "$source"
    cp "$packed" "$work/packed"
    printf xxxxxxxx | dd of="$packed" bs=8 seek=10000 conv=notrunc 2>/dev/null
    call $answer_of_people
    expect "if the release is damaged, it is told, and nothing answers" refused_with 70 'the released program is damaged'
    cp "$work/packed" "$packed"
    call $answer_of_people
    expect "once both are as they were, the release answers again" printed_with_two_lines './prove proves it here'
}

# A system that is too old for the program: it is told in words.
try_old_system() {
    call $answer_of_people
    expect "the launcher says that the program does not run with glibc $glibc, status 70" refused_with 70 "does not run here: it needs .*glibc $oldest_glibc"
    call ./matbench --help
    expect "--help needs no program" has_line 'usage: matbench .*'
}

try_program() {
    packed=$clone/release/matbench-x86_64-linux.gz
    try_nothing_is_there
    if ! is_there 'release/matbench-x86_64-linux.gz'; then
        not_run "the program" "there is no release/matbench-x86_64-linux.gz"
    elif [ "${glibc#2.}" -lt "${oldest_glibc#2.}" ]; then
        try_old_system
    else
        try_files
        try_first_calls
        try_other_user
        try_prove
        try_changed_source
    fi
}

# --- the other parts ---

# Whether the release has a file of this pattern.
is_there() {
    [ -n "$(find "$clone/release" -path "$clone/$1")" ]
}

# Installs what a part needs, by the network. If its file or a package is not there, that is told: prepare PART PATTERN PACKAGE..
prepare() {
    part=$1 pattern=$2
    shift 2
    if ! is_there "$pattern"; then
        not_run "$part" "there is no $pattern"
        return 1
    fi
    if [ -z "$is_updated" ]; then
        is_updated=yes
        in_system --mount root apt-get update </dev/null >>"$work/log" 2>&1 || true
    fi
    in_system --mount root apt-get install -y --no-install-recommends "$@" </dev/null >>"$work/log" 2>&1 && return
    not_run "$part" "apt-get could not install $*: $(grep '^E: ' "$work/log" | tail -n 1)"
    return 1
}

# Loads the library of the wheel, if the module is not for the Python of the system. The tag of the wheel says which glibc is enough for it.
try_library() {
    tag=$(find "$clone/release" -name 'matbench-*.whl' | sed 's/.*manylinux_2_\([0-9]*\)_.*/\1/')
    if [ "${glibc#2.}" -lt "$tag" ]; then
        not_run "the library of the wheel" "its tag asks for glibc 2.$tag"
        return
    fi
    call python3 -c 'import ctypes, pathlib, zipfile
[wheel] = pathlib.Path("release").glob("matbench-*.whl")
zipfile.ZipFile(wheel).extractall("/tmp/library")
[library] = pathlib.Path("/tmp/library").rglob("libmatbench.so")
print(ctypes.CDLL(str(library)).matbench_call is not None)'
    expect "the library of the wheel can be loaded with glibc $glibc" printed True
}

was_refused_by_pip() {
    [ "$status" -ne 0 ] && grep -qi 'requires a different python\|not a supported wheel' "$work/err"
}

try_wheel() {
    prepare "the wheel" "release/matbench-*.whl" $wheel_packages || return 0
    call python3 -c 'import sys; print("%d.%d" % sys.version_info[:2])'
    python=$(cat "$work/out")
    call sh -c 'python3 -m venv /tmp/wheel && /tmp/wheel/bin/pip install --no-index release/matbench-*.whl'
    if [ "${python#3.}" -lt 10 ]; then
        expect "pip says that the wheel is not for Python $python" was_refused_by_pip
        try_library
        return
    fi
    expect "pip installs the wheel without a network, in Python $python with glibc $glibc" [ "$status" -eq 0 ]
    call /tmp/wheel/bin/python -I -c 'import matbench, pathlib
best = matbench.intersect(pathlib.Path("examples/people.txt")).best
print(best.weight, best.members)'
    expect "the module prints 25 (0, 3, 4, 6) for people.txt" printed '25 (0, 3, 4, 6)'
    call /tmp/wheel/bin/python -I -c 'import matbench; print(matbench.__version__)'
    expect "its version is $version" printed "$version"
}

# Counts the lines that elsewhere.py printed, and that it ended as it should.
count_lines() {
    grep '^ok: \|^WRONG: \|^not run: \|^    ' "$work/out" || true
    passed=$((passed + $(grep -c '^ok: ' "$work/out" || true)))
    failed=$((failed + $(grep -c '^WRONG: ' "$work/out" || true)))
    [ "$status" -eq 0 ] || wrong "$1 ended with status $status"
}

try_page() {
    prepare "the page" "release/matbench.html" $page_packages || return 0
    call chromium --version
    chromium=$(sed -n 's/^Chromium \([0-9]*\)\..*/\1/p' "$work/out")
    if [ "${chromium:-0}" -lt "$oldest_chromium" ]; then
        not_run "the page" "Chromium ${chromium:-} of $system is older than $oldest_chromium"
        return
    fi
    cp "$work/certificate" "$root/tmp/people.answer"
    call python3 -B release/elsewhere.py page /tmp/people.answer /tmp/page.png
    count_lines "the test of the page in Chromium $chromium"
    [ -z "${PICTURES:-}" ] || cp "$root/tmp/page.png" "$PICTURES/" 2>/dev/null || true
}

# Compiles the C program of a section of docs/BINDINGS.md by pkg-config, and runs it over people.txt: compile_and_run SECTION LIBRARY
compile_and_run() {
    block docs/BINDINGS.md "$1" c >"$root/tmp/example.c"
    call sh -c 'PKG_CONFIG_PATH=$(echo /tmp/archive/*/lib/pkgconfig) && export PKG_CONFIG_PATH &&
        cc -Wall -Werror -o /tmp/example /tmp/example.c $(pkg-config --cflags --libs "$1")' sh "$2"
    expect "the program of docs/BINDINGS.md, $1, is compiled by pkg-config" [ "$status" -eq 0 ]
    call sh -c '/tmp/example <examples/people.txt'
}

try_archive() {
    prepare "the archive for C" "release/matbench-c-*.tar.xz" $archive_packages || return 0
    call sh -c 'mkdir /tmp/archive && tar -C /tmp/archive -xf release/matbench-c-*.tar.xz'
    expect "the archive for C is unpacked" [ "$status" -eq 0 ]
    compile_and_run "In C" matbench
    expect "it prints the certificate that is shown there" printed_silently
    compile_and_run "In C, by contract" matbench_line
    expect "it prints what is shown there" printed "$(block docs/BINDINGS.md "In C, by contract" "")"
    call sh -c 'PKG_CONFIG_PATH=$(echo /tmp/archive/*/lib/pkgconfig) pkg-config --modversion matbench matbench_line'
    expect "pkg-config has the version $version of both libraries" printed "$version
$version"
}

# What README.md shows for a first answer, typed from its own text, in a virtual environment of Python.
try_readme() {
    if [ "${glibc#2.}" -lt "${oldest_glibc#2.}" ]; then
        not_run "what README.md shows" "the program needs glibc $oldest_glibc"
    elif ! is_there "release/matbench-x86_64-linux.gz"; then
        not_run "what README.md shows" "there is no release/matbench-x86_64-linux.gz"
    elif prepare "what README.md shows" "release/matbench-*.whl" $wheel_packages; then
        rm -rf "$clone/crates/mat_main/out"
        call sh -c 'python3 -m venv /tmp/readme && PATH="/tmp/readme/bin:$PATH" python3 -B release/elsewhere.py readme'
        count_lines "what README.md shows"
    fi
}

[ "$#" -gt 0 ] || set -- $all_parts
end_if_no_part "$@"
end_if_lacking
[ -z "${PICTURES:-}" ] || mkdir -p "$PICTURES" || fail "the folder $PICTURES could not be made"
trap clean_up EXIT
trap 'exit 2' HUP INT TERM
work=$(mktemp -d "${TMPDIR:-/var/tmp}/try_elsewhere-XXXXXX") || fail "no folder could be made in ${TMPDIR:-/var/tmp}"
root=$work/system
mkdir -m 755 "$root"
: >"$work/log"
make_system
lay_clone
call getconf GNU_LIBC_VERSION
glibc=$(sed 's/^glibc //' "$work/out")
oldest_glibc=$(sed -n 's/.*it needs Linux on x86-64 with glibc \([0-9.]*\) or later.*/\1/p' "$clone/matbench")
case "$glibc $oldest_glibc" in
    2.*' '2.*) ;;
    *) fail "the versions of glibc, that of the system and the oldest for the launcher, could not be read: $(head -n 1 "$work/err")" ;;
esac
system=$(sed -n 's/^PRETTY_NAME="\(.*\)"$/\1/p' "$root/etc/os-release")
echo "$system with glibc $glibc; a clone of $(git -C "$clone" log -1 --format=%h)"
for part in "$@"; do
    "try_$part"
done
[ -z "${PICTURES:-}" ] || cp "$work/log" "$PICTURES/"
echo "$passed passed, $failed failed"
[ "$((passed + failed))" -gt 0 ] || exit 2
[ "$failed" -eq 0 ]
