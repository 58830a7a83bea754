#!/bin/sh
# Tests what bindings/build.sh built, against the proved program or the PROGRAM that is named. It needs python3, and it says what it could not
# run if one of these is missing: cc for the libraries for C; rt and objdump for build.sh; mypy for the types of the Python module; for the page
# chromium (apt-get install -y --no-install-recommends chromium), or the browser of that kind that the variable CHROMIUM names, and firefox or
# firefox-esr (apt-get install -y --no-install-recommends firefox-esr), or the one that the variable FIREFOX names.
#
#   bindings/test.sh [PROGRAM]
#
# The last line is `N passed, M failed`, and the status is 0 only if none failed.
set -eu
bindings=$(dirname -- "$(readlink -f -- "$0")")
top=$(dirname -- "$bindings")
out=$bindings/out
program=${1:-$top/crates/mat_main/out/mat_main}
work=$(mktemp -d)
trap 'rm -rf "$work"' EXIT
trap 'exit 70' HUP INT TERM
passed=0 failed=0
chromium=$(command -v "${CHROMIUM:-chromium}" || true)
firefox=$(command -v "${FIREFOX:-firefox}" || { [ -z "${FIREFOX:-}" ] && command -v firefox-esr; } || true)

# Tells a test that cannot be run here: cannot NAME WHY
cannot() { echo "not run: $1: $2"; }

# Runs a test and counts it: try NAME COMMAND ..
try() {
    name=$1
    shift
    echo "test.sh: $name"
    if "$@"; then
        passed=$((passed + 1))
    else
        failed=$((failed + 1))
        echo "test.sh: $name: FAILED"
    fi
}

# Compiles a test in C with a library, with more words for the linker if it has some: compile TEST LIBRARY WORD ..
compile() {
    name=$1 library=$2
    shift 2
    cc -std=c11 -O2 -Wall -Wextra -Werror -I"$out" "$bindings/tests/$name.c" "$out/$library.a" -pthread "$@" -o "$work/$name"
}

# Compiles a test and runs it, which counts as one: compile_and_run TEST LIBRARY WORD ..
compile_and_run() { compile "$@" && "$work/$1"; }

# Whether something of bindings/out is there, and the compiler if it is for C. Else says what is missing, for the test NAME: is_built NAME FILE
is_built() {
    case $2 in
        *.a) command -v cc >/dev/null || { cannot "$1" "there is no C compiler cc"; return 1; } ;;
    esac
    [ -e "$out/$2" ] || { cannot "$1" "bindings/out/$2 is not there; bindings/build.sh builds it"; return 1; }
}

# Tries a library for C against bad use: try_use NAME TEST LIBRARY
try_use() {
    ! is_built "$1" "$3.a" || try "$1" compile_and_run "$2" "$3" -Wl,--wrap=malloc,--wrap=realloc,--wrap=free
}

# Compiles what calls a library by words and files, and sets `caller` to it, or to `-` if it cannot be made: make_caller NAME LIBRARY
make_caller() {
    caller=-
    is_built "the answers by $2" "$2.a" || return 0
    if compile "$1" "$2"; then
        caller=$work/$1
    else
        failed=$((failed + 1))
        echo "test.sh: $1.c is not compiled: FAILED"
    fi
}

# Tries the module for JavaScript in node or in a browser: try_javascript ENGINE
try_javascript() {
    ! is_built "the module for JavaScript in $1" matbench.wasm || try "the module for JavaScript in $1" python3 "$bindings/tests/javascript.py" "$1"
}

# Tries the page and both modules in a browser: try_browser BROWSER
try_browser() {
    try_javascript "$1"
    ! is_built "the page in $1" matbench.html || try "the page in $1" env BROWSER="$1" python3 "$bindings/tests/page.py"
    if [ "$line" != - ] && is_built "the module of the static library in $1" matbench_line.wasm; then
        try "the module of the static library in $1" env BROWSER="$1" python3 "$bindings/tests/line_module.py" "$line"
    fi
}

# Tries build.sh, and the libraries for C, with a compiler of the machine that hardens what it makes.
try_hardened() {
    what="build.sh and programs with a compiler that hardens"
    for needed in rt cc objdump; do
        command -v "$needed" >/dev/null || { cannot "$what" "there is no $needed"; return 0; }
    done
    try "$what" python3 "$bindings/tests/hardened_build.py"
}

# Tries the wheel and the archive for C, if bindings/pack.py made both.
try_packages() {
    what="the wheel and the archive for C"
    if ! ls "$out"/matbench-*.whl "$out"/matbench-c-*.tar.xz >/dev/null 2>&1; then
        cannot "$what" "they are not there; bindings/pack.py makes them"
    elif ! command -v cc >/dev/null; then
        cannot "$what" "there is no C compiler cc"
    else
        try "$what" python3 "$bindings/tests/packages.py"
    fi
}

[ -x "$program" ] || { echo "test.sh: $program is not built" >&2; exit 70; }
command -v python3 >/dev/null || { echo "test.sh: there is no python3" >&2; exit 70; }
make_caller call libmatbench
call=$caller
make_caller line libmatbench_line
line=$caller
try_use "bad use of the C library" bad_use libmatbench
try_use "bad use of the static library" line_use libmatbench_line
if command -v cc >/dev/null; then
    try "the texts of statuses" python3 "$bindings/tests/statuses.py"
else
    cannot "the texts of statuses" "there is no C compiler cc"
fi
if is_built "the Python module" libmatbench.so; then
    try "the Python module" python3 "$bindings/tests/python_module.py"
fi
try "the commands of the Python package" env MATBENCH_PROGRAM="$program" python3 "$bindings/tests/command_line.py"
try "trusses and plans in Python" env MATBENCH_PROGRAM="$program" python3 "$bindings/tests/planning.py"
try "further limits in Python" env MATBENCH_PROGRAM="$program" python3 "$bindings/tests/further_limits.py"
if command -v mypy >/dev/null; then
    try "the types of the Python module" env MYPYPATH="$bindings" mypy --strict --cache-dir="$work/types" -p matbench
else
    cannot "the types of the Python module" "there is no mypy"
fi
if is_built "the programs of docs/BINDINGS.md" libmatbench.a && is_built "the programs of docs/BINDINGS.md" libmatbench_line.a; then
    try "the programs of docs/BINDINGS.md" python3 "$bindings/tests/documents.py"
fi
try_hardened
try_packages
if command -v node >/dev/null; then
    try "the rules of the page for rosters" python3 "$bindings/tests/roster_rules.py"
    try "the rules of the page for networks and frames" python3 "$bindings/tests/page_rules.py"
fi
if command -v node >/dev/null; then try_javascript node; else cannot "the module for JavaScript in node" "there is no node"; fi
[ -n "$chromium" ] || cannot "the page in Chromium" "there is no ${CHROMIUM:-chromium}"
[ -n "$firefox" ] || cannot "the page in Firefox" "there is no ${FIREFOX:-firefox}"
for browser in ${chromium:+"$chromium"} ${firefox:+"$firefox"}; do try_browser "$browser"; done
if is_built "the answers" libmatbench.so; then
    [ -e "$out/matbench.html" ] || chromium='' firefox=''
    try "the answers" python3 "$bindings/tests/answers.py" "$program" "$call" "$line" ${chromium:+"$chromium"} ${firefox:+"$firefox"}
fi
echo "$passed passed, $failed failed"
[ "$failed" -eq 0 ]
