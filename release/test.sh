#!/bin/sh
# Runs what is tested by hand before a release, over the built program of this checkout or over PROGRAM.
#
#   release/test.sh [PROGRAM]            all of it
#   release/test.sh --quick [PROGRAM]    what takes less than a minute on two processors, and needs no browser and no kit
#
# Each test is told as it begins and as it ends. The whole output of one that failed is kept, and its end is shown. What cannot be run here is
# told with its reason, and neither passes nor fails. The last line is `N passed, M failed`: a test whose own last line has this form counts as
# many as it says, any other one as 1. The status is 0 only if none failed.
set -u
top=$(CDPATH='' cd -- "$(dirname -- "$(readlink -f -- "$0")")/.." && pwd) || exit 70
quick=no passed=0 failed=0 kept=0

usage() {
    echo "usage: release/test.sh [--quick] [PROGRAM]" >&2
    exit 64
}

# Removes the outputs of the tests, but for those that are kept.
clean_up() {
    rm -f "$logs/not_run"
    [ "$kept" -gt 0 ] || rm -rf "$logs"
}

has() { command -v "$1" >/dev/null 2>&1; }

# Tells a test that cannot be run here: cannot NAME WHY
cannot() { echo "not run: $1: $2" | tee -a "$logs/not_run"; }

# Adds what a test counted: count STATUS LOG. Sets `ended` to what is told of it, and `bad` to how many failed.
count() {
    good=0 bad=0
    counted=$(tail -n 1 "$2" | sed -n 's/^\([0-9][0-9]*\) passed, \([0-9][0-9]*\) failed$/\1 \2/p')
    if [ -n "$counted" ]; then
        good=${counted% *} bad=${counted#* }
        [ "$good" -gt 0 ] || [ "$bad" -gt 0 ] || { [ "$1" -eq 0 ] && bad=1; }
    elif [ "$1" -eq 0 ]; then
        good=1
    fi
    [ "$1" -eq 0 ] || [ "$bad" -gt 0 ] || bad=1
    passed=$((passed + good)) failed=$((failed + bad))
    ended="$good passed, $bad failed"
}

# Runs a test: run NAME COMMAND ..
run() {
    name=$1 log=$logs/$(printf '%s' "$1" | tr -c 'A-Za-z0-9' _)
    shift
    echo "begins: $name"
    began=$(date +%s)
    "$@" >"$log" 2>&1 </dev/null
    count "$?" "$log"
    echo "ended:  $name: $ended, $(($(date +%s) - began)) s"
    grep '^not run: ' "$log" | sed "s/^not run: /not run: $name: /" | tee -a "$logs/not_run"
    if [ "$bad" -eq 0 ]; then
        rm -f "$log"
    else
        kept=$((kept + 1))
        echo "  the end of its output, which is kept as $log:"
        tail -n 20 "$log" | sed 's/^/    /'
    fi
}

# Runs a test if a command is there, and else says that it is not: run_by COMMAND NAME COMMAND ..
run_by() {
    needed=$1
    shift
    if has "$needed"; then run "$@"; else cannot "$1" "there is no $needed"; fi
}

# Runs a test if a file is there, and else says why it is not: run_over FILE WHY NAME COMMAND ..
run_over() {
    file=$1 why=$2
    shift 2
    if [ -e "$file" ]; then run "$@"; else cannot "$1" "$why"; fi
}

# The tests of the Python module, if its library was built after the program.
run_python_module() {
    if [ -n "$(find bindings/out/libmatbench.so -newer "$program" 2>/dev/null)" ]; then
        run_by python3 "the Python module" python3 bindings/tests/python_module.py
    else
        cannot "the Python module" "bindings/build.sh has not built it since the program was built"
    fi
}

# What needs no browser and no kit, and takes less than a minute. No part of it depends on how fast the machine is.
run_quick() {
    run_by python3 "what the documents show" python3 tests/shown.py "$program"
    run_by python3 "tables of spreadsheets" python3 tests/spreadsheets.py 40 1 "$program"
    run_by python3 "trusses" python3 tests/trusses.py 40 1 "$program"
    run_by python3 "plans" python3 tests/plans.py 10 1 "$program"
    run_by python3 "further limits" python3 tests/limits.py 10 1 "$program"
    run_by python3 "random problems" python3 tests/soak.py --problems 40 1 "$program"
    run_python_module
    run_by python3 "the picture of the crates" python3 docs/crates.py --check
    run_by python3 "what planted bugs quote" python3 tests/planted.py --read
    run_by mandoc "the man page" mandoc -Tlint -Wwarning docs/matbench.1
}

# Larger problems with further limits, which HiGHS judges, if scipy is there.
run_by_highs() {
    if python3 -c 'import scipy.optimize' 2>/dev/null; then
        run "further limits, by HiGHS" python3 tests/limits_by_highs.py 60 1 "$program"
    else
        cannot "further limits, by HiGHS" "this python3 has no scipy"
    fi
}

# Runs shellcheck over each shell script of the repository, if it is here and git knows them.
run_shellcheck() {
    if has shellcheck && git ls-files --error-unmatch matbench >/dev/null 2>&1; then
        run "the shell scripts" check_scripts
    else
        cannot "the shell scripts" "there is no shellcheck, or this is no checkout of git"
    fi
}

check_scripts() {
    git ls-files -z | xargs -0 grep -lZE '^#!/bin/(sh|bash)' | xargs -0 shellcheck -x
}

# The reports, which GNU time measures.
run_reports() {
    if [ -x /usr/bin/time ]; then
        run "words and pictures at 500 elements" python3 tests/reports.py "$program"
    else
        cannot "words and pictures at 500 elements" "there is no GNU time"
    fi
}

run_all() {
    run_by python3 "what the documents show" python3 tests/shown.py "$program"
    run_by python3 "tables of spreadsheets" python3 tests/spreadsheets.py 100 1 "$program"
    run_by python3 "trusses" python3 tests/trusses.py 1000 1 "$program"
    run_by python3 "plans" python3 tests/plans.py 200 1 "$program"
    run_by python3 "further limits" python3 tests/limits.py 150 1 "$program"
    run_by_highs
    run_by mandoc "the man page" mandoc -Tlint docs/matbench.1
    run_by python3 "the picture of the crates" python3 docs/crates.py --check
    run_shellcheck
    run "the launcher" env --default-signal=INT tests/launcher_test.sh
    run_reports
    run_by cc "memory that is refused" python3 tests/refused_memory.py "$program"
    run_by python3 "random problems for a minute" python3 tests/soak.py 60 1 "$program"
    run_by python3 "what measures proofs" python3 tests/costs_test.py
    run_by rt "what hands on proofs" python3 tests/kept_test.py
    run_by rt "what tries planted bugs" python3 tests/planted_test.py
    run_by rt "wrong bodies that the gate leaves out" tests/planted.py
    run "the scripts for many machines" sh examples/many/try.sh
    run_over bindings/out/libmatbench.so "bindings/build.sh has not built them" "the bindings" bindings/test.sh "$program"
    run_release
}

# Whether the release is that of the proved program, and is made again byte for byte.
run_release() {
    run_over release/check.sh "there is no release/check.sh" "the release fits the proved program" release/check.sh
    if [ ! -e release/make.sh ]; then
        cannot "the release, made anew" "there is no release/make.sh"
    else
        run_by rt "the release, made anew" release/make.sh --check
    fi
}

if [ "${1:-}" = --quick ]; then
    quick=yes
    shift
fi
case $#:${1:-} in
    0:) program=$top/crates/mat_main/out/mat_main ;;
    1:-* | 1:) usage ;;
    1:*) program=$(readlink -f -- "$1") || { echo "test.sh: $1: there is no such program" >&2; exit 70; } ;;
    *) usage ;;
esac
if [ ! -f "$program" ] || [ ! -x "$program" ]; then
    echo "test.sh: $program: there is no such program; ./matbench --version puts it there" >&2
    exit 70
fi
cd "$top" || exit 70
MATBENCH=$program
export MATBENCH
logs=$(mktemp -d "${TMPDIR:-/tmp}/matbench-test.XXXXXX") || exit 70
: >"$logs/not_run"
trap clean_up EXIT
trap 'exit 130' HUP INT TERM
if [ "$quick" = yes ]; then run_quick; else run_all; fi
if [ -s "$logs/not_run" ]; then
    echo "not run here:"
    sed 's/^not run: /  /' "$logs/not_run"
fi
echo "$passed passed, $failed failed"
[ "$failed" -eq 0 ]
