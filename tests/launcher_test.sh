#!/bin/sh
# Tries ./matbench and ./prove on a small checkout, with stand-ins for rt, which sleeps, writes the lines that the launcher reads and makes a
# program, for df, and for the released program. Nothing is proved, and nothing outside a temporary folder is written. Needs Linux with setsid, flock, script and timeout, and to be
# started with Ctrl-C not ignored, as it is behind an & of a script: a shell cannot trap what was ignored when it began.
#
#     tests/launcher_test.sh [SHELL..]
#
# Each SHELL, "bash --posix", say, runs the launcher; without one, those that are here of dash, bash --posix and busybox sh. Each
# check has a line that tells what was seen; the last line counts, and the status is 1 if one is wrong.
set -u
top=$(dirname -- "$(dirname -- "$(readlink -f -- "$0")")")
work=$(mktemp -d) && chmod 755 "$work" || exit 1
trap 'rm -rf "$work"' EXIT
trap 'exit 1' HUP INT TERM
rights=0 wrongs=0
answer="an answer to intersect file"

# Makes the stand-in: `rt doc`, and `rt ci`, of all or of a crate that stands on none, to which each crate takes STAND_IN_SECONDS. A crate with the word WRONG is not proved, and
# one with SLOW takes half a minute; the run of a program with FAILS goes wrong.
make_stand_in() {
    mkdir -p "$work/kit/bin" "$work/rattle-kept"
    cat >"$work/kit/bin/rt" <<'END'
#!/bin/sh
kit=$(dirname "$(dirname "$(readlink -f "$0")")")
kept=$kit/../rattle-kept
[ "$1" = doc ] && echo "${STAND_IN_DOC:-$kit/START-HERE.md}" && exit
{ [ "$1" = ci ] && [ "$#" -le 2 ]; } || exit 2
echo "$*" >>"$kit/calls"
echo "${RT_JOBS:-none}" >>"$kit/jobs"
if [ "$#" = 2 ]; then
    [ "${CI:-}" != true ] || { echo "rt: rt ci with names is not the gate: run it with none in .ci/run" && exit 2; }
    # (as rt, which leaves its copy where a signal ends it)
    copy=$(mktemp -d "${TMPDIR:-/tmp}/rt-copy-XXXXXX") && cp -R crates crates.txt "$copy/" && cd "$copy" || exit 2
fi
rm -rf failed crates/*/out
prove() {
    for below in $2; do
        [ -d "crates/$below" ] || continue
        until [ -e "crates/$below/out/proved" ]; do
            [ ! -e failed ] || return
            sleep 0.1
        done
    done
    mkdir "crates/$1/out"
    sum=$(cat crates/*/src/* | cksum | cut -d ' ' -f 1)
    if [ -e "$kept/$1-$sum" ]; then
        echo "rt: $1 is kept: an earlier run on this machine proved the same files over the same libraries"
    else
        ! grep -q SLOW "crates/$1/src/lib.rt" 2>/dev/null || sleep 30
        sleep "$STAND_IN_SECONDS"
        if grep -q WRONG "crates/$1/src/lib.rt" 2>/dev/null; then
            touch failed
            printf '== %s\n%s\nfn %s::f: not proved\nrt: %s NOT PROVED\n' "$1" "src/lib.rt:2:1: error: the two sides differ" "$1" "$1"
            return
        fi
        echo "$1" >>"$kit/proved"
        touch "$kept/$1-$sum"
        printf '== %s\nfn %s::f: proved\nrt: %s proved\n' "$1" "$1" "$1"
    fi
    [ "$1" != mat_main ] || { cp "$kit/program" crates/mat_main/out/mat_main; }
    touch "crates/$1/out/proved"
}
while IFS=: read -r name uses; do
    [ "${2:-${name%% *}}" != "${name%% *}" ] || prove "${name%% *}" "$uses" &
done <crates.txt
wait
if [ "$#" = 2 ]; then
    [ ! -e failed ] && echo "1 passed, 0 failed"
    result=$?
    rm -rf "$copy"
    exit "$result"
fi
if grep -q FAILS crates/mat_main/src/lib.rt; then
    printf 'rt: mat_main: the program ended with status 1, and not 0\nrt: mat_main: its tests passed\nrt: FAILED: mat_main (run)\n5 passed, 1 failed\n'
    exit 1
fi
[ ! -e failed ] && echo "$(grep -c . crates.txt) passed, 0 failed" || { echo "rt: FAILED: some"; echo "0 passed, 1 failed"; exit 1; }
END
    # shellcheck disable=SC2016
    printf '#!/bin/sh\necho "Filesystem 1048576-blocks Used Available Capacity Mounted on"\necho "disk 90000 85000 ${STAND_IN_FREE:-5000} 95%% /"\n' >"$work/kit/bin/df"
    make_program "an answer" >"$work/kit/program"
    chmod 755 "$work/kit/bin/rt" "$work/kit/bin/df" "$work/kit/program"
}

# Prints a stand-in for the program, which answers with these words and the status 3.
make_program() {
    printf '#!/bin/sh\n[ "$*" != --version ] || exit 0\necho "%s to $*"\nexit 3\n' "$1"
}

# The checksum of the sources of the checkout, of each name and each byte.
sum_of_checkout() {
    { printf '%s\n' HANDLES crates.txt; find crates -type f | grep -E '^crates/[^/]*/(src|specs|proofs)/'; } | LC_ALL=C sort | xargs sha256sum | sha256sum | cut -c 1-64
}

# Puts a program of these words into release/, as that of the sources as they are now.
make_release() {
    mkdir -p release
    make_program "$1" >"$work/released"
    gzip -nc "$work/released" >release/matbench-x86_64-linux.gz
    printf 'sources %s\nprogram %s\n' "$(sum_of_checkout)" "$(sha256sum <"$work/released" | cut -c 1-64)" >release/CONTENTS
}

# Makes a checkout of the launcher and seven small crates, nothing of which is built or kept.
make_checkout() {
    rm -rf "$work/checkout" "$work/kit/proved" "$work/kit/calls" "$work/kit/jobs" "$work/tmp" "$work/rattle-kept" "$work"/err* "$work"/out*
    mkdir -p "$work/checkout" "$work/tmp" "$work/rattle-kept"
    ln -sfn tmp "$work/link"
    cp -R "$top/matbench" "$top/prove" "$top/launcher" "$work/checkout/"
    cd "$work/checkout" || exit 1
    printf '# Lowest first.\nmat_sets:\nmat_work tests_may=Threads:\nmat_laws: mat_sets\nmat_words: mat_sets thiserror\nmat_top: mat_laws mat_words mat_work\n' >crates.txt
    printf 'mat_main: mat_top\nmat_trials: mat_top\n' >>crates.txt
    echo 'Handles allowed: Threads.' >HANDLES
    for crate in sets work laws words top main trials; do
        mkdir -p "crates/mat_$crate/src" "crates/mat_$crate/specs" "crates/mat_$crate/proofs" "crates/mat_$crate/must-fail"
        echo "// The crate $crate." >"crates/mat_$crate/src/lib.rt"
    done
    printf 'pub(crate) const HELP: &str = "\\\nThe help.\n";\n' >crates/mat_main/src/help.rt
    cat >launcher/seconds.txt <<'END'
# Seconds.
mat_sets 126 - 161
mat_work 5 45 74
mat_laws 10 - 80
mat_words 107 - 174
mat_top 522 - 714
mat_main 71 59 -
END
}

# Runs the launcher, or the script that `script` names, with its words, and keeps what it wrote and its status.
run() {
    # shellcheck disable=SC2086
    PATH=$work/kit/bin:$PATH TMPDIR=$work/link STAND_IN_SECONDS=${pause:-0.2} timeout 60 ${as:-} $shell "$work/checkout/${script:-matbench}" "$@" \
        >"$work/out" 2>"$work/err" </dev/null
    status=$?
}

# The same with no tool on the search path.
run_without_tool() {
    # shellcheck disable=SC2086
    PATH=/usr/bin:/bin TMPDIR=$work/link timeout 60 $shell "$work/checkout/${script:-matbench}" "$@" >"$work/out" 2>"$work/err" </dev/null
    status=$?
}

# Starts the launcher beside the test, with the number N of what it writes.
start() {
    number=$1
    shift
    rm -f "$work/out$number" "$work/err$number"
    # shellcheck disable=SC2086
    PATH=$work/kit/bin:$PATH TMPDIR=$work/link STAND_IN_SECONDS=${pause:-0.2} $shell "$work/checkout/${script:-matbench}" "$@" \
        >"$work/out$number" 2>"$work/err$number" </dev/null &
}

# Tells whether what was seen is as it should be.
tell() {
    if [ "$2" = "$3" ]; then
        echo "ok: $1: $2"
        rights=$((rights + 1))
    else
        echo "WRONG: $1: $2, and not $3"
        wrongs=$((wrongs + 1))
    fi
}

# How many processes work in a folder of a build, and how many such folders there are.
left_behind() {
    echo "$(readlink /proc/[0-9]*/cwd 2>/dev/null | grep -c "^$work/tmp/") processes, $(find "$work/tmp" -mindepth 1 -maxdepth 1 | wc -l) folders"
}

# The crates that the stand-in proved since the checkout was made, each as often as it was proved.
proved() {
    if [ -e "$work/kit/proved" ]; then sort "$work/kit/proved" | tr '\n' ' '; fi
}

# Waits until a file has a line, at most half a minute.
wait_for() {
    tries=0
    until grep -q "$2" "$1" 2>/dev/null || [ "$tries" -gt 300 ]; do
        sleep 0.1
        tries=$((tries + 1))
    done
}

try_first_build() {
    make_checkout
    run intersect file
    tell "a first build: status and answer" "$status $(cat "$work/out")" "3 $answer"
    tell "its crates, without those that the program does not stand on" "$(proved)" "mat_laws mat_main mat_sets mat_top mat_words mat_work "
    tell "the lowest crate is proved before the others" "$(tr '\n' ' ' <"$work/kit/calls")" "ci mat_sets ci "
    tell "it says how long that takes, by the longest chain of crates" "$(grep -c 'takes about 28 minutes' "$work/err")" 1
    tell "no terminal: plain lines, none of them written over" "$(grep -c "^matbench: [0-6] of 6 crates proved; 0 min so far, about" "$work/err" | sed 's/^[1-9][0-9]*$/some/') $(tr -dc '\r\033' <"$work/err" | wc -c)" "some 0"
    tell "left behind" "$(left_behind)" "0 processes, 0 folders"
    run intersect file
    tell "once more: status, answer, and not a word beside" "$status $(cat "$work/out" "$work/err")" "3 $answer"
    mkdir -p "$work/bin" && ln -sf "$work/checkout/matbench" "$work/bin/matbench"
    tell "by a link on the path" "$(cd / && "$work/bin/matbench" intersect file)" "$answer"
    touch "$work/checkout/crates/mat_laws/src/lib.rt"
    run intersect file
    tell "a source is touched, and not changed: not built again" "$status $(cat "$work/out" "$work/err") $(grep -c . "$work/kit/calls")" "3 $answer 2"
    echo "// More." >"$work/checkout/crates/mat_trials/proofs/More"
    run intersect file
    tell "a source more: built again from what is kept" "$status $(cat "$work/out") $(proved)" "3 $answer mat_laws mat_main mat_sets mat_top mat_words mat_work "
}

try_without_tool() {
    make_checkout
    run_without_tool --help
    tell "the help without a program" "$status $(cat "$work/out")" "0 The help."
    run_without_tool --version
    tell "no tool on the path" "$status $(cat "$work/out" "$work/err")" "70 matbench: no program is there that is made of these sources (git status crates crates.txt HANDLES shows what was changed); building it needs rt, which is not on the search path: see README.md, To prove it here"
}

try_lacking() {
    make_checkout
    mkdir -p "$work/few" && ln -sf /usr/bin/* "$work/few/" && rm "$work/few/flock"
    # shellcheck disable=SC2086
    seen=$(PATH=$work/kit/bin:$work/few $shell "$work/checkout/matbench" --version 2>&1 </dev/null)
    tell "no flock on the path" "$? $seen" "70 matbench: no program is there that is made of these sources (git status crates crates.txt HANDLES shows what was changed); building it needs flock, which is not on the search path: see README.md, To prove it here"
    touch "$work/checkout/crates/mat_main/out"
    run --version
    tell "out/ cannot be written" "$status $(cat "$work/err")" "70 matbench: no program is there that is made of these sources (git status crates crates.txt HANDLES shows what was changed); it cannot be built, since $work/checkout/crates/mat_main/out cannot be written to"
    rm "$work/checkout/crates/mat_main/out"
    STAND_IN_DOC=$work/nowhere/kit/START-HERE.md
    export STAND_IN_DOC
    run intersect file
    unset STAND_IN_DOC
    tell "what cannot be kept is not proved before the others" "$(cat "$work/kit/calls")" "ci"
    tell "nothing more can be kept" "$status $(grep 'nothing more' "$work/err")" "3 matbench: nothing more can be kept in $work/nowhere/rattle-kept: an interrupted build proves again what is not kept there"
    make_checkout
    STAND_IN_FREE=4999
    export STAND_IN_FREE
    run intersect file
    unset STAND_IN_FREE
    tell "a full disk: nothing more can be kept" "$status $(grep -c 'nothing more can be kept' "$work/err") $(cat "$work/kit/calls")" "3 1 ci"
    make_checkout
    mv "$work/rattle-kept" "$work/elsewhere" && ln -s elsewhere "$work/rattle-kept"
    run intersect file
    rm -rf "$work/rattle-kept" "$work/elsewhere"
    tell "a link in place of the folder: nothing more can be kept" "$status $(grep -c 'nothing more can be kept' "$work/err") $(cat "$work/kit/calls")" "3 1 ci"
    make_checkout
    CI=true
    export CI
    run intersect file
    unset CI
    tell "with CI=true in the environment" "$status $(cat "$work/out")" "3 $answer"
}

try_failure() {
    make_checkout
    run intersect file
    echo "// WRONG" >>"$work/checkout/crates/mat_laws/src/lib.rt"
    echo "// SLOW" >>"$work/checkout/crates/mat_words/src/lib.rt"
    before=$(date +%s)
    run intersect file
    tell "a build that fails beside an older program: status, and no answer" "$status $(cat "$work/out")" "70 "
    tell "the one error, last" "$(tail -n 2 "$work/err" | tr '\n' '/')" "matbench: the program could not be built/mat_laws: src/lib.rt:2:1: error: the two sides differ/"
    tell "a slow crate beside it was ended" "$([ $(($(date +%s) - before)) -lt 20 ] && echo "at once")" "at once"
    tell "left behind" "$(left_behind)" "0 processes, 0 folders"
    sed -i '/WRONG/d' "$work/checkout/crates/mat_laws/src/lib.rt"
    sed -i '/SLOW/d' "$work/checkout/crates/mat_words/src/lib.rt"
    run intersect file
    tell "mended" "$status $(cat "$work/out")" "3 $answer"
    echo "// FAILS" >>"$work/checkout/crates/mat_main/src/lib.rt"
    run intersect file
    tell "all is proved, and the program's stored run fails" "$status $(cat "$work/out")$(tail -n 1 "$work/err")" "70 rt: mat_main: the program ended with status 1, and not 0"
}

# What a function of the launcher prints, with these processors, and in a control group whose files are in a folder: with_launcher PROCESSORS FREE GROUPS FUNCTION
with_launcher() {
    # shellcheck disable=SC2016,SC2086
    $shell -c 'top=$1 && . "$top/launcher/sources.sh" && . "$top/launcher/build.sh" && processors=$2 groups=$4
        [ -z "$3" ] || eval "free_megabytes() { echo $3; }"
        nproc() { echo 16; }
        $5' sh "$top" "$@"
}

try_jobs() {
    make_checkout
    printf 'count_processors() { echo 3; }\nfree_megabytes() { echo 5200; }\n' >>launcher/build.sh
    run intersect file
    tell "how many crates at a time: the tool decides for the first alone, and memory for all" "$status $(tr '\n' ' ' <"$work/kit/jobs")" "3 none 2 "
    echo 'free_megabytes() { echo 18000; }' >>launcher/build.sh
    echo "// More." >>crates/mat_laws/src/lib.rt
    rm "$work/kit/jobs"
    run intersect file
    tell "with much memory the tool decides" "$status $(tr '\n' ' ' <"$work/kit/jobs")" "3 none none "
    make_checkout
    RT_JOBS=7
    export RT_JOBS
    run intersect file
    unset RT_JOBS
    tell "as many as the user says" "$status $(tr '\n' ' ' <"$work/kit/jobs")" "3 7 7 "
    tell "by memory: one for each 2,500 MB" "$(with_launcher 4 7499 / jobs_by_memory)" 2
    tell "one for each processor" "$(with_launcher 4 23999 / jobs_by_memory)" 4
    tell "one at least" "$(with_launcher 4 100 / jobs_by_memory)" 1
    tell "with 6,000 MB for each processor the tool decides" "$(with_launcher 4 24000 / jobs_by_memory)$(with_launcher 2 12000 / jobs_by_memory)" ""
    tell "of more than four processors, for four" "$(with_launcher 16 23999 / jobs_by_memory) $(with_launcher 16 24000 / jobs_by_memory)" "9 "
    mkdir -p "$work/groups/cpu" "$work/groups/memory"
    tell "no control group" "$(with_launcher 4 "" "$work/groups" count_processors)" 16
    printf '300000 100000\n' >"$work/groups/cpu.max"
    printf '1073741824\n' >"$work/groups/memory.max"
    printf 'file 5\nanon 104857600\n' >"$work/groups/memory.stat"
    tell "what a control group allows" "$(with_launcher 4 "" "$work/groups" count_processors) $(with_launcher 4 "" "$work/groups" free_megabytes)" "3 924"
    printf 'max 100000\n' >"$work/groups/cpu.max"
    printf 'max\n' >"$work/groups/memory.max"
    printf '50000\n' >"$work/groups/cpu/cpu.cfs_quota_us"
    printf '100000\n' >"$work/groups/cpu/cpu.cfs_period_us"
    printf '2147483648\n' >"$work/groups/memory/memory.limit_in_bytes"
    printf 'rss 7\ntotal_rss 1048576\n' >"$work/groups/memory/memory.stat"
    tell "what one of the older form allows" "$(with_launcher 4 "" "$work/groups" count_processors) $(with_launcher 4 "" "$work/groups" free_megabytes)" "1 2047"
    rm -rf "$work/groups"
}

# Breaks a build off by a signal once mat_sets is proved, and begins it again.
try_broken_off() {
    make_checkout
    pause=1.5 start 1 intersect file
    launcher=$!
    wait_for "$work/kit/proved" mat_sets
    kill "-$1" "$launcher"
    wait "$launcher" 2>/dev/null
    tell "broken off by $1: status and answer" "$? $(cat "$work/out1")" "$2 "
    tell "the lowest crate is under way first" "$(grep -c '^matbench: 0 of 6 crates proved; .*under way: mat_sets$' "$work/err1")" 1
    [ "$1" = KILL ] && sleep 3
    tell "left behind" "$(left_behind)" "0 processes, 0 folders"
    run intersect file
    tell "begun again" "$status $(cat "$work/out")" "3 $answer"
    tell "no crate is proved twice that was proved" "$(proved | tr ' ' '\n' | grep -c mat_sets)" 1
}

# Kills the tool of a build once mat_sets is proved.
try_lost_tool() {
    make_checkout
    pause=1.5 start 1 intersect file
    launcher=$!
    wait_for "$work/kit/proved" mat_sets
    kill -s KILL -- "-$(cat "$work"/tmp/matbench-*/leader)"
    wait "$launcher"
    tell "the tool is killed: status, answer, and what it says" "$? $(cat "$work/out1") $(grep -c 'could not be built' "$work/err1")" "70  1"
    tell "left behind" "$(left_behind)" "0 processes, 0 folders"
}

try_two_at_once() {
    make_checkout
    pause=0.5 start 1 intersect file
    first=$!
    wait_for "$work/err1" "building the program"
    pause=0.5 start 2 intersect file
    second=$!
    wait "$first"
    tell "two at once: the first" "$? $(cat "$work/out1")" "3 $answer"
    wait "$second"
    tell "the second" "$? $(cat "$work/out2")" "3 $answer"
    tell "what the second says" "$(cat "$work/err2")" "matbench: another ./matbench or ./prove is building the program in this checkout; waiting for it"
    tell "each crate is proved once" "$(proved)" "mat_laws mat_main mat_sets mat_top mat_words mat_work "
    make_checkout
    pause=1.5 start 1 intersect file
    first=$!
    wait_for "$work/kit/proved" mat_sets
    start 2 intersect file
    second=$!
    wait_for "$work/err2" waiting
    kill -KILL "$first"
    wait "$second"
    tell "the first is killed: the second builds" "$? $(cat "$work/out2") $(grep -c 'the program is built' "$work/err2")" "3 $answer 1"
    tell "left behind" "$(left_behind)" "0 processes, 0 folders"
}

try_change() {
    make_checkout
    pause=1.5 start 1 intersect file
    launcher=$!
    wait_for "$work/kit/proved" mat_sets
    echo "// More." >>"$work/checkout/crates/mat_words/src/lib.rt"
    wait "$launcher"
    tell "a source is changed during the build: status and answer" "$? $(cat "$work/out1")" "70 "
    tell "what it says last" "$(tail -n 1 "$work/err1")" "matbench: a source changed during the build; run the command again"
    tell "left behind" "$(left_behind)" "0 processes, 0 folders"
    run intersect file
    tell "started again" "$status $(cat "$work/out")" "3 $answer"
    echo "# More." >>"$work/checkout/crates.txt"
    pause=0.5 start 1 intersect file
    launcher=$!
    wait_for "$work/err1" "of 6 crates proved"
    wait "$launcher"
    tell "a source changed after it: built again" "$? $(grep -c 'the program is built' "$work/err1")" "3 1"
    echo "# Less." >>"$work/checkout/crates.txt"
    pause=0.5 start 1 intersect file
    launcher=$!
    wait_for "$work/err1" "of 6 crates proved"
    touch "$work/checkout/crates.txt"
    wait "$launcher"
    tell "a source is touched during the build, and not changed: built" "$? $(cat "$work/out1")" "3 $answer"
    cp -p "$work/checkout/crates/mat_words/src/lib.rt" "$work/older"
    sed -i 's/The crate/The other crate/' "$work/checkout/crates/mat_words/src/lib.rt"
    run intersect file
    calls=$(grep -c . "$work/kit/calls")
    cp -p "$work/older" "$work/checkout/crates/mat_words/src/lib.rt"
    run intersect file
    tell "a source is replaced by one with an older time: built again" "$status $(($(grep -c . "$work/kit/calls") - calls))" "3 2"
}

# What the launcher says when it has unpacked the released program.
told_release() {
    printf 'matbench: this is the released program, proved elsewhere from exactly these sources (release/PROVENANCE.md)\nmatbench: %s\n' "$1"
}

try_release() {
    make_checkout
    make_release "a released answer"
    run_without_tool intersect file
    tell "a release of these sources: status and answer" "$status $(cat "$work/out")" "3 a released answer to intersect file"
    tell "what it says, in two lines" "$(cat "$work/err")" "$(told_release "./prove proves it here")"
    run intersect file
    tell "once more: not a word beside" "$status $(cat "$work/out" "$work/err")" "3 a released answer to intersect file"
    tell "nothing was proved" "$(proved)$(find "$work/checkout/crates/mat_main/out" -name '*new*' -o -name '*time*')" ""
    touch crates/mat_laws/src/lib.rt
    run intersect file
    tell "a source is touched, and not changed: the same" "$status $(cat "$work/out" "$work/err")" "3 a released answer to intersect file"
    echo "// A comment." >>crates/mat_laws/src/lib.rt
    run intersect file
    tell "a source is changed by a comment: it builds" "$status $(cat "$work/out") $(grep -c 'the program is built' "$work/err")" "3 $answer 1"
    sed -i '/A comment/d' crates/mat_laws/src/lib.rt
    run intersect file
    tell "changed back: the released program" "$status $(cat "$work/out")" "3 a released answer to intersect file"
    mv crates/mat_trials/src/lib.rt crates/mat_trials/src/moved.rt
    run intersect file
    tell "a source has another name: it builds" "$status $(cat "$work/out")" "3 $answer"
    run --help
    tell "the help of the program that is built" "$status $(cat "$work/out")" "3 an answer to --help"
}

# Changes the checkout by a command, and tells whether the released program, which is in its place, still answers: it may not.
try_other_sources() {
    made=$1
    make_checkout
    ln -s lib.rt crates/mat_words/src/link.rt
    cp -R crates/mat_laws "$work/laws"
    echo "// Other." >>"$work/laws/src/lib.rt"
    make_release "a released answer"
    run_without_tool intersect file
    sh -c "$made"
    run_without_tool intersect file
    tell "other sources: $made" "$status $(cat "$work/out")" "70 "
    rm -rf "$work/laws"
}

try_sources() {
    try_other_sources "rm -r crates/mat_laws"
    try_other_sources "rm -r crates/mat_laws/src"
    try_other_sources "rm HANDLES"
    try_other_sources "rm crates.txt"
    try_other_sources "mv crates/mat_laws crates/mat_rules"
    try_other_sources "mv crates/mat_laws x && mv crates/mat_top crates/mat_laws && mv x crates/mat_top"
    try_other_sources "rm -r crates/mat_laws && mv ../laws crates/mat_laws"
    try_other_sources "mv ../laws crates/mat_more"
    try_other_sources "rm crates/mat_laws/src/lib.rt && ln -s /etc/hostname crates/mat_laws/src/lib.rt"
    try_other_sources "rm crates/mat_words/src/link.rt && ln -s none crates/mat_words/src/link.rt"
    try_other_sources "ln -s /etc crates/mat_words/src/more"
    try_other_sources "mkfifo crates/mat_words/src/more.rt"
    try_other_sources "touch -d tomorrow crates/mat_main/out/mat_main && echo // >>crates/mat_words/src/lib.rt"
    try_other_sources "echo // >>crates/mat_words/src/link.rt && touch crates/mat_main/out/mat_main"
}

# Tries a checkout whose release cannot be used: it builds, and says why where the release is at fault.
try_release_at_fault() {
    make_checkout
    make_release "a released answer"
    head -c 60 release/matbench-x86_64-linux.gz >"$work/cut" && cp "$work/cut" release/matbench-x86_64-linux.gz
    run intersect file
    tell "a release that is cut off: it builds" "$status $(cat "$work/out")" "3 $answer"
    tell "it says so" "$(grep -c 'the released program is damaged, or .*; it is proved and built here' "$work/err")" 1
    make_checkout
    make_release "a released answer"
    make_program "a changed answer" | gzip -nc >release/matbench-x86_64-linux.gz
    run intersect file
    tell "a release with another program: it builds" "$status $(cat "$work/out")" "3 $answer"
    make_checkout
    make_release "a released answer"
    sed -i 's/^sources ./sources x/' release/CONTENTS
    run intersect file
    tell "a release with another checksum: it builds" "$status $(cat "$work/out") $(grep -c released "$work/err")" "3 $answer 0"
    make_checkout
    make_release "a released answer"
    rm release/CONTENTS
    run intersect file
    tell "a release that does not say what it is made of: it builds" "$status $(cat "$work/out")" "3 $answer"
    make_checkout
    make_release "a released answer"
    printf '#!/bin/sh\nexit 1\n' >"$work/released" && gzip -nc "$work/released" >release/matbench-x86_64-linux.gz
    sed -i "s/^program .*/program $(sha256sum <"$work/released" | cut -c 1-64)/" release/CONTENTS
    run_without_tool intersect file
    tell "a release that does not run here, and no tool" "$status $(cat "$work/err")" "70 matbench: the released program does not run in $work/checkout/crates/mat_main/out: it needs Linux on x86-64 with glibc 2.34 or later, and a folder whose programs may run; building it needs rt, which is not on the search path: see README.md, To prove it here"
    run_without_tool --help
    tell "the help without a program" "$status $(cat "$work/out")" "0 The help."
}

# Tries what only somebody else than root is kept from, as nobody where root runs this.
try_release_unreadable() {
    make_checkout
    make_release "a released answer"
    chmod 777 "$work/rattle-kept" "$work/tmp"
    as=
    [ "$(id -u)" -ne 0 ] || as="setpriv --reuid=nobody --regid=nogroup --clear-groups"
    chmod 555 crates/mat_main
    run intersect file
    tell "a checkout that cannot be written to: status and answer" "$status $(cat "$work/out")" "3 a released answer to intersect file"
    tell "what it says" "$(cat "$work/err")" "$(told_release "$work/checkout/crates/mat_main/out cannot be written to, so each command unpacks it; ./prove proves it in a copy of this folder")"
    tell "left behind" "$(left_behind) $(find crates/mat_main -name out | wc -l)" "0 processes, 0 folders 0"
    mkdir -m 755 crates/mat_main/out
    as='' run intersect file
    touch crates/mat_laws/src/lib.rt
    run intersect file
    tell "its program is in its place, and a source was touched" "$status $(cat "$work/out" "$work/err")" "3 a released answer to intersect file"
    rm -r crates/mat_main/out
    echo "// More." >>crates/mat_laws/src/lib.rt
    run intersect file
    tell "and with other sources" "$status $(cat "$work/err")" "70 matbench: no program is there that is made of these sources (git status crates crates.txt HANDLES shows what was changed); it cannot be built, since $work/checkout/crates/mat_main/out cannot be written to"
    sed -i '/More/d' crates/mat_laws/src/lib.rt
    mkdir -m 777 crates/mat_main/out
    chmod 000 release/matbench-x86_64-linux.gz
    run intersect file
    tell "a release that cannot be read: it builds" "$status $(cat "$work/out")" "3 $answer"
    chmod -R u+w crates/mat_main
    as=
}

try_release_at_once() {
    make_checkout
    make_release "a released answer"
    start 1 intersect file
    first=$!
    start 2 intersect file
    second=$!
    wait "$first"
    tell "a release and two at once: the first" "$? $(cat "$work/out1")" "3 a released answer to intersect file"
    wait "$second"
    tell "the second" "$? $(cat "$work/out2")" "3 a released answer to intersect file"
    tell "what both say" "$(cat "$work/err1" "$work/err2")" "$(told_release "./prove proves it here")"
    run --other
    script=prove pause=1.5 start 3
    prover=$!
    wait_for "$work/err3" "0 of 6 crates proved"
    run intersect file
    tell "while it is proved, the released program answers" "$status $(cat "$work/out" "$work/err")" "3 a released answer to intersect file"
    wait "$prover"
    tell "what was proved is not the released program" "$? $(tail -n 1 "$work/err3")" "1 matbench: it is NOT the released program, though release/ says that this is made of the same sources"
}

try_prove() {
    make_checkout
    make_release "an answer"
    run intersect file
    script=prove run
    tell "proved, and the released program: status and no output" "$status $(cat "$work/out")" "0 "
    tell "what it says last" "$(tail -n 2 "$work/err" | tr '\n' '/')" "matbench: the program is built/matbench: it is the released program, byte for byte: what release/ has is proved here/"
    tell "its crates" "$(proved)" "mat_laws mat_main mat_sets mat_top mat_words mat_work "
    tell "the program in its place is noted as proved" "$(grep ^by crates/mat_main/out/mat_main.origin)" "by proof"
    printf x >>release/matbench-x86_64-linux.gz
    script=prove run
    tell "a byte more in the release" "$status $(tail -n 1 "$work/err")" "1 matbench: it is NOT the released program, though release/ says that this is made of the same sources"
    make_release "an answer"
    echo "// More." >>crates/mat_laws/src/lib.rt
    script=prove run
    tell "the same program of other sources" "$status $(tail -n 1 "$work/err")" "0 matbench: it is the released program, byte for byte: what release/ has is proved here"
    make_program "another answer" | gzip -nc >release/matbench-x86_64-linux.gz
    script=prove run
    tell "another program of other sources" "$status $(tail -n 1 "$work/err")" "1 matbench: it is not the released program, which is made of other sources"
    rm release/matbench-x86_64-linux.gz
    script=prove run
    tell "no release" "$status $(tail -n 1 "$work/err")" "1 matbench: there is no released program to compare it with ($work/checkout/release/matbench-x86_64-linux.gz)"
    run intersect file
    tell "the answer of what was proved" "$status $(cat "$work/out" "$work/err")" "3 $answer"
    echo "// WRONG" >>crates/mat_laws/src/lib.rt
    script=prove run
    tell "a crate that is not proved" "$status $(tail -n 2 "$work/err" | head -n 1)" "70 matbench: the program could not be built"
    script=prove run --help
    tell "words" "$status $(grep -c '0: it is; 1: it is proved' "$work/err")" "2 1"
    script=prove run_without_tool
    tell "no tool on the path" "$status $(cat "$work/err")" "70 matbench: nothing is proved; building it needs rt, which is not on the search path: see README.md, To prove it here"
}

# Runs a launcher on a terminal, and keeps what it writes there. What comes on standard input is typed.
on_terminal() {
    PATH=$work/kit/bin:$PATH TMPDIR=$work/link STAND_IN_SECONDS=$1 TERM=xterm \
        script -qec "stty rows 24 columns $2; $shell '$work/checkout/matbench' intersect file >'$work/out'" "$work/typescript" >/dev/null
    echo "$?" >"$work/status"
}

try_terminal() {
    make_checkout
    on_terminal 1.2 60 </dev/null
    tell "on a terminal: status and answer" "$(cat "$work/status") $(cat "$work/out")" "3 $answer"
    tell "one line that is written over, cut to the terminal's width" "$(grep -a 'of 6 crates proved' "$work/typescript" | tr '\r' '\n' | sed 's/\x1b\[K//' | awk 'length > 59 { long++ } /of 6 crates/ { many++ } END { print (many > 3 ? "many" : many), long + 0 }') $(grep -ac 'of 6 crates proved' "$work/typescript")" "many 0 1"
    make_checkout
    { wait_for "$work/kit/proved" mat_sets; printf '\003'; sleep 5; } | on_terminal 1.5 80
    tell "Ctrl-C on a terminal: status" "$(cat "$work/status")" 130
    tell "what it says last" "$(tr '\r' '\n' <"$work/typescript" | grep -a '^.\[Kmatbench' | tail -n 1 | tr -d '\033')" "[Kmatbench: the build was interrupted"
    tell "left behind" "$(left_behind)" "0 processes, 0 folders"
}

# Tries all with one shell.
try_shell() {
    shell=$1
    echo "== $shell"
    try_first_build
    try_without_tool
    try_lacking
    try_failure
    try_jobs
    try_broken_off TERM 143
    try_broken_off KILL 137
    try_lost_tool
    try_two_at_once
    try_change
    try_terminal
    try_release
    try_sources
    try_release_at_fault
    try_release_unreadable
    try_release_at_once
    try_prove
}

make_stand_in
if [ "$#" -gt 0 ]; then
    for each in "$@"; do try_shell "$each"; done
else
    ! command -v dash >/dev/null || try_shell dash
    ! command -v bash >/dev/null || try_shell "bash --posix"
    ! command -v busybox >/dev/null || try_shell "busybox sh"
fi
echo "$rights passed, $wrongs failed"
[ "$wrongs" = 0 ]
