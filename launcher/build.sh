# Builds the program: proves each of its functions, and puts it in its place. Read by `.` behind sources.sh.
#
# A build copies the crates that the program stands on, without the edits that must be refused, and runs `rt ci` there, for the lowest
# crate first, if that can be kept, and then for all. `rt` proves them side by side, each as soon as those below it are proved, as many as processors and
# memory allow, the longest chain first, and keeps each one beside the kit once it is proved.
# shellcheck shell=sh disable=SC2154

# Where the system tells what control groups allow.
groups=/sys/fs/cgroup

# The lines of crates.txt for the program and the crates that it stands on.
lines_of_program() {
    awk -F: '/^[a-z]/ { split($1, word, " "); name[++n] = word[1]; line[n] = $0; uses[word[1]] = $2 }
        function need(crate,   i, below, many) {
            if (crate in needed || !(crate in uses)) return
            needed[crate] = 1
            many = split(uses[crate], below, " ")
            for (i = 1; i <= many; i++) need(below[i])
        }
        END { need("mat_main"); for (i = 1; i <= n; i++) if (name[i] in needed) print line[i] }' "$top/crates.txt"
}

# Ends if a command that a build needs is not there, or the program cannot be put in its place. A word says why there is a build.
end_if_lacking() {
    for needed in rt setsid flock python3; do
        command -v "$needed" >/dev/null 2>&1 && continue
        say "$1; building it needs $needed, which is not on the search path: see README.md, To prove it here"
        exit 70
    done
    is_place_writable && return
    say "$1; it cannot be built, since $(dirname "$program") cannot be written to"
    exit 70
}

# Waits until no other launcher builds in this checkout. The lock is on the folder, and goes with the process that holds it.
lock() {
    exec 9<"$top"
    flock -n 9 && return
    say "another ./matbench or ./prove is building the program in this checkout; waiting for it"
    flock 9
}

# Waits until the launcher has let go of the pipe, however it ended, and then ends what is left of the build and removes its folder.
guard() {
    exec <&7 7<&- 8>&- 9<&-
    trap '' HUP INT TERM
    read -r _
    leader=$(cat "$room/leader" 2>/dev/null)
    case $(readlink "/proc/${leader:-none}/cwd") in
        "$room"/*) kill -TERM "-$leader" ;;
    esac
    rm -rf "$room" 2>/dev/null || { sleep 1 && rm -rf "$room"; }
}

# Makes a folder for the build, with a guard that outlives this launcher.
make_room() {
    base=$(cd "${TMPDIR:-/var/tmp}" >/dev/null 2>&1 && pwd -P) || base=/tmp
    room=$(mktemp -d "$base/matbench-XXXXXX") && touch "$room/log" "$room/times" && mkdir "$room/tmp" && mkfifo "$room/alive" || exit 70
    exec 8<>"$room/alive"
    exec 7<"$room/alive"
    guard &
    guard=$!
    exec 7<&-
}

# Copies what the tool reads of the program's crates into the folder, as it stands now.
copy_sources() {
    mkdir -p "$room/top/.git" "$room/top/crates" && lines_of_program >"$room/top/crates.txt" || return 1
    [ ! -e "$top/HANDLES" ] || cp "$top/HANDLES" "$room/top/" || return 1
    sed 's/[ :].*//' "$room/top/crates.txt" | while read -r crate; do
        mkdir "$room/top/crates/$crate" || return 1
        for part in src specs proofs c args stdin stdout status data; do
            [ ! -e "$top/crates/$crate/$part" ] || cp -R "$top/crates/$crate/$part" "$room/top/crates/$crate/" || return 1
        done
    done
}

# Prints how many processors there are: those that the launcher may run on, or fewer by the quota of a control group.
count_processors() {
    { cat "$groups/cpu.max"; cat "$groups/cpu/cpu.cfs_quota_us" "$groups/cpu/cpu.cfs_period_us" | tr '\n' ' '; } 2>/dev/null | awk -v count="$(nproc)" '
        $1 + 0 > 0 && $2 + 0 > 0 { most = int($1 / $2); if (most < 1) most = 1; if (most < count) count = most }
        END { print count }'
}

# Prints how many MB of memory are free, also under the limit of a control group.
free_megabytes() {
    free=$(entry MemAvailable: /proc/meminfo | tr -dc 0-9)
    free=$((${free:-0} / 1024))
    while read -r limit told held; do
        most=$(cat "$groups/$limit" 2>/dev/null) used=$(entry "$held" "$groups/$told")
        case $most in '' | *[!0-9]*) continue ;; esac
        left=$(((most - ${used:-0}) / 1048576))
        [ "$left" -ge "$free" ] || free=$left
    done <<END
memory.max memory.stat anon
memory/memory.limit_in_bytes memory/memory.stat total_rss
END
    echo "$free"
}

# Prints how many crates the tool is to prove at a time if memory is scarce: one for each processor and each 2,500 MB, which no proof of a crate
# takes. The tool reckons with two to three times of what they take, and would leave processors idle. With more memory nothing is printed: the
# tool then fills the processors itself, and gives a crate several jobs if no other can be proved.
jobs_by_memory() {
    free=$(free_megabytes) few=$processors
    [ "$few" -le 4 ] || few=4
    [ "$free" -lt $((6000 * few)) ] || return 0
    jobs=$((free / 2500))
    [ "$jobs" -le "$processors" ] || jobs=$processors
    [ "$jobs" -ge 1 ] || jobs=1
    echo "$jobs"
}

# Starts the tool in a process group of its own, whose number is kept for the guard. The lowest crate, for which nearly all others wait,
# is proved before the others where it can be kept: alone it gets half of the processors, four at most. The tool does so in a copy of its own,
# where note_begun does not see it begin, and only where CI does not say that this is the gate; all crates it proves in place. RT_JOBS says how
# many at a time: the user's, or that of jobs_by_memory.
start_tool() {
    [ -z "$first" ] || echo "$first 0" >"$room/times"
    # shellcheck disable=SC2016
    setsid sh -c 'cd "$1/top" && echo "$$" >"$1/leader" && { [ -z "$2" ] || CI= TMPDIR=$1/tmp rt ci "$2" >"$1/log" 2>&1; } && RT_JOBS=$3 rt ci >>"$1/log" 2>&1
        echo "$?" >"$1/status"' sh "$room" "$first" "${RT_JOBS:-$(jobs_by_memory)}" </dev/null >/dev/null 2>&1 8>&- 9<&- &
    tool=$!
}

# Notes when each crate was begun, of those that have not been noted: the tool makes its folder out/ then.
note_begun() {
    find "$room/top/crates" -mindepth 2 -maxdepth 2 -name out | awk -v now="$seconds" -v times="$room/times" '
        BEGIN { while ((getline line < times) > 0) { split(line, word, " "); noted[word[1]] = 1 } close(times) }
        { many = split($0, part, "/"); if (!(part[many - 1] in noted)) print part[many - 1], now >> times }'
}

# How far the build is: the numbers of crates that are proved and of all, about how many minutes are left, and the crates under way.
# What is left counts as twice its seconds by launcher/seconds.txt (docs/DECISIONS.md says why), divided among the processors,
# but as no less than the longest chain of crates. Once more than two minutes have passed, and the part that is done counts for more than
# two minutes, that is multiplied by the time that has passed and divided by what that part counts for.
progress() {
    awk -v now="$seconds" -v processors="$processors" '
        file == 1 && /^[a-z]/ { cost[$1] = 2 * $2 }
        file == 2 { split($0, side, ":"); split(side[1], word, " "); name[++n] = word[1]; uses[word[1]] = side[2] }
        file == 3 { split($0, word, " "); begun[word[1]] = word[2] }
        file == 4 && /^rt: [a-z0-9_]+ is kept: / { split($0, word, " "); if (!(word[2] in ended)) ended[word[2]] = kept[word[2]] = 1 }
        file == 4 && /^rt: [a-z0-9_]+ proved$/ { split($0, word, " "); ended[word[2]] = 1 }
        function chain(crate,   i, below, many, most) {
            if (crate in chains) return chains[crate]
            many = split(uses[crate], below, " ")
            for (i = 1; i <= many; i++) if (below[i] in uses && chain(below[i]) > most) most = chain(below[i])
            return chains[crate] = most + needs[crate]
        }
        function time_of_all(   i, all, most) {
            split("", chains)
            for (i = 1; i <= n; i++) { all += needs[name[i]] / processors; if (chain(name[i]) > most) most = chain(name[i]) }
            return all > most ? all : most
        }
        END {
            for (i = 1; i <= n; i++) { it = name[i]; needs[it] = it in kept ? 0 : it in cost ? cost[it] : 120 }
            whole = time_of_all()
            for (i = 1; i <= n; i++) {
                it = name[i]
                if (it in ended) { needs[it] = 0; proved++ }
                else if (it in begun) {
                    under_way = under_way " " it
                    rest = needs[it] - (now - begun[it])
                    needs[it] = rest > needs[it] / 10 ? rest : needs[it] / 10
                }
            }
            left = time_of_all()
            if (now > 120 && whole - left > 120) left *= now / (whole - left)
            print proved + 0, n, int(left / 60 + 0.5) under_way
        }' file=1 "$top/launcher/seconds.txt" file=2 "$room/top/crates.txt" file=3 "$room/times" file=4 "$room/log" 2>/dev/null
}

# Tells how far the build is: on a terminal in one line that is written over, elsewhere in a line for each crate that begins or ends.
tell_progress() {
    seconds=$(($(date +%s) - began))
    note_begun
    # shellcheck disable=SC2046
    set -- $(progress)
    count="$1 of $2 crates proved" left=$3 others="nothing"
    [ "$1" != "$2" ] || others="the tests and the program"
    shift 3
    under_way="under way: ${*:-$others}"
    text="matbench: $count; $((seconds / 60)) min so far, about $left min left; $under_way"
    if is_terminal; then
        columns=$(stty size <&2 2>/dev/null | sed 's/.* //')
        [ "${columns:-0}" -gt 0 ] || columns=80
        printf '\r%s\033[K' "$(echo "$text" | cut -c "1-$((columns - 1))")" >&2
    elif [ "$count $under_way" != "$told" ]; then
        echo "$text" >&2
        told="$count $under_way"
    fi
}

# Whether rt can keep what it proves beside the kit: in a folder of the user's own, not a link, on a disk with 5,000 MB left.
can_keep() {
    # shellcheck disable=SC3067
    if [ -e "$kept" ] || [ -L "$kept" ]; then [ -d "$kept" ] && [ ! -L "$kept" ] && [ -O "$kept" ]; else [ -w "$beside" ]; fi &&
        [ "$(df -Pm "$beside" 2>/dev/null | awk 'NR == 2 { print $4 + 0 }')" -ge 5000 ] 2>/dev/null
}

# Says what is built, about how long it takes, what to read meanwhile and where proved crates are kept. Sets the crate that is proved
# before the others.
tell_plan() {
    seconds=0
    # shellcheck disable=SC2046
    set -- $(progress)
    say "building the program: proving every function of its $2 crates, several crates at a time as processors and memory allow"
    say "where none of them is proved yet, that takes about $3 minutes on an idle machine of 2.5 GHz (processors: $processors), and longer beside other work"
    say "to read meanwhile: README.md, docs/COOKBOOK.md, examples/README.md"
    beside=$(dirname "$(dirname "$(rt doc 2>/dev/null)")")
    kept=$beside/rattle-kept
    if can_keep; then
        say "proved crates are kept in $kept: an interrupted build continues from there"
        first=$(sed '1!d; s/[ :].*//' "$room/top/crates.txt")
    else
        say "nothing more can be kept in $kept: an interrupted build proves again what is not kept there"
    fi
}

# The last error that the tool told of the crate that failed first, or else of the whole run.
last_error() {
    awk '/^== / { crate = $2; sub(/:$/, "", crate); said = error = "" }
        / NOT PROVED/ { if (crate != "" && said != "") said = crate ": " said; exit }
        /(^|: )error|: no proof/ { error = crate ": " $0 }
        /^rt: / && !/ (proved|passed)$| is kept: |, and wrote what |^rt: (note|FAILED): ?/ { said = $0 }
        { last = $0 }
        END { print error != "" ? error : said != "" ? said : last }' "$room/log"
}

# Lets go of the folder, and waits until the guard has ended what ran in it.
leave() {
    exec 8>&-
    wait "$guard"
    trap - HUP INT TERM
}

# Ends with the one error.
fail() {
    say "the program could not be built"
    last_error >&2
    leave
    exit 70
}

# Ends if a source has changed since the build began.
end_as_changed() {
    say "a source changed during the build; run the command again"
    leave
    exit 70
}

# Ends if a source cannot be read, or is no file.
end_as_unreadable() {
    say "a source cannot be read, or is neither a file nor a folder"
    leave
    exit 70
}

# Ends by a signal's number.
break_off() {
    say "the build was interrupted"
    leave
    exit $((128 + $1))
}

# Whether a source has changed since the build began. If only marks have, those of now take the place of the first ones.
has_changed() {
    now=$(mark_of_sources) || return 0
    [ "$now" != "$seen" ] || return 1
    [ "$(sum_of_sources)" = "$sources" ] || return 0
    seen=$now
    return 1
}

# Puts the program in its place, or ends.
put_program() {
    cp "$room/top/crates/mat_main/out/mat_main" "$program.new" && rm -f "$origin" && mv -f "$program.new" "$program" && note_origin "$sources" proof "$seen" && return
    say "the program was built, but could not be copied to $program"
    leave
    exit 70
}

# Builds the program.
build() {
    began=$(date +%s) processors=$(count_processors) told='' first=''
    make_room
    trap 'break_off 1' HUP
    trap 'break_off 2' INT
    trap 'break_off 15' TERM
    if ! { seen=$(mark_of_sources) && sources=$(sum_of_sources); }; then end_as_unreadable; fi
    copy_sources || fail
    [ "$(mark_of_sources)" = "$seen" ] || end_as_changed
    tell_plan
    start_tool
    while [ ! -e "$room/status" ]; do
        kill -0 "$tool" 2>/dev/null || [ -e "$room/status" ] || fail
        sleep 1
        ! has_changed || end_as_changed
        grep -q ' NOT PROVED' "$room/log" && fail
        tell_progress
    done
    wait "$tool"
    [ "$(cat "$room/status")" = 0 ] || fail
    ! has_changed || end_as_changed
    put_program
    say "the program is built"
    leave
}
