# What ./matbench, ./prove and the scripts of release/ know of a checkout: where its program is, what its sources are, and what the program was
# made of. The variable `top` names the checkout.
# shellcheck shell=sh disable=SC2034,SC2154

# The program's place, and beside it a note of what is there: the checksum of the sources, that of the program, how it came (by a `proof`, from
# the `release`, or by the kit's own `tool`), and by which marks of the sources and of the program it is known to be the same later.
program=$top/crates/mat_main/out/mat_main
origin=$program.origin
# The released program, packed, and what it is made of: the checksums of its sources and of the program, and the kit that proved it.
packed=$top/release/matbench-x86_64-linux.gz
contents=$top/release/CONTENTS

# Prints a message, in the place of the line of progress if there is one.
say() {
    clear_line
    echo "matbench: $*" >&2
}

# Whether the line of progress can be written over.
is_terminal() {
    [ -t 2 ] && [ "${TERM:-dumb}" != dumb ]
}

# Removes the line that is written over.
clear_line() {
    if is_terminal; then printf '\r\033[K' >&2; fi
}

# Prints the checksum of standard input.
sum() {
    sha256sum | cut -d ' ' -f 1
}

# Lists the sources, by their paths from the top, one a line. A link stands for what it leads to. Fails if one of the places is not there, or
# cannot be read. Further words are tests of find.
list_sources() {
    (cd "$top" && LC_ALL=C find -L crates/*/src crates/*/specs crates/*/proofs crates.txt HANDLES ! -type d "$@" -print 2>/dev/null)
}

# Runs a command with the lines of standard input as its last words: by_lines COMMAND WORD ..
by_lines() {
    LC_ALL=C sort | tr '\n' '\0' | (cd "$top" && xargs -0 "$@" 2>/dev/null)
}

# Prints the checksum of the sources: of the path and the bytes of each. Fails if one is no file, or cannot be read.
sum_of_sources() {
    names=$(list_sources) && others=$(list_sources ! -type f) && [ -z "$others" ] || return 1
    sums=$(printf '%s\n' "$names" | by_lines sha256sum) || return 1
    printf '%s\n' "$sums" | sum
}

# Prints the mark of the files in these places: a checksum of their paths, sizes, times and numbers in the file system. What was changed, moved,
# made or removed has another mark. Fails if one cannot be reached. A find that cannot print these asks stat.
mark() {
    marks=$(LC_ALL=C find -L "$@" ! -type d -printf '%p %s %T@ %C@ %i\n' 2>/dev/null) ||
        marks=$(TZ=UTC0 LC_ALL=C find -L "$@" ! -type d -exec stat -L -c '%n %s %y %z %i' '{}' + 2>/dev/null) || return 1
    printf '%s\n' "$marks" | sum
}

mark_of_sources() {
    (cd "$top" && mark crates/*/src crates/*/specs crates/*/proofs crates.txt HANDLES)
}

mark_of_program() {
    mark "$program"
}

# Whether no source was changed after the program's own time, by all times that find knows. Sources that were moved here are not noticed.
is_newest() {
    changed=-cnewer
    find "$program" -prune -cnewer "$program" >/dev/null 2>&1 || changed=-newer
    newer=$(cd "$top" && find -L crates/*/src crates/*/specs crates/*/proofs crates.txt HANDLES '(' -newer "$program" -o "$changed" "$program" ')' -print 2>/dev/null) &&
        [ -z "$newer" ]
}

# Prints what follows a word in a file of lines, or nothing.
entry() {
    sed -n "s/^$1 //p" "$2" 2>/dev/null
}

# Whether the program can be put in its place.
is_place_writable() {
    mkdir -p "$(dirname "$program")" 2>/dev/null && [ -w "$(dirname "$program")" ]
}

# Writes the note of what is in the program's place: note_origin SOURCES KIND MARK, with the mark that the sources had before their checksum was
# made. What cannot be noted is compared anew by each command.
note_origin() {
    { printf 'sources %s\nprogram %s\nby %s\nmarks %s %s\n' "$1" "$(sum <"$program")" "$2" "$3" "$(mark_of_program)" >"$origin.$$" &&
        mv -f "$origin.$$" "$origin"; } 2>/dev/null || rm -f "$origin.$$" 2>/dev/null
    return 0
}

# Whether the program is made of the sources as they are now: by the marks of the note; else by the checksums of the note, if it is one of this
# program; else, for a program of the kit's own tool, by times.
is_current() {
    [ -x "$program" ] && seen=$(mark_of_sources) && placed=$(mark_of_program) || return 1
    [ "$seen $placed" != "$(entry marks "$origin")" ] || return 0
    here=$(sum_of_sources) || return 1
    if [ "$(entry program "$origin")" = "$(sum <"$program")" ]; then
        [ "$(entry sources "$origin")" = "$here" ] || return 1
        note_origin "$here" "$(entry by "$origin")" "$seen"
    else
        is_newest || return 1
        note_origin "$here" tool "$seen"
    fi
}
