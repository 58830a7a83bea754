#!/bin/sh
# Compares release/ with this checkout, in which the program was proved, in a second:
#   - each file of the release is there and has its checksum, and there is no other;
#   - if release/CONTENTS says that it is made of these sources, the released program is the one that was proved here, byte for byte;
#   - the version is the same wherever it is written.
# A release that is behind its sources is told in a line, and does not fail: ./matbench proves and builds the program then.
set -u
top=$(dirname -- "$(dirname -- "$(readlink -f -- "$0")")")
# shellcheck source=launcher/sources.sh
. "$top/launcher/sources.sh"
# shellcheck source=release/inputs.sh
. "$top/release/inputs.sh"
wrongs=0

wrong() {
    echo "release: WRONG: $1"
    wrongs=$((wrongs + 1))
}

# The files and their checksums.
check_files() {
    (cd "$top/release" && sha256sum -c --quiet SHA256SUMS) 2>&1 | sed 's/^/release: /'
    (cd "$top/release" && sha256sum -c --status SHA256SUMS 2>/dev/null) || wrong "a file is missing or changed"
    listed=$( (sed 's/^[^ ]* [ *]//' "$top/release/SHA256SUMS" && echo SHA256SUMS) 2>/dev/null | sort)
    [ "$(list_release | sort)" = "$listed" ] || wrong "the files are not those of SHA256SUMS"
    [ "$(list_release | while read -r file; do cat "$top/release/$file"; done | wc -c)" -le 2000000 ] || wrong "it has more than 2,000,000 bytes"
}

# Whether the kit's tool made a program in this folder: it leaves the object file, or what its other compiler made.
is_by_tool() {
    [ -e "$program.o" ] || [ -e "$program.by-rattle" ]
}

# Whether the program in its place is one that was proved here, by ./matbench or ./prove, which note it, or by the kit's tool.
is_proved_here() {
    [ -x "$program" ] || return 1
    if [ "$(entry program "$origin")" = "$(sum <"$program")" ]; then
        [ "$(entry by "$origin")" = proof ] || { [ "$(entry by "$origin")" = tool ] && is_by_tool; }
    else
        is_by_tool
    fi
}

# The program, if it is made of these sources.
check_program() {
    if [ "$(entry sources "$contents")" != "$(sum_of_sources)" ]; then
        state="behind its sources: ./matbench proves and builds the program until release/make.sh has made it again"
    elif ! is_proved_here; then
        wrong "nothing was proved here that the program could be compared with: ./prove does so"
    elif ! gzip -tq "$packed" || ! gzip -dc "$packed" | cmp -s - "$program"; then
        wrong "the program is not the one that was proved here, though it is made of the same sources"
    elif [ "$(entry program "$contents")" != "$(sum <"$program")" ]; then
        wrong "CONTENTS has another checksum of the program"
    else
        check_others
        check_names
    fi
}

# What the page, the wheel and the archive are made of besides the program. Only git knows which files these are.
check_others() {
    state="of these sources, and the program is the one that was proved here, byte for byte"
    if ! others=$(sum_of_others); then
        state="$state; whether the page, the wheel and the archive are behind their sources cannot be told without git"
    elif [ "$(entry others "$contents")" != "$others" ]; then
        state="$state; the page, the wheel or the archive are behind their sources"
    fi
}

# The version of each place, and of the names of a release of these sources.
check_version() {
    [ -n "$version" ] || wrong "the program's source has no version"
    [ "$(sed -n '1s/.*"matbench \([0-9.]*\)".*/\1/p' "$top/docs/matbench.1")" = "$version" ] || wrong "docs/matbench.1 does not have the version $version"
    [ "$(sed -n 's/^## \([0-9][0-9.]*\).*/\1/p' "$top/CHANGELOG.md" 2>/dev/null | head -n 1)" = "$version" ] || wrong "CHANGELOG.md does not begin with the version $version"
}

check_names() {
    for kind in "matbench-$version-*.whl" "matbench-c-$version-*.tar.xz"; do
        [ -n "$(find "$top/release" -name "$kind")" ] || wrong "there is no $kind"
    done
}

state=
check_files
check_program
check_version
if [ "$wrongs" -gt 0 ]; then
    echo "release: $wrongs wrong"
    exit 1
fi
echo "release: $state"
