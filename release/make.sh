#!/bin/sh
# Makes release/ out of this checkout: proves everything by the gate, builds what docs/BINDINGS.md describes, and packs it. The same sources give
# the same bytes in any folder, with the same kit and tools. What it is made of has to be committed.
#
#   release/make.sh            puts the files into release/
#   release/make.sh --check    makes them in a folder of its own, and tells which differ from those of release/
set -eu
top=$(dirname -- "$(dirname -- "$(readlink -f -- "$0")")")
# shellcheck source=launcher/sources.sh
. "$top/launcher/sources.sh"
# shellcheck source=release/inputs.sh
. "$top/release/inputs.sh"
work=$(mktemp -d -p "${TMPDIR:-/var/tmp}")
made=$work/release
trap 'rm -rf "$work"' EXIT
trap 'exit 70' HUP INT TERM

fail() {
    echo "make.sh: $1" >&2
    exit 1
}

# Ends if something is missing that a release needs.
end_if_lacking_tools() {
    for needed in rt git gzip python3 sha256sum; do
        command -v "$needed" >/dev/null 2>&1 || fail "there is no command $needed"
    done
    changed=$(cd "$top" && list_inputs status --porcelain --) || fail "this is no checkout of git"
    [ -z "$changed" ] || fail "not committed: $(echo "$changed" | head -n 3 | tr '\n' ' ')"
    [ "$(git -C "$top" rev-parse --is-shallow-repository)" = false ] || fail "this checkout does not have the whole history, in which the commit of the sources is looked up"
}

# Proves, tests and runs everything. What was proved on this machine before is kept.
pass_gate() {
    (cd "$top" && rt ci) >"$work/gate" 2>&1 || { tail -n 3 "$work/gate" >&2; fail "the gate does not pass"; }
    [ -x "$program" ] || fail "the gate left no program"
    said=$(tail -n 1 "$work/gate")
}

# Builds the libraries, the modules, the page, the wheel and the archive of the proved program.
build_bindings() {
    if ! { "$top/bindings/build.sh" && python3 "$top/bindings/pack.py"; } >"$work/built" 2>&1; then
        tail -n 5 "$work/built" >&2
        fail "the bindings could not be built"
    fi
    grep -q 'is the program of ./matbench, byte for byte' "$work/built" || fail "the bindings are not made of the program that was proved"
}

# Puts the files together.
collect() {
    mkdir "$made"
    gzip -9nc "$program" >"$made/$(basename "$packed")"
    cp "$top/bindings/out/matbench.html" "$top/bindings/out/matbench-$version-"*.whl "$top/bindings/out/matbench-c-$version-"*.tar.xz "$made/"
    printf 'sources %s\nprogram %s\nothers %s\nkit %s\n' "$(sum_of_sources)" "$(sum <"$program")" "$(sum_of_others)" "$(rt version)" >"$made/CONTENTS"
    tell_provenance >"$made/PROVENANCE.md"
    (cd "$made" && LC_ALL=C sha256sum -- * >"$work/sums" && mv "$work/sums" SHA256SUMS)
}

# The page that says where the files come from.
tell_provenance() {
    cat <<END
# Where this release comes from

matbench $version for Linux on x86-64, made by \`release/make.sh\` and by nothing else.

| | |
|---|---|
| sources | commit $(cd "$top" && list_inputs log -1 --format=%H --), the last that changed any of them |
| their checksum | \`$(entry sources "$made/CONTENTS")\`: of the path and the bytes of each file that \`./matbench\` compares (\`launcher/sources.sh\`) |
| proved by | $(rt version) |
| the gate, \`rt ci\`, over these sources | $said |
| the program | $(wc -c <"$program") bytes; its checksum is \`$(entry program "$made/CONTENTS")\` |
| packed by | $(gzip --version | head -n 1); $(python3 --version) with zlib $(python3 -c 'import zlib; print(zlib.ZLIB_RUNTIME_VERSION)') |

| file | bytes | what it is |
|---|---|---|
$(cd "$made" && for file in *.gz *.html *.whl *.xz; do echo "| \`$file\` | $(wc -c <"$file") | $(what_is "$file") |"; done)

\`CONTENTS\` has the checksum of the sources, that of the program, that of what the page, the wheel and the archive are made of besides, and the kit.
\`SHA256SUMS\` has those of all files of this folder: \`sha256sum -c SHA256SUMS\`.

## To replace the trust by a proof

With the kit, \`./prove\` proves every function of the program from these sources, and says whether the program that comes of it is the released
one, byte for byte. \`release/make.sh --check\` makes all files of this folder again and compares them. docs/BINDINGS.md says what is trusted of the
page, the module for Python and the libraries for C beyond the proof.
END
}

# What a file of the release is.
what_is() {
    case $1 in
        *.gz) echo "the proved program, packed by gzip" ;;
        *.html) echo "a page that solves in a browser, with the program in it as WebAssembly" ;;
        *.whl) echo "the module for Python, with the program in it as a library" ;;
        *.xz) echo "the program as two libraries for C" ;;
    esac
}

# Ends if a file is larger than it may be, since the history keeps each release.
hold_to_sizes() {
    [ "$(wc -c <"$made/matbench.html")" -le 700000 ] || fail "the page has more than 700,000 bytes"
    [ "$(cat "$made"/* | wc -c)" -le 2000000 ] || fail "the release has more than 2,000,000 bytes"
}

# Tells which files differ from those of release/, and ends with 1 if any does.
compare() {
    differ=0
    for file in $( (ls "$made" && list_release) | sort -u); do
        cmp -s "$made/$file" "$top/release/$file" && continue
        echo "make.sh: $file differs"
        differ=$((differ + 1))
    done
    echo "make.sh: $differ files differ"
    [ "$differ" -eq 0 ]
}

# Puts the files into release/, in the place of those of an earlier one.
put() {
    cp "$made"/* "$top/release/"
    list_release | while read -r file; do [ -e "$made/$file" ] || rm -f "$top/release/$file"; done
    echo "make.sh: release/ is made: $(cat "$made"/* | wc -c) bytes; the gate: $said"
}

case $* in
    "") then=put ;;
    --check) then=compare ;;
    *) fail "usage: release/make.sh [--check]" ;;
esac
end_if_lacking_tools
pass_gate
build_bindings
collect
hold_to_sizes
"$then"
