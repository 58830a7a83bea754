# What a release is made of besides the program's sources, and which files it has. Read by `.` behind launcher/sources.sh.
# shellcheck shell=sh disable=SC2034,SC2154

# The version, which the program prints.
version=$(sed -n 's/^pub(crate) const VERSION: &str = "matbench \([0-9.]*\)\\n";$/\1/p' "$top/crates/mat_main/src/help.rt")

# Asks git about all that a release is made of: list_inputs WORD ..
list_inputs() {
    git -C "$top" "$@" crates crates.txt HANDLES launcher/sources.sh release/make.sh release/inputs.sh bindings examples docs/FORMATS.md docs/COOKBOOK.md ':!bindings/tests' ':!crates/*/must-fail'
}

# Prints the checksum of what the page, the wheel and the archive are made of besides the program. Fails without git.
sum_of_others() {
    names=$(git -C "$top" -c core.quotePath=false ls-files -- bindings examples docs/FORMATS.md docs/COOKBOOK.md ':!bindings/tests' 2>/dev/null) && [ -n "$names" ] || return 1
    sums=$(printf '%s\n' "$names" | by_lines sha256sum) || return 1
    printf '%s\n' "$sums" | sum
}

# The files of the release, by their names, one a line.
list_release() {
    (cd "$top/release" && find . -type f ! -name '*.sh' ! -name '*.py' | sed 's,^\./,,')
}
