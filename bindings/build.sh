#!/bin/sh
# Builds what docs/BINDINGS.md describes into bindings/out/, of the proved program of this checkout. It needs the kit and python3 alone.
#
#   bindings/build.sh                                 of the proved program, which ./matbench builds first where it is not built
#   bindings/build.sh OBJECT MODULE LIBRARY MODULE    of another program's object file and LLVM module, and of another static library's
#                                                     archive and LLVM module, such as those that are not proved yet
set -eu
bindings=$(dirname -- "$(readlink -f -- "$0")")
top=$(dirname -- "$bindings")
out=$bindings/out
guide=$(rt doc) || { echo "build.sh: there is no command rt, which the kit has" >&2; exit 70; }
command -v python3 >/dev/null || { echo "build.sh: there is no command python3" >&2; exit 70; }
kit=$(dirname -- "$guide")
work=$(mktemp -d -p "${TMPDIR:-/var/tmp}")
trap 'rm -rf "$work"' EXIT
trap 'exit 70' HUP INT TERM

# What the program calls of the C library and the shim answers, and the program's entry.
system="main rattle_arg open read write __write close lseek _exit __sysv_signal __x86_get_cpuid_feature_leaf"
# What the linker has, and the compiler for division.
allowed_to_all=" __udivti3 __umodti3 _GLOBAL_OFFSET_TABLE_ "
# What the program may call of the C library besides.
allowed="$allowed_to_all$(sed -n '/^#/!s/^[^ ]* [^ ]*\(.*\)/\1 /p' "$bindings/shim/c_library.txt" | tr -d '\n')"
# What the static library may call of it.
allowed_to_library="$allowed_to_all malloc realloc free memcpy memmove memset "

fail() {
    echo "build.sh: $1" >&2
    exit 1
}

# The kit's clang is each of LLVM's tools, by the name that it is called by.
link_tools() {
    for tool in llvm-objcopy llvm-nm llvm-ar ld.lld clang; do ln -s "$kit/toolchain/bin/clang" "$work/$tool"; done
}

# Compiles C or assembly for Linux by the kit's clang, so that no compiler of the machine has a part in the libraries: compile_for_linux FLAG ..
compile_for_linux() {
    "$work/clang" --target=x86_64-unknown-linux-gnu -march=x86-64 --no-default-config -fno-crash-diagnostics -fPIC -c "$@"
}

# The shim for Linux. It is compiled before anything is proved.
compile_shim() {
    for part in system native; do
        compile_for_linux -std=c11 -O2 -ffreestanding -nostdinc -isystem "$bindings/shim/include" -Wall -Wextra -Werror \
            "$bindings/shim/$part.c" -o "$work/$part.o" || fail "the shim cannot be compiled"
    done
}

# A file of the C library with these names at a version, of which the linker needs no more: make_stub FILE VERSION NAME ..
make_stub() {
    file=$1 version=$2
    shift 2
    for name in "$@"; do printf '.globl %s\n.type %s,@function\n%s:\n' "$name" "$name" "$name"; done >"$work/stub.s"
    printf '%s { global: *; };\n' "$version" >"$work/stub.map"
    compile_for_linux "$work/stub.s" -o "$work/stub.o"
    "$work/ld.lld" -shared -soname "$file" --version-script "$work/stub.map" -o "$work/stubs/$file" "$work/stub.o"
}

# A stub for each file of shim/c_library.txt.
make_stubs() {
    mkdir "$work/stubs"
    sed '/^#/d' "$bindings/shim/c_library.txt" | awk '{ it = $1 " " $2; $1 = $2 = ""; names[it] = names[it] $0 }
        END { for (it in names) print it names[it] }' >"$work/c_library"
    # shellcheck disable=SC2086 # Each name is a word.
    while read -r line; do make_stub $line </dev/null; done <"$work/c_library"
}

# Copies a header for C, and writes the version of the program into it.
copy_header() {
    grep -q '"@VERSION@"' "$bindings/$1" || fail "$1 has no place for the version"
    sed "s/@VERSION@/$version_of_program/" "$bindings/$1" >"$out/$1"
}

# The lines of crates.txt, which has the lowest crate first, for the program, the static library and the crates that they stand on.
lines_of_both() {
    tac "$top/crates.txt" | awk -F: '{ split($1, word, " ") }
        word[1] == "mat_main" || word[1] == "mat_c" || word[1] in needed {
            print; many = split($2, below, " "); for (i = 1; i <= many; i++) needed[below[i]] }' | tac
}

# Lays out the libraries of the crates that the program and the static library stand on, in a copy of them, by the tool's gate as ./matbench
# does. What is kept is not proved again.
lay_out_libraries() {
    mkdir -p "$copy/.git" "$copy/crates"
    lines_of_both >"$copy/crates.txt"
    [ ! -e "$top/HANDLES" ] || cp "$top/HANDLES" "$copy/"
    # shellcheck disable=SC2013 # Each line has one word.
    for crate in $(sed 's/[ :].*//' "$copy/crates.txt"); do
        mkdir "$copy/crates/$crate"
        for part in src specs proofs c args stdin stdout status data; do
            [ ! -e "$top/crates/$crate/$part" ] || cp -R "$top/crates/$crate/$part" "$copy/crates/$crate/"
        done
    done
    if ! (cd "$copy" && rt ci) >"$work/laid_out" 2>&1; then
        tail -n 5 "$work/laid_out" >&2
        fail "the libraries could not be laid out"
    fi
}

# A toolchain whose clang keeps the LLVM module that it is given.
make_tools() {
    mkdir -p "$tools/bin"
    ln -s "$kit/toolchain/lib" "$tools/lib"
    for tool in "$kit"/toolchain/bin/*; do ln -s "$tool" "$tools/bin/"; done
    rm "$tools/bin/clang"
    printf '#!/bin/sh\n[ ! -f module.bc ] || cp module.bc "%s"\nexec "%s" "$@"\n' "$work/module.bc" "$kit/toolchain/bin/clang" >"$tools/bin/clang"
    chmod +x "$tools/bin/clang"
}

# Has the kit prove and build a crate once more, and keeps its LLVM module: prove_and_build CRATE SOURCE OUTPUT MODULE [FLAG ..].
prove_and_build() {
    crate=$1 source=$2 output=$3 module=$4
    shift 4
    set -- "$@" --crate-name "$crate" "$source" --extern "std=$kit/rlibs/std.rlib" -L "dependency=$kit/rlibs"
    # shellcheck disable=SC2013 # Each name is a word.
    for used in $(sed -n "s/^$crate\( staticlib\)\{0,1\}: *//p" "$copy/crates.txt"); do set -- "$@" --extern "$used=../$used/out/rlib/$used.rlib"; done
    for folder in "$copy"/crates/*/out/rlib; do set -- "$@" -L "dependency=$folder"; done
    set -- "$@" --antt-project "$kit/rattle/logic/antt-project.json" --logic-built "$kit/logic_built" --links "$crate=" --jobs 1
    set -- "$@" --toolchain "$tools" --backend llvm -o "$output"
    if ! (cd "$copy/crates/$crate" && "$kit/bin/rattle" build "$@") >"$work/checked" 2>&1; then
        tail -n 5 "$work/checked" >&2
        fail "$crate could not be built again"
    fi
    grep '^logic=proved ' "$work/checked" || fail "$crate is not proved"
    mv "$work/module.bc" "$module"
}

# The proved program and the proved static library, each with its LLVM module.
build_proved() {
    "$top/matbench" --version >/dev/null || fail "the program is not built"
    copy=$work/copy tools=$work/toolchain
    lay_out_libraries
    make_tools
    prove_and_build mat_main src/main.rt "$work/mat_main.o" "$work/mat_main.bc"
    compare_program
    prove_and_build mat_c src/lib.rt "$work/libmat_c.a" "$work/mat_c.bc" --crate-type staticlib
}

# Says whether the object file is that of the program: linked as the tool does, it is the program then.
compare_program() {
    "$kit/bin/rattle-link" --target x86_64-unknown-linux-gnu --toolchain "$kit/toolchain" -o "$work/mat_main" "$work/mat_main.o" \
        "$kit/c/libos_c.a" "$kit/c/liblibc_c.a" >/dev/null 2>&1 || fail "the program cannot be linked"
    if cmp -s "$work/mat_main" "$top/crates/mat_main/out/mat_main"; then
        echo "build.sh: linked, the object file is the program of ./matbench, byte for byte"
    else
        echo "build.sh: note: linked, the object file is not the program of ./matbench byte for byte, though of the same sources" >&2
    fi
}

# Fails where an object file calls what is not among these names.
hold_to() {
    names=$("$work/llvm-nm" --undefined-only -j "$1") || fail "$3 cannot be read"
    for name in $names; do
        case $2 in
            *" $name "*) ;;
            *) fail "$3 calls $name, which $4" ;;
        esac
    done
}

# The libraries for C of the program: one object file that shows matbench_call alone.
build_libraries() {
    object=$1
    set --
    for name in $system; do set -- "$@" --redefine-sym "$name=matbench_system_$name"; done
    "$work/llvm-objcopy" "$@" "$object" "$work/program.o"
    "$work/ld.lld" -r -o "$work/joined.o" "$work/program.o" "$work/system.o" "$work/native.o" "$kit/c/libos_c.a" "$kit/c/liblibc_c.a"
    "$work/llvm-objcopy" --keep-global-symbol=matbench_call --strip-unneeded "$work/joined.o" "$work/matbench.o"
    hold_to "$work/matbench.o" "$allowed" "the program" "the shim does not answer"
    rm -f "$out/libmatbench.a"
    "$work/llvm-ar" crs "$out/libmatbench.a" "$work/matbench.o"
    build_shared_library
    copy_header matbench.h
}

# The shared library, which is linked to the stubs of the C library and to the kit's functions for division.
build_shared_library() {
    make_stubs
    rm -f "$out/libmatbench.so" "$out/libmatbench.so.1"
    "$work/ld.lld" -shared -soname libmatbench.so.1 --strip-all --gc-sections --build-id=none -z defs -z noexecstack -z relro -z now \
        -o "$out/libmatbench.so.1" "$work/matbench.o" "$kit/toolchain/lib/libgcc.a" "$work"/stubs/*
    cp "$out/libmatbench.so.1" "$out/libmatbench.so"
    hold_to_glibc 2.5
}

# Fails where the shared library asks for names of the C library that came after this version of glibc: hold_to_glibc VERSION.
hold_to_glibc() {
    asked=$("$work/llvm-nm" -D --undefined-only "$out/libmatbench.so.1" | sed -n 's/.*@GLIBC_//p' | sort -u)
    [ -n "$asked" ] || fail "libmatbench.so.1 names no version of glibc"
    newest=$(printf '%s\n' "$asked" "$1" | sort -V | tail -n 1)
    [ "$newest" = "$1" ] || fail "libmatbench.so.1 asks for names of glibc $newest, which came after $1"
}

# The static library: one object file that shows matbench_line alone, with the kit's functions of the heap, which call the C library's.
build_static_library() {
    "$work/ld.lld" -r -o "$work/line_joined.o" --whole-archive "$1" --no-whole-archive "$kit/c/liblibc_c.a"
    "$work/llvm-objcopy" --keep-global-symbol=matbench_line --strip-unneeded "$work/line_joined.o" "$work/matbench_line.o"
    hold_to "$work/matbench_line.o" "$allowed_to_library" "the static library" "it may not"
    rm -f "$out/libmatbench_line.a"
    "$work/llvm-ar" crs "$out/libmatbench_line.a" "$work/matbench_line.o"
    copy_header matbench_line.h
}

compile_for_wasm() {
    "$work/clang" --target=wasm64-unknown-unknown -mcpu=lime1 --no-default-config -fno-crash-diagnostics -ffunction-sections -fdata-sections -c "$@"
}

# An LLVM module that the kit made for x86-64, compiled for WebAssembly with 64-bit memory by the same clang: retarget MODULE OBJECT. Sizes and
# places of all that lies in memory are the same for both.
retarget() {
    "$work/clang" --target=x86_64-unknown-linux-gnu --no-default-config -x ir -S -emit-llvm -Xclang -disable-llvm-passes "$1" -o "$work/x86.ll"
    sed -e 's/^target datalayout = .*/target datalayout = "e-m:e-p:64:64-p10:8:8-p20:8:8-i64:64-i128:128-n32:64-S128-ni:1:10:20"/' \
        -e 's/^target triple = .*/target triple = "wasm64-unknown-unknown"/' \
        -e 's/ "probe-stack"="[^"]*"//; s/ "stack-probe-size"="[^"]*"//; s/ "target-cpu"="[^"]*"//; s/ "target-features"="[^"]*"//' \
        "$work/x86.ll" >"$work/retargeted.ll"
    compile_for_wasm -mllvm -trap-unreachable -mllvm -expand-div-rem-bits=64 -O2 -x ir "$work/retargeted.ll" -o "$2"
}

# Links an object file and parts of the shim to a module: link_module OBJECT MODULE PART ..
link_module() {
    object=$1 module=$2
    shift 2
    parts=$*
    set -- -std=c11 -O2 -fwrapv -ffreestanding -nostdinc -isystem "$bindings/shim/include"
    for name in $system; do [ "$name" = main ] || set -- "$@" "-Dmatbench_system_$name=$name"; done
    for part in $parts; do compile_for_wasm "$@" "$bindings/shim/$part.c" -o "$work/$part.wasm.o"; done
    set --
    for part in $parts; do set -- "$@" "$work/$part.wasm.o"; done
    rm -f "$work/libmodule.a"
    "$work/llvm-ar" crs "$work/libmodule.a" "$object" "$@"
    "$kit/bin/rattle-link" --target wasm64-unknown-unknown --toolchain "$kit/toolchain" --stack 16777216 -o "$module" \
        "$work/libmodule.a" 2>"$work/linked" || fail "the module cannot be linked: $(cat "$work/linked")"
    # The names of its functions, which only a debugger reads.
    "$work/llvm-objcopy" --strip-all "$module"
}

# The module of the program, which asks its host for one function, and that of the static library, which asks for nothing.
build_modules() {
    retarget "$1" "$work/program.wasm.o"
    link_module "$work/program.wasm.o" "$out/matbench.wasm" system wasm heap
    grep -q ' imports=host\.end ' "$work/linked" || fail "the module asks for more than host.end: $(cat "$work/linked")"
    retarget "$2" "$work/library.wasm.o"
    link_module "$work/library.wasm.o" "$out/matbench_line.wasm" line heap
    ! grep -q ' imports=[a-z]' "$work/linked" || fail "the module asks for something: $(cat "$work/linked")"
}

version_of_program=$(sed -n 's/^.*const VERSION: &str = "matbench \([0-9.]*\)\\n";$/\1/p' "$top/crates/mat_main/src/help.rt")
[ -n "$version_of_program" ] || fail "crates/mat_main/src/help.rt has no constant VERSION"
mkdir -p "$out"
link_tools
compile_shim
case $# in
    0) build_proved; set -- "$work/mat_main.o" "$work/mat_main.bc" "$work/libmat_c.a" "$work/mat_c.bc"; of="the proved program and the proved library" ;;
    4) of="$*" ;;
    *) fail "usage: bindings/build.sh [OBJECT MODULE LIBRARY MODULE]" ;;
esac
build_libraries "$1"
build_static_library "$3"
build_modules "$2" "$4"
python3 "$bindings/web/build_page.py" "$top" "$out"
echo "build.sh: built of $of:"
(cd "$out" && ls -l libmatbench.a libmatbench.so libmatbench_line.a matbench.wasm matbench_line.wasm matbench.html)
