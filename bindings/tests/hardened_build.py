"""Tests that bindings/build.sh and the libraries for C work where the machine's compiler hardens
what it makes: with _FORTIFY_SOURCE, where longjmp becomes __longjmp_chk, and with
-fstack-protector.

It builds a small stand-in for the program and for the static library in a copy of bindings/, and
proves nothing. It needs rt, cc and objdump. What concerns the libraries of bindings/out is left out
if they are not there.
"""
import os
import pathlib
import shutil
import subprocess
import sys
import tempfile
import unittest

import documents

BINDINGS = documents.BINDINGS
OUT = BINDINGS / "out"
#: What a compiler of a distribution adds by itself.
HARDENED = ["-O2", "-D_FORTIFY_SOURCE=2", "-fstack-protector-all", "-fcf-protection=full"]
#: What a user's program is linked with there.
LINKED = ["-fPIE", "-pie", "-Wl,-z,defs,-z,relro,-z,now,-z,noexecstack,-z,text"]
#: The names under which the machine's compiler is called.
COMPILERS = ("cc", "gcc", "clang", "c99")
#: A stand-in for the program: it writes its first word, and ends with 3.
PROGRAM = """
long rattle_arg(unsigned long place, char *buffer, unsigned long room);
long write(int number, const void *bytes, unsigned long length);
_Noreturn void _exit(int status);
int main(int argc, char **argv) {
    char word[64];
    long length = rattle_arg(1, word, sizeof word);
    if (length > 0) write(1, word, (unsigned long)length);
    _exit(3);
}
"""
#: A stand-in for the static library, with a struct as the kit's code answers it.
LIBRARY = """
typedef unsigned long size_t;
void *matbench_line(void *ended, const char *line, size_t line_length, const void *description,
                    size_t description_length, const void *certificate, size_t certificate_length,
                    const void *witness, size_t witness_length, char *output, size_t output_room,
                    char *note, size_t note_room) {
    return ended;
}
"""
#: A user's program for the stand-in, and one that jumps, as the shim does.
CALLER = """
#include "matbench.h"
#include <stdio.h>
int main(void) {
    const char *const words[] = {"answered\\n", NULL};
    char room[64];
    matbench_buffer output = {room, sizeof room, 0};
    int status = matbench_call(words, NULL, 0, &output, NULL);
    printf("%.*sstatus %d\\n", (int)output.length, room, status);
    return 0;
}
"""
JUMP = """
#include <setjmp.h>
extern jmp_buf place;
void jump(void) { longjmp(place, 1); }
"""


def run(*words, **more):
    """What a command prints to both streams, and its status."""
    done = subprocess.run(words, stdout=subprocess.PIPE, stderr=subprocess.STDOUT, text=True,
                          check=False, **more)
    return done.stdout, done.returncode


def hold(given):
    """What a command that ended with 0 has printed."""
    printed, status = given
    if status:
        raise AssertionError(f"status {status}: {printed}")
    return printed


class Checkout:
    """A copy of what build.sh reads, with stand-ins for what it builds of."""

    def __init__(self, folder):
        self.folder = folder
        self.bindings = folder / "bindings"
        out = shutil.ignore_patterns("out", "__pycache__")
        for part in ("bindings", "docs", "examples"):
            shutil.copytree(documents.TOP / part, folder / part, ignore=out)
        source = pathlib.Path("crates", "mat_main", "src", "help.rt")
        (folder / source).parent.mkdir(parents=True)
        shutil.copyfile(documents.TOP / source, folder / source)
        self.inputs = self.stand_ins()
        self.called = folder / "called"
        self.harden()

    def stand_ins(self):
        """The object file and the LLVM module of each stand-in, as build.sh takes them."""
        kit = pathlib.Path(hold(run("rt", "doc")).strip()).parent
        clang = str(kit / "toolchain" / "bin" / "clang")
        (self.folder / "llvm-ar").symlink_to(clang)
        made = []
        for name, text in (("program", PROGRAM), ("library", LIBRARY)):
            base = self.folder / name
            base.with_suffix(".c").write_text(text)
            command = [clang, "--target=x86_64-unknown-linux-gnu", "--no-default-config", "-O2",
                       "-fPIC", "-ffreestanding", "-nostdinc", "-c", f"{base}.c", "-o"]
            hold(run(*command, f"{base}.o"))
            hold(run(*command, f"{base}.bc", "-emit-llvm"))
            made += [f"{base}.o", f"{base}.bc"]
        archive = str(self.folder / "library.a")
        hold(run(str(self.folder / "llvm-ar"), "crs", archive, made[2]))
        return [made[0], made[1], archive, made[3]]

    def harden(self):
        """Makes the compiler of the machine, which hardens and keeps a list of its calls."""
        real = shutil.which("cc")
        (self.folder / "hardened").mkdir()
        for name in COMPILERS:
            path = self.folder / "hardened" / name
            path.write_text(f'#!/bin/sh\necho "$0 $*" >>"{self.called}"\n'
                            f'exec "{real}" {" ".join(HARDENED)} "$@"\n')
            path.chmod(0o755)

    def environment(self):
        """One in which that compiler is found first, and makefiles harden too."""
        flags = " ".join(HARDENED)
        return {**os.environ, "PATH": f"{self.folder / 'hardened'}:{os.environ['PATH']}",
                "CC": str(self.folder / "hardened" / "cc"), "CFLAGS": flags, "CPPFLAGS": flags,
                "LDFLAGS": "-Wl,-z,relro,-z,now"}

    def build(self, environment=None, inputs=None):
        """What build.sh prints, and its status."""
        words = self.inputs if inputs is None else inputs
        return run(str(self.bindings / "build.sh"), *words, env=environment)

    def built(self):
        """Each file that build.sh made, by its name."""
        return {path.name: path.read_bytes() for path in (self.bindings / "out").iterdir()
                if path.is_file()}


class Temporary(unittest.TestCase):
    """A test with a checkout of its own."""

    def setUp(self):
        folder = tempfile.TemporaryDirectory()
        self.addCleanup(folder.cleanup)
        self.folder = pathlib.Path(folder.name)
        self.checkout = Checkout(self.folder)

    def cc(self, text, *flags):
        """What the hardened compiler makes of a text."""
        source = self.folder / "user.c"
        source.write_text(text)
        made = str(self.folder / "user")
        hold(run("cc", str(source), "-o", made, *flags, env=self.checkout.environment()))
        return made


class Hardened(Temporary):
    """A build where the machine's compiler hardens."""

    def test_the_compiler_does_harden(self):
        jump = self.cc(JUMP, "-c")
        asked = hold(run("objdump", "-t", jump))
        self.assertIn("__longjmp_chk", asked)
        self.assertIn("__stack_chk_fail", hold(run("objdump", "-t", self.cc(CALLER, "-c",
                                                                           f"-I{BINDINGS}"))))
        self.assertIn("-c", self.checkout.called.read_text())

    def test_it_makes_the_same_files_as_any_other_one(self):
        hold(self.checkout.build())
        usual = self.checkout.built()
        shutil.rmtree(self.checkout.bindings / "out")
        hold(self.checkout.build(self.checkout.environment()))
        self.assertEqual(self.checkout.built(), usual)
        self.assertLessEqual({"libmatbench.a", "libmatbench.so", "libmatbench_line.a"}, set(usual))
        self.assertFalse(self.checkout.called.exists(), "a compiler of the machine was called")

    def test_a_hardened_program_is_linked_to_what_it_makes(self):
        hold(self.checkout.build(self.checkout.environment()))
        out = self.checkout.bindings / "out"
        for library in ([str(out / "libmatbench.a"), "-pthread"],
                        [f"-L{out}", "-lmatbench", f"-Wl,-rpath,{out}"]):
            with self.subTest(library=library):
                made = self.cc(CALLER, f"-I{out}", *LINKED, *library)
                self.assertEqual(hold(run(made)), "answered\nstatus 3\n")

    def test_a_shim_that_is_not_compiled_is_told_before_anything_is_proved(self):
        asked = self.folder / "asked"
        launcher = self.folder / "matbench"
        launcher.write_text(f'#!/bin/sh\ntouch "{asked}"\nexit 1\n')
        launcher.chmod(0o755)
        native = self.checkout.bindings / "shim" / "native.c"
        native.write_text(native.read_text() + "\n#error\n")
        printed, status = self.checkout.build(inputs=[])
        self.assertEqual((printed.splitlines()[-1], status),
                         ("build.sh: the shim cannot be compiled", 1))
        self.assertFalse(asked.exists(), "the program was asked for first")


@unittest.skipUnless(list(OUT.glob("libmatbench*.a")), "bindings/build.sh built no library for C")
class Users(Temporary):
    """Hardened programs of users, with the libraries of bindings/out."""

    def test_the_programs_of_the_document_are_compiled_and_answer(self):
        count = 0
        document = documents.TOP / "docs" / "BINDINGS.md"
        for _, program, wanted in documents.examples(document, ("c",)):
            count += 1
            library = OUT / f"lib{documents.library_of(program)}.a"
            flags = ["-std=c11", "-Wall", "-Wextra", "-Werror", f"-I{OUT}", *LINKED]
            with self.subTest(library=library.name):
                made = self.cc(program, *flags, str(library), "-pthread")
                self.assertEqual(documents.run([made]), wanted)
        self.assertEqual(count, 2)


def main():
    """Runs the tests, if what they need is there."""
    for needed in ("rt", "cc", "objdump"):
        if not shutil.which(needed):
            sys.exit(f"hardened_build.py: there is no {needed}")
    unittest.main()


if __name__ == "__main__":
    main()
