"""Tests the function matbench_status_text of matbench.h, compiled as C and as C++: it has a text
for each status of docs/FORMATS.md, in the words of its row, and another one for all other numbers.

It needs cc and c++.
"""
import pathlib
import re
import shutil
import subprocess
import sys
import tempfile
import unittest

BINDINGS = pathlib.Path(__file__).resolve().parent.parent
FORMATS = BINDINGS.parent / "docs" / "FORMATS.md"
PROGRAM = """
#include "matbench.h"
#include <stdio.h>
int main(void) {
    for (int it = -2; it < 20; it++) printf("%d %s\\n", it, matbench_status_text(it));
    printf("MATBENCH_BAD_LIST %d\\n", MATBENCH_BAD_LIST);
    return 0;
}
"""
UNKNOWN = "this is no status of matbench"


def rows():
    """What each status of the program means, in the words of the document without its markup."""
    section = FORMATS.read_text().split("\n## Exit statuses and notes\n")[1].split("\n##")[0]
    found = re.findall(r"^\| (\d+) \|.*\| (.*) \|$", section, re.M)
    told = {int(status): re.sub(r" \(\[.*?\)\)|`", "", text) for status, text in found}
    return {status: text for status, text in told.items() if status < 70}


class Texts(unittest.TestCase):
    """The texts of statuses."""

    def printed(self, compiler, *flags):
        """The text of each number that the program tries."""
        with tempfile.TemporaryDirectory() as folder:
            command = [compiler, *flags, "-Wall", "-Wextra", "-Wpedantic", "-Werror",
                       f"-I{BINDINGS}", "-", "-o", f"{folder}/statuses"]
            made = subprocess.run(command, input=PROGRAM, capture_output=True, text=True,
                                  check=False)
            self.assertEqual(made.stdout + made.stderr, "")
            printed = subprocess.run([f"{folder}/statuses"], capture_output=True, text=True,
                                     check=True).stdout
        return dict(line.split(" ", 1) for line in printed.splitlines())

    def hold_to_document(self, printed):
        """Each text is the front of what the document says of its status."""
        self.assertEqual(printed.pop("MATBENCH_BAD_LIST"), "14")
        texts = {int(status): text for status, text in printed.items() if text != UNKNOWN}
        meanings = rows()
        self.assertEqual(sorted(texts), [-1, *sorted(meanings)])
        self.assertGreater(len(meanings), 12)
        for status, meaning in meanings.items():
            with self.subTest(status=status):
                self.assertRegex(meaning, f"^{re.escape(texts[status])}($|[,:;])")
                self.assertGreaterEqual(len(texts[status].split()), 1 if status == 0 else 4)
        self.assertIn("null", texts[-1])

    def test_as_c(self):
        self.hold_to_document(self.printed("cc", "-std=c11", "-x", "c"))

    @unittest.skipUnless(shutil.which("c++"), "there is no compiler c++")
    def test_as_cpp(self):
        self.hold_to_document(self.printed("c++", "-std=c++11", "-x", "c++"))


if __name__ == "__main__":
    if not shutil.which("cc"):
        sys.exit("statuses.py: there is no C compiler cc")
    unittest.main()
