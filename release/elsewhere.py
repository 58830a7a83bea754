"""elsewhere.py page CERTIFICATE PICTURE, or elsewhere.py readme: helps try_elsewhere.sh.

`page` opens release/matbench.html from its folder in Chromium, solves examples/people.txt there,
compares the certificate with a file, and writes a picture of the page. `readme` types what the
section Install of README.md shows before its first subsection. Each test prints a line that
begins with `ok: ` or `WRONG: `.
"""
import pathlib
import re
import subprocess
import sys

TOP = pathlib.Path(__file__).resolve().parent.parent
COPY = pathlib.Path.home() / ".local" / "bin" / "matbench"


def expect(what, holds, given=""):
    """Tells whether something holds, and if not, what there is in its place."""
    print(f"ok: {what}" if holds else f"WRONG: {what}")
    if not holds:
        print(*(f"    {line[:200]}" for line in given.splitlines()[:5]), sep="\n")


def try_page(certificate, picture):
    """Solves people.txt in the page."""
    sys.path.insert(0, str(TOP / "bindings" / "tests"))
    import pages  # pylint: disable=import-outside-toplevel
    with pages.opened("chromium") as browser:
        browser.resize(1100, 900)
        browser.open((TOP / "release" / "matbench.html").as_uri())
        browser.wait("document.querySelector('#command').value")
        browser.run("document.querySelector('#text-tab').click()")
        pages.write(browser, "#description", (TOP / "examples" / "people.txt").read_text())
        pages.choose(browser, "#command", "intersect")
        pages.click_and_wait(browser, "#solve")
        state, answer = pages.state(browser), pages.text(browser, "#answer")
        expect("the page solves people.txt", state.startswith("Done in "), state)
        wanted = pathlib.Path(certificate).read_text()
        expect("its certificate is the one that docs/BINDINGS.md shows", answer == wanted, answer)
        told = pages.text(browser, "#words")
        expect("it tells the best plan", "BEST: 4 elements, weight 25." in told, told)
        try_picture(browser)
        complaints = "\n".join(browser.complaints())
        expect("the browser complains of nothing", not complaints, complaints)
        browser.picture(picture)


def try_picture(browser):
    """Looks at the picture of the answer in the page."""
    image = "document.querySelector('#picture img')"
    browser.wait(f"{image}?.complete")
    width, told = browser.run(f"[{image}.naturalWidth, {image}.alt]")
    is_best_told = "BEST: 4 elements, weight 25." in told
    expect("it draws the answer", width > 100 and is_best_told, f"{width} wide: {told}")


def commands_of(section):
    """The commands of the tables and of the blocks of a section, each with its output or None."""
    for row in re.findall(r"^\|.*\|$", section, re.M):
        for command in re.findall(r"`((?:\./|python3 |~/plans/bin/)[^`]*)`", row):
            yield command, None
    for mark, block in re.findall(r"^```(\w+)\n(.*?)^```$", section, re.M | re.S):
        if mark == "sh":
            yield block, None
        elif mark == "console":
            for part in re.split(r"^\$ ", block, flags=re.M)[1:]:
                command, _, shown = part.partition("\n")
                yield command, shown


def type_command(command, shown):
    """Runs a command at the top of the checkout: it has to end with 0 and print what is shown."""
    done = subprocess.run(["sh", "-ec", command], cwd=TOP, capture_output=True, text=True,
                          check=False)
    is_as_shown = done.returncode == 0 and shown in (None, done.stdout)
    name = " && ".join(command.splitlines())
    given = f"status {done.returncode}\n{done.stderr}{done.stdout}"
    expect(f"README.md: {name}", is_as_shown, given)


def try_readme():
    """Types what README.md shows for a first answer."""
    text = (TOP / "README.md").read_text()
    section = re.search(r"^## Install[^\n]*\n(.*?)^##", text, re.M | re.S)
    commands = list(commands_of(section.group(1))) if section else []
    expect("README.md has commands in a section Install", bool(commands))
    for command, shown in commands:
        type_command(command, shown)
    if COPY.exists():
        type_command(f"{COPY} check examples/people.txt /tmp/people.answer", "yes\n")


def main(words):
    """Tries what the words name."""
    if len(words) == 3 and words[0] == "page":
        try:
            try_page(*words[1:])
        except (OSError, RuntimeError) as error:
            expect("the page can be opened and used", False, str(error))
    elif words == ["readme"]:
        try_readme()
    else:
        sys.exit("usage: elsewhere.py page CERTIFICATE PICTURE | elsewhere.py readme")


if __name__ == "__main__":
    main(sys.argv[1:])
