"""build_page.py TOP OUT: makes the page from the files beside this one and from the documents and
examples of the repository TOP.

OUT/web/ is the page as files, for any static server, and OUT/matbench.html the same as one file,
which works from a folder too: its script and its module are compressed. The same files give the
same bytes. OUT/matbench.wasm has to be there.
"""
import base64
import hashlib
import json
import os
import re
import shutil
import sys
import zlib

HERE = os.path.dirname(os.path.abspath(__file__))
#: The parts of the one file's script, each before those that take from it.
SCRIPT = ("matbench.mjs", "run.mjs", "textbox.mjs", "link.mjs", "kept.mjs", "answer.mjs",
          "tables.mjs", "grid.mjs", "tabs.mjs", "names.mjs", "answers.mjs", "calls.mjs",
          "choices.mjs", "cells.mjs", "limits_form.mjs", "more_plans.mjs", "roster_request.mjs",
          "roster_writing.mjs", "roster_tables.mjs", "roster_plan.mjs", "roster_kind.mjs",
          "joined_places.mjs", "network_request.mjs", "network_writing.mjs", "network_tables.mjs",
          "network_tree.mjs", "network_failures.mjs", "network_kind.mjs", "pebbles.mjs",
          "frame_request.mjs", "frame_analysis.mjs", "frame_plan.mjs", "frame_kind.mjs",
          "sheet.mjs", "page.mjs")
#: The files of the page.
PAGE = ("index.html", "style.css", "parts.mjs", "matbench.d.mts", "worker.mjs", *SCRIPT)
#: The characters of ASCII that a word of the one file cannot have.
UNFIT = "\0\r<"

#: parts.mjs of the one file, which has the function `unpacked` of unpack.js.
PARTS = """
const WORKER = {worker};
async function loadModule() {{
  return unpacked("module").arrayBuffer();
}}
let workerAddress;
function startWorker() {{
  workerAddress ??= URL.createObjectURL(new Blob([WORKER], {{ type: "text/javascript" }}));
  return new Worker(workerAddress);
}}
"""
POLICY = ("default-src 'none'; script-src {scripts} 'wasm-unsafe-eval'; style-src {style}; "
          "connect-src 'none'; worker-src blob:; "
          "img-src data:; base-uri 'none'; form-action 'none'")


def read(*path):
    with open(os.path.join(*path), encoding="utf-8") as file:
        return file.read()


def write(text, *path):
    with open(os.path.join(*path), "w", encoding="utf-8") as file:
        file.write(text)


def rows_below(text, heading):
    """The cells of each row of the first table below a heading."""
    section = f"\n{text}".split(f"\n{heading}\n", 1)[1]
    table = re.search(r"(?:^\|.*\n)+", section, re.M).group()
    return [[cell.strip() for cell in re.split(r"(?<!\\)\|", line)[1:-1]]
            for line in table.splitlines()[2:]]


def limits(formats):
    """The lines of each kind of matroid, and which sets it allows."""
    section = formats.split("\n### Matroids\n", 1)[1].split("\n### ", 1)[0]
    tables = re.findall(r"(?:^\|.*\n)+", section, re.M)
    return [{"lines": row[0], "allowed": row[1]} for table in tables
            for row in rows_below(f"# all\n{table}", "# all")]


def faults(formats):
    """What each fault of a description and of a certificate means."""
    headings = {"description": "### What is wrong with a description",
                "certificate": "### What is wrong with a certificate"}
    return {what: [{"name": row[1], "meaning": row[2]} for row in rows_below(formats, heading)]
            for what, heading in headings.items()}


def reasons(formats):
    """What each failed clause of an answer means: a row for each note of a cell, with the words of
    its places (a number, or the letter that the meaning has for one), words of the header of the
    answer, none where it is each, and the word that the header has to have besides, or None."""
    made, answers = [], []
    for answer, notes, told in rows_below(formats, "### What is wrong with an answer"):
        if answer:
            answers = re.findall(r"`([a-z]+)`", answer)
        variant, meanings = re.fullmatch(r"(?:of `([a-z]+)`: )?(.*)", told).groups()
        for note, meaning in zip(notes.split(", "), meanings.split("; "), strict=True):
            _, reason, *places = note.strip("`").split()
            made.append({"reason": reason, "places": places, "answers": answers, "variant": variant,
                         "meaning": meaning})
    return made


def abouts(help_text):
    """What the lines of --help say of each command, and whether it takes a number K. The texts
    stand in one column, behind the words."""
    usage = help_text[help_text.index("usage: "):].split("\n\n", 1)[0]
    usage = usage.replace("usage:", "      ", 1)
    column = re.match(r" +\S.*?  +", usage).end()
    found, name = {}, None
    for line in usage.splitlines():
        words, text = line[:column].strip(), line[column:].strip()
        begun = re.match(r"matbench ([a-z]+) ", f"{words} ")
        if begun:
            name = begun[1]
            found[name] = ["", " K " in words]
        elif words:
            name = None
        if name:
            found[name][0] = f"{found[name][0]} {text}".strip()
    return found


def commands(help_text, formats):
    """The commands that read a description and write a text, what each is for, and the forms that
    it takes."""
    forms = {}
    for form, names in rows_below(formats, "## Descriptions"):
        alone = names.split("where M is 1")[1] if "where M is 1" in names else ""
        for name in re.findall(r"`([a-z]+)`", names):
            forms.setdefault(name, ([], f"`{name}`" in alone))[0].append(form.strip("`").split()[0])
    every = list(dict.fromkeys(it for found, _ in forms.values() for it in found))
    made = []
    for name, (about, counted) in abouts(help_text).items():
        if name in forms and name not in ("witness", "verify") or name in ("show", "convert"):
            taken, single = forms.get(name, (every, False))
            made.append({"name": name, "about": about, "counted": counted, "forms": taken,
                         "single": single})
    return sorted(made, key=lambda it: it["name"] in ("show", "convert"))


def place_of(heading):
    """The word of a link that leads to a heading."""
    return re.sub(r"[^\w -]", "", heading.lower()).replace(" ", "-")


def title_of(name, title, link, readme, cookbook):
    """What an example is called: the heading that its link leads to, or else what its row says it
    is for."""
    if "COOKBOOK.md#" in link:
        heading = next(it for it in re.findall(r"^#+ (.*)", cookbook, re.M)
                       if place_of(it) == link.split("#", 1)[1])
        return heading[0].lower() + heading[1:]
    heading = re.search(rf"^## .*`{re.escape(name)}`.*?: (.*)", readme, re.M)
    return heading[1] if heading else title.split(":")[0]


def examples(top, known):
    """The descriptions of examples/, each with the command of its row in examples/README.md."""
    readme, cookbook = read(top, "examples", "README.md"), read(top, "docs", "COOKBOOK.md")
    told = {}
    for title, words, _, links in rows_below(readme, "# Examples"):
        for name, link in re.findall(r"\[(\w+\.txt)\]\(([^)]*)\)", links):
            told.setdefault(name, (title_of(name, title, link, readme, cookbook),
                                   re.findall(r"`([a-z]+)(?: (\d+))?`", words)))
    made = []
    for name in sorted(os.listdir(os.path.join(top, "examples"))):
        text = read(top, "examples", name) if name.endswith(".txt") else ""
        if not text.startswith("matroids "):
            continue
        form = text.split("\n")[1].split()[0]
        fitting = [it["name"] for it in known if form in it["forms"]]
        title, words = told.get(name, (text.split("\n")[1], []))
        command, count = next(((word, count) for word, count in words if word in fitting),
                              (fitting[0], ""))
        made.append({"file": name, "title": title, "form": form, "command": command,
                     "count": int(count or 2), "text": text})
    order = known[-1]["forms"]
    return sorted(made, key=lambda it: order.index(it["form"]))


def version(help_source):
    """What --version prints."""
    return re.search(r'const VERSION: &str = "(matbench [\w.]+)\\n";', help_source)[1]


def posts(top, name):
    """The cells of a sheet of posts that say what the `table` of examples/ says."""
    cells = re.findall(r"^cell (\d+) (\d+) (-?\d+)$", read(top, "examples", name), re.M)
    lines = [f"Applicant {row},Post {column},{gain}\n" for row, column, gain in cells]
    return "".join(["applicant,post,gain\n", *lines])


def network(top, name):
    """The cells and the limits of a sheet of a network that say what the `pair` of a `graphic` and a
    `partition` of examples/ says."""
    text = read(top, "examples", name)
    gains = re.search(r"^weights (.*)$", text, re.M)[1].split()
    classes = [line.split() for line in re.findall(r"^class (.*)$", text, re.M)]
    owner = {link: place for place, (_, *links) in enumerate(classes) for link in links}
    edges = re.findall(r"^edge (\d+) (\d+)$", text, re.M)
    cells = [f"Link {link},Town {one},Town {other},{gain},Owner {owner[str(link)]}\n"
             for link, ((one, other), gain) in enumerate(zip(edges, gains, strict=True))]
    limits = [f"Owner {place},{most}\n" for place, (most, *_) in enumerate(classes)]
    return {"cells": "".join(["link,from,to,gain,owner\n", *cells]),
            "limits": "".join(["name,most\n", *limits])}


def sheets(top):
    """The examples of each sheet, of examples/: what each is called, its cells and its limits."""
    def table(name):
        return read(top, "examples", name)
    return {
        "roster": [
            {"title": "a week", "cells": table("week.csv"), "limits": table("week_limits.csv")},
            {"title": "a weekend with least numbers", "cells": table("wishes.csv"),
             "limits": table("limits_least.csv")}],
        "posts": [{"title": "four posts", "cells": posts(top, "posts.txt")}],
        "network": [
            {"title": "which links to build", **network(top, "network.txt"),
             "choices": {"task": "tree"}},
            {"title": "how many failures it stands", "cells": table("islands.csv"),
             "choices": {"task": "failures"}}],
        "frame": [
            {"title": "a truss", "cells": table("warren.csv")},
            {"title": "a truss that moves", "cells": table("squares.csv")},
            {"title": "a platform of bodies", "cells": table("platform.csv"),
             "choices": {"space": "space"}}]}


def data(top):
    """What data.mjs has, by its names there."""
    formats = read(top, "docs", "FORMATS.md")
    help_source = read(top, "crates", "mat_main", "src", "help.rt")
    known = commands(help_source, formats)
    return {"VERSION": version(help_source), "COMMANDS": known, "EXAMPLES": examples(top, known),
            "LIMITS": limits(formats), "SHEETS": sheets(top), "FAULTS": faults(formats),
            "REASONS": reasons(formats)}


def data_module(parts):
    """The module data.mjs."""
    lines = [f"export const {name} = {json.dumps(part, indent=1)};\n" for name,
             part in parts.items()]
    head = ("// Made by build_page.py from docs/FORMATS.md, the texts of --help and --version, "
            "and examples/.\n")
    return head + "".join(lines)


def joined(texts):
    """Modules as one script. Each is a function there, so that what it does not hand out is its own;
    what it hands out has one name for all."""
    parts = []
    for text in texts:
        handed = re.findall(r"^export (?:async )?(?:function\*? |class |const )(\w+)", text, re.M)
        body = re.sub(r"^import [^;]*;\n", "", text, flags=re.M)
        body = re.sub(r"^export ", "", body, flags=re.M)
        names = ", ".join(handed)
        parts.append(f"const {{ {names} }} = (() => {{\n{body}return {{ {names} }};\n}})();\n")
    return "".join(parts)


def stripped(script):
    """A script without indents, and without the comments that begin a line."""
    script = re.sub(r"^ *(?://.*|/\*\*(?:.|\n)*?\*/)\n", "", script, flags=re.M)
    script = re.sub(r"^ +", "", script, flags=re.M)
    assert all(line.replace('"`"', "").count("`") % 2 == 0 for line in script.splitlines()), \
        "a template of several lines would lose its indents"
    return script


def source_of(text):
    """The word of a policy that allows this script or style."""
    return "'sha256-" + base64.b64encode(hashlib.sha256(text.encode()).digest()).decode() + "'"


def sevens(content):
    """Bytes as numbers of seven bits, the last filled with zeros."""
    held = bits = 0
    for byte in content:
        held, bits = (held << 8 | byte) & 0x7fff, bits + 8
        while bits >= 7:
            bits -= 7
            yield held >> bits & 127
    if bits:
        yield held << (7 - bits) & 127


def packed(content):
    """Bytes as a word that `unpacked` takes: compressed by zlib, seven bits a character. What HTML
    changes, or what could begin a tag, stands together with the seven bits behind it as one
    character behind ASCII; if it is the last, alone."""
    squeeze = zlib.compressobj(9, zlib.DEFLATED, -zlib.MAX_WBITS, zlib.DEF_MEM_LEVEL)
    word, rest = [], sevens(squeeze.compress(content) + squeeze.flush())
    for seven in rest:
        place = UNFIT.find(chr(seven))
        if place >= 0:
            behind = next(rest, None)
            seven = 0x280 + place if behind is None else 0x100 + 128 * place + behind
        word.append(chr(seven))
    return "".join(word)


def block(name, content):
    """A word that the script of the one file takes by its name."""
    return f'<script type="text/plain" id="{name}">{packed(content)}</script>\n'


def one_file(out, parts):
    """The page as one file."""
    folder = os.path.join(out, "web")
    worker = stripped(joined(read(folder, name) for name in ("matbench.mjs", "worker.mjs")))
    script = PARTS.format(worker=json.dumps(worker))
    script += "".join(f"const {name} = {json.dumps(part)};\n" for name, part in parts.items())
    script += stripped(joined(read(folder, name) for name in SCRIPT))
    first, style = "\n" + read(HERE, "unpack.js"), "\n" + read(folder, "style.css")
    with open(os.path.join(out, "matbench.wasm"), "rb") as file:
        blocks = block("script", script.encode()) + block("module", file.read())
    page = read(folder, "index.html")
    policy = POLICY.format(scripts=f"{source_of(first)} {source_of(script)}", style=source_of(style))
    page = re.sub(r'(http-equiv="Content-Security-Policy" content=)"[^"]*"',
                  lambda hit: f'{hit[1]}"{policy}"', page)
    page = page.replace('<link rel="stylesheet" href="style.css">', f"<style>{style}</style>")
    page = page.replace('<script type="module" src="page.mjs"></script>\n', "")
    return page.replace("</body>", f"{blocks}<script>{first}</script>\n</body>")


def main():
    top, out = sys.argv[1:]
    folder = os.path.join(out, "web")
    shutil.rmtree(folder, ignore_errors=True)
    os.makedirs(folder)
    for name in PAGE:
        shutil.copyfile(os.path.join(HERE, name), os.path.join(folder, name))
    shutil.copyfile(os.path.join(out, "matbench.wasm"), os.path.join(folder, "matbench.wasm"))
    parts = data(top)
    write(data_module(parts), folder, "data.mjs")
    write(one_file(out, parts), out, "matbench.html")


if __name__ == "__main__":
    main()
