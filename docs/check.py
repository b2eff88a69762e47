#!/usr/bin/env python3
"""Checks the pages of the repository: links, and files of crates that they name; that each line which the program or the launcher can print has its heading in
docs/ERRORS.md; the size of the README; that the tutorial's texts are those of examples/; and that what is made by a script is
as the script makes it. Ends with status 1 where something is wrong. Run it from anywhere: docs/check.py"""
import os
import re
import subprocess
import sys

os.chdir(os.path.join(os.path.dirname(os.path.realpath(__file__)), ".."))
wrong = []


def text_of(path):
    with open(path, encoding="utf-8") as it:
        return it.read()


def without_code(text):
    return re.sub(r"^```.*?^```$", "", text, flags=re.S | re.M)


def anchors(text):
    """The anchors of a page's headings."""
    found = set()
    for head in re.findall(r"^#+ (.*)$", without_code(text), re.M):
        plain = re.sub(r"\[([^\]]*)\]\([^)]*\)", r"\1", head).lower()
        found.add(re.sub(r"[^\w\- ]", "", plain).replace(" ", "-"))
    return found


def pages():
    for at, folders, files in os.walk("."):
        folders[:] = [it for it in folders if it not in (".git", "out")]
        yield from (os.path.normpath(f"{at}/{it}") for it in files if it.endswith(".md"))


def check_links():
    for page in pages():
        for link in re.findall(r"\]\(([^)\s]+)\)", re.sub(r"`[^`\n]*`", "", without_code(text_of(page)))):
            if re.match(r"https?:", link):
                continue
            path, _, anchor = link.partition("#")
            to = os.path.normpath(os.path.join(os.path.dirname(page), path)) if path else page
            if not os.path.exists(to):
                wrong.append(f"{page}: no file {link}")
            elif anchor and anchor not in anchors(text_of(to)):
                wrong.append(f"{page}: no heading {link}")


def lines_of_the_program():
    """The beginning of each line that a refusal can print, without `sisal: `."""
    source = text_of("crates/sisal_top/src/lines.rt")
    found = {it.removesuffix("\\n").strip() for it in re.findall(r'b"sisal: ([^"]*)"', source)}
    # these are written in pieces
    found -= {"argument", "type rule"}
    found |= {"argument A value 1 byte", "argument A value 2 byte", "argument A value 3"}
    last = max(int(it) for it in re.findall(r"^### `type rule (\d+)`", text_of("docs/ERRORS.md"), re.M))
    return found | {f"type rule {it}" for it in range(1, max(last, 24) + 1)}


def lines_of_the_launcher():
    launcher = text_of("sisal")
    for it in re.findall(r'refuse "([^"]*)"', launcher) + re.findall(r"refuse '([^']*)'", launcher):
        yield it
    yield "release of"


def check_errors():
    heads = re.findall(r"^### `([^`]*)`", text_of("docs/ERRORS.md"), re.M)
    for line in sorted(lines_of_the_program()):
        if not any(it == line or it.startswith(f"{line} ") for it in heads):
            wrong.append(f"docs/ERRORS.md has no heading of the line 'sisal: {line} ..'")
    for line in lines_of_the_launcher():
        form = re.sub(r"\\\$\w+(/\w+)?|\$\w+(/\w+)?|\$1", "[^ ]+", re.escape(line).replace(r"\$", "$"))
        if not any(re.match(form, it) for it in heads):
            wrong.append(f"docs/ERRORS.md has no heading of the launcher's line '{line}'")
    rules = {int(it) for it in re.findall(r"rule: (\d+)", "".join(map(text_of, sources("sisal_check", "unit_types", "type_rules"))))}
    for it in sorted(rules):
        if f"type rule {it}" not in heads:
            wrong.append(f"docs/ERRORS.md has no heading of rule {it}")


def sources(*crates):
    for crate in crates:
        folder = f"crates/{crate}/src"
        yield from (f"{folder}/{it}" for it in sorted(os.listdir(folder)))


def check_words():
    """That the pages and the completion have the commands and options that the program reads."""
    words = re.findall(r'word == "([^"]*)"', "".join(map(text_of, sources("run_words"))))
    for page in ("docs/PROGRAM.md", "editor/sisal.bash", "crates/sisal_top/src/texts.rt"):
        text = text_of(page)
        wrong.extend(f"{page} does not have the word {it}" for it in words if it != "--" and it not in text)


def check_readme():
    text = text_of("README.md")
    size = len(text.encode())
    if size > 10000:
        wrong.append(f"README.md has {size} bytes, more than 10,000")
    for line in text.splitlines():
        wide = [it for it in line.split("|") if len(it.encode()) > 200] if line.startswith("|") else []
        wrong.extend(f"README.md has a cell of {len(it.encode())} bytes: {it[:60]} .." for it in wide)


def check_tutorial():
    bodies = {}
    for it in sorted(os.listdir("examples")):
        if it.endswith(".sis"):
            text = text_of(f"examples/{it}")
            bodies[text[text.index("define") :].strip()] = it
    for page in ("docs/TUTORIAL.md", "README.md"):
        for block in re.findall(r"^```\n(define .*?)^```$", text_of(page), re.S | re.M):
            if block.strip() not in bodies:
                wrong.append(f"{page}: no text of examples/ is the one that begins {block.splitlines()[2][:60]!r}")


def check_files():
    """That the files of crates which the pages name are there, as `typed_tree/specs/Typing`."""
    for page in pages():
        for crate, part, name in re.findall(r"`(?:crates/)?([a-z0-9_]+)/(src|specs|proofs)/([A-Za-z0-9_/]+)(?:\.rt|\.antt)?`", text_of(page)):
            path = f"crates/{crate}/{part}/{name}"
            if not any(map(os.path.exists, (path, f"{path}.rt", f"{path}.antt"))):
                wrong.append(f"{page}: no file {path}")


def check_made():
    for words in (["docs/crates.sh", "--check"], ["editor/make.sh", "--check"]):
        ran = subprocess.run(words, stderr=subprocess.PIPE, text=True)
        if ran.returncode:
            wrong.append(ran.stderr.strip())


for check in (check_links, check_files, check_errors, check_words, check_readme, check_tutorial, check_made):
    check()
print(*wrong, f"{len(wrong)} wrong", sep="\n")
sys.exit(bool(wrong))
