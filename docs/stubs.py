#!/usr/bin/env python3
"""stubs.py FOLDER CRATE [flags of rt check]: checks a crate over stubs of the libraries below it, so that none of them has to be
proved on this machine first. In FOLDER, a repository of its own that later calls go on with, the crate stands as it is, and of each
library the public functions and the methods of traits stay, with the same contracts and a body that never returns; its definitions
stay, and the lemmas that another crate cites. What is proved there is proved of the crate for all libraries that meet these
contracts, as a whole `rt ci` shows of ours; it is no verdict. Run it at the top of the repository.
"""
import os
import re
import shutil
import subprocess
import sys

# A function that never returns, by a foreign one with two results; no program is built of it.
NEVER = """//! A function that never returns.
#![tactic(auto)]
ghost use Rattle.std.specs.Prelude.{◌≡◌};

unsafe extern "C" {
    safe fn two_results() -> u8
        ensures one { result ≡ 1 }
        ensures two { result ≡ 2 };
}

/// Never returns.
pub fn never() -> ! {
    let _it = two_results();
    unreachable!()
}
"""
CLAUSES = {"requires", "ensures", "measure", "decreases"}
# Files of proofs that belong to one function, and of no use without its body.
OF_FUNCTIONS = {"Answers.antt", "Invariants.antt", "Proof.antt"}
CHARACTER = re.compile(r"b?'(\\x..|\\u\{[^}]*\}|\\.|[^\\'])'")
# Attributes that speak of a body.
OF_BODIES = re.compile(r"#\[(cycle|tactic)\b[^\]]*\]\s*")


def rows(top):
    """The rows of crates.txt: the libraries that each crate names."""
    found = {}
    with open(f"{top}/crates.txt") as it:
        for line in it:
            name, colon, libraries = line.strip().partition(":")
            if colon and not name.startswith("#"):
                found[name] = libraries.split()
    return found


def below(crates, name, known):
    """All crates below one."""
    if name not in known:
        known[name] = set()
        for library in crates[name]:
            if library in crates:
                known[name] |= {library} | below(crates, library, known)
    return known[name]


def literal(text, at):
    """Behind the comment, string or character that begins at a place; the place itself where none does."""
    if text.startswith("//", at):
        end = text.find("\n", at)
        return len(text) if end < 0 else end
    if text[at] == '"':
        at += 1
        while text[at] != '"':
            at += 2 if text[at] == "\\" else 1
        return at + 1
    found = CHARACTER.match(text, at)
    return found.end() if found else at


def closed(text, at, is_ghost):
    """Behind the brace that closes the one at a place. Ghost text has no literals."""
    depth = 0
    while True:
        end = at if is_ghost else literal(text, at)
        if end > at:
            at = end
            continue
        word = re.compile(r"ghost\s[^{;]*\{").match(text, at) if not is_ghost and not text[at - 1].isalnum() else None
        if word:
            at = closed(text, word.end() - 1, True)
            continue
        depth += (text[at] == "{") - (text[at] == "}")
        at += 1
        if depth == 0 and text[at - 1] == "}":
            return at


def body(text, at):
    """Where the body of the function begins whose `fn` stands before a place, if it has one, and what is behind it."""
    depth, is_clause = 0, False
    while True:
        if text.startswith("//", at):
            at = literal(text, at)
            continue
        word = re.compile(r"\w+").match(text, at)
        if word:
            is_clause = is_clause or depth == 0 and word.group() in CLAUSES
            at = word.end()
            continue
        if depth == 0 and text[at] == ";":
            return None, at + 1
        if depth == 0 and text[at] == "{":
            end = closed(text, at, is_clause)
            if not is_clause:
                return at, end
            at, is_clause = end, False
            continue
        depth += (text[at] in "([") - (text[at] in ")]")
        at += 1


class File:
    """A file of a library, with stubs in the place of what is exported, and without its other functions."""

    def __init__(self, text, exported):
        self.text, self.exported, self.gone, self.has_stub = text, exported, set(), False
        self.parts, self.item, self.around, self.opening = [], 0, [], None
        at = 0
        while at < len(text):
            at = self.next(at)
        self.made = "".join(self.parts)

    def put(self, start, end):
        self.parts.append(self.text[start:end])
        return end

    def next(self, at):
        """Takes over the token at a place, or the function that begins there; gives what is behind it."""
        text = self.text
        end = literal(text, at)
        if end > at:
            self.put(at, end)
            if text.startswith("//!", at):
                self.item = len(self.parts)
            return end
        word = re.compile(r"\w+").match(text, at)
        if word:
            return self.word(at, word.end(), word.group())
        self.put(at, at + 1)
        if text[at] == "{":
            self.around.append(self.opening or "other")
        elif text[at] == "}" and self.around:
            self.around.pop()
        if text[at] in "{};":
            self.item, self.opening = len(self.parts), None
        return at + 1

    def word(self, at, end, word):
        text = self.text
        if word == "ghost":
            mark = re.compile(r"ghost\s[^{;]*[{;]").match(text, at)
            end = closed(text, mark.end() - 1, True) if mark.group().endswith("{") else mark.end()
            end += text.startswith(";", end)
        elif word == "macro_rules":
            end = closed(text, text.index("{", at), False)
        elif word == "fn" and self.opening not in ("impl", "trait"):
            return self.function(at)
        else:
            if word in ("impl", "trait", "mod", "enum", "struct", "union") and not self.opening:
                head = text[at : max(text.find("{", at), at)]
                self.opening = "trait" if word == "trait" or word == "impl" and re.search(r"\sfor\s", head) else word
            return self.put(at, end)
        self.put(at, end)
        self.item = len(self.parts)
        return end

    def function(self, at):
        start, end = body(self.text, at + 2)
        if start is None:
            self.put(at, end)
        else:
            head = "".join(self.parts[self.item :])
            del self.parts[self.item :]
            name = re.compile(r"fn\s+(\w+)").match(self.text, at).group(1)
            around = self.around[-1] if self.around else "file"
            is_public = re.search(r"\bpub\s+(const\s+)?(unsafe\s+)?$", head)
            if around == "trait" or is_public and (around == "impl" or name in self.exported):
                self.parts += [OF_BODIES.sub("", head), self.text[at:start], "{\n    never()\n}"]
                self.has_stub = True
            elif around in ("file", "mod"):
                self.gone.add(name)
        self.item, self.opening = len(self.parts), None
        return end


def without(text, gone):
    """The text without imports of functions that are gone."""

    def fewer(found):
        names = [it.strip() for it in found.group(2).split(",") if it.strip()]
        names = [it for it in names if re.split(r"::|\s", it)[-1] not in gone]
        return f"{found.group(1)}{{{', '.join(names)}}};" if names else ""

    text = re.sub(r"(?m)^((?:pub(?:\(crate\))? )?use [\w:]*?::)\{([^{}]*)\};", fewer, text)
    single = r"(?m)^(?:pub(?:\(crate\))? )?use (?:crate|super|self)[\w:]*::(\w+)(?: as \w+)?;\n"
    return re.sub(single, lambda it: "" if it.group(1) in gone else it.group(), text)


def with_import(text):
    """The text with `never` imported behind its head."""
    lines, behind, is_open = text.split("\n"), 0, False
    for number, line in enumerate(lines):
        if is_open or line.startswith(("//!", "#![", "ghost use")):
            behind = number + 1
            is_open = (is_open or line.startswith("ghost use")) and not line.rstrip().endswith(";")
        elif line.strip() and not line.startswith("//"):
            break
    return "\n".join([*lines[:behind], "use stub::never;", *lines[behind:]])


def files(folder, ends):
    for at, _, names in os.walk(folder):
        for name in sorted(names):
            if name.endswith(ends):
                yield f"{at}/{name}"


def read(path):
    with open(path) as it:
        return it.read()


def write(path, text):
    os.makedirs(os.path.dirname(path), exist_ok=True)
    with open(path, "w") as it:
        it.write(text)


def stub(source, to):
    """Writes the stubs of a library's code."""
    root = read(f"{source}/src/lib.rt")
    exported = {name for it in re.findall(r"pub use ([^;]*);", root) for name in re.findall(r"\w+", it)}
    exported |= set(re.findall(r"pub fn (\w+)", root))
    made = {path: File(read(path), exported) for path in files(f"{source}/src", ".rt") if not path.endswith("/tests.rt")}
    gone = set().union(*(it.gone for it in made.values())) - exported
    for path in files(f"{source}/src", ".rt"):
        it = made.get(path)
        text = without(it.made, gone) if it else read(path)
        write(path.replace(source, to, 1), with_import(text) if it and it.has_stub else text)


def is_law(path):
    """Whether a file of proofs is of a type's law, or of what of it may cross threads."""
    return "/TheLaw/" in path or "/TheSendSync/" in path


def cited(top, crates):
    """The files of lemmas that another crate than their own cites, and those that these cite: pairs of crate and module."""
    modules = {}
    for crate in crates:
        folder = f"{top}/crates/{crate}/proofs"
        for path in files(folder, ".antt"):
            if os.path.basename(path) not in OF_FUNCTIONS:
                modules[crate, os.path.relpath(path, folder)[:-5].replace("/", ".")] = path
    found, open_ones = set(), []

    def cite(text, inside=None):
        for it in re.finditer(r"Rattle\.(\w+)\.proofs((?:\.[\w\-]+)*)(?:\.\{([^}]*)\})?", text):
            crate, parts = it.group(1), [part for part in it.group(2).split(".") if part]
            if crate == inside:
                continue
            names = [".".join(parts[:count]) for count in range(1, len(parts) + 1)]
            names += [".".join([*parts, word]) for word in re.findall(r"[\w\-]+", it.group(3) or "")]
            for key in [(crate, name) for name in names]:
                if key in modules and key not in found:
                    found.add(key)
                    open_ones.append(key)

    for crate in crates:
        for part in ("src", "specs", "proofs"):
            for path in files(f"{top}/crates/{crate}/{part}", (".rt", ".antt")):
                cite(read(path), None if part == "specs" or is_law(path) else crate)
    while open_ones:
        cite(read(modules[open_ones.pop()]))
    return modules, found


def lemmas(top, crate, to, modules, found):
    """Writes those files of a library's lemmas that are cited, and the laws of its types."""
    folder = f"{top}/crates/{crate}/proofs"
    for path in files(folder, ".antt"):
        if is_law(path):
            write(path.replace(f"{top}/crates/{crate}", to, 1), read(path))
    stay = {name for it, name in found if it == crate}
    passes_on = (crate, "Lib") in modules and "pub use" in read(modules[crate, "Lib"])
    for name in stay | {"Lib"} if stay or passes_on else ():
        if (crate, name) not in modules:
            continue
        inside = "" if name == "Lib" else f"{name}."

        def stays(line):
            child = re.match(r"\s*(?:pub )?mod ([\w\-]+)\s*$", line)
            return not child or inside + child.group(1) in stay or (crate, inside + child.group(1)) not in modules

        path = modules[crate, name]
        write(path.replace(f"{top}/crates/{crate}", to, 1), "\n".join(it for it in read(path).split("\n") if stays(it)))


def main():
    into, target, flags = sys.argv[1], sys.argv[2], sys.argv[3:]
    top, crates = os.getcwd(), rows(os.getcwd())
    libraries = below(crates, target, {})
    modules, found = cited(top, crates)
    for crate in [*sorted(libraries), target]:
        source, to = f"{top}/crates/{crate}", f"{into}/crates/{crate}"
        for part in ("src", "specs", "proofs", "must-fail"):
            shutil.rmtree(f"{to}/{part}", ignore_errors=True)
            if os.path.isdir(f"{source}/{part}") and (crate == target or part == "specs"):
                shutil.copytree(f"{source}/{part}", f"{to}/{part}")
        if crate != target:
            stub(source, to)
            lemmas(top, crate, to, modules, found)
    write(f"{into}/crates/stub/src/lib.rt", NEVER)
    write(f"{into}/crates/stub/c/none.c", "unsigned char two_results(void) { return 1; }\n")
    lines = [f"{it}: {'stub ' * (it in libraries)}{' '.join(crates[it])}" for it in crates if it in libraries or it == target]
    write(f"{into}/crates.txt", "\n".join(["stub:", *lines]) + "\n")
    shutil.copy(f"{top}/HANDLES", f"{into}/HANDLES")
    ran = subprocess.run(["rt", "check", *flags], cwd=f"{into}/crates/{target}", env={**os.environ, "RT_ALLOW_C": "stub"})
    sys.exit(ran.returncode)


main()
