#!/usr/bin/env python3
"""Brings the names of the repository's own definitions and lemmas to today's spelling: words in snake case, types in
camel case. Run once, at the top, on what port.py left:

    python3 tools/respell.py [--list]

It reads every definition, lemma, ruleset, constructor and record field of crates/*/specs and crates/*/proofs, makes the
new name of each (`ownPart` becomes `own_part`, `legal-is-rendered` becomes `legal_is_rendered`). A lemma or field that
would have the name of a definition gets `_lem`. It stops where two names would still fall together. Then it writes the new names in the .antt and .rt files, in the must-fail edits, and between
backticks in comments and pages. Names that begin with a capital (types, facts, modules) stay, as do names from Rust and
names that a file imports from the library. --list only prints the names.
"""

import collections
import os
import re
import sys

WORD = r"[^\s(){}\[\];,.λ\"⌜⌝⟨⟩\\`]+"
TOKEN = re.compile(r"(?<![\w'\-·◌])[A-Za-z_][\w'·]*(?:-[\w'·]+)*(?![\w'\-·◌])")
KEYWORDS = ("use", "mod", "module", "unfolding", "infix", "infixl", "infixr", "mutual", "open", "where", "pub")


def files(*ends):
    for folder, dirs, names in os.walk("crates"):
        dirs[:] = sorted(d for d in dirs if d != "out")
        for name in sorted(names):
            if name.endswith(ends):
                yield os.path.join(folder, name)


def read(path):
    with open(path, encoding="utf-8") as f:
        return f.read()


def of_a_function(path):
    return os.path.basename(path) in ("Proof.antt", "Answers.antt", "Invariants.antt")


def declared(text):
    """The names that a file declares at its top, and the fields and constructors of its types."""
    inside, block = None, False
    for line in text.split("\n"):
        if re.match(r"^(pub )?module ", line):
            inside, block = None, True
            continue
        if re.match(r"^(pub |mutual |abbrev |unfoldable )*(record|data) ", line):
            inside = True
            continue
        m = re.match(r"^(?:pub )?ruleset (\S+)", line)
        if m:
            yield m.group(1)
        if line and not line.startswith((" ", "--")):
            inside, block = None, False
        if inside:
            m = re.match(r"^  (?:pub )?((?:[^\s:|]+ )+): ", line)
            if m:
                yield from m.group(1).split()
            continue
        m = re.match(("^(?:  )+" if block else "^") + r"(?:abbrev |unfoldable |pub )*(" + WORD + r") : ", line)
        if m and m.group(1) not in KEYWORDS:
            yield m.group(1)


def snake(name):
    if not re.match(r"^[a-z]", name):
        return name
    name = re.sub(r"(?<=[a-z0-9'])([A-Z])", lambda m: "_" + m.group(1).lower(), name)
    name = re.sub(r"(?<=_[a-z])([A-Z])", lambda m: "_" + m.group(1).lower(), name)
    return name.replace("-", "_")


def imports(text):
    """For each file: the names that it imports, with the module of each."""
    for m in re.finditer(r"^(?:ghost )?use ([\w.'·+-]+)\.\{([^}]*)\}", text, re.M):
        for part in m.group(2).split(","):
            part = part.strip().split(" as ")[0].strip()
            if part:
                yield part, m.group(1)


def table():
    found = collections.defaultdict(set)
    for path in files(".antt"):
        if not of_a_function(path) and os.path.basename(path) != "Lib.antt":
            for name in declared(read(path)):
                found[name].add(path)
    names = {n: snake(n) for n in found}
    plain = {m for n, m in names.items() if "-" not in n}
    camel = {m for n, m in names.items() if "-" not in n and n != m}
    functions = {f for path in files(".rt") for f in re.findall(r"\bfn (\w+)", read(path))}
    for n in names:
        if ("-" in n and names[n] in plain) or (n == names[n] and n in camel and n not in functions):
            names[n] += "_lem"
    names.update({n: n for n in ("list_at", "pair_fits")})  # lemmas that no file names beside the definitions
    names["add-pair"] = "add_one_pair"  # a constructor of `Action`; `add_pair` is the definition
    bad = []
    for path in files(".antt"):
        if of_a_function(path):
            continue
        here = collections.defaultdict(set)
        for n in declared(read(path)):
            here[names.get(n, n)].add(n)
        for n, module in imports(read(path)):
            here[names.get(n, n) if ours(module) else n].add(n)
        for new, old in here.items():
            if len(old) > 1:
                bad.append(f"{path}: {', '.join(sorted(old))} would all be {new}")
    if bad:
        sys.exit("\n".join(bad))
    return {n: m for n, m in names.items() if n != m}


def ours(module):
    return module.startswith("Rattle.") and module.split(".")[1] in os.listdir("crates")


def respell(text, names):
    """A file of antt or of Rust. Rust's own `-` stands between spaces, so no name with a dash is mistaken there."""
    foreign = {n for n, module in imports(text) if not ours(module)}

    def new(m):
        word = m.group(0)
        if word in foreign or word not in names:
            return word
        return names[word]

    def line(code):
        mark = re.search(r"(?<!\S)(--|//)(?!\S)", code)
        at = mark.start() if mark else len(code)
        head = TOKEN.sub(new, code[:at])
        return head + quoted(code[at:], names)

    return "\n".join(line(l) for l in text.split("\n"))


def quoted(text, names):
    """Prose: names between backticks, and those in camel case anywhere."""
    text = re.sub(r"`[^`\n]*`", lambda q: TOKEN.sub(lambda m: names.get(m.group(0), m.group(0)), q.group(0)), text)
    camel = {n for n in names if "-" not in n and re.search(r"[a-z][A-Z]", n)}
    return TOKEN.sub(lambda m: names[m.group(0)] if m.group(0) in camel else m.group(0), text)


def edit(text, names):
    """A must-fail edit: its lines are of the file that it names."""
    def line(l):
        m = re.match(r"^(old|new): (.*)$", l)
        return f"{m.group(1)}: {respell(m.group(2), names)}" if m else l

    return "\n".join(line(l) for l in text.split("\n"))


def main():
    names = table()
    if "--list" in sys.argv:
        for old, new in sorted(names.items()):
            print(old, new)
        return
    for path in files(".antt", ".rt", ".edit"):
        text = read(path)
        if path.endswith(".edit"):
            new = edit(text, names)
        else:
            new = respell(text, names)
        if new != text:
            with open(path, "w", encoding="utf-8") as f:
                f.write(new)
    pages = ["README.md", *(os.path.join("docs", n) for n in sorted(os.listdir("docs")) if n.endswith(".md") and n != "PORT.md")]
    for path in pages:
        text = read(path)
        new = quoted(text, names)
        if new != text:
            with open(path, "w", encoding="utf-8") as f:
                f.write(new)


main()
