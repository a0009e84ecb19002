#!/usr/bin/env python3
"""Brings this repository's own definitions and lemmas to today's spelling of names.

usage: python3 tools/respell.py        at the top of the repository, once, after the kit's port.py

Words are in snake case (exactFrom becomes exact_from). A dash joins two names (members-append); a plain word is added with an
underscore (clear_begin). The proof of a function f is f_spec. A definition named result gives way to the word of clauses.
Names of functions and types of src/, strings, inputs and outputs stay as they are. It stops where two names would fall together.
"""

import os
import re
import sys

TOKEN = r"[^\s(){}\[\],;.`\"]+"
HEAD = re.compile(r"^(\s*)((?:abbrev |unfoldable |pub |data |record |ruleset )*)(" + TOKEN + r")((?: \(.*)?) :(?: |$)")
USE = re.compile(r"^\s*(?:ghost )?(?:pub )?use ([^{;]+?)\.\{([^}]*)\}", re.M)
# A definition that has the name of a word of clauses, and the module that it stands in.
TAKEN = {"result": ("result_of", "Rattle.adaptive_rules.specs.Calls")}
# Parts of names that stand for a definition under its older spelling.
OLDER = {"getD": "get_or"}
# Parts of names by which lemmas call an operator or a constructor: names like any other.
CALLED = {"append", "cons", "suc", "zero", "le", "lt"}
# Lemmas whose names would fall together with a definition's.
APART = {"in-range": "lent_of", "words-of": "words_from", "verdict-with": "verdict-verdict_with"}


def files(ending):
    for folder, dirs, names in os.walk("crates"):
        dirs[:] = sorted(d for d in dirs if d != "out")
        for name in sorted(names):
            if name.endswith(ending):
                yield os.path.join(folder, name)


def snake(name):
    if name[:1].isupper():
        return name
    return re.sub(r"([a-z0-9])([A-Z])", lambda m: m.group(1) + "_" + m.group(2).lower(), name)


def read(path):
    with open(path, encoding="utf-8") as f:
        return f.read()


def defined(texts):
    """The names that the crates define at the top of a file, which of them are definitions, and all inner names."""
    tops, words, inner = set(), set(), set()
    for path, text in texts.items():
        for line in text.splitlines():
            m = HEAD.match(line)
            if not m or m.group(3) in ("let", "λ"):
                continue
            if m.group(1):
                inner.add(m.group(3))
                continue
            tops.add(m.group(3))
            if re.search(r"abbrev|unfoldable|data|record", m.group(2)) or "/specs/" in path:
                words.add(m.group(3))
    return tops, words, inner


def imported(texts):
    found = set()
    for text in texts.values():
        for m in USE.finditer(text):
            if not re.search(r"Rattle\.\w+\.(specs|proofs)\b", m.group(1)) or m.group(1).startswith("Rattle.std"):
                found |= {w.strip().split(" as ")[0] for w in m.group(2).split(",")}
    return found


def respelt(name, words):
    """The name in today's spelling: a dash stays only between two names."""
    if name in APART:
        return APART[name]
    if name.endswith("-spec"):
        return name[:-5].replace("-", "_") + "_spec"
    parts = [snake(OLDER.get(p, p)) for p in name.split("-")]
    new = parts[0]
    for before, part in zip(parts, parts[1:]):
        names = all(p.split("_")[-1 if p is before else 0] in words or p in words for p in (before, part))
        new += ("-" if names else "_") + part
    return new


def main():
    texts = {p: read(p) for p in files(".antt")}
    sources = {p: read(p) for p in files(".rt")}
    tops, words, inner = defined(texts)
    outside = imported(texts | sources)
    known = {w.lower() for w in words | {snake(w) for w in words} | {w for w in outside if "-" not in w}} | CALLED
    to = {}
    for name in sorted(tops):
        new = respelt(name, known)
        if new != name:
            to[name] = new
    # What falls together: with another new name, with one that stays, or with one of the library's that is imported somewhere.
    stay = (tops - set(to)) | outside | inner
    for name, new in to.items():
        same = [o for o, n in to.items() if n == new and o != name]
        if same or new in stay:
            sys.exit(f"respell: {name} would be {new}, which {same[0] if same else 'another'} is")
    for path, text in (texts | sources).items():
        new = text
        code = path.endswith(".rt")
        for word, (other, module) in TAKEN.items():
            if any(m.group(1) == module and word in re.split(r"[,\s]+", m.group(2)) for m in USE.finditer(text)) or module.endswith("." + os.path.basename(path)[:-5]) and module.split(".")[1] == path.split("/")[1]:
                new = swap(new, {word: other}, code)
        new = swap(new, to, code)
        if new != text:
            with open(path, "w", encoding="utf-8") as f:
                f.write(new)
    for name, new in sorted(to.items()):
        print(name, new)


def swap(text, to, code):
    """Writes the new names: in a .rt file only in its clauses and its ghost lines, and in neither comments nor strings."""
    out = []
    for line in text.split("\n"):
        if code and not re.match(r"^\s*(ghost |requires|ensures)", line) or not code and line.lstrip().startswith("--"):
            out.append(line)
            continue
        out.append(re.sub(TOKEN, lambda m: to.get(m.group(0), m.group(0)), line))
    return "\n".join(out)


main()
