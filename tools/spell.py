#!/usr/bin/env python3
"""Respells the repository's own definitions, fields, constructors and lemmas.

usage: python3 tools/spell.py      at the top of the repository, once, after port.py

A definition's words are joined by `_`, also where they were joined by a capital or a dash. A lemma keeps a dash
between two names of definitions, as in `cut_each-proper`, and joins plain words by `_`; one that would have a definition's name gets
`_lem`. Types and modules stay as they are. Pages name what they speak of in backticks, and there the names change too. Where a new
name is taken already, the script says so and changes nothing.
"""

import glob
import re
import subprocess
import sys

DEFINED = re.compile(r"^\s*(?:(?:abbrev|unfoldable)\s+)?(?:pub\s+)?(?:(?:abbrev|unfoldable)\s+)?([^\s(){}\[\];:,.λ∷]+)\s*:(?!:)")
TOKEN = re.compile(r"(?<![\w'-])[^\W\d][\w']*(?:-[\w'*+]+)*")
FREE = re.compile(r"(?<![\w'.-])" + TOKEN.pattern[len(r"(?<![\w'-])"):] + r"(?![\w'.-])")
HUMP = re.compile(r"(?<=[a-z0-9])(?=[A-Z])")
LISTS = {"length", "append", "drop", "take", "cons", "nil", "set", "sets", "map", "get_or"}


def read(path):
    with open(path, encoding="utf-8") as f:
        return f.read()


def snake(name):
    return HUMP.sub("_", name).replace("-", "_").lower() if name[0].islower() else name


def defined(paths):
    names = set()
    for path in paths:
        for line in read(path).splitlines():
            if line.lstrip().startswith("--"):
                continue
            found = DEFINED.match(line)
            if found and TOKEN.fullmatch(found.group(1)):
                names.add(found.group(1))
    return names


def lemma(name, words):
    """A dash stays in a name of two definitions, one of which is of lists or was joined by capitals."""
    parts = [snake(part) if part[0].islower() else part for part in name.split("-")]
    plain = not any(part in LISTS or HUMP.search(part) for part in name.split("-"))
    return ("_" if plain or len(parts) != 2 or not set(parts) <= words else "-").join(parts)


def spelling(specs, proofs):
    definitions = defined(specs)
    words = {snake(name) for name in definitions} | LISTS
    given = {snake(name) for name in definitions}
    new = {}
    for name in sorted(definitions | defined(proofs), key=lambda name: (name not in definitions, "-" in name, name)):
        if name[0].isupper() and "-" not in name:
            continue
        to = snake(name) if name in definitions else lemma(name, words)
        if name not in definitions:
            to += "_lem" if to in given else ""
            given.add(to)
        if to != name:
            new[name] = to
    return new


def definitions(paths, new):
    return {new.get(name, name) for name in defined(paths)}


def spoken(pages, names):
    """Names that pages have in an older spelling and port.py has turned elsewhere."""
    found = {n for p in pages for m in re.findall(r"`[^`]+`", read(p)) for n in TOKEN.findall(m)}
    return {n: snake(n) for n in found if n not in names and snake(n) in names and snake(n) != n}


def turned(text, new, comment, code):
    """The text with its names turned; in comments, and in all of a page, only those in backticks."""
    out = []
    inside = False
    for line in text.split("\n"):
        at = line.find(comment) if comment else 0
        front, back = (line, "") if at < 0 else (line[:at], line[at:])
        if code == "rt":
            ghost = front.lstrip().startswith(("ghost ", "requires", "ensures"))
            inside = ghost or inside
            if inside:
                front = TOKEN.sub(lambda m: new.get(m.group(0), m.group(0)), front)
            if inside and (front.rstrip().endswith(("};", "}")) and front.count("{") <= front.count("}") or front.strip() == "{"):
                inside = False
        elif code == "antt":
            front = TOKEN.sub(lambda m: new.get(m.group(0), m.group(0)), front)
        back = re.sub(r"`[^`]+`", lambda m: TOKEN.sub(lambda n: new.get(n.group(0), n.group(0)), m.group(0)), back)
        out.append(front + back)
    return "\n".join(out)


def main():
    specs = sorted(glob.glob("crates/*/specs/**/*.antt", recursive=True))
    proofs = sorted(p for p in glob.glob("crates/*/proofs/**/*.antt", recursive=True))
    sources = sorted(glob.glob("crates/*/src/**/*.rt", recursive=True))
    pages = [p for p in subprocess.run(["git", "ls-files", "*.md"], capture_output=True, text=True, check=True).stdout.split() if not p.startswith("tests/desk/")]
    shared = [p for p in proofs if not p.endswith("/Proof.antt")]
    new = spelling(specs, shared)
    taken = {t for p in specs + proofs for line in read(p).splitlines() for t in FREE.findall(line.split("--")[0])} - set(new)
    faults = [f"{old} -> {to}: taken" for old, to in sorted(new.items()) if to in taken]
    seen = {}
    for old, to in sorted(new.items()):
        if to in seen:
            faults.append(f"{old} and {seen[to]} -> {to}")
        seen[to] = old
    if faults:
        print("\n".join(faults))
        raise SystemExit(1)
    older = spoken(pages, definitions(specs + shared, new))
    for path in specs + proofs + sources + pages:
        kind = "antt" if path.endswith(".antt") else "rt" if path.endswith(".rt") else "page"
        text = read(path)
        made = turned(text, new if kind != "page" else older | new, {"antt": "--", "rt": "//", "page": ""}[kind], kind)
        if made != text:
            with open(path, "w", encoding="utf-8") as f:
                f.write(made)
    print(f"{len(new)} names respelled")


if __name__ == "__main__":
    sys.exit(main())
