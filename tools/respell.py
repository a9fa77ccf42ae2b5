#!/usr/bin/env python3
"""Respells the repository's own definitions and lemmas as the installed Rattle spells names.

A name that begins with a small letter becomes snake case (flat-of: flat_of), one that begins with a capital becomes
camel case (Told-apart: ToldApart). Only names that a file of specs/ or proofs/ declares are changed, with every
mention of them in specs/, proofs/, clauses and ghost imports; names that the check generates keep their hyphens.

    python3 tools/respell.py            at the top of the repository, after the kit's port.py
    python3 tools/respell.py --list     prints the names, and changes nothing
"""
import collections
import glob
import re
import sys

NAME = r"[A-Za-z_][A-Za-z0-9_'≢≡≤<+∙]*(?:-[A-Za-z0-9_'≢≡≤<+∙]+)*"
KEYWORDS = r"(?:(?:abbrev|unfoldable|pub|data|record)\s+)*"
DECLARED = re.compile(rf"^\s*{KEYWORDS}({NAME}(?:\s+{NAME})*)\s*(?:[({{].*)?:(?:\s|$)")


def files(pattern):
    return sorted(f for f in glob.glob(pattern, recursive=True) if "/out/" not in f)


def generated(path):
    """Whether the check fixes the names that the file declares."""
    return path.endswith(("/Answers.antt", "/Invariants.antt"))


def respelled(name):
    if name[0].isupper():
        return "".join(part[0].upper() + part[1:] for part in name.split("-"))
    return name.replace("-", "_")


def declared():
    names = collections.defaultdict(set)
    for path in files("crates/**/*.antt"):
        for line in open(path, encoding="utf8"):
            if line.lstrip().startswith("--"):
                continue
            found = DECLARED.match(line)
            if not found or (generated(path) and re.search(r":\s*goal\.", line)):
                continue
            for name in found.group(1).split():
                if "-" in name:
                    names[name].add(path)
    return names


def aliases():
    """Names that a file gives to what it imports."""
    names = collections.defaultdict(set)
    for path in files("crates/**/*.antt") + files("crates/**/*.rt"):
        text = open(path, encoding="utf8").read()
        for body in re.findall(r"use [^\s{]*\{([^}]*)\}", text):
            for item in re.findall(rf" as «?({NAME})", body):
                if "-" in item:
                    names[item].add(path)
    return names


def left_in_clauses(known):
    """Names in source files that the kit's script respelled where they are declared, but not there."""
    names = collections.defaultdict(set)
    for path in files("crates/**/*.rt"):
        for name in re.findall(NAME, open(path, encoding="utf8").read()):
            if "-" in name and respelled(name) in known:
                names[name].add(path)
    return names


def all_declared():
    names = set()
    for path in files("crates/**/*.antt"):
        for line in open(path, encoding="utf8"):
            found = DECLARED.match(line)
            if found and not line.lstrip().startswith("--"):
                names.update(found.group(1).split())
    return names


def imported():
    """The names that files import from the kit."""
    names = set()
    for path in files("crates/**/*.antt") + files("crates/**/*.rt"):
        text = open(path, encoding="utf8").read()
        for found in re.finditer(r"use (?:Rattle\.std|borrow|mathlib|lib|native|Prim|core)[\w.+]*\.\{([^}]*)\}", text):
            for item in found.group(1).split(","):
                names.add(item.strip().split(" as ")[0].strip("«» "))
    return names


def change(text, names, inside):
    """The text with the names respelled where they stand alone, or behind a dot if `inside` says so."""
    def one(found):
        name = found.group(2)
        if name in names and (found.group(1) != "." or inside(name)):
            return found.group(1) + names[name]
        return found.group(0)

    text = re.sub(rf"(?<![A-Za-z0-9_'-])(\.?)(?<!-)({NAME})(?![A-Za-z0-9_'-])", one, text)
    return text


def antt(path, names, fields):
    text = open(path, encoding="utf8").read()
    out = []
    for line in text.split("\n"):
        if line.lstrip().startswith("--"):
            line = re.sub(r"`([^`]*)`", lambda m: "`" + change(m.group(1), names, lambda n: True) + "`", line)
        elif not re.search(r"^\s*(?:pub\s+|abbrev\s+)*[^\s:]+ : goal\.", line):
            line = change(line, names, (lambda n: n in fields) if generated(path) else (lambda n: True))
        out.append(line)
    return "\n".join(out)


def rt(path, names):
    """Clauses, ghost members and ghost imports of a source file."""
    text = open(path, encoding="utf8").read()
    text = re.sub(r"«([^»]*)»", lambda m: names.get(m.group(1), m.group(0)), text)
    return "\n".join(
        line if line.lstrip().startswith("//") else change(line, names, lambda n: True) for line in text.split("\n")
    )


def main():
    kit = imported()
    found = declared()
    found.update(aliases())
    found.update(left_in_clauses(all_declared()))
    names = {name: respelled(name) for name in found if name not in kit}
    fields = set()
    for path in files("crates/**/*.antt"):
        text = open(path, encoding="utf8").read()
        for body in re.findall(r"^\s*(?:pub )?record [^\n]* where\n((?:[ \t]+[^\n]*\n|\n)*)", text, re.M):
            for line in body.split("\n"):
                field = DECLARED.match(line)
                if field:
                    fields.update(n for n in field.group(1).split() if n in names)
    if "--list" in sys.argv:
        for name in sorted(names):
            print(name, names[name], ",".join(sorted(found[name])), "field" if name in fields else "")
        return
    for path in files("crates/**/*.antt"):
        new = antt(path, names, fields)
        if new != open(path, encoding="utf8").read():
            open(path, "w", encoding="utf8").write(new)
    for path in files("crates/**/*.rt"):
        new = rt(path, names)
        if new != open(path, encoding="utf8").read():
            open(path, "w", encoding="utf8").write(new)


if __name__ == "__main__":
    main()
