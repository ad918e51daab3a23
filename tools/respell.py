#!/usr/bin/env python3
"""Respells this repository's own definitions and lemmas: words in snake case, facts and types in camel case.

usage: python3 tools/respell.py            at the top of the checkout, once, right after the port script

Renamed are: what specs/ and proofs/ declare with a dash or in lower camel case, fields and constructors among
it, and the other names that a `use` line gives to something. Names of src/, names that Rattle makes (of goals,
steps and generated modules), strings and inputs stay. It prints the names that fall together.
"""

import os
import re
import sys

WORD = r"[^\W\d][\w'′]*(?:-[\w'′]+)*"
TOKEN = re.compile(r"(?<![\w'-])" + WORD)
DECLARED = re.compile(r"^(\s*)((?:(?:pub|abbrev|unfoldable|record|data|ruleset|mutual)\s+)*)(" + WORD + r")\s*(?=[:({]|where\b)")
USE = re.compile(r"^\s*(?:pub\s+)?(?:ghost\s+)?(?:pub\s+)?use\s+([^;{]+?)(?:\.\{([^}]*)\})?\s*;?\s*$")
MADE = re.compile(r"\.(Goals|Given|declared|contracts)\b")


# Names that `use` gives in place of a word which a function, a parameter or another word of that file has.
GIVEN = {
    "isPathNotFound": "path_was_not_found",
    "guardFailed": "guard_failed_as",
    "canonicalOf": "canonical_after",
    "onceMore": "one_more_time",
}

# The port script gave the alias of a clause's word the name that the function beside it has.
MET = {"crates/sheet/src/scanning.rt": [("item-of as item_of", "item-of as shown_item"), ("{ item_of result", "{ shown_item result")]}


def turned(name):
    """The name as the guide spells it, or the name itself."""
    if name in GIVEN:
        return GIVEN[name]
    if "-" in name:
        if name[0].isupper():
            return "".join(part[:1].upper() + part[1:] for part in name.split("-"))
        return name.replace("-", "_")
    if name[0].islower() and re.search(r"[a-z][A-Z]", name):
        return re.sub(r"(?<=[a-z0-9])([A-Z])", lambda m: "_" + m.group(1).lower(), name)
    return name


def files(top):
    for folder, dirs, names in os.walk(os.path.join(top, "crates")):
        dirs[:] = sorted(d for d in dirs if d != "out")
        for name in sorted(names):
            if name.endswith((".rt", ".antt")):
                yield os.path.join(folder, name)


def crates(top):
    return {name for name in os.listdir(os.path.join(top, "crates")) if os.path.isdir(os.path.join(top, "crates", name))}


def declared(path, text):
    """Names that an .antt file declares itself, without the answers that are named after goals."""
    if not path.endswith(".antt"):
        return set()
    found = set()
    for line in text.splitlines():
        m = DECLARED.match(line)
        if not m or line.lstrip().startswith("--") or not (m.group(2) or line[m.end() :].startswith(":")):
            continue
        if re.search(r":\s*(\{[^}]*\}\s*|\([^)]*\)\s*)*goal\.", line):
            continue
        found.add(m.group(3))
    return found


def imported(text, own):
    """Names that come in from specs/ and proofs/ of this repository, and names given by `as`, each with its source."""
    mine, other, given = set(), set(), set()
    for line in text.splitlines():
        m = USE.match(line)
        if not m:
            continue
        where, items = m.groups()
        of_ours = re.match(r"Rattle\.(\w+)\.(specs|proofs)\b", where) and where.split(".")[1] in own and not MADE.search(where)
        for item in filter(None, (i.strip() for i in (items or "").split(","))):
            name, _, other_name = item.partition(" as ")
            (mine if of_ours else other).add(name.strip())
            if other_name:
                given.add(other_name.strip())
    return mine, other, given


def respelled(text, names, members, own):
    def one(m):
        word = m.group(0)
        before = text[: m.start()]
        if before.endswith("."):
            path = re.search(r"[\w.'-]*$", before).group(0)
            if path.startswith("Rattle."):
                parts = path.split(".")
                return turned(word) if parts[1] in own and not MADE.search(path[:-1]) and (word in members or word in names) else word
            return turned(word) if word in members else word
        if word in members and re.search(r"[{;]\s*$", before) and re.match(r"\s*=(?!=)", text[m.end() :]):
            return turned(word)
        return turned(word) if word in names else word

    return TOKEN.sub(one, text)


def main():
    top = os.getcwd()
    own = crates(top)
    texts = {path: open(path, encoding="utf-8").read() for path in files(top)}
    for path, pairs in MET.items():
        for old, new in pairs:
            texts[os.path.join(top, path)] = texts[os.path.join(top, path)].replace(old, new)
    of_file = {path: declared(path, text) for path, text in texts.items()}
    everywhere = set().union(*of_file.values())
    changed = 0
    for path, text in texts.items():
        mine, other, given = imported(text, own)
        names = {n for n in (of_file[path] | mine | given) if turned(n) != n}
        after = {}
        for name in sorted(of_file[path] | mine | other | given):
            new = turned(name) if name in names else name
            after.setdefault(new, set()).add(name)
        for new, olds in after.items():
            if len(olds) > 1:
                print(f"fall together: {path}: {', '.join(sorted(olds))} -> {new}")
        members = {n for n in everywhere if turned(n) != n and n not in other}
        new_text = respelled(text, names, members, own)
        if new_text != text:
            with open(path, "w", encoding="utf-8") as out:
                out.write(new_text)
            changed += 1
    print(f"{changed} files respelled")


if __name__ == "__main__":
    sys.exit(main())
