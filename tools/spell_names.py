#!/usr/bin/env python3
"""Spells the repository's own definitions and lemmas as today's Rattle does: words in snake case, types and modules in camel case.

usage: python3 tools/spell_names.py      at the top of the repository, once, right after the kit's script for older repositories

A name that an .antt file of crates/ declares and that has a dash, or a capital after a small letter behind a small first letter, gets underscores.
Where a lemma would then have the name of a definition, the lemma gets `_lem` after it. Names of the library, of functions of src/, of goals and steps
that the check makes, strings and outputs stay as they are. It turns .antt and .rt files, must-fail edits, and the code spans of the documents.
"""

import collections
import os
import re

DECLARED = re.compile(r"^\s*(?:(?:pub|abbrev|unfoldable|record|data|opaque)\s+)*([^\s:(){}.;,@\"=λ]+)(?:\s+[({][^=]*)?\s*:(?:\s+(.*))?$")
IMPORT = re.compile(r"use\s+([^\s{;]+)\.\{([^}]*)\}")
WORD = re.compile(r"[^\s(){}.;,@\"«»⟦⟧⌜⌝`|&!:\[\]]+")
CODE = re.compile(r"`[^`\n]+`|```.*?```", re.S)
OWN = {name for name in os.listdir("crates")}


def files(*endings):
    for folder, inside, names in os.walk("."):
        inside[:] = sorted(d for d in inside if d not in ("out", ".git", "target"))
        for name in sorted(names):
            if name.endswith(endings):
                yield os.path.join(folder, name)


def read(path):
    with open(path, encoding="utf-8") as file:
        return file.read()


def snake(name):
    name = re.sub(r"(?<=[a-z0-9])([A-Z])", lambda m: "_" + m.group(1).lower(), name) if name[0].islower() else name
    return re.sub(r"(?<=[^-])-(?=[^-])", "_", name)


def declared():
    names, library = collections.defaultdict(set), set()
    for path in files(".antt"):
        text = read(path)
        for module, items in IMPORT.findall(text):
            parts = module.split(".")
            if parts[0] != "Rattle" or parts[1] not in OWN:
                library |= {item.strip().split(" as ")[0] for item in items.split(",")}
        for line in text.split("\n"):
            found = DECLARED.match(line)
            if not found or found.group(1) in ("let", "in", "use", "--"):
                continue
            if (found.group(2) or "").lstrip().startswith(("tie.", "goal.")):
                continue
            names[found.group(1)].add(path)
    return names, library


def spellings():
    names, library = declared()
    turned = {name: snake(name) for name in names if name not in library}
    taken = collections.defaultdict(set)
    for name, new in turned.items():
        taken[new].add(name)
    for new, olds in taken.items():
        if len(olds) > 1 or new in library:
            for old in olds:
                if "-" in old or (old == new and all("/proofs/" in path for path in names[old])):
                    turned[old] = new + "_lem"
    return {old: new for old, new in turned.items() if old != new}


def turn(text, table, skip=()):
    def word(found):
        before = text[: found.start()]
        if any(before.endswith(s) for s in skip):
            return found.group(0)
        old = found.group(0)
        bare = old.rstrip("'")
        return table.get(old) or (table[bare] + old[len(bare) :] if bare in table else old)

    return WORD.sub(word, text)


def strings_apart(text, table):
    parts = re.split(r"(b?\"(?:[^\"\\]|\\.)*\")", text, flags=re.S)
    return "".join(part if i % 2 else turn(part, table) for i, part in enumerate(parts))


def main():
    table = spellings()
    for path in files(".antt"):
        text = read(path)
        new = turn(text, table, ("tie.", "goal."))
        if new != text:
            open(path, "w", encoding="utf-8").write(new)
    stated = {old: new for old, new in table.items() if not new.endswith("_lem")}
    for path in files(".rt", ".edit"):
        if not path.startswith("./crates/"):
            continue
        text = read(path)
        new = strings_apart(text, stated)
        if new != text:
            open(path, "w", encoding="utf-8").write(new)
    for path in files(".md"):
        text = read(path)
        new = CODE.sub(lambda m: turn(m.group(0), table), text)
        if new != text:
            open(path, "w", encoding="utf-8").write(new)
    for old, new in sorted(table.items()):
        print(f"{old}\t{new}")


if __name__ == "__main__":
    main()
