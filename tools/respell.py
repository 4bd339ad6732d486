#!/usr/bin/env python3
"""Brings the names that this repository declares to the toolchain's spelling: snake case for definitions, lemmas, fields and constructors.

usage: python3 tools/respell.py            at the top of the repository, once, right after the toolchain's port.py

A name that a specs/ or proofs/ file declares loses its inner capitals and its dashes: `maxLines` becomes `max_lines`, `valid-last` `valid_last`.
Left as they are: names that the prover makes (a goal's, as `returns-2`), names that come from a library, and `bit-and`, `bit-or`, `bit-xor`, where the
dash joins two names. A lemma whose new name is that of a definition gets `_lem` after it. Functions of src/, strings and exported names are not touched.
The proof of the function f becomes `f_spec`. Documents and the edits of must-fail/ get the same new names, in documents only between backticks.
"""

import collections
import os
import re

CUT = "\\s(){}.;,@\"«»\\[\\]`"
NAME = rf"[^{CUT}:]+"
TOKEN = re.compile(rf"[^{CUT}]+")
CODE = (".antt", ".rt")


def listed():
    with open("crates.txt", encoding="utf-8") as file:
        lines = [line.split("#")[0] for line in file]
    return [line.split(":")[0].split()[0] for line in lines if line.strip()]


def sources():
    found = []
    for crate in listed():
        for folder, folders, files in os.walk(os.path.join("crates", crate)):
            folders[:] = sorted(f for f in folders if f != "out")
            found += [os.path.join(folder, f) for f in sorted(files) if f.endswith(CODE)]
    return found


def read(path):
    with open(path, encoding="utf-8") as file:
        return file.read()


def snake(name):
    return re.sub(r"(?<=[a-z0-9])([A-Z])", lambda match: "_" + match[1].lower(), name)


def table():
    """Each own name that changes, with its new spelling."""
    crates = "|".join(listed())
    own, made, brought = set(), set(), set()
    for path in sources():
        text = read(path)
        if path.endswith(".antt"):
            own |= {m[1] for m in re.finditer(rf"^\s*(?:(?:abbrev|unfoldable|pub|where|let)\s+)*({NAME})\s*:\s", text, re.M)}
            made |= {m[1] for m in re.finditer(rf"^(?:abbrev )?(?:pub )?({NAME})\s*:.*\b(?:tie|goal)\.(?:Need|After|goal|the)", text, re.M)}
            made |= {m[1] for m in re.finditer(rf"\b(?:tie|goal)\.(?:Need-|After-)?({NAME})", text)}
        for m in re.finditer(r"^(?:ghost )?use\s+(\S+?)\.\{([^}]*)\}", text, re.M):
            if not re.match(rf"Rattle\.(?:{crates})\.(?:specs|proofs)", m[1]):
                brought |= {name.strip().split(" as ")[0].strip() for name in m[2].split(",")}
    own -= made
    camel = {n for n in own if n[0].islower() and re.search(r"[a-z0-9][A-Z]", n) and "-" not in n} - brought
    dashed = {n for n in own if "-" in n.strip("-")} - brought
    kept = own | brought
    new = {}
    for name in sorted(camel):
        new[name] = snake(name)
        if new[name] in own:
            new[new[name]] = new[name] + "_lem"
    taken = collections.Counter(new.values())
    for name in sorted(dashed):
        to = snake(name).replace("-", "_")
        if to in brought:
            continue
        if to in taken or to in own:
            to += "_lem"
        if to in taken or to in kept:
            raise SystemExit(f"respell: {name} and another name would both be {to}")
        taken[to] += 1
        new[name] = to
    return new, own | set(new.values())


def turned(new, text):
    return TOKEN.sub(lambda match: new.get(match[0], match[0]), text)


def turned_code(new, text, camel):
    """A source of Rattle: a comment's words only where they are inner-capital names or stand between backticks."""
    lines = []
    mark = "--" if text.startswith("--") or "\nuse " in text[:400] or text.startswith("use ") else None
    for line in text.split("\n"):
        bare = line.lstrip()
        if bare.startswith("--") or bare.startswith("//"):
            line = re.sub(r"`[^`]*`", lambda match: turned(new, match[0]), line)
            line = TOKEN.sub(lambda match: camel.get(match[0], match[0]), line)
        else:
            line = turned(new, line)
        lines.append(line)
    return "\n".join(lines)


def main():
    new, known = table()

    def follows(match):
        """In edits and documents, which port.py does not turn: also its own new names."""
        to = new.get(match[0], snake(match[0]).replace("-", "_"))
        return to if to in known else match[0]

    camel = {name: to for name, to in new.items() if re.search(r"[a-z0-9][A-Z]", name)}
    changed = 0
    for path in sources():
        old = read(path)
        if path.endswith(".rt"):
            # Rust code has neither inner capitals nor dashes in names; only clauses and `ghost use` lines name definitions.
            lines = []
            for line in old.split("\n"):
                bare = line.lstrip()
                if bare.startswith("//"):
                    line = TOKEN.sub(lambda match: camel.get(match[0], match[0]), line)
                elif bare.startswith(("ghost ", "requires", "ensures")):
                    line = turned(new, line)
                lines.append(line)
            text = "\n".join(lines)
        else:
            text = turned_code(new, old, camel)
        if text != old:
            changed += 1
            with open(path, "w", encoding="utf-8") as file:
                file.write(text)
    for folder, folders, files in os.walk("."):
        folders[:] = sorted(f for f in folders if f not in (".git", "out", "target"))
        for name in sorted(files):
            path = os.path.join(folder, name)
            if name.endswith(".edit"):
                text = TOKEN.sub(follows, read(path))
            elif name.endswith(".md") and "must-fail" not in path:
                text = re.sub(r"`[^`\n]+`", lambda match: TOKEN.sub(follows, match[0]), read(path))
            else:
                continue
            if text != read(path):
                changed += 1
                with open(path, "w", encoding="utf-8") as file:
                    file.write(text)
    print(f"respell: {len(new)} names, {changed} files")


main()
