#!/usr/bin/env python3
"""Brings the repository's own definitions and lemmas to today's spelling: words in snake case.

usage: tools/respell.py [--list] [FOLDER]    in the repository, or in FOLDER; --list prints the renamings and what falls together, and writes nothing

It follows the kit's port.py, which respells only the names that its library has, too. Rust's names in src/, exported names, strings, inputs and outputs stay. A name
that is declared in a crate's specs/, or in a file of its proofs/ that is no function's own, is respelled wherever it stands: in definitions, lemmas, clauses, edits and
docs. Generated names (of goals, steps and loops) stay.
"""

import os
import re
import sys

TOKEN = re.compile(r"[^\s(){}\[\].,;:|`\"⌜⌝/]+")
DECLARED = re.compile(r"^\s*(?:abbrev |unfoldable |pub )*((?:[a-z][^\s(){}\[\].,;:=`\"]* +)+):|^(?:abbrev |unfoldable |pub )*([a-z][^\s(){}\[\].,;:=`\"]*)$")
WORDS = {"record", "data", "where", "module", "mod", "use", "let", "in", "elim", "unfolding", "mutual", "open", "opaque", "ruleset", "syntax"}
CAMEL = re.compile(r"(?<=[a-z0-9])([A-Z])(?=[a-z0-9]|$|')")


def files(root, *endings):
    for folder, dirs, names in os.walk(os.path.join(root, "crates")):
        dirs[:] = sorted(d for d in dirs if d != "out")
        for name in sorted(names):
            if name.endswith(endings):
                yield os.path.join(folder, name)


def read(path):
    with open(path, encoding="utf-8") as file:
        return file.read()


def is_own(path):
    """Whether a file of proofs/ is a function's own."""
    return os.path.basename(path) == "Proof.antt"


def declared(root):
    names = set()
    for path in files(root, ".antt"):
        if is_own(path):
            continue
        for line in read(path).splitlines():
            if line.lstrip().startswith("--"):
                continue
            found = DECLARED.match(line)
            names |= {name for name in (found.group(1) or found.group(2)).split() if name not in WORDS} if found else set()
    return names


def respelled(name):
    return CAMEL.sub(lambda m: "_" + m.group(1).lower(), name).replace("-", "_")


def renamings(root):
    """Where a lemma would get the name of a definition, it gets _lem behind it."""
    names = declared(root)
    own = [name for name in sorted(names) if re.search(r"[A-Z-]", name) and re.match(r"[a-z][A-Za-z0-9_'-]*$", name)]
    taken = names | {respelled(name) for name in own if "-" not in name}
    new = dict(EXTRA)
    for name in own:
        turned = respelled(name)
        if "-" in name and turned in taken:
            turned += "_lem"
        if turned != name:
            new[name] = turned
    return new


def turn(text, new):
    return TOKEN.sub(lambda m: new.get(m.group(0), m.group(0)), text)


def turn_page(text, new):
    """A page or an edit: also the names that port.py respelled, which it does not turn there. In a page only what stands between backticks."""
    names = {name for name in new.values() if isinstance(name, str)} | new["declared"]

    def one(m):
        old = m.group(0)
        return new.get(old) or (respelled(old) if re.search(r"[a-z][A-Z-]", old) and respelled(old) in names else old)
    return TOKEN.sub(one, text)


def targets(root):
    yield from files(root, ".antt", ".rt", ".edit")
    docs = os.path.join(root, "docs")
    for folder, _, names in os.walk(docs):
        for name in sorted(names):
            if name.endswith(".md") and not name.startswith("PORT"):
                yield os.path.join(folder, name)
    yield os.path.join(root, "README.md")


# A lemma whose declaration names two things at once.
EXTRA = {"many-pages": "many_pages"}
# Two lemmas to which port.py gave the names that two definitions get here.
LEMMAS = {"best_of": "best_of_lem", "four_bytes": "four_bytes_lem"}


def main(words):
    listing = "--list" in words
    rest = [word for word in words if word != "--list"]
    root = rest[0] if rest else "."
    new = renamings(root)
    if listing:
        tokens = {}
        for path in files(root, ".antt", ".rt"):
            for token in set(TOKEN.findall(read(path))):
                tokens.setdefault(token, []).append(path)
        backwards = {}
        for old, name in new.items():
            backwards.setdefault(name, []).append(old)
        for old, name in new.items():
            print(old, name)
        for name, olds in backwards.items():
            if len(olds) > 1:
                print("TOGETHER", name, *olds)
            if name in tokens:
                print("THERE", name, *olds, *tokens[name][:4])
        return
    spoken = dict(new, declared=declared(root))
    for path in targets(root):
        text = read(path)
        if path.endswith(".edit"):
            turned = turn_page(text, spoken)
        elif path.endswith(".md"):
            turned = re.sub(r"`[^`\n]+`", lambda m: turn_page(m.group(0), spoken), text)
        else:
            turned = turn(turn(text, LEMMAS), new) if "crates/protocol/proofs/" in path else turn(text, new)
        if turned != text:
            with open(path, "w", encoding="utf-8") as file:
                file.write(turned)


if __name__ == "__main__":
    main(sys.argv[1:])
