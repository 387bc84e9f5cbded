#!/usr/bin/env python3
"""Spells the repository's own definitions and lemmas as Rattle's library does: words in snake case, a dash only between two names.

usage: python3 tools/respell.py [FOLDER]      in the repository (or FOLDER), once, after port.py

respell.tsv beside this file has a row for each name, old and new. A name is replaced as a whole token in every .antt and .rt file of crates/ and in
the texts of must-fail edits, never in a comment's words with a dash, a string or a path of a function's proof. Behind a dot only the fields of the
repository's own records are replaced: the names that Rattle makes stay. It stops, changing nothing, where two names would fall together.
"""

import glob
import os
import re
import sys

HERE = os.path.dirname(os.path.realpath(__file__))
TOKEN = re.compile(r"(?<![\w'′₀-₉-])[\w'′₀-₉]+(?:-[\w'′₀-₉]+)*(?![\w'′₀-₉-])")
DECLARED = re.compile(r"^( *)((?:(?:abbrev|unfoldable|pub|record|data) )*)([\w'′₀-₉-]+)(?: \{[^{}]*\}| \([^()]*\))* : ?")
STRING = re.compile(r'"[^"\n]*"')


def rows():
    with open(os.path.join(HERE, "respell.tsv"), encoding="utf-8") as f:
        return dict(line.rstrip("\n").split("\t") for line in f)


def texts(root):
    for end in ("specs/**/*.antt", "proofs/**/*.antt", "src/**/*.rt", "must-fail/*.edit"):
        yield from sorted(glob.glob(os.path.join(root, "crates", "*", end), recursive=True))


def fields(root):
    """The fields of the repository's own records: names declared deeper than the record above them."""
    found = set()
    for path in texts(root):
        if not path.endswith(".antt"):
            continue
        depth = None
        with open(path, encoding="utf-8") as f:
            for line in f:
                if not line.strip() or line.lstrip().startswith("--"):
                    continue
                indent = len(line) - len(line.lstrip(" "))
                if depth is not None and indent <= depth:
                    depth = None
                m = DECLARED.match(line)
                if m and depth is not None:
                    found.add(m[3])
                if m and "record" in m[2].split():
                    depth = indent
    return found


def respelled(text, names, owned, rust):
    def one(m):
        new = names.get(m[0])
        if new is None:
            return m[0]
        before = text[: m.start()]
        if m[0] == m[0].lower():
            # a name that Rattle could make, or a Rust function's
            if before.endswith(".") and not before.endswith("..") and m[0] not in owned:
                return m[0]
            if rust and "-" not in m[0]:
                return m[0]
        return new

    if not rust:
        return TOKEN.sub(one, text)
    kept = STRING.split(text), STRING.findall(text)
    parts = []
    for i, part in enumerate(kept[0]):
        text = part
        parts.append(TOKEN.sub(one, part))
        if i < len(kept[1]):
            parts.append(kept[1][i])
    return "".join(parts)


def main():
    root = sys.argv[1] if len(sys.argv) > 1 else os.path.dirname(HERE)
    names = rows()
    news = list(names.values())
    twice = sorted({n for n in news if news.count(n) > 1})
    declared = {}
    for path in texts(root):
        if path.endswith(".antt") and "/proofs/" not in path or re.search(r"/proofs/[^/]*\.antt$", path):
            with open(path, encoding="utf-8") as f:
                for line in f:
                    m = DECLARED.match(line)
                    if m:
                        declared.setdefault(m[3], path)
    met = sorted(n for n in set(news) if n in declared and n not in names)
    if twice or met:
        sys.exit(f"respell: names that would fall together: {twice} {met}")
    owned = fields(root)
    changed = 0
    for path in texts(root):
        with open(path, encoding="utf-8") as f:
            old = f.read()
        lines = []
        for line in old.split("\n"):
            head = line.lstrip()
            if path.endswith(".edit") and not head.startswith(("old:", "new:")):
                lines.append(line)
            else:
                lines.append(respelled(line, names, owned, not path.endswith(".antt")))
        new = "\n".join(lines)
        if new != old:
            changed += 1
            with open(path, "w", encoding="utf-8") as f:
                f.write(new)
    print(f"respell: {len(names)} names, {changed} files changed")


main()
