#!/usr/bin/env python3
"""Respells the repository's own definitions and lemmas as today's Rattle has it: words in snake case.

usage: tools/respell.py [--list]        at the top of the repository, once, right after port.py

It takes the names that the .antt files of crates/ declare: definitions, lemmas, fields, constructors and rulesets whose
spelling has a capital inside or a dash. Types and modules keep theirs, and so do names of src/, and what Rattle itself
makes (invariant-loop, tie.X). It turns them in .antt files, in clauses and imports of .rt files and in must-fail edits.
--list writes nothing, and prints the table and each file in which two names would fall together.
"""

import os
import re
import sys

WORD = re.compile(r'[^\s(){}.;,@"«»\x60:]+')
NAME = r'[^\s(){}.;,@"«»:]+'
DECLARED = re.compile(r"\s*(?:(?:abbrev|unfoldable)\s+)?(?:pub\s+)?(?:(?:abbrev|unfoldable)\s+)?(" + NAME + r")\s+:\s")
RULESET = re.compile(r"\s*(?:pub\s+)?ruleset\s+(" + NAME + r")\s+=")
CONSTRUCTORS = re.compile(r"\s+((?:[a-z][A-Za-z0-9_]* )+[a-z][A-Za-z0-9_]*)\s+:\s")
MADE = re.compile(r"^(invariant|decreases)-|^Need|^loop-|^returns")
# names that two old ones would share, and names that the script would make badly
OWN = {"inProgress": "heads_in_progress", "keyBack": "back_key", "by-id": "by_id_rules"}


def snake(name):
    if name in OWN:
        return OWN[name]
    name = name.replace("getD", "get_or")
    name = re.sub(r"(?<=[a-z0-9'₀-₉])([A-Z])", r"_\1", name)
    return name.replace("-", "_").lower()


def paths(root, ends):
    for folder, dirs, files in os.walk(root):
        dirs[:] = sorted(d for d in dirs if d not in ("out", ".git", "target"))
        for f in sorted(files):
            if f.endswith(ends):
                yield os.path.join(folder, f)


def table(root):
    names = set()
    for p in paths(root, ".antt"):
        for line in open(p, encoding="utf-8"):
            for shape in (DECLARED, RULESET):
                m = shape.match(line)
                if m:
                    names.add(m[1])
            m = CONSTRUCTORS.match(line)
            if m:
                names.update(m[1].split())
    rows = {n: snake(n) for n in names if re.match(r"[a-z]", n) and not MADE.match(n) and snake(n) != n}
    # a lemma that would have its function's name gets _lem
    taken = {n for n in names if n not in rows} | {new for old, new in rows.items() if "-" not in old}
    for old, new in rows.items():
        if "-" in old and new in taken and not new.endswith("_spec"):
            rows[old] = new + "_lem"
    return rows


def turned(text, rows, dotted):
    """The text with each word of the table turned. A word with a dash stays behind a dot: there it is Rattle's own."""

    def one(m):
        w = m[0]
        if w not in rows:
            return w
        behind = text[m.start() - 1 : m.start()] == "."
        if behind and "-" in w and not dotted:
            return w
        return rows[w]

    return WORD.sub(one, text)


def prose(text, rows):
    """A comment: words with a capital inside anywhere, words with a dash in code spans alone."""
    camel = {k: v for k, v in rows.items() if "-" not in k}
    text = re.sub(r"\x60[^\x60\n]+\x60", lambda m: turned(m[0], rows, True), text)
    return turned(text, camel, True)


def antt(text, rows):
    out = []
    for line in text.split("\n"):
        code, dash, note = line, "", ""
        m = re.search(r"(?:^|\s)--(?:\s|$)", line)
        if m:
            code, note = line[: m.start()], line[m.start() :]
        out.append(turned(code, rows, False) + prose(note, rows))
    return "\n".join(out)


def rt(text, rows):
    """Rust has no word with a small letter first and a capital inside: such a word is a clause's. Strings stay."""
    camel = {k: v for k, v in rows.items() if "-" not in k}
    parts = re.split(r'("(?:[^"\\\n]|\\.)*")', text)
    parts[::2] = [turned(p, camel, True) for p in parts[::2]]
    return "".join(parts)


def edit(text, rows):
    out, of_antt = [], False
    for line in text.split("\n"):
        if line.startswith("file:"):
            of_antt = line.rstrip().endswith(".antt")
            out.append(line)
        elif line.startswith(("old:", "new:")):
            out.append(line[:4] + (antt if of_antt else rt)(line[4:], rows))
        else:
            out.append(prose(line, rows))
    return "\n".join(out)


def main():
    rows = table("crates")
    for p in sorted(paths("crates", (".antt", ".rt", ".edit"))):
        text = open(p, encoding="utf-8").read()
        new = (antt if p.endswith(".antt") else rt if p.endswith(".rt") else edit)(text, rows)
        words = set(WORD.findall(text))
        if "--list" in sys.argv:
            for w in sorted(words):
                if w in rows and rows[w] in words:
                    print(f"together: {p}: {w} and {rows[w]}")
        elif new != text:
            open(p, "w", encoding="utf-8").write(new)
    if "--list" in sys.argv:
        back = {}
        for old, new in rows.items():
            back.setdefault(new, []).append(old)
        for new, olds in sorted(back.items()):
            if len(olds) > 1:
                print("two:", new, *sorted(olds))
        for old, new in sorted(rows.items()):
            print(f"{old}\t{new}")


main()
