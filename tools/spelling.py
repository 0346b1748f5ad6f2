#!/usr/bin/env python3
"""Brings the repository's own names of definitions and lemmas to the spelling of today's library.

usage: spelling.py [--list] [FOLDER]

Words are in snake case, types and modules in camel case; a dash joins two names, as in 'length-with_bit'. A lemma that would
then have a definition's name gets '_lem'. Names of the functions of src/, of exports, of inputs and of outputs stay. Files of
antt turn, and of .rt files the clauses and ghost items; in comments and in the code spans of documents the names turn too.
Each file of antt is read for what it declares, so the script runs once, on the tree that port.py has turned. --list prints
the table alone.
"""

import os
import re
import sys

TOKEN = re.compile(r'[^\s(){}.;,@"«»]+')
DECLARED = re.compile(r"^\s*(?:(?:abbrev|unfoldable|pub)\s+)*([^\s(){}.;,@\"]+)\s+:(?=\s|$)")
MADE = re.compile(r":\s*tie\.Need")
USE = re.compile(r"^(?:pub )?use (\S+?)\.\{(.*)\}", re.M)
COMMENT = re.compile(r"(?<![^\s(){}.;,@])--.*$|//.*$", re.M)
SPAN = re.compile(r"`[^`\n]+`")
# Lemmas whose name a definition takes: they are renamed where they are declared and where a file imports them.
TAKEN = {"single_of": "single_of_lem", "leave_fits": "leave_fits_lem", "some_runs": "some_runs_lem", "effect-of": "effect_of_lem"}


def walk(top, endings):
    for folder, inner, files in os.walk(top):
        inner[:] = sorted(d for d in inner if d not in ("out", ".git", "target", "tools"))
        for name in sorted(files):
            if name.endswith(endings):
                yield os.path.join(folder, name)


def read(path):
    with open(path, encoding="utf-8") as f:
        return f.read()


def snake(word):
    return re.sub(r"(?<=[a-z0-9])[A-Z]", lambda m: "_" + m.group(0).lower(), word)


def is_camel(name):
    return name[:1].islower() and re.search(r"[a-z0-9][A-Z]", name) is not None


def joined(parts, words):
    """Parts with '_' between words, and '-' between two names."""
    for cut in reversed(range(1, len(parts))):
        left, right = "_".join(parts[:cut]), "_".join(parts[cut:])
        if left in words and right in words:
            return left + "-" + right
    return "_".join(parts)


def table(top):
    """The rows old: new of all names that turn everywhere."""
    declared, answers, tokens, imported = set(), set(), set(), set()
    for path in walk(os.path.join(top, "crates"), ".antt"):
        text = COMMENT.sub("", read(path))
        tokens.update(TOKEN.findall(text))
        for line in text.split("\n"):
            found = DECLARED.match(line)
            if found:
                (answers if MADE.search(line) else declared).add(found.group(1))
        for module, items in USE.findall(text):
            if not re.match(r"Rattle\.(?!std\b)", module):
                imported.update(item.strip().split(" as ")[0].strip("◌ ") for item in items.split(","))
    camel = {n for n in tokens if is_camel(n) and "-" not in n and n not in imported}
    rows = {n: snake(n) for n in camel}
    words = set(rows.values()) | {n for n in declared if "-" not in n} | imported
    for name in sorted(n for n in declared if "-" in n and n not in imported | answers | set(TAKEN)):
        new = joined([snake(part) if part[:1].islower() else part for part in name.split("-")], words)
        rows[name] = new + "_lem" if new in rows.values() else new
    return rows


def turn(text, rows):
    """The text's tokens by the table. Behind a dot a name is a field, and no lemma whose name a definition takes."""

    def by(m):
        new = rows.get(m.group(0), m.group(0))
        behind = m.start() > 0 and text[m.start() - 1] == "."
        return new[: -len("_lem")] if behind and new.endswith("_lem") and m.group(0) not in TAKEN else new

    return TOKEN.sub(by, text)


def spans(text, rows):
    """The same for the code spans of a text."""
    return SPAN.sub(lambda m: "`" + turn(m.group(0)[1:-1], rows) + "`", text)


def turned(text, rows, plain):
    """The same for a file: in a comment, names with a dash turn in code spans alone, since they may be words of prose."""
    out, last = [], 0
    for m in COMMENT.finditer(text):
        out += [turn(text[last : m.start()], rows), turn(spans(m.group(0), rows), plain)]
        last = m.end()
    return "".join(out + [turn(text[last:], rows)])


def main(argv):
    top = next((a for a in argv if not a.startswith("-")), ".")
    rows = {old: new for old, new in table(top).items() if old != new}
    if "--list" in argv:
        print("\n".join(f"{old}\t{new}" for old, new in sorted(rows.items())))
        return 0
    plain = {old: new for old, new in rows.items() if "-" not in old}
    for path in walk(os.path.join(top, "crates"), (".antt", ".rt")):
        text = read(path)
        code = COMMENT.sub("", text)
        own = {n for n in TAKEN if re.search(rf"(?m)^\s*(?:pub )?{n} +:", code)}
        own |= {n for n in TAKEN if any(n in re.split(r"[,{{}}\s]+", items) for m, items in USE.findall(code) if ".proofs." in m)}
        new = turned(text, rows | {n: TAKEN[n] for n in own}, plain)
        if new != text:
            with open(path, "w", encoding="utf-8") as f:
                f.write(new)
    for path in walk(top, ".md"):
        text = read(path)
        new = spans(text, rows)
        if new != text:
            with open(path, "w", encoding="utf-8") as f:
                f.write(new)
    return 0


if __name__ == "__main__":
    raise SystemExit(main(sys.argv[1:]))
