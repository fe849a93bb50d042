#!/usr/bin/env python3
"""Spells the definitions and lemmas that the pages name as the crates do today, by tools/respell.tsv and respell.py's rule.

usage: python3 tools/pages.py        respells README.md, CONTRIBUTING.md, CHANGELOG.md, the README of tests/, tool/ and unit/, docs/,
                                     docs/changes/ and the comments of include/osek.h

Only what stands between backquotes is a name; in docs/REQUIREMENTS.md and docs/changes/A2.md also the fields and cases that
follow one without them. Blocks are left alone: those between ``` are copied by tools/excerpts.py, indented ones show commands.
It is run once.
"""
import glob
import os
import re

from respell import HERE, NAME, TABLE, camel, snake

# Commands, packages and folders that only look like names.
NO_NAMES = {"must-fail", "n-th", "osek-unit", "pkg-config", "unit-check", "getD"}
# Pages whose tables also list fields and cases without backquotes, and the English words in them.
BARE = {"docs/REQUIREMENTS.md", "docs/changes/A2.md"}
ENGLISH = {"time-triggered"}
ALONE = re.compile(r"(?<![\w'′·◌\-/.])[^\W\d_·◌][\w'′]*(?:-[\w'′]+)+")


def root():
    return os.path.dirname(HERE)


def words():
    """Every word of the crates."""
    found = set()
    for folder, dirs, names in os.walk(os.path.join(root(), "crates")):
        dirs[:] = [d for d in dirs if d != "out"]
        for name in names:
            if name.endswith((".antt", ".rt")):
                with open(os.path.join(folder, name), encoding="utf-8") as f:
                    found |= set(re.findall(r"[\w']+", f.read()))
    return found


def new(name, table):
    if name in NO_NAMES:
        return name
    if "-" in name or "′" in name or camel(name):
        # what port.py turned stands in the table as it turned it
        return table.get(name) or table.get(snake(name), snake(name))
    return name


def pages():
    found = ["README.md", "CONTRIBUTING.md", "CHANGELOG.md", "tests/README.md", "tool/README.md", "unit/README.md", "include/osek.h"]
    for pattern in ("docs/*.md", "docs/changes/*.md"):
        found += sorted(os.path.relpath(it, root()) for it in glob.glob(os.path.join(root(), pattern)))
    return [it for it in found if it not in ("docs/PORT.md", "docs/DESIGN-PASS.md", "docs/LOOK-BACK.md")]


def respell(page, text, table, known):
    def name(m):
        turned = new(m.group(), table)
        return turned if turned in known else m.group()

    def span(m):
        return NAME.sub(name, m.group())

    def bare(m):
        return m.group() if m.group() in ENGLISH else name(m)

    lines, fenced = [], False
    for line in text.split("\n"):
        if line.startswith("```"):
            fenced = not fenced
        elif not fenced and not line.startswith("    "):
            line = re.sub(r"`[^`]*`", span, line)
            if page in BARE:
                parts = line.split("`")
                line = "`".join(part if i % 2 else ALONE.sub(bare, part) for i, part in enumerate(parts))
            # the beginning or the end of names
            line = line.replace("`-passed`", "`_passed`").replace("`agrees-`", "`agrees_`")
        lines.append(line)
    return "\n".join(lines)


if __name__ == "__main__":
    with open(TABLE, encoding="utf-8") as f:
        table = dict(line.rstrip("\n").split("\t") for line in f)
    known = words()
    for page in pages():
        with open(os.path.join(root(), page), encoding="utf-8") as f:
            text = f.read()
        turned = respell(page, text, table, known)
        if turned != text:
            with open(os.path.join(root(), page), "w", encoding="utf-8") as f:
                f.write(turned)
            print(f"pages: {page}")
