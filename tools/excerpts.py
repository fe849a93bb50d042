#!/usr/bin/env python3
"""Copies the excerpts of docs/PROOF.md and docs/READING.md anew from the files that are named above them.

usage: python3 tools/excerpts.py [--check]

An excerpt stands between lines ```; `..` alone on a line leaves something out. Each part begins and ends at the lines of the file
that are most like its own first and last line, so that it follows a change of spelling or layout. What changed is shown: read it.
--check writes nothing, and fails where an excerpt is not word for word.
"""
import difflib
import os
import re
import sys

from respell import HERE, NAME, TABLE
from pages import new

PAGES = ["docs/PROOF.md", "docs/READING.md"]
ROOT = os.path.dirname(HERE)


def plain(line, table):
    """A line without its spaces, each name as it is spelled today."""
    return re.sub(r"\s+", "", NAME.sub(lambda m: new(m.group(), table), line))


def likeness(one, other):
    return difflib.SequenceMatcher(None, one, other, autojunk=False).ratio()


def nearest(line, lines, low, high, table, at=None):
    """The line of lines[low:high] that is most like this one; of several alike the one that is nearest to at."""
    wanted = plain(line, table)
    found = [(likeness(wanted, plain(lines[i], table)), -abs(i - (low if at is None else at)), i) for i in range(low, high)]
    best = max(found, default=(0, 0, low))
    return (best[2], best[0])


def anew(page, file, excerpt, whole, table):
    with open(os.path.join(ROOT, file), encoding="utf-8") as f:
        lines = f.read().split("\n")
    if whole:
        return "\n".join(lines).strip("\n").split("\n")
    parts, low = [], 0
    for part in "\n".join(excerpt).split("\n..\n"):
        part = part.split("\n")
        first, sure = nearest(part[0], lines, low, len(lines), table)
        high = min(len(lines), first + 3 * len(part) + 12)
        last, ends = (first, 1) if len(part) == 1 else nearest(part[-1], lines, first, high, table, first + len(part) - 1)
        if min(sure, ends) < 0.5:
            sys.exit(f"excerpts: {page}: {file} has nothing like: {part[0] if sure < ends else part[-1]}")
        parts.append("\n".join(lines[first : last + 1]))
        low = last + 1
    return "\n..\n".join(parts).split("\n")


def main(check):
    with open(TABLE, encoding="utf-8") as f:
        table = dict(line.rstrip("\n").split("\t") for line in f)
    stale = False
    for page in PAGES:
        path = os.path.join(ROOT, page)
        with open(path, encoding="utf-8") as f:
            lines = f.read().split("\n")
        out, before, at = [], "", 0
        while at < len(lines):
            if lines[at] != "```":
                before = lines[at] or before
                out.append(lines[at])
                at += 1
                continue
            end = lines.index("```", at + 1)
            excerpt = lines[at + 1 : end]
            file = re.findall(r"`([^`]*)`", before)[-1]
            made = anew(page, file, excerpt, before.startswith("The whole of "), table)
            if made != excerpt:
                stale = True
                print("\n".join(difflib.unified_diff(excerpt, made, page, file, lineterm="")))
            out += ["```", *made, "```"]
            at = end + 1
        if not check:
            with open(path, "w", encoding="utf-8") as f:
                f.write("\n".join(out))
    return 1 if check and stale else 0


if __name__ == "__main__":
    sys.exit(main("--check" in sys.argv[1:]))
