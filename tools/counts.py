#!/usr/bin/env python3
"""Counts anew the lines that docs/READING.md tells, where a number is more than a twentieth off.

usage: python3 tools/counts.py
"""
import glob
import os
import re

ROOT = os.path.dirname(os.path.dirname(os.path.realpath(__file__)))
PAGE = os.path.join(ROOT, "docs", "READING.md")


def files(path, ending):
    path = os.path.join(ROOT, path)
    if os.path.isfile(path):
        return [path]
    return sorted(it for it in glob.glob(f"{path}/**/*{ending}", recursive=True) if "/out/" not in it)


def lines(paths):
    found = []
    for path in paths:
        with open(path, encoding="utf-8") as f:
            found += f.read().splitlines()
    return found


def told(old, count):
    """The number as the page tells it: the old one where it still fits, else the count, rounded."""
    was = int(old.replace(",", ""))
    step = 10 if count < 1000 else 50 if count < 5000 else 100
    return old if abs(was - count) * 20 <= count else f"{round(count / step) * step:,}"


def row(line):
    cells = line.split("|")
    if len(cells) != 7 or not re.fullmatch(r" [\d,]+ ", cells[4]):
        return line
    read = lines({it for path in re.findall(r"`([^`]*)`", cells[3]) for it in files(path, ".antt")})
    defines = [it for it in map(str.lstrip, read) if it and not it.startswith(("--", "use "))]
    cells[4], cells[5] = (f" {told(old.strip(), len(found))} " for old, found in ((cells[4], read), (cells[5], defines)))
    return "|".join(cells)


def main():
    with open(PAGE, encoding="utf-8") as f:
        text = "\n".join(row(it) if it.startswith("| ") else it for it in f.read().split("\n"))
    code = len(lines(it for crate in os.listdir(f"{ROOT}/crates") for it in files(f"crates/{crate}/src", ".rt")))
    proofs = len(lines(it for crate in os.listdir(f"{ROOT}/crates") for it in files(f"crates/{crate}/proofs", ".antt")))
    sentence = re.compile(r"([\d,]+)( lines of code and\s+)([\d,]+)( of proofs)")
    text = sentence.sub(lambda m: told(m[1], code) + m[2] + told(m[3], proofs) + m[4], text)
    with open(PAGE, "w", encoding="utf-8") as f:
        f.write(text)


if __name__ == "__main__":
    main()
