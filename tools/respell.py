#!/usr/bin/env python3
"""Spells this repository's definitions and lemmas as today's Rattle does: words in snake case, a prime as an apostrophe.

usage: python3 tools/respell.py names      collects the names from crates/ and writes tools/respell.tsv: old, a tab, new
       python3 tools/respell.py [FOLDER]   respells FOLDER (default: this repository) by tools/respell.tsv

It is run once, straight after port.py. Names of src/ are already in snake case and stay; so do exported names, strings,
inputs and outputs. Where a definition and a lemma fall together, the lemma's name ends in `_lem`.
"""
import collections
import os
import re
import sys

HERE = os.path.dirname(os.path.realpath(__file__))
TABLE = os.path.join(HERE, "respell.tsv")
NAME = re.compile(r"(?<![\w'′·◌\-])[^\W\d_·◌][\w'′]*(?:-[\w'′]+)*", re.U)
CAMEL = re.compile(r"(?<=[a-z0-9'])([A-Z]+)")
IMPORT = re.compile(r"^\s*(?:pub )?use ([^\n{]*)(?:\{([^}]*)\})?", re.M)
DECLARED = re.compile(
    r"^\s*(?:(?:pattern|unfoldable|abbrev|pub|axiom)\s+)*((?:[^\W\d_·◌][\w'′\-]*\s+)*[^\W\d_·◌][\w'′\-]*)\s*(?:\{[^}]*\}\s*)?:(?:\s|$)",
    re.M,
)


def crates(root):
    return set(os.listdir(os.path.join(root, "crates")))


def files(root, ending):
    for folder, dirs, names in os.walk(os.path.join(root, "crates")):
        dirs[:] = sorted(d for d in dirs if d not in ("out", "must-fail"))
        for name in sorted(names):
            if name.endswith(ending):
                yield os.path.join(folder, name)


def code_of(text):
    return re.sub(r"--.*", "", text)


def camel(name):
    return name[0].islower() and CAMEL.search(name)


def snake(name):
    plain = name.replace("′", "'").replace("-", "_")
    return plain if name[0].isupper() else CAMEL.sub(lambda m: "_" + m.group(1).lower(), plain)


def brought(text, own):
    """The names that a file brings in from the libraries."""
    names = set()
    for m in IMPORT.finditer(text):
        path = m.group(1).split(".")
        if not (path[0] == "Rattle" and path[1] in own):
            names.update(NAME.findall(m.group(2) or ""))
    return names


def collect(root):
    own = crates(root)
    declared, locals_, library = set(), collections.Counter(), set()
    for path in files(root, ".antt"):
        with open(path, encoding="utf-8") as f:
            text = code_of(f.read())
        library |= brought(text, own)
        generated = path.endswith("Proof.antt")
        for m in DECLARED.finditer(text):
            for name in m.group(1).split():
                if not generated or name.endswith("-spec"):
                    declared.add(name)
        if not generated:
            locals_.update(NAME.findall(text))
    names = declared | {name for name in locals_ if name not in library}
    groups = collections.defaultdict(set)
    for name in names:
        groups[snake(name)].add(name)
    table = {}
    for new, olds in groups.items():
        # A definition was spelled in camel case, a lemma with dashes; port.py turned some of either to `new` already.
        first = [old for old in olds if camel(old)]
        rest = [old for old in (new,) if old in olds] + sorted(old for old in olds if old != new and old not in first)
        if len(first + rest) > 2:
            sys.exit(f"respell: {sorted(olds)} fall together")
        for old, turned_to in zip(first + rest, (new, new + "_lem")):
            if old != turned_to:
                table[old] = turned_to
    fallen = [old for old, new in table.items() if new.endswith("_lem") and new in names]
    if fallen or len(set(table.values())) != len(table):
        sys.exit(f"respell: names fall together: {fallen}")
    with open(TABLE, "w", encoding="utf-8") as f:
        f.writelines(f"{old}\t{new}\n" for old, new in sorted(table.items()))
    print(f"respell: {len(table)} names, {sum(new.endswith('_lem') for new in table.values())} of them with _lem")


def turned(text, table, quiet):
    def word(m):
        name = m.group()
        # what port.py turned already is respelled where it stands alone, and not as a field of what Rattle makes
        field = m.start() and text[m.start() - 1] == "." and "-" not in name and not camel(name)
        return name if name in quiet or field else table.get(name, name)

    return NAME.sub(word, text)


def turned_comment(text, table):
    """A comment speaks English: in it only camel case and what stands in backticks or as a header's entry is a name."""
    def word(m):
        name = m.group()
        return table.get(name, name) if "-" not in name else name

    entry = re.match(r"(\s*--   )(\S+(?:, \S+)*)(?=\s)", text)
    head, rest = (text[: entry.end()], text[entry.end() :]) if entry else ("", text)
    head = turned(head, table, set())
    rest = re.sub(r"`[^`]*`", lambda m: turned(m.group(), table, set()), rest)
    return head + NAME.sub(word, rest)


def respell_line(line, table, quiet, mark):
    at = line.find(mark)
    if at < 0:
        return turned(line, table, quiet)
    return turned(line[:at], table, quiet) + turned_comment(line[at:].replace(mark, "--", 1), table).replace("--", mark, 1)


def outside_strings(line, table, quiet, mark):
    """A line respelled but for its strings; in a comment marks are quotations, and no strings."""
    at = line.find(mark)
    code, comment = (line, "") if at < 0 or line[:at].count('"') % 2 else (line[:at], line[at:])
    parts = re.split(r'("(?:[^"\\]|\\.)*")', code)
    code = "".join(p if i % 2 else turned(p, table, quiet) for i, p in enumerate(parts))
    return code + respell_line(comment, table, quiet, mark)


ENTRY = re.compile(r"^--   (?! )(\S.*?) {2,}(\S.*)$")


def aligned(lines):
    """The entries of a header in columns again, since names have got longer: a run of lines `--   NAME  what it is`."""
    at = 0
    while at < len(lines):
        end = at
        while end < len(lines) and lines[end].startswith("--   "):
            end += 1
        found = [ENTRY.match(line) for line in lines[at:end]]
        if any(found):
            width = max(len(m.group(1)) for m in found if m)
            for i, m in enumerate(found):
                if m:
                    lines[at + i] = f"--   {m.group(1).ljust(width)}  {m.group(2)}"
                elif lines[at + i].startswith("--      "):
                    lines[at + i] = "--   " + " " * width + "  " + lines[at + i][2:].strip()
        at = max(end, at + 1)


def respell(root):
    with open(TABLE, encoding="utf-8") as f:
        table = dict(line.rstrip("\n").split("\t") for line in f)
    own = crates(root)
    changed = 0
    for ending in (".antt", ".rt"):
        for path in files(root, ending):
            with open(path, encoding="utf-8") as f:
                text = f.read()
            if ending == ".antt":
                quiet = brought(code_of(text), own)
                lines = [outside_strings(line, table, quiet, "--") for line in text.split("\n")]
                aligned(lines)
                new = "\n".join(lines)
            else:
                # a name of src/ keeps its spelling
                own_names = {old: new for old, new in table.items() if "-" in old or camel(old)}
                new = "\n".join(outside_strings(line, own_names, set(), "//") for line in text.split("\n"))
            if new != text:
                changed += 1
                with open(path, "w", encoding="utf-8") as f:
                    f.write(new)
    print(f"respell: {changed} files")


if __name__ == "__main__":
    if sys.argv[1:] == ["names"]:
        collect(os.path.dirname(HERE))
    else:
        respell(os.path.abspath(sys.argv[1]) if sys.argv[1:] else os.path.dirname(HERE))
