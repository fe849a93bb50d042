"""Runs the commands of a page in a folder of their own, and compares what they print with what stands below them; a line `..` stands for
any lines: document.py PAGE"""

import os
import subprocess
import sys
import tempfile

ROOT = os.path.dirname(os.path.dirname(os.path.abspath(__file__)))


def commands(page):
    """Each command, which stands behind `$` in an indented line, with the lines below it."""
    found, inside = [], False
    for line in page.splitlines():
        code = line[4:] if line.startswith("    ") else None
        if code is not None and code.startswith("$ "):
            found.append((code[2:], []))
            inside = True
        elif inside and (code is not None or line == ""):
            found[-1][1].append(code or "")
        else:
            inside = False
    return [(command, "\n".join(lines).rstrip().splitlines()) for command, lines in found]


def matches(shown, said):
    if not shown:
        return not said
    if shown[0] == "..":
        return any(matches(shown[1:], said[at:]) for at in range(len(said) + 1))
    return bool(said) and shown[0] == said[0].rstrip() and matches(shown[1:], said[1:])


page, failed = open(sys.argv[1]).read(), 0
with tempfile.TemporaryDirectory() as folder:
    for name in ("build", "unit", "crates"):
        os.symlink(os.path.join(ROOT, name), os.path.join(folder, name))
    os.mkdir(os.path.join(folder, "docs"))
    os.symlink(os.path.join(ROOT, "docs/logger.txt"), os.path.join(folder, "docs/logger.txt"))
    for command, shown in commands(page):
        said = subprocess.run(command, shell=True, cwd=folder, capture_output=True, text=True)
        if not matches(shown, said.stdout.rstrip().splitlines()) or said.stderr:
            failed += 1
            print(f"{command}\nprints\n{said.stdout}{said.stderr}")
    picture = open(os.path.join(folder, "docs/inspection.svg")).read()
    if picture != open(os.path.join(ROOT, "docs/inspection.svg")).read():
        failed += 1
        print("docs/inspection.svg is another picture")
sys.exit(failed != 0 or not commands(page))
