"""Counts the places of src/ that docs/DESIGN-PASS.md speaks of, in a commit or in the files as they stand.

usage: python3 tools/places.py [COMMIT] [--list]

By text alone, so a line of the list is a place to read, not a verdict. The rows are those of the page.
"""

import collections
import re
import subprocess
import sys

COMMENT = re.compile(r"//.*")
FN = re.compile(r"^( *)(?:pub )?(?:extern \"C\" )?fn (\w+)")
WORD = re.compile(r"[A-Za-z_]\w*|\d[\w]*|\S")
NUMBER_TYPE = re.compile(r"^(u8|u16|u32|u64|usize)$")

# name of the row, and the pattern of a line that is a place of it
ROWS = [
    ("1a a number or a flag that says how a value beside it is to be read", r"^\s*(pub )?(refusal: u8|ok: bool),"),
    ("1b a function that answers a refusal as a number, 0 for none", r"^\s*(pub )?fn \w*(fault|unless|outside|and_then|once|only|unexpected|unknown|after_timed|timed_after)\b.*-> u8"),
    ("1c a test whether such a number is 0", r"\b(refusal|range|m|r|w|u|v)(\.refusal)? (!=|==) 0\b.*\{|refusal (!=|==) 0"),
    ("1d a constant that numbers a refusal, a status, a sort of token or a code", r"^(pub )?const (BAD_\w+|USED_\w+|UNSORTED|TOO_\w+|LEFT_OVER|SHARED_\w+|MIXED_\w+|CUT|MALFORMED|NO_ROOM|TRACE_TOO_LONG|UNKNOWN_\w+|STRAY_\w+|IN_TRACE|ZERO_\w+|NOTHING_\w+|UNREADABLE\w*|UNEXPECTED_\w+|GIVEN_\w+|NO_RESOURCE|OTHER_KINDS|NO_SUCH\w*|NOT_\w+|RESOURCE_IN_USE|NO_CONFIG|NO_TRACE|DONE|ACCESS|CALL_LEVEL|LIMIT|NO_FUNCTION|HOLDS_RESOURCE|WRONG_STATE|TASK|ISR|RESOURCE|PRIORITY|AUTOSTART|TRUE|FALSE|OPEN|CLOSE|EQUALS|SEMICOLON|NAME|NUMBER|END|EXTENDED|TIME_TRIGGERED|TICK|CHAIN|REFUSED|REFUSAL|PASS): u"),
    ("1e a number that stands for nothing: no rank, no winner, nobody, no event", r"^(pub )?const (NO_RANK|NO_WINNER|NO_BYTE|IDLE|NO_EVENT): u"),
    ("3a a loop that is no `for`", r"^\s*(while|loop)\b"),
    ("3b an index or a count that goes up by hand", r"^\s*[a-z_.]+ \+= (1|GROUP|4);$"),
    ("4a a choice of true and false, or a chain of tests with a `return` of a constant", r"\{ true \} else \{ false \}|^\s*return (true|false);$"),
    ("4b a conversion by `as`", r"\bas u(8|16|32|64|size)\b"),
    ("6a a lent array of numbers of a fixed size", r"&('\w+ )?(mut )?\[\w+; [0-9]+\]"),
    ("7a a flag that is passed to choose a step", r"^\s*\w*(writing|resource|counts|turning|silent): bool|\((writing|resource|counts|turning|silent): bool|, (writing|resource|counts|turning|silent): bool"),
]


def sources(commit):
    if commit:
        names = subprocess.run(["git", "ls-tree", "-r", "--name-only", commit, "crates"], capture_output=True, text=True, check=True).stdout.split()
    else:
        names = subprocess.run(["git", "ls-files", "crates"], capture_output=True, text=True, check=True).stdout.split()
    for name in names:
        if re.fullmatch(r"crates/\w+/src/.*\.rt", name):
            if commit:
                yield name, subprocess.run(["git", "show", f"{commit}:{name}"], capture_output=True, text=True, check=True).stdout
            else:
                with open(name) as f:
                    yield name, f.read()


def functions(name, text):
    """Each function with its parameters, clauses and body, as lines."""
    lines = text.split("\n")
    at = 0
    while at < len(lines):
        m = FN.match(lines[at])
        if not m:
            at += 1
            continue
        end = at
        while end < len(lines) and lines[end] != m[1] + "}" and not lines[end].endswith(" {}"):
            end += 1
        yield m[2], at + 1, lines[at : end + 1]
        at = end + 1


def shape(lines):
    """A function's text with types of numbers, literals and names taken out, so that twins look alike."""
    names, out = {}, []
    body = [COMMENT.sub("", line) for line in lines]
    text = " ".join(line for line in body if not re.match(r"\s*(requires|ensures|≡|×|→|\()", line))
    for word in WORD.findall(text):
        if NUMBER_TYPE.match(word):
            out.append("T")
        elif word[0].isdigit():
            out.append("N")
        elif re.match(r"[A-Za-z_]", word) and word not in ("fn", "pub", "let", "mut", "if", "else", "while", "for", "in", "return", "match", "as"):
            out.append(names.setdefault(word, "x%d" % len(names)))
        else:
            out.append(word)
    return " ".join(out)


def main():
    words = [w for w in sys.argv[1:] if not w.startswith("--")]
    commit = words[0] if words else None
    files = list(sources(commit))
    rows = {row: [] for row, _ in ROWS}
    shapes, clauses, long_lists = collections.defaultdict(list), collections.Counter(), []
    for name, text in files:
        for number, line in enumerate(text.split("\n"), 1):
            code = COMMENT.sub("", line)
            for row, pattern in ROWS:
                if re.search(pattern, code):
                    rows[row].append(f"{name}:{number}: {line.strip()}")
        for fn, number, lines in functions(name, text):
            if len(lines) > 6:
                shapes[shape(lines)].append(f"{name}:{number}: {fn}")
            head = " ".join(lines).split("{")[0].split("requires")[0].split("ensures")[0]
            parameters = [p for p in re.split(r",\s*", head[head.find("(") + 1 : head.rfind(")")]) if p.strip()]
            if 6 <= len(parameters):
                long_lists.append(f"{name}:{number}: {fn}, {len(parameters)}")
            for clause in set(re.findall(r"requires(?: \w+)? \{ (.*) \}", "\n".join(lines))):
                for part in re.split(r" × ", clause):
                    clauses[re.sub(r"^[( ]+|[) ]+$", "", part)] += 1
    twins = [places for places in shapes.values() if 1 < len(places)]
    rows["2a functions that differ in names, sizes and numbers only"] = [" | ".join(places) for places in twins]
    rows["5a a fact that three functions or more require"] = [f"{n}: {clause}" for clause, n in clauses.most_common() if 3 <= n]
    rows["5b functions with six parameters or more"] = long_lists
    for row in sorted(rows):
        print(f"{len(rows[row]):5} {row}")
        if "--list" in sys.argv:
            for place in rows[row]:
                print("      ", place)


if __name__ == "__main__":
    main()
