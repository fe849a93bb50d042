"""Writes loggers in which as many bodies as there may be begin one upon the other: nests.py FOLDER"""

import os
import sys

NESTS = {
    "basic": 32 * ["task"],
    "basic_upon_extended": ["extended"] + 31 * ["task"],
    "extended": 32 * ["extended"],
    "every_second_extended": 16 * ["extended", "task"],
    "isrs_upon_extended": 16 * ["extended"] + 16 * ["isr"],
    "time_triggered_upon_16": 8 * ["extended", "task"] + 16 * ["timed"],
}
ROUNDS = 3


def logger(kinds):
    """Round by round every body begins upon the one before; then all but the first end, and the first begins again."""
    timed = [b for b, kind in enumerate(kinds) if kind == "timed"]
    text = ["version 1"]
    text += [f"{kind} body{b} priority {b + 1}{' autostart' if b == 0 else ''}" for b, kind in enumerate(kinds)]
    if timed:
        text += ["table round period 20"] + [f"  at {at} body{b}" for at, b in enumerate(timed)]
    text += ["", "trace"] + (["start round 1"] if timed else [])
    wakes = {"task": "activate", "extended": "activate", "isr": "line"}
    for _ in range(ROUNDS):
        text += [f"{wakes[kind]} body{b}" for b, kind in enumerate(kinds) if b > 0 and kind != "timed"]
        text += [f"tick {2 * len(timed)}"] if timed else []
        text += (len(kinds) - 1) * ["finish"] + ["chain body0"]
    return "\n".join(text) + "\n"


for name, kinds in NESTS.items():
    with open(os.path.join(sys.argv[1], f"{name}.txt"), "w") as file:
        file.write(logger(kinds))
