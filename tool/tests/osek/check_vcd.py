"""Compares a value change dump with the listing: check_vcd.py RUN.vcd LISTING"""
import sys

from listing import number, read

TICK = 6
LENGTH = 1_000_000

rows, losses = read(sys.argv[2])
scope, variables, values, history = [], {}, {}, []
body = False
for line in open(sys.argv[1]):
    words = line.split()
    if not words:
        continue
    if words[0] == "$scope":
        scope.append(words[2])
    elif words[0] == "$upscope":
        scope.pop()
    elif words[0] == "$var":
        variables[words[3]] = "/".join(scope[1:] + [words[4]])
    elif words[0] == "$enddefinitions":
        body = True
    elif body and words[0][0] == "#":
        if not history or history[-1][0] != int(words[0][1:]):
            history.append((int(words[0][1:]), {}))
    elif body and words[0][0] == "b":
        history[-1][1][variables[words[1]]] = int(words[0][1:], 2)
    elif body and words[0][0] == "s":
        history[-1][1][variables[words[1]]] = words[0][1:]
    elif body and words[0][0] in "01":
        history[-1][1][variables[words[0][1:]]] = int(words[0][0])

# The values at the time of each event: the tick's time, or spread between two ticks.
times, tick = [], 0
for index, row in enumerate(rows):
    if row[1] == TICK:
        tick += 1
    first = index
    while first > 0 and rows[first][1] != TICK:
        first -= 1
    last = index
    while last + 1 < len(rows) and rows[last + 1][1] != TICK:
        last += 1
    shift = 0 if rows[first][1] == TICK else 1
    times.append(tick * LENGTH + (index - first + shift) * LENGTH // (last - first + 1 + shift))
end = (tick + 1) * LENGTH

assert history[0][0] == 0 and history[-1][0] == end, (history[0][0], history[-1][0], end)
now = dict(history[0][1])
leaves = [name.split("/")[1] for name in now]
assert len(leaves) == len(set(leaves)), "two signals have one leaf name"
states = [name for name in now if name.startswith("states/")]
holders = [name for name in now if name.startswith("resources/")]
at = 1
ticks = 0
for row, time in zip(rows, times):
    while at < len(history) and history[at][0] <= time:
        now.update(history[at][1])
        at += 1
    step, code, status, runner, level, begun = row
    ticks += code == TICK
    assert now["run/tick"] == ticks and now["run/step"] == step, (row, now)
    assert (now["run/status"], now["run/level"], now["run/begun"]) == (status, level, begun), (row, now)
    assert now["run/runner"] == "-" if runner is None else number(now["run/runner"]) == runner, (row, now)
    running = [name for name in states if now[name] == "running"]
    assert [number(name.split("/")[1].removesuffix("_state")) for name in running] == ([] if runner is None else [runner]), (row, now)
    assert all(now[name] in ("suspended", "ready", "running", "preempted", "waiting") for name in states)
    # Whoever holds a resource has begun, and is not suspended.
    assert all(now[name] == "-" or now["states/" + now[name] + "_state"] in ("running", "preempted") for name in holders)
lost = {number(name.split("/")[1].removesuffix("_lost")): now[name] for name in now if name.startswith("losses/") and now[name]}
assert lost == losses, (lost, losses)
