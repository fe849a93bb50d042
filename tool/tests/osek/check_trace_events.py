"""Compares trace events with the listing: check_trace_events.py RUN.json LISTING"""
import json
import sys

from listing import number, read

RUN, BODIES = 1, 2
TICK = 6

rows, losses = read(sys.argv[2])
trace = json.load(open(sys.argv[1]))["traceEvents"]
events = [event for event in trace if event["ph"] == "X" and event["pid"] == RUN]
assert [event["args"]["step"] for event in events] == list(range(len(rows)))
assert [event["args"]["status"] for event in events] == [row[2] for row in rows]
assert [event["args"]["begun"] for event in events] == [row[5] for row in rows]
assert all(event["ts"] % 1000 == 0 for event, row in zip(events, rows) if row[1] == TICK)
statuses = [event for event in trace if event.get("cat") == "status"]
assert [event["args"]["step"] for event in statuses] == [row[0] for row in rows if row[2] != 0]

# Who runs in the middle of each event's time, and at which level.
running = [event for event in trace if event["pid"] == BODIES and event["name"] == "running"]
levels = [event for event in trace if event["ph"] == "C"]
for event, row in zip(events, rows):
    middle = event["ts"] + event["dur"] / 2
    assert event["dur"] > 0
    now = [run["tid"] for run in running if run["ts"] <= middle < run["ts"] + run["dur"]]
    assert now == ([] if row[3] is None else [row[3]]), (event, now, row)
    level = [counter["args"]["level"] for counter in levels if counter["ts"] <= middle][-1]
    assert level == row[4], (event, level, row)

counted = {}
for event in trace:
    if event.get("cat") == "loss":
        counted[event["tid"]] = event["args"]["count"]
assert counted == losses, (counted, losses)
named = [event for event in trace if event["name"] == "thread_name" and event["pid"] == BODIES]
assert all(number(event["args"]["name"].split()[0]) == event["tid"] for event in named)
