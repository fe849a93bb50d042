"""Compares the JSON of a run with its listing: check_run.py RUN.json LISTING"""
import json
import sys

run = json.load(open(sys.argv[1]))
lines = open(sys.argv[2]).read().splitlines()
assert lines[0] == "step event status runner level begun"
rows = [line for line in lines[1:] if not line.startswith("lost")]
assert len(rows) == len(run["events"])
for row, event in zip(rows, run["events"]):
    runner = "-" if event["runner"] is None else event["runner"]
    values = [event["step"], event["code"], event["status"], runner, event["level"], event["begun"]]
    assert row == " ".join(map(str, values)), (row, event)
    assert event["event"].split()[0] in ("Activate Finish Chain Get Release Tick Line Start Stop Wait Set Clear").split()
    assert len(event["event"].split()) == 1 + len(event["arguments"])
    assert (event["runner"] is None) == (event["runner_name"] is None)
lost = [f"lost {body['body']} {body['lost']}" for body in run["bodies"] if body["lost"] > 0]
assert lost == [line for line in lines[1:] if line.startswith("lost")]
assert [body["body"] for body in run["bodies"]] == list(range(len(run["bodies"])))
