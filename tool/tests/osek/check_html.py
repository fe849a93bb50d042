"""Reads the data of a page and compares it with the listing: check_html.py RUN.html LISTING"""
import json
import sys

from listing import read

rows, losses = read(sys.argv[2])
page = open(sys.argv[1], encoding="utf-8").read()
assert page.count("</script>") == 1, "the data ends the script"
line = page[page.index("const run = ") + len("const run = ") :]
run = json.JSONDecoder().raw_decode(line.replace("<\\/", "</"))[0]
names = [body["name"] for body in run["bodies"]]
assert len(run["events"]) == len(rows) and len(run["states"]) == len(rows) + 1 == len(run["level"])
lost = dict.fromkeys(names, 0)
for index, (event, row) in enumerate(zip(run["events"], rows)):
    step, code, status, runner, level, begun = row
    assert (event["code"], event["status"], run["level"][index + 1]) == (code, status, level), (event, row)
    running = [name for name, state in zip(names, run["states"][index + 1]) if state == "R"]
    assert running == ([] if runner is None else [event["runner"]]), (event, row)
    assert (event["begins"] is not None) == (begun == 1), (event, row)
    assert begun == 0 or names[event["begins"]] == event["runner"]
    assert set(run["states"][index + 1]) <= set(".rRpw")
    for body in event["lost"]:
        lost[names[body]] += 1
    assert level in run["levels"] and event["why"].count("\n") == 5
# Two entries of one task that are due at one tick are two losses at one event.
assert all(count > 0 for count in lost.values() if count) and bool(losses) == any(lost.values())
