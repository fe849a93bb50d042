"""Reads a picture as XML and counts what it shows: check_svg.py RUN.svg LISTING"""
import sys
import xml.etree.ElementTree as tree

from listing import read

SVG = "{http://www.w3.org/2000/svg}"
TICK = 6

rows, losses = read(sys.argv[2])
picture = tree.parse(sys.argv[1]).getroot()
assert picture.tag == SVG + "svg"
width, height = float(picture.get("width")), float(picture.get("height"))
classes = [element.get("class") for element in picture.iter() if element.get("class")]
texts = ["".join(element.itertext()) for element in picture.iter(SVG + "text")]
# The legend has one mark of each.
if any(row[5] for row in rows):
    assert "running" in classes
assert classes.count("loss") == 1 or losses
assert bool(losses) == (classes.count("loss") > 1)
begins = classes.count("begin") - 1
assert begins - sum(row[5] for row in rows) in (0, 1), "the fresh start may begin one more"
named = "fresh start" in texts
if named:
    labels = [element for element in picture.iter(SVG + "text") if element.get("transform")]
    refused = sum(row[2] != 0 for row in rows)
    assert sum(label.get("class") == "refused" for label in labels) == refused
    calls = sum(row[1] != TICK for row in rows)
    ticks = sum(int(t.split()[0]) if t.endswith(" ticks") else t == "Tick" for t in ("".join(l.itertext()) for l in labels))
    assert ticks == sum(row[1] == TICK for row in rows)
    assert sum(not t.endswith("icks") and t != "Tick" for t in ("".join(l.itertext()) for l in labels)) == calls + 1
else:
    # A mark for each refused event, and one in the legend.
    assert classes.count("refusal") == 1 + sum(row[2] != 0 for row in rows)
# A tooltip for each column, which says who runs.
tips = [element.find(SVG + "title").text for element in picture.iter(SVG + "rect") if element.get("class") == "column"]
assert len(tips) > 0 or not rows
for tip in tips:
    first = int(tip.split()[1])
    last = int(tip.split()[3]) if tip.startswith("events") else first
    step, code, status, runner, level, begun = rows[last]
    said = "nobody" if runner is None else tip.split(", ")[-1].split(" runs at ")[0]
    assert tip.endswith(f" runs at {level}") and f": status {status} " in tip, (tip, rows[last])
    assert (runner is None) == (said == "nobody"), tip
for element in picture.iter(SVG + "rect"):
    if element.get("class"):
        assert 0 <= float(element.get("x")) and float(element.get("x")) + float(element.get("width")) <= width
        assert 0 <= float(element.get("y")) <= height
