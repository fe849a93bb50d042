"""The forms of a report, read by others' parsers, and beside each other: check_report.py DIR RESULT TRACES DIFFERENCES"""

import html.parser
import json
import sys
import xml.etree.ElementTree

folder, result, traces, differences = sys.argv[1], sys.argv[2], int(sys.argv[3]), int(sys.argv[4])
report = json.load(open(f"{folder}/report.json"))
assert report["result"] == result, report["result"]
assert len(report["traces"]) == traces, len(report["traces"])
assert len(report["differences"]) == differences
assert sum(trace["events"] for trace in report["traces"]) == report["events"]
assert report["interrupted"] == (result == "interrupted")
starts = [trace.get("start", trace.get("seed")) for trace in report["traces"]]
assert len(set(starts)) == traces, "each trace has a start value of its own"

suite = xml.etree.ElementTree.parse(f"{folder}/report.xml").getroot()
assert suite.tag == "testsuite"
cases, failures = suite.findall("testcase"), suite.findall("testcase/failure")
assert len(cases) == int(suite.get("tests")) == traces + (result == "interrupted"), len(cases)
assert len(failures) == int(suite.get("failures")) == differences
assert [f.get("message") for f in failures] == [d["told"] for d in report["differences"]]

text, page = open(f"{folder}/report.txt").read(), open(f"{folder}/report.html").read()
assert text.startswith(report["sentence"] + "\n"), text


class Page(html.parser.HTMLParser):
    VOID = {"meta", "br"}
    open, words, shapes = [], [], 0

    def handle_starttag(self, tag, attributes):
        assert tag not in ("script", "link", "img", "iframe"), tag
        for name, value in attributes:
            assert name not in ("src", "href") and "url(" not in (value or ""), (tag, name, value)
        self.shapes += tag == "rect"
        if tag not in self.VOID:
            self.open.append(tag)

    def handle_startendtag(self, tag, attributes):
        self.shapes += tag == "rect"

    def handle_endtag(self, tag):
        assert self.open.pop() == tag, tag

    def handle_data(self, data):
        self.words.append(data)


parser = Page()
parser.feed(page)
assert parser.open == [], parser.open
shown = "".join(parser.words)
for said in [report["sentence"], *report["facts"].values(), *(str(start) for start in starts)]:
    assert said in shown, said
for difference in report["differences"][:1]:
    assert difference["told"] in shown and difference["told"] in text
    assert parser.shapes > 0, "the difference has its picture"
