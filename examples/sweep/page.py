"""Rows of stops as one HTML file, to go through them by a slider: page.html of this folder, with the rows in it as JSON."""
import html as markup
import json
import os

from sweep.rows import PICKS

LONGEST = 60
TEMPLATE = os.path.join(os.path.dirname(os.path.realpath(__file__)), "page.html")


def html(rows, lines, device, title, words):
    """The file's text. The last row is the one without a stop."""
    data = {
        "device": device,
        "words": " ".join(words),
        "first": rows[0].stop or 0,
        "picks": [name for name, _ in PICKS],
        "lines": {str(user): [front(line) for line in own] for user, own in lines.items()},
        **shared([shown(row) for row in rows]),
    }
    with open(TEMPLATE, encoding="utf-8") as file:
        template = file.read()
    text = json.dumps(data, separators=(",", ":")).replace("</", "<\\/")
    return template.replace("@TITLE@", markup.escape(title)).replace("@DATA@", text)


def front(line):
    """A line of the script, or the front of a long one."""
    return line if len(line) <= LONGEST else line[:LONGEST] + "\u2026"


def shared(shown_rows):
    """The different rows, and for each stop the number of its own."""
    different, stops, numbers = [], [], {}
    for row in shown_rows:
        key = json.dumps(row)
        if key not in numbers:
            numbers[key] = len(different)
            different.append(row)
        stops.append(numbers[key])
    return {"rows": different, "stops": stops}


def shown(row):
    run = row.run
    marks = run.marks and [run.marks.wtail, run.marks.write, run.marks.flushed, run.marks.ckpt]
    return {
        "opened": run.opened,
        "marks": marks,
        "groups": [[group.start, group.end, group.user, group.line, group.state] for group in run.groups],
        "left": run.left,
        "kept": [kept(report, wrong) for report, wrong in zip(row.reports, row.wrong)],
    }


def kept(report, wrong):
    """What is read after the crash, with what is wrong of it."""
    pages = [[page, lsn, content.hex()] for page, (lsn, content) in sorted(report.pages.items())]
    return {"count": report.count, "end": report.end, "pages": pages, "fault": report.fault, "wrong": wrong}
