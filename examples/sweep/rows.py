"""A script's crashes, one for each stop of a device and each pick."""
from dataclasses import dataclass

from sweep import report

PICKS = (("none", 0), ("every other", 0x5555555555555555), ("all", 2**64 - 1))
SAME = 24
UNUSABLE = (2, 3, 4, 10)


class Refused(Exception):
    """The program takes no such words, or not this script."""


@dataclass
class Row:
    """The reports, one for each pick, of a run that stops at a call; `stop` is None where none stops it."""

    stop: int | None
    reports: list
    wrong: list

    def shows_what(self, other):
        return self.reports == other.reports

    @property
    def run(self):
        """The report to take the run from: it ended before the crash, so the picks don't change it."""
        return self.reports[0]


def sweep(program, script, option, words, first, judge):
    """The rows of the stops from the first one on, and the row without a stop.

    They end where `SAME` stops in a row leave what no stop leaves: the run has no further call."""
    whole, *rows = rows_of(program, script, option, words, [None, *range(first, first + program.at_once)], judge)
    if whole.run.status in UNUSABLE:
        raise Refused(f"redolab crash {' '.join(words)}: {whole.run.fault}")
    while not all(row.shows_what(whole) for row in rows[-SAME:]):
        stops = range(first + len(rows), first + len(rows) + program.at_once)
        rows += rows_of(program, script, option, words, stops, judge)
    while rows and rows[-1].shows_what(whole):
        rows.pop()
    return rows, whole


def rows_of(program, script, option, words, stops, judge):
    """The rows of these stops. All their crashes are asked for together."""
    calls = [call(option, words, stop, pick) for stop in stops for _, pick in PICKS]
    reports = [report.read(*answer) for answer in program.answers(script, calls)]
    rows = []
    for at, stop in enumerate(stops):
        own = reports[at * len(PICKS) : (at + 1) * len(PICKS)]
        rows.append(Row(stop, own, [judge(it, stop is not None) for it in own]))
    return rows


def call(option, words, stop, pick):
    return ["crash", *words, *([] if stop is None else [option, str(stop)]), "--pick", str(pick)]
