"""The report of `redolab crash`, read from its text (docs/words.md, 'What is printed')."""
from dataclasses import dataclass, field


@dataclass(frozen=True)
class Group:
    start: int
    end: int
    user: int
    line: int
    state: str


@dataclass(frozen=True)
class Marks:
    wtail: int
    write: int
    flushed: int
    ckpt: int


@dataclass
class Report:
    """What a crash printed. Where the status isn't 0, `fault` says how the call ended and there is nothing else."""

    status: int = 0
    opened: int | None = None
    groups: list = field(default_factory=list)
    left: dict = field(default_factory=dict)
    marks: Marks | None = None
    count: int = 0
    end: int = 0
    pages: dict = field(default_factory=dict)
    fault: str = ""


def read(status, text):
    """The report of a call that ended with a status and printed a text."""
    if status != 0:
        return Report(status=status, fault=f"status {status}, {text.strip() or 'nothing printed'}")
    report = Report()
    for line in text.splitlines():
        take(report, line.split())
    return report


def take(report, words):
    """Puts a line, as its words, into the report. Lines of followers are passed over."""
    match words:
        case ["open", "none"]:
            report.opened = None
        case ["open", lsn]:
            report.opened = int(lsn)
        case ["g", start, end, user, line, state]:
            report.groups.append(Group(int(start), int(end), int(user), int(line), state))
        case ["left", user, count]:
            report.left[int(user)] = int(count)
        case ["marks", *lsns]:
            report.marks = Marks(*map(int, lsns))
        case ["recovered", count, end]:
            report.count, report.end = int(count), int(end)
        case ["p", page, lsn, "-"]:
            report.pages[int(page)] = (int(lsn), b"")
        case ["p", page, lsn, digits]:
            report.pages[int(page)] = (int(lsn), bytes.fromhex(digits))
