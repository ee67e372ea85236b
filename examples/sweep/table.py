"""Rows of stops as text."""
from sweep.check import LOST
from sweep.rows import PICKS

LETTERS = {"flushed": "F", "written": "W", "copied": "C", "lost": "L"}
MOST = 40
MARKS = "  WTAIL   WRITE FLUSHED    CKPT"


def letters_of(report):
    """A letter for each group, and a dot for each line without a place."""
    return "".join(LETTERS[group.state] for group in report.groups) + "." * sum(report.left.values())


def cell(report):
    """The letters, cut where the log ends. Of many groups it is how many there are of each, and how many are recovered."""
    if report.fault:
        return "refused"
    letters = letters_of(report)
    if len(letters) <= MOST:
        return letters[: report.count] + "|" + letters[report.count :]
    counts = [f"{letters.count(one)}{one}" for one in "FWCL." if one in letters]
    return " ".join(counts) + f" |{report.count}"


def marks_of(report):
    marks = report.marks
    if marks is None:
        return "  not opened"
    return f"{marks.wtail:7} {marks.write:7} {marks.flushed:7} {marks.ckpt:7}"


def print_table(rows, whole, device):
    """Prints the rows; stops that leave the same share one."""
    runs = [[whole]]
    for row in reversed(rows):
        if len(runs) > 1 and row.shows_what(runs[0][0]):
            runs[0].insert(0, row)
        else:
            runs.insert(0, [row])
    width = max(len(cell(report)) for run in runs for report in run[0].reports)
    width = 2 + max(width, *(len(f"keeps {name}") for name, _ in PICKS))
    heads = "".join(f"{'keeps ' + name:{width}}" for name, _ in PICKS)
    print(f"{device + ' device stops':20}{heads}{MARKS}")
    for run in runs:
        print(line(run, width))


def line(run, width):
    """A row of the table: the stops of a run of rows that leave the same, and what they leave."""
    first, last = run[0].stop, run[-1].stop
    if first is None:
        where = "no stop"
    else:
        where = f"at call {first}" + (f" to {last}" if last > first else "")
    cells = "".join(f"{cell(report):{width}}" for report in run[0].reports)
    wrong = "  WRONG" if any(run[0].wrong) else ""
    return f"{where:20}{cells}{marks_of(run[0].run)}{wrong}"


def print_verdict(rows):
    """Prints the first stop with something wrong, and how many there are; returns whether there is none."""
    wrong = [(row, name, it) for row in rows for (name, _), found in zip(PICKS, row.wrong) for it in found]
    print(f"\n{len(rows) - 1} stops and none, {len(PICKS)} picks each: ", end="")
    if not wrong:
        print("every flushed group is recovered, and the pages are those of the groups before the log's end")
        return True
    print(f"WRONG in {sum(any(row.wrong) for row in rows)} of them")
    for row, name, sentence in first_of(wrong):
        where = "with no stop" if row.stop is None else f"at call {row.stop}"
        print(f"first {where}, where the crash keeps {name}: {sentence}")
    return False


def first_of(wrong):
    """The first that is wrong, and the first flushed group that is lost, if that comes later."""
    lost = [it for it in wrong if LOST in it[2]]
    return [wrong[0], *(lost[:1] if wrong[0] not in lost else [])]
