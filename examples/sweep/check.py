"""What of the crash theorem doesn't hold of a report, by rules of its own (docs/theorem.md)."""
from sweep.script import lines_of, pages_after

LOST = "was flushed and isn't recovered"


def wrong(report, text, stopped):
    """Says in sentences what is wrong with a report of a script's text; `stopped` where a device was to stop."""
    if report.fault:
        return [f"the call ends with {report.fault}"]
    return [*lost_groups(report), *wrong_end(report), *wrong_pages(report, lines_of(text)), *needless_losses(report, stopped)]


def lost_groups(report):
    for group in report.groups:
        if group.state == "flushed" and group.end > report.end:
            yield f"the group at {group.start} {LOST}: the log ends at {report.end}"


def wrong_end(report):
    """The log ends at a start or an end of a group, and the groups up to there are counted."""
    ends = [group.end for group in report.groups]
    if report.opened is not None and report.end not in [report.opened, *ends]:
        yield f"the log ends at {report.end}, within a group"
    if report.count != sum(end <= report.end for end in ends):
        yield f"{report.count} groups are counted up to {report.end}, where it isn't so many"


def wrong_pages(report, lines):
    """The pages are those of the first groups, each applied whole."""
    right = pages_after([group for group in report.groups if group.end <= report.end], lines)
    for page in sorted(right.keys() | report.pages.keys()):
        if right.get(page) != report.pages.get(page):
            yield f"page {page} isn't that of the first {report.count} groups"


def needless_losses(report, stopped):
    lost = [group.start for group in report.groups if group.state == "lost"]
    if not stopped and (lost or report.left):
        yield "groups are lost or lines left though no device was stopped"
