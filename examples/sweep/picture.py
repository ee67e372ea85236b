"""Rows of stops as a picture: stops from left to right, groups from below."""
from xml.sax.saxutils import escape

from sweep.table import letters_of

NAMES = {"F": "flushed", "W": "written", "C": "copied", "L": "lost", ".": "no place in the log"}
FILLS = {"F": "#7fbf7a", "W": "#b9d7f2", "C": "#fbe3b5", "L": "#e6a8a0", ".": "#f4f4f4"}
LINES = (
    (0, "#1a5276", "", "recovered, no unsynced sector kept"),
    (-1, "#c0392b", ' stroke-dasharray="5 3"', "recovered, all of them kept"),
)
LEFT, TOP, LEGEND = 60, 76, 280
WIDEST, TALLEST, HIGHEST = 30, 26, 420
BEFORE = 2


def svg(rows, whole, device, title):
    """The picture's text. Of the stops before the run begins only the last two are drawn."""
    opened = next((at for at, row in enumerate(rows) if row.run.opened is not None), 0)
    shown = [*rows[max(0, opened - BEFORE) :], whole]
    return "\n".join(Drawing(shown, device, title).text()) + "\n"


class Drawing:
    def __init__(self, shown, device, title):
        self.shown, self.device, self.title = shown, device, title
        self.groups = max(1, max(len(letters_of(row.run)) for row in shown))
        self.wide = max(2, min(WIDEST, 900 // len(shown)))
        self.tall = max(2, min(TALLEST, HIGHEST // self.groups))
        self.right = LEFT + self.wide * len(shown)
        self.bottom = TOP + self.tall * self.groups

    def text(self):
        width, height = max(self.right + LEGEND, 860), max(self.bottom + 50, TOP + 180)
        yield (
            f'<svg xmlns="http://www.w3.org/2000/svg" width="{width}" height="{height}" viewBox="0 0 {width} {height}" '
            'font-family="Helvetica, Arial, sans-serif" font-size="13" fill="#222222">'
        )
        yield f"<title>{escape(self.title)}</title>"
        yield f'<rect width="{width}" height="{height}" fill="#ffffff"/>'
        yield f'<text x="20" y="30" font-size="17" font-weight="bold">{escape(self.title)}</text>'
        yield (
            f'<text x="20" y="52" fill="#555555">A column is a run whose {self.device} device stops at that call. '
            "Its cells are the groups, in lsn order from below.</text>"
        )
        for column in range(len(self.shown)):
            yield from self.column(column)
        for which, colour, dash, _ in LINES:
            yield self.line(which, colour, dash)
        yield f'<text x="{LEFT}" y="{self.bottom + 38}" fill="#555555">stop at call (- is no stop)</text>'
        yield from self.legend()
        yield "</svg>"

    def height_of(self, group):
        """Where the lower edge of a group's cell stands; groups are counted from 0."""
        return self.bottom - self.tall * group

    def column(self, column):
        row, x = self.shown[column], LEFT + self.wide * column
        for group, letter in enumerate(letters_of(row.run)):
            yield self.cell(x, self.height_of(group + 1), letter)
        every = max(1, -(-30 // self.wide))
        last = len(self.shown) - 1
        if column == last or (column % every == 0 and last - column >= every):
            stop = "-" if row.stop is None else row.stop
            yield f'<text x="{x + self.wide / 2:g}" y="{self.bottom + 18}" text-anchor="middle" fill="#555555">{stop}</text>'

    def cell(self, x, y, letter):
        edge = ' stroke="#ffffff"' if min(self.wide, self.tall) > 6 else ""
        box = f'<rect x="{x}" y="{y}" width="{self.wide}" height="{self.tall}" fill="{FILLS[letter]}"{edge}/>'
        if min(self.wide, self.tall) < 14 or letter == ".":
            return box
        middle = f'x="{x + self.wide / 2:g}" y="{y + self.tall / 2 + 4:g}" text-anchor="middle" font-size="11"'
        return f"{box}<text {middle}>{letter}</text>"

    def line(self, which, colour, dash):
        """The line above the groups that are recovered with one of the picks."""
        steps = []
        for column, row in enumerate(self.shown):
            x, y = LEFT + self.wide * column, self.height_of(row.reports[which].count)
            steps.append(f"{'L' if steps else 'M'}{x} {y} H{x + self.wide}")
        return f'<path d="{" ".join(steps)}" fill="none" stroke="{colour}" stroke-width="2.5"{dash}/>'

    def legend(self):
        x, y = self.right + 24, TOP + 12
        for letter, name in NAMES.items():
            mark = "" if letter == "." else f'<text x="{x + 9}" y="{y}" text-anchor="middle" font-size="11">{letter}</text>'
            yield f'<rect x="{x}" y="{y - 12}" width="18" height="15" fill="{FILLS[letter]}" stroke="#555555"/>{mark}'
            yield f'<text x="{x + 26}" y="{y}">{name}</text>'
            y += 24
        for _, colour, dash, name in LINES:
            yield f'<path d="M{x} {y - 4} h18" stroke="{colour}" stroke-width="2.5"{dash}/><text x="{x + 26}" y="{y}">{name}</text>'
            y += 24
