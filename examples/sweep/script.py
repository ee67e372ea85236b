"""What a script's lines do to the pages, as docs/words.md says ('Scripts')."""
import functools

USER_BYTES = range(38, 4088)


@functools.cache
def lines_of(text):
    """Each user's lines, in order: `lines[user][k]` is the text of its line k."""
    lines = {}
    for line in text.split("\n"):
        line = line.removesuffix("\r")
        if line and not line.startswith("#"):
            lines.setdefault(int(line.split(" ")[0]), []).append(line)
    return lines


def pages_after(groups, lines):
    """The pages of a new store after these groups, as a report shows them: lsn, and user bytes without the zeros at their end."""
    pages = {}
    for group in groups:
        operations = lines[group.user][group.line].split(" ", 2)[2]
        for operation in operations.split(";"):
            words = operation.split(" ")
            _, content = pages.setdefault(int(words[1]), [0, bytearray(USER_BYTES.stop)])
            apply(content, words)
            pages[int(words[1])][0] = group.end
    return {no: (lsn, bytes(content[USER_BYTES.start :]).rstrip(b"\0")) for no, (lsn, content) in pages.items()}


def apply(content, words):
    """Does one operation, as its words, to the bytes of its page."""
    match words:
        case ["i", _]:
            content[:] = bytes(len(content))
        case ["s", _, offset, digits]:
            put(content, int(offset), bytes.fromhex(digits))
        case [width, _, offset, value]:
            put(content, int(offset), int(value).to_bytes(int(width[1:]), "big"))


def put(content, offset, new):
    content[offset : offset + len(new)] = new
