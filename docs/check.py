#!/usr/bin/env python3
"""Counts README.md and docs/*.md: docs/check.py, from anywhere. Ends with 1 where a count is above its limit.

A sentence ends at a stop, a question mark or the end of its paragraph or bullet. Code in backquotes counts as one word.
Left out of sentences are fenced code, tables, headings, and quotes (lines that begin with '>')."""
import glob
import os
import re
import sys

WORDS, SENTENCE, CELL, README_LINES = 16_500, 25, 25, 105
TOP = os.path.dirname(os.path.dirname(os.path.realpath(__file__)))


def parts(text):
    """Returns the paragraphs and bullets of a text, and the cells of its tables."""
    text = re.sub(r"^```.*?^```", "", text, flags=re.M | re.S)
    text = re.sub(r"`[^`]*`", "code", text)
    text = re.sub(r"!?\[([^\]]*)\]\([^)]*\)", r"\1", text)
    paragraphs, cells, open_one = [], [], []
    for line in text.split("\n") + [""]:
        is_table = line.startswith("|")
        if is_table and not re.fullmatch(r"[|\s:-]+", line):
            cells += line.strip("|").split("|")
        is_text = line.strip() and not is_table and not line.startswith(("#", ">"))
        if open_one and (not is_text or re.match(r"\s*([-*]|\d+\.) ", line)):
            paragraphs.append(" ".join(open_one))
            open_one = []
        if is_text:
            open_one.append(re.sub(r"^\s*([-*]|\d+\.) ", "", line).strip())
    return paragraphs, cells


def sentences(paragraph):
    return re.split(r"(?<=[.?!])[)*\"]* +", paragraph)


def words(text):
    return len([word for word in text.split() if re.search(r"\w", word)])


def main():
    total, longest, widest = 0, [], []
    for path in [f"{TOP}/README.md", *sorted(glob.glob(f"{TOP}/docs/*.md"))]:
        with open(path, encoding="utf-8") as file:
            text = file.read()
        name = os.path.relpath(path, TOP)
        print(f"{len(text.split()):6} {name}")
        total += len(text.split())
        paragraphs, cells = parts(text)
        longest += [(words(it), name, it) for paragraph in paragraphs for it in sentences(paragraph)]
        widest += [(words(it), name, it.strip()) for it in cells]
    with open(f"{TOP}/README.md", encoding="utf-8") as file:
        lines = len(file.read().split("\n")) - 1
    over = [it for it in sorted(longest, reverse=True) if it[0] > SENTENCE] + [it for it in widest if it[0] > CELL]
    for count, name, text in over:
        print(f"too long, {count} words, {name}: {text}")
    counts = [("words", total, WORDS), ("longest sentence", max(longest)[0], SENTENCE), ("longest cell", max(widest)[0], CELL), ("lines of README.md", lines, README_LINES)]
    for what, count, limit in counts:
        print(f"{what}: {count}, at most {limit}")
    return int(any(count > limit for _, count, limit in counts))


sys.exit(main())
