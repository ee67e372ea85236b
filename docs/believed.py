#!/usr/bin/env python3
# Lists the files of definitions that have to be believed for the contract of `lab`, with their lines, and counts them: all that
# the `ghost use` lines of the file with `pub fn lab<` lead to, over the `use` lines of specs. Then those that `lab_in_files`
# needs beside them. Run it anywhere in the repository.
import glob, os, re
os.chdir(os.path.join(os.path.dirname(os.path.abspath(__file__)), "..", "crates"))
heads, seen = {}, {}


def head_of(crate):
    """What a crate's specs hand on under their own name: name to crate and file."""
    if crate not in heads:
        heads[crate] = {}
        path = f"{crate}/specs/Lib.antt"
        text = open(path).read() if os.path.exists(path) else ""
        for m in re.finditer(r"pub use Rattle\.(\w+)\.specs\.(\w+)(?:\.\w+)*\.\{(.*?)\}", text, re.S):
            for name in m[3].split(","):
                heads[crate][name.strip()] = (m[1], m[2])
    return heads[crate]


def used_in(text):
    for m in re.finditer(r"use Rattle\.(\w+)\.specs((?:\.\w+)*)(?:\.\{(.*?)\})?", text, re.S):
        crate, rest, names = m.groups()
        if not os.path.isdir(crate):
            continue
        if rest:
            if rest.split(".")[1] != "declared":
                yield crate, rest.split(".")[1]
        elif names:
            for name in names.split(","):
                found = head_of(crate).get(name.strip().split(" as ")[0])
                if found:
                    yield found


def visit(crate, file):
    path = f"{crate}/specs/{file}.antt"
    if path in seen or not os.path.exists(path):
        return
    text = open(path).read()
    seen[path] = text.count("\n")
    for used in used_in(text):
        visit(*used)


def visit_contract(function):
    """Visits what the contract of a function leads to."""
    for path in glob.glob("*/src/**/*.rt", recursive=True):
        text = open(path).read()
        if f"pub fn {function}<" in text:
            for used in used_in(text):
                visit(*used)


visit_contract("lab")
for path in sorted(seen):
    print(f"{seen[path]:6} {path}")
print(f"{sum(seen.values()):6} lines in {len(seen)} files for `lab`")
before = dict(seen)
visit_contract("lab_in_files")
more = sorted(seen.keys() - before.keys())
for path in more:
    print(f"{seen[path]:6} {path}")
print(f"{sum(seen[path] for path in more):6} lines more in {len(more)} files for `lab_in_files`")
