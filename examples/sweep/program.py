"""Calls of the program: of a built one, or of one that the kit's `rt try` builds without proving it."""
import os
import re
import subprocess
import tempfile
from concurrent.futures import ThreadPoolExecutor


class Unusable(Exception):
    """There is no program to call, or a call of it gives no answer."""


class Built:
    """The program at a path, called by some threads at once."""

    at_once = 24

    def __init__(self, path):
        if not os.access(path, os.X_OK) or os.path.isdir(path):
            raise Unusable(
                f"{path}: no such program; `rt run` in crates/redolab proves and leaves it, REDOLAB names another, "
                "and --try builds one without proving it"
            )
        self.path = os.path.abspath(path)

    def answers(self, script, calls):
        """The status and the text of each call, a list of words, on the script."""
        with ThreadPoolExecutor(os.cpu_count()) as pool:
            return list(pool.map(lambda words: self.answer(script, words), calls))

    def answer(self, script, words):
        ran = subprocess.run([self.path, *words], input=script, capture_output=True)
        return ran.returncode, ran.stdout.decode("utf-8", "replace")


class Tried:
    """The program of a repository, which `rt try` builds anew for each list of calls."""

    at_once = 32
    seconds = 120

    def __init__(self, repository):
        self.crate = os.path.join(repository, "crates", "redolab")

    def answers(self, script, calls):
        names = [f"{number:05}" for number in range(len(calls))]
        with tempfile.TemporaryDirectory() as folder:
            for name, words in zip(names, calls):
                put_case(folder, name, script, words)
            printed, said = self.tried(folder)
        texts, endings = texts_of(printed), endings_of(said)
        if not endings.keys() >= set(names):
            raise Unusable(f"rt try in {self.crate} made {len(endings)} calls of {len(names)}:\n{said[-2000:]}")
        return [(endings[name], texts.get(name, "")) for name in names]

    def tried(self, folder):
        """What `rt try` prints, and what it says on standard error, of the cases in a folder."""
        words = ["rt", "try", "--seconds", str(self.seconds), "--cases", folder]
        try:
            ran = subprocess.run(words, cwd=self.crate, stdin=subprocess.DEVNULL, capture_output=True)
        except FileNotFoundError as error:
            raise Unusable(f"{error.filename}: not found; --try needs the kit's `rt`") from None
        return ran.stdout.decode("utf-8", "replace"), ran.stderr.decode("utf-8", "replace")


def put_case(folder, name, script, words):
    """Writes a case: what is on standard input, and the words, one a line."""
    with open(os.path.join(folder, name), "wb") as file:
        file.write(script)
    with open(os.path.join(folder, f"{name}.args"), "w", encoding="utf-8") as file:
        file.write("\n".join(words) + "\n")


def texts_of(printed):
    """What each case printed: it stands below a line with the case's name."""
    parts = re.split(r"^== (\d{5})\n", printed, flags=re.M)
    return dict(zip(parts[1::2], parts[2::2]))


def endings_of(said):
    """The status of each case that ended, or what else came of it."""
    endings = {}
    for name, ending in re.findall(r"^case=(\d{5}) (.*)$", said, re.M):
        status = re.match(r"run=ended status=(\d+)", ending)
        endings[name] = int(status[1]) if status else ending
    return endings
