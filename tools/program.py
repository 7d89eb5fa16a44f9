"""Programs for the tools that run them: one that is named, one that the gate built, or `ecat` unproved.

A tool in a folder beside this file imports it with the folder above its own in `sys.path`.
"""
import collections
import os
import pathlib
import shutil
import socket
import subprocess
import sys
import tempfile
import time

TOP = pathlib.Path(__file__).resolve().parent.parent
CRATES = TOP / "crates"
ECAT = CRATES / "ecat"
# the most seconds of a run, and those of a run of a program that isn't proved, which has many checks in it
LIMIT, LIMIT_TRIED = 60, 1200


class Program(collections.namedtuple("Program", "file words limit")):
    """A file, the words that it is run with before its own, and the most seconds of a run."""

    def run(self, words, **how):
        return subprocess.run([*self.words, *words], executable=self.file, capture_output=True, timeout=self.limit, **how)

    def start(self, words, **how):
        return subprocess.Popen([*self.words, *words], executable=self.file, **how)


def shown(came):
    return came.decode(errors="replace")


def program_of(word, room):
    """The program that a word names: a file, `--try` for an unproved one, which is kept in a folder, or the built one if it is empty."""
    if word == "--try":
        return unproved(room)
    return given(word) if word else built()


def given(path):
    """A program that was built before."""
    if not os.access(path, os.X_OK):
        sys.exit(f"there is no program {path}")
    return Program(os.path.abspath(path), [os.path.basename(path).split(".")[0]], LIMIT)


def built(name="ecat"):
    """The program of a crate, proved and built unless it is there."""
    folder = CRATES / name
    program = folder / "out" / name
    if not program.exists():
        made = subprocess.run([os.environ.get("RT", "rt"), "run"], cwd=folder, capture_output=True, input=b"")
        if not program.exists():
            sys.exit(shown(made.stdout + made.stderr))
    return given(program)


def words_that_run(room):
    """The words of the process that runs a program in this folder, up to the program, or nothing."""
    for folder in pathlib.Path("/proc").glob("[0-9]*"):
        try:
            words = (folder / "cmdline").read_text(errors="replace").split("\0")
        except OSError:
            continue
        for place, word in enumerate(words):
            if word.startswith(f"{room}/") and word.endswith("/program"):
                return words[:place + 1]
    return None


def unproved(room):
    """The program unproved, taken from a run of `rt try`, which removes it when that ends: a segment that nothing reaches waits so long."""
    with socket.socket(socket.AF_INET, socket.SOCK_DGRAM) as held:
        held.bind(("127.0.0.1", 0))
        port = held.getsockname()[1]
    given = (TOP / "examples" / "three_slaves.toml").open("rb")
    command = [os.environ.get("RT", "rt"), "try", "--", "segment", "--frames", "1", "--idle", "600", "--port", str(port)]
    with tempfile.TemporaryFile() as said, given:
        tried = subprocess.Popen(command, cwd=ECAT, stdin=given, stdout=said, stderr=said, env={**os.environ, "TMPDIR": room})
        try:
            while (words := words_that_run(room)) is None:
                if tried.poll() is not None:
                    said.seek(0)
                    sys.exit(shown(said.read()))
                time.sleep(0.5)
            shutil.copy2(words[-1], f"{room}/ecat")
        finally:
            tried.terminate()
            tried.wait()
    if len(words) == 1:
        return Program(f"{room}/ecat", ["ecat"], LIMIT_TRIED)
    # it is run by a loader, which is told its name
    return Program(words[0], [words[0], "--argv0", "ecat", *words[1:-1], f"{room}/ecat"], LIMIT_TRIED)
