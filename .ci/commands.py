"""Commands of the program that is built, and what they come to."""
import os
import shutil
import subprocess
import sys
from concurrent.futures import ThreadPoolExecutor
from typing import NamedTuple, Optional

TOP = os.path.dirname(os.path.dirname(os.path.abspath(__file__)))
PROGRAM = os.path.join(TOP, "crates/shuffler/out/shuffler")
# how a run of a guest ended, by the status
ENDED = {0: "exit", 1: "exit", 2: "trap", 3: "leak", 4: "limit"}


class Came(NamedTuple):
    """What a command came to: a status below 0 is that of a signal, and None that of a command that was stopped."""

    status: Optional[int]
    output: bytes
    report: list

    def number(self, word):
        """The number in the line of the report that begins with a word, if there is one."""
        for line in reversed(self.report):
            if line.startswith(word + " "):
                return int(line.split()[1])
        return None

    def end(self):
        """The last line of the report."""
        return self.report[-1] if self.report else "no report"

    def said(self):
        """The status and the end, for a message."""
        return "no end in its time" if self.status is None else f"status {self.status}, {self.end()}"


def command(*words, seconds=120):
    """Does a command, and stops it after so many seconds."""
    try:
        did = subprocess.run([PROGRAM, *words], stdin=subprocess.DEVNULL, capture_output=True, timeout=seconds)
    except subprocess.TimeoutExpired:
        return Came(None, b"", [])
    return Came(did.returncode, did.stdout, did.stderr.decode("utf-8", "replace").splitlines())


def difference(stayed, moved, period):
    """In what a run under a period differs from `plain` of the same file, or None."""
    if (moved.status, moved.end()) != (stayed.status, stayed.end()):
        return f"plain comes to {stayed.said()}, and run to {moved.said()}"
    if moved.output != stayed.output:
        return f"plain and run have the same front of {len(os.path.commonprefix([stayed.output, moved.output]))} bytes of their output, and no more"
    count = moved.number("instructions")
    if moved.number("harts") == 1 and count != stayed.number("instructions"):
        return f"plain has {stayed.number('instructions')} instructions, and run {count}"
    # a publication comes behind each whole period, but not behind the last instruction of the run
    layouts, wanted = sum(line.startswith("layout ") for line in moved.report), 1 + max(count - 1, 0) // period
    return None if layouts == wanted else f"run has {layouts} layouts in place of {wanted}"


def keep(path, folder):
    """Keeps a file in a folder beside the built program; answers where."""
    beside = os.path.join(os.path.dirname(PROGRAM), folder)
    os.makedirs(beside, exist_ok=True)
    return os.path.relpath(shutil.copy(path, beside), TOP)


def side_by_side(act, items):
    """What an act answers to each item, in order; as many items at once as there are processors."""
    with ThreadPoolExecutor(os.cpu_count()) as pool:
        return list(pool.map(act, items))


def need_program(name):
    """Ends the script with this name where there is no built program."""
    if not os.access(PROGRAM, os.X_OK):
        sys.exit(f"{name}: FAILED: there is no built program; ./shuffler builds it")
