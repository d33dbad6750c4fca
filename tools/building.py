"""Libraries and programs, proved and built side by side where none stands on the other.

`rt run` alone would prove one crate after another. Here each crate is a run of `rt lib` in a room of its own (tools/rooms.py), which
begins once those below it are proved, first the one with the longest chain above it. What was proved before an interrupt stays proved.
"""
import contextlib
import fcntl
import os
import shutil
import subprocess
import sys
import threading
import time

from records import sources_of, write
from rooms import TOP, Ticker, below, crates_of, in_lanes, is_program, lines_of, room

# How often the line of progress is renewed on a terminal, and written elsewhere, in seconds.
RENEWED, WRITTEN = 1, 10
LANES = len(os.sched_getaffinity(0))
# The word with which a program ends at once, where it is given no input: the toolchain ends a build with a run.
ENDS_AT_ONCE = {"labntp": "replay", "labntpd": "--version", "labntp_query": "--version", "labntpctl": "--version"}


class Progress(Ticker):
    """How many crates of how many are proved, and which are being proved: in a line on standard error that is renewed on a terminal, in one
    each ten seconds elsewhere."""

    def __init__(self, what, total):
        self.is_terminal = sys.stderr.isatty()
        super().__init__(RENEWED if self.is_terminal else WRITTEN, self.show)
        self.what, self.total, self.proved, self.failed, self.running = what, total, 0, 0, []
        self.begun, self.lock = time.monotonic(), threading.Lock()

    def __exit__(self, *words):
        super().__exit__(*words)
        if self.is_terminal:
            print("\r\033[K", end="", file=sys.stderr, flush=True)

    def minutes(self):
        passed = int(time.monotonic() - self.begun)
        return f"{passed // 60}:{passed % 60:02} minutes"

    def show(self):
        with self.lock:
            now = ", ".join(self.running)
        line = f"{self.what}: {self.proved} of {self.total} crates proved" + (f", {self.failed} failed" if self.failed else "")
        line += f", {self.minutes()}" + (f"; now {now}" if now else "")
        if self.is_terminal:
            width = shutil.get_terminal_size().columns - 1
            print(f"\r\033[K{line[:width]}", end="", file=sys.stderr, flush=True)
        else:
            print(line, file=sys.stderr, flush=True)

    def begins(self, name):
        with self.lock:
            self.running.append(name)

    def ends(self, name, well):
        with self.lock:
            self.running.remove(name)
            self.proved += well
            self.failed += not well


@contextlib.contextmanager
def alone(what):
    """Waits until no other build works in this tree, since what is kept of a crate lies elsewhere while it is proved."""
    with open(f"{TOP}/crates.txt", encoding="utf-8") as it:
        try:
            fcntl.flock(it, fcntl.LOCK_EX | fcntl.LOCK_NB)
        except BlockingIOError:
            print(f"{what}: waiting for another build in this tree", file=sys.stderr, flush=True)
            fcntl.flock(it, fcntl.LOCK_EX)
        yield


def run(words, folder, name, progress, said):
    """Runs the toolchain there and returns whether all went well; what it printed is added to `said` where it did not."""
    progress.begins(name)
    how = {"stdin": subprocess.DEVNULL, "stdout": subprocess.PIPE, "stderr": subprocess.STDOUT, "text": True, "errors": "replace"}
    ran = subprocess.run(words, cwd=folder, **how)
    progress.ends(name, ran.returncode == 0)
    if ran.returncode:
        said.append(f"== {name}\n{ran.stdout}")
    return ran.returncode == 0


def build(what, names, program=None):
    """Proves and builds these libraries with all below them, and then the program, with its record. Returns whether all went well; what
    failed is told."""
    crates, said = crates_of(), []
    # A source that changes during the build is another one than in the record.
    sources = sources_of(program) if program else {}
    wanted = {*names}.union(*(below(it, crates) for it in names)) - {*filter(is_program, names)}

    def prove(name, jobs):
        with room(name, crates) as root:
            return run(["rt", "lib", "--jobs", str(jobs)], f"{root}/crates/{name}", name, progress, said)

    with alone(what), Progress(what, len(wanted) + bool(program)) as progress:
        tasks = {name: crates[name] for name in crates if name in wanted}
        well = len(in_lanes(tasks, {name: 1 + lines_of(name) for name in tasks}, prove, LANES)) == len(tasks)
        if well and program:
            command = ["rt", "run", "--jobs", str(min(2, LANES)), "--", ENDS_AT_ONCE[program]]
            well = run(command, f"{TOP}/crates/{program}", program, progress, said)
            if well:
                write(program, sources)
    print(f"{what}: proved and built in {progress.minutes()}" if well else "".join(said) + f"{what}: not built", file=sys.stderr, flush=True)
    return well
