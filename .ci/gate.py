#!/usr/bin/env python3
"""The merge gate.

    .ci/run              from the top or elsewhere
    .ci/run --whole      tries every wrong body

1. Whether `tools/belief` counts rightly, over a small repository; what the pages say of the sources that is counted, drawn or named:
   `tools/belief --check`, `tools/crates --check` and `tests/pages --check`, a case each; `tools/wrong_bodies --check`, whether the edits fit
   the sources; and `tools/layout`, since `rt ci` says only at the end of an hour that a file is not laid out.
2. `rt ci`, the toolchain's gate, where all is laid out: every proof and test from nothing, the wrong bodies of must-fail/, and each program
   by two compilers. The programs get their records (tools/records.py).
3. `tests/run`: the programs, as they were built, from outside. It waits for most of its time.
4. Beside it, giving way to it, `tools/wrong_bodies`: those of wrong-bodies/, many in one check. All with `--whole`; else those of the crates
   that changed since the last whole run, and a tenth of the others, another one each day. What is not tried 150 minutes after the start is
   skipped, and counted.

Where `rt ci` says nothing for ten seconds, a line tells what it is at. At the end a table tells what took how long. The last line is
`N passed, M failed`, or `N passed, M failed, K skipped`. Status 0 only where nothing failed. An interrupt ends all that was started; the
next `rt ci` gives back what earlier runs kept.
"""
import concurrent.futures
import ctypes
import datetime
import os
import re
import shutil
import signal
import subprocess
import sys
import tempfile
import threading
import time
import traceback

sys.dont_write_bytecode = True
TOP = os.path.dirname(os.path.dirname(os.path.realpath(__file__)))
sys.path.insert(0, f"{TOP}/tools")
import records
from building import ENDS_AT_ONCE
from processes import Table, ended_by_signals
from rooms import Ticker, crates_of

# What compares pages and edits with the sources.
COMPARED = ("tools/belief", "tools/crates", "tools/wrong_bodies", "tests/pages")
# After how many seconds without a line one tells how far it is.
SILENCE = 10
# After how many minutes wrong bodies are left, if not all are asked for: a slow machine ends within three hours too.
LONGEST = 150
COUNTS = re.compile(r"(\d+) passed, (\d+) failed(?:, (\d+) skipped)?")
# What prctl takes: a process is ended with the one that started it.
PR_SET_PDEATHSIG = 1


class Checks:
    """The toolchain's checks of this gate: which run now, and how many seconds of processors those of each crate have used."""

    def __init__(self):
        self.seen = {}

    def look(self):
        """Notes what runs, and returns it in words."""
        table, now = Table(), {}
        for process in table.parent:
            what = self.what(process)
            if what:
                now[process] = what
        for process, what in now.items():
            # A check may work in copies of itself, which are its children.
            if table.parent[process] not in now:
                self.seen[process, what] = max(self.seen.get((process, what), 0), table.used(process))
        return sorted({f"{crate}{'' if kind == 'proof' else ', its tests' if kind == 'tests' else ', a wrong body'}" for crate, kind in now.values()})

    @staticmethod
    def what(process):
        """Which crate a process checks, and as what, if it is such a check."""
        try:
            with open(f"/proc/{process}/cmdline", "rb") as it:
                words = it.read().decode(errors="replace").split("\0")
            inside = os.readlink(f"/proc/{process}/cwd")
        except OSError:
            return None
        # Wrong bodies are tried in copies, and all else in its place.
        is_copy, is_here = inside.startswith(f"{tempfile.gettempdir()}/"), inside.startswith(f"{TOP}/")
        if not (is_copy or is_here) or "--crate-name" not in words or os.path.basename(words[0]) != "rattle":
            return None
        kind = "wrong" if is_copy else "tests" if "--test" in words else "proof"
        return words[words.index("--crate-name") + 1], kind

    def table(self):
        """A line for each crate: the seconds of its proof, its tests and its wrong bodies, those with most first."""
        sums = {}
        for (_, (crate, kind)), seconds in self.seen.items():
            sums.setdefault(crate, dict.fromkeys(("proof", "tests", "wrong"), 0))[kind] += seconds
        yield f"{'seconds of a processor':24}{'proof':>8}{'tests':>8}{'wrong bodies':>14}"
        for crate, each in sorted(sums.items(), key=lambda it: -sum(it[1].values())):
            yield f"{crate:24}{each['proof']:8.0f}{each['tests']:8.0f}{each['wrong']:14.0f}"


class Gate:
    """What the gate has counted so far, and how long each part took."""

    def __init__(self):
        self.begun, self.last_line = time.monotonic(), time.monotonic()
        self.parts, self.proved, self.checks, self.printing = [], 0, Checks(), threading.Lock()

    def say(self, line):
        with self.printing:
            self.last_line = time.monotonic()
            print(line, flush=True)

    def tell_how_far(self):
        running = self.checks.look()
        if time.monotonic() - self.last_line < SILENCE:
            return
        now, left = ", ".join(running), len(crates_of()) - self.proved
        passed = int(time.monotonic() - self.begun)
        self.say(f"gate: {passed // 60}:{passed % 60:02} minutes; {left} crates left to prove; now {now or 'no check'}")

    def part(self, name, words, is_beside=False):
        """Runs a part, passes on what it prints but its counts, and counts it. Without a line of counts it is a case. What one prints that
        runs beside another is passed on when it has ended, but for failures."""
        lines = []
        say = (lambda line: (self.say if line.startswith("FAILED ") else lines.append)(line)) if is_beside else self.say
        say(f"== {name}")
        clock, counted = time.monotonic(), None
        how = {"stdin": subprocess.DEVNULL, "stdout": subprocess.PIPE, "stderr": subprocess.STDOUT, "errors": "replace"}
        with subprocess.Popen(words, **how) as started:
            for line in started.stdout:
                counts = COUNTS.fullmatch(line.strip())
                counted = counts or counted
                self.proved += bool(re.fullmatch(r"rt: \w+ (proved|is kept: .*)", line.strip()))
                if not counts:
                    say(line.rstrip("\n"))
            # Where two parts run at once, this call alone tells the seconds of one.
            _, status, usage = os.wait4(started.pid, 0)
            started.returncode = os.waitstatus_to_exitcode(status)
        well = started.returncode == 0
        some = [int(it or 0) for it in counted.groups()] if counted else [well, not well, 0]
        # A part that fails has a failure, whatever it counted.
        some[1] = max(some[1], not well)
        self.parts.append((name, time.monotonic() - clock, usage.ru_utime + usage.ru_stime, some))
        for line in lines:
            self.say(line)
        return well

    def show(self):
        for line in self.checks.table():
            self.say(line)
        self.say(f"{'part':28}{'minutes':>9}{'of a processor':>16}{'passed':>8}{'failed':>8}{'skipped':>8}")
        for name, clock, processors, (passed, failed, skipped) in self.parts:
            self.say(f"{name:28}{clock / 60:9.1f}{processors / 60:16.1f}{passed:8}{failed:8}{skipped:8}")
        clock, processors = time.monotonic() - self.begun, sum(it[2] for it in self.parts)
        self.say(f"{'in all':28}{clock / 60:9.1f}{processors / 60:16.1f}   on {len(os.sched_getaffinity(0))} processors, load {os.getloadavg()[2]:.1f}")
        passed, failed, skipped = (sum(it[3][at] for it in self.parts) for at in range(3))
        self.say(f"{passed} passed, {failed} failed" + (f", {skipped} skipped" if skipped else ""))
        return failed


def gate(is_whole):
    """The whole gate, and its status."""
    it = Gate()
    with Ticker(SILENCE / 4, it.tell_how_far):
        it.part("tools/belief --self-test", [f"{TOP}/tools/belief", "--self-test"])
        for name in COMPARED:
            it.part(f"{name} --check", [f"{TOP}/{name}", "--check"])
        sources = {name: records.sources_of(name) for name in ENDS_AT_ONCE}
        is_proved = it.part("tools/layout", [f"{TOP}/tools/layout"]) and it.part("rt ci", ["rt", "ci"])
        if is_proved:
            for name in filter(lambda it: os.access(records.built_at(it), os.X_OK), sources):
                records.write(name, sources[name])
            left = max(0, LONGEST - (time.monotonic() - it.begun) / 60)
            some = ["--tenth", str(datetime.date.today().timetuple().tm_yday % 10), "--minutes", str(left)]
            some = ["--write-digests"] if is_whole else some
            with concurrent.futures.ThreadPoolExecutor() as beside:
                words = ["nice", "-n", "19", f"{TOP}/tools/wrong_bodies", "--behind-ci", *some]
                tried = beside.submit(it.part, "tools/wrong_bodies", words, is_beside=True)
                it.part("tests/run", [f"{TOP}/tests/run"])
                tried.result()
        else:
            it.say("the programs and the wrong bodies of wrong-bodies/ were not tried, since not all is proved")
    return 1 if it.show() else 0


# ---- Its end

def beneath(room, is_whole):
    """The process that does the work; the one above it waits."""
    ctypes.CDLL(None).prctl(PR_SET_PDEATHSIG, signal.SIGKILL, 0, 0, 0)
    for it in (signal.SIGTERM, signal.SIGHUP):
        signal.signal(it, signal.SIG_DFL)
    # A terminal's interrupt comes to both, and the one above ends this one.
    signal.signal(signal.SIGINT, lambda *_: None)
    os.environ["TMPDIR"] = tempfile.tempdir = room
    status = 1
    try:
        status = gate(is_whole)
    except BaseException:
        traceback.print_exc()
    finally:
        sys.stdout.flush()
        os._exit(status)


def main(words):
    if words not in ([], ["--whole"]):
        print(__doc__)
        return 0 if words in (["-h"], ["--help"]) else 2
    os.chdir(TOP)
    room = tempfile.mkdtemp(prefix="gate-")
    # What is run as nobody lies below.
    os.chmod(room, 0o711)
    try:
        with ended_by_signals():
            started = os.fork()
            if not started:
                beneath(room, bool(words))
            ended = os.waitstatus_to_exitcode(os.waitpid(started, 0)[1])
            return ended if ended >= 0 else 128 - ended
    finally:
        shutil.rmtree(room, ignore_errors=True)


if __name__ == "__main__":
    sys.exit(main(sys.argv[1:]))
