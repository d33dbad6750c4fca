"""The host of a measurement: what it is, when it stalled, and the C programs that are made on it."""
import contextlib
import os
import re
import subprocess
import sys

sys.dont_write_bytecode = True
HERE = os.path.dirname(os.path.realpath(__file__))
TOP = os.path.dirname(HERE)
sys.path[:0] = [f"{TOP}/tests", f"{TOP}/tools"]
import judging
from judging import Odd, PassedOver
from labntpd_server import read, room
from own_network import ALLOWED
from records import digest_of, misfit

# The highest priority of real-time processes; how often stalls.c looks at the clock, and a millisecond, in nanoseconds.
HIGHEST, EACH, MILLI = os.sched_param(99), 2_000_000, 1_000_000


def output_of(words):
    """The status of a command, and what it prints."""
    ran = subprocess.run(words, stdin=subprocess.DEVNULL, stdout=subprocess.PIPE, stderr=subprocess.STDOUT, text=True, errors="replace")
    return ran.returncode, ran.stdout.strip()


def make(*names):
    """Makes C programs of this folder, in the room of the measurement."""
    for it in names:
        try:
            status, said = output_of(["gcc", "-O2", "-o", room(it), f"{HERE}/{it}.c", "-lcrypto"])
        except FileNotFoundError:
            status, said = 1, "there is no gcc"
        if status:
            raise PassedOver(f"{it}.c was not compiled: {said.splitlines()[0]} (on Debian: apt-get install gcc libc6-dev libssl-dev)")


def core(processor):
    """What names the core of a processor."""
    with contextlib.suppress(OSError), open(f"/sys/devices/system/cpu/cpu{processor}/topology/thread_siblings_list") as it:
        return it.read()
    return processor


def two_processors():
    """A processor for a server and one for who asks it, of two cores where there are two."""
    if len(ALLOWED) < 2:
        raise PassedOver("it needs two processors")
    others = [it for it in ALLOWED if core(it) != core(ALLOWED[-1])] or ALLOWED[:-1]
    return ALLOWED[-1], others[-1]


def machine():
    """Names the processor, the kernel and the commit, in a line."""
    with open("/proc/cpuinfo") as it:
        text = it.read()
    model = re.search(r"(?m)^model name\s*: (.*)$", text)
    guest = ", as a guest" if re.search(r"(?m)^flags.* hypervisor\b", text) else ""
    commit, changes = (output_of(["git", "-C", TOP, *words]) for words in (["rev-parse", "--short=12", "HEAD"], ["status", "--porcelain"]))
    sources = "no commit" if commit[0] else f"commit {commit[1]}{', with changes' if changes[1] else ''}"
    return f"{model[1] if model else os.uname().machine}, {len(ALLOWED)} processors{guest}; Linux {os.uname().release}; sources of {sources}"


def labntpd_named(program):
    """Names the program labntpd, in a line."""
    if not os.access(program, os.X_OK):
        raise PassedOver(f"there is no program {program}; `./labntpd --version` proves and builds one, and --labntpd names another")
    proved = "which no record calls proved of these sources" if misfit("labntpd", program) else "proved of these sources"
    return f"{output_of([program, '--version'])[1]}, {proved}, SHA-256 {digest_of(program)[:16]}"


class Stalls:
    """Watches the processors. Nothing but the host holds up a watcher, where the user may give it the highest priority."""

    def __enter__(self):
        self.watchers, self.is_highest = [], True
        for it in ALLOWED:
            with open(room(f"stalls.{it}"), "wb") as out:
                process = judging.start([], room("stalls"), stdout=out)
            self.watchers.append(process)
            os.sched_setaffinity(process.pid, {it})
            try:
                os.sched_setscheduler(process.pid, os.SCHED_FIFO, HIGHEST)
            except PermissionError:
                self.is_highest = False
        return self

    def __exit__(self, *_):
        for it in self.watchers:
            judging.end(it)

    @staticmethod
    def between(begin, end, processors=tuple(ALLOWED)):
        """By how much each look at these processors was late that fell between two moments, in nanoseconds as all here."""
        for processor in processors:
            for line in read(f"stalls.{processor}").rpartition("\n")[0].splitlines():
                due, late = map(int, line.split())
                if due < end and due + late > begin:
                    yield late

    def summary(self, begin, end):
        """Counts the stalls between two moments, in a line."""
        lates, looks = [*self.between(begin, end)], len(ALLOWED) * (end - begin) / EACH
        whose = "Stalls of the host" if self.is_highest else "Stalls by the host and, for want of root, by other processes"
        tenth, whole = (sum(late >= it for late in lates) for it in (MILLI // 10, MILLI))
        latest = f"the latest by {max(lates, default=0) / MILLI:.1f} ms"
        return f"{whose}: of {looks:,.0f} looks at the clock {tenth:,} were late by 0.1 ms or more, {whole:,} by 1 ms or more, {latest}."


@contextlib.contextmanager
def measurement(name):
    """Has a room for a measurement, which is removed again, and prints why there can be none."""
    try:
        with judging.own_room(f"bench-{name}"):
            yield
    except (Odd, PassedOver) as why:
        sys.exit(f"bench/{name}: {why}")
