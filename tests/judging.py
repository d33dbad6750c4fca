"""The means by which tests judge programs from outside: a room for the files of a case, and programs that are started and ended."""
import contextlib
import fcntl
import os
import pwd
import resource
import shutil
import signal
import subprocess
import sys
import tempfile
import time
import unittest

TOP = os.path.dirname(os.path.dirname(os.path.realpath(__file__)))
sys.path.append(f"{TOP}/tools")
from processes import ended_by_signals

# What the environment has where programs were compiled without proof, by tests/run. Their checks make them slow.
UNPROVED = "UNPROVED_PROGRAMS"
# How long a step that must come is waited for, in seconds: a host of others may stand still for half a minute.
WAIT = 60
SECOND = 1_000_000_000
REFERENCE = "0001ec00000000000000104e495354ec00000000000000"
FIVE = "127.0.0.5/5/md5/6b6579"
# Why only proved ones pass some cases.
SLOW, LARGE = "unproved, with checks, the program is too slow", "unproved, with checks, the programs are too large"

# The tests, those first that take long: the programs that each judges, the first of which is PROGRAM, and how often a case is made at most
# whose first run fails, since a busy host may hold up a process for longer than it allows.
TESTS = {
    "package": (["labntpd", "labntp", "labntp_query", "labntpctl"], 1),
    "units": (["labntpd", "labntpctl"], 3),
    "ctl": (["labntpctl", "labntpd", "labntp_query"], 3),
    "clerk": (["labntpctl", "labntpd"], 3),
    "pages": (["labntpd", "labntp", "labntpctl"], 3),
    "query": (["labntp_query"], 3),
    "alerts": ([], 1),
    "scripts": (["labntp"], 1),
    "daemon": (["labntpd"], 5),
    "program": (["labntp"], 5),
    "door": (["labntpd", "labntp", "labntpctl"], 3),
    "scale": (["labntpd", "labntpctl"], 3),
    "compared": (["labntpd"], 3),
}
# The programs, from the one that is compiled in the shortest time.
PROGRAMS = ("labntp", "labntp_query", "labntpd", "labntpctl")
# What was seen in place of what is wanted.
Odd = AssertionError
# The program that is judged, the folder of a case's files, and what was started and has not been ended yet.
PROGRAM, ROOM, started = "", "", []


class PassedOver(unittest.SkipTest):
    """Why a case cannot be made here."""


def needs(*programs, root=False):
    path = f"{os.environ.get('PATH', os.defpath)}:/usr/local/sbin:/usr/sbin:/sbin"
    if missing := ["leave of root"] * (root and os.geteuid() != 0) + [it for it in programs if not shutil.which(it, path=path)]:
        raise PassedOver(f"there is no {missing[0]}")


def same(what, wanted, seen):
    __tracebackhide__ = True
    if wanted != seen:
        # Of long texts what stands where they part.
        at = len(os.path.commonprefix([f"{wanted!r}", f"{seen!r}"])) - 60
        cut = lambda it: it if len(it) < 200 else f"{'.. ' if at > 0 else ''}{it[max(at, 0) :][:200]}"
        raise Odd(f"{what}: wanted {cut(repr(wanted))}, saw {cut(repr(seen))}")


def until(what, is_so, seconds=WAIT):
    __tracebackhide__ = True
    end = time.monotonic() + seconds
    while not is_so():
        assert time.monotonic() <= end, f"not within {seconds} seconds: {what}"
        time.sleep(0.002)


def start(words, program=None, **how):
    process = subprocess.Popen([program or PROGRAM, *words], **{"stdin": subprocess.DEVNULL, "cwd": ROOM, **how})
    started.append(process)
    return process


def end(process):
    if process.poll() is None:
        process.kill()
    process.wait()
    started.remove(process)


def run(words, given=b"", before=(), **how):
    """A run of the program that ends at once: its status, standard output and standard error. `before` is a command that starts it."""
    how = {"stdout": subprocess.PIPE, "stderr": subprocess.PIPE, **how}
    if "stdin" not in how:
        how["input"] = given
    try:
        ran = subprocess.run([*before, PROGRAM, *words], timeout=WAIT, cwd=ROOM, **how)
    except subprocess.TimeoutExpired:
        raise Odd(f"{' '.join(words)} had not ended after {WAIT} seconds")
    return ran.returncode, *((it or b"").decode(errors="backslashreplace") for it in (ran.stdout, ran.stderr))


def limited_to(octets):
    """In a process that begins: no file gets more octets. A write past the limit fails, and does not end the program."""
    signal.signal(signal.SIGXFSZ, signal.SIG_IGN)
    resource.setrlimit(resource.RLIMIT_FSIZE, (octets, octets))


def filled(pipe):
    """Fills a pipe, of which this is the writing end, until it takes nothing more. How many octets it has."""
    fcntl.fcntl(pipe, fcntl.F_SETPIPE_SZ, 4096)
    os.set_blocking(pipe, False)
    octets = 0
    with contextlib.suppress(BlockingIOError):
        while True:
            octets += os.write(pipe, b".")
    os.set_blocking(pipe, True)
    return octets


def outputs_that_take_nothing(words, given=b""):
    """Standard output is full, closed, or a pipe that nobody reads."""
    with open("/dev/full", "wb") as full:
        same("to a full device", (3, "", "write\n"), run(words, given, stdout=full))
    same("with no standard output", (3, "", "write\n"), run(words, given, before=["sh", "-c", 'exec "$@" >&-', ""]))
    reading, writing = os.pipe()
    os.close(reading)
    try:
        same("to a pipe that nobody reads", (3, "", "write\n"), run(words, given, stdout=writing))
    finally:
        os.close(writing)


@contextlib.contextmanager
def bound_by_modes(*names):
    """How a run is started to which the modes of files apply: where this is root, as nobody, with a copy of the program, and these files of the
    case are nobody's."""
    global PROGRAM
    if os.geteuid():
        yield {}
        return
    nobody, built = pwd.getpwnam("nobody"), PROGRAM
    PROGRAM = shutil.copy(built, f"{ROOM}/copy")
    os.chmod(PROGRAM, 0o755)
    os.chmod(ROOM, 0o711)
    for name in names:
        os.chown(f"{ROOM}/{name}", nobody.pw_uid, nobody.pw_gid)
    try:
        yield {"user": nobody.pw_uid, "group": nobody.pw_gid, "extra_groups": []}
    finally:
        os.chmod(ROOM, 0o700)
        PROGRAM = built


def file_of(name, text):
    """Writes a file of the case anew, and returns its path."""
    path = f"{ROOM}/{name}"
    with open(path, "wb") as it:
        it.write(text if isinstance(text, bytes) else text.encode())
    return path


def table(address, number, algorithm, key, budget):
    return f'[[customer]]\naddress = "{address}"\nnumber = {number}\nalgorithm = "{algorithm}"\nkey = "{key}"\nbudget = {budget}\n'


def register_of(customers):
    return f'reference = "{REFERENCE}"\n' + "".join(table(*it) for it in customers)


def enrolments(customers):
    return "".join(f"enrol {' '.join(map(str, it))}\n" for it in customers)


def end_all():
    for process in [*started]:
        end(process)


def built(*names):
    """Where these programs stand: where tests/run was told, or else once they are built."""
    return [os.environ.get(f"PROGRAM_{it}", f"{TOP}/crates/{it}/out/{it}") for it in names]


@contextlib.contextmanager
def room_of(test, mask=0o077):
    """A room for a test, which is removed again; the modes of its files are under this mask."""
    global ROOM
    before = os.umask(mask)
    try:
        with tempfile.TemporaryDirectory(prefix=f"labntp-{test}-") as ROOM:
            yield
    finally:
        os.umask(before)


@contextlib.contextmanager
def own_room(test):
    """The same for a program that signals end."""
    with ended_by_signals(), room_of(test):
        yield
