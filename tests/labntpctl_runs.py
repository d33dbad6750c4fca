"""Runs of labntpctl over files of a daemon, a labntpd that serves by them, and what the files come to by tests/model.py."""
import contextlib
import ctypes
import errno
import json
import os
import platform
import re
import shutil
import struct
import subprocess

import judging
import labntpd_server
import model
import probe
from judging import PassedOver, enrolments, file_of, same, until
from labntpd_server import begin, room

KEY = "c40b7a1d93e65f2288bb01d4e7f3a69c5d20e8f1"
CUSTOMERS = [("192.0.2.1", 1, "sha1", KEY, 4), ("192.0.2.2", 3, "md5", "6b6579", 9), ("127.0.0.1", 4, "sha1", KEY[::-1], 65535)]
FILE_LIMIT = 67_108_864
# Of prctl(2), and of ptrace(2).
PR_SET_SECCOMP, PR_SET_NO_NEW_PRIVS, SECCOMP_MODE_FILTER = 22, 38, 2
PTRACE_TRACEME, PTRACE_SYSCALL = 0, 24
(LABNTPD,) = judging.built("labntpd")
# By whom orders are given, and what stands in front of their lines: when they were given, and by whom.
CLERK = os.environ["SUDO_USER"] = "clerk"
RECORD = re.compile(r"# (\d{4}-\d\d-\d\dT\d\d:\d\d:\d\dZ) (.+)")


def read(name):
    with open(room(name), errors="backslashreplace") as it:
        return it.read()


def lines_in(name):
    return read(name).splitlines()


def keys():
    """The digits of each key that stands in the files of the case."""
    found = {KEY, KEY[::-1]}
    for name in os.listdir(judging.ROOM):
        if name.startswith("commands") | name.endswith((".keys", ".toml")) and os.path.isfile(room(name)):
            found |= {*re.findall(r"\b[0-9a-f]{40}\b", read(name)), *(it.lower() for it in re.findall(r"ASCII:(\S{8,})", read(name)))}
    return found


def shows_no_key(*texts):
    for text in texts:
        for key in keys():
            assert key not in text.lower(), f"a key stands in {text!r}"


def run(words, wanted=None, **how):
    """A run of the program: its status, standard output and standard error. No key stands in what it prints."""
    status, out, err = judging.run(words, **how)
    shows_no_key(out, err)
    assert wanted is None or status == wanted, f"{' '.join(words)}: status {status}, and not {wanted}; {out}{err}"
    return status, out, err


def fresh():
    for name in os.listdir(judging.ROOM):
        if os.path.isdir(room(name)):
            shutil.rmtree(room(name))
        else:
            os.remove(room(name))


def configured(port=20123, customers=CUSTOMERS, commands="", **named):
    """A room with the files of a daemon alone, and the words that name its configuration. The commands file has lines that enrol customers,
    and these behind them. A file of `named` is named there."""
    fresh()
    file_of("commands", enrolments(customers) + commands)
    files = {key: name and room(name) for key, name in {"statistics": None, **named}.items()}
    return labntpd_server.configured(labntpd_server.configuration(listen=f"127.0.0.1:{port}", **files))


def next_line():
    return read("commands").count("\n") + 1


@contextlib.contextmanager
def patient():
    """Runs over a file that is full take longer."""
    usual, judging.WAIT = judging.WAIT, 60 * judging.WAIT
    try:
        yield
    finally:
        judging.WAIT = usual


CALLS = {"x86_64": {"fsync": 74, "rename": 82}, "aarch64": {"fsync": 82, "rename": 38}}


def without(name):
    """What a process begins with of which each call of this name fails, as on a broken disk (seccomp(2))."""
    call = CALLS.get(platform.machine(), {}).get(name)
    if call is None:
        raise PassedOver(f"which call is {name} on {platform.machine()}?")
    # Load the call's number; where it is that one, fail with EIO; else allow it.
    steps = [(0x20, 0, 0, 0), (0x15, 0, 1, call), (0x06, 0, 0, 0x50000 | errno.EIO), (0x06, 0, 0, 0x7FFF0000)]

    def begin():
        prctl = ctypes.CDLL(None, use_errno=True).prctl
        filters = ctypes.create_string_buffer(b"".join(struct.pack("=HBBI", *it) for it in steps))
        program = struct.pack("@HP", len(steps), ctypes.addressof(filters))
        if prctl(PR_SET_NO_NEW_PRIVS, 1, 0, 0, 0) or prctl(PR_SET_SECCOMP, SECCOMP_MODE_FILTER, program):
            raise OSError(ctypes.get_errno(), "prctl")

    return begin


def traced():
    """In a process that begins: it stops at each call of the system, for the one that began it."""
    if ctypes.CDLL(None).ptrace(PTRACE_TRACEME, 0, None, None):
        raise OSError("ptrace")


def killed_at(words, most):
    """A run that is killed before its call number `most` of the system: whether it had ended by itself."""
    try:
        process = judging.start(words, preexec_fn=traced, stdout=subprocess.DEVNULL, stderr=subprocess.DEVNULL)
    except subprocess.SubprocessError:
        raise PassedOver("there is no leave to trace a process")
    _, status = os.waitpid(process.pid, 0)
    # It stops before each call and behind it.
    for _ in range(2 * most - 1):
        if os.WIFSTOPPED(status):
            ctypes.CDLL(None).ptrace(PTRACE_SYSCALL, process.pid, None, None)
            _, status = os.waitpid(process.pid, 0)
    judging.end(process)
    return os.WIFEXITED(status)


@contextlib.contextmanager
def begun(words, **how):
    process = begin(words, **how)
    try:
        yield process
    finally:
        judging.end(process)


@contextlib.contextmanager
def serving(**how):
    """A labntpd, its port, and the words that name its configuration."""
    port = probe.free_port()
    words = configured(port, **how)
    with served(words):
        yield port, words


@contextlib.contextmanager
def served(words):
    """The same by files that are there."""
    with open(room("out"), "wb") as out, open(room("log"), "ab") as log, begun([LABNTPD, *words], stdout=out, stderr=log):
        until("it serves", lambda: os.path.getsize(room("out")) > 0)
        yield
        shows_no_key(read("log"), read("answers") if os.path.exists(room("answers")) else "")


def append_text(text, name="commands"):
    with open(room(name), "a") as it:
        it.write(text)


def appended(before):
    """The lines of the commands file behind those that were there before, but for records of orders."""
    text = read("commands")
    same("what was there stays", before, text[: len(before)])
    assert not text or text.endswith("\n"), "the commands file does not end with a line feed"
    return [it for it in text[len(before) :].splitlines() if not RECORD.fullmatch(it)]


def all_done():
    """The answers to the commands that stand there, if all are done."""
    return [f"{number} done" for number, line in enumerate(lines_in("commands"), 1) if line[:1] not in ("", "#")]


ENROL = re.compile(r"enrol (\S+) (\d+) (md5|sha1) ([0-9a-f]{40}) (\d+)")


# ---- What files come to

def customers_by(commands):
    """Who is enrolled by a commands file as tests/model.py has it: keys with their octets, and budgets; nothing of a revoked address."""
    judge = model.Model()
    for line in commands.splitlines():
        judge.line(line)
    return {address: (list(it.keys.items()), it.budget) if it else None for address, it in judge.enrolments.items()}


def customers_now():
    return customers_by(read("commands"))


def names_by(commands):
    return dict(re.findall(r"(?m)^# name (\S+) (.+)$", commands))


def told(*words):
    """Who is enrolled as the program tells it, without counts and lines."""
    objects = map(json.loads, run(["customers", "--json", *words], 0)[1].splitlines())
    return {it["address"]: (it["state"], [(key["number"], key["algorithm"], key["octets"]) for key in it["keys"]], it["budget"]) for it in objects}


def as_told(customers):
    """The same of customers of the model."""
    return {address: ("enrolled", [(number, algorithm, len(key)) for number, (algorithm, key) in it[0]], it[1]) if it else ("revoked", [], None)
            for address, it in customers.items()}


def enrolled(customers):
    return {address: it for address, it in customers.items() if it}


def wanted_text(customers, names={}):
    text = ""
    for address, (keys, budget) in enrolled(customers).items():
        (number, (algorithm, key)), *newer = keys
        text += judging.table(address, number, algorithm, key.hex(), budget)
        text += "".join(f'newer = {{ number = {number}, algorithm = "{algorithm}", key = "{key.hex()}" }}\n' for number, (algorithm, key) in newer)
        text += f"name = {json.dumps(names[address], ensure_ascii=False)}\n" if address in names else ""
    return text
