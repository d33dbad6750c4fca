"""Judges the built daemon from outside, by datagrams, files, pipes, signals and its exit status: what no contract and no test of a crate
sees.

After each case: that the daemon told no key, has no more descriptors than it began with, and takes hardly any of a processor. With `--long`
ten times as much is drawn at random, and replies beside a clock that was set are judged for ten seconds.

It tries no want of memory. With chronyd (on the path, or below $PEERS as tests/peers.py says), with root, with the programs `ip` and
`unshare` and with gcc or clang it makes more cases. It takes free ports of 127.0.0.1, the addresses 127.0.0.1 to 127.0.0.9, 127.0.1.1 to
127.0.1.32 and 127.2.3.4, and for three cases network namespaces of its own, with the addresses 198.51.100.1, 198.51.100.2, 198.51.100.9 and
192.0.2.7. No wait is without a limit.
"""
import collections
import contextlib
import hashlib
import itertools
import json
import os
import pathlib
import random
import re
import resource
import signal
import socket
import stat
import struct
import subprocess
import time
from unittest import mock

import pytest
from hypothesis import given, settings, strategies as st

import judging
import probe
from drawn import any_of, commands, many, octets_of
from judging import FIVE, REFERENCE, SECOND, SLOW, TOP, WAIT, Odd, PassedOver
from judging import bound_by_modes, end, enrolments, file_of, limited_to, outputs_that_take_nothing, same, until
from labntpd_server import ASKS_EACH, CLOCK_KEY, CROWD, CUSTOMERS, FIXED, HELD_UP, LONGEST_WAIT, ONE, OURS, SLACK, TAKEN, THREE
from labntpd_server import TOLD_WITHIN, TWO, UNSYNCHRONISED, WRITES_EACH, Asker, Daemon, FakeClock, State, answers, begin, chronyd
from labntpd_server import chronyd_at, configuration, configured, counted, crowd, following, halted, handing_down, hear_all, is_grown
from labntpd_server import is_unsynchronised, kernel_dropped, keys, of_file, paced, read, room, run, scheduled, send_all
from labntpd_server import share_of_a_processor, short, signed_reply, state_in, statistics, synchronised, tells_no_key, toml, udp_sockets
from labntpd_server import unanswered, window
from model import WINDOW, Model
from odd_host import BREAKS, LONG_LIST, NO_BUFFERS, OTHER_LIST, OddHost, in_front
from own_network import on_a_host
from peers import promtool
from probe import nanos

QUERIES, MANY_QUERIES = 100_000, 1_000_000
RANDOM_FILES, MANY_RANDOM_FILES = 1_000, 10_000


def test_words_have_their_statuses():
    good = configured(configuration())
    file_of("commands", "")
    for words in (["--check", *good], [*good, "--check"], [f"--config={good[1]}", "--check"]):
        same(" ".join(words), (0, "ok\n", ""), run(words))
    for word in ("--help", "-h"):
        status, out, err = run([word])
        same(word, (0, "", True), (status, err, all(it in out for it in ("--config", "--check", "--version"))))
    for words in (["--version"], ["-V", *good]):
        same(" ".join(words), (0, "labntpd 0.2.0\n", ""), run(words))
    missing = "the following required arguments were not provided"
    wrong = [([], missing), (["--check"], missing), (["--config"], "a value is required for '--config <FILE>'")]
    wrong += [([*good, *good], "'--config <FILE>' cannot be used multiple times"), (["--check=yes", *good], "unexpected value 'yes' for '--check'")]
    further = [["serve"], [*good, "more"], [*good, "--turns", "1"], ["--conf", good[1]]]
    wrong += [(words, f"unexpected argument '{next(it for it in words if it not in good)}'") for words in further]
    for words, why in wrong:
        status, out, err = run(words)
        same(f"{' '.join(words)}: {err!r} has {why!r}", (2, "", True), (status, out, why in err))


def test_words_help_and_version_to_an_output_that_takes_nothing():
    for word in ("--help", "--version"):
        outputs_that_take_nothing([word])


WANTED = {
    "listen": 'an IPv4 address with a port, as "192.0.2.1:123", or "inherited" is wanted',
    "served_as": 'an IPv4 address, as "192.0.2.1", is wanted',
    **{key: "the path of a file is wanted" for key in ("commands", "answers", "statistics", "customers", "clock.key_file")},
    **{key: "a whole number of octets from 65536 to 1073741823 is wanted" for key in ("receive_buffer", "send_buffer")},
    "longest_wait": "a number of seconds from 0.15 to 60 is wanted",
    "spin": "true or false is wanted",
    "clock": "a table is wanted",
    "clock.source": 'an IPv4 address with a port, as "127.0.0.1:123", or "fixed" is wanted',
    "clock.reference": "the 46 hexadecimal digits of a reference state are wanted",
    "clock.number": "a whole number from 1 to 65535 is wanted",
    "clock.algorithm": '"md5" or "sha1" is wanted',
    "clock.valid_for": "a number of seconds from 10 to 3600 is wanted",
    "clock.most_root_distance": "a number of seconds above 0 and up to 16 is wanted",
    "clock.most_reference_age": "a number of seconds from 1 to 1000000 is wanted",
    "clock.most_step": "a number of seconds above 0 and up to 3600 is wanted",
}


missing = lambda key: f"{key}: this key is missing: {WANTED[key]}"
wanted = lambda key: f"{key}: {WANTED[key]}"
unknown = lambda key: f"{key}: there is no such key in version 0.2.0"
# Values that are not wanted, by their keys; None: the key is left out. Seconds are rounded to the unit in which they are counted.
TOP_FAULTS = {
    "commands": [None, 1, ""],
    **{key: [1, ""] for key in ("answers", "statistics", "customers")},
    "listen": [None, 1, "", "127.0.0.1", "127.0.0.1:0", "127.0.0.1:65536", "127.0.0.300:123", "localhost:123", "[::1]:123"],
    **{key: [65535, 1073741824, -1, 524288.0, "524288"] for key in ("receive_buffer", "send_buffer")},
    "longest_wait": [0, 0.149, 0.1499999994, 60.001, 60.0000000006, 61, -0.25, "0.25", True],
    "served_as": [1, "", "192.0.2.256", "192.0.2.1:123", "inherited", "ntp.example"],
    "spin": [0, 1, "", "true"],
    "answer": ["x"],
    "register": [1, "r"],
}
CLOCK_FAULTS = {
    "source": [None, "", "Fixed", "127.0.0.1", "127.0.0.1:0", "127.0.0.1:65536", "localhost:11123", 11123],
    "number": [None, 0, 65536, -1, "1", 1.0],
    "algorithm": [None, "sha2", "SHA1", "", 1],
    "key_file": [None, 1, ""],
    "valid_for": [1, 9.999, 9.9999999994, 3600.001, 3600.0000000006, 3601, -16, "16"],
    "most_root_distance": [0, 0.0, 0.0000076, 16.0000077, 16.001, 17, -1.0, "1.0"],
    "most_reference_age": [0, 0.4, 1000000.5, 1000001, -1, "4096"],
    "most_step": [0, 0.0, 0.0000000004, 3600.0000000006, 3600.001, 3601, -0.5, "0.5"],
    "keyfile": ["x"],
}
REFERENCE_FAULTS = [None, 1, "", "00", REFERENCE[:-2], f"{REFERENCE}00", f"03{REFERENCE[2:]}", REFERENCE.replace("4e", "4g")]
FILES = 'listen = "inherited"\ncommands = "c"\n'
FIRST_FAULTS = [
    ("", missing("listen")),
    *[(text, f"line {line}: this is no TOML") for line, text in ((1, "listen"), (1, "listen = \n"), (1, "{"), (2, "# one\nlisten = 'x\n"))],
    *[(f'listen = "a"\n{text}', f"line {line}: this is no TOML") for line, text in ((2, 'listen = "b"\n'), (3, "\ncommands = "))],
    ('listen = "inherited"\nanswers = 1\nx = 1\ncommands = 2', unknown("x")),
    ("x = 1\na = 1\n[clock]\nb = 1", unknown("a")),
    ("listen = 1\nclock = { b = 1, a = 2 }", unknown("clock.a")),
    ('"\\u001b\\n\\u00e9 a" = 1', unknown("\\u{1b}\\u{a}\\u{e9} a")),
    ('answers = 2\nlisten = "inherited"\ncommands = 1', wanted("commands")),
    (f"{FILES}longest_wait = 0", wanted("longest_wait")),
    ('commands = ""\nserved_as = ""\nlisten = "inherited"', wanted("served_as")),
    (f"{FILES}clock = 1\nspin = 1", wanted("spin")),
    (FILES, missing("clock")),
    (f'{FILES}clock = "fixed"', wanted("clock")),
    (f'{FILES}clock.source = "fixed"\nclock.number = 1', unknown("clock.number")),
    (f'{FILES}clock.source = "fixed"\n[more]', unknown("more")),
]
NO_REGISTER = "register: customers stand in the commands file alone: `examples/from_register` puts those of a register there, or `labntpctl apply FILE` if it is empty"


def faulty(table, key, value):
    """The fault of a key of a table (`` or `clock.`) with this value."""
    name = f"{table}{key}"
    if name not in WANTED:
        return NO_REGISTER if name == "register" else unknown(name)
    return missing(name) if value is None else wanted(name)


def configuration_texts():
    yield from FIRST_FAULTS
    for key, values in TOP_FAULTS.items():
        for value in values:
            yield configuration(**{key: value}), faulty("", key, value)
    for key, values in CLOCK_FAULTS.items():
        for value in values:
            yield configuration(following(11123, **{key: value})), faulty("clock.", key, value)
    for value in REFERENCE_FAULTS:
        yield configuration({**FIXED, "reference": value}), faulty("clock.", "reference", value)
    yield configuration(following(11123, reference=REFERENCE)), unknown("clock.reference")
    for key, value in following(1).items():
        if key != "source":
            yield configuration({**FIXED, key: value}), unknown(f"clock.{key}")
    for it in ("nan", "inf", "-inf", "1e300"):
        yield configuration(longest_wait=None).replace("[clock]", f"longest_wait = {it}\n[clock]"), wanted("longest_wait")
    yield configuration().encode() + b"# \xff\n", "this is no UTF-8"
    yield configuration().ljust(65537, "#"), "at most 65536 octets are wanted"


def test_configuration_has_each_fault_named():
    file_of("clock.key", f"{CLOCK_KEY}\n")
    for text, fault in configuration_texts():
        words = configured(text)
        same(f"--check of {text[:400]!r}", (1, "", f"{words[1]}: {fault}\n"), run(["--check", *words]))
    same("a start with the last of them", (1, "", f"{words[1]}: {fault}\n"), run(words))
    os.remove(room("labntpd.toml"))
    same("no file", (3, "", f"{words[1]}: No such file or directory (os error 2)\n"), run(words))


def test_configuration_has_its_bounds_and_what_may_be_left_out():
    file_of("commands", "")
    file_of("clock.key", CLOCK_KEY)
    optional = "served_as answers statistics customers receive_buffer send_buffer longest_wait spin".split()
    tops = [{it: None} for it in optional] + [{it: None for it in optional}, {"listen": "inherited"}, {"listen": "192.0.2.77:65535"}]
    tops += [{key: it} for key in ("receive_buffer", "send_buffer") for it in (65536, 1073741823)]
    tops += [{"longest_wait": it} for it in (0.15, 0.1499999996, 1, 60, 60.0, 60.0000000004)]
    tops += [{"served_as": "0.0.0.0"}, {"served_as": "255.255.255.255"}, {"spin": True}, {"spin": False}]
    clocks = [{"number": 65535, "algorithm": "md5"}]
    clocks += [{"valid_for": it} for it in (9.9999999996, 10, 10.5, 3600, 3600.0000000004)]
    clocks += [{"most_root_distance": it} for it in (0.0000077, 0.001, 16, 16.0000076)]
    clocks += [{"most_reference_age": it} for it in (0.5, 1, 1000000, 1000000.4)]
    clocks += [{"most_step": it} for it in (0.0000000006, 0.001, 3600, 3600.0000000004)]
    texts = [configuration(**it) for it in tops] + [configuration(following(11123, **it)) for it in clocks]
    texts += ["# one\r\n\r\n" + configuration().replace("\n", " # two\r\n"), configuration().ljust(65536, "#")]
    dotted = {f"clock.{key}": it for key, it in FIXED.items()}
    texts += [it + configuration(None) for it in (f'clock = {{source = "fixed", reference = "{REFERENCE}"}}\n', toml(dotted))]
    for text in texts:
        same(text, (0, "ok\n", ""), run(["--check", *configured(text)]))


def test_configuration_of_the_example_is_served_by():
    """examples/labntpd.toml, with addresses and paths of this case: what its keys say, and what holds where they are left out."""
    text = pathlib.Path(f"{TOP}/examples/labntpd.toml").read_text()
    with FakeClock() as clock:
        names = {"192.0.2.1:123": "127.0.0.1:PORT", "127.0.0.1:11123": f"127.0.0.1:{clock.port}"}
        names |= {"/var/lib/labntp/commands": room("commands"), "/run/labntp/answers": room("answers")}
        names |= {"/run/labntp/labntpd.prom": room("statistics"), "/run/labntp/customers": room("customers")}
        names |= {"/etc/labntp/clock.key": room("clock.key")}
        for name, ours in names.items():
            same(f"how often {name} stands there", 1, text.count(f'= "{name}"'))
            text = text.replace(f'= "{name}"', f'= "{ours}"')
        with Daemon(text=text, key=CLOCK_KEY.upper()) as daemon:
            until("the receive buffer that is wanted", lambda: "receive buffer: 524288 octets wanted, " in read("err"), 2)
            daemon.tells("what the clock told", is_grown(clock.state), TOLD_WITHIN)
            clock.tell(dispersion=1.01)
            daemon.tells("unsynchronised at a dispersion of 1.01 s", is_unsynchronised, TOLD_WITHIN)
            for near in ({"dispersion": 0.98}, {"age": 2_000_000}):
                clock.tell(**near)
                daemon.tells(f"the state at {near}", is_grown(clock.state), TOLD_WITHIN)
            daemon.append("enrol 127.0.0.5 5 md5 6b6579 65535")
            daemon.ask("time", FIVE)
            until("the line has its answer", lambda: daemon.answers() == "1 done\n", 2)
            until("the first statistics", lambda: statistics(), WRITES_EACH + WAIT)


def test_configuration_has_the_octets_of_an_address_in_order():
    with Daemon(host="127.2.3.4"):
        pass


def test_start_tells_what_is_faulty_missing_or_taken():
    def fails(what, status, word, clock=FIXED, checks=([], ["--check"]), **keys):
        for check in checks:
            ran = run([*check, *configured(configuration(clock, **{"listen": f"127.0.0.1:{port}", **keys}))])
            same(f"{what}: {ran[2]!r} has {word!r}", (status, "", True), (ran[0], ran[1], word in ran[2] and ran[2] != ""))

    file_of("commands", "")
    port = probe.free_port()
    pathlib.Path(room("clock.key")).unlink(missing_ok=True)
    fails("no key file", 3, "clock.key", following(11123))
    for text in ("", "\n", "6b657\n", "6b65 79\n", " 6b6579", "key\n", "00" * 33 + "\n", "6b6579\n6b6579\n", "6b6579\n\n", "6b6579\r\n"):
        path = file_of("clock.key", text)
        fails(f"a key file {text!r}", 1, f"{path}: one line of 2 to 64 hexadecimal digits is wanted\n", following(11123))
    fails("an address of another host", 3, "", FIXED, [[]], listen="192.0.2.77:20123")
    with probe.bound() as taken:
        fails("a port that is taken", 3, "", FIXED, [[]], listen=f"127.0.0.1:{taken.getsockname()[1]}")
    outputs_that_take_nothing(configured(configuration(listen=f"127.0.0.1:{port}")))
    outputs_that_take_nothing(["--check", *configured(configuration())])


@contextlib.contextmanager
def in_the_place_of(name, make, clear):
    pathlib.Path(room(name)).unlink(missing_ok=True)
    make(room(name))
    yield
    clear(room(name))


PLACES = {
    "a pipe": (os.mkfifo, os.remove),
    "a folder": (os.mkdir, os.rmdir),
    "a device": (lambda path: os.symlink("/dev/zero", path), os.remove),
}
NO_FILE = "No such file or directory (os error 2)"
IRREGULAR = "a regular file is wanted"
IS_FOLDER = "Is a directory (os error 21)"
DENIED = "Permission denied (os error 13)"
# What is told of a commands file of which no line is carried out until a restart.
ANOTHER, SHORTER, ANEW = (
    f"{it}; no line is carried out until a restart"
    for it in ("another file stands there", "it is shorter than what was read of it", "it was written anew in its place")
)
# How many octets of a commands file are read, and how many seconds one may be modified before it is longer.
MOST_OCTETS, LONGEST_WRITE = 67_108_864, 5
WRITTEN = ("answers", "statistics", "customers")


def test_start_fails_at_a_commands_file_that_cannot_be_read():
    """A start fails: it would bring back customers that were revoked, and lose those that were enrolled."""
    path, words = room("commands"), configured(configuration(listen=f"127.0.0.1:{probe.free_port()}"))

    def fails(what, line, **how):
        for check in ([], ["--check"]):
            same(f"{what} {check}", (3, "", f"{path}: {line}\n"), run([*check, *words], **how))

    pathlib.Path(path).unlink(missing_ok=True)
    fails("no commands file", NO_FILE)
    for what, (make, clear) in PLACES.items():
        with in_the_place_of("commands", make, clear):
            fails(what, IRREGULAR)
    os.chmod(file_of("commands", ""), 0)
    try:
        with bound_by_modes("labntpd.toml") as how:
            fails("not readable", DENIED, **how)
    finally:
        os.remove(path)
    # More than are read at once.
    file_of("commands", "budget 127.0.0.2 65535\n" * 10_000)
    fails("a disk that breaks", "Input/output error (os error 5)", env=os.environ | in_front(BREAKS))


@pytest.mark.proved_alone(SLOW)
def test_start_has_the_commands_file_in_force_that_was_opened():
    """A commands file that is taken away just when it serves was opened before: all its lines are in force for the first query."""
    # More than are read at once.
    daemon = Daemon(commands="budget 127.0.0.2 65535\n" * 5000 + "revoke 127.0.0.1\n")
    until("it serves", lambda: read("out").endswith("\n"))
    os.remove(daemon.commands)
    with daemon:
        daemon.ask("deny", ONE)
        until("it is told", lambda: of_file("commands", f"cannot be read: {NO_FILE}\n") in read("err"), 4)


NO_FURTHER = "octets; no line behind these is carried out"


def nearly_full(octets):
    return f"has {octets} of at most {MOST_OCTETS} {NO_FURTHER}"


def comment_up_to(octets):
    """A comment with which a commands file has so many octets behind its head."""
    return "#".ljust(octets - len(enrolments(CUSTOMERS)) - 1, ".") + "\n"


@pytest.mark.proved_alone(SLOW)
def test_commands_file_that_is_nearly_full():
    many = -(-MOST_OCTETS * 80 // 100)
    with Daemon(commands=comment_up_to(many - 1)) as daemon:
        until("it is read", lambda: "commands: 4 lines read" in read("err"), 6 * WAIT)
        time.sleep(1.5)
        same("told of few octets", [], told_of("commands file"))
        same("--check", (0, "ok\n", ""), run(["--check", *daemon.words]))
        daemon.append("")
        until("it is told", lambda: told_of("commands file"), 4)
        time.sleep(1.5)
        same("what is told", [of_file("commands", nearly_full(many))], told_of("commands file"))
        same("--check", (0, "ok\n", f"{daemon.commands}: {nearly_full(many)}\n"), run(["--check", *daemon.words]))


@pytest.mark.proved_alone(SLOW)
def test_commands_file_with_more_octets_than_are_read():
    """At a start with the most octets their last line is carried out; none behind them is, nor at a start."""
    last, told = "revoke 127.0.0.2\n", of_file("commands", f"has more than {MOST_OCTETS} {NO_FURTHER}")
    with Daemon(commands=comment_up_to(MOST_OCTETS - len(last)) + last) as daemon:
        until("it is told", lambda: told_of("commands file") == [of_file("commands", nearly_full(MOST_OCTETS))], 6 * WAIT)
        daemon.ask("deny", TWO)
        daemon.append("revoke 127.0.0.1")
        until("it is told", lambda: told in told_of("commands file"), 3)
        daemon.ask("time", ONE)
        daemon.again()
        until("it is told", lambda: told in told_of("commands file"), 6 * WAIT)
        daemon.ask("deny", TWO)
        daemon.ask("time", ONE)
        same("answers", "2 done\n", daemon.answers())


def test_files_wait_for_nobody_who_reads_them():
    """A pipe that nobody reads, or whose reader stands still, holds nothing up; and what is no regular file is a fault of the start."""
    file_of("commands", "")
    port = probe.free_port()
    words = configured(configuration(listen=f"127.0.0.1:{port}"))
    link = lambda path: os.symlink(file_of("victim", "kept"), path), os.remove
    for name in WRITTEN:
        for what, (make, clear) in (PLACES | {"a link": link}).items():
            with in_the_place_of(name, make, clear):
                for check in ([], ["--check"]):
                    same(f"{what} {check}", (1, "", f"{words[1]}: {name}: {room(name)}: {IRREGULAR}\n"), run([*check, *words]))
    file_of("answers", "1 done\n" * 1000)
    with Daemon() as daemon:
        daemon.ask("time", ONE)
        # Where a file is written before it gets its name.
        until("the first statistics and customers", lambda: statistics() and customers())
        for make in (os.mkfifo, lambda path: os.symlink(file_of("victim", "kept"), path)):
            for name in ("statistics", "customers"):
                os.remove(room(name))
                make(room(f"{name}.new"))
            # The customers are written anew behind each command.
            daemon.append("budget 127.0.0.2 65535")
            until("statistics and customers once more", lambda: statistics() and customers(), WRITES_EACH + WAIT)
            daemon.ask("time", ONE)
        same("the file behind the link", "kept", read("victim"))
        # Another one writes into the answers file: each answer goes to its end, in one piece.
        daemon.append("revoke 127.0.0.3")
        until("the line has its answer", lambda: daemon.answers() == "1 done\n2 done\n3 done\n", 2)
        with open(room("answers"), "a") as it:
            it.write("# seen\n")
        daemon.append("revoke 127.0.0.3")
        until("the line has its answer", lambda: daemon.answers().endswith("3 done\n# seen\n4 refused not-enrolled\n"), 2)
        os.truncate(room("answers"), 0)
        daemon.append("revoke 127.0.0.3")
        until("the line has its answer", lambda: daemon.answers() == "5 refused not-enrolled\n", 2)


def test_files_get_an_answer_in_one_write():
    judging.needs("strace")
    with Daemon() as daemon:
        trace = begin(["strace", "-f", "-e", "trace=write", "-o", room("trace"), "-p", str(daemon.process.pid)])
        is_traced = lambda: "TracerPid:\t0\n" not in pathlib.Path(f"/proc/{daemon.process.pid}/status").read_text()
        until("it is traced", lambda: is_traced() or trace.poll() is not None)
        if trace.poll() is not None:
            raise PassedOver("it may not be traced here")
        daemon.append("revoke 127.0.0.3", "revoke 127.0.0.3")
        until("the lines have their answers", lambda: daemon.answers() == "1 done\n2 refused not-enrolled\n")
        until("the trace has the last of them", lambda: "not-enrolled" in read("trace"))
        time.sleep(0.3)
        end(trace)
        for answer in (f"{daemon.line(1)} done", f"{daemon.line(2)} refused not-enrolled"):
            same(f"the write of {answer}", 1, read("trace").count(f'"{answer}\\n"'))


def test_start_tells_two_files_in_one_place_or_none_to_write_in():
    commands, key = file_of("commands", enrolments(CUSTOMERS)), file_of("clock.key", CLOCK_KEY)
    for name in (*WRITTEN, "statistics.new", "customers.new", "linked"):
        pathlib.Path(room(name)).unlink(missing_ok=True)
    kept = {path: os.stat(path).st_size for path in (commands, key)}

    def fails(line, clock=FIXED, **keys):
        for check in ([], ["--check"]):
            words = configured(configuration(clock, **{"listen": f"127.0.0.1:{port}", **keys}))
            same(f"{keys} {check}", (1, "", f"{words[1]}: {line}\n"), run([*check, *words]))
            same("sizes", kept, {path: os.stat(path).st_size for path in kept})

    port = probe.free_port()
    other = "another file than that of"
    os.link(commands, room("linked"))
    for path in (commands, room("linked"), f"{judging.ROOM}/./commands"):
        for name in WRITTEN:
            fails(f"{name}: {other} commands is wanted", **{name: path})
        fails(f"clock.key_file: {other} commands is wanted", following(11123, key_file=path))
    fails(f"answers: {other} clock.key_file is wanted", following(11123), answers=key)
    fails(f"answers: {other} the configuration is wanted", answers=room("labntpd.toml"))
    fails(f"statistics: {other} answers is wanted", statistics=room("answers"))
    fails(f"statistics: {other} answers is wanted", statistics=f"{judging.ROOM}/./answers")
    fails(f"customers: {other} statistics is wanted", customers=room("statistics"))
    fails(f"customers: {other} statistics (FILE.new) is wanted", customers=room("statistics.new"))
    for name in ("answers", "statistics"):
        fails(f"customers (FILE.wanted): {other} {name} is wanted", **{name: room("customers.wanted")})
    for name in ("statistics", "customers"):
        os.link(commands, room(f"{name}.new"))
        fails(f"{name} (FILE.new): {other} commands is wanted")
        os.remove(room(f"{name}.new"))
    for name in WRITTEN:
        fails(f"{name}: {room('none')}/{name}: {NO_FILE}", **{name: f"{room('none')}/{name}"})
        fails(f"{name}: {commands}/{name}: Not a directory (os error 20)", **{name: f"{commands}/{name}"})


def test_start_tells_a_path_with_any_character_in_one_line():
    """Of a path each character that is no printable ASCII is told as `\\u{..}`, so that a line stays one, at the start and in the log."""
    def fails(status, line, clock=FIXED, **keys):
        words = configured(configuration(clock, **{"listen": f"127.0.0.1:{port}", **keys}))
        for check in ([], ["--check"]):
            same(f"{keys} {check}", (status, "", f"{line}\n"), run([*check, *words]))

    port = probe.free_port()
    odd, shown = 'commands ~\\"\x1b[2J\n\u00e9', 'commands ~\\"\\u{1b}[2J\\u{a}\\u{e9}'
    path, told = room(odd), room(shown)
    file_of("commands", "")
    same("no configuration", (3, "", f"{told}: {NO_FILE}\n"), run(["--config", path]))
    fails(3, f"{told}: {NO_FILE}", commands=path)
    for name in WRITTEN:
        fails(1, f"{room('labntpd.toml')}: {name}: {told}/{name}: {NO_FILE}", **{name: f"{path}/{name}"})
    file_of(odd, "x = 1\n")
    same("a fault", (1, "", f"{told}: x: there is no such key in version 0.2.0\n"), run(["--config", path]))
    fails(1, f"{told}: one line of 2 to 64 hexadecimal digits is wanted", following(11123, key_file=path))
    file_of(odd, b"\xff\n")
    same("no text", (1, "", f"{told}: this is no UTF-8\n"), run(["--config", path]))
    os.chmod(file_of(odd, "#".ljust(MOST_OCTETS)), 0o644)
    lines = [f"{told}: it has keys, and others than its owner and group may use it (mode 644)"]
    lines += [f"{told}: {nearly_full(MOST_OCTETS)}"]
    text = configuration(listen="127.0.0.1:PORT", commands=path)
    same("warnings", (0, "ok\n", "".join(f"{it}\n" for it in lines)), run(["--check", *configured(text.replace("PORT", str(port)))]))
    file_of(odd, "# one\n")
    with Daemon(text=text):
        os.rename(file_of("new", ""), path)
        until("it is told", lambda: f"\ncommands file {told}: {ANOTHER}\n" in read("err"), 3)


def test_start_tells_keys_that_others_may_read():
    names = ("commands", "clock.key")
    with FakeClock() as clock, Daemon(following(clock.port)) as daemon:
        same("--check", (0, "ok\n", ""), run(["--check", *daemon.words]))
        for name in names:
            os.chmod(room(name), 0o644)
        told = [f"{room(name)}: it has keys, and others than its owner and group may use it (mode 644)\n" for name in names]
        status, out, err = run(["--check", *daemon.words])
        same("--check", (0, "ok\n", sorted(told)), (status, out, sorted(err.splitlines(keepends=True))))
        daemon.again()
        same("at the start", [], [it for it in told if it not in read("err")])
        for name in names:
            os.chmod(room(name), 0o640)
        same("--check", (0, "ok\n", ""), run(["--check", *daemon.words]))


def test_signals_end_it():
    with Daemon() as daemon:
        for number in (signal.SIGTERM, signal.SIGINT, signal.SIGHUP):
            daemon.ask("time", ONE)
            daemon.is_quiet()
            daemon.process.send_signal(number)
            same(f"status at {number.name}", -number, daemon.process.wait(WAIT))
            daemon.again()
    cut = Daemon(prepare=lambda: resource.setrlimit(resource.RLIMIT_FSIZE, (3, 3)))
    same("status at SIGXFSZ", -signal.SIGXFSZ, cut.process.wait(WAIT))


def test_fixed_clock_has_replies_tell_the_reference():
    octets = bytes.fromhex(REFERENCE)
    with Daemon() as daemon:
        for customer in (ONE, TWO):
            same(f"what {customer} is told", State(*struct.unpack(">BBBII4sQ", octets)), daemon.told(customer))
            same("interleaved", "interleaved", probe.interleave(daemon.port, customer))
        for form in ("version-3", "field-88", "field-1024"):
            daemon.ask("time", ONE, form)
        daemon.ask("deny", "127.0.0.2")
        daemon.ask("nak", ONE, "wrong")
        for form in ("empty", "short", "rest", "bare", "mode-4", "version-2", "field-1028", "field-60000"):
            same(f"{form} of {ONE}", "silence", probe.silence(daemon.port, TWO, form, ONE))
        same("a stranger", "silence", probe.silence(daemon.port, TWO, "plain", "127.0.0.9"))


def test_commands_are_in_force_while_it_serves_and_answered():
    window(10)
    with Daemon(commands="# one\nenrol 127.0.0.6 6 md5 6b6579 10\n") as daemon:
        daemon.ask("time", "127.0.0.6/6/md5/6b6579")
        same("before", "silence", probe.silence(daemon.port, ONE, "plain", FIVE))
        daemon.append("enrol 127.0.0.5 5 md5 6b6579 65535")
        daemon.ask("time", FIVE)
        daemon.append("rollover 127.0.0.5 15 sha1 6e6577")
        daemon.ask("time", "127.0.0.5/15/sha1/6e6577")
        daemon.ask("time", FIVE)
        daemon.append("", "retire 127.0.0.5 5", "enroll 127.0.0.7", "enrol 127.0.0.1 8 md5 00 1", "enrol 127.0.0.300 8 md5 00 1")
        daemon.ask("nak", FIVE)
        daemon.ask("time", "127.0.0.5/15/sha1/6e6577")
        daemon.append("revoke 127.0.0.5", "budget 127.0.0.2 1")
        daemon.ask("deny", "127.0.0.5/15/sha1/6e6577")
        daemon.ask("time", TWO)
        daemon.ask("rate", TWO)
        wanted = "2 done\n3 done\n4 done\n6 done\n7 faulty word\n8 refused already-enrolled\n9 faulty address\n10 done\n11 done\n"
        until("all lines have their answers", lambda: daemon.answers().count("\n") >= 9, 2)
        same("answers", wanted, daemon.answers())
        said = read("err")
        same("lines that standard error does not name", [], [it for it in (7, 8, 9) if f"line {daemon.line(it)}: " not in said])
        same("keys on standard error", [], [it for it in ("6b6579", "6e6577") if it in said])

        # Another file of commands, and a new start: the answers are anew, and the customers those of that file.
        file_of("commands", daemon.head + b"revoke 127.0.0.3\nrevoke 127.0.0.5\n")
        daemon.again()
        daemon.ask("deny", THREE)
        daemon.ask("time", TWO)
        daemon.ask("time", TWO)
        same("a customer of the commands before", "silence", probe.silence(daemon.port, ONE, "plain", "127.0.0.6/6/md5/6b6579"))
        same("answers at the new start", "1 done\n2 refused not-enrolled\n", daemon.answers())


def test_commands_without_files_of_answers_statistics_and_customers():
    names = ["answers", "statistics", "customers"]
    with Daemon(**{name: None for name in names}) as daemon:
        daemon.append("enrol 127.0.0.5 5 md5 6b6579 65535")
        daemon.ask("time", FIVE)
        time.sleep(1.2)
        same("files", names, [it for it in names if not os.path.exists(room(it))])


def test_commands_are_answered_while_nobody_asks():
    with Daemon() as daemon:
        daemon.append("enrol 127.0.0.5 5 md5 6b6579 65535")
        until("the line has its answer", lambda: daemon.answers() == "1 done\n", 1)
        daemon.ask("time", FIVE)


def test_commands_are_in_force_while_the_clock_cannot_be_read():
    """Where the clock cannot be read, as before 1970, lines are carried out too while datagrams come without a pause."""
    host = OddHost()
    with Daemon(on=host) as daemon, probe.Customer(probe.HOST).socket(daemon.port) as s:
        host.unread = 1
        end_of_it, line = time.monotonic() + 2, 500
        while time.monotonic() < end_of_it and not daemon.answers():
            s.send(bytes(48))
            time.sleep(0.001)
            line -= 1
            if not line:
                daemon.append("enrol 127.0.0.5 5 md5 6b6579 65535")
        same("answers", "1 done\n", daemon.answers())


@pytest.mark.proved_alone(SLOW)
def test_commands_of_any_octets_and_any_length_are_read():
    """Comments are passed over. While it serves the lines come in pieces; a start answers them alike."""
    lines = [b"x" * 4097, b"budget 127.0.0.1 1".ljust(4096), b"#" * 100_000, b"# caf\xe9", b"revoke 127.0.0.1 \xff"]
    lines += [b"\xff" * 4097, b"\r", b"y" * 200_000, b"#" * 65_536, b"z" * 65_535, b"", b"revoke 127.0.0.300", b"revoke 127.0.0.2"]
    faults = dict.fromkeys((1, 2, 5, 6, 7, 8, 10), "line-long") | {2: "count", 5: "not-utf8", 7: "word", 12: "address"}
    wanted = "".join(f"{number} faulty {fault}\n" for number, fault in faults.items())
    octets = b"\n".join(lines)
    with Daemon() as daemon:
        for at in range(0, len(octets), 70_000):
            daemon.append_octets(octets[at : at + 70_000])
            time.sleep(0.03)
        until("the faulty lines have their answers", lambda: daemon.answers() == wanted, 2)
        # Behind the last one its line feed is wanting.
        daemon.ask("time", TWO)
        same("answers", wanted, daemon.answers())
        daemon.append_octets(b"\n")
        until("the last one has its answer", lambda: daemon.answers() == f"{wanted}13 done\n", 2)
        said = [f"commands: line {daemon.line(number)}: faulty {fault}" for number, fault in [*faults.items()][:6]]
        until("they are told", lambda: [it for it in told_of("commands") if "faulty" in it][:6] == said, 2)
        daemon.again()
        daemon.ask("deny", TWO)
        until("the same answers", lambda: daemon.answers() == f"{wanted}13 done\n", 2)
        same("faults of the file", [], told_of("commands file"))


def test_commands_of_another_file_or_one_written_anew_are_not_carried_out():
    """It is told, and no line is carried out until a restart, which carries out the whole file."""
    path, lines = room("commands"), "budget 127.0.0.2 65535\nrevoke 127.0.0.3\n"

    def in_place(octets):
        with open(path, "r+b") as it:
            it.write(octets)

    ways = [(ANOTHER, lambda: os.rename(file_of("new", daemon.head + lines.encode()), path))]
    ways += [(SHORTER, lambda: os.truncate(path, len(daemon.head))), (ANEW, lambda: os.utime(path))]
    ways += [(ANEW, lambda: in_place(daemon.head.replace(b"65535", b"65534")))]
    for why, change in ways:
        host = OddHost()
        with Daemon(commands=lines, on=host) as daemon:
            until("the lines have their answers", lambda: daemon.answers() == "1 done\n2 done\n", 2)
            # The file system's clock goes on.
            time.sleep(0.05)
            change()
            until(f"{why!r} is told", lambda: told_of("commands file") == [of_file("commands", why)], LONGEST_WRITE * (why == ANEW) + 1 + SLACK)
            daemon.append("revoke 127.0.0.1", *9 * ["#"])
            time.sleep(0.3)
            daemon.ask("time", ONE)
            same(f"answers, where {why!r}", "1 done\n2 done\n", daemon.answers())
            host.pass_seconds(WRITES_EACH + 1)
            shown = lambda: [statistics().get(it) for it in ("labntp_commands_changed", 'labntp_file_ok{file="commands"}')]
            until("it is shown", lambda: shown() == [1, 0], 3)
            host.wall = host.monotonic = 0
            daemon.again()
            daemon.ask("deny", ONE)
            same("answers at the new start", Model().answers(pathlib.Path(path).read_bytes()), read("answers"))
            host.pass_seconds(WRITES_EACH + 1)
            until("it is well", lambda: shown() == [0, 1], 3)
            same("faults", [], told_of("commands file"))


def test_commands_go_on_with_the_same_file():
    """It is the same one too where it was touched up to two seconds before a line comes, as a write on a busy disk does."""
    path, away, budget = room("commands"), room("away"), "budget 127.0.0.2 65535"

    def linked():
        pathlib.Path(room("linked")).unlink(missing_ok=True)
        os.link(path, room("linked"))

    def slowly_written():
        os.utime(path)
        time.sleep(2)

    def moved():
        os.rename(path, away)
        until("it is told", lambda: told_of("commands file") == [of_file("commands", f"cannot be read: {NO_FILE}")], 1 + SLACK)
        with open(away, "a") as it:
            it.write(f"{budget}\n" * 2)
        time.sleep(0.3)
        same("answers, while it is away", "1 done\n2 done\n3 done\n4 done\n", daemon.answers())
        daemon.ask("time", ONE)
        os.rename(away, path)
        until("it is well", lambda: told_of("commands file")[1:] == [of_file("commands", "is read again")], 1 + SLACK)

    with Daemon() as daemon:
        for change in (lambda: os.chmod(path, 0o640), linked, lambda: os.utime(path), slowly_written, moved, lambda: None):
            change()
            before = daemon.answers().count("\n")
            daemon.append(budget)
            until("the line has its answer", lambda: daemon.answers().count("\n") == before + 1, 2)
            time.sleep(0.3)
        same("faults", 2, len(told_of("commands file")))


def test_commands_file_that_becomes_a_pipe():
    """All are answered meanwhile, it is told, and no file that comes there is read before a restart."""
    with Daemon() as daemon:
        os.mkfifo(room("pipe"))
        asked = paced(daemon, ONE, 250, 750, {250: lambda: os.rename(room("pipe"), daemon.commands)})
        same("queries without an answer", [], unanswered(asked))
        until("it is told", lambda: told_of("commands file") == [of_file("commands", ANOTHER)], 1 + 2 * SLACK)
        same("a pipe stands there", True, stat.S_ISFIFO(os.stat(daemon.commands).st_mode))
        os.rename(file_of("new", daemon.head + b"revoke 127.0.0.1\n"), daemon.commands)
        time.sleep(0.3)
        daemon.ask("time", ONE)
        daemon.again()
        daemon.ask("deny", ONE)


ADDRESSES = [f"127.0.0.{it}" for it in range(2, 6)]


@pytest.mark.proved_alone(SLOW)
def test_many_commands_files_at_random_are_the_models():
    """They lie there or are appended in pieces; what a start leaves of each is what its history left."""
    with Daemon(enrolled=[]) as daemon, probe.Customer(probe.HOST).socket(daemon.port) as s:

        @settings(max_examples=MANY_RANDOM_FILES if judging.IS_LONG else RANDOM_FILES)
        @given(many(octets_of(commands(ADDRESSES, range(1, 9))), 60), st.lists(st.integers(0, 4000), max_size=3))
        def are_answered(lines, cuts):
            model, octets = Model(), b"\n".join(lines)
            wanted = model.answers(octets)

            def judged(what):
                with contextlib.suppress(Odd):
                    until("the answers", lambda: read("answers").count("\n") >= wanted.count("\n"), 2)
                same(what, wanted, read("answers"))
                # A line that is spoilt may name an address that is none of this host.
                for address in {*ADDRESSES} & {*model.enrolments}:
                    it = model.enrolments[address]
                    keys = [f"/{of_key}/{algorithm}/{key.hex()}" for of_key, (algorithm, key) in (it.keys.items() if it else ())]
                    seen = probe.ask(daemon.port, "plain", address + (keys or [""])[-1])
                    same(f"{what}: the answer to {address}", "time" if it else "deny", seen)

            pieces = [0, *sorted(it % (len(octets) + 1) for it in cuts), len(octets)]
            file_of("commands", octets[: pieces[1]])
            daemon.again()
            for begin, end in zip(pieces[1:], pieces[2:]):
                daemon.append_octets(octets[begin:end])
                # Behind a datagram it looks at the file.
                s.send(b".")
            judged("appended")
            daemon.again()
            judged("at a start")

        are_answered()
        same("faults", [], told_of("commands file"))


@pytest.mark.proved_alone(SLOW)
def test_commands_come_a_thousand_at_once():
    """They hold up replies by five thousandths of a second at most, in the middle one of nine rounds beside an idle file."""
    budget, waits = "budget 127.0.0.2 65535", {0: [], 1000: []}
    with Daemon() as daemon, preferred(daemon):
        for _ in range(9):
            for count, found in waits.items():
                asked = paced(daemon, ONE, 1000, 400, {200: lambda: daemon.append_octets(f"{budget}\n".encode() * count)})
                same("queries without an answer", [], unanswered(asked))
                found.append(max(nanos(probe.stamps(it.reply)[2]) - it.before for it in asked) / SECOND * 1000)
        until("all have their answers", lambda: daemon.answers().count("\n") == 9 * 1000)
    idle, beside = (sorted(it)[4] for it in waits.values())
    print(f"the longest wait of a reply: {idle:.2f} ms, and {beside:.2f} ms where 1,000 lines came", flush=True)
    assert beside <= idle + 5, f"1,000 lines hold up a reply by {beside - idle:.2f} ms"


def test_clock_state_is_told_with_more_dispersion():
    for algorithm, number in (("sha1", 1), ("md5", 65535)):
        clock = FakeClock(algorithm, number)
        clock.is_silent = True
        with clock, Daemon(following(clock.port, number=number, algorithm=algorithm)) as daemon:
            same("before the first answer", UNSYNCHRONISED, daemon.told())
            clock.is_silent = False
            daemon.tells("what the clock told", is_grown(clock.state), TOLD_WITHIN)
            clock.tell(stratum=15, precision=0xFA, delay=0.3, dispersion=0.2, age=3.0)
            daemon.tells("the new state", is_grown(clock.state), TOLD_WITHIN)


def test_clock_dispersion_grows_with_age():
    """By 15 millionths of the time that passes, in units of 2^-16 seconds; each reading is rounded up."""
    with synchronised() as (clock, daemon):
        clock.is_silent = True
        time.sleep(0.2)

        def told():
            """The dispersion that is told, and between which moments."""
            before = time.monotonic()
            return daemon.told().dispersion, before, time.monotonic()

        first, *begun = told()
        time.sleep(6)
        last, *ended = told()
        least, most = ((late - early) * 15e-6 * 65536 for late, early in zip(ended, reversed(begun)))
        assert least - 1.1 <= last - first <= most + 1.1, f"it grew by {last - first}: wanted {least:.2f} to {most:.2f}"


def test_clock_that_is_silent():
    """No authentic answer is younger than `valid_for`; meanwhile nobody has to wait for a reply."""
    with synchronised(valid_for=10) as (clock, daemon):
        took = []
        for _ in range(2):
            clock.is_silent = True
            while True:
                begun = time.monotonic()
                state = daemon.told()
                took.append(time.monotonic() - begun)
                if state == UNSYNCHRONISED:
                    break
                assert begun <= clock.answered + 10.5, "it tells a state 10.5 seconds after the last answer"
                time.sleep(0.01)
            # What its answer says is of the question, which may have come to it late; the next question is a second behind that.
            if time.monotonic() < clock.answered + 9.5:
                raise Odd(f"unsynchronised {time.monotonic() - clock.answered:.2f} seconds after an answer")
            clock.is_silent = False
            daemon.tells("the state again", is_grown(clock.state), TOLD_WITHIN)
        # This process may have been held up once; more questions than one had no answer.
        same("replies that took half a second, but for one", [], sorted(it for it in took if it > 0.5)[:-1])


def test_clock_answers_that_are_forged_are_not_believed():
    """Answers under another key change nothing, and keep nothing alive."""
    clock = FakeClock()
    clock.is_forged = True
    with clock, Daemon(following(clock.port, valid_for=10)) as daemon:
        begun = time.monotonic()
        until("it has asked its clock twice", lambda: clock.answered and clock.answered > begun + ASKS_EACH / 2, TOLD_WITHIN)
        time.sleep(0.2)
        same("after forged answers", UNSYNCHRONISED, daemon.told())
        clock.is_forged = False
        daemon.tells("the state", is_grown(clock.state), TOLD_WITHIN)
        old, clock.is_forged = clock.state, True
        clock.tell(leap=1, stratum=7)
        _, took = daemon.tells("unsynchronised", lambda it: is_unsynchronised(it) or not is_grown(old)(it), 10 + 2 * SLACK)
        same("behind forged answers", UNSYNCHRONISED, daemon.told())
        # Its last answer was a moment old, and the first forged one came a second behind that.
        assert took >= 9.5 * ASKS_EACH, f"a forged answer makes it unsynchronised in {took:.2f} seconds"


def test_clock_answer_forged_that_it_is_unsynchronised():
    with synchronised() as (clock, daemon):
        old, clock.is_forged = clock.state, True
        clock.tell(leap=3, stratum=0)
        end_of_it = time.monotonic() + 2 * ASKS_EACH + 0.2
        while time.monotonic() < end_of_it:
            same("as before the forged answers", True, is_grown(old)(daemon.told()))
            time.sleep(0.02)


def test_clock_leap_second_is_told_and_withdrawn():
    with synchronised() as (clock, daemon):
        for leap in (1, 0, 2, 0):
            clock.tell(leap=leap)
            daemon.tells(f"leap {leap}", is_grown(clock.state), TOLD_WITHIN)


def test_clock_that_says_it_is_unsynchronised():
    """The clock says that it is not synchronised: at once, and not only once its last answer is old."""
    with synchronised() as (clock, daemon):
        for keys in ({"leap": 3, "stratum": 0}, {"leap": 3}, {"stratum": 0}, {"stratum": 16}):
            clock.tell(**keys)
            daemon.tells(f"unsynchronised at {keys}", is_unsynchronised, TOLD_WITHIN)
            clock.tell()
            daemon.tells("the state again", is_grown(clock.state), TOLD_WITHIN)


def test_clock_offset_is_dispersion():
    with synchronised() as (clock, daemon):
        for offset in (0.05, -0.05, 0.2):
            clock.offset = offset
            clock.tell()
            daemon.tells(f"{offset} seconds more", is_grown(clock.state, abs(offset)), TOLD_WITHIN)
        clock.offset = 0.0
        daemon.tells("the state again", is_grown(clock.state), TOLD_WITHIN)


def test_clock_exchange_is_delay():
    """What an exchange with the clock takes is added to the delay. So the offset that is measured is off by no more than half of it."""
    with synchronised() as (clock, daemon):
        for lags in ((0.0, 0.1), (0.1, 0.0), (0.05, 0.05)):
            clock.lags = lags
            off = abs(lags[0] - lags[1]) / 2
            daemon.tells(f"{lags} seconds on its way", is_grown(clock.state, off, 0.1), TOLD_WITHIN)
        clock.lags = 0.0, 0.0
        daemon.tells("the state again", is_grown(clock.state), TOLD_WITHIN)


def test_clock_too_far_or_its_reference_too_old():
    """Half the delay and the dispersion are above the limit of half a second, or the reference time is too old or ahead."""
    with synchronised(most_root_distance=0.5, most_reference_age=2000) as (clock, daemon):
        far = [{"dispersion": 0.51}, {"delay": 1.02}, {"delay": 0.6, "dispersion": 0.25}, {"age": 2004}, {"age": None}, {"age": -30}]
        near = [{"dispersion": 0.45}, {"delay": 0.9}, {"delay": 0.4, "dispersion": 0.25}, {"age": 1984}, {}, {"age": 0}]
        for wrong, right in zip(far, near):
            clock.tell(**wrong)
            daemon.tells(f"unsynchronised at {wrong}", is_unsynchronised, TOLD_WITHIN)
            clock.tell(**right)
            daemon.tells(f"the state at {right}", is_grown(clock.state), TOLD_WITHIN)


def test_clock_reference_of_any_age_or_up_to_a_limit():
    """A reference time of any age is believed, and up to a limit where one is set. The statistics have both, whether it is believed or not."""
    seconds = lambda *names: [statistics().get(f"labntp_clock_{it}_seconds") for it in names]
    for keys, wanted, line in (
        ({}, "nan", "clock: synchronised, stratum 3, reference 0a0b0c0d: believed"),
        ({"most_reference_age": 4096, "most_root_distance": 0.5}, "4096.0", "clock: not synchronised: reference-old"),
    ):
        with FakeClock() as clock, Daemon(following(clock.port, **keys)):
            clock.tell(age=1_000_000, delay=0.25, dispersion=0.125)
            until(line, lambda: told_of("clock") == [line], TOLD_WITHIN)
            until("statistics behind its answer", lambda: seconds("reference_age")[0] > 0, WRITES_EACH + WAIT)
            same("limits", [wanted, str(keys.get("most_root_distance", 1.0))], [*map(str, seconds("most_reference_age", "most_root_distance"))])
            age, distance = seconds("reference_age", "root_distance")
            if not 1_000_000 <= age < 1_000_000 + WRITES_EACH + WAIT or not 0.249 < distance < 0.25 + HELD_UP:
                raise Odd(f"a reference time of {age:.3f} seconds ago, and a root distance of {distance:.6f}")


def test_clock_precision_and_the_best_one_that_is_told():
    with synchronised() as (clock, daemon):
        for told, wanted in ((0xE3, 0xF0), (0xF0, 0xF0), (0xF1, 0xF1), (0xFA, 0xFA)):
            clock.tell(precision=told)
            daemon.tells("its state", is_grown(clock.state), TOLD_WITHIN)
            same(f"precision at {told}", wanted, daemon.told().precision)


def test_clock_that_wants_fewer_questions_gets_fewer():
    """After a RATE the next one comes after eight seconds, and the last answer is believed; an hour later they come each second."""
    host = OddHost()

    def is_asked_twice():
        same("the stratum that it tells meanwhile", clock.state.stratum, daemon.told().stratum)
        return len(clock.asked) > before + 1

    with synchronised(host, valid_for=10) as (clock, daemon):
        clock.is_kiss, before = True, len(clock.asked)
        until("it is asked again", lambda: len(clock.asked) > before and clock.answered > clock.asked[before], TOLD_WITHIN)
        clock.is_kiss = False
        until("it is asked for the second time", is_asked_twice, 8 * ASKS_EACH + 2 * SLACK)
        waited = clock.asked[before + 1] - clock.asked[before]
        # The first question may have come to it late, and then the second seems to come early.
        assert waited >= 7 * ASKS_EACH, f"asked {waited:.2f} seconds after a RATE"
        clock.hurried += 1
        clock.offset += 3600
        host.pass_seconds(3600)
        clock.tell()
        before = len(clock.asked)
        until("it is asked four times an hour later", lambda: len(clock.asked) >= before + 4, TOLD_WITHIN)


def test_clock_is_logged():
    told = lambda: [it.removeprefix("clock: ") for it in read("err").splitlines() if it.startswith("clock: ")]
    follows = lambda stratum, identifier: f"synchronised, stratum {stratum}, reference {identifier}: believed"
    clock = FakeClock()
    clock.is_silent, begun = True, time.monotonic()
    with clock, Daemon(following(clock.port)):
        time.sleep(0.5)
        clock.is_silent = False
        until("the first line", told, TOLD_WITHIN)
        # Where the host was held up for so long, two seconds have passed without an answer.
        late = "not synchronised: no-answer"
        wanted = [late] if told()[0] == late and time.monotonic() > begun + 2 else []
        for keys, lines in (
            ({}, [follows(3, "0a0b0c0d")]),
            ({"leap": 1}, ["a leap second is announced: the last minute of the day has 61 seconds"]),
            ({"leap": 2}, ["a leap second is announced: the last minute of the day has 59 seconds"]),
            ({"stratum": 4}, [follows(4, "0a0b0c0d"), "no leap second is announced"]),
            ({"stratum": 4, "identifier": "c0000201"}, [follows(4, "c0000201")]),
            ({"leap": 3, "stratum": 0}, ["not synchronised: unsynchronised"]),
            ({"dispersion": 2}, ["not synchronised: far"]),
            ({"leap": 1}, [follows(3, "0a0b0c0d"), "a leap second is announced: the last minute of the day has 61 seconds"]),
        ):
            clock.tell(**keys)
            wanted += lines
            with contextlib.suppress(Odd):
                until("they are told", lambda: told() == wanted, TOLD_WITHIN)
            same(f"lines behind {keys}", wanted, told())


def test_clock_that_never_answers_is_logged():
    begun = time.monotonic()
    with Daemon(following(probe.free_port())):
        until("it is told", lambda: "clock: not synchronised: no-answer\n" in read("err"), 2 + 2 * SLACK)
        assert time.monotonic() >= begun + 1.5, f"it was told within {time.monotonic() - begun:.2f} seconds"


class HostClock(OddHost):
    """A host whose clock is set, and with it that of a clock daemon on it, if there is one."""

    def __init__(self, clock=None):
        super().__init__()
        self.clock = clock

    def set(self, seconds):
        """It is so many seconds ahead from now on."""
        # No answer comes in between, which would tell that the one clock is ahead of the other.
        with self.clock.lock if self.clock else contextlib.nullcontext():
            self.wall = round(seconds * SECOND)
            if self.clock:
                self.clock.offset = seconds
                # The daemon asks anew at once where it sees that.
                self.clock.hurried += 1


class Judge:
    """Asks 200 times a second, and looks at each reply: where it says that its clock is synchronised, its stamps are off by no more than the
    root distance that it tells, and a thousandth of a second."""

    def __init__(self, daemon):
        self.daemon, self.customer = daemon, probe.Customer(ONE)

    def tells(self, what, is_so=lambda state: False, seconds=3.0):
        """The same until a reply tells a state that is so, at the latest after so many seconds."""
        begun = time.monotonic()
        with self.customer.socket(self.daemon.port) as s:
            while (now := time.monotonic()) < begun + seconds:
                before = probe.now()
                reply = signed_reply(self.customer, s)
                self.judge(what, before, reply, probe.now())
                if is_so(state_in(reply)):
                    return time.monotonic() - begun
                time.sleep(max(0, now + 0.005 - time.monotonic()))
        return None

    def judge(self, what, before, reply, after):
        state = state_in(reply)
        beyond = [it for stamp in probe.stamps(reply)[1:] for it in (before - stamp, stamp - after)]
        # A difference of stamps is one modulo an era.
        off = max(0, *((it + 2**63) % 2**64 - 2**63 for it in beyond)) / 2**32
        most = (state.delay / 2 + state.dispersion) / 65536 + 0.001
        assert state.leap == 3 or off <= most, f"{what}: leap {state.leap}, off by {off:.6f} seconds and tells {most:.6f}: {state}"


def is_synchronised(state):
    return state.leap != 3


def stepped(manner, shifts):
    """The host's clock is set by so many seconds, and some time later back. In the manner of the clock's daemon meanwhile."""
    clock = FakeClock()
    host = HostClock(clock)
    with clock, Daemon(following(clock.port), on=host) as daemon:
        judge = Judge(daemon)
        clock.tell(age=100.0)
        for shift in shifts:
            assert judge.tells("before", is_synchronised) is not None, f"not synchronised before a step of {shift} seconds"
            judge.tells("before", seconds=0.1)
            manner(clock, host, judge, shift)


def spell(seconds):
    """So many seconds in which replies are judged; ten with `--long`."""
    return 10 if judging.IS_LONG else seconds


def notices_nothing(clock, host, judge, shift):
    """Its reference time stays. What the clock shows is told as dispersion, or not believed; and once it is back it is as before."""
    host.set(shift)
    found = judge.tells(f"set by {shift}", lambda it: is_synchronised(it) and abs(shift) > 0.5, spell(1.5))
    same(f"synchronised after a step of {shift} seconds", None, found)
    host.set(0)
    found = judge.tells(f"back by {shift}", lambda it: is_synchronised(it) and it.dispersion < short(0.1), 1.0)
    same(f"synchronised at once, back from {shift} seconds", True, found is not None and found < 0.5)
    judge.tells(f"back by {shift}", seconds=spell(0.1))


def updates_just_before(clock, host, judge, shift):
    """It updates just before the step, and then notices nothing until the clock is back; then it updates again."""
    clock.tell(age=0.01)
    host.set(shift)
    found = judge.tells(f"set by {shift}, behind an update", lambda it: is_synchronised(it) and abs(shift) > 0.5, 1.5)
    same(f"synchronised after a step of {shift} seconds", None, found)
    clock.tell(age=0.01)
    host.set(0)
    judge.tells(f"back by {shift}, behind an update", seconds=1.1)
    clock.tell(age=0.01)


def notices(clock, host, judge, shift):
    """It says that it is not synchronised, sets the clock right, and has updated its own a moment later."""
    host.set(shift)
    judge.tells(f"set by {shift}, not yet noticed", seconds=0.5)
    clock.tell(leap=3, stratum=0)
    judge.tells(f"set by {shift}, noticed", seconds=1.2)
    host.set(0)
    judge.tells(f"back by {shift}, noticed", seconds=0.3)
    clock.tell(age=0.0)
    found = judge.tells(f"back by {shift}, updated", is_synchronised, ASKS_EACH + 2 * SLACK)
    same(f"synchronised soon, an update behind a step of {shift} seconds", True, found is not None)


def test_clock_set_and_its_daemon_notices_nothing():
    stepped(notices_nothing, (0.3, 2, -2, 60, 3600))


def test_clock_set_just_behind_an_update_of_its_daemon():
    stepped(updates_just_before, (0.3, -0.3, -2, 3600))


def test_clock_set_and_its_daemon_notices_it():
    stepped(notices, (0.3, -2, 60, 3600))


def test_clock_set_before_the_start():
    """Its daemon has not updated its own since. Where that one's reference time lies ahead by now, or longer ago than a limit that is set, it is
    not believed before an update. Nothing shows another step."""
    for shift in (-3600, -103, 4100):
        clock = FakeClock()
        host = HostClock(clock)
        clock.tell(age=100.0)
        host.set(shift)
        with clock, Daemon(following(clock.port, most_reference_age=4096), on=host) as daemon:
            judge = Judge(daemon)
            same(f"synchronised, set by {shift}", None, judge.tells(f"set by {shift}", is_synchronised, spell(2.5)))
            host.set(0)
            judge.tells(f"back by {shift}", seconds=0.3)
            clock.tell(age=0.0)
            found = judge.tells(f"back by {shift}, updated", is_synchronised, ASKS_EACH + 2 * SLACK)
            same(f"synchronised soon, an update behind a step of {shift} seconds", True, found is not None)


def test_clock_that_cannot_be_read():
    host = OddHost()
    with FakeClock() as clock:
        for configured_clock, after in ((FIXED, SLACK), (following(clock.port), TOLD_WITHIN)):
            with Daemon(configured_clock, on=host) as daemon:
                daemon.tells("synchronised", is_synchronised, TOLD_WITHIN)
                host.unread = 1
                daemon.tells("unsynchronised", is_unsynchronised, 0.5)
                host.unread = 0
                daemon.tells("synchronised again", is_synchronised, after)


def test_clock_in_the_statistics():
    """The statistics tell the clock's state as replies do, how far its daemon is, and why it is not believed where it is not."""
    host, clock = OddHost(), FakeClock()
    clock.is_silent = True
    with clock, Daemon(following(clock.port, most_reference_age=1000, most_root_distance=8.0), on=host) as daemon:

        def why():
            """The one reason that is 1, and the other numbers, as they are written next."""
            node = os.stat(room("statistics")).st_ino
            clock.hurried += 1
            clock.offset += WRITES_EACH + 1
            host.pass_seconds(WRITES_EACH + 1)
            # What is told in the second in which that passes may be of the answer before.
            until("statistics", lambda: os.stat(room("statistics")).st_ino != node)
            seen = {name.removeprefix("labntp_clock_"): number for name, number in statistics().items() if "_clock_" in name}
            whys = [name for name, number in seen.items() if "believed" in name and number]
            same("reasons", 1, len(whys))
            return whys[0].split('"')[1], seen

        def becomes(wanted, seconds=0, **keys):
            """Once the daemon was asked, or after so many seconds more."""
            clock.tell(**keys)
            clock.is_heard()
            clock.hurried += 1
            clock.offset += seconds
            host.pass_seconds(seconds)
            found, seen = why()
            same(f"why, at {keys}", wanted, found)
            same(f"synchronised, at {keys}", float(wanted == "believed"), seen["synchronised"])
            return seen

        until("the first statistics", lambda: statistics())
        seen = why()[1]
        same("at the start", ("nan", "nan", 0.0), (str(seen["age_seconds"]), str(seen["offset_seconds"]), seen["synchronised"]))
        becomes("no-answer")
        clock.is_silent = False
        for offset in (0.03, -0.03):
            clock.offset += offset
            # What is told of an exchange that was held up is not judged.
            for _ in range(5):
                seen = becomes("believed", leap=1, stratum=2, delay=0.25, dispersion=0.125)
                if seen["root_delay_seconds"] < 0.25 + HELD_UP:
                    break
            same("the state", [1, 2], [seen[it] for it in ("leap", "stratum")])
            # The exchange took a little, and by half of that the offset may be off.
            off = (seen["root_delay_seconds"] - 0.25) / 2 + 0.001
            ranges = {"root_delay_seconds": (0.25, 0.25 + HELD_UP), "age_seconds": (0, WRITES_EACH + 3 + SLACK)}
            ranges |= {"root_dispersion_seconds": (0.155 - off, 0.155 + off), "offset_seconds": (offset - off, offset + off)}
            same("what is out of its range", {}, {it: seen[it] for it, (least, most) in ranges.items() if not least <= seen[it] < most})
            clock.offset -= offset
        becomes("unsynchronised", leap=3, stratum=0)
        becomes("reference-old", age=2000)
        becomes("reference-ahead", age=-30)
        becomes("far", dispersion=9)
        becomes("believed")
        clock.is_silent = True
        seen, passed = becomes("old", 20), 20 + WRITES_EACH + 1
        same(f"whether an age of {seen['age_seconds']} is that of the last answer", True, passed <= seen["age_seconds"] < passed + WAIT)
        clock.is_silent = False
        becomes("believed")
        host.wall += 3 * SECOND
        becomes("set")


def test_clock_of_chronyd():
    port = probe.free_port()
    words = chronyd_at(port, "chrony", "local stratum 1")
    is_its = lambda it: it.leap == 0 and it.stratum == 1 and it.identifier == bytes([127, 127, 1, 1]) and 0 < it.dispersion < short(0.1)
    with Daemon(following(port, valid_for=10)) as daemon:
        same("before it begins", UNSYNCHRONISED, daemon.told())
        for _ in range(2):
            server = begin(words)
            daemon.tells("chronyd's state", is_its, 10)
            end(server)
            pathlib.Path(room("chrony.pid")).unlink(missing_ok=True)
            _, took = daemon.tells("unsynchronised", is_unsynchronised, 10 + 2 * SLACK)
            assert took >= 8, f"unsynchronised {took:.2f} seconds after chronyd was killed"


def test_clock_of_chronyd_whose_source_is_gone():
    """It is believed up to a limit on the age of its reference time, else up to its root distance, which grows by maxclockerror."""
    upstream, port = probe.free_port(), probe.free_port()
    source = begin(chronyd_at(upstream, "upstream", "local stratum 1"))
    begin(chronyd_at(port, "chrony", f"server 127.0.0.1 port {upstream} minpoll -4 maxpoll -4 iburst", "maxclockerror 20000"))
    ends = lambda why: until(why, lambda: told_of("clock")[-1] == f"clock: not synchronised: {why}", 1 + 2 * SLACK)
    with Daemon(following(port, most_reference_age=3)) as daemon:
        daemon.tells("chronyd's state", is_synchronised, 10)
        end(source)
        _, took = daemon.tells("unsynchronised", is_unsynchronised, 3 + 2 * SLACK)
        ends("reference-old")
        assert took >= 2, f"unsynchronised {took:.2f} seconds after its source was gone"
    with Daemon(following(port, most_root_distance=0.3)) as daemon:
        state, _ = daemon.tells("the state again", is_synchronised, TOLD_WITHIN)
        same("its reference time is older than that limit", True, probe.now() - state.reference > 3 << 32)
        daemon.tells("unsynchronised", is_unsynchronised, 0.3 / 0.02 + 2 * SLACK)
        ends("far")


def test_clock_set_and_chronyd_keeps_it():
    """A real clock daemon on a host whose clock is set, with a source that has the right time."""
    host, right, port = HostClock(), probe.free_port(), probe.free_port()
    source = f"server 127.0.0.1 port {right} minpoll -4 maxpoll -4 iburst"
    begin(chronyd_at(right, "right", "local stratum 1"))
    begin(chronyd_at(port, "chrony", source), env=host.environment())
    with Daemon(following(port), on=host) as daemon:
        judge = Judge(daemon)
        for shift in (0.3, 2, -2, 60, 3600):
            assert judge.tells("before", is_synchronised, 10) is not None, f"not synchronised within 10 seconds, before a step of {shift}"
            judge.tells("before", seconds=0.2)
            host.set(shift)
            judge.tells(f"set by {shift}", seconds=spell(2))
            host.set(0)
            judge.tells(f"back by {shift}", seconds=spell(1))
        assert judge.tells("at the end", is_synchronised, 10) is not None, "not synchronised within 10 seconds at the end"


def stops(daemon, moments, first, last):
    """What is done before the query of each number: the program is stopped, and goes on. It notes when."""
    def sends(number):
        daemon.process.send_signal(number)
        moments.append(time.time_ns())

    return {first: lambda: sends(signal.SIGSTOP), last: lambda: sends(signal.SIGCONT)}


@pytest.mark.proved_alone(SLOW)
def test_late_datagrams_after_a_stop_of_five_seconds_under_load():
    """What can have waited too long is dropped, and all that come once it goes on are answered."""
    rate, pause, moments = 250, 5.0, []
    with Daemon(longest_wait=LONGEST_WAIT, receive_buffer=8388608) as daemon:
        asked = paced(daemon, ONE, rate, rate * 9, stops(daemon, moments, rate, rate + int(rate * pause)))
        for number, it in enumerate(asked):
            waited = (nanos(probe.stamps(it.reply)[1]) - it.after) / SECOND if it.reply else 0
            assert waited <= LONGEST_WAIT + 1e-6, f"query {number} was answered with a receipt {waited:.3f} seconds behind it"
            early, behind = ((moment - it.after) / SECOND for moment in moments)
            if not it.reply and (early > LONGEST_WAIT or -behind > SLACK):
                raise Odd(f"query {number} has no answer: it was sent {early:.3f} seconds before the stop, {behind:.3f} before its end")
        lost = unanswered(asked)
        # Where this process was held up, it sent many at once, and more of them late.
        assert len(lost) >= rate * (pause - LONGEST_WAIT) / 2, f"{len(lost)} queries have no answer"
        counted({answers("time", "basic"): len(asked) - len(lost)})
        # Where a socket's buffer may have little, the kernel dropped some.
        stale, drops = (statistics().get(it, 0) for it in TAKEN[1:])
        same("what has no answer, by the statistics", (len(lost), True), (stale + drops, stale > 0))


@pytest.mark.proved_alone(SLOW)
def test_late_datagrams_after_a_short_stop_are_not_lost():
    """A stop that is shorter than half of the longest wait loses nothing."""
    moments = []
    with Daemon(longest_wait=4.0) as daemon:
        asked = paced(daemon, ONE, 250, 750, stops(daemon, moments, 125, 425))
        same("queries without an answer", [], unanswered(asked))
        seen, stop = max(nanos(probe.stamps(it.reply)[1]) - it.before for it in asked), moments[1] - moments[0]
        same("the longest wait was seen", True, seen > stop * 7 // 10 > 0)


@contextlib.contextmanager
def preferred(daemon):
    """The program, as its unit has it, and this process run before what else a busy host has to do, where that may be."""
    kept = os.getpriority(os.PRIO_PROCESS, 0)
    with contextlib.suppress(PermissionError):
        for it in (daemon.process.pid, 0):
            os.setpriority(os.PRIO_PROCESS, it, -15)
    try:
        yield
    finally:
        with contextlib.suppress(PermissionError):
            os.setpriority(os.PRIO_PROCESS, 0, kept)


def test_late_datagrams_after_a_fifth_of_a_second_are_not_lost_by_default():
    """While nobody asks, and under the longest wait that holds where none is given, a stop of 0.2 seconds loses nothing."""
    # For how many seconds the program had to wait for a processor.
    held_up = lambda: scheduled(daemon.process)[1]
    rng, customer, answered = random.Random(7), probe.Customer(ONE), []
    with Daemon(longest_wait=None) as daemon, customer.socket(daemon.port) as s, preferred(daemon):
        for _ in range(60):
            time.sleep(rng.uniform(0.2, 0.3))
            packet, before = probe.query(customer), held_up()
            time.sleep(0.03)
            with halted(daemon):
                begun = time.monotonic()
                s.send(packet)
                time.sleep(0.2)
            took = time.monotonic() - begun
            is_answered = probe.answer(s, 1) is not None
            # It looks at its queue each fiftieth of a second, and a twentieth is left for all that holds it up, and this process.
            if took < 0.21 and held_up() - before < 0.01:
                answered.append(is_answered)
            if len(answered) == 10:
                break
        if answered.count(True) < max(5, len(answered) - 1):
            raise Odd(f"{answered.count(True)} of {len(answered)} queries that were sent at the beginning of a stop were answered")


@pytest.mark.proved_alone(SLOW)
def test_late_queue_that_is_too_old_is_swept_out():
    allowed = int(pathlib.Path("/proc/sys/net/core/rmem_max").read_text())
    for buffer, each in ((65536, 60), (4194304, 1500)):
        if buffer > allowed:
            raise PassedOver(f"a socket's buffer may have {2 * allowed} octets here (net.core.rmem_max), and {2 * buffer} are needed")
        with contextlib.ExitStack() as stack:
            daemon = stack.enter_context(Daemon(enrolled=CROWD, longest_wait=LONGEST_WAIT, receive_buffer=buffer))
            late, behind = (stack.enter_context(crowd(daemon, *it)) for it in ((each, CROWD[:2]), (60, CROWD[2:3])))
            for _ in range(3):
                with halted(daemon):
                    send_all(late)
                    time.sleep(LONGEST_WAIT + SLACK / 2)
                # What comes before it has begun to sweep is swept out too.
                until("the queue is swept", daemon.has_swept)
                daemon.ask("time", "127.0.1.4/4/md5/6b6579")
                with halted(daemon):
                    send_all(behind)
                hear_all(behind)
            counted({answers("time", "basic"): 3 * (60 + 1), "labntp_stale_total": 3 * 2 * each}, TAKEN)
            sweeps = statistics().get("labntp_sweeps_total", 0)
            assert 3 <= sweeps <= 3 * 2 * each / 4, f"{sweeps} sweeps of {3 * 2 * each} late datagrams"


@pytest.mark.proved_alone(SLOW)
def test_burst_of_replies_that_nobody_takes_holds_up_no_other():
    """A customer on a link whose address nobody answers for: replies to it wait for that in the send buffer, and others do not."""
    silent, rate = "198.51.100.5/5/md5/6b6579", 100
    customers = [*CUSTOMERS, ("198.51.100.5", 5, "md5", "6b6579", 65535)]
    customer = probe.Customer(silent)
    with namespace(), socket.socket(socket.AF_INET, socket.SOCK_RAW, socket.IPPROTO_RAW) as raw:
        def forge():
            """As many queries of that customer as fill a send buffer."""
            for _ in range(400):
                packet = probe.query(customer)
                udp = struct.pack(">HHHH", 20123, daemon.port, 8 + len(packet), 0) + packet
                ip = struct.pack(">BBHHHBBH4s4s", 0x45, 0, 20 + len(udp), 0, 0, 64, 17, 0, *map(socket.inet_aton, (customer.address, "198.51.100.1")))
                raw.sendto(ip + udp, ("198.51.100.1", 0))

        def asks():
            """Another customer asks meanwhile. No receipt of it is late."""
            asked = paced(daemon, ONE, rate, 3 * rate, {rate * at // 2: forge for at in range(1, 5)})
            slowest = max(nanos(probe.stamps(it.reply)[1]) - it.before for it in asked if it.reply)
            # The kernel gives up such replies after three seconds.
            assert slowest <= SECOND, f"a query was taken {slowest / SECOND:.2f} seconds after it was sent"
            return unanswered(asked)

        with Daemon(enrolled=customers, host="0.0.0.0") as daemon:
            same("queries without an answer", [], asks())
        # In so small a buffer those replies take all room, until the kernel gives up.
        with Daemon(enrolled=customers, host="0.0.0.0", send_buffer=65536) as daemon:
            lost = asks()
            counts = lambda: [statistics().get(f"labntp_send_{it}_total", 0) for it in ("failures", "would_wait")]
            until("replies that would have waited are failed sends", lambda: counts()[0] >= len(lost) > 0, WRITES_EACH + WAIT)
            same("sends that failed, and that would have waited", *counts())
            until("an answer, once the kernel has given up", lambda: probe.ask(daemon.port, "plain", ONE) == "time")


def truesize():
    """How many octets of a socket's buffer a query takes, as this host counts."""
    with probe.bound() as near, probe.bound() as far:
        near.setsockopt(socket.SOL_SOCKET, socket.SO_RCVBUF, 65536)
        near.setblocking(False)
        room_of_it = near.getsockopt(socket.SOL_SOCKET, socket.SO_RCVBUF)
        taken = 0
        for _ in range(1000):
            far.sendto(bytes(68), near.getsockname())
        with contextlib.suppress(BlockingIOError):
            while near.recv(100):
                taken += 1
    return room_of_it / taken


def receive_buffer_allowed():
    """How many octets a receive buffer has here at most, as the kernel counts."""
    return 2 * min(int(pathlib.Path("/proc/sys/net/core/rmem_max").read_text()), 8388608)


@pytest.mark.proved_alone(SLOW)
def test_burst_of_ten_thousand_queries_is_answered():
    """They come as fast as can be; then while the program is stopped, so that all of them wait at once."""
    each = 10_000 // 25
    allowed, needed = receive_buffer_allowed(), 10_000 * truesize()
    if needed > allowed:
        raise PassedOver(f"a socket's buffer may have {allowed} octets here (net.core.rmem_max), and {needed:.0f} are needed")
    with Daemon(enrolled=CROWD, receive_buffer=8388608) as daemon, crowd(daemon, each, CROWD[:25]) as askers:
        send_all(askers)
        hear_all(askers)
        with halted(daemon):
            send_all(askers)
        hear_all(askers)
        counted({answers("time", "basic"): 20_000}, TAKEN)


def test_burst_has_the_kernels_drops_counted():
    with Daemon(enrolled=CROWD, receive_buffer=65536) as daemon, crowd(daemon, 50, CROWD[:20]) as askers:
        with halted(daemon):
            send_all(askers)
        # Queries wait in the order in which they were sent, so the first ones have an answer.
        answered = 0
        with contextlib.suppress(Odd):
            for it in askers:
                it.socket.setsockopt(socket.SOL_SOCKET, socket.SO_RCVTIMEO, struct.pack("ll", 3, 0))
                for query in it.queries:
                    it.hears(query)
                    answered += 1
        assert 50 <= answered < 1000, f"{answered} of 1000 queries were answered"
        counted({answers("time", "basic"): answered, "labntp_kernel_drops_total": 1000 - answered}, TAKEN)


@pytest.mark.proved_alone(SLOW)
def test_burst_is_not_held_up_by_many_other_sockets():
    """Behind six hundred other sockets in the kernel's list no query waits for a look at that, and drops are counted all the same."""
    with contextlib.ExitStack() as stack:
        ours = {}
        for _ in range(600):
            s = stack.enter_context(probe.bound())
            ours[f"0100007F:{s.getsockname()[1]:04X}"] = s
        last = [ours[words[1]] for words in udp_sockets() if words[1] in ours][-1]
        last.setsockopt(socket.SOL_SOCKET, socket.SO_RCVBUF, 65536)
        stack.enter_context(mock.patch.dict(os.environ, **in_front(LONG_LIST)))
        daemon = stack.enter_context(Daemon(inherited=last))
        asked = paced(daemon, ONE, 100, (WRITES_EACH + 2) * 100)
        same("queries without an answer", [], unanswered(asked))
        slowest = max(nanos(probe.stamps(it.reply)[1]) - it.before for it in asked)
        assert slowest <= SECOND / 4, f"a query was taken {slowest / SECOND:.2f} seconds after it was sent"
        with halted(daemon), probe.Customer(ONE).socket(daemon.port) as s:
            for _ in range(1000):
                s.send(b"")
        dropped = kernel_dropped(last)
        same("whether the kernel dropped any", True, dropped > 0)
        until("they are counted", lambda: statistics().get("labntp_kernel_drops_total") == dropped, 2 * WRITES_EACH + WAIT)


@contextlib.contextmanager
def full_pipe():
    reading, writing = os.pipe()
    try:
        judging.filled(writing)
        yield writing
    finally:
        os.close(reading)
        os.close(writing)


@pytest.mark.proved_alone(SLOW)
def test_log_where_standard_error_takes_nothing():
    """Whatever would be told, no reply is lost and none is late."""
    with full_pipe() as pipe, Daemon(stderr=pipe) as daemon:
        doing = {number: lambda number=number: daemon.append(f"revoke 127.0.0.{300 + number}") for number in range(0, 2000, 50)}
        asked = paced(daemon, ONE, 1000, 2000, doing)
        same("queries without an answer", [], unanswered(asked))
        slowest = max(nanos(probe.stamps(it.reply)[1]) - it.before for it in asked)
        assert slowest <= SLACK * SECOND, f"a query was taken {slowest / SECOND:.2f} seconds after it was sent"
        same("answers", "".join(f"{number} faulty address\n" for number in range(1, 41)), daemon.answers())


def test_log_counts_lines_that_are_dropped():
    """Each line that standard error does not take is counted once: four of a start, and the lines of commands that may be told."""
    with full_pipe() as pipe, Daemon(stderr=pipe) as daemon:
        daemon.append(*(f"revoke 127.0.0.{300 + number}" for number in range(5)))
        until("all have their answers", lambda: daemon.answers().count("\n") == 5)
        dropped = lambda: statistics().get("labntp_log_lines_dropped_total")
        until("each is counted", lambda: dropped() == 4 + 5, WRITES_EACH + WAIT)


def test_log_has_few_lines_of_a_kind():
    """Of forty lines that are done, and forty faulty ones, ten each are told, and in a later minute how many were held."""
    host, held = OddHost(), {}
    with Daemon(on=host) as daemon:
        until("it has begun", lambda: told_of("clock"))
        daemon.append(*["budget 127.0.0.1 7"] * 40, *(f"revoke 127.0.0.{300 + number}" for number in range(40)))
        until("all have their answers", lambda: daemon.answers().count("\n") == 80)
        for kind, first in (("done", 1), ("address", 41)):
            read_all = lambda: [it for it in read("err").splitlines() if it.endswith(kind)]
            until("the first ten are told", lambda: len(read_all()) >= 10)
            time.sleep(0.2)
            told = read_all()
            # A minute may have begun in between.
            if not 10 <= len(told) <= 20 or f"line {daemon.line(first)}: " not in told[0]:
                raise Odd(f"{len(told)} lines on standard error: {told[:2]}")
            held[kind] = 40 - len(told)
        host.pass_seconds(60)
        daemon.append("budget 127.0.0.1 7", "revoke 127.0.0.300")
        wanted = [f"commands: {held['done']} more lines done", f"commands: {held['address']} more lines not done"]
        until("how many were held", lambda: not {*wanted} - {*read("err").splitlines()}, SLACK)


def test_log_tells_a_state_that_was_held_in_the_next_minute():
    """After ten lines about the clock, or about files, what is so in the next minute; also beside many lines of commands."""
    away, follows = of_file("commands", f"cannot be read: {NO_FILE}"), "clock: synchronised, stratum 3, reference 0a0b0c0d: believed"
    with FakeClock() as clock, Daemon(following(clock.port)) as daemon:
        begun = time.monotonic()
        daemon.append(*(f"revoke 127.0.0.{300 + number}" for number in range(40)))
        until("the clock is told", lambda: told_of("clock") == [follows], ASKS_EACH + 2 * SLACK)
        for number in range(11):
            path = f"{daemon.commands}.away"
            os.rename(*((path, daemon.commands) if number % 2 else (daemon.commands, path)))
            clock.tell(**({} if number % 2 else {"leap": 3, "stratum": 0}))
            # Both are looked at once a second.
            wanted = [min(number + 1, 10), min(number + 2, 10)]
            seen = lambda: [len(told_of(it)) for it in ("commands file", "clock")]
            until(f"{wanted} lines", lambda: seen() == wanted, 3 * SLACK) if number < 10 else time.sleep(2 * ASKS_EACH + SLACK)
        clock.tell()
        time.sleep(2 * ASKS_EACH + SLACK)
        assert time.monotonic() - begun <= 50, "the minute was over before the lines were"
        same("files in the first minute", [away, of_file("commands", "is read again")] * 5, told_of("commands file"))
        same("the clock in the first minute", [follows, "clock: not synchronised: unsynchronised"] * 5, told_of("clock"))
        until("the next minute", lambda: seen() == [11, 11], 60 + WAIT)
        same("what is told then", [away, follows], [told_of(it)[-1] for it in ("commands file", "clock")])
        assert time.monotonic() - begun >= 58, f"it was told after {time.monotonic() - begun:.1f} seconds"
        same("lines that were held", [], [it for it in read("err").splitlines() if "more lines" in it])


def test_log_has_priorities_for_the_journal_at_the_start():
    """So do the fault that ends a start, and a warning before it."""
    words, path = configured(configuration(following(11123), listen=f"127.0.0.1:{probe.free_port()}")), room("commands")
    os.chmod(file_of("clock.key", CLOCK_KEY), 0o644)
    readers = f"{room('clock.key')}: it has keys, and others than its owner and group may use it (mode 644)"
    pathlib.Path(path).unlink(missing_ok=True)
    for fault in (NO_FILE, ""):
        for check in ([], ["--check"]) if fault else (["--check"],):
            for is_journal in (True, False):
                with open(room("journal"), "w+") as journal:
                    status = os.fstat(journal.fileno())
                    with mock.patch.dict(os.environ, JOURNAL_STREAM=f"{status.st_dev}:{status.st_ino + (not is_journal)}"):
                        run([*check, *words], stderr=journal)
                prefix = lambda priority: f"<{priority}>" * is_journal
                last = f"{prefix(3)}{path}: {fault}" if fault else f"{prefix(4)}{path}: {nearly_full(MOST_OCTETS)}"
                wanted = [f"{prefix(4)}{readers}", last]
                same(f"{check}, {is_journal}", wanted, read("journal").splitlines())
        file_of("commands", "#".ljust(MOST_OCTETS))
    for name in ("clock.key", "commands"):
        os.remove(room(name))


def test_log_has_priorities_for_the_journal():
    """Where standard error is what the journal reads, each line begins with its priority, and else none does."""
    commands = "enrol 127.0.0.5 5 md5 6b6579 10\nrevoke 127.0.0.9\nx\n"
    wanted = {"labntpd ": 6, "receive buffer": 6, "clock: synchronised": 5, "commands: line 2": 4, "commands: line 3": 4,
              "commands: 3 lines read": 6, "commands: line 4": 6, "commands: line 5": 4, "commands file ": 3}
    for is_journal in (True, False):
        with open(room("journal"), "w+") as journal:
            status = os.fstat(journal.fileno())
            stream = f"{status.st_dev}:{status.st_ino + (not is_journal)}"
            with mock.patch.dict(os.environ, JOURNAL_STREAM=stream), Daemon(enrolled=[], commands=commands, stderr=journal) as daemon:
                read_all = lambda: read("journal").splitlines()
                until("the commands", lambda: sum("commands: " in it for it in read_all()) == 3, WAIT)
                daemon.append("budget 127.0.0.5 9", "x")
                until("the new ones", lambda: sum("commands: " in it for it in read_all()) == 5, WAIT)
                os.remove(daemon.commands)
                until("the file is missed", lambda: any("cannot be read" in it for it in read_all()), WAIT)
                for begin, priority in wanted.items():
                    prefix = f"<{priority}>" if is_journal else ""
                    same(f"lines that begin {begin}", 1, sum(it.startswith(prefix + begin) for it in read_all()))
                same("the start is told once there", 1, sum(f"127.0.0.1:{daemon.port}" in it for it in read_all()))
                same("lines", len(wanted), len(read_all()))


def test_manager_hears_that_it_serves_and_that_it_is_alive():
    host, lines = OddHost(), "budget 127.0.0.2 65535\n" * 5_000
    for name in (room("manager"), f"@labntpd-{os.getpid()}"):
        with socket.socket(socket.AF_UNIX, socket.SOCK_DGRAM) as s:
            s.bind(name.replace("@", "\0"))
            with mock.patch.dict(os.environ, NOTIFY_SOCKET=name), Daemon(commands=lines, on=host) as daemon:
                s.settimeout(WAIT)
                same("at first", b"READY=1", s.recv(100))
                same("lines that have their answers by then", daemon.line(5_000), read("answers").count("\n"))
                for _ in range(2):
                    s.settimeout(2)
                    with contextlib.suppress(TimeoutError):
                        raise Odd(f"too early: {s.recv(100)}")
                    host.pass_seconds(WRITES_EACH)
                    s.settimeout(WAIT)
                    same("then", b"WATCHDOG=1", s.recv(100))


def test_manager_that_hears_nothing():
    """A manager whose socket is full, is gone, is a file or has no name that can be holds up nothing."""
    with socket.socket(socket.AF_UNIX, socket.SOCK_DGRAM) as s, socket.socket(socket.AF_UNIX, socket.SOCK_DGRAM) as other:
        s.bind(room("full"))
        other.setblocking(False)
        with contextlib.suppress(BlockingIOError):
            while True:
                other.sendto(b".", room("full"))
        for name in (room("full"), room("gone"), file_of("file", ""), "/" + 200 * "a", "@", "manager", ""):
            with mock.patch.dict(os.environ, NOTIFY_SOCKET=name), Daemon() as daemon:
                daemon.ask("time", ONE)
                until("the first statistics", statistics)
                daemon.ask("time", ONE)


def test_socket_that_is_handed_down_is_served():
    with probe.bound() as s, Daemon(inherited=s) as daemon:
        daemon.ask("time", ONE)
        daemon.ask("nak", ONE, "wrong")
        same("interleaved", "interleaved", probe.interleave(daemon.port, TWO))


def test_socket_that_is_handed_down_with_what_waited_in_it():
    """What came at a socket while nobody ran has no answer: it may have waited for longer than it may, as far as a new program knows."""
    customer = probe.Customer(ONE)
    with probe.bound() as s, customer.socket(s.getsockname()[1]) as client:
        client.send(probe.query(customer))
        time.sleep(3)
        with Daemon(inherited=s) as daemon:
            same("an answer to what had waited for three seconds", None, probe.answer(client, SLACK))
            until("the first statistics", lambda: statistics())
            same("a wait of which nothing is known", 0, statistics()["labntp_queue_wait_seconds"])
            daemon.ask("time", ONE)
            counted({"labntp_stale_total": 1}, ("labntp_stale_total",))


def test_socket_that_is_handed_down_is_judged():
    """No datagram can be received from it, or it was handed down to nobody here; of one that is there --check says so too."""
    file_of("commands", "")
    words = configured(configuration(listen="inherited"))

    def judged(what, s, line, words=words, checks=([], ["--check"]), **environment):
        for check in checks:
            same(f"{what} {check}", (3, "", f"listen: {line}\n"), run([*check, *words], **handing_down(s, **environment or OURS)))

    kinds = [(socket.AF_INET, socket.SOCK_STREAM, (probe.HOST, 0), "a UDP socket"), (socket.AF_INET6, socket.SOCK_DGRAM, ("::1", 0), "an IPv4 socket")]
    kinds += [(socket.AF_UNIX, socket.SOCK_DGRAM, "", "an IPv4 socket"), (socket.AF_INET, socket.SOCK_DGRAM, None, "a socket that is bound")]
    for family, kind, address, wanted in kinds:
        with socket.socket(family, kind) as s:
            if address is not None:
                s.bind(address)
            judged(f"{family!r} {kind!r} {address}", s, f"{wanted} is wanted")
    with probe.bound() as s:
        same("a good one", (0, "ok\n", ""), run(["--check", *words], **handing_down(s, **OURS)))
        s.connect((probe.HOST, probe.free_port()))
        judged("a connected one", s, "a socket that is not connected is wanted")
    # Others that are bound and of IPv4: one of UDP-Lite, and one that gets all UDP packets.
    for kind, protocol in ((socket.SOCK_DGRAM, 136), (socket.SOCK_RAW, socket.IPPROTO_UDP)):
        with contextlib.suppress(OSError), socket.socket(socket.AF_INET, kind, protocol) as s:
            s.bind((probe.HOST, 0))
            judged(f"{kind!r} {protocol}", s, "a UDP socket is wanted")
    with probe.bound() as s:
        same("no word", (3, "", "listen: LISTEN_PID, the number of this process, is wanted: no socket is there\n"), run(words, **handing_down(s)))
        for environment in ({"LISTEN_FDS": "1"}, {"LISTEN_PID": "1", "LISTEN_FDS": "1"}):
            judged(f"{environment}", s, "LISTEN_PID, the number of this process, is wanted: no socket is there", checks=[[]], **environment)
            same(f"--check with {environment}", (0, "ok\n", ""), run(["--check", *words], **handing_down(s, **environment)))
        for environment in ({"LISTEN_PID": "PID"}, {"LISTEN_PID": "PID", "LISTEN_FDS": "2"}):
            judged(f"{environment}", s, "LISTEN_FDS = 1, for one socket that was handed down, is wanted", **environment)
        at_an_address = configured(configuration(listen=f"127.0.0.1:{probe.free_port()}"))
        judged("an address, and a socket", s, 'a socket was handed down (LISTEN_FDS): "inherited" is wanted', words=at_an_address)


def test_socket_that_does_not_wait_is_made_to():
    """It is made to wait: the daemon sleeps while nothing comes, see `Daemon.is_quiet`."""
    with probe.bound() as s:
        s.setblocking(False)
        with Daemon(inherited=s) as daemon:
            daemon.ask("time", ONE)


def test_socket_with_buffers_that_are_refused():
    file_of("commands", "")
    words = configured(configuration(listen=f"127.0.0.1:{probe.free_port()}"))
    sets, gets = ("setsockopt", "const void *value, socklen_t length"), ("getsockopt", "void *value, socklen_t *length")
    for (call, rest), option, key in ((sets, "SO_RCVBUF", "receive"), (sets, "SO_SNDBUF", "send"), (gets, "SO_RCVBUF", "receive")):
        odd = os.environ | in_front(NO_BUFFERS % (call, rest, option, call))
        same(f"{call} {option}", (3, "", f"{key}_buffer: No buffer space available (os error 105)\n"), run(words, env=odd))


def test_socket_with_receives_that_fail_again_and_again():
    """Somebody has shut the socket down, so that each call fails at once: it pauses, and tells it."""
    with probe.bound() as s, Daemon(inherited=s) as daemon:
        daemon.ask("time", ONE)
        with contextlib.suppress(OSError):
            s.shutdown(socket.SHUT_RD)
        told = "receive: a hundred calls failed one after another; a pause follows each\n"
        until("it is told", lambda: told in read("err"), 4)
        time.sleep(2)
        same("how often", 1, read("err").count("receive: "))


def test_socket_is_kept_over_a_kill_under_load():
    """The socket is kept over a kill and a new start. Of what waits in it the new program cannot know since when, so that is dropped,
    and with it at most the one query that the old program had in hand. No port is refused, all that come later are answered, and a
    query that was lost is answered when it is asked again."""
    rate, count = 4000, 20_000
    moments = {}

    def kill():
        moments["killed"] = time.time_ns()
        end(daemon.process)

    with probe.bound() as s, Daemon(inherited=s) as daemon:
        # Some queries come while there is no program.
        asked = paced(daemon, ONE, rate, count, {count // 2: kill, count // 2 + rate // 20: daemon.start})
        lost, dropped = unanswered(asked), kernel_dropped(s)
        if lost and not dropped:
            same("queries without an answer stand in a row", [*range(lost[0], lost[0] + len(lost))], lost)
            before = (moments["killed"] - asked[lost[0]].after) / SECOND
            after = (asked[lost[-1]].before - moments["killed"]) / SECOND
            if before > SLACK or after > 1 / 20 + SLACK:
                raise Odd(f"the queries from {before:.3f} seconds before the kill to {after:.3f} behind it have no answer")
        daemon.serves()
        daemon.ask("time", ONE)
        stale = lambda: statistics().get("labntp_stale_total", -1)
        until("the stale ones are counted", lambda: stale() >= len(lost) - dropped - 1, WRITES_EACH + WAIT)
        same(f"stale ones where {len(lost)} are lost and {dropped} dropped", True, len(lost) - dropped - stale() in (0, 1))


@pytest.mark.proved_alone(SLOW)
def test_socket_call_that_fails_is_not_tried_again():
    """A socket that was handed down is joined to a port here. What is sent there while nobody is makes its next call fail, and that one
    alone: a call that was tried again would go through."""
    fail_next = lambda: s.send(b"for nobody")
    host, customer, port = OddHost(), probe.Customer(ONE), probe.free_port()
    preloaded = mock.patch.dict(os.environ, **host.words)
    failures = [f"labntp_{it}_failures_total" for it in ("receive", "send")]
    with probe.bound() as s, preloaded, Daemon(inherited=s) as daemon:
        s.connect((customer.address, port))
        fail_next()
        with at_port(customer, port, daemon) as client:
            client.send(probe.query(customer))
            same("an answer behind the receive that failed", True, probe.answer(client) is not None)
            # The reply is held up for half a second before it is sent.
            host.send = SECOND
            client.send(probe.query(customer))
            time.sleep(0.2)
        fail_next()
        with at_port(customer, port, daemon) as client:
            same("an answer that could not be sent", None, probe.answer(client, 1.2))
            host.send = 0
            client.send(probe.query(customer))
            same("an answer behind the send that failed", True, probe.answer(client) is not None)
        counted({it: 1 for it in failures}, failures)


@contextlib.contextmanager
def at_port(customer, port, daemon):
    with probe.bound(port, customer.address) as s:
        s.connect((probe.HOST, daemon.port))
        yield s


SILENT = "unregistered short long field-short field-unaligned field-past-end rest version mode bare muted over-budget".split()


def test_statistics_have_their_names_and_forms():
    names = [answers("time", "basic"), answers("time", "interleaved"), *map(answers, ("rate", "deny", "nak"))]
    names += [answers("silent", it) for it in SILENT]
    names += [f"labntp_{it}_total" for it in ("receive_failures", "send_failures", "stale", "kernel_drops")]
    names += [f"labntp_{it}_total" for it in ("log_lines_dropped", "files_unreadable", "departures_noted", "send_would_wait", "sweeps")]
    names += [f'labntp_file_ok{{file="{it}"}}' for it in ("commands", "answers", "statistics", "customers")]
    names += [f"labntp_{it}" for it in ("receive_buffer_octets", "queue_wait_seconds")]
    names += [f"labntp_commands_{it}" for it in ("lines", "octets", "changed")]
    names += ['labntp_commands_total{answer="done"}', 'labntp_commands_total{answer="faulty"}']
    refused = "already-enrolled key-taken no-memory not-enrolled same-number room-full only-key not-held".split()
    names += [f'labntp_commands_total{{answer="refused",reason="{it}"}}' for it in refused]
    names += ["labntp_customers", "labntp_start_time_seconds"]
    names += [f"labntp_clock_{it}" for it in ("synchronised", "stratum", "leap", "offset_seconds")]
    names += [f"labntp_clock_root_{it}_seconds" for it in ("delay", "dispersion", "distance")]
    names += [f"labntp_clock_{it}_seconds" for it in ("reference_age", "most_reference_age", "most_root_distance")]
    whys = "believed fixed no-answer old unsynchronised reference-old far set".split()
    names += [f'labntp_clock_believed{{why="{it}"}}' for it in whys]
    before = time.time()
    with Daemon(commands="enrol 127.0.0.5 5 md5 6b6579 10\nrevoke 127.0.0.9\nx\n") as daemon:
        until("the first statistics", lambda: statistics())
        seen = statistics()
        same("names that are not there", [], [it for it in names if it not in seen])
        same("build", 1, len([it for it in seen if re.fullmatch(r'labntp_build_info{version="[0-9.]+"}', it)]))
        if not before - 1 <= seen["labntp_start_time_seconds"] <= time.time() + 1:
            raise Odd(f"it started at {seen['labntp_start_time_seconds']}, and it is {before}")
        text = read("statistics")
        for name in {it.partition("{")[0] for it in seen}:
            kind = "counter" if name.endswith("_total") else "gauge"
            same(f"help and type of {name}", (1, 1), (text.count(f"# HELP {name} "), text.count(f"# TYPE {name} {kind}\n")))
        wanted = {f'labntp_commands_total{{answer="{it}"}}': 1 for it in ("faulty", 'refused",reason="not-enrolled')}
        wanted |= dict.fromkeys(('labntp_commands_total{answer="done"}', "labntp_customers"), daemon.line(1))
        counted(wanted, ["labntp_commands_total", "labntp_customers"])
        # It stays open, so that no other file has its number.
        with open(room("statistics")) as first:
            daemon.ask("time", ONE)
            counted({answers("time", "basic"): 1})
            is_first = os.path.samestat(os.fstat(first.fileno()), os.stat(room("statistics")))
            same("another file was renamed into its place", False, is_first)
        alone = ["labntp_departures_noted_total", "labntp_commands_lines", "labntp_receive_buffer_octets"]
        given = int(re.search(r"octets wanted, ([0-9]+) given", read("err"))[1])
        same("departures, lines and buffer", [1, daemon.line(3), given], [int(statistics()[it]) for it in alone])
        same("octets of commands", os.path.getsize(daemon.commands), int(statistics()["labntp_commands_octets"]))
        same("the clock", [float(it == "fixed") for it in whys], [statistics()[f'labntp_clock_believed{{why="{it}"}}'] for it in whys])
        same("the files", {1.0}, {number for name, number in statistics().items() if name.startswith("labntp_file_ok")})
        same("files", [], [it for it in os.listdir(judging.ROOM) if "statistics" in it and it != "statistics"])


def test_statistics_are_taken_by_promtool():
    with Daemon() as daemon:
        daemon.ask("time", ONE)
        counted({answers("time", "basic"): 1})
        promtool("check", "metrics", given=read("statistics"))


def test_statistics_of_how_long_datagrams_wait():
    """The longest that a datagram can have waited of those that were taken in ten seconds, and none where none came."""
    wait = lambda: statistics().get("labntp_queue_wait_seconds", -1)
    with Daemon(longest_wait=5) as daemon, crowd(daemon, 1, CUSTOMERS[:1]) as askers:
        until("the first statistics", lambda: statistics())
        same("at the start", 0, wait())
        begun = time.monotonic()
        with halted(daemon):
            send_all(askers)
            time.sleep(1.0)
        hear_all(askers)
        took = time.monotonic() - begun
        until("the wait in the statistics", lambda: wait() > 0, WRITES_EACH + WAIT)
        # Before the stop it need not have looked at the queue for a tenth of the longest wait.
        assert 1.0 <= wait() < took + 5 / 10 + SLACK / 2, f"a query that was taken {took:.2f} seconds after it was sent: {wait()} seconds"
        until("none, while nobody asks", lambda: wait() == 0, WRITES_EACH + WAIT)


def test_statistics_of_files_that_fail():
    """A file that fails is told once, shown for as long as it does, and counted where it begins to."""
    host, told = OddHost(), lambda: [it for it in read("err").splitlines() if " file " in it]
    tells = lambda name, what: until(f"{what!r} of {name} in the log", lambda: told()[-1:] == [of_file(name, what)], 3)

    def shows(count, *failing):
        wanted = {f'labntp_file_ok{{file="{it}"}}': it not in failing for it in ("commands", *WRITTEN)}
        wanted |= {"labntp_files_unreadable_total": count}
        host.pass_seconds(WRITES_EACH + 1)
        until(f"{wanted} in the statistics", lambda: {it: statistics().get(it) for it in wanted} == wanted, 3)

    with Daemon(on=host) as daemon:
        until("the first statistics, and customers", lambda: statistics() and customers())
        os.mkdir(room("customers.new"))
        daemon.append("budget 127.0.0.1 7")
        tells("customers", f"cannot be written: {IS_FOLDER}")
        shows(1, "customers")
        os.rename(daemon.commands, room("away"))
        tells("commands", f"cannot be read: {NO_FILE}")
        for _ in range(2):
            shows(2, "commands", "customers")
        os.mkdir(room("statistics.new"))
        host.pass_seconds(WRITES_EACH + 1)
        tells("statistics", f"cannot be written: {IS_FOLDER}")
        os.rmdir(room("statistics.new"))
        host.pass_seconds(WRITES_EACH + 1)
        tells("statistics", "is written again")
        os.rename(room("away"), daemon.commands)
        tells("commands", "is read again")
        shows(3, "customers")
        os.rmdir(room("customers.new"))
        host.pass_seconds(WRITES_EACH + 1)
        tells("customers", "is written again")
        os.rename(file_of("new", ""), daemon.commands)
        tells("commands", ANOTHER)
        shows(4, "commands")
        same("how many lines tell of files", 7, len(told()))


def test_statistics_of_an_answers_file_that_takes_nothing():
    """It is told and shown, holds nothing up, and what comes later is written where that goes well. Here a file may have so many octets."""
    most = 1 << 20
    ok = lambda: statistics().get('labntp_file_ok{file="answers"}')
    with Daemon(prepare=lambda: limited_to(most)) as daemon:
        until("the first statistics", lambda: statistics())
        same("the file is well at first", 1, ok())
        daemon.append("revoke 127.0.0.3")
        until("the line has its answer", lambda: daemon.answers() == "1 done\n", 2)
        os.truncate(room("answers"), most)
        daemon.append("revoke 127.0.0.3", "revoke 127.0.0.2")
        daemon.ask("deny", "127.0.0.2")
        daemon.ask("time", ONE)
        told = [of_file("answers", "cannot be written: File too large (os error 27)")]
        until("it is told", lambda: told_of("answers file") == told, 3)
        until("it is shown", lambda: ok() == 0, WRITES_EACH + WAIT)
        os.truncate(room("answers"), 0)
        daemon.append("budget 127.0.0.1 7")
        until("the later line has its answer", lambda: daemon.answers().endswith("4 done\n"), 2)
        time.sleep(1.5)
        same("what is told", told, told_of("answers file"))


def test_statistics_and_customers_that_do_not_fit_leave_nothing():
    """Nothing is left beside them, and their room to the answers. Here a file may have so many octets."""
    with Daemon(enrolled=CROWD, prepare=lambda: limited_to(4096)) as daemon:
        for name in ("statistics", "customers"):
            told = of_file(name, "cannot be written: File too large (os error 27)")
            until(f"{told} in the log", lambda: told in told_of(f"{name} file"), 3)
        same("files beside", [], [it for it in os.listdir(judging.ROOM) if it.endswith(".new")])
        daemon.append("revoke 127.0.1.1")
        until("the line has its answer", lambda: daemon.answers() == "1 done\n", 2)


def customers():
    text = read("customers")
    assert not text or text.endswith("\n"), f"a customers file that was cut off: {text[-80:]!r}"
    lines = [json.loads(line) for line in text.splitlines()]
    same("addresses that stand there once", len(lines), len({it["address"] for it in lines}))
    return {it["address"]: it for it in lines}


def test_customers_file_has_what_each_has_and_was_answered():
    window(10)
    words = ["basic", "interleaved", "rate", "deny", "nak", "short", "long", "field-short", "field-unaligned", "field-past-end", "rest", "version",
             "mode", "bare", "muted", "over-budget"]

    keys = lambda address: [(it["number"], it["algorithm"]) for it in customers().get(address, {"keys": []})["keys"]]
    answered = lambda address: {name: number for name, number in customers()[address]["answers"].items() if number}
    in_time = lambda what, is_so: until(what, lambda: customers() and is_so())
    with Daemon(commands="# a comment\nenrol 127.0.0.5 5 md5 6b6579 10\n") as daemon:
        in_time("the customers", lambda: len(customers()) == len(CUSTOMERS) + 1)
        first = customers()["127.0.0.1"]
        same("the members", ["address", "state", "keys", "budget", "line", "answers"], list(first))
        same("the members of a key", ["number", "algorithm", "octets", "last_signed"], list(first["keys"][0]))
        same("the answers", words, list(first["answers"]))
        seen = first["state"], first["budget"], first["line"], keys("127.0.0.1")
        same("the first customer", ("enrolled", 65535, 1, [(1, "md5")]), seen)
        lengths = {it[0]: [len(it[3]) // 2] for it in [*CUSTOMERS, ("127.0.0.5", 5, "md5", "6b6579")]}
        same("the lengths of keys", lengths, {address: [key["octets"] for key in it["keys"]] for address, it in customers().items()})
        five = customers()["127.0.0.5"]
        seen = five["state"], five["budget"], five["line"], five["keys"][0]["last_signed"]
        same("another one", ("enrolled", 10, daemon.line(2), None), seen)

        before = time.time()
        probe.interleave(daemon.port, FIVE)
        daemon.ask("nak", FIVE, "wrong")
        daemon.ask("deny", "127.0.0.5")
        daemon.ask("time", THREE)
        after = time.time()
        daemon.append("rollover 127.0.0.5 6 sha1 6f6c64")
        in_time("the new key", lambda: keys("127.0.0.5") == [(5, "md5"), (6, "sha1")])
        same("what it was answered", {"basic": 2, "interleaved": 2, "nak": 1, "deny": 1}, answered("127.0.0.5"))
        same("its neighbours", [{}, {}, {"basic": 1}], [answered(f"127.0.0.{it}") for it in (1, 2, 3)])
        signed = customers()["127.0.0.5"]["keys"][0]["last_signed"]
        if not re.fullmatch(r"[0-9]+\.[0-9]{9}", signed) or not before - 0.01 <= float(signed) <= after + 0.01:
            raise Odd(f"it signed between {before} and {after}, and not at {signed}")

        daemon.ask("time", "127.0.0.5/6/sha1/6f6c64")
        daemon.append("budget 127.0.0.5 7")
        in_time("the budget", lambda: customers()["127.0.0.5"]["budget"] == 7)
        old, new = (it["last_signed"] for it in customers()["127.0.0.5"]["keys"])
        same("the old key signed no more, and the new one later", (signed, True), (old, float(new) > float(old)))
        daemon.append("retire 127.0.0.5 5")
        in_time("one key", lambda: keys("127.0.0.5") == [(6, "sha1")])
        same("when it signed", new, customers()["127.0.0.5"]["keys"][0]["last_signed"])
        daemon.append("revoke 127.0.0.5", "revoke 127.0.0.9")
        in_time("the revocation", lambda: customers()["127.0.0.5"]["state"] == "revoked")
        five = customers()["127.0.0.5"]
        seen = five["keys"], five["budget"], five["line"], answered("127.0.0.5")
        same("after it", ([], None, daemon.line(2), {"basic": 3, "interleaved": 2, "nak": 1, "deny": 1}), seen)
        daemon.append("enrol 127.0.0.5 9 md5 6b6579 10", "enrol 127.0.0.9 10 md5 6b6579 10")
        in_time("the new enrolments", lambda: [keys(f"127.0.0.{it}") for it in (5, 9)] == [[(9, "md5")], [(10, "md5")]])
        same("their lines", [daemon.line(8), daemon.line(9)], [customers()[f"127.0.0.{it}"]["line"] for it in (5, 9)])
        same("what the first was answered", {"basic": 3, "interleaved": 2, "nak": 1, "deny": 1}, answered("127.0.0.5"))
        same("keys in it", [], [it for it in ("6b6579", "6f6c64", "6f74686572") if it in read("customers")])
        same("files", [], [it for it in os.listdir(judging.ROOM) if "customers" in it and it != "customers"])


def test_customers_file_comes_each_minute_and_over_the_budget():
    """Without a command, counts are told within a minute; over its budget a customer's silences are told apart."""
    window(10)
    with Daemon() as daemon:
        until("the customers", customers)
        daemon.ask("time", THREE)
        daemon.ask("time", THREE)
        daemon.ask("rate", THREE)
        probe.silence(daemon.port, ONE, "plain", THREE)
        until("what it was answered", lambda: customers()["127.0.0.3"]["answers"]["over-budget"] == 1, 60 + WAIT)
        numbers = customers()["127.0.0.3"]["answers"]
        same("the others", (2, 1), (numbers["basic"], numbers["rate"]))


def test_customers_file_comes_at_once_where_a_tool_asks():
    """It is written within a second where a tool asks by a file beside it, which is removed."""
    with Daemon() as daemon:
        until("the customers", lambda: len(customers()) == len(CUSTOMERS), 3)
        for count in (1, 2):
            daemon.ask("time", ONE)
            file_of("customers.wanted", "")
            until("what was counted", lambda: customers()["127.0.0.1"]["answers"]["basic"] == count, 1 + SLACK)
            same("whether a tool asks still", False, os.path.exists(room("customers.wanted")))


def test_customers_file_that_does_not_get_its_name():
    """A file that was written, but could not take the place of the old one, is tried again ten seconds later."""
    host = OddHost()
    with Daemon(on=host) as daemon:
        until("the customers", customers)
        os.remove(room("customers"))
        os.mkdir(room("customers"))
        daemon.append(f"budget {CUSTOMERS[2][0]} 9")
        wanted = of_file("customers", f"cannot be written: {IS_FOLDER}\n")
        until("it cannot be written", lambda: read("err").endswith(wanted), 5)
        os.rmdir(room("customers"))
        time.sleep(2)
        same("too early", False, os.path.exists(room("customers")))
        pass_seconds(host, 9)
        until("it is written again", lambda: read("err").endswith(of_file("customers", "is written again\n")), 5)
        same("the budget", 9, customers()[CUSTOMERS[2][0]]["budget"])


@pytest.mark.proved_alone(SLOW)
def test_customers_as_many_as_there_may_be():
    """As many as there are numbers of keys, with one key each, and half as many with two: from the start of the program to its
    first answer it takes a second at most, or on a slow host half as long as Python takes to read the file. Pieces come to a whole
    customers file, and no query waits for them."""
    most, at = 65535, lambda it: f"10.{it >> 16}.{it >> 8 & 255}.{it & 255}"
    crowd_of = lambda count: [(at(it), it, "sha1", f"{it:040x}", 10) for it in range(2, count + 1)]
    rolled = "".join(f"rollover {address} {it + most // 2} md5 {it:032x}\n" for address, it, *_ in crowd_of(most // 2))
    for count, lines in ((most, ""), (most // 2, rolled)):
        took = []
        with Daemon(enrolled=[CUSTOMERS[0], *crowd_of(count)], commands=lines) as daemon:
            for _ in range(3):
                end(daemon.process)
                begun = time.monotonic()
                daemon.start()
                daemon.serves()
                daemon.ask("time", ONE)
                took.append(time.monotonic() - begun - scheduled(daemon.process)[1])
            begun = time.monotonic()
            wanted = Model().answers(daemon.head + lines.encode())
            slow = time.monotonic() - begun
            same("answers", wanted, read("answers"))
            told = f"commands: {wanted.count('done')} lines read, {count} customers"
            until(f"{told} in the log", lambda: told in read("err").splitlines(), 1 + SLACK)
            with preferred(daemon):
                asked = paced(daemon, ONE, 1000, 3000, {1000: lambda: daemon.append("budget 10.0.0.2 11")})
            same("queries without an answer", [], unanswered(asked))
            slowest = max(nanos(probe.stamps(it.reply)[1]) - it.before for it in asked)
            until("all of them", lambda: customers().get("10.0.0.2", {}).get("budget") == 11, 60)
            same("how many are in the customers file", count, len(customers()))
            resident, peak = memory(daemon.process)
        print(f"{told}: {min(took):.2f} s to the first answer; {resident} KiB of memory, at most {peak}", flush=True)
        assert min(took) <= max(1, slow / 2), f"{min(took):.2f} seconds to the first answer, and Python reads the file in {slow:.2f}"
        assert slowest <= SECOND / 4, f"a query was taken {slowest / SECOND:.2f} seconds after it was sent"


def field(length, behind):
    """A datagram with one extension field that says this length, and so many octets in all behind the header."""
    return lambda customer: probe.query(customer)[:48] + struct.pack(">HH", 0x0104, length) + bytes(behind - 4)


def form(name):
    return lambda customer: probe.query(customer, name)


# What is sent, and why nothing comes where nothing does.
SENT = {
    **{it: (form(it), "over-budget") for it in ("plain", "version-3", "field-88")},
    "wrong": (form("wrong"), "muted"),
    "no tail": (lambda it: probe.query(it)[:48], "muted"),
    "another number": (lambda it: probe.query(it)[:48] + struct.pack(">I", it.number ^ 512) + bytes(16), "muted"),
    **{it: (form(it), "short") for it in ("short", "empty")},
    "field-1028": (form("field-1028"), "long"),
    "field of 12": (field(12, 40), "field-short"),
    "field of 18": (field(18, 40), "field-unaligned"),
    "field of 400": (field(400, 40), "field-past-end"),
    "rest": (form("rest"), "rest"),
    "version-2": (form("version-2"), "version"),
    "mode-4": (form("mode-4"), "mode"),
    "bare": (form("bare"), "bare"),
}


class Sender:
    """A socket of a customer, a stranger or a revoked one, and what it sent that may have an answer yet. `because` is the reason why
    nothing comes, for what a customer would have none for another reason."""

    def __init__(self, daemon, text, because=lambda reason: reason):
        self.customer, self.because = probe.Customer(text), because
        self.socket = self.customer.socket(daemon.port)
        self.open, self.received = [], 0

    def send(self, name):
        """Sends what has this name, or a query that asks about the last reply, if there was one."""
        make, reason = SENT.get(name, SENT["plain"])
        asks = name == "asks" and self.received
        packet = probe.query(self.customer, "plain", self.received, probe.now()) if asks else make(self.customer)
        self.socket.send(packet)
        self.open.append((packet, self.because(reason)))

    def answers_to(self, reply):
        """What it sent that this reply answers: by the transmit stamp, or the receive stamp."""
        origin = probe.stamps(reply)[0]
        for it in self.open:
            if len(it[0]) >= 48 and origin in probe.stamps(it[0])[1:]:
                return it
        raise Odd(f"an answer to nothing: {reply.hex()}")

    def hear(self):
        """The kinds of the replies that came, and the reasons of what had none."""
        heard = []
        while (reply := probe.answer(self.socket, 0)) is not None:
            asked = self.answers_to(reply)
            self.open.remove(asked)
            word = probe.kind(self.customer, asked[0], reply)
            assert word.isalpha(), f"an answer to {asked[0].hex()}: {word}"
            if word in ("time", "interleaved"):
                self.received = probe.stamps(reply)[1]
            heard.append((word,))
        heard += [("silent", reason) for _, reason in self.open]
        self.open = []
        return heard


def test_statistics_are_sums_of_what_was_sent_and_seen():
    """Signed, unsigned, foreign and broken datagrams in bursts, each closed by a signed query whose reply shows that all were taken."""
    host, seen = OddHost(), collections.Counter()
    names = {("time",): answers("time", "basic"), ("interleaved",): answers("time", "interleaved")}
    revoked = "enrol 127.0.0.4 4 md5 6b6579 10\nrevoke 127.0.0.4\n"
    with Daemon(commands=revoked, on=host) as daemon, contextlib.ExitStack() as stack:
        senders = [Sender(daemon, it) for it in (ONE, ONE, TWO, THREE)]
        muted = {"bare": "muted", "over-budget": "muted"}
        senders.append(Sender(daemon, "127.0.0.4/4/md5/6b6579", lambda reason: muted.get(reason, reason)))
        senders.append(Sender(daemon, "127.0.0.9/1/md5/6b6579", lambda _: "unregistered"))
        for it in senders:
            stack.enter_context(it.socket)

        def written():
            """The counts of answers, in statistics that are written now."""
            last = os.stat(room("statistics")).st_mtime_ns
            pass_seconds(host, WRITES_EACH + 1)
            until("new statistics", lambda: os.stat(room("statistics")).st_mtime_ns > last)
            return collections.Counter({name: int(it) for name, it in statistics().items() if name.startswith("labntp_answers_total")})

        @settings(max_examples=20)
        @given(st.lists(many(st.tuples(st.integers(0, 5), any_of([*SENT, *["asks"] * 6])), 140), max_size=10))
        def are_counted(bursts):
            before, heard = written(), collections.Counter()
            for it in senders:
                it.open, it.received = [], 0
            for burst in bursts:
                for which, name in burst:
                    senders[which].send(name)
                daemon.told(TWO)
                words = [word for it in senders for word in it.hear()]
                same("datagrams of a burst", len(burst), len(words))
                heard.update([*words, ("time",)])
            wanted = {names.get(it) or answers(*it): number for it, number in heard.items()}
            same("what was counted", wanted, dict(written() - before))
            seen.update(heard)

        until("the first statistics", statistics)
        are_counted()
        missing = {("time",), ("interleaved",), ("rate",), ("deny",), ("nak",), *(("silent", it) for it in SILENT)} - set(seen)
        same("kinds that were not tried", set(), missing)
        failures = {name: number for name, number in statistics().items() if "failures" in name or "stale" in name or "drops" in name}
        same("failures", {name: 0 for name in failures}, failures)


def test_statistics_of_failed_sends():
    customer = probe.Customer(ONE)
    try:
        raw = socket.socket(socket.AF_INET, socket.SOCK_RAW, socket.IPPROTO_UDP)
    except PermissionError:
        raise PassedOver("it needs root, to send from the port 0")
    with raw, Daemon() as daemon:
        raw.bind((customer.address, 0))
        packet = probe.query(customer)
        for _ in range(3):
            raw.sendto(struct.pack(">HHHH", 0, daemon.port, 8 + len(packet), 0) + packet, (probe.HOST, 0))
        daemon.ask("time", ONE)
        counted({"labntp_send_failures_total": 3}, [f"labntp_{it}_total" for it in ("send_failures", "send_would_wait", "receive_failures")])


def test_recorded_query_spends_a_budget_until_its_key_is_retired():
    """Whoever records a query spends its customer's budget, by sending it again; once its key is retired, none of it."""
    key = "5f0c9d7ab3e2418673c1aa09"
    owner, host = probe.Customer(THREE), OddHost()
    recorded = probe.query(owner)
    with Daemon(on=host) as daemon, owner.socket(daemon.port) as s:

        def repeated(count):
            for _ in range(count):
                s.send(recorded)
            return [probe.kind(owner, recorded, it) for it in [probe.answer(s, 0.3) for _ in range(count)] if it]

        window(10)
        same("answers to a recorded query", ["time", "time", "rate"], repeated(10))
        same("its customer's own", "silence", probe.silence(daemon.port, ONE, "plain", THREE))
        daemon.append(f"rollover 127.0.0.3 13 sha1 {key}", "retire 127.0.0.3 3")
        pass_seconds(host, WINDOW)
        same("answers to it once its key is retired", ["nak"] * 4, repeated(10))
        # Its stamps are of another window than this host's.
        same("its customer's own", [1, 1], [daemon.told(f"127.0.0.3/13/sha1/{key}").stratum for _ in range(2)])


def memory(process):
    """The resident memory in KiB: by its page tables, and the most that it was."""
    with open(f"/proc/{process.pid}/smaps_rollup") as now, open(f"/proc/{process.pid}/status") as most:
        find = lambda name, it: int(re.search(rf"^{name}:\s+([0-9]+) kB", it.read(), re.M)[1])
        return find("Rss", now), find("VmHWM", most)


@pytest.mark.proved_alone(SLOW)
def test_memory_is_constant_over_half_a_million_queries():
    each, of = 16, CROWD[:16]
    with Daemon(enrolled=CROWD) as daemon, crowd(daemon, each, of) as askers:
        seen = []
        # The first queries are those after which all is in memory that is used.
        for rounds in (20, 500_000 // (each * len(of)) + 1):
            for _ in range(rounds):
                send_all(askers)
                hear_all(askers)
            seen.append(memory(daemon.process))
        grown(*seen)


def test_units_give_it_what_it_needs():
    """What the units of examples/ give the service. How exposed it is, tests/test_package.py judges."""
    with open(f"{TOP}/examples/labntpd.service") as service, open(f"{TOP}/examples/labntpd.socket") as listening:
        lines = [*service.read().splitlines(), *listening.read().splitlines()]
    wanted = ["Nice=-15", "CPUWeight=1000", "OOMScoreAdjust=-500", "LimitCORE=0", "RestartSec=2", "Restart=always"]
    wanted += ["ReceiveBuffer=512K", "SendBuffer=1M"]
    same("lines that are not there", [], [it for it in wanted if it not in lines])


@contextlib.contextmanager
def namespace():
    """The name of a network namespace that is joined to this one: 198.51.100.1 is here, 198.51.100.2 there."""
    judging.needs("ip")
    name, here, there = f"labntpd-{os.getpid()}", f"lab{os.getpid() % 100000}a", f"lab{os.getpid() % 100000}b"

    def ip(words):
        ran = subprocess.run(["ip", *words.split()], capture_output=True, text=True, timeout=WAIT)
        return ran.stderr.strip() if ran.returncode else ""

    lines = [f"netns add {name}", f"link add {here} type veth peer name {there} netns {name}", f"addr add 198.51.100.1/29 dev {here}",
             f"link set {here} up", f"-n {name} addr add 198.51.100.2/29 dev {there}", f"-n {name} link set {there} up"]
    try:
        for words in lines:
            if fault := ip(words):
                raise PassedOver(f"ip {words}: {fault}")
        yield name
    finally:
        ip(f"link del {here}")
        ip(f"netns del {name}")


def test_start_at_0_0_0_0_on_a_host_with_several_addresses():
    os.chmod(file_of("commands", ""), 0o600)
    both, why = ["192.0.2.7", "198.51.100.9"], "listen: replies from 0.0.0.0 leave from any address of this host, as 192.0.2.7 and 198.51.100.9"

    def tells(line, addresses, listen="0.0.0.0:20123", made=()):
        """What a start and --check tell of such a configuration; where a socket is handed down, it is made at the address in `made`."""
        host, words = on_a_host(addresses, 20123, *made), configured(configuration(listen=listen))
        told = [line if made else f"{words[1]}: {line}"] if line else []
        if not made:
            same(f"--check of {listen} at {addresses}", (0, "ok\n", "".join(f"{it}\n" for it in told)), run([*words, "--check"], before=host))
        with open(room("out"), "wb") as out, open(room("err"), "wb") as err:
            process = judging.start([*host[1:], judging.PROGRAM, *words], host[0], stdout=out, stderr=err)
        until("it serves", lambda: read("out").startswith("serving ") or process.poll() is not None)
        end(process)
        same(f"a start at {listen} {made} and {addresses}", told, [it for it in read("err").splitlines() if "listen: " in it])

    tells("", [])
    tells("", both[:1])
    tells(f'{why}: listen = "192.0.2.7:20123" names one', both)
    tells("", both, "192.0.2.7:20123")
    tells(f"{why}: ListenDatagram=192.0.2.7:20123 names one", both, "inherited", ["0.0.0.0"])
    tells("", both[:1], "inherited", ["0.0.0.0"])
    tells("", both, "inherited", ["192.0.2.7"])


def test_namespace_with_chronyd_basic_and_interleaved():
    with namespace() as name, Daemon(enrolled=[("198.51.100.2", 1, "md5", "6b6579", 65535)], host="198.51.100.1") as daemon:
        file_of("chrony.keys", "1 MD5 HEX:6b6579\n")
        for option, mode in (("", "4B"), ("xleave", "4I")):
            lines = [f"server 198.51.100.1 port {daemon.port} key 1 iburst minpoll -4 maxpoll -4 {option}", "cmdport 0"]
            lines += [f"keyfile {room('chrony.keys')}", f"pidfile {room('chrony.pid')}", f"logdir {judging.ROOM}", "log measurements"]
            pathlib.Path(room("measurements.log")).unlink(missing_ok=True)
            words = chronyd("-Q", "-t", "10", "-f", file_of("chrony.conf", "\n".join(lines)))
            ran = subprocess.run(["ip", "netns", "exec", name, *words], stdin=subprocess.DEVNULL, capture_output=True, text=True, timeout=2 * WAIT)
            said = ran.stdout + ran.stderr
            same(f"chronyd {option}: {said[-200:]!r}", (0, True), (ran.returncode, "System clock wrong by" in said))
            same(f"{mode} in the log of chronyd {option}", True, f" {mode} " in read("measurements.log"))
        both = [answers("time", it) for it in ("basic", "interleaved")]
        until("both kinds are counted", lambda: all(statistics().get(it, 0) > 0 for it in both), WRITES_EACH + WAIT)


def pass_seconds(host, seconds):
    """So much time passes at once, as both clocks tell. The daemon then sees an empty queue before another datagram comes: what is in the
    queue while it passes has waited for all of it, as far as the daemon knows."""
    host.pass_seconds(seconds)
    time.sleep(0.5)


def test_clock_of_the_host_is_set():
    """A host's clock that is set by more than most_step makes it unsynchronised; one that is set by less is told as so much more
    dispersion. How much time has passed since the clock's answer is told by the monotonic clock alone."""
    for most in (0.2, 0.8):
        host = OddHost()
        with FakeClock() as clock:
            clock.tell(age=2100)
            keys = {"most_step": most, "valid_for": 60, "most_reference_age": 1_000_000, "most_root_distance": 4.0}
            with Daemon(following(clock.port, **keys), on=host) as daemon:
                daemon.tells("what the clock told", is_grown(clock.state), TOLD_WITHIN)
                clock.is_silent = True
                time.sleep(0.2)
                for part, is_believed in ((0.7, True), (1.3, False), (-0.7, True), (-1.3, False), (0, True)):
                    clock.hurried += 1
                    host.wall = round(part * most * SECOND)
                    is_so = is_grown(clock.state, abs(part * most))
                    same(f"most_step {most}: believed {part * most} seconds ahead", is_believed, is_so(daemon.told()))
                # A little less than valid_for, and then more than it, by both clocks.
                for seconds, is_believed in ((50, True), (12, False)):
                    clock.hurried += 1
                    pass_seconds(host, seconds)
                    same(f"most_step {most}: believed {seconds} seconds later", is_believed, is_grown(clock.state)(daemon.told()))


def test_clock_set_and_the_program_held_up():
    """So much more dispersion is told also where the program is held up between the readings of the two clocks for a datagram."""
    host, step = OddHost(), SECOND * 3 // 10
    with FakeClock() as clock, Daemon(following(clock.port), on=host) as daemon:
        clock.tell(age=100)
        daemon.tells("what the clock told", is_grown(clock.state), TOLD_WITHIN)
        for sign in (1, -1):
            host.wall = sign * step
            clock.offset, clock.hurried = host.wall / SECOND, clock.hurried + 1
            # A hold of less than a thousandth of a second is not seen by itself.
            for host.hold in (0, SECOND * 9 // 10_000, SECOND // 10, step, 2 * step):
                for _ in range(5):
                    state = daemon.told()
                    # The two readings that are compared take a little, and by half of what the exchange took the offset may be off.
                    longer = state.delay - clock.state.delay
                    if is_synchronised(state) and state.dispersion + longer / 2 < short(0.3 + 0.004 - 0.0005):
                        raise Odd(f"set by {host.wall / SECOND} seconds, held up for {host.hold / SECOND}: {state}")
            host.wall, host.hold = 0, 0
            clock.offset, clock.hurried = 0.0, clock.hurried + 1
            daemon.tells("what the clock told", is_grown(clock.state), TOLD_WITHIN)


def test_departures_are_the_middle_of_the_send():
    """An interleaved reply tells the middle between the readings of the clock before and behind the send, which takes long here."""
    host, customer, spans = OddHost(), probe.Customer(ONE), []
    with Daemon(on=host) as daemon, customer.socket(daemon.port) as s:
        host.send = SECOND // 20
        receive, arrival = 0, 0
        for _ in range(8):
            word, reply, arrival = probe.exchange(customer, s, "plain", receive, arrival)
            same("the answer", "interleaved" if receive else "time", word)
            if receive:
                spans.append((nanos(probe.stamps(reply)[2]) - nanos(receive)) / host.send)
            receive = probe.stamps(reply)[1]
        if not 0.49 < min(spans) < 0.75:
            raise Odd(f"departures, by the {host.send / SECOND} seconds that a send takes: {' '.join(f'{it:.2f}' for it in spans)}")


# Fewer than the kernel drops where it allows the least of buffers.
HEAP, HEAP_EACH = CROWD[:20], 20


def late_in_a_heap(on=None):
    """Queries that come at once, and then wait for longer than they may: none of them has an answer, and one that comes later has."""
    with Daemon(enrolled=CROWD, longest_wait=LONGEST_WAIT, on=on) as daemon, crowd(daemon, HEAP_EACH, HEAP) as askers:
        if on:
            on.polls = 1
        with halted(daemon):
            send_all(askers)
            time.sleep(LONGEST_WAIT + 0.2)
        late = Asker(daemon, "/".join(map(str, CROWD[-1][:4])), 10)
        with late.socket:
            # As far as the daemon knows it is late too while the others are being dropped.
            for asked, query in enumerate(late.queries, 1):
                late.socket.send(query)
                if probe.answer(late.socket, 2 * SLACK):
                    break
        answered = sum(bool(probe.answer(it.socket, 0)) for it in askers)
        same("customers that have an answer to a query that waited for too long", 0, answered)
        counted({answers("time", "basic"): 1, "labntp_stale_total": HEAP_EACH * len(HEAP) + asked - 1}, TAKEN)


def test_late_datagrams_in_a_heap_are_dropped():
    late_in_a_heap()


def test_late_and_a_poll_that_fails_is_no_empty_queue():
    """Where it cannot be seen whether the queue is empty, it is not taken for empty."""
    late_in_a_heap(OddHost())


def test_late_and_a_list_without_the_socket_is_no_empty_queue():
    """Where the kernel's list cannot be read, or lacks the socket, the queue is not taken for empty."""
    for path in ("/proc/net/none", "/proc/net/udplite"):
        with mock.patch.dict(os.environ, **in_front(OTHER_LIST % path)):
            late_in_a_heap()


def test_commands_are_carried_out_at_once_while_queries_come():
    """A query comes 1.2 thousandths of a second after the one before it, by the host's clocks, which stand still here but for that."""
    host = OddHost()
    with Daemon(on=host) as daemon, crowd(daemon, 200, CUSTOMERS[:1]) as (asker,):
        moment = time.time_ns()
        for number, query in enumerate(asker.queries):
            moment += SECOND * 12 // 10_000
            host.monotonic += SECOND * 12 // 10_000
            host.shown = moment - 1000 * host.readings
            asker.socket.send(query)
            asker.hears(query)
            same("answers to lines", "".join(f"{it} done\n" for it in range(1, number + 1)), daemon.answers())
            daemon.append_octets(b"budget 127.0.0.2 65535\n")


def test_log_has_its_first_lines():
    with Daemon(receive_buffer=70_000, commands="# one\nrevoke 127.0.0.3\nrevoke 127.0.0.3\n") as daemon:
        digest = hashlib.sha256(read("labntpd.toml").encode()).hexdigest()
        wanted = [f"labntpd 0.2.0: at 127.0.0.1:{daemon.port}, configuration {digest}"]
        wanted += ["receive buffer: 70000 octets wanted, 140000 given, as the kernel counts"]
        wanted += ["commands: line 6: revoke 127.0.0.3: refused not-enrolled", "commands: 6 lines read, 2 customers"]
        until(f"{wanted}", lambda: read("err").splitlines()[:4] == wanted, 1 + SLACK)


def told_of(name):
    """The lines of the log that begin so, or so and with a path."""
    return [it for it in read("err").splitlines() if re.match(rf"{re.escape(name)}( /[^:]*)?: ", it)]


def test_log_tells_of_the_clock_and_late_datagrams():
    follows = "clock: synchronised, stratum 3, reference 0a0b0c0d: believed"
    wanted = ["clock: not synchronised: no-answer", follows, "clock: not synchronised: unsynchronised", follows]
    clock = FakeClock()
    clock.is_silent = True
    # A stop may hold up an exchange with the clock, whose root distance is to be believed even so.
    followed = following(clock.port, most_root_distance=8.0)
    with clock, Daemon(followed, enrolled=CROWD, longest_wait=LONGEST_WAIT) as daemon, crowd(daemon, 2, CROWD[:20]) as askers:
        for number, keys in enumerate(({}, {}, {"leap": 3, "stratum": 0}, {})):
            clock.tell(**keys)
            clock.is_silent = number == 0
            until(f"{wanted[: number + 1]} in the log", lambda: told_of("clock")[number:], TOLD_WITHIN)
            same("lines on the clock", wanted[: number + 1], told_of("clock"))
        for number in (1, 2):
            # Where it was stopped between two readings of its clocks, it may ask anew at once.
            clock.hurried += 1
            with halted(daemon):
                send_all(askers)
                time.sleep(LONGEST_WAIT + 0.2)
            until("late datagrams in the log", lambda: sum(int(it.split()[1]) for it in told_of("stale")) >= 40 * number, 1 + 2 * SLACK)
            same("late datagrams in the log", 40 * number, sum(int(it.split()[1]) for it in told_of("stale")))
        same("lines on the clock", wanted, told_of("clock"))
    with Daemon():
        until("the fixed clock in the log", lambda: told_of("clock") == ["clock: synchronised, stratum 1, reference 4e495354: fixed"], 1 + 2 * SLACK)


def test_log_tells_the_totals_of_an_hour():
    host, budgets = OddHost(), [("127.0.1.1", 1, "md5", "6b6579", 3), ("127.0.1.2", 2, "md5", "6b6579", 1), *CROWD[2:22]]
    with Daemon(enrolled=budgets, longest_wait=LONGEST_WAIT, receive_buffer=65536, on=host) as daemon, crowd(daemon, 50, CROWD[2:22]) as askers:
        with halted(daemon):
            send_all(askers)
            time.sleep(LONGEST_WAIT + 0.2)
        until("the queue is swept", daemon.has_swept)
        window(5)
        first, second, third = ("/".join(map(str, it[:4])) for it in budgets[:3])
        same("queries of the first", "time 3 rate 1", probe.queries(daemon.port, 4, "basic", first))
        same("queries of the second", "time 1 rate 1", probe.queries(daemon.port, 2, "basic", second))
        same("queries of the third", "time 1 interleaved 4", probe.queries(daemon.port, 5, "interleaved", third))
        host.pass_seconds(WRITES_EACH + 1)
        counts = lambda: [statistics().get(it, 0) for it in TAKEN[1:]]
        until("late ones and those that the kernel dropped in the statistics", lambda: sum(counts()) == 1000)
        stale, dropped = map(int, counts())
        same("all four numbers differ", 4, len({9, 2, stale, dropped}))
        for hour in (1, 2):
            host.pass_seconds(3600)
            until("the totals in the log", lambda: len(told_of(f"totals of {hour} hours")) == 1)
            same("totals", [f"totals of {hour} hours: time 9, rate 2, stale {stale}, dropped by the kernel {dropped}"], told_of(f"totals of {hour} hours"))
        for _ in range(20):
            host.pass_seconds(WRITES_EACH + 1)
            time.sleep(0.15)


def test_log_tells_no_key():
    """Keys of lines that are done, refused and faulty, and of the clock: see `tells_no_key`. Nor do replies tell one."""
    texts = [f"{number:02x}" * 3 + "9e3779b97f4a7c15f39cc0605cedc834"[: 26 - number] for number in range(0, 20, 2)]
    first, second, third, *more = texts
    lines = [f"enrol 127.0.0.5 5 md5 {first} 65535", f"rollover 127.0.0.5 6 sha1 {second}", f"rollover 127.0.0.5 7 sha1 {third}"]
    lines += [f"enrol 127.0.0.5 8 md5 {more[0]} 9", f"enrol 127.0.0.6 5 md5 {more[1]} 9", f"rollover 127.0.0.8 8 md5 {more[2]}"]
    lines += [f"enrol 127.0.0.300 8 md5 {more[3]} 9", f"enrol 127.0.0.6 8 md5 {more[4]} 65536", f"rollover 127.0.0.5 70000 md5 {more[5]}"]
    with FakeClock() as clock, Daemon(following(clock.port)) as daemon:
        daemon.tells("what the clock told", is_grown(clock.state), TOLD_WITHIN)
        daemon.append(*lines)
        same("keys that are looked for", [], [it for it in (*texts[:9], CLOCK_KEY) if bytes.fromhex(it) not in keys()])
        for customer in (ONE, TWO, f"127.0.0.5/5/md5/{first}", f"127.0.0.5/6/sha1/{second}"):
            for form in ("plain", "wrong", "rest", "field-88"):
                customer_of_it = probe.Customer(customer)
                with customer_of_it.socket(daemon.port) as s:
                    s.send(probe.query(customer_of_it, form))
                    tells_no_key({"a reply": probe.answer(s, 0.2) or b""})
        spoilt = f"enrol 127.0.0.6 8 md5 {more[6]} ".encode()
        daemon.append_octets(spoilt + b"\xff\n" + spoilt.ljust(5000) + b"\n")
        until("all have their answers", lambda: daemon.answers().count("\n") == len(lines) + 2, 2)
        os.rename(file_of("new", read("commands")), daemon.commands)
        until("another file", lambda: told_of("commands file"), 3)


def test_rest_takes_hardly_any_of_a_processor():
    with FakeClock() as clock, Daemon(following(clock.port)) as daemon:
        daemon.tells("what the clock told", is_grown(clock.state), TOLD_WITHIN)
        taken = share_of_a_processor(daemon.process, 6)
        assert taken < 0.02, f"it takes {taken:.1%} of a processor"


def test_rest_there_is_none_with_spin_and_all_is_done_in_time():
    """With `spin` it has a processor or is ready for one all the time, and does what is due at the same paces."""
    with FakeClock() as clock, Daemon(following(clock.port), longest_wait=LONGEST_WAIT, spin=True) as daemon:
        daemon.tells("what the clock told", is_grown(clock.state), TOLD_WITHIN)
        before, begun = sum(scheduled(daemon.process)), time.monotonic()
        daemon.append("enrol 127.0.0.5 5 md5 6b6579 65535")
        until("the line has its answer", lambda: daemon.answers() == "1 done\n", 1)
        written = os.path.getmtime(room("statistics"))
        until("new statistics", lambda: os.path.getmtime(room("statistics")) > written, WRITES_EACH + SLACK)
        share = (sum(scheduled(daemon.process)) - before) / (time.monotonic() - begun)
        assert share >= 0.9, f"it has a processor or is ready for one only for {share:.1%} of the time"
        daemon.ask("time", FIVE)
        customer = probe.Customer(ONE)
        with customer.socket(daemon.port) as client:
            with halted(daemon):
                client.send(probe.query(customer))
                time.sleep(LONGEST_WAIT + 0.2)
            same("an answer to a query that waited for too long", None, probe.answer(client, SLACK))
        daemon.ask("time", ONE)
        clock.is_silent = True
        time.sleep(2 * ASKS_EACH)
        daemon.ask("time", TWO)


@pytest.mark.proved_alone(SLOW)
def test_many_turns_leave_the_customers():
    stranger, customer, count = probe.Customer("127.0.0.9"), probe.Customer(ONE), 2_500_000

    def hear(packet, last):
        """The reply to this query, which asks about the last one: its receive stamp, and when it came."""
        reply = probe.answer(client)
        same(f"behind {sent} datagrams", "interleaved" if any(last) else "time", reply and probe.kind(customer, packet, reply))
        return probe.stamps(reply)[1], probe.now()

    # A heap has to find room in the queue.
    with Daemon(receive_buffer=8388608) as daemon, stranger.socket(daemon.port) as s, customer.socket(daemon.port) as client:
        heap = min(2000, int(receive_buffer_allowed() / truesize() / 3))
        last, packet, sent, before = (0, 0), None, 0, None
        while sent < count:
            # One heap is sent while the one before is taken.
            for _ in range(heap):
                s.send(b".")
            sent += heap
            last = hear(packet, last) if packet else last
            packet = probe.query(customer, "plain", *last)
            client.send(packet)
            if sent > count // 10 and before is None:
                before = memory(daemon.process)
        hear(packet, last)
        grown(before, memory(daemon.process))
        counted({answers("silent", "unregistered"): sent, answers("time", "basic"): 1, answers("time", "interleaved"): sent // heap - 1}, TAKEN)


def grown(before, after):
    """Memory that was measured twice has not grown, but for a little."""
    if any(late > early + 64 for early, late in zip(before, after)):
        raise Odd(f"resident memory, and the most of it, grew from {before} to {after} KiB")


# What is drawn of one to four datagrams: their form, and by numbers of which customer they are, and which of several that the form leaves
# open. Most are signed by the newest key, and many ask about a reply.
FORMS = [*["plain"] * 37, *["asks"] * 50, *["older key"] * 7, *["field"] * 2, *["version or mode"] * 2, "broken", "wrong digest"]
Drawn = collections.namedtuple("Drawn", "form address which")


class Judged:
    """A daemon beside the model, on a host whose clock stands still but for a microsecond with each reading. Each answer to datagrams of
    many customers and to lines of commands is to be the model's."""

    # The last one is never enrolled, and the one before it is revoked at first.
    ADDRESSES = [f"127.0.1.{number}" for number in range(1, 25)]
    CUSTOMERS = [(it, number, ("md5", "sha1")[number % 2], f"{number:02x}" * 12, 150) for number, it in enumerate(ADDRESSES[:-1], 2)]
    # Lines, windows to go on by, and datagrams of a batch. A word in the place of a number stands for a key that the customer has.
    OTHERS = ["", "# a remark", "enroll", *(f"retire 127.0.1.{number} OLDER" for number in range(1, 24))]
    LINES = commands(ADDRESSES[:-1], range(2, 64), [1, 40, 150, 400, 65535], OTHERS)
    WINDOWS = any_of([*[0] * 18, 1, 1, 1, 2, -1, -2])
    DATAGRAMS = any_of([Drawn(*it) for it in itertools.product(FORMS, range(len(ADDRESSES)), range(32))])

    def __init__(self, host, daemon):
        self.host, self.daemon, self.model = host, daemon, Model()
        self.lines, self.answers, self.seen = daemon.line(0), open(room("answers")), collections.Counter()
        self.reference, self.transmit = bytes.fromhex(REFERENCE), 0
        # So that the readings of a batch lie in one window.
        self.moment = (time.time_ns() // SECOND // WINDOW * WINDOW + 1) * SECOND
        self.sockets = {it: probe.Customer(it).socket(daemon.port) for it in self.ADDRESSES}
        for it in self.sockets.values():
            it.setsockopt(socket.SOL_SOCKET, socket.SO_RCVBUF, 1 << 20)
            it.settimeout(WAIT)
        self.marker = Asker(daemon, ONE, 1)
        # What was enrolled at each address lately, and the stamps of its replies that may be asked about.
        self.keys, self.stamps = ({it: [] for it in self.ADDRESSES} for _ in range(2))
        for line in daemon.head.decode().splitlines():
            self.order(line)
        until("the customers are enrolled", lambda: read("answers").count("done") == self.lines)

    def close(self):
        for it in (*self.sockets.values(), self.marker.socket, self.answers):
            it.close()

    def begin(self):
        """Has all as it was at first, in another window, whatever was left of what failed."""
        self.marker.socket.send(self.marker.queries[0])
        self.marker.hears(self.marker.queries[0])
        for it in (*self.sockets.values(), self.marker.socket):
            while probe.answer(it, 0):
                pass
        self.seen[answers("time", "basic")] += 1
        self.answers.read()
        there = {address: (it.keys, it.budget) for address, it in self.model.enrolments.items() if it}
        enrolled = self.CUSTOMERS[:-1]
        wanted = {it: ({number: (algorithm, bytes.fromhex(key))}, budget) for it, number, algorithm, key, budget in enrolled}
        self.keys |= {it: [(number, *key) for number, key in keys.items()] for it, (keys, _) in wanted.items()}
        self.stamps = {it: [] for it in self.ADDRESSES}
        lines = [f"revoke {it}" for it in self.ADDRESSES if it in there and there[it] != wanted.get(it)]
        lines += enrolments(it for it in enrolled if there.get(it[0]) != wanted[it[0]]).splitlines()
        self.batch(lines, 3, [])

    def order(self, line):
        """The model's answer to a line. The key of one that is done is kept."""
        words, answer = line.split(" "), self.model.line(line)
        if words[0] in ("enrol", "rollover") and words[1] in self.keys and answer == "done":
            self.keys[words[1]] = [*self.keys[words[1]][-2:], (int(words[2]), words[3], bytes.fromhex(words[4]))]
        return answer

    def command(self, lines):
        """Writes lines, which are in force for the next datagram, since its receipt is more than a thousandth of a second later. Gives the
        answers that are due."""
        due, written = [], []
        for line in lines:
            if "OLDER" in line:
                line = line.replace("OLDER", str((self.keys[line.split()[1]] or [(7,)])[-2:][0][0]))
            written.append(f"{line}\n")
            self.lines += 1
            if answer := self.order(line):
                due.append(f"{self.lines} {answer}\n")
        self.daemon.append_octets("".join(written).encode())
        return "".join(due)

    def datagram(self, form, address, which):
        self.transmit += 1
        first, origin, receive = (0x23, 0x1B)[which % 2], 0, 0
        if self.stamps[address] and form in ("asks", "older key", "field"):
            origin, receive = self.stamps[address][-8:][which % 8 - 8 :][0], (0, 1, 2, self.transmit)[which // 8 % 4]
        if form == "version or mode":
            first = (0x13, 0x2B, 0x24, 0x20)[which % 4]
        packet = struct.pack(">BxB21xQQQ", first, which % 18, origin, receive, self.transmit)
        if form == "field":
            packet += struct.pack(">HH", 260, (40, 16, 20, 40, 40, 12, 18, 400)[which % 8]) + bytes(36)
        if form == "broken":
            return (packet[:47], packet, packet[:48] + bytes(4), packet[:48] + bytes(16), packet.ljust(1028, b"\0"), b"")[which % 6]
        number, algorithm, key = (self.keys[address] or [(7, "md5", b"no key")])[0 if form == "older key" else -1]
        digest = hashlib.new(algorithm, key + packet).digest()
        if form == "wrong digest":
            digest = digest[:-1] + bytes([digest[-1] ^ 1])
        return packet + struct.pack(">I", number) + digest

    def set_clock(self, windows):
        """The clock goes on by a tenth of a second, and by so many windows, which may be less than none. Gives the window."""
        self.moment += SECOND // 10 + windows * WINDOW * SECOND
        if self.moment // SECOND % WINDOW > WINDOW - 3:
            # So that all readings of a batch lie in one window.
            self.moment += 4 * SECOND
        self.host.shown = self.moment - 1000 * self.host.readings
        return (self.moment // SECOND + probe.SINCE_1900) // WINDOW

    def batch(self, lines, windows, datagrams):
        due_lines = self.command(lines)
        window = self.set_clock(windows)
        due = [*filter(None, (self.send(it, more, window) for it in datagrams for more in range(1 + it.which // 8)))]
        self.marker.socket.send(self.marker.queries[0])
        for address, answer in due:
            self.hear(address, answer, window)
        # With its answer all that was sent before it has been taken.
        self.marker.hears(self.marker.queries[0])
        self.seen[answers("time", "basic")] += 1
        same(f"{self.progress()}: answers to lines", due_lines, self.answers.read())

    def send(self, drawn, more, window):
        """Sends a datagram. The address and the answer that is due, if one is."""
        address = self.ADDRESSES[drawn.address]
        octets = self.datagram(drawn.form, address, drawn.which + more)
        answer = self.model.datagram(address, octets, window)
        self.sockets[address].send(octets)
        if answer.word != "silent":
            return address, answer
        self.seen[answers("silent", answer.request)] += 1
        return None

    def hear(self, address, answer, window):
        """The next reply to this address is this answer."""
        try:
            fault = answer.fault(self.sockets[address].recv(2048), self.reference, window)
        except TimeoutError:
            fault = f"none within {WAIT} seconds"
        assert not fault, f"{self.progress()}: {answer.word} is due to {answer.request.hex()} of {address}: {fault}"
        self.seen[self.counted_as(address, answer)] += 1

    def counted_as(self, address, answer):
        """The name of its count."""
        if not answer.exchange:
            return answers(answer.word)
        self.stamps[address] = [*self.stamps[address][-9:], answer.exchange.receive]
        return answers("time", answer.word)

    def progress(self):
        return f"behind {sum(self.seen.values())} datagrams and {self.lines} lines"


def enrolled():
    return {it["address"]: (it["line"], it["budget"], [key["number"] for key in it["keys"]]) for it in customers().values()}


@pytest.mark.proved_alone(SLOW)
def test_many_answers_are_each_the_models():
    """Commands come between, and the clock is set; the memory is as before, and a start leaves the customers as they were."""
    host, count = OddHost(), MANY_QUERIES if judging.IS_LONG else QUERIES
    with Daemon(enrolled=[*Judged.CUSTOMERS, CUSTOMERS[0]], on=host) as daemon:
        size, before = min(250, int(receive_buffer_allowed() / truesize() / 2)), []
        lines, datagrams = st.lists(Judged.LINES, max_size=8), many(Judged.DATAGRAMS, size // 4)
        with contextlib.closing(Judged(host, daemon)) as judged:
            @settings(max_examples=count * 7 // 4 // size)
            @given(st.lists(st.tuples(lines, Judged.WINDOWS, datagrams), max_size=16))
            def are_the_models(batches):
                judged.begin()
                for it in batches:
                    judged.batch(*it)
                if not before and sum(judged.seen.values()) > count // 5:
                    before.append(memory(daemon.process))

            are_the_models()
            for it in judged.sockets.values():
                same("an answer that is not due", None, probe.answer(it, 0))
            assert sum(judged.seen.values()) >= count, f"{judged.progress()} it is at its end"
            grown(before[0], memory(daemon.process))
            counted(judged.seen)
        history = read("answers"), enrolled()
        daemon.again()
        until("what a start leaves is what the history left", lambda: (read("answers"), enrolled()) == history)
        kinds = [answers("time", "basic"), answers("time", "interleaved"), *map(answers, ("rate", "deny", "nak"))]
        kinds += [answers("silent", it) for it in SILENT]
        same("kinds that were not tried", [], [it for it in kinds if not judged.seen[it]])
