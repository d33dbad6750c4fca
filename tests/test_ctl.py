"""Judges the built program labntpctl from outside: what it writes into files, what it prints, and its exit status.

No key is shown, in any run: it stands in the commands file and in the customer's file alone. Some cases are made beside a labntpd of their
own; what a customer gets is read by labntp-query and chronyd, where they are there, and rules for the door by nft: tests/test_door.py
judges what they let pass. `--long` draws a thousand sequences of changes, and ten thousand histories for files of customers.
"""
import calendar
import concurrent.futures
import contextlib
import fcntl
import hashlib
import json
import os
import pathlib
import re
import select
import shutil
import signal
import socket
import struct
import subprocess
import threading
import time
import tomllib

import pytest
from hypothesis import given, settings, strategies as st

import judging
import labntpd_server
import model
import odd_host
import own_network
import peers
import probe
from drawn import any_of, histories, many
from judging import SLOW, PassedOver, enrolments, file_of, limited_to, outputs_that_take_nothing, register_of, same, until
from labntpctl_runs import CLERK, CUSTOMERS, ENROL, FILE_LIMIT, KEY, RECORD, all_done, append_text, appended, as_told, begun, configured, customers_by, customers_now, enrolled, fresh, killed_at
from labntpctl_runs import lines_in, names_by, next_line, patient, read, room, run, served, serving, shows_no_key, told, wanted_text, without
from own_network import on_a_host
from texts import text_of

# How many sequences of changes and how many histories are drawn, and how many with --long.
SEQUENCES, HISTORIES, LONG_SEQUENCES, LONG_HISTORIES = 20, 90, 1_000, 10_000
(QUERY,) = judging.built("labntp_query")
# Two customers more, and the line of the command that is appended first behind those of the customers and its record.
FIVE, SIX = ("192.0.2.5", 5, "sha1", f"{KEY[5:]}{KEY[:5]}", 10), ("192.0.2.6", 6, "md5", f"{KEY[6:]}{KEY[:6]}", 12)
FIRST = len(CUSTOMERS) + 2
MEMBERS = ["address", "state", "keys", "budget", "line", "answers"]


def test_words_for_help_and_version():
    status, out, err = run(["--help"])
    same("help", (0, ""), (status, err))
    for word in ("customers", "door", "check", "explain", "apply", "export", "fold", "enrol", "revoke", "budget", "rollover", "retire", "move", "Examples:", "Exit status:"):
        same(f"{word} in the help", True, word in out)
    for name, words in {"customers": ["--config", "--json", "--compare", "[ADDRESS|COMMANDS]"], "enrol": ["--budget", "--algorithm", "--text-key", "--key-file", "--number", "--name", "--output", "--server", "--dry-run", "--wait"], "move": ["<ADDRESS>", "<NEW>", "--wait"],
                        "apply": ["<FILE>", "--yes", "--end-many", "--dry-run", "--wait", "--answers"], "export": ["[FILE]", "--no-keys"], "check": ["[COMMANDS]", "--wanted"], "fold": ["--dry-run"],
                        "door": ["--config", "--address", "--rate"], "budget": ["<N>"], "retire": ["--number", "--yes"], "rollover": ["--algorithm", "--output"], "revoke": ["<ADDRESS>"]}.items():
        _, out, _ = run([name, "--help"], 0)
        for word in words:
            same(f"{word} in the help of {name}", True, word in out)
    version = re.search(r'VERSION: &str = "(.*)"', text_of("crates/labntpd_files/src/command_line.rt"))[1]
    same("version", (0, f"labntpctl {version}\n", ""), run(["--version"]))


def test_words_that_are_others_are_refused():
    config = configured()
    file, before = room("commands"), read("commands")
    wrong = [[], ["nothing"], ["help"], ["recover", *config], ["enrol", *config], ["enrol"], ["customers", *config, file], ["customers", file, "a"], ["customers", "--compare", file], ["customers", "--compare", "--json", *config]]
    wrong += [["check", *config, file], ["apply", *config], ["apply", "a", "b", *config], ["apply", "a", "--wait", "61", *config], ["export", *config], ["export", "a", "b", *config], ["fold", "x", *config], ["fold", *config, "--output", "x"]]
    wrong += [["enrol", "192.0.2.9", "--name", it, *config] for it in ("", "a\nb", "\x7f", "é" * 100 + "x")]
    wrong += [["enrol", it, *config] for it in ("localhost", "192.0.2.300", "192.0.2.9:123", "", "::1", "192.0.2.09")]
    wrong += [["enrol", "192.0.2.9", *config, *it] for it in (["--budget", "0"], ["--budget", "65536"], ["--budget", "x"], ["--algorithm", "sha256"], ["--server", "x"], ["--wait", "61"], ["--wait", "-1"], ["--wait", "nan"])]
    wrong += [["enrol", "192.0.2.9", "--key-file", "x", *it, *config] for it in (["--text-key"], ["--algorithm", "md5"], ["--number", "0"])]
    wrong += [["enrol", "192.0.2.9", "--number", "3", *config], ["move", "192.0.2.1", *config], ["move", "192.0.2.1", "x", *config], ["customers", "192.0.2.1", "--compare", *config]]
    wrong += [["budget", "192.0.2.1", *config], ["budget", "192.0.2.1", "0", *config], ["retire", "192.0.2.1", *config, "--number", "0"], ["revoke", "192.0.2.1", *config, "--output", "x"]]
    for words in wrong:
        status, out, err = run(words)
        same(" ".join(words), (2, "", True), (status, out, bool(err)))
    same("a word that is no text", (2, "", "usage\n"), run(["customers", b"\xff"]))
    if not os.path.exists("/etc/labntp/labntpd.toml"):
        for words in (["customers"], ["check"], ["door"], ["fold"], ["enrol", "192.0.2.9"], ["export", "--no-keys"], ["apply", "x"]):
            same(f"{words[0]} without a configuration", True, "/etc/labntp/labntpd.toml: No such file" in "".join(run(words)[1:]))
    same("nothing was written", before, read("commands"))


def test_words_and_writes_that_fail():
    config = configured()
    # No file takes the place of a stream that is closed.
    for descriptor in (1, 2):
        for words in (["revoke", "192.0.2.1", *config], ["revoke", "192.0.2.99", *config], ["customers", *config]):
            same(f"{words[:2]} without {descriptor}", 3, run(words, preexec_fn=lambda: os.close(descriptor))[0])
    same("nothing was written", enrolments(CUSTOMERS), read("commands"))
    empty = file_of("wanted.toml", "")
    for words in (["customers", *config], ["customers", "--json", *config], ["revoke", "192.0.2.1", "--dry-run", *config], ["export", "--no-keys", *config], ["apply", empty, "--dry-run", *config], ["door", *config]):
        with open("/dev/full", "wb") as full:
            same(" ".join(words), (3, "write\n"), run(words, stdout=full)[::2])
    for word in ("--help", "--version"):
        outputs_that_take_nothing([word])


def test_customers_by_the_files_alone():
    lines = ["# a comment", "", f"enrol 192.0.2.3 2 sha1 {KEY} 7", "revoke 192.0.2.1", f"rollover 192.0.2.2 9 sha1 {KEY}", "budget 192.0.2.2 11", "nonsense", "retire 127.0.0.1 4",
             "# name 192.0.2.3 A", '# name 192.0.2.3 PTB, "77"', "# name 192.0.2.2 B", "# name 192.0.2.2 ", "# name 192.0.2.99 nobody"]
    config = configured(commands="".join(f"{it}\n" for it in lines) + "revoke 192.0.2.2")
    wanted = [("192.0.2.1", "revoked", [], None, 1), ("192.0.2.2", "enrolled", [(3, "md5", 3), (9, "sha1", 20)], 11, 2),
              ("127.0.0.1", "enrolled", [(4, "sha1", 20)], 65535, 3), ("192.0.2.3", "enrolled", [(2, "sha1", 20)], 7, 6)]
    for words in (config, [room("commands")]):
        found = [json.loads(it) for it in run(["customers", "--json", *words], 0)[1].splitlines()]
        same("members", [MEMBERS, [*MEMBERS, "name"]] * 2, [[*it] for it in found])
        seen = [(it["address"], it["state"], [(key["number"], key["algorithm"], key["octets"]) for key in it["keys"]], it["budget"], it["line"]) for it in found]
        same("customers", (wanted, "B", 'PTB, "77"'), (seen, found[1]["name"], found[3]["name"]))
        same("nothing is known of answers", {0}, {count for it in found for count in it["answers"].values()})
        same("nor of last uses", {None}, {key["last_signed"] for it in found for key in it["keys"]})
    table = [it.split() for it in run(["customers", *config], 0)[1].splitlines()]
    same("the table's heads", ["ADDRESS", "STATE", "BUDGET", "LINE", "NUMBER", "KEY"], table[0][:6])
    same("its rows", [["192.0.2.1", "revoked", "-", "1", "-", "-", "-"], ["192.0.2.2", "enrolled", "11", "2", "3", "md5", "3"], ["9", "sha1", "20", "-"],
                      ["127.0.0.1", "enrolled", "65535", "3", "4", "sha1", "20"], ["192.0.2.3", "enrolled", "7", "6", "2", "sha1", "20"]], [it[:7] for it in table[1:]])
    same("names", ("NAME", ["0", "PTB,", '"77"'], ["0", "B"], ["0", "0"]), (table[0][-1], table[5][-3:], table[2][-2:], table[4][-2:]))


def test_customers_by_files_with_a_fault():
    config = configured()
    same("no configuration", (3, "", f"{room('x')}: No such file or directory (os error 2)\n"), run(["customers", "--config", room("x")]))
    file_of("old.toml", f'register = "x"\n{read("labntpd.toml")}')
    status, out, err = run(["customers", "--config", room("old.toml")])
    same("a configuration with a register", (1, "", True), (status, out, "register: customers stand in the commands file alone" in err))
    told = run(["customers", "--json", *config], 0)[1]
    first, *others = told.splitlines(True)
    for text in ("nonsense\n", '{"address":"192.0.2.1"}\n', first.replace("sha1", "sha1" * 9, 1)[:-3] + "\n"):
        for at, here in enumerate(([text], [text, *others], [first, text, *others], [first, *others, text])):
            file_of("customers", "".join(here))
            line = here.index(text) + 1
            wanted = (1, f"customers: line {line}: an object of a customer is wanted\n")
            same("what can be read of a customers file with a fault", (wanted, "".join(it for it in here if it != text)), (lambda it: (it[::2], it[1]))(run(["customers", "--json", *config])))
            same("as a table", (wanted, len(here)), (lambda it: (it[::2], len(it[1].splitlines())))(run(["customers", *config])))
            same("it is not compared", (1, "", wanted[1]), run(["customers", "--compare", *config]))
    # JSON has no U+001B in a text, but U+009B, and a carriage return between members.
    odd = [first.replace(*it) for it in (("192.0.2.1", "\x1b[2J"), ("192.0.2.1", "\x9b2J"), (",", ",\r"))]
    file_of("customers", "".join(odd + others))
    wanted = "".join(f"customers: line {it}: an object of a customer is wanted\n" for it in (1, 2, 3))
    same("lines that could steer a terminal", (1, "".join(others), wanted), run(["customers", "--json", *config]))
    os.remove(room("customers"))
    file_of("customers", run(["customers", "--json", *config], 0)[1])
    listed = [run(["customers", *words, *config], 0)[1] for words in ([], ["--json"])]
    os.remove(room("commands"))
    told = f"{room('commands')}: No such file or directory (os error 2)\n"
    # labntpd's customers are told, and the fault gives the status.
    same("no commands", [(3, it, told) for it in listed], [run(["customers", *words, *config]) for words in ([], ["--json"])])
    os.remove(room("customers"))
    same("neither", [(3, "", told)] * 2, [run(["customers", *words]) for words in (config, [room("commands")])])


def test_customers_one_alone():
    config = configured(commands=f"rollover 192.0.2.2 9 sha1 {KEY}\nenrol 192.0.2.20 5 md5 00 1\nrevoke 192.0.2.20\n# name 192.0.2.2 B\n")
    for differs in ("", "192.0.2.1: labntpd has key 7 (sha1, 20 octets), the commands file key 1 (sha1, 20 octets)\n"):
        head, *rows = run(["customers", *config], 0)[1].splitlines()
        objects = run(["customers", "--json", *config], 0)[1].splitlines()
        for address, place, count in (("192.0.2.1", 0, 1), ("192.0.2.2", 1, 2), ("127.0.0.1", 3, 1), ("192.0.2.20", 4, 1)):
            told = differs if address == "192.0.2.1" else ""
            same(f"the table of {address}", (0, [head, *rows[place : place + count]], told), (lambda it: (it[0], it[1].splitlines(), it[2]))(run(["customers", address, *config])))
            found, = [it for it in objects if json.loads(it)["address"] == address]
            same(f"the object of {address}", (0, f"{found}\n", told), run(["customers", address, "--json", *config]))
        for words in ([], ["--json"]):
            same("nobody", (1, "", "192.0.2.200: no customer\n"), run(["customers", "192.0.2.200", *words, *config]))
        seen_file(read("commands").replace("192.0.2.1 1", "192.0.2.1 7"))
        os.utime(room("commands"), times=(time.time() - 10,) * 2)
    append_text(f"enrol 192.0.2.30 30 sha1 {KEY} 1\n")
    for words in ([], ["--json"]):
        same("one that labntpd has not reported yet", (0, True, ""), (lambda it: (it[0], "192.0.2.30" in it[1], it[2]))(run(["customers", "192.0.2.30", *words, *config])))


def test_customers_by_the_daemons_file():
    with serving() as (port, config):
        until("it writes of its customers", lambda: os.path.exists(room("customers")))
        same("a query", "time", probe.ask(port, "plain", f"127.0.0.1/4/sha1/{KEY[::-1]}"))
        run(["budget", "127.0.0.1", "100", *config], 0)
        until("it writes of the query", lambda: '"basic":1' in read("customers") and '"budget":100' in read("customers"))
        same("the objects are the daemon's", read("customers"), run(["customers", "--json", *config], 0)[1])
        row = next(it for it in run(["customers", *config], 0)[1].splitlines() if it.startswith("127.0.0.1"))
        same("its row", True, bool(re.fullmatch(r"127\.0\.0\.1 +enrolled +100 +3 +4 +sha1 20 +\w{3}, \d\d \w{3} \d{4} \d\d:\d\d:\d\d GMT +1( +0){6}", row)))


def test_customers_by_the_daemons_file_with_long_values():
    """Columns never touch, and a second key stands below the first one."""
    config = configured(commands=f"rollover 192.0.2.1 65535 sha1 {KEY}\n")
    text = re.sub(r'"line":\d+', '"line":1048576', run(["customers", "--json", *config], 0)[1])
    text = text.replace('"last_signed":null', '"last_signed":"1750434176.000000000"').replace("192.0.2.2", "192.168.200.200")
    file_of("customers", re.sub(r'"(basic|interleaved|rate|deny|nak|over-budget|muted)":0', r'"\1":18446744073709551615', text))
    head, *rows = run(["customers", *config], 0)[1].splitlines()
    signed, counts = ["Fri,", "20", "Jun", "2025", "15:42:56", "GMT"], ["18446744073709551615"] * 7
    wanted = [["192.0.2.1", "enrolled", "4", "1048576", "1", "sha1", "20", *signed, *counts], ["65535", "sha1", "20", *signed],
              ["192.168.200.200", "enrolled", "9", "1048576", "3", "md5", "3", *signed, *counts], ["127.0.0.1", "enrolled", "65535", "1048576", "4", "sha1", "20", *signed, *counts]]
    same("rows", wanted, [it.split() for it in rows])
    at = head.index("NUMBER")
    same("numbers of keys", [" 1 ", " 65535 ", " 3 ", " 4 "], [re.match(r" \d+ ", it[at - 1 :])[0] for it in rows])


def seen_file(commands):
    """The daemon's customers file, as it would be by these lines."""
    file_of("seen", commands)
    file_of("customers", run(["customers", "--json", room("seen")], 0)[1])


@contextlib.contextmanager
def meanwhile(call):
    """Makes a call meanwhile, in the place of labntpd."""
    daemon = threading.Thread(target=call)
    daemon.start()
    try:
        yield
    finally:
        daemon.join()


def reporting(commands):
    """Once it is asked to, writes its customers file anew, as it would be by these lines."""
    file_of("seen", commands)
    file_of("report", run(["customers", "--json", room("seen")], 0)[1])

    def write():
        until("it is asked", lambda: os.path.exists(room("customers.wanted")))
        os.remove(room("customers.wanted"))
        os.replace(room("report"), room("customers"))

    return meanwhile(write)


@pytest.mark.proved_alone(SLOW)
def test_customers_that_differ():
    there = [f"enrol 192.0.2.9 2 sha1 {KEY} 7", f"rollover 192.0.2.2 9 sha1 {KEY[::-1]}", "enrol 192.0.2.10 5 md5 11 5", "enrol 192.0.2.11 6 md5 22 5", "enrol 192.0.2.12 7 sha1 33 5", "enrol 192.0.2.15 16 sha1 66 5", "revoke 192.0.2.15"]
    more = ["budget 192.0.2.9 12", "retire 192.0.2.2 3", "revoke 192.0.2.10", f"rollover 192.0.2.11 20 sha1 {KEY}", "revoke 192.0.2.12", "enrol 192.0.2.12 22 sha1 99 44", "enrol 192.0.2.15 25 md5 cc 66", "enrol 192.0.2.16 23 md5 aa 55",
            "enrol 192.0.2.17 26 sha1 dd 1", "revoke 192.0.2.17"]
    text = lambda lines: "".join(f"{it}\n" for it in lines)
    config = configured(commands=text(there))

    def seen(commands):
        """So a report that has had the time to have all lines has it."""
        seen_file(commands)
        os.utime(room("commands"), times=(time.time() - 10,) * 2)

    head = enrolments(CUSTOMERS)
    same("no customers file", (3, "", f"{room('customers')}: No such file or directory (os error 2)\n"), run(["customers", "--compare", *config]))
    seen(head + text(there))
    same("nothing differs", ("", (0, "", "")), (run(["customers", *config], 0)[2], run(["customers", "--compare", *config])))
    seen(head + text(there + more))
    wanted = ["192.0.2.2: labntpd has key 9 (sha1, 20 octets), the commands file keys 3 (md5, 3 octets) and 9 (sha1, 20 octets)", "192.0.2.9: labntpd has budget 12, the commands file 7",
              "192.0.2.10: revoked at labntpd, enrolled in the commands file", "192.0.2.11: labntpd has keys 6 (md5, 1 octets) and 20 (sha1, 20 octets), the commands file key 6 (md5, 1 octets)",
              "192.0.2.12: labntpd has budget 44, the commands file 5", "192.0.2.12: labntpd has key 22 (sha1, 1 octets), the commands file key 7 (sha1, 1 octets)", "192.0.2.15: enrolled at labntpd, revoked in the commands file",
              "192.0.2.16: enrolled at labntpd, unknown in the commands file", "192.0.2.17: revoked at labntpd, unknown in the commands file"]
    for words in (["--json"], []):
        status, out, err = run(["customers", *config, *words])
        same("what differs", (0, wanted, True), (status, err.splitlines(), "192.0.2.17" in out))
    same("that alone", (1, wanted, ""), (lambda it: (it[0], it[1].splitlines(), it[2]))(run(["customers", "--compare", *config])))
    seen_file(head + text(there[:-2]))
    os.utime(room("commands"))
    same("what it may report yet", ("", (0, "", "")), (run(["customers", *config], 0)[2], run(["customers", "--compare", *config])))
    seen(head + text(there[:-2]))
    same("what labntpd has not", ["192.0.2.15: unknown at labntpd, revoked in the commands file"], run(["customers", *config], 0)[2].splitlines())
    seen(head + text(there))
    with reporting(head + text(there + more)):
        same("by a fresh report", (1, wanted), (lambda it: (it[0], it[1].splitlines()))(run(["customers", "--compare", *config])))
    # labntpd would have written another one by now, if it served.
    os.utime(room("customers"), times=(time.time() - 100,) * 2)
    begun = time.monotonic()
    told = run(["customers", *config], 0)[2]
    same("an old report is not waited for", True, time.monotonic() - begun < 1)
    warning = rf"warning: {re.escape(room('customers'))}: 1\d\d seconds old: labntpd, where it serves, writes it each minute\n"
    same("it is told that it is old", True, bool(re.match(warning, told)))
    os.remove(room("commands"))
    status, out, err = run(["customers", "--compare", *config])
    same("no commands file", (3, "", f"{room('commands')}: No such file or directory (os error 2)\n"), (status, out, re.sub(warning, "", err)))
    file_of("labntpd.toml", re.sub("(?m)^customers = .*\n", "", read("labntpd.toml")))
    same("none is named", (1, "", f"{room('labntpd.toml')}: customers: missing: there is nothing to compare\n"), run(["customers", "--compare", *config]))


def test_changes_each_with_its_answer():
    with serving() as (port, config):
        before = read("commands")
        status, out, err = run(["enrol", "192.0.2.9", "--budget", "17", *config])
        same("enrol", (0, f"line {FIRST}: enrol 192.0.2.9 2 sha1 KEY 17\nfor the customer: 192.0.2.9-2.keys\nline {FIRST}: done\n", ""), (status, out, err))
        enrolled = ENROL.fullmatch(appended(before)[0])
        same("its line", ("192.0.2.9", "2", "sha1", "17"), enrolled.group(1, 2, 3, 5))
        given = read("192.0.2.9-2.keys")
        same("its mode", 0o600, os.stat(room("192.0.2.9-2.keys")).st_mode & 0o7777)
        same("its first line", f"2 SHA1 HEX:{enrolled[4]}", given.splitlines()[0])
        for line in (f"server 127.0.0.1 port {port} key 2 iburst xleave", f"2 sha1 {enrolled[4]}", "trustedkey 2", "server 127.0.0.1 key 2 iburst"):
            same(line, True, f"#   {line}\n" in given)
        steps = [
            (["budget", "192.0.2.9", "5"], "budget 192.0.2.9 5", None),
            (["rollover", "192.0.2.9", "--algorithm", "md5", "--output", room("new.keys"), "--server", "198.51.100.1"], "rollover 192.0.2.9 5 md5 KEY", "new.keys"),
            (["retire", "192.0.2.9", "--yes"], "retire 192.0.2.9 2", None),
            (["enrol", "192.0.2.10"], "enrol 192.0.2.10 6 sha1 KEY 10", "192.0.2.10-6.keys"),
            (["rollover", "192.0.2.10", "--server", "198.51.100.1:321"], "rollover 192.0.2.10 7 sha1 KEY", "192.0.2.10-7.keys"),
            (["retire", "192.0.2.10", "--number", "7", "--yes"], "retire 192.0.2.10 7", None),
            (["revoke", "192.0.2.9"], "revoke 192.0.2.9", None),
            (["enrol", "192.0.2.9", "--output", room("again.keys")], "enrol 192.0.2.9 8 sha1 KEY 10", "again.keys"),
        ]
        for words, line, file in steps:
            before, number = read("commands"), next_line() + 1
            told = f"for the customer: {room(file) if '--output' in words else file}\n" if file else ""
            same(" ".join(words), (0, f"line {number}: {line}\n{told}line {number}: done\n", ""), run([*words, *config]))
            same("its line", line, re.sub(r"\b[0-9a-f]{40}\b", "KEY", appended(before)[0]))
        same("a server that is named", True, "#   server 198.51.100.1 key 5 iburst xleave\n" in read("new.keys") and read("new.keys").startswith("5 MD5 HEX:"))
        same("with a port", True, "#   server 198.51.100.1 port 321 key 7 iburst xleave\n" in read("192.0.2.10-7.keys"))
        same("the daemon's answers", all_done(), lines_in("answers"))


def test_changes_tell_when_and_by_whom():
    """By whom: by the name of the one who became root, else the user's name or number."""
    config = configured()
    path = file_of("wanted.toml", register_of([*CUSTOMERS, FIVE, SIX]) + 'name = "A"\n')
    orders = (["enrol", "192.0.2.9", "--name", "B"], 2), (["budget", "192.0.2.9", "7"], 1), (["name", "192.0.2.9", "C"], 1), (["apply", path, "--yes"], 4)
    for (words, count), (users, user) in zip(orders, (({"SUDO_USER": "anna", "USER": "root"}, "anna"), ({"USER": "root"}, "root"), ({"SUDO_USER": "an\nna"}, str(os.geteuid())), ({"SUDO_USER": "", "USER": "bert"}, "bert"))):
        before, begun = read("commands"), int(time.time())
        run([*words, "--wait", "0", *config], env=users)
        lines = read("commands")[len(before) :].splitlines()
        when, who = RECORD.fullmatch(lines[0]).groups()
        same(f"{words[0]}: who", (user, count), (who, len(lines) - 1))
        same(f"{words[0]}: when", True, begun <= calendar.timegm(time.strptime(when, "%Y-%m-%dT%H:%M:%SZ")) <= time.time())
        same(f"{words[0]}: once", [], [it for it in lines[1:] if RECORD.fullmatch(it)])


def answering(*answers, file="answers", before=lambda: None):
    """Answers the next lines so once they stand in the commands file; `before` is done first."""
    first = next_line() + 1

    def answer_them():
        until("the lines", lambda: next_line() == first + len(answers))
        before()
        append_text("".join(f"{number} {answer}\n" for number, answer in enumerate(answers, first)), file)

    return meanwhile(answer_them)


def test_changes_beside_several_processes():
    with serving() as (_, config):
        words = ["--answers", f"{room('answers')},{room('other')}", *config]
        for turn, (there, wanted) in enumerate(((None, 3), ("", 3), ("done", 0), ("refused no-memory", 1))):
            number = FIRST + 2 * turn
            if there == "":
                file_of("other", there)
            # The other process answers once the line is there.
            with answering(there, file="other") if there else contextlib.nullcontext():
                status, out, err = run(["enrol", f"192.0.2.{number + 30}", "--output", room(f"{number}.keys"), "--wait", "0.3" if wanted == 3 else "5", *words])
            told = {0: f"line {number}: done\n", 1: f"line {number}: refused no-memory\n", 3: ""}[wanted]
            same(f"the other has {there!r}", (wanted, True), (status, out.endswith(told)))
            same("what is told of no answer", wanted == 3, err.startswith(f"line {number}: no answer;"))
            same("the customer's file", wanted != 1, os.path.exists(room(f"{number}.keys")))
        same("the daemon did all", all_done(), lines_in("answers"))


def test_changes_tell_odd_answers_in_a_line():
    """An answer that could steer a terminal, a long one and an empty one: each is told in a line, and the customer's file goes."""
    config, long = configured(), "x" * 100_000
    odd = (("refused \x1b[2J\x9b\r\0\u202e", r"refused \u{1b}[2J\u{9b}\u{d}\u{0}\u{202e}"), (f"{long}\x07", rf"{long}\u{{7}}"), ("", '""'))
    for turn, (answer, wanted) in enumerate(odd):
        with answering(answer):
            status, out, err = run(["enrol", f"192.0.2.{turn + 9}", "--output", room("new.keys"), *config])
        same(f"answer {turn}", (1, f"line {FIRST + 2 * turn}: {wanted}", ""), (status, out.split("\n")[-2], err))
        same("no file of a customer", False, os.path.exists(room("new.keys")))


def counted(seconds, *unused):
    """Files of a labntpd that has counted uses for so long: each key was used, but for these."""
    lines = [json.loads(it) for it in run(["customers", "--json", room("commands")], 0)[1].splitlines()]
    for key in (key for line in lines for key in line["keys"] if key["number"] not in unused):
        key["last_signed"] = "1750434176.000000000"
    file_of("customers", "".join(f"{json.dumps(it)}\n" for it in lines))
    file_of("statistics", f"labntp_commands_changed 0\nlabntp_start_time_seconds {time.time() - seconds:.9f}\n")


DATE = r"\w\w\w, \d\d \w\w\w \d{4} \d\d:\d\d:\d\d GMT"
NOT_KNOWN = "no other key was used, or the count is younger than a day: --yes is wanted\n"


def test_changes_are_asked_about_before_a_key_goes():
    """Where the key that stays may be in no use, only the word for it retires the other."""
    config = configured(commands=f"rollover 192.0.2.1 5 sha1 {KEY}\n# name 192.0.2.1 A\n", statistics="statistics")
    before, words = read("commands"), ["retire", "192.0.2.1", "--wait", "0", *config]
    used = "key {} last used Fri, 20 Jun 2025 15:42:56 GMT"
    for what, seconds, unused, wanted in (("the older key is in no use", 90_000, [1], f"key 1 not used, {used.format(5)}, counted from {DATE} to {DATE}"), ("both are in use", 90_000, [], f"{used.format(1)}, {used.format(5)}, counted from {DATE} to {DATE}")):
        counted(seconds, *unused)
        for answer in (b"", b"\n", b"n\n", b"yesterday\n"):
            status, out, err = run(words, given=answer)
            same(f"{what}: {answer!r}", (1, True, ""), (status, bool(re.fullmatch(rf"192\.0\.2\.1 \(A\): {wanted}; retire key 1\? \[y/N\] ", out)), err))
    for what, seconds, unused in (("the newer key was not used", 90_000, [5]), ("it is counted for hours", 80_000, [])):
        counted(seconds, *unused)
        status, out, err = run(words, given=b"y\n")
        same(what, (1, "", True), (status, out, err.endswith(f": {NOT_KNOWN}")))
    same("the other key", True, run([*words, "--number", "5"], given=b"n\n")[2].endswith(NOT_KNOWN))
    for name, told in (("statistics", f"{used.format(1)}, {used.format(5)}, "), ("customers", "")):
        counted(90_000)
        os.remove(room(name))
        same(f"without {name}", (1, "", f"192.0.2.1 (A): {told}counted since a time that is not known: {NOT_KNOWN}"), run(words, given=b"y\n"))
    same("nothing was appended", [], appended(before))
    same("the word for it", (3, ["retire 192.0.2.1 1"]), (run([*words, "--yes"])[0], appended(before)))
    same("a refusal comes before", (1, "", "refused not-held: the address has no key of this number, but key 5 (sha1, 20 octets)\n"), run(["retire", "192.0.2.1", "--number", "77", *config], given=b"y\n"))
    beside_labntpd()


def beside_labntpd():
    """What labntpd counts of a customer at this host's own address is told as of now, though its customers file is written each minute."""
    with serving(statistics="statistics") as (port, config):
        run(["rollover", "127.0.0.1", *config], 0)
        until("a first customers file", lambda: os.path.exists(room("customers")))
        same("a query under the older key", "time", probe.ask(port, "plain", f"127.0.0.1/4/sha1/{KEY[::-1]}"))
        listed = json.loads(run(["customers", "127.0.0.1", "--json", *config], 0)[1])
        same("its last use", [(4, True), (2, False)], [(it["number"], it["last_signed"] is not None) for it in listed["keys"]])
        told = lambda: run(["retire", "127.0.0.1", *config], 1, given=b"y\n")[2]
        until("its last use is told", lambda: re.fullmatch(rf"127\.0\.0\.1: key 4 last used {DATE}, key 2 not used, counted from {DATE} to {DATE}: {NOT_KNOWN}", told()), 5)
        same("the file that asks", False, os.path.exists(room("customers.wanted")))


def test_changes_heed_what_a_clerk_answers():
    """The answer is one line, however it comes, and nothing behind it; a long line is no yes."""
    lines = f"rollover 192.0.2.1 2 sha1 {KEY}\n"
    for parts, wanted in (((b"ye", b"s\n"), True), ((b"y\nn\n",), True), ((b" Yes \n" + b"#" * 99,), True), ((b"y",), True), ((b"n", b"y\n"), False), ((b"y" + b" " * 40 + b"\n",), False), ((b"\n", b"y\n"), False)):
        config, before = configured(commands=lines, statistics="statistics"), read("commands")
        counted(90_000)
        process = judging.start(["retire", "192.0.2.1", "--wait", "0", *config], stdin=subprocess.PIPE, stdout=subprocess.PIPE, stderr=subprocess.DEVNULL, bufsize=0)
        until("the clerk is asked", lambda: select.select([process.stdout], [], [], 0)[0])
        for part in parts:
            # Each part is read by itself; nobody reads the last ones where the answer was there before.
            with contextlib.suppress(BrokenPipeError):
                process.stdin.write(part)
            time.sleep(0.2)
        process.communicate(timeout=judging.WAIT)
        judging.started.remove(process)
        same(f"an answer of {parts}", (3, ["retire 192.0.2.1 1"]) if wanted else (1, []), (process.returncode, appended(before)))


def test_changes_where_answers_and_last_uses_are_not_read():
    config, path = configured(), room("answers")
    words = ["enrol", "192.0.2.9", "--output", room("x"), "--wait", "0.1", *config]
    file_of("answers", b"1 done\n\xff\n")
    same("no text", (1, "", f"{path}: this is no UTF-8\n"), run(words))
    os.remove(path)
    os.mkdir(path)
    same("no regular file", (3, "", f"{path}: a regular file is wanted\n"), run(words))
    os.rmdir(path)
    file_of("answers", "")
    with judging.bound_by_modes("labntpd.toml", "commands", "answers") as how:
        os.chmod(path, 0)
        same("no leave", (3, "", f"{path}: Permission denied (os error 13)\n"), run(words, **how))
    same("nothing was written", (FIRST - 1, False), (next_line(), os.path.exists(room("x"))))
    os.remove(path)
    same("none is there", (3, True), (lambda it: (it[0], it[2].startswith(f"line {FIRST}: no answer;")))(run(words)))
    # A line of the daemon's customers file that is none, in front of the customer's: it is told which one that is.
    config = configured(commands=f"rollover 127.0.0.1 2 sha1 {KEY}\n")
    first, *others = run(["customers", "--json", *config], 0)[1].splitlines(True)
    file_of("customers", first + "nonsense\n" + "".join(others))
    same("uses of a key", (1, "", "customers: line 2: an object of a customer is wanted\n"), run(["retire", "127.0.0.1", *config], given=b"y\n"))


def test_changes_that_the_daemon_would_refuse():
    with serving() as (_, config):
        run(["rollover", "192.0.2.1", *config], 0)
        before = read("commands")
        for words, word in ((["enrol", "192.0.2.1"], "already-enrolled"), (["revoke", "192.0.2.99"], "not-enrolled"), (["budget", "192.0.2.99", "1"], "not-enrolled"),
                            (["rollover", "192.0.2.99"], "not-enrolled"), (["rollover", "192.0.2.1"], "room-full"), (["retire", "192.0.2.99"], "not-enrolled"),
                            (["retire", "192.0.2.2"], "only-key"), (["retire", "192.0.2.2", "--number", "1"], "not-held")):
            for more in ([], ["--dry-run"]):
                status, out, err = run([*words, *more, *config])
                keys = ", but key 3 (md5, 3 octets)" if word == "not-held" else ""
                same(" ".join(words + more), (1, "", True), (status, out, bool(re.fullmatch(f"refused {word}: [a-z ]+{re.escape(keys)}\n", err))))
        same("nothing was written", [], appended(before))
        same("one file of a customer", ["192.0.2.1-2.keys"], [it for it in os.listdir(judging.ROOM) if it.endswith(".keys")])


def test_changes_are_none_with_dry_run():
    config = configured(commands="# a comment\n")
    there = {it: os.stat(room(it)).st_mtime_ns for it in os.listdir(judging.ROOM)}
    for words, line in ((["enrol", "192.0.2.9"], "enrol 192.0.2.9 2 sha1 KEY 10"), (["rollover", "192.0.2.1", "--algorithm", "md5"], "rollover 192.0.2.1 2 md5 KEY"), (["revoke", "192.0.2.1"], "revoke 192.0.2.1")):
        same(line, (0, f"line {FIRST + 1}: {line}\n", ""), run([*words, "--dry-run", *config]))
    same("nothing was written", there, {it: os.stat(room(it)).st_mtime_ns for it in os.listdir(judging.ROOM)})


def test_changes_with_no_daemon():
    config = configured(probe.free_port())
    same("enrol", (3, f"line {FIRST}: enrol 192.0.2.9 2 sha1 KEY 10\nfor the customer: 192.0.2.9-2.keys\n",
                   f"line {FIRST}: no answer; where labntpd does not run, it carries the line out at its next start\n"), run(["enrol", "192.0.2.9", "--wait", "0.1", *config]))
    with served(config):
        until("it answers", lambda: lines_in("answers")[-1:] == [f"{FIRST} done"] and os.path.exists(room("customers")))
    # The answers of a daemon that has ended are not taken for those of other lines.
    file_of("commands", enrolments(CUSTOMERS))
    os.remove(room("customers"))
    told = f"{room('commands')}: lines were answered that do not stand here: restart labntpd\n"
    same("an old answer", (1, "", told), run(["revoke", "192.0.2.1", "--wait", "30", *config]))
    same("nothing was appended", enrolments(CUSTOMERS), read("commands"))
    same("without an answers file", 3, run(["revoke", "192.0.2.2", "--wait", "0.1", *configured(answers=None)])[0])


def test_changes_where_the_customers_file_is_there():
    config = configured()
    for words, path in ((["--output", room("mine")], "mine"), ([], "192.0.2.9-2.keys")):
        file_of(path, "mine")
        named = room(path) if words else path
        same(path, (3, "", f"{named}: a file is there: name a new one, or move it away\n"), run(["enrol", "192.0.2.9", *words, *config]))
        same("it is as it was", ("mine", FIRST - 1), (read(path), next_line()))
    same("no directory", 3, run(["enrol", "192.0.2.9", "--output", room("nowhere/x"), *config])[0])
    same("nothing was appended", FIRST - 1, next_line())


@pytest.mark.proved_alone(SLOW)
def test_changes_append_nothing_to_such_commands_files():
    config, path, head = configured(commands="# one\n# two"), room("commands"), enrolments(CUSTOMERS)
    words, line = ["revoke", "192.0.2.1", "--wait", "0"], f"# 2026-11-29T05:00:00Z {CLERK}\nrevoke 192.0.2.1\n"
    for change in (words, ["apply", file_of("wanted.toml", ""), "--yes", "--end-many"], ["fold"]):
        same("no line feed", (1, "", f"{path}: line {FIRST}: a line feed at its end is wanted\n"), run([*change, *config]))
    same("it is as it was", head + "# one\n# two", read("commands"))
    full = "#" * (FILE_LIMIT - len(head) - len(line)) + "\n"
    with patient():
        config = configured(commands=full)
        same("full", (1, "", f"{path}: at most {FILE_LIMIT} octets are wanted: labntpctl fold shortens it\n"), run([*words, *config]))
        config = configured(commands=full[1:])
        same("just not full", (3, FILE_LIMIT), (run([*words, *config])[0], os.path.getsize(path)))
        append_text("#\n")
        same("too long", (1, f"{path}: at most {FILE_LIMIT} octets are wanted\n"), checked(*config))
    os.truncate(file_of("wanted.toml", ""), FILE_LIMIT + 1)
    same("a file of customers", (1, "", f"{room('wanted.toml')}: at most {FILE_LIMIT} octets are wanted\n"), run(["apply", room("wanted.toml"), *config]))
    os.remove(path)
    same("none", (3, "", f"{path}: No such file or directory (os error 2)\n"), run([*words, *config]))
    same("none is made", False, os.path.exists(path))
    os.mkfifo(path)
    same("no regular file", (3, "", f"{path}: a regular file is wanted\n"), run([*words, *config]))


def test_changes_wait_for_no_pipe_in_the_place_of_a_report():
    """Whoever may write where labntpd reports can put a pipe there once labntpctl has looked at the file."""
    config = configured(statistics="statistics")
    for name in ("answers", "customers", "statistics"):
        counted(0)
        file_of("answers", "")
        before, host = read("commands"), odd_host.in_front(odd_host.PIPE_IN_TIME % name)
        same(name, (3, "", f"{room(name)}: a regular file is wanted\n"), run(["revoke", "192.0.2.1", *config], env=os.environ | host))
        same("nothing is appended", before, read("commands"))
        os.remove(room(name))


def test_changes_with_a_customers_file_half_written():
    """A customer's file, or a file of customers, that cannot be written as a whole or stored: none is left, and the next try is good."""
    config = configured()
    for words, status in ((["enrol", "192.0.2.9", "--wait", "0", "--output", room("new.keys")], 3), (["export", room("new.toml")], 0)):
        path, before = words[-1], read("commands")
        for what, told, begin in (("a write that is cut", "File too large (os error 27)", lambda: limited_to(50)), ("a disk that stores nothing", "Input/output error (os error 5)", without("fsync"))):
            same(what, (3, f"{path}: {told}\n"), run([*words, *config], preexec_fn=begin)[::2])
            same("nothing is left of it", (False, before), (os.path.exists(path), read("commands")))
        run([*words, *config], status)
        same("the next try", True, os.path.getsize(path) > 50)


def test_changes_without_leave():
    """A clerk who may not write the commands file, or whose file stands in a directory that cannot be stored, since it cannot be opened."""
    config = configured()
    os.mkdir(room("given"))
    fault = lambda name: (3, "", f"{room(name)}: Permission denied (os error 13)\n")
    with judging.bound_by_modes("labntpd.toml", "commands", "given") as how:
        os.chmod(room("given"), 0o300)
        for words in (["enrol", "192.0.2.9", "--output"], ["export"]):
            same(f"{words[0]}: it is not stored", fault("given/x"), run([*words, room("given/x"), *config], **how))
        os.chmod(room("commands"), 0o400)
        same("who may not write", fault("commands"), run(["enrol", "192.0.2.9", *config], **how))
        same("who only looks", 0, run(["enrol", "192.0.2.9", "--dry-run", *config], **how)[0])
    same("nothing is left", (False, FIRST - 1), (os.path.exists(room("given/x")), next_line()))


def test_changes_with_lines_cut_short_or_not_stored():
    """Of what is cut only whole comments stay, which labntpd may have read. Of what is not stored the answer is told, and the fault."""
    config = configured(commands="#" * 9989 + "\n")
    # By its time labntpd would take it for one that was written anew.
    os.utime(room("commands"), ns=(0, 1_500_000_000_123_456_789))
    before, size, when = read("commands"), os.path.getsize(room("commands")), os.stat(room("commands")).st_mtime_ns
    many = file_of("wanted.toml", register_of([*CUSTOMERS, *((f"10.0.0.{it}", it, "sha1", KEY, it) for it in range(5, 15))]))
    record = len(f"# 2026-11-29T05:00:00Z {CLERK}\n")
    enrol, name = ["enrol", "192.0.2.9", "--name", "A"], "# name 192.0.2.9 A\n"
    for words, octets, kept in ((enrol, 20, ""), (enrol, record - 1, ""), (enrol, record, ""), (enrol, record + 5, ""), (enrol, record + len(name), name), (enrol, record + len(name) + 20, name), (["apply", many, "--yes", "--end-many"], 20, ""), (["apply", many, "--yes", "--end-many"], 500, "")):
        file_of("commands", before)
        os.utime(room("commands"), ns=(0, when))
        status, out, err = run([*words, *config], preexec_fn=lambda: limited_to(size + octets))
        same("what is cut", (3, f"{room('commands')}: File too large (os error 27)\n"), (status, err))
        same("nobody gets a key", False, os.path.exists(room("192.0.2.9-2.keys")))
        there = read("commands").removeprefix(before)
        if octets < record:
            same("the file is as before", ("", when), (there, os.stat(room("commands")).st_mtime_ns))
        else:
            same("comments stay", (kept, True), (there[record:], bool(RECORD.fullmatch(there[: record - 1]))))
    for out, wanted in (("/dev/full", (3, f"write: line {FIRST + 1}: budget 192.0.2.1 6: it stands there\n")), (None, (0, ""))):
        file_of("commands", before)
        file_of("answers", "")
        reading, writing = os.pipe() if out is None else (None, os.open(out, os.O_WRONLY))
        if reading:
            os.close(reading)
        with answering("done"):
            same(f"output to {out}", wanted, run(["budget", "192.0.2.1", "6", *config], stdout=writing)[::2])
        os.close(writing)
        same("the line stands there", ["budget 192.0.2.1 6"], appended(before))
    file_of("commands", before)
    file_of("answers", "")
    with answering("done"):
        told = (3, f"line {FIRST + 1}: budget 192.0.2.1 7\nline {FIRST + 1}: done\n", f"{room('commands')}: Input/output error (os error 5)\n")
        same("what is not stored", told, run(["budget", "192.0.2.1", "7", *config], preexec_fn=without("fsync")))
    same("the line", ["budget 192.0.2.1 7"], appended(before))


def test_changes_with_a_customers_file_that_stays():
    config = configured()
    os.mkdir(room("given"))
    file_of("answers", "")
    with judging.bound_by_modes("labntpd.toml", "commands", "answers", "given") as how, answering("refused no-memory", before=lambda: os.chmod(room("given"), 0o500)):
        status, out, err = run(["enrol", "192.0.2.9", "--output", room("given/x"), *config], **how)
    os.chmod(room("given"), 0o700)
    same("the answer", (3, True), (status, out.endswith(f"\nline {FIRST}: refused no-memory\n")))
    same("what stays", (f"{room('given/x')}: Permission denied (os error 13)\n", True), (err, os.path.exists(room("given/x"))))


def beside(words, meanwhile, **how):
    """A change, and what is done meanwhile, once it has read the commands file."""
    # What it opens next is the answers file; it waits there while somebody holds a lease (fcntl(2)).
    signal.signal(signal.SIGIO, signal.SIG_IGN)
    with open(file_of("answers", "")) as it:
        try:
            fcntl.fcntl(it, fcntl.F_SETLEASE, fcntl.F_WRLCK)
        except OSError as why:
            raise PassedOver(f"no lease of a file is to be had: {why}")
        process = judging.start(words, stdout=subprocess.PIPE, stderr=subprocess.PIPE, **how)
        until("it opens the answers file", lambda: fcntl.fcntl(it, fcntl.F_GETLEASE) != fcntl.F_WRLCK)
        meanwhile()
        fcntl.fcntl(it, fcntl.F_SETLEASE, fcntl.F_UNLCK)
    out, err = (it.decode() for it in process.communicate(timeout=judging.WAIT))
    judging.started.remove(process)
    shows_no_key(out, err)
    return process.returncode, out, err


def test_changes_while_another_appends_without_the_lock():
    """Another appends without the lock: which line it is is not known, and nothing of the other's goes, nor what the customer gets."""
    other, config = "revoke 192.0.2.1\n", configured(commands="#" * 9989 + "\n")
    before, size = read("commands"), os.path.getsize(room("commands"))
    told = "{}: somebody else wrote to the file at the same time: {}: appended at a line that is not known; look at the answers\n"
    appends = lambda: append_text(other)
    same("enrol", (3, "for the customer: 192.0.2.9-2.keys\n", told.format(room("commands"), "enrol 192.0.2.9 2 sha1 KEY 10")), beside(["enrol", "192.0.2.9", *config], appends))
    lines = appended(before + other)
    same("its line", ("192.0.2.9", "2"), ENROL.fullmatch(lines[0]).group(1, 2))
    same("what the customer gets", f"2 SHA1 HEX:{ENROL.fullmatch(lines[0])[4]}", read("192.0.2.9-2.keys").splitlines()[0])
    config = configured(commands="#" * 9989 + "\n")
    cut = (3, "", f"{room('commands')}: File too large (os error 27)\n")
    same("a line that is cut", cut, beside(["enrol", "192.0.2.10", *config], appends, preexec_fn=lambda: limited_to(size + 40)))
    same("the other's line stays", (before + other, 40 - len(other)), (read("commands")[: size + len(other)], len(read("commands")) - size - len(other)))
    same("nothing is for the customer", False, os.path.exists(room("192.0.2.10-2.keys")))


def test_changes_while_another_file_takes_its_place():
    config, before, wanted = configured(), read("commands"), file_of("wanted.toml", register_of([*CUSTOMERS, FIVE, SIX]))
    for words, lines, told in ((["budget", "192.0.2.1", "7"], 1, "budget 192.0.2.1 7"), (["apply", wanted, "--yes"], 2, "2 commands")):
        file_of("commands", before)
        os.link(room("commands"), room("old"))
        file_of("new", before)
        status, out, err = beside([*words, *config], lambda: os.rename(room("new"), room("commands")))
        same(words[0], (3, f"{room('commands')}: another file took its place at the same time: {told}: appended to the old one\n"), (status, err))
        same("the files", (before, lines), (read("commands"), len(lines_in("old")) - FIRST + 1))
        os.remove(room("old"))


def test_changes_wait_for_a_lock():
    config = configured()
    with open(room("commands"), "a") as it:
        fcntl.flock(it, fcntl.LOCK_EX)
        process = judging.start(["revoke", "192.0.2.1", "--wait", "0", *config], stdout=subprocess.DEVNULL, stderr=subprocess.DEVNULL)
        time.sleep(0.5)
        same("it waits", (None, FIRST - 1), (process.poll(), next_line()))
        # Another file takes the place of this one meanwhile, as where the commands are folded.
        file_of("other", enrolments(CUSTOMERS) + "# another\n")
        os.rename(room("other"), room("commands"))
    process.wait(10)
    judging.started.remove(process)
    same("it appends to the file that stands there", ["# another", "revoke 192.0.2.1"], [lines_in("commands")[it] for it in (FIRST - 2, FIRST)])
    # It is free while an answer is waited for.
    process = judging.start(["budget", "192.0.2.2", "7", "--wait", "60", *config], stdout=subprocess.DEVNULL, stderr=subprocess.DEVNULL)
    until("its line", lambda: next_line() == FIRST + 4)
    same("another appends meanwhile", (f"line {FIRST + 5}: budget 192.0.2.2 8\n", None), (run(["budget", "192.0.2.2", "8", "--wait", "0", *config])[1], process.poll()))


def test_changes_under_a_lock_that_stays():
    config = configured()
    with open(room("commands"), "a") as it, open("/proc/self/comm") as program, patient():
        fcntl.flock(it, fcntl.LOCK_EX)
        told = f"{room('commands')}: somebody else has held it for ten seconds: process {os.getpid()}, {program.read().strip()}\n"
        same("who holds it", (3, "", told), run(["revoke", "192.0.2.1", *config]))


def keys_shown(keys):
    return ("key " if len(keys) == 1 else "keys ") + " and ".join(f"{number} ({algorithm}, {len(key)} octets)" for number, (algorithm, key) in keys)


def changes_shown(before, after, old_names, names):
    """The lines by which apply shows what changes; those of enrolments that end are in order."""
    lines = []
    for address, (keys, budget) in after.items():
        old_name = old_names.get(address, "")
        name = names.get(address, old_name)
        if address not in before:
            lines.append(f"+ {address} {keys_shown(keys)}, budget {budget}" + (f', name "{name}"' if name else ""))
            continue
        old_keys, old_budget = before[address]
        if budget != old_budget:
            lines.append(f"~ {address} budget {old_budget} -> {budget}")
        if keys != old_keys:
            one, other = keys_shown(old_keys), keys_shown(keys)
            lines.append(f"~ {address} {one} -> {other}{', with other octets' if one == other else ''}")
        if name != old_name:
            lines.append(f'~ {address} name "{old_name}" -> "{name}"')
    return lines + sorted(f"- {it}" for it in before if it not in after)


def said_by(text):
    """Whom a file of customers wants, and how it names them."""
    found = tomllib.loads(text).get("customer", [])
    key = lambda it: (it["number"], (it["algorithm"], bytes.fromhex(it["key"])))
    customers = {it["address"]: ([key(it), *([key(it["newer"])] if "newer" in it else [])], it["budget"]) for it in found}
    return customers, {it["address"]: it["name"] for it in found if "name" in it}


def apply(config, file, is_answered=False):
    """Applies a file with this text: what is shown, what is appended, who is enrolled and named then. Gives what is appended."""
    (after, names), text = said_by(file), read("commands")
    before = enrolled(customers_by(text))
    shown = changes_shown(before, after, names_by(text), names)
    status, out, err = run(["apply", file_of("wanted.toml", file), "--yes", "--end-many", *([] if is_answered else ["--wait", "0"]), *config])
    new = appended(text)
    if not shown:
        same("nothing changes", (0, "nothing to change\n", "", []), (status, out, err, new))
        return new
    lines = out.splitlines()
    same("what changes", shown, [*(it for it in lines[: len(shown)] if it[0] != "-"), *sorted(it for it in lines[: len(shown)] if it[0] == "-")])
    commands = [it for it in new if it[0] != "#"]
    same("names stand in front", new[len(new) - len(commands) :], commands)
    last = text.count("\n") + 1 + len(new)
    numbers = f"lines {last - len(commands) + 1} to {last}" if len(commands) > 1 else f"line {last}"
    what = f"{len(commands)} commands" if len(commands) > 1 else re.sub(r"(enrol|rollover)( \S+ \S+ \S+) \S+", r"\1\2 KEY", "".join(commands))
    if not commands:
        same("names alone", (0, [f"names: {len(new)}"], ""), (status, lines[len(shown) :], err))
    elif is_answered:
        same("answers", (0, [f"{numbers}: {what}", f"{numbers}: done"], ""), (status, lines[len(shown) :], err))
    else:
        told = f"{numbers}: no answer; where labntpd does not run, it carries the {numbers.split()[0]} out at its next start\n"
        same("no answer", (3, [f"{numbers}: {what}"], told), (status, lines[len(shown) :], err))
    same("customers", after, enrolled(customers_now()))
    found = names_by(read("commands"))
    # Whom the file gives no name keeps the one that it has.
    same("names", {**names_by(text), **names}, found)
    for address in {*before} & {*after}:
        verbs = {it.split()[0] for it in commands if it.split()[1] == address}
        if before[address][0] == after[address][0]:
            same("who keeps its keys", {*verbs} & {"budget"}, verbs)
        elif any(it in after[address][0] for it in before[address][0]):
            same("who keeps a key", set(), verbs & {"enrol", "revoke"})
    return new


@pytest.mark.proved_alone(SLOW)
def test_apply_takes_a_file_of_many():
    """Two hundred customers; again; two are changed and one removed; numbers and keys go round; who keeps a key keeps saved exchanges."""
    with serving() as (port, config):
        key = lambda number: (number, (("md5", "sha1")[number % 3 % 2], hashlib.sha1(bytes([number % 251])).digest()))
        customers = {f"10.2.{it // 100}.{it % 100}": ([key(2 * it)] + ([key(2 * it + 1)] if it % 5 == 0 else []), it) for it in range(100, 300)}
        names = {address: f'{address} "Ä"' for address in [*customers][::3]}
        customers["127.0.0.1"] = customers_now()["127.0.0.1"]

        def apply_them(what, count):
            new = apply(config, wanted_text(customers, names), is_answered=True)
            until(f"{what}: labntpd has them", lambda: os.path.exists(room("customers")) and told(*config) == as_told(customers_now()))
            same(what, count, len([it for it in new if it[0] != "#"]))

        apply_them("many", 2 + 200 + 40)
        apply_them("again", 0)
        one, two, three, *others = [*customers]
        customers[one] = (customers[one][0], 65535)
        customers[two] = ([(customers[two][0][0][0], ("sha1", b"other octets"))], customers[two][1])
        del customers[three]
        # Of the second one, which has one key, all is new.
        apply_them("two changed, and one removed", 1 + 2 + 1)
        # The keys of two, with their numbers, are exchanged; those of four go round; the two keys of one change their order.
        there = lambda it: customers[it][0]
        others = [it for it in others if len(customers.get(it, ([], 0))[0]) == 1 and it != "127.0.0.1"]
        for group in (others[:2], others[2:6]):
            for address, keys in zip(group, [there(group[-1]), *map(there, group[:-1])]):
                customers[address] = (keys, customers[address][1])
        double = next(it for it in customers if len(there(it)) == 2)
        customers[double] = (there(double)[::-1], customers[double][1])
        apply_them("exchanged", 2 * 6 + 2)
        names = {address: name.upper() for address, name in names.items()}
        apply_them("other names", 0)
        it = probe.Customer(f"127.0.0.1/4/sha1/{KEY[::-1]}")
        with it.socket(port) as s:
            word, reply, came = probe.exchange(it, s)
            same("a query", "time", word)
            customers.update({address: (keys, 77) for address, (keys, _) in customers.items()})
            apply_them("other budgets", 199 + 1)
            same("one that asks about it", "interleaved", probe.exchange(it, s, "plain", probe.stamps(reply)[1], came)[0])


def test_apply_where_more_than_a_quarter_ends():
    config = configured(customers=many_customers(range(5, 13)))
    before, there = read("commands"), customers_now()
    left = lambda count: file_of("wanted.toml", wanted_text(dict([*there.items()][: 8 - count])))
    for count in (3, 8):
        status, out, err = run(["apply", left(count), "--yes", *config])
        same(f"{count} of 8", (1, count, f"{count} of 8 enrolments would end: --end-many is wanted\n"), (status, out.count("\n- ") + out.startswith("- "), err))
        same("it is shown", (1, out, err), run(["apply", left(count), "--dry-run", *config]))
    same("nothing was appended", [], appended(before))
    for count, words in ((2, []), (8, ["--end-many"])):
        same("those may end", (3, 8 - count), (run(["apply", left(count), "--yes", *words, "--wait", "0", *config])[0], len(enrolled(customers_now()))))


def test_apply_asks_a_clerk():
    for file, question in ((register_of([*CUSTOMERS, FIVE, SIX]), "apply 2 commands and 0 names? [y/N] "), (register_of(CUSTOMERS) + 'name = "A"\n', "apply 0 commands and 1 names? [y/N] "), (register_of([*CUSTOMERS, FIVE, SIX]) + 'name = "A"\n', "apply 2 commands and 1 names? [y/N] ")):
        config = configured()
        before, path = read("commands"), file_of("wanted.toml", file)
        shown = run(["apply", path, "--dry-run", *config], 0)[1]
        for answer in (b"", b"\n", b"n\n", b"no\n", b"yesterday\n"):
            same(f"an answer of {answer!r}", (1, f"{shown}{question}", ""), run(["apply", path, *config], given=answer))
        same("nothing was appended", [], appended(before))
        status, out, _ = run(["apply", path, "--wait", "0", *config], given=b"y\n")
        same("a yes", (0 if " 0 commands" in question else 3, True, True), (status, out.startswith(f"{shown}{question}"), bool(appended(before))))


def test_apply_tells_what_labntpd_refuses():
    config = configured()
    path = file_of("wanted.toml", register_of([*CUSTOMERS[1:], ("192.0.2.1", 1, "sha1", KEY, 5), FIVE, SIX]))
    with answering("done", "refused no-memory", "refused no-memory"):
        status, out, err = run(["apply", path, "--yes", *config])
    commands = ["budget 192.0.2.1 5", "enrol 192.0.2.5 5 sha1 KEY 10", "enrol 192.0.2.6 6 md5 KEY 12"]
    refused = [f"line {number}: {command}: refused no-memory" for number, command in enumerate(commands[1:], FIRST + 1)]
    same("what is told", (1, [f"lines {FIRST} to {FIRST + 2}: 3 commands", *refused], ""), (status, out.splitlines()[3:], err))


def test_apply_takes_a_register():
    """An old register file is applied as it is, with the reference state in it."""
    apply(configured(customers=[]), register_of(CUSTOMERS))
    same("its lines", enrolments(CUSTOMERS).splitlines(), appended(""))


def test_export_writes_what_is_wanted():
    config = configured(commands=f"# name 192.0.2.2 Ä\nrollover 192.0.2.2 9 sha1 {KEY}\nrevoke 127.0.0.1\n# name 127.0.0.1 B\n")
    before, files = read("commands"), {*os.listdir(judging.ROOM)}
    same("export", (0, "2 customers\n", ""), run(["export", room("new.toml"), *config], umask=0))
    same("its mode", 0o600, os.stat(room("new.toml")).st_mode & 0o7777)
    same("it is not written over", (3, "", f"{room('new.toml')}: a file is there: name a new one, or move it away\n"), run(["export", room("new.toml"), *config]))
    same("it is checked", (0, f"ok: 2 customers\n{room('new.toml')}: 2 customers\n"), checked(*config, "--wanted", room("new.toml")))
    same("it is applied", (0, "nothing to change\n", ""), run(["apply", room("new.toml"), *config]))
    key = lambda number, algorithm, digits: {"number": number, "algorithm": algorithm, "key": digits}
    wanted = [{"address": "192.0.2.1", **key(1, "sha1", KEY), "budget": 4}, {"address": "192.0.2.2", "name": "Ä", **key(3, "md5", "6b6579"), "budget": 9, "newer": key(9, "sha1", KEY)}]
    same("what it says", {"customer": wanted}, tomllib.loads(read("new.toml")))
    printed = run(["export", "--no-keys", *config], 0)[1]
    del wanted[0]["key"], wanted[1]["key"], wanted[1]["newer"]["key"]
    same("without keys", ({"customer": wanted}, False), (tomllib.loads(printed), "6b6579" in printed))
    same("into a file", (0, "2 customers\n", ""), run(["export", "--no-keys", room("bare.toml"), *config], umask=0))
    same("it is as it is printed", (printed, 0o600), (read("bare.toml"), os.stat(room("bare.toml")).st_mode & 0o7777))
    same("it is not applied", 1, run(["apply", room("bare.toml"), *config])[0])
    same("nothing else was written", (before, files | {"new.toml", "bare.toml"}), (read("commands"), {*os.listdir(judging.ROOM)}))


def test_export_of_histories_at_random_is_had_back():
    kinds = {"nobody": 0, "two keys": 0, "names": 0, "kept": 0}

    @settings(max_examples=LONG_HISTORIES if judging.IS_LONG else HISTORIES)
    @given(histories(200), histories(60), histories(10))
    def is_had_back(text, other, more):
        config = configured(answers=None)
        file_of("commands", text)
        customers, names = customers_now(), names_by(text)
        after, names = enrolled(customers), {it: names[it] for it in names if customers.get(it)}
        same("told", as_told(customers), told(*config))
        same("export", (0, f"{len(after)} customers\n", ""), run(["export", room("new.toml"), *config]))
        file = read("new.toml")
        in_order = sorted(after, key=lambda it: [*map(int, it.split("."))])
        same("what it says", (in_order, after, names), ([*said_by(file)[0]], *said_by(file)))
        for before in ("", other, text + more):
            file_of("commands", before)
            kinds["kept"] += any(it in enrolled(customers_now()) for it in after)
            apply(config, file)
            same("applied again", [], apply(config, file))
        kinds["nobody"] += not after
        kinds["two keys"] += any(len(it[0]) == 2 for it in after.values())
        kinds["names"] += bool(names)

    is_had_back()
    assert min(kinds.values()) >= 3, f"few kinds of histories: {kinds}"


def test_changes_make_keys_that_few_may_read():
    config = configured()
    for number in range(40):
        run(["enrol", f"192.0.2.{100 + number}", "--wait", "0", *config], umask=0)
    keys = [bytes.fromhex(it.split()[4]) for it in appended(enrolments(CUSTOMERS))]
    same("their lengths", {20}, {len(it) for it in keys})
    same("how many there are", 40, len({*keys}))
    same("octets of few values", [], [at for at, values in enumerate(zip(*keys)) if len({*values}) < 20])
    files = [it for it in os.listdir(judging.ROOM) if it.endswith(".keys")]
    same("files and their modes", (40, {0o600}), (len(files), {os.stat(room(it)).st_mode & 0o7777 for it in files}))


def test_changes_make_keys_of_characters():
    config, drawn = configured(), ""
    for number in range(60):
        words = ["enrol", f"192.0.2.{100 + number}", *(["--algorithm", "md5"] if number % 2 else [])] if number else ["rollover", "192.0.2.1"]
        before, path = read("commands"), room(f"{number}.keys")
        run([*words, "--text-key", "--wait", "0", "--output", path, *config], 3)
        command = appended(before)[0].split()
        algorithm, digits = command[3:5]
        number, word, key = read(os.path.basename(path)).splitlines()[0].split()
        text = key.removeprefix("ASCII:")
        same("its form", True, bool(re.fullmatch("ASCII:[A-Za-z0-9_-]{20}", key)))
        same("its octets", (command[2], algorithm.upper(), digits), (number, word, text.encode().hex()))
        same("for ntpd", True, f"#   {number} {algorithm} {text}\n" in read(os.path.basename(path)))
        drawn += text
    same("how many characters occur", 64, len({*drawn}))


def test_changes_take_keys_of_a_key_file():
    """A key of a key file of chrony: each form, and which line; it keeps its number, if nobody else has that. Its customer gets the file of a new one."""
    config, path = configured(), room("chrony.keys")
    octets = bytes(range(200, 220)).hex()
    file_of("chrony.keys", f"! a comment\n7 SHA1 HEX:{octets.upper()}\n")
    told = f"line {FIRST}: enrol 192.0.2.9 7 sha1 KEY 3\n"
    same("what would be", (0, told, ""), run(["enrol", "192.0.2.9", "--key-file", path, "--budget", "3", "--dry-run", *config]))
    status, out, _ = run(["enrol", "192.0.2.9", "--key-file", path, "--budget", "3", "--wait", "0", *config])
    same("the only one", (3, f"{told}for the customer: 192.0.2.9-7.keys\n", f"enrol 192.0.2.9 7 sha1 {octets} 3"), (status, out, lines_in("commands")[-1]))
    given = read("192.0.2.9-7.keys").splitlines()
    same("what the customer gets", (f"7 SHA1 HEX:{octets}", 0o600), (given[0], os.stat(room("192.0.2.9-7.keys")).st_mode & 0o7777))
    run(["enrol", "192.0.2.8", "--output", room("new.keys"), "--wait", "0", *config], 3)
    as_new = lambda text, number, address: re.sub(rf"\b{number}\b", "N", re.sub(r"[0-9a-f]{40}", "KEY", text).replace(address, "ADDRESS"))
    same("as one with a new key", as_new(read("new.keys"), 2, "192.0.2.8"), as_new(read("192.0.2.9-7.keys"), 7, "192.0.2.9"))
    file_of("chrony.keys", f"10 geheim\n\t11\tMD5 ASCII:pa$$wort\r\n  12 SHA1 {'x' * 32}\n13 SHA1 HEX:00ff\n14 AES128 HEX:00\n15 MD5 HEX:0\n16 MD5 {'y' * 33}\n1 MD5 a\n17 MD5 a b\n18 MD5 0123456789abcdef01234\n19 MD5 0123456789abcdef0123\n")
    good = ((10, "md5", b"geheim", "MD5 ASCII:geheim", "geheim"), (11, "md5", b"pa$$wort", "MD5 ASCII:pa$$wort", "pa$$wort"), (12, "sha1", b"x" * 32, f"SHA1 HEX:{'78' * 32}", "78" * 32), (13, "sha1", b"\0\xff", "SHA1 HEX:00ff", None),
            (19, "md5", b"0123456789abcdef0123", "MD5 ASCII:0123456789abcdef0123", "0123456789abcdef0123"))
    for number, algorithm, key, line, word in good:
        run(["enrol", f"192.0.2.{number}", "--key-file", path, "--number", f"{number}", "--output", room("it"), "--wait", "0", *config], 3)
        same(line, (f"enrol 192.0.2.{number} {number} {algorithm} {key.hex()} 10", f"{number} {line}"), (lines_in("commands")[-1], lines_in("it")[0]))
        same("for ntpd", [f"#   {number} {algorithm} {word}"] if word else [], [it for it in lines_in("it") if it.startswith(f"#   {number} {algorithm}")])
        os.remove(room("it"))
    before = read("commands")
    wanted = "a key of 1 to 32 octets is wanted, behind HEX: in digits"
    for number, told in (([], "there are keys 10, 11, 12, 13, 14, 15, 16, 1, 17, 18, 19: --number N is wanted"), ([14], "line 5: a key for MD5 or SHA1 is wanted"), ([15], f"line 6: {wanted}"), ([16], f"line 7: {wanted}"), ([17], "line 9: NUMBER [MD5|SHA1] [ASCII:|HEX:]KEY is wanted"),
                         ([18], "key 18: HEX: is wanted in front of more than 20 digits"), ([99], "there is no key 99")):
        same(told, (1, "", f"{path}: {told}\n"), run(["enrol", "192.0.2.30", "--key-file", path, *(word for it in number for word in ("--number", f"{it}")), *config]))
    same("a number that another has", (1, "", "refused key-taken: another customer has the key number\n"), run(["enrol", "192.0.2.30", "--key-file", path, "--number", "1", *config]))
    same("no file", 3, run(["enrol", "192.0.2.30", "--key-file", room("x"), *config])[0])
    file_of("chrony.keys", "# none\n")
    same("no key", (1, "", f"{path}: there is no key\n"), run(["enrol", "192.0.2.30", "--key-file", path, *config]))
    file_of("chrony.keys", b"\xff")
    same("no text", (1, "", f"{path}: this is no UTF-8\n"), run(["enrol", "192.0.2.30", "--key-file", path, *config]))
    same("nothing was written", ([], False), (appended(before), os.path.exists(room("it"))))


def test_changes_take_keys_of_a_key_file_of_ntpd():
    """Keys as ntp.keys(5) has them, of which more than 20 characters are digits: as they stand, and as the page has them written."""
    config, path, text, digits = configured(), room("ntp.keys"), 'L";Nw<`.I<f4U0)247"i', bytes(range(200, 220)).hex()
    file_of("ntp.keys", f"# ntpkey_MD5key\n\n 5 MD5 {text}\n11 SHA1 {digits}\n12 sha1 {digits}\n13 M {text}\n14 SHA1 HEX:{digits} # SHA1 key\n15 MD5 {digits[:32]}\n")
    other, two = "a key for MD5 or SHA1 is wanted", "key 15: HEX: is wanted in front of more than 20 digits"
    for number, told in ((11, "line 4: a key of 1 to 32 octets is wanted, behind HEX: in digits"), (12, f"line 5: {other}"), (13, f"line 6: {other}"), (14, "line 7: NUMBER [MD5|SHA1] [ASCII:|HEX:]KEY is wanted"), (15, two)):
        same(told, (1, "", f"{path}: {told}\n"), run(["enrol", "192.0.2.9", "--key-file", path, "--number", f"{number}", *config]))
    file_of("ntp.keys", re.sub(f" ({digits[:32]})", r" HEX:\1", read("ntp.keys").replace("sha1", "SHA1").replace(" M ", " MD5 ")))
    for number, algorithm, key in ((5, "md5", text.encode().hex()), (11, "sha1", digits), (12, "sha1", digits), (13, "md5", text.encode().hex()), (15, "md5", digits[:32])):
        run(["enrol", f"192.0.2.{number}", "--key-file", path, "--number", f"{number}", "--wait", "0", *config], 3)
        same(f"key {number}", f"enrol 192.0.2.{number} {number} {algorithm} {key} 10", lines_in("commands")[-1])


def test_changes_tell_where_the_customer_asks():
    """What the customer's file says: as the words have it, else as `served_as`, else as `listen` where that is one address."""
    for number, (listen, served, words, wanted) in enumerate((("0.0.0.0:123", "", [], "SERVER"), ("0.0.0.0:123", "198.51.100.7", [], "198.51.100.7"), ("192.0.2.200:321", "198.51.100.7", [], "198.51.100.7 port 321"), ("192.0.2.200:321", "", [], "192.0.2.200 port 321"),
                                                              ("0.0.0.0:123", "198.51.100.7", ["--server", "198.51.100.8"], "198.51.100.8"), ("inherited", "198.51.100.7", [], "198.51.100.7"))):
        config = configured()
        named = f'listen = "{listen}"\n' + (f'served_as = "{served}"\n' if served else "")
        file_of("labntpd.toml", re.sub("(?m)^listen = .*\n", named, read("labntpd.toml")))
        run(["enrol", "192.0.2.9", "--wait", "0", *words, *config], 3)
        same(f"{number}: {listen} and {served}", True, f"#   server {wanted} key 2 iburst xleave\n" in read("192.0.2.9-2.keys"))


def test_changes_at_0_0_0_0_on_a_host_with_several_addresses():
    """Where no address says where customers ask, and the host has several, a new customer's file and `check` come with a warning."""
    both, named, served_as = ["192.0.2.7", "198.51.100.9"], 'listen = "192.0.2.7:123" names one', 'served_as = "192.0.2.7"\n'
    handed = "ListenDatagram=192.0.2.7:123 names one"
    # Of a socket that is handed down it counts where one is bound.
    for addresses, listen, served, warned, bound in (
        (both, "0.0.0.0:123", "", named, ""), (both[:1], "0.0.0.0:123", "", "", ""), (both, "192.0.2.7:123", "", "", ""), (both, "0.0.0.0:123", served_as, "", ""), (both, "inherited", "", "", ""),
        (both, "inherited", "", handed, "0.0.0.0"), (both, "inherited", "", "", "192.0.2.7"), (both[:1], "inherited", "", "", "0.0.0.0"), (both, "inherited", served_as, "", "0.0.0.0"),
    ):
        host, config = on_a_host(addresses, 123, *filter(None, [bound])), configured(customers=[])
        path = file_of("labntpd.toml", re.sub("(?m)^listen = .*\n", f'listen = "{listen}"\n{served}', read("labntpd.toml")))
        os.chmod(room("commands"), 0o600)
        warning = f"warning: {path}: listen: replies from 0.0.0.0 leave from any address of this host, as 192.0.2.7 and 198.51.100.9: {warned}"
        told = lambda text: [it for it in text.splitlines() if it.startswith("warning: ")]
        same(f"check at {listen} {bound} and {addresses}", (0, [warning] if warned else []), (lambda it: (it[0], told(it[1])))(run(["check", *config], before=host)))
        for words, wanted in ((["enrol", "192.0.2.10"], warned), (["enrol", "192.0.2.11", "--server", "192.0.2.7"], False), (["rollover", "192.0.2.10"], warned), (["budget", "192.0.2.10", "7"], False)):
            same(f"{words} at {listen} {bound} and {addresses}", (3, [warning] if wanted else []), (lambda it: (it[0], told(it[2])))(run([*words, "--wait", "0", *config], before=host)))


def test_changes_to_another_address():
    with serving() as (port, config):
        run(["rollover", "127.0.0.1", *config], 0)
        run(["name", "127.0.0.1", "PTB", *config], 0)
        run(["budget", "127.0.0.1", "77", *config], 0)
        same("a query", "time", probe.ask(port, "plain", f"127.0.0.1/4/sha1/{KEY[::-1]}"))
        before, first = read("commands"), next_line() + 2
        lines, keys = customers_now(), customers_now()["127.0.0.1"]
        told = f"lines {first} to {first + 2}: 127.0.0.1 becomes 127.0.0.2: its counts and saved exchanges end\n"
        same("what would be", ((0, told, ""), before), (run(["move", "127.0.0.1", "127.0.0.2", "--dry-run", *config]), read("commands")))
        same("it is done", (0, f"{told}lines {first} to {first + 2}: done\n", ""), run(["move", "127.0.0.1", "127.0.0.2", *config]))
        verbs = ["# name 127.0.0.2 PTB", "revoke 127.0.0.1", "enrol 127.0.0.2 4 sha1", "rollover 127.0.0.2 2 sha1"]
        same("its lines", verbs, [" ".join(it.split()[:4]) for it in appended(before)])
        same("one record", 1, len([it for it in read("commands")[len(before) :].splitlines() if RECORD.fullmatch(it)]))
        same("who is enrolled", {**lines, "127.0.0.1": None, "127.0.0.2": keys}, customers_now())
        same("the daemon's answers", all_done(), lines_in("answers"))
        same("from the new address", "time", probe.ask(port, "plain", f"127.0.0.2/4/sha1/{KEY[::-1]}"))
        same("from the old one", "deny", probe.ask(port, "plain", f"127.0.0.1/4/sha1/{KEY[::-1]}"))
        listed = lambda: json.loads(run(["customers", "127.0.0.2", "--json", *config], 0)[1])
        until("labntpd reports it", lambda: '"127.0.0.2"' in read("customers"))
        same("its name", "PTB", listed()["name"])
        before = read("commands")
        for words, word in ((["127.0.0.1", "127.0.0.3"], "not-enrolled"), (["192.0.2.99", "127.0.0.3"], "not-enrolled"), (["192.0.2.1", "192.0.2.2"], "already-enrolled"), (["192.0.2.1", "192.0.2.1"], "already-enrolled")):
            same(" ".join(words), (1, "", f"refused {word}"), (lambda it: (*it[:2], it[2].partition(":")[0]))(run(["move", *words, *config])))
        same("nothing was written", before, read("commands"))
        # Back to an address that is revoked, with one key and no name.
        run(["move", "192.0.2.2", "127.0.0.1", *config], 0)
        same("its lines", ["revoke 192.0.2.2", "enrol 127.0.0.1 3 md5 6b6579 9"], appended(before))


def test_names_are_given_in_each_way():
    with serving() as (_, config):
        name = '\'PTB\', "Uhr 2" \\ ü'
        same("enrol", (0, f"line {FIRST + 1}: enrol 192.0.2.9 2 sha1 KEY 10\nfor the customer: 192.0.2.9-2.keys\nline {FIRST + 1}: done\n", ""), run(["enrol", "192.0.2.9", "--name", name, *config]))
        same("its lines", (f"# name 192.0.2.9 {name}", True), (lines_in("commands")[FIRST - 1], lines_in("commands")[FIRST].startswith("enrol 192.0.2.9 ")))
        listed = lambda: next(it for it in run(["customers", *config], 0)[1].splitlines() if it.startswith("192.0.2.9 "))
        until("labntpd has it", lambda: os.path.exists(room("customers")) and '"192.0.2.9"' in read("customers"))
        same("it is listed", True, listed().endswith(f" {name}"))
        same("another name", (0, "names: 1\n", ""), run(["name", "192.0.2.9", "a new one", *config]))
        same("it is listed", True, listed().endswith(" a new one"))
        same("as JSON too", "a new one", next(it for it in map(json.loads, run(["customers", "--json", *config], 0)[1].splitlines()) if it["address"] == "192.0.2.9")["name"])
        same("it is explained", True, "octets from 192.0.2.9 (a new one): " in run(["explain", "00", "--from", "192.0.2.9", *config], 0)[1])
        same("nobody's name", (1, "", "refused not-enrolled: the address is no customer\n"), run(["name", "192.0.2.99", "x", *config]))
        append_text(f"# name 192.0.2.9 another\n#name 192.0.2.9 x\n# name 192.0.2.9\n# name 192.0.2.999 x\n# name 192.0.2.9 a\tb\n# name 192.0.2.9 {'é' * 101}\n")
        same("a comment", True, listed().endswith(" another"))
        run(["export", room("new.toml"), *config], 0)
        file_of("new.toml", read("new.toml").replace('"another"', '"a third"'))
        same("a file", (0, '~ 192.0.2.9 name "another" -> "a third"\nnames: 1\n', ""), run(["apply", room("new.toml"), "--yes", *config]))
        file_of("new.toml", re.sub("name = .*\n", "", read("new.toml")))
        same("one without a name", (0, "nothing to change\n", ""), run(["apply", room("new.toml"), "--yes", *config]))
        same("its name", ("a third", True), (names_by(read("commands"))["192.0.2.9"], listed().endswith(" a third")))


CHANGED = "labntpd does not read this file any more: restart labntpd"
DIFFERS = "labntpd has other customers: restart labntpd, or mend this file, and try again"


def each_barred(config, what, *told):
    """Each change is barred, for what is told; one that is only shown is not."""
    before, there = read("commands"), customers_now()
    path = file_of("wanted.toml", wanted_text(there) + register_of([FIVE]).partition("\n")[2])
    for words in (["budget", "192.0.2.1", "7"], ["enrol", "192.0.2.77"], ["rollover", "192.0.2.1"], ["revoke", "192.0.2.1"], ["apply", path, "--yes"]):
        status, out, err = run([*words, *config])
        same(f"{what}: {words[0]}", (1, [*told[:-1], f"{room('commands')}: {told[-1]}"]), (status, err.splitlines()))
        same(f"{what}: {words[0]} is only shown", 0, run([*words, "--dry-run", *config])[0])
    same(f"{what}: what is written", ([], []), (appended(before), [it for it in os.listdir(judging.ROOM) if it.endswith(".keys")]))
    same(f"{what}: nothing to change", (0, "nothing to change\n", ""), run(["apply", file_of("same.toml", wanted_text(there)), *config]))


def test_changes_are_barred_by_a_labntpd_that_reads_no_more():
    with serving(statistics="statistics") as (_, config):
        until("it reports", lambda: os.path.exists(room("customers")))
        run(["budget", "192.0.2.1", "12", *config], 0)
        file_of("edited", read("commands") + "# a comment\n")
        os.rename(room("edited"), room("commands"))
        until("it tells that", lambda: "labntp_commands_changed 1\n" in read("statistics"), 30)
        each_barred(config, "another file", CHANGED)
    with served(config):
        until("it tells that no more", lambda: "labntp_commands_changed 0\n" in read("statistics"), 30)
        until("and has its customers", lambda: told(*config) == as_told(customers_now()))
        run(["budget", "192.0.2.1", "13", *config], 0)


def test_changes_are_barred_by_customers_that_differ():
    """Customers of labntpd that differ bar each change, but where it may not have read all lines yet."""
    config = configured(commands="budget 192.0.2.1 5\nbudget 192.0.2.1 6\nrevoke 192.0.2.2\nenrol 192.0.2.7 7 md5 aa 1\n", statistics="statistics")
    file_of("statistics", "labntp_commands_changed 0\nlabntp_commands_changed_ 1\n")
    whole, head = read("commands"), enrolments(CUSTOMERS)
    free = lambda: run(["budget", "192.0.2.1", "6", "--wait", "0", *config])[0]

    def seen(commands, younger):
        seen_file(commands)
        file_of("commands", whole)
        os.utime(room("customers"), times=(time.time(),) * 2)
        os.utime(room("commands"), times=(time.time() - younger,) * 2)

    for text, lines in ((whole + "budget 192.0.2.1 7\n", ["192.0.2.1: labntpd has budget 7, the commands file 6"]), (whole + "enrol 192.0.2.8 9 md5 aa 1\n", ["192.0.2.8: enrolled at labntpd, unknown in the commands file"]),
                        (head.replace("192.0.2.1 1 ", "192.0.2.1 8 ") + whole[len(head) :], ["192.0.2.1: labntpd has key 8 (sha1, 20 octets), the commands file key 1 (sha1, 20 octets)"])):
        for younger in (-5, 0, 10):
            seen(text, younger)
            each_barred(config, f"customers that never were, {younger} seconds", *lines, DIFFERS)
    # What labntpd had once, or has not yet.
    for text in (head, head + "budget 192.0.2.1 5\n", head.splitlines(True)[0], ""):
        for younger in (-5, 0):
            seen(text, younger)
            same("it may not have read all", 3, free())
    seen(head + "budget 192.0.2.1 5\n", 10)
    each_barred(config, "lines that it has not carried out", "192.0.2.1: labntpd has budget 5, the commands file 6", "192.0.2.2: enrolled at labntpd, revoked in the commands file", "192.0.2.7: unknown at labntpd, enrolled in the commands file", DIFFERS)
    seen(whole, 10)
    file_of("statistics", "x 1\nlabntp_commands_changed 1\n")
    each_barred(config, "the statistics", CHANGED)
    for words in ([], ["--json"]):
        same("a list tells that", (0, f"{room('commands')}: {CHANGED}\n"), (run(["customers", *words, *config])[::2]))
    for name in ("statistics", "customers"):
        os.remove(room(name))
        os.mkdir(room(name))
        same(f"{name} that is no file", (3, "", f"{room(name)}: a regular file is wanted\n"), run(["budget", "192.0.2.1", "7", *config]))
        os.rmdir(room(name))
    same("with neither", 3, free())


def next_number():
    given = {*re.findall(r"(?m)^(?:enrol|rollover) \S+ (\d+)", read("commands"))}
    return next(it for it in range(1, 65536) if str(it) not in given)


# A change: its verb, the address by number, a budget, an algorithm, and the number that `retire` names, if it names one.
VERBS = any_of(("revoke", "budget", "retire", "retire", "rollover", "rollover", "enrol", "enrol"))
CHANGES = st.tuples(VERBS, st.integers(1, 12), st.integers(1, 65535), any_of(("md5", "sha1")), st.none() | st.integers(1, 15))


def change_of(judge, verb, address, budget, algorithm, number):
    """The words of a change, and its line as the model expects it, with KEY in the place of a key."""
    address = f"192.0.2.{address}"
    enrolment = judge.enrolments.get(address)
    older = next(iter(enrolment.keys)) if enrolment else 1
    words, line = {
        "enrol": (["--budget", str(budget), "--algorithm", algorithm], f"enrol {address} {next_number()} {algorithm} KEY {budget}"),
        "revoke": ([], f"revoke {address}"),
        "budget": ([str(budget)], f"budget {address} {budget}"),
        "rollover": (["--algorithm", algorithm], f"rollover {address} {next_number()} {algorithm} KEY"),
        "retire": ([*(["--number", str(number)] if number else []), "--yes"], f"retire {address} {number or older}"),
    }[verb]
    if verb in ("enrol", "rollover"):
        words += ["--output", room(f"{next_line()}.keys")]
    return [verb, address, *words], line


def test_many_at_random_are_the_models():
    done = {}

    @settings(max_examples=LONG_SEQUENCES if judging.IS_LONG else SEQUENCES)
    @given(many(CHANGES, 60))
    def are_the_models(changes):
        judge = model.Model()
        for line in enrolments(CUSTOMERS).splitlines():
            same("a customer at first", "done", judge.line(line))
        with serving() as (_, config):
            for change in changes:
                words, line = change_of(judge, *change)
                before = read("commands")
                answer = judge.line(line.replace("KEY", KEY))
                status, out, err = run([*words, *config])
                lines = [re.sub(r"\b[0-9a-f]{40}\b", "KEY", it) for it in appended(before)]
                # Behind a refusal's word stands what it means.
                wanted = (0, "", [line], ": done\n") if answer == "done" else (1, answer, [], "")
                same(line, wanted, (status, err.partition(":")[0], lines, out[-7:]))
                done[answer] = done.get(answer, 0) + 1
            same("who is enrolled at the end", as_told(customers_now()), told(room("commands")))
            same("the daemon refused nothing", {"done"}, {it.split(" ", 1)[1] for it in lines_in("answers")} or {"done"})

    are_the_models()
    assert len(done) >= 6, f"few kinds of answers: {done}"


def test_many_kills_at_each_call():
    with serving() as (_, config):
        for turn in range(1, 100_000):
            address = f"10.0.{turn >> 8}.{turn & 255}"
            if killed_at(["enrol", address, "--output", room(f"{address}.keys"), *config], turn):
                break
            same("it ends with a line feed", "\n", read("commands")[-1])
        lines = [ENROL.fullmatch(it) for it in appended(enrolments(CUSTOMERS))]
        until("each is answered", lambda: len(lines_in("answers")) == len(all_done()))
        same("done", all_done(), lines_in("answers"))
        assert 3 < len(lines) < turn - 3, f"{len(lines)} of {turn} lines were written"
        # A line that was written has its customer's file, whole: that one is stored first.
        for address, number, algorithm, key in (it.group(1, 2, 3, 4) for it in lines):
            same("what the customer gets", f"{number} {algorithm.upper()} HEX:{key}", read(f"{address}.keys").splitlines()[0])


@pytest.mark.proved_alone(SLOW)
def test_many_clerks_at_once():
    with serving() as (_, config), concurrent.futures.ThreadPoolExecutor(6) as clerks:
        addresses = [f"10.1.{which}.{turn}" for turn in range(12) for which in range(6)]
        told = dict(zip(addresses, clerks.map(lambda it: run(["enrol", it, "--output", room(f"{it}.keys"), "--wait", "30", *config]), addresses)))
        same("statuses", {0}, {status for status, *_ in told.values()})
        lines = [ENROL.fullmatch(it) for it in appended(enrolments(CUSTOMERS))]
        same("as many lines", 72, len(lines))
        same("each address once", {*told}, {it[1] for it in lines})
        same("the lowest numbers", sorted(it for it in range(1, 76) if it not in (1, 3, 4)), sorted(int(it[2]) for it in lines))
        for turn, it in enumerate(lines):
            place = FIRST + 2 * turn
            same("what its clerk was told", (True, True), tuple(word in told[it[1]][1] for word in (f"line {place}: enrol {it[1]} {it[2]} ", f"line {place}: done\n")))
        same("done", all_done(), lines_in("answers"))


def new_keys(config):
    """A customer's two keys: their algorithms, with the first words of their files."""
    for algorithm, verb in (("md5", "enrol"), ("sha1", "rollover")):
        run([verb, "127.0.0.1", "--algorithm", algorithm, "--output", room(f"{algorithm}.keys"), *config], 0)
        yield algorithm, read(f"{algorithm}.keys").split()[:3]


def test_given_key_is_good_at_labntpd_and_labntp_query_reads_it():
    with serving(customers=[]) as (port, config):
        for algorithm, (number, word, key) in new_keys(config):
            same("its algorithm", algorithm.upper(), word)
            same(f"a query under {algorithm}", "time", probe.ask(port, "plain", f"127.0.0.1/{number}/{algorithm}/{key.removeprefix('HEX:')}"))
            status, out, _ = asked_of([QUERY, "--key-file", room(f"{algorithm}.keys"), "--number", number, f"127.0.0.1:{port}"])
            same(f"labntp-query under {algorithm}", (0, "basic"), (status, out.partition(":")[0]))


def asked_of(words, seconds=30, **how):
    """A run of another program, which shows no key: its status, and what it prints."""
    ran = subprocess.run(words, cwd=judging.ROOM, stdin=subprocess.DEVNULL, capture_output=True, text=True, timeout=seconds, **how)
    shows_no_key(ran.stdout, ran.stderr)
    return ran.returncode, ran.stdout, ran.stderr


def test_given_key_is_read_by_chronyd():
    with serving(customers=[]) as (_, config):
        for algorithm, _ in new_keys(config):
            server = re.search(r"^#   (server .* xleave)$", read(f"{algorithm}.keys"), re.M)[1]
            status, out, err = asked_of([*labntpd_server.chronyd("-Q"), server, f"keyfile {room(f'{algorithm}.keys')}", "cmdport 0", f"pidfile {room('chronyd.pid')}"])
            same(f"with the {algorithm} key", (0, True), (status, "System clock wrong by" in out + err))
            same("it takes each line", False, "Could not" in out + err)


def test_given_key_is_read_by_ntpdig():
    """The line for NTPsec's key file, out of its comment, is ntpdig's key file."""
    with serving(customers=[]) as (port, config):
        for algorithm, (number, *_) in new_keys(config):
            file_of("ntp.keys", re.search(rf"^#   ({number} {algorithm} [0-9a-f]+)$", read(f"{algorithm}.keys"), re.M)[1] + "\n")
            words, environment = peers.ntpdig(port, "-t", "2", "-a", number, "-k", room("ntp.keys"), "127.0.0.1")
            status, out, err = asked_of(words, env=environment)
            same(f"under {algorithm}: {err[-200:]!r}", (0, True), (status, out.strip().endswith("127.0.0.1 s1 no-leap")))


LIMIT = re.compile(r"^ +update @sources \{ ip saddr limit rate over (\d+)/second burst (\d+) packets \} counter drop$", re.M)


def let_in(text):
    return re.findall(r"^            (\S+),$", text, re.M)


def place_in(text):
    """Where rules apply, and the table that has them."""
    where = re.findall(r"^ +ip daddr (\S+) udp dport (\d+) ip saddr != (\S+) jump queries$", text, re.M)
    return where, re.findall(r"^(.*table inet .*)$", text, re.M)[1:]


def many_customers(budgets):
    return [(f"192.0.2.{number}", number, "sha1", f"{number:040x}", budget) for number, budget in enumerate(budgets, 1)]


def test_door_lets_customers_in():
    lines = [f"enrol 192.0.2.3 2 sha1 {KEY} 7", "revoke 192.0.2.1", "nonsense", "revoke 192.0.2.99"]
    config = configured(commands="".join(f"{it}\n" for it in lines) + "revoke 192.0.2.2")
    status, out, err = run(["door", *config])
    same("printed", (0, "", [("200", "400")]), (status, err, LIMIT.findall(out)))
    same("customers", sorted([*(it[0] for it in CUSTOMERS), "192.0.2.3"]), sorted(let_in(out)))
    config = configured(commands="".join(f"{it}\n" for it in lines))
    run(["enrol", "192.0.2.9", "--wait", "0", *config], 3)
    same("who was enrolled since", True, "192.0.2.9" in let_in(run(["door", *config], 0)[1]))
    same("another rate", [("65535", "131070")], LIMIT.findall(run(["door", "--rate", "65535", *config], 0)[1]))


def test_door_has_rules_that_nft_takes():
    many = [(f"10.{number >> 8}.{number & 255}.7", number, "md5", f"{number:04x}", number) for number in range(1, 8001)]
    printed = [run(["door", *configured(customers=customers)], 0)[1] for customers in ([], CUSTOMERS, many)]
    own_network.find_nft()
    for out in printed:
        own_network.nft("-c", "-f", "-", given=out)
        own_network.nft("-c", "-f", "-", given=out + out)


def test_door_has_rules_that_apply_where_it_serves():
    """Where the rules apply: where the words say it, else where the daemon listens, or else as what it is served."""
    config = configured()
    for listen, word, wanted in (("127.0.0.1:20123", "192.0.2.7", ("192.0.2.7", "20123")), ("0.0.0.0:20123", "192.0.2.7", ("192.0.2.7", "20123")),
                                 ("0.0.0.0:20123", "192.0.2.7:99", ("192.0.2.7", "99")), ("inherited", "192.0.2.7", ("192.0.2.7", "123"))):
        file_of("labntpd.toml", re.sub("listen = .*", f'listen = "{listen}"', read("labntpd.toml")))
        table = "table inet labntpd-{}-{}".format(*wanted)
        printed = place_in(run(["door", "--address", word, *config], 0)[1])
        same(f"{listen}, {word}", ([(*wanted, wanted[0])], [table, f"delete {table}", f"{table} {{"]), printed)
    for listen in ("0.0.0.0:20123", "inherited"):
        file_of("labntpd.toml", re.sub("listen = .*", f'listen = "{listen}"', read("labntpd.toml")))
        told = f"{room('labntpd.toml')}: `listen` and `served_as` name no address: --address ADDRESS is wanted\n"
        same(listen, (1, "", told), run(["door", *config]))
        file_of("labntpd.toml", f'served_as = "198.51.100.7"\n{read("labntpd.toml")}')
        same(f"{listen}, served as another", [("198.51.100.7", listen.partition(":")[2] or "123", "198.51.100.7")], place_in(run(["door", *config], 0)[1])[0])
        file_of("labntpd.toml", read("labntpd.toml").partition("\n")[2])
    for words in (["--address", "0.0.0.0"], ["--address", "localhost"], ["--address", "192.0.2.7:0"], ["--address", "::1"], ["--rate", "0"], ["--rate", "65536"], ["192.0.2.7"]):
        status, out, err = run(["door", *config, *words])
        same(" ".join(words), (2, "", True), (status, out, bool(err)))


SECRET = "9f" * 20


class Planted:
    """A file in which faults stand in lines that are known."""

    def __init__(self, name):
        self.name, self.lines, self.wanted = name, [], []

    def add(self, *lines):
        self.lines += lines

    def plant(self, line, words, at=None):
        """Adds a line with a fault, of which these words are told, at this line or at another."""
        self.lines.append(line)
        self.wanted.append((at or len(self.lines), words))

    def write(self, end="\n"):
        file_of(self.name, ("\n".join(self.lines) + end).encode(errors="surrogateescape"))
        return room(self.name)


def faults_told(out):
    """The faults that were told: path, line and what is said."""
    faults = [re.fullmatch(r"(\S+?): line (\d+): (.*)", it) for it in out.splitlines() if not it.startswith("warning: ")]
    assert None not in faults, f"no fault of a line: {out}"
    return [(it[1], int(it[2]), it[3]) for it in faults]


def same_faults(planted, out):
    """Each fault is told, in the order of the lines, and no other."""
    told = [(line, what) for path, line, what in faults_told(out) if path == room(planted.name)]
    wanted = sorted(planted.wanted, key=lambda it: it[0])
    same(f"lines of {planted.name}", [it[0] for it in wanted], [it[0] for it in told])
    for (line, words), (_, what) in zip(wanted, told):
        for word in words:
            assert word in what, f"{planted.name}: line {line}: {word!r} is not told in {what!r}"
    return len(wanted)


def customer_lines(it, **other):
    """The lines of a customer; None leaves a key out."""
    values = {"address": f'"10.0.{it // 256}.{it % 256}"', "number": str(it), "algorithm": '"sha1"', "key": f'"{it:040x}"', "budget": "10"}
    return [f"{key} = {value}" if value is not None else f"# no {key}" for key, value in {**values, **other}.items()]


# Of a customer: the key, what stands there, and what is told of it.
CUSTOMER_FAULTS = [
    ("address", '"10.0.0.300"', ["address: an IPv4 address", '"10.0.0.300" stands there']), ("address", "7", ["address: an IPv4 address", "7 stands there"]),
    ("address", '"localhost"', ['"localhost" stands there']), ("address", f'"{SECRET}"', ["address", "a word of 40 octets"]),
    ("number", "0", ["number: a whole number from 1 to 65535 is wanted", "0 stands there"]), ("number", "70000", ["70000 stands there"]), ("number", "-1", ["-1 stands there"]),
    ("number", '"7"', ['"7" stands there']), ("number", "1.5", ["number", "float"]), ("number", f'"{SECRET}"', ["a word of 40 octets"]),
    ("algorithm", '"MD5"', ['algorithm: "md5" or "sha1" is wanted', '"MD5" stands there']), ("algorithm", "true", ["boolean"]), ("algorithm", f'"{SECRET}"', ["a word of 40 octets"]),
    ("key", f'"{SECRET[1:]}"', ["key: 2 to 64 hexadecimal digits, an even number, are wanted", "39 digits"]), ("key", f'"{SECRET[:40]}{SECRET[:26]}"', ["66 digits"]),
    ("key", f'"{SECRET[:6]}x{SECRET[:9]}"', ["octet 7 is no digit"]), ("key", '""', ["0 digits"]), ("key", "16", ["key", "16 stands there"]),
    ("budget", "0", ["budget: a whole number from 1 to 65535 is wanted", "0 stands there"]), ("budget", "65536", ["65536 stands there"]), ("budget", "[1]", ["array"]),
    *((key, None, [f"{key}: this key is missing"]) for key in ("address", "number", "algorithm", "key", "budget")),
    ("address", '"10.0.0.3"', ["10.0.0.3: address: it stands in the file twice"]), ("number", "3", ["number: it stands in the file twice"]),
    ("name", '""', ["name: a text of 1 to 200 octets without control characters is wanted"]), ("name", f'"{"é" * 100}x"', ["name"]), ("name", '"a\\u0007b"', ["name"]), ("name", f'"{SECRET}\\n"', ["name"]), ("name", "7", ["name"]),
    ("note", '"x"', ["note: there is no such key"]), ("reference", '"x"', ["reference: there is no such key"]), ("newer", "7", ["newer: a table with number, algorithm and key is wanted", "7 stands there"]),
    ("newer", f'{{ number = 60000, algorithm = "sha1", key = "{SECRET[1:]}" }}', ["newer.key: 2 to 64 hexadecimal digits", "39 digits"]), ("newer", f'{{ number = 60001, key = "{SECRET}" }}', ["newer.algorithm: this key is missing"]),
    ("newer", f'{{ number = 3, algorithm = "sha1", key = "{SECRET}" }}', ["newer.number: it stands in the file twice"]), ("newer", f'{{ number = 0, algorithm = "sha1", key = "{SECRET}" }}', ["newer.number", "0 stands there"]),
    ("newer", f'{{ number = 60002, algorithm = "sha1", key = "{SECRET}", budget = 1 }}', ["newer.budget: there is no such key"]),
]


def planted_wanted(lines):
    """A file of customers of so many lines, with each fault of a customer, which is told where the customer begins, and of its top level."""
    file, plants, number = Planted("wanted.toml"), list(CUSTOMER_FAULTS), 1
    file.add("# customers", 'reference = "x"')
    file.plant('referense = "x"', ["referense: there is no such key"])
    file.plant("[other]", ["other: there is no such key"])
    while len(file.lines) < lines - 20:
        file.add("", "[[customer]]")
        head, number = len(file.lines), number + 1
        key, value, words = plants.pop(0) if number % 17 == 0 and plants else (None, None, [])
        for line in customer_lines(number, **({key: value} if key else {})):
            is_it = key and line.split(" ")[0] == key or line == f"# no {key}"
            who = "customer " if key == "address" else f"customer 10.0.{number // 256}.{number % 256}: "
            file.plant(line, [who, *words], head) if is_it else file.add(line)
    same("each fault of a customer is planted", [], plants)
    file.add(*["# the end"] * (lines - len(file.lines)))
    return file


# A line of commands, and what is told of it: behind 10.1.0.1, which has key 2001, and 10.1.0.2, which has 2002 and 2003.
COMMAND_FAULTS = [
    ("nonsense", ["column 1", "faulty word", '"nonsense"']), ("Enrol 10.1.0.9 9 sha1 aa 1", ["faulty word", '"Enrol"']), (" revoke 10.1.0.1", ["faulty word", '""']), (SECRET, ["faulty word", "a word of 40 octets"]),
    ("revoke", ["faulty count", "1 words"]), (f"enrol 10.1.0.9 9 sha1 {SECRET}", ["faulty count", "5 words"]), ("budget 10.1.0.1  5", ["faulty count", "4 words"]), ("revoke 10.1.0.1 ", ["faulty count", "3 words"]),
    ("revoke 10.1.0", ["column 8", "faulty address", '"10.1.0"']), ("revoke 10.1.0.1\r", ["column 8", "faulty address", '"10.1.0.1\\r"']), ("budget 010.1.0.1 5", ["faulty address"]), (f"budget {SECRET} 5", ["faulty address", "a word of 40 octets"]),
    (f"enrol 10.1.0.9 0 sha1 {SECRET} 5", ["column 16", "faulty number", '"0"']), (f"rollover 10.1.0.1 65536 sha1 {SECRET}", ["column 19", "faulty number", '"65536"']), (f"enrol 10.1.0.9 {SECRET} sha1 9 5", ["faulty number", "a word of 40 octets"]),
    ("retire 10.1.0.1 x", ["column 17", "faulty number", '"x"']), (f"enrol 10.1.0.9 9 sha256 {SECRET} 5", ["column 18", "faulty algorithm", '"sha256"']), (f"rollover 10.1.0.1 9 {SECRET} sha1", ["faulty algorithm", "a word of 40 octets"]),
    (f"enrol 10.1.0.9 9 md5 {SECRET[1:]} 5", ["column 22", "faulty key", "39 digits"]), (f"enrol 10.1.0.9 9 md5 {SECRET}:{SECRET} 5", ["faulty key", "octet 41 is no digit"]), (f"rollover 10.1.0.1 9 md5 {SECRET}\r", ["faulty key", "octet 41 is no digit"]),
    (f"enrol 10.1.0.9 9 md5 {SECRET} 0", ["column 63", "faulty budget", '"0"']), ("budget 10.1.0.1 65536", ["column 17", "faulty budget", '"65536"']), (f"budget 10.1.0.1 {SECRET}", ["faulty budget", "a word of 40 octets"]),
    (f"enrol 10.1.0.1 9 sha1 {SECRET} 5", ["refused already-enrolled: the address is a customer already"]), (f"enrol 10.1.0.9 2001 sha1 {SECRET} 5", ["refused key-taken: another customer has the key number"]),
    ("revoke 10.1.0.9", ["refused not-enrolled: the address is no customer"]), (f"rollover 10.1.0.1 2001 sha1 {SECRET}", ["refused same-number: the address has this key number already"]),
    (f"rollover 10.1.0.2 9 sha1 {SECRET}", ["refused room-full: the address has two keys already"]), ("retire 10.1.0.1 2001", ["refused only-key: this is the only key of the address"]),
    ("retire 10.1.0.2 9", ["refused not-held: the address has no key of this number"]), ("revoke " + "x" * 4090, ["faulty line-long"]), ("revoke " + "x" * 4089, ["faulty address"]), ("revoke 10.1.0.1\udcff", ["faulty not-utf8"]),
]


def planted_commands(lines):
    file, plants = Planted("commands"), list(COMMAND_FAULTS)
    file.add("# commands", f"enrol 10.1.0.1 2001 sha1 {SECRET} 5", f"enrol 10.1.0.2 2002 sha1 {SECRET} 5", f"rollover 10.1.0.2 2003 sha1 {SECRET}")
    while len(file.lines) < lines - 1:
        number = len(file.lines)
        if number % 97 == 0 and plants:
            file.plant(*plants.pop(0))
        else:
            file.add(("", "# a comment", f"budget 10.1.0.1 {number % 90 + 2}", "budget 10.1.0.2 9")[number % 4])
    same("each fault of a line is planted", [], plants)
    file.plant("revoke 10.1.0.2", ["a line feed at its end is wanted"])
    return file


def planted_configuration():
    file = Planted("labntpd.toml")
    file.add(f'commands = "{room("commands")}"', "")
    for line, words in (
        ('listen = "10.0.0.1:0"', ["listen: an IPv4 address with a port", '"10.0.0.1:0" stands there']), ('register = "x"', ["register: customers stand in the commands file alone"]),
        ('answers = ""', ["answers: the path of a file is wanted", '"" stands there']), ("statistics = 7", ["statistics: the path of a file is wanted", "7 stands there"]),
        ("receive_buffer = 1000", ["receive_buffer: a whole number of octets", "1000 stands there"]), ('send_buffer = "1 MiB"', ["send_buffer: a whole number of octets", '"1 MiB" stands there']),
        ("longest_wait = 0.1", ["longest_wait: a number of seconds from 0.15 to 60 is wanted", "float"]), ("longest.wait = 1", ["longest: there is no such key"]),
        ('served_as = "ntp.example"', ["served_as: an IPv4 address", '"ntp.example" stands there']), ("spin = 1", ["spin: true or false is wanted", "1 stands there"]), ("[clock]", ["clock.key_file: this key is missing"]),
        ('source = "127.0.0.1"', ["clock.source: an IPv4 address with a port", '"127.0.0.1" stands there']), ("number = 0", ["clock.number: a whole number from 1 to 65535 is wanted"]),
        ('algorithm = "SHA1"', ['clock.algorithm: "md5" or "sha1" is wanted', '"SHA1" stands there']), ("valid_for = 1", ["clock.valid_for"]), ("most_root_distance = 17", ["clock.most_root_distance"]),
        ("most_reference_age = 0", ["clock.most_reference_age"]), ("most_step = 3601", ["clock.most_step"]), ("most_steps = 3", ["clock.most_steps: there is no such key"]),
        ('reference = "x"', ["clock.reference: there is no such key"]), ("[clocks]", ["clocks: there is no such key"]),
    ):
        file.plant(line, words)
    return file


@pytest.mark.proved_alone(SLOW)
def test_check_tells_every_fault_with_its_line():
    fresh()
    files = [planted_configuration(), planted_commands(5_000), planted_wanted(5_000)]
    for file in files:
        file.write("" if file.name == "commands" else "\n")
    same("lines", [5_000, 5_000], [len(it.lines) for it in files[1:]])
    status, out, err = run(["check", "--config", room("labntpd.toml"), "--wanted", room("wanted.toml")])
    same("status", (1, ""), (status, err))
    same("no key is shown", False, SECRET[:12] in out)
    told = [same_faults(it, out) for it in files]
    same("files in their order", sorted(range(3), key=lambda it: out.index(room(files[it].name))), [0, 1, 2])
    assert sum(told) >= 90, f"only {told} faults are planted"
    status, alone, _ = run(["check", room("commands"), "--wanted", room("wanted.toml")])
    same("by themselves", (1, faults_told(out)[told[0] :]), (status, faults_told(alone)))
    config, before = configured(), read("commands")
    status, alone, err = run(["apply", files[2].write(), "--yes", *config])
    same("applied", (1, "", faults_told(out)[-told[2] :], before), (status, alone, faults_told(err), read("commands")))


def test_check_explains_each_word():
    fresh()
    listed = re.search(r"append them corrected\.\n\n(.*?)\n\n", text_of("docs/OPERATIONS.md"), re.S)[1]
    words = [word for line in listed.splitlines() if line.startswith("- ") for word in re.findall(r"`([a-z0-9-]+)`", line.split(":")[0])]
    refusals = re.search(r"`refused REFUSAL`, with (.*?) \(", text_of("docs/FORMATS.md"), re.S)[1]
    same("the refusals of both documents", {*re.findall(r"`([a-z-]+)`", refusals)}, {it for it in words if "-" in it} - {"line-long", "not-utf8"})
    planted_commands(5_000).write("")
    out = run(["check", room("commands")], 1)[1]
    # Want of memory ends the program.
    for word in {*words} - {"no-memory"}:
        assert re.search(rf": (faulty|refused) {word}: \w.{{10,}}", out), f"{word} is not told with its meaning"
    same("no word is missing here", 17, len({*words}))


def checked(*words):
    """The status of a check, and what it tells but for warnings."""
    status, out, _ = run(["check", *words])
    return status, "".join(it for it in out.splitlines(True) if not it.startswith("warning: "))


def test_check_of_other_files():
    config, commands, conf, wanted = configured(), room("commands"), room("labntpd.toml"), file_of("wanted.toml", register_of([*CUSTOMERS, FIVE]))
    same("nothing is wrong", (0, "ok: 3 customers\n"), checked(*config))
    same("with a file of customers", (0, f"ok: 3 customers\n{wanted}: 4 customers\n"), checked(*config, "--wanted", wanted))
    for name, text, status, told in (
        ("labntpd.toml", b"\xff", 1, f"{conf}: this is no UTF-8"), ("labntpd.toml", b"a = 1\na = 2\n", 1, f"{conf}: line 2: column 1: this is no TOML: "), ("labntpd.toml", b"#" * 65_537, 1, f"{conf}: at most 65536 octets are wanted"),
        ("labntpd.toml", None, 3, f"{conf}: No such file or directory (os error 2)"), ("commands", None, 3, f"{commands}: No such file or directory (os error 2)"), ("commands", b"\n\n\xff", 1, f"{commands}: line 3: a line feed at its end is wanted"),
        ("commands", b"\n\xff\n", 1, f"{commands}: line 2: faulty not-utf8: "), ("wanted.toml", b"# \n# \xff\n", 1, f"{wanted}: line 2: this is no UTF-8"), ("wanted.toml", None, 3, f"{wanted}: No such file or directory (os error 2)"),
        ("wanted.toml", b'reference = "x"\n  [[customer]\n', 1, f"{wanted}: line 2: column 14: this is no TOML: "), ("wanted.toml", b"customer = 7\nreference = 5\n", 1, f"{wanted}: line 1: customer: an array of tables is wanted"),
        ("wanted.toml", b'customer = [\n  {address = "10.0.0.1", number = 0},\n  7]\n', 1, f"{wanted}: customer 10.0.0.1: number: a whole number"),
    ):
        configured()
        file_of("wanted.toml", "")
        os.remove(room(name)) if text is None else file_of(name, text)
        seen, out, err = run(["check", *config, "--wanted", wanted])
        same(f"status of {told}", (status, "", True), (seen, err, told in out))
        if name == "wanted.toml":
            status, out, err = run(["apply", wanted, *config])
            same(f"{told} where it is applied", (seen, "", True), (status, out, told.replace("line 2: this is no UTF", "this is no UTF") in err))
    configured(statistics="commands")
    file_of("labntpd.toml", read("labntpd.toml").replace(f'customers = "{room("customers")}"', f'customers = "{room("no/customers")}"'))
    same("places", f"{conf}: statistics: another file than that of commands is wanted\n{conf}: customers: {room('no/customers')}: No such file or directory (os error 2)\n"
         f"{conf}: customers (FILE.new): {room('no/customers.new')}: No such file or directory (os error 2)\n", checked(*config)[1])
    configured()
    text = re.sub("reference = .*", "", read("labntpd.toml")).replace('source = "fixed"', f'source = "127.0.0.1:123"\nnumber = 1\nalgorithm = "md5"\nkey_file = "{room("clock.key")}"')
    file_of("labntpd.toml", text)
    for key, told in ((f"{SECRET}\n", None), (SECRET, None), ("", "line 1: one line of 2 to 64 hexadecimal digits is wanted; 0 digits stand there"), (f"{SECRET}x\n", "; octet 41 is no digit"),
                      (f"{SECRET}\n\n", "line 2: one line of 2 to 64 hexadecimal digits is wanted; 1 octets stand behind it")):
        file_of("clock.key", key)
        status, out, _ = run(["check", *config])
        same(f"a key of {len(key)} octets", (int(bool(told)), True), (status, (told or "ok: 3 customers") in out))
    os.remove(room("clock.key"))
    same("no key", (3, f"{room('clock.key')}: No such file or directory (os error 2)\n"), checked(*config))


@pytest.mark.proved_alone(SLOW)
def test_check_tells_what_is_hardly_meant():
    multicast, md5 = "no host sends from a multicast address", "the key is for MD5, the weaker algorithm"
    small, large = "budget 1: of a client that asks each 64 seconds two queries may fall into one window", "budget 12801: the rules of `labntpctl door` let 12800 queries pass in 64 seconds"
    hosts = [("0.1.2.3", "no host sends from network 0"), ("224.0.0.1", multicast), ("239.255.255.255", multicast), ("240.0.0.1", "no host sends from network 240/4, which is reserved"), ("255.255.255.255", "no host sends from the broadcast address")]
    others = [("223.255.255.255", "sha1", KEY, 12800, None), ("10.0.0.1", "md5", KEY, 2, md5), ("10.0.0.2", "sha1", KEY[:30], 2, "the key has fewer than 16 octets: 15"), ("10.0.0.3", "sha1", KEY[:32], 1, small), ("10.0.0.4", "sha1", KEY, 12801, large)]
    rows = [*((address, "sha1", KEY, 10, said) for address, said in hosts), *others]
    text = "".join(judging.table(address, number, *it) for number, (address, *it, _) in enumerate(rows, 1))
    config = configured(customers=[(address, number, *it) for number, (address, *it, _) in enumerate(rows, 1)], commands=f"revoke 10.0.0.1\nbudget 10.0.0.4 20000\nrollover 10.0.0.4 12 md5 {KEY}\nbudget 10.0.0.2 1\n# the end\n")
    wanted = file_of("wanted.toml", f'{text}newer = {{ number = 12, algorithm = "md5", key = "{KEY}" }}\n')
    status, out, err = run(["check", *config, "--wanted", wanted])
    found = [(name, int(line), said) for name, line, said in re.findall(r"^warning: \S+/(\S+): line (\d+): (.*)$", out, re.M)]
    expected = [("commands", line, it[4]) for line, it in enumerate(rows, 1) if it[4]] + [("commands", 12, large.replace("12801", "20000")), ("commands", 13, md5), ("commands", 14, small)]
    expected += [("wanted.toml", 6 * place + 1, f"customer {it[0]}: {said}") for place, it in enumerate(rows) for said in ([md5] if it is rows[-1] else []) + [it[4]] if said]
    same("warnings", (0, "", ["ok: 9 customers", f"{wanted}: 10 customers"], expected), (status, err, out.splitlines()[-2:], found))
    file_of("commands", ("#" * 99 + "\n") * 540_000)
    os.chmod(room("commands"), 0o644)
    with patient():
        out = run(["check", *config], 0)[1]
    same("a commands file that is nearly full", True, f"warning: {room('commands')}: has 54000000 of at most {FILE_LIMIT} octets" in out)
    same("a file that others may read", True, f"warning: {room('commands')}: it has keys, and others than its owner and group may use it (mode 644)" in out)


@pytest.mark.proved_alone(SLOW)
def test_check_of_large_files():
    fresh()
    file_of("commands", "x\n" * 500_000)
    file_of("wanted.toml", "".join(f"k{it}=0\n" for it in range(2_000)))
    begun_at = time.monotonic()
    faults = faults_told(run(["check", room("commands"), "--wanted", room("wanted.toml")], 1)[1])
    same("faults", [*range(1, 500_001), *range(1, 2_001)], [it[1] for it in faults])
    file_of("wanted.toml", '[[customer]]\naddress=""\n' * 40_000)
    file_of("commands", "")
    same("customers", 40_000 * 5, len(faults_told(run(["check", room("commands"), "--wanted", room("wanted.toml")], 1)[1])))
    seconds = time.monotonic() - begun_at
    assert seconds <= 60, f"{seconds:.0f} seconds"


def query_of(number=None, key="", digest="sha1", first=0x23, fields=b"", tail=None):
    """The octets of a query: with a MAC under a key, or with another tail."""
    covered = bytes([first]) + bytes(47) + fields
    if tail is not None:
        return covered + tail
    return covered + (struct.pack(">I", number) + hashlib.new(digest, bytes.fromhex(key) + covered).digest() if number is not None else b"")


# A datagram, its source, and what is told of it, behind what it says. 192.0.2.2 has an MD5 key; 192.0.2.3 is revoked.
def datagrams():
    good = query_of(1, KEY)
    said = "68 octets from 192.0.2.1, version 4, mode 3, key number 1, MAC of 20 octets"
    field = struct.pack(">HH", 0x104, 28) + bytes(24)
    return [
        (good, "192.0.2.1", "72 octets from 192.0.2.1, version 4, mode 3, key number 1, MAC of 24 octets: time: a signed query, the time for the first 4 of a window"),
        (query_of(1, KEY, first=0x1b, fields=field), "192.0.2.1", "100 octets from 192.0.2.1, version 3, mode 3, key number 1, MAC of 24 octets: time: "),
        (query_of(3, "6b6579", "md5"), "192.0.2.2", "68 octets from 192.0.2.2, version 4, mode 3, key number 3, MAC of 20 octets: time: a signed query, the time for the first 9 of a window"),
        (query_of(), "192.0.2.1", "48 octets from 192.0.2.1, version 4, mode 3, no MAC: deny: it has no MAC; four refusals"), (good, "192.0.2.3", ": deny: its address is revoked; four refusals"),
        (query_of(2, KEY), "192.0.2.1", ": nak: key number 2 is none of the customer's; four refusals"),
        (query_of(3, KEY), "192.0.2.1", ": nak: key number 3 is none of the customer's: 192.0.2.2 has it; four refusals"), (query_of(1, KEY, "md5"), "192.0.2.1", said + ": nak: key 1 is for sha1, and the MAC has the length of md5; four"),
        (query_of(1, SECRET), "192.0.2.1", ": nak: its digest is not by key 1: "), (good, "192.0.2.99", ": silent unregistered: its address was never enrolled"),
        (good[:47], "192.0.2.1", "47 octets from 192.0.2.1: silent short: it has fewer than 48 octets"), (good + bytes(1024), "192.0.2.1", ": silent long: it has more than 1024 octets"),
        (query_of(tail=struct.pack(">HH", 1, 12) + bytes(24)), "192.0.2.1", ": silent field-short 48: the length of the extension field at octet 48 is below 16"),
        (query_of(tail=struct.pack(">HH", 1, 18) + bytes(24)), "192.0.2.1", ": silent field-unaligned 48: "), (query_of(tail=struct.pack(">HH", 1, 64) + bytes(24)), "192.0.2.1", ": silent field-past-end 48: "),
        (query_of(tail=bytes(12)), "192.0.2.1", ": silent rest 48: what stands from octet 48 on has the length of no MAC"), (query_of(1, KEY, first=0x13), "192.0.2.1", "version 2, mode 3, key number 1, MAC of 24 octets: silent version: its version is neither 3 nor 4"),
        (query_of(1, KEY, first=0x24), "192.0.2.1", "mode 4, key number 1, MAC of 24 octets: silent mode: its mode is not 3"), (query_of(tail=bytes(3) + b"\1"), "192.0.2.1", "key number 1, no digest: silent bare: "),
    ]


def explained_files(port=20123):
    config = configured(port, customers=[*CUSTOMERS, ("192.0.2.3", 5, "sha1", KEY[2:] + "00", 1)], commands="revoke 192.0.2.3\n")
    return config, {name: read(name) for name in ("commands", "labntpd.toml")}


def told_of(datagram, wanted, line):
    assert wanted in line, f"{datagram.hex()}: {wanted!r} is not told in {line!r}"


def test_explain_tells_each_outcome_and_why():
    config, before = explained_files()
    for octets, source, wanted in datagrams():
        status, out, err = run(["explain", octets.hex(), "--from", source, *config])
        same(wanted, (0, "", 2), (status, err, len(out.splitlines())))
        told_of(octets, wanted, out.splitlines()[1])
    same("nothing was written", before, {name: read(name) for name in before})
    silences = re.findall(r"`([a-z-]+)(?: AT)?`", re.search(r"`silent REASON`, with (.*?);", text_of("docs/FORMATS.md"), re.S)[1])
    told = " ".join(wanted for _, _, wanted in datagrams())
    # These need others before them in their window: they are told as what comes then.
    same("each silence", {"muted", "over-budget"}, {it for it in silences if f"silent {it}" not in told})
    for words in (["explain", *config], ["explain", "00", *config], ["explain", "00", "--from", "x", *config], ["explain", "00", "--from", "192.0.2.1", "--pcap", "x", *config]):
        same(" ".join(words), (2, "", True), (lambda it: (it[0], it[1], bool(it[2])))(run(words)))
    for word in ("0", "0x", "zz"):
        same(word, (1, "", "DATAGRAM: hexadecimal digits, an even number, are wanted\n"), run(["explain", word, "--from", "192.0.2.1", *config]))


def capture_of(frames, order="<", magic=0xA1B2C3D4, link=1):
    head = struct.pack(f"{order}IHHiIII", magic, 2, 4, 0, 0, 262_144, link)
    return head + b"".join(struct.pack(f"{order}IIII", 1_790_000_000, 0, len(it), len(it)) + it for it in frames)


def packet_of(octets, source, port=20123, protocol=17, fragment=0, words=5):
    """An IPv4 packet with a UDP datagram."""
    udp = struct.pack(">HHHH", 40_000, port, 8 + len(octets), 0) + octets
    head = struct.pack(">BBHHHBBH", 0x40 + words, 0, 4 * words + len(udp), 1, fragment, 64, protocol, 0)
    return head + bytes(map(int, source.split("."))) + bytes([192, 0, 2, 200]) + bytes(4 * words - 20) + udp


# What stands before an IPv4 packet, by the number of the link type.
HEADS = {1: bytes(12) + b"\x08\x00", 113: bytes(14) + b"\x08\x00", 276: b"\x08\x00" + bytes(18), 101: b"", 12: b"", 228: b""}


def test_explain_reads_capture_files():
    config, _ = explained_files()
    wanted = [it[2] for it in datagrams()]
    for link, head in HEADS.items():
        for order, magic in (("<", 0xA1B2C3D4), (">", 0xA1B2C3D4), ("<", 0xA1B23C4D), (">", 0xA1B23C4D)):
            frames = [head + packet_of(octets, source, words=5 + at % 3) + bytes(at % 4) for at, (octets, source, _) in enumerate(datagrams())]
            good = packet_of(*datagrams()[0][:2])
            # None of these is a datagram to the port, as a whole and over IPv4.
            others = [packet_of(b"", "192.0.2.1", 20124), packet_of(b"", "192.0.2.1", protocol=6), packet_of(b"", "192.0.2.1", fragment=0x2000), packet_of(b"", "192.0.2.1", fragment=1), good[:-1], good[:27], good[:19], b"", b"\x60" + good[1:], b"\x44" + good[1:]]
            # Nor is the server's own reply to a customer who asks from this port one to explain.
            others.append(packet_of(query_of(1, KEY, first=0x24), "127.0.0.1"))
            frames[3:3] = [head + it for it in others]
            if head:
                frames.append(head.replace(b"\x08\x00", b"\x86\xdd") + good)
            pathlib.Path(room("it.pcap")).write_bytes(capture_of(frames, order, magic, link))
            status, out, err = run(["explain", "--pcap", room("it.pcap"), *config])
            lines = out.splitlines()
            same(f"link type {link}", (0, "", f"{len(frames)} records, {len(wanted)} whole UDP datagrams to port 20123"), (status, err, lines[-1]))
            for (octets, _, words), line in zip(datagrams(), lines[1:], strict=False):
                told_of(octets, words, line)
                same("when it was captured", "2026-09-21T14:13:20Z", line.split()[0])
    whole = capture_of(frames)
    for what, octets, status, told in (
        ("cut short", whole[:-1], 1, f"record {len(frames)} is cut short"), ("a record's header", whole + bytes(15), 1, f"record {len(frames) + 1} is cut short"), ("a length past the end", whole + b"\xff" * 16, 1, "is cut short"),
        ("pcapng", b"\x0a\x0d\x0d\x0a" + bytes(60), 1, "this is pcapng: pcap is wanted, which tcpdump -w writes\n"), ("another file", b"\0" * 24, 1, "this is no capture file in pcap form"), ("a short one", whole[:23], 1, "this is no capture file"),
        ("another link", capture_of(frames, link=127), 1, "link type 127: 1 (Ethernet), "), ("no records", capture_of([]), 0, ""), ("a checksum of frames", capture_of(frames, link=0x14000001), 0, "")):
        pathlib.Path(room("it.pcap")).write_bytes(octets)
        seen, _, err = run(["explain", "--pcap", room("it.pcap"), *config])
        same(what, (status, True), (seen, told in err and bool(err) == bool(told)))
    same("no file", 3, run(["explain", "--pcap", room("x"), *config])[0])
    # Each is taken for the first of a window, so a budget of one is enough for all.
    config = configured(20123, customers=[(*CUSTOMERS[0][:4], 1)])
    pathlib.Path(room("it.pcap")).write_bytes(capture_of([packet_of(*datagrams()[0][:2])] * 3, link=101))
    same("a budget of one", 3, run(["explain", "--pcap", room("it.pcap"), *config], 0)[1].count(": time: a signed query, the time for the first 1 of a window"))


def test_explain_tells_writes_that_fail():
    config, _ = explained_files()
    for frames in (1, 100):
        whole = capture_of([packet_of(*datagrams()[0][:2])] * frames, link=101)
        for octets in (whole, whole[:-1]):
            pathlib.Path(room("it.pcap")).write_bytes(octets)
            with open("/dev/full", "wb") as full:
                same(f"{frames} records, {len(octets)} octets", (3, "write\n"), run(["explain", "--pcap", room("it.pcap"), *config], stdout=full)[::2])


def test_explain_reads_a_capture_by_tcpdump():
    found = shutil.which("tcpdump")
    if not found or os.geteuid():
        raise PassedOver("there is no tcpdump, or no leave to capture")
    port = probe.free_port()
    config, _ = explained_files(port)
    with begun([found, "-i", "lo", "-U", "-w", room("it.pcap"), "-Z", "root", f"udp port {port}"]), socket.socket(socket.AF_INET, socket.SOCK_DGRAM) as s:
        until("tcpdump captures", lambda: os.path.exists(room("it.pcap")) and os.path.getsize(room("it.pcap")) == 24)
        size = 24
        for octets in (query_of(4, KEY[::-1]), query_of()):
            s.sendto(octets, ("127.0.0.1", port))
            until("it captured", lambda: os.path.getsize(room("it.pcap")) >= size + 16 + 42 + len(octets))
            size = os.path.getsize(room("it.pcap"))
    out = run(["explain", "--pcap", room("it.pcap"), *config], 0)[1].splitlines()
    same("the two", [True, True], [": time: a signed query" in out[1], ": deny: it has no MAC" in out[2]])
