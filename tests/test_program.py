"""Judges the built program from outside, by datagrams, files, pipes and its exit status: what no contract and no test of a crate sees.

$FLOOD is how many datagrams are forged, 50,000 where it is not set. As root it makes one case more, and others where chronyd and ntpdig are
on the path or below $PEERS, as tests/peers.py unpacks Debian's packages. It takes free ports of 127.0.0.1, and the addresses 127.0.0.1 to
127.0.0.9. No wait is without a limit.
"""
import contextlib
import fcntl
import os
import pathlib
import random
import re
import resource
import shutil
import signal
import socket
import struct
import subprocess
import sys
import threading
import time

import pytest

import judging
import labntpd_server
import peers
import probe
from judging import FIVE, REFERENCE, SECOND, SLOW, WAIT, PassedOver
from judging import bound_by_modes, end, file_of, outputs_that_take_nothing, register_of, run, same, start, until
from labntp_server import CUSTOMERS, ONE, TWO, Server, serving
from labntpd_server import halted, read, room, window
from probe import nanos
from texts import lines_of, text_of


def exchange(s, customer, wanted, origin=0, receive=0):
    """A query and its reply: the clock before and after, and the reply."""
    packet = probe.query(customer, "plain", origin, receive)
    before = time.time_ns()
    s.send(packet)
    reply = probe.answer(s)
    after = time.time_ns()
    same("the answer", wanted, probe.kind(customer, packet, reply))
    return before, after, reply


def in_order(what, *moments):
    """Each moment is at or before the next, to a microsecond."""
    for earlier, later in zip(moments, moments[1:]):
        assert earlier <= later + 1000, f"{what}: {earlier / SECOND:.6f} stands before {later / SECOND:.6f}"


def test_stamps_are_the_hosts_clock_to_a_microsecond():
    rng = random.Random(5)
    with Server() as server:
        for text in (ONE, TWO):
            customer, between = probe.Customer(text), []
            with customer.socket(server.port) as s:
                for _ in range(150):
                    before, after, reply = exchange(s, customer, "time")
                    _, receive, transmit = probe.stamps(reply)
                    in_order("query, receipt, transmit, reply", before, nanos(receive), nanos(transmit), after)
                    between.append(nanos(transmit) - nanos(receive))
                    time.sleep(rng.uniform(0, 0.005))
            assert max(between) >= 100, f"at most {max(between)} nanoseconds from the receipt to the transmit stamp"


def test_interleaved_replies_tell_when_the_earlier_one_left():
    """A query that asks about the reply before it is told when that one left: after it was made, and soon."""
    with Server() as server:
        for text in (ONE, TWO):
            customer = probe.Customer(text)
            with customer.socket(server.port) as s:
                _, after, reply = exchange(s, customer, "time")
                _, receive, made = probe.stamps(reply)
                for pause in [0] * 20 + [0.5] * 2:
                    time.sleep(pause)
                    came = after
                    before, after, reply = exchange(s, customer, "interleaved", receive, probe.now())
                    _, receive, departed = probe.stamps(reply)
                    in_order("made, departed, next receipt", nanos(made), nanos(departed), nanos(receive))
                    in_order("departed, 0.4 seconds behind its arrival", nanos(departed), came + SECOND * 4 // 10)
                    in_order("query, receipt, reply", before, nanos(receive), after)
                    assert departed != made, "it tells when the reply was made"
                    made = receive


def test_other_octets_of_a_reply_are_right():
    """All but the three stamps, from the reference state and the query."""
    reference = bytes.fromhex(REFERENCE)
    with Server() as server:
        for text, form in ((ONE, "plain"), (TWO, "plain"), (ONE, "version-3"), (TWO, "field-1024")):
            customer = probe.Customer(text)
            with customer.socket(server.port) as s:
                query = bytearray(probe.query(customer, form))
                query[2] = 7
                signed = bytes(query[: len(query) - len(customer.mac(b""))])
                s.send(signed + customer.mac(signed))
                reply = probe.answer(s) or b""
            same("length", 48 + len(customer.mac(b"")), len(reply))
            same("first octet", reference[0] << 6 | (3 if form == "version-3" else 4) << 3 | 4, reply[0])
            same("stratum, poll, precision", bytes([reference[1], 7, reference[2]]), reply[1:4])
            same("delay, dispersion, identifier, reference stamp", reference[3:], reply[4:24])
            same("origin", signed[40:48], reply[24:32])
            same("MAC", customer.mac(reply[:48]), reply[48:])


def in_steps(text):
    """Each line has the answer that is due, a customer, and the forms of its queries, where they are not one plain query; or behind `+`
    the new lines of the commands file."""
    window(5)
    with Server() as server:
        for wanted, words in (line.split(maxsplit=1) for line in text.strip().splitlines()):
            if wanted == "+":
                server.append(*words.split("; "))
                continue
            customer, *forms = words.split()
            for form in forms or ["plain"]:
                server.ask(wanted, customer, form)


def test_signed_queries_get_the_time():
    in_steps("""
        time 127.0.0.1/1/md5/6b6579 plain version-3 field-88 field-1024
        time 127.0.0.2/2/sha1/6f74686572 plain version-3 field-88 field-1024""")


def test_wrong_keys_get_four_crypto_naks_then_silence():
    in_steps("""
        nak 127.0.0.1/1/md5/6b6579 wrong
        nak 127.0.0.1/2/md5/6b6579
        nak 127.0.0.1/1/md5/6b6578
        nak 127.0.0.1/1/sha1/6b6579
        silence 127.0.0.1/1/md5/6b6579 wrong
        time 127.0.0.1/1/md5/6b6579""")


def test_unsigned_queries_get_four_denys_then_silence():
    in_steps("""
        deny 127.0.0.3 plain plain plain plain
        silence 127.0.0.3 plain field-88
        time 127.0.0.3/3/md5/6b6579""")


def test_past_the_budget_rate_comes_once_then_silence():
    in_steps("""
        time 127.0.0.3/3/md5/6b6579
        nak 127.0.0.3/3/md5/6b6579 wrong
        time 127.0.0.3/3/md5/6b6579
        rate 127.0.0.3/3/md5/6b6579
        silence 127.0.0.3/3/md5/6b6579 plain plain
        time 127.0.0.4/4/sha1/6b6579""")


def test_strangers_and_what_is_no_request_get_silence():
    in_steps("""
        silence 127.0.0.9
        silence 127.0.0.9/1/md5/6b6579
        silence 127.0.0.1/1/md5/6b6579 empty short rest bare mode-4 version-2 field-1028 field-9000 field-60000""")


def test_commands_between_queries_are_in_force_for_the_next():
    in_steps("""
        silence 127.0.0.5/5/md5/6b6579
        + enrol 127.0.0.5 5 md5 6b6579 10
        time 127.0.0.5/5/md5/6b6579
        + budget 127.0.0.5 1
        rate 127.0.0.5/5/md5/6b6579
        silence 127.0.0.5/5/md5/6b6579
        + budget 127.0.0.5 4
        time 127.0.0.5/5/md5/6b6579
        + revoke 127.0.0.5
        deny 127.0.0.5/5/md5/6b6579
        + enrol 127.0.0.5 5 sha1 6e6577 10
        nak 127.0.0.5/5/md5/6b6579
        time 127.0.0.5/5/sha1/6e6577""")


def test_refusals_stay_counted_at_a_revocation_and_an_enrolment_begins_anew():
    in_steps("""
        deny 127.0.0.4 plain plain
        + revoke 127.0.0.4
        deny 127.0.0.4/4/sha1/6b6579
        deny 127.0.0.4
        silence 127.0.0.4/4/sha1/6b6579
        + enrol 127.0.0.4 4 sha1 6b6579 10
        deny 127.0.0.4
        time 127.0.0.4/4/sha1/6b6579""")


def test_key_is_rolled_over_and_the_older_one_retired():
    in_steps("""
        + enrol 127.0.0.5 5 md5 6b6579 3
        time 127.0.0.5/5/md5/6b6579
        nak 127.0.0.5/6/sha1/6e6577
        + rollover 127.0.0.5 6 sha1 6e6577
        time 127.0.0.5/6/sha1/6e6577
        time 127.0.0.5/5/md5/6b6579
        rate 127.0.0.5/6/sha1/6e6577
        + budget 127.0.0.5 100; retire 127.0.0.5 5
        nak 127.0.0.5/5/md5/6b6579
        time 127.0.0.5/6/sha1/6e6577
        + enrol 127.0.0.6 5 md5 6b6579 10
        time 127.0.0.6/5/md5/6b6579
        + revoke 127.0.0.5; rollover 127.0.0.6 6 md5 6b6578
        time 127.0.0.6/6/md5/6b6578""")


def test_exchange_is_told_of_once_and_the_next_one_then():
    with Server() as server:
        for customer in (ONE, TWO):
            same(customer, "interleaved", probe.interleave(server.port, customer))


def test_flood_of_forgeries_changes_no_answer_to_signed_queries():
    """Forgeries in a customer's name: how many of them are refused depends on how long they take."""
    forged = int(os.environ.get("FLOOD", 50_000))
    asked = -(-forged // 63)
    with Server(forged + asked) as server:
        same(ONE, f"asked {asked} interleaved {asked - 1}", probe.flood(server.port, forged, ONE))
        until("it ends", lambda: server.process.poll() is not None)
        same("status", 0, server.process.returncode)
        same("arrivals", [str(forged + asked)], re.findall(r"(?m)^arrivals (\d+) sent ", read("out")))


WINDOW = f"0:ec00001090000000 0:ec00001090000100 {REFERENCE}"
QUERY = "230006" + "00" * 37 + "ec00001080000000" + "00000007" + "c54a79b87ff995975180769bdd0a5236"
HEAD = "ec00000000000000104e495354ec00000000000000ec00001080000000ec00001090000000ec00001090000100"
GOOD = f"""enrol 192.0.2.10 7 md5 6b6579 10
enrol 192.0.2.20 8 sha1 6f74686572 10

# line 4
datagram 192.0.2.10 {WINDOW} {QUERY}
datagram 192.0.2.20 {WINDOW} {QUERY}
datagram 192.0.2.99 {WINDOW} -
enrol 192.0.2.10 9 md5 00 1
revoke 192.0.2.20"""
ANSWERS = f"""done
done
time ec00001090000000 240106{HEAD}00000007b26e576547e415ebd8461f86484912fe
nak 240106{HEAD}00000000
silent unregistered
refused already-enrolled
done
"""


def test_replay_of_a_script_is_as_worked():
    same("a script", (0, ANSWERS, ""), run(["replay"], GOOD.encode()))
    same("with a last line feed", (0, ANSWERS, ""), run(["replay"], GOOD.encode() + b"\n"))
    same("no octet", (0, "", ""), run(["replay"]))
    same("nothing to apply", (0, "", ""), run(["replay"], b"\n# nothing\n\n"))
    same("the longest line", (0, "done\n", ""), run(["replay"], b"#" * 4096 + b"\nenrol 192.0.2.10 7 md5 6b6579 10\n"))


def test_replay_tells_faulty_lines():
    above = "# one\nenrol 192.0.2.1 1 md5 00 1\n\n"
    for line, word in (it.rsplit(" | ", 1) for it in lines_of("tests/faulty_lines") if it[0] != "#"):
        wanted = 1, "done\n", f"line 4: {word}\n"
        same(line, wanted, run(["replay"], f"{above}{line}\nrevoke 192.0.2.1\n".encode()))
        same(f"{line}, at the end", wanted, run(["replay"], f"{above}{line}".encode()))
    for line, word in ((b"#" * 4097, "long"), (b"revoke 192.0.2.1" + b" " * 60_000, "long"), (b"# \xff", "not utf-8")):
        for behind in (b"", b"\n", b"\nrevoke 192.0.2.1\n"):
            same(f"{line[:8]}.. {word}", (1, "done\n", f"line 4: {word}\n"), run(["replay"], above.encode() + line + behind))
    same("a carriage return alone", (1, "done\n", "line 4: word\n"), run(["replay"], f"{above}\r\n".encode()))


def test_replay_tells_reads_that_fail():
    folder = os.open(judging.ROOM, os.O_RDONLY)
    try:
        same("from a folder", (3, "", "read\n"), run(["replay"], stdin=folder))
    finally:
        os.close(folder)
    # A connection that is reset while a line has begun.
    with socket.socket() as listening:
        listening.bind((probe.HOST, 0))
        listening.listen()
        near = socket.create_connection(listening.getsockname())
        far, _ = listening.accept()
    with near, far:
        process = start(["replay"], stdin=near, stdout=subprocess.PIPE, stderr=subprocess.PIPE)
        far.sendall(b"enrol 192.0.2.10 7 md5 6b6579 10\n")
        same("the first answer", b"done\n", process.stdout.readline())
        far.sendall(b"revoke 192.0.2.10")
        until("it has read the rest", lambda: not waiting(near))
        far.setsockopt(socket.SOL_SOCKET, socket.SO_LINGER, struct.pack("ii", 1, 0))
        far.close()
        out, err = process.communicate(timeout=WAIT)
        same("a reset connection", (3, b"", b"read\n"), (process.returncode, out, err))


def waiting(s):
    found = bytearray(4)
    fcntl.ioctl(s, 0x541B, found)
    return struct.unpack("i", found)[0]


def test_replay_answers_before_the_next_line():
    process = start(["replay"], stdin=subprocess.PIPE, stdout=subprocess.PIPE, stderr=subprocess.PIPE)
    # It cannot hang here: a timer ends it.
    with limited(process):
        answers = ANSWERS.splitlines(True)
        for line in GOOD.split("\n"):
            process.stdin.write(f"{line}\n".encode())
            process.stdin.flush()
            if line and line[0] != "#":
                same(line, answers.pop(0), process.stdout.readline().decode())
        out, err = process.communicate(timeout=WAIT)
        same("the end", (0, b"", b""), (process.returncode, out, err))


@contextlib.contextmanager
def limited(process):
    """Ends a process that takes too long."""
    timer = threading.Timer(WAIT, process.kill)
    timer.start()
    try:
        yield
    finally:
        timer.cancel()


def test_replay_tells_writes_that_fail():
    outputs_that_take_nothing(["replay"], GOOD.encode())


def test_serve_prints_two_lines():
    with Server(1) as server:
        server.ask("time", ONE)
        server.ends(0, "arrivals 1 sent 1\n")


def test_serve_counts_in_its_last_line():
    """Datagrams that get an answer, and others that get none: the two sums differ."""
    with Server(11) as server:
        one = probe.Customer(ONE)
        with one.socket(server.port) as s, probe.Customer("127.0.0.9").socket(server.port) as stranger:
            server.ask("time", ONE)
            s.send(b"")
            s.send(bytes(47))
            s.send(probe.query(one, "mode-4"))
            stranger.send(probe.query(one))
            stranger.send(b"\0")
            server.ask("time", TWO)
            server.ask("deny", "127.0.0.2")
            server.ask("nak", ONE, "wrong")
            s.send(bytes(1025))
            server.ask("time", ONE, "field-1024")
            for it in (s, stranger):
                same("an answer to what gets none", None, probe.answer(it, 0))
        server.ends(0, "arrivals 11 sent 5\n")


def test_serve_takes_no_register_that_is_no_regular_file():
    """Nothing waits for who writes a pipe."""
    words, path = serving(probe.free_port()), f"{judging.ROOM}/register.toml"
    file_of("commands", "")
    pathlib.Path(path).unlink(missing_ok=True)
    for what, make in (("a pipe", os.mkfifo), ("a device", lambda path: os.symlink("/dev/zero", path))):
        make(path)
        same(what, (3, "", "register: read\n"), run(words))
        os.remove(path)


@pytest.mark.proved_alone(SLOW)
def test_serve_tells_faults_of_the_register_file():
    words = serving(probe.free_port())
    file_of("commands", "")
    path = f"{judging.ROOM}/register.toml"
    pathlib.Path(path).unlink(missing_ok=True)
    same("no file", (3, "", "register: read\n"), run(words))
    os.mkdir(path)
    same("a folder", (3, "", "register: read\n"), run(words))
    os.rmdir(path)
    good = register_of(CUSTOMERS)
    texts = {
        "not UTF-8": (good.encode() + b"# \xff\n", "read", 3),
        "too long": (good + "#" * (1048577 - len(good)), "read", 3),
        "no TOML": ("reference = ", "toml", 1),
        "cut off": (good[:-1] + '"', "toml", 1),
        "empty": ("", "shape", 1),
        "a further key": (f"x = 1\n{good}", "shape", 1),
        "a reference of 2 digits": ('reference = "00"', "reference", 1),
    }
    values = [("address", "127.0.0.300"), ("number", 0), ("algorithm", "sha2"), ("key", "6b657"), ("budget", 65536)]
    for at, (word, value) in enumerate(values):
        one = list(CUSTOMERS[1])
        one[at] = value
        texts[f"{word} {value}"] = register_of([CUSTOMERS[0], one, CUSTOMERS[2]]), f"customer 1: {word}", 1
    twice = [*CUSTOMERS[:2], ("127.0.0.1", 4, "md5", "00", 1)], [*CUSTOMERS[:2], ("127.0.0.4", 2, "md5", "00", 1)]
    texts["an address twice"] = register_of(twice[0]), "customer 2: already-enrolled", 1
    texts["a number twice"] = register_of(twice[1]), "customer 2: key-taken", 1
    for what, (text, word, status) in texts.items():
        file_of("register.toml", text)
        same(what, (status, "", f"register: {word}\n"), run(words))
    os.chmod(file_of("register.toml", good), 0)
    with bound_by_modes() as how:
        same("a file that may not be read", (3, "", "register: read\n"), run(words, **how))
    os.remove(path)
    with Server(1, register=good + "#" * (1048576 - len(good))) as server:
        server.ask("time", ONE)
        server.ends(0, "arrivals 1 sent 1\n")


def test_serve_tells_a_port_that_is_in_use():
    with Server(3) as server:
        server.ask("time", ONE)
        same("the second server", (3, "", "socket\n"), run(serving(server.port)))
        server.ask("time", ONE)
        same("the third server", (3, "", "socket\n"), run(serving(server.port)))
        server.ask("time", TWO)
        server.ends(0, "arrivals 3 sent 3\n")


def test_serve_tells_writes_that_fail():
    file_of("register.toml", register_of(CUSTOMERS))
    outputs_that_take_nothing(serving(probe.free_port()))
    # The first line is read, and the last is not.
    port = probe.free_port()
    process = start(serving(port), stdout=subprocess.PIPE, stderr=subprocess.PIPE)
    with limited(process):
        same("the first line", f"serving 127.0.0.1:{port}\n", process.stdout.readline().decode())
        process.stdout.close()
        same("a query", "time", probe.ask(port, "plain", ONE))
        same("the last line into a closed pipe", (3, b"write\n"), (process.wait(WAIT), process.stderr.read()))


def test_serve_is_ended_by_signals():
    for number in (signal.SIGINT, signal.SIGTERM, signal.SIGHUP, signal.SIGUSR1, signal.SIGUSR2, signal.SIGALRM):
        with Server() as server:
            server.ask("time", ONE)
            server.process.send_signal(number)
            server.ends(-number, "")
        # Its port is free again.
    with Server(1, port=server.port) as server:
        server.ask("time", ONE)
        server.ends(0, "arrivals 1 sent 1\n")


def test_stopped_and_continued_it_answers():
    with Server(2) as server:
        for _ in range(5):
            with halted(server):
                time.sleep(0.2)
            time.sleep(0.1)
        server.process.send_signal(signal.SIGSTOP)
        later = threading.Timer(0.5, server.process.send_signal, [signal.SIGCONT])
        later.start()
        server.ask("time", ONE)
        later.join()
        with halted(server):
            time.sleep(1.2)
        server.ask("time", TWO)
        server.ends(0, "arrivals 2 sent 2\n")


def test_examples_are_served():
    register, *commands = (text_of(f"examples/{it}") for it in ("register.toml", "commands", "rollover.commands"))
    commands = "".join(commands)
    customer = "/".join(re.search(r"(?m)^enrol (127\.0\.0\.1) (\S+) (\S+) (\S+) ", commands).groups())
    window(5)
    with Server(3, commands, register) as server:
        for wanted, asking in (("time", customer), ("deny", "127.0.0.1"), ("time", customer)):
            server.ask(wanted, asking)
        server.ends(0, "arrivals 3 sent 3\n")


def test_serve_counts_neither_a_wait_nor_a_stop_as_a_turn():
    """The time limit of a wait passes, and a process that was stopped goes on: neither is a turn."""
    with Server(2) as server:
        server.ask("time", ONE)
        for _ in range(20):
            with halted(server):
                time.sleep(0.01)
            time.sleep(0.01)
        time.sleep(0.3)
        server.ask("time", ONE)
        server.ends(0, "arrivals 2 sent 2\n")


def test_hundred_keys_take_the_place_of_one_another():
    with Server() as server:
        server.append("enrol 127.0.0.5 5 md5 6b6579 10")
        same("keys", "time 100", probe.roll(server.port, server.commands, "127.0.0.5", 5))


def test_commands_are_heard_while_it_waits():
    window(10)
    with Server(3) as server:
        taken = labntpd_server.share_of_a_processor(server.process, 3)
        assert taken <= 0.05, f"it takes {taken:.1%} of a processor while it waits"
        server.append("enrol 127.0.0.5 5 md5 6b6579 10")
        server.ask("time", FIVE)
        time.sleep(1.5)
        server.append("revoke 127.0.0.300")
        server.told = "commands: line 2: address\n"
        until("the fault is told", lambda: read("err") == server.told, 1.5)
        server.append("revoke 127.0.0.5")
        time.sleep(2)
        server.ask("deny", FIVE)
        server.ask("deny", FIVE)
        server.ends(0, "arrivals 3 sent 3\n")


@pytest.mark.proved_alone(SLOW)
def test_commands_file_missing_unfinished_written_anew_not_utf_8_too_long():
    """Each text is written into the file or, as a new one, over it; and then an answer is due."""
    enrol, revoke = "enrol 127.0.0.5 5 md5 6b6579 65535", "revoke 127.0.0.5\n"
    longest = "#\n" * 4 + revoke + "#" + " " * 1048550
    same("octets of the longest file", 1048576, len(longest))
    window(8)
    with Server(commands=None) as server:
        anew = lambda text: file_of("commands", text)
        server.ask("time", ONE)
        for write, text, wanted in (
            (anew, enrol, "silence"),
            (anew, f"{enrol}\n", "time"),
            # Written anew with fewer lines, and with as many.
            (anew, "", "time"),
            (anew, revoke, "time"),
            (server.replace, f"#\n{revoke}", "deny"),
            # Not UTF-8, then put right.
            (anew, f"#\n#\n{enrol}\n# ".encode() + b"\xff\n", "deny"),
            (anew, f"#\n#\n{enrol}\n# y\n", "time"),
            # Too long, then just as long as it may be.
            (server.replace, f"{longest} \n", "time"),
            (anew, longest, "deny"),
        ):
            write(text)
            time.sleep(0.3)
            server.ask(wanted, FIVE)


def test_commands_are_carried_out_once():
    """A line that is carried out twice would be told: the customer is no longer, or already, what the line makes it."""
    with Server() as server:
        server.ask("time", TWO)
        server.append("revoke 127.0.0.2")
        server.ask("deny", TWO)
        server.append("enrol 127.0.0.2 2 sha1 6f74686572 65535")
        server.ask("time", TWO)
        server.append("rollover 127.0.0.2 12 md5 6e6577")
        server.ask("time", "127.0.0.2/12/md5/6e6577")
        server.ask("time", TWO)
        server.append("retire 127.0.0.2 2")
        server.ask("time", "127.0.0.2/12/md5/6e6577")
        server.ask("nak", TWO)
        server.append("revoke 127.0.0.1", "enrol 127.0.0.1 1 md5 6b6579 65535", "rollover 127.0.0.1 11 md5 00", "retire 127.0.0.1 11")
        server.ask("time", ONE)
        time.sleep(0.3)
        server.ask("time", ONE)


def test_commands_are_in_force_for_the_query_that_waits():
    """What is written while a query waits is in force for it, and leaves what is kept of the customer; the first command was appended, the
    second stands in a file that took the place of the first, and the third has its line feed at last."""
    def asks(wanted, write, received=0):
        server.process.send_signal(signal.SIGSTOP)
        packet = probe.query(customer, "plain", received, probe.now())
        s.send(packet)
        write()
        server.process.send_signal(signal.SIGCONT)
        reply = probe.answer(s)
        same(f"a query that waits for {wanted}", wanted, probe.kind(customer, packet, reply))
        return probe.stamps(reply)[1]

    customer = probe.Customer(FIVE)
    with Server(3, "# none yet\n") as server, customer.socket(server.port) as s:
        received = asks("time", lambda: server.append("enrol 127.0.0.5 5 md5 6b6579 1", "revoke 127.0.0.9"))
        received = asks("interleaved", lambda: server.replace("#\n#\n#\nbudget 127.0.0.5 5\nrevoke 127.0.0.5"), received)
        asks("deny", lambda: server.append(""), received)
        server.ends(0, "arrivals 3 sent 3\n")
        server.told = "commands: line 3: not-enrolled\n"


def test_commands_that_stand_there_at_the_start_are_carried_out():
    with Server(commands="# one\nenrol 127.0.0.5 5 md5 6b6579 65535\nrevoke 127.0.0.2\n") as server:
        server.ask("time", FIVE)
        server.ask("deny", TWO)
        time.sleep(0.3)
        server.ask("time", FIVE)


def test_commands_have_each_fault_told_once():
    lines = [
        ("# a comment", ""),
        ("enroll 127.0.0.5 5 md5 6b6579 10", "word"),
        ("", ""),
        ("revoke 127.0.0.300", "address"),
        ("enrol 127.0.0.5 0 md5 6b6579 10", "number"),
        ("enrol 127.0.0.5 5 sha2 6b6579 10", "algorithm"),
        ("enrol 127.0.0.5 5 md5 6b657 10", "key"),
        ("enrol 127.0.0.5 5 md5 6b6579 0", "budget"),
        ("enrol 127.0.0.5  5 md5 6b6579 10", "count"),
        ("enrol 127.0.0.1 5 md5 6b6579 10", "already-enrolled"),
        ("enrol 127.0.0.5 1 md5 6b6579 10", "key-taken"),
        ("revoke 127.0.0.5", "not-enrolled"),
        ("rollover 127.0.0.1 1 md5 00", "same-number"),
        ("rollover 127.0.0.1 11 md5 00", ""),
        ("rollover 127.0.0.1 12 md5 00", "room-full"),
        ("retire 127.0.0.1 12", "not-held"),
        ("retire 127.0.0.1 11", ""),
        ("retire 127.0.0.1 1", "only-key"),
        ("rollover 127.0.0.9 9 md5 00", "not-enrolled"),
        ("retire 127.0.0.9 9", "not-enrolled"),
        ("budget 127.0.0.9 9", "not-enrolled"),
        ("rollover 127.0.0.1 2 md5 00", "key-taken"),
        ("rollover 127.0.0.1 9 md5 00 10", "count"),
        ("retire 127.0.0.1 0", "number"),
        ("revoke 127.0.0.1 ", "count"),
        ("budget 127.0.0.1 1\r", "budget"),
        ("budget 127.0.0.1 01", "budget"),
        ("departed 127.0.0.1 ec00001090000000 0:ec00001090000180", "word"),
        (f"datagram 127.0.0.1 {WINDOW} -", "word"),
    ]
    told = [f"commands: line {n}: {word}\n" for n, (_, word) in enumerate(lines, 1) if word]
    with Server(commands="".join(f"{line}\n" for line, _ in lines[:4])) as server:
        server.ask("time", ONE)
        same("the lines at the start", "".join(told[:2]), read("err"))
        for line, word in lines[4:]:
            server.append(line)
            server.ask("time", ONE)
        server.told = "".join(told)
        same("each line, appended alone", server.told, read("err"))
        time.sleep(0.3)
        server.ask("time", ONE)


def test_commands_are_heard_while_nobody_asks():
    with Server() as server:
        for number in (1, 2):
            server.append(f"revoke 127.0.0.{number + 2}00")
            server.told += f"commands: line {number}: address\n"
            until(f"the fault of line {number} is told", lambda: read("err") == server.told, 1)


def test_commands_file_renamed_over_the_old_one_is_heard_within_a_thousandth():
    """The old one may keep another name. The next query comes five thousandths of a second later."""
    def takes_its_place():
        server.ask("time", ONE)
        if len(lines) % 4 == 1:
            os.link(server.commands, f"{judging.ROOM}/older{len(lines)}")
        server.replace("".join(f"{line}\n" for line in lines))
        time.sleep(0.005)

    lines = []
    with Server() as server:
        server.ask("time", TWO)
        for i in range(30):
            if i:
                lines.append("revoke 127.0.0.5")
            lines.append(f"enrol 127.0.0.5 5 sha1 {i:040x} 65535")
            takes_its_place()
            server.ask("time", f"127.0.0.5/5/sha1/{i:040x}")
        lines.append("revoke 127.0.0.2")
        takes_its_place()
        server.ask("deny", TWO)


def test_commands_appended_are_heard_at_once():
    """Some pairs of queries come within a thousandth of a second, so that of the file no more is looked at than its end."""
    first, times = probe.Customer(ONE), []
    with Server() as server, first.socket(server.port) as s, open(server.commands, "ab", buffering=0) as commands:
        # On a busy host few of them do, so that it takes more.
        for i in range(490):
            second = probe.Customer(f"127.0.0.5/5/sha1/{i:040x}")
            lines = ("revoke 127.0.0.5\n" if i else "") + f"enrol 127.0.0.5 5 sha1 {i:040x} 65535\n"
            with second.socket(server.port) as t:
                packets = probe.query(first), probe.query(second)
                s.send(packets[0])
                earlier = probe.answer(s)
                commands.write(lines.encode())
                t.send(packets[1])
                later = probe.answer(t)
            same("the answers", ["time"] * 2, [probe.kind(*it) for it in ((first, packets[0], earlier or b""), (second, packets[1], later or b""))])
            times.append(nanos(probe.stamps(later)[1]) - nanos(probe.stamps(earlier)[1]))
            if i > 48 and min(times) < SECOND * 9 // 10_000:
                break
        same("pairs of queries within 0.9 thousandths of a second", True, min(times) < SECOND * 9 // 10_000)


def test_commands_file_written_anew_is_heard():
    """In place: to the same length, and then to fewer octets. Each ends a line that had no line feed."""
    with Server(commands="revoke 127.0.0.2 ") as server:
        server.ask("time", TWO)
        # The file system's clock goes on.
        time.sleep(0.05)
        with open(server.commands, "rb+") as it:
            it.seek(-1, os.SEEK_END)
            it.write(b"\n")
        time.sleep(0.005)
        server.ask("deny", TWO)
        with open(server.commands, "a") as it:
            it.write("revoke 127.0.0.1  and more")
        server.ask("time", ONE)
        file_of("commands", "revoke 127.0.0.2\nrevoke 127.0.0.1\n")
        time.sleep(0.005)
        server.ask("deny", ONE)


def test_commands_file_that_is_another_is_heard_within_a_tenth():
    """So often it is asked what stands at the path, also while queries come."""
    def asks_on(seconds):
        end = time.monotonic() + seconds
        while time.monotonic() < end:
            server.ask("time", ONE)

    with Server(turns=100_000) as server:
        os.remove(server.commands)
        asks_on(0.05)
        os.symlink(file_of("first", "enrol 127.0.0.5 5 md5 6b6579 65535\n"), server.commands)
        asks_on(0.15)
        server.ask("time", FIVE)
        os.symlink(file_of("second", "#\nrevoke 127.0.0.5\n"), f"{judging.ROOM}/new")
        os.rename(f"{judging.ROOM}/new", server.commands)
        asks_on(0.15)
        server.ask("deny", FIVE)


def test_commands_file_has_to_be_a_regular_file():
    """A folder, a device, a pipe, nothing: it serves on, and hears the file that takes its place."""
    places = [("a folder", os.mkdir, os.rmdir), ("a device", lambda path: os.symlink("/dev/zero", path), os.remove)]
    places += [("a pipe", os.mkfifo, os.remove), ("nothing", lambda path: None, lambda path: None)]
    lines = ""
    with Server() as server:
        for what, make, clear in places:
            os.remove(server.commands)
            make(server.commands)
            for _ in range(2):
                time.sleep(0.2)
                server.ask("time", ONE)
            clear(server.commands)
            lines += f"enrol 127.0.0.5 5 md5 {len(lines):04x} 65535\n"
            file_of("commands", lines)
            time.sleep(0.3)
            server.ask("time", f"127.0.0.5/5/md5/{lines.split()[-2]}")
            lines += "revoke 127.0.0.5\n"


def test_loopback_takes_its_words():
    same("one turn", (0, "basic\n", ""), run(["loopback", "--turns", "1"]))
    same("four turns", (0, "basic\n" + "interleaved\n" * 3, ""), run(["loopback", "--turns", "4"]))
    same("the most turns", (0, "basic\n" + "interleaved\n" * 999, ""), run(["loopback", "--turns", "1000"]))


def test_loopback_tells_writes_that_fail():
    outputs_that_take_nothing(["loopback", "--turns", "2"])


def test_loopback_tells_that_no_socket_can_be_made():
    """So few files may be open that the program starts, and its second socket is refused."""
    def limit(number):
        return lambda: resource.setrlimit(resource.RLIMIT_NOFILE, (number, number))

    few = next((it for it in range(3, 20) if run(["replay"], preexec_fn=limit(it))[0] == 0), None)
    assert few is not None, "replay does not run with 20 open files"
    same("loopback", (3, "", "socket\n"), run(["loopback", "--turns", "2"], preexec_fn=limit(few)))


def test_loopback_tells_that_no_address_can_be_reached():
    """A network of its own, with no interface up."""
    apart = next((it for it in (["unshare", "-rn"], ["unshare", "-n"]) if shutil.which("unshare") and not subprocess.run(
        [*it, "true"], stdin=subprocess.DEVNULL, stdout=subprocess.DEVNULL, stderr=subprocess.DEVNULL, timeout=WAIT).returncode), None)
    if not apart:
        raise PassedOver("a network apart may not be made here")
    same("loopback", (3, "", "socket\n"), run(["loopback", "--turns", "2"], before=apart))


def sockets_of(process):
    """The rows of the UDP sockets of a process: local port, port that it is joined to, and octets that wait."""
    inodes = set()
    for name in os.listdir(f"/proc/{process.pid}/fd"):
        with contextlib.suppress(OSError):
            inodes.add(os.readlink(f"/proc/{process.pid}/fd/{name}"))
    port = lambda word: int(word.rpartition(":")[2], 16)
    return [(port(it[1]), port(it[2]), port(it[4])) for it in labntpd_server.udp_sockets() if f"socket:[{it[9]}]" in inodes]


def test_loopback_refuses_a_forged_reply():
    """Standard output is a full pipe, so the program stands still behind its first turn. Then a datagram comes to its client from its
    server's address and port, and the pipe is emptied: what the second turn takes is the forged one."""
    try:
        raw = socket.socket(socket.AF_INET, socket.SOCK_RAW, socket.IPPROTO_UDP)
    except PermissionError:
        raise PassedOver("it needs root, to send from another's port")
    reading, writing = os.pipe()
    filled = judging.filled(writing)
    with raw, os.fdopen(reading, "rb") as output:
        process = start(["loopback", "--turns", "2"], stdout=writing, stderr=subprocess.PIPE)
        os.close(writing)
        until("it waits for the pipe", lambda: pathlib.Path(f"/proc/{process.pid}/syscall").read_text().startswith("1 0x1 "))
        client, server, waits = next(it for it in sockets_of(process) if it[1])
        same("octets that wait at the client", 0, waits)
        raw.bind((probe.HOST, 0))
        forged = bytes.fromhex("24010600") + bytes(44) + struct.pack(">I", 1) + bytes(20)
        raw.sendto(struct.pack(">HHHH", server, client, 8 + len(forged), 0) + forged, (probe.HOST, 0))
        until("the forged datagram has come", lambda: any(it[1] and it[2] for it in sockets_of(process)))
        with limited(process):
            text = output.read().decode()
        same("standard output", "." * filled + "basic\nrefused\n", text)
        same("status and standard error", (0, b""), (process.wait(WAIT), process.stderr.read()))


def has(what, pattern, text):
    same(f"whether {what} has {pattern!r}: {text[-300:]!r}", True, bool(re.search(pattern, text, re.M)))


@contextlib.contextmanager
def relay(port, name="wire"):
    """A relay in front of the server, which notes in a file of the case what passes: its port."""
    process = start([probe.__file__, "relay", str(port), room(name)], sys.executable, stdout=subprocess.PIPE)
    try:
        with limited(process):
            own = int(process.stdout.readline())
        yield own
    finally:
        end(process)


def chronyd_of(name, port, keys, *lines):
    """The words of a chronyd that asks at a port, under the key of this line."""
    lines = [f"server 127.0.0.1 port {port} key {keys.split()[0]} minpoll -4 maxpoll -4 {lines[0]}", *lines[1:], "cmdport 0"]
    lines += [f"keyfile {file_of(f'{name}.keys', keys)}", f"pidfile {room(name)}.pid"]
    return labntpd_server.chronyd("-f", file_of(f"{name}.conf", "\n".join(lines)))


def client(words, environment=None):
    """A run of another program: its status, and what it prints."""
    how = {"stdin": subprocess.DEVNULL, "stdout": subprocess.PIPE, "stderr": subprocess.STDOUT, "text": True}
    ran = subprocess.run(words, env=environment, cwd=judging.ROOM, timeout=20, **how)
    return ran.returncode, ran.stdout


@pytest.mark.parametrize(
    "key, options, wanted, text, wire",
    [
        ("6b6579", "", 0, "System clock wrong by", r"^asked \d+ time \d+$"),
        ("6b6579", "xleave", 0, "4I K K$", r"^asked \d+ time \d+ interleaved \d+$"),
        ("6b6578", "", 1, "No suitable source", r"^asked \d+ nak 4$"),
    ],
    ids=["time", "interleaved time", "nothing with a wrong key"],
)
def test_chronyd_gets(key, options, wanted, text, wire):
    """A run of chronyd ends with this status, this is in its words or its log, and so many datagrams passed."""
    window(5)
    pathlib.Path(room("measurements.log")).unlink(missing_ok=True)
    with Server() as server, relay(server.port) as port:
        words = chronyd_of("chrony", port, f"1 MD5 HEX:{key}", f"iburst {options}", f"logdir {judging.ROOM}", "log measurements")
        status, said = client([*words, "-Q", "-t", "3"])
    same("status of chronyd", wanted, status)
    has("chronyd", text, said + read("measurements.log"))
    has("the wire", wire, probe.wire(room("wire"), ONE))


@contextlib.contextmanager
def asks_on(name, port, customer):
    """A chronyd that goes on asking, by a relay of its own, and gets times alone: what waits for ten replies more."""
    replies = lambda: read(name).count("<")
    _, number, algorithm, key = customer.split("/")
    with relay(port, name) as own:
        process = labntpd_server.begin([*chronyd_of(f"{name}-chrony", own, f"{number} {algorithm.upper()} HEX:{key}", "xleave"), "-x", "-d"])

        def goes_on():
            due = replies() + 10
            until(f"{name} gets ten replies more", lambda: replies() >= due, 20)

        yield goes_on
        end(process)
    has(f"the wire of {name}", r"^asked \d+ time \d+ interleaved \d+$", probe.wire(room(name), customer))


def test_chronyd_goes_on_through_a_rollover_with_the_old_key_and_the_new():
    """One goes on with the old key through the whole roll, another with the new one."""
    with Server(100_000) as server, contextlib.ExitStack() as until_retired:
        older_goes_on = until_retired.enter_context(asks_on("older", server.port, ONE))
        older_goes_on()
        server.append("rollover 127.0.0.1 11 sha1 6e6577")
        older_goes_on()
        with asks_on("newer", server.port, "127.0.0.1/11/sha1/6e6577") as newer_goes_on:
            newer_goes_on()
            older_goes_on()
            until_retired.close()
            server.append("retire 127.0.0.1 1")
            newer_goes_on()
            server.ask("nak", ONE)


def dig(port, keys):
    return client(*peers.ntpdig(port, "-t", "2", "-a", keys.split()[0], "-k", file_of("ntp.keys", f"{keys}\n"), "127.0.0.1"))


def test_ntpdig_gets_the_time():
    key = "6c61626e74702d6578616d706c652d6b65792d39"
    with Server() as server, relay(server.port) as port:
        for keys in ("1 md5 key", f"1 sha1 {key}"):
            status, said = dig(port, keys)
            same(f"status of ntpdig with {keys}", 0, status)
            has("ntpdig", r"127\.0\.0\.1 s1 no-leap$", said)
            server.append("revoke 127.0.0.1", f"enrol 127.0.0.1 1 sha1 {key} 10")


def test_ntpdig_takes_nothing_with_a_wrong_key():
    window(5)
    with Server() as server, relay(server.port) as port:
        status, said = dig(port, "1 md5 kex")
    same("status of ntpdig", 1, status)
    same(f"whether it has a time: {said[-300:]!r}", False, "s1 no-leap" in said)
    same("on the wire", "asked 1 nak 1", probe.wire(room("wire"), ONE))


def test_other_words_are_refused():
    files = ["--register", f"{judging.ROOM}/register.toml", "--commands", f"{judging.ROOM}/commands"]
    file_of("register.toml", register_of(CUSTOMERS))
    port = str(probe.free_port())
    wrong = [[], [""], ["server"], ["replay", "x"], ["serve"], ["loopback"], ["loopback", "--turns", "1", "2"], ["--help"]]
    wrong += [["serve", *files, "--port", it, "--turns", "1"] for it in ("0", "65536", "+123", "0123", "-1", "x", "")]
    wrong += [["serve", *files, "--port", port, "--turns", it] for it in ("0", "1000001", "+1", "01", "18446744073709551617")]
    wrong += [["serve", *files, "--turns", "1", "--port", port], ["serve", *files, "--port", port]]
    wrong += [["serve", *files[2:], *files[:2], "--port", port, "--turns", "1"]]
    wrong += [["loopback", "--turns", it] for it in ("0", "1001", "+1", "01", "")]
    for words in wrong:
        same(" ".join(words), (2, "", "usage\n"), run(words, GOOD.encode()))
