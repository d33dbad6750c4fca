"""Judges the built client labntp-query from outside: what it asks, what it takes for an answer, what it prints, and its exit status.

Most cases ask a server of their own, whose stamps are known. No key is shown, in any run. Others ask labntpd where it is built, chronyd (on
the path, or below $PEERS as tests/peers.py says), and NTPsec's ntpd where it is on the path and a network apart may be made. No wait is
without a limit.
"""
import contextlib
import fractions
import hashlib
import json
import os
import re
import shutil
import signal
import socket
import struct
import subprocess
import time

import judging
import labntpd_server
import odd_host
import probe
from judging import PassedOver, file_of, outputs_that_take_nothing, same, until
from probe import stamps
from texts import text_of as text_of_file

# The key of the cases, in both algorithms, and its file.
NUMBER, KEY = 7, b"zK4-8qTf!wX2"
SHA1_KEY = "c40b7a1d93e65f2288bb01d4e7f3a69c5d20e8f1"
KEYS = f"# a comment\n\n6 SHA256 HEX:00\n{NUMBER} {KEY.decode()}\n8 SHA1 HEX:{KEY.hex()}\n"
SECOND = 1 << 32
NANOS = 10**9
# The lengths of time that a query is waited with, where it is to end by its time limit.
SHORT = ["--timeout", "0.2"]
MEMBERS = ["result", "reason", "offset", "delay", "stratum", "leap", "reference_id", "reference", "root_distance", "server", "number"]


# ---- Means

def run(words, wanted=None, **how):
    """A run of the program: its status, standard output and standard error. No key stands in what it prints."""
    status, out, err = judging.run(words, **how)
    for text in (out, err):
        for key in (KEY.decode(), KEY.hex(), SHA1_KEY):
            assert key not in text and key not in text.lower(), f"a key stands in {text!r}"
    assert wanted is None or status == wanted, f"{' '.join(words)}: status {status}, and not {wanted}; {out}{err}"
    return status, out, err


def keyed(number=NUMBER, text=KEYS):
    return ["--key-file", file_of("keys", text), "--number", str(number)]


def text_of(seconds):
    """A time in seconds with nine decimals, rounded to the nearest, a half away from 0."""
    nanos = int(abs(fractions.Fraction(seconds)) * NANOS + fractions.Fraction(1, 2))
    return f"{'-' if seconds < 0 and nanos else ''}{nanos // NANOS}.{nanos % NANOS:09}"


def seconds_in(text):
    """A text of seconds with nine decimals, as a fraction."""
    assert re.fullmatch(r"-?\d+\.\d{9}", text), f"{text!r} is no number of seconds with nine decimals"
    return fractions.Fraction(text)


def mac(octets, key=KEY, number=NUMBER, algorithm="md5"):
    return struct.pack(">I", number) + hashlib.new(algorithm, key + octets).digest()


class Told:
    """What a reply tells: `ahead` says by how many units the server's clock is ahead."""

    def __init__(self, **told):
        self.leap, self.version, self.mode, self.stratum, self.delay, self.dispersion = 0, 4, 4, 2, 0x00010001, 0x00008003
        self.identifier, self.ahead, self.stay, self.origin, self.receive = b"\x7f\x00\x00\x2a", 1000 * SECOND, 0, None, None
        self.__dict__.update(told)

    def header(self, origin, receive, transmit):
        first = self.leap << 6 | self.version << 3 | self.mode
        fields = struct.pack(">BBbbII4s", first, self.stratum, 6, -20, self.delay, self.dispersion, self.identifier)
        return fields + struct.pack(">QQQQ", 0xEC00000000000000, *(it % (1 << 64) for it in (origin, receive, transmit)))

    def root_distance(self):
        return fractions.Fraction(self.delay, 1 << 17) + fractions.Fraction(self.dispersion, 1 << 16)


class FakeServer(labntpd_server.FakeServer):
    """A server that answers each request by a call, which gives the datagrams that it sends. It notes the requests."""

    def __init__(self, answers):
        super().__init__()
        self.answers, self.requests, self.client = answers, [], None

    def hear(self, request, client):
        self.requests.append(request)
        self.client = client
        with contextlib.suppress(OSError):
            for datagram in self.answers(request, len(self.requests)):
                self.socket.sendto(datagram, client)

    def words(self, *more):
        return [*keyed(), *more, f"{probe.HOST}:{self.port}"]


def basic(told=None, **key):
    """Answers a request with its time, under such a key: it came `ahead` later than it left, and stayed for `stay`."""
    told = told or Told()

    def answers(request, _):
        transmit = stamps(request)[2]
        came = transmit + told.ahead if told.receive is None else told.receive
        header = told.header(transmit if told.origin is None else told.origin, came, came + told.stay if came else 0)
        return [header + mac(header, **key)]

    return answers


def asked(server, *more, wanted=0):
    return run(server.words(*more), wanted)


def objects(out):
    return [json.loads(line) for line in out.splitlines()]


ERA = " (or one that differs by 136 years)"
LINE = re.compile(rf"(basic|interleaved|unauthenticated): offset (\S+) s(?:{re.escape(ERA)})?, delay (\S+) s, "
                  r"stratum (\d+), root distance (\S+) s, reference (\S+), leap (\d)")


def line_of(text):
    found = LINE.fullmatch(text)
    assert found, f"no line of a sample: {text!r}"
    return found.groups()


def test_samples_are_basic_and_tell_what_the_reply_does():
    """Offset and half the delay are together what the server's clock is ahead: nothing else is known of when the reply came."""
    others = {Told(ahead=-2 * SECOND, leap=1, stratum=15): "127.0.0.42", Told(ahead=SECOND // 3, stay=SECOND // 7, leap=2, stratum=1): "7f00002a"}
    for told, identifier in ({Told(): "127.0.0.42"} | others).items():
        with FakeServer(basic(told)) as server:
            begun = time.monotonic()
            _, out, err = asked(server)
            took = time.monotonic() - begun
        same("standard error", "", err)
        kind, offset, delay, stratum, root_distance, reference, leap = line_of(out.removesuffix("\n"))
        same("what it tells", ("basic", str(told.stratum), identifier, str(told.leap)), (kind, stratum, reference, leap))
        same("root distance", text_of(told.root_distance()), root_distance)
        both = seconds_in(offset) + seconds_in(delay) / 2
        assert abs(both - fractions.Fraction(told.ahead, SECOND)) <= fractions.Fraction(2, NANOS), f"offset {offset}, delay {delay}"
        assert -fractions.Fraction(told.stay, SECOND) <= seconds_in(delay) < took, f"a delay of {delay} seconds in a run of {took}"


def test_samples_are_asked_for_by_these_octets():
    before = probe.now()
    with FakeServer(basic()) as server:
        asked(server)
    after = probe.now()
    same("requests", 1, len(server.requests))
    request = server.requests[0]
    same("first octets", bytes([0x23, 0, 6, 0]) + bytes(36), request[:40])
    same("MAC", mac(request[:48]), request[48:])
    same("the stamp is the clock's", True, before <= stamps(request)[2] <= after)


def test_samples_are_interleaved_after_the_first():
    """The first is basic; each other one carries the exchange before, and has the stamps of that one with the departure that is now told."""
    kept = {}

    def answers(request, place):
        origin, receive, transmit = stamps(request)
        came = transmit + 1000 * SECOND + place
        told = Told()
        # When it left, as the next reply tells.
        kept[came] = came + SECOND // 1000
        return [signed(told.header(receive, came, kept[origin]) if origin else told.header(transmit, came, came))]

    with FakeServer(answers) as server:
        _, out, _ = asked(server, "--count", "3", "--interval", "0.1", "--json")
        found = objects(out)
        same("results", ["basic", "interleaved", "interleaved"], [it["result"] for it in found])
    for i, it in enumerate(found):
        # The sample is that of the exchange before; the server's clock is ahead by 1000 seconds and some units.
        assert abs(it["offset"] + it["delay"] / 2 - 1000) <= 1e-8 + 4 / SECOND, f"{it}"
        assert not i or -0.001 <= it["delay"] < 1, f"a delay of {it['delay']}"
    firsts = [stamps(it) for it in server.requests]
    same("the first carries nothing", (0, 0), firsts[0][:2])
    for earlier, later in zip(firsts, firsts[1:]):
        same("receive of the reply before", True, later[0] - (earlier[2] + 1000 * SECOND) < 4)
        same("its arrival is behind its departure", True, earlier[2] < later[1] < later[2])


def test_samples_have_the_one_of_least_delay_told():
    """The second of three replies is late, and the third never comes."""
    def answers(request, place):
        if place == 3:
            return []
        time.sleep(0.15 if place == 2 else 0)
        # A new exchange each time: of the one before nothing is known.
        return basic()(request, place)

    with FakeServer(answers) as server:
        _, out, _ = asked(server, "--count", "3", "--interval", "0.1", "--timeout", "0.4")
    first, second, third, last = out.splitlines()
    same("the third", "silence: nothing came", third)
    (_, offset, delay, *_), (_, _, late, *_) = line_of(first), line_of(second)
    same("the second is late", True, seconds_in(late) > seconds_in(delay) + fractions.Fraction(1, 10))
    same("the last line", f"least delay of 2 samples in 3 queries: offset {offset} s, delay {delay} s", last)


def test_samples_have_their_arrival_read_at_once():
    """The clock is read as soon as a reply has come: beside a server on this host the least delay of many is below a thousandth of a second."""
    with FakeServer(basic()) as server:
        found = objects(asked(server, "--count", "20", "--interval", "0.1", "--json")[1])
    least = min(it["delay"] for it in found)
    assert 0 <= least < 0.001, f"the least delay of {len(found)}: {least}"


def test_samples_have_times_rounded_to_the_nearest():
    """Root distances of whole units of 2^-17 seconds, to the nearest nanosecond."""
    for delay, dispersion in ((1, 0), (0, 1), (3, 5), (0xFFFFFFFF, 0xFFFFFFFF), (0, 0), (12345, 678)):
        told = Told(delay=delay, dispersion=dispersion)
        with FakeServer(basic(told)) as server:
            _, out, _ = asked(server)
        same(f"root distance of {delay} and {dispersion}", text_of(told.root_distance()), line_of(out.rstrip("\n"))[4])


# What a clock of a stratum has as its reference (RFC 5905, 7.3): text up to stratum 1, else an address; digits where it is no text.
REFERENCES = {
    (1, b"GPS\0"): "GPS", (1, b"PPS\0"): "PPS", (1, b"NIST"): "NIST", (1, b"\x1b[2J"): "1b5b324a", (1, b"G\0PS"): "47005053", (1, bytes(4)): "00000000",
    (2, bytes([192, 0, 2, 1])): "192.0.2.1", (15, b"GPS\0"): "71.80.83.0",
}


def test_samples_tell_the_reference_as_text_or_address():
    for (stratum, identifier), text in REFERENCES.items():
        with FakeServer(basic(Told(stratum=stratum, identifier=identifier))) as server:
            same(f"the line of {text}", text, line_of(asked(server)[1].rstrip("\n"))[5])
            found = objects(asked(server, "--json")[1])[0]
            same(f"the object of {text}", (identifier.hex(), text), (found["reference_id"], found["reference"]))


def test_samples_tell_an_offset_that_may_be_another_by_an_era():
    """Stamps have no era of 2^32 seconds (RFC 5905, 6): an offset above 2^30 seconds says so, and one above half an era is another."""
    for ahead, seen in ((2**30 - 9, 0), (2**30 + 9, 1), (-(2**30) - 9, 1), (-(2**30) + 9, 0), (2**31 + 9, 1)):
        with FakeServer(basic(Told(ahead=ahead * SECOND))) as server:
            _, out, _ = asked(server, "--count", "2", "--interval", "0.1")
            same(f"the lines of {ahead}", [out.count("\n") * seen], [out.count(ERA)])
            offset = seconds_in(line_of(out.splitlines()[0])[1])
            same(f"the offset of {ahead}", True, abs(offset - ((ahead + 2**31) % 2**32 - 2**31)) < 5)
            _, out, _ = asked(server, "--max-stratum", "15")
            same(f"the check of {ahead}", seen, out.count(f" s{ERA}, delay "))


def kiss(code, transmit):
    return struct.pack(">BBbbII4s", 0xE4, 0, 6, 0, 0, 0, code) + struct.pack(">QQQQ", 0, transmit, 0, transmit)


signed = lambda header, **key: header + mac(header, **key)
rate = lambda request, _: [signed(kiss(b"RATE", stamps(request)[2]))]
deny = lambda request, _: [kiss(b"DENY", stamps(request)[2])]
nak = lambda request, place: [basic()(request, place)[0][:48] + bytes(4)]


def test_results_are_rate_deny_nak_and_silence():
    begun = time.monotonic()
    results = {"rate": (rate, ["--timeout", "30"]), "deny": (deny, SHORT), "nak": (nak, SHORT), "silence": (lambda *_: [], SHORT)}
    for word, (answers, more) in results.items():
        with FakeServer(answers) as server:
            _, out, err = asked(server, *more, wanted=1)
            same(f"the line of {word}", (True, 1, ""), (out.startswith(f"{word}: "), out.count("\n"), err))
            _, out, _ = asked(server, *more, "--json", wanted=1)
            wanted = {it: None for it in MEMBERS} | {"result": word, "server": f"127.0.0.1:{server.port}", "number": NUMBER}
            same(f"the object of {word}", wanted, objects(out)[0])
    # A RATE is authentic, and ends the query.
    same("no wait behind a RATE", True, time.monotonic() - begun < 10)


def changed(change):
    return lambda request, place: [change(basic()(request, place)[0])]


def with_field(length):
    """A reply with a field of 28 octets that writes this length, and 20 octets behind it."""
    return changed(lambda it: it[:48] + struct.pack(">HH", 0x0104, length) + bytes(24 + 20))


REFUSED = {
    "short": (changed(lambda it: it[:47]), "it has fewer than 48 octets"),
    "long": (changed(lambda it: it + bytes(1025 - len(it))), "it has more than 1024 octets"),
    "field-short": (with_field(12), "its field at octet 48 is too short"),
    "field-unaligned": (with_field(18), "its field at octet 48 has a length that is no multiple of 4"),
    "field-past-end": (with_field(400), "its field at octet 48 goes on past its end"),
    "rest": (changed(lambda it: it[:60]), "what it has from octet 48 on is no MAC"),
    "mode": (lambda request, _: [request], "it is not from a server: its mode is not 4"),
    "version": (basic(Told(version=3)), "its version is not 4"),
    "origin": (basic(Told(origin=1)), "it is no reply to this query"),
    "unsigned": (changed(lambda it: it[:48]), "it is not signed"),
    "mac": (changed(lambda it: it[:-1] + bytes([it[-1] ^ 1])), "it is not signed with this key"),
    "unsynchronised": (basic(Told(leap=3)), "the server's clock is not synchronised"),
    "stamps": (basic(Told(receive=0)), "it tells no time"),
}


def test_results_tell_each_reason_why_a_reply_is_not_taken():
    for word, (answers, text) in REFUSED.items():
        with FakeServer(answers) as server:
            same(f"the line of {word}", (1, f"refused: {text}\n", ""), asked(server, *SHORT, wanted=1))
            found = objects(asked(server, *SHORT, "--json", wanted=1)[1])[0]
            same(f"the object of {word}", ("refused", word, None), (found["result"], found["reason"], found["offset"]))


def test_results_of_other_replies_that_are_not_taken():
    others = {
        "unsynchronised": [basic(Told(stratum=0)), basic(Told(stratum=16))],
        "unsigned": [lambda request, place: [rate(request, place)[0][:48]], changed(lambda it: it[:48] + struct.pack(">I", 9))],
        "mac": [basic(key=b"other"), basic(number=8)],
    }
    for word, them in others.items():
        for answers in them:
            with FakeServer(answers) as server:
                same(word, word, objects(asked(server, *SHORT, "--json", wanted=1)[1])[0]["reason"])


def test_results_are_never_forged_in_the_place_of_the_reply():
    """What anybody can send leaves the query waiting, and the reply behind it is taken."""
    def answers(request, place):
        right = basic()(request, place)
        return [*nak(request, place), *deny(request, place), b"", bytes(2000), right[0][:-1] + b"x", *right, *nak(request, place)]

    with FakeServer(answers) as server:
        same("the result", "basic", line_of(asked(server)[1].rstrip("\n"))[0])


def test_results_at_the_time_limit_are_the_last():
    """Where nothing authentic comes, the last of it is told, at the time limit."""
    with FakeServer(lambda request, place: nak(request, place) + deny(request, place) + [bytes(47)]) as server:
        begun = time.monotonic()
        same("the line", "refused: it has fewer than 48 octets\n", asked(server, "--timeout", "0.6", wanted=1)[1])
        same("the time limit", True, 0.55 < time.monotonic() - begun < 5)


def test_results_of_a_reply_from_another_port():
    def answers(request, place):
        with probe.bound() as other:
            for words in labntpd_server.udp_sockets():
                if words[2].endswith(f":{server.port:04X}"):
                    other.sendto(basic()(request, place)[0], (probe.HOST, int(words[1].rpartition(":")[2], 16)))
                    heard.append(words[1])
        return []

    heard = []
    with FakeServer(answers) as server:
        same("the line", "silence: nothing came\n", asked(server, *SHORT, wanted=1)[1])
    same("clients that were sent it", 1, len(heard))


REFUSED_CONNECTION = "unreachable: the network says that nobody listens there (connection refused)\n"


def test_results_where_nobody_listens():
    """That nobody listens is no authentic answer: the query goes on until its time limit, and then says so."""
    words = [*keyed(), *SHORT, f"127.0.0.1:{probe.free_port()}"]
    begun = time.monotonic()
    same("both", (1, REFUSED_CONNECTION * 2, ""), run(["--count", "2", "--interval", "0.1", *words]))
    same("the time limits", True, 0.45 < time.monotonic() - begun < 5)
    found = objects(run(["--json", *words], 1)[1])[0]
    same("the object", ("unreachable", "port", None), tuple(found[it] for it in ("result", "reason", "offset")))
    same("the check", (2, f"NTP CRITICAL: no sample, {REFUSED_CONNECTION}", ""), run(["--max-offset", "1", *words]))


# What ICMP says of a datagram (RFC 792; RFC 1122, 3.2.2.1; RFC 1812, 5.2.7.1), each of which Linux makes an error of a joined socket: no such
# protocol, nobody listens, an unknown network or host, a host apart, a network, a host or all that is forbidden; a faulty header.
ICMP = [*((3, code) for code in (2, 3, 6, 7, 8, 9, 10, 13)), (12, 0)]


def sum_of(octets):
    whole = sum(struct.unpack(f">{len(octets) // 2}H", octets))
    return ~(whole % 0xFFFF) & 0xFFFF


class Network:
    """The network, which says something of a datagram of the client of a server, as only root may have it say."""

    def __enter__(self):
        try:
            self.socket = socket.socket(socket.AF_INET, socket.SOCK_RAW, socket.IPPROTO_ICMP)
        except PermissionError:
            raise PassedOver("only root may send ICMP")
        return self

    def __exit__(self, *_):
        self.socket.close()

    def says(self, kind, code, server):
        """It has said so a moment later."""
        host = socket.inet_aton(probe.HOST)
        datagram = struct.pack(">BBHHHBBH4s4sHHHH", 0x45, 0, 96, 0, 0, 64, socket.IPPROTO_UDP, 0, host, host, server.client[1], server.port, 76, 0)
        checksum = sum_of(struct.pack(">BBHI", kind, code, 0, 0) + datagram)
        self.socket.sendto(struct.pack(">BBHI", kind, code, checksum, 0) + datagram, (probe.HOST, 0))
        time.sleep(0.02)


def test_results_are_not_ended_by_what_the_network_says():
    """It is not authentic: neither does it end a query, nor the wait for the next one."""
    def answers(request, number):
        came.append(time.monotonic())
        for it in said:
            network.says(*it, server)
        yield from basic()(request, number)
        for it in said:
            network.says(*it, server)

    with Network() as network, FakeServer(answers) as server:
        for said in [[it] for it in ICMP] + [ICMP]:
            came = []
            _, out, err = asked(server, "--count", "2", "--interval", "1", "--json")
            same(f"{said}", (["basic", "basic"], ""), ([it["result"] for it in objects(out)], err))
            same(f"{said}: whole seconds between the requests", 1, int(came[1] - came[0]))


def test_results_where_the_network_alone_says_something():
    """Where nothing else comes, the outcome is what it says; where anything else does, that."""
    def answers(request, number):
        network.says(*it, server)
        return replies(request, number)

    with Network() as network, FakeServer(answers) as server:
        for it in ICMP:
            port = it == (3, 3)
            line = REFUSED_CONNECTION if port else "unreachable: the network says that the server is not reached\n"
            replies = lambda *_: []
            same(f"the line of {it}", line, asked(server, *SHORT, wanted=1)[1])
            found = objects(asked(server, *SHORT, "--json", wanted=1)[1])[0]
            same(f"the object of {it}", ("unreachable", "port" if port else "network"), (found["result"], found["reason"]))
            replies = nak
            same(f"{it} and a NAK", "nak", objects(asked(server, *SHORT, "--json", wanted=1)[1])[0]["result"])


def test_results_where_the_network_said_something_of_an_earlier_request():
    """The program stands still until the next request is due; then its socket has an error."""
    with Network() as network, FakeServer(basic()) as server, open(f"{judging.ROOM}/out", "wb") as out:
        for number, it in enumerate(ICMP):
            process = judging.start(server.words("--count", "2", "--interval", "0.3"), stdout=out, stderr=subprocess.STDOUT)
            until("the first request", lambda: len(server.requests) > 2 * number)
            time.sleep(0.1)
            process.send_signal(signal.SIGSTOP)
            time.sleep(0.4)
            network.says(*it, server)
            process.send_signal(signal.SIGCONT)
            same(f"{it}", 0, process.wait(judging.WAIT))
        same("requests", 2 * len(ICMP), len(server.requests))


def test_sockets_with_receives_that_fail():
    """The system's fault is told: of the first receive, and of one that waits for the next request."""
    for left in (0, 1):
        environment = os.environ | odd_host.in_front(odd_host.DOWN % left)
        with FakeServer(basic()) as server:
            fault = f"127.0.0.1:{server.port}: Network is down (os error 100)\n"
            status, out, err = run(server.words("--count", "2", "--interval", "1"), env=environment)
            same("a query", (3, left, fault), (status, out.count("basic"), err))
            ran = run(server.words("--count", "2", "--interval", "1", "--max-offset", "1"), env=environment)
            same("a check", (3, f"NTP UNKNOWN: {fault}", ""), ran)


def unsigned(change=lambda it: it, told=None):
    """Answers without a MAC, as a server does that knows no keys."""
    return lambda request, place: [change(basic(told)(request + bytes(20), place)[0][:48])]


def test_unsigned_samples_are_told():
    told = Told()
    with FakeServer(unsigned(told=told)) as server:
        place = f"127.0.0.1:{server.port}"
        _, out, err = run(["--count", "2", "--interval", "0.1", place], 0)
        first, second, last = out.splitlines()
        same("the requests", [(bytes([0x23, 0, 6, 0]) + bytes(36), 48)] * 2, [(it[:40], len(it)) for it in server.requests])
        for line in (first, second):
            kind, offset, delay, stratum, root_distance, reference, leap = line_of(line)
            same("what it tells", ("unauthenticated", "2", "127.0.0.42", "0"), (kind, stratum, reference, leap))
            same("root distance", text_of(told.root_distance()), root_distance)
            same("offset and half the delay", True, abs(seconds_in(offset) + seconds_in(delay) / 2 - 1000) < fractions.Fraction(1, 10**8))
        same("the last line", True, last.startswith("least delay of 2 samples in 2 queries: unauthenticated, offset "))
        found = objects(run(["--json", place], 0)[1])[0]
        same("the object", ("unauthenticated", None, None), tuple(found[it] for it in ("result", "reason", "number")))
        for limit, status, begins in (("2000", 0, "NTP OK: unauthenticated, "), ("1", 2, "NTP CRITICAL: offset above its limit, unauthenticated, ")):
            _, out, _ = run(["--max-offset", limit, place], status)
            same("the check", begins, out[: len(begins)])
            figures(out[len(begins) :], told)


def test_unsigned_replies_that_are_no_time():
    """What is no time, to an unsigned query: a kiss with its code, a reason, or nothing. A reply to another request leaves it waiting."""
    for code in ("DENY", "RATE", "RSTR"):
        with FakeServer(lambda request, _: [kiss(code.encode(), stamps(request)[2])]) as server:
            place = f"127.0.0.1:{server.port}"
            same(f"the line of {code}", (1, f"kiss: {code}, if this is from the server\n", ""), run([*SHORT, place]))
            found = objects(run([*SHORT, "--json", place], 1)[1])[0]
            same(f"the object of {code}", ("kiss", code, code.encode().hex()), tuple(found[it] for it in ("result", "reference", "reference_id")))
    reasons = {
        "short": unsigned(lambda it: it[:47]), "long": unsigned(lambda it: it + bytes(1025 - len(it))), "rest": unsigned(lambda it: it + bytes(12)),
        "mode": lambda request, _: [request], "version": unsigned(told=Told(version=3)), "origin": unsigned(told=Told(origin=1)),
        "unsynchronised": unsigned(told=Told(leap=3)), "stamps": unsigned(told=Told(receive=0)),
    }
    reasons_besides = {"stratum 16": unsigned(told=Told(stratum=16)), "stratum 0": unsigned(told=Told(stratum=0, identifier=bytes(4)))}
    for word, answers in (reasons | reasons_besides).items():
        with FakeServer(answers) as server:
            found = objects(run([*SHORT, "--json", f"127.0.0.1:{server.port}"], 1)[1])[0]
            same(word, ("refused", word if word in reasons else "unsynchronised"), (found["result"], found["reason"]))
    with FakeServer(lambda request, place: unsigned(told=Told(origin=1))(request, place) + rate(request, place) + unsigned()(request, place)) as server:
        same("the reply behind them", "unauthenticated", line_of(run([f"127.0.0.1:{server.port}"], 0)[1].rstrip("\n"))[0])
    with FakeServer(lambda *_: []) as server:
        same("nothing", (1, "silence: nothing came\n", ""), run([*SHORT, f"127.0.0.1:{server.port}"]))


def with_hosts(*words):
    """A run in which /etc/hosts has these names, and names no others."""
    hosts = file_of("hosts", "127.0.0.1 localhost\n::1 ntp.example\n127.0.0.1 ntp.example 4.ntp.example\n::1 six.example\n")
    switch = file_of("nsswitch.conf", "hosts: files\n")
    script = f'mount --bind {hosts} /etc/hosts && mount --bind {switch} /etc/nsswitch.conf && exec "$@"'
    return run(words, before=["unshare", "-m", "sh", "-c", script, ""])


def test_sockets_reach_a_server_by_its_name():
    """The first IPv4 address of a name is asked, and a name that is not found is a fault."""
    if os.geteuid() or not shutil.which("unshare") or not os.path.exists("/etc/nsswitch.conf"):
        raise PassedOver("names may not be made here")
    with FakeServer(basic()) as server:
        for name in ("localhost", "ntp.example", "4.ntp.example", "NTP.example"):
            status, out, err = with_hosts(*keyed(), "--json", f"{name}:{server.port}")
            same(name, (0, ""), (status, err))
            same(f"the object of {name}", ("basic", f"{name}:{server.port}"), tuple(objects(out)[0][it] for it in ("result", "server")))
    same("no such name", (3, "", "no.example: failed to lookup address information: Name or service not known\n"), with_hosts(*keyed(), "no.example"))
    same("no IPv4 address", (3, "", "six.example:9: the name has no IPv4 address\n"), with_hosts(*keyed(), "six.example:9"))
    ran = with_hosts("--max-offset", "1", "no.example")
    same("of a check", (3, "NTP UNKNOWN: no.example: failed to lookup address information: Name or service not known\n", ""), ran)


def test_sockets_have_the_address_that_is_asked_from():
    with FakeServer(basic()) as server:
        for source in ("127.0.0.5", "127.0.0.1"):
            asked(server, "--source", source)
            same("where it came from", source, server.client[0])
        fault = "192.0.2.77: Cannot assign requested address (os error 99)\n"
        same("another host's", (3, "", fault), run(server.words("--source", "192.0.2.77")))
        same("of a check", (3, f"NTP UNKNOWN: {fault}", ""), run(server.words("--source", "192.0.2.77", "--max-offset", "1")))
    same("requests", 2, len(server.requests))


def test_json_of_samples():
    told = Told(leap=1)
    with FakeServer(basic(told)) as server:
        _, out, err = asked(server, "--json", "--count", "2", "--interval", "0.1")
        same("lines", (2, ""), (out.count("\n"), err))
        for line in out.splitlines():
            found = json.loads(line)
            same("its members", MEMBERS, [*found])
            same("what it tells", ("basic", None, 2, 1, "7f00002a", "127.0.0.42", f"127.0.0.1:{server.port}", NUMBER),
                 tuple(found[it] for it in ("result", "reason", "stratum", "leap", "reference_id", "reference", "server", "number")))
            same("root distance", float(text_of(told.root_distance())), found["root_distance"])
            same("kinds of numbers", [float] * 3, [type(found[it]) for it in ("offset", "delay", "root_distance")])
            same("offset and half the delay", True, abs(found["offset"] + found["delay"] / 2 - 1000) < 1e-8)
            same("nine decimals at most", True, all(round(found[it], 9) == found[it] for it in ("offset", "delay")))


FIGURES = (r"offset (\S+) s, delay (\S+) s, stratum (\d+), root distance (\S+) s "
           r"\| offset=(\S+)s delay=(\S+)s stratum=(\d+) root_distance=(\S+)s\n")


def check(answers, *limits, status, begins, more=()):
    with FakeServer(answers) as server:
        _, out, err = asked(server, *SHORT, *more, *limits, wanted=status)
    word = {0: "OK", 1: "WARNING", 2: "CRITICAL"}[status]
    wanted = f"NTP {word}: {begins}"
    same("the line", (wanted, ""), (out[: len(wanted)], err))
    return out[len(wanted) :]


def figures(text, told):
    found = re.fullmatch(FIGURES, text)
    assert found, f"no figures: {text!r}"
    same("the figures again", found.groups()[:4], found.groups()[4:])
    same("stratum, root distance", (str(told.stratum), text_of(told.root_distance())), found.groups()[2:4])


def test_checks_heed_their_limits():
    told = Told(ahead=-SECOND // 4)
    well = basic(told)
    wide = ["--max-offset", "1", "--max-stratum", "2", "--max-root-distance", "1.6"]
    figures(check(well, *wide, "--warn-offset", "0.3", "--warn-stratum", "3", "--warn-root-distance", "2", status=0, begins=""), told)
    figures(check(well, *wide, "--warn-offset", "0.2", status=1, begins="offset above its limit, "), told)
    figures(check(well, "--warn-stratum", "1", status=1, begins="stratum above its limit, "), told)
    figures(check(well, "--warn-root-distance", "1", status=1, begins="root distance above its limit, "), told)
    figures(check(well, "--max-offset", "0.2", "--warn-offset", "0.1", status=2, begins="offset above its limit, "), told)
    figures(check(well, "--max-stratum", "1", status=2, begins="stratum above its limit, "), told)
    figures(check(well, "--max-root-distance", "0.5", status=2, begins="root distance above its limit, "), told)
    same("at its limit", "", check(well, "--max-stratum", "2", status=0, begins="")[:0])


def test_checks_without_a_sample():
    same("nothing", "nothing came\n", check(lambda *_: [], "--max-offset", "1", status=2, begins="no sample, silence: "))
    unsynchronised = check(basic(Told(leap=3)), "--warn-offset", "1", status=2, begins="no sample, refused: ")
    same("not synchronised", "the server's clock is not synchronised\n", unsynchronised)
    # One of three has none.
    some = lambda request, place: [] if place == 2 else basic()(request, place)
    rest = check(some, "--max-offset", "2000", status=1, begins="not every query gave a sample, ", more=["--count", "3", "--interval", "0.1"])
    figures(rest, Told())


def test_checks_where_nothing_could_be_asked():
    server = f"127.0.0.1:{probe.free_port()}"
    limit = ["--max-offset", "1"]
    missing = ["--key-file", f"{judging.ROOM}/nothing", "--number", "7"]
    for words in ([*missing, *limit, server], [*keyed(99), *limit, server], [*keyed(), *limit, "255.255.255.255"]):
        status, out, err = run(words)
        same(" ".join(words), (3, True, 1, ""), (status, out.startswith("NTP UNKNOWN: "), out.count("\n"), err))
    for words in ([*keyed(), "--max-offset", "x", server], [*keyed(), "--warn-stratum", "300", server], ["--number", "7", *limit, server], [*keyed(), *limit]):
        status, out, err = run(words)
        same(" ".join(words), (3, "NTP UNKNOWN: usage\n", True), (status, out, bool(err)))


def test_checks_in_json():
    """With --json its objects are printed in place of the line, and the status is the check's."""
    with FakeServer(basic()) as server:
        _, out, _ = asked(server, "--json", "--max-offset", "1", wanted=2)
    same("one object", ["basic"], [it["result"] for it in objects(out)])


def test_keys_at_a_path_with_any_character_are_told_in_one_line():
    """Of its path each character that is no printable ASCII is told as `\\u{..}`."""
    path, told = (f"{judging.ROOM}/keys {it}" for it in ("~\x1b\n\u00e9", "~\\u{1b}\\u{a}\\u{e9}"))
    for text, fault in ((None, "No such file or directory (os error 2)"), (KEYS, "there is no key 9"), (b"\xff\n", "this is no UTF-8")):
        if text is not None:
            file_of(os.path.basename(path), text)
        words = ["--key-file", path, "--number", "9", "127.0.0.1"]
        same("a person", (3, "", f"{told}: {fault}\n"), run(words))
        same("monitoring", (3, f"NTP UNKNOWN: {told}: {fault}\n", ""), run(["--max-offset", "1", *words]))


def in_file(line, number=NUMBER):
    return f"# {KEY.hex()}\n%\n;\n!\n\n   \n70 MD5 HEX:zz\nnonsense\n{line}\n{number} SHA1 other\n"


def test_keys_in_each_form_of_a_line():
    forms = {
        f"{NUMBER} {KEY.decode()}": "md5", f"{NUMBER} MD5 {KEY.decode()}": "md5", f"{NUMBER} ASCII:{KEY.decode()}": "md5",
        f"{NUMBER} MD5 ASCII:{KEY.decode()}": "md5", f"{NUMBER} HEX:{KEY.hex()}": "md5", f"  {NUMBER}   MD5\tHEX:{KEY.hex().upper()}  ": "md5",
        f"{NUMBER} SHA1 HEX:{KEY.hex()}": "sha1", f"{NUMBER}\tSHA1\t{KEY.decode()}\r": "sha1",
    }
    for line, algorithm in forms.items():
        def answers(request, place):
            same("MAC of the request", mac(request[:48], algorithm=algorithm), request[48:])
            return basic(algorithm=algorithm)(request, place)

        with FakeServer(answers) as server:
            for text in (in_file(line), line):
                same(f"with {line!r}", "basic", run([*keyed(text=text), *SHORT, f"127.0.0.1:{server.port}"])[1].partition(":")[0])


def test_keys_with_the_most_octets_and_the_highest_number():
    key = b"k" * 32
    with FakeServer(basic(key=key, number=65535, algorithm="sha1")) as server:
        words = [*keyed(65535, f"65535 SHA1 {key.decode()}"), f"127.0.0.1:{server.port}"]
        same("the longest key", "basic", run(words)[1].partition(":")[0])


def test_keys_have_their_faults_told_with_the_line():
    wanted = "NUMBER [MD5|SHA1] [ASCII:|HEX:]KEY is wanted"
    octets = "a key of 1 to 32 octets is wanted, behind HEX: in 2 to 64 hexadecimal digits"
    lines = {
        f"{NUMBER}": wanted, f"{NUMBER} MD5 {KEY.decode()} x": wanted, f"{NUMBER} SHA256 HEX:{KEY.hex()}": "MD5 or SHA1 is wanted",
        f"{NUMBER} md5 {KEY.decode()}": "MD5 or SHA1 is wanted", f"{NUMBER} MD5 HEX:{KEY.hex()}0": octets, f"{NUMBER} MD5 HEX:": octets,
        f"{NUMBER} HEX:xy": octets, f"{NUMBER} SHA1 {'k' * 33}": octets, f"{NUMBER} MD5 HEX:{'00' * 33}": octets, f"{NUMBER} ASCII:": octets,
    }
    path = f"{judging.ROOM}/keys"
    for line, text in lines.items():
        same(line, (3, "", f"{path}: line 9: {text}\n"), run([*keyed(text=in_file(line)), "127.0.0.1"]))
    for text in ("", KEYS, in_file("007 MD5 x"), f"#{NUMBER} MD5 x\n"):
        number = 9 if text == KEYS else 7 if text != in_file("007 MD5 x") else 8
        same(repr(text), (3, "", f"{path}: there is no key {number}\n"), run([*keyed(number, text), "127.0.0.1"]))
    same("too long", (3, "", f"{path}: at most 65536 octets are wanted\n"), run([*keyed(text="#" * 65537), "127.0.0.1"]))
    same("no text", (3, "", f"{path}: this is no UTF-8\n"), run([*keyed(text=KEYS.encode() + b"\xff"), "127.0.0.1"]))
    nowhere = ["--key-file", f"{judging.ROOM}/nowhere", "--number", "7", "127.0.0.1"]
    same("no file", (3, "", f"{judging.ROOM}/nowhere: No such file or directory (os error 2)\n"), run(nowhere))
    folder = ["--key-file", judging.ROOM, "--number", "7", "127.0.0.1"]
    same("a folder", (3, "", f"{judging.ROOM}: a regular file is wanted\n"), run(folder))


def test_sockets_with_an_address_that_is_refused():
    status, out, err = run([*keyed(), "255.255.255.255"])
    same("a broadcast", (3, "", True), (status, out, err.startswith("255.255.255.255: ") and err.count("\n") == 1))


def test_words_for_help_and_version():
    status, out, err = run(["--help"])
    same("help", (0, ""), (status, err))
    for word in ("--key-file", "--number", "--count", "--interval", "--timeout", "--json", "--max-offset", "--max-stratum",
                 "--max-root-distance", "--warn-offset", "--warn-stratum", "--warn-root-distance", "--source", "HOST[:PORT]", "136 years", "Examples:", "Exit status:"):
        same(f"{word} in the help", True, word in out)
    version = re.search(r'VERSION: &str = "(.*)"', text_of_file("crates/labntpd_files/src/command_line.rt"))[1]
    same("version", (0, f"labntp-query {version}\n", ""), run(["--version"]))


def test_words_that_are_others_are_refused():
    good = [*keyed(), "127.0.0.1"]
    wrong = [[], [*good[2:]], [*good[:2], "127.0.0.1"], good[:-1], [*good, "127.0.0.2"], [*good, "--nothing"], [*keyed(0), "127.0.0.1"], [*keyed(65536), "127.0.0.1"]]
    hosts = ("127.0.0.300", "127.1", "1", "127.0.0.1:", "127.0.0.1:0", "127.0.0.1:65536", "127.0.0.1:1:2", "localhost:", "localhost:ntp", "::1", "")
    wrong += [[*keyed(), it] for it in hosts]
    wrong += [["--source", it, *good] for it in ("localhost", "127.0.0", "::1", "127.0.0.1:123", "")]
    wrong += [["--count", it, *good] for it in ("0", "1001", "x")]
    wrong += [["--interval", it, *good] for it in ("0", "0.05", "3601", "x", "nan", "inf")]
    wrong += [["--timeout", it, *good] for it in ("0", "61", "-1", "x")]
    for words in wrong:
        status, out, err = run(words)
        same(" ".join(words), (2, "", True), (status, out, bool(err)))
    for more in ([], ["--max-offset", "1"]):
        same("a word that is no text", (3, "", "usage\n"), run([*good, *more, b"\xff"]))


def test_words_where_a_standard_stream_is_closed():
    """The socket does not take the place of a standard stream that is closed, and so nothing that is told goes to the server."""
    with FakeServer(basic()) as server:
        for stream, told in ((">&-", "write\n"), ("2>&-", "")):
            for more in ([], ["--json"], ["--max-offset", "1"]):
                ran = run(server.words(*more, *SHORT), before=["sh", "-c", f'exec "$@" {stream}', ""])
                same(f"{stream} {more}", (3, "", told), ran)
    same("datagrams that came to the server", [], server.requests)


def test_words_and_writes_that_fail():
    with FakeServer(basic()) as server:
        for more in ([], ["--json"], ["--count", "2", "--interval", "0.1"]):
            with open("/dev/full", "wb") as full:
                same(" ".join(more), (3, "write\n"), run(server.words(*more), stdout=full)[::2])
    for word in ("--help", "--version"):
        outputs_that_take_nothing([word])


def test_servers_labntpd():
    (built,) = judging.built("labntpd")
    if not os.access(built, os.X_OK):
        raise PassedOver("labntpd is not built")
    keys = f"2 SHA1 HEX:{SHA1_KEY}\n3 SHA1 HEX:{SHA1_KEY}\n"
    # Its budget is counted in windows of 64 seconds.
    labntpd_server.window(8)
    with labntpd_server.Daemon(enrolled=[("127.0.0.1", 2, "sha1", SHA1_KEY, 4)], program=built) as daemon:
        def results(number, count=1, timeout="5"):
            words = ["--json", "--count", str(count), "--interval", "0.1", "--timeout", timeout, f"127.0.0.1:{daemon.port}"]
            return objects(run([*keyed(number, keys), *words])[1])

        found = results(2, 3)
        same("three queries", ["basic", "interleaved", "interleaved"], [it["result"] for it in found])
        for it in found:
            same("what it tells", (1, 0, "4e495354", 0.000244141), tuple(it[name] for name in ("stratum", "leap", "reference_id", "root_distance")))
            same("offset and delay on one host", True, abs(it["offset"]) < 0.3 and abs(it["delay"]) < 0.5)
        same("another number", "nak", results(3, timeout="0.2")[0]["result"])
        found = objects(run([*SHORT, "--json", f"127.0.0.1:{daemon.port}"], 1)[1])[0]
        same("unsigned", ("kiss", "DENY"), (found["result"], found["reference"]))
        same("past the budget", ["basic", "rate"], [it["result"] for it in results(2, 2)])
        daemon.append("revoke 127.0.0.1")
        time.sleep(0.3)
        same("revoked", "deny", results(2, timeout="0.2")[0]["result"])


def test_servers_chronyd():
    port, keys = probe.free_port(), labntpd_server.room("chrony.keys")
    labntpd_server.begin(labntpd_server.chronyd_at(port, "chrony", "local stratum 1", keys=f"1 SHA1 HEX:{SHA1_KEY}\n5 MD5 {KEY.decode()}\n"))
    words = ["--key-file", keys, "--json", f"127.0.0.1:{port}"]
    until("it answers", lambda: run([*words, *SHORT, "--number", "1"])[0] == 0)
    found = objects(run(["--json", f"127.0.0.1:{port}"], 0)[1])[0]
    same("unsigned", ("unauthenticated", 1, "7f7f0101"), tuple(found[it] for it in ("result", "stratum", "reference_id")))
    for number in ("1", "5"):
        _, out, _ = run([*words, "--number", number, "--count", "4", "--interval", "0.1"], 0)
        found = objects(out)
        # It begins to save stamps of a client that asks for an interleaved answer.
        same("the first, and the last two", ["basic", "interleaved", "interleaved"], [found[i]["result"] for i in (0, 2, 3)])
        same("what it tells", {(1, 0, "7f7f0101")}, {(it["stratum"], it["leap"], it["reference_id"]) for it in found})
        same("offset and delay on one host", True, all(abs(it["offset"]) < 0.3 and abs(it["delay"]) < 0.5 for it in found))


def test_servers_ntpd_of_ntpsec():
    """NTPsec's, which knows no port but 123: in a network apart. It is not synchronised in its first minutes, which only a reply that is signed
    with the key can tell; a query with another key is not answered so."""
    found = shutil.which("ntpd", path=f"{os.environ.get('PATH', '')}:/usr/sbin")
    if not found:
        raise PassedOver("there is no ntpd")
    if os.geteuid() or not shutil.which("unshare") or not shutil.which("ip"):
        raise PassedOver("a network apart may not be made here")
    keys, other = file_of("ntp.keys", f"5 MD5 {KEY.decode()}\n"), file_of("other.keys", "5 MD5 another\n")
    conf = file_of("ntp.conf", f"refclock local stratum 1\nkeys {keys}\ntrustedkey 5\n")
    ask = f"{judging.PROGRAM} --number 5 --json --timeout 0.5 127.0.0.1 --key-file"
    begins = f"ip link set lo up; {found} -n -c {conf} >/dev/null 2>&1 &"
    until_answered = f"for i in $(seq 40); do said=$({ask} {keys}); case $said in *silence*) sleep 0.2;; *) break;; esac; done"
    script = f"{begins} {until_answered}; echo $said; {ask} {other}; kill %1"
    ran = subprocess.run(["unshare", "-n", "bash", "-c", script], cwd=judging.ROOM, stdin=subprocess.DEVNULL, capture_output=True, text=True, timeout=40)
    first, second = objects(ran.stdout)
    same("authentic", True, first["result"] == "basic" or first["reason"] == "unsynchronised")
    same("with another key", True, second["result"] in ("nak", "silence"))
