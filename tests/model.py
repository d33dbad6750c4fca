"""What a server answers to datagrams and to lines of commands, by docs/FORMATS.md, sections 2 to 6, in Python: a model to judge it by.

It shares no code with the server. `Model.datagram` gives an `Answer`, which says whether the octets of a reply are right; `Model.line`
gives the words of an answer to a line of commands.
"""
import collections
import hashlib
import re
import struct

# How many refusals of a window are sent, how many exchanges are saved, and a window's seconds.
REFUSALS, SAVED, WINDOW = 4, 8, 64
# The tails by their octets, with the algorithm of a MAC.
MACS = {20: "md5", 24: "sha1"}
# How long a departure may lie behind the receipt, in units of 2^-32 seconds.
SOON = 1 << 22


class Exchange:
    """A time reply: its receive stamp, once that is known, and whether an interleaved reply has used it."""
    __slots__ = ("receive", "is_used")

    def __init__(self):
        self.receive, self.is_used = None, False


class Count:
    """How many events at the newest end lie in the window of the last one."""
    __slots__ = ("window", "events")

    def __init__(self):
        self.window, self.events = None, 0

    def before(self, window):
        """How many there were in this window, before one more."""
        before = self.events if window == self.window else 0
        self.window, self.events = window, before + 1
        return before


class Enrolment:
    def __init__(self, number, algorithm, key, budget):
        self.keys, self.budget = {number: (algorithm, key)}, budget
        self.queries, self.exchanges = Count(), collections.deque(maxlen=SAVED)


class Answer:
    """What a datagram gets. `word` is `silent`, `deny`, `nak`, `rate`, `basic` or `interleaved`."""
    __slots__ = ("word", "request", "key", "exchange", "asked")

    def __init__(self, word, request=b"", key=None, exchange=None, asked=None):
        self.word, self.request, self.key, self.exchange, self.asked = word, request, key, exchange, asked

    def fault(self, reply, reference, window):
        """What is wrong with the octets of its reply, by the reference state in force and the window of the receipt, if anything is. Where
        they are right, the exchange has its receive stamp."""
        first, request = self.request[0] & 0x38, self.request
        origin = request[32:40] if self.word == "interleaved" else request[40:48]
        if self.word in ("deny", "rate"):
            code = b"DENY" if self.word == "deny" else b"RATE"
            stamp = request[40:48] if any(request[40:48]) else bytes(7) + b"\1"
            header = bytes([0xC4 | first, 0, request[2]]) + bytes(9) + code + bytes(8) + request[40:48] + bytes(8) + stamp
        else:
            header = bytes([reference[0] << 6 | first | 4, reference[1], request[2]]) + reference[2:] + origin + reply[32:48]
        if reply[:48] != header:
            return f"{reply[:48].hex()} is no header of {self.word}"
        if reply[48:] != self.tail(header):
            return f"the tail {reply[48:].hex()}"
        return self.fault_of_stamps(*struct.unpack(">QQ", reply[32:48]), window) if self.word in ("nak", "basic", "interleaved") else None

    def tail(self, header):
        if self.word == "deny":
            return b""
        if self.word == "nak":
            return bytes(4)
        algorithm, key, number = self.key
        return struct.pack(">I", number) + hashlib.new(algorithm, key + header).digest()

    def fault_of_stamps(self, receive, transmit, window):
        if (receive >> 32) // WINDOW != window:
            return f"the receive stamp {receive:016x} is not in window {window}"
        begun = receive if self.word != "interleaved" else self.asked.receive
        if not begun < transmit < begun + SOON:
            return f"the transmit stamp {transmit:016x} with a receipt at {begun:016x}"
        if self.exchange:
            self.exchange.receive = receive
        return None


def tail_of(octets):
    """The place of the tail of a datagram that begins with a header, or why it has none."""
    if not 48 <= len(octets) <= 1024:
        return None, "short" if len(octets) < 48 else "long"
    at = 48
    while len(octets) - at > 24:
        length = octets[at + 2] << 8 | octets[at + 3]
        for is_so, why in ((length < 16, "field-short"), (length % 4, "field-unaligned"), (length > len(octets) - at, "field-past-end")):
            if is_so:
                return None, why
        at += length
    return (at, None) if len(octets) - at in (0, 4, *MACS) else (None, "rest")


# What stands behind the first word of a command, and the form of each; most octets of a line.
WORDS = {"enrol": "address number algorithm key budget", "revoke": "address", "budget": "address budget",
         "rollover": "address number algorithm key", "retire": "address number"}
BYTE = "(25[0-5]|2[0-4][0-9]|1[0-9][0-9]|[1-9]?[0-9])"
NUMBER = "([1-9][0-9]{0,3}|[1-5][0-9]{4}|6[0-4][0-9]{3}|65[0-4][0-9]{2}|655[0-2][0-9]|6553[0-5])"
FORMS = {"address": rf"{BYTE}(\.{BYTE}){{3}}", "number": NUMBER, "budget": NUMBER}
FORMS |= {"algorithm": "md5|sha1", "key": "([0-9a-fA-F]{2}){1,32}"}
LONGEST_LINE = 4096


def fault_of(line):
    """The fault of a line of a commands file, without its line feed, that is not passed over; nothing where it is a command."""
    if len(line) > LONGEST_LINE:
        return "line-long"
    try:
        verb, *words = line.decode().split(" ")
    except UnicodeDecodeError:
        return "not-utf8"
    if verb not in WORDS:
        return "word"
    kinds = WORDS[verb].split()
    if len(words) != len(kinds):
        return "count"
    return next((kind for kind, word in zip(kinds, words) if not re.fullmatch(FORMS[kind], word)), None)


class Model:
    """The customers. Addresses and numbers are as the lines of commands have them."""

    def __init__(self):
        # The enrolment of each address that was enrolled once, None where it was revoked; its refusals; the address that holds a number.
        self.enrolments, self.refusals, self.holders = {}, {}, {}

    def line(self, line):
        """The answer to a line, in text or in octets: nothing to one that is passed over."""
        line = line.encode() if isinstance(line, str) else line
        if line[:1] in (b"", b"#"):
            return None
        if fault := fault_of(line):
            return f"faulty {fault}"
        verb, *words = line.decode().split(" ")
        refusal = getattr(self, verb)(*words)
        return f"refused {refusal}" if refusal else "done"

    def answers(self, octets):
        """The answers file behind so much of a commands file."""
        answers = ((number, self.line(line)) for number, line in enumerate(octets.split(b"\n")[:-1], 1))
        return "".join(f"{number} {answer}\n" for number, answer in answers if answer)

    def enrol(self, address, number, algorithm, key, budget):
        if self.enrolments.get(address):
            return "already-enrolled"
        if number in self.holders:
            return "key-taken"
        self.enrolments[address] = Enrolment(int(number), algorithm, bytes.fromhex(key), int(budget))
        self.refusals[address] = Count()
        self.holders[number] = address

    def revoke(self, address):
        if not (enrolment := self.enrolments.get(address)):
            return "not-enrolled"
        self.enrolments[address] = None
        for number in enrolment.keys:
            del self.holders[str(number)]

    def budget(self, address, budget):
        if not (enrolment := self.enrolments.get(address)):
            return "not-enrolled"
        enrolment.budget = int(budget)

    def rollover(self, address, number, algorithm, key):
        if not (enrolment := self.enrolments.get(address)):
            return "not-enrolled"
        if int(number) in enrolment.keys:
            return "same-number"
        if len(enrolment.keys) > 1:
            return "room-full"
        if number in self.holders:
            return "key-taken"
        enrolment.keys[int(number)] = (algorithm, bytes.fromhex(key))
        self.holders[number] = address

    def retire(self, address, number):
        if not (enrolment := self.enrolments.get(address)):
            return "not-enrolled"
        if int(number) not in enrolment.keys:
            return "not-held"
        if len(enrolment.keys) == 1:
            return "only-key"
        del enrolment.keys[int(number)]
        del self.holders[number]

    def datagram(self, address, octets, window):
        if address not in self.enrolments:
            return Answer("silent", "unregistered")
        at, why = tail_of(octets)
        if why:
            return Answer("silent", why)
        if octets[0] >> 3 & 7 not in (3, 4):
            return Answer("silent", "version")
        if octets[0] & 7 != 3:
            return Answer("silent", "mode")
        enrolment, tail = self.enrolments[address], octets[at:]
        if not enrolment or not tail:
            return self.refused("deny", address, octets, window)
        if len(tail) == 4:
            return Answer("silent", "bare")
        number = struct.unpack(">I", tail[:4])[0]
        algorithm, key = enrolment.keys.get(number, (None, None))
        if MACS[len(tail)] != algorithm or hashlib.new(algorithm, key + octets[:at]).digest() != tail[4:]:
            return self.refused("nak", address, octets, window)
        return self.signed(enrolment, (algorithm, key, number), octets, window)

    def refused(self, word, address, octets, window):
        is_sent = self.refusals[address].before(window) < REFUSALS
        return Answer(word, octets) if is_sent else Answer("silent", "muted")

    def signed(self, enrolment, key, octets, window):
        before = enrolment.queries.before(window)
        if before >= enrolment.budget:
            return Answer("rate", octets, key) if before == enrolment.budget else Answer("silent", "over-budget")
        origin, receive, transmit = struct.unpack(">QQQ", octets[24:48])
        asked = None
        if receive != transmit:
            asked = next((it for it in enrolment.exchanges if it.receive == origin and not it.is_used), None)
        if asked:
            asked.is_used = True
        exchange = Exchange()
        enrolment.exchanges.append(exchange)
        return Answer("interleaved" if asked else "basic", octets, key, exchange, asked)
