"""What tests ask and hear: queries of their own, a relay that notes what passes, ntpdig at any port.

A customer is written ADDRESS/NUMBER/ALGORITHM/KEY, the key in hexadecimal; an address alone has no key.

    probe.py port                             a free UDP port of 127.0.0.1
    probe.py queries PORT COUNT FORM CUSTOMER asks so often, and prints what came
    probe.py relay PORT LOG                   prints its own port, passes datagrams on and notes them in LOG
    probe.py dig PORT NTPDIG WORDS..          runs the program ntpdig, which knows no port but 123
"""
import collections
import hashlib
import itertools
import random
import re
import select
import socket
import struct
import sys
import time

HOST = "127.0.0.1"
WAIT = 5.0
SINCE_1900 = 2_208_988_800
# To how many octets chrony and NTPsec cut a digest of version 4.
LONGEST_DIGEST = 20
# The kind of the extension fields that are sent: one of those for experiments.
FIELD_KIND = 0xF0FF


def now():
    seconds, nanos = divmod(time.time_ns(), 1_000_000_000)
    return (seconds + SINCE_1900 << 32 | (nanos << 32) // 1_000_000_000) & 0xFFFF_FFFF_FFFF_FFFF


def bound(port=0, host=HOST):
    """A UDP socket at a port, or at a free one."""
    s = socket.socket(socket.AF_INET, socket.SOCK_DGRAM)
    s.bind((host, port))
    return s


class Customer:
    def __init__(self, text):
        words = text.split("/")
        self.address, self.number = words[0], None
        if len(words) > 1:
            self.number, self.algorithm, self.key = int(words[1]), words[2], bytes.fromhex(words[3])

    def mac(self, octets):
        if self.number is None:
            return b""
        return struct.pack(">I", self.number) + hashlib.new(self.algorithm, self.key + octets).digest()[:LONGEST_DIGEST]

    def socket(self, port):
        s = bound(host=self.address)
        s.connect((HOST, port))
        return s


def first_octet(form):
    """No leap second, version 4 and mode 3, where the form names no other: `version-3`, `mode-1`, `version-1-mode-0`."""
    named = {word: int(number) for word, number in re.findall(r"(version|mode)-(\d)", form)}
    return named.get("version", 4) << 3 | named.get("mode", 3)


def query(customer, form="plain", origin=0, receive=0):
    header = struct.pack(">B3x20xQQQ", first_octet(form), origin, receive, 0 if form == "unsent" else now())
    if form == "empty":
        return b""
    if form == "short":
        return header[:47]
    if form == "bare":
        return header + struct.pack(">I", customer.number)
    if form == "rest":
        return header + bytes(16)
    if form == "control":               # the variables of the server: version 2, mode 6, operation 2
        return struct.pack(">BBH8x", 0x16, 2, 1)
    if form == "private":               # its newest clients, as ntpdc asked: version 2, mode 7, implementation 3, request 42
        return struct.pack(">BBBB44x", 0x17, 0, 3, 42)
    if form.startswith("behind-"):      # so many zeros behind the header
        return header + bytes(int(form[7:]))
    if form.startswith("field-"):       # a field of zeros, to this many octets in all
        length = int(form[6:]) - 48 - len(customer.mac(b""))
        header += struct.pack(">HH", FIELD_KIND, length) + bytes(length - 4)
    if form.startswith("claims-"):      # a field of 28 octets that names this length
        header += struct.pack(">HH", FIELD_KIND, int(form[7:])) + bytes(24)
    packet = header + customer.mac(header)
    if form.startswith("more-"):        # so many zeros behind the MAC
        return packet + bytes(int(form[5:]))
    if form == "wrong":
        packet = packet[:-1] + bytes([packet[-1] ^ 1])
    return packet


def stamps(packet):
    return struct.unpack(">QQQ", packet[24:48])


def nanos(stamp):
    """The time of a stamp in nanoseconds since 1970, in the era that is nearest to now."""
    seconds = (stamp >> 32) - SINCE_1900
    seconds += ((time.time_ns() // 1_000_000_000 - seconds + 2**31) >> 32) << 32
    return seconds * 1_000_000_000 + ((stamp & 0xFFFF_FFFF) * 1_000_000_000 >> 32)


def kind(customer, request, reply, clock=None):
    """What a reply is, or nothing.  `clock` has the stamps before the query was sent and after the reply came."""
    def odd(what):
        return f"{what} in {reply.hex()}"

    if reply is None:
        return "nothing"
    if len(reply) < 48:
        return odd("too few octets")
    if len(reply) > len(request):
        return odd("longer than the request")
    if reply[0] & 7 != 4 or reply[0] >> 3 & 7 != request[0] >> 3 & 7:
        return odd("mode or version")
    _, asked_receive, asked_transmit = stamps(request)
    origin, receive, transmit = stamps(reply)
    code = reply[12:16]
    is_kiss = reply[0] >> 6 == 3 and reply[1] == 0
    if len(reply) == 48:
        fits = is_kiss and code == b"DENY" and origin == asked_transmit
        return "deny" if fits else odd("no MAC")
    if len(reply) == 52:
        return "nak" if reply[48:] == bytes(4) and origin == asked_transmit else odd("52 octets")
    if customer.number is None or reply[48:] != customer.mac(reply[:48]):
        return odd("a wrong MAC")
    if is_kiss:
        return "rate" if code == b"RATE" and origin == asked_transmit else odd("kiss")
    if not 1 <= reply[1] <= 15 or 0 in (receive, transmit) or receive == transmit:
        return odd("stratum or stamps")
    if origin == asked_transmit:
        if clock and not clock[0] <= receive < transmit <= clock[1]:
            return odd("stamps that are not the clock's")
        return "time"
    if origin == asked_receive:
        return "interleaved"
    return odd("origin")


def answer(s, wait=WAIT):
    """The next datagram, or None."""
    if not select.select([s], [], [], wait)[0]:
        return None
    try:
        return s.recv(2048)
    except ConnectionRefusedError:
        return None


def exchange(customer, s, *asked, wait=WAIT):
    """Sends a query, of which `query` takes the form and the stamps: the kind of what comes in so many seconds, that, and when it came."""
    packet = query(customer, *asked)
    s.send(packet)
    reply, came = answer(s, wait), now()
    return kind(customer, packet, reply), reply, came


def ask(port, form, text):
    """Sends one query. Gives what came: time, rate, deny, nak, nothing in WAIT seconds, or what was wrong with it."""
    customer = Customer(text)
    with customer.socket(port) as s:
        before, packet = now(), query(customer, form)
        s.send(packet)
        return kind(customer, packet, answer(s), (before, now()))


def silence(port, marker, form, text):
    """Sends a query to which no answer is to come, and then one as another customer. Gives `silence` once that one alone has its answer."""
    customer, marker = Customer(text), Customer(marker)
    with customer.socket(port) as s, marker.socket(port) as m:
        packet = query(customer, form)
        s.send(packet)
        if (word := exchange(marker, m)[0]) != "time":
            return f"the marker got {word}"
        reply = answer(s, 0)
        return "silence" if reply is None else kind(customer, packet, reply)


def interleave(port, text):
    """A basic exchange, one that asks when its reply left, the same question again, and one about the second."""
    customer = Customer(text)
    with customer.socket(port) as s:
        def is_told(origin, receive, wanted):
            found, reply, arrival = exchange(customer, s, "plain", origin, receive)
            if found != wanted:
                raise ValueError(f"{wanted} was due, {found} came")
            return (*stamps(reply), arrival)

        try:
            _, received, sent, arrival = is_told(0, 0, "time")
            origin, second_received, departed, second_arrival = is_told(received, arrival, "interleaved")
            if origin != arrival:
                raise ValueError("the origin is not the receive stamp of the query")
            if not sent < departed < second_received:
                raise ValueError(f"left at {departed:016x}, made at {sent:016x}, next query {second_received:016x}")
            is_told(received, arrival, "time")
            is_told(second_received, second_arrival, "interleaved")
        except ValueError as e:
            return str(e)
    return "interleaved"


def queries(port, count, form, text):
    """Sends so many queries, each once the one before was answered; where the form is `interleaved`, each asks about the reply before."""
    customer, found, received, arrival = Customer(text), [], 0, 0
    with customer.socket(port) as s:
        for _ in range(int(count)):
            word, reply, came = exchange(customer, s, "plain", received, arrival)
            found.append(word)
            if form == "interleaved" and reply is not None:
                received, arrival = stamps(reply)[1], came
    return counts(found)


def counts(words):
    """How many there are of each, as `time 3 rate 1`."""
    return " ".join(f"{word} {count}" for word, count in collections.Counter(words).items())


def roll(port, commands, address, number):
    """A hundred new keys, each by two lines in one write, and a query with each. They are enrolled with a budget of one, so that each enrolment
    has to begin with nothing counted. Gives `time 100`, or at which query it ended."""
    seen = []
    for i in range(100):
        key = f"{i:040x}"
        with open(commands, "a") as f:
            f.write(f"revoke {address}\nenrol {address} {number} sha1 {key} 1\n")
        seen.append(ask(port, "plain", f"{address}/{number}/sha1/{key}"))
        if seen[-1] != "time":
            break
    return counts(seen)


def forgeries(customer):
    """Datagrams without end that anybody can send: MACs of octets at random, none, the four octets of a bare key number, and
    no packet at all."""
    rng = random.Random(1)
    length = len(customer.mac(b""))
    while True:
        signed = query(customer)[:48]
        yield signed + customer.mac(signed)[:4] + rng.randbytes(length - 4)
        yield signed
        yield signed + rng.randbytes(4)
        yield signed + rng.randbytes(length)
        yield rng.randbytes(rng.randrange(1100))


def flood(port, count, text):
    """Sends so many datagrams in the customer's name that are no signed queries, and asks after each 63 of them. Each signed query asks about
    the reply before, so each reply but the first is to be interleaved, as it is without a flood; the refusals of the forgeries go to a port
    of their own."""
    customer, refused, asked = Customer(text), collections.Counter(), 0
    ready = [*itertools.islice(forgeries(customer), 5000)]
    received, arrival = 0, 0
    begun = time.monotonic()
    with customer.socket(port) as s, customer.socket(port) as forger:
        for i in range(count):
            forger.send(ready[i % len(ready)])
            if i % 63 == 62 or i == count - 1:
                asked += 1
                found, reply, came = exchange(customer, s, "plain", received, arrival)
                wanted = "interleaved" if asked > 1 else "time"
                if found != wanted:
                    return f"query {asked} behind {i + 1} forgeries: {wanted} was due, {found} came"
                _, next_received, sent = stamps(reply)
                if asked > 1 and not received < sent < next_received:
                    return f"query {asked}: the reply before came at {received:016x}, left at {sent:016x}"
                received, arrival = next_received, came
                while (reply := answer(forger, 0)) is not None:
                    refused[{48: "deny", 52: "nak"}.get(len(reply), f"{len(reply)} octets")] += 1
    seconds = time.monotonic() - begun
    windows = int(seconds / 64) + 2
    if refused.total() > 4 * windows or not {*refused} <= {"deny", "nak"}:
        return f"refusals {dict(refused)} in {seconds:.1f} s"
    return f"asked {asked} interleaved {asked - 1}"


def relay(port, log):
    """Each client's datagrams go on from that client's address, so that the server sees whose they are."""
    near = bound()
    print(near.getsockname()[1], flush=True)
    far, clients = {}, {}
    with open(log, "w") as notes:
        end = time.monotonic() + 60
        while time.monotonic() < end:
            for s in select.select([near, *clients], [], [], 1)[0]:
                if s is near:
                    packet, client = near.recvfrom(2048)
                    if client not in far:
                        far[client] = Customer(client[0]).socket(port)
                        clients[far[client]] = client
                    print(">", packet.hex(), file=notes, flush=True)
                    far[client].send(packet)
                elif (packet := answer(s, 0)) is not None:
                    print("<", packet.hex(), file=notes, flush=True)
                    near.sendto(packet, clients[s])


def wire(log, text):
    """What a relay saw, as `asked 4 time 2 interleaved 2`. A reply belongs to the newest request that it fits: on a busy host the client asks
    again before it has come."""
    customer, requests, seen = Customer(text), [], []
    with open(log) as notes:
        for line in notes:
            way, packet = line[0], bytes.fromhex(line[2:])
            if way == ">":
                requests, word = [packet, *requests[:7]], "asked"
            else:
                words = [kind(customer, request, packet) for request in requests]
                word = next((it for it in words if it.isalpha()), words[0])
            seen.append(word)
    return counts(seen)


def dig(port, *words):
    import runpy
    look_up = socket.getaddrinfo
    socket.getaddrinfo = lambda host, _, *rest: look_up(host, port, *rest)
    sys.argv = list(words)
    runpy.run_path(words[0], run_name="__main__")


def free_port():
    with bound() as s:
        return s.getsockname()[1]


if __name__ == "__main__":
    word, *words = sys.argv[1:]
    numbered = [int(w) if i == 0 and w.isdecimal() else w for i, w in enumerate(words)]
    found = {"port": free_port, "queries": queries, "relay": relay, "dig": dig}[word](*numbered)
    if found is not None:
        print(found)
