"""Judges what floods and forgers leave to customers, before and behind the rules of `labntpctl door`.

The two are measured in turns, since rates of different minutes are not to be compared. A host that is busy for a moment makes answers late
too, so one of three rounds in time is enough, and a round is not judged by what comes late where it does without a flood. Nor are rounds
judged in which a busy host gives the flood or the server less than half of what is wanted, or one of two servers clearly less than the
other. `--table` judges nothing: it measures labntpd, `labntp serve` and chronyd (where it is there), for three kinds of floods, at three
rates and three shares of a processor, and prints a table; it takes ten minutes.

It needs root, the programs `ip`, `taskset` and `gcc`, and two processors, and behind the rules `nft` (on the path, or below $PEERS as
tests/run fetches it); else cases are passed over. Everything is done over the loopback interface of a network namespace of its own, which
ends with it, and on the processors that it may use: the server on the last one, which it shares with busy loops.
"""
import collections
import contextlib
import os
import select
import statistics
import sys
import time

import pytest

import judging
import labntp_server
import labntpd_server
import own_network
import probe
from judging import SLOW, Odd, PassedOver
from own_network import ALLOWED, busy, nft

TURNS = 1_000_000
# For how many seconds a customer asks, and how long it waits for the last reply.
ASKING, LINGER = 3, 0.5
# Behind the door: how late the receipts of its queries are at the median at most, in milliseconds (a tenth of one where the host is not busy,
# and else a time slice of its scheduler, which is four); and which part of its queries is answered, and of a flood comes through.
LATE, ANSWERED, COMES_THROUGH = 10, 0.98, 0.01
# How many datagrams of a customer the rules let pass in a second; and how many queries it asks: where few are answered, only many tell two
# servers apart.
RATE, MANY, FEW = 200, 1000, 100
# The customers: one that asks, and one that floods; and an address of no customer.
ASKER = ("127.0.0.2", 2, "md5", "6b6579", 65535)
NEIGHBOUR = ("127.0.0.3", 3, "md5", "6b6579", 65535)
STRANGER = "127.0.0.8"
# The kinds of floods, the rates, and the shares of a processor as one of so many.
KINDS = ("one replayed query", "wrong MACs", "a stranger")
RATES = (50_000, 120_000, 400_000)
SHARES = (1, 2, 7)
# How many queries were asked and answered, how late their receipts were, in milliseconds, how many datagrams the kernel dropped; and how many
# came in a second, and which share of a processor the server had.
Seen = collections.namedtuple("Seen", "asked answered median most drops came had")
# Which part of the rate and of the share that are wanted a round has to have had, to be judged, and which part of what the other server
# had: a busy host gives less. How many rounds are judged, and made at most.
LEAST, EVEN, ROUNDS, MOST_ROUNDS = 0.5, 0.8, 3, 8
# The processors: that of the server, that of a flood, and those of the customer.
HERE = ALLOWED[-1]
FLOODED_FROM, ASKED_FROM = ALLOWED[0], {*ALLOWED[1:-1]} or {ALLOWED[0]}
MASK = 0o022
LABNTPD, LABNTP, LABNTPCTL = judging.built("labntpd", "labntp", "labntpctl")


@pytest.fixture(scope="module", autouse=True)
def namespaces(room):
    """A network apart, the processors of the customer, and what floods."""
    judging.needs("ip", "taskset", "gcc", root=True)
    with own_network.apart("net"), own_network.preferred(ASKED_FROM):
        own_network.compiled(own_network.FLOOD, "flood")
        yield


# ---- Servers

@contextlib.contextmanager
def labntpd(**keys):
    judging.PROGRAM = LABNTPD
    with labntpd_server.Daemon(enrolled=[ASKER, NEIGHBOUR], longest_wait=0.25, **keys) as it:
        yield it.process, it.port


@contextlib.contextmanager
def labntp():
    judging.PROGRAM = LABNTP
    with labntp_server.Server(turns=TURNS, register=judging.register_of([ASKER, NEIGHBOUR])) as it:
        yield it.process, it.port
        if it.process.poll() is not None:
            raise PassedOver(f"labntp serve ended meanwhile, after its {TURNS:,} turns")


@contextlib.contextmanager
def chronyd():
    port = probe.free_port()
    keys = "".join(f"{number} {algorithm.upper()} HEX:{key}\n" for _, number, algorithm, key, _ in (ASKER, NEIGHBOUR))
    words = labntpd_server.chronyd_at(port, "chrony", "local stratum 1", keys=keys)
    try:
        with labntpd_server.running(words, lambda: probe.ask(port, "plain", text_of(ASKER)) == "time") as process:
            yield process, port
    finally:
        with contextlib.suppress(FileNotFoundError):
            os.remove(labntpd_server.room("chrony.pid"))


SERVERS = {"labntpd": labntpd, "labntp serve": labntp, "chronyd": chronyd}


def text_of(customer):
    return "/".join(map(str, customer[:4]))


# ---- The door

@contextlib.contextmanager
def door(*words):
    """The rules of labntpctl, for the labntpd that serves here. Where nft works, they are loaded."""
    own_network.find_nft()
    table = load_rules(*words)
    try:
        yield
    finally:
        nft("delete", "table", "inet", table)


def load_rules(*words):
    return own_network.load_door(LABNTPCTL, "--config", labntpd_server.room("labntpd.toml"), *words)


no_door = contextlib.nullcontext


# ---- Floods

def datagram(kind):
    customer = probe.Customer(STRANGER if kind == KINDS[2] else text_of(NEIGHBOUR))
    return customer.address, probe.query(customer, "wrong" if kind == KINDS[1] else "plain")


def asks(port, rate):
    """A customer asks so often in a second, while something else goes on: how late the receipts are of the queries that are answered."""
    customer, sent, late = probe.Customer(text_of(ASKER)), {}, []

    def take():
        with contextlib.suppress(BlockingIOError, ConnectionRefusedError):
            while True:
                reply = s.recv(2048)
                before = sent.pop(probe.stamps(reply)[0], None)
                assert before is not None and reply[48:] == customer.mac(reply[:48]), f"a reply to no query: {reply.hex()}"
                late.append((probe.nanos(probe.stamps(reply)[1]) - before) / 1e6)

    with customer.socket(port) as s:
        s.setblocking(False)
        begun = time.monotonic()
        for number in range(ASKING * rate):
            due = begun + number / rate
            while (left := due - time.monotonic()) > 0:
                select.select([s], [], [], left)
                take()
            packet = probe.query(customer)
            sent[probe.stamps(packet)[2]] = time.time_ns()
            with contextlib.suppress(ConnectionRefusedError):
                s.send(packet)
        end = time.monotonic() + LINGER
        while sent and (left := end - time.monotonic()) > 0:
            select.select([s], [], [], left)
            take()
    return late


def arrived():
    """How many datagrams were received in this network namespace, or dropped for want of room."""
    with open("/proc/net/snmp") as it:
        names, counts = (line.split() for line in it if line.startswith("Udp: "))
    counted = dict(zip(names, counts))
    return int(counted["InDatagrams"]) + int(counted["RcvbufErrors"])


def measure(server, kind, rate, share, guard=no_door):
    """What a customer has from a server on a share of a processor, under such a flood, or under none where its rate is 0."""
    (source, octets), asked = datagram(kind), MANY if guard is no_door else FEW
    with contextlib.ExitStack() as stack:
        process, port = stack.enter_context(server())
        os.sched_setaffinity(process.pid, {HERE})
        if guard is not no_door:
            stack.enter_context(guard())
        for _ in range(share - 1):
            stack.enter_context(busy(["spin"], HERE))
        if rate:
            stack.enter_context(busy([source, probe.HOST, str(port), str(rate), octets.hex()], FLOODED_FROM))
        time.sleep(0.3)
        # What the kernel dropped for want of room at the socket that is bound to this port.
        drops_here = lambda: sum(int(it[-1]) for it in labntpd_server.udp_sockets() if it[1].endswith(f":{port:04X}"))
        look = lambda: (drops_here(), arrived(), labntpd_server.scheduled(process)[0], time.monotonic())
        before = look()
        late = asks(port, asked)
        drops, came, had, took = (now - then for now, then in zip(look(), before))
    return Seen(ASKING * asked, len(late), statistics.median(late) if late else None, max(late, default=None), drops, came / took, had / took)


# ---- Cases

def test_door_stops_one_source_before_the_queue():
    with labntpd() as (_, port), door():
        judging.same("a query", "time", probe.ask(port, "plain", text_of(ASKER)))
    for kind, rate in ((KINDS[0], 120_000), (KINDS[1], 400_000)):
        stopped_at_the_door(kind, rate, 7)


def is_in_time(seen):
    return seen.answered >= ANSWERED * seen.asked and seen.median <= LATE


def stopped_at_the_door(kind, rate, share):
    """Little of such a flood comes through, and another customer has its answers in time."""
    late, unjudged = [], []
    for _ in range(MOST_ROUNDS):
        seen = measure(labntpd, kind, rate, share, door)
        assert seen.came <= COMES_THROUGH * rate, f"{kind}, {rate} a second: too much comes through: {seen}"
        if is_in_time(seen):
            return
        without = measure(labntpd, kind, 0, share, door)
        (late if is_in_time(without) else unjudged).append(seen)
        assert len(late) != ROUNDS, f"{kind}, {rate} a second, where answers are in time without it: {late}"
    raise PassedOver(f"the host is too busy for 1/{share} of a processor: without a flood too answers are late; with one {unjudged}")


def judged_rounds(rate, share):
    """How many queries labntpd and `labntp serve` answered in three rounds in which the host gave both what is wanted."""
    rounds, had = [], []
    for _ in range(MOST_ROUNDS):
        pair = [measure(it, KINDS[0], rate, share) for it in (labntpd, labntp)]
        had += [(round(it.came), round(it.had, 3)) for it in pair]
        # Whether it gave both nearly the same flood, and nearly the same share of a processor.
        is_even = all(min(them) > EVEN * max(them) for them in ([it.came for it in pair], [it.had for it in pair]))
        if all(it.came > LEAST * rate and it.had > LEAST / share for it in pair) and is_even:
            rounds.append([it.answered for it in pair])
        if len(rounds) == ROUNDS:
            return rounds
    raise PassedOver(f"the host is too busy for {rate} a second and 1/{share} of a processor: it gave {had}")


@pytest.mark.proved_alone(SLOW)
def test_without_a_door_answers_are_not_clearly_fewer_than_of_labntp_serve():
    """On a small share of a processor and on a very small one: few are answered there, so one round alone may be far off."""
    for rate, share in ((120_000, 7), (400_000, 20)):
        rounds = judged_rounds(rate, share)
        if statistics.median(ours / max(theirs, 1) for ours, theirs in rounds) < 0.75:
            raise Odd(f"{rate} a second, 1/{share} of a processor, answers of labntpd and of labntp serve: {rounds}")


# How many queries forged customers ask themselves, and how many in a second; how many are forged in a second, and how many in all then.
OWN, ASKED_EACH, FORGED_EACH = 100, 25, (1, 10, 100)
forged_at = lambda rate: OWN // ASKED_EACH * rate
# What a forger without the key sends, and which budget its customer has: what it asks itself, and what counts of the forger's.
FORGERIES = [("wrong", rate, OWN) for rate in FORGED_EACH] + [("replayed", rate, OWN + forged_at(rate)) for rate in FORGED_EACH]
# And a customer whose budget has no room for copies, and one of whom more is forged than the rules let pass.
FORGERIES += [("replayed", FORGED_EACH[-1], OWN), ("wrong", 5 * RATE, OWN)]
FORGED = [(f"127.0.1.{number}", number, "sha1", f"{number:040x}", budget) for number, (_, _, budget) in enumerate(FORGERIES, 1)]
# A window of budgets, and how many refusals are sent in one.
WINDOW, REFUSED = 64, 4


def hear(heard, seconds):
    """Takes what has come to sockets, and notes the origin of each and what it is."""
    for s in select.select([*heard], [], [], seconds)[0]:
        customer, packets, told = heard[s]
        if reply := probe.answer(s, 0):
            told.append((probe.stamps(reply)[0], probe.kind(customer, packets[probe.stamps(reply)[0]], reply)))


def forge(port):
    """What all of these customers are told of their own queries, and their forgers of what they send in the same seconds."""
    heard, own, forgers, due = {}, [], [], []
    with contextlib.ExitStack() as stack:
        for it, (form, rate, _) in zip(FORGED, FORGERIES):
            customer = probe.Customer(text_of(it))
            asked = [probe.query(customer) for _ in range(OWN)]
            copies = [asked[0]] * forged_at(rate) if form == "replayed" else [probe.query(customer, form) for _ in range(forged_at(rate))]
            for packets, each, after, told in ((asked, ASKED_EACH, 0, own), (copies, rate, 0.01, forgers)):
                s = stack.enter_context(customer.socket(port))
                told.append([])
                heard[s] = customer, {probe.stamps(packet)[2]: packet for packet in packets}, told[-1]
                due += [(after + number / each, number, s, packet) for number, packet in enumerate(packets)]
        # All of it in one window, by the clock that the server reads.
        if (left := WINDOW - time.time() % WINDOW) < 2 * OWN / ASKED_EACH:
            time.sleep(left)
        begun = time.monotonic()
        for at, _, s, packet in sorted(due, key=lambda it: it[:2]):
            while (left := begun + at - time.monotonic()) > 0:
                hear(heard, left)
            s.send(packet)
        end = time.monotonic() + 2 * LINGER
        while (left := end - time.monotonic()) > 0:
            hear(heard, left)
    return own, forgers


@pytest.mark.parametrize("guard", [door, pytest.param(no_door, marks=pytest.mark.proved_alone(SLOW))], ids=["door", "no door"])
def test_forgers_take_from_customers(guard):
    """Forgers take answers from a customer by copies alone that its budget has no room for, and behind the rules by more than they let pass."""
    judging.PROGRAM = LABNTPD
    with labntpd_server.Daemon(enrolled=FORGED) as server, guard():
        own, forgers = forge(server.port)
    for (form, rate, budget), told, copies in zip(FORGERIES, own, forgers):
        what, kinds = f"{form}, {rate} a second, budget {budget}", collections.Counter(kind for _, kind in copies)
        answered = len({origin for origin, kind in told if kind == "time"})
        if form == "wrong":
            judging.same(f"forged: {what}", {"nak": min(REFUSED, forged_at(rate))}, dict(kinds))
        elif budget > OWN:
            judging.same(f"forged: {what}", {"time": forged_at(rate)}, dict(kinds))
        else:
            judging.same(f"all that have the time: {what}", budget, answered + kinds["time"])
        if form == "replayed" and budget == OWN or guard is door and rate > RATE:
            judging.same(f"whether some own queries have no answer: {what}", True, answered < OWN)
        else:
            judging.same(f"own queries that have the time: {what}", OWN, answered)


# A customer that floods, one that is revoked, and a stranger that is enrolled later.
REVOKED = ("127.0.0.5", 5, "md5", "6b6579", 20)
LATER = (STRANGER, 8, "md5", "6b6579", 20)
# How many datagrams a flood has that is cut: it is over within a fraction of a second.
FLOOD = 2_000


def let_through(port, source):
    """How many datagrams of a flood came to the server, none of which is answered; and how many seconds it took."""
    before, begun = arrived(), time.monotonic()
    with probe.bound(host=source) as s:
        for _ in range(FLOOD):
            s.sendto(b"x", (probe.HOST, port))
    time.sleep(0.1)
    return arrived() - before, time.monotonic() - begun


def is_cut(port, source, rate):
    """Of a flood of one source twice its rate comes through at once, and then its rate."""
    came, took = let_through(port, source)
    if not 2 * rate <= came <= 2 * rate + 1 + rate * took:
        raise Odd(f"{came} of {FLOOD} datagrams of {source} came in {took} seconds, where the rate is {rate}")


def test_door_lets_each_customers_rate_pass_and_no_stranger():
    """Who was revoked has a rate too, and gets DENY; a stranger may pass once it is enrolled and the rules are loaded again."""
    judging.PROGRAM = LABNTPD
    with labntpd_server.Daemon(enrolled=[NEIGHBOUR, REVOKED], commands=f"revoke {REVOKED[0]}\n") as server, door():
        judging.same("a revoked address", "deny", probe.ask(server.port, "plain", text_of(REVOKED)))
        judging.same("a stranger's datagrams", 0, let_through(server.port, STRANGER)[0])
        is_cut(server.port, NEIGHBOUR[0], RATE)
        server.append(judging.enrolments([LATER]).strip())
        load_rules("--rate", "50")
        judging.same("who was enrolled since", "time", probe.ask(server.port, "plain", text_of(LATER)))
        is_cut(server.port, REVOKED[0], 50)
        judging.same("a customer", "time", probe.ask(server.port, "plain", text_of(LATER)))


# ---- Measured

@pytest.mark.table
def test_table():
    print("\n| Server | Flood | Datagrams a second | Share of a processor | Answered of 100 | Late, median and most (ms) | Kernel's drops a second |")
    print("|---|---|---:|---|---:|---:|---:|", flush=True)
    rows = [(name, kind, rate, share, no_door) for kind in KINDS for rate in RATES for share in SHARES for name in SERVERS]
    rows += [("labntpd", KINDS[0], rate, share, door) for rate in RATES for share in SHARES]
    for name, kind, rate, share, guard in rows:
        try:
            seen = measure(SERVERS[name], kind, rate, share, guard)
        except PassedOver as why:
            print(f"passed over {name}: {why}", file=sys.stderr)
            continue
        shown = name if guard is no_door else f"{name}, behind the door"
        late = f"{seen.median:.1f}, {seen.most:.1f}" if seen.answered else ""
        answered = 100 * seen.answered / seen.asked
        print(f"| {shown} | {kind} | {rate:,} | 1/{share} | {answered:.1f} | {late} | {seen.drops // ASKING:,} |", flush=True)
