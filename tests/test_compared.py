"""Judges whether labntpd, chrony, NTPsec and OpenNTPD answer to each kind of datagram as docs/COMPARED.md has it.

    tests/run compared --table      asks each server and prints the table
    tests/run compared --write      writes it into the page; of a server that is not found the page keeps its column

The others are looked for below $PEERS, as Debian's packages unpack there (`chrony/usr/sbin/chronyd`, `ntpsec/usr/sbin/ntpd`,
`openntpd/usr/sbin/ntpd`), and else on the path. Another version than the page names is passed over.

All have the same customers, each with an address and a key number of its own. The key of most is MD5's; one has SHA-256 and one AES-CMAC,
which labntpd lacks, and there holds MD5. Each kind of datagram is asked by a customer of its own, so that no limit of rates counts one
for another. Behind it another customer asks for the time. Once that one has its answer, all that comes to the first has come: a server
takes datagrams in their order.

As root, with `unshare`, `ip` and `setpriv`, all is done in a network of its own, where NTPsec has port 123 and OpenNTPD a user; else these two
are passed over. No server may set the clock. It takes some seconds.
"""
import collections
import contextlib
import itertools
import re
import struct
import sys

import pytest

import judging
import labntpd_server
import own_network
import peers
import probe
from drawn import text_of as lines
from judging import Odd, PassedOver, file_of
from texts import renewed, text_of as text_of_page, write

PAGE, BEGIN, END = "docs/COMPARED.md", "<!-- tests/run compared --write writes from here -->", "<!-- to here -->"
TRIES = 3
# How many queries a burst has, and the budget of whom labntpd is to answer fewer.
BURST, BUDGET = 60, 10
# The keys by their algorithm, in octets, and the numbers that no kind has: one that nobody holds, and that of AES-CMAC.
KEYS = {"md5": b"key-of-16-octets", "sha1": b"a-key-of-20-octets..", "sha256": b"another-key-of-20-oc"}
NOBODYS, CMACS = 9999, 300
CMAC_KEY = b"key-of-16-octets"
# A query of 48 octets, whose transmit stamp is ec000010.80000000, and its MAC by AES-CMAC (RFC 4493) under that key, as OpenSSL gives it.
CMAC_QUERY = bytes.fromhex(f"23{'00' * 39}ec00001080000000{CMACS:08x}5ab4760dc1695c1476622f5f5f7c5425")
CODES = (b"RATE", b"DENY", b"RSTR")
# What stands between two kinds that have a row together.
BETWEEN = "; "


# ---- What is asked

# What the customer of a kind asks, under which algorithm, and labntpd's budget for it.
Kind = collections.namedtuple("Kind", "name ask algorithm budget", defaults=("md5", 100))


def sends(form, is_signed=True):
    return lambda asker: asker.hears([probe.query(asker.signed if is_signed else asker.unsigned, form)])


def as_another(number=None, algorithm=None, key=None):
    """A query under another number, algorithm or key than the customer's own."""

    def ask(asker):
        own = asker.signed
        words = own.address, number or own.number, algorithm or own.algorithm, (key or KEYS[algorithm or own.algorithm]).hex()
        signer = probe.Customer(text_of(words))
        return asker.hears([probe.query(signer)], signer)

    return ask


def twice(asker):
    """The second of two copies."""
    packet = probe.query(asker.signed)
    asker.hears([packet])
    return asker.hears([packet])


def asked_about(customer, port):
    """The receive stamp of a reply whose departure can be asked for: some servers save none before they are asked so."""
    receive = arrival = 0
    with customer.socket(port) as s:
        for _ in range(3):
            _, reply, came = probe.exchange(customer, s, "plain", receive, arrival)
            if reply:
                receive, arrival = probe.stamps(reply)[1], came
    return receive


def interleaved(whose):
    return lambda asker: asker.hears([probe.query(asker.signed, "plain", asked_about(getattr(asker, whose), asker.port), probe.now())])


def burst(asker):
    labntpd_server.window(5)
    return asker.hears([probe.query(asker.signed) for _ in range(BURST)])


def beside_a_burst(asker):
    burst(asker)
    return asker.others


def behind_forgeries(asker):
    """A burst behind as many unsigned queries, which come from its address and another port."""
    with asker.unsigned.socket(asker.port) as forger:
        for _ in range(BURST):
            forger.send(probe.query(asker.unsigned))
        return burst(asker)


STRANGER, SHUT_OUT = "an address that is no customer's", "a customer who was shut out"
KINDS = [
    Kind("**Unsigned, of a customer:**", None),
    Kind("version 4", sends("plain", False)),
    *(Kind(f"version {it}", sends(f"version-{it}", False)) for it in (3, 2, 1)),
    Kind("version 1, mode 0", sends("version-1-mode-0", False)),
    Kind("version 5", sends("version-5", False)),
    Kind("**Signed:**", None),
    Kind("MD5", sends("plain")),
    Kind("SHA-1", sends("plain"), "sha1"),
    Kind("SHA-256, cut to 20 octets", sends("plain"), "sha256"),
    Kind("AES-CMAC", lambda asker: asker.hears([CMAC_QUERY]), "cmac"),
    *(Kind(f"MD5, version {it}", sends(f"version-{it}")) for it in (3, 2)),
    Kind("transmit stamp 0", sends("unsent")),
    Kind("a wrong digest", sends("wrong")),
    Kind("nobody's key number", as_another(number=NOBODYS)),
    Kind("another customer's number and key", lambda asker: as_another(number=asker.other.number)(asker)),
    Kind("its own number, by another algorithm", as_another(algorithm="sha1", key=KEYS["md5"])),
    Kind("the second of two copies", twice),
    Kind("about the reply before", interleaved("signed")),
    Kind("about a reply to another customer", interleaved("other")),
    Kind(f"{BURST} at once, with labntpd's budget {BUDGET}", burst, budget=BUDGET),
    Kind(f"one behind another's {BURST}", beside_a_burst),
    Kind(f"{BURST} at once, behind {BURST} unsigned ones forged in its name", behind_forgeries),
    Kind("**Tails and lengths:**", None),
    Kind("a key number alone", sends("bare")),
    Kind("four zeros", sends("behind-4", False)),
    Kind("50 octets", sends("behind-2", False)),
    Kind("16 zeros", sends("rest", False)),
    Kind("a MAC and 4 octets", sends("more-4")),
    Kind("no octet", sends("empty")),
    Kind("47 octets", sends("short")),
    Kind("signed, 1,024 octets", sends("field-1024")),
    Kind("the same and an octet", lambda asker: asker.hears([probe.query(asker.signed, "field-1024") + bytes(1)])),
    Kind("signed, 1,028 octets", sends("field-1028")),
    Kind("**Extension fields:**", None),
    Kind("one of 16 octets, signed", sends("field-84")),
    Kind("one of 28, unsigned", sends("field-76", False)),
    *(Kind(f"length {it:,}", sends(f"claims-{it}")) for it in (26, 12, 0, 2000)),
    Kind("**Modes:**", None),
    Kind("mode 1, unsigned", sends("mode-1", False)),
    Kind("mode 1, signed", sends("mode-1")),
    *(Kind(f"mode {it}", sends(f"mode-{it}")) for it in (2, 4, 5)),
    Kind("mode 6", sends("control")),
    Kind("mode 7", sends("private")),
    Kind("**Signed, of others:**", None),
    Kind(STRANGER, sends("plain")),
    Kind(SHUT_OUT, sends("plain")),
]


def address_of(kind):
    return f"127.{9 if kind.name == STRANGER else 1}.{KINDS.index(kind)}.1"


def customer_of(kind, algorithms=KEYS):
    """The customer of a kind, with a key of its algorithm, or of MD5 where it is none of these."""
    algorithm, number = kind.algorithm if kind.algorithm in algorithms else "md5", KINDS.index(kind) + 1
    return address_of(kind), CMACS if kind.algorithm == "cmac" else number, algorithm, KEYS[algorithm].hex()


def other_of(kind):
    return f"127.2.{KINDS.index(kind)}.1", 1000 + KINDS.index(kind), "md5", KEYS["md5"].hex()


def text_of(customer):
    return "/".join(map(str, customer))


ASKED = [kind for kind in KINDS if kind.ask]
OUT = next(address_of(kind) for kind in ASKED if kind.name == SHUT_OUT)


class Asker:
    """The customer of a kind at a server, and another one."""

    def __init__(self, kind, port):
        self.signed, self.unsigned = probe.Customer(text_of(customer_of(kind))), probe.Customer(address_of(kind))
        self.kind, self.port, self.other, self.others = kind, port, probe.Customer(text_of(other_of(kind))), None

    def word(self):
        with self.signed.socket(self.port) as self.own:
            return self.kind.ask(self)

    def hears(self, packets, signer=None):
        """What comes to datagrams that are sent at once, in words. A signer is who signed them, where that is not this customer."""
        for packet in packets:
            self.own.send(packet)
        self.hear_other()
        came = {}
        while (reply := probe.answer(self.own, 0)) is not None:
            packet = next((it for it in packets if belongs(reply, it)), packets[-1])
            came[packet] = word_of(signer or self.signed, packet, reply)
        return in_short([came.get(packet, "silence") for packet in packets])

    def hear_other(self):
        for _ in range(TRIES):
            with self.other.socket(self.port) as s:
                packet = probe.query(self.other)
                s.send(packet)
                reply = probe.answer(s)
            if reply:
                self.others = word_of(self.other, packet, reply)
                return
        raise Odd(f"{self.kind.name}: the other customer has no answer")


def belongs(reply, request):
    return len(reply) >= 48 and len(request) >= 48 and probe.stamps(reply)[0] in probe.stamps(request)[1:]


def in_short(words):
    """What came to one query after another. Where a word comes back, chance or the moment chose: then their order tells nothing."""
    runs = [word for word, _ in itertools.groupby(words)]
    return ", then ".join(runs) if len(runs) == len({*runs}) else f"{' and '.join(sorted({*runs}))}, mixed"


def word_of(customer, request, reply):
    mode = reply[0] & 7
    if len(reply) < 48:
        return f"{len(reply)} octets of mode {mode}"
    header, tail = reply[:48], reply[48:]
    if tail == bytes(4):
        return "crypto-NAK"
    # That of AES-CMAC is judged by its number alone.
    is_right = tail == customer.mac(header) or len(tail) == 20 and tail[:4] == struct.pack(">I", CMACS)
    signed = "unsigned" if not tail else "signed" if is_right else "wrongly signed"
    _, receive, transmit = probe.stamps(request) if len(request) >= 48 else (0, 0, 0)
    is_interleaved = receive != transmit and probe.stamps(reply)[0] == receive != 0
    is_kiss = reply[1] == 0 and reply[12:16] in CODES
    # The time has no word of its own.
    more = [reply[12:16].decode()] if is_kiss else ["interleaved"] if is_interleaved else []
    return " ".join([signed, *more, *([f"in mode {mode}"] if mode != 4 else [])])


# ---- Servers

@pytest.fixture(scope="module", autouse=True)
def namespaces(room):
    """A network apart, where there can be one."""
    global IS_APART
    IS_APART = True
    with contextlib.ExitStack() as stack:
        try:
            judging.needs("unshare", "ip", "setpriv", root=True)
            stack.enter_context(own_network.apart("net"))
        except PassedOver:
            IS_APART = False
        yield


# Who asks whether a server answers yet.
HERALD = ("127.2.250.1", 2000, "md5", KEYS["md5"].hex())
CUSTOMERS = [customer_of(kind) for kind in ASKED if kind.algorithm != "cmac"] + [other_of(kind) for kind in ASKED] + [HERALD]


def needs_namespaces():
    if not IS_APART:
        raise PassedOver("it needs root, and namespaces")


def running(words, port):
    customer = probe.Customer(text_of(HERALD))

    def answers():
        with customer.socket(port) as s, contextlib.suppress(ConnectionRefusedError):
            return probe.exchange(customer, s, wait=0.2)[1] is not None

    return labntpd_server.running(words, answers)


@contextlib.contextmanager
def labntpd():
    enrolled = [(*customer_of(kind, ("md5", "sha1")), kind.budget) for kind in ASKED if kind.name != STRANGER]
    enrolled += [(*other_of(kind), kind.budget) for kind in ASKED]
    with labntpd_server.Daemon(enrolled=enrolled, commands=f"revoke {OUT}\n") as it:
        yield it.port


@contextlib.contextmanager
def chrony():
    keys = [f"{number} {algorithm.upper()} HEX:{key}" for _, number, algorithm, key in CUSTOMERS] + [f"{CMACS} AES128 HEX:{CMAC_KEY.hex()}"]
    port, how = probe.free_port(), {"keys": lines(keys), "allowed": ("127.1.0.0/16", "127.2.0.0/16")}
    with running(labntpd_server.chronyd_at(port, "chrony", "local stratum 1", "ratelimit", f"deny {OUT}", **how), port):
        yield port


@contextlib.contextmanager
def ntpsec():
    needs_namespaces()
    keys = [f"{number} {algorithm.upper()} {key}" for _, number, algorithm, key in CUSTOMERS] + [f"{CMACS} AES-128 {CMAC_KEY.hex()}"]
    allowed = [f"restrict 127.{it}.0.0/16 kod nomodify nopeer noquery limited notrust" for it in (1, 2)]
    with running(labntpd_server.ntpsec_with(lines(keys), "restrict default ignore", f"restrict {OUT} ignore", *allowed), 123):
        yield 123


# Gives OpenNTPD its user, its port by name, and folders that end with it.
AROUND_OPENNTPD = r"""
cd "$1"
(cat /etc/passwd; echo ntpd:x:991:991::/run/openntpd:/usr/sbin/nologin) >passwd
(cat /etc/group; echo ntpd:x:991:) >group
echo ntp 123/udp >services
chmod 644 passwd group services
for it in passwd group services; do mount --bind $it /etc/$it; done
mount -t tmpfs tmpfs /run && mkdir -p /run/openntpd
mount -t tmpfs tmpfs /var/lib && mkdir -p /var/lib/openntpd/run /var/lib/openntpd/db
shift
exec "$@"
"""


@contextlib.contextmanager
def openntpd():
    needs_namespaces()
    found, _ = peers.tool("openntpd", "ntpd", "usage: ntpd [-dnSsv]")
    words = ["unshare", "--mount", "sh", "-ec", AROUND_OPENNTPD, "sh", judging.ROOM, *labntpd_server.WITHOUT_CLOCK, found]
    with running([*words, "-d", "-f", file_of("openntpd.conf", "listen on 127.0.0.1\n")], 123):
        yield 123


# How each server is started, and which tell their versions.
SERVERS = {"labntpd": labntpd, "chrony": chrony, "NTPsec": ntpsec, "OpenNTPD": openntpd}
TELL_VERSIONS = ("chrony", "NTPsec")


def column(server):
    with SERVERS[server]() as port:
        return {kind.name: Asker(kind, port).word() for kind in ASKED}


# ---- The table

def heading(server):
    """The name of a server in the table, with its version where it tells that."""
    return f"{server} {peers.version(server)}" if server in TELL_VERSIONS else server


def cells(line):
    return [it.strip() for it in line.strip().strip("|").split("|")]


def noted():
    """What the page has: for each server its heading and its column."""
    inside = text_of_page(PAGE).partition(BEGIN)[2].partition(END)[0]
    rows = [cells(it) for it in inside.splitlines() if it.startswith("|")]
    found = {}
    for at, shown in enumerate(rows[0][1:], 1) if rows else ():
        names = ((name, row[at]) for row in rows[2:] for name in re.sub(r"^\*\*.*?\*\* ", "", row[0]).split(BETWEEN))
        found[shown.split()[0]] = shown, dict(names)
    return found


def table(columns):
    """The table of these headings and columns: in each part the kinds to which all servers answer alike have a row together."""
    yield "| | " + " | ".join(shown for shown, _ in columns.values()) + " |"
    yield "|---|" + "---|" * len(columns)
    parts = [at for at, kind in enumerate(KINDS) if not kind.ask]
    for begin, end in zip(parts, [*parts[1:], len(KINDS)]):
        rows = collections.defaultdict(list)
        for kind in KINDS[begin + 1 : end]:
            rows[tuple(it.get(kind.name, "") for _, it in columns.values())].append(kind.name)
        for at, (answers, names) in enumerate(rows.items()):
            yield f"| {'' if at else KINDS[begin].name + ' '}{BETWEEN.join(names)} | {' | '.join(answers)} |"


def all_columns():
    """Those of the servers that are found; of the others what the page has."""
    before = noted()
    for name in SERVERS:
        try:
            yield name, (heading(name), column(name))
        except PassedOver as why:
            print(f"passed over {name}: {why}", file=sys.stderr)
            if name in before:
                yield name, before[name]


@pytest.mark.parametrize("name", SERVERS)
def test_server_answers_as_the_page_has_it(name):
    shown, wanted = noted().get(name, ("no column", {}))
    here = heading(name)
    if wanted and name in TELL_VERSIONS and here != shown:
        raise PassedOver(f"the page has {shown}, and here is {here}")
    seen, rows = column(name), {kind.name for kind in ASKED}
    odd = [f"{it}: the page has {wanted.get(it, 'nothing')}, it answers {seen[it]}" for it in seen if seen[it] != wanted.get(it)]
    odd += [f"the page has the kind {it}" for it in wanted if wanted[it] and it not in rows]
    assert not odd, "; ".join(odd)


@pytest.mark.table
def test_table(request):
    """Prints the table, or writes it into the page."""
    columns = dict(all_columns())
    if request.config.option.write:
        write(PAGE, renewed(PAGE, text_of_page(PAGE), BEGIN, END, table(columns)))
    else:
        print("", *table(columns), sep="\n")
