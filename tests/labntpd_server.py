"""The daemon, as tests start it and see it; the clock's daemons that it asks; and loads of queries."""
import collections
import contextlib
import json
import os
import pathlib
import pwd
import re
import select
import shutil
import signal
import socket
import struct
import subprocess
import sys
import threading
import time

import judging
import peers
import probe
from judging import REFERENCE, SECOND, WAIT, Odd, PassedOver, end, enrolments, file_of, same, start, until

# The customers, with keys that stand in no other text.
CUSTOMERS = [
    ("127.0.0.1", 1, "md5", "3f9a1c5e7b2d4f60819ab3c5d7e9f012", 65535),
    ("127.0.0.2", 2, "sha1", "c40b7a1d93e65f2288bb01d4e7f3a69c5d20e8f1", 65535),
    ("127.0.0.3", 3, "md5", "a7e0d1b4925c3f6e", 2),
]
ONE, TWO, THREE = ("/".join(map(str, it[:4])) for it in CUSTOMERS)
# The customers of a load, with the most queries that one may ask in a window.
CROWD = [(f"127.0.1.{i}", i, "md5", "6b6579", 65535) for i in range(1, 33)]
# The longest that a datagram may have waited in the socket's queue and be answered, in seconds: where that is tried, and elsewhere,
# so that a busy host has none dropped.
LONGEST_WAIT = 1.0
LONG_WAIT = 10
# How often the daemon asks its clock, and writes its statistics, in seconds.
ASKS_EACH = 1.0
WRITES_EACH = 10
# What a busy host adds to a moment at which something is due, in seconds.
SLACK = 1.5
# Within how many seconds it is told what the clock says: an answer that a busy host held up tells of a long way, and the next one comes a
# second later. The clock's last answer counts for longer.
TOLD_WITHIN = 8 * ASKS_EACH
# How many seconds longer than it should an exchange with the clock may take: what is told of one that took longer is not judged.
HELD_UP = 0.05


def room(name):
    return f"{judging.ROOM}/{name}"


def of_file(name, what):
    """What the log tells of a file of the case."""
    return f"{name} file {room(name)}: {what}"


def read(name):
    with contextlib.suppress(FileNotFoundError), open(room(name), errors="replace") as it:
        return it.read()
    return ""


TOLD = ("out", "err", "journal", "answers", "statistics", "statistics.new", "customers", "customers.new")


def told_octets():
    """What the daemon wrote, by the names of where it did."""
    told = {}
    for name in filter(lambda name: os.path.isfile(room(name)), TOLD):
        # One beside another may have been put in its place since.
        with contextlib.suppress(FileNotFoundError), open(room(name), "rb") as it:
            told[name] = it.read()
    return told


def window(seconds):
    """Leaves at least so many seconds of the 64 in which refusals and queries are counted."""
    left = 64 - time.time() % 64
    if left < seconds:
        time.sleep(left)


# ---- The daemon

FIXED = {"source": "fixed", "reference": REFERENCE}
CLOCK_KEY = "1f8b6b1c0e3f5a7d9c2b4e6f8a0d1c3e5b7f9a2d"


def following(port, **keys):
    """The configuration of a clock whose daemon answers at this port."""
    return {"source": f"127.0.0.1:{port}", "number": 1, "algorithm": "sha1", "key_file": room("clock.key"), **keys}


def toml(table):
    return "".join(f"{key} = {json.dumps(value)}\n" for key, value in table.items() if value is not None)


def configuration(clock=FIXED, **keys):
    """The text of a configuration file. A key that is None is left out."""
    files = {name: room(name) for name in ("commands", "answers", "statistics", "customers")}
    table = {"listen": "127.0.0.1:20123", **files, "longest_wait": LONG_WAIT, **keys}
    return toml(table) + (f"[clock]\n{toml(clock)}" if clock is not None else "")


def configured(text):
    """The words of a run with this text of a configuration file."""
    return ["--config", file_of("labntpd.toml", text)]


def run(words, *more, **how):
    """A run of the program; it tells no key."""
    ran = judging.run(words, *more, **how)
    tells_no_key({"standard output": ran[1].encode(), "standard error": ran[2].encode()})
    return ran


def keys():
    """The keys in the files of the case, as octets. What stands in the place of a file may be no file, or not be readable."""
    is_file = lambda name: os.path.isfile(room(name)) and os.access(room(name), os.R_OK)
    clock, commands = (read(it) if is_file(it) else "" for it in ("clock.key", "commands"))
    texts = clock.split() + re.findall(r"^(?:enrol|rollover) \S+ \S+ \S+ (\w+)", commands, re.M)
    return {bytes.fromhex(it) for it in texts if re.fullmatch("([0-9a-fA-F]{2})+", it)}


def tells_no_key(texts):
    """No key stands in these texts, neither as hexadecimal digits nor, where it is too long to be a word, as octets. So many are looked
    for as some seconds allow."""
    most = SECOND // (1 + sum(map(len, texts.values())))
    for key in [*keys()][: max(50, most)]:
        for name, octets in texts.items():
            shown = key.decode(errors="backslashreplace").encode()
            if len(key) > 2 and key.hex().encode() in octets.lower() or len(key) > 7 and (key in octets or shown in octets):
                raise Odd(f"a key, {key.hex()}, stands in {name}")


def udp_sockets():
    """The kernel's list of UDP sockets: of each its words, the local address and port, the remote ones, and the queues behind the first."""
    return [line.split() for line in pathlib.Path("/proc/net/udp").read_text().splitlines()[1:]]


def scheduled(process):
    """For how many seconds a process has had a processor, and for how many it was ready to go on and had none."""
    had, waited, _ = pathlib.Path(f"/proc/{process.pid}/schedstat").read_text().split()
    return int(had) / SECOND, int(waited) / SECOND


def share_of_a_processor(process, seconds):
    """Which share of a processor it takes in a number of seconds."""
    (before, _), begun = scheduled(process), time.monotonic()
    time.sleep(seconds)
    return (scheduled(process)[0] - before) / (time.monotonic() - begun)


def handing_down(s, **environment):
    """How a program is handed a socket as its descriptor 3, as a manager of services does it, with these words of its environment; PID
    stands for its own number."""
    def prepare():
        os.dup2(s.fileno(), 3)
        for name, word in environment.items():
            os.putenv(name, word.replace("PID", str(os.getpid())))

    return {"close_fds": False, "preexec_fn": prepare}


# The words with which a socket is handed down to the program itself.
OURS = {"LISTEN_PID": "PID", "LISTEN_FDS": "1"}


class Daemon:
    """The daemon, from its first line on. Where `inherited` is a socket, that is handed down to it; else `prepare` is run in the new process.
    Its configuration file is made of the keys, or has this text, where PORT stands for its port. At the head of its commands file
    stand the lines that enrol its customers; those of the case come behind the head, and are counted from there."""

    def __init__(self, clock=FIXED, enrolled=CUSTOMERS, commands="", inherited=None, host=probe.HOST, stderr=None, text="", key=CLOCK_KEY,
                 on=None, prepare=None, program=None, **keys):
        self.host, self.inherited, self.stderr, self.on, self.program = host, inherited, stderr, on, program
        self.how = handing_down(inherited, **OURS) if inherited else {"preexec_fn": prepare}
        self.port = inherited.getsockname()[1] if inherited else probe.free_port()
        self.head = enrolments(enrolled).encode()
        self.commands = file_of("commands", self.head + (commands if isinstance(commands, bytes) else commands.encode()))
        file_of("clock.key", f"{key}\n")
        keys["listen"] = "inherited" if inherited else f"{host}:{self.port}"
        self.spins = keys.get("spin", False)
        self.words = configured(text.replace("PORT", str(self.port)) or configuration(clock, **keys))
        for name in ("statistics", "answers", "customers"):
            pathlib.Path(room(name)).unlink(missing_ok=True)
        self.start()

    def start(self):
        environment = self.on.environment() if self.on else None
        with open(room("out"), "wb") as out, open(room("err"), "wb") as err:
            stderr = err if self.stderr is None else self.stderr
            self.process = start(self.words, self.program, stdout=out, stderr=stderr, env=environment, **self.how)

    def __enter__(self):
        self.serves()
        assert not self.on or self.on.readings, "the program does not call the C library for its clocks, so that nothing is seen here"
        return self

    def __exit__(self, kind, *_):
        ended = self.process.poll()
        if kind is None and ended is None:
            self.is_quiet()
        end(self.process)
        assert kind is not None or ended is None, f"it ended by itself with status {ended}: {read('err')[-200:]}"
        if kind is None:
            tells_no_key(told_octets())

    def serves(self):
        until("it serves", lambda: read("out").endswith("\n") or self.process.poll() is not None)
        same(f"standard output, where standard error has {read('err')[-200:]!r}", f"serving {self.host}:{self.port}\n", read("out"))
        if self.inherited:
            # Until it has seen the queue empty, and so waits, what is there may be old, as far as it knows.
            until("it waits", self.waits)
            time.sleep(0.3)
        self.open = self.descriptors()

    def waits(self):
        return pathlib.Path(f"/proc/{self.process.pid}/stat").read_text().rpartition(")")[2].split()[0] == "S"

    def has_swept(self):
        return all(int(words[4].partition(":")[2], 16) == 0 for words in udp_sockets() if words[1].endswith(f":{self.port:04X}"))

    def descriptors(self):
        """What it has open. What stood at the path of its commands file counts as that file."""
        found = collections.Counter()
        folder = f"/proc/{self.process.pid}/fd"
        for number in os.listdir(folder):
            with contextlib.suppress(FileNotFoundError):
                target = os.readlink(f"{folder}/{number}").removesuffix(" (deleted)")
                # Of the kernel's list of sockets a part is read each second, so it stays open where other tests have many.
                if not target.endswith("/net/udp"):
                    found["the commands file" if target.startswith(self.commands) else target] += 1
        return found

    def is_quiet(self):
        """What is looked at after each case while it serves: it has no more open than when it began to, but for what it opens for a moment.
        While nobody asks it takes less than 2 in 100 of a processor, once it has ended what it had begun."""
        give_up = time.monotonic() + 2
        while more := self.descriptors() - self.open:
            if time.monotonic() > give_up:
                raise Odd(f"it has more open than at the start: {', '.join(f'{many} of {name}' for name, many in more.items())}")
            time.sleep(0.02)
        give_up = time.monotonic() + 5
        while not self.spins and (taken := share_of_a_processor(self.process, 0.3)) >= 0.02:
            assert time.monotonic() <= give_up, f"it takes {taken:.1%} of a processor while nobody asks"

    def again(self):
        """It is killed, and started anew with the same files, up to its first line."""
        end(self.process)
        tells_no_key(told_octets())
        self.start()
        self.serves()

    def ask(self, wanted, customer, form="plain"):
        same(f"{form} query of {customer}", wanted, probe.ask(self.port, form, customer))

    def append(self, *lines):
        """New lines of the commands file, which are in force for a query that comes some milliseconds later."""
        self.append_octets("".join(f"{line}\n" for line in lines).encode())
        time.sleep(0.01)

    def append_octets(self, octets):
        with open(self.commands, "ab") as it:
            it.write(octets)

    def line(self, number):
        """The number in its commands file of such a line behind the head."""
        return self.head.count(b"\n") + number

    def answers(self):
        """The answers to the lines behind the head, which are numbered from there."""
        numbered = re.sub(r"(?m)^\d+", lambda it: str(int(it[0]) - self.line(0)), read("answers"))
        return re.sub(r"(?m)^(?:0|-\d+) done\n", "", numbered)

    def told(self, customer=ONE):
        """The reference state that a reply tells now."""
        with probe.Customer(customer).socket(self.port) as s:
            return state_in(signed_reply(probe.Customer(customer), s))

    def tells(self, what, is_so, seconds):
        """Within so many seconds it tells a state that is so; the state and how many seconds it took."""
        begun = time.monotonic()
        while True:
            state = self.told()
            took = time.monotonic() - begun
            if is_so(state):
                return state, took
            assert took <= seconds, f"not within {seconds:.1f} seconds: {what}; it tells {state}"
            time.sleep(0.01)


def signed_reply(customer, s):
    """The reply to a signed query at this socket."""
    packet = probe.query(customer)
    s.send(packet)
    reply = probe.answer(s)
    if reply is None or reply[48:] != customer.mac(reply[:48]) or probe.stamps(reply)[0] != probe.stamps(packet)[2]:
        raise Odd(f"a signed query got {reply and reply.hex()}")
    return reply


def state_in(reply):
    first, stratum, _, precision, delay, dispersion, identifier, stamp = struct.unpack(">BBBBII4sQ", reply[:24])
    return State(first >> 6, stratum, precision, delay, dispersion, identifier, stamp)


def statistics():
    """The numbers of the statistics file, by the texts in front of them."""
    text, numbers = read("statistics"), {}
    assert not text or text.endswith("\n"), f"a statistics file that was cut off: {text[-80:]!r}"
    for line in text.splitlines():
        if not re.fullmatch(r'# (HELP|TYPE) [a-z_]+ .+|[a-z_]+({[a-z]+="[^"]*"(,[a-z]+="[^"]*")*})? (-?[0-9]+(\.[0-9]+)?|NaN)', line):
            raise Odd(f"a line of the statistics file: {line!r}")
        if line[0] != "#":
            name, _, number = line.rpartition(" ")
            assert name not in numbers, f"twice in the statistics file: {name}"
            numbers[name] = float(number)
    return numbers


def counted(wanted, of=("labntp_answers_total",)):
    """The numbers of the statistics that are not 0, of metrics with these names, come to what is wanted."""
    def seen():
        return {name: int(number) for name, number in statistics().items() if number and name.partition("{")[0] in of}

    wanted = {name: number for name, number in wanted.items() if number}
    with contextlib.suppress(Odd):
        until("they do", lambda: seen() == wanted, WRITES_EACH + WAIT)
    odd = {name: (wanted.get(name, 0), seen().get(name, 0)) for name in wanted | seen() if wanted.get(name) != seen().get(name)}
    assert not odd, "statistics: " + "; ".join(f"{name}: wanted {first}, saw {second}" for name, (first, second) in odd.items())


def answers(answer, label=None):
    """The name of a count of answers."""
    kind = "reason" if answer == "silent" else "mode"
    return f'labntp_answers_total{{answer="{answer}"' + (f',{kind}="{label}"' if label else "") + "}"


# What a datagram that was sent may be counted as.
TAKEN = ["labntp_answers_total", "labntp_stale_total", "labntp_kernel_drops_total"]


# ---- Loads

Asked = collections.namedtuple("Asked", "before after reply")


def paced(daemon, text, rate, count, doing={}, linger=2 * SLACK):
    """So many signed queries at so many a second, each with when it was sent and its reply, or None. `doing` has what is done before
    the query of a number. It waits for replies until none came for `linger` seconds. A refused port is odd, and so is a reply that the
    kernel dropped here."""
    customer = probe.Customer(text)
    asked, numbers = [], {}

    def take():
        reply = s.recv(2048)
        number = numbers.get(probe.stamps(reply)[0])
        if number is None or asked[number].reply is not None or reply[48:] != customer.mac(reply[:48]):
            raise Odd(f"a reply to no query: {reply.hex()}")
        asked[number] = asked[number]._replace(reply=reply)

    with customer.socket(daemon.port) as s:
        # Where the daemon was held up, its replies come faster than they are taken.
        s.setsockopt(socket.SOL_SOCKET, socket.SO_RCVBUF, 1 << 22)
        begun = time.monotonic()
        for number in range(count):
            doing.get(number, lambda: None)()
            due = begun + number / rate
            while select.select([s], [], [], max(due - time.monotonic(), 0))[0]:
                take()
            packet = probe.query(customer)
            numbers[probe.stamps(packet)[2]] = number
            before = time.time_ns()
            s.send(packet)
            asked.append(Asked(before, time.time_ns(), None))
        while any(it.reply is None for it in asked) and select.select([s], [], [], linger)[0]:
            take()
        same("replies that the kernel dropped", 0, kernel_dropped(s))
    return asked


def kernel_dropped(s):
    """How many datagrams the kernel dropped at this socket for want of room."""
    address, port = s.getsockname()
    local = f"{int.from_bytes(socket.inet_aton(address), sys.byteorder):08X}:{port:04X}"
    return next(int(words[-1]) for words in udp_sockets() if words[1] == local)


def unanswered(asked):
    return [number for number, it in enumerate(asked) if it.reply is None]


class Asker:
    """A customer's socket and queries of its that were made beforehand. Its `recv` gives up after WAIT seconds."""

    def __init__(self, daemon, text, count):
        self.customer = probe.Customer(text)
        self.socket = self.customer.socket(daemon.port)
        self.socket.setsockopt(socket.SOL_SOCKET, socket.SO_RCVTIMEO, struct.pack("ll", WAIT, 0))
        self.socket.setsockopt(socket.SOL_SOCKET, socket.SO_RCVBUF, 1 << 20)
        self.queries = [probe.query(self.customer) for _ in range(count)]

    def hears(self, query):
        """The reply to this query comes next."""
        try:
            reply = self.socket.recv(2048)
        except BlockingIOError:
            raise Odd(f"no reply within {WAIT} seconds")
        assert len(reply) == len(query) and reply[24:32] == query[40:48], f"not the reply to {query.hex()}: {reply.hex()}"
        return reply


@contextlib.contextmanager
def crowd(daemon, count, of=CROWD):
    """An asker for each customer of the crowd, with so many queries."""
    with contextlib.ExitStack() as stack:
        askers = [Asker(daemon, "/".join(map(str, it[:4])), count) for it in of]
        for it in askers:
            stack.enter_context(it.socket)
        yield askers


def send_all(askers):
    for it in askers:
        send = it.socket.send
        for query in it.queries:
            send(query)


def hear_all(askers):
    for it in askers:
        for query in it.queries:
            reply = it.hears(query)
    same("the MAC of the last reply", it.customer.mac(reply[:48]), reply[48:])


@contextlib.contextmanager
def halted(daemon):
    """The program stands still meanwhile."""
    daemon.process.send_signal(signal.SIGSTOP)
    yield
    daemon.process.send_signal(signal.SIGCONT)


# ---- Clock daemons

State = collections.namedtuple("State", "leap stratum precision delay dispersion identifier reference")
UNSYNCHRONISED = State(3, 0, 0xEC, 0, 16 << 16, bytes(4), 0)


def short(seconds):
    """So many seconds in the short format of NTP."""
    return round(seconds * 65536)


class FakeServer:
    """A socket of this host at which `hear` takes each datagram, with where it came from, meanwhile."""

    def __init__(self, port=0):
        self.socket, self.has_ended = probe.bound(port), False
        self.socket.settimeout(0.05)
        self.port = self.socket.getsockname()[1]
        self.thread = threading.Thread(target=self.run, daemon=True)

    def run(self):
        while not self.has_ended:
            with contextlib.suppress(TimeoutError):
                self.hear(*self.socket.recvfrom(2048))

    def __enter__(self):
        self.thread.start()
        return self

    def __exit__(self, *_):
        self.has_ended = True
        self.thread.join()
        self.socket.close()


class FakeClock(FakeServer):
    """A clock daemon that answers as it is told to. What it is told is in force for its next answer. Its clock is `offset` seconds ahead. A
    question takes the first of `lags` in seconds to come to it, and an answer the second to leave."""

    def __init__(self, algorithm="sha1", number=1, key=CLOCK_KEY, port=0):
        super().__init__(port)
        self.owner = probe.Customer(f"127.0.0.1/{number}/{algorithm}/{key}")
        self.forger = probe.Customer(f"127.0.0.1/{number}/{algorithm}/{key[::-1]}")
        self.is_silent = self.is_forged = self.is_kiss = False
        self.offset, self.lags, self.answered, self.faults = 0.0, (0.0, 0.0), None, []
        # When it was asked; how many questions may come in less than ASKS_EACH, since time passed that the clock did not see.
        self.asked, self.hurried = [], 0
        # An answer is made while this is held.
        self.lock = threading.Lock()
        self.tell()

    def tell(self, leap=0, stratum=3, precision=0xE8, delay=0.001, dispersion=0.004, age=10.0, identifier="0a0b0c0d"):
        """What it tells of itself from now on. `age` is that of its reference time, in seconds; None: the time is unknown."""
        reference = 0 if age is None else self.now() - round(age * 2**32)
        self.state = State(leap, stratum, precision, short(delay), short(dispersion), bytes.fromhex(identifier), reference)
        return self.state

    def __exit__(self, kind, *_):
        super().__exit__()
        assert kind is not None or not self.faults, f"the daemon asked its clock: {self.faults[0]}"
        # A question that was held up on its way comes close to the next.
        spans = [late - early for early, late in zip(self.asked, self.asked[2:])]
        is_often = sum(it < ASKS_EACH for it in spans) > 2 * self.hurried
        if kind is None and (is_often or len(spans) > 3 and sorted(spans)[len(spans) // 2] > 3 * ASKS_EACH):
            raise Odd(f"the daemon asked its clock {len(self.asked)} times in {self.asked[-1] - self.asked[0]:.1f} seconds")

    def hear(self, query, where):
        time.sleep(self.lags[0])
        self.asked.append(time.monotonic())
        if query[0] != 0x23 or query[48:] != self.owner.mac(query[:48]):
            self.faults.append(query.hex())
        elif not self.is_silent:
            with self.lock:
                answer = self.answer(query, self.now())
            time.sleep(self.lags[1])
            self.socket.sendto(answer, where)
            self.answered = time.monotonic()

    def is_heard(self):
        """The daemon asks twice more, so that it has taken the answer to the first of the two questions, or given it up; and no exchange goes
        on then."""
        before = len(self.asked)
        until("the daemon asks its clock twice", lambda: len(self.asked) > before + 1, TOLD_WITHIN)
        time.sleep(ASKS_EACH / 3)

    def now(self):
        return probe.now() + round(self.offset * 2**32)

    def answer(self, query, came):
        it = State(3, 0, 0, 0, 0, b"RATE", 0) if self.is_kiss else self.state
        header = struct.pack(">BBBBII4sQ", it.leap << 6 | 0x24, it.stratum, query[2], *it[2:]) + query[40:48]
        header += struct.pack(">QQ", came, self.now())
        return header + (self.forger if self.is_forged else self.owner).mac(header)


def is_grown(told, by=0.0, took=0.0):
    """Whether a state is the one that was told, with the delay of an exchange that took so long or a little longer, and with so much dispersion
    more, or a little more than that. The dispersion may be off by half of what the exchange took longer. Of a clock that is read by a program
    no precision better than 2^-16 seconds is told."""
    coarse = told._replace(delay=0, dispersion=0, precision=max(told.precision, 0xF0))

    def is_so(it):
        longer, more = it.delay - told.delay - short(took), it.dispersion - told.dispersion
        least, most = short(by) - longer / 2 - 1, short(by) + longer / 2 + short(0.02)
        return it._replace(delay=0, dispersion=0) == coarse and 0 <= longer < short(HELD_UP) and max(0, least) <= more < most

    return is_so


def is_unsynchronised(state):
    return state == UNSYNCHRONISED


@contextlib.contextmanager
def synchronised(host=None, **keys):
    """A fake clock, and a daemon that tells what it told."""
    with FakeClock() as clock, Daemon(following(clock.port, **keys), on=host) as daemon:
        daemon.tells("what the clock told", is_grown(clock.state), TOLD_WITHIN)
        yield clock, daemon


def chronyd(*words):
    """The words that start a copy of the program as this user: Debian's AppArmor profile has the one in /usr/sbin read no file of the case."""
    found, _ = peers.tool("chrony", "chronyd")
    copy = room("chronyd")
    return [copy if os.path.exists(copy) else shutil.copy(found, copy), "-U", "-u", pwd.getpwuid(os.geteuid()).pw_name, *words]


def chronyd_at(port, name, *lines, keys=f"1 SHA1 HEX:{CLOCK_KEY}\n", address="127.0.0.1", allowed=("127.0.0.0/8",)):
    """The words that start chronyd, which sets no clock and serves these networks there under these keys."""
    lines = [*lines, f"port {port}", f"bindaddress {address}", *(f"allow {it}" for it in allowed), "cmdport 0", "bindcmdaddress /"]
    lines += [f"keyfile {file_of('chrony.keys', keys)}", f"pidfile {room(name)}.pid"]
    return chronyd("-d", "-x", "-f", file_of(f"{name}.conf", "\n".join(lines)))


# A program that may not set the clock, whatever its user may.
WITHOUT_CLOCK = ("setpriv", "--bounding-set", "-sys_time")


def ntpsec_with(keys, *lines):
    """The words that start NTPsec's ntpd, which sets no clock and serves this host under these keys at port 123, the only one it knows."""
    found, _ = peers.tool("ntpsec", "ntpd", "ntpsec-")
    numbers = " ".join(it.split()[0] for it in keys.splitlines())
    lines = ["interface ignore all", "interface ignore wildcard", "interface listen 127.0.0.1", "disable ntp", "disable kernel", *lines]
    lines += ["tos orphan 2 orphanwait 1", f"keys {file_of('ntp.keys', keys)}", f"trustedkey {numbers}"]
    return [*WITHOUT_CLOCK, found, "-n", "-c", file_of("ntp.conf", "".join(f"{it}\n" for it in lines))]


def begin(words, **how):
    """Another program, which is ended as the daemon is."""
    return start(words[1:], words[0], **{"stdout": subprocess.DEVNULL, "stderr": subprocess.DEVNULL, **how})


@contextlib.contextmanager
def running(words, answers):
    """Another server, from its first answer on. One that does not answer is none for this host."""
    process = begin(words)
    try:
        give_up = time.monotonic() + WAIT
        while not answers():
            if process.poll() is not None or time.monotonic() > give_up:
                raise PassedOver(f"{os.path.basename(words[0])} does not serve here")
            time.sleep(0.02)
        yield process
    finally:
        end(process)
