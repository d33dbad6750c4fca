"""The servers that are measured. All have the customers that stand here."""
import collections
import contextlib
import os
import socket

import judging
import labntpd_server
import peers
import probe
from host import labntpd_named, room
from judging import PassedOver

# Keys of lengths that are in use.
KEYS = {"md5": b"key-of-16-octets".hex(), "sha1": b"a-key-of-20-octets..".hex()}
# The addresses of those who ask, by algorithm; of one whose reply shows that the flood before its query was taken; and of one that no server
# answers, with its network.
CROWDS = {"md5": [f"127.0.1.{it}" for it in range(1, 33)], "sha1": [f"127.0.2.{it}" for it in range(1, 33)]}
MARKER, STRANGER, SHUT_OUT = "127.0.9.1", "127.0.8.1", "127.0.8.0/24"
EVERY = [(it, algorithm) for algorithm, some in CROWDS.items() for it in some] + [(MARKER, "md5")]
CUSTOMERS = {it: probe.Customer(f"{it}/{number}/{algorithm}/{KEYS[algorithm]}") for number, (it, algorithm) in enumerate(EVERY, 1)}

Server = collections.namedtuple("Server", "name process port")


def key_lines(mark=""):
    """The lines of a key file, with this before each key."""
    return "".join(f"{it.number} {it.algorithm.upper()} {mark}{it.key.hex()}\n" for it in CUSTOMERS.values())


def running(words, port):
    """Runs a server, from its first reply with the time on."""
    return labntpd_server.running(words, lambda: probe.ask(port, "plain", f"{MARKER}/{CUSTOMERS[MARKER].number}/md5/{KEYS['md5']}") == "time")


@contextlib.contextmanager
def least():
    port = probe.free_port()
    with running([room("least"), str(port), *KEYS.values()], port) as process:
        yield Server("least server", process, port)


@contextlib.contextmanager
def chrony():
    port = probe.free_port()
    with running(labntpd_server.chronyd_at(port, "chrony", "local stratum 1", f"deny {SHUT_OUT}", keys=key_lines("HEX:")), port) as process:
        yield Server(f"chrony {peers.version('chrony')}", process, port)


@contextlib.contextmanager
def ntpsec():
    try:
        with socket.socket(socket.AF_INET, socket.SOCK_DGRAM) as s:
            s.bind((probe.HOST, 123))
    except OSError as why:
        raise PassedOver(f"port 123, the only one it knows: {why.strerror}")
    with running(labntpd_server.ntpsec_with(key_lines(), "unrestrict default noquery limited", f"restrict {SHUT_OUT} ignore"), 123) as process:
        yield Server(f"NTPsec {peers.version('NTPsec')}", process, 123)


@contextlib.contextmanager
def labntpd(**keys):
    """As packaged, but for the fixed clock, the port and these keys of the configuration."""
    enrolled = [(it.address, it.number, it.algorithm, it.key.hex(), 65535) for it in CUSTOMERS.values()]
    with labntpd_server.Daemon(enrolled=enrolled, longest_wait=None, **keys) as it:
        yield Server("labntpd", it.process, it.port)


STARTS = {"least": least, "chrony": chrony, "ntpsec": ntpsec, "labntpd": labntpd}
INTERLEAVE = ("chrony", "labntpd")
# The programs that are fetched, by their packages.
FETCHED = {"chrony": "chronyd", "ntpsec": "ntpd"}


@contextlib.contextmanager
def started(names, program, **keys):
    """Starts the servers of these names that can be had here, and gives them by name. Where one is not on the path, packages are fetched."""
    judging.PROGRAM, found, packages = os.path.abspath(program), {}, [it for it in names if it in FETCHED]
    if "labntpd" in names:
        print(labntpd_named(judging.PROGRAM), flush=True)
    with peers.fetched([FETCHED[it] for it in packages], packages), contextlib.ExitStack() as stack:
        for it in names:
            try:
                found[it] = stack.enter_context(STARTS[it](**(keys if it == "labntpd" else {})))
            except PassedOver as why:
                print(f"left out: {it}: {why}", flush=True)
        yield found
