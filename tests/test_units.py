"""Judges the units of examples/ under a systemd of its own, installed by packaging/by_hand and the commands of docs/OPERATIONS.md.

It needs root, systemd, useradd, openssl, and what tests/own_systemd.py lists; else all cases are passed over. That says too what is left
alone.
"""
import contextlib
import errno
import os
import pathlib
import re
import signal
import socket
import statistics
import subprocess
import tempfile
import time
import types

import pytest

import judging
import labntpd_server
import own_network
import own_systemd
import probe
from judging import SECOND, SLOW, TOP, PassedOver, same, until
from own_systemd import UNITS, commands_of, edit, run as sh
from probe import nanos

MASK = 0o022
# The files that the page names, by the names that tests/test_daemon.py has for them.
FILES = {"clock.key": "/etc/labntp/clock.key", "commands": "/var/lib/labntp/commands"}
FILES |= {"answers": "/run/labntp/answers", "statistics": "/run/labntp/labntpd.prom", "customers": "/run/labntp/customers"}
CONFIGURATION, SERVICE, SOCKET = "/etc/labntp/labntpd.toml", "labntpd.service", "labntpd.socket"
# The address of the example, and another; a customer, that of the example's commands, and one that asks often.
SERVER, OTHER, PORT, CLOCK_PORT = "192.0.2.1", "192.0.2.2", 123, 11123
TEN, HERE, ASKER = "192.0.2.10/7/md5/6b6579", "127.0.0.1/9/sha1/6c61626e74702d6578616d706c652d6b65792d39", "192.0.2.30/30/sha1/9d04b6f1c7a85e32"
ENROLMENT = f"enrol {ASKER.replace('/', ' ')} 65535\nenrol {TEN.replace('/', ' ')} 10\n"
# What the page has asked where all is well, and a part of what is told then.
ASKED = {
    "systemctl status labntpd.socket labntpd": "active (running)",
    "journalctl -u labntpd": f"serving {SERVER}:{PORT}",
    "setpriv --reuid labntp --regid labntp --clear-groups head -c 0 /var/lib/labntp/commands": "",
}
# What has the door's rules loaded, and the program that it runs.
DOOR, LABNTPCTL = f"labntpd-door@{SERVER}", "crates/labntpctl/out/labntpctl"
# What it has asked where the daemon does not start.
ASKED_WHY = "journalctl -u labntpd -n 20"
# The longest that a datagram waits and is answered, as the example has it; and that customers go without answers. In seconds.
LONGEST_WAIT, SOON = 0.25, 1 + labntpd_server.SLACK
# How long systemd waits before it starts the daemon anew that has ended, in seconds.
RESTART = 2
# How many restarts are timed; for how long nobody is answered at the median of them at most, in seconds; and on a busy host for how many times
# as long as a service takes that does nothing.
RESTARTS, SILENCE, AS_IDLE = 9, 0.2, 3


# ---- What is installed

@pytest.fixture(scope="module", autouse=True)
def systemd(room):
    """A systemd under which it is installed."""
    labntpd, labntpctl = judging.built("labntpd", "labntpctl")
    copies = {it: f"{TOP}/{it}" for it in ("examples", "docs", "packaging/by_hand")} | {"crates/labntpd/out/labntpd": labntpd, LABNTPCTL: labntpctl}
    with own_systemd.entered(__name__, copies, "useradd", "userdel", "openssl") as make:
        make("install")
        yield make
        make("end")


@pytest.fixture(autouse=True)
def well_at_first(systemd):
    systemd("well")


def install():
    """Carries out the script and the page's commands. The host has the address only later."""
    global CLOCK, TOLD
    judging.ROOM = tempfile.mkdtemp()
    for name, place in FILES.items():
        os.symlink(place, labntpd_server.room(name))
    _, start, *_ = commands_of("docs/OPERATIONS.md", "Install")
    # Where the host has the user and the folder already; and what chrony brings.
    sh("userdel labntp || true; rm -rf /etc/labntp")
    own_systemd.begin_chrony()
    sh("packaging/by_hand\nexamples/share_clock\nexamples/share_clock")
    same("what the script says again", "packaging/by_hand: /etc/labntp is there already", sh("packaging/by_hand", 1))
    same("chronyd's keys, and the clock's", f"1 SHA1 HEX:{labntpd_server.read('clock.key')}", sh("grep '^1 ' /etc/chrony/chrony.keys") + "\n")
    CLOCK = labntpd_server.FakeClock(key=labntpd_server.read("clock.key").strip(), port=CLOCK_PORT).__enter__()
    # Each start of the daemon begins with a question.
    CLOCK.hurried = SECOND
    TOLD = sh(start)
    sh(f"mkdir /tmp/kept; cp -p {UNITS}/labntpd.* {CONFIGURATION} /tmp/kept; ip address add {SERVER}/24 dev lo")
    probe.HOST = SERVER


def end():
    CLOCK.__exit__(None)


def well():
    """What each case begins with: all as it was installed, started anew, and with the time for a customer."""
    CLOCK.is_silent = False
    judging.file_of("commands", ENROLMENT)
    sh(f"cp -p /tmp/kept/labntpd.s* {UNITS}; cp -p /tmp/kept/labntpd.toml {CONFIGURATION}")
    sh(f"systemctl daemon-reload; systemctl reset-failed; systemctl restart {SOCKET} {SERVICE}")
    serves()


def serves(host=SERVER):
    """A customer that asks again and again has a signed answer soon, and the time once the clock has told it."""
    customer, begun, told, probe.HOST = probe.Customer(ASKER), time.monotonic(), "nothing", host
    while told != "time":
        assert time.monotonic() <= begun + (SOON if told == "nothing" else 2 * SOON), f"at {host}, too late: {told}"
        with customer.socket(PORT) as s, contextlib.suppress(ConnectionRefusedError):
            word, reply, _ = probe.exchange(customer, s, wait=0.05)
            if reply:
                same("the MAC", customer.mac(reply[:48]), reply[48:])
                told = word
    probe.HOST = SERVER


def test_install_leaves_chronyds_other_keys():
    """share_clock changes no other key of chronyd, and says what bars it."""
    keys, own, key = "/etc/chrony/chrony.keys", FILES["clock.key"], labntpd_server.read("clock.key").strip()
    line, kept = f"1 SHA1 HEX:{key}\n", [sh(f"cat {it}") for it in (keys, own)]

    # So often it is not started else.
    share = "systemctl reset-failed chrony; examples/share_clock"

    def gives(what, before, after, said=""):
        pathlib.Path(keys).write_text(before)
        same(f"{what}: what is said", said, sh(share, int(said != "")))
        same(f"{what}: chronyd's keys", after, pathlib.Path(keys).read_text())

    gives("no line feed at the end", "5 SHA1 HEX:aabb", f"5 SHA1 HEX:aabb\n{line}")
    gives("under another number", f"71 SHA1 HEX:{key}\n", f"71 SHA1 HEX:{key}\n{line}")
    for spelled in (f"  1\tSHA1 HEX:{key}\n", f"01 SHA1 HEX:{key.upper()}\n"):
        gives("spelled otherwise", spelled, spelled)
    for other in (f"1 MD5 HEX:{key}\n", f"  1 SHA1 HEX:{key}00\n"):
        gives("another key", other, other, f"share_clock: {keys} has another key 1: give it to {own}, or take it out")
    sh(f"rm {keys}; {share}")
    same("a file that was not there", "640", sh(f"stat -c %a {keys}"))
    sh(f"echo >{own}")
    gives("a file without its key", "", "", f"share_clock: {own} has no key: remove it, and call this again")
    for path, text in zip((keys, own), kept):
        pathlib.Path(path).write_text(f"{text}\n")
    sh(share)


pid = lambda: own_systemd.process(SERVICE)
handed_down = lambda: os.readlink(f"/proc/{pid()}/fd/3")


def shown(**wanted):
    """systemd tells this of the service."""
    same("what systemd tells", wanted, dict(zip(wanted, own_systemd.shown(SERVICE, *wanted))))


def anew(*steps, apart=150, **wanted):
    """A customer asks a hundred times a second, while a step is done each so many queries. No port is refused, none has a late answer, and
    soon after systemd had to start it anew behind the last step each has one. Another process has the socket then, and new files; and systemd tells what is wanted."""
    first, handed, done = pid(), handed_down(), []
    doing = {50 + apart * at: lambda it=it: done.append((it(), time.time_ns())) for at, it in enumerate(steps)}
    asked = labntpd_server.paced(types.SimpleNamespace(port=PORT), ASKER, 100, max(doing) + 300, doing)
    waited = [(nanos(probe.stamps(it.reply)[1]) - it.after) / SECOND for it in asked if it.reply]
    same("seconds that answered queries had waited", [], [it for it in waited if it > LONGEST_WAIT])
    lost = (max((it.after for it in asked if not it.reply), default=0) - done[-1][1]) / SECOND
    assert lost <= RESTART + SOON, f"a query had no answer {lost:.2f} seconds later"
    until("new files", lambda: all(os.path.getmtime(FILES[it]) > done[-1][1] / SECOND for it in ("answers", "statistics")), RESTART + SOON)
    same("whether it is another process, and the socket", (True, handed), (pid() != first, handed_down()))
    shown(ActiveState="active", **wanted)


def silences():
    """How long nobody was answered at each restart, in seconds, while a customer asks a hundred times a second: the longest time from an answer
    in the second of that restart to the next, by their stamps."""
    words, begun = ["systemctl", "restart", "--no-block", SERVICE], []
    doing = {50 + 100 * it: lambda: begun.append(subprocess.Popen(words)) for it in range(RESTARTS)}
    asked = labntpd_server.paced(types.SimpleNamespace(port=PORT), ASKER, 100, 100 * RESTARTS + 100, doing)
    same("statuses of systemctl", RESTARTS * [0], [it.wait() for it in begun])
    at = [(number // 100, nanos(probe.stamps(it.reply)[1]) / SECOND) for number, it in enumerate(asked) if it.reply]
    return [max((later - it for (of, it), (_, later) in zip(at, at[1:]) if of == number), default=1) for number in range(RESTARTS)]


def idle_restarts():
    """How long a service takes to be started anew that has the same settings and does nothing, in seconds."""
    programs = [("^ExecStartPre=.*", "ExecStartPre=/bin/true"), ("^ExecStart=.*", "ExecStart=/bin/sleep infinity")]
    sh(f"sed '/^Requires=/d; /^After=/d; /^RuntimeDirectory/d; /^Type=/d; /^WatchdogSec=/d' {UNITS}/{SERVICE} >{UNITS}/idle.service")
    edit(f"{UNITS}/idle.service", *programs)
    try:
        sh("systemctl daemon-reload; systemctl start idle")
        for _ in range(RESTARTS):
            begun = time.monotonic()
            sh("systemctl restart idle")
            yield time.monotonic() - begun
    finally:
        sh(f"systemctl stop idle; rm {UNITS}/idle.service; systemctl daemon-reload")


def test_ended_by_a_kill_it_is_soon_there_again():
    anew(lambda: os.kill(pid(), signal.SIGKILL), NRestarts="1")


@pytest.mark.proved_alone(SLOW)
def test_ended_by_a_restart_it_is_soon_there_again():
    anew(lambda: sh(f"systemctl restart --no-block {SERVICE}"), Result="success", NRestarts="0")
    found, idle = sorted(silences()), statistics.median(idle_restarts())
    silence = statistics.median(found)
    print(f"at {RESTARTS} restarts nobody was answered for {silence:.3f} s (median; {found[0]:.3f} to {found[-1]:.3f}); an idle service takes {idle:.3f} s")
    assert silence <= max(SILENCE, AS_IDLE * idle), f"nobody was answered for {silence:.3f} seconds"


def asked_in_vain(count):
    """How many of so many queries are refused, where none has an answer, nor later."""
    customer = probe.Customer(ASKER)
    with contextlib.ExitStack() as stack:
        sockets = [stack.enter_context(customer.socket(PORT)) for _ in range(count)]
        for it in sockets:
            it.send(probe.query(customer))
        time.sleep(SOON)
        refused = [it.getsockopt(socket.SOL_SOCKET, socket.SO_ERROR) for it in sockets]
        same("answers", [None] * count, [probe.answer(it, 0) for it in sockets])
    return refused.count(errno.ECONNREFUSED)


# ---- Cases

def test_install_by_the_pages_commands_before_the_host_has_the_address():
    same("what the page's commands print first", ["ok", "Created"], TOLD.split()[:2])
    same("enabled", "enabled\nenabled", sh(f"systemctl is-enabled {SOCKET} {SERVICE}"))


def test_answers_come_over_a_socket_that_systemd_has_with_its_buffers():
    for form, customer, wanted in (("plain", TEN, "time"), ("wrong", TEN, "nak"), ("plain", ASKER, "time")):
        same(f"{form} query of {customer}", wanted, probe.ask(PORT, form, customer))
    same("interleaved", "interleaved", probe.interleave(PORT, ASKER))
    same("whether systemd has its socket", True, handed_down() in sh("ls -l /proc/1/fd"))
    same("buffers", ["rb1048576", "tb2097152"], re.findall(r"[rt]b\d+", sh(f"ss -lunmH 'sport = :{PORT}'")))


def test_process_has_its_user_no_capability_and_is_first_at_a_processor():
    user, group = sh("id -u labntp; id -g labntp").split()
    wanted = {"Uid": "\t".join(4 * [user]), "Gid": "\t".join(4 * [group]), "Groups": group, "NoNewPrivs": "1", "Seccomp": "2"}
    wanted |= {f"Cap{it}": 16 * "0" for it in ("Inh", "Prm", "Eff", "Bnd", "Amb")}
    same("what it should not be", {}, {name: it for name, it in own_systemd.status(SERVICE).items() if wanted.get(name, it) != it})
    same("nice", -15, os.getpriority(os.PRIO_PROCESS, pid()))
    same("limits of a core file", ["0", "0"], sh(f"grep '^Max core file size' /proc/{pid()}/limits").split()[4:6])


def test_process_has_policy_and_processors_by_the_files_for_exact_stamps():
    """Of the ordinary policy at any processor; by the page's files under a real-time policy, and at one processor. It changes neither itself."""
    every = os.sched_getaffinity(0)
    for name, policy, processors in (None, os.SCHED_OTHER, every), ("realtime", os.SCHED_FIFO, every), ("spin", os.SCHED_OTHER, {1}):
        if processors > every:
            raise PassedOver("there is one processor here")
        try:
            if name:
                sh(f"install -D -m 644 examples/labntpd-{name}.conf {UNITS}/{SERVICE}.d/{name}.conf")
            well()
            same(f"{name}: policy, priority, processors", (policy, int(name == "realtime"), processors),
                 (os.sched_getscheduler(pid()), os.sched_getparam(pid()).sched_priority, os.sched_getaffinity(pid())))
        finally:
            sh(f"rm -rf {UNITS}/{SERVICE}.d")
    sh("systemctl daemon-reload")


def test_process_has_its_weight_in_the_kernel():
    shown(CPUWeight="1000")
    path = f"/sys/fs/cgroup{sh(f'grep ^0:: /proc/{pid()}/cgroup')[3:]}/cpu.weight"
    if not os.path.exists(path):
        raise PassedOver("the control groups of the second version have no controller of processors here")
    same("the weight", "1000", sh(f"cat {path}"))


def test_process_is_the_last_to_be_ended_for_want_of_memory():
    shown(OOMScoreAdjust="-500")
    if not int(sh("grep ^CapEff /proc/1/status").split()[1], 16) >> 24 & 1:
        raise PassedOver("systemd has no capability to it here (CAP_SYS_RESOURCE)")
    same("what is added", "-500", sh(f"cat /proc/{pid()}/oom_score_adj"))


def test_process_writes_and_sees_few_places():
    """It writes into /run/labntp, and where nobody looks. It sees neither files nor processes of others."""
    folders = "/etc/labntp /var/lib/labntp /usr/local/sbin /srv /run /tmp /var/tmp /dev /root /home"
    sh("for it in /tmp /var/tmp /dev /root /home; do touch $it/of-others; done")
    there = f"nsenter --mount --target {pid()}"
    same("where it sees files of others", "", sh(f"{there} sh -c 'for it in {folders}; do test ! -e $it/of-others || echo $it; done'"))
    seen = sh(f"{there} sh -c 'for it in {folders} /run/labntp; do touch $it/new 2>/dev/null && rm $it/new && echo $it; done; true'")
    same("where even root may write there", "/tmp\n/var/tmp\n/run/labntp", seen)
    same("where it may write", "/run/labntp\n/tmp\n/var/tmp", writable(pid()))
    sh(f"{there} setpriv --reuid labntp --regid labntp --clear-groups test ! -e /proc/1")


def writable(process):
    """What is mounted for a process, and its user may write there."""
    mounted = " ".join(sorted({line.split()[4] for line in sh(f"cat /proc/{process}/mountinfo").splitlines()}))
    there = f"nsenter --mount --target {process} setpriv --reuid labntp --regid labntp --clear-groups"
    return sh(f"{there} sh -c 'for it in {mounted}; do test ! -d $it -o ! -w $it || echo $it; done'")


def test_files_are_readable_for_few():
    until("all are there", lambda: all(map(os.path.exists, FILES.values())))
    for place in [*FILES.values(), CONFIGURATION]:
        is_told = place.startswith("/run/")
        same(place, "644 labntp labntp" if is_told else "640 root labntp", sh(f"stat -c '%a %U %G' {place}"))
        sh(f"setpriv --reuid nobody --regid nogroup --clear-groups cat {place}", 0 if is_told else 1)


def test_commands_are_carried_out_and_answered():
    sh(f"cat examples/commands >>{FILES['commands']}")
    until("the answers", lambda: labntpd_server.read("answers") == "1 done\n2 done\n4 done\n5 done\n", SOON)
    same("a query of the new customer", "time", probe.ask(PORT, "plain", HERE))


def test_ended_by_a_start_that_fails_it_is_soon_there_once_it_does_not():
    """A start that fails is tried again every two seconds, more often than systemd tries others, until the file is put right."""
    tried, spoil = [], lambda: sh(f"mv {FILES['commands']} {FILES['commands']}.away; systemctl restart --no-block {SERVICE}")

    def mend():
        tried.append(int(*own_systemd.shown(SERVICE, "NRestarts")))
        sh(f"mv {FILES['commands']}.away {FILES['commands']}")

    anew(spoil, mend, apart=1300)
    assert 4 <= tried[0] <= 13 // RESTART, f"in thirteen seconds it was tried again {tried[0]} times"


def test_start_has_ended_once_it_serves():
    """A start has ended once all lines of the commands file are carried out, and a customer has an answer at once."""
    count = 5_000
    judging.file_of("commands", ENROLMENT + "budget 192.0.2.10 10\n" * count)
    sh(f"systemctl restart {SERVICE}")
    same("lines that have their answers then", 2 + count, labntpd_server.read("answers").count("\n"))
    serves()
    shown(ActiveState="active", Type="notify", WatchdogUSec="30s")


def test_ended_as_it_stands_still_it_is_soon_there_again():
    """It is ended and started anew by itself where it stands still for longer than its unit allows, here 12 seconds."""
    edit(f"{UNITS}/{SERVICE}", ("^WatchdogSec=.*", "WatchdogSec=12"))
    sh(f"systemctl daemon-reload; systemctl restart {SERVICE}")
    serves()
    time.sleep(12 + 1)
    first = pid()
    shown(NRestarts="0")
    os.kill(first, signal.SIGSTOP)
    until("another process", lambda: pid() not in (0, first), 12 + RESTART + SOON)
    serves()
    shown(NRestarts="1")


def test_ended_by_a_stop_with_the_socket_and_without():
    """SIGTERM ends it at once. A datagram at the socket, which stays, starts it again, and has no answer; without the socket it does not."""
    ended = {"ActiveState": "inactive", "Result": "success", "ExecMainCode": "2", "ExecMainStatus": f"{signal.SIGTERM}"}
    begun = time.monotonic()
    sh(f"systemctl stop {SERVICE}")
    same("whether it ended at once", True, time.monotonic() < begun + SOON)
    shown(**ended)
    same("refused at the socket", 0, asked_in_vain(3))
    shown(ActiveState="active")
    until("three are stale", lambda: labntpd_server.statistics().get("labntp_stale_total") == 3, labntpd_server.WRITES_EACH + SOON)
    sh(f"systemctl stop {SOCKET}")
    same("refused without it", 3, asked_in_vain(3))
    shown(**ended)
    sh(f"systemctl start {SERVICE}")
    serves()


def test_journal_has_warnings_and_no_key():
    if sh("systemctl is-active systemd-journald.service", None) != "active":
        raise PassedOver("journald does not run")
    CLOCK.is_silent = True
    sh(f"systemctl stop {SERVICE}")
    same("refused at the socket", 0, asked_in_vain(3))
    told = lambda priority: sh(f"journalctl -o cat -u {SERVICE} -p {priority} _PID={pid()}").splitlines()
    warnings = ["stale: 3 datagrams dropped", "clock: not synchronised: no-answer"]
    until("the clock", lambda: warnings[1] in told("info"), SOON)
    same("warnings", warnings, told("warning"))
    begins = [f"serving {SERVER}", "labntpd ", "receive buffer: 524288 octets wanted, 1048576 given"]
    begins += ["commands: 2 lines read, 2 customers", *warnings]
    same("where all lines begin so", [True] * 6, [*map(str.startswith, told("info"), begins)])
    labntpd_server.tells_no_key({**labntpd_server.told_octets(), "the journal": sh("journalctl -o cat").encode()})


def test_door_has_its_rules_loaded_as_customers_change():
    """The units load the door's rules, and a customer is let in as soon as it is enrolled, however many others are meanwhile."""
    if not os.path.exists(f"{own_systemd.GIVEN}/{LABNTPCTL}"):
        raise PassedOver("there is no program labntpctl")
    own_network.find_nft(own_systemd.GIVEN, "/usr/local/sbin")
    sh(f"install -m 755 {LABNTPCTL} /usr/local/sbin; install -m 644 examples/labntpd-door* {UNITS}; systemctl daemon-reload")
    known, table = [], f"inet labntpd-{SERVER}-{PORT}"
    let_in = lambda: {*re.findall(r"[\d.]+", sh(f"nft list set {table} customers", None))} & {*known}

    def enrol(count, each):
        """Customers are enrolled one after another, and each is let in soon behind the last."""
        for _ in range(count):
            known.append(f"192.0.2.{100 + len(known)}")
            sh(f"echo enrol {known[-1]} {100 + len(known)} sha1 {len(known):040x} 10 >>{FILES['commands']}")
            time.sleep(each)
        until("all are let in", lambda: let_in() == {*known}, SOON)

    try:
        sh(f"systemctl enable --now {DOOR}.path")
        until("the rules are loaded", lambda: sh(f"nft list table {table}", None), SOON)
        serves()
        enrol(1, 0)
        # Where changes come before, while and after the rules are loaded.
        for each in range(10):
            enrol(5, each / 100)
        sh(f"systemctl restart {DOOR}.path")
        enrol(1, 0)
        serves()
    finally:
        sh(f"systemctl disable --now {DOOR}.path; nft delete table {table}", None)


def test_page_has_units_journal_and_commands_file_asked():
    if sh("systemctl is-active systemd-journald.service", None) != "active":
        raise PassedOver("journald does not run")
    page = " ".join(sh("cat docs/OPERATIONS.md").split())
    same("what the page has not", [], [it for it in [*ASKED, ASKED_WHY] if f"`{it}`" not in page and f" {it} ```" not in page])
    for command, told in ASKED.items():
        until(f"{told} by {command}", lambda: told in sh(command), SOON)
    # Not there, as in no other case.
    edit(CONFIGURATION, ("^commands = .*", 'commands = "/var/lib/labntp/none"'))
    sh(f"systemctl restart --no-block {SERVICE}")
    until("why it does not start", lambda: "/var/lib/labntp/none: No such file or directory" in sh(ASKED_WHY), SOON)


def test_page_leads_to_another_address():
    edit(f"{UNITS}/{SOCKET}", (f"^ListenDatagram={SERVER}:", f"ListenDatagram={OTHER}:"))
    sh(f"systemctl daemon-reload; systemctl restart {SOCKET}")
    serves(OTHER)
    same("refused where it was", 1, asked_in_vain(1))


def test_page_leads_to_a_service_without_the_sockets_unit():
    """Without the socket's unit it binds the port itself, by the one capability to it."""
    edit(CONFIGURATION, ("^listen = .*", f'listen = "{SERVER}:{PORT}"'))
    names = [(f"^{it}=$", f"{it}=CAP_NET_BIND_SERVICE") for it in ("CapabilityBoundingSet", "AmbientCapabilities")]
    edit(f"{UNITS}/{SERVICE}", (f"^Requires={SOCKET}\n", ""), (f"^After={SOCKET} ", "After="), *names)
    sh(f"systemctl stop {SOCKET}; systemctl daemon-reload; systemctl start {SERVICE}")
    serves()
    same("its capabilities", [1 << 10] * 2, [int(own_systemd.status(SERVICE)[it], 16) for it in ("CapEff", "CapBnd")])


# Which settings the templates for several processes have otherwise than the units for one.
NOT_AS_THE_SINGLE = {SOCKET: {"Description", "ListenDatagram"}}
NOT_AS_THE_SINGLE[SERVICE] = {"Description", "Requires", "After", "RuntimeDirectory", "TemporaryFileSystem", "BindPaths", "BindReadOnlyPaths", "ReadOnlyPaths"}


def settings(path):
    """The lines of a unit that was handed over, without comments."""
    return {it for it in sh(f"cat {path}").splitlines() if it and it[0] != "#"}


def test_page_leads_to_several_processes_by_the_template():
    """By the template two serve at ports of their own, by the same configuration and commands; each writes files of its own."""
    names, ports = [f"labntpd@{it}" for it in (12301, 12302)], (12301, 12302)
    try:
        begin, _, end, *_ = commands_of("docs/SCALING.md", "Several processes on one host")
        sh(begin)
        for port in (*ports, PORT):
            until(f"the time at port {port}", lambda: probe.ask(port, "plain", TEN) == "time", 3 * judging.WAIT)
        # It takes its folder along, and none of theirs.
        sh(end)
        same("whether the one that was there has ended", "inactive\ninactive", sh(f"systemctl is-active {SOCKET} {SERVICE}", None))
        same("buffers", 2 * ["rb1048576", "tb2097152"], re.findall(r"[rt]b\d+", sh("ss -lunmH 'sport >= :12301 and sport <= :12302'")))
        sh(f"rm /run/labntp-*/customers; cat examples/commands >>{FILES['commands']}")
        for port in ports:
            until("the answers", lambda: sh(f"cat /run/labntp-{port}/answers") == "1 done\n2 done\n4 done\n5 done", SOON)
            until("the customers are written again", lambda: os.path.exists(f"/run/labntp-{port}/customers"), 2 * SOON)
            for it in ("answers", "labntpd.prom", "customers"):
                same(it, "644 labntp labntp", sh(f"stat -c '%a %U %G' /run/labntp-{port}/{it}"))
        first, second = map(own_systemd.process, names)
        same("where it may write", "/run/labntp\n/run/labntp-12301\n/tmp\n/var/tmp", writable(first))
        for unit, wanted in NOT_AS_THE_SINGLE.items():
            single, template = (settings(f"examples/{it}") for it in (unit, unit.replace(".", "@.")))
            same(f"settings that are not as in {unit}", wanted, {it.split("=")[0] for it in single ^ template})
        sh(f"systemctl restart {names[1]}")
        same("whether the other one goes on", (True, True), (own_systemd.process(names[0]) == first, own_systemd.process(names[1]) != second))
    finally:
        sh(f"systemctl disable --now {' '.join(f'{it}.socket {it}.service' for it in names)}; systemctl enable {SOCKET} {SERVICE}")
