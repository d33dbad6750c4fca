"""Judges scale/cores and scale/machines: customers that are split by source address over several processes of labntpd.

256 customers ask, four processes of one host or four hosts answer, and a router stands between where there are hosts. The commands are
those of docs/SCALING.md.

It needs root, gcc, the programs `mount`, `ip` and `sysctl`, two processors, and `nft` (on the path, or below $PEERS as tests/run fetches
it); else cases are passed over. Everything is done in namespaces of its own, of networks and mounts, which end with it.
"""
import collections
import contextlib
import ctypes
import hashlib
import ipaddress
import os
import re
import select
import statistics
import subprocess
import time

import pytest

import judging
import labntpd_server
import own_network
import own_systemd
import probe
from judging import SLOW, TOP, Odd, same, until
from own_network import ALLOWED, nft
from texts import text_of

PAGE = "docs/SCALING.md"
MASK = 0o022
(LABNTPCTL,) = judging.built("labntpctl")
# The address that is split, as the page has it, and the processes and the hosts.
SERVICE, PORT = "192.0.2.1", 123
PORTS = [f"{12301 + it}" for it in range(4)]
HOSTS = [f"10.67.{it}.2" for it in range(4)]
# The customers, and further ones, some of them at each process: their answers tell that what came before has been answered.
COUNT = 256
ADDRESSES = [f"10.66.{it // 256}.{it % 256}" for it in range(1, COUNT + 1)]
FURTHER = [f"10.66.2.{it}" for it in range(1, 65)]
LOOPBACK = "127.0.0.1"
AMPLE = 65535
# How long what may still come is waited for, once it is known to have been sent, in seconds.
SETTLE = 0.1


# ---- Places

@pytest.fixture(scope="module", autouse=True)
def namespaces(room):
    """Namespaces of its own, and what floods. Those of networks are named below /run, so that is its own too."""
    judging.needs("mount", "ip", "sysctl", "gcc", root=True)
    with own_network.apart("mnt", "net"), own_network.preferred():
        sh("mount -t tmpfs tmpfs /run && mkdir /run/netns")
        Space.entered.append(os.open("/proc/thread-self/ns/net", os.O_RDONLY))
        own_network.find_nft()
        own_network.compiled(own_network.FLOOD, "flood")
        yield
        os.close(Space.entered.pop())


class Space:
    """A namespace of networks. `with space:` what is begun and made is there."""

    setns = ctypes.CDLL(None, use_errno=True).setns
    # Those that were entered and not left, the first one of all in front.
    entered = []

    def __init__(self, name):
        self.name = name
        sh(f"ip netns add {name} && ip -n {name} link set lo up")
        self.file = os.open(f"/run/netns/{name}", os.O_RDONLY)

    @staticmethod
    def enter(file):
        if Space.setns(file, 0):
            raise OSError(ctypes.get_errno(), "setns")

    def __enter__(self):
        self.enter(self.file)
        Space.entered.append(self.file)

    def __exit__(self, *_):
        Space.entered.pop()
        self.enter(Space.entered[-1])

    def sh(self, command, wanted=0):
        with self:
            return sh(command, wanted)

    def remove(self):
        os.close(self.file)
        sh(f"ip netns del {self.name}")


def sh(command, wanted=0):
    how = {"stdin": subprocess.DEVNULL, "stdout": subprocess.PIPE, "stderr": subprocess.STDOUT, "text": True, "cwd": TOP}
    ran = subprocess.run(["sh", "-ec", command], timeout=judging.WAIT, **how)
    if wanted not in (None, ran.returncode):
        raise Odd(f"{command[:200]!r} ended with {ran.returncode}: {' '.join(ran.stdout.split())[-300:]}")
    return ran.stdout.strip()


def link(one, address, other, other_address, names=("eth", "eth")):
    sh(f"ip link add {names[0]} netns {one.name} type veth peer name {names[1]} netns {other.name}")
    for space, name, it in ((one, names[0], address), (other, names[1], other_address)):
        sh(f"ip -n {space.name} addr add {it} dev {name} && ip -n {space.name} link set {name} up")


@contextlib.contextmanager
def spaces(*names):
    made = []
    try:
        for it in names:
            made.append(Space(it))
        yield made
    finally:
        for it in made:
            it.remove()


def place(customers, gateway):
    """The addresses of the customers, and their way."""
    more = "".join(f"addr add {it}/16 dev eth\n" for it in ADDRESSES + FURTHER)
    subprocess.run(["ip", "-n", customers.name, "-batch", "-"], input=f"{more}route add default via {gateway}\n", text=True, check=True)


class Site:
    """Customers, and those who answer them: `split` is the script that splits, at the space `at`, over `owners`."""

    def __init__(self, split, customers, at, owners, budget, served):
        self.split, self.customers, self.at, self.owners = split, customers, at, owners
        key = lambda address: hashlib.sha1(address.encode()).hexdigest()
        every = [*ADDRESSES, *FURTHER, LOOPBACK]
        enrolled = [(it, number, "sha1", key(it), budget if it in ADDRESSES else AMPLE) for number, it in enumerate(every, 1)]
        self.texts = {it[0]: "/".join(map(str, it[:4])) for it in enrolled}
        self.known = {it: probe.Customer(text) for it, text in self.texts.items()}
        sh("rm -rf /run/labntp-*")
        # They share it.
        judging.file_of("commands", judging.enrolments(enrolled))
        self.processes = {it: Process(space, it, listen) for it, (space, listen) in served.items()}
        for it in self.processes.values():
            it.serves()

    def run(self, words, wanted=0):
        return self.at.sh(f"scale/{self.split} {words}", wanted)

    def up(self):
        self.run(f"up {SERVICE} {' '.join(self.owners)}")

    def lookups(self):
        """The routing tables that rules of the router lead to by a mark."""
        return {*re.findall(r"fwmark \S+ lookup (\d+)", self.at.sh("ip rule"))}

    def where(self, addresses):
        told = dict(re.findall(r"(?m)^(\S+): bucket \d+, \w+ (\S+)$", self.run(f"show {' '.join(addresses)}")))
        same("addresses that it tells of", [*addresses], [*told])
        return told

    def ask(self, addresses=ADDRESSES, markers=(), form="plain", patience=judging.WAIT):
        """A query of each customer, from a port that it had not before: what each is answered. It is silence where nothing came until these
        markers had their answers, which they ask for last; without markers it is nothing where nothing came for so many seconds."""
        probe.HOST, waiting, told = SERVICE, {}, dict.fromkeys(addresses, "silence" if markers else "nothing")
        with contextlib.ExitStack() as stack, self.customers:
            for it in (*addresses, *markers):
                s = stack.enter_context(self.known[it].socket(PORT))
                packet = probe.query(self.known[it], form if it in told else "plain")
                s.send(packet)
                waiting[s] = it, packet
            due = lambda: {it for it, _ in waiting.values()} & {*(markers or addresses)}
            end = time.monotonic() + patience
            while due() and time.monotonic() < end:
                self.hear(waiting, told, 0.5)
            same("markers without an answer", set(), due() if markers else set())
            while self.hear(waiting, told, SETTLE):
                pass
        return {it: told[it] for it in addresses}

    def hear(self, waiting, told, seconds):
        """Takes what has come. Only what SERVICE has sent from PORT comes to such a socket."""
        ready = select.select([*waiting], [], [], seconds)[0]
        for s in ready:
            reply = probe.answer(s, 0)
            if reply is not None:
                it, packet = waiting.pop(s)
                told[it] = probe.kind(self.known[it], packet, reply)
        return ready

    def rounds(self, count):
        told = collections.defaultdict(list)
        for _ in range(count):
            for it, word in self.ask(markers=FURTHER).items():
                told[it].append(word)
        return told

    def all_have_time(self, **how):
        same("customers by their answers", {"time": COUNT}, dict(collections.Counter(self.ask(**how).values())))


class Process:
    """One of the daemons that share a commands file."""

    def __init__(self, space, name, listen):
        # Where the template of examples/ has the statistics of each.
        self.statistics = f"/run/labntp-{name}/labntpd.prom"
        os.makedirs(os.path.dirname(self.statistics), exist_ok=True)
        files = {it: labntpd_server.room(f"{it}.{name}") for it in ("answers", "customers")}
        text = labntpd_server.configuration(listen=listen, statistics=self.statistics, **files)
        self.space, self.name, self.listen, self.words = space, name, listen, ["--config", judging.file_of(f"{name}.toml", text)]
        self.start()

    def start(self):
        with self.space, open(labntpd_server.room(f"{self.name}.out"), "wb") as out:
            self.process = judging.start(self.words, stdout=out, stderr=subprocess.STDOUT)

    def serves(self):
        until(f"{self.name} serves", lambda: f"serving {self.listen}\n" in labntpd_server.read(f"{self.name}.out"))


@contextlib.contextmanager
def cores(budget=AMPLE):
    """A host with four processes, joined with the customers."""
    with spaces("customers", "host") as (customers, host):
        link(customers, "10.66.255.253/16", host, "10.66.255.254/16")
        place(customers, "10.66.255.254")
        sh(f"ip -n host addr add {SERVICE}/32 dev lo")
        yield Site("cores", customers, host, PORTS, budget, {it: (host, f"{SERVICE}:{it}") for it in PORTS})


@contextlib.contextmanager
def machines(budget=AMPLE):
    """Four hosts with one address, behind a router. Each of them drops what has not come by the way back to its source."""
    with spaces("customers", "router", *(f"host{it}" for it in range(4))) as (customers, router, *hosts):
        link(customers, "10.66.255.253/16", router, "10.66.255.254/16")
        place(customers, "10.66.255.254")
        router.sh("sysctl -qw net.ipv4.ip_forward=1")
        for number, (host, address) in enumerate(zip(hosts, HOSTS)):
            link(router, f"10.67.{number}.1/24", host, f"{address}/24", (f"to{number}", "eth"))
            sh(f"ip -n {host.name} addr add {SERVICE}/32 dev lo && ip -n {host.name} route add default via 10.67.{number}.1")
        for it in (router, *hosts):
            it.sh("for it in /proc/sys/net/ipv4/conf/*/rp_filter; do echo 1 >$it; done")
        yield Site("machines", customers, router, HOSTS, budget, {it: (host, f"{SERVICE}:{PORT}") for it, host in zip(HOSTS, hosts)})


@pytest.fixture
def site(request):
    """A host or hosts with such a budget for each customer."""
    kind, budget = request.param
    with kind(budget) as it:
        yield it


def at_both(budget=AMPLE):
    """Has a case made over each kind of site."""
    return pytest.mark.parametrize("site", [(cores, budget), (machines, budget)], ids=["cores", "machines"], indirect=True)


def commands(heading):
    return [line for block in own_systemd.blocks_of(text_of(PAGE), heading) for line in block.splitlines()]


# ---- Cases

BUDGET = 2
HELD = [*BUDGET * ["time"], "rate", "silence", "silence"]


def tally(told):
    return dict(collections.Counter(" ".join(it) for it in told.values()))


@at_both(BUDGET)
def test_each_customer_has_its_budget_from_whatever_port(site):
    labntpd_server.window(8)
    site.up()
    same("customers that heard each", {" ".join(HELD): COUNT}, tally(site.rounds(len(HELD))))


def is_torn(site):
    """Some customer has the time more often than its budget says."""
    labntpd_server.window(8)
    most = max(it.count("time") for it in site.rounds(BUDGET + 2).values())
    same("whether one has more than its budget", True, most > BUDGET)


def test_cores_split_by_port_give_one_more():
    """The same rules, but by address and source port."""
    with cores(BUDGET) as site:
        rules = site.run(f"--dry-run up {SERVICE} {' '.join(PORTS)}").replace("jhash ip saddr mod", "jhash ip saddr . udp sport mod")
        with site.at:
            nft("-f", "-", given=rules)
        is_torn(site)


def test_machines_split_by_port_give_one_more():
    """A router that splits by ports too, as many do."""
    with machines(BUDGET) as site:
        site.at.sh(f"sysctl -qw net.ipv4.fib_multipath_hash_policy=1; ip route add {SERVICE}/32 {' '.join(f'nexthop via {it}' for it in HOSTS)}")
        is_torn(site)


@pytest.mark.proved_alone(SLOW)
@at_both()
def test_customers_of_one_that_is_killed_alone_are_silent(site):
    site.up()
    where, gone = site.where(ADDRESSES + FURTHER), site.owners[1]
    loads = {owner: it for it, owner in where.items() if it in FURTHER}.values()
    rest = [it for it in FURTHER if where[it] != gone and it not in loads]
    with contextlib.ExitStack() as stack, site.customers:
        for number, it in enumerate(loads):
            words = [it, SERVICE, str(PORT), "2000", probe.query(site.known[it]).hex()]
            stack.enter_context(own_network.busy(words, ALLOWED[number % len(ALLOWED)]))
        site.all_have_time()
        judging.end(site.processes[gone].process)
        told = site.ask(markers=rest)
        same("who is silent", {it for it in ADDRESSES if where[it] == gone}, {it for it, word in told.items() if word == "silence"})
        same("what else was answered", {"time", "silence"}, {*told.values()})
        site.processes[gone].start()
        site.processes[gone].serves()
        site.all_have_time()


@at_both()
def test_commands_of_the_page_split(site):
    for command in commands({"cores": "Several processes on one host", "machines": "Several hosts"}[site.split]):
        if command.startswith(f"scale/{site.split} "):
            same(f"whether {command} tells something", " up " not in command, bool(site.at.sh(command)))
        elif command == f"systemctl restart labntpd@{PORTS[1]}":
            judging.end(site.processes[PORTS[1]].process)
            site.processes[PORTS[1]].start()
            site.processes[PORTS[1]].serves()
        else:
            continue
        site.all_have_time()


def exchange(site, address, received=0):
    """A query that asks about the reply with this receive stamp: what it is answered, and the receive stamp of that."""
    customer, probe.HOST = site.known[address], SERVICE
    with site.customers, customer.socket(PORT) as s:
        word, reply, _ = probe.exchange(customer, s, "plain", received, probe.now(), wait=judging.WAIT)
    assert reply is not None, f"{address} has no answer"
    return word, probe.stamps(reply)[1]


@at_both(4)
def test_nobody_is_refused_for_one_that_is_drained(site):
    """Who moves begins anew, and finds its counts when it comes back."""
    labntpd_server.window(12)
    site.up()
    gone, before = site.owners[1], site.where(ADDRESSES)
    its = {it for it in before if before[it] == gone}
    by = lambda told: tuple(tally({it: words for it, words in told.items() if (it in its) == is_its}) for is_its in (True, False))
    lists = lambda moved, others: ({moved: len(its)}, {others: COUNT - len(its)})
    same("before", lists("time time", "time time"), by(site.rounds(2)))
    at_one = {owner: it for it, owner in site.where(FURTHER).items()}
    mover, other = at_one[gone], at_one[site.owners[0]]
    saved = {it: exchange(site, it)[1] for it in (mover, other)}
    site.run(f"drain {gone}")
    same("the next replies", ["time", "interleaved"], [exchange(site, it, saved[it])[0] for it in (mover, other)])
    after = site.where(ADDRESSES)
    same("who moves", its, {it for it in before if before[it] != after[it]})
    same("who still comes to it", set(), {it for it in after if after[it] == gone})
    same("while it is drained", lists("time time", "time time"), by(site.rounds(2)))
    same("past a budget of 4", lists("time time rate", "rate silence silence"), by(site.rounds(3)))
    site.run(f"add {gone}")
    same("where all are again", before, site.where(ADDRESSES))
    same("back again", lists("time time rate", "silence silence silence"), by(site.rounds(3)))


@at_both()
def test_customers_are_answered_while_one_is_drained_and_added(site):
    site.up()
    for job in ("drain", "add"):
        with site.at:
            process = subprocess.Popen([f"{TOP}/scale/{site.split}", job, site.owners[2]], stdin=subprocess.DEVNULL, stdout=subprocess.DEVNULL)
        while process.poll() is None:
            site.all_have_time()
        same(f"the status of {job}", 0, process.returncode)
        site.all_have_time()


def test_cores_that_are_added_get_who_moves():
    with cores() as site:
        site.up()
        before, new = site.where(ADDRESSES), "12305"
        site.processes[new] = Process(site.at, new, f"{SERVICE}:{new}")
        site.processes[new].serves()
        same("what is told", "51 of 256 buckets move", site.run(f"add {new}").partition(";")[0])
        after = site.where(ADDRESSES)
        same("where those are who moved", {new}, {after[it] for it in ADDRESSES if before[it] != after[it]})
        site.all_have_time()


def test_cores_get_nothing_past_the_split():
    """Nothing comes to a process but by the split. A filter behind it sees the ports of processes, and no connection that is tracked."""
    with cores() as site:
        site.up()
        customer = site.known[ADDRESSES[0]]
        with site.customers, probe.bound(host=customer.address) as s:
            for port in PORTS:
                s.sendto(probe.query(customer), (SERVICE, int(port)))
            site.ask(markers=FURTHER)
            # Whatever comes, from wherever.
            same("what comes of queries to the processes' own ports", None, probe.answer(s, SETTLE))
        with site.at:
            accept = f"ip daddr {SERVICE} udp dport {{ {', '.join(PORTS)} }} ct state untracked accept"
            nft("-f", "-", given=f"table ip filter {{ chain in {{ type filter hook input priority 0; {accept}; ip daddr {SERVICE} drop; }}; }}")
        site.all_have_time()
        probe.HOST = SERVICE
        with site.at:
            same("what a customer on the host is answered", "time", probe.ask(PORT, "plain", site.texts[LOOPBACK]))
        same("connections", "0", site.at.sh("cat /proc/sys/net/netfilter/nf_conntrack_count"))


@at_both()
def test_fragments_come_to_one(site):
    site.up()
    sh("ip -n customers link set eth mtu 600")
    site.all_have_time(form="field-1024")
    counted = dict(zip(*map(str.split, site.customers.sh("grep ^Ip: /proc/net/snmp").splitlines())))
    same("fragments", 2 * COUNT, int(counted["FragCreates"]))


@at_both()
def test_flood_behind_the_door_takes_hardly_an_answer(site):
    site.up()
    with site.at:
        table = own_network.load_door(LABNTPCTL, *next(iter(site.processes.values())).words, "--address", f"{SERVICE}:{PORT}")
    flooder, *others = ADDRESSES
    site.all_have_time()
    words = [flooder, SERVICE, str(PORT), "400000", probe.query(site.known[flooder]).hex()]
    dropped = lambda: int(re.search(r"packets (\d+)", site.at.sh(f"nft list chain inet {table} queries").rpartition("limit")[2])[1])
    with site.customers, own_network.busy(words, ALLOWED[0]):
        time.sleep(0.3)
        before, begun, told = dropped(), time.monotonic(), collections.Counter()
        while time.monotonic() < begun + 3 or sum(told.values()) < 5000:
            told.update(site.ask(others, patience=2).values())
        given = (dropped() - before) / (time.monotonic() - begun)
    print(f"flood: {given:,.0f} datagrams a second were dropped at the door; others were answered {dict(told)}", flush=True)
    same("whether 999 in 1,000 have the time", True, told["time"] >= 0.999 * sum(told.values()))


def test_machines_split_by_equal_cost_routes_of_a_router():
    """The page's commands for a router that has no rules of ours: each customer comes to one host, from whatever port."""
    with machines(BUDGET) as site:
        for it in commands("Several hosts"):
            if it.startswith(("sysctl", "ip ")):
                site.at.sh(it)
        labntpd_server.window(8)
        same("customers that heard each", {" ".join(HELD): COUNT}, tally(site.rounds(len(HELD))))
        way = lambda: {it: re.search(r"via (\S+)", site.at.sh(f"ip route get {SERVICE} from {it} iif eth"))[1] for it in ADDRESSES[:64]}
        before = way()
        same("hosts that customers come to", {*HOSTS}, {*before.values()})
        sh("ip -n router link set to1 down")
        after = way()
        same("whether others move too", True, any(before[it] not in (HOSTS[1], after[it]) for it in before))


def test_machines_whose_link_goes_down_and_comes_back():
    """The customers of a host whose link goes down come to others by the main table; nobody else moves. It comes back by `add`."""
    with machines(BUDGET) as site:
        labntpd_server.window(12)
        site.up()
        where, gone = site.where(ADDRESSES), HOSTS[1]
        its = [it for it in ADDRESSES if where[it] == gone]
        sh("ip -n router link set to1 down")
        same("what is told", True, f"{gone}: 64 of 256 buckets, no route" in site.run("show").splitlines())
        site.all_have_time()
        sh("ip -n router link set to1 up")
        same("what moves", "0 of 256 buckets move", site.run(f"add {gone}"))
        same("who counts anew", {"time time": len(its), "time rate": COUNT - len(its)}, tally(site.rounds(2)))
        sh("ip -n router link set to2 down")
        site.run(f"up {SERVICE} {HOSTS[0]} {HOSTS[3]}")
        same("lookups that are left", {str(int(ipaddress.ip_address(it))) for it in (HOSTS[0], HOSTS[3])}, site.lookups())
        sh("ip -n router link set to3 down")
        site.run("down")
        same("lookups that are left", set(), site.lookups())


def test_machines_split_again():
    """Behind the router a host splits again: its customers come to all of its processes, and by the router's seed they would come to one."""
    with machines() as site:
        site.up()
        its = [it for it, owner in site.where(ADDRESSES).items() if owner == HOSTS[0]]
        host, router_seed = site.processes[HOSTS[0]].space, re.search(r"seed (\d+)", site.run("show"))[1]
        for seed, wanted in (("", {*PORTS}), (f"--seed {router_seed}", {PORTS[0]})):
            host.sh(f"scale/cores {seed} up {SERVICE} {' '.join(PORTS)}")
            same(f"processes that they come to {seed}", wanted, {*re.findall(r"process (\d+)", host.sh(f"scale/cores show {' '.join(its)}"))})


@at_both()
def test_nothing_stays(site):
    look = lambda: site.at.sh("nft list ruleset; ip -4 rule; ip -4 route show table all")
    before, words = look(), f"up {SERVICE} {' '.join(site.owners)}"
    rules = site.run(f"--dry-run {words}")
    same("what that changes", before, look())
    for _ in range(2):
        site.up()
        loaded = look()
        with site.at:
            nft("-f", "-", given=rules)
        same("what the rules that were printed change", loaded, look())
    site.run("down")
    same("what stays", before, look())
    one = site.owners[0]
    for words in ("down", "show", f"drain {one}", f"add {one}"):
        same(words, f"{site.split}: nothing is split here", site.run(words, 1))
    for words in ("x", f"{one} {one}", PORT if site.split == "cores" else SERVICE):
        site.run(f"up {SERVICE} {words}", 1)
    for words in ("", "other", "up", f"up {SERVICE}", "drain", "--seed x show"):
        site.run(words, 2)
    same("whether the help has examples", True, "Examples:\n" in site.run("--help"))
    same("what else stays", before, look())


def test_cores_have_statistics_each_with_its_process():
    with cores() as site:
        folder = f"{judging.ROOM}/textfiles"
        os.makedirs(folder, exist_ok=True)
        until("all have written theirs", lambda: all(os.path.exists(it.statistics) for it in site.processes.values()))
        (command,) = commands("Several processes on one host")[-1:]
        sh(command.replace("/var/lib/prometheus/node-exporter", folder))
        same("files", sorted(f"{it}-labntpd.prom" for it in site.processes), sorted(os.listdir(folder)))
        for name, process in site.processes.items():
            path = f"{folder}/{name}-labntpd.prom"
            with open(path) as made, open(process.statistics) as own:
                text, wanted = made.read(), own.read()
            numbers = [it for it in text.splitlines() if it[0] != "#"]
            same("numbers without the label", [], [it for it in numbers if not re.match(rf'labntp_\w+{{process="{name}"[,}}]', it)])
            same("the rest", wanted, text.replace(f'{{process="{name}",', "{").replace(f'{{process="{name}"}}', ""))
            same("its age", os.stat(process.statistics).st_mtime_ns, os.stat(path).st_mtime_ns)


# ---- Measured

# `asks TARGET PORT SECONDS`, with `SOURCE HEX` in each line of standard input: every source sends its datagram again as soon as it has an
# answer, or after a tenth of a second. Prints how many answers came.
ASKS = r"""
#define MOST 256

static struct asker { int s, length; double sent; unsigned char octets[128]; } askers[MOST];

static void ask(struct asker *it) {
  it->sent = now();
  send(it->s, it->octets, it->length, MSG_DONTWAIT);
}

int main(int words, char **word) {
  struct sockaddr_in source = {.sin_family = AF_INET}, target = {.sin_family = AF_INET, .sin_port = htons(atoi(word[2]))};
  char text[32], hex[300];
  unsigned char reply[2048];
  struct epoll_event ready[MOST];
  int count = 0, queue = epoll_create1(0);
  long answers = 0;
  inet_pton(AF_INET, word[1], &target.sin_addr);
  for (; count < MOST && scanf("%31s %299s", text, hex) == 2; count++) {
    struct asker *it = &askers[count];
    inet_pton(AF_INET, text, &source.sin_addr);
    for (; hex[2 * it->length]; it->length++)
      sscanf(hex + 2 * it->length, "%2hhx", &it->octets[it->length]);
    it->s = socket(AF_INET, SOCK_DGRAM, 0);
    if (bind(it->s, (struct sockaddr *)&source, sizeof source) || connect(it->s, (struct sockaddr *)&target, sizeof target))
      return 1;
    struct epoll_event event = {.events = EPOLLIN, .data.ptr = it};
    epoll_ctl(queue, EPOLL_CTL_ADD, it->s, &event);
    ask(it);
  }
  double end = now() + atof(word[3]), looked = now();
  while (now() < end) {
    int many = epoll_wait(queue, ready, MOST, 10);
    for (int i = 0; i < many; i++) {
      struct asker *it = ready[i].data.ptr;
      if (recv(it->s, reply, sizeof reply, MSG_DONTWAIT) == 72)
        answers++;
      ask(it);
    }
    if (now() - looked > 0.1) {
      looked = now();
      for (int i = 0; i < count; i++)
        if (looked - askers[i].sent > 0.1)
          ask(&askers[i]);
    }
  }
  printf("%ld\n", answers);
}
"""


def chronyd_over(site):
    """chronyd at the split's own address and port, with all keys; it answers where nothing is split."""
    keys = "".join(f"{number} SHA1 HEX:{key}\n" for _, number, _, key in (text.split("/") for text in site.texts.values()))
    with site.at:
        words = labntpd_server.chronyd_at(PORT, "chrony", "local stratum 1", keys=keys, address=SERVICE, allowed=("all",))
        return labntpd_server.begin(words)


def measured(site, processes, lines, seconds):
    """How many queries of all were answered in a second, and how long one took a processor in these processes, in microseconds."""
    used = lambda: sum(labntpd_server.scheduled(it)[0] for it in processes)
    before = used()
    with site.customers:
        words = ["taskset", "-c", str(ALLOWED[-1]), f"{judging.ROOM}/asks", SERVICE, str(PORT), str(seconds)]
        told = int(subprocess.run(words, input=lines, stdout=subprocess.PIPE, text=True, check=True).stdout)
    return told / seconds, (used() - before) / told * 1e6


@pytest.mark.table
def test_table(runs=10, seconds=3):
    """Measures in turns queries a second through one, two and three processes, each on a processor of its own, and through chronyd; the one who
    asks has the last processor. Prints the machine's load beside each run, and then the medians."""
    own_network.compiled(ASKS, "asks")
    found = {it: [] for it in ("1", "2", "3", "chronyd")}
    with cores() as site:
        lines = "".join(f"{it} {probe.query(site.known[it]).hex()}\n" for it in ADDRESSES)
        all_of_us = [it.process for it in site.processes.values()]
        chronyd = chronyd_over(site)
        for number, it in enumerate([*all_of_us, chronyd]):
            os.sched_setaffinity(it.pid, {ALLOWED[number % len(all_of_us) % (len(ALLOWED) - 1)]})
        # Once each, so that nothing is done for the first time.
        for run in range(-1, runs):
            for name, rows in found.items():
                if name == "chronyd":
                    site.run("down")
                    row = measured(site, [chronyd], lines, seconds)
                else:
                    site.run(f"up {SERVICE} {' '.join(PORTS[: int(name)])}")
                    row = measured(site, all_of_us[: int(name)], lines, seconds)
                rows += [row] if run >= 0 else []
            if run >= 0:
                print(f"run {run + 1}, load {os.getloadavg()[0]:.1f}: {', '.join(f'{it} {rows[-1][0]:,.0f}' for it, rows in found.items())}", flush=True)
        for it in [*judging.started]:
            judging.end(it)
    print("\n| Processes | Queries a second: median | least | most | Processor time of a query, µs |")
    print("|---|---:|---:|---:|---:|")
    for name, rows in found.items():
        rates, costs = zip(*rows)
        print(f"| {name} | {statistics.median(rates):,.0f} | {min(rates):,.0f} | {max(rates):,.0f} | {statistics.median(costs):.1f} |")
