"""Runs commands of the pages, in a copy of the repository, with a home for each case, at free ports of 127.0.0.1.

The built programs stand in for ./try there. It needs neither root nor the toolchain. Cases that want a missing program (chronyd on the path or
below $PEERS, git, jq, rt) are passed over.
"""
import contextlib
import importlib.machinery
import importlib.util
import json
import os
import pathlib
import re
import shutil
import signal
import subprocess
import tempfile
import textwrap

import pytest

import judging
import probe
from judging import SLOW, TOP, PassedOver, needs, same, until

loader = importlib.machinery.SourceFileLoader("pages_script", f"{TOP}/tests/pages")
loader.exec_module(checks := importlib.util.module_from_spec(importlib.util.spec_from_loader(loader.name, loader)))
FENCED, FIVE_MINUTES, PAGE, of_page, pages, section = checks.FENCED, checks.FIVE_MINUTES, checks.PAGE, checks.of_page, checks.pages, checks.section
MASK = 0o022
# The longest that a command takes, and that a file or an answer is waited for, in seconds; and customers.
COMMAND_LIMIT, SOON = 60, 60
HERE = "127.0.0.1/9/sha1/6c61626e74702d6578616d706c652d6b65792d39"
ROLLED = "127.0.0.1 11 sha1 1f8b6b1c0e3f5a7d9c2b4e6f8a0d1c3e5b7f9a2d"


def says(page, *texts):
    """The page says this, wherever its lines end."""
    for words in texts:
        assert words in " ".join(pages()[page].split()), f"{page} does not say: {words}"


class Place:
    """A home and a port of a case: paths and ports of commands are those here."""

    def __init__(self):
        self.home, self.port = tempfile.mkdtemp(dir=judging.ROOM), probe.free_port()
        # Nothing of the host's settings, and of a git that calls this, has a say.
        kept = {name: it for name, it in os.environ.items() if not name.startswith("GIT_")}
        own = {"HOME": self.home, "LC_ALL": "C.UTF-8", "GIT_CONFIG_GLOBAL": "/dev/null", "GIT_CONFIG_NOSYSTEM": "1"}
        self.how = {"env": kept | own, "cwd": COPY, "stdin": subprocess.DEVNULL, "stderr": subprocess.STDOUT}

    def here(self, command, words):
        ports = {"20123": f"{self.port}", "20124": f"{self.port}", ":123'": f":{self.port}'"}
        for old, new in ({"/var/lib/labntp/": f"{self.home}/labntp/"} | ports | words).items():
            command = command.replace(old, new)
        return command

    def do(self, *commands, **words):
        """What commands print, of which each has to end well."""
        command = self.here(" && ".join(commands), words)
        ran = subprocess.run(["sh", "-ec", command], timeout=COMMAND_LIMIT, stdout=subprocess.PIPE, text=True, **self.how)
        assert not ran.returncode, f"{command!r} ended with {ran.returncode}: {ran.stdout.strip()[-300:]}"
        return ran.stdout.strip()

    @contextlib.contextmanager
    def serving(self, command, **words):
        """While a command serves, which says so; it ends by Ctrl-C, or else before."""
        with open(f"{self.home}/said", "w") as it:
            process = subprocess.Popen(["sh", "-ec", f"exec {self.here(command, words)}"], stdout=it, **self.how)
        judging.started.append(process)
        serves = lambda: f"serving 127.0.0.1:{self.port}\n" in self.read("said")
        until("it serves", lambda: serves() or process.poll() is not None, SOON)
        assert serves(), f"{command} ended with {process.returncode}: {self.read('said')[-300:]}"
        yield
        process.send_signal(signal.SIGINT)
        process.wait(SOON)

    def read(self, name):
        try:
            return pathlib.Path(f"{self.home}/{name}").read_text()
        except FileNotFoundError:
            return ""

    def append(self, name, *lines):
        with open(f"{self.home}/labntp/{name}", "a") as it:
            it.writelines(f"{line}\n" for line in lines)

    def answers(self, *lines):
        until(f"the answers {', '.join(lines)}", lambda: {*lines} <= {*self.read("labntp/answers").splitlines()}, SOON)

    def tells_time(self, customer=HERE):
        until("the time", lambda: probe.ask(self.port, "plain", customer) == "time", SOON)


@pytest.fixture(scope="module", autouse=True)
def copy_of_all(room):
    """A copy of the repository, without what was built; what builds a program there first, or compiles it, runs the built one."""
    global COPY
    COPY, names = f"{judging.ROOM}/copy", ("labntpd", "labntp", "labntpctl")
    shutil.copytree(TOP, COPY, symlinks=True, ignore=shutil.ignore_patterns("out", ".git", "__pycache__"))
    stands_in = {name: f'exec "{path}" "$@"' for name, path in zip(names, judging.built(*names))}
    for name, words in {**stands_in, "try": 'program=$1\nshift\nexec "$(dirname "$0")/$program" "$@"'}.items():
        pathlib.Path(f"{COPY}/{name}").write_text(f"#!/bin/sh\n{words}\n")
    if shutil.which("git"):
        Place().do("git init -q && git add -A")


@contextlib.contextmanager
def five_minutes():
    """While the customer of the page is served, with the commands behind those for a server and a customer."""
    place = Place()
    (*before, serve), (enrol,), behind = section(FIVE_MINUTES)
    place.do("\n".join(before))
    with place.serving(serve):
        says(PAGE, "Its last line is `line 2: done`")
        same("its last line", "line 2: done", place.do(enrol).splitlines()[-1])
        number, algorithm, key = re.search(r"(?m)^(\d+) (\S+) HEX:(\S+)$", place.read("labntp/chrony.keys")).groups()
        place.customer = f"127.0.0.1/{number}/{algorithm.lower()}/{key.lower()}"
        yield place, behind


def test_readme_has_a_configuration_checked_and_served_by():
    """`--check` says `ok` alone; each way to serve tells the time to a customer, until Ctrl-C."""
    says("README.md", "prints `ok`", "serves until Ctrl-C")
    for serve in (of_page("./labntpd --config FILE"), of_page("./try labntpd --config FILE")):
        place = Place()
        place.do("\n".join(section(FIVE_MINUTES)[0][:-1]))
        place.do("cat examples/commands >>~/labntp/commands")
        file = f"{place.home}/labntp/labntpd.toml"
        same("--check", "ok", place.do(of_page("./labntpd --check --config FILE"), FILE=file))
        with place.serving(serve, FILE=file):
            place.tells_time()


def prints(command, pattern):
    printed = Place().do(command)
    same(f"whether {command} prints {pattern}: {printed[:300]}", True, bool(re.fullmatch(pattern, printed)))


@pytest.mark.proved_alone(SLOW)
def test_testing_and_performance_have_the_version_and_a_run_of_each_row():
    """The commands of bench/ say how they are used; where it can be made, a short run has a figure in each row."""
    prints(of_page("./labntpd --version"), r"labntpd \S+")
    place = Place()
    for it in ("run", "truth"):
        same(f"the help of bench/{it}", f"usage: bench/{it}", " ".join(place.do(f"bench/{it} --help").split()[:2]))
    needs("gcc", "taskset")
    if not os.path.exists("/usr/include/openssl/md5.h"):
        raise PassedOver("there are no headers of OpenSSL")
    printed = place.do(f"bench/run --labntpd {COPY}/labntpd --servers labntpd --datagrams 1000 --seconds 0")
    same(f"rows with a figure: {printed}", 8, len(re.findall(r"(?m)^\| [^|]+ \| [\d.]+ \(", printed)))


def test_readme_has_scripts_and_a_loopback():
    says("README.md", "a budget of one: the time, RATE, silence, and the time again")
    says("README.md", "an interleaved reply, which tells when the previous left", "prints `basic`, then `interleaved` three times")
    prints(of_page("./labntp replay < examples/budget.script"), "done.*\ntime.*\nrate.*\nsilent.*\ntime.*")
    prints(of_page("./labntp replay < examples/interleaved.script"), "done.*\ntime.*\nnoted.*\ntime(?s:.*)")
    prints(of_page("./labntp loopback --turns 4"), "basic(\ninterleaved){3}")


def test_readme_names_the_toolchain():
    """The logic is that of the page, and no source is formed otherwise."""
    needs("rt", "git")
    place = Place()
    says("README.md", f"logic `{place.do(of_page('rt version')).split()[-1]}`")
    place.do(of_page("cd crates/ntp_reply"), of_page("rt fmt"))
    same("files that were formed anew", "", place.do("git diff --name-only"))


def test_contributing_has_a_mistake_and_what_is_drawn_and_counted():
    """The page's mistake is among the wrong bodies; it is taken back; and what is drawn and counted is what the pages have."""
    needs("git")
    place, folder = Place(), f"{COPY}/crates/ntp_packet"
    (text,) = [it for _, kind, it in FENCED.findall(pages()["CONTRIBUTING.md"]) if kind == "text" and "file: " in it]
    text = textwrap.dedent(text)
    there = [open(f"{folder}/wrong-bodies/{it}").read().strip() for it in os.listdir(f"{folder}/wrong-bodies")]
    same("whether it is there already", True, text.strip() in there)
    file, old, new = re.fullmatch(r"file: (.*)\nold: (.*)\nnew: (.*)\n", text).groups()
    with open(f"{folder}/{file}", "r+") as it:
        source = it.read()
        it.seek(0)
        it.write(source.replace(old, new))
        it.truncate()
    same("the file with the mistake", f"crates/ntp_packet/{file}", place.do("git diff --name-only"))
    place.do(of_page("cd crates/ntp_packet"), of_page("git checkout src/moment.rt"), of_page("cd ../.."))
    place.do(of_page("tools/crates --write"), of_page("tools/belief --write"))
    same("files that are otherwise now", "", place.do("git diff --name-only"))
    checked = place.do(of_page("tests/pages --check")).splitlines()
    same("lines of --check that are not ok", [], [it for it in checked if not it.startswith("ok ")])


def test_contributing_has_git_find_what_to_change():
    needs("git")
    numbers = of_page('git grep -nE "[Ee]ight|\\bnine ..'), of_page('git grep -niE "most_keys|room-full ..')
    others = of_page('git grep -nE "64[ -]second"'), of_page("git grep -nwF 0.2.0")
    for command in (*numbers, *others, of_page('git grep -niE "sha-?1"'), of_page('git grep -nE "IPv[46]|AddrV4|AF_INET ..')):
        pages_with = {line.partition(":")[0] for line in Place().do(command).splitlines()}
        same(f"whether {command} finds more than itself", True, len(pages_with) > 1)


def test_operations_leads_to_a_first_customer():
    with five_minutes() as (place, _):
        place.tells_time(place.customer)


def test_operations_has_chronyd_as_that_customer():
    below = f"{os.environ.get('PEERS')}/chrony/usr/sbin"
    chronyd = shutil.which("chronyd", path=f"{below}:{os.environ.get('PATH', '')}:/usr/sbin")
    if not chronyd:
        raise PassedOver("there is no chronyd")
    says(PAGE, "prints `System clock wrong by 0.000078 seconds (ignored)`, or another small number")
    with five_minutes() as (place, (copy, ask, look)):
        place.do(copy, **{"/usr/sbin/chronyd": chronyd})
        said = place.do(ask)
        is_told = re.search(r"System clock wrong by -?[\d.]+ seconds \(ignored\)", said)
        same(f"whether it has the time: {said[-200:]}", True, bool(is_told))
        counted = r'mode="(?:basic|interleaved)"} [1-9]'
        until("both in the statistics", lambda: len(re.findall(counted, place.do(look))) == 2, SOON)


def test_operations_asks_files_and_the_socket():
    needs("openssl", "ss", "od")
    with five_minutes() as (place, _):
        same("the last octet", "\\n", place.do(of_page("tail -c 1 /var/lib/labntp/commands | od -An -c")))
        place.append("new", "budget 127.0.0.1 50")
        place.do("cd ~/labntp", of_page("cat new >>commands"))
        place.answers("3 done")
        place.append("commands", "budget 127.0.0.10 50")
        place.answers("4 refused not-enrolled")
        its = place.do(of_page("awk -v a=ADDRESS .."), ADDRESS="127.0.0.1").splitlines()
        same("the lines of that address alone, each behind its comment", ["#", "2", "#", "3"], [it[0] for it in its])
        there = {"192.0.2.10": "127.0.0.1", "old.keys": f"{place.home}/old.keys"}
        place.do(of_page("install -m 600 /dev/null old.keys"), of_page("awk -v a=192.0.2.10 .."), **there)
        _, number, algorithm, key = place.customer.split("/")
        same("its old key", f"{number} {algorithm} hex:{key}\n", place.read("old.keys").lower())
        there = {"/run/labntp/": f"{place.home}/labntp/"}
        same("those that failed", "4 refused not-enrolled", place.do(of_page("grep -v done /run/labntp/answers"), **there))
        clock = place.do(of_page("grep labntp_clock /run/labntp/labntpd.prom"), **there)
        same("the stratum", True, "labntp_clock_stratum 1" in clock.splitlines())
        same("whether it is a key", True, bool(re.fullmatch("[0-9a-f]{40}", place.do(of_page("openssl rand -hex 20")))))
        text = place.do(of_page("openssl rand -base64 12 | tr +/ _-"))
        same("whether it is a key of text", True, bool(re.fullmatch("[A-Za-z0-9_-]{16}", text)))
        same("the kernel's count", 1, len(re.findall(r"skmem:\(.*,d\d+\)", place.do(of_page("ss -lunm 'sport = :123'")))))
    commands, check = f"{place.home}/labntp/commands", "./labntpd --check --config ~/labntp/labntpd.toml"
    os.chmod(commands, 0o644)
    same("whether it is told", True, "others than its owner and group may use it" in place.do(check))
    place.do(of_page("chmod o= PATH"), PATH=commands)
    same("--check", "ok", place.do(check))


def test_operations_asks_the_customers_file():
    needs("jq")
    with five_minutes() as (place, _):
        place.append("commands", "budget 127.0.0.1 1", f"rollover {ROLLED}", "enrol 192.0.2.10 7 md5 6b6579 10")
        place.answers("3 done", "4 done", "5 done")
        file, asking, there = f"{place.home}/labntp/customers", probe.Customer(place.customer), {"/run/labntp/": f"{place.home}/labntp/"}
        lines = lambda command: place.do(command, FILE=file, **there).splitlines()

        def is_told():
            # Sent again, since a busy host may drop some; and a command has the file written soon.
            with asking.socket(place.port) as s:
                for form in ("wrong", "plain", "plain", "plain"):
                    s.send(probe.query(asking, form))
            place.append("commands", "budget 127.0.0.1 1")
            spent, wrong = of_page("jq -r 'select(.answers.\"over-budget\" .."), of_page("jq -r 'select(.answers.nak > 0) ..")
            return "127.0.0.1" in lines(spent) and "127.0.0.1" in [it.split()[0] for it in lines(wrong)]

        until("the file", lambda: os.path.exists(file), SOON)
        until("both counts", is_told, SOON)
        same("with two keys", ["127.0.0.1"], lines(of_page("jq -r 'select(.keys | length == 2) ..")))
        same("with a short key", True, "192.0.2.10" in lines(of_page("jq -r 'select(any(.keys[]; .octets < 16)) ..")))
        same("silent for a week", ["192.0.2.10"], lines(of_page("jq -r --argjson t ..")))
        same("with number 7", ["192.0.2.10"], lines(of_page("jq -r 'select(any(.keys[]; .number == 7)) ..")))
        of_one = place.do(of_page("jq 'select(.address == \"192.0.2.10\") .."), FILE=file)
        same("the key of one", [7], [it["number"] for it in json.loads(of_one)])
        same("how many numbers are held", "3", place.do(of_page("jq -s 'map(.keys | length) | add' /run/labntp/customers"), **there))


def test_questions_has_an_export_for_chrony():
    place, there = Place(), {"chrony.keys": "keys", "conf.d/customers.conf": "allowed"}
    (text,) = [it for _, kind, it in FENCED.findall(pages()["docs/FORMATS.md"]) if kind == "toml"]
    pathlib.Path(f"{place.home}/customers.toml").write_text(text)
    at_home = {f"/etc/chrony/{old}": f"{place.home}/{new}" for old, new in there.items()}
    place.do("cd", of_page("awk '!/^name/ .."), of_page("sed -n 's/^address .."), **at_home)
    numbers = re.findall(r"number = (\d+)", text)
    same("the keys", [f"{it} SHA1 HEX:" for it in numbers], re.findall(r"(?m)^.*:(?=[0-9a-f]{40}$)", place.read("keys")))
    same("the addresses", re.findall(r'address = "(.*)"', text), re.findall(r"(?m)^allow (.*)$", place.read("allowed")))


def test_formats_has_labntp_serve():
    """With the commands of examples/."""
    place = Place()
    place.do("mkdir ~/labntp; cp examples/commands ~/labntp")
    with place.serving(of_page("./labntp serve --register examples/register.toml ..")):
        place.tells_time()
