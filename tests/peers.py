"""Other servers and clients, which stand beside ours in tests and in bench/: those on the path, or Debian's packages, fetched for a while."""
import contextlib
import glob
import os
import re
import shutil
import subprocess
import sys
import tempfile
import time

from judging import PassedOver

# The packages of the clients, of other servers, of promtool, of nft and of AppArmor's parser, and in which folder each is unpacked.
PACKAGES = {"chrony": "chrony", "prometheus": "prometheus", "ntpsec-ntpdig": "ntpsec", "python3-ntp": "ntpsec"}
PACKAGES |= {"ntpsec": "ntpsec", "openntpd": "openntpd", "apparmor": "apparmor"}
PACKAGES |= {it: "nftables" for it in ("nftables", "libnftables1", "libnftnl11", "libmnl0", "libjansson4", "libxtables12", "libedit2", "libbsd0", "libmd0", "libgmp10")}
FETCH_LIMIT = 120
PYTEST = "pytest pytest-xdist pytest-timeout pluggy iniconfig packaging execnet apipkg attr hypothesis sortedcontainers".split()
IMPORTS_PYTEST = [sys.executable, "-c", "import hypothesis, pytest, pytest_timeout, xdist"]


def answers(words, environment):
    """Whether a client starts here: unpacked without the packages that it depends on it may not."""
    how = {"stdin": subprocess.DEVNULL, "stdout": subprocess.DEVNULL, "stderr": subprocess.DEVNULL}
    try:
        return subprocess.run(words, env=environment, timeout=60, **how).returncode == 0
    except (OSError, subprocess.TimeoutExpired):
        return False


def apt_get(folder, seconds, *words):
    """Runs apt-get, with its lists and what it fetches in a folder alone, and returns why it failed, if it did."""
    places = [f"Dir::State::Lists={folder}/lists", f"Dir::Cache={folder}/cache", "APT::Sandbox::User=root"]
    how = {"cwd": folder, "stdin": subprocess.DEVNULL, "stdout": subprocess.PIPE, "stderr": subprocess.STDOUT, "text": True, "errors": "replace"}
    try:
        ran = subprocess.run(["apt-get", "-q", *(it for place in places for it in ("-o", place)), *words], timeout=max(1, seconds), **how)
        return ran.stdout.strip().split("\n")[-1] if ran.returncode else ""
    except FileNotFoundError:
        return "there is no apt-get"
    except subprocess.TimeoutExpired:
        return f"not within {FETCH_LIMIT} seconds"


def cache():
    return f"{os.environ.get('XDG_CACHE_HOME') or os.path.expanduser('~/.cache')}/labntp"


def pytest_path():
    """What is to stand in front of Python's path for pytest with its plugins; nothing where it cannot be had."""
    kept = f"{cache()}/pytest"
    modules = f"{kept}/usr/lib/python3/dist-packages"
    environment = {**os.environ, "PYTHONPATH": modules, "PYTHONDONTWRITEBYTECODE": "1"}
    if answers(IMPORTS_PYTEST, os.environ):
        return [""]
    if not answers(IMPORTS_PYTEST, environment):
        os.makedirs(cache(), exist_ok=True)
        print("fetching Debian's packages of pytest", flush=True)
        with tempfile.TemporaryDirectory(prefix="fetched-", dir=cache()) as folder:
            if why := lists(folder) or apt_get(folder, FETCH_LIMIT, "download", *(f"python3-{it}" for it in PYTEST)):
                print(f"they were not fetched: {why}", flush=True)
            for file in glob.glob(f"{glob.escape(folder)}/*.deb") if not why else ():
                subprocess.run(["dpkg", "-x", file, f"{folder}/unpacked"], stdin=subprocess.DEVNULL, timeout=60, check=True)
            # What is there does not start, or another has put it there meanwhile.
            with contextlib.suppress(OSError):
                if not why:
                    shutil.rmtree(kept, ignore_errors=True)
                os.rename(f"{folder}/unpacked", kept)
    return [modules] if answers(IMPORTS_PYTEST, environment) else []


def lists(folder):
    """Has apt-get's lists in a folder, and tells why that failed, if it did."""
    for part in ("lists/partial", "cache/archives/partial"):
        os.makedirs(f"{folder}/{part}")
    return apt_get(folder, FETCH_LIMIT, "update")


def fetch(folder, packages):
    """Unpacks Debian's packages there, each in its folder, the library of ntpdig beside its modules."""
    end = time.monotonic() + FETCH_LIMIT
    why = lists(folder)
    # All at once, or else one by one, up to one that is not there.
    if why or apt_get(folder, end - time.monotonic(), "download", *packages):
        for package in packages:
            if why := why or apt_get(folder, end - time.monotonic(), "download", package):
                print(f"{package} was not fetched: {why}", flush=True)
    for package in packages:
        for file in glob.glob(f"{glob.escape(folder)}/{package}_*.deb"):
            subprocess.run(["dpkg", "-x", file, f"{folder}/{PACKAGES[package]}"], stdin=subprocess.DEVNULL, timeout=60)
    for file in glob.glob(f"{glob.escape(folder)}/ntpsec/usr/lib/*-linux-gnu/ntp/libntpc.so*"):
        with contextlib.suppress(OSError):
            shutil.copy(file, f"{folder}/ntpsec/usr/lib/python3/dist-packages/ntp/", follow_symlinks=False)
    # What does not start is not left there, so that its cases are passed over.
    environment = {**os.environ, "PYTHONPATH": f"{folder}/ntpsec/usr/lib/python3/dist-packages"}
    for file, word in (("chrony/usr/sbin/chronyd", "--version"), ("ntpsec/usr/bin/ntpdig", "--version"), ("prometheus/usr/bin/promtool", "--version")):
        if os.path.exists(f"{folder}/{file}") and not answers([f"{folder}/{file}", word], environment):
            print(f"{os.path.basename(file)} was fetched and does not start here", flush=True)
            os.remove(f"{folder}/{file}")


@contextlib.contextmanager
def fetched(programs, packages=PACKAGES):
    """Has in $PEERS a folder with these packages meanwhile, unless it names one, or all of these programs are on the path."""
    path = os.environ.get("PATH", os.defpath) + ":/usr/sbin"
    if os.environ.get("PEERS") or all(shutil.which(it, path=path) for it in programs):
        yield
        return
    with tempfile.TemporaryDirectory(prefix="peers-") as folder:
        os.chmod(folder, 0o755)
        fetch(folder, packages)
        os.environ["PEERS"] = folder
        try:
            yield
        finally:
            del os.environ["PEERS"]


def tool(folder, name, mark=""):
    """A program of a package, and what it says to `--version`: from its folder below $PEERS, else from the path. Two servers have one name, so
    what it says has to have a mark."""
    peers = os.environ.get("PEERS")
    below = [f"{peers}/{folder}/usr/{it}/{name}" for it in ("sbin", "bin")] if peers else []
    how = {"stdin": subprocess.DEVNULL, "stdout": subprocess.PIPE, "stderr": subprocess.STDOUT, "text": True, "errors": "replace"}
    for it in filter(None, [*below, shutil.which(name, path=f"{os.environ.get('PATH', '')}:/usr/sbin:/usr/local/sbin")]):
        with contextlib.suppress(OSError, subprocess.TimeoutExpired):
            said = subprocess.run([it, "--version"], timeout=10, **how).stdout
            if mark in said:
                return it, said
    raise PassedOver(f"there is no {name} of {folder}")


def ntpdig(port, *words):
    """The words that have ntpdig ask at a port, by tests/probe.py, since it knows none but 123; and the environment that it wants."""
    found, _ = tool("ntpsec", "ntpdig")
    below = f"{os.environ.get('PEERS')}/ntpsec/usr"
    library = {"PYTHONPATH": f"{below}/lib/python3/dist-packages"} if found.startswith(f"{below}/") else {}
    with open(found) as it:
        python = it.readline().removeprefix("#!").split()
    return [*python, f"{os.path.dirname(os.path.realpath(__file__))}/probe.py", "dig", str(port), found, *words], {**os.environ, **library}


def promtool(*words, given=""):
    program, _ = tool("prometheus", "promtool")
    ran = subprocess.run([program, *words], input=given, stdout=subprocess.PIPE, stderr=subprocess.STDOUT, text=True, timeout=60)
    assert not ran.returncode, ran.stdout.strip()


def version(server):
    words = {"chrony": ("chrony", "chronyd", "version "), "NTPsec": ("ntpsec", "ntpd", "ntpsec-")}[server]
    return re.search(rf"{words[-1]}([^\s(]+)", tool(*words)[1])[1]
