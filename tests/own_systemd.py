"""A systemd that a test has for itself, for units that are installed there alone.

It is the first process of namespaces of its own: it has a network with the loopback interface alone, and a root file system that is a copy
of the host's, kept in memory. Of the host's units it starts those of the journal. What it makes of control groups stands below one that is
removed with it. So the host's files, network, processes and settings are left alone, and nothing stays.
"""
import contextlib
import functools
import importlib
import json
import os
import pathlib
import re
import shutil
import subprocess
import sys
import tempfile
import textwrap
import time

import judging
from judging import Odd, PassedOver

SYSTEMD = "/usr/lib/systemd/systemd"
PROGRAMS = (SYSTEMD, "systemctl", "journalctl", "mount", "unshare", "nsenter", "setpriv", "pivot_root", "ip", "ss")
PATH = "/usr/local/sbin:/usr/local/bin:/usr/sbin:/usr/bin:/sbin:/bin"
NAMESPACES = ("unshare", "--fork", "--pid", "--kill-child=KILL", "--mount", "--propagation", "private", "--net", "--uts", "--ipc", "--cgroup")
# How many seconds a command may take. Where the unit files are that are installed, and the folder that is handed to it.
LIMIT = 300
UNITS, GIVEN = "/etc/systemd/system", "/given"

# Makes the root file system, below a folder that has `given`. The kernel's settings are the host's, so they can be read alone. What is mounted
# is shared in the end, as systemd expects of a container: else no service sees its credentials.
ROOT = r"""
mkdir "$1/disk" && mount -t tmpfs -o mode=755 tmpfs "$1/disk" && cd "$1/disk" && mkdir upper work root
mount -t overlay -o "lowerdir=/,upperdir=$1/disk/upper,workdir=$1/disk/work" overlay root && cd root
cp -r "$1/given" . && mkdir -p old units/sysinit.target.wants
for it in sysinit.target basic.target sockets.target multi-user.target shutdown.target systemd-journald.service systemd-journald.socket; do
    cp usr/lib/systemd/system/$it units
done
ln -s ../systemd-journald.service units/sysinit.target.wants
mount -t proc proc proc && mount --bind -o ro proc/sys proc/sys
mount -t sysfs -o ro sysfs sys && mount -t cgroup2 cgroup2 sys/fs/cgroup
for it in run tmp dev etc/systemd var/log/journal; do
    mkdir -p $it && mount -t tmpfs -o mode=755 tmpfs $it
done
for it in null:1:3 zero:1:5 full:1:7 random:1:8 urandom:1:9 tty:5:0; do
    mknod -m 666 dev/${it%%:*} c $(echo ${it#*:} | tr : ' ')
done
ln -s pts/ptmx dev/ptmx && mkdir etc/systemd/system && chmod 1777 tmp
ip link set lo up && pivot_root . old && umount -l /old && mount --make-rshared /
"""


class Failed(subprocess.SubprocessError):
    """What a command printed that failed."""


def missing(*programs):
    """Why there can be none here, and these programs; or nothing."""
    if os.geteuid():
        return "it needs root"
    without = [it for it in PROGRAMS + programs if not shutil.which(it, path=PATH)]
    if without:
        return f"there is no {without[0]}"
    if not group():
        return "no control groups of the second version are mounted"
    try:
        os.mkdir(group())
        os.rmdir(group())
    except OSError as seen:
        return f"no control group can be made: {seen}"
    ran = subprocess.run([*NAMESPACES, "true"], capture_output=True, text=True)
    return f"no namespaces can be made: {ran.stderr.strip()}" if ran.returncode else ""


def group():
    """The folder of its control group, where there can be one."""
    with open("/proc/mounts") as it:
        places = [place for _, place, kind, *_ in map(str.split, it) if kind == "cgroup2"]
    return places and f"{places[0]}/own-systemd-{os.getpid()}"


def remove(folder):
    """Removes a control group and those below it, in which a process may still end."""
    end = time.monotonic() + 10
    while os.path.exists(folder) and time.monotonic() < end:
        for it, *_ in os.walk(folder, topdown=False):
            with contextlib.suppress(OSError):
                os.rmdir(it)
        time.sleep(0.01)


@contextlib.contextmanager
def entered(module, copies, *programs):
    """While systemd runs: what makes a function of this file of tests there, by its name. `copies` has files and folders to be handed over, by
    their new names; nftables is, where tests/run has fetched it."""
    if why := missing(*programs):
        raise PassedOver(why)
    own, peers = group(), f"{os.environ.get('PEERS', '')}/nftables"
    copies |= {"nftables": peers} if os.path.isdir(peers) else {}

    def join():
        pathlib.Path(f"{own}/cgroup.procs").write_text(str(os.getpid()))

    # It heeds SIGKILL alone: it gets that however this process ends, and with it ends all that was started there.
    command = ["setpriv", "--pdeathsig", "KILL", *NAMESPACES, sys.executable, os.path.realpath(__file__), module]
    how = {"stdin": subprocess.PIPE, "stdout": subprocess.PIPE, "text": True, "preexec_fn": join, "start_new_session": True}
    with tempfile.TemporaryDirectory(prefix="own-systemd-") as room:
        for name, path in copies.items():
            os.makedirs(os.path.dirname(f"{room}/given/{name}"), exist_ok=True)
            (shutil.copytree if os.path.isdir(path) else shutil.copy)(path, f"{room}/given/{name}")
        try:
            os.mkdir(own)
            with subprocess.Popen([*command, room], **how) as process:
                try:
                    yield functools.partial(make, process)
                finally:
                    process.kill()
        finally:
            remove(own)


def make(process, name):
    """Has a function called there, and gives or raises what came of it."""
    __tracebackhide__ = True
    try:
        process.stdin.write(f"{name}\n")
        process.stdin.flush()
        what, why = json.loads(process.stdout.readline() or '["failed", "it ended before all was judged"]')
    except BaseException:
        # What it would tell later is of no other call.
        process.kill()
        raise
    if what != "passed":
        raise PassedOver(why) if what == "passed over" else Odd(why)


def came_of(call, why):
    """What comes of a call, which is not made where there is a reason."""
    try:
        if why:
            raise PassedOver(why)
        call(*[None] * call.__code__.co_argcount)
        return "passed", ""
    except PassedOver as seen:
        return "passed over", f"{seen}"
    except Exception as seen:
        return "failed", f"{seen}" if isinstance(seen, Odd) else f"{type(seen).__name__} {seen}"
    finally:
        judging.end_all()


def begin(module, room):
    """The first process becomes systemd. A child of it calls what it is told to; where systemd has not started all is passed over."""
    tests = importlib.import_module(module)
    os.umask(0o022)
    # The caller's folder for what is temporary is outside of the root that is made here.
    os.environ |= {"PATH": PATH, "LC_ALL": "C.UTF-8", "TMPDIR": "/tmp"}
    tempfile.tempdir = None
    ran = subprocess.run(["sh", "-ec", ROOT, "sh", room], capture_output=True, text=True, stdin=subprocess.DEVNULL)
    os.chdir("/")
    if not ran.returncode and os.fork():
        for it in range(3):
            os.dup2(os.open(os.devnull, os.O_RDWR), it)
        environment = {"PATH": PATH, "container": "own", "SYSTEMD_UNIT_PATH": f"{UNITS}:/units", "SYSTEMD_GENERATOR_PATH": "/units/none"}
        os.execve(SYSTEMD, [SYSTEMD, "--unit=multi-user.target", "--log-target=journal", "--show-status=0"], environment)
    why = f"no root can be made: {ran.stderr.strip()[-200:]}" if ran.returncode else has_not_started(judging.WAIT)
    with os.fdopen(os.dup(1), "w") as told:
        # What is printed there is no answer.
        os.dup2(2, 1)
        for line in sys.stdin:
            print(json.dumps(came_of(getattr(tests, line.strip()), why)), file=told, flush=True)


def has_not_started(seconds):
    """Why systemd has not started; or nothing, once it has."""
    end, seen = time.monotonic() + seconds, ""
    while time.monotonic() < end:
        if (seen := run("systemctl is-active multi-user.target", None)) == "active":
            return ""
        time.sleep(0.05)
    return f"systemd has not started after {seconds} seconds: {seen[-200:]}"


# ---- What is asked there

def run(commands, wanted=0):
    """What shell commands print, in the folder that was handed over."""
    how = {"stdin": subprocess.DEVNULL, "stdout": subprocess.PIPE, "stderr": subprocess.STDOUT, "text": True}
    ran = subprocess.run(["sh", "-ec", commands], cwd=GIVEN, timeout=LIMIT, **how)
    if wanted not in (None, ran.returncode):
        raise Failed(f"{commands.strip()[-80:]!r} ended with {ran.returncode}: {' '.join(ran.stdout.split())[-300:]}")
    return ran.stdout.strip()


def shown(unit, *names):
    told = dict(line.split("=", 1) for line in run(f"systemctl show {unit}").splitlines())
    return [told[it] for it in names]


def process(unit):
    """The number of a service's process."""
    return int(shown(unit, "MainPID")[0])


def status(unit):
    """What the kernel tells of it."""
    return dict(re.findall(r"^(\w+):[ \t]*(.*?)[ \t]*$", pathlib.Path(f"/proc/{process(unit)}/status").read_text(), re.M))


# ---- What is changed there

def blocks_of(text, heading):
    """The blocks of shell commands below a heading."""
    part = text.split(f"\n## {heading}\n")[1].split("\n## ")[0]
    return [textwrap.dedent(it) for it in re.findall(r"^ *```sh\n(.*?)^ *```$", part, re.M | re.S)]


def commands_of(page, heading):
    """The same of a page that was handed over."""
    return blocks_of(pathlib.Path(f"{GIVEN}/{page}").read_text(), heading)


def begin_chrony():
    """What of Debian's chrony is there, where a script shares a key with it: its folders, its keys, and a unit that does nothing."""
    run("mkdir -p /etc/chrony/conf.d; rm -f /etc/chrony/conf.d/labntp.conf; echo '# of chrony' >/etc/chrony/chrony.keys")
    pathlib.Path("/units/chrony.service").write_text("[Service]\nType=oneshot\nRemainAfterExit=yes\nExecStart=/bin/true\n")
    run("systemctl daemon-reload")


def edit(path, *changes):
    """Writes a file with what stands in the place of each pattern, which has to be there once."""
    text = pathlib.Path(path).read_text()
    for pattern, new in changes:
        text, count = re.subn(pattern, new, text, flags=re.M)
        if count != 1:
            raise Failed(f"{pattern!r} stands {count} times in {path}")
    pathlib.Path(path).write_text(text)


if __name__ == "__main__":
    begin(*sys.argv[1:])
