"""What tests share that police or flood a network: namespaces of networks that a test has for itself, nftables in them, and floods."""
import contextlib
import ctypes
import glob
import os
import re
import shutil
import subprocess
import sys

import judging
from judging import Odd, PassedOver
from processes import give_way

# The processors that it may use.
ALLOWED = sorted(os.sched_getaffinity(0))


# ---- Start

# What unshare(2) takes.
NEW = {"mnt": 0x00020000, "net": 0x40000000}


@contextlib.contextmanager
def apart(*kinds):
    """What is begun and made meanwhile is in namespaces of its own of these kinds, where the loopback interface is up: this thread, and what it
    starts."""
    libc, cwd = ctypes.CDLL(None, use_errno=True), os.getcwd()
    before = [os.open(f"/proc/thread-self/ns/{it}", os.O_RDONLY) for it in kinds]
    try:
        if libc.unshare(sum(NEW[it] for it in kinds)):
            raise PassedOver(f"no namespaces can be made: {os.strerror(ctypes.get_errno())}")
        try:
            subprocess.run(["ip", "link", "set", "lo", "up"], check=True)
            if "mnt" in kinds:
                subprocess.run(["mount", "--make-rprivate", "/"], check=True)
            yield
        finally:
            for it in before:
                if libc.setns(it, 0):
                    raise OSError(ctypes.get_errno(), "setns")
            os.chdir(cwd)
    finally:
        for it in before:
            os.close(it)


def take_precedence():
    """Has what else runs on this host take little of the processors that a test shares with it."""
    give_way(0, -10)


@contextlib.contextmanager
def preferred(processors=ALLOWED):
    """The same meanwhile, at these processors."""
    if len(ALLOWED) < 2:
        raise PassedOver("it needs two processors")
    niceness = os.getpriority(os.PRIO_PROCESS, 0)
    os.sched_setaffinity(0, processors)
    take_precedence()
    try:
        yield
    finally:
        give_way(0, niceness)
        os.sched_setaffinity(0, ALLOWED)


# Has the socket that it makes at an address and a port be descriptor 3 of the program that it becomes.
HANDS_DOWN = """
import os, socket, sys
s = socket.socket(socket.AF_INET, socket.SOCK_DGRAM)
s.bind((sys.argv[1], int(sys.argv[2])))
os.dup2(s.fileno(), 3)
os.set_inheritable(3, True)
os.environ.update(LISTEN_FDS="1", LISTEN_PID=str(os.getpid()))
os.execvp(sys.argv[3], sys.argv[3:])
"""


def on_a_host(addresses, port, *bound):
    """What begins a program on a host with these addresses; where an address is said, with a socket that is bound there."""
    judging.needs("ip", "unshare", root=True)
    lines = ["ip link set lo up", *[f"ip addr add {it}/32 dev lo" for it in addresses], 'exec "$@"']
    handed = [sys.executable, "-c", HANDS_DOWN, *bound, str(port)] if bound else []
    return ["unshare", "--net", "sh", "-ec", "; ".join(lines), "sh", *handed]


# ---- nftables

TRIVIAL = "table inet labntpd_trial\ndelete table inet labntpd_trial\n"


def find_nft(peers=None, own=None):
    """Has nft in a folder of its own on the path, where it is there or tests/run has fetched it, and has seen it work."""
    folder, own = f"{peers or os.environ.get('PEERS', '')}/nftables", own or f"{judging.ROOM}/bin"
    found = shutil.which("nft", path=f"{os.environ.get('PATH', os.defpath)}:/usr/sbin:{folder}/usr/sbin")
    if not found:
        raise PassedOver("there is no program nft")
    if not os.path.exists(f"{own}/nft"):
        libraries = glob.glob(f"{folder}/usr/lib/*-linux-gnu") if found.startswith(folder) else []
        os.makedirs(own, exist_ok=True)
        with open(f"{own}/nft", "w", opener=lambda path, flags: os.open(path, flags, 0o755)) as it:
            it.write("#!/bin/sh\n" + "".join(f"export LD_LIBRARY_PATH='{it}'\n" for it in libraries) + f"exec '{found}' \"$@\"\n")
        os.environ["PATH"] = f"{own}:{os.environ.get('PATH', os.defpath)}"
    nft("-f", "-", given=TRIVIAL, fault=PassedOver)


def nft(*words, given=None, fault=Odd):
    """What nft prints; where it fails, that is such a fault."""
    ran = subprocess.run(["nft", *words], input=given, capture_output=True, text=True, timeout=judging.WAIT)
    if ran.returncode:
        raise fault(f"nft {' '.join(words)}: {ran.stderr.strip()[:200]}")
    return ran.stdout


def load_door(labntpctl, *words):
    """Loads the rules that labntpctl prints, and gives the name of their table."""
    ran = subprocess.run([labntpctl, "door", *words], capture_output=True, text=True, timeout=judging.WAIT)
    judging.same("labntpctl door", (0, ""), (ran.returncode, ran.stderr))
    nft("-f", "-", given=ran.stdout)
    return re.search(r"(?m)^table inet (\S+) \{$", ran.stdout)[1]


# ---- Floods

# Stands at the head of each program in C.
HEAD = r"""
#define _GNU_SOURCE
#include <arpa/inet.h>
#include <stdio.h>
#include <stdlib.h>
#include <string.h>
#include <sys/epoll.h>
#include <sys/socket.h>
#include <time.h>

static double now(void) {
  struct timespec t;
  clock_gettime(CLOCK_MONOTONIC, &t);
  return t.tv_sec + t.tv_nsec * 1e-9;
}
"""
# `flood SOURCE TARGET PORT RATE HEX` sends one datagram at this rate until it is ended; `spin` keeps a processor busy.
FLOOD = r"""
#define BATCH 32

int main(int count, char **words) {
  if (count < 6)
    for (volatile unsigned long n = 0;; n++);
  struct sockaddr_in source = {.sin_family = AF_INET}, target = {.sin_family = AF_INET, .sin_port = htons(atoi(words[3]))};
  inet_pton(AF_INET, words[1], &source.sin_addr);
  inet_pton(AF_INET, words[2], &target.sin_addr);
  double rate = atof(words[4]);
  unsigned char octets[1024];
  size_t length = strlen(words[5]) / 2;
  for (size_t i = 0; i < length && i < sizeof octets; i++)
    sscanf(words[5] + 2 * i, "%2hhx", &octets[i]);
  int s = socket(AF_INET, SOCK_DGRAM, 0);
  if (bind(s, (struct sockaddr *)&source, sizeof source) || connect(s, (struct sockaddr *)&target, sizeof target))
    return 1;
  struct iovec part = {octets, length};
  struct mmsghdr batch[BATCH];
  memset(batch, 0, sizeof batch);
  for (int i = 0; i < BATCH; i++)
    batch[i].msg_hdr.msg_iov = &part, batch[i].msg_hdr.msg_iovlen = 1;
  double begun = now(), sent = 0;
  for (;;) {
    double due = (now() - begun) * rate;
    if (sent + BATCH > due) {
      struct timespec pause = {0, 20000};
      nanosleep(&pause, 0);
      continue;
    }
    sendmmsg(s, batch, BATCH, MSG_DONTWAIT);
    sent += BATCH;
    if (due - sent > rate / 10)
      begun = now() - sent / rate;
  }
}
"""


def compiled(source, name):
    subprocess.run(["gcc", "-O2", "-x", "c", "-o", f"{judging.ROOM}/{name}", "-"], input=f"{HEAD}{source}".encode(), check=True)


@contextlib.contextmanager
def busy(words, processor):
    """A process that runs on this processor meanwhile."""
    process = subprocess.Popen([f"{judging.ROOM}/flood", *words], stdin=subprocess.DEVNULL)
    try:
        os.sched_setaffinity(process.pid, {processor})
        yield process
    finally:
        process.kill()
        process.wait()
