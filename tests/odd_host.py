"""Hosts that do what a test tells them to: clocks that are set, or cannot be read, a send that takes long, a disk that breaks.

The program is started with a library in front of the C library, made with gcc or clang when it is first wanted, whose functions are those of
a text in C; all else is the host's.
"""
import mmap
import os
import shutil
import struct
import subprocess

import judging
from judging import SECOND, PassedOver

# Stands at the head of each text. `opened` is the C library's `open`, with a mode where there need be none.
HEAD = r"""
#define _GNU_SOURCE
#include <errno.h>
#include <fcntl.h>
#include <poll.h>
#include <stdint.h>
#include <stdio.h>
#include <stdlib.h>
#include <string.h>
#include <sys/mman.h>
#include <sys/socket.h>
#include <sys/stat.h>
#include <sys/syscall.h>
#include <sys/un.h>
#include <time.h>
#include <unistd.h>

int opened(const char *path, int flags, mode_t mode) __asm__("open");
"""

# A host that reads no file behind its first 100,000 octets.
BREAKS = r"""
ssize_t read(int file, void *octets, size_t count) {
    if (lseek(file, 0, SEEK_CUR) >= 100000)
        return errno = EIO, -1;
    return syscall(SYS_read, file, octets, count);
}
"""

# One that takes 20 milliseconds for each page of its list of sockets.
LONG_LIST = r"""
static int list = -1;

int opened(const char *path, int flags, mode_t mode) {
    int file = syscall(SYS_openat, AT_FDCWD, path, flags, mode);
    list = strcmp(path, "/proc/net/udp") == 0 ? file : file == list ? -1 : list;
    return file;
}

ssize_t read(int file, void *octets, size_t count) {
    struct timespec span = {0, 20000000};
    if (file == list)
        nanosleep(&span, 0);
    return syscall(SYS_read, file, octets, count);
}
"""

# One whose list of UDP sockets is another file.
OTHER_LIST = r"""
int opened(const char *path, int flags, mode_t mode) {
    return syscall(SYS_openat, AT_FDCWD, strcmp(path, "/proc/net/udp") ? path : "%s", flags, mode);
}
"""

# One on which a pipe takes the place of the file of a name just before it is opened.
PIPE_IN_TIME = r"""
int opened(const char *path, int flags, mode_t mode) {
    const char *name = strrchr(path, '/');
    if (name && strcmp(name, "/%s") == 0) {
        unlink(path);
        syscall(SYS_mknodat, AT_FDCWD, path, S_IFIFO | 0600, 0);
    }
    return syscall(SYS_openat, AT_FDCWD, path, flags, mode);
}
"""

# One that does not set, or does not tell, a buffer of a socket.
NO_BUFFERS = r"""
int %s(int s, int level, int name, %s) {
    if (level == SOL_SOCKET && name == %s)
        return errno = ENOBUFS, -1;
    return syscall(SYS_%s, s, level, name, value, length);
}
"""

# One whose network is down behind the first so many receives.
DOWN = r"""
static int left = %d;

ssize_t recvfrom(int s, void *octets, size_t length, int flags, struct sockaddr *from, socklen_t *size) {
    if (left-- > 0)
        return syscall(SYS_recvfrom, s, octets, length, flags, from, size);
    return errno = ENETDOWN, -1;
}

ssize_t recv(int s, void *octets, size_t length, int flags) { return recvfrom(s, octets, length, flags, 0, 0); }
"""

# One that renames, and tells that it did not.
RENAMES = r"""
int rename(const char *from, const char *to) {
    syscall(SYS_renameat, AT_FDCWD, from, AT_FDCWD, to);
    return errno = EIO, -1;
}
"""

# One that notes in the file OPENS which files a program opens, renames and deletes, and to which sockets it sends.
OPENS = r"""
static void note(const char *how, const char *path) {
    char line[4200];
    int length = snprintf(line, sizeof line, "%s %s\n", how, path);
    int file = syscall(SYS_openat, AT_FDCWD, getenv("OPENS"), O_WRONLY | O_APPEND | O_CREAT | O_CLOEXEC, 0644);
    if (file < 0 || write(file, line, length) != length)
        abort();
    close(file);
}

int opened(const char *path, int flags, mode_t mode) {
    note((flags & O_ACCMODE) == O_RDONLY ? "r" : (flags & O_ACCMODE) == O_WRONLY ? "w" : "rw", path);
    return syscall(SYS_openat, AT_FDCWD, path, flags, mode);
}

int rename(const char *from, const char *to) {
    note("rw", from), note("w", to);
    return syscall(SYS_renameat, AT_FDCWD, from, AT_FDCWD, to);
}

int unlink(const char *path) {
    note("w", path);
    return syscall(SYS_unlinkat, AT_FDCWD, path, 0);
}

ssize_t sendto(int s, const void *octets, size_t length, int flags, const struct sockaddr *to, socklen_t size) {
    if (to->sa_family == AF_UNIX)
        note("w", ((const struct sockaddr_un *)to)->sun_path);
    return syscall(SYS_sendto, s, octets, length, flags, to, size);
}
"""

# One whose clocks, waits and sends do as a few numbers in the file ODD_HOST say, which both have in memory. No socket gets the kernel's stamps.
TOLD = r"""
// In the order of the names in Python: what is told, and behind it how many readings of the clocks there were.
enum { WALL, MONOTONIC, SHOWN, SEND, POLLS, HOLD, READINGS, UNREAD, NUMBERS };

static volatile int64_t at_first[NUMBERS], *told = at_first;

__attribute__((constructor)) static void begin(void) {
    int file = open(getenv("ODD_HOST"), O_RDWR | O_CLOEXEC);
    void *shared = mmap(0, sizeof at_first, PROT_READ | PROT_WRITE, MAP_SHARED, file, 0);
    if (file < 0 || shared == MAP_FAILED)
        abort();
    close(file);
    told = shared;
}

static void wait(int64_t nanos) {
    struct timespec span = {nanos / 1000000000, nanos % 1000000000};
    if (nanos)
        syscall(SYS_nanosleep, &span, 0);
}

// Whether a datagram was just received, or the host's clock was read just behind that.
static enum { NOTHING, RECEIVED, STAMPED } reached;

ssize_t recvfrom(int s, void *octets, size_t length, int flags, struct sockaddr *from, socklen_t *size) {
    ssize_t received = syscall(SYS_recvfrom, s, octets, length, flags, from, size);
    reached = received < 0 || !from ? NOTHING : RECEIVED;
    return received;
}

int clock_gettime(clockid_t clock, struct timespec *time) {
    if (clock == CLOCK_MONOTONIC && reached == STAMPED)
        wait(told[HOLD]);
    reached = clock == CLOCK_REALTIME && reached == RECEIVED ? STAMPED : NOTHING;
    if (clock == CLOCK_REALTIME && told[UNREAD])
        return errno = EINVAL, -1;
    int status = syscall(SYS_clock_gettime, clock, time);
    int64_t readings = told[READINGS]++, nanos = time->tv_sec * 1000000000ll + time->tv_nsec;
    if (clock == CLOCK_MONOTONIC)
        nanos += told[MONOTONIC];
    else if (clock == CLOCK_REALTIME)
        nanos = told[SHOWN] ? told[SHOWN] + 1000 * readings : nanos + told[WALL];
    time->tv_sec = nanos / 1000000000;
    time->tv_nsec = nanos % 1000000000;
    return status;
}

int poll(struct pollfd *waits, nfds_t count, int timeout) {
    struct timespec limit = {timeout / 1000, timeout % 1000 * 1000000};
    if (told[POLLS] && count == 1 && waits->events == POLLIN && timeout == 0)
        return errno = EINTR, -1;
    return syscall(SYS_ppoll, waits, count, timeout < 0 ? 0 : &limit, 0, 8);
}

ssize_t sendto(int s, const void *octets, size_t length, int flags, const struct sockaddr *to, socklen_t size) {
    wait(told[SEND] / 2);
    ssize_t sent = syscall(SYS_sendto, s, octets, length, flags, to, size);
    int error = errno;
    wait(told[SEND] / 2);
    errno = error;
    return sent;
}

// The kernel's stamps of datagrams would show its clock as it is.
int setsockopt(int s, int level, int name, const void *value, socklen_t size) {
    if (level == SOL_SOCKET && (name == SO_TIMESTAMP || name == SO_TIMESTAMPNS || name == SO_TIMESTAMPING))
        return errno = ENOPROTOOPT, -1;
    return syscall(SYS_setsockopt, s, level, name, value, size);
}
"""
NUMBERS = 8


def made(library, text):
    """Makes a library of the functions of this text."""
    compiler = shutil.which("gcc") or shutil.which("clang")
    if not compiler:
        raise PassedOver("there is no gcc")
    words = [compiler, "-shared", "-fPIC", "-O1", "-x", "c", "-o", library, "-"]
    subprocess.run(words, input=f"{HEAD}{text}".encode(), check=True, capture_output=True, timeout=60)
    return library


def in_front(text):
    """The words of the environment of a program that calls the functions of this text in place of the C library's."""
    return {"LD_PRELOAD": made(f"{judging.ROOM}/in_front.so", text)}


def number(place):
    """A number of the file, at this place."""
    def get(host):
        return struct.unpack_from("q", host.memory, 8 * place)[0]

    def put(host, value):
        struct.pack_into("q", host.memory, 8 * place, value)

    return property(get, put)


class OddHost:
    """A host of a program that is started with this environment. Its numbers may be changed at any time, and are 0 at first, which
    changes nothing."""

    # By how many nanoseconds more the host's clock and the monotonic one are ahead.
    wall, monotonic = number(0), number(1)
    # Where not 0, what the host's clock shows, in nanoseconds since 1970, and a microsecond more with each reading of a clock.
    shown = number(2)
    # How many nanoseconds more a send takes, half of them before the datagram goes out.
    send = number(3)
    # Where not 0, each look fails whether one descriptor can be read.
    polls = number(4)
    # How many nanoseconds it is held up behind the reading of the host's clock for a datagram that came, before it reads the other clock.
    hold = number(5)
    # How often the program has read a clock.
    readings = number(6)
    # Where not 0, the host's clock cannot be read.
    unread = number(7)

    def __init__(self):
        library, file = f"{judging.ROOM}/odd_host.so", f"{judging.ROOM}/odd_host"
        self.words = {"LD_PRELOAD": library if os.path.exists(library) else made(library, TOLD), "ODD_HOST": file}
        with open(file, "w+b") as it:
            it.write(bytes(8 * NUMBERS))
            it.flush()
            self.memory = mmap.mmap(it.fileno(), 8 * NUMBERS)

    def environment(self):
        return os.environ | self.words

    def pass_seconds(self, seconds):
        """So much time passes at once, by both clocks."""
        self.wall += round(seconds * SECOND)
        self.monotonic += round(seconds * SECOND)
