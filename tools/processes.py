"""What a process has started, what that has used, and its end."""
import contextlib
import ctypes
import os
import signal

TICKS = os.sysconf("SC_CLK_TCK")
# What prctl takes: a process gets the orphans of what it started.
PR_SET_CHILD_SUBREAPER = 36


class Table:
    """All processes as they are now: whose child each is, and how many seconds of processors it and its ended children have used."""

    def __init__(self):
        self.parent, self.own, self.children = {}, {}, {}
        for name in filter(str.isdigit, os.listdir("/proc")):
            with contextlib.suppress(OSError):
                with open(f"/proc/{name}/stat") as it:
                    fields = it.read().rpartition(")")[2].split()
                self.parent[int(name)] = int(fields[1])
                self.own[int(name)] = sum(map(int, fields[11:15])) / TICKS
        for child, parent in self.parent.items():
            self.children.setdefault(parent, []).append(child)

    def family(self, process):
        """A process and all that it has started, and these, and so on."""
        found = [process]
        for it in found:
            found += self.children.get(it, [])
        return found

    def used(self, process):
        """How many seconds of processors a process and all that it has started have used."""
        return sum(self.own.get(it, 0) for it in self.family(process))


def children():
    """The processes that this one has started, or was given when those that started them ended."""
    return Table().children.get(os.getpid(), [])


def give_way(process, niceness):
    """Has a process give way to others as this niceness asks for. Where each session has a share of its own (sched(7), autogroup), the niceness
    of a process counts in its session alone, so that of the session is set too."""
    os.setpriority(os.PRIO_PROCESS, process, niceness)
    with contextlib.suppress(OSError), open(f"/proc/{process or 'self'}/autogroup", "w") as it:
        it.write(str(niceness))


def take_orphans():
    """From now on this process is given what outlives those that it started, so that `end_all` finds it."""
    ctypes.CDLL(None).prctl(PR_SET_CHILD_SUBREAPER, 1, 0, 0, 0)


@contextlib.contextmanager
def ended_by_signals():
    """A signal that asks for the end ends what was started too, with the status that a shell gives; so does the end itself."""
    ends = (signal.SIGINT, signal.SIGTERM, signal.SIGHUP)

    def interrupted(number, _):
        for it in ends:
            signal.signal(it, signal.SIG_IGN)
        raise SystemExit(128 + number)

    take_orphans()
    for it in ends:
        signal.signal(it, interrupted)
    try:
        yield
    finally:
        end_all()


def end_all():
    """Ends all that was started, and what that has started."""
    while True:
        for it in children():
            with contextlib.suppress(ProcessLookupError):
                os.kill(it, signal.SIGKILL)
        try:
            os.waitpid(-1, 0)
        except ChildProcessError:
            return
