"""What pytest does here besides: a room and the programs for the cases of a file; which cases are made, in which order, and which side by side;
that one that fails is made again; and the lines that tell how far it is and what came of it.
"""
import fcntl
import os
import pathlib
import tempfile
import textwrap
import time

import hypothesis
import pytest
from _pytest.runner import runtestprotocol

import judging
import probe
from judging import PROGRAMS, TESTS, UNPROVED, Odd, until
from rooms import Ticker

# The tests whose cases are spread over the processes side by side, and those that measure what is done under load, so that nothing runs beside.
SPREAD, ALONE = ("daemon", "program"), ("door", "scale", "compared")
# After how many seconds without a line one tells what runs; and how many seconds the compiling of a program may take.
SILENCE, COMPILING = 10, 1800

# What is drawn is the same in each run, however long a case takes, and is kept nowhere.
hypothesis.settings.register_profile(
    "labntp", derandomize=True, deadline=None, database=None, report_multiple_bugs=False,
    suppress_health_check=[*hypothesis.HealthCheck],
)
hypothesis.settings.load_profile("labntp")


def pytest_addoption(parser):
    parser.addoption("--long", action="store_true", help="draws ten times as much at random, and more")
    parser.addoption("--table", action="store_true", help="measures, and prints tables; judges nothing")
    parser.addoption("--write", action="store_true", help="writes the table into its page")


def pytest_configure(config):
    judging.IS_LONG = config.option.long
    # A socket that is handed down is descriptor 3 there, which is not to be that of a pipe by which Python hears of the start.
    if (taken := os.open(os.devnull, os.O_RDONLY)) != 3:
        os.close(taken)
    if not hasattr(config, "workerinput"):
        config.pluginmanager.register(Telling(config))


# ---- Which cases, and where

def test_of(nodeid):
    return nodeid.partition("::")[0].rpartition("test_")[2].removesuffix(".py")


def place_of(item):
    """Where a case stands among the others: behind those whose programs are compiled sooner, and alone behind all."""
    test = test_of(item.nodeid)
    last = max(map(PROGRAMS.index, TESTS[test][0]), default=0) if UNPROVED in os.environ else 0
    return test in ALONE, last, [*TESTS].index(test)


def pytest_collection_modifyitems(config, items):
    is_asked = lambda it: bool(it.get_closest_marker("table")) == config.option.table
    config.hook.pytest_deselected(items=[it for it in items if not is_asked(it)])
    items[:] = sorted(filter(is_asked, items), key=place_of)
    for it in items:
        if UNPROVED in os.environ and (why := it.get_closest_marker("proved_alone")):
            it.add_marker(pytest.mark.skip(reason=why.args[0]))


def pytest_xdist_make_scheduler(config, log):
    from xdist.scheduler import LoadScopeScheduling

    class ByFile(LoadScopeScheduling):
        """The cases of a file have one process, but for those that are spread; and one has all that run alone."""

        def _split_scope(self, nodeid):
            test = test_of(nodeid)
            return nodeid if test in SPREAD else "alone" if test in ALONE else test

    return ByFile(config, log)


# ---- What each has

@pytest.fixture(scope="module", autouse=True)
def room(request):
    """The room of a file's cases, with modes under its MASK, and the programs that it judges. Behind them the usual host is asked again."""
    test, host = test_of(request.node.nodeid), probe.HOST
    for path in (paths := judging.built(*TESTS[test][0])):
        if UNPROVED in os.environ:
            until(f"{path} is compiled", lambda: os.path.exists(path), COMPILING)
        if not os.access(path, os.X_OK):
            # What the compiler said stands there, where it failed.
            raise Odd(f"there is no program {path} {pathlib.Path(path).read_text()[-300:] if os.path.exists(path) else ''}")
    judging.PROGRAM = paths[0] if paths else ""
    with judging.room_of(test, getattr(request.module, "MASK", 0o077)):
        yield
    probe.HOST = host


@pytest.fixture(autouse=True)
def ended():
    yield
    judging.end_all()


@pytest.hookimpl(tryfirst=True)
def pytest_pyfunc_call(pyfuncitem):
    """A case that is to be made under a systemd of its own is made by what the fixture gives."""
    if make := pyfuncitem.funcargs.get("systemd"):
        make(pyfuncitem.function.__name__)
        return True


# ---- Cases that are made again

def seen_in(report):
    """What was seen where a case failed, in a line that is not too long."""
    crash = getattr(report.longrepr, "reprcrash", None)
    return textwrap.shorten(crash.message if crash else str(report.longrepr), 400)


def outcome_of(reports):
    """What came of a run of a case, and what was seen where it failed."""
    failed = next((it for it in reports if it.failed), None)
    return "failed" if failed else "skipped" if any(it.skipped for it in reports) else "passed", failed and seen_in(failed)


def await_calm(longest=120):
    """Waits until this process was woken in time for a second, so many seconds at most: where a host stands still, each run fails alike."""
    begun, in_time = time.monotonic(), 0
    while in_time < 100 and (before := time.monotonic()) < begun + longest:
        time.sleep(0.01)
        in_time = in_time + 1 if time.monotonic() < before + 0.05 else 0


def runs_of(item, nextitem):
    """Makes a case, and one that fails again, until it passed in more than half of the most runs or cannot any longer. The reports of the last
    run, which tell of the others. One whose time ran out is not made again."""
    most, seen = TESTS[test_of(item.nodeid)][1], []
    while not seen or seen[0][0] == "failed" and seen[-1][0] != "skipped":
        well = sum(what == "passed" for what, _ in seen)
        if seen and not 2 * well <= most < 2 * (most - len(seen) + well) or seen and "Timeout >" in (seen[-1][1] or ""):
            break
        if seen:
            await_calm()
            item._initrequest()
        reports = runtestprotocol(item, nextitem=nextitem, log=False)
        seen.append(outcome_of(reports))
    if len(seen) > 1:
        well = sum(what == "passed" for what, _ in seen)
        told = "; ".join(dict.fromkeys(it for _, it in seen if it))
        reports[0].user_properties.append(("made again", f"passed in {well} of {len(seen)} runs: {told}"))
    return reports


@pytest.hookimpl(tryfirst=True)
def pytest_runtest_protocol(item, nextitem):
    with open(f"{tempfile.gettempdir()}/labntp-tests.lock", "w") as it:
        fcntl.flock(it, fcntl.LOCK_EX if test_of(item.nodeid) in ALONE else fcntl.LOCK_SH)
        item.ihook.pytest_runtest_logstart(nodeid=item.nodeid, location=item.location)
        for report in runs_of(item, nextitem):
            item.ihook.pytest_runtest_logreport(report=report)
    item.ihook.pytest_runtest_logfinish(nodeid=item.nodeid, location=item.location)
    return True


# ---- What is told

class Telling:
    """Tells what came of each case, and what runs where nothing else is told for a while; at the end what was made again, and how many passed."""

    def __init__(self, config):
        self.config, self.begun, self.last, self.running, self.again = config, time.monotonic(), time.monotonic(), [], []
        self.reporter, self.ticker = None, Ticker(SILENCE / 4, self.tell)

    def pytest_sessionstart(self):
        self.reporter = self.config.pluginmanager.get_plugin("terminalreporter")
        self.ticker.__enter__()

    def pytest_runtest_logstart(self, nodeid):
        self.running.append(nodeid)

    def pytest_runtest_logfinish(self, nodeid):
        self.running.remove(nodeid)

    @pytest.hookimpl(hookwrapper=True)
    def pytest_report_teststatus(self, report):
        """Its letter is not told."""
        told = yield
        told.force_result((told.get_result()[0], "", *told.get_result()[2:]))

    def pytest_runtest_logreport(self, report):
        self.last = time.monotonic()
        if report.skipped:
            self.reporter.write_line(f"passed over {report.nodeid}: {report.longrepr[2].removeprefix('Skipped: ')}")
        elif report.failed:
            self.reporter.write_line(f"FAILED {report.nodeid}: {seen_in(report)}")
        elif report.when == "call":
            self.reporter.write_line(f"ok {report.nodeid}")
        self.again += [f"{report.nodeid} ({what})" for name, what in report.user_properties if name == "made again" and report.when == "setup"]

    def tell(self):
        if time.monotonic() - self.last > SILENCE and not self.config.option.table:
            self.last, passed = time.monotonic(), int(time.monotonic() - self.begun)
            self.reporter.ensure_newline()
            now = ", ".join(it.partition("::")[2] for it in self.running)
            self.reporter.write_line(f"tests/run: {passed // 60}:{passed % 60:02} minutes; now {now or 'nothing'}")

    def pytest_sessionfinish(self, session, exitstatus):
        self.ticker.__exit__()
        # So too where it was stopped by -x.
        if exitstatus == pytest.ExitCode.INTERRUPTED and session.shouldfail:
            session.exitstatus = pytest.ExitCode.TESTS_FAILED

    def pytest_terminal_summary(self):
        for it in self.again:
            self.reporter.write_line(f"made again: {it}")

    def pytest_unconfigure(self):
        if self.reporter and not self.config.option.collectonly:
            passed, skipped, *failed = (len(self.reporter.stats.get(it, [])) for it in ("passed", "skipped", "failed", "error"))
            print(f"{passed} passed, {sum(failed)} failed" + (f", {skipped} skipped" if skipped else ""), flush=True)
