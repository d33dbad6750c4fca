"""The crates of the repository, and rooms in which the toolchain works on several of them side by side.

`rt` lets one run at a time into a crate, and holds the crates below it too, so in one tree two checks that stand on one crate follow one
another. A room is a small tree of its own, with the sources of one crate and of those below it, and with what was kept of them before.
"""
import contextlib
import functools
import graphlib
import os
import pathlib
import re
import shutil
import subprocess
import tempfile
import threading
from concurrent.futures import FIRST_COMPLETED, ThreadPoolExecutor, wait

TOP = os.path.dirname(os.path.dirname(os.path.realpath(__file__)))
# What a crate's folder has beside `out` that a check reads.
PARTS = ("src", "specs", "proofs")


def listed(top=TOP):
    """The libraries that crates.txt lists for each crate, those of the toolchain too."""
    with open(f"{top}/crates.txt", encoding="utf-8") as it:
        lines = [line.partition("#")[0] for line in it]
    found = dict(re.match(r"\s*(\w+)[^:]*:(.*)", line).groups() for line in lines if ":" in line)
    return {name: words.split() for name, words in found.items()}


@functools.cache
def crates_of(top=TOP):
    """Each crate that crates.txt lists, with those of the repository that it stands on by name, lowest first."""
    found = listed(top)
    direct = {name: [it for it in words if it in found] for name, words in found.items()}
    return {name: direct[name] for name in sorted(direct, key=lambda it: len(below(it, direct)))}


def below(name, crates):
    """All crates that a crate stands on, without itself."""
    found = [*crates[name]]
    for it in found:
        found += [other for other in crates[it] if other not in found]
    return {*found}


def is_program(name):
    return os.path.exists(f"{TOP}/crates/{name}/src/main.rt")


def has_tests(name):
    return subprocess.run(["grep", "-rqE", r"^ *#\[test\]", f"{TOP}/crates/{name}/src"]).returncode == 0


def lines_of(name):
    """How many lines a check of the crate reads of its own: a measure of how long it takes."""
    paths = [f"{at}/{it}" for part in PARTS for at, _, files in os.walk(f"{TOP}/crates/{name}/{part}") for it in files]
    return sum(pathlib.Path(it).read_bytes().count(b"\n") for it in paths)


def longest_chain(tasks, weights):
    """For each task the weight of the longest chain of tasks that begins with it. `tasks` has for each those that it waits for."""
    chain = dict.fromkeys(tasks, 0)

    def after(task):
        if not chain[task]:
            chain[task] = weights[task] + max([after(it) for it, waits in tasks.items() if task in waits], default=0)
        return chain[task]

    return {it: after(it) for it in tasks}


def in_lanes(tasks, weights, work, lanes):
    """Calls work(task, jobs) for each task once those that it waits for have ended well, so many at a time, first those with the longest
    chain behind them. A task has two jobs where no other wants the processor, and that of the longest chain always: a third would read once
    more what the crate stands on, and save hardly any time. Returns the tasks that ended well."""
    chain, order = longest_chain(tasks, weights), graphlib.TopologicalSorter(tasks)
    ready, running, well = [], {}, set()
    order.prepare()
    with ThreadPoolExecutor(lanes) as pool:
        # What waits for a task that failed never gets ready.
        while (ready := sorted([*ready, *order.get_ready()], key=lambda it: -chain[it])) or running:
            while ready and (idle := lanes - sum(jobs for _, jobs in running.values())) > 0:
                is_longest = chain[ready[0]] >= max((chain[it] for it, _ in running.values()), default=0)
                task, jobs = ready[0], min(2, lanes if is_longest else max(1, idle // len(ready)))
                ready.remove(task)
                running[pool.submit(work, task, jobs)] = task, jobs
            for it in wait(running, return_when=FIRST_COMPLETED).done:
                task, _ = running.pop(it)
                if it.result():
                    well.add(task)
                    order.done(task)
    return well


def link_tree(source, target):
    """Copies a folder by hard links, or by copies where the file system has none."""

    def link(one, other):
        try:
            os.link(one, other)
        except OSError:
            shutil.copy2(one, other)

    shutil.copytree(source, target, copy_function=link, dirs_exist_ok=True)


@contextlib.contextmanager
def room(name, crates, kept="moved"):
    """The root of a tree of its own for one crate, over what is kept of those below it. What is kept of the crate itself is `moved` there
    and back at the end, `copied`, or `left`: then a check there begins with nothing."""
    with tempfile.TemporaryDirectory(prefix=f"room-{name}-") as root:
        for it in [name, *below(name, crates)]:
            for part in PARTS:
                if os.path.isdir(f"{TOP}/crates/{it}/{part}"):
                    shutil.copytree(f"{TOP}/crates/{it}/{part}", f"{root}/crates/{it}/{part}")
            if it != name and os.path.isdir(f"{TOP}/crates/{it}/out/rlib"):
                link_tree(f"{TOP}/crates/{it}/out/rlib", f"{root}/crates/{it}/out/rlib")
        if os.path.isfile(f"{TOP}/HANDLES"):
            shutil.copy(f"{TOP}/HANDLES", root)
        with open(f"{TOP}/crates.txt", encoding="utf-8") as every, open(f"{root}/crates.txt", "w", encoding="utf-8") as own:
            own.writelines(line for line in every if line.partition(":")[0].strip() in {name, *below(name, crates)})
        there, here = f"{TOP}/crates/{name}/out", f"{root}/crates/{name}/out"
        try:
            if kept == "left":
                # The toolchain begins with what any checkout kept of the same sources, and else with what is kept here.
                os.makedirs(f"{here}/incremental")
                with open(f"{root}/crates/{name}/src/room", "w", encoding="utf-8") as it:
                    it.write(root)
            elif os.path.isdir(there):
                {"moved": shutil.move, "copied": shutil.copytree}[kept](there, here)
            yield root
        finally:
            if kept == "moved" and os.path.isdir(here):
                shutil.rmtree(there, ignore_errors=True)
                shutil.move(here, there)


class Ticker:
    """Calls something every so many seconds until it is left."""

    def __init__(self, seconds, call):
        self.seconds, self.call, self.ended = seconds, call, threading.Event()
        self.thread = threading.Thread(target=self.run, daemon=True)

    def run(self):
        while not self.ended.wait(self.seconds):
            self.call()

    def __enter__(self):
        self.thread.start()
        return self

    def __exit__(self, *_):
        self.ended.set()
        self.thread.join()
