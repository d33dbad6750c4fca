"""Judges the replays of the built program by worked examples: scripts, each with the answers that were worked for it.

The answers were written out from docs/FORMATS.md, and from nothing that the program answered; their digests are those of Python's `hashlib`
over a key and the octets before the key number. To add a script, write both files into crates/test_programs/data, begin the script with a
comment that says what it shows, and give the folder above its name in `args` and its line in `stdout`.
"""
import itertools
import os
import pathlib
import subprocess

import pytest

import judging
from judging import SLOW, TOP, PassedOver, same
from texts import files_below, lines_of, text_of

EXAMPLES, CRATE = "examples", "crates/test_programs"
# How long a run takes at most, in seconds.
WAIT = 60
ENROLMENT = "enrol 192.0.2.10 7 md5 6b6579 10"


def run(words, given="", folder=TOP):
    how = {"input": given.encode(), "stdout": subprocess.PIPE, "stderr": subprocess.PIPE, "cwd": folder}
    ran = subprocess.run(words, timeout=WAIT, **how)
    return ran.returncode, ran.stdout.decode(errors="replace"), ran.stderr.decode(errors="replace")


def replay(script):
    return run([judging.PROGRAM, "replay"], script)


def answers(lines):
    """The answers to lines that are all events."""
    status, written, faults = replay("".join(f"{line}\n" for line in lines))
    same("status and standard error", (0, ""), (status, faults))
    answers = written.splitlines()
    same("how many answers there are", len(lines), len(answers))
    return answers


def are_told(lines, wanted):
    for line, *both in zip(lines, wanted, answers(lines)):
        same(line, *both)


def names(folder):
    return sorted(os.path.basename(path).removesuffix(".script") for path in files_below(folder, ".script"))


def example(name, folder=f"{CRATE}/data"):
    """The events of a script, each with its answer."""
    events = [line for line in lines_of(f"{folder}/{name}.script") if line and line[0] != "#"]
    answers = lines_of(f"{folder}/{name}.answers")
    same(f"how many answers {name} has", len(events), len(answers))
    return list(zip(events, answers))


@pytest.mark.parametrize("script", [f"{it}/{name}" for it in (EXAMPLES, f"{CRATE}/data") for name in names(it)])
def test_script_is_replayed(script):
    events, wanted = (pathlib.Path(f"{TOP}/{script}.{it}").read_text() for it in ("script", "answers"))
    status, written, faults = replay(events)
    same("status and standard error", (0, ""), (status, faults))
    both = itertools.zip_longest(wanted.splitlines(True), written.splitlines(True))
    for number, lines in enumerate(both, 1):
        same(f"answer {number}", *lines)


def test_datagrams_get_the_same_answers_each_alone():
    """Those datagrams that save nothing are answered the same where each comes first."""
    (enrolment, done), *others = example("datagrams")
    for line, answer in others:
        are_told([enrolment, line], [done, answer])


def test_faulty_lines_are_told():
    for line, fault in (it.rsplit(" | ", 1) for it in lines_of("tests/faulty_lines") if it[0] != "#"):
        for behind in ("\nrevoke 192.0.2.10\n", "\n", ""):
            same(line, (1, "done\n", f"line 2: {fault}\n"), replay(f"{ENROLMENT}\n{line}{behind}"))


def held(name):
    """What it writes of a script of which all holds."""
    return f"{name}: run right, without memory right\n"


def test_each_script_is_given_to_test_programs():
    """It is given each script of its folder behind the word `all`, and its answers are there. It writes other lines too."""
    given = names(f"{CRATE}/data")
    same("args", ["all", *given], lines_of(f"{CRATE}/args"))
    same("stdout", [*map(held, given)], [line for line in text_of(f"{CRATE}/stdout").splitlines(True) if ": run " in line])
    same("data", sorted(f"{name}.{kind}" for name in given for kind in ("answers", "script")), sorted(os.listdir(f"{TOP}/{CRATE}/data")))


def test_examples_hold_in_one_process():
    program = f"{TOP}/{CRATE}/out/test_programs"
    if not os.access(program, os.X_OK):
        raise PassedOver("it is not built")
    given = names(EXAMPLES)
    same("what is seen", (0, "".join(map(held, given)), ""), run([program, "examples", *given], folder=f"{TOP}/{EXAMPLES}"))


def kind(answer):
    """A silence with its reason, and of any other answer its first word."""
    return answer if answer.startswith("silent ") else answer.split()[0]


@pytest.mark.proved_alone(SLOW)
def test_flood_of_forged_queries_changes_nothing_for_others():
    """70,000 forged queries are four crypto-NAKs and silence. The neighbour, in the midst of them, and the customer behind them are told
    what each would be alone."""
    lines = example("forged")
    (forged, nak), muted = lines[2], "silent muted"
    same("the forged query", forged, lines[5][0])
    flood = [*lines[:2], *[(forged, nak)] * 4, *[(forged, muted)] * 39_996, *lines[3:5], *[(forged, muted)] * 30_000, lines[6]]
    are_told(*zip(*flood))


@pytest.mark.proved_alone(SLOW)
def test_largest_budget_does_not_wrap():
    """The count does not wrap: past the largest budget one RATE is told, and then nothing."""
    _, (query, _) = example("time", EXAMPLES)
    told = map(kind, answers(["enrol 192.0.2.10 7 md5 6b6579 65535", *[query] * 70_000]))
    counts = [(word, len(list(some))) for word, some in itertools.groupby(told)]
    same("what is told", [("done", 1), ("time", 65_535), ("rate", 1), ("silent over-budget", 4_464)], counts)


def query_with_field():
    """The line of a signed query with a field of 16 octets, up to its octets, and these."""
    _, (line, _) = example("field")
    head, _, octets = line.rpartition(" ")
    return head, bytes.fromhex(octets)


def fronts():
    head, octets = query_with_field()
    return [f"{head} {octets[:length].hex() or '-'}" for length in range(len(octets))]


def changed():
    head, octets = query_with_field()
    change = lambda place, by: octets[:place] + bytes([octets[place] ^ by]) + octets[place + 1 :]
    return [f"{head} {change(place, by).hex()}" for place in range(len(octets)) for by in range(1, 256)]


def kind_of_front(length):
    """What a front of that query is told: the first 48 octets are the header, 64 end the field."""
    if length < 48:
        return "silent short"
    known = {48: "deny", 52: "silent bare", 68: "nak", 72: "nak"}
    return known.get(length, "silent rest 64" if length > 72 else "silent rest 48")


def test_each_front_of_a_query_has_its_answer():
    _, (query, _) = example("field")
    told = answers([ENROLMENT, *fronts(), query])
    same("what is told", ["done", *map(kind_of_front, range(84)), "time"], [kind(it) for it in told])


@pytest.mark.parametrize("handed_in", [fronts, pytest.param(changed, marks=pytest.mark.proved_alone(SLOW))], ids=["fronts", "changed octets"])
def test_part_of_a_query_alters_nothing(handed_in):
    """Lines that are handed in behind each event of an exchange change none of its answers, and are never told the time."""
    exchange, others = example("interleaved", EXAMPLES), handed_in()
    told = answers([line for event, _ in exchange for line in (event, *others)])
    among = len(others) + 1
    same("the answers of the exchange", [answer for _, answer in exchange], told[::among])
    del told[::among]
    same("what the others are told", set(), {kind(it) for it in told} & {"time", "rate"})
