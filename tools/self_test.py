#!/usr/bin/env python3
"""Tests tools/wrong_bodies over two small crates, made in a folder that is removed again.

    tools/wrong_bodies --self-test

Prints `ok NAME` or `FAILED NAME: what was seen`, and last `N passed, M failed`; status 1 where M is not 0.
"""
import os
import shutil
import subprocess
import sys
import tempfile

HERE = os.path.dirname(os.path.realpath(__file__))
NUMBERS = """//! Numbers that are a little larger.
#![tactic(auto)]

ghost use Rattle.std.specs.Prelude.{◌≡◌, ◌+◌, ◌≤◌};

const STEP: u32 = 1;

/// One more.
pub fn more(x: u32) -> u32
    requires { x ≤ 7 }
    ensures { result ≡ x + 1 }
{
    x + STEP
}

/// Two more.
pub fn two_more(x: u32) -> u32
    requires { x ≤ 6 }
    ensures { result ≡ x + 2 }
{
    let one = more(x);
    more(one)
}

/// Three more.
pub fn three_more(x: u32) -> u32
    requires { x ≤ 5 }
    ensures { result ≡ x + 3 }
{
    more(two_more(x))
}

/// Nine at most.
pub fn little(x: u32) -> u32
    ensures { result ≤ 9 }
{
    x.min(9)
}

/// What is counted.
pub trait Counted {
    /// How many there are.
    fn count(&self) -> u32
        ensures { result ≤ 9 };
}

/// Any number.
pub struct Number(pub u32);

impl Counted for Number {
    fn count(&self) -> u32 {
        self.0.min(9)
    }
}
"""
ANSWERS = """use Rattle.std.proofs.Common.{◌≡◌, ◌+◌, arith}
use Rattle.numbers.proofs.two_more.Goals as goal

pub returns : goal.returns
returns c =
    let one : c.more-one.result ≡ c.args.x + 1 = c.more-one.ensures in
    let two : c.more.result ≡ c.more-one.result + 1 = c.more.ensures in
    omega arith
"""
SMALL = """//! A small number.
#![tactic(auto)]

ghost use Rattle.std.specs.Prelude.{◌≤◌};

/// Nine at most.
pub fn small(x: u32) -> u32
    ensures { result ≤ 9 }
{
    x.min(7)
}
"""
# What is refused: in one body, in one that has a proof file, in one that is tried in its place, and by more than one body.
REFUSED = {
    "numbers/none_more": [("    x + STEP", "    x")],
    "numbers/one_too_few": [("    more(one)", "    more(one) - 1")],
    "numbers/ten_at_most": [("    x.min(9)", "    x.min(10)")],
    "numbers/ten_are_counted": [("self.0.min(9)", "self.0.min(10)")],
    "numbers/steps_of_two": [("STEP: u32 = 1", "STEP: u32 = 2")],
    "small/as_large_as_it_is": [("    x.min(7)", "    x")],
}
# What is not, and what has to be said of it. The first of these calls what another edit makes wrong; three change what others change too.
NOT_REFUSED = {
    "numbers/in_another_order": ([("    more(two_more(x))", "    two_more(more(x))")], "NOT REFUSED"),
    "numbers/eight_at_most": ([("    x.min(9)", "    x.min(8)")], "NOT REFUSED"),
    "numbers/under_another_name": ([("let one = more(x)", "let first = more(x)"), ("more(one)", "more(first)")], "refused only because a proof file names"),
    "numbers/no_such_method": ([("    x.min(9)", "    x.mn(9)")], "it cannot be applied, or does not compile: src/lib.rt:37:"),
    "numbers/no_such_line": ([("y.min(9)", "x")], "it cannot be applied, or does not compile: an `old:` text is in src/lib.rt 0 times"),
}


def write(path, text):
    os.makedirs(os.path.dirname(path), exist_ok=True)
    with open(path, "w", encoding="utf-8") as file:
        file.write(text)


def edit_file(top, name):
    crate, _, edit = name.partition("/")
    return f"{top}/crates/{crate}/wrong-bodies/{edit}.edit"


def make(top):
    shutil.copytree(HERE, f"{top}/tools")
    write(f"{top}/crates.txt", "numbers:\nsmall:\n")
    write(f"{top}/crates/numbers/src/lib.rt", NUMBERS)
    write(f"{top}/crates/numbers/proofs/two_more/Answers.antt", ANSWERS)
    write(f"{top}/crates/small/src/lib.rt", SMALL)
    for name, pairs in {**REFUSED, **{name: pairs for name, (pairs, _) in NOT_REFUSED.items()}}.items():
        write(edit_file(top, name), "file: src/lib.rt\n" + "".join(f"old: {old}\nnew: {new}\n" for old, new in pairs))


def ran(top, *words):
    """The lines that tools/wrong_bodies prints of that repository, and its status."""
    it = subprocess.run([f"{top}/tools/wrong_bodies", *words], stdin=subprocess.DEVNULL, stdout=subprocess.PIPE, text=True)
    return it.stdout.splitlines(), it.returncode


def begins(lines, words):
    return sum(it.startswith(words) for it in lines)


def cases(top):
    """The name of each case, and what is wrong with what was seen, or nothing."""
    digests = f"{top}/.ci/wrong_bodies.digests"
    write(edit_file(top, "small/no_such_function"), "file: src/lib.rt\nold:     x.min(7)\nnew:     least(x, 7)\n")
    lines, status = ran(top, "--check")
    told = ("small/wrong-bodies/no_such_function.edit: its file names no function least", "numbers/wrong-bodies/no_such_line.edit: ")
    is_told = all(begins(lines, f"FAILED {it}") == 1 for it in told) and lines[-1].endswith(" passed, 2 failed") and status == 1
    yield "checked", "" if is_told else "\n".join(lines)
    os.remove(edit_file(top, "small/no_such_function"))
    lines, status = ran(top)
    for name, (_, said) in NOT_REFUSED.items():
        crate, _, edit = name.partition("/")
        yield f"noticed/{edit}", "" if begins(lines, f"FAILED {crate}/wrong-bodies/{edit}.edit: {said}") == 1 else "\n".join(lines)
    yield "whole", "" if (lines[-1], status) == (f"{len(REFUSED)} passed, {len(NOT_REFUSED)} failed", 1) else f"{lines[-1]}, status {status}"
    # The crate as it stands; all but two edits, twice, since one does not compile; and alone what changes no body and what is not refused.
    yield "many_in_one_check", "" if begins(lines, "numbers: 5 of 10 refused, in 7 checks") == 1 else "\n".join(lines)
    for name in NOT_REFUSED:
        os.remove(edit_file(top, name))
    os.mkdir(os.path.dirname(digests))
    lines, status = ran(top, "--write-digests")
    yield "all_refused", "" if (lines[-1], status) == (f"{len(REFUSED)} passed, 0 failed", 0) else "\n".join(lines)
    lines, status = ran(top, "--behind-ci")
    yield "behind_ci", "" if (lines[-1], status) == (f"{len(REFUSED)} passed, 0 failed", 0) else "\n".join(lines)
    lines, status = ran(top, "--tenth", "9")
    yield "as_noted", "" if (lines[-1], status) == ("0 passed, 0 failed", 0) else "\n".join(lines)
    lines, status = ran(top, "--minutes", "0")
    yield "left_for_want_of_time", "" if (lines[-1], status) == (f"0 passed, 0 failed, {len(REFUSED)} skipped", 0) else "\n".join(lines)
    with open(digests, encoding="utf-8") as file:
        numbers, small = file.read().splitlines()
    write(digests, f"{numbers}\n{small[:-1]}{'0' if small[-1] != '0' else '1'}\nabsent {'0' * 64}\nsmall\n")
    lines, status = ran(top, "--tenth", "9")
    yield "false_digest", "" if begins(lines, "small: 1 of 1 refused") == 1 else "\n".join(lines)
    seen = begins(lines, "FAILED wrong_bodies.digests: "), lines[-1], status
    yield "bad_digests", "" if seen == (2, "1 passed, 2 failed", 1) else "\n".join(lines)
    lines, status = ran(top, "--plant", "1", "small")
    yield "planted", "" if (begins(lines, "LET THROUGH small/src/lib.rt:10"), status) == (1, 0) else "\n".join(lines)
    # (the libraries that are built stand in `out`)
    yield "nothing_is_left", "" if sorted(os.listdir(f"{top}/crates/small")) == ["out", "src", "wrong-bodies"] else "a run left something"


def main():
    counts = [0, 0]
    with tempfile.TemporaryDirectory(prefix="self-test-") as top:
        make(top)
        for name, fault in cases(top):
            counts[bool(fault)] += 1
            print(f"FAILED {name}: {fault}" if fault else f"ok {name}", flush=True)
    print(f"{counts[0]} passed, {counts[1]} failed")
    return 1 if counts[1] else 0


if __name__ == "__main__":
    sys.exit(main())
