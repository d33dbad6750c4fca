"""Tests tools/belief over a small repository in a folder of its own; its lines were counted by hand."""
import os
import shutil
import subprocess
import sys
import tempfile
import unittest

HERE = os.path.dirname(os.path.realpath(__file__))
SPECS = """-- Sums.
use Rattle.std.specs.Prelude.{ℕ, ◌+◌}
use Rattle.low.specs.declared.lib.Keeper as keeper
-- one more,
-- as a clerk counts (profile)
abbrev pub more : ℕ → ℕ
more n = n + 1
-- two more, by `more`
abbrev pub two_more : ℕ → ℕ
two_more n = let one = more n in more one
-- what a keeper has
abbrev pub had : {P : Type 0} {given : keeper.Ghosts P} → P → ℕ
had {given} p = given.kept p
"""
SOURCE = """//! Low.
ghost use Rattle.std.specs.Prelude.{◌≡◌, ◌<◌, ℕ};
ghost use Rattle.low.specs.Sums.{had, more, two_more};
/// A count.
pub struct Count(pub u8);
pub trait Keeper {
    // How many it has.
    ghost kept: { Self → ℕ } = { λ _. 0 };
    // How many it had.
    ghost lost: { Self → ℕ } = { λ _. 0 };
    fn look(&self)
        ensures same { kept self.now ≡ kept self.now }
        ensures none { lost self.now ≡ lost self.now };
}
/// Adds one. This comment counts for no clause.
pub fn add(n: u8) -> u8
    requires { n < 200 }
    ensures value { result ≡ more n }
{
    n + 1
}
pub fn add_two(count: &Count) -> u8
    // In words of the definition.
    ensures value { result ≡ two_more count.now.0 }
    ensures small { result < 202 }
{}
pub fn ask<K: Keeper>(keeper: &K) -> u8
    ensures { result ≡ had keeper.now }
{}
fn add_less(n: u8) -> u8
    ensures { result ≡ n }
{}
"""
PROMISES = "The headline\n    low: add\nThe headline of the daemon\n    low: add; add_two (value)\n{0}\n    low: ask\n"
PAGE = "<!-- tools/belief --write: -->\n<!-- end -->\n## {0}\n"
SUMS, CODES, DAEMON = "crates/low/specs/Sums.antt", "crates/low/specs/Codes.antt", "What `labntpd` has besides"
FILES = {
    **{"crates.txt": "low:\nlabntp: low\n", "crates/low/specs/Lib.antt": "pub mod Sums\npub mod Codes\n", "README.md": ""},
    **{SUMS: SPECS, CODES: "-- Not to be believed: for proofs.\n", "crates/low/src/lib.rt": SOURCE},
    **{"tools/promises": PROMISES.format(DAEMON), "docs/PROOFS.md": PAGE.format(DAEMON)},
}


class Belief(unittest.TestCase):
    def setUp(self):
        room = tempfile.TemporaryDirectory(prefix="belief-")
        self.addCleanup(room.cleanup)
        self.top = room.name
        for path in FILES:
            self.replace(path)
        for name in ("belief", "rooms.py", "sources.py", "texts.py"):
            shutil.copy(f"{HERE}/{name}", f"{self.top}/tools/{name}")

    def replace(self, path, old="", new=""):
        self.assertIn(old, FILES[path])
        os.makedirs(os.path.dirname(f"{self.top}/{path}"), exist_ok=True)
        with open(f"{self.top}/{path}", "w", encoding="utf-8") as it:
            it.write(FILES[path].replace(old, new) if old else FILES[path])

    def says(self, words, *command, status=0):
        ran = subprocess.run([sys.executable, f"{self.top}/tools/belief", *command], capture_output=True, text=True)
        self.assertEqual((status, ""), (ran.returncode, ran.stderr), ran.stdout)
        self.assertIn(words, ran.stdout)

    def test_lines_are_counted_with_comments_and_once(self):
        # `requires` and `value` of add with more; `value` of add_two with its comment and two_more, and apart the type Count.
        self.says("headline: 6 lines", "headline")
        self.says("daemon: 11 lines", "daemon")
        self.says("with 2 lines, which are not counted above (13 with them): Count (low/src/lib.rt)", "daemon")
        # The clause of ask with had, and what had names of the trait, with its clause. Of the contracts only add_less has none.
        self.says("promises: 18 lines", "promises")
        self.says("contracts: 22 lines", "contracts")

    def test_clauses_are_listed_by_files(self):
        self.says(f"{DAEMON}\n    crates/low/src/lib.rt: ask\n", "clauses")

    def test_a_name_that_is_bound_and_imported_is_imported(self):
        self.replace(SUMS, "\nmore n = n + 1", "\nmore two_more = two_more + 1")
        self.says("headline: 9 lines")

    def test_what_is_written_is_compared(self):
        self.says("FAILED page", "--check", status=1)
        self.says("", "--write")
        self.says("ok page\nok promises\nok numbers\nok marks\n", "--check")
        self.replace(CODES, "-- Not", "-- Is")
        self.says("ok page\nok promises\nok numbers\nFAILED marks", "--check", status=1)
        self.replace(SUMS, "-- one more,\n")
        self.says("FAILED page", "--check", status=1)

    def test_what_has_no_place_is_a_fault(self):
        self.replace("tools/promises", "value", "valued")
        self.says("FAILED belief: tools/promises: add_two of low has no clause valued", "daemon", status=1)
        self.replace(SUMS, "n + 1", "n + step")
        self.says("FAILED belief: crates/low/specs/Sums.antt: more: what is `step`?", status=1)


if __name__ == "__main__":
    unittest.main()
