"""Judges labntpctl from outside by what a clerk does with the commands file as a whole: it is folded, lost and had back, and given many
customers at once. Of the customers that a file comes to, tests/model.py is the judge. No key is shown, in any run.
"""
import os
import re
import time

import pytest
from hypothesis import given, settings

import judging
import probe
from drawn import histories, text_of
from judging import SLOW, enrolments, file_of, limited_to, same, until
from labntpctl_runs import CLERK, CUSTOMERS, FILE_LIMIT, KEY, RECORD, append_text, as_told, configured, customers_by, customers_now, enrolled, killed_at
from labntpctl_runs import lines_in, names_by, patient, read, room, run, served, told, wanted_text, without
from odd_host import RENAMES, in_front

HISTORIES = 300
KEPT = re.compile(r"commands\.\d{8}T\d{6}Z")
RESTART = "labntpd reads the new file at its next start, and carries out no further line before: restart labntpd"
LINES = [f"enrol 192.0.2.9 2 sha1 {KEY} 7", "revoke 192.0.2.1", f"rollover 192.0.2.2 9 sha1 {KEY[::-1]}", "# name 192.0.2.2 A", "# name 192.0.2.2 B", "budget 192.0.2.2 11", "nonsense", "# a comment", f"enrol 192.0.2.10 1 md5 {'00' * 32} 5", "revoke 192.0.2.9",
         "# name 192.0.2.10 ", "#" * 5000]


def files():
    return {it: read(it) for it in os.listdir(judging.ROOM) if os.path.isfile(room(it))}


def kept():
    return {it: text for it, text in files().items() if KEPT.fullmatch(it)}


def test_fold_writes_the_same_customers_in_the_fewest_lines():
    config = configured(commands=text_of(LINES))
    os.chmod(room("commands"), 0o640)
    if not os.geteuid():
        os.chown(room("commands"), 65534, 65534)
    before, old, stood = customers_now(), files(), os.stat(room("commands"))
    shown = run(["fold", "--dry-run", *config], 0)[1]
    same("it is only told", old, files())
    status, out, err = run(["fold", *config], umask=0)
    (name, text), = kept().items()
    after = os.stat(room("commands"))
    same("fold", (0, "", [f"customers: {len(enrolled(before))}", f"commands file: {len(read('commands'))} octets, {len(old['commands'])} before", f"kept: {room(name)}", RESTART]), (status, err, out.splitlines()))
    same("it was told", out.splitlines()[:2], shown.splitlines())
    same("the files", ({*old, name}, old["commands"]), ({*files()}, text))
    same("the modes", [(it.st_mode, it.st_uid, it.st_gid) for it in (stood, stood)], [(it.st_mode, it.st_uid, it.st_gid) for it in (os.stat(room(name)), after)])
    same("the customers", (before, as_told(before), {"192.0.2.2": "B"}), (customers_now(), told(*config), names_by(read("commands"))))
    verbs = [" ".join(it.split()[:2]) for it in lines_in("commands") if it[:1] not in ("", "#")]
    same("its lines", sorted(["enrol 192.0.2.1", "revoke 192.0.2.1", "enrol 192.0.2.9", "revoke 192.0.2.9", "enrol 192.0.2.2", "rollover 192.0.2.2", "enrol 127.0.0.1", "enrol 192.0.2.10"]), sorted(verbs))
    same("a name, and to whom a comment belongs", ["# a comment", "", "# name 192.0.2.2 B"], [it for it in lines_in("commands") if it[:1] in ("", "#")])
    same("no budget that is hardly meant", False, "budget 1:" in run(["check", *config])[1])
    again = files()
    for words in ([], ["--dry-run"]):
        same("folded again", (0, "nothing to fold\n", ""), run(["fold", *words, *config]))
    same("folded again: the files", again, files())


def test_fold_keeps_when_and_by_whom():
    """When a customer was last changed, and by whom, is kept; what belongs to several stands there once, and to nobody else."""
    config = configured(customers=[], commands=enrolments(CUSTOMERS[:1]) + "# 2026-01-01T00:00:00Z a\n# name 192.0.2.2 A\n" + enrolments(CUSTOMERS[1:]) + "# 2026-01-02T00:00:00Z b\nbudget 127.0.0.1 5\n\n"
                        + enrolments([("192.0.2.5", 5, "md5", "00", 1), ("192.0.2.6", 6, "md5", "00", 1), ("192.0.2.7", 7, "md5", "00", 1)]) + "# 2026-01-03T00:00:00Z c\nbudget 192.0.2.6 5\nbudget 192.0.2.7 6\nrevoke 192.0.2.8\n")
    wanted = ["enrol 192.0.2.1", "# 2026-01-01T00:00:00Z a", "# name 192.0.2.2", "enrol 192.0.2.2", "# 2026-01-02T00:00:00Z b", "enrol 127.0.0.1", "", "enrol 192.0.2.5", "# 2026-01-03T00:00:00Z c", "enrol 192.0.2.6", "enrol 192.0.2.7"]
    run(["fold", *config], 0)
    same("what is kept", wanted, [it if RECORD.fullmatch(it) else re.sub(r"( 192\S+| 127\S+) .*", r"\1", it) for it in lines_in("commands")])
    same("folded again", (0, "nothing to fold\n", ""), run(["fold", *config]))


@pytest.mark.proved_alone(SLOW)
def test_fold_of_long_files():
    lines = [f"{word} 11.{it >> 8}.{it & 255}.1 {rest}" for it in range(1, 8001) for word, rest in (("enrol", f"{it} md5 00 1"), ("budget", "2"))]
    config = configured(customers=[], commands=text_of([*lines, "enrol 192.0.2.1 8001 md5 00 1", "revoke 192.0.2.1"]))
    before = customers_now()
    with patient():
        run(["fold", *config], 0)
    same("many", (before, 8002), (customers_now(), len(lines_in("commands"))))
    line = f"enrol 192.0.2.9 2 sha1 {KEY} 7"
    config = configured(commands=text_of(["#" * (FILE_LIMIT - len(enrolments(CUSTOMERS)) - len(line) - 10), line, "revoke 192.0.2.1"]))
    same("what is behind", FILE_LIMIT + 9, os.path.getsize(room("commands")))
    with patient():
        status, out, err = run(["fold", *config])
    same("what is told", (0, "", True), (status, err, out.startswith(f"{room('commands')}: what stands behind {FILE_LIMIT} octets is left out: labntpd does not read it\n")))
    same("a full one", customers_by(f"{enrolments(CUSTOMERS)}{line}\n"), customers_now())


def test_fold_of_a_link_is_refused():
    """A link is not folded: the file that it names would stay as it is."""
    config = configured(commands=text_of(LINES))
    os.rename(room("commands"), room("others"))
    os.symlink("others", room("commands"))
    old = files()
    for words in ([], ["--dry-run"]):
        same("a link", (1, "", f"{room('commands')}: this is a symbolic link: name the file itself, {room('others')}, as `commands` in {room('labntpd.toml')}\n"), run(["fold", *words, *config]))
    same("the files", (old, True), (files(), os.path.islink(room("commands"))))


CUT, BROKEN = "File too large (os error 27)", "Input/output error (os error 5)"


def test_fold_leaves_all_at_a_fault_in_each_step():
    """Each step that fails: nothing is left of it, and the next try, in the same second, is good."""
    config, path, begun_at = configured(commands=text_of(LINES)), room("commands"), int(time.time())
    before = customers_now()
    taken = [f"commands.{time.strftime('%Y%m%dT%H%M%SZ', time.gmtime(begun_at + it))}" for it in range(60)]
    for name in taken:
        file_of(name, "another's\n")
    old = files()
    status, _, err = run(["fold", *config])
    same("a name is taken", (3, True, old), (status, err in [f"{room(it)}: File exists (os error 17)\n" for it in taken], files()))
    for name in taken:
        os.remove(room(name))
    old = files()
    for what, name, fault, begin in (("it is cut", "commands.new", CUT, lambda: limited_to(50)), ("it is not stored", "commands.new", BROKEN, without("fsync")), ("it is not put in place", "commands", BROKEN, without("rename"))):
        same(what, (3, f"{room(name)}: {fault}\n", old), (*run(["fold", *config], preexec_fn=begin)[::2], files()))
    file_of("commands.new", "what an earlier run left\n")
    same("the next try", (0, before, False), (run(["fold", *config])[0], customers_now(), os.path.exists(room("commands.new"))))
    # It is put in place, and the system tells an error of that: the old one is kept, which has no other name.
    config = configured(commands=text_of(LINES))
    same("a fault that is none", (3, f"{path}: {BROKEN}\n"), run(["fold", *config], env=os.environ | in_front(RENAMES))[::2])
    same("what is kept", ([old["commands"]], True, before), ([*kept().values()], read("commands") != old["commands"], customers_now()))


def test_fold_tells_a_directory_that_is_not_stored():
    """A directory that may be written, and cannot be stored, since it cannot be opened: the file is in place, and that is told."""
    names = ("below/commands", "labntpd.toml", "below")
    config = configured(commands=text_of(LINES))
    os.mkdir(room("below"))
    before, old = customers_now(), read("commands")
    os.rename(room("commands"), room(names[0]))
    file_of("labntpd.toml", read("labntpd.toml").replace(room("commands"), room(names[0])))
    with judging.bound_by_modes(*names) as how:
        os.chmod(room("below"), 0o300)
        status, out, err = run(["fold", *config], **how)
        os.chmod(room("below"), 0o700)
    same("the fault", (3, f"{room(names[0])}: Permission denied (os error 13)\n"), (status, err))
    *_, where, restart = out.splitlines()
    same("what is told", (old, RESTART), (read(where.removeprefix(f"kept: {room('')}")), restart))
    same("the customers", (True, before), (read(names[0]) != old, customers_by(read(names[0]))))


def test_fold_at_random_is_the_models():
    kinds = {"revoked": 0, "two keys": 0, "nobody": 0, "nothing to fold": 0}

    @settings(max_examples=HISTORIES)
    @given(histories(200))
    def is_folded(history):
        config = configured(customers=[], commands=history)
        before, names = customers_now(), names_by(history)
        same("told", as_told(before), told(*config))
        status, out, _ = run(["fold", *config])
        same("fold", (0, before), (status, customers_now()))
        same("the program", as_told(before), told(*config))
        same("names", {it: names[it] for it in names if before.get(it)}, {it: name for it, name in names_by(read("commands")).items() if before.get(it)})
        fewest = sum(len(it[0]) if it else 2 for it in before.values())
        lines = [it for it in lines_in("commands") if it and it[0] != "#"]
        same("lines", len(lines) if "nothing" in out else fewest, len(lines))
        kinds["revoked"] += any(not it for it in before.values())
        kinds["two keys"] += any(it and len(it[0]) == 2 for it in before.values())
        kinds["nobody"] += not before
        kinds["nothing to fold"] += "nothing" in out

    is_folded()
    assert min(kinds.values()) >= 5, f"few kinds of histories: {kinds}"


def are_there(config, what):
    until(f"{what}: labntpd has the model's customers", lambda: os.path.exists(room("customers")) and told(*config) == as_told(customers_now()))
    same(f"{what}: the file and labntpd", (0, "", ""), run(["customers", "--compare", *config]))


def killed(words, commands, good):
    """A run over this commands file is killed at each of its calls of the system: what stands there is the old file or the new one, and the old
    one is kept; the next run, which is not killed, leads to the new one; a labntpd that starts has the customers of each."""
    file_of("commands", commands)
    same("not killed", good, run(words)[0])
    stood = {}
    # The time of an order is another one in each run.
    now = lambda: re.sub(f"(?m)^# \\S+Z {CLERK}$", f"# {CLERK}", read("commands"))
    whole = now()
    for most in range(1, 100_000):
        for name in kept():
            os.remove(room(name))
        file_of("commands", commands)
        ended = killed_at(words, most)
        there = now()
        same(f"killed at call {most}", (True, True), (there in (commands, whole), there.startswith(commands) or commands in kept().values()))
        if there not in stood:
            with served(words[-2:]):
                are_there(words[-2:], f"killed at call {most}")
            for name in ("customers", "answers"):
                os.remove(room(name))
        stood.setdefault(there, most)
        for name in kept():
            os.remove(room(name))
        if ended:
            break
        same(f"killed at call {most}: the next run", (True, whole), (run(words)[0] in (0, good), now()))
        same(f"killed at call {most}: what is left", [], [it for it in files() if it.endswith(".new")])
    same("it is killed before and behind its work", [commands, whole], [*stood])
    assert stood[whole] < most and stood[commands] == 1, f"it is never killed behind its work: {stood.values()} of {most}"


def test_fold_and_apply_survive_kills_at_each_call():
    many = [(f"192.0.2.{it}", it, "md5", f"{it:02x}" * 16, it) for it in range(20, 60)]
    config = configured(probe.free_port(), customers=[])
    # The key that a fold gives whoever is revoked is another one each time.
    commands = enrolments([*CUSTOMERS, *many]) + text_of(it for it in LINES if not it.startswith("revoke"))
    killed(["fold", *config], commands, 0)
    others = customers_by(enrolments([*CUSTOMERS[1:], *many[10:30], *((*it[:4], 100) for it in many[30:])]))
    path = file_of("wanted.toml", wanted_text(others, {"192.0.2.2": "A", "192.0.2.33": "B"}))
    killed(["apply", path, "--yes", "--end-many", "--wait", "0", *config], commands, 3)


def test_clerks_day_is_the_models():
    """At each step labntpd has the customers of the model."""
    config = configured(probe.free_port(), customers=[], statistics="statistics")

    def change(*words):
        status, out, err = run([*words, *config])
        same(" ".join(words), (0, "", True), (status, err, out.endswith(": done\n")))
        are_there(config, " ".join(words))

    with served(config):
        are_there(config, "nobody")
        for it in range(1, 11):
            change("enrol", f"192.0.2.{it}", "--budget", str(10 + it), "--name", f"laboratory {it}")
        for words in (["rollover", "192.0.2.1"], ["retire", "192.0.2.1", "--yes"], ["revoke", "192.0.2.2"], ["budget", "192.0.2.3", "50"]):
            change(*words)
        append_text(f"rollover 192.0.2.4 77 md5 {'5e' * 16}\n")
        are_there(config, "an editor's line")
        customers, names = enrolled(customers_now()), names_by(read("commands"))
        customers["192.0.2.5"] = (customers["192.0.2.5"][0], 30)
        customers["192.0.2.12"] = ([(78, ("sha1", b"a key of twenty octets"[:20]))], 9)
        file_of("wanted.toml", wanted_text(customers, {**names, "192.0.2.12": "a new one"}))
        change("apply", room("wanted.toml"), "--yes")
        same("export", (0, "10 customers\n", ""), run(["export", room("monday.toml"), *config]))
        change("enrol", "192.0.2.11", "--budget", "21")
        change("rollover", "192.0.2.6")
        os.remove(room("commands"))
        same("no file", 3, run(["budget", "192.0.2.1", "7", *config])[0])
        # It is made anew beside, of what was exported, and put in place.
        file_of("aside.commands", "")
        file_of("aside.toml", "".join(it.replace(room("commands"), room("aside.commands")) for it in read("labntpd.toml").splitlines(True) if not it.startswith(("answers", "customers", "statistics"))))
        same("had back", 3, run(["apply", room("monday.toml"), "--yes", "--wait", "0", "--config", room("aside.toml")])[0])
        os.rename(room("aside.commands"), room("commands"))
        lost = [it.split(":")[0] for it in run(["customers", "--compare", *config], 1)[1].splitlines()]
        same("what was lost", ["192.0.2.2", "192.0.2.6", "192.0.2.11"], lost)
        until("labntpd tells that", lambda: "labntp_commands_changed 1\n" in read("statistics"), 30)
        same("changes wait", 1, run(["budget", "192.0.2.1", "7", *config])[0])
    same("whom the new file makes", (customers, {**names, "192.0.2.12": "a new one"}), (customers_now(), {**names_by(read("commands")), "192.0.2.2": names["192.0.2.2"]}))
    with served(config):
        are_there(config, "had back")
        change("enrol", "192.0.2.11", "--budget", "21", "--output", room("again.keys"))
        change("rollover", "192.0.2.6", "--output", room("once more.keys"))
        change("revoke", "192.0.2.7")
        before = customers_now()
        same("fold", (0, before), (run(["fold", *config])[0], customers_now()))
        same("labntpd and the file", (0, "", ""), run(["customers", "--compare", *config]))
    with served(config):
        are_there(config, "folded, and begun again")
        change("enrol", "192.0.2.13")
