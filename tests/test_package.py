"""Judges the Debian package that packaging/deb makes of the programs: as it is, below a root of its own, and under a systemd of its own.

The release that it is upgraded from is the package at $LAST_RELEASE, or the package itself under an earlier version. Programs that have no
record of their proof (tools/records.py) are packed as such, and the case of the record is passed over.

It needs dpkg, and for some cases root, git, rt, groff, lintian, systemd-analyze, or what tests/own_systemd.py lists; else they are passed
over. No network is asked, and nothing is left.
"""
import contextlib
import hashlib
import io
import json
import os
import pathlib
import re
import shutil
import subprocess
import tarfile
import tempfile
import time

import pytest

import judging
import labntpd_server
import odd_host
import own_network
import own_systemd
import probe
import records
from judging import LARGE, TOP, PassedOver, same
from own_systemd import edit, run as sh

MASK = 0o022
PROGRAMS = dict(zip(judging.PROGRAMS, judging.built(*judging.PROGRAMS)))
LABNTP, LABNTP_QUERY, LABNTPD, LABNTPCTL = PROGRAMS.values()
pytestmark = pytest.mark.proved_alone(LARGE)
DOCUMENTATION = "usr/share/doc/labntp"
CONFFILE = "/etc/labntp/labntpd.toml"
KEPT = [CONFFILE, "/etc/labntp/clock.key", "/var/lib/labntp/commands"]
SERVICE, SOCKET, PORT = "labntpd.service", "labntpd.socket", 123
UNITS = [SERVICE, SOCKET, "labntpd@.service", "labntpd@.socket", "labntpd-check@.service", "labntpd-check@.timer"]
UNITS += ["labntpd-door@.path", "labntpd-door@.service", "labntpd-door-changed@.service"]
INSTANCE = [f"labntpd@12301.{it}" for it in ("service", "socket")]
CHECK, CHECK_TIMER = (f"labntpd-check@198.51.100.1.{it}" for it in ("service", "timer"))
# What has the kernel police that server's door.
DOOR = [f"labntpd-door{it}" for it in ("@198.51.100.1.path", "@198.51.100.1.service", "-changed@198.51.100.1.service")]
# How exposed a service is at most, ten times what systemd 252 reckons. What is left of the check's are the network, IPv4, any address of it,
# the host's root directory, and the clock's device, which a protected clock makes readable. The door's has nftables, with a capability.
EXPOSED = {SERVICE: 13, CHECK: 11, DOOR[1]: 13}

# What the package has: modes and paths of files, but for those of docs/ and of examples/; and its folders of another mode than 755.
LIST = """
640 etc/labntp/labntpd.toml
644 lib/systemd/system/labntpd-check@.service
644 lib/systemd/system/labntpd-check@.timer
644 lib/systemd/system/labntpd-door-changed@.service
644 lib/systemd/system/labntpd-door@.path
644 lib/systemd/system/labntpd-door@.service
644 lib/systemd/system/labntpd.service
644 lib/systemd/system/labntpd.socket
644 lib/systemd/system/labntpd@.service
644 lib/systemd/system/labntpd@.socket
755 usr/bin/labntp
755 usr/bin/labntp-query
644 usr/lib/sysusers.d/labntp.conf
755 usr/sbin/labntpctl
755 usr/sbin/labntpd
644 usr/share/doc/labntp/README.Debian
644 usr/share/doc/labntp/README.md
644 usr/share/doc/labntp/changelog.gz
644 usr/share/doc/labntp/copyright
755 usr/share/doc/labntp/scale/cores
755 usr/share/doc/labntp/scale/machines
644 usr/share/doc/labntp/scale/buckets.py
755 usr/share/doc/labntp/scale/statistics
644 usr/share/lintian/overrides/labntp
644 usr/share/man/man1/labntp.1.gz
644 usr/share/man/man1/labntp-query.1.gz
644 usr/share/man/man8/labntpctl.8.gz
644 usr/share/man/man8/labntpd.8.gz
"""
CLOSED = ("etc/labntp", "var/lib/labntp")
# What others than root may do with the files that are installed, by mode and group; the group's number is another one on each host.
INSTALLED = {"/etc/labntp": "750 root labntp", "/var/lib/labntp": "750 root labntp"}
INSTALLED |= {it: "640 root labntp" for it in (CONFFILE, "/var/lib/labntp/commands")}

SMALL = """\
//! Says its name.
#![tactic(auto)]

use std::io;

fn main(rt: HostRuntime) -> io::Result<()> {
    println!(rt; "small")
}
"""

TEN = "192.0.2.10"
# Within how many seconds the page's commands lead to the first customer's time.
SOON = 10


# ---- Means

def command(*words, wanted=0, env_of=(), **how):
    """What a command prints; it is to end with this status, where one is wanted. `env_of` are more words of its environment."""
    how = {"stdin": subprocess.DEVNULL, "stdout": subprocess.PIPE, "stderr": subprocess.STDOUT, "text": True, "errors": "replace", "timeout": own_systemd.LIMIT, **how}
    environment = {**os.environ, "PATH": f"{os.environ.get('PATH', '')}:{own_systemd.PATH}", "LC_ALL": "C.UTF-8", **dict(env_of)}
    ran = subprocess.run(words, env=environment, **how)
    assert wanted in (None, ran.returncode), f"{' '.join(words)} ended with {ran.returncode}: {(ran.stdout or '').strip()[-300:]}"
    return ran.stdout


def is_there(name):
    return shutil.which(name, path=f"{os.environ.get('PATH', '')}:{own_systemd.PATH}")


def read(path):
    return pathlib.Path(path).read_bytes()


def programs_of(**others):
    """The words that name the programs to packaging/deb."""
    return [word for name, path in {**PROGRAMS, **others}.items() for word in (f"--{name.replace('_', '-')}", path)]


def unproved():
    """Why the programs are not packed as proved ones; or nothing."""
    return next(filter(None, (records.misfit(name, path) for name, path in PROGRAMS.items())), "")


def git(*words):
    """What git prints of this checkout, or nothing where it fails."""
    if not is_there("git"):
        return None
    how = {"stdin": subprocess.DEVNULL, "stdout": subprocess.PIPE, "stderr": subprocess.DEVNULL, "text": True}
    ran = subprocess.run(["git", "-C", TOP, *words], env={**os.environ, "TZ": "UTC"}, **how)
    return ran.stdout.strip() if ran.returncode == 0 else None


def is_dirty():
    """Whether the checkout has changes, or there is none."""
    return git("status", "--porcelain") != ""


def build(folder, *words):
    """Builds the package into a folder, and gives its path."""
    os.mkdir(folder)
    as_such = ["--unproved"] * bool(unproved()) + ["--dirty"] * is_dirty()
    return command(f"{TOP}/packaging/deb", *programs_of(), *as_such, *words, folder).strip()


def package():
    """The path of the package, which is built once."""
    if missing := [it for it in ("dpkg", "dpkg-deb", "ldd", LABNTP, LABNTP_QUERY, LABNTPCTL) if not is_there(it)]:
        raise PassedOver(f"there is no program {missing[0]}")
    folder = f"{judging.ROOM}/package"
    return f"{folder}/{os.listdir(folder)[0]}" if os.path.exists(folder) else build(folder)


def before(deb):
    """The path of a package of a release before: the one that the environment names, or this one under an earlier version."""
    if named := os.environ.get("LAST_RELEASE"):
        return named
    folder, path = f"{judging.ROOM}/before", f"{judging.ROOM}/before.deb"
    command("dpkg-deb", "--raw-extract", deb, folder)
    edit(f"{folder}/DEBIAN/control", ("^Version: .*", f"Version: {command(LABNTPD, '--version').split()[1]}~before"))
    command("dpkg-deb", "--root-owner-group", "-Znone", "--build", folder, path)
    return path


def members(part="--fsys-tarfile"):
    """What is in the package, or in the part of it that is for dpkg, by the path."""
    octets = command("dpkg-deb", part, package(), text=False, errors=None, stderr=subprocess.DEVNULL)
    archive = tarfile.open(fileobj=io.BytesIO(octets))
    return {os.path.normpath(it.name): (it, archive.extractfile(it).read() if it.isfile() else b"") for it in archive}


def tree():
    folder = f"{judging.ROOM}/tree"
    if not os.path.exists(folder):
        command("dpkg-deb", "-x", package(), folder)
    return folder


def test_build_has_the_same_octets_each_time():
    first, folder = package(), f"{judging.ROOM}/again"
    before = os.umask(0o077)
    try:
        second = build(folder)
    finally:
        os.umask(before)
    same("its path", f"{folder}/{os.path.basename(first)}", second)
    same("whether it has the same octets", True, read(first) == read(second))
    shutil.rmtree(folder)
    said = command(f"{TOP}/packaging/deb", *programs_of(labntpd="/nowhere"), judging.ROOM, wanted=1)
    same("what is said of no program", True, said.startswith("packaging/deb: ") and "/nowhere" in said)


def test_contents_have_files_modes_and_owners():
    """Each file with its mode, of root; the programs as they were handed in; the units of the examples, but for the program's path and pages."""
    wanted = {path: mode for mode, path in map(str.split, LIST.strip().splitlines())}
    wanted |= {f"{DOCUMENTATION}/{it}": "644" for it in ("proved.json", "proved.sha256") if not unproved()}
    for folder in ("docs", "examples"):
        mode = lambda it: "755" if os.access(f"{TOP}/{folder}/{it}", os.X_OK) else "644"
        wanted |= {f"{DOCUMENTATION}/{folder}/{it}": mode(it) for it in {*os.listdir(f"{TOP}/{folder}")} - {*UNITS}}
    folders = {f"{it}" for path in [*wanted, *(f"{it}/-" for it in CLOSED)] for it in pathlib.Path(path).parents}
    wanted |= {it: "750" if it in CLOSED else "755" for it in folders}
    found = members()
    same("files and modes", wanted, {path: f"{it.mode:o}" for path, (it, _) in found.items()})
    same("what is not root's", [], [path for path, (it, _) in found.items() if (it.uid, it.gid, it.uname, it.gname) != (0, 0, "root", "root")])
    same("links and the like", [], [path for path, (it, _) in found.items() if not it.isfile() and not it.isdir()])
    handed_in = {"usr/sbin/labntpd": LABNTPD, "usr/bin/labntp": LABNTP, "usr/bin/labntp-query": LABNTP_QUERY, "usr/sbin/labntpctl": LABNTPCTL}
    for path, ours in {**handed_in, f"{DOCUMENTATION}/docs/FORMATS.md": f"{TOP}/docs/FORMATS.md"}.items():
        same(f"whether {path} is the file that was handed in", True, found[path][1] == read(ours))
    for unit in UNITS:
        text = found[f"lib/systemd/system/{unit}"][1].decode()
        same(f"pages and paths by hand in {unit}", (1, 0), (text.count("\nDocumentation="), text.count("/usr/local/")))
        plain = re.sub(r"(?m)^Documentation=.*\n", "", text).replace("/usr/sbin/labntp", "/usr/local/sbin/labntp")
        plain = plain.replace("/usr/bin/labntp-query", "/usr/local/bin/labntp-query")
        plain = plain.replace("\nListenDatagram=0.0.0.0:123\n", "\nListenDatagram=192.0.2.1:123\n")
        same(unit, read(f"{TOP}/examples/{unit}").decode(), plain)


def test_control_has_fields_conffiles_digests_and_scripts():
    found, wanted = members("--ctrl-tarfile"), ["control", "conffiles", "md5sums", "postinst", "prerm", "postrm"]
    same("files", sorted([".", *wanted]), sorted(found))
    fields, version = dict(re.findall(r"(?m)^(\S+): (.*)$", found["control"][1].decode())), wanted_version()
    same("fields", ("labntp", version), (fields["Package"], fields["Version"]))
    is_linked = "libc.so.6" in command("ldd", LABNTPD, wanted=None)
    same("whether it wants the C library", is_linked, bool(re.match(r"libc6 \(>= 2\.\d+\)", fields["Depends"])))
    same("conffiles", f"{CONFFILE}\n", found["conffiles"][1].decode())
    digests = {f"/{path}": hashlib.md5(octets).hexdigest() for path, (it, octets) in members().items() if it.isfile()}
    told = {f"/{path}": digest for digest, path in map(str.split, found["md5sums"][1].decode().splitlines())}
    same("digests", {path: it for path, it in digests.items() if path != CONFFILE}, told)
    for name in ("postinst", "prerm", "postrm"):
        same(f"the mode of {name}", 0o755, found[name][0].mode)
        command("sh", "-n", "-c", found[name][1].decode())


def wanted_version():
    """The release, with the commit behind it and what is packed as such."""
    release, commit = command(LABNTPD, "--version").split()[1], git("rev-parse", "HEAD")
    is_release = not commit or f"v{release}" in git("tag", "--points-at", "HEAD").split()
    behind = "" if is_release else "+git" + git("log", "-1", "--format=%cd.%h", "--abbrev=7", "--date=format-local:%Y%m%d%H%M%S")
    return release + behind + "+dirty" * is_dirty() + "+unproved" * bool(unproved())


def test_versions_of_a_later_commit_are_newer_than_their_release():
    """A later commit is newer than its release, and older than the next one; so apt upgrades to it, and from it."""
    version = wanted_version()
    release = version.partition("+")[0]
    for one, other in ((release, version), (version, f"{release}.1")):
        command("dpkg", "--compare-versions", one, "le", other)
    same("whether the version tells what is packed as such", (bool(unproved()), is_dirty()), ("+unproved" in version, "+dirty" in version))


def test_record_has_commit_kit_and_sources_of_each_program():
    if why := unproved():
        raise PassedOver(why)
    folder = tree()
    named = read(f"{folder}/{DOCUMENTATION}/proved.sha256").decode()
    same("programs", ["/usr/bin/labntp", "/usr/bin/labntp-query", "/usr/sbin/labntpctl", "/usr/sbin/labntpd"], sorted(re.findall(r"  (\S+)\n", named)))
    pathlib.Path(f"{judging.ROOM}/sums").write_text(named.replace("  /", f"  {folder}/"))
    command("sha256sum", "-c", f"{judging.ROOM}/sums")
    told = json.loads(read(f"{folder}/{DOCUMENTATION}/proved.json"))
    if not (commit := git("rev-parse", "HEAD")):
        raise PassedOver("this is no checkout of git")
    same("the commit", commit, records.digests_in(told, "gitCommit")[1]["git"])
    crate = "crates/ntp_packet"
    ours = command("sh", "-c", f"cd {TOP}; find {crate}/src {crate}/specs {crate}/proofs -type f | LC_ALL=C sort | xargs sha256sum | sha256sum")
    same("the digest of a crate", ours.split()[0], records.digests_in(told)[1][crate])
    said = command(f"{TOP}/packaging/audit", f"{folder}/{DOCUMENTATION}/proved.json")
    same("what is said of it", True, "\nok: labntp, labntp_query, labntpctl, labntpd of the sources" in said)
    # A planted program is found on the host, and sources that were changed behind a record.
    path = f"{folder}/usr/sbin/labntpd"
    octets = read(path)
    pathlib.Path(path).write_bytes(octets[:-1] + bytes([octets[-1] ^ 1]))
    same("a planted program", True, "FAILED" in command("sha256sum", "-c", f"{judging.ROOM}/sums", wanted=1))
    pathlib.Path(path).write_bytes(octets)
    told["predicate"]["buildDefinition"]["resolvedDependencies"][1]["digest"]["sha256"] = "00" * 32
    with open(f"{judging.ROOM}/other.json", "w") as it:
        json.dump(told, it)
    same("other sources", True, ": other sources were proved\n" in command(f"{TOP}/packaging/audit", f"{judging.ROOM}/other.json", wanted=1))


def test_record_bars_a_planted_program():
    """Dates mean nothing. With the words for it such a program is packed, and the version tells it."""
    room = f"{judging.ROOM}/planted"
    copy, octets = copied(room), stand_in()
    for name in PROGRAMS:
        records_for(copy, name, octets)
    there = programs_of(**{name: records.built_at(name, copy) for name in PROGRAMS})

    def refused(why, *words):
        said = command(f"{copy}/packaging/deb", *there, "--dirty", *words, room, wanted=1)
        same("what is said", why, why if why in said else said)

    def packed(*words):
        return os.path.basename(command(f"{copy}/packaging/deb", *there, "--dirty", *words, room).strip())

    same("what is packed of a fitting record", (True, False), tuple(it in packed() for it in ("+dirty", "+unproved")))
    planted = records.built_at("labntpd", copy)
    with open(planted, "ab") as it:
        it.write(b" ")
    refused("is not the program of which its record was made")
    records_for(copy, "labntpd", octets)
    os.remove(records.path_of(planted))
    refused("is no record of what labntpd was made of")
    source = f"{copy}/crates/ntp_packet/src/lib.rt"
    with open(source, "ab") as it:
        it.write(b"// Another octet.\n")
    os.utime(source, (0, 0))
    refused("was made of other sources: crates/ntp_packet")
    same("what is packed as such", True, "+dirty+unproved" in packed("--unproved"))
    said = command(f"{copy}/packaging/deb", *there, "--unproved", room, wanted=1)
    same("what is said of changes", True, "has changes that are in no commit; --dirty packs it all the same" in said)


def test_record_heeds_octets_and_no_dates():
    """`.ci/proved` builds anew where an octet of a source, of the program or of the record changed."""
    room = f"{judging.ROOM}/dated"
    copy, octets = copied(room), stand_in()
    records_for(copy, "labntpd", octets)
    os.makedirs(f"{room}/bin")
    with open(f"{room}/bin/rt", "w") as it:
        it.write("#!/bin/sh\n[ \"$1\" != version ] || exec echo kit\necho called >>" + f"{room}/called\nexit 1\n")
    os.chmod(f"{room}/bin/rt", 0o755)

    def seen():
        """What it prints, and whether it called the toolchain."""
        said = command(f"{copy}/.ci/proved", "labntpd", "--version", wanted=None, env_of={"PATH": f"{room}/bin:{os.environ['PATH']}"})
        is_called = os.path.exists(f"{room}/called")
        if is_called:
            os.remove(f"{room}/called")
        return said.splitlines()[:1], is_called

    version = command(LABNTPD, "--version").splitlines()
    source, program = f"{copy}/crates/ntp_packet/src/lib.rt", records.built_at("labntpd", copy)
    same("at first", (version, False), seen())
    os.utime(source)
    same("of a touched source", (version, False), seen())
    for path in (source, program, records.path_of(program)):
        kept = read(path)
        with open(path, "ab") as it:
            it.write(b"\n ")
        if path.endswith(".json"):
            os.remove(path)
        same(f"with another {os.path.basename(path)}", True, seen()[1])
        pathlib.Path(path).write_bytes(kept)
        if path == program:
            os.chmod(path, 0o755)
    same("as it was", (version, False), seen())


def copied(room):
    os.makedirs(room)
    copy = f"{room}/copy"
    listed = git("ls-files", "-z", "--cached", "--others", "--exclude-standard")
    if not listed:
        raise PassedOver("this is no checkout of git")
    for path in filter(None, listed.split("\0")):
        os.makedirs(os.path.dirname(f"{copy}/{path}"), exist_ok=True)
        if os.path.exists(f"{TOP}/{path}"):
            shutil.copy2(f"{TOP}/{path}", f"{copy}/{path}")
    return copy


def test_build_has_the_same_program_in_each_folder():
    judging.needs("rt")
    seen = set()
    for name in ("one", "another"):
        crate = f"{judging.ROOM}/{name}/crates/small"
        os.makedirs(f"{crate}/src")
        for path, text in (("src/main.rt", SMALL), ("stdout", "small\n"), ("../../crates.txt", "small:\n")):
            pathlib.Path(f"{crate}/{path}").write_text(text)
        command("rt", "run", cwd=crate)
        seen.add(hashlib.sha256(read(f"{crate}/out/small")).hexdigest())
    same("how many different programs", 1, len(seen))


def stand_in():
    """A small program that says the version of labntpd."""
    return f"#!/bin/sh\necho {command(LABNTPD, '--version').strip()}\nexit 0\n".encode()


def records_for(copy, name, octets):
    """Puts a program there, with a record of the sources there."""
    path = records.built_at(name, copy)
    os.makedirs(os.path.dirname(path), exist_ok=True)
    pathlib.Path(path).write_bytes(octets)
    os.chmod(path, 0o755)
    with open(records.path_of(path), "w") as it:
        it.write(records.text_of(records.statement({name: records.digest_of(path)}, records.sources_of(name, copy), "kit")))


def test_programs_start_and_replay_the_examples():
    folder = tree()
    same("--version", True, re.fullmatch(r"labntpd \S+\n", command(f"{folder}/usr/sbin/labntpd", "--version")) is not None)
    same("whether --help has --check", True, "--check" in command(f"{folder}/usr/sbin/labntpd", "--help"))
    same("labntp-query --version", True, command(f"{folder}/usr/bin/labntp-query", "--version").startswith("labntp-query "))
    same("labntpctl --version", True, command(f"{folder}/usr/sbin/labntpctl", "--version").startswith("labntpctl "))
    examples = f"{folder}/{DOCUMENTATION}/examples"
    scripts = [it for it in sorted(os.listdir(examples)) if it.endswith(".script")]
    same("whether there are scripts", True, bool(scripts))
    for name in scripts:
        with open(f"{examples}/{name}") as script:
            same(name, read(f"{examples}/{name[:-7]}.answers").decode(), command(f"{folder}/usr/bin/labntp", "replay", stdin=script))


def test_configuration_is_good_once_there_is_the_clocks_key():
    folder = tree()
    path = f"{folder}/labntpd.toml"
    text = read(f"{folder}{CONFFILE}").decode()
    same("where it receives", ['listen = "inherited"'], re.findall(r"(?m)^listen = .*", text))
    pathlib.Path(path).write_text(re.sub(r'"(/(?:etc|var/lib|run)/labntp/)', rf'"{folder}\1', text))
    for it in ("/run/labntp", "/var/lib/labntp"):
        os.makedirs(f"{folder}{it}", exist_ok=True)
    check = [f"{folder}/usr/sbin/labntpd", "--check", "--config", path]
    same("what is not there", True, "No such file or directory" in command(*check, wanted=3))
    for it, octets in (("/var/lib/labntp/commands", b""), ("/etc/labntp/clock.key", b"6b6579\n")):
        with open(f"{folder}{it}", "wb", opener=lambda path, flags: os.open(path, flags, 0o640)) as file:
            file.write(octets)
    same("--check", "ok\n", command(*check))


def test_units_are_read_by_systemd():
    judging.needs("systemd-analyze")
    folder, names = tree(), [SERVICE, SOCKET, *INSTANCE, CHECK, CHECK_TIMER, *DOOR]
    with tempfile.TemporaryDirectory(dir=judging.ROOM) as copies:
        for unit, name in zip(UNITS, names):
            text = read(f"{folder}/lib/systemd/system/{unit}").decode()
            for page in re.findall(r"file:(\S+)", text):
                same(f"whether {page} is there", True, os.path.exists(f"{folder}{page}"))
            pathlib.Path(f"{copies}/{name}").write_text(re.sub("/usr/s?bin/labntp", rf"{folder}\g<0>", text))
        said = command("systemd-analyze", "verify", "--man=no", *(f"{copies}/{it}" for it in names), wanted=None)
        same("what systemd-analyze says of them", [], [it for it in said.splitlines() if "labntpd" in it])
        if "--offline" not in command("systemd-analyze", "--help"):
            raise PassedOver("this systemd-analyze reckons for units that are loaded alone")
        for name, most in EXPOSED.items():
            command("systemd-analyze", "security", "--offline=true", f"--threshold={most}", f"{copies}/{name}")


def test_apparmor_reads_the_profile():
    peers = f"{os.environ.get('PEERS', '')}/apparmor"
    found = shutil.which("apparmor_parser", path=f"{os.environ.get('PATH', '')}:{own_systemd.PATH}:{peers}/sbin")
    if not found:
        raise PassedOver("there is no program apparmor_parser")
    base = [] if not found.startswith(peers) else ["--base", f"{peers}/etc/apparmor.d"]
    said = command(found, "--skip-kernel-load", "--skip-cache", *base, f"{tree()}/{DOCUMENTATION}/examples/labntpd.apparmor")
    same("what is said of it", [], [it for it in said.splitlines() if "labntpd" in it])


def test_manual_is_read_by_groff():
    judging.needs("groff")
    for page in ("labntp.1", "labntp-query.1", "labntpctl.8", "labntpd.8"):
        said = command("groff", "-man", "-mdoc", "-Tutf8", "-ww", "-z", f"{TOP}/packaging/man/{page}", wanted=None)
        if "can't find" in said or "cannot open" in said or "can't open" in said:
            raise PassedOver(f"groff lacks files: {said.strip()[:100]}")
        same(f"what is said of {page}", "", said)


def test_lintian_has_no_error_and_no_warning():
    judging.needs("lintian")
    said = command("lintian", "--allow-root", package(), wanted=None)
    same("errors and warnings", [], [it for it in said.splitlines() if it.startswith(("E:", "W:"))])


def test_root_where_it_is_installed_again_removed_and_purged():
    """What dpkg installs there, keeps and deletes, also where the host's dpkg leaves pages out."""
    judging.needs("systemd-sysusers", root=True)
    deb, root = package(), f"{judging.ROOM}/root"
    for it in ("var/lib/dpkg/info", "var/lib/dpkg/updates", "var/lib/dpkg/triggers", "var/log", "etc/systemd/system/multi-user.target.wants"):
        os.makedirs(f"{root}/{it}")
    for it in ("status", "available"):
        open(f"{root}/var/lib/dpkg/{it}", "w").close()
    before = paths(root)

    def dpkg(*words):
        command("dpkg", f"--root={root}", "--force-script-chrootless", "--force-depends", "--no-triggers", "--path-include=/*", *words)

    dpkg("--install", deb)
    groups = dict(re.findall(r"(?m)^(\w+):[^:]*:(\d+):", read(f"{root}/etc/group").decode()))
    names = {0: "root", int(groups["labntp"]): "labntp"}

    def shown(path):
        it = os.stat(f"{root}{path}")
        return f"{it.st_mode & 0o7777:o} {names.get(it.st_uid)} {names.get(it.st_gid)}"

    same("modes, owners and groups", INSTALLED, {it: shown(it) for it in INSTALLED})
    wanted = {*INSTALLED} | {f"/{path}" for path in members() if path != "."} | before
    same("files that are there, or in the package, alone", [], sorted(wanted ^ (paths(root) - accounts(root))))
    same("the commands", b"", read(f"{root}/var/lib/labntp/commands"))

    # What an operator writes, and what dpkg is told by another one.
    for path in KEPT:
        with open(f"{root}{path}", "ab") as it:
            it.write(b"# Of the operator\n")
    os.symlink(f"/lib/systemd/system/{SERVICE}", f"{root}/etc/systemd/system/multi-user.target.wants/{SERVICE}")
    command("dpkg-statoverride", f"--root={root}", "--update", "--add", "root", "root", "600", CONFFILE)
    kept = {path: read(f"{root}{path}") for path in KEPT}
    dpkg("--install", deb)
    same("whether all is kept at an upgrade", kept, {path: read(f"{root}{path}") for path in KEPT})
    same("the mode that dpkg was told", "600 root root", shown(CONFFILE))
    os.rename(f"{root}/var/lib/labntp/commands", f"{root}/var/lib/labntp/of-old")
    dpkg("--install", deb)
    same("whether lost commands are made anew", False, os.path.exists(f"{root}/var/lib/labntp/commands"))
    os.rename(f"{root}/var/lib/labntp/of-old", f"{root}/var/lib/labntp/commands")

    dpkg("--remove", "labntp")
    same("whether all is kept at a removal", kept, {path: read(f"{root}{path}") for path in KEPT})
    same("programs", [], [it for it in ("usr/sbin/labntpd", "usr/bin/labntp", "usr/bin/labntp-query", "usr/sbin/labntpctl", f"lib/systemd/system/{SERVICE}") if os.path.exists(f"{root}/{it}")])
    dpkg("--purge", "labntp")
    same("what a purge leaves, but the accounts", [], sorted(paths(root) - before - accounts(root)))
    same("the user that stays", 1, read(f"{root}/etc/passwd").decode().count("labntp:"))


def paths(root):
    found = {f"{place[len(root):]}/{it}" for place, folders, files in os.walk(root) for it in (*folders, *files)}
    return {it for it in found if not it.startswith(("/var/lib/dpkg", "/var/log"))}


def accounts(root):
    """The files of users and groups, which stay."""
    return {f"/etc/{it}" for it in os.listdir(f"{root}/etc") if re.fullmatch(r"(passwd|group|shadow|gshadow)-?|\.pwd\.lock|\.updated", it)}


def install():
    """Installs it in a copy of the host's root, which may have it. systemd looks for units elsewhere there, so it is given copies."""
    sh("rm -f /usr/sbin/policy-rc.d; dpkg --no-triggers --purge labntp || true; userdel labntp || true; rm -rf /etc/labntp /var/lib/labntp")
    sh("dpkg --force-depends --no-triggers --install labntp.deb; cp /lib/systemd/system/labntpd[-.@]* /units; systemctl daemon-reload")


@pytest.fixture(scope="module")
def systemd(room):
    """A systemd under which dpkg has installed the package."""
    deb = package()
    copies = {"labntp.deb": deb, "before.deb": before(deb), "docs": f"{TOP}/docs", "labntpd.apparmor": f"{TOP}/examples/labntpd.apparmor"}
    with contextlib.suppress(PassedOver):
        copies["opens.so"] = odd_host.made(f"{judging.ROOM}/opens.so", odd_host.OPENS)
    with own_systemd.entered(__name__, copies, "dpkg", "userdel") as make:
        make("install")
        yield make


def serves():
    """The time for a customer, which asks again where a query came before the daemon did; and the process and its socket."""
    customer = probe.Customer(CUSTOMER)

    def is_told():
        with customer.socket(PORT) as s:
            return probe.exchange(customer, s, wait=0.5)[0] == "time"

    judging.until("the time", is_told)
    pid = own_systemd.process(SERVICE)
    return pid, os.readlink(f"/proc/{pid}/fd/3")


def test_service_is_neither_enabled_nor_started(systemd):
    same("enabled", "disabled\ndisabled", sh(f"systemctl is-enabled {SOCKET} {SERVICE}", None))
    same("active", "inactive\ninactive", sh(f"systemctl is-active {SOCKET} {SERVICE}", None))
    same("modes, owners and groups", INSTALLED, {it: sh(f"stat -c '%a %U %G' {it}") for it in INSTALLED})


def test_service_answers_by_the_steps_of_the_page(systemd):
    """By the three commands of the page a first customer has the time soon, at any address of the host; then at the one that is named."""
    global CUSTOMER
    page = read(f"{own_systemd.GIVEN}/docs/OPERATIONS.md").decode()
    override = re.search(r"```ini\n(\[Socket\]\nListenDatagram=\nListenDatagram=(\S+):123\n)```", page)
    assert override, "the page has no drop-in with an address and port 123"
    commands = own_systemd.commands_of("docs/OPERATIONS.md", "Install")[0]
    same("how many commands", 3, len(commands.strip().split("\n")))
    sh(f"ip address add {override[2]}/32 dev lo; ip address add {TEN}/32 dev lo")
    own_systemd.begin_chrony()
    first = commands.partition("\n")[0]
    start = time.monotonic()
    said = sh(f"cd /{DOCUMENTATION} && {first}")
    same("what the first says of several addresses", True, said.endswith("[Socket]\nListenDatagram=\nListenDatagram=ADDRESS:123"))
    clock = labntpd_server.FakeClock(key=read("/etc/labntp/clock.key").decode().strip(), port=11123)
    clock.__enter__()
    same("what is said of the new customer", True, "line 2: done" in sh(f"cd /tmp && {commands.partition(chr(10))[2]}"))
    number, algorithm, key = re.match(r"(\d+) (\S+) HEX:(\S+)\n", read(f"/tmp/{TEN}-1.keys").decode()).groups()
    CUSTOMER, probe.HOST = f"{TEN}/{number}/{algorithm.lower()}/{key.lower()}", TEN
    serves()
    assert (took := time.monotonic() - start) <= SOON, f"the first customer had the time after {took:.1f} s"
    os.makedirs(f"{own_systemd.UNITS}/{SOCKET}.d")
    pathlib.Path(f"{own_systemd.UNITS}/{SOCKET}.d/override.conf").write_text(override[1])
    probe.HOST = override[2]
    sh(f"systemctl daemon-reload; systemctl restart {SOCKET}")
    serves()
    same("which program it is", "/usr/sbin/labntpd", os.readlink(f"/proc/{own_systemd.process(SERVICE)}/exe"))


def file_rules(profile):
    """The rules of files that a profile of AppArmor has, without those that it includes: what each lets do, and a pattern of the paths."""
    for path, permissions in re.findall(r"(?m)^ +((?:/|@\{(?:run|PROC)\})\S*) (\w+),$", profile):
        for name, value in (("@{run}", "/run"), ("@{PROC}", "/proc"), ("@{pid}", "[0-9]+"), ("**", ".+")):
            path = path.replace(name, value)
        yield {*permissions}, re.compile(re.sub(r"\{([^}]*)\}", lambda it: f"(?:{it[1].replace(',', '|')})", path))


def test_service_opens_what_the_apparmor_profile_lets_it(systemd):
    """Whatever it opens from its start on, the AppArmor profile lets it; and it needs each rule."""
    if not os.path.exists(f"{own_systemd.GIVEN}/opens.so"):
        raise PassedOver("there is no program gcc")
    folder, log = f"{own_systemd.UNITS}/{SERVICE}.d", "/run/labntp/opens"
    os.makedirs(folder, exist_ok=True)
    pathlib.Path(f"{folder}/opens.conf").write_text(f"[Service]\nEnvironment=LD_PRELOAD=/usr/lib/labntpd-opens.so OPENS={log}\n")
    sh(f"cp opens.so /usr/lib/labntpd-opens.so; systemctl daemon-reload; systemctl restart {SERVICE}")
    serves()
    sh(f"echo budget {TEN} 20 >>/var/lib/labntp/commands")
    judging.until("an answer", lambda: read("/run/labntp/answers") == b"2 done\n3 done\n")
    judging.until("the customers file is written", lambda: b"w /run/labntp/customers\n" in read(log))
    rules = [*file_rules(read(f"{own_systemd.GIVEN}/labntpd.apparmor").decode())]
    # A pair of what was done and a path, as the kernel names it.
    noted = {tuple(it.replace("/proc/net/", "/proc/1/net/").split(" ", 1)) for it in read(log).decode().splitlines()}
    fits = lambda how, path, rule: {*how} <= rule[0] and rule[1].fullmatch(path)
    same("what no rule lets it do", [], [it for it in noted if not any(fits(*it, rule) for rule in rules)])
    # The program itself is opened before the library is there.
    same("rules that it does not need", [], [rule for rule in rules[1:] if not any(fits(*it, rule) for it in noted)])
    os.remove(f"{folder}/opens.conf")
    sh(f"systemctl daemon-reload; systemctl restart {SERVICE}")


def test_service_is_checked_each_minute_by_the_steps_of_the_page(systemd):
    """A failure is told by systemd and the journal; a warning is none. It reads this key, and no other file with keys."""
    judging.needs("openssl")
    if sh("systemctl is-active systemd-journald.service", None) != "active":
        raise PassedOver("journald does not run")
    serves()
    sh(own_systemd.commands_of("docs/OPERATIONS.md", "Is it up?")[0])
    path = "/etc/labntp/check.key"
    same("who may read the key", "640 root labntp", sh(f"stat -c '%a %U %G' {path}"))
    # Its own lines; and what systemd warns of.
    key, lines = read(path), lambda: sh(f"journalctl -q -o cat _SYSTEMD_UNIT={CHECK}").splitlines()
    warnings = lambda: len(sh(f"journalctl -q -o cat -p warning -u {CHECK}").splitlines())
    judging.until("a check that passes", lambda: any(it.startswith("NTP OK: offset ") for it in lines()), 20)
    judging.until("its end", lambda: own_systemd.shown(CHECK, "ActiveState") == ["inactive"], 20)

    def judged(status, begins, failed):
        """A check ends with this status and this line, and is then among what has failed, or not."""
        before, warned = lines(), warnings()
        sh(f"systemctl start {CHECK}", 1 if failed else 0)
        ended = {"Result": "exit-code" if failed else "success", "ExecMainStatus": f"{status}"}
        same("how it ended", [*ended.values()], own_systemd.shown(CHECK, *ended))
        same("whether it is among what has failed", failed, CHECK in sh("systemctl --failed"))
        told = lambda: [it.startswith(begins) for it in lines()[len(before) :]]
        judging.until(f"the line {begins}", lambda: told() == [True])
        same("whether the journal warns", failed, warnings() > warned)
        same("lines of checks that are more than information", "", sh(f"journalctl -q -o cat -p notice _SYSTEMD_UNIT={CHECK}"))

    judged(0, "NTP OK: offset ", failed=False)
    sh(f"systemctl stop {SOCKET} {SERVICE}")
    judged(2, "NTP CRITICAL: no sample, unreachable: ", failed=True)
    sh(f"systemctl start {SOCKET} {SERVICE}")
    serves()
    judged(0, "NTP OK: offset ", failed=False)
    edit(path, ("HEX:..", "HEX:" + ("00" if b"HEX:00" not in key else "01")))
    judged(2, "NTP CRITICAL: no sample, nak: ", failed=True)
    pathlib.Path(path).write_bytes(key)
    judged(0, "NTP OK: offset ", failed=False)
    same("whether the journal has the key", False, key.split(b":")[1].strip().decode() in sh("journalctl -o cat"))

    others = " ".join(f"-a ! -r {it}" for it in (path, CONFFILE, "/var/lib/labntp/commands"))
    reads = f"ExecStart=\nExecStart=/bin/sh -c 'test -r ${{CREDENTIALS_DIRECTORY}}/check.key {others} && echo this alone'"
    folder = f"{own_systemd.UNITS}/labntpd-check@.service.d"
    os.makedirs(folder)
    warns = 'Environment="LIMITS=--max-offset 0.1 --warn-stratum 0"'
    for status, setting, begins in ((1, warns, "NTP WARNING: stratum above its limit, offset "), (0, reads, "this alone")):
        pathlib.Path(f"{folder}/override.conf").write_text(f"[Service]\n{setting}\n")
        sh("systemctl daemon-reload")
        judged(status, begins, failed=False)
    shutil.rmtree(folder)
    sh("systemctl daemon-reload")


def test_service_is_started_anew_by_an_upgrade(systemd):
    sh(f"systemctl enable --now {' '.join(INSTANCE)}")
    (pid, socket), text, other = serves(), read(CONFFILE), own_systemd.process(INSTANCE[0])
    sh("dpkg --force-depends --no-triggers --install labntp.deb")
    now, stays = serves()
    same("whether it is another process, and the socket", (True, socket), (now != pid, stays))
    same("the other one", (True, "active\nactive"), (own_systemd.process(INSTANCE[0]) != other, sh(f"systemctl is-active {' '.join(INSTANCE)}", None)))
    same("whether the configuration is kept", True, text == read(CONFFILE))


def test_service_goes_on_as_apt_goes_back_a_release_and_upgrades(systemd):
    """Configuration, the clock's key and the commands stay as they are, and the customer is served each time."""
    judging.needs("apt-get")
    serves()
    kept, versions = {path: read(path) for path in KEPT}, []
    os.makedirs("/repository")
    with open("/repository/Packages", "w") as packages:
        for name in ("labntp.deb", "before.deb"):
            octets, control = read(f"{own_systemd.GIVEN}/{name}"), sh(f"dpkg-deb --field {name}")
            pathlib.Path(f"/repository/{name}").write_bytes(octets)
            packages.write(f"{control}\nFilename: {name}\nSize: {len(octets)}\nSHA256: {hashlib.sha256(octets).hexdigest()}\n\n")
            versions += re.findall(r"(?m)^Version: (.*)$", control)
    pathlib.Path("/repository/sources.list").write_text("deb [trusted=yes] file:/repository ./\n")
    lists = "-o Dir::Etc::SourceList=/repository/sources.list -o Dir::Etc::SourceParts=/nowhere -o APT::Sandbox::User=root"
    apt = f"apt-get {lists} --yes --quiet --no-install-recommends --allow-downgrades"
    sh(f"{apt} update")
    for name, words, version in (("before.deb", f"install labntp={versions[1]}", versions[1]), ("labntp.deb", "install --only-upgrade labntp", versions[0])):
        pid = own_systemd.process(SERVICE)
        # systemd looks for units elsewhere here.
        sh(f"dpkg-deb -x {name} /tmp/{name}; cp /tmp/{name}/lib/systemd/system/labntpd[-.@]* /units; systemctl daemon-reload")
        sh(f"{apt} {words}")
        same("the version", version, sh("dpkg-query --show --showformat '${Version}' labntp"))
        same("whether it is another process", True, serves()[0] != pid)
        same("what is kept", kept, {path: read(path) for path in KEPT})


def test_service_is_upgraded_from_a_register(systemd):
    """Beside it an upgrade restarts nothing, and says what to call. That puts its customers in front of the commands, and restarts."""
    serves()
    commands, pid, script = "/var/lib/labntp/commands", own_systemd.process(SERVICE), f"/{DOCUMENTATION}/examples/from_register"
    before, register = read(commands).decode(), ("192.0.2.20", 20, "sha1", "6b6579" * 6, 10)
    pathlib.Path("/etc/labntp/register.toml").write_text(judging.register_of([register]))
    edit(CONFFILE, ("^commands = ", 'register = "/etc/labntp/register.toml"\ncommands = '))
    same("whether it is said", True, script in sh("dpkg --force-depends --no-triggers --force-confold --install labntp.deb"))
    same("the process", pid, own_systemd.process(SERVICE))
    sh(script)
    serves()
    record, _, lines = read(commands).decode().partition("\n")
    same("the commands behind a record", ("# ", judging.enrolments([register]) + before), (record[:2], lines))
    same("whether it is another process", True, own_systemd.process(SERVICE) != pid)
    same("whether the register is put away", False, os.path.exists("/etc/labntp/register.toml"))


def test_service_has_the_doors_rules_while_it_is_there(systemd):
    own_network.find_nft(own_systemd.GIVEN, "/usr/local/sbin")
    rules, enrolled = lambda: sh("nft list ruleset"), [CUSTOMER.split("/")[0], "192.0.2.77"]
    sh(own_systemd.commands_of("docs/OPERATIONS.md", "A flood")[0])
    judging.until("a customer is let in", lambda: enrolled[0] in rules(), SOON)
    sh(f"echo enrol {enrolled[1]} 77 sha1 {'77' * 20} 10 >>/var/lib/labntp/commands")
    judging.until("who is enrolled is let in", lambda: enrolled[1] in rules(), SOON)
    sh("/var/lib/dpkg/info/labntp.prerm remove")
    same("rules", "", rules())
    same("the path", "inactive", sh(f"systemctl is-active {DOOR[0]}", None))
    sh(f"systemctl start {SOCKET} {SERVICE} {' '.join(INSTANCE)} {CHECK_TIMER}")


def test_service_is_removed_and_purged(systemd):
    serves()
    sh("dpkg --no-triggers --remove labntp")
    same("active", "\n".join(5 * ["inactive"]), sh(f"systemctl is-active {SOCKET} {SERVICE} {' '.join(INSTANCE)} {CHECK_TIMER}", None))
    same("sockets", "", sh(f"ss -lunH 'sport = :{PORT} or sport = :12301'"))
    same("files that went", [], [it for it in INSTALLED if not os.path.exists(it)])
    # In the package's folder of units they are gone by now.
    sh("rm /units/labntpd[-.@]*; dpkg --no-triggers --purge labntp")
    same("files that stay", "", sh(f"ls -d /etc/labntp /var/lib/labntp /run/labntp* {own_systemd.UNITS}/*.wants/labntpd[-.@]* 2>/dev/null || true"))
    sh("id labntp")
