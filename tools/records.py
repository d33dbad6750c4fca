"""What a proved program was made of: a record beside it, in the form of an in-toto statement with SLSA's provenance.

A record has the digest of the program, that of each crate below it, and the toolchain's kit. Dates mean nothing: a program is taken for
proved where its record has its digest and those of the sources that are there. The digest of a crate is what this prints at the top:

    find crates/NAME/{src,specs,proofs} -type f | LC_ALL=C sort | xargs sha256sum | sha256sum
"""
import hashlib
import json
import os
import subprocess

from rooms import PARTS, TOP, below, crates_of

STATEMENT, PROVENANCE = "https://in-toto.io/Statement/v1", "https://slsa.dev/provenance/v1"
# How a program is built; docs/FORMATS.md says what the parts of the record mean.
BUILD = "rt: prove, then build"


def digest_of(path):
    with open(path, "rb") as it:
        return hashlib.sha256(it.read()).hexdigest()


def crate_digest(name, top=TOP):
    found = [f"{at[len(top) + 1:]}/{file}" for part in PARTS for at, _, files in os.walk(f"{top}/crates/{name}/{part}") for file in files]
    lines = (f"{digest_of(f'{top}/{path}')}  {path}\n" for path in sorted(found))
    return hashlib.sha256("".join(lines).encode()).hexdigest()


def sources_of(program, top=TOP):
    """The digest of each crate that a program is made of, and of what lists them, by name."""
    crates = crates_of(top)
    found = {f"crates/{it}": crate_digest(it, top) for it in sorted({program, *below(program, crates)})}
    return found | {"crates.txt": digest_of(f"{top}/crates.txt")}


def kit():
    """The toolchain and its logic."""
    return subprocess.run(["rt", "version"], stdout=subprocess.PIPE, text=True, check=True).stdout.strip()


def statement(subjects, sources, by, commit=None):
    """The record of programs with these digests, of these sources, by a kit; and of a commit, where it is known."""
    named = lambda digests, kind: [{"name": name, "digest": {kind: digests[name]}} for name in sorted(digests)]
    proved = [it | {"annotations": {"rt": "proved"}} if it["name"] != "crates.txt" else it for it in named(sources, "sha256")]
    built = {"buildType": BUILD, "externalParameters": {"programs": sorted(subjects)}}
    built["resolvedDependencies"] = named({"git": commit} if commit else {}, "gitCommit") + proved
    predicate = {"buildDefinition": built, "runDetails": {"builder": {"id": by}}}
    return {"_type": STATEMENT, "subject": named(subjects, "sha256"), "predicateType": PROVENANCE, "predicate": predicate}


def digests_in(record, kind="sha256"):
    """What a record says: the digests of programs, those of sources, and the kit."""
    by_name = lambda some: {it["name"]: it["digest"][kind] for it in some if kind in it["digest"]}
    predicate = record["predicate"]
    return by_name(record["subject"]), by_name(predicate["buildDefinition"]["resolvedDependencies"]), predicate["runDetails"]["builder"]["id"]


def text_of(record):
    return json.dumps(record, indent=1) + "\n"


def path_of(program):
    return f"{program}.proved.json"


def built_at(name, top=TOP):
    return f"{top}/crates/{name}/out/{name}"


def write(name, sources):
    """Writes the record of a program that was proved and built from these sources."""
    program = built_at(name)
    with open(path_of(program), "w", encoding="utf-8") as it:
        it.write(text_of(statement({name: digest_of(program)}, sources, kit())))


def record_of(program):
    """The record beside a program, if one is there that can be read."""
    try:
        with open(path_of(program), encoding="utf-8") as it:
            record = json.load(it)
        digests_in(record)
        return record
    except (OSError, ValueError, KeyError, TypeError):
        return None


def misfit(name, program=None):
    """Why a program is not taken for one that was proved of the sources that are here; or nothing."""
    program = program or built_at(name)
    if not os.access(program, os.X_OK):
        return f"{program} is not there"
    record = record_of(program)
    if not record:
        return f"{path_of(program)} is no record of what {name} was made of"
    subjects, proved, _ = digests_in(record)
    if subjects.get(name) != digest_of(program):
        return f"{program} is not the program of which its record was made"
    sources = sources_of(name)
    other = sorted(it for it in {*sources, *proved} if sources.get(it) != proved.get(it))
    return f"{program} was made of other sources: {', '.join(other)}" if other else None
