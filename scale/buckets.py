"""What scale/cores and scale/machines share: customers in 256 buckets by their source address, and an owner of each bucket.

The bucket of an address is what nftables makes of it (`jhash ip saddr mod 256 seed SEED`). It depends on the address and the seed alone, on no
port, no machine and no boot. Each bucket has a home. While that is drained, the owner is the one of those in service that a hash of bucket
and name ranks first (rendezvous hashing). So one that is drained gives away its own buckets and no others, and gets the same ones back.

What is set up stands in a table of nftables, and nowhere else: commands read it there, and change it in one step.
"""
import argparse
import collections
import contextlib
import hashlib
import ipaddress
import os
import re
import subprocess
import sys

BUCKETS, WORD = 256, 0xFFFF_FFFF


class Odd(Exception):
    """Why a command is not carried out."""


class NothingSplit(Odd):
    """There is no table, or none that may be seen."""


def bucket(address, seed):
    """Jenkins' hash (lookup3) of the four octets of an address, scaled to the number of buckets, as the kernel does it."""
    turn = lambda word, by: (word << by | word >> 32 - by) & WORD
    a = b = c = 0xDEADBEEF + 4 + seed & WORD
    a = a + int.from_bytes(address.packed, "little") & WORD
    c = (c ^ b) - turn(b, 14) & WORD
    a = (a ^ c) - turn(c, 11) & WORD
    b = (b ^ a) - turn(a, 25) & WORD
    c = (c ^ b) - turn(b, 16) & WORD
    a = (a ^ c) - turn(c, 4) & WORD
    b = (b ^ a) - turn(a, 14) & WORD
    c = (c ^ b) - turn(b, 24) & WORD
    return c * BUCKETS >> 32


def homes_of(known):
    """A home for each bucket, dealt out in turn."""
    return [known[number % len(known)] for number in range(BUCKETS)]


def with_new(homes, name):
    """The same with a new home, which takes its even share, always from one that has most."""
    homes, counts = [*homes], collections.Counter(homes)
    for _ in range(BUCKETS // (len(counts) + 1)):
        most = max(counts, key=lambda it: counts[it])
        counts[most] -= 1
        homes[BUCKETS - 1 - homes[::-1].index(most)] = name
    return homes


def owners(homes, in_service):
    """The owner of each bucket."""
    rank = lambda number, name: hashlib.sha256(f"{number} {name}".encode()).digest()
    return [it if it in in_service else max(in_service, key=lambda name: rank(number, name)) for number, it in enumerate(homes)]


def run(*words, given=None):
    """What a command prints."""
    environment = {**os.environ, "PATH": f"{os.environ.get('PATH', os.defpath)}:/usr/sbin:/sbin", "LC_ALL": "C"}
    try:
        ran = subprocess.run(words, input=given, env=environment, capture_output=True, text=True)
    except FileNotFoundError:
        raise Odd(f"there is no program {words[0]}") from None
    if ran.returncode:
        raise Odd(f"{' '.join(words)}: {' '.join(ran.stderr.split())[:300]}")
    return ran.stdout


def address_of(word):
    try:
        return ipaddress.IPv4Address(word)
    except ValueError:
        raise Odd(f"{word} is no IPv4 address") from None


class Split:
    """What is split, by which seed, the home of each bucket, and who is in service. A script says what its owners are, by:

    TABLE, SEED     the name of the table, and the seed where none is given: another one in each script, or else all customers of a
                    machine would come to one process of it
    OWNER           what an owner is called; NAME, VALUE: its types in sets and in maps of nftables
    owner, value    reads the word that names an owner, and gives what stands for it in a map
    what            reads the word that names what is split
    judge           says why these owners cannot be, where they cannot
    chains          the rules
    """

    def __init__(self, served, seed, homes, in_service):
        self.served, self.seed, self.homes, self.in_service = served, seed, homes, in_service
        self.known = sorted({*homes})
        self.judge()

    @classmethod
    def loaded(cls):
        """The split that stands in the table."""
        try:
            text = run("nft", "list", "table", "ip", cls.TABLE)
        except Odd as why:
            raise NothingSplit("nothing is split here" if "No such file" in f"{why}" else f"{why}") from None
        told = re.search(r'comment "split (\S+) by seed (\d+)"', text)
        found = dict(re.findall(r"(?:set|map) (\w+) \{.*?elements = \{(.*?)\}", text, re.S))
        if not told or not {"known", "home", "owner"} <= {*found}:
            raise Odd(f"the table {cls.TABLE} is not what this makes")
        known = {cls.value(it): it for it in map(cls.owner, re.findall(r"[\d.]+", found["known"]))}
        homes, now = ([known[it] for _, it in sorted((int(number, 0), value) for number, value in re.findall(r"(\w+) : (\w+)", found[name]))]
                      for name in ("home", "owner"))
        return cls(cls.what(told[1]), int(told[2]), homes, {*now})

    def owners(self):
        return owners(self.homes, self.in_service)

    def elements(self):
        """What stands in each of the three, in front of it."""
        values = lambda them: ", ".join(f"{number} : {self.value(it)}" for number, it in enumerate(them))
        return {"known": ", ".join(map(str, self.known)), "home": values(self.homes), "owner": values(self.owners())}

    def table(self):
        """All of it. It takes the place of what was loaded before."""
        kinds, elements = {"known": f"set known {{ type {self.NAME}"}, self.elements()
        kinds |= {it: f"map {it} {{ type mark : {self.VALUE}" for it in ("home", "owner")}
        yield f"table ip {self.TABLE}\ndelete table ip {self.TABLE}\ntable ip {self.TABLE} {{"
        yield f'\tcomment "split {self.served} by seed {self.seed}"'
        yield from (f"\t{kind}; elements = {{ {elements[it]} }}; }}" for it, kind in kinds.items())
        yield from (f"\t{line}" for line in self.chains())
        yield "}"

    def change(self):
        """What changes the buckets alone. It takes no rule away, so no datagram is lost."""
        yield from (f"flush map ip {self.TABLE} {it}" for it in ("home", "owner"))
        yield from (f"add element ip {self.TABLE} {name} {{ {them} }}" for name, them in self.elements().items())

    def before(self, owners):
        """The commands of other programs that are needed before the rules for these owners are loaded."""
        return []

    def after(self, owners):
        """And those for when these owners are gone."""
        return []

    def at_last(self):
        """And those for when all of it is."""
        return []

    def state(self, owner):
        """What else is to be told of one that is in service."""
        return ""


# ---- Commands

def load(lines, is_dry, before=(), after=()):
    """Runs commands and loads rules, or prints the rules, with the commands as comments."""
    rules = "".join(f"{it}\n" for it in lines)
    if is_dry:
        print("".join(f"# {' '.join(it)}\n" for it in before) + rules + "".join(f"# {' '.join(it)}\n" for it in after), end="")
        return
    for it in before:
        run(*it)
    run("nft", "-f", "-", given=rules)
    for it in after:
        run(*it)


def change(old, new, is_dry, before=()):
    """Loads the new split in the place of the old one, and tells how many buckets have another owner."""
    load(new.change(), is_dry, before)
    ways = collections.Counter((was, now) for was, now in zip(old.owners(), new.owners()) if was != now)
    told = [f"{sum(ways.values())} of {BUCKETS} buckets move", *(f"{was} -> {now} {count}" for (was, now), count in sorted(ways.items()))]
    print(("# " if is_dry else "") + "; ".join(told))


def up(cls, words):
    names = [cls.owner(it) for it in words.owners]
    if len({*names}) < len(names) or len(names) > BUCKETS:
        raise Odd(f"each {cls.OWNER} once, and at most {BUCKETS} of them, are wanted")
    split, gone = cls(cls.what(words.what), cls.SEED if words.seed is None else words.seed, homes_of(names), {*names}), []
    with contextlib.suppress(NothingSplit):
        old = cls.loaded()
        if old.served != split.served:
            raise Odd(f"{old.served} is split here")
        gone = old.after([it for it in old.known if it not in names])
    load(split.table(), words.dry_run, split.before(split.known), gone)


def show(cls, words):
    split = cls.loaded()
    counts = collections.Counter(split.owners())
    if not words.customers:
        print(f"{split.served}: {len(split.in_service)} of {len(split.known)} in service, seed {split.seed}")
        for it in split.known:
            print(f"{it}: " + (f"{counts[it]} of {BUCKETS} buckets{split.state(it)}" if it in split.in_service else "drained"))
    for address in map(address_of, words.customers):
        number = bucket(address, split.seed)
        print(f"{address}: bucket {number}, {cls.OWNER} {split.owners()[number]}")


def drain(cls, words):
    split, it = cls.loaded(), cls.owner(words.owner)
    if it not in split.in_service or len(split.in_service) == 1:
        raise Odd(f"{it} is the last one in service" if it in split.in_service else f"{it} is not in service")
    change(split, cls(split.served, split.seed, split.homes, split.in_service - {it}), words.dry_run)


def add(cls, words):
    split, it = cls.loaded(), cls.owner(words.owner)
    homes = split.homes if it in split.known else with_new(split.homes, it)
    new = cls(split.served, split.seed, homes, split.in_service | {it})
    change(split, new, words.dry_run, new.before([it]))


def down(cls, words):
    split = cls.loaded()
    load([f"delete table ip {cls.TABLE}"], words.dry_run, after=[*split.after(split.known), *split.at_last()])


def number(word):
    """A number of 32 bits."""
    return int(word, 0) & WORD


JOBS = {it.__name__: it for it in (up, show, drain, add, down)}


def main(cls, page):
    """Carries out the words of the command line; `page` says what they are."""
    name = os.path.basename(sys.argv[0])
    words = {"prog": name, "usage": f"{name} --help", "add_help": False}
    reader = argparse.ArgumentParser(**words)
    reader.add_argument("-h", "--help", action="store_true")
    reader.add_argument("--dry-run", action="store_true")
    reader.add_argument("--seed", type=number)
    jobs = reader.add_subparsers(dest="job")
    job = {it: jobs.add_parser(it, **words) for it in JOBS}
    job["up"].add_argument("what", metavar="ADDRESS")
    job["up"].add_argument("owners", metavar=cls.OWNER.upper(), nargs="+")
    job["show"].add_argument("customers", nargs="*")
    for it in ("drain", "add"):
        job[it].add_argument("owner", metavar=cls.OWNER.upper())
    words = reader.parse_args()
    if words.help or not words.job:
        print(page.strip())
        return 0 if words.help else 2
    try:
        JOBS[words.job](cls, words)
    except (Odd, OSError) as why:
        print(f"{name}: {why}", file=sys.stderr)
        return 1
    return 0
