"""What cases draw at random, by hypothesis: so what fails is made smaller, up to an example of which nothing can be left out."""
import hashlib
import itertools

from hypothesis import strategies as st


def any_of(elements):
    """One of a sequence, as sampled_from has it, which would write all of them into each description of itself."""

    def at(place):
        return elements[place]

    return st.integers(0, len(elements) - 1).map(at)


def joined(lists):
    return [*itertools.chain(*lists)]


def many(elements, most):
    """A list of at most so many, longer than lists are by themselves: of lists, each of which is left out as a whole where that fails too."""
    return st.lists(st.lists(elements, max_size=10), max_size=most // 10).map(joined)


def key(address, number, algorithm, octets):
    """A key of its own, with its algorithm, as a line of commands has it."""
    return f"{algorithm} {hashlib.sha256(f'{address} {number} {algorithm}'.encode()).hexdigest()[: 2 * octets]}"


def commands(addresses, numbers, budgets=(1, 9, 700, 65535), others=("", "# a remark", "nonsense")):
    """A line of commands, of few addresses and numbers, so that many are about the same customer; or one of these others."""
    held = [*itertools.product(addresses, numbers)]
    # Of one octet, of as many as the digests have, or of the most.
    forms = [*itertools.product(("md5", "sha1"), (1, 16, 20, 32))]
    keyed = [f"{address} {number} {key(address, number, *it)}" for address, number in held for it in forms]
    kinds = [others, [f"revoke {it}" for it in addresses], [f"budget {it} {budget}" for it in addresses for budget in budgets]]
    # Those of which the more are drawn stand there several times.
    kinds += [[f"retire {address} {number}" for address, number in held]] * 2 + [[f"rollover {it}" for it in keyed]] * 3
    kinds += [[f"enrol {it} {budget}" for it in keyed for budget in budgets]] * 5
    return st.one_of(map(any_of, kinds))


# Where something is put into a line that is spoilt, whether it takes the place of an octet, and what it is; to which lengths lines come
# that are long, and by what.
EDITS = [*itertools.product(range(40), (0, 1), (b"", b" ", b"\r", b"0", b"9", b"#", b"\xc3\xa9", b"\xff", b"\0", b"e"))]
LENGTHS = [*itertools.product((4095, 4096, 4097, 4098, 9000, 65_535, 65_536, 70_000), (b" ", b"\xff"))]


def spoilt(line, edits, filled):
    octets = bytearray(line.encode())
    for at, over, put in edits:
        octets[at : at + over] = put
    return bytes(octets.ljust(*filled))


def octets_of(lines):
    edit = any_of([(0, 0, b"")] * 4 * len(EDITS) + EDITS)
    return st.builds(spoilt, lines, st.tuples(edit, edit), any_of([(0, b" ")] * 30 * len(LENGTHS) + LENGTHS))


def text_of(lines):
    return "".join(f"{it}\n" for it in lines)


def histories(most):
    """The text of a commands file of so many lines at most, with names of customers."""
    addresses, names = [f"192.0.2.{it}" for it in range(1, 13)], ("PTB", 'Frau Müller, "77"', "a\\b", "时间", "#")
    named = [f"# name {address} {name}" for address in addresses for name in names]
    return many(commands(addresses, range(1, 16), others=("", "nonsense", *named)), most).map(text_of)
