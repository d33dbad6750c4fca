"""The files of the repository as texts: how tools read them, draw in them and compare them."""
import os

from rooms import TOP


class Odd(Exception):
    """What a tool does not understand of a text."""


def lines_of(path):
    with open(f"{TOP}/{path}", encoding="utf-8") as file:
        return file.read().splitlines()


def text_of(path):
    return "\n".join(lines_of(path)) + "\n"


def write(path, text):
    with open(f"{TOP}/{path}", "w", encoding="utf-8") as file:
        file.write(text)


def files_below(folder, ending):
    found = [os.path.relpath(f"{place}/{it}", TOP) for place, _, names in os.walk(f"{TOP}/{folder}") for it in names]
    return sorted(it for it in found if it.endswith(ending))


def renewed(page, text, begin, end, lines):
    """The text of a page with these lines between its two marks."""
    if text.count(begin) != 1 or text.partition(begin)[2].count(end) < 1:
        raise Odd(f"{page} has not just one `{begin}`, with a `{end}` behind it")
    before, _, rest = text.partition(begin)
    return "\n".join([before + begin, "", *lines, "", end]) + rest.partition(end)[2]


def judged(cases):
    """Prints of each case whether it is well, or what is wrong. The status is 1 where something is."""
    for name, fault in cases.items():
        print(f"FAILED {name}: {fault}" if fault else f"ok {name}")
    return 1 if any(cases.values()) else 0
