"""Small bugs in the bodies of functions: an operator, a number, a name or a variant in place of another, or a statement that is gone."""
import re

SWAPS = [
    (" < ", " <= "), (" <= ", " < "), (" > ", " >= "), (" >= ", " > "), (" == ", " != "), (" != ", " == "), (" && ", " || "), (" || ", " && "),
    (" + ", " - "), (" - ", " + "), (" * ", " + "), (" / ", " * "), (" % ", " / "), (" << ", " >> "), (" >> ", " << "), (" & ", " | "), (" | ", " & "),
    ("true", "false"), ("false", "true"), ("continue", "break"), ("return ", "let _ = "), ("Some(", "None::<("),
    (".is_some()", ".is_none()"), (".is_none()", ".is_some()"), (".is_ok()", ".is_err()"), (".is_err()", ".is_ok()"), (".first()", ".last()"),
    ("from_be_bytes", "from_le_bytes"), ("to_be_bytes", "to_le_bytes"), ("push_back", "push_front"),
    ("wrapping_add", "wrapping_sub"), ("saturating_add", "saturating_sub"),
    ("receive", "transmit"), ("transmit", "receive"), ("receipt", "transmit"), ("origin", "reference"),
    ("queries", "refusals"), ("refusals", "queries"), ("root_delay", "root_dispersion"), ("leap", "version"), ("older", "newer"), ("newer", "older"),
]  # fmt: skip
VARIANT = re.compile(r"\b([A-Z][A-Za-z]+)::([A-Z][A-Za-z]+)\b")
STATEMENT = re.compile(r"\s*(?!let\b|return\b)[a-z_][\w.]*(\([^;]*\))?(\s*[-+|&]?=\s*[^;]+)?;$")


def is_whole(code, found):
    """Whether a word that was found is no part of a longer one."""
    before, after = code[: found.start()][-1:], code[found.end() :][:1]
    return not (found[0][0].isalpha() and re.match(r"\w", before) or found[0][-1].isalpha() and re.match(r"\w", after))


def mutations(text, first, last):
    """The small bugs on the lines from `first` to `last` of a file's text: the number of each one's line, and the line with it."""
    variants = {}
    for enum, variant in VARIANT.findall(text):
        variants.setdefault(enum, set()).add(variant)
    for number, line in list(enumerate(text.split("\n")))[first : last + 1]:
        code = line.split("//")[0].rstrip()
        changed = lambda found, new: (number, line[: found.start()] + new + line[found.end() :])
        for old, new in SWAPS:
            yield from (changed(it, new) for it in re.finditer(re.escape(old), code) if is_whole(code, it))
        for it in re.finditer(r"(?<![\w.])\d+(?![\w.])", code):
            yield from (changed(it, str(new)) for new in (int(it[0]) + 1, int(it[0]) - 1) if new >= 0)
        for it in re.finditer(r"(?<![\w!=<>])!(?=[a-z(])", code):
            yield changed(it, "")
        if STATEMENT.match(code):
            yield number, re.match(r"\s*", line)[0] + "// removed"
        for it in VARIANT.finditer(code):
            if not ("=>" in code[it.end() :] and code.strip().startswith(it[1])):
                yield from (changed(it, f"{it[1]}::{new}") for new in sorted(variants[it[1]] - {it[2]}))
