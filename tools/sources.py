"""What tools/belief reads of Rattle: the crates, their clauses and their definitions."""
import collections
import functools
import os
import re

from rooms import TOP, crates_of
from texts import Odd, files_below, lines_of, text_of

# A string, a field of what stands in brackets, a path of names, a bracket or another sign.
TOKEN = re.compile(
    r'"(?:[^"\\]|\\.)*"|(?<=[)}\]])(?:\.[^\s(){}\[\],;."]+)+|[^\s(){}\[\],;."]+(?:\.[^\s(){}\[\],;."]+)*|[(){}\[\],;.]'
)

# The numbers of the lines of something, but for blank ones, and those of the comment above it.
Item = collections.namedtuple("Item", "comment numbers")


class File:
    """A file of a crate, and what stands in its scope: each name with its path."""

    def __init__(self, path, mark):
        self.path, self.mark, self.crate, self.lines, self.scope = path, mark, path.split("/")[1], lines_of(path), {}
        self.whole = range(1, len(self.lines) + 1)

    def code(self, numbers):
        """The text of these lines without comments."""
        return "\n".join(re.sub(rf"(^|\s){self.mark}.*$", "", self.lines[at - 1]) for at in numbers)

    def items(self, numbers, indent, above=()):
        """What begins at this indent among these lines, each with its first line, and what stands deeper below it. To the comment
        above it belong lines that begin as one of `above`, too."""
        found, comment = [], []
        for number in numbers:
            line = self.lines[number - 1]
            bare = line.strip()
            if not bare:
                comment = []
            elif found and (line.startswith(" " * (indent + 1)) or bare[0] in "{)}]>" or bare == "where"):
                found[-1][1].numbers.extend([*comment, number])
                comment = []
            elif bare.startswith((self.mark, *above)):
                comment.append(number)
            elif not bare.startswith("#["):
                found.append((bare, Item(comment, [number])))
                comment = []
        return found


def brought(text):
    """What a `use` brings in: each name with the path that it stands for."""
    text = re.sub(r"^(?:(?:ghost|pub(?:\([^)]*\))?)\s+)*use\s+|\s*;?\s*$", "", text.strip())
    while inner := re.search(r"([^{},\s]*)\{([^{}]*)\}", text):
        names = (it.strip() for it in inner[2].split(","))
        text = text[: inner.start()] + ",".join(inner[1] + it for it in names if it) + text[inner.end() :]
    for one in filter(str.strip, text.split(",")):
        path, _, alias = one.strip().partition(" as ")
        yield alias.strip() or re.split(r"\.|::", path)[-1], path


# How a text binds names: in brackets before a colon, by `let`, before an arrow, and by λ.
BINDS = re.compile(r"[({]\s*([^(){}:\[\],;=→λ]+?)\s*:(?=\s)|\blet\s+([^\s(){}]+)|([^\s(){}]+)\s+←|λ\s*(.*?)\.(?=\s|$)", re.S)


def bound_in(text):
    """The names that a text binds."""
    for names, let, step, lambdas in BINDS.findall(text):
        # `λ x (y : T). ` binds no name of T.
        lambdas = re.sub(r":[^()]*(\([^()]*\)[^()]*)*\)", ")", lambdas)
        yield from (*names.split(), *re.findall(r"[^\s(){}:]+", lambdas), let, step)


def used(text):
    """The paths that a text has, without labels."""
    words = TOKEN.findall(text)
    for before, word, after in zip(["", *words], words, [*words[1:], ""]):
        is_label = after == ":" or after == "=" and before in ("{", ",", ";")
        if word[0] not in '(){}[],;."' and word not in ":=→×←λ" and not is_label:
            yield word


class Definition:
    """A definition of specs/: its lines, with that of the `module` around it for its parameters, and the names that it binds."""

    def __init__(self, file, name, comment, body):
        self.file, self.name, self.comment, self.body = file, name, comment, body
        head = file.code(body)
        members = re.findall(r"(?m)^ +(?:pub )?(\S+) :", head) if re.search(r"(?m)^ *(pub )?(record|data) ", head) else []
        self.bound, self.constructors = {name, *members}, members if "data " in head.partition(name)[0] else []
        self.whole = f"{file.crate}.{file.module}.{name}"

    def add_equation(self, item):
        # What stands before the sign `=`, but for that in braces.
        left = re.match(r"((?:[^{}]|\{[^{}]*\})*?)\s=\s", self.file.code(item.numbers))
        if not left:
            raise Odd(f"{self.file.path}: {self.name}: no equation in line {item.numbers[0]}")
        constructors = {*self.file.scope, *(it for found in self.file.definitions.values() for it in found.constructors)}
        self.bound.update(it for it in TOKEN.findall(left[1]) if "." not in it and it not in constructors)
        self.body += item.comment + item.numbers

    def lines(self):
        return {*self.comment, *self.body}


DEFINES = re.compile(
    r"(?:abbrev|unfoldable|opaque)\s+(?:pub\s+)?(\S+)\s+:|(?:pub\s+)?(?:record|data)\s+(\S+)|pub\s+(\S+)\s+:|([a-z]\S*)\s+:"
)


class Spec(File):
    """A file of definitions."""

    def __init__(self, path):
        super().__init__(path, "--")
        self.module, self.definitions, self.last = path.split("/")[3].removesuffix(".antt"), {}, None
        self.read(self.whole)
        # What it defines it names without a path.
        own = [name for it in self.definitions.values() for name in (it.name, *it.constructors)]
        self.scope = {name: f"Rattle.{self.crate}.specs.{self.module}.{name}" for name in own} | self.scope

    def read(self, numbers, indent=0, module=()):
        for head, it in self.items(numbers, indent, above=["infix"]):
            if re.match(r"(pub\s+)?use\s", head):
                self.scope.update(brought(self.code(it.numbers)))
            elif head.startswith("module "):
                self.last = None
                self.read(range(it.numbers[0] + 1, it.numbers[-1] + 1), indent + 2, it.numbers[:1])
            elif defines := DEFINES.match(head):
                # What has no comment of its own stands below that of the one before it.
                comment = it.comment or (self.last.comment if self.last else [])
                self.last = Definition(self, next(filter(None, defines.groups())), comment, [*module, *it.numbers])
                self.definitions[self.last.name] = self.last
            elif self.last:
                self.last.add_equation(it)
            else:
                raise Odd(f"{self.path}:{it.numbers[0]}: no definition: {head}")


spec = functools.cache(Spec)


def specs_of(crate):
    """The paths of a crate's definitions, as it lists them."""
    path = f"crates/{crate}/specs/Lib.antt"
    modules = re.findall(r"(?m)^pub mod (\w+)", text_of(path)) if os.path.exists(f"{TOP}/{path}") else []
    return [f"crates/{crate}/specs/{it}.antt" for it in modules]


PUBLIC = r"((?:pub(?:\([^)]*\))? )?)"
FUNCTION = re.compile(PUBLIC + r"(?:const |unsafe |async |extern \"C\" )*fn (\w+)")
TYPE = re.compile(PUBLIC + r"(?:struct|enum|union) (\w+)")
BLOCK = re.compile(PUBLIC + r"(?:unsafe )?(?:impl\b|trait (\w+))")
CLAUSE = re.compile(r"\s*(ensures|requires|decreases)\*?\s+(\w*)\s*\{")
# A clause of a function, or a value that a trait or an implementation gives to contracts; `call` is where it is listed.
Clause = collections.namedtuple("Clause", "label kind numbers text file owner call name signature")
Type = collections.namedtuple("Type", "file name comment numbers text")


class Block:
    """An `impl` or a `trait`: whose it is, what it imports, its clauses, and its values for contracts."""

    def __init__(self, crate, head):
        self.crate, self.head, self.name, self.trait = crate, head, BLOCK.match(head)[2], None
        self.scope, self.ghosts, self.clauses, self.is_impl = {}, {}, [], not self.name
        if self.is_impl:
            bare = re.sub("[-=]>", "", head).removeprefix("unsafe ").removeprefix("impl")
            while bare != (bare := re.sub("<[^<>]*>", "", bare)):
                pass
            *traits, self.name = (re.findall(r"\w+", it)[-1] for it in bare.split(" where ")[0].split(" for "))
            self.trait = traits[0] if traits else None

    def add_ghost(self, file, label, item):
        call = f"{self.name} as {self.trait}" if self.is_impl else self.name
        words, text = (call, f"{label} of {self.trait or self.name}", ""), file.code(item.numbers).partition(label)[2]
        self.ghosts[label] = Clause(label, "ghost", item.comment + item.numbers, text, file, self, *words)


class Function:
    """A function with its clauses. Of the body nothing is read."""

    def __init__(self, file, item, owner):
        self.file, self.owner, self.trait = file, owner, owner.trait if owner else None
        indent, first = " " * 4 if owner else "", item.numbers[0]
        public, self.name = FUNCTION.match(file.lines[first - 1].strip()).groups()
        self.is_public = public == "pub " or bool(owner and (owner.trait or not owner.is_impl))
        self.call = f"{owner.name}::{self.name}" if owner else self.name
        end = next((at for at in item.numbers if file.lines[at - 1].startswith(indent + "{")), item.numbers[-1] + 1)
        parts = [(CLAUSE.match(head), it) for head, it in file.items(range(first + 1, end), len(indent) + 4)]
        head = file.code(range(first, min([end, *(it.numbers[0] for found, it in parts if found)])))
        signature = re.match(r"(?sm).*?(?:[;{]$|\{\}$|\Z)", head)[0].replace("\n", " ")
        self.clauses = []
        for (kind, label), it in ((found.groups(), it) for found, it in parts if found):
            name, text = self.call + (label and f", {label}"), re.search(r"(?s)\{.*\}", file.code(it.numbers))[0]
            self.clauses.append(Clause(label, kind, it.comment + it.numbers, text, file, owner, self.call, name, signature))
        self.labels = {it.label for it in self.clauses if it.kind == "ensures"}


class Source(File):
    """A file of src/: its functions, types with their models, traits and implementations, and what it imports and exports."""

    def __init__(self, path):
        super().__init__(path, "//")
        self.imports, self.exports, self.types = {}, {}, {}
        self.functions, self.clauses, self.blocks, self.open_modules = [], [], [], []
        # The modules of this file's crate may stand in front of a path.
        modules = (os.path.basename(it).removesuffix(".rt") for it in files_below(f"crates/{self.crate}/src", ".rt"))
        self.beside = {"crate", "super", "self", *modules}
        self.read(self.whole)
        self.models = {it.name: it for it in self.blocks if it.trait == "Model"}

    def read(self, numbers, block=None):
        for head, it in self.items(numbers, 4 if block else 0):
            text = self.code(it.numbers)
            if head.startswith("ghost use"):
                (block or self).scope.update(brought(text))
            elif FUNCTION.match(head):
                self.functions.append(Function(self, it, block))
                (block or self).clauses += self.functions[-1].clauses
            elif block:
                if ghost := re.match(r"ghost (\w+)", head):
                    block.add_ghost(self, ghost[1], it)
            elif re.match(PUBLIC + "use ", head):
                paths = {name: path.split("::") for name, path in brought(text)}
                there = {name: (self.crate if path[0] in self.beside else path[0], path[-1]) for name, path in paths.items()}
                self.imports |= there
                self.exports |= there if head.startswith("pub use") else {}
            elif head.startswith("pub mod "):
                self.open_modules.append(head.removeprefix("pub mod ").rstrip(";"))
            elif BLOCK.match(head):
                end = next(at for at in it.numbers if self.lines[at - 1].endswith(("{", "{}")))
                lines = (self.lines[at - 1].strip() for at in range(it.numbers[0], end + 1))
                self.blocks.append(Block(self.crate, " ".join(lines).rstrip("{} ")))
                self.read(range(end + 1, it.numbers[-1]), self.blocks[-1])
            elif found := TYPE.match(head):
                of_type = "\n".join(self.lines[at - 1] for at in it.numbers)
                self.types[found[2]] = Type(self, found[2], it.comment, it.comment + it.numbers, of_type)


source = functools.cache(Source)


@functools.cache
def sources(crate):
    """The files of a crate's src/, without its tests."""
    paths = files_below(f"crates/{crate}/src", ".rt") if crate in crates_of() else []
    tests = [(path, re.findall(r"#\[cfg\(test\)\]\n *(?:pub )?mod (\w+);", text_of(path))) for path in paths]
    tests = {f"{os.path.dirname(path)}/{name}.rt" for path, names in tests for name in names}
    return [source(path) for path in paths if path not in tests]


@functools.cache
def find_type(crate, name):
    """The type of a name that a crate has or passes on."""
    own = [file.types[name] for file in sources(crate) if name in file.types]
    passed = [file.exports[name] for file in sources(crate) if file.exports.get(name, (crate, name)) != (crate, name)]
    return own[-1] if own else find_type(*passed[0]) if passed else None


@functools.cache
def traits():
    """The traits of the crates, by name."""
    return {it.name: it for crate in crates_of() for file in sources(crate) for it in file.blocks if not it.is_impl}


@functools.cache
def public_names(crate):
    """The names that a library itself makes public."""
    found = set()
    path = f"crates/{crate}/src/lib.rt"
    lib = source(path) if os.path.exists(f"{TOP}/{path}") else None
    for file in sources(crate) if lib else ():
        found |= {name for of, name in file.exports.values() if of == crate} if file is lib else set()
        if file is lib or os.path.basename(file.path).removesuffix(".rt") in lib.open_modules:
            found |= {it.name for it in file.functions if not it.owner and it.is_public}
            found |= {name for name, it in file.types.items() if it.text.startswith("pub ")}
            found |= {it.name for it in file.blocks if it.head.startswith("pub trait")}
    return found


@functools.cache
def public_functions(crate):
    """The functions of a crate that others may call: public ones, by their own name or by that of their type or trait."""
    found, names = [], public_names(crate)
    for it in (it for file in sources(crate) for it in file.functions if it.is_public):
        # A type of std may have a trait of the crate.
        is_lent = it.trait in names and not find_type(crate, it.owner.name)
        is_hidden = it.trait in traits() and it.trait not in public_names(traits()[it.trait].crate)
        if not is_hidden and (is_lent or (it.owner.name if it.owner else it.name) in names):
            found.append(it)
    return found
