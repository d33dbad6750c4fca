"""Edits of functions' bodies, and what a check says of those functions.

A function is proved against its own body and the clauses of what it calls. So one check can judge many edits, each in a *twin*: a copy of
its function, beside that, under another name. Nothing calls a twin, and unchanged it is proved, so what refuses it is its edit. A trait's
method has no twin: it is edited in its place, once in a check. What is not refused with others is tried alone.
"""
import functools
import os
import re
import shutil
import subprocess

from processes import give_way

FUNCTION = re.compile(r"( *)(?:pub(?:\([^)]*\))? )?(?:final )?(const )?(?:unsafe )?fn (\w+)")
BLOCK = re.compile(r"(?:unsafe )?(?:impl\b|(?:pub(?:\([^)]*\))? )?(?:unsafe )?trait ).*")
TYPE = re.compile(r"^(?:pub(?:\([^)]*\))? )?(?:struct|enum|union) (\w+)", re.M)
# A call of a function by its bare name, and what is written like one. The language itself has `drop`.
CALL, NO_FUNCTIONS = re.compile(r"(?<![\w.:!'])([a-z_]\w*)\("), {"drop", "fn", "for", "if", "in", "match", "return", "while"}
STATE = re.compile(r"fn (\S.*?): (proved|not proved|no proof|could not tell)(.*)")
PLACE = re.compile(r"(?:note: )?(?:\./)?((?:src|specs|proofs)/\S+?):(\d+):\d+: (.*)")
# What a proof file is told where it names what an edit took away, and what is told of all that cites such a proof.
NAMES = re.compile(r"has no field|is not in scope|has no `|was not admitted|, which was rejected,")
# What is told of a text that antt cannot read; where its error is about a named goal, only some words say so.
UNREAD = re.compile(r"is not in scope|has no field|is no name|operand is missing|expected the end|cannot continue")
REFUSED, PASSED, BY_NAMES, FAULTY, UNTOLD = "refused", "passed", "by names", "faulty", "untold"
# How many edits a check has at most: it tells nothing of the first before it has tried the last, and takes memory for each.
MOST = 72


class Function:
    """A function with a body, and the numbers of lines, from 0: of its first comment or attribute, its name, its body's first and its last."""

    def __init__(self, file, name, block, is_odd, start, first, body, last):
        self.file, self.name, self.block, self.is_odd = file, name, block, is_odd
        self.start, self.first, self.body, self.last = start, first, body, last
        self.module = module_of(file)
        self.owner, self.trait = owner_of(block) if block else ("", "")

    def may_have_twins(self):
        """Whether a copy under another name can stand beside it: no trait has a method of that name."""
        return not self.is_odd and (not self.block or self.block.startswith("impl") and not self.trait)

    def printed(self, names):
        """The name that a check prints, or none where several could be meant."""
        found = []
        for name in names:
            crate, *parts = name.split("::")
            inside = parts[len(self.module.split("::")) if self.module else 0 : -1]
            if "fn" not in parts[:-1] and parts[-1] == self.name and "::".join(parts[: len(parts) - 1 - len(inside)]) == self.module:
                found.append((name, "::".join(inside)))
        found = [it for it in found if it[1].startswith(self.owner) and bool(it[1]) == bool(self.block)]
        exact = [it for it in found if (it[1].startswith(self.owner + self.trait) if self.trait else it[1] == self.owner)]
        found = exact if len(found) > 1 else found
        return found[0][0] if len(found) == 1 else None


def module_of(file):
    """The path below its crate of the module that a file is."""
    return re.sub(r"(^|/)(lib|main|mod)$", "", file[len("src/") : -len(".rt")]).strip("/").replace("/", "::")


def owner_of(block):
    """The names of the type and of the trait of an `impl`; those of a trait itself are its name and none."""
    bare, depth = "", 0
    for at, sign in enumerate(block):
        depth += (sign == "<") - (sign == ">" and block[at - 1] != "-")
        bare += sign if not depth and sign != ">" else ""
    last = lambda path: (re.findall(r"\w+", path) or [""])[-1]
    words = re.sub(r"\bwhere\b.*|\{.*", "", bare).replace("unsafe ", "").strip()
    if not words.startswith("impl"):
        return words.split()[-1].split(":")[0], ""
    trait, is_of_trait, owner = words[len("impl") :].rpartition(" for ")
    return last(owner), last(trait) if is_of_trait else ""


def functions(file, text):
    """The functions of a file that have a body, as `rt fmt` lays them out."""
    found, lines, block = [], text.split("\n"), ""
    for first, line in enumerate(lines):
        block = line if BLOCK.match(line) else "" if line == "}" else block
        head = FUNCTION.match(line)
        if not head:
            continue
        indent = head[1]
        is_body = lambda it: lines[it] == indent + "{" or re.match(rf"{indent}(\)|\w).* \{{$", lines[it])
        # A clause stands deeper; what follows at the same depth is another item, where there is no body.
        is_next = lambda it: it > first and re.match(rf"(?!{indent}[ )]|{indent}where\b)\s*\S", lines[it])
        body = next((it for it in range(first, len(lines)) if is_body(it) or is_next(it) or lines[first].endswith((";", "{}"))), None)
        if body is None or not is_body(body):
            continue
        last = next((it for it in range(body + 1, len(lines)) if lines[it] == indent + "}"), None)
        if last is not None:
            is_odd = bool(head[2]) or "#[cycle" in lines[first - 1]
            start = next(it for it in range(first, -1, -1) if not it or not lines[it - 1].startswith((indent + "//", indent + "#[")))
            found.append(Function(file, head[3], block if indent else "", is_odd, start, first, body, last))
    return found


class Edit:
    """What an edit changes: the new text of each line, by its file and its number from 0; or why it cannot be applied."""

    def __init__(self, label, lines, fault=""):
        self.label, self.lines, self.fault = label, lines, fault


def edited(text, folder):
    """What a text in the form of the toolchain's edits changes of the files in a folder: pairs of `old:` and `new:` below a `file:`."""
    texts, path, old, pairs = {}, "", None, 0
    for line in text.split("\n"):
        if line.startswith("file: "):
            path = line[len("file: ") :].strip()
            if os.path.normpath(path) != path or not path.startswith(("src/", "specs/", "proofs/")):
                raise ValueError("a `file:` line names no file below src/, specs/ or proofs/")
        elif line.startswith("old: "):
            old = line[len("old: ") :]
        elif line.startswith("new:"):
            if not path or not old:
                raise ValueError("a `new:` line stands before any `file:` or `old:` line")
            if path not in texts:
                with open(f"{folder}/{path}", encoding="utf-8") as file:
                    texts[path] = file.read()
            if texts[path].count(old) != 1:
                raise ValueError(f"an `old:` text is in {path} {texts[path].count(old)} times, and not once")
            texts[path], old, pairs = texts[path].replace(old, re.sub("^ ", "", line[len("new:") :])), None, pairs + 1
    if not pairs:
        raise ValueError("it has no `old:` and `new:` pair")
    return texts


def read_edit(label, path, folder):
    """The edit that stands in a file, of a crate in a folder."""
    try:
        with open(path, encoding="utf-8") as file:
            texts = edited(file.read(), folder)
        lines = {}
        for file, text in texts.items():
            with open(f"{folder}/{file}", encoding="utf-8") as it:
                before = it.read()
            # No text of a pair has a line break, so the lines stay as many.
            pairs = enumerate(zip(before.split("\n"), text.split("\n")))
            lines.update({(file, number): new for number, (old, new) in pairs if old != new})
        return Edit(label, lines, "" if lines else "it changes nothing")
    except (OSError, ValueError) as error:
        return Edit(label, {}, getattr(error, "strerror", None) or str(error))


def unknown_calls(edit, folder):
    """The functions that an edit of a crate in a folder calls by their bare names, and that its files do not name: `rt` would say so too,
    once the crate is checked."""
    for path in sorted({file for file, _ in edit.lines if file.endswith(".rt")}):
        changed = {number: line for (file, number), line in edit.lines.items() if file == path}
        with open(f"{folder}/{path}", encoding="utf-8") as file:
            text = "\n".join(changed.get(number, line) for number, line in enumerate(file.read().split("\n")))
        code = "\n".join(re.sub(r'"(\\.|[^"\\])*"', '""', line).partition("//")[0] for line in changed.values())
        for name in sorted({*CALL.findall(code)} - NO_FUNCTIONS):
            if not re.search(rf"\b(fn|let|mut) {name}\b|\b{name}: |^\s*(pub(\([^)]*\))? )?use [^;]*\b{name}\b", text, re.M):
                yield name


def closures_of(name, function):
    """What the printed names of the closures of a function begin with, whose own is this one."""
    crate, *path = name.split("::")
    modules = len(path) - (2 if function.block else 1)
    return "::".join([crate, *path[:modules], "fn", *path[modules:]])


def proofs_of(name):
    return "/".join(["proofs", *name.split("::")[1:]])


class Trial:
    """An edit as a check judges it: in its place; or in a twin, which is a copy of its one function, beside that, under a name of its own.
    `name` is what a check prints for the function that it judges."""

    def __init__(self, edit, function=None, name="", twin=""):
        self.edit, self.function, self.name, self.twin = edit, function, name, twin

    def files(self):
        return {file for file, _ in self.edit.lines} | ({self.function.file} if self.function else set())

    def put(self, file, lines):
        """Puts this trial into a file. `lines` has for each line those that come in its place: of each the text, the trial that it belongs
        to, or none, and the number of the line."""
        it = self.function
        numbers = range(it.start, it.last + 1) if it else [number for of, number in self.edit.lines if of == file]
        new = {number: self.edit.lines.get((file, number), lines[number][0][0]) for number in numbers}
        if self.twin:
            new[it.first] = re.sub(rf"\bfn {it.name}\b", f"fn {self.twin}", new[it.first])
            lines[it.last] += [(text, self, number) for number, text in new.items()]
        else:
            for number, text in new.items():
                lines[number][0] = text, self, number


class Said:
    """What a check said. `lines` has those of each file that was changed, as `Trial.put` writes them."""

    def __init__(self, text, lines):
        self.states, self.messages, self.last, self.lines = {}, [], "", lines
        for line in text.split("\n"):
            state, place = STATE.fullmatch(line), PLACE.match(line)
            if state:
                self.states[state[1]] = state[2], state[3]
            elif place:
                self.messages.append([line, place[1], int(place[2]) - 1, place[3]])
            elif line.startswith("  ") and self.messages and "\n" not in self.messages[-1][3]:
                # (the rest of a long message is advice)
                self.messages[-1][3] += "\n" + line.strip()
            elif line.startswith(("logic=", "only=", "rattle: ")):
                self.last = line

    def is_proved(self):
        return self.last.startswith("logic=proved")

    def is_in(self, trial, file, number):
        """Whether a line is one of the function that a trial judges."""
        lines = self.lines.get(file, ())
        return number < len(lines) and lines[number][1] is trial

    def faults(self):
        """What the front end says: of a text that it cannot compile."""
        return [it for it in self.messages if it[3].startswith("error[")]

    def unread(self, changed, is_own=lambda file, number: True):
        """The first message by which antt cannot read a text of src/, specs/ or a changed file."""
        for line, file, number, message in self.messages:
            said = re.match(r"error: (?:(`[^`]*`): )?(.*)", message)
            if said and is_own(file, number) and (file in changed or file.startswith(("src/", "specs/"))):
                if not said[1] or UNREAD.search(re.sub(r"`[^`]*`", "", said[2])):
                    return line
        return ""

    def refusals(self, is_own=lambda file, number: True):
        """What it says of goals that are not proved, each with whether it says so only of names."""
        for line, file, number, message in self.messages:
            is_note = line.startswith("note: ")
            if is_own(file, number) and (message.startswith("error:") or is_note):
                yield line, not is_note and file.startswith("proofs/") and bool(NAMES.search(message))

    def fault_of(self, trial):
        """The first fault that stands in the function that a trial judges, told of the line that the edit changes in its place."""
        for said, file, number, _ in self.faults():
            if self.is_in(trial, file, number):
                return said.replace(f":{number + 1}:", f":{self.lines[file][number][2] + 1}:", 1)
        return ""

    def of(self, trial):
        """What it says of the function that a trial judges, and why: its closures are its own."""
        closures = closures_of(trial.name, trial.function)
        own = {it: state for it, state in self.states.items() if it == trial.name or it.startswith(closures + "::")}
        if trial.name not in own:
            return UNTOLD, "the check says nothing of its function"
        if all(state == "proved" for state, _ in own.values()):
            return PASSED, ""
        for it, (state, rest) in own.items():
            if state == "could not tell":
                return UNTOLD, f"the prover could not tell whether {it} is proved{rest}"
        folders = (f"{proofs_of(trial.name)}/", f"{proofs_of(closures)}/")
        is_own = lambda file, number: file.startswith(folders) or self.is_in(trial, file, number)
        if self.unread((), is_own):
            return UNTOLD, self.unread((), is_own)
        return self.refusal(own.values(), is_own)

    def refusal(self, states, is_own=lambda file, number: True):
        """Whether goals are refused where functions are not proved that have these states, and why."""
        told = list(self.refusals(is_own))
        refusal = next((line for line, is_of_names in told if not is_of_names), "")
        if refusal or any(state == "no proof" and rest.startswith(": expected answers") for state, rest in states):
            return REFUSED, refusal
        return (BY_NAMES, told[0][0]) if told else (UNTOLD, "the check says nothing of its goals")


class Stopped(Exception):
    """A check that judged nothing."""


class Scratch:
    """A copy of a crate, in a repository of its own, in which edits are tried by a command that checks it, `rt check` where no other is given."""

    def __init__(self, folder, jobs, is_stopped, command=("rt", "check")):
        self.folder, self.jobs, self.is_stopped, self.command, self.texts = folder, jobs, is_stopped, command, {}
        # The names of functions as a check prints them, and the functions whose twins are proved: `prove` finds both.
        self.names, self.twinned = [], set()
        # How many checks there were, and how many seconds of a processor they took.
        self.checks, self.processor = 0, 0

    @functools.cached_property
    def sources(self):
        found = [f"{place}/{name}" for place, _, names in os.walk(f"{self.folder}/src") for name in sorted(names) if name.endswith(".rt")]
        return [os.path.relpath(it, self.folder) for it in found]

    @functools.cached_property
    def functions(self):
        return [function for file in self.sources for function in functions(file, self.text(file))]

    @functools.cached_property
    def homes(self):
        """The module of each type, by its name: a method is printed below it, wherever its `impl` stands."""
        return {name: module_of(file) for file in self.sources for name in TYPE.findall(self.text(file))}

    def text(self, file):
        """The text of a file before any edit."""
        if file not in self.texts:
            with open(f"{self.folder}/{file}", encoding="utf-8") as it:
                self.texts[file] = it.read()
        return self.texts[file]

    def function_of(self, edit):
        """The one function whose body has all that an edit changes, or none."""
        inside = lambda it: all(file == it.file and it.body <= number <= it.last for file, number in edit.lines)
        return next((it for it in self.functions if inside(it) and not it.is_odd), None)

    def prove(self, functions):
        """Checks the crate as it stands, with an unchanged twin of each of these functions: where that is not proved, a refusal of another
        would say nothing of its edit."""
        alike = [self.twin(Edit("", {}), it, 0) for it in functions if it.may_have_twins()]
        said = plain = self.check(alike)
        if not said.is_proved():
            plain = self.check()
            if not plain.is_proved():
                raise Stopped("it is not proved as it stands")
        self.names, self.twinned = list(plain.states), {it.function for it in alike if said.of(it)[0] == PASSED}

    def twin(self, edit, function, number):
        """The trial of an edit in a twin of its function, in the one with this number."""
        twin = f"{function.name}_twin_{number}"
        return Trial(edit, function, self.path(function, twin), twin)

    def path(self, function, name):
        """What a check prints for a function with this name beside one that is no trait's."""
        module = self.homes.get(function.owner, function.module)
        return "::".join(filter(None, (os.path.basename(self.folder), module, function.owner, name)))

    def check(self, trials=(), names=()):
        """What a check says of all these trials at once: of the functions with these printed names, or of the whole crate."""
        changed = {file: self.written(file, trials) for file in set().union(*(it.files() for it in trials))}
        copies = [copy for it in trials if it.twin for copy in self.copy_proofs(it)]
        try:
            for file, lines in changed.items():
                self.write(file, "\n".join(text for text, _, _ in lines))
            # 0 and 1 are verdicts, and 3 says that the prover could not tell.
            return Said(self.run([word for it in names for word in ("--only", it)], (0, 1, 3)), changed)
        finally:
            for file in changed:
                self.write(file, self.text(file))
            for copy in copies:
                shutil.rmtree(copy)

    def written(self, file, trials):
        """The lines of a file with these trials in it, as `Trial.put` writes them."""
        lines = [[(text, None, number)] for number, text in enumerate(self.text(file).split("\n"))]
        for it in trials:
            if file in it.files():
                it.put(file, lines)
        return [line for some in lines for line in some]

    def copy_proofs(self, trial):
        """Copies the proofs of a function, and of its closures, for its twin. Returns the folders that are new."""
        function, copies = trial.function, []
        name = self.path(function, function.name)
        for old, new in ((name, trial.name), (closures_of(name, function), closures_of(trial.name, function))):
            folder, copy = f"{self.folder}/{proofs_of(old)}", f"{self.folder}/{proofs_of(new)}"
            if os.path.isdir(folder):
                copies.append(copy)
                shutil.copytree(folder, copy, copy_function=functools.partial(self.copy_renamed, proofs_of(old), proofs_of(new)))
        return copies

    def copy_renamed(self, old, new, source, target):
        """Copies a file of proofs, in which the goals of a function are named by the folder of its proofs."""
        text = self.text(os.path.relpath(source, self.folder))
        self.write(os.path.relpath(target, self.folder), text.replace(old.replace("/", ".") + ".", new.replace("/", ".") + "."))

    def write(self, file, text):
        with open(f"{self.folder}/{file}", "w", encoding="utf-8") as it:
            it.write(text)

    def run(self, words, statuses):
        """What a check with these words prints here, where it ends with one of these statuses."""
        if self.is_stopped():
            raise Stopped("interrupted")
        self.checks += 1
        how = {"cwd": self.folder, "stdin": subprocess.DEVNULL, "stdout": subprocess.PIPE, "stderr": subprocess.STDOUT, "errors": "replace"}
        with subprocess.Popen([*self.command, *words, "--jobs", str(self.jobs)], start_new_session=True, **how) as started:
            give_way(started.pid, os.getpriority(os.PRIO_PROCESS, 0))
            said = started.stdout.read()
            try:
                _, ended, used = os.wait4(started.pid, 0)
            except ChildProcessError:
                raise Stopped("interrupted") from None
            status = started.returncode = os.waitstatus_to_exitcode(ended)
        self.processor += used.ru_utime + used.ru_stime
        if self.is_stopped():
            raise Stopped("interrupted")
        if status not in statuses:
            last = [it for it in said.split("\n") if it.strip()][-1:]
            raise Stopped(f"the check ended with status {status}: {''.join(last)[:300]}")
        return said

    def alone(self, edit):
        """What a check of the whole crate says of one edit, and why."""
        said = self.check([Trial(edit)])
        unread = said.unread({file for file, _ in edit.lines})
        if said.faults():
            return FAULTY, said.faults()[0][0]
        if unread:
            return FAULTY, unread
        if said.is_proved():
            return PASSED, ""
        if not said.last.startswith("logic=not-proved"):
            return UNTOLD, said.last or "the check gave no verdict"
        return said.refusal(said.states.values())


def trial_of(scratch, edit, number):
    """The trial of an edit that one function's check can judge, or none: in the twin with this number where the function may have one."""
    function = scratch.function_of(edit)
    if function in scratch.twinned:
        return scratch.twin(edit, function, number)
    name = function and function.printed(scratch.names)
    return Trial(edit, function, name) if name else None


def batches(trials):
    """Trials in lists that a check can judge at once: one of each name, and so many at most."""
    found = []
    for trial in trials:
        batch = next((some for some in found if len(some) < MOST and all(it.name != trial.name for it in some)), None)
        if batch is None:
            batch = []
            found.append(batch)
        batch.append(trial)
    return found


def judged(scratch, batch):
    """Gives of each trial what a check of all of them says, and why."""
    if not batch:
        return
    said = scratch.check(batch, sorted(it.name for it in batch))
    faulty = [it for it in batch if said.fault_of(it)]
    if said.states:
        yield from ((it, *said.of(it)) for it in batch)
    elif faulty:
        # The front end stops at faults; they stand in the bodies that have them.
        yield from ((it, FAULTY, said.fault_of(it)) for it in faulty)
        yield from judged(scratch, [it for it in batch if it not in faulty])
    elif len(batch) > 1:
        yield from judged(scratch, batch[::2])
        yield from judged(scratch, batch[1::2])
    else:
        yield batch[0], UNTOLD, said.last


def tried(scratch, edits):
    """Tries edits, as many in one check as it can judge, and gives of each what came of it, and why."""
    found = {edit: trial_of(scratch, edit, number) for number, edit in enumerate(edits) if not edit.fault}
    yield from ((it, FAULTY, it.fault) for it in edits if it.fault)
    alone = [edit for edit, its in found.items() if not its]
    for batch in batches([it for it in found.values() if it]):
        for it, verdict, why in judged(scratch, batch):
            if verdict in (REFUSED, FAULTY):
                yield it.edit, verdict, why
            else:
                alone.append(it.edit)
    for edit in alone:
        yield (edit, *scratch.alone(edit))
