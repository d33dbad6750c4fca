"""The prover, called without `rt`.

`rt check` takes no library but its own, which keep every proof, so behind `rt ci` it would prove all of them again. The libraries that
`rt ci` leaves have their statements alone; a check over these is `rattle check`, with the words that `rattle help check` tells.
"""
import functools
import os
import re
import subprocess

from rooms import listed

# What a toolchain has to have, or else it is another one than this was written for: words of `rattle help check`, and files.
FLAGS = ("--antt-project", "--crate-name", "--extern", "--incremental", "--jobs", "--logic-built", "--only", "-L")
PROJECT, LOGIC = "rattle/logic/antt-project.json", "logic_built"


@functools.cache
def kit():
    """The folder of the toolchain: that of the page that `rt doc` names."""
    return os.path.dirname(subprocess.run(["rt", "doc"], capture_output=True, text=True, check=True).stdout.strip())


def is_known():
    """Whether the toolchain is one that these words fit."""
    try:
        said = subprocess.run(["rattle", "help", "check"], capture_output=True, text=True).stdout
    except OSError:
        return False
    return all(re.search(rf"^ +(-\w, )?{it}\b", said, re.M) for it in FLAGS) and all(os.path.exists(f"{kit()}/{it}") for it in (PROJECT, LOGIC))


def library(name, root):
    """Where the library of a crate stands, once it is built."""
    return f"{root}/crates/{name}/out/rlib/{name}.rlib"


def is_left_by_ci(name, root):
    """Whether the library of a crate is there and is none of `rt lib`, which leaves a stamp beside it."""
    return os.path.isdir(library(name, root)) and not os.path.exists(f"{os.path.dirname(library(name, root))}/stamp")


def check_words(name, root):
    """The command that checks a library of the repository in its folder; work is kept in out/incremental."""
    of_kit, own, beneath = f"{kit()}/rlibs", [], sorted(os.listdir(f"{root}/crates"))
    for it in ["std", *listed(root)[name]]:
        own += ["--extern", f"{it}={library(it, root) if it in beneath else f'{of_kit}/{it}.rlib'}"]
    for it in beneath:
        own += ["-L", f"dependency={os.path.dirname(library(it, root))}"] if it != name else []
    logic = ["--antt-project", f"{kit()}/{PROJECT}", "--logic-built", f"{kit()}/{LOGIC}"]
    words = ["--crate-name", name, "src/lib.rt", *own, "-L", f"dependency={of_kit}", *logic, "--incremental", "out/incremental"]
    return ["rattle", "check", *words]
