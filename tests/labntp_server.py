"""The serving `labntp`, as tests start it and see it."""
import os
import subprocess

import judging
import probe
from judging import WAIT, Odd, end, file_of, register_of, same, start, until
from labntpd_server import read, room

CUSTOMERS = [
    ("127.0.0.1", 1, "md5", "6b6579", 65535),
    ("127.0.0.2", 2, "sha1", "6f74686572", 65535),
    ("127.0.0.3", 3, "md5", "6b6579", 2),
    ("127.0.0.4", 4, "sha1", "6b6579", 10),
]
ONE, TWO, *_ = ("/".join(map(str, it[:4])) for it in CUSTOMERS)


def serving(port, turns=1):
    return ["serve", "--register", f"{judging.ROOM}/register.toml", "--commands", f"{judging.ROOM}/commands", "--port", str(port), "--turns", str(turns)]


class Server:
    """The serving program, from its first line on. Its commands file has these lines; where they are None, there is no such file. `told` is
    all that it tells on standard error."""

    def __init__(self, turns=1000, commands="", register=None, port=None):
        self.commands, self.told = file_of("commands", commands or ""), ""
        if commands is None:
            os.remove(self.commands)
        file_of("register.toml", register or register_of(CUSTOMERS))
        self.port = port or probe.free_port()
        with open(room("out"), "wb") as out, open(room("err"), "wb") as err:
            self.process = start(serving(self.port, turns), stdout=out, stderr=err)

    def __enter__(self):
        until("it serves", lambda: read("out").endswith("\n") or self.process.poll() is not None)
        same("standard output at the start", f"serving 127.0.0.1:{self.port}\n", read("out"))
        return self

    def __exit__(self, kind, *_):
        end(self.process)
        if kind is None:
            same("standard error", self.told, read("err"))

    def ask(self, wanted, customer, form="plain"):
        """What comes is as wanted. Silence lasts until another customer, who asks next, has an answer."""
        came = probe.silence(self.port, ONE, form, customer) if wanted == "silence" else probe.ask(self.port, form, customer)
        same(f"{form} query of {customer}", wanted, came)

    def append(self, *lines):
        with open(self.commands, "a") as it:
            it.write("".join(f"{line}\n" for line in lines))

    def replace(self, text):
        """Another file takes the place of the commands file."""
        os.rename(file_of("new", text), self.commands)

    def ends(self, status, last):
        """It ends so, with this last line."""
        try:
            same("status", status, self.process.wait(WAIT))
        except subprocess.TimeoutExpired:
            raise Odd(f"it had not ended {WAIT} seconds after its last turn")
        same("standard output", f"serving 127.0.0.1:{self.port}\n{last}", read("out"))
