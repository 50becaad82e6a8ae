# The examples with sockets as the gate tries them: built, started on a free port of 127.0.0.1, and talked to.
import hashlib
import os
import re
import socket
import subprocess
import sys
from pathlib import Path

root = Path(__file__).resolve().parent.parent
STRICT = ["-std=c11", "-O2", "-Wall", "-Wextra", "-pedantic", "-Werror", "-I", root / "include"]
PARTS = {"projector": ["projector.c", "keep.c", "draw.c"], "controller": ["controller.c"]}
tries = 0


def build(folder, names, archive, *more):
    """The examples of these names as programs in the folder, with more words for the compiler."""
    folder.mkdir()
    for name in names:
        parts = [root / "examples" / part for part in PARTS[name]]
        subprocess.run(["cc", *STRICT, *more, *parts, root / archive, "-o", folder / name], check=True)


def environment(password=None, class_number=1, **more):
    """With this password, or with none that the program is told of."""
    words = {**os.environ, "PJLINK_CLASS": str(class_number), **more}
    words.pop("PJLINK_PASSWORD", None)
    return words if password is None else {**words, "PJLINK_PASSWORD": password}


def port_said(program):
    """The port that a projector says it listens at."""
    said = program.stdout.readline()
    found = re.fullmatch(r"listening at 127\.0\.0\.1 port (\d+)\n", said)
    holds(f"a projector says first {said!r}", found is not None, True)
    return int(found[1])


def holds(what, got, wanted):
    global tries
    tries += 1
    if got != wanted:
        sys.exit(f"{Path(sys.argv[0]).name}: {what}: {got!r}, not {wanted!r}")


class Peer:
    """A peer that is no controller of ours."""

    def __init__(self, port):
        self.socket = socket.create_connection(("127.0.0.1", port), timeout=20)
        self.socket.setsockopt(socket.IPPROTO_TCP, socket.TCP_NODELAY, 1)

    def __enter__(self):
        return self

    def __exit__(self, *_):
        self.socket.close()

    def line(self):
        got = b""
        while not got.endswith(b"\r"):
            byte = self.socket.recv(1)
            if not byte:
                return got
            got += byte
        return got

    def says(self, sent, wanted):
        self.socket.sendall(sent)
        holds(f"the reply to {sent[:40]!r}", self.line(), wanted)


def digest(greeting, password):
    return hashlib.md5(greeting[9:17] + password.encode()).hexdigest().encode()
