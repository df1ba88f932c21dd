"""The program `fuseworld` for tests of FUSE servers and kernels: this file alone, with the standard library.

    with Kernel() as kernel:                      # the proved kernel, in front of your server
        kernel("mount")                           # a line there, its object back; docs/SIDES.md has both
        kernel.write(answer_of(kernel.read()))    # frames are bytes
    with Server() as server:                      # the proved server, in front of your kernel
        server.take(frame)
    drive(["call stat /a"], your_server).faults   # calls, each carried to its answer; docs/DRIVE.md
    check(capture).faults                         # a recorded session, judged; docs/CHECK.md

The variable FUSEWORLD names the program, else it is looked for on the path.
"""
import json
import os
import re
import socket
import subprocess
import tempfile
import threading
from dataclasses import dataclass

PROGRAM = os.environ.get("FUSEWORLD", "fuseworld")
FAULT = re.compile(r"reply to nothing|second reply|no reply's head|body is not its|node \d+ (under two|given for)|the root given|differs: ")


class Side:
    """A side as a process: one line there, one object back. At the end of `with` the process ends, whatever happened."""

    def __init__(self, command):
        words = [PROGRAM, command, "--json"]
        self.process = subprocess.Popen(words, stdin=subprocess.PIPE, stdout=subprocess.PIPE, text=True)

    def __enter__(self):
        return self

    def __exit__(self, *_):
        self.close()

    def close(self):
        self.process.communicate()

    def __call__(self, line):
        """The object that a line comes to. Of a line that is no line, ValueError; where the process ended, EOFError."""
        try:
            self.process.stdin.write(line + "\n")
            self.process.stdin.flush()
            said = self.process.stdout.readline()
        except BrokenPipeError:
            said = ""
        if not said:
            raise EOFError(f"fuseworld ended with status {self.process.wait()}")
        object = json.loads(said)
        if "line" in object:
            raise ValueError(f"{line}: {object['line']}")
        return object

    def nodes(self):
        """The lookup count of each node, by (nodeid, generation)."""
        return {(node["nodeid"], node["generation"]): node["count"] for node in self("show")["nodes"]}


class Kernel(Side):
    def __init__(self):
        super().__init__("kernel")

    def read(self, pick="p 0"):
        """The next request's frame: `p K` the K-th that is pending, `i` an INTERRUPT, `f N` the oldest N forgets."""
        said = self(f"read {pick}")
        if "frame" not in said:
            raise LookupError(f"read {pick}: {said.get('name')}")
        return bytes.fromhex(said["frame"])

    def write(self, frame):
        """What the kernel makes of bytes as a reply: `result` is 0, 2 (ENOENT) or 22 (EINVAL), `answers` the calls that end."""
        return self(f"write {frame.hex() or '-'}")


class Server(Side):
    def __init__(self, found=1000, missing=0, minor=31):
        super().__init__("server")
        self(f"mount {found} {missing} {minor}")

    def take(self, frame):
        """What the server makes of bytes as a request: `event` is `taken`, or `fault` with the fault's `name`."""
        return self(f"take {frame.hex() or '-'}")

    def perform(self, unique):
        """Performs a request that was taken: the reply's frame, and the number of its copy for `settle`."""
        said = self(f"do {unique}")
        return bytes.fromhex(said["frame"]), said["copy"]

    def settle(self, copy, result=0):
        """The kernel's result of a copy: 0 accepted, 2 or 22 refused."""
        return self(f"settle {copy} {result}")


@dataclass
class Driven:
    """What `drive` printed: all lines; those that say what the server did wrong; and the exit status."""
    lines: list
    faults: list
    status: int


def drive(script, server, *options, seconds=60):
    """Drives a server by the lines of a script: `server` is the path of a socket, or a function of a connected stream
    socket that serves it until it ends. Without options a line is a call, and answers are compared with the proved server's."""
    with tempfile.TemporaryDirectory() as folder:
        path, file = server, os.path.join(folder, "script")
        with open(file, "w", encoding="ascii") as lines:
            lines.write("".join(f"{line}\n" for line in script))
        if callable(server):
            path = os.path.join(folder, "socket")
            listener = socket.create_server(path, family=socket.AF_UNIX)
            listener.settimeout(seconds)
            thread = threading.Thread(target=lambda: server(listener.accept()[0]), daemon=True)
            thread.start()
        words = [PROGRAM, "drive", *(options or ["--beside"]), file, path]
        ran = subprocess.run(words, stdin=subprocess.DEVNULL, capture_output=True, text=True, timeout=seconds)
        if callable(server):
            listener.close()
    if ran.returncode not in (0, 4, 6) or not ran.stdout:
        raise RuntimeError(f"fuseworld drive: status {ran.returncode}: {ran.stderr.strip()}")
    lines = ran.stdout.splitlines()
    return Driven(lines, [line for line in lines if FAULT.match(line)], ran.returncode)


@dataclass
class Judged:
    """What `check` found: faults and warnings, each an object with its `line` and `rule`, and the counts."""
    faults: list
    warnings: list
    counts: dict


def check(capture, *options):
    """Judges the lines of a capture: `> HEX` a request, `< HEX` a reply. ValueError, where one is no line."""
    words = [PROGRAM, "check", "--json", *options]
    ran = subprocess.run(words, input="".join(f"{line}\n" for line in capture), capture_output=True, text=True)
    if ran.returncode not in (0, 6):
        raise ValueError(f"fuseworld check: status {ran.returncode}: {ran.stderr.strip()}")
    said = {"fault": [], "warning": []}
    for object in map(json.loads, ran.stdout.splitlines()):
        said.setdefault(object["event"], []).append(object)
    return Judged(said["fault"], said["warning"], said["counts"][0])
