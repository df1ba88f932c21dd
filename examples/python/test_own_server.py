"""A FUSE server of two files, held against the proved kernel: `FUSEWORLD=path python3 -m unittest test_own_server`."""
import struct
import unittest
from contextlib import suppress

import fuseworld

FILES = {b"a": (2, b"first"), b"b": (3, b"second")}  # name: nodeid and content
DIRECTORY, REGULAR = 0o040755, 0o100644
ENOENT, EAGAIN, ENOSYS = 2, 11, 38


def attributes(nodeid):
    """struct fuse_attr"""
    content = {node: bytes for node, bytes in FILES.values()}
    size = len(content.get(nodeid, b""))
    mode = DIRECTORY if nodeid == 1 else REGULAR
    return struct.pack("<6Q10I", nodeid, size, 0, 0, 0, 0, 0, 0, 0, mode, 1, 0, 0, 0, 4096, 0)


def entry(nodeid):
    """struct fuse_entry_out: generation 1, valid for a second"""
    return struct.pack("<4Q2I", nodeid, 1, 1, 1, 0, 0) + attributes(nodeid)


def reply(unique, body=b"", error=0):
    """struct fuse_out_header and a body"""
    return struct.pack("<IiQ", 16 + len(body), -error, unique) + body


class Server:
    """What a server's author writes: it counts one lookup for each copy of an entry that it sends."""

    def __init__(self):
        self.lookups = {}

    def answer(self, frame):
        """The reply to a request frame, or None."""
        _, opcode, unique, nodeid = struct.unpack_from("<IIQQ", frame)
        body = frame[40:]
        if opcode == 26:  # INIT
            return reply(unique, struct.pack("<4I2H2I2H8I", 7, 31, 0, 1, 0, 0, 4096, 1, 0, 0, *[0] * 8))
        if opcode == 1:  # LOOKUP
            if body[:-1] not in FILES:
                return reply(unique, error=ENOENT)
            node = FILES[body[:-1]][0]
            self.lookups[node] = self.lookups.get(node, 0) + 1
            return reply(unique, entry(node))
        if opcode == 3:  # GETATTR
            return reply(unique, struct.pack("<QII", 1, 0, 0) + attributes(nodeid))
        if opcode == 2:  # FORGET
            self.lookups[nodeid] -= struct.unpack_from("<Q", body)[0]
            return None
        return reply(unique, error=EAGAIN if opcode == 36 else ENOSYS)  # INTERRUPT of a request that is not known


def serve(connection, server):
    """Serves a connected stream socket, until it is closed."""
    with connection, connection.makefile("rb") as requests, suppress(ConnectionError):
        while length := requests.read(4):
            frame = length + requests.read(struct.unpack("<I", length)[0] - 4)
            if answer := server.answer(frame):
                connection.sendall(answer)


def next_request(kernel):
    """The next request's frame, or None where none is pending."""
    try:
        return kernel.read()
    except LookupError:
        return None


class OwnServer(unittest.TestCase):
    def setUp(self):
        self.server, self.kernel = Server(), fuseworld.Kernel()
        self.kernel("mount")
        self.assertEqual(self.kernel.write(self.server.answer(self.kernel.read()))["result"], 0)

    def tearDown(self):
        self.kernel.close()

    def test_late_copy(self):
        """A second copy of an entry is refused, so what it counted has to be given back."""
        server, kernel = self.server, self.kernel
        kernel("call stat /a")
        entry_of_a = server.answer(kernel.read())
        self.assertEqual(kernel.write(entry_of_a)["result"], 0)
        self.assertEqual(kernel.write(entry_of_a)["result"], ENOENT)
        answered = kernel.write(server.answer(kernel.read()))
        self.assertEqual(answered["answers"], [{"call": 1, "error": 0, "kind": "file", "ino": 2, "size": 5, "nlink": 1}])
        self.assertEqual(kernel.nodes(), {(2, 1): 1})
        kernel("drop 1 a")
        self.assertEqual(kernel("evict 2")["count"], server.lookups[2])
        server.answer(kernel.read("f 1"))
        self.assertEqual(server.lookups, {2: 0})

    def test_interrupt(self):
        """An INTERRUPT that overtakes its request is sent again after EAGAIN, and goes with the request."""
        server, kernel = self.server, self.kernel
        kernel("call stat /")
        request = kernel.read()
        self.assertEqual(kernel("intr 1 soft")["effect"], "queued")
        self.assertEqual(kernel.write(server.answer(kernel.read("i")))["result"], 0)
        interrupt = kernel.read("i")
        self.assertEqual(kernel.write(server.answer(request))["answers"][0]["error"], 0)
        self.assertEqual(kernel.write(server.answer(interrupt))["result"], ENOENT)

    def test_abort(self):
        """At an abort each call is answered ECONNABORTED, and a reply that comes later goes to nothing."""
        server, kernel = self.server, self.kernel
        kernel("call stat /b")
        request = kernel.read()
        self.assertEqual(kernel("abort")["answers"], [{"call": 1, "error": 103}])
        self.assertEqual(kernel.write(server.answer(request))["result"], ENOENT)

    def test_driven(self):
        """Calls that are carried to their answers are answered as by the proved server, where nothing is there yet."""
        driven = fuseworld.drive(["call stat /missing", "call stat /"], lambda connection: serve(connection, self.server), "--calls")
        self.assertEqual((driven.status, driven.faults), (0, []))
        self.assertIn("answer 1 2", driven.lines)

    def test_a_wrong_server(self):
        """A server that sends each reply twice, driven: which fault is printed."""
        self.server.answer = lambda frame, once=self.server.answer: (once(frame) or b"") * 2
        driven = fuseworld.drive(["call stat /"], lambda connection: serve(connection, self.server), "--calls")
        self.assertIn("second reply: INIT 2", driven.faults)

    def test_session(self):
        """A session of this kernel and this server, judged."""
        capture = []
        with fuseworld.Kernel() as kernel:
            kernel("mount")
            for line in ("call stat /a", "call stat /b"):
                for request in iter(lambda: next_request(kernel), None):
                    answer = self.server.answer(request)
                    capture += [f"> {request.hex()}", f"< {answer.hex()}"]
                    kernel.write(answer)
                kernel(line)
        judged = fuseworld.check(capture)
        self.assertEqual((judged.faults, judged.counts["requests"]), ([], 3))
        judged = fuseworld.check([*capture, capture[-1]])
        self.assertEqual([(fault["party"], fault["rule"]) for fault in judged.faults][-1], ("server", "second reply"))
