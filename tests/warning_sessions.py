"""Captures in which a server is odd and breaks no rule, each with the warnings that `fuseworld check` has to print."""
from fuse_frames import (DIRECTORY, EAGAIN, ENOENT, LINK, attributes_reply, entry, getattr_body, numbers, opened, read_body,
                         record, release_body, reply, request, text)
from judged_session import Session

EINTR, ESTALE = 4, 116


def nodes_given_again():
    s = Session("Nodes that are given again under their generation, once they are forgotten.")
    s.begin()
    again = "warning: node given again under its generation: node 2 "
    s.ask("LOOKUP", 4, 1, text("a"), entry(2, 20))
    s.read(request("FORGET", 6, 2, numbers("Q", 1)))
    # the same file
    s.ask("LOOKUP", 8, 1, text("a"), entry(2, 20))
    s.read(request("FORGET", 10, 2, numbers("Q", 1)))
    s.ask("LOOKUP", 12, 1, text("b"), entry(2, 21), faults=(again + "generation 0 inode 21",))
    s.read(request("FORGET", 14, 2, numbers("Q", 1)))
    # another generation
    s.ask("LOOKUP", 16, 1, text("c"), entry(2, 22, generation=1))
    s.read(request("FORGET", 18, 2, numbers("Q", 1)))
    s.ask("LOOKUP", 20, 1, text("d"), entry(2, 22, LINK, generation=1), faults=(again + "generation 1 inode 22",))
    # while it is counted it is a fault
    s.ask("LOOKUP", 22, 1, text("e"), entry(2, 23, LINK, generation=1),
          faults=("server: node of two inode numbers: node 2 generation 1 inode 23",))
    # another node
    s.ask("LOOKUP", 24, 1, text("f"), entry(3, 23, LINK, generation=1))
    return s, s.end(entries=7, forgotten=4)


def handles_given_again():
    s = Session("File handles that are open and given again. A server that keeps none gives 0.")
    s.begin()
    again = "warning: file handle that is open given again: node "
    flags = numbers("II", 0, 0)
    s.ask("LOOKUP", 4, 1, text("a"), entry(2, 20))
    s.ask("LOOKUP", 6, 1, text("b"), entry(3, 30))
    s.ask("OPEN", 8, 2, flags, opened(5))
    # another node, and another kind
    s.ask("OPEN", 10, 3, flags, opened(5))
    s.ask("OPENDIR", 12, 1, flags, opened(5))
    s.ask("OPEN", 14, 2, flags, opened(5), faults=(again + "2 file handle 5",))
    s.ask("OPENDIR", 16, 1, flags, opened(5), faults=(again + "1 file handle 5",))
    s.ask("RELEASE", 18, 2, release_body(5))
    s.ask("RELEASE", 20, 2, release_body(5))
    s.ask("OPEN", 22, 2, flags, opened(5))
    s.ask("OPEN", 24, 2, flags, opened(0))
    s.ask("OPEN", 26, 2, flags, opened(0))
    return s, s.end(entries=2)


def nodes_said_not_to_be_there():
    s = Session("ENOENT and ESTALE to requests about counted nodes themselves.")
    s.begin()
    missing = "warning: counted node that is said not to be there: node "
    s.ask("GETATTR", 4, 1, getattr_body(), error=ENOENT, faults=(missing + "1 error 2",))
    s.ask("LOOKUP", 6, 1, text("a"), entry(2, 20))
    s.ask("OPEN", 8, 2, numbers("II", 0, 0), error=ESTALE, faults=(missing + "2 error 116",))
    s.ask("READLINK", 10, 2, error=ENOENT, faults=(missing + "2 error 2",))
    # about a name
    s.ask("LOOKUP", 12, 1, text("b"), error=ENOENT)
    s.ask("MKDIR", 14, 2, numbers("II", 0o755, 0) + text("c"), error=ENOENT)
    # another error
    s.ask("OPEN", 16, 2, numbers("II", 0, 0), error=13)
    # of a node that is not counted nobody knows
    s.read(request("GETATTR", 18, 9, getattr_body()), "kernel: node that is not counted: node 9")
    s.write(reply(18, error=ENOENT))
    # what the device refuses reaches no caller
    s.read(request("GETATTR", 20, 2, getattr_body()))
    s.write(reply(20, error=ENOENT), "device: right reply refused: unique 20", errno="EINVAL")
    return s, s.end(entries=1)


def errors_of_no_interrupt():
    s = Session("EINTR without an INTERRUPT.")
    s.begin()
    s.ask("STATFS", 4, 1, error=EINTR, faults=("warning: EINTR without an INTERRUPT: unique 4",))
    s.read(request("STATFS", 6, 1))
    s.read(request("INTERRUPT", 7, 0, numbers("Q", 6)))
    s.write(reply(6, error=EINTR))
    # another request's
    s.read(request("STATFS", 8, 1))
    s.read(request("STATFS", 10, 1))
    s.read(request("INTERRUPT", 9, 0, numbers("Q", 8)))
    s.write(reply(10, error=EINTR), "warning: EINTR without an INTERRUPT: unique 10")
    s.write(reply(8, error=EINTR))
    # another thread may read it later
    s.line("= several readers")
    s.ask("STATFS", 12, 1, error=EINTR)
    return s, s.end()


def listings_that_are_odd():
    s = Session("Offsets that are given twice in a row, and listings that end where they began.")
    s.begin()
    twice, ends = "warning: offset given twice in a row", "warning: listing that ends where it began"
    s.ask("OPENDIR", 4, 1, numbers("II", 0, 0), opened(5))
    s.ask("READDIR", 6, 1, read_body(5), record("a", 20, 1) + record("b", 21, 2) + record("c", 22, 2), faults=(twice,))
    s.ask("READDIR", 8, 1, read_body(5, offset=2), record("d", 23, 7) + record("e", 24, 2), faults=(ends,))
    # neither: an offset may come back, and fall
    s.ask("READDIR", 10, 1, read_body(5, offset=2), record("d", 23, 9) + record("e", 24, 2) + record("f", 25, 9))
    s.ask("READDIR", 12, 1, read_body(5, offset=9))
    plus = [entry(0, 0, 0) + record(".", 1, 0, 4), entry(0, 0, 0) + record("..", 1, 0, 4)]
    s.ask("READDIRPLUS", 14, 1, read_body(5), b"".join(plus), faults=(twice, ends))
    named = entry(2, 20) + record("a", 20, 3) + entry(3, 30, DIRECTORY) + record("d", 30, 4, 4)
    s.ask("READDIRPLUS", 16, 1, read_body(5, offset=3), named)
    s.ask("READDIRPLUS", 18, 1, read_body(5, offset=4), named, faults=(ends,))
    return s, s.end(entries=4)


def many_agains():
    s = Session("An INTERRUPT that is answered EAGAIN 1,002 times.")
    s.begin()
    s.read(request("STATFS", 4, 1))
    for count in range(1, 1003):
        s.read(request("INTERRUPT", 5, 0, numbers("Q", 4)))
        often = ["warning: INTERRUPT answered EAGAIN more than 1000 times: INTERRUPT of 4"]
        s.write(reply(5, error=EAGAIN), *(often if count == 1001 else []))
    s.write(reply(4, error=EINTR))
    s.ask("GETATTR", 6, 1, getattr_body(), attributes_reply(1, DIRECTORY))
    return s, s.end()


SESSIONS = [
    nodes_given_again, handles_given_again, nodes_said_not_to_be_there, errors_of_no_interrupt, listings_that_are_odd,
    many_agains,
]
