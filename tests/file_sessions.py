"""Captures of files that are opened, used and released, each with what `fuseworld check` has to print of it."""
from fuse_frames import (ENOSYS, copy_body, entry, getattr_body, numbers, opened, read_body, release_body, reply, request,
                         setattr_body, text)
from judged_session import Session


def open_files():
    s = Session("File handles that are not open, and releases of them.")
    s.begin()
    s.ask("LOOKUP", 4, 1, text("a"), entry(2, 20))
    s.ask("OPEN", 6, 2, numbers("II", 0, 0), opened(5))
    shut = "kernel: file handle that is not open: node 2 file handle 7"
    s.read(request("READ", 8, 2, read_body(7)), shut)
    s.read(request("GETATTR", 10, 2, getattr_body(7)), shut)
    s.read(request("SETATTR", 12, 2, setattr_body(7)), shut)
    s.read(request("FLUSH", 14, 1, release_body(5)), "kernel: file handle that is not open: node 1 file handle 5")
    s.read(request("READDIR", 16, 2, read_body(5)), "kernel: file handle that is not open: node 2 file handle 5")
    s.read(request("COPY_FILE_RANGE", 18, 2, copy_body(5, 2, 7, 10)), shut)
    s.write(reply(18, numbers("II", 10, 0)))
    s.read(request("RELEASE", 20, 2, release_body(7)), "kernel: RELEASE of what is not open: node 2 file handle 7")
    s.read(request("RELEASEDIR", 22, 2, release_body(5)), "kernel: RELEASE of what is not open: node 2 file handle 5")
    # the READ waits, and then the last RELEASE comes
    s.read(request("READ", 24, 2, read_body(5)))
    s.read(request("RELEASE", 26, 2, release_body(5)), "kernel: RELEASE beside a use: node 2 file handle 5")
    s.read(request("RELEASE", 28, 2, release_body(5)), "kernel: RELEASE of what is not open: node 2 file handle 5")
    # a handle that was given twice is open until its second RELEASE
    s.ask("OPEN", 30, 2, numbers("II", 0, 0), opened(9))
    s.ask("OPEN", 32, 2, numbers("II", 0, 0), opened(9),
          faults=("warning: file handle that is open given again: node 2 file handle 9",))
    s.read(request("READ", 34, 2, read_body(9)))
    s.read(request("RELEASE", 36, 2, release_body(9)))
    s.write(reply(34))
    s.read(request("RELEASE", 38, 2, release_body(9)))
    return s, s.end(entries=1, unanswered=12)


def directory_released_beside_a_listing():
    s = Session("As Linux 6.18 does: a directory that is open under file handle 0 is released, while one is listed that ENOSYS "
                "to OPENDIR left without one. Under another file handle that is a fault.")
    s.begin()
    s.ask("OPENDIR", 4, 1, numbers("II", 0, 0), opened(5))
    s.ask("OPENDIR", 6, 1, numbers("II", 0, 0), opened(0))
    s.ask("OPENDIR", 8, 1, numbers("II", 0, 0), error=ENOSYS)
    s.read(request("READDIR", 10, 1, read_body(0)))
    s.ask("RELEASEDIR", 12, 1, release_body(0))
    s.write(reply(10))
    s.read(request("READDIR", 14, 1, read_body(5)))
    s.read(request("RELEASEDIR", 16, 1, release_body(5)), "kernel: RELEASE beside a use: node 1 file handle 5")
    s.write(reply(16))
    s.write(reply(14))
    return s, s.end()


def files_that_are_not_opened():
    s = Session("After ENOSYS to OPEN the file handle is 0; to OPENDIR likewise.")
    s.begin()
    s.ask("LOOKUP", 4, 1, text("a"), entry(2, 20))
    s.read(request("READ", 6, 2, read_body(0)), "kernel: file handle that is not open: node 2 file handle 0")
    s.ask("OPEN", 8, 2, numbers("II", 0, 0), error=ENOSYS)
    s.read(request("READ", 10, 2, read_body(0)))
    s.read(request("READ", 12, 2, read_body(1)), "kernel: file handle that is not open: node 2 file handle 1")
    s.read(request("READDIR", 14, 1, read_body(0)), "kernel: file handle that is not open: node 1 file handle 0")
    s.ask("OPENDIR", 16, 1, numbers("II", 0, 0), error=ENOSYS)
    s.ask("READDIR", 18, 1, read_body(0))
    # what CREATE opened is used, and not released
    s.ask("CREATE", 20, 1, numbers("IIII", 0, 0o644, 0, 0) + text("b"), entry(3, 30) + opened(5))
    s.ask("READ", 22, 3, read_body(5))
    s.read(request("FORGET", 24, 3, numbers("Q", 1)))
    return s, s.end(entries=2, forgotten=1, unanswered=4)


SESSIONS = [open_files, directory_released_beside_a_listing, files_that_are_not_opened]
