"""A mount behind examples/watch, for tests in Python: it is never left behind."""
import os
import shutil
import signal
import subprocess
import time
from pathlib import Path

TOP = Path(__file__).resolve().parent.parent
CONNECTIONS = Path("/sys/fs/fuse/connections")


def build_watch(built):
    subprocess.run(["cc", "-O1", "-Wall", "-Wextra", "-o", built / "watch", TOP / "examples/watch/watch.c", "-pthread"], check=True)
    return built / "watch"


def reason_to_skip(built):
    """Why nothing can be mounted here, or None. Builds the program `watch` there."""
    if not shutil.which("cc"):
        return "there is no C compiler"
    try:
        os.close(os.open("/dev/fuse", os.O_RDWR))
    except OSError as fault:
        return f"/dev/fuse cannot be opened ({fault.strerror})"
    folder = built / "try"
    folder.mkdir()
    said = subprocess.run([build_watch(built), "-l", "/dev/null", folder, "--", "true"], capture_output=True, text=True)
    return f"a mount is refused ({said.stderr.strip()})" if "watch: mount: " in said.stderr else None


def is_mounted(folder):
    with open("/proc/self/mounts") as mounts:
        return any(line.split()[1] == str(folder) for line in mounts)


def until(is_so, seconds=20):
    """Whether it becomes so."""
    end = time.monotonic() + seconds
    while not is_so():
        if time.monotonic() > end:
            return False
        time.sleep(0.02)
    return True


def processor_time(pid):
    """Seconds of all threads of a process that are there."""
    total = 0
    for thread in Path(f"/proc/{pid}/task").iterdir():
        total += int((thread / "schedstat").read_text().split()[0])
    return total / 1e9


class Watched:
    """A mount in FOLDER/mnt, by a server of these words, whose capture goes to FOLDER/capture: a pipe where another reads it.
    What the watcher and the server say goes to FOLDER/said."""

    def __init__(self, built, folder, words, options="", more=("-s", "0"), has_capture=True):
        self.has_capture = has_capture
        self.mount, self.capture, self.said = folder / "mnt", folder / "capture", folder / "said"
        self.mount.mkdir()
        with open(self.said, "wb") as said:
            self.watcher = subprocess.Popen(
                [built / "watch", "-l", self.capture, *more, "-o", options, self.mount, "--", *words],
                stdin=subprocess.DEVNULL, stdout=said, stderr=said)

    def __enter__(self):
        self.is_up = until(lambda: self.watcher.poll() is not None or self.has_begun())
        if self.watcher.poll() is not None or not self.is_up:
            self.__exit__()
            raise OSError(f"nothing is mounted: {self.said.read_text(errors='replace')}")
        return self

    def has_begun(self):
        """It is mounted, and if the capture can be read, the reply to INIT is there."""
        if not is_mounted(self.mount) or not self.has_capture:
            return is_mounted(self.mount)
        with open(self.capture) as capture:
            return any(line.startswith("<") for _, line in zip(range(4), capture))

    def connection(self):
        """Of the mount: the minor of its device."""
        with open("/proc/self/mountinfo") as mounts:
            return next(line.split()[2].split(":")[1] for line in mounts if line.split()[4] == str(self.mount))

    def abort(self):
        """Gives whether it can be done."""
        file = CONNECTIONS / self.connection() / "abort"
        is_here = file.exists()
        if not is_here:
            subprocess.run(["mount", "-t", "fusectl", "fusectl", CONNECTIONS], stderr=subprocess.DEVNULL, check=False)
        try:
            file.write_text("1")
        except OSError:
            return False
        finally:
            if not is_here:
                subprocess.run(["umount", CONNECTIONS], stderr=subprocess.DEVNULL, check=False)
        return True

    def unmount(self, *words):
        subprocess.run(["umount", *words, self.mount], stdout=subprocess.DEVNULL, stderr=subprocess.DEVNULL, check=False, timeout=60)

    def await_end(self, seconds=60):
        """Whether the watcher ends by itself."""
        try:
            self.watcher.wait(seconds)
        except subprocess.TimeoutExpired:
            return False
        return True

    def __exit__(self, *_):
        if self.watcher.poll() is None:
            self.watcher.send_signal(signal.SIGTERM)
            if not self.await_end(20):
                self.watcher.kill()
                self.watcher.wait()
        until(lambda: not is_mounted(self.mount), 5)
        while is_mounted(self.mount):
            self.unmount("-l")
