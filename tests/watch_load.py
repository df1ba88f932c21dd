#!/usr/bin/env python3
"""A load of a mount: watch_load.py NAME FOLDER [SECONDS].

`churn`: processes rename onto names, remove, link and make them, while others look them up and read them. `signals`: such
processes, and readers and writers of long files, get SIGKILL, SIGUSR1 or SIGALRM at random times, and others take their
places; where nothing can be made they only look. `stats`: a name that is not there, and each name that is, again and again.
"""
import os
import random
import signal
import sys
import time

NAMES = ["hello", *(f"name{number}" for number in range(12))]
# Their handler is there for the EINTR of the call.
CAUGHT = (signal.SIGUSR1, signal.SIGALRM)


def quietly(call, *words):
    try:
        return call(*words)
    except OSError:
        return None


def write(path, size):
    file = os.open(path, os.O_RDWR | os.O_CREAT | random.choice((0, os.O_TRUNC, os.O_APPEND)), 0o644)
    try:
        os.write(file, bytes(size))
        os.pread(file, size, 0)
        if random.random() < 0.2:
            os.fsync(file)
    finally:
        os.close(file)


def read(path):
    with open(path, "rb") as file:
        while file.read(1 << 17):
            pass


def change(base):
    """One change of a name."""
    name, other = (f"{base}/{random.choice(NAMES)}" for _ in range(2))
    act = random.randrange(7)
    if act == 0:
        quietly(os.rename, name, other)
    elif act == 1:
        quietly(os.unlink, name)
        quietly(os.rmdir, name)
    elif act == 2:
        quietly(os.link, name, other)
    elif act == 3:
        quietly(os.mkdir, name)
    elif act == 4:
        quietly(os.symlink, "none", name)
    else:
        quietly(write, name, random.choice((10, 5000, 70000)))


def look(base):
    name = f"{base}/{random.choice(NAMES)}"
    act = random.randrange(4)
    if act == 0:
        quietly(os.lstat, name)
    elif act == 1:
        quietly(read, name)
    elif act == 2:
        quietly(os.listdir, base)
    else:
        for entry in quietly(os.scandir, base) or []:
            quietly(entry.stat)


def write_long(base):
    quietly(write, f"{base}/long", 3 << 20)
    quietly(read, f"{base}/long")


def child(act, base, seconds):
    """Its process; it ends after so many seconds, or by SIGKILL."""
    process = os.fork()
    if process:
        return process
    for number in CAUGHT:
        signal.signal(number, lambda *_: None)
    random.seed()
    end = time.monotonic() + seconds
    while time.monotonic() < end:
        act(base)
    os._exit(0)


def churn(base, seconds):
    for process in [child(act, base, seconds) for act in (change, change, look, look)]:
        os.waitpid(process, 0)


def signals(base, seconds):
    acts = (change, look, write_long, write_long, look, change)
    processes = [child(act, base, seconds) for act in acts]
    end = time.monotonic() + seconds
    while time.monotonic() < end:
        time.sleep(random.uniform(0, 0.02))
        place = random.randrange(len(acts))
        number = random.choice((signal.SIGKILL, *CAUGHT))
        os.kill(processes[place], number)
        if number == signal.SIGKILL:
            os.waitpid(processes[place], 0)
            processes[place] = child(acts[place], base, end - time.monotonic())
    for process in processes:
        os.kill(process, signal.SIGKILL)
        os.waitpid(process, 0)


def stats(base, rounds=20000):
    names = os.listdir(base)
    for number in range(rounds):
        quietly(os.stat, f"{base}/none{number}")
        quietly(os.stat, f"{base}/{names[number % len(names)]}" if names else base)


def main():
    name, base = sys.argv[1:3]
    if name == "stats":
        return stats(base)
    folder = f"{base}/{name}"
    is_made = quietly(os.mkdir, folder) is None and os.path.isdir(folder)
    (churn if name == "churn" else signals)(folder if is_made else base, float(sys.argv[3]))


main()
