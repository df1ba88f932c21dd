#!/usr/bin/env python3
"""proving.py COMMAND..: runs a command of `rt` that proves and builds, with a line on standard error for each crate.

All that it prints is printed where it fails, whose status this has too.
"""
import re
import subprocess
import sys
import tempfile


def main():
    crate = None
    with tempfile.TemporaryFile("w+") as log:
        with subprocess.Popen(sys.argv[1:], stdout=subprocess.PIPE, stderr=subprocess.STDOUT, text=True, errors="replace") as ran:
            for line in ran.stdout:
                log.write(line)
                found = re.match(r"fn (\w+)::", line)
                if found and found[1] != crate:
                    crate = found[1]
                    print(f"proving {crate}", file=sys.stderr, flush=True)
        if ran.returncode:
            log.seek(0)
            sys.stderr.write(log.read())
    return ran.returncode


sys.exit(main())
