#!/usr/bin/env python3
"""Whether the man page and the completions name the commands and flags of the built program, as its help has them.

bash's completion is asked for its words; those of zsh and fish are read, and parsed by their shells where these are there.
FUSEWORLD names another program. Prints a line for each difference, and ends with status 1 where there is one.
"""
import os
import re
import shutil
import subprocess
import sys
from pathlib import Path

TOP = Path(__file__).resolve().parent.parent
PROGRAM = Path(os.environ.get("FUSEWORLD", TOP / "crates" / "fuseworld" / "out" / "fuseworld")).resolve()
MAN = TOP / "man" / "fuseworld.1"
BASH = TOP / "completions" / "fuseworld.bash"
ZSH = TOP / "completions" / "_fuseworld"
FISH = TOP / "completions" / "fuseworld.fish"


def help_of(*words):
    """The help of the program or of a command, which goes to standard error."""
    return subprocess.run([PROGRAM, *words, "--help"], stdin=subprocess.DEVNULL, capture_output=True, text=True).stderr


def flags_of(text):
    return set(re.findall(r"^ .*?(--[a-z-]+)", text, re.M))


def from_help():
    listed = re.search(r"^Commands:\n((?:  .*\n)+)", help_of(), re.M)[1]
    commands = set(re.findall(r"^  (\w+)", listed, re.M))
    return {None: flags_of(help_of())} | {name: flags_of(help_of(name)) for name in commands - {"help"}} | {"help": set()}


def from_man():
    text = MAN.read_text().replace("\\-", "-")
    commands, options = (re.search(rf"^\.SH {part}\n(.*?)^\.SH", text, re.M | re.S)[1] for part in ("COMMANDS", "OPTIONS"))
    named = dict(re.findall(r"^\.TP\n\.B (\w+)(.*)$", commands, re.M))
    # Each command has --help, which the page tells of once.
    return {None: set(re.findall(r"^\.B .*?(--[a-z-]+)", options, re.M))} | {
        name: set(re.findall(r"--[a-z-]+", rest)) | ({"--help"} if name != "help" else set()) for name, rest in named.items()}


def asked(*words):
    """What bash's completion offers for the last of these words."""
    line = " ".join(f"'{word}'" for word in ("fuseworld", *words))
    script = f"source '{BASH}'; COMP_WORDS=({line}); COMP_CWORD={len(words)}; cd /var/empty 2> /dev/null || cd /; _fuseworld; echo \"${{COMPREPLY[@]}}\""
    return set(subprocess.run(["bash", "-c", script], capture_output=True, text=True).stdout.split())


def from_bash():
    return {None: asked("-")} | {name: asked(name, "-") for name in asked("")}


def from_zsh():
    text = ZSH.read_text()
    commands = re.findall(r"^        '(\w+):", text, re.M)
    lines = dict(re.findall(r"^        (\w+)\) (.*)$", text, re.M))
    top = re.search(r"CURRENT == 2.*?\n(.*)\n", text)[1]
    return {None: set(re.findall(r"(--[a-z-]+)\}", top))} | {name: set(re.findall(r"'(--[a-z-]+)\[", lines[name])) for name in commands}


def from_fish():
    text = FISH.read_text()
    top = set(re.findall(r"-n __fish_use_subcommand .*-l (\w+)", text))
    found = {None: {f"--{flag}" for flag in top}}
    for name in re.findall(r"-n __fish_use_subcommand -a (\w+)", text):
        found[name] = {f"--{flag}" for flag in re.findall(rf"_from {name}' -l ([\w-]+)", text)}
    return found


def main():
    wanted = from_help()
    wrong = []
    for file, found in ((MAN, from_man()), (BASH, from_bash()), (ZSH, from_zsh()), (FISH, from_fish())):
        for name in wanted.keys() | found.keys():
            if wanted.get(name) != found.get(name):
                words = [" ".join(sorted(flags)) if flags is not None else "no such command" for flags in (wanted.get(name), found.get(name))]
                wrong.append(f"{file.relative_to(TOP)}: {name or 'the program'}: {words[1]}, and by its help {words[0]}")
    for shell, file in (("bash", BASH), ("zsh", ZSH), ("fish", FISH)):
        if shutil.which(shell) and subprocess.run([shell, "-n", file]).returncode:
            wrong.append(f"{file.relative_to(TOP)}: {shell} does not parse it")
    print(*wrong, f"{len(wanted)} helps compared, {len(wrong)} differences", sep="\n")
    return 1 if wrong else 0


sys.exit(main())
