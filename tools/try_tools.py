#!/usr/bin/env python3
"""A short trial of the built program and of the tools beside it, which .ci/run makes after the gate.

    tools/try_tools.py PROGRAM

Compares the definitions that docs/MODEL.md prints with the specs; runs the commands of docs/USING.md, but for those of the
real market; sees that no file that was read is replaced, under whatever name, and that nothing waits at a pipe; runs the tests
of tools/portgap.py; holds the program to tools/reference.py over some hundred damaged inputs; and refuses some allocations of
each command where there is a C compiler. Answers 1 where one of these fails. Python's standard library alone.
"""

import os
import re
import shutil
import subprocess
import sys
import tempfile

HERE = os.path.dirname(os.path.abspath(__file__))
EXAMPLES = os.path.join(HERE, "..", "examples")
INPUTS = 300
REFUSALS = 40


def content(path):
    with open(path, "rb") as file:
        return file.read()


def ran(program, folder, *words):
    return subprocess.run([program, *words], cwd=folder, capture_output=True, text=True, timeout=60)


def try_statuses(program, folder, cases):
    """Runs words of the program: the status of each, nothing printed where it is 3 or 4, and what standard error says."""
    for status, told, words in cases:
        done = ran(program, folder, *words.split())
        if done.returncode != status or told not in done.stderr or (status in (3, 4) and done.stdout):
            sys.exit(f"{words}: status {done.returncode}, {done.stdout!r}, {done.stderr!r}")


def try_nothing_is_lost(program, folder):
    """Solves the small market of examples/, and then tries to write over what is read."""
    for name in ("three.txt", "three.json"):
        shutil.copy(os.path.join(EXAMPLES, name), folder)
    try_statuses(program, folder, [(0, "", "solve three.txt three.json cert")])
    for link, name, to in ((os.link, "cert", "hard"), (os.symlink, "three.txt", "soft"), (os.symlink, "cert", "soft.cert")):
        link(name if link is os.symlink else os.path.join(folder, name), os.path.join(folder, to))
    os.mkfifo(os.path.join(folder, "pipe"))
    names = ("three.txt", "three.json", "cert")
    before = [content(os.path.join(folder, name)) for name in names]
    read = "it is a file that this run has read"
    try_statuses(program, folder, [
        (4, read, "solve three.txt three.json ./three.txt"), (4, read, "solve three.txt three.json ./three.json"),
        (4, read, "solve three.txt three.json soft"), (4, read, "solve soft three.json three.txt"),
        (4, read, "upgrade cert ./cert"), (4, read, "upgrade cert hard"), (4, read, "upgrade soft.cert cert"),
        (4, "regular", "solve three.txt three.json pipe"), (3, "regular", "solve pipe three.json new"),
        (3, "regular", "check ."), (4, "regular", "upgrade cert ."), (3, "none: No such file", "check none"),
        (4, "none/new: No such file", "upgrade cert none/new"), (0, "", "upgrade cert /dev/null"),
    ])
    if before != [content(os.path.join(folder, name)) for name in names] or os.path.exists(os.path.join(folder, "new")):
        sys.exit("a file that was read isn't as it was")


def try_definitions():
    """Each definition of docs/MODEL.md stands in the spec that is named above it, word for word."""
    top = os.path.join(HERE, "..")
    model = content(os.path.join(top, "docs", "MODEL.md")).decode()
    blocks = re.findall(r"`(crates/\S+)`:\n\n```antt\n(.*?)\n```", model, re.DOTALL)
    for name, block in blocks:
        spec = content(os.path.join(top, name)).decode()
        for definition in block.split("\n\n"):
            if definition not in spec:
                sys.exit(f"docs/MODEL.md prints a definition otherwise than {name}:\n{definition}")
    if not blocks:
        sys.exit("docs/MODEL.md prints no definition")


def try_tour(program, folder):
    """The commands of docs/USING.md in their order, in a folder that looks like the top of the repository."""
    top = os.path.abspath(os.path.join(HERE, ".."))
    for name in ("tools", "examples"):
        os.symlink(os.path.join(top, name), os.path.join(folder, name))
    os.mkdir(os.path.join(folder, "bin"))
    os.symlink(program, os.path.join(folder, "bin", "portgap"))
    here = {**os.environ, "PORTGAP": program, "PATH": os.path.join(folder, "bin") + os.pathsep + os.environ["PATH"]}
    tour = content(os.path.join(top, "docs", "USING.md")).decode()
    commands = re.findall(r"^ {4,}((?:portgap|python3 tools/\w+\.py) .*)$", tour, re.MULTILINE)
    commands = [command for command in commands if not re.search(r"dow30|old\.cert|explain", command)]
    for command in commands:
        done = subprocess.run(command, shell=True, cwd=folder, env=here, capture_output=True, text=True, timeout=120)
        if done.returncode != 0 or not done.stdout and ">" not in command:
            sys.exit(f"docs/USING.md: {command}: status {done.returncode}: {done.stdout}{done.stderr}")
    if len(commands) < 9:
        sys.exit(f"docs/USING.md has {len(commands)} commands to try")


def passes(*words, folder=None, **more):
    return subprocess.run([sys.executable, *words], cwd=folder, timeout=600, **more).returncode == 0


def is_kept_without_memory(program, folder):
    if shutil.which("cc") is None:
        return True
    return passes(os.path.join(HERE, "refused_memory.py"), program, "--most", str(REFUSALS), folder=folder)


def main():
    program = os.path.abspath(sys.argv[1])
    try_definitions()
    with tempfile.TemporaryDirectory() as folder:
        try_tour(program, folder)
    with tempfile.TemporaryDirectory() as folder:
        try_nothing_is_lost(program, folder)
        fuzz = [os.path.join(HERE, "fuzz.py"), "--program", program, "--count", str(INPUTS), "--keep", folder]
        passed = passes("-m", "unittest", "test_portgap", folder=HERE, env={**os.environ, "PORTGAP": program})
        passed = passed and passes(*fuzz, folder=folder) and is_kept_without_memory(program, folder)
    print("tools: nothing is lost, the module's tests, the damaged inputs and the refusals are as they should be" if passed else "tools: failed")
    sys.exit(0 if passed else 1)


main()
