#!/usr/bin/env python3
"""Runs the built program with each of its allocations refused in turn, and holds it to what it promises then.

    refused_memory.py PROGRAM [--most N]

A small library that stands before the C library's `malloc` and its kin counts the calls and refuses one of them. For each
command on a small market the whole run comes first; then, for k from 1 to the number of its allocations (or for N of these,
evenly spread), the same run with the k-th refused: its status is 1 or that of the whole run; what it prints is then a front
of the whole report, or the whole report; and a certificate that it began is a proper front of the whole one, or the whole
one. It prints a line a command and ends with 1 where a promise was broken. It needs python3 and a C compiler, `cc`.
"""
import argparse
import os
import subprocess
import sys
import tempfile

REFUSING = r"""
#define _GNU_SOURCE
#include <dlfcn.h>
#include <errno.h>
#include <stdio.h>
#include <stdlib.h>
#include <unistd.h>

static long calls, refused = -1;
static int ready;

static void begin(void) {
    const char *which = getenv("REFUSED");
    ready = 1;
    refused = which ? atol(which) : 0;
}

static int refuses(void) {
    if (!ready) begin();
    return ++calls == refused;
}

void *malloc(size_t size) {
    static void *(*real)(size_t);
    if (!real) real = dlsym(RTLD_NEXT, "malloc");
    if (refuses()) { errno = ENOMEM; return NULL; }
    return real(size);
}

void *realloc(void *old, size_t size) {
    static void *(*real)(void *, size_t);
    if (!real) real = dlsym(RTLD_NEXT, "realloc");
    if (refuses()) { errno = ENOMEM; return NULL; }
    return real(old, size);
}

void *aligned_alloc(size_t align, size_t size) {
    static void *(*real)(size_t, size_t);
    if (!real) real = dlsym(RTLD_NEXT, "aligned_alloc");
    if (refuses()) { errno = ENOMEM; return NULL; }
    return real(align, size);
}

int posix_memalign(void **to, size_t align, size_t size) {
    static int (*real)(void **, size_t, size_t);
    if (!real) real = dlsym(RTLD_NEXT, "posix_memalign");
    if (refuses()) return ENOMEM;
    return real(to, align, size);
}

__attribute__((destructor)) static void tell(void) {
    const char *file = getenv("REFUSED_COUNT");
    char text[32];
    FILE *out = file ? fopen(file, "w") : NULL;
    if (out) {
        snprintf(text, sizeof text, "%ld\n", calls);
        fputs(text, out);
        fclose(out);
    }
}
"""

PORT = "3\n.001 .1\n.002 .2\n.003 .3\n1 1 1\n1 2 .1\n1 3 .2\n2 2 1\n2 3 .3\n3 3 1\n"
JOB = '{"held":[1,2],"lots":20,"least":1,"greatest":20,"weights":[[0,2],[1,2],[2,2]],"nodes":50}'

COMMANDS = [
    ["quick", "port", "2", "20", "1", "2", "50"],
    ["solve", "port", "job", "new"],
    ["check", "cert"],
    ["verify", "port", "job", "cert"],
    ["upgrade", "cert", "new"],
    ["demo", "1", "5", "2", "20", "50"],
]


class Room:
    """A folder with the files that the commands read, and the library that refuses."""

    def __init__(self, program, folder):
        self.program, self.folder = os.path.abspath(program), folder
        for name, text in (("port", PORT), ("job", JOB), ("refusing.c", REFUSING)):
            with open(f"{folder}/{name}", "w", encoding="utf-8") as it:
                it.write(text)
        subprocess.run(["cc", "-shared", "-fPIC", "-O1", "-o", "refusing.so", "refusing.c", "-ldl"], cwd=folder, check=True)

    def run(self, words, refused):
        """Runs a command with an allocation refused (0: none): its status, what it prints, the file `new`, the calls."""
        new = f"{self.folder}/new"
        if os.path.exists(new):
            os.remove(new)
        here = {**os.environ, "LD_PRELOAD": f"{self.folder}/refusing.so", "REFUSED": str(refused), "REFUSED_COUNT": f"{self.folder}/count"}
        ran = subprocess.run([self.program, *words], cwd=self.folder, env=here, capture_output=True, timeout=120)
        written = None
        if os.path.exists(new):
            with open(new, "rb") as it:
                written = it.read()
        with open(f"{self.folder}/count", encoding="utf-8") as it:
            calls = int(it.read())
        return ran.returncode, ran.stdout, written, calls


def is_kept(whole, ran):
    """Says whether a run with a refusal keeps what is promised beside the whole run."""
    status, text, written, _ = ran
    if status == whole[0] and text == whole[1] and written == whole[2]:
        return True
    if status != 1 or not whole[1].startswith(text):
        return False
    if written is None or whole[2] is None:
        return written is None or whole[2] is not None
    return len(written) < len(whole[2]) and whole[2].startswith(written)


def try_command(room, words, most):
    """Tries a command with its allocations refused in turn: how many there are, how many were tried, and what broke."""
    whole = room.run(words, 0)
    if whole[0] != 0:
        raise SystemExit(f"{' '.join(words)}: the whole run has the status {whole[0]}")
    if whole[2] is not None:
        with open(f"{room.folder}/cert", "wb") as it:
            it.write(whole[2])
    calls = whole[3]
    tried = range(1, calls + 1) if calls <= most else sorted({1 + k * (calls - 1) // (most - 1) for k in range(most)})
    broken = [k for k in tried if not is_kept(whole, room.run(words, k))]
    return calls, len(tried), broken


def main():
    words = argparse.ArgumentParser(description="refuses each allocation of the built program in turn")
    words.add_argument("program")
    words.add_argument("--most", type=int, default=100000, help="the most allocations that are tried a command")
    asked = words.parse_args()
    ended = 0
    with tempfile.TemporaryDirectory() as folder:
        room = Room(asked.program, folder)
        for command in COMMANDS:
            calls, tried, broken = try_command(room, command, asked.most)
            print(f"{command[0]}: {calls} allocations, {tried} refused in turn, {len(broken)} broken {broken[:5] or ''}".rstrip())
            ended = ended or bool(broken)
    return int(ended)


if __name__ == "__main__":
    sys.exit(main())
