#!/usr/bin/env python3
"""Feeds the built program with damaged port files, jobs and certificates, and holds it to tools/reference.py.

    tools/fuzz.py --count 100000 --seed 1 --jobs 4

The inputs hang on the seed alone, and what is found doesn't hang on the number of processes. Of each input the program has
to answer: a status of the table, a message on standard error exactly where that isn't 0, the line of the refusal that the
reference finds at its place, or the whole report; what the reference doesn't say to the byte, as what `solve` prints and writes, twice the same. `check`
and `verify` accept whatever `solve` wrote, and say of each weight what `solve` printed; `upgrade` copies it; `check` accepts
of the damaged certificates exactly those that the reference finds valid. Each input that isn't so is kept in a folder, and
the answer is then 1. Python's standard library alone.
"""

import argparse
import functools
import json
import math
import multiprocessing
import os
import random
import re
import signal
import sys
import tempfile
import time

import reference
from reference import Refused

HERE = os.path.dirname(os.path.abspath(__file__))
PROGRAM = os.path.join(HERE, "..", "crates", "portgap", "out", "portgap")
USAGE = (
    b"usage: portgap quick PORT HELD LOTS P Q NODES | solve PORT JOB CERT | check CERT | "
    b"verify PORT JOB CERT | demo NUMBER N HELD LOTS NODES | upgrade CERT NEW"
)
SHARED = "/dev/shm"
PATIENCE = 120  # seconds for one run
DAMAGES = 12  # of each certificate


class Broken(Exception):
    """The program broke a promise."""


def said(refused):
    return refused.status, refused.line.encode() + b"\n"


class Late(Exception):
    """The program took too long."""


def late(*_):
    raise Late


class Runner:
    """Runs the program in a folder, in which this process stands from then on."""

    def __init__(self, program, folder):
        self.program, self.runs = program, 0
        self.files = open(os.devnull, "rb"), tempfile.TemporaryFile(dir=folder), tempfile.TemporaryFile(dir=folder)
        self.ends = [file.fileno() for file in self.files]
        os.chdir(folder)
        signal.signal(signal.SIGALRM, late)

    def put(self, name, data):
        with open(name, "wb") as file:
            file.write(data)

    def get(self, name):
        """The content of a file; None where it is missing."""
        try:
            with open(name, "rb") as file:
                return file.read()
        except FileNotFoundError:
            return None

    def begun(self, words):
        """The program with these words, what it says going to the starts of two files."""
        for end in self.ends[1:]:
            os.lseek(end, 0, os.SEEK_SET)
        actions = [(os.POSIX_SPAWN_DUP2, end, number) for number, end in enumerate(self.ends)]
        return os.posix_spawn(self.program, [self.program, *words], {}, file_actions=actions)

    def status(self, child, words):
        signal.alarm(PATIENCE)
        try:
            ended = os.waitpid(child, 0)[1]
        except Late:
            os.kill(child, signal.SIGKILL)
            os.waitpid(child, 0)
            raise Broken(f"{words}: no end in {PATIENCE} s") from None
        finally:
            signal.alarm(0)
        return os.waitstatus_to_exitcode(ended)

    def once(self, *words):
        """The status and what was printed."""
        self.runs += 1
        status = self.status(self.begun(words), words)
        # the program shares the places in the files, and left them behind what it said
        out, err = (os.pread(end, os.lseek(end, 0, os.SEEK_CUR), 0) for end in self.ends[1:])
        if status < 0:
            raise Broken(f"{words}: ended by signal {-status}")
        if status not in (0, 2, 5, 6, 7, 8):
            raise Broken(f"{words}: status {status}: {err[:200]!r}")
        if err.startswith(b"portgap") != (status != 0) or (err and not err.endswith(b"\n")):
            raise Broken(f"{words}: status {status}, and said {err[:200]!r} on standard error")
        return status, out

    def twice(self, words, written=()):
        """The status and what was printed, the same in two runs, as are the files that it writes."""
        first = self.once(*words), [self.get(name) for name in written]
        if (self.once(*words), [self.get(name) for name in written]) != first:
            raise Broken(f"{words}: two runs differ")
        return first[0]

    def expect(self, wanted, *words):
        found = self.once(*words)
        if found != wanted:
            raise Broken(f"{words}: answered {found}, wanted {wanted}")


# ---- inputs


def drawn_market(draw):
    """A port file of 2 to 6 assets with one factor, and so with correlations that a market can have."""
    n = draw.randint(2, 6)
    loads = [draw.randint(-900, 900) for _ in range(n)]
    lines = [str(n)]
    for _ in range(n):
        lines.append(f"{draw.randint(-2000, 8000) / 10**6:.6f} {draw.randint(0, 80000) / 10**6:.6f}")
    for i in range(n):
        for j in range(i + draw.choice((0, 1)), n):
            rho = 1000000 if i == j else loads[i] * loads[j]
            lines.append(f"{i + 1} {j + 1} {rho / 10**6:.6f}" if draw.random() < 0.8 else f"{j + 1} {i + 1} {rho}e-6")
    listed = [line for line in lines if line]
    data = "\n".join(listed).encode() + b"\n"
    try:
        reference.read_port(data)
    except Refused:
        return b"2\n.001 .1\n.002 .2\n1 2 0\n"
    return data


def assets(market):
    return int(market.split(None, 1)[0])


def drawn_job(draw, n):
    lots = draw.randint(1, 12)
    low = draw.randint(1, n)
    job = {"lots": lots, "held": draw.choice((low, [low, draw.randint(low, n)])), "nodes": draw.randint(0, 12)}
    if draw.random() < 0.4:
        job["least"] = draw.randint(1, lots)
    if draw.random() < 0.4:
        job["greatest"] = draw.randint(1, lots)
    if draw.random() < 0.4:
        some = draw.sample(range(1, n + 1), draw.randint(0, n))
        job["limits"] = [[asset, draw.randint(1, lots), draw.randint(1, lots)] for asset in some]
    if draw.random() < 0.4:
        some = draw.sample(range(1, n + 1), draw.randint(0, n))
        job["present"] = [[asset, draw.randint(0, lots)] for asset in some]
        job["turnover"] = draw.randint(0, 2 * lots)
    if draw.random() < 0.3:
        job["workers"] = draw.randint(1, 16)
    weights = []
    for _ in range(draw.randint(1, 4)):
        q = draw.randint(1, 100)
        weights.append([draw.randint(0, q), q])
    job["weights"] = weights
    return json.dumps(job).encode()


WORDS = [b"0", b"1", b"-1", b".5", b"1e1", b"1e99", b"+", b"null", b"true", b"{}", b"[]", b'"a"', b",", b":", b"]", b"}",
         b"65536", b"18446744073709551616", b"1.000001", b"-0", b"2.0", b"\x1a", b"\xff", b" ", b"\n"]


VALUES = [None, True, False, "10", [], {}, [[]], [1], [1, 2], [2, 1], [1, 2, 3], [[1]], [[1, 1]], [[1, 1], [1, 1]], [[1, 1, 1]],
          [[9, 1, 1]], [[0, 1]], [[2, 20000]], [[1, 0]], [[3, 2]], 0, 1, 2, 7, 16, 17, 100, 101, 10000, 10001, 100000, 100001,
          3000000, 3000001, -1, 1.0, 1.5, 2**64 - 1, 2**64, [[k % 2, 1] for k in range(101)], [[0, 1]] * 102]


def odd_job(draw, data):
    """The job with one or two values changed, keys taken or unknown ones put in."""
    job = json.loads(data)
    for _ in range(draw.choice((1, 1, 2))):
        key = draw.choice(reference.KEYS)
        way = draw.randint(0, 9)
        if way == 0:
            job.pop(key, None)
        elif way == 1:
            job[draw.choice(("", "Lots", "zeta", "held ", "a\u00e9", "\U0001f600"))] = 1
        else:
            job[key] = draw.choice(VALUES)
    keys = list(job)
    draw.shuffle(keys)
    return json.dumps({key: job[key] for key in keys}, indent=draw.choice((None, 1))).encode()


def damaged(draw, data):
    """The bytes with one to three changes: a byte changed, taken or put in, a piece moved, a word put in, or cut short."""
    data = bytearray(data)
    for _ in range(draw.choice((1, 1, 1, 2, 3))):
        place = draw.randint(0, max(len(data) - 1, 0))
        way = draw.choice((0, 1, 1, 1, 2, 2, 2, 3, 3, 3, 4, 5, 6, 7))
        if not data or way == 0:
            data.insert(place, draw.randint(0, 255))
        elif way == 1:
            data[place] = draw.randint(0, 255)
        elif way == 2:
            data[place] = (data[place] + draw.choice((1, -1))) % 256
        elif way == 3:
            data[place] ^= 1 << draw.randint(0, 7)
        elif way == 4:
            del data[place]
        elif way == 5:
            end = min(place + draw.randint(1, 20), len(data))
            piece = bytes(data[place:end])
            del data[place:end]
            data[draw.randint(0, len(data)):0] = piece
        elif way == 6:
            data[place:place] = draw.choice(WORDS)
        else:
            del data[place:]
    return bytes(data)


# ---- what is tried


def try_port(runner, draw):
    data = damaged(draw, drawn_market(draw))
    runner.put("port", data)
    try:
        market = reference.read_port(data)
    except Refused as refused:
        runner.expect(said(refused), "quick", "port", "1", "5", "1", "2", "0")
        return
    status, text = runner.twice(("quick", "port", "1", "5", "1", "2", "0"))
    if status != 0 or not re.fullmatch(rb"weight 1/2 (closed|open|none) nodes 0[^\n]*\n(lots( \d+:\d+)+\n)?", text):
        raise Broken(f"quick on a market of {market.n} assets answered {status}, {text!r}")


def told(lines):
    """The lines of the verdict that a report promises."""
    return [re.sub(rb" nodes \d+", b"", line) for line in lines if line.startswith(b"weight ")]


def solve(runner, market, job):
    """The lines that `solve` prints."""
    runner.put("port", market)
    runner.put("job", job)
    status, text = runner.twice(("solve", "port", "job", "cert"), ("cert",))
    if status != 0:
        raise Broken(f"solve answered {status}, {text}")
    return text.split(b"\n")[:-1]


def try_job(runner, draw):
    market = drawn_market(draw)
    n = assets(market)
    damage = draw.choice((odd_job, odd_job, damaged))
    job = damage(draw, drawn_job(draw, n))
    try:
        asked = reference.read_job(job, n)
    except Refused as refused:
        runner.put("port", market)
        runner.put("job", job)
        runner.expect(said(refused), "solve", "port", "job", "cert")
        return
    if asked.nodes <= 1000:
        accepted(runner, solve(runner, market, job))


def accepted(runner, lines):
    """The head of what `solve` wrote, and its verdict, that of `check`, of `verify` and of the reference."""
    verdict = 0, b"".join(line + b"\n" for line in told(lines)) + b"yes\n"
    runner.expect(verdict, "check", "cert")
    runner.expect(verdict, "verify", "port", "job", "cert")
    head, weights, found = reference.read_certificate(runner.get("cert"))
    if [line.encode() for line in found] != told(lines):
        raise Broken(f"the reference reads {found}")
    if math.comb(head.lots + head.n - 1, head.n - 1) <= 1000:
        every = [head.risk_and_return(x) for x in reference.lists(head)]
        for weight, line in zip(weights, found):
            judge(head, weight, line, min((head.weighed(weight, *two) for two in every), default=None))
    return head, verdict


def judge(head, weight, line, best):
    """What a verdict line says holds of the least objective of all lists; None where no list meets the limits."""
    state, numbers = line.split()[2], re.findall(r"(-?[0-9]+)/[0-9]+", line)[1:]
    if state == "none" or best is None:
        right = best is None and (state == "none" or len(numbers) == 1)
    elif state == "closed":
        right = numbers == [str(best), str(best)]
    else:
        right = int(numbers[-1]) <= best and (len(numbers) == 1 or best <= int(numbers[0]))
    if not right:
        raise Broken(f"of {weight} in {head.lots} lots the least objective is {best}, and the program says {line}")


def audited(*names):
    """What the auditor of tools/reference.py answers for the names of files."""
    status, lines = reference.audit(names)
    return status, b"".join(line.encode() + b"\n" for line in lines)


class Noting(reference.Bytes):
    """The bytes of a certificate; the places of bounds, and of alpha and tau, are noted."""

    def __init__(self, data):
        super().__init__(data)
        self.places = []

    def number(self, width, low, high, signed=False, kind="Range"):
        if width == 16 and high >= 10**30:
            # a bound as often as there are other numbers in a small certificate
            self.places += [self.at] * (8 if high == 10**36 else 1)
        return super().number(width, low, high, signed, kind)


def weakened(draw, data):
    """The certificate with a bound, an objective or a multiplier changed a little: what it claims may then be weak or wrong."""
    source = Noting(data)
    head = reference.read_head(source)
    for _ in range(head.sections):
        reference.read_section(source, head)
    if not source.places:
        return damaged(draw, data)
    place = draw.choice(source.places)
    value = int.from_bytes(data[place:place + 16], "big", signed=True) + draw.choice((1, 1, 2, -1, 10**15, -(10**15)))
    return data[:place] + value.to_bytes(16, "big", signed=True) + data[place + 16:]


def upgraded(runner, verdict, name, wanted):
    """`upgrade` of the file says the verdict, and writes the wanted certificate."""
    runner.expect(verdict, "upgrade", name, "new")
    if runner.get("new") != wanted:
        raise Broken(f"upgrade of {name} wrote another certificate")


def try_certificate(runner, draw):
    market = drawn_market(draw)
    head, verdict = accepted(runner, solve(runner, market, drawn_job(draw, assets(market))))
    wholes = [runner.get("cert")]
    upgraded(runner, verdict, "cert", wholes[0])
    if head.held == head.held_most:
        wholes.append(reference.version_one(wholes[0]))
        runner.put("one", wholes[1])
        upgraded(runner, verdict, "one", wholes[0])
    for _ in range(DAMAGES):
        damage = draw.choice((damaged, damaged, damaged, weakened))
        runner.put("damaged", damage(draw, draw.choice(wholes)))
        command = draw.choice((["check", "damaged"], ["check", "damaged"], ["upgrade", "damaged", "new"]))
        runner.expect(audited("damaged"), *command)


def try_verify(runner, draw):
    market = drawn_market(draw)
    n = assets(market)
    job = drawn_job(draw, n)
    solve(runner, market, job)
    cert = runner.get("cert")
    for _ in range(4):
        port = damaged(draw, market) if draw.random() < 0.5 else market
        task = drawn_job(draw, n) if draw.random() < 0.3 else odd_job(draw, job)
        runner.put("other", port)
        runner.put("task", task)
        runner.expect(audited("cert", "other", "task"), "verify", "other", "task", "cert")


def try_words(runner, draw):
    words = draw.choice((
        ["quick", "port", "2", "10", "1", "1", "0"], ["solve", "port", "job", "cert"], ["check", "cert"],
        ["verify", "port", "job", "cert"], ["demo", "7", "5", "2", "10", "3"], ["upgrade", "cert", "new"],
    ))[:]
    way = draw.randint(0, 2)
    if way == 0:
        words.append(draw.choice(("", "0", "port", "x")))
    elif way == 1:
        words[0] = draw.choice(("", "Quick", "solver", "chec", "--help", "help"))
    else:
        words[draw.randint(1, len(words) - 1)] = ""
    runner.expect((2, USAGE + b"\n"), *words)


TRIES = {"port": try_port, "job": try_job, "certificate": try_certificate, "verify": try_verify, "words": try_words}
SHARES = {"port": 30, "job": 20, "certificate": 30, "verify": 15, "words": 5}


def keep(folder, runner, name, number, fault):
    """Keeps the input of a broken promise in a folder of its own, and says so."""
    kept = os.path.join(folder, f"{name}-{number}")
    os.makedirs(kept, exist_ok=True)
    for file in os.listdir("."):
        with open(os.path.join(kept, file), "wb") as out:
            out.write(runner.get(file))
    with open(os.path.join(kept, "FAULT"), "w", encoding="utf-8") as out:
        out.write(str(fault) + "\n")
    return f"{name} {number}: {fault}\n  kept in {kept}"


def tried(words, runner, number):
    """What is broken at an input; None where nothing is."""
    draw = random.Random(f"{words.seed}/{number}")
    names = words.only or list(TRIES)
    name = draw.choices(names, [SHARES[name] for name in names])[0]
    try:
        TRIES[name](runner, draw)
    except Broken as fault:
        return keep(words.keep, runner, name, number, fault)
    return None


def piece(words, numbers):
    """What is broken at some inputs, and how often the program ran."""
    with tempfile.TemporaryDirectory(dir=words.folder) as folder:
        runner = Runner(words.program, folder)
        found = [tried(words, runner, number) for number in numbers]
        os.chdir(HERE)
        return [fault for fault in found if fault], runner.runs


def pieces(words):
    """The same for each hundred inputs, in their order."""
    end = words.first + words.count
    each = [range(first, min(first + 100, end)) for first in range(words.first, end, 100)]
    if words.jobs == 1:
        yield from (piece(words, numbers) for numbers in each)
        return
    with multiprocessing.Pool(words.jobs) as pool:
        yield from pool.imap(functools.partial(piece, words), each)
        pool.close()
        pool.join()


def asked():
    parser = argparse.ArgumentParser(description="Holds the built program to the formats, over damaged inputs drawn from a seed.")
    parser.add_argument("--program", default=PROGRAM)
    parser.add_argument("--seed", type=int, default=1)
    parser.add_argument("--count", type=int, default=1000, help="how many inputs")
    parser.add_argument("--first", type=int, default=0, help="the number of the first input")
    parser.add_argument("--jobs", type=int, default=1, help="how many processes try them")
    parser.add_argument("--only", choices=sorted(TRIES), action="append", help="try these alone")
    parser.add_argument("--keep", default="fuzz-found", help="the folder for inputs of broken promises")
    parser.add_argument("--folder", default=SHARED if os.access(SHARED, os.W_OK) else None, help="where files are written while it runs")
    words = parser.parse_args()
    words.program, words.keep = os.path.abspath(words.program), os.path.abspath(words.keep)
    return words


def main():
    words = asked()
    if not os.path.exists(words.program):
        print(f"fuzz.py: there is no program at {words.program}", file=sys.stderr)
        return 2
    began, runs, broken = time.monotonic(), 0, 0
    for found, some in pieces(words):
        runs, broken = runs + some, broken + len(found)
        for fault in found:
            print(fault, flush=True)
    took, spent = time.monotonic() - began, 1000 * sum(os.times()[:4]) / max(words.count, 1)
    print(f"{words.count} inputs, {runs} runs, {broken} broken promises, seed {words.seed}, {took:.0f} s, {spent:.1f} ms of a processor each")
    return 1 if broken else 0


if __name__ == "__main__":
    sys.exit(main())
