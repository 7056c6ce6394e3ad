#!/usr/bin/env python3
"""portgap for desks: prices in, names out, in plain Python 3 without further packages.

    python3 tools/portgap.py market prices.csv market.port
    python3 tools/portgap.py solve market.port job.json out.cert --html out.html
    python3 tools/portgap.py verify market.port job.json out.cert
    python3 tools/portgap.py report out.report
    python3 tools/portgap.py explain market.port 'port Range 56'

As a module:

    import portgap
    market = portgap.Market.from_prices("prices.csv")
    job = portgap.Job(lots=100, held=(5, 10), weights=["1/2", "19/20"], limits={"ACME": (2, 10)})
    report = portgap.solve(market, job, "out.cert")
    for outcome in report.outcomes:
        print(outcome.label, outcome.state, outcome.gap, outcome.holdings)

The program is the one that $PORTGAP names, or `portgap` beside this file, in crates/portgap/out of this repository, or on
the path. All numbers of a report are exact (`fractions.Fraction`). Where a run doesn't end with status 0 a `PortgapError`
says why, with `status` and `line`. A certificate gets its name only when the run is whole: until then it stands beside it
under a name of its own.
"""

import argparse
import csv
import json
import math
import os
import secrets
import shutil
import stat
import subprocess
import sys
import tempfile
import time
from contextlib import contextmanager
from dataclasses import dataclass
from fractions import Fraction

import portgap_explain
import portgap_report
from portgap_report import Fault, Outcome, Report

__all__ = ["Market", "Job", "Report", "Outcome", "PortgapError", "Fault", "quick", "solve", "check", "verify", "demo", "upgrade"]

MILLION = 10**6
HERE = os.path.dirname(os.path.abspath(__file__))


class PortgapError(Exception):
    """A run that didn't end with status 0: its status, the line of its refusal, what standard error said."""

    def __init__(self, status, line, said):
        super().__init__(line or said or f"status {status}")
        self.status, self.line, self.said = status, line, said


class MemoryRefused(PortgapError):
    """Status 1."""


class WordsRefused(PortgapError):
    """Status 2: a number or a name that the program doesn't take."""


class CouldNotRead(PortgapError):
    """Status 3."""


class CouldNotWrite(PortgapError):
    """Status 4."""


class PortRefused(PortgapError):
    """Status 5: the market isn't in form."""


class JobRefused(PortgapError):
    """Status 6."""


class CertificateRefused(PortgapError):
    """Status 7."""


class Differs(PortgapError):
    """Status 8: the certificate is of another market or job."""


ERRORS = {1: MemoryRefused, 2: WordsRefused, 3: CouldNotRead, 4: CouldNotWrite, 5: PortRefused, 6: JobRefused,
          7: CertificateRefused, 8: Differs}


# ---- markets


def millionths(value, what, low, high):
    """A number in millionths, rounded to the nearest; ValueError where it is none or out of range."""
    if isinstance(value, float) and not math.isfinite(value):
        raise ValueError(f"{what} is {value}")
    found = round(Fraction(value) * MILLION)
    if not low * MILLION <= found <= high * MILLION:
        raise ValueError(f"{what} is {value}, and its range is {low} to {high}")
    return found


def text_of(number):
    """A number in millionths as a numeral of a port file."""
    return f"{'-' if number < 0 else ''}{abs(number) // MILLION}.{abs(number) % MILLION:06d}"


@dataclass(frozen=True)
class Market:
    """Names, means, deviations and correlations, the numbers in millionths. `correlations` is a matrix, as rows."""

    names: tuple
    means: tuple
    deviations: tuple
    correlations: tuple

    def __post_init__(self):
        if not 2 <= len(self.names) <= 256:
            raise ValueError(f"a market has 2 to 256 assets, and here are {len(self.names)}")
        for name in self.names:
            if not name or name != name.strip() or any(ord(char) < 32 for char in name):
                raise ValueError(f"no name of an asset: {name!r}")
        twice = sorted({name for name in self.names if self.names.count(name) > 1})
        if twice:
            raise ValueError(f"two assets are called {twice[0]}")

    @classmethod
    def from_moments(cls, means, deviations, correlations, names=None):
        """A market of means, deviations and a symmetric matrix of correlations, all per period and as parts of 1."""
        n = len(means)
        names = tuple(str(k + 1) for k in range(n)) if names is None else tuple(names)
        if not len(names) == len(deviations) == len(correlations) == n or any(len(row) != n for row in correlations):
            raise ValueError("names, means, deviations and correlations aren't of the same assets")
        matrix = [[millionths(value, f"the correlation of {names[i]} and {names[j]}", -1, 1) for j, value in enumerate(row)]
                  for i, row in enumerate(correlations)]
        for i in range(n):
            for j in range(i + 1):
                if matrix[i][j] != (MILLION if i == j else matrix[j][i]):
                    raise ValueError(f"the correlations of {names[i]} and {names[j]} aren't those of a symmetric matrix with 1 on its diagonal")
        return cls(
            names, tuple(millionths(value, f"the mean of {name}", -1, 1) for name, value in zip(names, means)),
            tuple(millionths(value, f"the deviation of {name}", 0, 1) for name, value in zip(names, deviations)),
            tuple(map(tuple, matrix)),
        )

    @classmethod
    def from_prices(cls, path, log=False, leave_out=False, delimiter=","):
        """The market of a table of prices: a heading, a first column of dates, a column for each asset.

        The moments are those of the returns from row to row: simple, or logarithmic with `log`; deviations divide by the
        number of returns less 1. A price that is missing is refused with its row and column; with `leave_out` its row is
        left out. Dates of the form 2024-01-31 have to rise."""
        with open(path, newline="", encoding="utf-8-sig") as file:
            names, rows = read_prices(csv.reader(file, delimiter=delimiter), leave_out)
        if len(rows) < 3:
            raise ValueError(f"{len(rows)} rows of prices are too few: a deviation needs 3")
        returns = [[math.log(later / earlier) if log else later / earlier - 1 for earlier, later in zip(column, column[1:])]
                   for column in zip(*rows)]
        return cls.from_moments(*moments(returns), names)

    def write(self, port):
        """Writes the port file, and beside it PORT.names with a name a line."""
        n = len(self.names)
        lines = [str(n)]
        lines += [f"{text_of(mean)} {text_of(deviation)}" for mean, deviation in zip(self.means, self.deviations)]
        lines += [f"{i + 1} {j + 1} {text_of(self.correlations[i][j])}" for i in range(n) for j in range(i + 1, n)]
        for name, text in ((port, lines), (f"{port}.names", self.names)):
            with open(name, "w", encoding="utf-8") as file:
                file.write("\n".join(text) + "\n")


def moments(returns):
    """Means, deviations and correlations of columns of returns. A column that never changes is correlated with none."""
    count = len(returns[0])
    means = [math.fsum(column) / count for column in returns]
    apart = [[value - mean for value in column] for column, mean in zip(returns, means)]
    squares = [math.fsum(value * value for value in column) for column in apart]
    deviations = [math.sqrt(square / (count - 1)) for square in squares]

    def correlation(i, j):
        if i == j:
            return 1
        if squares[i] == 0 or squares[j] == 0:
            return 0
        found = math.fsum(a * b for a, b in zip(apart[i], apart[j])) / math.sqrt(squares[i] * squares[j])
        return max(-1.0, min(1.0, found))

    places = range(len(returns))
    upper = {(i, j): correlation(i, j) for i in places for j in places if i <= j}
    return means, deviations, [[upper[min(i, j), max(i, j)] for j in places] for i in places]


def price(cell):
    """The price in a cell; None where it is missing."""
    if cell.strip().lower() in ("", "na", "n/a", "nan", "null", "none", "-", "#n/a"):
        return None
    value = float(cell)
    if not math.isfinite(value) or value <= 0:
        raise ValueError(f"{cell.strip()} is no price")
    return value


def read_prices(table, leave_out):
    """The names of the assets and the rows of prices."""
    heading = next(table, None)
    if heading is None:
        raise ValueError("the table of prices is empty")
    names, rows, last = [name.strip() for name in heading[1:]], [], ""
    for number, row in enumerate(table, 2):
        if not any(cell.strip() for cell in row):
            continue
        if len(row) != len(heading):
            raise ValueError(f"row {number} has {len(row)} columns, and the heading {len(heading)}")
        last = later_date(number, last, row[0].strip())
        prices = [price_at(number, name, cell) for name, cell in zip(names, row[1:])]
        if None not in prices:
            rows.append(prices)
        elif not leave_out:
            raise ValueError(f"row {number}, column {names[prices.index(None)]}: the price is missing")
    return names, rows


def price_at(number, name, cell):
    try:
        return price(cell)
    except ValueError as fault:
        raise ValueError(f"row {number}, column {name}: {fault}") from None


def later_date(number, last, date):
    """The date, which has to be later than the last one where both are in the order of the calendar."""
    if len(date) >= 10 and date[:4].isdigit() and date[4] == date[7] == "-" and len(last) == len(date) and date <= last:
        raise ValueError(f"row {number}: the date {date} isn't later than {last} of the row before: sort the table, the oldest row first")
    return date


def names_of(port):
    """The names in PORT.names; None where there is no such file."""
    try:
        with open(f"{port}.names", encoding="utf-8") as file:
            return file.read().splitlines()
    except FileNotFoundError:
        return None


# ---- jobs


def weight_of(value):
    """A weight as [p, q]: from a pair, a text as "19/20" or "0.95", a Fraction, or a number."""
    if isinstance(value, (tuple, list)):
        return [int(part) for part in value]
    part = Fraction(repr(value)) if isinstance(value, float) else Fraction(value)
    if part.denominator > 100 or not 0 <= part <= 1:
        raise ValueError(f"the weight {value} isn't p/q with q from 1 to 100 and p from 0 to q")
    return [part.numerator, part.denominator]


def number_of(asset, names):
    """The number of an asset that is named, or numbered from 1."""
    if isinstance(asset, int):
        return asset
    if names is None or asset not in names:
        raise ValueError(f"no asset is called {asset!r}")
    return names.index(asset) + 1


@dataclass
class Job:
    """What is asked. `held` is a number of assets or a pair, the fewest and the most; `limits` gives an asset, by name or
    number from 1, its least and greatest lots; `without` are assets that aren't to be held; `present` are the lots held now."""

    lots: int
    held: object
    weights: list
    least: int = None
    greatest: int = None
    limits: dict = None
    without: list = None
    present: dict = None
    turnover: int = None
    nodes: int = None
    workers: int = None

    def as_dict(self, names=None):
        """The job as the program reads it."""
        job = {"lots": self.lots, "held": list(self.held) if isinstance(self.held, (tuple, list)) else self.held,
               "weights": [weight_of(weight) for weight in self.weights]}
        limits = {number_of(asset, names): list(both) for asset, both in (self.limits or {}).items()}
        if self.without and self.lots == 1:
            raise ValueError("with one lot no asset can be left out")
        limits.update({number_of(asset, names): [self.lots, 1] for asset in self.without or []})
        if limits:
            job["limits"] = [[asset, *both] for asset, both in limits.items()]
        if self.present:
            job["present"] = [[number_of(asset, names), lots] for asset, lots in self.present.items()]
        for key in ("least", "greatest", "turnover", "nodes", "workers"):
            if getattr(self, key) is not None:
                job[key] = getattr(self, key)
        return job


def numbered(path, names):
    """The text of a job file with numbers in place of names; None where it has no names, or isn't a job at all."""
    try:
        with open(path, encoding="utf-8") as file:
            job = json.load(file)
        found = False
        for key in ("limits", "present"):
            for entry in job.get(key, []):
                if isinstance(entry[0], str):
                    entry[0], found = number_of(entry[0], names), True
        return json.dumps(job) if found else None
    except (AttributeError, TypeError, IndexError, json.JSONDecodeError, UnicodeDecodeError, OSError):
        return None


# ---- running the program


def program():
    """The built program."""
    named = os.environ.get("PORTGAP")
    built = os.path.join(HERE, "..", "crates", "portgap", "out", "portgap")
    for path in [named] if named else [os.path.join(HERE, "portgap"), built]:
        if os.path.isfile(path) and os.access(path, os.X_OK):
            return os.path.abspath(path)
    found = None if named else shutil.which("portgap")
    if found is None:
        raise FileNotFoundError(f"no program: {named or 'set PORTGAP to the built portgap, or put it beside portgap.py or on the path'}")
    return found


class Progress:
    """A line on a terminal: weights done, closed so far, time, and the rest at the same pace."""

    def __init__(self, total, out=None):
        self.out = sys.stderr if out is None else out
        self.total, self.done, self.closed, self.began = total, 0, 0, time.monotonic()
        self.shows = self.out.isatty()

    def take(self, line):
        if not self.shows or not line.startswith("weight "):
            return
        self.done += 1
        self.closed += line.split()[2] == "closed"
        took = time.monotonic() - self.began
        told = f"{self.done} of {self.total} weights" if self.total else f"{self.done} weights"
        rest = f", about {took / self.done * (self.total - self.done):.0f} s left" if self.total else ""
        self.out.write(f"\r{told}, {self.closed} closed, {took:.0f} s{rest}\x1b[K")
        self.out.flush()

    def end(self):
        if self.shows and self.done:
            self.out.write("\r\x1b[K")
            self.out.flush()


def run(words, names=None, total=None, told=None):
    """Runs the program, and answers its report; `told` is called with each line as it comes. Every command goes this way. The
    program is killed where this is interrupted."""
    report, lines, progress = Report(names=names), [], Progress(total)
    words = [program(), *map(str, words)]
    with subprocess.Popen(words, stdin=subprocess.DEVNULL, stdout=subprocess.PIPE, stderr=subprocess.PIPE, text=True, encoding="utf-8") as child:
        try:
            for line in child.stdout:
                lines.append(line)
                progress.take(line)
                if told is not None:
                    told(line.rstrip("\n"))
            said = child.stderr.read().strip()
        except BaseException:
            child.kill()
            raise
        finally:
            progress.end()
    if child.returncode != 0:
        refusal = lines[-1].strip() if lines and child.returncode in (2, 5, 6, 7, 8) else None
        raise ERRORS.get(child.returncode, PortgapError)(child.returncode, refusal, said)
    for line in lines:
        report.take(line.rstrip("\n"))
    report.text = "".join(lines)
    return report


@contextmanager
def files_of(market, job=None):
    """The names of files with a market and a job, each a file already or written for the while; and the assets' names."""
    with tempfile.TemporaryDirectory(prefix="portgap-") as folder:
        port, task = market, job
        if isinstance(market, Market):
            port = os.path.join(folder, "market.port")
            market.write(port)
        names = names_of(port)
        text = json.dumps(job.as_dict(names)) if isinstance(job, Job) else numbered(job, names) if job is not None else None
        if text is not None:
            task = os.path.join(folder, "job.json")
            with open(task, "w", encoding="utf-8") as file:
                file.write(text)
        yield port, task, names


@contextmanager
def new_file(path, read):
    """A name to write to, which is renamed to `path` where all went well, and else removed. What is read isn't replaced."""
    if any(os.path.exists(path) and os.path.exists(other) and os.path.samefile(path, other) for other in read):
        raise ValueError(f"{path} is one of the files that are read")
    if os.path.exists(path) and not stat.S_ISREG(os.stat(path).st_mode):
        yield path
        return
    folder, base = os.path.split(os.path.abspath(path))
    part = os.path.join(folder, f".{base}.{secrets.token_hex(6)}.part")
    try:
        yield part
        os.replace(part, path)
    finally:
        if os.path.exists(part):
            os.remove(part)


def count_of_weights(job):
    """How many weights a job file asks for; None where that isn't plain."""
    try:
        with open(job, encoding="utf-8") as file:
            return len(json.load(file)["weights"])
    except (ValueError, LookupError, TypeError, OSError):
        return None


def solve(market, job, cert=None, told=None):
    """Solves each weight of a job. `market` is a Market or a port file, `job` a Job or a job file, in whose limits and present
    lots names may stand; the certificate is kept where a name for it is given, and `told` is called with each line as it comes."""
    with files_of(market, job) as (port, task, names), tempfile.TemporaryDirectory(prefix="portgap-") as folder:
        target = os.path.join(folder, "cert") if cert is None else os.fspath(cert)
        with new_file(target, [port, task, *([job] if isinstance(job, (str, os.PathLike)) else [])]) as part:
            return run(["solve", port, task, part], names, count_of_weights(task), told)


def quick(market, held, lots, weight, nodes=1000):
    """Solves one weight, each held asset with at least 1 lot."""
    with files_of(market) as (port, _, names):
        return run(["quick", port, held, lots, *weight_of(weight), nodes], names)


def demo(number, assets, held, lots, nodes=1000):
    """Solves five weights of a market that a number generates."""
    return run(["demo", number, assets, held, lots, nodes], total=5)


def check(cert, names=None):
    """Judges a certificate from its bytes alone. `names` are the assets' names, where they are known."""
    return run(["check", cert], names)


def verify(market, job, cert):
    """Judges a certificate, and whether it is of this market and this job."""
    with files_of(market, job) as (port, task, names):
        return run(["verify", port, task, cert], names)


def upgrade(cert, new):
    """Writes a certificate of the first version anew in the second."""
    with new_file(os.fspath(new), [cert]) as part:
        return run(["upgrade", cert, part])


# ---- the command line


def put(path, text):
    with open(path, "w", encoding="utf-8") as file:
        file.write(text)


def show(report, words):
    """Prints the table, and writes what else was asked for."""
    makers = [("svg", portgap_report.picture), ("csv", portgap_report.as_csv), ("json", portgap_report.as_json),
              ("html", lambda told: portgap_report.page(told, words.title))]
    texts = [(getattr(words, kind), make(report)) for kind, make in makers if getattr(words, kind)]
    sys.stdout.write(portgap_report.table(report))
    for path, text in texts:
        put(path, text)
    if getattr(words, "report_to", None):
        put(words.report_to, report.text)


def do_market(words):
    market = Market.from_prices(words.prices, words.log, words.leave_out, words.delimiter)
    market.write(words.port)
    print(f"{len(market.names)} assets: {words.port} and {words.port}.names")


def do_report(words):
    names = None
    if words.names:
        with open(words.names, encoding="utf-8") as file:
            names = file.read().splitlines()
    if words.report:
        with open(words.report, encoding="ascii") as file:
            report = portgap_report.read(file, names)
    else:
        report = portgap_report.read(sys.stdin, names)
    show(report, words)


def do_explain(words):
    line = words.line if words.line is not None else (sys.stdin.read().strip().splitlines() or [""])[-1]
    with open(words.file, "rb") as file:
        data = file.read()
    print("\n".join(portgap_explain.explain(data, line)))


COMMANDS = {
    "market": do_market,
    "solve": lambda words: show(solve(words.port, words.job, words.cert), words),
    "verify": lambda words: show(verify(words.port, words.job, words.cert), words),
    "check": lambda words: show(check(words.cert), words),
    "report": do_report,
    "explain": do_explain,
}


def with_outputs(parser):
    parser.add_argument("--csv", metavar="FILE", help="a row for each held asset of each weight")
    parser.add_argument("--json", metavar="FILE", help="everything, with exact numbers")
    parser.add_argument("--svg", metavar="FILE", help="the frontier as a picture")
    parser.add_argument("--html", metavar="FILE", help="one page with the picture and the table")
    parser.add_argument("--title", default="Frontier", help="the page's title")


def asked(words):
    parser = argparse.ArgumentParser(description="portgap for desks: prices in, names out.")
    commands = parser.add_subparsers(dest="command", required=True)
    one = commands.add_parser("market", help="a port file and PORT.names from a table of prices")
    one.add_argument("prices", help="a heading, a first column of dates, a column for each asset")
    one.add_argument("port")
    one.add_argument("--log", action="store_true", help="logarithmic returns in place of simple ones")
    one.add_argument("--leave-out", action="store_true", help="leave out a row in which a price is missing, and don't refuse it")
    one.add_argument("--delimiter", default=",")
    for name, text in (("solve", "solve a job, print its table"), ("verify", "is a certificate of this market and job?")):
        one = commands.add_parser(name, help=text)
        for file in ("port", "job", "cert"):
            one.add_argument(file)
        with_outputs(one)
        one.add_argument("--report", dest="report_to", metavar="FILE", help="keep the program's own lines")
    one = commands.add_parser("check", help="judge a certificate from its bytes alone")
    one.add_argument("cert")
    with_outputs(one)
    one = commands.add_parser("report", help="a report of the program as a table")
    one.add_argument("report", nargs="?", help="the report; standard input where none is named")
    one.add_argument("--names", metavar="FILE", help="the assets' names, one a line")
    with_outputs(one)
    one = commands.add_parser("explain", help="what a line of refusal means, and what usually causes it")
    one.add_argument("file", metavar="PORT|JOB", help="the file that was refused, also a certificate")
    one.add_argument("line", nargs="?", help="the line; the last of standard input where none is given")
    return parser.parse_args(words)


def explained(error, words):
    """What standard error says of a run that failed: its line, and what it means where a file is at fault."""
    told = [f"portgap.py: {error}"] + ([error.said] if error.said and error.line is None else [])
    file = {5: "port", 6: "job", 7: "cert"}.get(error.status)
    if file and error.line and hasattr(words, file):
        try:
            with open(getattr(words, file), "rb") as data:
                told += portgap_explain.explain(data.read(), error.line)
        except (OSError, portgap_explain.Unclear):
            pass
    return "\n".join(told)


def main(arguments=None):
    words = asked(arguments)
    try:
        COMMANDS[words.command](words)
    except PortgapError as error:
        print(explained(error, words), file=sys.stderr)
        return error.status
    except (OSError, ValueError, Fault, portgap_explain.Unclear) as error:
        print(f"portgap.py: {error}", file=sys.stderr)
        return 1
    except KeyboardInterrupt:
        return 130
    return 0


if __name__ == "__main__":
    sys.exit(main())
