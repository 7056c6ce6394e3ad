#!/usr/bin/env python3
"""What docs/FORMATS.md says of a port file, a job and a certificate, in plain Python, apart from the program's code.

    tools/reference.py CERT
    tools/reference.py CERT PORT JOB

judges a certificate, and with PORT and JOB whether it is of these: it prints exactly the lines that `portgap check CERT` or
`portgap verify PORT JOB CERT` prints, and ends with the same status. It shares no code with the program and nothing with the
kit that the program is built by, so an auditor who trusts neither reads this file and runs it.

`read_port`, `read_job` and `read_certificate` answer what the bytes say, or raise `Refused` with the line that the program
prints. tools/fuzz.py holds the program to them. Python's standard library alone.
"""

import json
import operator
import re
import sys

MILLION = 10**6
BLANKS = b" \t\r\n\x1a"
PORT_BYTES, JOB_BYTES = 16777216, 1048576


class Refused(Exception):
    """A refusal: the status and the line, without its line feed."""

    def __init__(self, status, line):
        super().__init__(line)
        self.status, self.line = status, line


# ---- port files


class Market:
    def __init__(self, n):
        self.n = n
        self.means, self.deviations = [0] * n, [0] * n
        self.pairs = {}
        self.rounded = 0

    def rho(self, i, j):
        return MILLION if i == j else self.pairs[min(i, j), max(i, j)]


def tokens(data):
    """The tokens with their places; of a file that is too long those that end before the first byte too many."""
    for found in re.finditer(rb"[^ \t\r\n\x1a]+", data):
        if found.end() > PORT_BYTES:
            return
        yield found.start(), found.group()


def whole(token):
    return int(token) if re.fullmatch(rb"\+?[0-9]+", token) else None


NUMERAL = re.compile(rb"([+-]?)(?:([0-9]+)(?:\.([0-9]*))?|\.([0-9]+))(?:[eE]([+-]?[0-9]+))?")


def numeral(token):
    """Millionths and whether the numeral is exact; None where the numeral rule refuses it."""
    found = NUMERAL.fullmatch(token) if len(token) <= 64 else None
    if not found:
        return None
    sign, before, behind, alone, power = found.groups()
    before, behind = before or b"", behind or alone or b""
    digits = before + behind
    if len(digits.lstrip(b"0")) > 30 or not -40 <= int(power or 0) <= 40:
        return None
    places = int(power or 0) - len(behind) + 6
    above, below = int(digits) * 10 ** max(places, 0), 10 ** max(-places, 0)
    size, is_exact = (2 * above + below) // (2 * below), above % below == 0
    if size > 10**30:
        size, is_exact = 10**30, False
    return (-size if sign == b"-" else size), is_exact


def port_fault(kind, place, pair=None):
    names = "" if pair is None else f" {pair[0] + 1} {pair[1] + 1}"
    return Refused(5, f"port {kind} {place}{names}")


def port_numeral(place, token, market):
    value = numeral(token)
    if value is None:
        raise port_fault("Numeral", place)
    market.rounded += not value[1]
    return value[0]


def read_mean(place, token, market, i):
    value = port_numeral(place, token, market)
    if abs(value) > MILLION:
        raise port_fault("Range", place)
    market.means[i] = value


def read_deviation(place, token, market, i):
    value = port_numeral(place, token, market)
    if value < 0:
        raise port_fault("Deviation", place)
    if value > MILLION:
        raise port_fault("Range", place)
    market.deviations[i] = value


def read_index(place, token, market):
    value = whole(token)
    if value is None or not 1 <= value <= market.n:
        raise port_fault("Index", place)
    return value - 1


def read_rho(place, token, market, i, j):
    value = port_numeral(place, token, market)
    if abs(value) > MILLION:
        raise port_fault("Range", place)
    if i == j:
        if value != MILLION:
            raise port_fault("Diagonal", place)
        return
    pair = min(i, j), max(i, j)
    if market.pairs.setdefault(pair, value) != value:
        raise port_fault("Conflict", place, pair)


def read_port(data):
    """The market of a port file."""
    listed = tokens(data)
    too_long = len(data) > PORT_BYTES

    def following():
        for token in listed:
            return token
        raise port_fault("TooLong", PORT_BYTES) if too_long else port_fault("Short", len(data))

    place, token = following()
    n = whole(token)
    if n is None or not 2 <= n <= 256:
        raise port_fault("Count", place)
    market = Market(n)
    for i in range(n):
        read_mean(*following(), market, i)
        read_deviation(*following(), market, i)
    for place, token in listed:
        i = read_index(place, token, market)
        j = read_index(*following(), market)
        read_rho(*following(), market, i, j)
    if too_long:
        raise port_fault("TooLong", PORT_BYTES)
    for i in range(n):
        for j in range(i + 1, n):
            if (i, j) not in market.pairs:
                raise port_fault("Missing", len(data), (i, j))
    return market


# ---- jobs

KEYS = ["lots", "held", "least", "greatest", "limits", "present", "turnover", "weights", "nodes", "workers"]


class Job:
    pass


class Whole(int):
    """A number that is a whole one in 64 bits."""


def job_number(text):
    value = int(text)
    if text[0] != "-" and value < 2**64:
        return Whole(value)
    return job_double(text)


def job_double(text):
    if float(text) in (float("inf"), float("-inf")):
        raise ValueError("a number too great for a double")
    return float(text)


def refuse_constant(text):
    raise ValueError(text)


def depth_of(text):
    """How deep lists and objects nest in a text, before its first fault."""
    depth = deepest = 0
    quoted = escaped = False
    for char in text:
        if quoted:
            quoted, escaped = (escaped or char != '"'), (char == "\\" and not escaped)
        elif char == '"':
            quoted = True
        elif char in "[{":
            depth += 1
            deepest = max(deepest, depth)
        elif char in "]}":
            depth -= 1
    return deepest


def lone(value):
    """Does a text in the value hold half of a pair of surrogates?"""
    if isinstance(value, str):
        return any(0xD800 <= ord(char) <= 0xDFFF for char in value)
    if isinstance(value, list):
        return any(lone(part) for part in value)
    if isinstance(value, dict):
        return any(lone(key) or lone(part) for key, part in value.items())
    return False


def reading(data):
    try:
        text = data.decode("utf-8")
        if depth_of(text) > 127:
            raise ValueError("nested too deep")
        seen = []
        value = json.loads(
            text, parse_int=job_number, parse_float=job_double, parse_constant=refuse_constant,
            object_pairs_hook=lambda pairs: seen.extend(pairs) or dict(pairs),
        )
        if lone(value) or any(lone(key) or lone(part) for key, part in seen):
            raise ValueError("half a pair of surrogates")
        return value
    except (ValueError, RecursionError):
        raise Refused(6, "job NotJson") from None


def kind(key):
    return Refused(6, f"job Kind {key}")


def outside(key):
    return Refused(6, f"job Range {key}")


def one_number(value, key, low, high):
    if not isinstance(value, Whole):
        raise kind(key)
    if not low <= value <= high:
        raise outside(key)
    return int(value)


def entries(job, key, size):
    """The entries of a list, each judged only when the ones before it are."""
    value = job[key]
    if not isinstance(value, list):
        raise kind(key)
    for entry in value:
        if not isinstance(entry, list) or len(entry) != size or not all(isinstance(part, Whole) for part in entry):
            raise kind(key)
        yield [int(part) for part in entry]


def new_asset(asset, n, named, key):
    if not 1 <= asset <= n or asset in named:
        raise Refused(6, f"job Asset {key}")
    named.add(asset)
    return asset - 1


def read_held(value, n):
    if isinstance(value, Whole):
        ends = [value, value]
    elif isinstance(value, list) and len(value) == 2 and all(isinstance(part, Whole) for part in value):
        ends = value
    else:
        raise kind("held")
    if not 1 <= ends[0] <= ends[1] <= n:
        raise outside("held")
    return int(ends[0]), int(ends[1])


def read_limits(value, job, n):
    named = set()
    for asset, least, greatest in entries(value, "limits", 3):
        place = new_asset(asset, n, named, "limits")
        if not (1 <= least <= job.lots and 1 <= greatest <= job.lots):
            raise outside("limits")
        job.least[place], job.greatest[place] = least, greatest


def read_present(value, job, n):
    named = set()
    for asset, lots in entries(value, "present", 2):
        place = new_asset(asset, n, named, "present")
        if lots > 10000:
            raise outside("present")
        job.present[place] = lots


def read_weights(value):
    if not isinstance(value.get("weights"), list):
        raise kind("weights")
    if not 1 <= len(value["weights"]) <= 101:
        raise outside("weights")
    weights = []
    for p, q in entries(value, "weights", 2):
        if not (1 <= q <= 100 and p <= q):
            raise outside("weights")
        weights.append((p, q))
    return weights


def read_job(data, n):
    """The job of a file for a market of n assets."""
    if len(data) > JOB_BYTES:
        raise Refused(6, "job TooLong")
    value = reading(data)
    if not isinstance(value, dict):
        raise Refused(6, "job NotObject")
    for rank, key in enumerate(sorted(value, key=lambda name: name.encode())):
        if key not in KEYS:
            raise Refused(6, f"job Unknown {rank}")
    job = Job()
    job.lots = one_number(value.get("lots"), "lots", 1, 10000)
    job.held, job.held_most = read_held(value.get("held"), n)
    job.least = [one_number(value["least"], "least", 1, job.lots) if "least" in value else 1] * n
    job.greatest = [one_number(value["greatest"], "greatest", 1, job.lots) if "greatest" in value else job.lots] * n
    job.present, job.turnover = [0] * n, None
    if "limits" in value:
        read_limits(value, job, n)
    if "present" in value:
        read_present(value, job, n)
    if "turnover" in value:
        job.turnover = one_number(value["turnover"], "turnover", 0, 3000000)
    job.weights = read_weights(value)
    job.nodes = one_number(value["nodes"], "nodes", 0, 100000) if "nodes" in value else 1000
    job.workers = one_number(value["workers"], "workers", 1, 16) if "workers" in value else 1
    return job


# ---- certificates

TERA = 10**12
COUNT, VOID, TANGENT, HELD, LOTS, AGAIN = 1, 2, 3, 4, 5, 6


def cert_fault(kind, place, *numbers):
    return Refused(7, " ".join(["certificate", kind, str(place), *map(str, numbers)]))


class Bytes:
    """The bytes of a certificate, read field by field."""

    def __init__(self, data):
        self.data, self.at = data, 0

    def number(self, width, low, high, signed=False, kind="Range"):
        place = self.at
        if place + width > len(self.data):
            raise cert_fault("Short", len(self.data))
        self.at += width
        value = int.from_bytes(self.data[place:self.at], "big", signed=signed)
        if not low <= value <= high:
            raise cert_fault(kind, place)
        return value

    def sized(self, width, most):
        return self.number(width, -most, most, signed=True)


class Head:
    """What the head of a certificate says: an instance, a shift and a budget."""

    def rho(self, i, j):
        return MILLION if i == j else self.correlations[min(i, j), max(i, j)]

    def covariances(self):
        sizes = list(enumerate(self.deviations))
        return [[self.rho(i, j) * a * b for j, b in sizes] for i, a in sizes]

    def risk_and_return(self, x):
        risk = sum(lots * sum(map(operator.mul, row, x)) for lots, row in zip(x, self.covs) if lots)
        return risk, sum(map(operator.mul, self.means, x))

    def weighed(self, weight, risk, earned):
        p, q = weight
        return p * risk - (q - p) * TERA * self.lots * earned

    def objective(self, weight, x):
        return self.weighed(weight, *self.risk_and_return(x))


def read_mark(source):
    for byte in b"GAPCERT":
        source.number(1, byte, byte, kind="Magic")
    return source.number(1, 49, 50, kind="Magic") - 48


def read_asset(source, head):
    head.means.append(source.sized(4, MILLION))
    head.deviations.append(source.number(4, 0, MILLION))
    head.least.append(source.number(2, 1, head.lots))
    head.greatest.append(source.number(2, 1, head.lots))
    head.present.append(source.number(2, 0, 10000))


def read_head(source):
    head = Head()
    head.version = read_mark(source)
    head.n = n = source.number(2, 2, 256)
    head.lots = source.number(2, 1, 10000)
    head.held = source.number(2, 1, n)
    head.held_most = source.number(2, head.held, n) if head.version == 2 else head.held
    head.turnover = source.number(4, 0, 3000000) if source.number(1, 0, 1) else None
    head.nodes = source.number(4, 0, 100000)
    head.means, head.deviations = [], []
    head.least, head.greatest, head.present = [], [], []
    for _ in range(n):
        read_asset(source, head)
    head.correlations = {(i, j): source.sized(4, MILLION) for i in range(n) for j in range(i + 1, n)}
    head.covs = head.covariances()
    place = source.at
    factor = [[source.sized(8, 10**15) for _ in range(i + 1)] for i in range(n)]
    head.diagonal = [source.number(16, 0, 10**21, signed=True) for _ in range(n)]
    judge_shift(head, factor, place)
    head.sections = source.number(1, 1, 101)
    return head


def judge_shift(head, factor, place):
    for i in range(head.n):
        rest = []
        for j in range(head.n):
            gram = sum(a * b for a, b in zip(factor[i], factor[j]))
            rest.append(TERA * (head.covs[i][j] + (head.diagonal[i] if i == j else 0)) - gram)
        others = sum(abs(value) for j, value in enumerate(rest) if j != i)
        if rest[i] < others:
            raise cert_fault("Shift", place, i + 1, rest[i], others)


def read_entries(source, head, count, width, most, total_most):
    """A list of so many entries: an asset above the one before, and a number from 1."""
    numbers, last, total = [0] * head.n, 0, 0
    for _ in range(count):
        place = source.at
        asset = source.number(2, 1, head.n)
        if asset <= last:
            raise cert_fault("Order", place)
        value = source.number(width, 1, most)
        total += value
        if total > total_most:
            raise cert_fault("Range", place)
        numbers[asset - 1], last = value, asset
    return numbers


def read_multipliers(source, head):
    alpha = source.sized(16, 10**30)
    tau = source.number(16, 0, 0 if head.turnover is None else 10**30, signed=True)
    return alpha, tau


def read_witness(source, head):
    count = source.number(2, 0, head.n)
    y = read_entries(source, head, count, 4, 2**32 - 1, 8 * head.lots)
    return (tuple(y), *read_multipliers(source, head))


def broken(head, x):
    """The first limit that a list breaks, as it is printed."""
    held = sum(lots > 0 for lots in x)
    if sum(x) != head.lots:
        return ["Lots"]
    if not head.held <= held <= head.held_most:
        return ["Held"]
    for i, lots in enumerate(x):
        if 0 < lots < head.least[i]:
            return ["Least", i + 1]
    for i, lots in enumerate(x):
        if lots > head.greatest[i]:
            return ["Greatest", i + 1]
    if head.turnover is not None and sum(abs(a - b) for a, b in zip(x, head.present)) > head.turnover:
        return ["Turnover"]
    return None


def read_portfolio(source, head, weight):
    place = source.at
    count = head.held if head.version == 1 else source.number(2, head.held, head.held_most)
    x = read_entries(source, head, count, 2, 10000, 10000 * max(count, 1))
    fault = broken(head, x)
    if fault:
        raise cert_fault("Portfolio", place, *fault)
    place = source.at
    claimed = source.number(16, -(2**127), 2**127 - 1, signed=True)
    found = head.objective(weight, x)
    if found != claimed:
        raise cert_fault("Objective", place, found, claimed)
    return x, claimed


# a cell is None where the asset isn't held, and else its least and greatest lots and whether it must be held


def can_meet(head, part):
    helds = sum(cell is not None and cell[2] for cell in part)
    may = sum(cell is not None for cell in part)
    return helds <= head.held_most and head.held <= may


def least_choice(head, costs):
    """The least total over all ways to hold from K1 to K2 cells; a cell costs (out, held), None where it has no such way."""
    total, held, gains = 0, 0, []
    for out, hold in costs:
        if hold is None:
            total += out
        elif out is None:
            total, held = total + hold, held + 1
        else:
            total += out
            gains.append(hold - out)
    gains.sort()
    for rank, gain in enumerate(gains):
        if held + rank < head.held or (held + rank < head.held_most and gain < 0):
            total += gain
        else:
            break
    return total


def cell_costs(head, part, cost):
    for i, cell in enumerate(part):
        if cell is None:
            yield cost(i, 0), None
            continue
        low, high, must = cell
        tries = {low, high} | ({head.present[i]} if low < head.present[i] < high else set())
        yield (None if must else cost(i, 0)), min(cost(i, x) for x in tries)


def void_theta(head, part, alpha, tau):
    limit = tau * head.turnover if head.turnover is not None else 0

    def cost(i, x):
        return alpha * x + (tau * abs(x - head.present[i]) if head.turnover is not None else 0)

    return least_choice(head, cell_costs(head, part, cost)) - alpha * head.lots - limit


def theta(head, part, weight, witness, rows):
    p, q = weight
    y, alpha, tau = witness
    if witness not in rows:
        rows.clear()
        rows[witness] = [
            sum(map(operator.mul, row, y)) + shift * eighths for row, shift, eighths in zip(head.covs, head.diagonal, y)
        ]
    row = rows[witness]
    slopes = [16 * p * row[i] - 64 * (q - p) * TERA * head.lots * head.means[i] + alpha for i in range(head.n)]

    def cost(i, x):
        kink = tau * abs(x - head.present[i]) if head.turnover is not None else 0
        return slopes[i] * x - 64 * p * head.diagonal[i] * x * x + kink

    fixed = p * sum(a * b for a, b in zip(y, row)) + alpha * head.lots
    limit = tau * head.turnover if head.turnover is not None else 0
    return least_choice(head, cell_costs(head, part, cost)) - fixed - limit


# what is shown: a number, or EMPTY where no list meets the limits
EMPTY = float("inf")


def shown_by(head, part, weight, witness, rows):
    if not can_meet(head, part):
        return EMPTY
    return -(-theta(head, part, weight, witness, rows) // 64)


def read_split(source, head, code, place, part, inner):
    i = source.number(2, 1, head.n) - 1
    t = source.number(2, 0, 65535) if code == LOTS else None
    if inner > head.nodes:
        raise cert_fault("Nodes", place, inner, head.nodes)
    cell = part[i]
    if code == HELD:
        if cell is None or cell[2]:
            raise cert_fault("Split", place)
        sides = [None, (cell[0], cell[1], True)]
    else:
        if cell is None or not cell[2] or not cell[0] <= t < cell[1]:
            raise cert_fault("Split", place)
        sides = [(cell[0], t, True), (t + 1, cell[1], True)]
    return [part[:i] + [side] + part[i + 1 :] for side in sides]


def read_leaf(source, head, code, place, part, section):
    """What a leaf shows on its part."""
    if code == COUNT:
        if can_meet(head, part):
            raise cert_fault("Count", place)
        return EMPTY
    if code == VOID:
        alpha, tau = read_multipliers(source, head)
        if not can_meet(head, part):
            return EMPTY
        found = void_theta(head, part, alpha, tau)
        if found <= 0:
            raise cert_fault("Void", place, found)
        return EMPTY
    if section["outcome"] == 2 or (code == AGAIN and section["last"] is None):
        raise cert_fault("Range", place)
    if code == TANGENT:
        witness = read_witness(source, head)
        if head.version == 2 and witness == section["last"]:
            raise cert_fault("Range", place)
        section["last"] = witness
    return shown_by(head, part, section["weight"], section["last"], section["rows"])


def read_tree(source, head, root, section):
    """The least that a leaf shows, and the number of splits."""
    least, inner, parts = EMPTY, 0, [root]
    while parts:
        part, place = parts.pop(), source.at
        code = source.number(1, 1, 4 + head.version)
        if code in (HELD, LOTS):
            inner += 1
            first, second = read_split(source, head, code, place, part, inner)
            parts += [second, first]
        else:
            least = min(least, read_leaf(source, head, code, place, part, section))
    return least, inner


def fraction(value, head, weight):
    return f"{value}/{weight[1] * 10**18 * head.lots**2}"


def told_line(head, weight, outcome, objective, bound):
    state = {1: "closed", 2: "none", 3: "open", 4: "open"}[outcome]
    line = f"weight {weight[0]}/{weight[1]} {state}"
    if outcome == 2:
        return line
    shown = "-" if objective is None else fraction(objective, head, weight)
    return f"{line} objective {shown} bound {fraction(bound, head, weight)}"


def read_section(source, head):
    p = source.number(1, 0, 100)
    weight = p, source.number(1, max(1, p), 100)
    outcome = source.number(1, 1, 4)
    objective = bound = overall = None
    if outcome in (1, 3):
        _, objective = read_portfolio(source, head, weight)
    if outcome in (3, 4):
        place = source.at
        bound = source.sized(16, 10**36)
        if outcome == 3 and bound >= objective:
            raise cert_fault("NotOpen", place, objective, bound)
    if outcome != 2 and source.number(1, 0, 1):
        overall = read_witness(source, head)
    root = [(a, b, False) if a <= b else None for a, b in zip(head.least, head.greatest)]
    section = {"weight": weight, "outcome": outcome, "last": None, "rows": {}}
    shown, inner = read_tree(source, head, root, section)
    if outcome in (3, 4) and inner < head.nodes:
        raise cert_fault("Nodes", source.at, inner, head.nodes)
    if overall is not None:
        shown = max(shown, shown_by(head, root, weight, overall, {}))
    claimed = objective if outcome == 1 else bound
    if outcome != 2 and shown < claimed:
        raise cert_fault("Weak", source.at, shown, claimed)
    return weight, told_line(head, weight, outcome, objective, claimed)


def read_certificate(data):
    """The head of a valid certificate, its weights and its verdict lines."""
    source = Bytes(data)
    head = read_head(source)
    sections = [read_section(source, head) for _ in range(head.sections)]
    mark = int.from_bytes(b"END\n", "big")
    source.number(4, mark, mark)
    if source.at < len(data):
        raise cert_fault("Trail", source.at)
    return head, [weight for weight, _ in sections], [line for _, line in sections]


# ---- the same certificate in version 1


class Copying:
    """The bytes of a certificate, which are copied or passed over."""

    def __init__(self, data):
        self.data, self.at, self.out = data, 0, bytearray()

    def skip(self, width):
        self.at += width
        return self.data[self.at - width : self.at]

    def take(self, width):
        piece = self.skip(width)
        self.out += piece
        return piece

    def number(self, width):
        return int.from_bytes(self.take(width), "big")


def copy_witness(source):
    source.take(6 * source.number(2) + 32)


def copy_tree(source):
    """A tree, each leaf with its witness."""
    last, due = b"", 1
    while due:
        code, start = source.data[source.at], len(source.out)
        due += 1 if code in (HELD, LOTS) else -1
        if code == AGAIN:
            source.skip(1)
            source.out += last
        elif code == TANGENT:
            source.take(1)
            copy_witness(source)
            last = bytes(source.out[start:])
        else:
            source.take({COUNT: 1, VOID: 33, HELD: 3, LOTS: 5}[code])


def copy_section(source):
    outcome = source.take(3)[2]
    if outcome in (1, 3):
        source.take(4 * int.from_bytes(source.skip(2), "big") + 16)
    if outcome in (3, 4):
        source.take(16)
    if outcome != 2 and source.number(1):
        copy_witness(source)
    copy_tree(source)


def version_one(data):
    """A certificate of version 2 that holds exactly K1 assets, in version 1: without K2 and the numbers of entries."""
    source = Copying(b"GAPCERT1" + data[8:])
    source.take(8)
    n = source.number(2)
    source.take(4)
    source.skip(2)
    source.take(4 * source.number(1) + 4)
    source.take(14 * n + 2 * n * (n - 1) + 4 * n * (n + 1) + 16 * n)
    for _ in range(source.number(1)):
        copy_section(source)
    source.take(4)
    return bytes(source.out)


# ---- every list


def lists(head):
    """Every list that meets the limits of a head's instance."""
    n = head.n

    def from_place(i, left, x):
        if i == n:
            if left == 0 and broken(head, x) is None:
                yield x
            return
        yield from from_place(i + 1, left, x + [0])
        for lots in range(head.least[i], min(head.greatest[i], left) + 1):
            yield from from_place(i + 1, left - lots, x + [lots])

    return from_place(0, head.lots, [])


# ---- verify


def held_text(fewest, most):
    return str(fewest) if fewest == most else f"{fewest}-{most}"


def fields(head, weights, market, job):
    """Every field in its order, with what the certificate and what the file or the job says of it."""
    yield "assets", head.n, market.n
    yield "lots", head.lots, job.lots
    yield "held", held_text(head.held, head.held_most), held_text(job.held, job.held_most)
    yield "turnover", *("-" if t is None else t for t in (head.turnover, job.turnover))
    yield "nodes", head.nodes, job.nodes
    for i in range(market.n):
        yield f"mean {i + 1}", head.means[i], market.means[i]
        yield f"deviation {i + 1}", head.deviations[i], market.deviations[i]
        yield f"least {i + 1}", head.least[i], job.least[i]
        yield f"greatest {i + 1}", head.greatest[i], job.greatest[i]
        yield f"present {i + 1}", head.present[i], job.present[i]
    for i in range(market.n):
        for j in range(i + 1, market.n):
            yield f"correlation {i + 1} {j + 1}", head.rho(i, j), market.rho(i, j)
    yield "weights", len(weights), len(job.weights)
    for k, (found, wanted) in enumerate(zip(weights, job.weights)):
        yield f"weight {k + 1}", "/".join(map(str, found)), "/".join(map(str, wanted))


def compare(head, weights, market, job):
    for name, found, wanted in fields(head, weights, market, job):
        if found != wanted:
            raise Refused(8, f"differs {name} {found} {wanted}")


# ---- the auditor

USAGE = "usage: tools/reference.py CERT [PORT JOB]"


def content(name):
    try:
        with open(name, "rb") as file:
            return file.read()
    except OSError as fault:
        print(f"reference.py: couldn't read {name}: {fault.strerror}", file=sys.stderr)
        raise Refused(3, None) from None


def judged(cert, port=None, job=None):
    """The lines of `check`, or with a port file and a job those of `verify`; the first refusal is raised, in the program's order."""
    if port is None:
        return read_certificate(content(cert))[2]
    market = read_port(content(port))
    asked = read_job(content(job), market.n)
    head, weights, lines = read_certificate(content(cert))
    compare(head, weights, market, asked)
    return lines


def audit(names):
    """The status and the lines for the names of a certificate, and of a port file and a job where it has to be of these."""
    try:
        return 0, [*judged(*names), "yes"]
    except Refused as refused:
        return refused.status, [line for line in [refused.line] if line is not None]


def main():
    names = sys.argv[1:]
    if len(names) not in (1, 3) or names[0].startswith("-") or "" in names:
        print(USAGE, file=sys.stderr)
        return 2
    status, lines = audit(names)
    sys.stdout.write("".join(line + "\n" for line in lines))
    return status


if __name__ == "__main__":
    sys.exit(main())
