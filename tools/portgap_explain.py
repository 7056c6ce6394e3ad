"""Says in words what a line of refusal means: where in the file it points, and what usually causes it.

`explain` takes the bytes of PORT or JOB and the line. tools/portgap.py calls it. Python's standard library alone.
"""

import json
import re

MARK = b"\xef\xbb\xbf"
KEYS = ["lots", "held", "least", "greatest", "limits", "present", "turnover", "weights", "nodes", "workers"]
TOKEN = re.compile(rb"[^ \t\r\n\x1a]+")


class Unclear(Exception):
    """A line that can't be explained: it is no refusal, or not one of this file."""


def explain(data, line):
    """What a line of refusal means for the file with these bytes, as lines of text."""
    words = line.split()
    known = {"port": of_port, "job": of_job, "certificate": of_certificate, "differs": of_difference}
    if len(words) < 2 or words[0] not in known:
        raise Unclear(f"this is no line of a refusal: {line.strip()}")
    return known[words[0]](data, words[1], words[2:])


# ---- places


def place_in(data, at):
    """The line and the column of a byte, both from 1."""
    return data.count(b"\n", 0, at) + 1, at - (data.rfind(b"\n", 0, at) + 1) + 1


def shown(data, at):
    """The line of the file that has the byte `at`, with a mark under it."""
    start = data.rfind(b"\n", 0, at) + 1
    end = data.find(b"\n", at)
    text = data[start:len(data) if end < 0 else end][:100].decode("utf-8", "replace").replace("\t", " ").rstrip("\r")
    before = len(data[start:at].decode("utf-8", "replace"))
    return [] if before > 100 else ["    " + text, "    " + " " * before + "^"]


def token_at(data, at):
    found = TOKEN.match(data, at)
    return b"" if found is None else found.group()


# ---- PORT


def role(data, at):
    """What the token at a place is there for, and the numbers of its assets."""
    before = sum(1 for _ in TOKEN.finditer(data, 0, at))
    first = TOKEN.search(data)
    if before == 0 or not first.group().isdigit():
        return "the number of assets"
    n = int(first.group())
    if before <= 2 * n:
        return f"the {'mean' if before % 2 else 'deviation'} of asset {(before + 1) // 2}"
    number, kind = divmod(before - 2 * n - 1, 3)
    return f"{('the first asset', 'the second asset', 'the correlation')[kind]} of the pair number {number + 1} in the file"


def of_port(data, kind, numbers):
    at = int(numbers[0])
    if kind in ("Short", "Missing", "TooLong"):
        return port_end(data, kind, [int(number) for number in numbers])
    if not 0 <= at < len(data) or not token_at(data, at):
        raise Unclear(f"there is no token at byte {at}: is this the file that was refused?")
    token, (line, column) = token_at(data, at), place_in(data, at)
    text = token.decode("utf-8", "replace")
    told = [f"line {line}, column {column}: `{text}` stands where {role(data, at)} is due.", *shown(data, at), PORT[kind]]
    return told + [f"Likely: {cause}" for cause in port_causes(data, at, kind, token, numbers)]


PORT = {
    "Count": "The number of assets is a whole number from 2 to 256, and the first thing in the file.",
    "Numeral": "That is no number of the port file: digits with an optional sign, point and power of ten, at most 64 bytes.",
    "Range": "A mean or a correlation is from -1 to 1, and a deviation from 0 to 1.",
    "Deviation": "A deviation isn't below 0.",
    "Index": "Assets of a pair are whole numbers from 1 to the number of assets.",
    "Diagonal": "The correlation of an asset with itself is 1.",
    "Conflict": "This pair stood before with another correlation.",
}


def port_causes(data, at, kind, token, numbers):
    """What usually causes a fault of this kind at this token."""
    text = token.decode("utf-8", "replace")
    if at <= 3 and data.startswith(MARK):
        yield "the file begins with a byte order mark: save it as plain UTF-8 or ASCII, without one."
    if data.startswith((b"\xff\xfe", b"\xfe\xff")):
        yield "the file is in UTF-16: save it as ASCII."
    if text.startswith(("#", "//", "%")):
        yield "a comment: a port file has none."
    if re.fullmatch(r"[+-]?\d+,\d+%?", text):
        yield "a decimal comma: write a point."
    elif "," in text or ";" in text:
        yield "a file of comma separated values: a port file parts its numbers by blanks (tools/portgap.py market makes one of prices)."
    if text.endswith("%"):
        yield "a percent sign: 2 percent is 0.02."
    if text.lower() in ("nan", "na", "n/a", "inf", "-inf", "null", "none", "#n/a"):
        yield "a value that is missing: leave the asset out, or estimate it."
    elif re.match(r"[A-Za-z_]", text):
        yield "a name or a heading: a port file has numbers alone; names stand in a file of their own (PORT.names)."
    yield from causes_by_kind(data, at, kind, text, numbers)


def causes_by_kind(data, at, kind, text, numbers):
    what = role(data, at)
    if kind == "Range" and "correlation" not in what:
        yield "returns in percent: divide means and deviations by 100."
    elif kind == "Range":
        yield "correlations in percent, or covariances: a port file has correlations, from -1 to 1."
    elif kind == "Index" and text == "0":
        yield "assets numbered from 0: the first one is 1."
    elif kind == "Index" and re.fullmatch(r"\d+\.\d*", text):
        yield "a number with a point where an asset's number is due: a triple `i j correlation` is incomplete, or one number of a matrix."
    elif kind == "Index" and text.isdigit():
        yield "more assets in the pairs than the first line says."
    elif kind == "Diagonal":
        yield "covariances in place of correlations, or a triple whose two assets were to be different."
    elif kind == "Deviation":
        yield "mean and deviation in the wrong order: the mean comes first."
    elif kind == "Conflict":
        yield from earlier(data, at, [int(number) for number in numbers[1:]])
    elif kind == "Count" and text.isdigit() and int(text) > 256:
        yield "more assets than portgap takes: 256 are the most."


def earlier(data, at, pair):
    """Where a pair stood before."""
    tokens = [(found.start(), found.group()) for found in TOKEN.finditer(data, 0, at)]
    rest = tokens[2 * int(tokens[0][1]) + 1:]
    for k in range(0, len(rest) - 2, 3):
        (place, i), (_, j), (_, rho) = rest[k:k + 3]
        if sorted((int(i), int(j))) == pair:
            line, column = place_in(data, place)
            yield f"the pair {pair[0]} {pair[1]} stands in line {line}, column {column} with {rho.decode()}."
            return


def port_end(data, kind, numbers):
    if kind == "TooLong":
        return ["The file has more than 16777216 bytes.", "Likely: repeated pairs; each pair needs to stand once alone."]
    count = sum(1 for _ in TOKEN.finditer(data))
    first = TOKEN.search(data)
    n = int(first.group()) if first and first.group().isdigit() else None
    if kind == "Missing":
        return [f"The file ends without the correlation of the assets {numbers[1]} and {numbers[2]}.",
                f"{n} assets need {n * (n - 1) // 2} pairs of different assets, each once, in any order and either way round.",
                f"Add a line `{numbers[1]} {numbers[2]} correlation`."]
    told = [f"The file ends too early, after {len(data)} bytes and {count} numbers."]
    if n is None or count < 2 * n + 1:
        return told + ["Behind the number of assets two numbers are due for each asset: its mean, then its deviation.",
                       "Likely: the file was cut off, or it has a column too few."]
    return told + ["The last pair isn't whole: three numbers are due, `i j correlation`.",
                   "Likely: the file was cut off, or it is a matrix: a port file has a triple for each pair."]


# ---- JOB


JOB = {
    "TooLong": "The job has more than 1048576 bytes.",
    "NotObject": "The job isn't a JSON object: it begins with `{`.",
}

RANGES = {
    "lots": "1 to 10000", "held": "1 to the number of assets, the fewest not above the most", "least": "1 to lots",
    "greatest": "1 to lots", "limits": "1 to lots, both", "present": "0 to 10000 lots", "turnover": "0 to 3000000",
    "weights": "1 to 101 of them, q from 1 to 100 and p from 0 to q", "nodes": "0 to 100000", "workers": "1 to 16",
}

KINDS = {
    "held": "a whole number, or a list of two", "limits": "a list of lists of three whole numbers [asset, least, greatest]",
    "present": "a list of lists of two whole numbers [asset, lots]", "weights": "a list of lists of two whole numbers [p, q]",
}


def of_job(data, kind, words):
    if kind == "NotJson":
        return not_json(data)
    if kind == "Unknown":
        return unknown_key(data, int(words[0]))
    if kind in JOB:
        return [JOB[kind]]
    key = words[0]
    value = value_of(data, key)
    told = [f"`{key}` is {json.dumps(value)[:200]}."] if value is not None else [f"`{key}` isn't there."]
    return told + list(by_key(kind, key, value))


def value_of(data, key):
    try:
        return json.loads(data.decode("utf-8")).get(key)
    except (ValueError, AttributeError):
        raise Unclear("is this the job that was refused? It isn't a JSON object") from None


def by_key(kind, key, value):
    if kind == "Kind":
        yield f"It has to be {KINDS.get(key, 'a whole number')}: written plainly, so neither 100.0 nor 1e2 nor \"100\"."
        if value is None:
            yield f"Likely: `{key}` is missing, or null." if key in ("lots", "held", "weights") else "Likely: null, which is no number: leave the key out."
        elif key == "weights" and isinstance(value, list) and any(isinstance(part, float) for part in value):
            yield "Likely: weights as decimals: 0.9 is [9, 10]."
        elif key in ("limits", "present") and isinstance(value, dict):
            yield "Likely: an object in place of a list (tools/portgap.py takes names and numbers of assets alike, in lists too)."
        elif key in ("limits", "present") and any(isinstance(part, str) for entry in value if isinstance(entry, list) for part in entry):
            yield "Likely: names of assets: the program takes numbers from 1, and tools/portgap.py solve takes names."
    elif kind == "Range":
        yield f"Its range: {RANGES.get(key, 'see docs/FORMATS.md')}."
        if key in ("least", "greatest", "limits"):
            yield "Likely: percents where lots are due, or `lots` is lower than was meant."
        elif key == "held":
            yield "Likely: more assets to hold than the market has, or the fewest above the most."
    elif kind == "Asset":
        yield "An entry names an asset that the market doesn't have, or one that stood before in this list."
        yield "Likely: assets numbered from 0: the first one is 1." if any(entry[:1] == [0] for entry in value or [] if isinstance(entry, list)) \
            else "Likely: a number above that of the assets, or an asset named twice."


def not_json(data):
    if data.startswith(MARK):
        return ["The file begins with a byte order mark: save it as UTF-8 without one."]
    try:
        text = data.decode("utf-8")
    except UnicodeDecodeError as fault:
        line, column = place_in(data, fault.start)
        return [f"line {line}, column {column}: the file isn't UTF-8 there.", "Likely: it was saved as Latin-1 or UTF-16."]
    try:
        json.loads(text)
    except RecursionError:
        return ["The lists and objects nest more than 127 levels deep."]
    except json.JSONDecodeError as fault:
        at = len(text[:fault.pos].encode())
        told = [f"line {fault.lineno}, column {fault.colno}: {fault.msg}.", *shown(data, at)]
        return told + [f"Likely: {cause}" for cause in json_causes(text, fault.pos)]
    return ["Python reads this file as JSON, and the program doesn't.",
            "Likely: NaN or Infinity, a number too great for a double, half a pair of surrogates, or nesting of more than 127 levels."]


def json_causes(text, at):
    before, here = text[:at].rstrip(), text[at:at + 2]
    if before.endswith(",") and here[:1] in ("]", "}"):
        yield "a comma behind the last entry: take it out."
    elif here[:1] in ("]", "}") or (here[:1] == '"' and not before.endswith((",", "{", "["))):
        yield "a comma too many or too few before this place."
    if before.endswith(",") and not here.strip():
        yield "a comma behind the last entry: take it out."
    if here[:1] == "#" or here in ("//", "/*"):
        yield "a comment: JSON has none."
    if here[:1] == "'":
        yield "single quotes: JSON's are double."
    if not here:
        yield "the file ends inside the object: a bracket is missing."
    if re.match(r"[A-Za-z_]", here):
        yield "a key or word without quotes."


def unknown_key(data, number):
    keys = sorted(value_keys(data), key=lambda key: key.encode("utf-8", "surrogatepass"))
    if not 0 <= number < len(keys):
        raise Unclear(f"the job has no key number {number}: is this the one that was refused?")
    key = keys[number]
    near = [known for known in KEYS if known in key.lower() or key.lower() in known]
    told = [f"The job has a key that is none: {json.dumps(key)} (the number {number} counts all keys in byte order, from 0).",
            "The keys are " + ", ".join(KEYS) + "."]
    return told + ([f"Likely: {near[0]} was meant."] if near and key else [])


def value_keys(data):
    try:
        return set(json.loads(data.decode("utf-8")))
    except ValueError:
        raise Unclear("is this the job that was refused? It isn't JSON") from None


# ---- certificates and differences


CERTIFICATE = {
    "Magic": "The file doesn't begin as a certificate does. Likely: another file was named.",
    "Range": "A number at this byte is out of its range, or the end mark differs. Likely: the file was changed or overwritten.",
    "Order": "The entries of a list don't rise from asset to asset at this byte.",
    "Trail": "There are bytes behind the end mark. Likely: two files were joined.",
    "Short": "The file ends inside the certificate. Likely: the run that wrote it was stopped, or a copy was cut off.",
    "Shift": "The shift of the covariances isn't dominant in the row named: the bounds wouldn't hold.",
    "Split": "A split doesn't fit its part of the search.",
    "Nodes": "There are more splits than the budget allows, or an open weight has spent less than all of it.",
    "Count": "A leaf says that the number of assets can't be met there, and it can.",
    "Void": "A leaf says that no list of lots is there, and its numbers don't show it.",
    "Portfolio": "The portfolio breaks the limit named: it isn't one that may be held.",
    "Objective": "The objective of the portfolio is the first number, and the certificate says the second.",
    "NotOpen": "An open weight whose bound isn't below its objective.",
    "Weak": "The leaves show the first number, and the certificate claims the second, which is greater.",
}


def of_certificate(data, kind, numbers):
    if kind not in CERTIFICATE:
        raise Unclear(f"no kind of fault is called {kind}")
    told = [f"at byte {numbers[0]} of {len(data)}: {CERTIFICATE[kind]}"] if data is not None else [CERTIFICATE[kind]]
    return told + ["The certificate proves nothing as it stands (docs/FORMATS.md, \"The certificate, byte by byte\")."]


def of_difference(_, field, words):
    if len(words) < 2:
        raise Unclear("a line of a difference has two values")
    ours, theirs = words[-2:]
    which = " ".join(words[:-2])
    return [f"The certificate is of another market or job: for {field}{' ' + which if which else ''} it has {ours}, and the files have {theirs}.",
            "Numbers of the market are in millionths; assets, pairs and weights count from 1."]
