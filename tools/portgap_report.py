"""What portgap prints, as data with exact numbers, and that as a table, as CSV, JSON, SVG and one page of HTML.

`read` takes the lines of `solve`, `demo`, `quick`, `check`, `verify` or `upgrade`. tools/portgap.py is the module to
import; it takes everything from here. Python's standard library alone.
"""

import csv
import io
import json
import math
import re
from dataclasses import dataclass, field
from fractions import Fraction
from html import escape

MARKET = re.compile(r"assets (\d+) rounded (\d+) shift (\d+)")
WEIGHT = re.compile(
    r"weight (\d+)/(\d+) (closed|open|none)(?: nodes (\d+))?(?: objective (-|-?\d+/\d+) bound (-?\d+/\d+))?"
)
LOTS = re.compile(r"lots((?: \d+:\d+)*)")
ROW = re.compile(r"row (\d+) weight (\d+)/(\d+) risk (-?\d+/\d+) return (-?\d+/\d+) (efficient|dominated)")


class Fault(Exception):
    """A line that no report has, or a report that can't be shown as asked."""


@dataclass
class Outcome:
    """What is told of one weight. `weight` is p/q as told, `risk` the variance, both it and `mean` per period."""

    weight: tuple
    state: str
    nodes: int = None
    objective: Fraction = None
    bound: Fraction = None
    lots: dict = None
    risk: Fraction = None
    mean: Fraction = None
    efficient: bool = None
    names: list = field(default=None, repr=False)

    @property
    def gap(self):
        """How far the objective can be from the best: objective less bound; None without the two."""
        return None if self.objective is None or self.bound is None else self.objective - self.bound

    @property
    def relative_gap(self):
        """The gap as a part of the size of the objective; None where that is 0 and the gap isn't."""
        if not self.gap:
            return self.gap
        return None if self.objective == 0 else self.gap / abs(self.objective)

    @property
    def deviation(self):
        """The standard deviation of the return, a float; None where the risk isn't told or is below 0."""
        return None if self.risk is None or self.risk < 0 else math.sqrt(self.risk)

    @property
    def holdings(self):
        """The share of each held asset by its name, in the order of the assets; None where no portfolio is told."""
        if self.lots is None:
            return None
        whole = sum(self.lots.values())
        return {self.name(asset): Fraction(lots, whole) for asset, lots in self.lots.items()}

    def name(self, asset):
        """The name of an asset, which is its number where the report has no names."""
        return str(asset) if self.names is None else self.names[asset - 1]

    @property
    def label(self):
        return f"{self.weight[0]}/{self.weight[1]}"


@dataclass
class Report:
    """The market line, where there is one, the outcomes in order, and whether a verdict's `yes` stood at the end."""

    outcomes: list = field(default_factory=list)
    assets: int = None
    rounded: int = None
    shift: int = None
    accepted: bool = False
    names: list = field(default=None, repr=False)

    def take(self, line):
        """Takes in one more line."""
        for form, how in ((MARKET, self._market), (WEIGHT, self._weight), (LOTS, self._lots), (ROW, self._row)):
            found = form.fullmatch(line)
            if found:
                return how(*found.groups())
        if line == "yes":
            self.accepted = True
        elif line:
            raise Fault("no line of a report")
        return None

    def _market(self, assets, rounded, shift):
        self.assets, self.rounded, self.shift = int(assets), int(rounded), int(shift)

    def _weight(self, p, q, state, nodes, objective, bound):
        if (state == "none") != (bound is None):
            raise Fault("a weight without its numbers")
        self.outcomes.append(Outcome(
            (int(p), int(q)), state, None if nodes is None else int(nodes),
            None if objective in (None, "-") else exact(objective), None if bound is None else exact(bound),
            names=self.names,
        ))

    def _lots(self, entries):
        if not self.outcomes:
            raise Fault("lots of no weight")
        held = dict(tuple(map(int, entry.split(":"))) for entry in entries.split())
        if self.names is not None and max(held, default=0) > len(self.names):
            raise Fault("an asset without a name")
        self.outcomes[-1].lots = held

    def _row(self, place, p, q, risk, mean, rank):
        at = int(place) - 1
        if not 0 <= at < len(self.outcomes) or self.outcomes[at].weight != (int(p), int(q)):
            raise Fault("a row of no weight")
        outcome = self.outcomes[at]
        outcome.risk, outcome.mean, outcome.efficient = exact(risk), exact(mean), rank == "efficient"


def exact(text):
    above, below = text.split("/")
    if int(below) == 0:
        raise Fault("a fraction over 0")
    return Fraction(int(above), int(below))


def read(lines, names=None):
    """The report in these lines, with the assets' names where they are given."""
    report = Report(names=names)
    for number, line in enumerate(lines, 1):
        try:
            report.take(line.rstrip("\n"))
        except Fault as fault:
            raise Fault(f"line {number}: {fault}: {line.rstrip()}") from None
    if not report.outcomes:
        raise Fault("no weight in the report")
    return report


# ---- numbers as text


def decimal(value, places):
    """An exact number with so many places, `-` for None. It is rounded to the nearest, a half to the even digit."""
    if value is None:
        return "-"
    scaled = round(Fraction(value) * 10**places)
    digits = f"{abs(scaled):0{places + 1}d}"
    text = digits if places == 0 else f"{digits[:-places]}.{digits[-places:]}"
    return f"-{text}" if scaled < 0 else text


def percent(value, places):
    return "-" if value is None else decimal(100 * Fraction(value), places)


def share(value):
    """A share in percent, with as few places as say it, and at most two."""
    text = percent(value, 2).rstrip("0").rstrip(".")
    return f"{text}%"


def held(outcome):
    return "-" if outcome.lots is None else ", ".join(f"{name} {share(part)}" for name, part in outcome.holdings.items())


def rank(outcome):
    return {None: "-", True: "efficient", False: "dominated"}[outcome.efficient]


def sci(value):
    """A gap: 0, or three digits and a power of ten."""
    return "-" if value is None else "0" if value == 0 else f"{float(value):.2e}"


HEADS = ["weight", "state", "nodes", "objective", "bound", "gap", "gap %", "deviation %", "return %", "frontier", "held"]


def cells(outcome):
    return [
        outcome.label,
        outcome.state,
        "-" if outcome.nodes is None else str(outcome.nodes),
        decimal(outcome.objective, 9),
        decimal(outcome.bound, 9),
        sci(outcome.gap),
        percent(outcome.relative_gap, 4),
        percent(outcome.deviation, 4),
        percent(outcome.mean, 4),
        rank(outcome),
        held(outcome),
    ]


def market_line(report):
    if report.assets is None:
        return None
    return f"{report.assets} assets, {report.rounded} numerals rounded, shift {sci(Fraction(report.shift, 10**18))}"


def table(report):
    """The report as a table of text."""
    rows = [HEADS] + [cells(outcome) for outcome in report.outcomes]
    widths = [max(len(row[column]) for row in rows) for column in range(len(HEADS))]
    left = {0, 1, 9, 10}
    lines = [line for line in [market_line(report)] if line]
    for row in rows:
        parts = [text.ljust(width) if column in left else text.rjust(width)
                 for column, (text, width) in enumerate(zip(row, widths))]
        lines.append("  ".join(parts).rstrip())
    if report.accepted:
        lines.append("yes")
    return "\n".join(lines) + "\n"


# ---- CSV and JSON


def rows_of_holdings(report):
    """A row for each held asset of each weight, and one for a weight without a portfolio."""
    for outcome in report.outcomes:
        told = [outcome.label, outcome.state, decimal(outcome.objective, 18), decimal(outcome.bound, 18),
                percent(outcome.deviation, 8), percent(outcome.mean, 8), rank(outcome)]
        if outcome.lots is None:
            yield told + ["", "", "", ""]
        for asset, lots in (outcome.lots or {}).items():
            yield told + [asset, outcome.name(asset), lots, percent(outcome.holdings[outcome.name(asset)], 4)]


def as_csv(report):
    """The report as CSV: a row for each held asset of each weight."""
    out = io.StringIO()
    writer = csv.writer(out, lineterminator="\n")
    writer.writerow(["weight", "state", "objective", "bound", "deviation %", "return %", "frontier", "asset", "name", "lots", "share %"])
    writer.writerows(rows_of_holdings(report))
    return out.getvalue()


def plain(value):
    """A number for JSON: an exact fraction as text."""
    return None if value is None else f"{value.numerator}/{value.denominator}"


def as_json(report):
    """The report as JSON; exact numbers are texts `a/b`, reduced."""
    weights = [{
        "weight": outcome.label, "state": outcome.state, "nodes": outcome.nodes, "objective": plain(outcome.objective),
        "bound": plain(outcome.bound), "gap": plain(outcome.gap), "risk": plain(outcome.risk), "return": plain(outcome.mean),
        "efficient": outcome.efficient, "lots": None if outcome.lots is None else
        {outcome.name(asset): lots for asset, lots in outcome.lots.items()},
    } for outcome in report.outcomes]
    whole = {"assets": report.assets, "rounded": report.rounded, "shift": report.shift, "accepted": report.accepted}
    return json.dumps({**whole, "weights": weights}, indent=1, ensure_ascii=False) + "\n"


# ---- the picture

BOTTOM, TOP, RIGHT, LEFT = 52, 18, 18, 64
STYLE = (
    "text{font:12px system-ui,sans-serif;fill:#444}.grid{stroke:#e6e6e6}.frame{fill:none;stroke:#999}"
    ".line{fill:none;stroke:#1f6fb2;stroke-width:1.5}.efficient{fill:#1f6fb2}"
    ".dominated{fill:#fff;stroke:#b2441f;stroke-width:1.5}.open{fill:none;stroke:#d99a2b;stroke-width:2}"
    ".point{cursor:pointer;outline:none}.point:hover .efficient,.point:focus .efficient,.point.on .efficient{fill:#0b3d66}"
    ".halo{fill:#1f6fb2;opacity:0}.point:hover .halo,.point:focus .halo,.point.on .halo{opacity:.18}"
)


def steps(low, high):
    """The size of a round step and its marks, some five of them, on an axis from low to high."""
    rough = (high - low) / 5
    ten = 10.0 ** math.floor(math.log10(rough))
    size = next(ten * part for part in (1, 2, 5, 10) if ten * part >= rough * 0.999)
    return size, [k * size for k in range(math.ceil(low / size), math.floor(high / size) + 1)]


def mark_text(value, size):
    return f"{value:.{max(0, -math.floor(math.log10(size * 1.001)))}f}"


def widened(numbers):
    low, high = min(numbers), max(numbers)
    margin = (high - low) * 0.11 or abs(high) * 0.11 or 1e-6
    return low - margin, high + margin


class Frame:
    """Where a deviation and a return, in percent, stand in a picture of this size."""

    def __init__(self, width, height, points):
        self.width, self.height = width, height
        self.xs = widened([x for x, _ in points])
        self.ys = widened([y for _, y in points])

    def x(self, value):
        low, high = self.xs
        return LEFT + (value - low) / (high - low) * (self.width - LEFT - RIGHT)

    def y(self, value):
        low, high = self.ys
        return self.height - BOTTOM - (value - low) / (high - low) * (self.height - TOP - BOTTOM)


def axes(frame):
    right, low = frame.width - RIGHT, frame.height - BOTTOM
    size, places = steps(*frame.xs)
    for x, place in ((frame.x(place), place) for place in places):
        yield f'<line x1="{x:.1f}" y1="{TOP}" x2="{x:.1f}" y2="{low}" class="grid"/>'
        yield f'<text x="{x:.1f}" y="{low + 18}" text-anchor="middle">{mark_text(place, size)}</text>'
    size, places = steps(*frame.ys)
    for y, place in ((frame.y(place), place) for place in places):
        yield f'<line x1="{LEFT}" y1="{y:.1f}" x2="{right}" y2="{y:.1f}" class="grid"/>'
        yield f'<text x="{LEFT - 8}" y="{y + 4:.1f}" text-anchor="end">{mark_text(place, size)}</text>'
    yield f'<rect x="{LEFT}" y="{TOP}" width="{right - LEFT}" height="{low - TOP}" class="frame"/>'
    yield f'<text x="{(LEFT + right) / 2}" y="{frame.height - 12}" text-anchor="middle">deviation of the return per period, %</text>'
    yield f'<text transform="translate(16 {(TOP + low) / 2}) rotate(-90)" text-anchor="middle">return per period, %</text>'


def place_of(outcome):
    return 100 * outcome.deviation, 100 * float(outcome.mean)


def drawable(report):
    """The outcomes that have a place in the picture, with their numbers from 0."""
    return [(k, outcome) for k, outcome in enumerate(report.outcomes) if outcome.deviation is not None]


def places_of(rows):
    """The outcomes that stand at each place, from the highest place down."""
    places = {}
    for k, outcome in rows:
        places.setdefault(place_of(outcome), []).append((k, outcome))
    return sorted(places.items(), key=lambda place: -place[0][1])


def text_of(group):
    """What a point says when pointed at: weights, numbers, and the holdings, greatest first."""
    first = group[0][1]
    lines = ["weight " + ", ".join(f"{outcome.label} {outcome.state}" for _, outcome in group),
             f"deviation {percent(first.deviation, 4)} %, return {percent(first.mean, 4)} %"]
    for _, outcome in group:
        if outcome.state == "open":
            lines.append(f"gap of {outcome.label}: {sci(outcome.gap)} ({percent(outcome.relative_gap, 2)} %)")
    if first.lots is not None:
        lines += [f"{name} {share(part)}" for name, part in sorted(first.holdings.items(), key=lambda entry: -entry[1])]
    return "\n".join(lines)


def clear(taken, left, right, y):
    """The first height from y down where no text stands between left and right yet; it is then taken."""
    for start, end, height in sorted(taken, key=lambda text: text[2]):
        if start < right and left < end and abs(height - y) < 13:
            y = height + 13
    taken.append((left, right, y))
    return y


def point(frame, place, group, taken):
    x, y = frame.x(place[0]), frame.y(place[1])
    kind = "efficient" if group[0][1].efficient else "dominated"
    shape = f'<circle cx="{x:.1f}" cy="{y:.1f}" r="14" class="halo"/>'
    if any(outcome.state == "open" for _, outcome in group):
        shape += f'<circle cx="{x:.1f}" cy="{y:.1f}" r="8" class="open"/>'
    shape += f'<circle cx="{x:.1f}" cy="{y:.1f}" r="4.5" class="{kind}"/>'
    text = ", ".join(outcome.label for _, outcome in group)
    wide = 7 * len(text)
    if x + 12 + wide < frame.width - RIGHT:
        side, height = f'x="{x + 12:.1f}"', clear(taken, x + 12, x + 12 + wide, y + 14)
    else:
        side, height = f'x="{x - 12:.1f}" text-anchor="end"', clear(taken, x - 12 - wide, x - 12, y - 6)
    numbers = " ".join(str(k) for k, _ in group)
    return (f'<g class="point" tabindex="0" data-rows="{numbers}"><title>{escape(text_of(group))}</title>{shape}'
            f'<text {side} y="{height:.1f}">{escape(text)}</text></g>')


def picture(report, width=760, height=480, name="whole"):
    """The frontier as SVG: efficient rows joined by a line, dominated ones hollow, open weights in a ring."""
    rows = drawable(report)
    if not rows:
        raise Fault("the report has no frontier rows to draw")
    frame = Frame(width, height, [place_of(outcome) for _, outcome in rows])
    line = sorted({place_of(outcome) for _, outcome in rows if outcome.efficient})
    path = " ".join(f"{frame.x(x):.1f},{frame.y(y):.1f}" for x, y in line)
    taken = []
    parts = [
        f'<svg xmlns="http://www.w3.org/2000/svg" viewBox="0 0 {width} {height}" width="{width}" height="{height}" class="{name}">',
        f'<style>{STYLE}</style>',
        f'<rect width="{width}" height="{height}" fill="#fff"/>',
        *axes(frame),
        f'<polyline points="{path}" class="line"/>',
        *(point(frame, place, group, taken) for place, group in places_of(rows)),
        "</svg>",
    ]
    return "\n".join(parts) + "\n"


# ---- the page

PAGE_STYLE = """
body{font:15px/1.45 system-ui,sans-serif;color:#222;margin:0 auto;max-width:1160px;padding:16px;box-sizing:border-box}
h1{font-size:1.35rem;margin:.2em 0}p{margin:.4em 0;color:#555}
.view{display:flex;flex-wrap:wrap;gap:16px;align-items:flex-start;margin:12px 0}
svg{max-width:100%;height:auto;display:block}svg.narrow{display:none}
.told{flex:1 1 240px;min-width:0;border:1px solid #ddd;border-radius:6px;padding:10px 12px;white-space:pre-line;min-height:8em;box-sizing:border-box}
.scroll{overflow-x:auto;border:1px solid #ddd;border-radius:6px}
table{border-collapse:collapse;width:100%;font-variant-numeric:tabular-nums;font-size:13px}
th,td{padding:5px 6px;text-align:right;white-space:nowrap;border-bottom:1px solid #eee}
th{background:#f6f6f6;font-weight:600}tr:last-child td{border-bottom:0}
.left{text-align:left}td.held{white-space:normal;min-width:220px}
tr.on td{background:#eaf3fb}tbody tr{cursor:pointer}
.bar{display:inline-block;width:40px;height:8px;background:#eee;border-radius:4px;margin-left:5px;vertical-align:middle}
.bar i{display:block;height:8px;background:#d99a2b;border-radius:4px}
.closed{color:#1a7f37}.open{color:#9a6700}.none{color:#8a8a8a}
@media(max-width:640px){svg.wide{display:none}svg.narrow{display:block}body{padding:10px}td.held{white-space:nowrap}}
"""

PAGE_SCRIPT = """
const told = document.querySelector('.told'), rows = [...document.querySelectorAll('tbody tr')];
const points = [...document.querySelectorAll('.point')];
function show(numbers, text) {
  rows.forEach((row, k) => row.classList.toggle('on', numbers.includes(String(k))));
  points.forEach(point => point.classList.toggle('on', point.dataset.rows.split(' ').some(k => numbers.includes(k))));
  if (told) told.textContent = text;
}
points.forEach(point => ['mouseenter', 'focus', 'click'].forEach(event =>
  point.addEventListener(event, () => show(point.dataset.rows.split(' '), point.dataset.text))));
rows.forEach((row, k) => row.addEventListener('mouseenter', () => show([String(k)], row.dataset.text)));
points.forEach(point => { point.dataset.text = point.querySelector('title').textContent; point.querySelector('title').remove(); });
"""


def page_cell(outcome, head, text, most):
    if head == "state":
        return f'<td class="left {outcome.state}">{text}</td>'
    if head in ("weight", "frontier"):
        return f'<td class="left">{escape(text)}</td>'
    if head == "held":
        return f'<td class="left held">{escape(text)}</td>'
    if head == "gap" and outcome.gap:
        wide = max(2, round(100 * float(outcome.gap / most)))
        return f'<td>{escape(text)}<span class="bar"><i style="width:{wide}%"></i></span></td>'
    return f"<td>{escape(text)}</td>"


def page_rows(report):
    most = max((outcome.gap for outcome in report.outcomes if outcome.gap), default=1)
    for k, outcome in enumerate(report.outcomes):
        row = "".join(page_cell(outcome, head, text, most) for head, text in zip(HEADS, cells(outcome)))
        yield f'<tr data-text="{escape(text_of([(k, outcome)]))}">{row}</tr>'


def summary(report):
    states = [outcome.state for outcome in report.outcomes]
    told = ", ".join(f"{states.count(state)} {state}" for state in ("closed", "open", "none") if state in states)
    line = market_line(report)
    return f"{len(states)} weight{'' if len(states) == 1 else 's'}: {told}." + (f" {line}." if line else "")


def page(report, title="Frontier"):
    """The report as one page of HTML without outside parts: the picture, what is pointed at, and the table."""
    left = {"weight", "state", "frontier", "held"}
    heads = "".join(f'<th class="left">{head}</th>' if head in left else f"<th>{head}</th>" for head in HEADS)
    view = ""
    if drawable(report):
        view = (f'<div class="view">{picture(report, 760, 460, "wide")}{picture(report, 380, 340, "narrow")}'
                '<div class="told" aria-live="polite">Point at a weight, in the picture or in the table, for what it holds.</div></div>')
    return (
        f'<!DOCTYPE html>\n<html lang="en"><head><meta charset="utf-8"><meta name="viewport" content="width=device-width">'
        f"<title>{escape(title)}</title><style>{PAGE_STYLE}</style></head><body>\n<h1>{escape(title)}</h1>\n"
        f"<p>{escape(summary(report))} Closed: no portfolio that meets the limits is better. Open: none is below the bound, "
        f"and the bar is the gap beside the greatest of this report.</p>\n{view}"
        f'<div class="scroll"><table><thead><tr>{heads}</tr></thead>\n<tbody>\n' + "\n".join(page_rows(report)) +
        f"\n</tbody></table></div>\n<script>{PAGE_SCRIPT}</script></body></html>\n"
    )
