"""Tests of tools/portgap.py with the built program and the markets of examples/.

    PORTGAP=crates/portgap/out/portgap python3 -m unittest -v tools/test_portgap.py

tools/try_tools.py runs them. Python's standard library alone.
"""

import contextlib
import io
import json
import os
import sys
import tempfile
import unittest
import xml.etree.ElementTree
from fractions import Fraction

HERE = os.path.dirname(os.path.abspath(__file__))
sys.path.insert(0, HERE)

import portgap
import portgap_explain
import portgap_report

EXAMPLES = os.path.join(HERE, "..", "examples")
THREE = os.path.join(EXAMPLES, "three.txt")
WEEKLY = os.path.join(EXAMPLES, "dow30-weekly.txt")

PRICES = """\
date,Alpha,Beta,Gamma
2024-01-05,100,50,10
2024-01-12,101,50.5,10.5
2024-01-19,103.02,50,10.5
2024-01-26,102,51,11.025
"""

# a report with each state of a weight and each rank of a row, made by hand
MADE = """\
assets 2 rounded 1 shift 500000000000000000
weight 0/1 closed nodes 0 objective -200/100000 bound -200/100000
lots 2:10
weight 1/4 open nodes 7 objective 300/100000 bound 150/100000
lots 1:8 2:2
weight 2/4 open nodes 7 objective 40/100000 bound 39/100000
lots 1:9 2:1
weight 3/4 none nodes 2
weight 1/1 open nodes 7 objective - bound -1/100000
row 1 weight 0/1 risk 400/10000 return 20/10000 efficient
row 2 weight 1/4 risk 400/10000 return 12/10000 dominated
row 3 weight 2/4 risk 100/10000 return 11/10000 efficient
"""

MADE_TABLE = """\
2 assets, 1 numerals rounded, shift 5.00e-01
weight  state   nodes     objective         bound       gap    gap %  deviation %  return %  frontier   held
0/1     closed      0  -0.002000000  -0.002000000         0   0.0000      20.0000    0.2000  efficient  Y 100%
1/4     open        7   0.003000000   0.001500000  1.50e-03  50.0000      20.0000    0.1200  dominated  X 80%, Y 20%
2/4     open        7   0.000400000   0.000390000  1.00e-05   2.5000      10.0000    0.1100  efficient  X 90%, Y 10%
3/4     none        2             -             -         -        -            -         -  -          -
1/1     open        7             -  -0.000010000         -        -            -         -  -          -
"""


def lines(text):
    return io.StringIO(text)


class Folder(unittest.TestCase):
    """A test that stands in a folder of its own."""

    def setUp(self):
        folder = tempfile.TemporaryDirectory()
        self.addCleanup(folder.cleanup)
        self.addCleanup(os.chdir, os.getcwd())
        os.chdir(folder.name)

    def put(self, name, text):
        with open(name, "w", encoding="utf-8") as file:
            file.write(text)
        return name

    def get(self, name):
        with open(name, "rb") as file:
            return file.read()


class Markets(Folder):
    def test_prices_become_moments(self):
        market = portgap.Market.from_prices(self.put("prices", PRICES))
        self.assertEqual(market.names, ("Alpha", "Beta", "Gamma"))
        returns = [Fraction(1, 100), Fraction(2, 100), Fraction(-102, 10302)]
        mean = sum(returns) / 3
        self.assertEqual(market.means[0], round(mean * 10**6))
        square = sum((value - mean) ** 2 for value in returns) / 2
        self.assertEqual(market.deviations[0], round(float(square) ** 0.5 * 10**6))
        self.assertEqual(market.correlations[1][2], market.correlations[2][1])

    def test_nothing_is_rounded_when_it_is_read(self):
        portgap.Market.from_prices(self.put("prices", PRICES), log=True).write("port")
        self.assertEqual(portgap.names_of("port"), ["Alpha", "Beta", "Gamma"])
        job = portgap.Job(lots=5, held=1, weights=["1/2"], nodes=0)
        self.assertEqual(portgap.solve("port", job).rounded, 0)

    def test_a_missing_price_is_refused_or_left_out(self):
        with_hole = self.put("prices", PRICES.replace("103.02,50,", "103.02,,"))
        with self.assertRaisesRegex(ValueError, "row 4, column Beta: the price is missing"):
            portgap.Market.from_prices(with_hole)
        with self.assertRaisesRegex(ValueError, "row 5, column Gamma: -1 is no price"):
            portgap.Market.from_prices(self.put("other", PRICES.replace("11.025", "-1")))
        left = portgap.Market.from_prices(with_hole, leave_out=True)
        whole = portgap.Market.from_prices(self.put("short", PRICES.replace("2024-01-19,103.02,50,10.5\n", "")))
        self.assertEqual(left, whole)

    def test_tables_that_are_no_prices(self):
        for text, told in (("", "empty"), (PRICES.replace("2024-01-12", "2023-01-12"), "isn't later"),
                           (PRICES.replace("Beta", "Alpha"), "two assets are called Alpha"),
                           (PRICES.replace(",10.5\n", "\n", 1), "row 3 has 3 columns"),
                           ("\n".join(PRICES.splitlines()[:3]), "too few")):
            with self.subTest(told), self.assertRaisesRegex(ValueError, told):
                portgap.Market.from_prices(self.put("prices", text))

    def test_moments_of_the_real_market(self):
        with open(WEEKLY, encoding="ascii") as file:
            numbers = file.read().split()
        n = int(numbers[0])
        means, deviations = numbers[1:2 * n + 1:2], numbers[2:2 * n + 1:2]
        matrix = [[0] * n for _ in range(n)]
        rest = numbers[2 * n + 1:]
        for i, j, rho in zip(rest[::3], rest[1::3], rest[2::3]):
            matrix[int(i) - 1][int(j) - 1] = matrix[int(j) - 1][int(i) - 1] = rho
        market = portgap.Market.from_moments(means, deviations, matrix)
        job = portgap.Job(lots=20, held=(3, 5), weights=["1/2", "1"], nodes=5)
        self.assertEqual(portgap.solve(market, job).text, portgap.solve(WEEKLY, job).text)


class Jobs(unittest.TestCase):
    def test_names_become_numbers(self):
        job = portgap.Job(lots=10, held=(1, 2), weights=["19/20", 0.5, (0, 4), Fraction(1)], limits={"B": (2, 3)},
                          without=["C"], present={"A": 4, 2: 6}, turnover=5, nodes=7, workers=1)
        self.assertEqual(job.as_dict(["A", "B", "C"]), {
            "lots": 10, "held": [1, 2], "weights": [[19, 20], [1, 2], [0, 4], [1, 1]], "limits": [[2, 2, 3], [3, 10, 1]],
            "present": [[1, 4], [2, 6]], "turnover": 5, "nodes": 7, "workers": 1,
        })

    def test_what_is_no_name_or_weight(self):
        with self.assertRaisesRegex(ValueError, "no asset is called 'D'"):
            portgap.Job(lots=10, held=1, weights=[1], limits={"D": (1, 2)}).as_dict(["A", "B"])
        with self.assertRaisesRegex(ValueError, "weight 0.123456"):
            portgap.Job(lots=10, held=1, weights=[0.123456]).as_dict()


class Runs(Folder):
    job = portgap.Job(lots=20, held=2, weights=["1/2", "19/20", "1"], nodes=100)

    def test_solves_with_exact_numbers(self):
        told = []
        report = portgap.solve(THREE, self.job, "cert", told.append)
        self.assertEqual("\n".join(told) + "\n", report.text)
        last = report.outcomes[2]
        self.assertEqual((last.state, last.weight, last.lots), ("closed", (1, 1), {1: 2, 2: 18}))
        self.assertEqual(last.objective, Fraction(1468 * 10**14, 4 * 10**20))
        self.assertEqual((last.gap, last.relative_gap, last.risk), (0, 0, last.objective))
        self.assertEqual(last.holdings, {"1": Fraction(1, 10), "2": Fraction(9, 10)})
        self.assertEqual(os.listdir(), ["cert"])
        for verdict in (portgap.check("cert"), portgap.verify(THREE, self.job, "cert"), portgap.upgrade("cert", "new")):
            self.assertTrue(verdict.accepted)
            self.assertEqual([told.objective for told in verdict.outcomes], [told.objective for told in report.outcomes])
        self.assertEqual(self.get("new"), self.get("cert"))

    def test_holdings_by_name(self):
        market = portgap.Market.from_prices(self.put("prices", PRICES))
        report = portgap.solve(market, portgap.Job(lots=10, held=2, weights=["0/1"], limits={"Beta": (4, 10)}, without=["Alpha"], nodes=50))
        self.assertEqual(report.outcomes[0].holdings, {"Beta": Fraction(2, 5), "Gamma": Fraction(3, 5)})

    def test_quick_and_demo(self):
        self.assertEqual(portgap.quick(THREE, 2, 20, "1/1", 100).outcomes[0].lots, {1: 2, 2: 18})
        self.assertEqual(len(portgap.demo(7, 5, 2, 10, 3).outcomes), 5)

    def test_refusals_carry_status_and_line(self):
        cases = [(lambda: portgap.quick("none", 2, 20, "1", 0), portgap.CouldNotRead, 3, None),
                 (lambda: portgap.quick(self.put("bad", "2\n1.5"), 1, 20, "1", 0), portgap.PortRefused, 5, "port Range 2"),
                 (lambda: portgap.solve(THREE, portgap.Job(20, 9, ["1"])), portgap.JobRefused, 6, "job Range held"),
                 (lambda: portgap.check(THREE), portgap.CertificateRefused, 7, "certificate Magic 0"),
                 (lambda: portgap.quick(THREE, 0, 20, "1", 0), portgap.WordsRefused, 2, None)]
        for call, kind, status, line in cases:
            with self.subTest(status), self.assertRaises(kind) as caught:
                call()
            self.assertEqual(caught.exception.status, status)
            self.assertTrue(caught.exception.said.startswith("portgap: "))
            if line:
                self.assertEqual(caught.exception.line, line)

    def test_a_difference(self):
        portgap.solve(THREE, self.job, "cert")
        with self.assertRaises(portgap.Differs) as caught:
            portgap.verify(THREE, portgap.Job(20, 2, ["1/2", "19/20", "1"], nodes=99), "cert")
        self.assertEqual(caught.exception.line, "differs nodes 100 99")

    def test_a_failed_run_leaves_the_old_certificate(self):
        self.put("cert", "old")
        with self.assertRaises(portgap.JobRefused):
            portgap.solve(THREE, portgap.Job(20, 9, ["1"]), "cert")
        self.assertEqual((self.get("cert"), os.listdir()), (b"old", ["cert"]))

    def test_what_is_read_is_not_replaced(self):
        with open(THREE, encoding="ascii") as file:
            self.put("port", file.read())
        os.symlink("port", "link")
        for cert in ("./port", "link"):
            with self.assertRaisesRegex(ValueError, "one of the files that are read"):
                portgap.solve("port", self.job, cert)
        self.assertEqual(sorted(os.listdir()), ["link", "port"])

    def test_progress_on_a_terminal(self):
        class Terminal(io.StringIO):
            def isatty(self):
                return True

        shown = portgap.Progress(4, Terminal())
        shown.take("assets 3 rounded 0 shift 1")
        shown.take("weight 1/2 closed nodes 0 objective 1/2 bound 1/2")
        self.assertRegex(shown.out.getvalue(), "1 of 4 weights, 1 closed, 0 s, about 0 s left")


class Reports(unittest.TestCase):
    def test_the_table(self):
        self.assertEqual(portgap_report.table(portgap_report.read(lines(MADE), ["X", "Y"])), MADE_TABLE)

    def test_a_report_without_a_frontier(self):
        report = portgap_report.read(lines("weight 1/2 closed objective 1/4 bound 1/4\nyes\n"))
        self.assertTrue(report.accepted)
        self.assertIn("0.250000000", portgap_report.table(report))
        self.assertIn("0.250000000", portgap_report.page(report))
        with self.assertRaises(portgap_report.Fault):
            portgap_report.picture(report)

    def test_a_gap_near_nothing(self):
        report = portgap_report.read(lines("weight 1/2 open nodes 1 objective 0/4 bound -1/4\nlots 1:1\n"))
        self.assertEqual((report.outcomes[0].gap, report.outcomes[0].relative_gap), (Fraction(1, 4), None))

    def test_csv_and_json(self):
        report = portgap_report.read(lines(MADE), ["X", "Y"])
        self.assertIn("1/4,open,0.003000000000000000,0.001500000000000000,20.00000000,0.12000000,dominated,1,X,8,80.0000\n",
                      portgap_report.as_csv(report))
        told = json.loads(portgap_report.as_json(report))
        self.assertEqual(told["weights"][2]["gap"], "1/100000")
        self.assertEqual(told["weights"][1]["lots"], {"X": 8, "Y": 2})

    def test_marks_of_the_picture(self):
        root = xml.etree.ElementTree.fromstring(portgap_report.picture(portgap_report.read(lines(MADE))))
        kinds = [part.get("class") for part in root.iter() if part.tag.endswith("circle")]
        self.assertEqual([kinds.count(kind) for kind in ("efficient", "dominated", "open")], [2, 1, 2])

    def test_the_page_has_no_outside_parts(self):
        page = portgap_report.page(portgap_report.read(lines(MADE), ["X", "<Y>"]))
        self.assertEqual(page.count("http"), page.count('xmlns="http://www.w3.org/2000/svg"'))
        self.assertNotIn("<Y>", page)
        self.assertEqual(page.count('class="bar"'), 2)

    def test_lines_that_no_report_has(self):
        for text in ("", "weight 1/2\n", "weight 1/2 closed nodes 3\n", "lots 1:1\n", MADE + "row 9 weight 1/1 risk 0/1 return 0/1 efficient\n"):
            with self.subTest(text), self.assertRaises(portgap_report.Fault):
                portgap_report.read(lines(text))


class Explanations(unittest.TestCase):
    PORTS = [(b"\xef\xbb\xbf2\n.1 .1", "port Count 0", "byte order mark"), (b"2\n0,1 .1", "port Numeral 2", "decimal comma"),
             (b"2\n1.5 20", "port Range 2", "returns in percent"), (b"# a\n2\n", "port Count 0", "a comment"),
             (b"2\n.1 .1\n.2 .2\n0 1 .5", "port Index 14", "numbered from 0"), (b"2\n.1 .1\nNaN .2", "port Numeral 8", "missing"),
             (b"2\n.1 .1\n.2 .2\n1 2 .5\n2 1 .4", "port Conflict 25 1 2", "line 4, column 1 with .5"),
             (b"2\n.1 .1\n.2 .2\n1 1 .04", "port Diagonal 18", "covariances"), (b"2\n.1 -.1", "port Deviation 5", "the mean comes first"),
             (b"2\n.1 .1\n.2 .2\n", "port Missing 14 1 2", "1 2 correlation"), (b"2\n.1 .1\n.2", "port Short 10", "cut off"),
             (b"2,3\n", "port Count 0", "comma"), (b"2\n.1 5%", "port Numeral 5", "percent sign")]
    JOBS = [(b'{"weights":[[1,2],]}', "job NotJson", "comma behind the last entry"), (b"{# no\n}", "job NotJson", "a comment"),
            (b"{'lots': 1}", "job NotJson", "single quotes"), (b'\xef\xbb\xbf{"lots": 1}', "job NotJson", "byte order mark"),
            (b'{"lots": 1', "job NotJson", "bracket is missing"), (b'{"lots": 1, "Nodes": 2}', "job Unknown 0", '"Nodes"'),
            (b'{"weights": [0.5]}', "job Kind weights", "weights as decimals"), (b"{}", "job Kind lots", "missing, or null"),
            (b'{"limits": [[0, 1, 1]]}', "job Asset limits", "numbered from 0"), (b'{"held": 90}', "job Range held", "than the market has"),
            (b'{"limits": [["X", 1, 2]]}', "job Kind limits", "names of assets"), (b"[]", "job NotObject", "object")]

    def test_causes(self):
        for data, line, told in self.PORTS + self.JOBS:
            with self.subTest(line=line, data=data):
                self.assertIn(told, "\n".join(portgap_explain.explain(data, line)))

    def test_the_refusals_are_those_of_the_program(self):
        with tempfile.TemporaryDirectory() as folder:
            port, job = os.path.join(folder, "port"), os.path.join(folder, "job")
            for data, line, _ in self.PORTS:
                with open(port, "wb") as file:
                    file.write(data)
                with self.subTest(data=data), self.assertRaises(portgap.PortRefused) as caught:
                    portgap.quick(port, 1, 2, "1", 0)
                self.assertEqual(caught.exception.line, line)
            for data, line, _ in self.JOBS:
                if line.split()[1] in ("Asset", "Range") or b'"weights": [0' in data or b"limits" in data:
                    continue
                with open(job, "wb") as file:
                    file.write(data)
                with self.subTest(data=data), self.assertRaises(portgap.JobRefused) as caught:
                    portgap.solve(THREE, job)
                self.assertEqual(caught.exception.line, line)

    def test_certificates_and_differences(self):
        self.assertIn("ends inside", "\n".join(portgap_explain.explain(b"GAP", "certificate Short 3")))
        self.assertIn("for greatest 2 it has 10, and the files have 9", "\n".join(portgap_explain.explain(None, "differs greatest 2 10 9")))

    def test_what_is_no_refusal(self):
        for line in ("", "yes", "weight 1/2 none"):
            with self.subTest(line), self.assertRaises(portgap_explain.Unclear):
                portgap_explain.explain(b"", line)


class CommandLine(Folder):
    def run_it(self, *words):
        out, err = io.StringIO(), io.StringIO()
        with contextlib.redirect_stdout(out), contextlib.redirect_stderr(err):
            status = portgap.main(list(words))
        return status, out.getvalue(), err.getvalue()

    def test_from_prices_to_a_page(self):
        self.put("prices.csv", PRICES)
        self.assertEqual(self.run_it("market", "prices.csv", "m.port")[0], 0)
        self.put("job.json", '{"lots": 10, "held": 2, "weights": [[0, 1], [1, 1]], "nodes": 50, "limits": [["Beta", 4, 10], ["Alpha", 10, 1]]}')
        status, out, _ = self.run_it("solve", "m.port", "job.json", "out.cert", "--html", "out.html", "--report", "out.report")
        self.assertEqual(status, 0)
        self.assertIn("Beta 40%, Gamma 60%", out)
        self.assertIn("Beta 40%", self.get("out.html").decode())
        self.assertEqual(self.run_it("verify", "m.port", "job.json", "out.cert")[0], 0)
        self.assertIn("yes", self.run_it("check", "out.cert")[1])
        self.assertEqual(self.run_it("report", "out.report", "--names", "m.port.names")[1], out)

    def test_a_refusal_is_explained(self):
        self.put("m.port", "2\n1.5 .1\n")
        self.put("job.json", "{}")
        status, _, err = self.run_it("solve", "m.port", "job.json", "out.cert")
        self.assertEqual(status, 5)
        self.assertIn("returns in percent", err)
        self.assertEqual(self.run_it("explain", "m.port", "port Range 2")[0], 0)
        self.assertEqual(self.run_it("explain", "m.port", "nothing")[0], 1)


if __name__ == "__main__":
    unittest.main()
