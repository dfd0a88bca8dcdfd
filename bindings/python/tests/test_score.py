"""minorder-score on claims, which need no library, and on orders, which it counts.

    python3 -m unittest discover -s bindings/python/tests -p test_score.py
"""
import contextlib
import csv
import io
import json
import os
import statistics
import sys
import tempfile
import unittest
import unittest.mock
from fractions import Fraction

sys.path.insert(0, os.path.dirname(os.path.dirname(os.path.abspath(__file__))))

from minorder import _differences, _picture, benchmarks, levels, score, sizes  # noqa: E402

OPTIMA = benchmarks.optima()


def scored(text, *words, file="mine.csv"):
    """The status, and what was written to the standard streams, of minorder-score on a file of results."""
    out, errors = io.StringIO(), io.StringIO()
    with tempfile.TemporaryDirectory() as folder, contextlib.redirect_stdout(out), contextlib.redirect_stderr(errors):
        with open(f"{folder}/{file}", "w") as results:
            results.write(text)
        try:
            status = score.main([f"{folder}/{file}", *words])
        except SystemExit as end:
            status = end.code
    return status, out.getvalue(), errors.getvalue()


def strict(text):
    """What a text of JSON has, which is that of the standard."""
    def refuse(word):
        raise ValueError(word)
    return json.loads(text, parse_constant=refuse)


def rows_of(method, start):
    """A method's lines of the league as claims, of as many runs as are wanted."""
    many = 1 if start == benchmarks.FILE else 10
    lines = [line for line in benchmarks.league() if (line.package, line.method) == method and line.start == start]
    rows = [f"{line.name},{line.median_nodes or 'late'},{line.seconds or ''},{start}" for line in lines]
    return "\n".join(["name,nodes,seconds,start", *rows * many, ""])


class Scores(unittest.TestCase):
    def test_a_methods_own_numbers_give_its_row(self):
        for start in (benchmarks.FILE, benchmarks.RANDOM):
            league = benchmarks.standings(benchmarks.league(), OPTIMA, start)
            for method in (("CUDD", "SIFT"), ("BuDDy", "SIFTITE"), ("minorder", "sifting")):
                status, out, errors = scored(rows_of(method, start), "--json")
                self.assertEqual((status, errors), (0, ""))
                [found] = json.loads(out)
                mine, same = league[method], next(it for it in found["league"] if [it["package"], it["method"]] == list(method))
                self.assertEqual((found["mean_ratio"], found["optimum_met"], found["late"]), (mine.mean, mine.met, mine.late))
                self.assertEqual((same["mean_ratio"], same["functions"]), (mine.mean, mine.whole))
                self.assertEqual(found["mean_better_share"], same["mean_better_share"])
                self.assertEqual((found["claimed"], found["missing"]), (len(mine.ended), []))
                better = [it for it in league.values() if it.mean < mine.mean]
                self.assertEqual((found["place"], found["places"]), (1 + len(better), 26))

    def test_the_report(self):
        status, out, errors = scored("name,nodes\nhwb8,55\nlife,26\nz4ml,33\n", "--name", "my method")
        self.assertEqual((status, errors), (0, ""))
        claimed = f"functions: 3 of {len(OPTIMA)}: 0 by their orders, 3 by sizes that are only claimed; 0 late, 253 missing"
        place = "place: 26 of 26, by the mean ratio on all 256 functions, 3 of them by sizes that are only claimed"
        better = "better orders: 0.989 of all, in the mean; a late or missing function counts as 1"
        for line in ("method: my method", "start: the file's order", claimed, place, "of what ended: 1.166 on 3 functions",
                     better, "worst ratio: 1.27 (addc3), of the runs that ended",
                     "optimum met: 1 of 256", "runs that met it: 33 %"):
            self.assertIn(f"{line}\n", out)
        self.assertRegex(out, r"\n> my method \(3 claimed\) +[0-9.]+ +0\.989 +1\.166 of 3 +1\.27 \(addc3\) +1 of 256 +33 %")
        self.assertRegex(out, r"\ncostliest functions:\n +addc3 +33 nodes +fewest 26 +1\.269 +better 0\.0238\n +hwb8 +55 nodes")
        self.assertIn(f"missing, {len(OPTIMA) - 3}: hwb4 ", out)
        self.assertRegex(out, r" and [0-9]+ more\n$")
        _, out, _ = scored("name,nodes\ngray8,15\ngray16,31\nbcd7seg,late\nhwb8,44\n")
        self.assertTrue(out.endswith("\nfamilies of which nothing is missing (FAMILY scores one alone): codes\n"))

    def test_all_late(self):
        status, out, errors = scored("name,nodes\nhwb8,late\n")
        self.assertEqual((status, errors), (0, ""))
        known = "0 by their orders, 0 by sizes that are only claimed; 1 late, 255 missing"
        self.assertIn(f"functions: 0 of {len(OPTIMA)}: {known}\n", out)
        self.assertIn("place: 26 of 26,", out)
        out = scored("name,nodes,seconds\nhwb8,late,\nhwb8,55,5\n")[1]
        self.assertIn("\n  a late or missing function counts as the worst ratio that the league or the start has there, and none "
                      "as more than that\nbetter orders: 1 of all, in the mean; a late or missing function counts as 1\n"
                      "worst ratio: 1.25 (hwb8), of the runs that ended\n", out)
        self.assertTrue("\nof what ended: " not in out and "\nseconds: " not in out)

    def test_of_families_that_are_asked_for(self):
        status, out, errors = scored("name,nodes\ngray8,15\ngray16,31\nhwb8,44\n", "Codes", "--json")
        [found] = json.loads(out)
        self.assertEqual((status, found["functions"], found["ended"], found["missing"]), (0, 3, 2, ["bcd7seg"]))
        self.assertEqual(found["of_other_families"], ["hwb8"])
        self.assertEqual(json.loads(scored("name,nodes\ngray8,15\n", "--json", "Codes")[1])[0]["functions"], 3)
        self.assertIn("by the mean ratio on all 3 functions of codes, 1 of them by sizes that are only claimed\n",
                      scored("name,nodes\ngray8,15\n", "codes")[1])
        status, out, errors = scored("name,nodes\ngray8,15\n", "gray8")
        self.assertEqual((status, out), (2, ""))
        self.assertIn("no family is named gray8", errors)

    def test_claims_are_marked(self):
        status, out, errors = scored("name,nodes,start\nhwb8,44,file\nlife,late,file\nhwb8,55,3\n", "--json")
        from_file, from_random = strict(out)
        self.assertEqual([it["claimed"] for it in (from_file, from_random)], [1, 0])
        self.assertEqual([it["claimed"] for it in from_file["results"]], [True])
        self.assertEqual({it["claimed"] for it in from_file["league"]}, {0})
        rows = list(csv.DictReader(io.StringIO(scored("name,nodes\nhwb8,44\nlife,late\n", "--csv")[1])))
        self.assertEqual([row["claimed"] for row in rows], ["1", "0"])
        best = "".join(f"{name},{it.optimum}\n" for name, it in OPTIMA.items())
        status, out, errors = scored(f"name,nodes\n{best}")
        said = "place: 1 of 26, by the mean ratio on all 256 functions, 256 of them by sizes that are only claimed"
        self.assertIn(f"\n{said}\n", out)
        self.assertRegex(out, r"\n> mine \(256 claimed\) +1\.000 ")

    def test_several_runs_are_named(self):
        said = "with several runs, 2: life addc3: the lower median of a function's runs counts, and in the runs that met the "
        self.assertIn(f"{said}optimum their share\n", scored("name,nodes\nhwb8,55\nlife,26\nz4ml,26\nlife,26\naddc3,33\n")[1])
        tens = "hwb8,44,random\n" * 11 + "life,41,random\n" * 10
        out = scored(f"name,nodes,start\n{tens}hwb9,70,3\nhwb9,61,3\n", "--json")[1]
        self.assertEqual(strict(out)[0]["several_runs"], ["hwb8", "hwb9"])
        self.assertNotIn("several runs", scored("name,nodes,start\nhwb8,55,file\nhwb8,55,1\nhwb8,44,2\n")[1])

    def test_nothing_is_left_out_silently(self):
        status, out, errors = scored("name,nodes,start\nhwb8,55,7\nhwb16,1000,random\nhwb13,late,3\n")
        self.assertEqual((status, errors), (0, ""))
        self.assertIn("left out, 2: hwb16 hwb13: the league has random orders for functions of up to 12 inputs alone\n", out)
        self.assertIn("with fewer than ten random orders, 1: hwb8: each that is missing counts as a late run\n", out)
        self.assertIn("only claimed; 1 late, 194 missing\n", out)
        self.assertIn("\nlate, 1: hwb8\n", out)
        status, out, errors = scored("name,nodes,start\nhwb16,1000,random\n", "--csv")
        self.assertEqual((status, errors.count("left out, 1: hwb16")), (0, 1))
        self.assertIn("hwb16,random,,1000,", out)


class Late(unittest.TestCase):
    """What a method doesn't end with never helps it."""

    def test_a_start_that_is_left_out_or_stands_twice_helps_nobody(self):
        def nodes_of(*rows):
            text = "name,nodes,start\n" + "".join(f"hwb8,{nodes},{start}\n" for nodes, start in rows)
            [found] = json.loads(scored(text, "--json")[1])
            return [it["nodes"] for it in found["results"]], found["late_runs"]

        ten = [(44 + number, number) for number in range(1, 11)]
        self.assertEqual(nodes_of(*ten), ([49], 0))
        self.assertEqual(nodes_of(*ten, *[(45, 1)] * 9), ([49], 0))
        self.assertEqual(nodes_of(*ten[:6]), ([49], 4))
        self.assertEqual(nodes_of(*ten[:5]), ([], 5))
        self.assertEqual(nodes_of(*[(45, "random")] * 2), ([], 8))

    def test_half_of_the_runs_late(self):
        [found] = json.loads(scored("name,nodes\nhwb8,late\nhwb8,44\n", "--json")[1])
        self.assertEqual((found["late_functions"], found["late_runs"], found["ended"]), (["hwb8"], 1, 0))

    def test_a_function_that_is_late_or_missing_makes_no_place_better(self):
        for method in (("CUDD", "SIFT"), ("BuDDy", "WIN2"), ("CUDD", "GENETIC")):
            head, *rows = rows_of(method, benchmarks.FILE).splitlines()
            rows.sort(key=lambda row: -int(row.split(",")[1].replace("late", "0")) / OPTIMA[row.split(",")[0]].optimum)
            places, means = [], []
            for count in (0, 1, 20, 109, 200):
                late = [row.split(",")[0] + ",late,," for row in rows[:count]]
                for before in (late, []):
                    status, out, _ = scored("\n".join([head, *before, *rows[count:], ""]), "--json")
                    [found] = json.loads(out)
                    places.append(found["place"])
                    means.append(found["mean_ratio"])
            self.assertEqual((places, means), (sorted(places), sorted(means)))
            self.assertLess(places[0], places[-1])

    def test_a_late_run_is_more_than_any_other(self):
        def mean(*nodes):
            return json.loads(scored("name,nodes\n" + "".join(f"hwb8,{it}\n" for it in nodes), "--json")[1])[0]

        self.assertEqual(mean(44, 44, 60, 60, 60)["results"][0]["nodes"], 60)
        self.assertEqual(mean(44, 44, 60, "late", "late")["results"][0]["nodes"], 60)
        self.assertEqual((mean(44, 44, "late", "late", "late")["ended"], mean(44, "late")["ended"]), (0, 0))
        # an order beyond what any method has counts as a late one
        self.assertEqual(mean(64)["mean_ratio"], mean("late")["mean_ratio"])
        self.assertIn("\nof what ended: 1.455 on 1 function\n", scored("name,nodes\nhwb8,64\n")[1])
        # and no order has more
        self.assertIn("hwb8: 65 nodes, and no order has more than 64: most likely", scored("name,nodes\nhwb8,65\n")[2])

    def test_the_mean_is_over_all_functions(self):
        optima, worst = {"a": 10, "b": 20}, {"a": 40, "b": 30}
        rows = {name: OPTIMA["hwb8"]._replace(name=name, optimum=optimum) for name, optimum in optima.items()}
        line = benchmarks.Line("a", "", "mine", "file", 1, 0, 0, 20, 20, 20, 0, None)
        mine = benchmarks.Standing([line], rows, worst)
        self.assertAlmostEqual(mine.mean, (2 * 1.5) ** 0.5)
        self.assertAlmostEqual(mine.mean_of_ended, 2)

    def test_the_leagues_medians_with_late_runs(self):
        def counted(runs, late, median, most):
            return benchmarks.Line("hwb8", "", "", "file", runs, late, 0, 44, median, most, 0, None).counted_nodes

        self.assertEqual((counted(10, 0, 50, 60), counted(10, 4, 50, 60), counted(10, 6, 50, 60)), (50, 60, None))
        self.assertEqual((counted(1, 1, None, None), counted(1, 0, 50, 50)), (None, 50))


class BetterOrders(unittest.TestCase):
    """The share of all orders that have fewer nodes than the method's."""

    def test_the_table_has_what_the_library_counts(self):
        for name in ("hwb8", "mux4", "add4i", "parity8", "rotate8", "life"):
            found, counted = benchmarks.all_orders()[name], sizes(benchmarks.entry(name).tables(), OPTIMA[name].inputs)
            self.assertEqual(found.up_to[-1], counted.total)
            for size in [*counted, counted.fewest - 1, counted.most + 1, 10 ** 9]:
                self.assertEqual(found.better(size), Fraction(counted.rank(min(size, counted.most + 1)), counted.total))
                self.assertEqual(found.middle(size) * 2, found.better(size) + found.better(size + 1))

    def test_random_orders_are_better_than_half_of_all(self):
        means = []
        for name, row in OPTIMA.items():
            if row.random_order_nodes:
                means.append(statistics.fmean(map(benchmarks.all_orders()[name].middle, row.random_order_nodes)))
        self.assertEqual(len(means), 195)
        self.assertAlmostEqual(statistics.fmean(means), 1 / 2, delta=0.01)

    def test_optimal_and_late_ones(self):
        best = [f"{name},{it.optimum}" for name, it in OPTIMA.items()]
        for count, share, said in ((0, 0, "0 of all, in the mean"), (64, 1 / 4, "0.250 of all, in the mean; a late or missing "
                                                                     "function counts as 1")):
            late = [f"{name},late" for name in list(OPTIMA)[:count // 2]]
            text = "\n".join(["name,nodes", *late, *best[count:], ""])
            self.assertEqual(strict(scored(text, "--json")[1])[0]["mean_better_share"], share)
            self.assertIn(f"\nbetter orders: {said}\n", scored(text)[1])

    def test_a_function_has_that_of_its_median_run(self):
        [found] = strict(scored("name,nodes\nhwb8,44\nhwb8,55\nhwb8,late\nz4ml,26\n", "--json", "hidden weighted bit")[1])
        self.assertEqual([(it["nodes"], it["better_share"]) for it in found["results"]], [(55, 31 / 140)])
        self.assertEqual(found["mean_better_share"], (12 + 31 / 140) / 13)

    def test_shares_as_they_are_said(self):
        shares = (None, 0, 0.0, 1, 0.99999, 0.012, 1 / 3, 1.234e-12)
        self.assertEqual([benchmarks.brief(it) for it in shares], ["", "0", "0", "1", "1.00", "0.0120", "0.333", "1.23e-12"])


class Rounding(unittest.TestCase):
    def test_half_goes_up(self):
        self.assertEqual([benchmarks.fixed(it, 3) for it in (2.3125, 1.0005, 2, 74 / 32)], ["2.313", "1.000", "2.000", "2.313"])
        self.assertEqual((benchmarks.percent(1, 8), benchmarks.percent(0, 3), benchmarks.percent(1, 200)), ("13 %", "0 %", "1 %"))


class Runs(unittest.TestCase):
    TEXT = ("name,nodes,seconds,start\nhwb8,50,0.25,file\nhwb8,44,1e-3,file\nlife,26,,file\nhwb8,late,10,file\nhwb8,60,,file\n"
            "hwb8,52,,file\nhwb8,44,,3\nlife,30,,random\nhwb8,50,,4\nhwb8,44,,5\n")

    def test_each_run_is_a_line(self):
        status, out, _ = scored(self.TEXT, "--csv")
        rows = list(csv.DictReader(io.StringIO(out)))
        self.assertEqual((status, len(rows)), (0, 10))
        self.assertEqual(rows[0], {
            "name": "hwb8", "start": "file", "order": "", "nodes": "50", "optimum": "44", "ratio": "1.1364",
            "better_share": str(27 / 560), "claimed": "1", "seconds": "0.25"})
        self.assertEqual([row["start"] for row in rows[6:]], ["3", "random", "4", "5"])
        self.assertEqual([rows[3][it] for it in ("nodes", "ratio", "better_share", "claimed", "seconds")],
                         ["late", "", "1.0", "0", "10.0"])

    def test_a_second_score_has_the_same_figures(self):
        for form in ("--json", "--name=one"):
            self.assertEqual(scored(scored(self.TEXT, "--csv")[1], form), scored(self.TEXT, form))

    def test_shares_and_worst_ratios_are_of_runs(self):
        found = json.loads(scored(self.TEXT, "--json")[1])
        self.assertEqual([(it["runs_met_share"], it["runs"]) for it in found], [((1 / 5 + 1) / 2, 6), (2 / 20, 20)])
        self.assertEqual([it["worst"]["ratio"] for it in found], [60 / 44, 30 / 26])
        self.assertEqual(found[0]["results"][0]["nodes"], 52)
        self.assertIn("\nruns that met it: 60 %; 1 run late\n", scored(self.TEXT)[1])

    def test_a_line_again_and_again_makes_no_function_count_more(self):
        def share(*rows):
            out = scored("name,nodes,start\n" + "".join(f"{row}\n" for row in rows), "--json")[1]
            return json.loads(out)[0]["runs_met_share"]

        for start in ("file", "random"):
            self.assertEqual(share("hwb8,55,file", *[f"mux2,3,{start}"] * 2000), 0.5 if start == "file" else 0)
        self.assertEqual(share("hwb8,55,random", *["hwb8,44,random"] * 19, *["mux2,4,random"] * 10), (19 / 20) / 2)
        others = [f"hwb8,55,{number}" for number in range(2, 11)]
        self.assertEqual((share("hwb8,44,1", *others), share(*["hwb8,44,1"] * 991, *others)), (0.1, 0.1))
        self.assertEqual((share("hwb8,44,1"), share(*["hwb8,44,1"] * 7)), (0.1, 0.1))

    def test_seconds_are_of_what_ended(self):
        [found] = json.loads(scored("name,nodes,seconds\nhwb8,44,1\nhwb8,45,2\nlife,late,9\nlife,26,9\nmux2,3,\n", "--json")[1])
        self.assertEqual((found["seconds"], found["late_functions"]), (1.5, ["life"]))
        lines = benchmarks.standings(benchmarks.league(), OPTIMA, benchmarks.FILE)["CUDD", "GENETIC"].lines
        genetic = next(it for it in found["league"] if it["method"] == "GENETIC")
        self.assertAlmostEqual(genetic["seconds"], sum(line.seconds for line in lines if 2 * (line.runs - line.late) > line.runs))


class Commands(unittest.TestCase):
    def test_a_picture_where_matplotlib_is_there(self):
        with tempfile.TemporaryDirectory() as folder:
            path = f"{folder}/it.svg"
            text = "name,nodes,start\nhwb8,55,file\nhwb8,44,3\n"
            status, out, errors = scored(text, "--picture", path, "--name", r"_$\no$")
            self.assertEqual((status, errors == "", os.path.exists(path)), (0, _picture.is_there(), _picture.is_there()))
            with unittest.mock.patch.object(_picture, "is_there", lambda: False):
                status, same, errors = scored(text, "--picture", path, "--name", r"_$\no$")
            self.assertEqual((status, same), (0, out))
            self.assertEqual(errors, "minorder-score: no picture: matplotlib isn't here (Debian's python3-matplotlib)\n")

    def test_a_name_that_another_method_has_or_that_is_no_line(self):
        for name in ("CUDD SIFT", " cudd  sift ", "\uff23\uff35\uff24\uff24 SIFT", "minorder sifting"):
            status, out, errors = scored("name,nodes\nhwb8,44\n", "--name", name)
            self.assertEqual((status, out), (2, ""))
            self.assertIn("is a method of the league; yours has a name of its own", errors)
        for name in ("", " ", "a\x1b[2J", "a\u202eb", "a\0"):
            status, out, errors = scored("name,nodes\nhwb8,44\n", f"--name={name}")
            self.assertEqual((status, out), (2, ""))
            self.assertIn("a name is a line of printable text", errors)
        status, out, errors = scored("name,nodes\nhwb8,44\n", "--name", "a\nplace: 1 of 26")
        self.assertTrue(out.startswith("method: a place: 1 of 26\nstart: "), out)
        self.assertEqual(scored("name,nodes\nhwb8,44\n", "--name", "<b>SIFT</b>")[0], 0)
        status, out, errors = scored("name,nodes\nhwb8,44\n", file="cudd SIFT.csv")
        self.assertEqual((status, out.splitlines()[0], errors), (0, "method: cudd SIFT 2", ""))

    def test_a_score_is_no_result(self):
        score_itself = scored("name,nodes\nhwb8,44\n", "--json")[1]
        said = "entry 1: a score, and no result; minorder-score RESULTS --csv writes results, which another score reads\n"
        self.assertEqual(scored(score_itself), (3, "", f"minorder-score: {said}"))

    def test_statuses(self):
        self.assertEqual(scored("name,nodes\nhwb8,43\n")[0], 3)
        self.assertEqual(scored("name,nodes\nhwb8,44\n", "--json", "--csv")[0], 2)
        self.assertEqual(scored("name,nodes\nhwb8,44\n", "--picture", "it.txt")[0], 2)
        with contextlib.redirect_stderr(io.StringIO()) as errors, tempfile.NamedTemporaryFile(suffix=".svg") as file:
            self.assertEqual(score.main([file.name, "--picture", file.name]), 2)
            self.assertEqual(errors.getvalue(), f"minorder-score: {file.name}: it is one of the files that are read\n")
            self.assertEqual(score.main(["/there/is/none.csv"]), 5)


class Counted(unittest.TestCase):
    def test_orders_are_counted_by_the_library(self):
        chosen = [OPTIMA[name] for name in ("hwb8", "add4i", "life", "aes", "sn74181")]
        first = [[it.name, " ".join(map(str, it.first_optimal_order))] for it in chosen]
        sifted = [[it.name, " ".join(benchmarks.entry(it.name).inputs[x] for x in it.sifted_order)] for it in chosen]
        for rows, nodes in ((first, [it.optimum for it in chosen]), (sifted, [it.sifted_nodes for it in chosen])):
            status, out, errors = scored("\n".join(["name,order", *map(",".join, rows), ""]), "--json")
            self.assertEqual((status, errors), (0, ""))
            [found] = json.loads(out)
            self.assertEqual({it["name"]: it["nodes"] for it in found["results"]}, dict(zip([it.name for it in chosen], nodes)))
            self.assertEqual(found["claimed"], 0)

    def test_an_own_size_that_differs_is_named(self):
        name, order = "hwb6", (1, 3, 2, 5, 0, 4)
        tables = benchmarks.entry(name).tables()

        def size(order, *more):
            return sum(levels([*tables, *more], order))

        others = [table ^ (1 << 64) - 1 for table in tables]
        turned, inverse = [5 - x for x in order], [order.index(x) for x in range(6)]
        wanted = {
            size(order): None, size(order) + 1: "it counts a constant", size(order) + 2: "it counts both constants",
            size(order, *others) // 2: "it counts complement edges",
            size(order, *others) // 2 + 1: "it counts complement edges and a constant",
            size(order[::-1]): "the order from the bottom", size(turned): "the inputs turned, the last one as 0",
            size(inverse): "the inputs' levels in place of an order", 9999: _differences.UNKNOWN,
        }
        self.assertEqual(len(wanted), 9)
        rows = "".join(f"{name},{' '.join(map(str, order))},{own}\n" for own in wanted)
        status, out, errors = scored(f"name,order,nodes\n{rows}", "--json")
        self.assertEqual((status, errors), (0, ""))
        said = {it["own_nodes"]: it["why"] for it in json.loads(out)[0]["other_own_sizes"]}
        self.assertEqual({own: why for own, why in said.items() if why != wanted[own]}, {})
        self.assertNotIn(size(order), said)
        status, out, _ = scored(f"name,order,nodes\n{rows}")
        self.assertIn(f"\nother own size, 1 run, as hwb6, 9999 in place of {size(order)}: {_differences.UNKNOWN}\n", out)

    def test_a_second_score_counts_the_orders_again(self):
        text = "name,order\nmux2,2 0 1\nhwb8,x1 x2 x3 x4 x5 x6 x8 x7\n"
        first = scored(text, "--csv")[1]
        self.assertIn("\nhwb8,file,0 1 2 3 4 5 7 6,55,44,1.2500,0.22142857142857142,0,\n", first)
        self.assertEqual(scored(first), scored(text))


if __name__ == "__main__":
    unittest.main()
