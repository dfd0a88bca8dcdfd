#!/usr/bin/env python3
"""check_page.py [PAGE]     opens docs/optima.html, or PAGE, in a headless Chromium: its tables, filters, views and curves, a file
                         of results, the page without scripts, a narrow screen

Wants Debian's chromium, chromium-driver and python3-selenium (so /usr/bin/python3), and is left out without them."""
import itertools
import re
import shutil
import sys
import unittest

import test_page
from check_keys import Address, Keyboard  # noqa: F401
from check_results import Results  # noqa: F401
from minorder import benchmarks
from minorder.benchmarks import fixed
from page_browser import FILE, OPTIMA, RANDOM, SIFT, Opened, sizes

ORDERS = benchmarks.all_orders()


class Tables(Opened):
    def test_the_tables_sort_by_each_column(self):
        for column, key in ((5, lambda it: it.inputs), (6, lambda it: it.outputs), (9, lambda it: it.optimum),
                            (10, lambda it: it.sifted_nodes / it.optimum), (11, lambda it: it.mean / it.optimum),
                            (12, lambda it: it.most / it.optimum), (13, lambda it: ORDERS[it.name].up_to[0])):
            head = self.one(f"#functions-table thead th:nth-child({column})")
            for turned in (False, True):
                head.send_keys("\n")
                found = [key(OPTIMA[name]) for name in self.names()]
                self.assertEqual(found, sorted(found, reverse=turned))
        self.one("#functions-table thead th:first-child").click()
        self.assertEqual(self.names(), sorted(OPTIMA, key=lambda name: re.sub(r"\d+", lambda it: it[0].zfill(5), name)))
        self.one("#league-table thead th:nth-child(2)").click()
        means = [float(text) for text in self.texts("#league-table tbody td:nth-child(2)")]
        self.assertEqual(means, sorted(means))
        self.one("#families-table thead th:nth-child(2)").click()
        counts = [int(text) for text in self.texts("#families-table tbody td:nth-child(2)")]
        self.assertEqual((counts, sum(counts)), (sorted(counts), len(OPTIMA)))

    def test_the_functions_are_filtered(self):
        words = self.one("#words")
        words.send_keys("z4ml")
        self.assertEqual(self.names(), ["addc3"])
        words.clear()
        words.send_keys("BRYANT middle")
        self.assertEqual(set(self.names()), {it.name for it in OPTIMA.values() if it.family == "multiplier, middle bit"})
        words.clear()
        self.one("#family option:nth-child(2)").click()
        self.assertEqual(set(self.names()), {it.name for it in OPTIMA.values() if it.family == "hidden weighted bit"})
        self.one("button[type=reset]").click()
        self.until(lambda: len(self.names()) == len(OPTIMA))
        self.one("#family option:nth-child(2)").click()
        self.assertLess(len(self.names()), len(OPTIMA))
        self.one("button[type=reset]").click()
        self.until(lambda: len(self.names()) == len(OPTIMA))
        self.one("#inputs-least").send_keys("16")
        self.one("#outputs-most").send_keys("1")
        wanted = {it.name for it in OPTIMA.values() if it.inputs == 16 and it.outputs == 1}
        self.assertEqual(set(self.names()), wanted)
        self.assertEqual(self.one("#shown").text, f"{len(wanted)} of {len(OPTIMA)} functions")

    def test_the_first_press_after_typing_opens_a_function(self):
        fields = (("hwb", "#words"), ("add", "#words"), ("4", "#inputs-least"), ("9", "#inputs-most"), ("5", "#outputs-least"))
        for typed, into in fields * 2:
            self.open()
            self.one(into).send_keys(typed)
            link = self.all("#functions-table tbody a")[1]
            name = link.text
            self.press(link)
            self.until(lambda: self.texts("#function h2") == [name])

    def test_the_sizes_of_another_method_are_shown(self):
        next(it for it in self.all("#method option") if it.text == "CUDD SIFT").click()
        sizes = {line.name: line.counted_nodes for line in FILE[SIFT].lines}
        rows = self.driver.execute_script("""
            return [...document.querySelectorAll('#functions-table tbody tr')]
                .map(it => [it.dataset.name, [it.cells[7].textContent, it.cells[9].textContent]])""")
        texts = {name: [str(nodes), fixed(nodes / OPTIMA[name].optimum, 3)] for name, nodes in sizes.items() if nodes}
        self.assertEqual(dict(rows), {**dict.fromkeys(sizes, ["", ""]), **texts})
        self.assertEqual(self.driver.execute_script("return (2.3125).toFixed(3)"), fixed(2.3125, 3))
        self.one("#functions-table thead th:nth-child(8)").click()
        found = [sizes[name] for name in self.names() if sizes[name] is not None]
        self.assertEqual(found, sorted(found))

    def test_nothing_is_loaded_and_the_figures_are_the_leagues(self):
        self.assertEqual(self.driver.execute_script("return performance.getEntriesByType('resource').length"), 0)
        for league, start in ((FILE, "file"), (RANDOM, "randomStarts")):
            found = self.driver.execute_script("""
                return page.methods.map(it => [it.package, it.name, standing(it, arguments[0])])
                    .map(([of, name, it]) => [of, name, [it.mean, it.meanOfEnded, it.worst.ratio, it.runsMet], it.worst.name,
                        [it.whole, it.ended, it.late, it.missing, it.met]]);""", start)
            self.assertEqual(len(found), len(league))
            for package, name, ratios, worst, counts in found:
                its = league[package, name]
                for ratio, wanted in zip(ratios, (its.mean, its.mean_of_ended, its.worst_ratio, its.runs_met)):
                    self.assertAlmostEqual(ratio, wanted, 12)
                wanted = [its.whole, len(its.ended), its.late, its.whole - len(its.lines), its.met]
                self.assertEqual((worst, counts), (its.worst.name, wanted))


class Views(Opened):
    def test_a_function_has_its_view_by_its_link(self):
        for link in ("#hwb12", "#HWB5", "#z4ml", "#Z4ML"):
            self.open(link)
            row = OPTIMA[benchmarks.entry(link[1:].lower()).name]
            self.assertEqual(self.one("#function h2").text, row.name)
            self.assertFalse(self.one("#overview").is_displayed())
            text = self.one("#function").text
            order = " ".join(map(str, row.first_optimal_order))
            commands = (f"minorder-functions . {row.name}", f"# valid {row.optimum}", f"@misc{{minorder-{row.name},")
            for said in (*commands, row.pla_sha256, row.certificate_sha256, order, row.what):
                self.assertIn(said, text)
            self.assertEqual(len(self.all("#function .diagram circle")), row.optimum if row.optimum <= 40 else 0)
            self.assertEqual(len(self.all("#function table tbody tr")), len(FILE))
            shown = len(self.all("#levels rect")) / row.inputs
            self.assertEqual(shown, 3 if row.file_order_nodes <= 4 * row.sifted_nodes else 2)

    def test_a_link_to_nothing_says_so(self):
        for link, said in (("#hwb99", "named hwb99. Here are hwb4, hwb5, "), ("#%", "can't be read"), ("#words", "named words."),
                           ("#a%20b", "named a b.")):
            self.open(link)
            self.assertTrue(self.one("#overview").is_displayed())
            self.assertIn(said, self.one("#said").text)
            self.one("nav a[href='#families']").click()
            self.until(lambda: not self.all("#said"))
        for link in ("", "#families", "#curves"):
            self.open(link)
            self.assertTrue(self.one("#overview").is_displayed())
            self.assertEqual(self.all("#said"), [])

    def test_one_walks_from_view_to_view_and_back(self):
        self.one("#functions-table tbody a[href='#hwb5']").click()
        self.until(lambda: self.texts("#function h2") == ["hwb5"])
        self.all("#function .walk a")[2].click()
        self.until(lambda: self.texts("#function h2") == ["hwb6"])
        self.assertEqual(self.driver.title, "hwb6: 21 nodes")
        self.all("#function .walk a")[0].click()
        self.until(lambda: self.one("#overview").is_displayed())
        self.driver.back()
        self.until(lambda: self.texts("#function h2") == ["hwb6"])

    def test_curves_are_switched(self):
        self.assertEqual(len(self.all("#curves-chart .curve")), len(benchmarks.CURVES))
        self.one("#curves-switches input[value='CUDD EXACT']").click()
        self.one("#curves-switches input[value='CUDD SIFT']").click()
        self.one("#curves-switches input[value='BuDDy RANDOM']").click()
        titles = [it.get_attribute("textContent") for it in self.all("#curves-chart .curve title")]
        self.assertEqual("CUDD SIFT" in titles, SIFT not in benchmarks.CURVES)
        self.assertIn("BuDDy RANDOM", titles)
        before = self.one("#curves-chart .curve").get_attribute("d")
        self.one("input[name=start][value=randomStarts]").click()
        self.assertNotEqual(before, self.one("#curves-chart .curve").get_attribute("d"))
        self.one("#growth-switches input[value=less]").click()
        self.assertEqual(len(self.all("#growth-chart .curve")), 4)


class Curves(Opened):
    def turn_all_on(self):
        self.driver.execute_script("""
            for (const it of document.querySelectorAll(".switches input")) if (!it.checked) it.click();""")

    def test_curves_are_told_apart(self):
        self.turn_all_on()
        for chart, count in (("#curves-chart", len(FILE)), ("#growth-chart", len(self.all("#growth-switches input")))):
            found = self.driver.execute_script("""
                return [...document.querySelectorAll(`${arguments[0]} .curve`)]
                    .map(it => [it.style.stroke, it.getAttribute("stroke-dasharray")]);""", chart)
            self.assertEqual((len(found), len(set(map(tuple, found)))), (count, count))
        places = self.driver.execute_script("return [...Array(40).keys()].map(styleOf).map(it => it.colour + it.dash)")
        self.assertEqual(len(set(places)), 40)

    def test_curves_are_named_at_their_ends(self):
        for all_of_them in (False, True):
            if all_of_them:
                self.turn_all_on()
            for chart in ("#curves-chart", "#growth-chart"):
                lines, names, boxes, edge = self.driver.execute_script("""
                    const chart = document.querySelector(arguments[0]);
                    const each = (selector) => [...chart.querySelectorAll(selector)];
                    const boxes = each(".name").map(it => it.getBoundingClientRect());
                    return [each(".curve title").map(it => it.textContent), each(".name").map(it => it.textContent),
                        boxes.map(it => [it.left, it.right, (it.top + it.bottom) / 2]),
                        chart.firstChild.getBoundingClientRect().right];""", chart)
                self.assertEqual(sorted(lines), sorted(names))
                self.assertLessEqual(max(box[1] for box in boxes), edge + 1)
                for one, other in itertools.combinations(boxes, 2):
                    self.assertTrue(one[0] >= other[1] or other[0] >= one[1] or abs(one[2] - other[2]) > 9, (one, other))

    def test_all_that_is_drawn_is_seen_on_both_grounds(self):
        self.turn_all_on()
        for ground in ("light", "dark"):
            features = [{"name": "prefers-color-scheme", "value": ground}]
            self.driver.execute_cdp_cmd("Emulation.setEmulatedMedia", {"features": features})
            under, *drawn = self.driver.execute_script("""
                const styles = (selector) => [...document.querySelectorAll(selector)].map(it => getComputedStyle(it));
                const lines = styles(".curve, .leader, .swatch line").map(it => it.stroke);
                return [styles("body")[0].backgroundColor, ...lines, ...styles(".chart circle").map(it => it.fill)];""")
            self.assertGreater(len(drawn), 100)
            for colour in set(drawn):
                numbers = [tuple(map(int, re.findall(r"\d+", it)[:3])) for it in (colour, under)]
                self.assertGreaterEqual(test_page.contrast(*numbers), 3, (ground, colour))
        self.driver.execute_cdp_cmd("Emulation.setEmulatedMedia", {"features": []})

    def test_marks_on_the_curve_of_all_orders_are_walked_and_say_their_share(self):
        self.open("#hwb8")
        marks = [it.get_attribute("aria-label") for it in self.all("#orders .mark")]
        self.assertRegex(marks[0], r"^44 nodes: the fewest, .*CUDD EXACT.* with no more: 0\.119 %\.$")
        self.assertTrue(any(re.match(r"56\.93 nodes: the mean\. .* 39\.6 %\.$", it) for it in marks), marks)
        nodes = {line.counted_nodes for its in (FILE, RANDOM) for it in its.values() for line in it.of(["hwb8"]).lines} - {None}
        self.assertEqual({float(it.split(" ")[0]) for it in marks}, nodes | {44, 56.93, OPTIMA["hwb8"].file_order_nodes})
        self.assertEqual([it.get_attribute("textContent") for it in self.all("#marks li")], marks)
        self.one("#function .walk a:last-child").send_keys("")
        for keys, place in (("tab", 0), ("arrow_right", 1), ("end", -1), ("arrow_right", -1), ("arrow_left", -2), ("home", 0)):
            self.press_keys(keys)
            focused = self.driver.switch_to.active_element.get_attribute("aria-label")
            self.assertEqual((focused, self.one("#mark").text), (marks[place], marks[place]))
        self.drop_in("mine.csv", "name,nodes,start\nhwb8,50,file\n")
        self.assertIn("50 nodes: mine claimed. ", "".join(it.get_attribute("aria-label") for it in self.all("#orders .mark")))
        self.driver.execute_script("localStorage.clear()")

    def test_each_function_has_its_curve(self):
        self.open("#hwb8")
        for ground in ("light", "dark"):
            features = [{"name": "prefers-color-scheme", "value": ground}]
            self.driver.execute_cdp_cmd("Emulation.setEmulatedMedia", {"features": features})
            faults, under, drawn = self.driver.execute_script("""
                const style = (it) => getComputedStyle(it), each = (selector) => [...document.querySelectorAll(selector)];
                const drawn = new Set(), faults = page.functions.filter((it) => {
                    show(it);
                    for (const {fill, stroke} of each(".mark circle").map(style)) drawn.add(`${fill} ${stroke}`);
                    const [path] = each("#orders .curve"), known = new Set(it.within.map(([size]) => size));
                    const isFlat = known.size === 1, labels = each("#orders .name").map(it => it.textContent).join();
                    return isFlat !== !path || path && (path.getAttribute("d").includes("NaN") || !labels.includes("the fewest"))
                        || each(".mark").some(mark => mark.getAttribute("aria-label").includes("at least"));
                });
                return [faults.map(it => it.name), style(document.body).backgroundColor, [...drawn]];""")
            self.assertEqual(faults, [])
            for pair in drawn:
                colours = [tuple(map(int, it.split(", "))) for it in re.findall(r"rgb\(([^)]*)\)", f"{pair} {under}")]
                self.assertGreaterEqual(max(test_page.contrast(it, colours[-1]) for it in colours[:-1]), 3, (ground, pair))
        self.driver.execute_cdp_cmd("Emulation.setEmulatedMedia", {"features": []})

    def test_no_bar_covers_a_word(self):
        self.open("#rotate8")
        covered = self.driver.execute_script("""
            const meet = (a, b) => a.left < b.right && b.left < a.right && a.top < b.bottom && b.top < a.bottom;
            return page.functions.filter((it) => {
                show(it);
                const [bars, words] = ["rect", "text"].map(tag => [...document.querySelectorAll(`#levels ${tag}`)]
                    .map(it => it.getBoundingClientRect()));
                return bars.some(bar => bar.height && words.some(word => meet(bar, word)));
            }).map(it => it.name);""")
        self.assertEqual(covered, [])


class Narrow(Opened):
    width = 320

    def test_nothing_is_wider_than_the_screen(self):
        for link in ("", "#hwb16", "#sn74181", "#sn74151", "#less4"):
            self.open(link)
            self.assertLessEqual(self.driver.execute_script("return document.documentElement.scrollWidth"), self.width)

    def test_the_file_is_chosen_inside_its_box(self):
        for _ in range(2):
            within, edge = self.driver.execute_script("""
                const box = document.getElementById("drop"), style = getComputedStyle(box);
                return [document.getElementById("file").getBoundingClientRect().right,
                    box.getBoundingClientRect().right - parseFloat(style.paddingRight) - parseFloat(style.borderRightWidth)];""")
            self.assertLessEqual(within, edge)
            self.drop_in("a-long-name-of-a-method-of-mine.csv", sizes("hwb8,55"))


class Plain(Opened):
    scripts = False

    def test_the_plain_tables(self):
        self.assertEqual(len(self.all("#functions-table tbody tr")), len(OPTIMA))
        self.assertEqual(len(self.all("#league-table tbody tr")), len(FILE))
        self.assertFalse(self.one("#filters").is_displayed())
        self.assertFalse(self.one("#yours").is_displayed())
        row = next(it for it in self.all("#functions-table tbody tr") if it.text.startswith("hwb12 "))
        order = " ".join(map(str, OPTIMA["hwb12"].first_optimal_order))
        self.assertTrue(row.text.endswith(f"137 1.161 1.80 2.45 192 {order}"), row.text)


def main():
    try:
        import selenium  # noqa: F401
    except ImportError:
        return "python3-selenium"
    absent = [program for program in ("chromium", "chromedriver") if not shutil.which(program)]
    if absent:
        return " and ".join(absent)
    unittest.main(argv=[sys.argv[0]])


if __name__ == "__main__":
    print(f"left out: the page in a browser, for want of {main()}")
