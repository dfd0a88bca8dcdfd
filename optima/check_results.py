"""Files of results in the page, and what it says of them."""
import tempfile

from page_browser import FILE, OPTIMA, SIFT, Opened, sizes
from minorder import _score_texts, benchmarks
from minorder._counting import counted
from minorder._results import BadResults, read_results
from minorder._scores import scores_of
from minorder.benchmarks import fixed


class Results(Opened):
    def setUp(self):
        super().setUp()
        self.driver.execute_script("localStorage.clear()")
        self.open()

    def give(self, name, text):
        with tempfile.TemporaryDirectory() as folder:
            with open(f"{folder}/{name}", "w") as file:
                file.write(text)
            self.driver.execute_script("unsay()")
            self.one("#file").send_keys(f"{folder}/{name}")
            return self.said()

    def test_a_file_stands_as_a_method(self):
        lines = [f"{line.name},{line.counted_nodes or 'late'}" for line in FILE[SIFT].lines]
        said = self.give("mine.csv", "\n".join(["name,nodes", *lines, ""]))
        its = FILE[SIFT]
        self.assertIn(f"mean ratio {fixed(its.mean, 3)} on all {len(OPTIMA)} functions", said)
        rows = [[it.text for it in row.find_elements("css selector", "th, td")] for row in self.all("#league-table tbody tr")]
        rows = {row[0].split("\n")[0]: row for row in rows}
        self.assertEqual(rows["mine"][1:6], rows["CUDD SIFT"][1:6])
        self.assertEqual(self.all("#families-table thead th")[3].text, "mine (claimed)")
        self.assertEqual(len(self.all("#curves-chart .curve.yours")), 1)
        self.assertEqual(self.one("#functions-table th[data-key=nodes]").text, "mine (claimed)")
        starts = "".join(f"hwb8,45,{start}\n" for start in range(1, 10))
        self.give("mine.csv", f'\ufeffname,nodes,start\n"hwb8",50,file\nhwb8,44,\nz4ml,26,file\n{starts}')
        self.assertIn("on 2 functions", self.one("#said").text)
        ended = {"mine": f"{fixed(its.mean_of_ended, 3)} of {len(its.ended)}", "mine 2": "1.000 of 2"}
        self.assertEqual(self.own_rows(3), ended)
        self.assertIn("of what ended 1.023 on 1 function;", self.one("#said").text)
        self.assertIn("; 1 run late.", self.one("#said").text)

    def own_rows(self, column):
        """Of the reader's methods in the league the cells of a column, by the methods' names."""
        rows = "#league-table tbody tr.yours"
        return dict(zip(self.texts(f"{rows} th .name"), self.texts(f"{rows} td:nth-child({column})")))

    def names_everywhere(self):
        """The names of the reader's methods, whose sizes are claims: in the league, families, curves, list and choice."""
        curves = [it.get_attribute("textContent") for it in self.all(".curve.yours title")]
        listed = [it.get_attribute("value") for it in self.all("#own input")]
        chosen = [it.text for it in self.all("#method option")][len(FILE):]
        marked = [self.texts("#families-table th.yours"), curves, chosen]
        for place in marked:
            self.assertEqual([name for name in place if not name.endswith(" (claimed)")], [])
        places = [list(self.own_rows(2)), *([name[:-len(" (claimed)")] for name in place] for place in marked), listed]
        return [sorted(place) for place in places]

    def test_methods_are_told_apart_named_and_taken_off(self):
        self.drop_in("one.csv", sizes("hwb8,55"), "CUDD SIFT.csv", sizes("hwb8,44"), "one.csv", sizes("hwb8,50"))
        self.assertEqual(self.names_everywhere(), [["CUDD SIFT 2", "one", "one 2"]] * 5)
        dashes = self.driver.execute_script(
            "return [...document.querySelectorAll('.curve.yours')].map(it => it.getAttribute('stroke-dasharray'))")
        self.assertEqual(len(set(dashes)), 3)
        self.assertIn("stands here already", self.drop_in("again.csv", "name,nodes,start\nhwb8,50,file\n"))
        for wish, name in (("a, b", "a, b"), ("one 2", "one 2 2"), ("  ", "one 2 2"), ("BuDDy  SIFT", "BuDDy SIFT 2")):
            self.driver.execute_script("document.querySelector('#own input').select()")
            self.one("#own input").send_keys(wish, "\n")
            self.assertEqual(self.names_everywhere(), [sorted([name, "CUDD SIFT 2", "one 2"])] * 5)
            self.assertEqual(self.one("#own button").get_attribute("aria-label"), f"Take off {name}")
        self.press(self.one("#families-table th[data-key='CUDD SIFT 2']"))
        self.press(self.all("#own button")[1])
        self.assertEqual(self.texts("#families-table th[aria-sort]"), ["Family"])
        self.assertEqual(self.names_everywhere(), [["BuDDy SIFT 2", "one 2"]] * 5)
        self.assertIn("CUDD SIFT 2 is taken off", self.one("#said").text)
        self.open("#hwb8")
        self.assertEqual(self.texts("#function tr.yours td:nth-child(2)"), ["50 claimed", "55 claimed"])

    def test_the_browser_keeps_them(self):
        starts = "name,nodes,start\nhwb8,44,3\nhwb8,44,file\n"
        self.drop_in("one.csv", sizes("hwb8,55", "life,late", "hwb8,50"), "two.csv", starts)
        rows = [self.own_rows(column) for column in range(2, 11)]
        self.driver.refresh()
        self.assertEqual(self.names_everywhere(), [["one", "two"]] * 5)
        self.assertEqual([self.own_rows(column) for column in range(2, 11)], rows)
        self.press(self.one("#own button"))
        # another window of the same browser takes off and adds what this one does
        first = self.driver.current_window_handle
        self.driver.switch_to.new_window("window")
        self.open()
        self.assertEqual(self.names_everywhere(), [["two"]] * 5)
        self.drop_in("three.csv", sizes("hwb8,44"))
        self.driver.close()
        self.driver.switch_to.window(first)
        self.until(lambda: self.names_everywhere() == [["three", "two"]] * 5)
        for _ in range(2):
            self.press(self.one("#own button"))
        self.driver.refresh()
        self.assertEqual(self.names_everywhere(), [[]] * 5)

    def test_a_large_file(self):
        said = self.drop_in("large.csv", sizes(*["hwb8,55", "hwb8,44"] * 200_000))
        self.assertIn("and by 50 % of the runs.", said)
        self.driver.execute_script(
            "takeFiles([{name: 'folder', size: 4096, arrayBuffer: async () => { throw new Error('no file'); }}])")
        self.until(lambda: self.one("#said").text == "folder is refused:\nit can't be read")
        self.driver.execute_script("takeFiles([{name: 'huge.csv', size: 3e7}])")
        self.until(lambda: self.one("#said").text == "huge.csv is refused:\nit is larger than 20 MB")
        self.driver.execute_script("""
            unsay();
            const letters = [...'name,nodes\\nhwb8,55\\n'].map(it => it.charCodeAt(0));
            takeFiles([new File([Uint16Array.from([0xfeff, ...letters])], 'wide.csv')]);""")
        self.assertEqual(self.said(), "wide.csv is refused:\nit is no text (UTF-8)")

    def test_a_line_again_and_again_makes_no_function_count_more(self):
        others = [f"hwb8,55,{number}" for number in range(2, 11)]
        for many in (1, 991):
            said = self.drop_in(f"{many}.csv", "\n".join(["name,nodes,start", *["hwb8,44,1"] * many, *others]))
            self.assertIn("functions, and by 10 % of the runs.", said)
        self.assertEqual(self.own_rows(10), {"1": "10 %", "991": "10 %"})
        said = self.drop_in("file.csv", sizes("hwb8,55", *["mux2,3"] * 2000))
        self.assertIn("functions, and by 50 % of the runs.", said)

    def test_seconds_are_of_what_ended(self):
        self.drop_in("mine.csv", "name,nodes,seconds\nhwb8,44,1\nhwb8,45,2\nlife,late,9\nlife,26,9\nmux2,3,\n")
        self.assertEqual(self.own_rows(7), {"mine": "1.5"})

    def test_what_a_browser_does_not_keep(self):
        self.driver.execute_script("Object.defineProperty(window, 'localStorage', {get() { throw new Error('denied'); }});")
        self.assertIn("This browser doesn't keep it", self.drop_in("one.csv", sizes("hwb8,55")))
        self.open()
        refused = ["old, which this browser kept, is refused"]
        for text, said in (("[", []), ("7", []), ('[{"name": "old", "text": "name,nodes\\nhwb8,43"}]', refused)):
            self.driver.execute_script("localStorage.setItem(STORE, arguments[0])", text)
            self.driver.refresh()
            self.assertEqual([it.split(":")[0] for it in self.texts("#said")], said)
            self.assertEqual(self.names_everywhere(), [[]] * 5)

    def test_orders_are_counted_here(self):
        starts = {name: list(benchmarks.random_starts(it.inputs)) for name, it in OPTIMA.items()}
        wanted = {
            "best": {(name, "file"): (it.first_optimal_order, it.optimum) for name, it in OPTIMA.items()},
            "sifted": {(name, "file"): (it.sifted_order, it.sifted_nodes) for name, it in OPTIMA.items()},
            "same": {(name, "file"): (range(it.inputs), it.file_order_nodes) for name, it in OPTIMA.items()},
            "random": {(name, number): (order, nodes) for name, it in OPTIMA.items()
                       for (number, order), nodes in zip(starts[name], it.random_order_nodes)},
        }
        for name, its in wanted.items():
            lines = [f"{of},{' '.join(map(str, order))},{start},{nodes}" for (of, start), (order, nodes) in its.items()]
            said = self.drop_in(f"{name}.csv", "\n".join(["name,order,start,nodes", *lines]))
            self.assertTrue(said.startswith(f"{name}, from "), said)
            self.assertNotIn("another own size", said)
        self.assertEqual(self.own_rows(4)["best"], "1.00 (hwb4)")
        self.assertEqual([self.own_rows(column)["sifted"] for column in (2, 5)], [
            fixed(FILE["minorder", "sifting"].mean, 3), f"{FILE['minorder', 'sifting'].met} of {len(OPTIMA)}"])
        self.assertEqual((self.all(".claims"), [it for it in self.texts(".yours") if "claimed" in it]), ([], []))

    def test_what_is_said_of_sizes_is_not_believed_beside_an_order(self):
        orders = "hwb8,0 1 2 3 4 5 7 6,44\nhwb8,x1 x2 x3 x4 x5 x6 x8 x7,43\nlife,late,\n"
        said = self.drop_in("mine.csv", f"name,order,nodes\n{orders}")
        self.assertIn("of what ended 1.250 on 1 function;", said)
        self.assertIn("\nmine, another own size, 2 runs, as hwb8, 44 in place of 55.", said)
        counting = "the lower median of a function's runs counts, and in the runs that met the optimum their share"
        self.assertIn(f"\nmine, with several runs, 1: hwb8: {counting}.", said)
        self.assertEqual(self.all(".claims"), [])
        self.driver.refresh()
        self.assertEqual((list(self.own_rows(2)), self.all(".claims")), (["mine"], []))
        believed = "1 size claimed: nobody counted it"
        said = self.drop_in("claims.csv", "name,nodes,counted\nhwb8,44,1\nlife,late,1\n")
        self.assertTrue(said.startswith(f"claims ({believed}), from the file's order: place "), said)
        for _ in range(2):
            self.assertEqual(self.texts("#league-table tr.yours .claims"), [believed])
            self.assertTrue(self.texts("#own li")[1].endswith("1 of 256 functions from the file's order, 1 only claimed"))
            self.driver.refresh()

    def test_a_browser_that_cannot_count(self):
        self.driver.execute_script("delete window.DecompressionStream")
        said = "mine.csv is refused:\nthis browser can't count orders, for want of DecompressionStream; minorder-score does"
        self.assertEqual(self.drop_in("mine.csv", "name,order\nmux2,2 0 1\n"), said)

    def test_names_that_would_mislead(self):
        names = ["<img src=x onerror=document.title='no'>.csv", "cudd  sift.csv", "\uff23\uff35\uff24\uff24 SIFT.csv",
                 "a\u202eb\x07c.csv"]
        self.drop_in(*(part for i, name in enumerate(names) for part in (name, sizes(f"hwb8,{50 + i}"))))
        wanted = ["<img src=x onerror=document.title='no'>", "cudd sift 2", "\uff23\uff35\uff24\uff24 SIFT 3", "abc"]
        self.assertEqual(self.names_everywhere(), [sorted(wanted)] * 5)
        self.assertEqual((self.all("main img"), self.driver.title), ([], "True optima: the fewest BDD nodes of 256 functions"))

    def test_files_are_dropped(self):
        said = self.drop_in("dropped.csv", sizes("hwb8,55", "life,26"))
        self.assertIn("dropped (2 sizes claimed: nobody counted them), from the file's order: place ", said)
        self.assertIn(" (a late or missing one counts as the worst ratio that the league or the start has there, and none as "
                      "more than that); of what ended 1.118 on 2 functions; 0 late, 254 missing; worst ratio 1.25 (hwb8), of the "
                      "runs that ended; optimum met in 1 of 256 functions, and by 50 % of the runs.", said)
        said = self.drop_in("one.csv", sizes("hwb8,55"), "two.csv", sizes("hwx8,55"), "three.csv", sizes("life,26"))
        for text in ("one (1 size claimed", "two.csv is refused:\nline 2: no function is named hwx8", "three (1 size claimed"):
            self.assertIn(text, said)

    def test_what_is_said_stands_at_the_edge_of_the_window(self):
        for link in ("", "#families", "#yours", "#about", "#hwb8", "#sn74181"):
            self.open(link)
            for line in ("hwb8,44", "hwb8,43"):
                said = self.drop_in("mine.csv", sizes(line))
                self.assertIn("mine.csv is refused" if "43" in line else "mine", said)
                place = self.driver.execute_script("""
                    const box = document.getElementById("said").getBoundingClientRect(), x = box.left + 5, y = box.top + 5;
                    return [box.top, box.bottom, innerHeight, document.elementFromPoint(x, y).id];""")
                self.assertTrue(0 <= place[0] < place[1] <= place[2] and place[3] == "said", place)
            self.one("#message button").click()
            self.assertEqual(self.all("#said"), [])
            self.drop_in("mine.csv", sizes("hwb8,43"))
            self.press_keys("escape")
            self.assertEqual(self.all("#said"), [])

    def test_files_of_other_makes_are_read(self):
        for text in ("\ufeff\r\n\r\nname;nodes\rhwb8;55\rlife;26\r", "name\tnodes\tstart\r\nhwb8\t55\t\r\nlife\t26\tfile",
                     '\ufeff"name", "nodes",note\n"hwb8", 55,"two\r\nlines, a "" and a ;"\n,,\n life,"26"\n'):
            self.assertIn("of what ended 1.118 on 2 functions", self.drop_in("dropped.csv", text))
            self.press(self.one("#own button"))

    def score_says(self, text):
        """Why the score refuses a text; nothing if it takes it."""
        try:
            read_results(text)
            return ""
        except BadResults as error:
            return str(error)

    def test_rows_are_refused_in_the_words_of_the_score(self):
        heads = ("", "\n\n", "hwb5,14\n", ",7\n", "x" * 200_000, "\0\1\x7f\n", "name\nhwb4\n", "\n \nname,size\nhwb4,7\n",
                 "order\n0 1\n", "name;nodes;Name\n", "\x85\nname,nodes\n", "name\xa0,nodes\n", "name,nodes\n\n ,\t\n")
        rows = ("mux2,2,0,1\n", '"hwb4" ,7\n', 'hwb4,7\n"life\n\n"x,26\n', 'hwb4,"7', '\nhwb4,"7""\n\n', ' "hwb4\n', ",7\n")
        for text in (*heads, *(f"name,nodes\n{row}" for row in rows)):
            said = self.score_says(text)
            self.assertNotEqual(said, "")
            self.assertEqual(self.drop_in("other.csv", text), f"other.csv is refused:\n{said}")

    def test_the_score_takes_what_the_page_takes(self):
        blanks = (" ", "\t", "\n", "\x0b", "\x1c", "\x85", "\xa0", "\u2003", "\u3000", "\ufeff")
        cells = (f'"{blank}2 0 1","",file\nmux2,"2{blank}0 1{blank}","{blank}0.5",{start}' for blank in blanks
                 for start in ("file", f'"file{blank}"'))
        notes = ('two\nlines', 'a "" and a ,', "n" * 200_000, "")
        texts = [*(f"name,order,seconds,start\nmux2,{cell}\n" for cell in cells),
                 *(f'name,order,note\nmux2,2 0 1,"{note}"\nmux2,s a b\n' for note in notes),
                 'my "; note,name,nodes\n,hwb4,7\n', '"my; note",name,nodes\n,hwb4,7\n', 'name;"my,\nnote";nodes\nhwb4;;7\n']
        taken = 0
        for number, text in enumerate(texts):
            said, refused = self.drop_in(f"{number}.csv", text), self.score_says(text)
            self.assertEqual("is refused" in said, refused != "", (text, said, refused))
            taken += not refused
        self.assertEqual(taken, 10)

    def texts_of_runs(self):
        """Runs as lines of CSV: all of CUDD's SIFT, the worst ones late, missing, and others."""
        fewest = {name: it.optimum for name, it in OPTIMA.items()}
        nodes = {line.name: line.counted_nodes or OPTIMA[line.name].file_order_nodes for line in FILE[SIFT].lines}
        names = sorted(OPTIMA, key=lambda name: nodes[name] / fewest[name])
        best, worst = names[:147], names[147:]
        small = [name for name in OPTIMA if OPTIMA[name].inputs <= benchmarks.MOST_INPUTS]
        most = {name: OPTIMA[name].file_order_nodes for name in small}
        return {
            "all": [f"{name},{nodes[name]},file,0.1" for name in names],
            "late": [f"{name},{nodes[name]},," for name in best] + [f"{name},LATE,file," for name in worst],
            "missing": [f"{name},{nodes[name]},," for name in best],
            "none": [f"{name},late,," for name in names],
            "several": [f"{name},{most[name] if k > 6 else nodes[name] if k % 3 else 'late'},{k},0.0{k}"
                        for name in small for k in range(1, 11)] + ["hwb13,400,1,", "hwb16,late,random,"],
            "ties": ["life,39,,", "hwb8,44,,", "sn74151,48,file,", "sn74151,32,2,", "sn74151,late,1,"],
        }

    def test_its_figures_are_those_of_the_score(self):
        texts = self.texts_of_runs()
        for name, lines in texts.items():
            runs = counted(read_results("\n".join(["name,nodes,start,seconds", *lines])))
            said = self.drop_in(f"{name}.csv", _score_texts.csv_text(runs))
            for score in scores_of(name, runs):
                its, from_file = score.standing, score.start == benchmarks.FILE
                self.assertIn(f"place {score.place} of 26, by the mean ratio {fixed(its.mean, 3)} on all {its.whole} ", said)
                share = benchmarks.percent(its.runs_met)
                self.assertIn(f"; optimum met in {its.met} of {its.whole} functions, and by {share} of the runs", said)
                if len(its.ended) < its.whole:
                    self.assertIn(f"; {its.late} late, {len(score.missing)} missing", said)
                if 0 < len(its.ended) < its.whole:
                    self.assertIn(f"; of what ended {fixed(its.mean_of_ended, 3)} on {len(its.ended)} function", said)
                if its.ended:
                    claims = f"{score.claimed} sizes? claimed: nobody counted (it|them)"
                    self.assertRegex(said, rf"(?m)^{name} \({claims}\), from ")
                if score.left_out:
                    self.assertIn(f"left out, {len(score.left_out)}: {' '.join(score.left_out)}: ", said)
                row = _score_texts.league_row(name, its)
                # the page has no shares of better orders
                wanted = [row[1], *row[3:6], row[7], row[8]] if from_file else [row[1], row[4].split(" ")[0], row[6]]
                found = [self.own_rows(column)[name] for column in (range(2, 8) if from_file else range(8, 11))]
                self.assertEqual(found, wanted, (name, score.start))
        places = {name: int(self.drop_place(lines)) for name, lines in texts.items() if name in ("all", "late", "missing")}
        self.assertTrue(places["all"] <= places["late"] == places["missing"] <= len(FILE) + 1, places)

    def drop_place(self, lines):
        """The place of results that stand alone."""
        for button in self.all("#own button"):
            self.press(self.one("#own button"))
        return self.drop_in("alone.csv", "\n".join(["name,nodes,start,seconds", *lines])).partition("place ")[2].split(" ")[0]

    def test_what_is_refused(self):
        said = self.give("bad.csv", "name,nodes\nhwb8,43\nhwx8,44\nhwb8,\nhwb8,4x\nparity8,17\nhwb8,65\n")
        for text in ("line 2: hwb8: 43 nodes, and no order has fewer than 44", "line 3: no function is named hwx8",
                     "line 4: hwb8: neither an order nor a number of nodes", "line 5: hwb8: nodes 4x: no number of nodes",
                     "line 6: parity8: 17 nodes, and each order has 15",
                     "line 7: hwb8: 65 nodes, and no order has more than 64"):
            self.assertIn(text, said)
        for text, why in (
                ("name,order\nmux2,2 0 3\n", "line 2: mux2: 3 is no input: they are 0 to 2, or a b s"),
                ("name,order\nmux2,2 0 b\n", "line 2: mux2: 2 and b: an order has numbers or names, not both"),
                ("name,order\nmux2,s a a\nmux2,2 0\n", "mux2: input a stands twice\nline 3: mux2: input 1 is missing"),
                ("name,order\nmux2,+2 0 1\nmux2,02 0 1\n", "mux2: +2 is no input: they are 0 to 2, or a b s\nline 3: mux2: 02"),
                ("name,order,nodes\nmux2,2 0 1,x\n", "line 2: mux2: nodes x: no number of nodes"),
                ("name,order,nodes,claimed\nhwb4,0 1 2 3,7,1\nhwb4,,7,0\nhwb4,,7,2\n", "line 2: hwb4: claimed 1, but it has an "
                 "order, which is counted here\nline 3: hwb4: claimed 0, but a number of nodes without an order is a claim\n"
                 "line 4: hwb4: claimed 2: it is 0 or 1"),
                ("name,nodes,nodes\n", "line 1: the column nodes stands twice"), ('\ufeff[{"name": "hwb4"}]', "it is JSON"),
                ("name,nodes\n\n", "there are no results"), ("name,nodes\n,7\n", "line 2: no name"),
                ("name,nodes\nhwb4,7,8\n", "line 2: more cells than columns"),
                *((f"name,nodes,seconds\nhwb4,7,{it}\n", f"line 2: hwb4: seconds {it}: no number of seconds: decimal, from 0 to "
                   "1000000000") for it in ("soon", "1e308", "NaN", "Infinity", "-0", "-1", "0x1", "1_0", "1000000001")),
                ("name,nodes\n\0\1\x7f,7", "line 2: no function is named ???"),
                ("name,nodes,order\nhwb4,late,0 1 2 3\nhwb4,7,late\n", "both late and 0 1 2 3\nline 3: hwb4: both late and 7"),
                (sizes("x" * 200_000), f"line 2: no function is named {'x' * 40}…"),
                (sizes(*["hwx4,7"] * 200_000), "and 199988 more")):
            self.assertIn(why, self.drop_in("other.csv", text))
        self.assertEqual(self.all(".yours td"), [])
