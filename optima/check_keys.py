"""The page by the keyboard alone, and by addresses that say what it shows."""
from page_browser import OPTIMA, Opened, sizes

TABLES = ("league", "functions", "families")


class Keyboard(Opened):
    def focused(self):
        """The element that has the focus."""
        return self.driver.switch_to.active_element

    def focus(self, selector):
        self.driver.execute_script("document.querySelector(arguments[0]).focus()", selector)

    def tab_back(self):
        from selenium.webdriver.common.action_chains import ActionChains
        from selenium.webdriver.common.keys import Keys
        ActionChains(self.driver).key_down(Keys.SHIFT).send_keys(Keys.TAB).key_up(Keys.SHIFT).perform()

    def test_each_table_is_passed_by_one_jump(self):
        for name, part in zip(TABLES, ("functions", "families", "yours")):
            self.focus(f"#{name} .skip")
            self.assertEqual(self.focused().text, f"Past the {name}")
            self.press_keys("enter")
            self.until(lambda: self.driver.current_url.endswith(f"#{part}"))
            self.press_keys("tab")
            inside = f"return document.getElementById('{part}').contains(document.activeElement)"
            inside = self.driver.execute_script(inside)
            self.assertTrue(inside, part)

    def test_the_rows_are_one_stop(self):
        self.focus("#functions .skip")
        self.press_keys("tab")
        self.assertEqual(self.focused().get_attribute("class"), "scroll tall")
        heads = len([it for it in self.all("#functions-table thead th") if it.is_displayed()])
        for _ in range(heads + 1):
            self.press_keys("tab")
        self.assertEqual(self.focused().text, self.names()[0])
        self.press_keys("tab")
        self.assertEqual(self.focused().text, "Past the families")
        self.tab_back()
        self.assertEqual(self.focused().text, self.names()[0])

    def test_arrows_walk_in_the_rows(self):
        names = self.names()
        self.focus("#functions-table tbody a")
        self.until(lambda: self.all(".scroll.tall + .hint")[0].is_displayed())
        for key, name in (("arrow_down", names[1]), ("arrow_down", names[2]), ("arrow_up", names[1]), ("end", names[-1]),
                          ("arrow_down", names[-1]), ("home", names[0]), ("arrow_up", names[0]), ("arrow_down", names[1])):
            self.press_keys(key)
            self.assertEqual(self.focused().text, name)
            place = self.driver.execute_script("""
                const it = document.activeElement.getBoundingClientRect();
                return document.elementFromPoint(it.left + 3, it.top + 3) === document.activeElement;""")
            self.assertTrue(place, name)
        self.press_keys("enter")
        self.until(lambda: self.texts("#function h2") == [names[1]])
        self.assertEqual(self.focused().text, names[1])
        self.driver.back()
        self.until(lambda: self.one("#overview").is_displayed())
        self.assertEqual((self.focused().text, self.focused().tag_name), (names[1], "a"))
        self.one("#words").send_keys("hwb")
        stops = [it.text for it in self.all("#functions-table tbody a") if it.get_attribute("tabindex") == "0"]
        self.assertEqual(stops, ["hwb4"])

    def test_heads_sort_by_blank_and_return(self):
        for name, column, key in (("league", 2, float), ("functions", 5, int), ("families", 2, int)):
            head = f"#{name}-table thead th:nth-child({column})"
            self.focus(head)
            for pressed, turn in ((" ", "ascending"), (" ", "descending"), ("enter", "ascending"), ("enter", "descending")):
                self.press_keys(pressed)
                self.assertEqual(self.one(head).get_attribute("aria-sort"), turn)
                self.assertEqual(self.focused(), self.one(head))
                found = list(map(key, self.texts(f"#{name}-table tbody td:nth-child({column})")))
                self.assertEqual(found, sorted(found, reverse=turn == "descending"))

    def test_tables_mark_their_sort_and_have_heads(self):
        for name, column in zip(TABLES, ("Mean ratio, random orders", "Name", "Family")):
            marked = self.all(f"#{name}-table thead th[aria-sort]")
            self.assertEqual([(it.text, it.get_attribute("aria-sort")) for it in marked], [(column, "ascending")])
        self.drop_in("mine.csv", sizes("hwb8,55"))
        for link in ("", "#hwb8"):
            self.open(link)
            for tags in self.driver.execute_script("""
                    return [...document.querySelectorAll('table')].flatMap(it => [...it.rows]).map(row =>
                        [row.parentNode.tagName, ...[...row.cells].map(it => it.tagName + (it.scope || ""))]);"""):
                others = {"THcol"} if tags[0] == "THEAD" else {"TD"}
                self.assertEqual((tags[1], set(tags[2:])), ("THcol" if tags[0] == "THEAD" else "THrow", others))
        self.driver.execute_script("localStorage.clear()")


class Address(Opened):
    def shown(self):
        """All that is filtered, sorted and drawn."""
        return self.driver.execute_script("""
            const each = (selector, what) => [...document.querySelectorAll(selector)].map(what);
            const rows = ["league", "functions", "families"].map(name => each(`#${name}-table tbody tr`, it => it.textContent));
            return [...rows, each("thead th[aria-sort]", it => it.dataset.key + it.getAttribute("aria-sort")),
                each("#filters :is(input, select), [name=start]:checked", it => it.value),
                each("#curves-chart .curve title, #shown", it => it.textContent)];""")

    def address(self):
        return self.driver.current_url.partition(".html")[2]

    def test_an_address_shows_the_same_again(self):
        first = self.shown()
        for link, does in (
                ("#functions", lambda: self.one("#words").send_keys("bits")),
                ("#functions", lambda: self.one("#inputs-least").send_keys("6")),
                ("#functions", lambda: self.one("#outputs-most").send_keys("8")),
                ("#functions", lambda: self.one("#family option:nth-child(3)").click()),
                ("#functions", lambda: self.one("#method option:nth-child(4)").click()),
                ("#functions", lambda: self.press(self.one("#functions-table th:nth-child(9)"))),
                ("#functions", lambda: self.press(self.one("#functions-table th:nth-child(9)"))),
                ("#league", lambda: self.press(self.one("#league-table th:nth-child(2)"))),
                ("#families", lambda: self.press(self.one("#families-table th:nth-child(5)"))),
                ("#curves", lambda: self.press(self.one("[name=start][value=randomStarts]"))),
                ("#curves", lambda: self.press(self.one("#curves-switches input[value='CUDD EXACT']")))):
            before = self.address()
            does()
            self.until(lambda: self.address() not in (before, ""))
            self.assertTrue(self.address().startswith(f"{link}?"), self.address())
            shown, address = self.shown(), self.address()
            self.open(address)
            self.assertEqual((self.shown(), self.address(), self.all("#said")), (shown, address, []))
        self.open()
        self.assertEqual(self.shown(), first)

    def test_what_the_page_begins_with_is_not_in_the_address(self):
        self.open("#functions?words=hwb&sort=-optimum")
        self.one("button[type=reset]").click()
        self.until(lambda: self.address() == "#functions?sort=-optimum")
        self.press(self.one("#functions-table th:first-child"))
        self.until(lambda: self.address() == "#functions")

    def test_one_comes_back_to_what_was_shown(self):
        self.open("#functions?words=hwb&sort=-optimum")
        names = [f"hwb{n}" for n in range(16, 3, -1)]
        self.assertEqual(self.names(), names)
        self.press(self.one("a[href='#hwb8']"))
        self.until(lambda: self.texts("#function h2") == ["hwb8"])
        self.assertEqual(self.texts("#function .walk a"), ["All functions", "← hwb9", "hwb7 →"])
        self.one("#function .walk a").click()
        self.until(lambda: self.address() == "#functions?words=hwb&sort=-optimum")
        self.assertEqual(self.names(), names)
        self.one("nav a[href='#league']").click()
        self.until(lambda: self.address() == "#league?words=hwb&sort=-optimum")
        self.driver.back()
        self.driver.back()
        self.driver.back()
        self.until(lambda: self.address() == "#functions?words=hwb&sort=-optimum")
        self.assertEqual(self.names(), names)

    def test_an_address_that_asks_for_what_is_not_here(self):
        for text, unknown in (("method=mine", "mine"), ("sort=ratio&sort=-size", "-size"), ("family=nix&words=a", "nix"),
                              ("inputs=a-b", "a-b"), ("start=best", "best"), ("size=7", "size"),
                              ("curves=CUDD+SIFT&curves=CUDD+SIFTS", "CUDD SIFTS"),
                              ("league=x", "x"), ("families=-CUDD+X", "-CUDD X")):
            self.open(f"#functions?{text}")
            self.assertEqual(self.texts("#said"), [f"The address asks for what isn't here: {unknown}."])
            self.assertTrue(set(self.names()) <= set(OPTIMA) and self.names())
