"""The page in a headless Chromium, by Debian's chromium, chromium-driver and python3-selenium."""
import os
import shutil
import sys
import time
import unittest

HERE = os.path.dirname(os.path.abspath(__file__))
sys.path.insert(0, f"{HERE}/../bindings/python")
import test_page  # noqa: E402
from minorder import benchmarks  # noqa: E402

PAGE = os.path.abspath(sys.argv[1] if len(sys.argv) > 1 else test_page.PAGE)
OPTIMA = benchmarks.optima()
FILE = benchmarks.standings(benchmarks.league(), OPTIMA, benchmarks.FILE)
RANDOM = benchmarks.standings(benchmarks.league(), OPTIMA, benchmarks.RANDOM)
SIFT = ("CUDD", "SIFT")
SECONDS = 20


def sizes(*lines):
    """Sizes alone as a text of CSV."""
    return "\n".join(["name,nodes", *lines, ""])


def browser(width=1400, height=1000, scripts=True):
    from selenium import webdriver
    from selenium.webdriver.chrome.options import Options
    from selenium.webdriver.chrome.service import Service
    options = Options()
    options.binary_location = shutil.which("chromium")
    for word in ("--headless=new", "--no-sandbox", "--disable-gpu", "--disable-dev-shm-usage", f"--window-size={width},{height}"):
        options.add_argument(word)
    options.set_capability("goog:loggingPrefs", {"browser": "ALL"})
    if not scripts:
        options.add_experimental_option("prefs", {"profile.managed_default_content_settings.javascript": 2})
    driver = webdriver.Chrome(service=Service(shutil.which("chromedriver")), options=options)
    metrics = {"width": width, "height": height, "deviceScaleFactor": 1, "mobile": False}
    driver.execute_cdp_cmd("Emulation.setDeviceMetricsOverride", metrics)
    return driver


class Opened(unittest.TestCase):
    """A page that is open, without an error in the browser's console when a test ends."""
    scripts, width = True, 1400

    @classmethod
    def setUpClass(cls):
        cls.driver = browser(cls.width, scripts=cls.scripts)

    @classmethod
    def tearDownClass(cls):
        cls.driver.quit()

    def setUp(self):
        self.open()

    def tearDown(self):
        self.assertEqual(self.driver.get_log("browser"), [])

    def open(self, link=""):
        self.driver.get("about:blank")
        self.driver.get(f"file://{PAGE}{link}")

    def all(self, selector):
        return self.driver.find_elements("css selector", selector)

    def one(self, selector):
        return self.driver.find_element("css selector", selector)

    def texts(self, selector):
        return [it.text for it in self.all(selector)]

    def press(self, it):
        """Presses the mouse's button on an element and then lets it go, as a hand does."""
        from selenium.webdriver.common.action_chains import ActionChains
        self.driver.execute_script("arguments[0].scrollIntoView({block: 'center'})", it)
        ActionChains(self.driver).move_to_element(it).click_and_hold().pause(0.05).release().perform()

    def press_keys(self, *keys):
        """Presses keys, one after the other, in the element that has the focus."""
        from selenium.webdriver.common.action_chains import ActionChains
        from selenium.webdriver.common.keys import Keys
        ActionChains(self.driver).send_keys(*(getattr(Keys, key.upper(), key) for key in keys)).perform()

    def drop_in(self, *names_and_texts):
        """Drops files, by their names and texts, on the window; what the page then says."""
        self.driver.execute_script("""
            const carried = new DataTransfer();
            for (let i = 0; i < arguments.length; i += 2) carried.items.add(new File([arguments[i + 1]], arguments[i]));
            unsay();
            dispatchEvent(new DragEvent("drop", {dataTransfer: carried, bubbles: true, cancelable: true}));""", *names_and_texts)
        return self.said()

    def said(self):
        """What the page says when all is counted."""
        said = []

        def is_all():
            said[:] = self.driver.execute_script("return [...document.querySelectorAll('#said')].map(it => it.textContent)")
            return said != [] and not said[0].startswith("Counting:")

        self.until(is_all)
        return said[0]

    def names(self):
        """The functions in the table, from the top."""
        rows = "[...document.querySelectorAll('#functions-table tbody tr')]"
        return self.driver.execute_script(f"return {rows}.map(it => it.dataset.name)")

    def until(self, what):
        end = time.monotonic() + SECONDS
        while not what():
            self.assertLess(time.monotonic(), end)
            time.sleep(0.05)
