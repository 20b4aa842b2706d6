"""The page as a user sees it: what is pressed and typed is found by its label."""
import base64
import json
import re
import tempfile
import unittest
from pathlib import Path

from selenium import webdriver
from selenium.webdriver.chrome.options import Options
from selenium.webdriver.chrome.service import Service
from selenium.webdriver.common.action_chains import ActionChains
from selenium.webdriver.common.keys import Keys
from selenium.webdriver.support.ui import Select, WebDriverWait

ROOT = Path(__file__).resolve().parents[3]
RIGS = [("A", 3), ("B", 5), ("D", 5), ("B", 20), ("D", 64)]
TABS = ["Why", "Wanted picture", "Cabin", "Modules", "Book", "Delays", "Sheet", "What is proved"]


def chromium(downloads):
    options = Options()
    options.binary_location = "/usr/bin/chromium"
    for argument in ["--headless=new", "--no-sandbox", "--disable-gpu", "--force-device-scale-factor=1"]:
        options.add_argument(argument)
    options.set_capability("goog:loggingPrefs", {"browser": "ALL", "performance": "ALL"})
    driver = webdriver.Chrome(service=Service("/usr/bin/chromedriver"), options=options)
    driver.execute_cdp_cmd("Browser.setDownloadBehavior", {"behavior": "allow", "downloadPath": downloads})
    driver.set_script_timeout(60)
    return driver


class PageTest(unittest.TestCase):
    PAGE = None

    @classmethod
    def setUpClass(cls):
        cls.downloads = tempfile.mkdtemp(prefix="page-")
        cls.driver = chromium(cls.downloads)

    @classmethod
    def tearDownClass(cls):
        cls.driver.quit()
        for file in Path(cls.downloads).iterdir():
            file.unlink()
        Path(cls.downloads).rmdir()

    def setUp(self):
        for file in Path(self.downloads).iterdir():
            file.unlink()
        self.size(1280, 900)
        self.fresh()

    def tearDown(self):
        errors = [entry for entry in self.driver.get_log("browser") if entry["level"] in ("SEVERE", "WARNING")]
        self.assertEqual(errors, [])
        sent = [json.loads(entry["message"])["message"] for entry in self.driver.get_log("performance")]
        urls = [event["params"]["request"]["url"] for event in sent if event["method"] == "Network.requestWillBeSent"]
        self.assertEqual([url for url in urls if not url.startswith(("file:", "data:", "blob:"))], [])
        self.assertEqual([url for url in urls if url.startswith("file:") and url != self.PAGE.as_uri()], [])
        self.assertEqual(self.js("return performance.getEntriesByType('resource').length"), 0)

    # ---- what a user sees and does

    def js(self, script, *arguments):
        return self.driver.execute_script(script, *arguments)

    def size(self, width, height, scheme="light"):
        metrics = {"width": width, "height": height, "deviceScaleFactor": 1, "mobile": False}
        self.driver.execute_cdp_cmd("Emulation.setDeviceMetricsOverride", metrics)
        media = {"media": "", "features": [{"name": "prefers-color-scheme", "value": scheme}]}
        self.driver.execute_cdp_cmd("Emulation.setEmulatedMedia", media)

    def load(self):
        self.driver.get(self.PAGE.as_uri())
        WebDriverWait(self.driver, 20).until(lambda _: self.js("return document.body.dataset.ready === 'yes'"))

    def first_visit(self):
        """The page in a browser that has kept nothing of it."""
        self.load()
        self.js("app.draft.write = () => {}; localStorage.clear(); app.store.markBookSaved(); app.store.markWordKept(); localStorage.clear()")
        self.load()

    def fresh(self):
        """An empty page, past the choice of the first visit."""
        self.first_visit()
        self.js("app.examples.leave()")

    def settle(self):
        """Waits until the panel below has been drawn too."""
        self.driver.execute_async_script("const done = arguments[0]; setTimeout(() => { app.updatePanel(); setTimeout(done); })")

    def labelled(self, text, within=None):
        """The control that has this label, whatever gives it: its text, a label around it, or aria-label."""
        found = self.js(
            """const [text, within] = arguments;
            const nameOf = e => e.getAttribute('aria-label') || document.getElementById(e.getAttribute('aria-labelledby'))?.textContent || e.labels?.[0]?.querySelector('span')?.textContent || e.labels?.[0]?.textContent || e.textContent;
            return [...(within ?? document).querySelectorAll('button, input, select, textarea, summary')]
                .filter(e => e.offsetParent !== null && nameOf(e).trim() === text);""", text, within)
        self.assertEqual(len(found), 1, f"'{text}' is the label of {len(found)} controls")
        return found[0]

    def focus(self):
        return self.js("const e = document.activeElement; return e.id || e.getAttribute('aria-label') || e.tagName")

    def labelled_or_none(self, text):
        return self.js("return [...document.querySelectorAll('label')].find(e => e.offsetParent !== null && e.textContent.trim() === arguments[0]) ?? null", text)

    def press(self, text, within=None):
        self.labelled(text, within).click()
        self.settle()

    def write(self, text, content):
        field = self.labelled(text)
        field.send_keys(Keys.CONTROL, "a")
        field.send_keys(content if content else Keys.DELETE)
        if field.tag_name == "input":
            field.send_keys(Keys.TAB)
        self.settle()

    def rig(self, kind, rank):
        Select(self.labelled("Rig")).select_by_value(kind)
        self.settle()
        self.write("Rank", str(rank))

    def word(self, text):
        field = self.labelled("Word")
        self.js("arguments[0].value = arguments[1]; arguments[0].dispatchEvent(new Event('input', {bubbles: true}))", field, text)
        self.settle()

    def text(self, id):
        return self.js("return document.getElementById(arguments[0]).textContent", id)

    def panel(self):
        return self.js("return document.querySelector('.panel:not([hidden])')")

    def screens(self):
        return self.js("return [...document.querySelectorAll('#screens li')].map(e => Number(e.dataset.entry))")

    def letters(self):
        return self.js("return app.state.word")

    def library(self, call, *arguments):
        return self.js("const [call, list] = arguments; return app.library[call](...list)", call, list(arguments))

    def long_word(self, rank, length):
        return " ".join(str(1 + at * 7919 % rank) for at in range(length))

    def drag(self, start, end, x=0, y=0):
        self.js("arguments[0].scrollIntoView({block: 'center'})", start)
        actions = ActionChains(self.driver, duration=60).move_to_element(start).click_and_hold()
        actions.move_by_offset(8, 4).move_to_element_with_offset(end, x, y).release().perform()
        self.settle()

    def drop(self, *files):
        """Drops files, each a name and bytes, on the page."""
        self.driver.execute_async_script(
            """const [files, done] = arguments;
            const data = new DataTransfer();
            for (const [name, text] of files) data.items.add(new File([Uint8Array.from(atob(text), c => c.charCodeAt(0))], name));
            document.querySelector('main').dispatchEvent(new DragEvent('drop', {dataTransfer: data, bubbles: true, cancelable: true}));
            setTimeout(done, 80);""", [[name, base64.b64encode(content).decode()] for name, content in files])
        self.settle()

    def saved(self, name):
        """The bytes of a file that was given. Chromium numbers its name as long as it holds an earlier one of that name."""
        numbered = re.compile(rf"{re.escape(Path(name).stem)}( \(\d+\))?{re.escape(Path(name).suffix)}")

        def whole(_):
            files = list(Path(self.downloads).iterdir())
            return not any(file.suffix == ".crdownload" for file in files) and [file for file in files if numbered.fullmatch(file.name)]

        file = WebDriverWait(self.driver, 30).until(whole)[0]
        content = file.read_bytes()
        file.unlink()
        return content

    def keys(self, key):
        ActionChains(self.driver).key_down(Keys.CONTROL).send_keys(key).key_up(Keys.CONTROL).perform()
        self.settle()

    def asks_before_leaving(self):
        """In a browser that keeps nothing; elsewhere the draft is kept, and nothing is asked."""
        leave = "const e = new Event('beforeunload', {cancelable: true}); dispatchEvent(e); return e.defaultPrevented"
        self.assertFalse(self.js(leave))
        return self.js(f"const set = Storage.prototype.setItem; Storage.prototype.setItem = () => {{ throw new Error('full'); }}; try {{ {leave} }} finally {{ Storage.prototype.setItem = set; }}")


def shot(driver, file):
    driver.save_screenshot(str(file))
    quantized(file)


def quantized(file):
    """A picture with few colours, which makes it small, where the library for that is there. Those of thin lines, which are rare, stay."""
    try:
        from PIL import Image
    except ImportError:
        return
    Image.open(file).convert("RGB").quantize(128, method=Image.Quantize.MAXCOVERAGE, dither=Image.Dither.NONE).save(file, optimize=True)
