"""docs/GUIDE.md, gone through as it stands: what it says to press and type is pressed and typed, and what it names has to be seen.

The guide's own words are the steps, so that it cannot say what the page does not do:

    press **LABEL**                 the button, tab or box of that label
    on **CARD** press **LABEL**     the one on the card of that name, or below the heading
    **LABEL** type `TEXT`           the field; **LABEL** | `TEXT` in a table too
    **LABEL** choose `TEXT`         the list
    | **LABEL** | **LABEL** |       a table of fields and lists, filled in row by row
    on a phone open **LABEL**       the same on a narrow screen, with the fields of the names below it
    drop `FILE` and `FILE`          files that were saved before, dropped on the page
    open the page again             another visit
    “TEXT”                          is seen on the page
    **LABEL**                       otherwise: is seen on the page
    ![..](pictures/guide-..png)     a picture, taken with --screenshots

Beside the pictures, guide_pictures.txt keeps what can be read in each, so that one of another page than today's is noticed.
"""
import base64
import difflib
import hashlib
import re
from pathlib import Path

from selenium.webdriver.support.ui import Select

from selenium.webdriver.support.ui import WebDriverWait

from in_browser.page import ROOT, PageTest, quantized
from in_browser.screenshots import Screenshots

GUIDE = ROOT / "docs/GUIDE.md"
PICTURES = ROOT / "docs/pictures"
READ = Path(__file__).resolve().parents[1] / "guide_pictures.txt"
WIDTH, HEIGHT, MOST_HIGH, MOST_BYTES = 1280, 900, 1000, 100_000
BOLD, CODE = r"\*\*(?P<{}>[^*]+)\*\*", r"`(?P<{}>[^`]+)`"
STEP = re.compile("|".join([
    r"!\[[^\]]*\]\(pictures/(?P<picture>guide-[^)]+\.png)\)",
    rf"\bon {BOLD.format('card')} press {BOLD.format('on_card')}",
    rf"\bpress {BOLD.format('press')}",
    rf"{BOLD.format('field')} (?:type|choose|\|) {CODE.format('text')}",
    rf"\bon a phone open {BOLD.format('phone')}",
    rf"\bdrop {CODE.format('one')} and {CODE.format('two')}",
    r"\bopen the page (?P<again>again)\b",
    r"“(?P<said>[^”]+)”",
    BOLD.format("seen")]), re.I)

# The controls that are seen with a label: their text, the label around or beside them, or what stands in an empty field.
FIND = """
const [text, card] = arguments;
const plain = string => string.replace(/\\s+/g, ' ').trim();
const seen = e => e.offsetParent !== null;
const names = e => [e.textContent, e.labels?.[0]?.querySelector('span')?.textContent, e.labels?.[0]?.textContent,
    document.getElementById(e.getAttribute('aria-labelledby'))?.textContent, e.placeholder].filter(Boolean).map(plain);
const below = [];
const heading = [...document.querySelectorAll('h3')].find(e => seen(e) && plain(e.textContent) === card);
for (let e = heading?.nextElementSibling; e && e.tagName !== 'H3'; e = e.nextElementSibling) below.push(e);
const cards = [...document.querySelectorAll('li')].filter(e => seen(e) && plain(e.firstElementChild?.textContent ?? '') === card);
const within = card === null ? [document] : [...cards, ...below];
return within.flatMap(part => [...part.querySelectorAll('button, input, select, textarea, summary')]).filter(e => seen(e) && names(e).includes(text));
"""

SEEN = "return [...document.querySelectorAll('body *')].some(e => e.offsetParent !== null && e.textContent.replace(/\\s+/g, ' ').trim() === arguments[0])"

# What can be read in a part of the page, fields included.
TEXT = """
const lines = [];
const seen = e => e.getBoundingClientRect().width > 0 && getComputedStyle(e).visibility !== 'hidden';
const walk = node => {
    if (node.nodeType === 3) return void lines.push(node.data);
    if (node.nodeType !== 1 || !seen(node) || node.matches('.skip, script, style, #word-marks, title')) return;
    if (node.matches('select')) lines.push(`[${node.selectedOptions[0]?.textContent ?? ''}]`);
    else if (node.matches('[type=checkbox], [type=radio]')) lines.push(node.checked ? '[x]' : '[ ]');
    else if (node.matches('input, textarea')) lines.push(`[${node.value || node.placeholder}]`);
    else for (const child of node.childNodes) walk(child);
    if (getComputedStyle(node).display !== 'inline') lines.push('\\n');
};
for (const part of arguments[0]) walk(part);
return lines.join(' ').split('\\n').map(line => line.replace(/\\s+/g, ' ').trim()).filter(Boolean);
"""


def steps():
    """The steps of the guide, each with its line."""
    heads = []
    for number, line in enumerate(GUIDE.read_text(encoding="utf-8").split("## What the refusals mean")[0].splitlines(), 1):
        if re.fullmatch(r"\|( \*\*[^*]+\*\* \|){2,}", line):
            heads = re.findall(r"\*\*([^*]+)\*\*", line)
        elif heads and line.startswith("|"):
            yield from ((number, {"field": field, "text": text}) for field, text in zip(heads, re.findall(r"`([^`]+)`", line)))
        else:
            heads = []
            for match in STEP.finditer(line):
                yield number, {key: value for key, value in match.groupdict().items() if value is not None}


def stored():
    """What can be read in the stored pictures: by each name its hash and its lines."""
    parts = re.split(r"^(guide-\S+) SHA-256 ([0-9a-f]{64})\n", READ.read_text(encoding="utf-8") if READ.exists() else "", flags=re.M)
    return {name: (hash, text.splitlines()) for name, hash, text in zip(parts[1::3], parts[2::3], parts[3::3])}


class Guide(PageTest):
    def setUp(self):
        super().setUp()
        self.size(WIDTH, HEIGHT)
        self.driver.execute_cdp_cmd("Emulation.setScrollbarsHidden", {"hidden": True})
        self.first_visit()
        self.files, self.shown, self.below = {}, {}, False

    def found(self, label, card=None):
        found = self.js(FIND, label, card)
        self.assertEqual(len(found), 1, f"'{label}' is the label of {len(found)} controls{f' on {card}' if card else ''}")
        self.below = self.js("return arguments[0].closest('.panels') !== null", found[0])
        return found[0]

    def parts(self):
        """The parts of the page that a picture shows: the panel if that was used last, otherwise the top."""
        selector = ".panels" if self.below else "header, #notice, #examples, #picture, aside"
        return self.js("return [...document.querySelectorAll(arguments[0])].filter(e => e.offsetParent !== null)", selector)

    def read(self):
        """What can be read there, without what differs from day to day and from library to library."""
        text = "\n".join(self.js(TEXT, self.parts()))
        for pattern, instead in [(r"[0-9a-f]{64}", "HASH"), (r"\d+ [A-Z][a-z]+ 20\d\d( at \d\d:\d\d)?", "DATE"), (r"Winnathey \d+\.\d+\.\d+", "Winnathey VERSION")]:
            text = re.sub(pattern, instead, text)
        return text.splitlines()

    def take(self, file):
        left, top, right, bottom = self.js(
            """scrollTo(0, 0);
            document.activeElement.blur();
            const [parts, most] = arguments, boxes = list => list.map(e => e.getBoundingClientRect()).filter(box => box.height > 0);
            const outer = boxes(parts), top = Math.min(...outer.map(box => box.top));
            // What is too long ends with the last part of it that fits; what is beside the picture is as high as the page.
            const inner = boxes(parts.flatMap(e => [...e.querySelectorAll(':scope > *, :scope > .panel > *, :scope > .panel > * > *, :scope > .panel > .sheet > * > *')])).map(box => box.bottom).filter(end => end - top < most);
            return [Math.min(...outer.map(box => box.left)), top, Math.max(...outer.map(box => box.right)), Math.max(...inner)];""", self.parts(), MOST_HIGH)
        left, top, right, bottom = max(left - 8, 0), max(top - 8, 0), min(right + 8, WIDTH), bottom + 8
        clip = {"x": left, "y": top, "width": right - left, "height": bottom - top, "scale": 1}
        picture = self.driver.execute_cdp_cmd("Page.captureScreenshot", {"format": "png", "clip": clip, "captureBeyondViewport": True})
        file.write_bytes(base64.b64decode(picture["data"]))
        quantized(file)

    def picture(self, name):
        self.driver.execute_cdp_cmd("Input.dispatchMouseEvent", {"type": "mouseMoved", "x": 1, "y": 1})
        self.settle()
        self.shown[name] = self.read()
        if Screenshots.FOLDER is not None:
            self.take(PICTURES / name)

    def keep_saved(self):
        """Files that a press has saved are there to be dropped later."""
        given = re.match(r"(.*) w(?:as|ere) given to the browser", self.text("notice"))
        for name in given[1].split(" and ") if given else []:
            if name not in self.files:
                self.files[name] = self.saved(name)

    def step(self, parts):
        if "picture" in parts:
            return self.picture(parts["picture"])
        if "said" in parts:
            return self.assertIn(parts["said"], self.js("return document.body.innerText.replace(/\\s+/g, ' ')"))
        if "seen" in parts:
            return self.assertTrue(self.js(SEEN, parts["seen"]), f"'{parts['seen']}' is no label on the page")
        if "phone" in parts:
            return self.on_a_phone(parts["phone"])
        if "again" in parts:
            return self.load()
        if "one" in parts:
            return self.drop(*((name, self.files[name]) for name in (parts["one"], parts["two"])))
        if "text" in parts:
            self.fill(self.found(parts["field"]), parts["text"])
        else:
            self.found(parts.get("press") or parts["on_card"], parts.get("card")).click()
        self.settle()
        self.keep_saved()

    def on_a_phone(self, label):
        self.size(360, HEIGHT)
        # The page is drawn anew for another width with one of the next frames.
        self.driver.execute_async_script("const done = arguments[0]; setTimeout(() => requestAnimationFrame(() => requestAnimationFrame(done)), 300)")
        self.found(label).click()
        WebDriverWait(self.driver, 10).until(lambda _: len(self.js(FIND, "source 1", None)) == 1)
        for field in ["source 1", "screen 5"]:
            self.assertNotEqual(self.js("return arguments[0].value", self.found(field)), "")
        self.found(label).click()
        self.size(WIDTH, HEIGHT)
        self.settle()

    def fill(self, field, text):
        if field.tag_name == "select":
            return Select(field).select_by_visible_text(text)
        field.clear()
        field.send_keys(text)
        self.js("arguments[0].dispatchEvent(new Event('change', {bubbles: true})); arguments[0].blur()", field)
        self.settle()
        self.assertEqual(self.js("return arguments[0].value", field), text)
        self.assertNotEqual(field.get_attribute("aria-invalid"), "true", "it is refused")

    def test_the_guide_is_what_the_page_does(self):
        self.js("window.print = () => { window.printed = true; }")
        for line, parts in steps():
            try:
                self.step(parts)
            except AssertionError as error:
                self.fail(f"GUIDE.md, line {line}, {parts}: {error}")
        self.assertGreaterEqual(len(self.shown), 5)
        if Screenshots.FOLDER is not None:
            self.store()
        self.compare()

    def store(self):
        hash = lambda name: hashlib.sha256((PICTURES / name).read_bytes()).hexdigest()
        READ.write_text("".join(f"{name} SHA-256 {hash(name)}\n" + "".join(f"{line}\n" for line in lines) for name, lines in self.shown.items()), encoding="utf-8")

    def compare(self):
        """The stored pictures are of the page as it is: page/run --screenshots takes them anew."""
        old = stored()
        self.assertEqual(sorted(path.name for path in PICTURES.glob("guide-*.png")), sorted(self.shown))
        for name, lines in self.shown.items():
            content = (PICTURES / name).read_bytes()
            self.assertLess(len(content), MOST_BYTES, name)
            hash, kept = old.get(name, ("", []))
            self.assertEqual(hashlib.sha256(content).hexdigest(), hash, f"{name} and {READ.name} were not stored together")
            if kept != lines:
                differences = "\n".join(difflib.unified_diff(kept, lines, "in the stored picture", "on the page", lineterm="", n=1))
                self.fail(f"{name} is older than the page: look at what page/run --screenshots takes, and store it\n{differences}")

    def test_every_label_in_bold_is_a_step(self):
        """No bold text is left out, and what the guide quotes of refusals is what the page says."""
        text = GUIDE.read_text(encoding="utf-8")
        walked, refusals = text.split("## What the refusals mean")
        inside = {value for _, parts in steps() for key, value in parts.items() if key in ("card", "on_card", "press", "field", "phone", "seen")}
        self.assertEqual(inside, set(re.findall(r"\*\*([^*]+)\*\*", walked)))
        page = self.PAGE.read_text(encoding="utf-8")
        quoted = re.findall(r"“([^”]+)”", refusals)
        self.assertGreater(len(quoted), 5)
        for sentence in quoted:
            self.assertIn(sentence, page)
