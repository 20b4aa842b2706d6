"""How the page feels: the keyboard, touch, widths, contrast and labels."""
import time

from selenium.webdriver.common.action_chains import ActionChains
from selenium.webdriver.common.by import By
from selenium.webdriver.common.keys import Keys

from in_browser.page import ROOT, RIGS, TABS, PageTest


class Feel(PageTest):
    def test_any_order_of_presses_is_survived(self):
        """Presses and types at random, the same in each run; after each, the picture shows the library's window."""
        self.js("HTMLAnchorElement.prototype.click = () => {}; print = () => {}; window.showOpenFilePicker = undefined; for (const field of document.querySelectorAll('[type=file]')) field.click = () => {}")
        self.assertEqual(self.driver.execute_async_script(RANDOM_USER, 40, 400), [])

    def test_no_horizontal_scroll_from_320_px_to_a_wall(self):
        for width in [320, 360, 800, 1280, 3840]:
            self.size(width, 800)
            for kind, rank in RIGS:
                self.rig(kind, rank)
                self.word(self.long_word(rank, 40))
                for tab in TABS:
                    self.press(tab)
                    wide = self.js("return document.documentElement.scrollWidth")
                    self.assertLessEqual(wide, width, f"{kind}{rank}, {tab}")

    def test_no_name_is_too_long_for_the_page(self):
        for control in ["name of source 1", "name of screen 1"]:
            self.write(control, "W" * 80)
        self.assertEqual(self.text("notice"), "")
        self.write("name of screen 1", "W" * 81)
        self.assertIn("at most 80 characters", self.text("notice"))
        self.assertEqual(self.labelled("name of screen 1").get_attribute("value"), "W" * 80)
        self.press("Sheet")
        self.write("Title", "W" * 80)
        self.write("Remarks", "x" * 30 + " y" * 150)
        self.assertIn("x" * 30 + " y" * 150, self.text("sheet"))
        for width in [360, 640, 1024, 1280]:
            self.size(width, 800)
            for tab in TABS:
                self.press(tab)
                self.assertLessEqual(self.js("return document.documentElement.scrollWidth"), width, tab)

    def test_the_focus_is_never_dropped(self):
        self.word("4 4 2 5 3 5 1 2")
        for label, id in [("Use it", "take"), ("Clear", "clear"), ("Undo", "undo"), ("Redo", "redo")]:
            button = self.labelled(label)
            button.send_keys(Keys.ENTER)
            self.settle()
            while label in ("Undo", "Redo") and button.get_attribute("aria-disabled") != "true":
                button.send_keys(Keys.ENTER)
            self.assertEqual((self.focus(), button.get_attribute("aria-disabled")), (id, "true"))
            before = self.letters()
            button.send_keys(Keys.ENTER)
            self.assertEqual((self.letters(), self.focus()), (before, id))
            if label == "Clear":
                self.keys("z")
        self.assertFalse(self.labelled("Undo").get_attribute("disabled") and self.focus() == "undo")
        self.word("3")
        self.js("document.querySelector('.chip').focus()")
        ActionChains(self.driver).send_keys(Keys.DELETE).perform()
        self.assertEqual((self.letters(), self.focus()), ([], "add"))
        self.word("3")
        self.driver.find_element(By.CSS_SELECTOR, ".chip").click()
        self.labelled("remove the chosen step").send_keys(Keys.ENTER)
        self.assertEqual((self.letters(), self.focus()), ([], "remove"))

    def test_tabs_by_the_keyboard(self):
        self.press("Modules")
        for key, tab in [(Keys.END, "tab-proved"), (Keys.ARROW_RIGHT, "tab-why"), (Keys.ARROW_LEFT, "tab-proved"), (Keys.HOME, "tab-why"), (Keys.ARROW_RIGHT, "tab-wanted")]:
            ActionChains(self.driver).send_keys(key).perform()
            self.assertEqual((self.focus(), self.js("return document.querySelector('[role=tab][aria-selected=true]').id")), (tab, tab))

    def test_the_chosen_tab_is_seen_in_forced_colours(self):
        features = [{"name": "forced-colors", "value": "active"}]
        self.driver.execute_cdp_cmd("Emulation.setEmulatedMedia", {"media": "", "features": features})
        self.press("Modules")
        wide = self.js("return [...document.querySelectorAll('[role=tab]')].map(e => [e.textContent, parseFloat(getComputedStyle(e).borderBottomWidth)])")
        self.assertEqual([text for text, width in wide if width > 0], ["Modules"])

    def test_wrong_numbers_are_tied_to_their_field(self):
        for label, wrong in [("Rank", "3"), ("Add step", "9")]:
            field = self.labelled(label)
            field.send_keys(Keys.CONTROL, "a")
            field.send_keys(wrong, Keys.ENTER)
            about = self.js("return document.getElementById(arguments[0].getAttribute('aria-describedby')).textContent", field)
            self.assertEqual((field.get_attribute("aria-invalid"), about != ""), ("true", True))

    def test_targets_are_large_enough_for_a_finger_and_apart(self):
        """At least 24 px each way; a box or a choice counts with its label. No two steps to add touch."""
        for width in [360, 768, 1280]:
            self.size(width, 900)
            for kind, rank in [("B", 8), ("D", 5), ("D", 64)]:
                self.rig(kind, rank)
                self.word(self.long_word(rank, 60))
                for tab in TABS:
                    self.press(tab)
                    small, near = self.js(
                        """const seen = [...document.querySelectorAll('button, input, select, textarea, summary, .token')].filter(e => e.offsetParent !== null && e.id !== 'skip');
                        const box = e => (e.matches('[type=checkbox], [type=radio]') ? e.closest('label') : e).getBoundingClientRect();
                        const small = seen.filter(e => box(e).width < 24 || box(e).height < 24).map(e => e.outerHTML.slice(0, 90));
                        const gaps = [...document.querySelectorAll('.gap')].map(e => e.getBoundingClientRect());
                        return [small, gaps.slice(1).filter((b, at) => b.top - gaps[at].bottom < 1).length]""")
                    self.assertEqual((small, near), ([], 0), f"{kind}{rank}, {tab}, {width} px")

    def test_eight_steps_are_seen_at_every_width(self):
        """640 px is a screen of 1280 px at 200 %."""
        self.press("Why")
        self.word("4 4 2 5 3 5 1 2")
        for width in [480, 521, 640, 720, 721, 768, 841, 1000, 1001, 1024, 1181, 1280]:
            self.size(width, 800)
            self.settle()
            self.assertEqual(self.js("return document.querySelectorAll('.chip').length"), 8, width)

    def test_every_screen_tells_its_source_at_every_width(self):
        for kind, rank in RIGS:
            for width in [360, 640, 1024]:
                self.size(width, 800)
                self.rig(kind, rank)
                self.word(self.long_word(rank, 40))
                cut = self.js(
                    """const range = document.createRange();
                    return [...document.querySelectorAll('#screens li')].filter(e => {
                        const text = e.querySelector('.source');
                        range.setStart(text.firstChild, 0);
                        range.setEnd(text.firstChild, String(Math.abs(e.dataset.entry)).length);
                        const [number, box] = [range.getBoundingClientRect(), text.getBoundingClientRect()];
                        return number.width === 0 || number.right > box.right + 1 || number.right > innerWidth;
                    }).length""")
                self.assertEqual(cut, 0, f"{kind}{rank} at {width}")

    def test_answers_are_told_by_elements_that_stay(self):
        live = "return document.querySelector('#panel-wanted [aria-live]')"
        before = self.js(live)
        self.press("mirror the view on screen 1")
        self.assertEqual(self.js(live), before)
        self.assertIn("mirror one view more", before.text)
        for id in ["letters", "form-letters", "form-same"]:
            self.assertTrue(self.js("return document.getElementById(arguments[0]).closest('[role=status]') !== null", id))

    def tip(self):
        return self.js("const e = document.getElementById('tip'), b = e.getBoundingClientRect(); return e.hidden ? '' : b.left >= 0 && b.right <= innerWidth && b.top >= 0 ? e.textContent : 'outside'")

    def test_words_are_explained_by_focus_and_by_hover(self):
        self.word("4 4 2 5 3 5 1 2")
        seen = {}
        for width in [1280, 360]:
            self.size(width, 900)
            for tab in TABS:
                self.press(tab)
                self.driver.execute_cdp_cmd("Input.dispatchMouseEvent", {"type": "mouseMoved", "x": 1, "y": 450})
                for element in self.js("return [...document.querySelectorAll('[data-term]')].filter(e => e.offsetParent !== null)"):
                    about = self.js("return document.getElementById(arguments[0].getAttribute('aria-describedby')).textContent", element)
                    self.js("document.activeElement.blur(); arguments[0].scrollIntoView({block: 'center'})", element)
                    time.sleep(0.02)
                    self.assertEqual(self.tip(), "")
                    self.js("arguments[0].focus({ preventScroll: true })", element)
                    self.assertEqual(self.tip(), about)
                    seen[element.text] = about
                    ActionChains(self.driver).send_keys(Keys.ESCAPE).perform()
                    self.assertEqual(self.tip(), "")
        for text in ["Rank", "Word", "8 letters", "Shortest version", "against a mirrored lane", "rule family 1", "What is straight?", "What is an edition?", "Window"]:
            self.assertIn(text, seen)
        self.size(1280, 900)
        self.js("scrollTo(0, 0); document.activeElement.blur()")
        self.press("Sheet")
        self.js("scrollTo(0, 0); [...document.querySelectorAll('[data-term=window]')].at(-1).focus()")
        time.sleep(0.2)
        self.assertEqual(self.tip(), seen["Window"], "where the focus made the page scroll")
        self.js("scrollTo(0, 0); document.activeElement.blur()")
        time.sleep(0.2)
        rank = self.js("return document.getElementById('rank-label')")
        ActionChains(self.driver, duration=20).move_to_element(rank).perform()
        self.assertEqual(self.tip(), seen["Rank"])
        ActionChains(self.driver, duration=20).move_by_offset(0, 20).perform()
        self.assertEqual(self.tip(), seen["Rank"])
        ActionChains(self.driver, duration=20).move_to_element(self.labelled("Word")).perform()
        self.assertEqual(self.tip(), "")
        self.driver.execute_cdp_cmd("Input.dispatchTouchEvent", {"type": "touchStart", "touchPoints": [dict(zip("xy", self.js("const b = document.getElementById('word-label').getBoundingClientRect(); return [b.x + 5, b.y + 5]")))]})
        self.driver.execute_cdp_cmd("Input.dispatchTouchEvent", {"type": "touchEnd", "touchPoints": []})
        self.assertEqual(self.tip(), seen["Word"])

    def test_refusals_are_told_in_the_words_of_the_reader(self):
        self.word("1 2 9")
        self.assertEqual(self.text("word-message"), f"Step 9, number 3 of the word, does not exist in this rig: its steps are 1 to 5. Type another number, or choose a greater rank. (Refusal 8: {self.library('message', 8)}) The picture stays as it was.")
        self.press("Undo")
        self.write("Rank", "3")
        self.assertEqual(self.text("rig-message"), f"There is no rig of this rank. Kind D takes 4 to 64. Type another rank. (Refusal 6: {self.library('message', 6)})")
        damaged = (ROOT / "tests/books/refused/8-letter.first").read_bytes()
        self.drop(("damaged.book", damaged))
        row = self.js("return document.querySelector('#presets [data-refusal]')")
        self.assertIn(f"Preset {row.get_attribute('data-preset')} is damaged: it has a step that its rig does not have.", row.text)
        self.assertIn("Presets are numbered from 0, as the book numbers them.", self.panel().text)

    def test_every_control_has_a_label_and_can_be_reached(self):
        self.word("4 4 2 5 3 5 1 2")
        for tab in TABS:
            self.press(tab)
            nameless = self.js(
                """return [...document.querySelectorAll('button, input, select, textarea, [tabindex], [role=img], svg.drawing')]
                    .filter(e => e.offsetParent !== null || e instanceof SVGElement && e.getBoundingClientRect().width > 0)
                    .filter(e => !(e.getAttribute('aria-label') || document.getElementById(e.getAttribute('aria-labelledby'))?.textContent || e.labels?.[0]?.textContent.trim() || e.textContent.trim()))
                    .map(e => e.outerHTML)""")
            self.assertEqual(nameless, [])
        self.js("document.activeElement.blur()")
        seen = set()
        for _ in range(80):
            ActionChains(self.driver).send_keys(Keys.TAB).perform()
            here = self.js(
                """const e = document.activeElement === document.body ? document.getElementById('kind') : document.activeElement, style = getComputedStyle(e);
                return [e.id || e.getAttribute('aria-label') || e.textContent.trim().slice(0, 20), style.outlineStyle !== 'none' && parseFloat(style.outlineWidth) >= 2]""")
            self.assertTrue(here[1] or here[0] == "kind", here)
            seen.add(here[0])
        for id in ["kind", "rank", "open", "save", "skip", "add", "undo", "word", "take", "both", "tab-proved"]:
            self.assertIn(id, seen)
        self.rig("D", 64)
        self.js("document.getElementById('skip').focus()")
        ActionChains(self.driver).send_keys(Keys.ENTER).perform()
        self.assertEqual(self.js("return document.activeElement.id"), "word")

    def test_contrast_in_light_and_dark(self):
        for scheme in ["light", "dark"]:
            self.size(1280, 900, scheme)
            self.fresh()
            self.word("4 4 2 5 3 5 1 2")
            for tab in TABS:
                self.press(tab)
                self.assertEqual(self.js(CONTRAST), [], f"{scheme}, {tab}")
            self.write("name of source 2", "left door")
            self.write("name of screen 4", "crane hook")
            self.labelled("name of source 1").click()
            self.assertTrue(self.js("return document.querySelector('.tracing') !== null"))
            self.assertEqual(self.js(CONTRAST), [], f"{scheme}, with the cursor in a name")


RANDOM_USER = """
let [seed, left, done] = arguments;
const random = bound => { seed = (Math.imul(seed, 1664525) + 1013904223) >>> 0; return Math.floor(seed / 4294967296 * bound); };
const errors = [];
addEventListener('error', event => errors.push(event.message));
const told = (element, type) => element.dispatchEvent(new Event(type, { bubbles: true }));
const words = () => Array.from({ length: random(40) }, () => (random(40) ? 1 + random(app.state.rank) : random(70))).join(' ') + (random(9) ? '' : ' x');
const written = element => (element.matches('#word, #simpler') ? words() : element.type === 'number' ? String(random(70)) : ['', 'rear view', ' x ', '9'][random(4)]);
function use(element) {
    if (element.matches('button, summary, [type=checkbox], [type=radio]')) return element.click();
    if (element.tagName === 'SELECT') {
        told(element, 'focus');
        element.selectedIndex = random(element.options.length);
    } else element.value = element.type === 'range' ? random(Number(element.max) + 1) : written(element);
    told(element, 'input');
    told(element, 'change');
}
(async () => {
    try {
        for (; left > 0 && errors.length === 0; left--) {
            const controls = [...document.querySelectorAll('button, input, select, summary, textarea')].filter(e => e.offsetParent !== null && !e.disabled);
            const chosen = controls[random(controls.length)];
            use(chosen);
            if (random(3) === 0) await new Promise(next => setTimeout(next));
            if (random(8) === 0) app.updatePanel();
            const { kind, rank, word } = app.state;
            const shown = [...document.querySelectorAll('#screens li')].map(e => Number(e.dataset.entry));
            if (String(app.library.window(kind, rank, word)) !== String(shown)) errors.push(`another picture after ${chosen.outerHTML}`);
        }
    } catch (error) {
        errors.push(String(error.stack));
    }
    app.store.markBookSaved();
    app.store.markWordKept();
    done(errors);
})();
"""


CONTRAST = """
const parse = text => { const m = text.match(/[\\d.]+/g).map(Number); return { rgb: m.slice(0, 3), a: m[3] ?? 1 }; };
const ground = e => { for (; e; e = e.parentElement) { const c = parse(getComputedStyle(e).backgroundColor); if (c.a > 0.5) return c.rgb; } return parse(getComputedStyle(document.body).backgroundColor).rgb; };
const lum = rgb => rgb.map(v => { v /= 255; return v <= 0.04045 ? v / 12.92 : ((v + 0.055) / 1.055) ** 2.4; }).reduce((s, v, i) => s + v * [0.2126, 0.7152, 0.0722][i], 0);
const low = [];
for (const e of document.querySelectorAll('body *')) {
    if (e.offsetParent === null || e.closest('[aria-hidden=true], svg, :disabled, script')) continue;
    if (![...e.childNodes].some(n => n.nodeType === 3 && n.data.trim()) && !(e.matches('input, textarea, select') && e.value)) continue;
    let share = 1;
    for (let p = e; p; p = p.parentElement) share *= getComputedStyle(p).opacity;
    const mixed = parse(getComputedStyle(e).color).rgb.map((v, i) => v * share + ground(e)[i] * (1 - share));
    const [a, b] = [lum(mixed), lum(ground(e))].map(v => v + 0.05);
    if (Math.max(a, b) / Math.min(a, b) < 4.5) low.push(e.outerHTML.slice(0, 90));
}
return low;"""
