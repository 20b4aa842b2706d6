"""The rig, the picture, composing, the wanted picture, modules, why, delays and what is proved."""
import base64
import hashlib
import os
import re
import time
from pathlib import Path

from selenium.webdriver.common.action_chains import ActionChains
from selenium.webdriver.common.by import By
from selenium.webdriver.common.keys import Keys
from selenium.webdriver.support.ui import Select, WebDriverWait

from in_browser.page import ROOT, RIGS, PageTest


class TenPoints(PageTest):
    def test_01_rig(self):
        for kind, rank in RIGS:
            self.rig(kind, rank)
            lanes = rank + (kind == "A")
            self.assertEqual(self.text("lanes"), f"{lanes} lanes")
            self.assertEqual(self.screens(), list(range(1, lanes + 1)))
            self.assertEqual(len(self.js("return document.querySelectorAll('.gap')")), rank)
        self.rig("D", 5)
        self.write("name of source 1", "rear view")
        self.write("name of screen 2", "left mirror")
        self.write("Rank", "3")
        self.assertIn(self.library("message", 6), self.text("rig-message"))
        self.assertEqual(self.js("return app.state.rank"), 5)
        self.load()
        self.assertEqual(self.labelled("name of source 1").get_attribute("value"), "")
        self.press("Go on with it")
        self.assertEqual(self.labelled("name of source 1").get_attribute("value"), "rear view")
        self.assertEqual(self.labelled("name of screen 2").get_attribute("value"), "left mirror")
        kinds = [option.text for option in Select(self.labelled("Rig")).options]
        self.assertEqual([kind[:2] for kind in kinds], ["A:", "B:", "D:"])

    def test_02_picture(self):
        for kind, rank in RIGS:
            self.rig(kind, rank)
            self.word(self.long_word(rank, 12))
            window = self.library("window", kind, rank, self.letters())
            self.assertEqual(self.screens(), window)
            self.assertTrue(all(self.js("""return [...document.querySelectorAll('#screens li')].map(e => {
                const entry = Number(e.dataset.entry), text = e.querySelector('.shows').textContent;
                return text.startsWith(String(Math.abs(entry))) && text.endsWith('mirrored') === entry < 0
                    && (e.querySelector('svg g').getAttribute('transform') !== null) === entry < 0;})""")))
            token = self.js("return document.querySelector('#sources li:nth-child(2) .token')")
            self.js("arguments[0].scrollIntoView({block: 'center'})", token)
            ActionChains(self.driver, duration=20).move_to_element(token).perform()
            traced = self.js("return [...new Set([...document.querySelectorAll('.tracing .traced')].map(e => e.dataset.strand))]")
            self.assertEqual(traced, ["2"])
            ActionChains(self.driver, duration=20).move_to_element(self.labelled("Word")).perform()
            self.labelled("name of screen 1").send_keys("")
            self.assertEqual(self.js("return document.querySelector('#screens li.traced').dataset.screen"), "1")

    def test_02_long_words_are_followed(self):
        self.rig("D", 64)
        self.word(self.long_word(64, 300))
        shown = lambda: self.js("return [app.picture.part.first, app.picture.part.last]")
        self.assertEqual(shown()[0], 0)
        self.press("add step 7: exchanges lanes 7 and 8")
        self.assertEqual(shown()[1], 301)
        self.assertIn("of 301", self.text("range-text"))
        self.driver.find_element(By.ID, "range").send_keys(Keys.HOME)
        self.assertEqual(shown()[0], 0)
        self.assertEqual(self.screens(), self.library("window", "D", 64, self.letters()))

    def test_03_composing(self):
        self.press("add step 4: exchanges lanes 4 and 5")
        self.labelled("Add step").send_keys("4", Keys.ENTER)
        self.labelled("Word").send_keys(" 2 5 3")
        self.assertEqual(self.letters(), [4, 4, 2, 5, 3])
        self.labelled("Word").send_keys(Keys.CONTROL, "z")
        self.assertEqual(self.letters(), [4, 4, 2, 5])
        self.word("4 4 2 5 3 5 1 2")
        self.assertEqual(self.text("letters"), "8 letters")
        self.assertEqual(self.text("form"), "5 2 3 5 1 2")
        self.assertEqual(self.text("form-same"), "Shows the same on every screen.")
        self.assertEqual(self.text("crossings"), "Length 6: 3 plain, 3 against a mirrored lane, 0 mirrored (kind D counts none).")
        self.labelled("Draw it below the picture").click()
        self.assertTrue(self.js("return document.querySelector('#form-drawing svg') !== null"))
        self.press("Use it")
        self.assertEqual(self.letters(), [5, 2, 3, 5, 1, 2])
        self.press("Undo")
        self.assertEqual(self.letters(), [4, 4, 2, 5, 3, 5, 1, 2])
        self.press("Redo")
        self.assertEqual(self.letters(), [5, 2, 3, 5, 1, 2])

    def test_03_wrong_letter_is_marked(self):
        self.word("4 4 2")
        for text, mark, message in [("4 4 9 2", "9", self.library("message", 8)), ("4 x 2", "x", "'x' is no number."), ("0", "0", self.library("message", 8))]:
            self.word(text)
            self.assertEqual(self.js("return document.querySelector('#word-marks mark').textContent"), mark)
            self.assertIn(message, self.text("word-message"))
            self.assertEqual(self.letters(), [4, 4, 2])
        self.word(self.long_word(5, 4097))
        self.assertIn(self.library("message", 7), self.text("word-message"))
        self.word("4 4 6")
        self.driver.find_element(By.CSS_SELECTOR, ".chip").click()
        self.assertEqual(self.labelled("Word").get_attribute("value"), "4 4 6")
        self.write("Rank", "6")
        self.assertEqual((self.letters(), self.text("word-message")), ([4, 4, 6], ""))
        self.write("Rank", "5")
        self.assertIn(self.library("message", 8), self.text("rig-message"))
        self.press("Undo")
        self.assertEqual(self.letters(), [4, 4, 6])
        self.word("4 4 2")
        self.write("Rank", "5")
        self.labelled("Add step").send_keys("9", Keys.ENTER)
        self.assertIn(self.library("message", 8), self.text("add-message"))
        self.assertEqual(self.letters(), [4, 4, 2])

    def test_03_undo_takes_refused_text_back_first(self):
        field = self.labelled("Word")
        field.send_keys("9 4 4")
        self.assertTrue(self.asks_before_leaving())
        self.press("Undo")
        self.assertEqual((field.get_attribute("value"), self.text("word-message")), ("", ""))
        self.assertEqual(self.labelled("Undo").get_attribute("aria-disabled"), "true")
        field.send_keys("4 2 9")
        field.send_keys(Keys.CONTROL, "z")
        self.assertEqual((field.get_attribute("value"), self.letters()), ("4 2", [4, 2]))
        field.send_keys(Keys.CONTROL, "z")
        self.assertEqual((field.get_attribute("value"), self.letters()), ("4", [4]))
        field.send_keys(Keys.CONTROL, "y")
        self.assertEqual((field.get_attribute("value"), self.letters()), ("4 2", [4, 2]))

    def test_03_refused_text_is_never_taken_for_the_last_word(self):
        self.word("1 1 2")
        field = self.labelled("Word")
        field.send_keys(" x")
        for tab, control in [("Book", "Append the present preset"), ("Book", "Save as a new file"), ("Book", "Save"), ("Wanted picture", "Use it"), ("Sheet", "Print the sheet")]:
            self.press(tab)
            self.js("window.print = () => { throw new Error('printed') }")
            self.press(control)
            self.assertIn("The field with the word does not hold a word.", self.text("notice"), control)
        self.assertEqual(self.text("letters"), "Last word: 3 letters")
        self.keys("s")
        self.press("add step 1: exchanges lanes 1 and 2")
        self.assertIn("does not hold a word", self.text("add-message"))
        self.js("arguments[0].focus()", self.js("return document.querySelector('.chip[tabindex=\"0\"]')"))
        ActionChains(self.driver).send_keys(Keys.DELETE).key_down(Keys.ALT).send_keys(Keys.ARROW_LEFT).key_up(Keys.ALT).perform()
        self.assertEqual((self.letters(), field.get_attribute("value")), ([1, 1, 2], "1 1 2 x"))
        self.assertEqual(self.js("return app.state.book.bytes.length"), 0)
        self.press("Sheet")
        self.assertEqual(self.text("sheet"), "There is no sheet: the field with the word does not hold a word.")
        time.sleep(0.3)
        self.assertEqual(list(Path(self.downloads).iterdir()), [])
        self.press("Go to what is wrong")
        self.assertEqual(self.js("const e = document.activeElement; return [e.id, e.value.slice(e.selectionStart, e.selectionEnd)]"), ["word", "x"])
        self.press("Go back to the last word")
        self.assertEqual((field.get_attribute("value"), self.text("notice"), self.text("add-message")), ("1 1 2", "", ""))
        self.assertEqual(self.text("letters"), "3 letters")
        self.assertIn("1 1 2 (3 letters)", self.text("sheet"))
        field.send_keys(" x")
        self.settle()
        self.press("Book")
        self.press("Append the present preset")
        field.send_keys(Keys.BACKSPACE)
        self.assertEqual(self.text("notice"), "")
        field.send_keys("5")
        self.press("Append the present preset")
        self.assertEqual(self.js("return app.library.presets(2, app.state.book.bytes)[0].word"), [1, 1, 2, 5])

    def test_03_steps_are_moved_and_thrown_away(self):
        self.word("1 2 3 4 5")
        chip = lambda at: self.js("return document.querySelector(`.chip[data-at='${arguments[0]}']`)", at)
        self.drag(chip(0), chip(3), 18)
        self.assertEqual(self.letters(), [2, 3, 4, 1, 5])
        crossing = self.js("return document.querySelector('.grab[data-at=\"0\"]')")
        self.drag(crossing, self.labelled("Clear"), 0, 40)
        self.assertEqual(self.letters(), [3, 4, 1, 5])
        chip(1).click()
        self.settle()
        self.press("remove the chosen step")
        self.assertEqual(self.letters(), [3, 1, 5])
        self.press("move the chosen step to the left")
        self.assertEqual(self.letters(), [1, 3, 5])
        keys = ActionChains(self.driver)
        self.js("document.querySelector('.chip[tabindex=\"0\"]').focus()")
        keys.send_keys(Keys.ARROW_RIGHT).key_down(Keys.ALT).send_keys(Keys.ARROW_RIGHT).key_up(Keys.ALT).perform()
        self.assertEqual(self.letters(), [1, 5, 3])
        ActionChains(self.driver).send_keys(Keys.DELETE).perform()
        self.assertEqual(self.letters(), [1, 5])
        ActionChains(self.driver).key_down(Keys.CONTROL).send_keys("zz").key_up(Keys.CONTROL).perform()
        self.assertEqual(self.letters(), [1, 3, 5])
        ActionChains(self.driver).key_down(Keys.CONTROL).send_keys("y").key_up(Keys.CONTROL).perform()
        self.assertEqual(self.letters(), [1, 5, 3])
        ActionChains(self.driver).send_keys("4", Keys.ENTER).perform()
        self.assertEqual(self.letters(), [1, 5, 3, 4])

    def chip(self, at):
        return self.js("return document.querySelector(`.chip[data-at='${arguments[0]}']`)", at)

    def held(self):
        """The steps that are marked, by the number above the picture and by the crossing, and those that fade."""
        return self.js(
            """const at = list => [...document.querySelectorAll(list)].map(e => Number(e.dataset.at));
            const fades = [...document.querySelectorAll('.chip')].filter(e => getComputedStyle(e).opacity < 1).map(e => Number(e.dataset.at));
            return [at('.chip[aria-pressed=true]'), at('.grab.selected'), fades]""")

    def test_03_the_grabbed_step_is_the_marked_one(self):
        self.word("1 2 3 4 5")
        self.chip(0).click()
        self.settle()
        self.assertEqual(self.held(), [[0], [0], []])
        drag = lambda: ActionChains(self.driver, duration=60)
        drag().move_to_element(self.chip(4)).click_and_hold().move_by_offset(0, 8).move_to_element(self.labelled("Clear")).perform()
        self.assertEqual(self.held(), [[4], [4], [4]])
        drag().release().perform()
        self.assertEqual(self.letters(), [1, 2, 3, 4])
        drag().move_to_element(self.chip(2)).click_and_hold().move_by_offset(-60, 0).perform()
        self.assertEqual(self.held(), [[2], [2], []])
        drag().release().perform()
        self.assertEqual((self.letters(), self.held()), ([1, 3, 2, 4], [[1], [1], []]))
        drag().move_to_element(self.chip(3)).click_and_hold().move_by_offset(-30, 0).move_by_offset(30, 0).release().perform()
        self.assertEqual((self.letters(), self.held()), ([1, 3, 2, 4], [[3], [3], []]))
        self.press("remove the chosen step")
        self.assertEqual(self.letters(), [1, 3, 2])

    def test_03_a_step_is_dragged_by_touch(self):
        self.word("1 2 3 4 5")
        self.chip(0).click()
        self.settle()
        touch = lambda type, *points: self.driver.execute_cdp_cmd("Input.dispatchTouchEvent", {"type": type, "touchPoints": [{"x": x, "y": y} for x, y in points]})
        x, y = self.js("const b = arguments[0].getBoundingClientRect(); return [b.x + b.width / 2, b.y + b.height / 2]", self.chip(3))
        below = self.js("return document.getElementById('board').getBoundingClientRect().bottom") + 60
        touch("touchStart", (x, y))
        for at in range(1, 6):
            touch("touchMove", (x, y + (below - y) * at / 5))
        # Moves by touch come with the next frame.
        WebDriverWait(self.driver, 5).until(lambda _: self.held() == [[3], [3], [3]])
        touch("touchEnd")
        WebDriverWait(self.driver, 5).until(lambda _: self.letters() == [1, 2, 3, 5])

    def test_04_wanted(self):
        self.press("Wanted picture")
        for kind, rank in RIGS:
            self.rig(kind, rank)
            self.press("Wanted picture")
            self.labelled("the straight picture").click()
            self.settle()
            token = self.js("return document.querySelector('.tokens [data-source=\"1\"]')")
            self.drag(token, self.js("return document.querySelector('.cards [data-screen=\"2\"]')"))
            wanted = [2, 1, *range(3, rank + 1 + (kind == "A"))]
            self.assertEqual(self.js("return app.state.wanted"), wanted)
            self.press("mirror the view on screen 1")
            if kind == "A":
                self.refused(10)
                continue
            if kind == "D":
                self.refused(11)
                self.press("mirror the view on screen 3")
            self.press("Use these steps as the word")
            self.assertEqual(self.screens(), self.js("return app.state.wanted"))
            self.press("Set all screens straight")
            self.labelled("the picture above").click()
            self.settle()
            self.press("Add these steps to the word")
            self.assertEqual(self.screens(), list(range(1, rank + 1)))

    def refused(self, number):
        line = self.js("return document.querySelector('.panel:not([hidden]) .refusal')")
        self.assertIn(self.library("message", number), line.text)
        self.assertGreater(len(self.js("return document.querySelectorAll('.culprit')")), 0)

    def test_04_source_dragged_in_the_picture(self):
        token = self.js("return document.querySelector('#sources [data-source=\"3\"]')")
        self.drag(token, self.js("return document.querySelector('#screens [data-screen=\"1\"]')"))
        self.assertEqual(self.js("return app.state.wanted"), [3, 2, 1, 4, 5])
        list = self.labelled("source on screen 5")
        list.click()
        time.sleep(0.3)
        self.assertTrue(self.js("return arguments[0].isConnected", list))
        list.send_keys(Keys.ESCAPE)
        choice = Select(list)
        choice.select_by_visible_text("3")
        self.settle()
        self.assertEqual(self.js("return app.state.wanted"), [5, 2, 1, 4, 3])

    def test_04_a_click_from_within_a_field_is_not_lost(self):
        """The field's change makes the panel anew, and the button under the pointer with it."""
        for at in range(4):
            self.labelled("name of source 1").send_keys("x")
            self.press("mirror the view on screen 3")
            self.assertEqual(self.js("return app.state.wanted[2]"), 3 if at % 2 else -3)
            self.assertEqual(self.js("return document.querySelector('.cards [data-screen=\"3\"]').dataset.entry"), "3" if at % 2 else "-3")

    def test_05_modules(self):
        self.word("4 4 2 5 3 5 1 2")
        self.press("Modules")
        self.press("module 2 has failed (exchanges lanes 2 and 3)")
        self.assertEqual(self.js("return [...document.querySelectorAll('#board .failed')].map(e => e.textContent)"), ["2", "2", "+2"])
        split = self.library("split", "D", 5, [1, 3, 4, 5], self.letters())
        text = self.panel().text
        self.assertIn(" ".join(map(str, split["first"])), text)
        self.assertIn(" ".join(map(str, split["second"])), text)
        self.write("Word of the simpler preset", "2 5")
        kept = self.library("fallback", "D", 5, self.letters(), [2, 5])
        self.assertIn(", ".join(str(place + 1) for place in kept), self.text("fallback-answer"))
        self.assertEqual(len(self.js("return document.querySelectorAll('#panel-modules .band')")), len(kept))
        self.write("Word of the simpler preset", "4")
        self.assertTrue(self.text("fallback-answer").startswith("No:"))
        self.write("Word of the simpler preset", "9")
        self.assertIn(self.library("message", 8), self.panel().text)
        self.press("Wanted picture")
        self.press("Set all screens straight")
        Select(self.labelled("source on screen 3")).select_by_value("2")
        self.settle()
        line = self.js("return document.querySelector('#panel-wanted .refusal')").text
        self.assertIn(self.library("message", 19), line)
        self.assertIn("Without module 2, no steps lead to this picture.", line)

    def test_05_quick_ticks_and_refusals_that_stay(self):
        self.rig("D", 64)
        self.press("Modules")
        self.js("const [one, two] = document.querySelectorAll('.module input'); one.click(); two.click()")
        self.settle()
        self.assertEqual(self.js("return app.state.failed"), [1, 2])
        self.rig("D", 5)
        self.write("Word of the simpler preset", "9")
        self.assertIn(self.library("message", 8), self.panel().text)
        self.rig("D", 10)
        self.assertTrue(self.text("fallback-answer").startswith("Yes"))
        self.press("Wanted picture")
        self.press("mirror the view on screen 1")
        self.press("Modules")
        self.press("Use the wanted picture")
        self.assertIn(self.library("message", 11), self.panel().text)
        self.assertIn("mirror one view more", self.panel().text)

    def test_06_why(self):
        self.word("4 4 2 5 3 5 1 2")
        self.press("Why")
        self.assertIn("4 twice in a row", self.text("why-rule"))
        self.assertEqual(self.js("return document.querySelector('#why-lines mark').textContent"), "4 4")
        self.assertEqual(len(self.js("return document.querySelectorAll('#why-lines .band')")), 2)
        self.press("Forward ▶")
        self.assertIn("2 and 5 change places", self.text("why-rule"))
        self.press("Forward ▶")
        self.assertIn("5 2 3 5 1 2", self.text("why-lines"))
        self.press("◀ Back")
        self.assertEqual(self.text("why-place"), "line 2 of 2")
        self.labelled("line of the rewriting").send_keys(Keys.HOME)
        self.assertEqual(self.text("why-place"), "line 1 of 2")
        self.press("Play")
        WebDriverWait(self.driver, 5).until(lambda _: self.text("why-place").startswith("end"))
        for kind, rank in RIGS:
            self.rig(kind, rank)
            self.word(self.long_word(rank, 60))
            self.labelled("line of the rewriting").send_keys(Keys.END)
            form = self.library("normalForm", kind, rank, self.letters())
            self.assertIn(" ".join(map(str, form[:8])), self.text("why-lines"))
            self.press("Undo")

    def test_06_why_of_millions_of_lines(self):
        self.rig("D", 64)
        self.word(self.long_word(64, 4096))
        self.press("Why")
        self.assertIn("2,383,462 lines", self.text("why-head"))
        self.press("Show them")
        self.labelled("line of the rewriting").send_keys(Keys.END)
        self.assertIn("The lines after line 60,000 are not shown.", self.text("why-lines"))
        self.press("◀ Back")
        self.assertEqual(self.text("why-place"), "line 60,000 of 2,383,462")

    def test_08_delays(self):
        self.press("Delays")
        for kind, rank in RIGS[:3]:
            self.rig(kind, rank)
            table = self.js("return app.library.delayTable(...arguments).counts.map(String)", kind, rank)
            self.assertEqual(len(self.js("return document.querySelectorAll('.bars .bar')")), len(table))
            self.press("The numbers")
            shown = self.js("return [...document.querySelectorAll('.numbers td:last-child')].map(e => e.textContent.replaceAll(',', ''))")
            self.assertEqual(shown, table)
        for kind, rank in RIGS[3:]:
            self.rig(kind, rank)
            self.assertIn(self.library("message", 20), self.panel().text)

    def test_10_proved(self):
        self.press("What is proved")
        self.assertEqual(len(self.panel().find_elements(By.TAG_NAME, "li")), 5)
        wasm = os.environ.get("WINNATHEY_WASM", ROOT / "target/targets/wasm32/winnathey.wasm")
        self.assertEqual(self.text("hash"), hashlib.sha256(Path(wasm).read_bytes()).hexdigest())
        self.assertRegex(self.text("version"), r"^\d+\.\d+\.\d+$")
