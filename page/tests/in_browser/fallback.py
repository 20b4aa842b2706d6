"""What can still be shown when modules have failed, the wanted picture that follows, and lengths in milliseconds."""
from selenium.webdriver.common.action_chains import ActionChains
from selenium.webdriver.common.keys import Keys
from selenium.webdriver.support.ui import Select

from in_browser.page import PageTest

NAMES = b"source 1 left door\nsource 5 rear view\nscreen 2 left mirror\nscreen 5 right mirror\n"
TWO = "module 2 has failed (exchanges lanes 2 and 3)"
START = "The longest start of the preset that needs no failed module"
WORD = "The word without its failed steps"
FORM = "The shortest version without its failed steps"


class Subject(PageTest):
    def named(self, more=b""):
        self.drop(("cabin.book", b""), ("cabin.book.names", NAMES + more))
        self.press("Second edition")

    def touch(self, element):
        self.js("arguments[0].scrollIntoView({block: 'center'})", element)
        x, y = self.js("const b = arguments[0].getBoundingClientRect(); return [b.x + b.width / 2, b.y + b.height / 2]", element)
        self.driver.execute_cdp_cmd("Input.dispatchTouchEvent", {"type": "touchStart", "touchPoints": [{"x": x, "y": y}]})
        self.driver.execute_cdp_cmd("Input.dispatchTouchEvent", {"type": "touchEnd", "touchPoints": []})
        self.driver.execute_async_script("setTimeout(arguments[0], 60)")
        self.settle()

    def type(self, label, content, end=Keys.ENTER):
        field = self.labelled(label)
        field.send_keys(Keys.CONTROL, "a")
        field.send_keys(content if content else Keys.DELETE)
        field.send_keys(end)
        self.settle()
        return field


class Fallback(Subject):
    def way(self, title):
        """The text of the part about a picture that can still be shown, by a title in it."""
        return self.js("return [...document.querySelectorAll('.way')].find(e => [...e.querySelectorAll('h4')].some(h => h.textContent.toLowerCase().includes(arguments[0].toLowerCase())))", title).text

    def test_what_can_still_be_shown(self):
        self.named()
        self.word("4 4 2 5 3 5 1 2")
        self.press("Modules")
        self.assertIn("Tick a module to see what is left", self.text("failed-head"))
        self.assertEqual(self.text("ways-left"), "")
        self.press(TWO)
        self.assertEqual(self.text("failed-head"), "Module 2 has failed. The word uses it twice: it cannot be shown as it is.")
        split = self.library("split", "D", 5, [1, 3, 4, 5], self.letters())
        told = lambda word: f"{' '.join(map(str, word))}, {len(word)} step{'' if len(word) == 1 else 's'}"
        start = self.way(START)
        self.assertIn(told(split["first"]), start)
        self.assertIn(f"Left out: {' '.join(map(str, split['second']))} (", start)
        form = [step for step in self.library("normalForm", "D", 5, self.letters()) if step != 2]
        self.assertIn(told(form), self.way(FORM))
        word = [step for step in self.letters() if step != 2]
        self.assertIn(told(word), self.way(WORD))
        shown, present = self.library("window", "D", 5, form), self.screens()
        lines = self.js("return [...[...document.querySelectorAll('.way')].find(e => e.textContent.includes(arguments[0])).querySelectorAll('li')].map(e => e.textContent)", FORM)
        self.assertEqual(len(lines), sum(one != two for one, two in zip(shown, present)))
        self.assertIn("Screen 2 left mirror shows 1 left door instead of 5 rear view mirrored", lines)
        self.assertIn("It is a fallback", self.way(FORM))
        drawn = self.js("return [...document.querySelectorAll('.way svg.drawing')].map(e => e.getAttribute('aria-label'))")
        self.assertEqual(drawn, [f"picture: {FORM}", f"picture: {START}"])
        line = self.js("return document.querySelector('#ways-left [data-refusal=\"19\"]')").text
        self.assertIn("From the straight picture: Without module 2, no steps lead to this picture.", line)
        self.assertIn(self.library("message", 19), line)

    def test_what_is_used_is_undone(self):
        self.word("4 4 2 5 3 5 1 2")
        self.press("Modules")
        self.press(TWO)
        for title in [START, WORD, FORM]:
            before, failed = self.letters(), self.js("return app.state.failed")
            self.press(f"Use it: {title}")
            self.assertNotIn(2, self.letters())
            self.assertIn("it can be shown as it is", self.text("failed-head"))
            self.press("Undo")
            self.assertEqual((self.letters(), self.js("return app.state.failed")), (before, failed))
        self.press("Undo")
        self.assertEqual(self.js("return app.state.failed"), [])

    def test_the_way_to_the_wanted_picture_over_the_modules_left(self):
        self.press("Wanted picture")
        Select(self.labelled("source on screen 1")).select_by_value("3")
        self.settle()
        wanted = self.js("return app.state.wanted")
        self.word("1 2")
        self.press("Modules")
        self.press("module 5 has failed (exchanges lanes 4 and 5 and mirrors both)")
        text = self.text("ways-left")
        for start, word in [("picture above", [1, 2]), ("straight picture", [])]:
            way = self.library("between", "D", 5, [1, 2, 3, 4], self.library("window", "D", 5, word), wanted)
            self.assertIn(f"From the {start}: {' '.join(map(str, way))}, {len(way)} step", text)
            self.press(f"Use it: the way from the {start}")
            self.assertEqual((self.letters(), self.screens()), (word + way, wanted))
            self.press("Undo")
        self.press("module 1 has failed (exchanges lanes 1 and 2)")
        line = self.js("return document.querySelector('#ways-left [data-refusal]')")
        self.assertIn("From the picture above and from the straight picture: Without modules 1 and 5,", line.text)
        self.assertIn("From the wanted picture it differs on screen", self.text("ways-left"))

    def test_a_wanted_picture_that_failed_modules_keep_from_being_shown(self):
        self.word("2 1")
        self.press("Wanted picture")
        self.press("Set all screens as in the picture above")
        self.press("Modules")
        self.press(TWO)
        self.assertIn("it cannot be shown as it is", self.text("failed-head"))
        self.assertNotIn("no step is needed", self.text("ways-left"))
        self.assertIn("From the straight picture: Without module 2, no steps lead to this picture.", self.text("ways-left"))
        self.press(TWO)
        self.press("module 5 has failed (exchanges lanes 4 and 5 and mirrors both)")
        self.assertIn("it can be shown as it is", self.text("failed-head"))
        self.assertIn("From the picture above: no step is needed, it is this picture already.", self.text("ways-left"))

    def test_failed_steps_that_come_before_are_told(self):
        self.word("2 1")
        self.press("Wanted picture")
        Select(self.labelled("source on screen 4")).select_by_value("5")
        self.settle()
        self.press("Modules")
        self.press(TWO)
        self.assertIn("The word keeps the failed steps that come before.", self.text("ways-left"))

    def test_all_failed(self):
        self.word("5 2 3")
        self.press("Modules")
        self.press("All have failed")
        self.assertIn("only the straight picture can be shown", self.text("failed-head"))
        self.assertIn("Without any module,", self.text("ways-left"))
        self.press("Use it: The straight picture")
        self.assertEqual((self.letters(), self.focus()), ([], "In use: The straight picture"))
        self.press("None has failed")
        self.assertEqual((self.js("return app.state.failed"), self.text("ways-left")), ([], ""))

    def test_a_word_too_long_for_the_way_is_refused_and_changes_nothing(self):
        self.word(" ".join(["1"] * 4096))
        self.press("Wanted picture")
        Select(self.labelled("source on screen 1")).select_by_value("2")
        self.settle()
        self.press("Add these steps to the word")
        self.assertIn("The word stays as it is. The word is too long", self.text("notice"))
        self.assertEqual(len(self.letters()), 4096)

    def test_text_that_is_no_word_is_kept(self):
        self.word("4 4 2 5 3 5 1 2")
        self.press("Modules")
        self.press(TWO)
        self.word("4 4 2 x")
        self.press(f"Use it: {FORM}")
        self.assertIn("does not hold a word", self.text("notice"))
        self.assertEqual((self.labelled("Word").get_attribute("value"), len(self.letters())), ("4 4 2 x", 8))

    def test_by_keyboard_and_by_touch_from_320_px(self):
        for width in [320, 360, 768, 1280]:
            self.size(width, 800)
            self.fresh()
            self.word("4 4 2 5 3 5 1 2")
            self.press("Modules")
            self.labelled(TWO).send_keys(Keys.SPACE)
            self.settle()
            self.assertEqual((self.js("return app.state.failed"), self.focus()), ([2], TWO))
            self.labelled(f"Use it: {FORM}").send_keys(Keys.ENTER)
            self.settle()
            self.assertEqual(self.letters(), [5, 3, 5, 1])
            self.assertIn(self.focus(), [f"In use: {WORD} and the shortest version without its failed steps", "failed-head"])
            self.keys("z")
            self.assertEqual(self.letters(), [4, 4, 2, 5, 3, 5, 1, 2])
            self.touch(self.labelled("module 4 has failed (exchanges lanes 4 and 5)"))
            self.assertEqual(self.js("return app.state.failed"), [2, 4])
            self.touch(self.labelled(f"Use it: {START}"))
            self.assertEqual(self.letters(), [5])
            self.assertLessEqual(self.js("return document.documentElement.scrollWidth"), width)
            small = self.js("return [...document.querySelectorAll('#panel-modules button, .module')].filter(e => e.getBoundingClientRect().height < 24).length")
            self.assertEqual(small, 0)

    def test_steps_of_failed_modules_are_said_to_be_failed(self):
        self.word("4 2")
        self.press("Modules")
        self.press(TWO)
        labels = self.js("return [...document.querySelectorAll('.chip')].map(e => e.getAttribute('aria-label'))")
        self.assertEqual([label.endswith(", failed") for label in labels], [False, True])


class Wanted(Subject):
    def test_it_follows_until_it_is_touched(self):
        self.press("Wanted picture")
        entries = lambda: self.js("return [...document.querySelectorAll('.cards li')].map(e => Number(e.dataset.entry))")
        self.word("1 2")
        self.assertEqual(entries(), self.screens())
        self.assertIn("until you change it here", self.text("wanted-follows"))
        self.press("mirror the view on screen 1")
        touched = entries()
        self.assertIn("stays, whatever becomes of the picture above", self.text("wanted-follows"))
        self.word("1 2 3")
        self.assertEqual(entries(), touched)
        follow = self.labelled("Let it follow the picture above")
        self.assertIsNone(follow.get_attribute("aria-disabled"))
        follow.send_keys(Keys.ENTER)
        self.settle()
        self.assertEqual((entries(), self.focus()), (self.screens(), "BUTTON"))
        self.assertEqual(self.labelled("Let it follow the picture above").get_attribute("aria-disabled"), "true")
        self.word("4")
        self.assertEqual(entries(), self.screens())
        self.press("Undo")
        self.press("Undo")
        self.assertEqual(entries(), touched)
        self.touch(self.labelled("Let it follow the picture above"))
        self.assertIsNone(self.js("return app.state.wanted"))

    def test_loading_a_preset_of_the_same_rig_keeps_it(self):
        self.word("1 2")
        self.press("Book")
        self.press("Append the present preset")
        self.word("3 4")
        self.press("Wanted picture")
        self.press("mirror the view on screen 1")
        wanted = self.js("return app.state.wanted")
        self.press("Book")
        self.press("load preset 0")
        self.assertEqual((self.letters(), self.js("return app.state.wanted")), ([1, 2], wanted))
        self.press("Wanted picture")
        self.assertIn("stays, whatever becomes of the picture above", self.text("wanted-follows"))
        self.assertEqual(self.js("return [...document.querySelectorAll('.cards li')].map(e => Number(e.dataset.entry))"), wanted)
        self.press("Cabin")
        self.assertEqual(Select(self.labelled("Compare with")).first_selected_option.text, "the wanted picture")
        self.rig("B", 5)
        self.assertIsNone(self.js("return app.state.wanted"))

    def test_it_leads_from_the_picture_shown(self):
        self.word("1 2")
        self.press("Wanted picture")
        self.assertTrue(self.labelled("the picture above").is_selected())
        self.assertIn("no step is needed", self.panel().text)
        self.press("Set all screens straight")
        self.assertIn("2 steps lead there: 2 1", self.panel().text)
        self.labelled("the picture above").send_keys(Keys.ARROW_RIGHT)
        self.settle()
        self.assertTrue(self.labelled("the straight picture").is_selected())
        self.assertIn("The straight picture is the wanted one", self.panel().text)


class Milliseconds(Subject):
    FIELD = "One step takes"

    def told(self):
        """Every place of the page that tells a length, by what it says."""
        said = [self.text("letters"), self.text("form-letters"), self.text("crossings-plain")]
        for tab, selector in [("Why", "#why-lines"), ("Wanted picture", "#panel-wanted .answer"), ("Modules", "#ways-left"), ("Modules", "#fallback-answer"),
                              ("Book", "#presets"), ("Delays", "#panel-delays"), ("Sheet", "#sheet")]:
            self.press(tab)
            said.append(self.js("return document.querySelector(arguments[0]).textContent", selector))
        return said

    def test_every_length_has_milliseconds(self):
        self.word("4 4 2 5 3 5 1 2")
        self.press("Wanted picture")
        self.press("Set all screens straight")
        self.press("Modules")
        self.write("Word of the simpler preset", "2 5")
        self.press(TWO)
        self.press("Book")
        self.press("Append the present preset")
        for text in self.told():
            self.assertNotIn(" ms", text.replace("takesms", ""))
        self.press("Delays")
        self.type(self.FIELD, "2.5")
        parts = ["8 letters, 20 ms", "6 letters, 15 ms", "Length 6, 15 ms:", "8 letters, 20 ms", "", "6 steps, 15 ms", "2 steps, 5 ms",
                 "8 letters, 20 ms", "the greatest length is 20 (50 ms)", "Length6 (15 ms): 3 plain"]
        said = self.told()
        for part, text in zip(parts, said):
            self.assertIn(part, text)
        self.press("Modules")
        self.press("None has failed")
        self.press("Wanted picture")
        self.assertIn("6 steps, 15 ms, lead there:", self.panel().text)
        self.press("Delays")
        self.assertIn("20 letters, 50 ms: ", self.panel().text)
        self.press("The numbers")
        rows = self.js("return [...document.querySelectorAll('.numbers tbody tr')].map(e => [...e.children].map(c => c.textContent))")
        self.assertEqual(rows[6][:2], ["6", "15 ms"])
        self.assertIn("15 ms", self.js("return document.querySelector('.bar.present title').textContent"))
        self.type(self.FIELD, "")
        for text in self.told():
            self.assertNotIn(" ms", text.replace("takesms", ""))

    def test_it_is_kept_with_the_names_and_undone(self):
        self.named()
        self.word("4 4 2")
        self.press("Delays")
        self.type(self.FIELD, "0.1")
        self.assertIn("3 letters, 0.3 ms", self.text("letters"))
        self.press("Undo")
        self.assertEqual((self.text("letters"), self.labelled(self.FIELD).get_attribute("value")), ("3 letters", ""))
        self.press("Redo")
        self.assertEqual(self.labelled(self.FIELD).get_attribute("value"), "0.1")
        self.load()
        self.press("Go on with it")
        self.assertIn("3 letters, 0.3 ms", self.text("letters"))
        self.press("Book")
        self.press("Append the present preset")
        self.press("Save as a new file")
        book, names = self.saved("cabin.book"), self.saved("cabin.book.names")
        self.assertEqual(names, NAMES + b"delay 0.1\n")
        self.fresh()
        self.drop(("cabin.book", book), ("cabin.book.names", names))
        self.assertIn("3 letters, 0.3 ms", self.js("return document.querySelector('#presets').textContent"))

    def test_a_wrong_number_is_told_at_the_field_and_changes_nothing(self):
        self.word("4 4 2")
        self.press("Delays")
        self.type(self.FIELD, "2.5")
        for wrong in ["2,5", "0", "-1", "abc", "12345", "1.2345", "1e3", "2.5 ms"]:
            names = self.js("return app.store.state.names")
            field = self.type(self.FIELD, wrong)
            self.assertEqual((field.get_attribute("value"), field.get_attribute("aria-invalid")), (wrong, "true"))
            about = self.js("return arguments[0].getAttribute('aria-describedby').split(' ').map(id => document.getElementById(id)).filter(e => !e.hidden).map(e => e.textContent)", field)
            self.assertIn(f"'{wrong}' is not a number of milliseconds", about[0])
            self.assertEqual(self.js("return app.store.state.names"), names)
            self.assertEqual(self.text("letters"), "3 letters, 7.5 ms")
        self.word("4 4")
        self.assertEqual(self.labelled(self.FIELD).get_attribute("value"), "2.5 ms")
        field = self.type(self.FIELD, "3")
        self.assertEqual((field.get_attribute("aria-invalid"), self.text("step-time-message"), self.text("letters")), ("false", "", "2 letters, 6 ms"))

    def test_a_refused_number_is_not_that_of_the_next_book(self):
        self.press("Delays")
        self.type(self.FIELD, "x")
        self.assertIn("'x' is not a number", self.text("step-time-message"))
        self.press("Book")
        self.press("New book")
        self.press("Delays")
        self.assertEqual((self.labelled(self.FIELD).get_attribute("value"), self.text("step-time-message")), ("", ""))

    def test_the_field_has_the_number_of_names_that_came_meanwhile(self):
        self.named(b"delay 2.5\n")
        self.press("Delays")
        field = self.labelled(self.FIELD)
        field.click()
        self.assertEqual((self.focus(), field.get_attribute("value")), ("step-time", "2.5"))
        self.drop(("cabin.book.names", NAMES + b"delay 4\n"))
        self.assertEqual((self.focus(), field.get_attribute("value")), ("step-time", "4"))
        field.send_keys("5")
        self.settle()
        self.assertEqual(field.get_attribute("value"), "45")

    def test_it_is_there_where_delays_are_not_counted_and_at_320_px(self):
        for width in [320, 360, 768, 1280, 3840]:
            self.size(width, 800)
            self.fresh()
            self.rig("D", 64)
            self.word("4 4 2")
            self.press("Delays")
            self.assertIn(self.library("message", 20), self.panel().text)
            field = self.labelled(self.FIELD)
            self.touch(field)
            self.assertEqual(self.focus(), "step-time")
            ActionChains(self.driver).send_keys("1234.567", Keys.TAB).perform()
            self.settle()
            self.assertEqual(self.text("letters"), "3 letters, 3,703.701 ms")
            self.rig("B", 16)
            cut = self.js("const box = document.querySelector('.bars').getBoundingClientRect(); return [...document.querySelectorAll('.bars text')].filter(e => e.getBoundingClientRect().right > box.right + 1).length")
            self.assertEqual((cut, self.js("return document.documentElement.scrollWidth") <= width), (0, True))
