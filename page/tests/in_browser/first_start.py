"""The first start: example rigs to choose from, or an empty one, and what the picture says of itself."""
from selenium.webdriver.common.action_chains import ActionChains
from selenium.webdriver.common.keys import Keys

from in_browser.feel import CONTRAST
from in_browser.page import PageTest

RIGS = {"Car, 5 screens": ("D", 5, "car.book", [1, 2, 3, -4, -5]),
        "Lorry, 8 screens": ("B", 8, "lorry.book", [1, 2, 3, 4, 5, -6, -7, -8]),
        "Crane, 6 screens": ("A", 5, "crane.book", [1, 5, 3, 4, 2, 6])}
CHOICES = [*RIGS, "Empty rig"]


class FirstStart(PageTest):
    def setUp(self):
        super().setUp()
        self.first_visit()

    def seen(self):
        return self.js("return document.getElementById('examples').offsetParent !== null")

    def choices(self):
        return self.js("return [...document.querySelectorAll('#examples button')].filter(e => e.offsetParent !== null).map(e => e.textContent)")

    def value(self, label):
        return self.labelled(label).get_attribute("value")

    def test_each_example_is_a_whole_rig_and_undo_takes_it_back(self):
        self.assertEqual(self.choices(), CHOICES)
        for title, (kind, rank, book, shows) in RIGS.items():
            self.first_visit()
            before = self.js("return JSON.stringify(app.state)")
            self.press(title)
            self.assertFalse(self.seen())
            self.assertEqual(self.js("return [app.state.kind, app.state.rank, app.state.book.name]"), [kind, rank, book])
            self.assertEqual(self.screens(), shows)
            for keyword in ["source", "screen"]:
                self.assertTrue(all(self.value(f"name of {keyword} {at}") for at in range(1, len(shows) + 1)))
            self.assertEqual(self.js("return app.store.preset"), 0)
            self.assertIn(f"{book} is an example", self.text("notice"))
            self.assertFalse(self.asks_before_leaving())
            self.assertEqual(self.js("return document.querySelector('[role=tab][aria-selected=true]').textContent"), "Cabin")
            self.assertIn(f"{len(self.letters()) / 2:g} ms", self.text("letters"))
            self.press("Book")
            self.assertIn("2 presets, second edition", self.text("book-verdict"))
            self.press("Undo")
            self.assertEqual(self.js("return JSON.stringify(app.state)"), before)
            self.assertEqual(self.text("book-title"), "new.book (second edition)", "an empty new book needs no saving")

    def test_the_kinds_are_told_apart_in_words_of_the_trade(self):
        """What an example's sentence claims of its kind is what the library does with one mirrored view, and with two."""
        for title, (kind, rank, _, shows) in RIGS.items():
            button = self.labelled(title)
            about = self.js("return document.getElementById(arguments[0].getAttribute('aria-describedby')).textContent", button)
            self.assertIn(f"Kind {kind}", about)
            takes = lambda mirrored: self.js(
                "try { app.library.formOfWindow(...arguments); return true; } catch (error) { return false; }", kind, rank,
                [at if at > mirrored else -at for at in range(1, len(shows) + 1)])
            claims = {"A": ("never mirrors", [False, False]), "B": ("each view on its own", [True, True]), "D": ("in pairs", [False, True])}[kind]
            self.assertIn(claims[0], about)
            self.assertEqual([takes(1), takes(2)], claims[1])

    def test_it_comes_once(self):
        self.press("Empty rig")
        self.assertFalse(self.seen())
        self.assertEqual(self.js("return [app.state.kind, app.state.rank, app.store.canUndo]"), ["D", 5, False])
        self.load()
        self.assertFalse(self.seen())
        self.first_visit()
        self.load()
        self.assertTrue(self.seen())
        self.press("Car, 5 screens")
        self.load()
        self.assertFalse(self.seen())
        self.press("Start fresh")
        self.load()
        self.assertFalse(self.seen())

    def test_it_is_not_seen_beside_work(self):
        for begin in [lambda: self.press("add step 1: exchanges lanes 1 and 2"), lambda: self.word("1 2"), lambda: self.rig("B", 8),
                      lambda: self.write("name of source 1", "front"), lambda: self.drop(("cabin.book", bytes.fromhex("02 02 00 00 00 00 01 00")))]:
            self.first_visit()
            self.assertTrue(self.seen())
            begin()
            self.assertFalse(self.seen())
            self.load()
            self.assertFalse(self.seen())
        self.first_visit()
        self.drop(("photo.png", b"\x89PNG and more"))
        self.assertTrue(self.seen(), "a refused file is no work")

    def test_it_is_brought_back_and_unsaved_work_is_asked_about(self):
        self.press("Lorry, 8 screens")
        self.press("Book")
        self.press("Examples")
        self.assertTrue(self.seen())
        self.assertEqual(self.choices(), [*CHOICES, "Close the examples"])
        self.assertEqual(self.js("return document.activeElement.textContent"), CHOICES[0])
        self.press("Close the examples")
        self.assertEqual((self.seen(), self.focus()), (False, "bring-examples"))
        self.press("Examples")
        self.press("Crane, 6 screens")
        self.assertIn("crane.book", self.text("book-title"), "an example that was not changed can be had again")
        for change, said in [(lambda: self.word("1 2 3"), "The present word is in no book."),
                             (lambda: self.press("Append the present preset"), "crane.book is not saved."),
                             (lambda: self.write("name of source 2", "ahead"), "The names of crane.book are not saved.")]:
            self.first_visit()
            self.press("Crane, 6 screens")
            self.press("Book")
            change()
            before = self.js("return JSON.stringify(app.state)")
            for choice in ["Car, 5 screens", "Empty rig"]:
                self.press("Examples")
                self.press(choice)
                self.assertTrue(self.text("notice").startswith(said), self.text("notice"))
                self.assertEqual(self.js("return JSON.stringify(app.state)"), before)
                self.press("Keep crane.book as it is here")
                self.assertEqual((self.text("notice"), self.js("return JSON.stringify(app.state)")), ("", before))
                self.press("Close the examples")
            self.press("Examples")
            self.press("Car, 5 screens")
            self.press("Take Car, 5 screens all the same")
            self.assertEqual((self.js("return app.state.book.name"), self.seen()), ("car.book", False))
            self.press("Undo")
            self.assertEqual(self.js("return JSON.stringify(app.state)"), before)
            self.press("Book")
            self.press("Examples")
            self.press("Empty rig")
            self.press("Take Empty rig all the same")
            self.assertEqual(self.js("return [app.state.word, app.state.names.lines, app.state.book.name]"), [[], [], "new.book"])

    def test_by_the_keyboard(self):
        reached = []
        self.js("document.getElementById('save').focus()")
        for _ in CHOICES:
            ActionChains(self.driver).send_keys(Keys.TAB).perform()
            reached.append(self.js("return document.activeElement.textContent"))
        self.assertEqual(reached, CHOICES)
        self.labelled("Crane, 6 screens").send_keys(Keys.ENTER)
        self.assertEqual((self.js("return app.state.book.name"), self.focus()), ("crane.book", "picture"))
        ActionChains(self.driver).send_keys(Keys.TAB).perform()
        self.assertEqual(self.focus(), "skip")
        self.first_visit()
        self.labelled("Empty rig").send_keys(Keys.SPACE)
        self.assertEqual((self.seen(), self.focus()), (False, "picture"))

    def test_by_touch(self):
        box = self.js("const b = arguments[0].getBoundingClientRect(); return [b.x + 20, b.y + 10]", self.labelled("Lorry, 8 screens"))
        self.driver.execute_cdp_cmd("Emulation.setTouchEmulationEnabled", {"enabled": True})
        try:
            self.driver.execute_cdp_cmd("Input.dispatchTouchEvent", {"type": "touchStart", "touchPoints": [dict(zip("xy", box))]})
            self.driver.execute_cdp_cmd("Input.dispatchTouchEvent", {"type": "touchEnd", "touchPoints": []})
            self.settle()
        finally:
            self.driver.execute_cdp_cmd("Emulation.setTouchEmulationEnabled", {"enabled": False})
        self.assertEqual(self.js("return app.state.book.name"), "lorry.book")

    def test_it_fits_every_width_in_light_and_dark(self):
        for scheme in ["light", "dark"]:
            for width in [320, 360, 768, 1280, 3840]:
                self.size(width, 900, scheme)
                self.first_visit()
                self.assertLessEqual(self.js("return document.documentElement.scrollWidth"), width)
                self.assertEqual(self.js(CONTRAST), [], f"{scheme}, {width}")
                small = self.js("return [...document.querySelectorAll('#examples button')].filter(e => e.offsetParent !== null).map(e => e.getBoundingClientRect()).filter(b => b.height < 36 || b.width < 100 || b.right > innerWidth).length")
                self.assertEqual(small, 0)

    def test_the_picture_tells_what_it_shows(self):
        text = lambda: self.text("about-picture")
        self.assertIn("No step is taken yet: every screen shows the source with its own number, and no view is mirrored.", text())
        self.press("Car, 5 screens")
        self.assertIn("2 steps are taken from left to right; the views on screens 4 and 5 are mirrored.", text())
        self.press("Clear")
        self.assertIn("No step is taken yet", text())
