"""The cabin: screens arranged, over a photograph, compared, saved, printed."""
import base64
import time

from selenium.webdriver.common.action_chains import ActionChains
from selenium.webdriver.common.by import By
from selenium.webdriver.common.keys import Keys
from selenium.webdriver.support.ui import Select, WebDriverWait

from in_browser.books import Books
from in_browser.feel import CONTRAST
from in_browser.page import PageTest

NAMES = b"source 5 rear left\nsource 1 left door\nscreen 2 left mirror\n"
LAYOUT = NAMES + b"place 1 250 100 500 350\nplace 2 40 420 160 200\nphotograph cabin-3.jpg\n"
BOOK = Books.BOOK
# A picture made in the page: three stripes, no two alike.
PICTURE = """const [width, height, type] = arguments, canvas = document.createElement('canvas');
    Object.assign(canvas, { width, height });
    const context = canvas.getContext('2d');
    ['#000000', '#ffffff', '#3b7'].forEach((colour, at) => { context.fillStyle = colour; context.fillRect(at * width / 3, 0, width / 3, height); });
    return canvas.toDataURL(type).split(',')[1];"""


class Cabin(PageTest):
    def picture(self, width=800, height=600, type="image/jpeg"):
        return base64.b64decode(self.js(PICTURE, width, height, type))

    def drop_on_panel(self, name, content, type):
        self.driver.execute_async_script(
            """const [name, text, type, done] = arguments, data = new DataTransfer();
            data.items.add(new File([Uint8Array.from(atob(text), c => c.charCodeAt(0))], name, { type }));
            document.querySelector('#panel-cabin .cabins').dispatchEvent(new DragEvent('drop', { dataTransfer: data, bubbles: true, cancelable: true }));
            setTimeout(done, 300);""", name, base64.b64encode(content).decode(), type)
        self.settle()

    def opened(self, names=LAYOUT, *more):
        self.drop(("cabin.book", BOOK), ("cabin.book.names", names), *more)
        self.press("load preset 1")
        self.press("Cabin")
        time.sleep(0.2)
        self.settle()

    def names(self):
        return self.js("return document.body && new TextDecoder().decode(Uint8Array.from(app.state.names.lines.map(l => l.raw + app.state.names.end).join(''), c => c.charCodeAt(0)))")

    def place(self, screen):
        return self.js("const l = app.state.names.lines.find(l => l.keyword === 'place' && l.number === arguments[0]); return l ? Object.values(l.place) : null", screen)

    def handle(self, label):
        return self.labelled(f"place of screen {label}")

    def shown(self, cabin="now"):
        """What each screen of a cabin shows: its entry, whether its view is really turned over, and whether it is marked."""
        return self.js(
            """return [...document.querySelectorAll(`[data-cabin=${arguments[0]}] .cabin-screen`)].sort((a, b) => a.dataset.screen - b.dataset.screen).map(e => {
                const arrow = e.querySelector('.arrow').getBoundingClientRect(), letter = e.querySelector('.glyph').getBoundingClientRect();
                return [Number(e.dataset.entry), arrow.left < letter.left, e.querySelector('.cabin-differs') !== null && e.textContent.includes('≠')];
            })""", cabin)

    def message(self):
        return self.text("photograph-message")

    def over(self):
        """The photograph that is seen behind the screens: its alternative text and shape, or None."""
        return self.js("const e = document.querySelector('[data-cabin=now] img'); return e.hidden ? null : [e.alt, e.naturalWidth, e.naturalHeight, getComputedStyle(e).opacity]")

    # ---- what is seen

    def test_11_every_view_on_its_screen_the_right_way_round(self):
        self.opened(NAMES)
        self.assertEqual(self.screens(), [3, -5, 1, 4, -2])
        self.assertEqual([(entry, turned) for entry, turned, _ in self.shown()], [(3, False), (-5, True), (1, False), (4, False), (-2, True)])
        text = self.js("return document.querySelector('[data-cabin=now] [data-screen=\"2\"]').textContent")
        for part in ["2 left mirror", "5 rear left", "mirrored"]:
            self.assertIn(part, text)
        self.assertIn("screen 2 left mirror shows 5 rear left mirrored;", self.js("return document.querySelector('[data-cabin=now] svg').getAttribute('aria-label')"))
        colours = self.js("return [...document.querySelectorAll('[data-cabin=now] .cabin-screen')].map(e => getComputedStyle(e.querySelector('.cabin-line, .cabin-double')).stroke)")
        self.assertEqual(len(set(colours)), 5)
        self.rig("B", 20)
        dashes = self.js("return [...document.querySelectorAll('[data-cabin=now] .cabin-screen')].map(e => getComputedStyle(e.querySelector('.cabin-line, .cabin-double')).stroke + e.querySelector('.cabin-line, .cabin-double').getAttribute('stroke-dasharray'))")
        self.assertEqual(len(set(dashes)), 20)

    def test_11_a_preset_of_a_larger_rig_hides_no_screen(self):
        self.opened()
        self.assertIn("Screens 3, 4 and 5 have no place yet and stand where there is room.", self.panel().text)
        self.rig("B", 20)
        boxes = self.js("return [...document.querySelectorAll('[data-cabin=now] .cabin-screen > :is(.cabin-plate, .cabin-glass)')].map(e => { const b = e.getBoundingClientRect(); return [b.left, b.top, b.right, b.bottom]; })")
        self.assertEqual(len(boxes), 20)
        over = [(one, two) for at, one in enumerate(boxes) for two in boxes[at + 1:] if one[0] < two[2] and two[0] < one[2] and one[1] < two[3] and two[1] < one[3]]
        self.assertEqual(over, [])

    def test_11_arranged_by_the_mouse_saved_and_read_again(self):
        self.opened(NAMES)
        self.press("Arrange the screens")
        before = self.js("return app.arranged = app.panels.cabin.arranging.places[1]")
        handle = self.handle("2 left mirror")
        stage = self.js("const b = document.querySelector('[data-cabin=now] .cabin-stage').getBoundingClientRect(); return [b.width, b.height]")
        self.js("arguments[0].scrollIntoView({block: 'center'})", handle)
        right, down = -round(stage[0] * 0.05), round(stage[1] * 0.1)
        ActionChains(self.driver, duration=40).move_to_element(handle).click_and_hold().move_by_offset(3, 3).move_by_offset(right - 3, down - 3).release().perform()
        self.settle()
        left, top, width, height = self.place(2)
        self.assertAlmostEqual(left, before["left"] - 50, delta=5)
        self.assertAlmostEqual(top, before["top"] + 100, delta=5)
        self.assertEqual((width, height), (before["width"], before["height"]))
        corner = self.js("return document.querySelector('.chosen .cabin-corner')")
        ActionChains(self.driver, duration=40).move_to_element(corner).click_and_hold().move_by_offset(round(-stage[0] * 0.1), 0).release().perform()
        self.settle()
        self.assertAlmostEqual(self.place(2)[2], width - 100, delta=5)
        self.assertEqual(self.place(2)[3], height)
        self.press("Save")
        self.saved("cabin.book")
        expected = NAMES + b"place 2 %d %d %d %d\n" % tuple(self.place(2))
        self.assertEqual(self.saved("cabin.book.names"), expected)
        box = self.js("const b = arguments[0].getBoundingClientRect(), s = document.querySelector('[data-cabin=now] .cabin-stage').getBoundingClientRect(); return [b.left - s.left, b.width].map(v => v / s.width * 1000)", self.handle("2 left mirror"))
        self.assertAlmostEqual(box[0], self.place(2)[0], delta=1)
        self.fresh()
        self.opened(expected)
        drawn = self.js("const g = document.querySelector('[data-cabin=now] [data-screen=\"2\"] .cabin-plate').getBoundingClientRect(), s = document.querySelector('[data-cabin=now] .cabin-stage').getBoundingClientRect(); return [g.left - s.left, g.width].map(v => v / s.width * 1000)")
        for seen, kept in zip(drawn, box):
            self.assertAlmostEqual(seen, kept, delta=2)

    def touch(self, type, x=None, y=None):
        points = [] if x is None else [{"x": x, "y": y}]
        self.driver.execute_cdp_cmd("Input.dispatchTouchEvent", {"type": type, "touchPoints": points})

    def test_11_arranged_by_touch(self):
        self.opened(NAMES)
        self.press("Arrange the screens")
        self.size(360, 900)
        self.settle()
        handle = self.handle("1")
        self.js("arguments[0].scrollIntoView({block: 'center'})", handle)
        scrolled = self.js("return scrollY")
        x, y = self.js("const b = arguments[0].getBoundingClientRect(); return [b.left + b.width / 2, b.top + b.height / 2]", handle)
        before = self.js("return app.panels.cabin.arranging.places[0]")
        self.touch("touchStart", x, y)
        for step in range(1, 6):
            self.touch("touchMove", x + 6 * step, y + 8 * step)
        self.touch("touchEnd")
        self.settle()
        left, top, *_ = self.place(1)
        self.assertGreater(left, before["left"] + 50)
        self.assertGreater(top, before["top"] + 100)
        self.assertEqual(self.js("return scrollY"), scrolled)
        width = self.place(1)[2]
        x, y = self.js("const b = document.querySelector('.chosen .cabin-corner').getBoundingClientRect(); return [b.left + b.width / 2, b.top + b.height / 2]")
        self.touch("touchStart", x, y)
        for step in range(1, 5):
            self.touch("touchMove", x + 6 * step, y)
        self.touch("touchEnd")
        self.settle()
        self.assertEqual(self.place(1)[:2], [left, top])
        self.assertGreater(self.place(1)[2], width + 40)
        small = self.js("return [...document.querySelectorAll('.cabin-handle, .chosen .cabin-corner, #panel-cabin button, #panel-cabin input, #panel-cabin select')].filter(e => e.offsetParent !== null).filter(e => { const b = e.getBoundingClientRect(); return b.width < 24 || b.height < 24; }).length")
        self.assertEqual(small, 0)
        for _ in range(2):
            self.press("Undo the last change")
        self.assertEqual(self.place(1), None)

    def test_11_arranged_by_the_keyboard(self):
        self.opened()
        self.press("Arrange the screens")
        self.js("arguments[0].focus()", self.handle("2 left mirror"))
        keys = lambda *list: [ActionChains(self.driver).send_keys(key).perform() for key in list]
        keys(Keys.ARROW_RIGHT, Keys.ARROW_RIGHT, Keys.ARROW_UP)
        self.assertEqual(self.place(2), [60, 410, 160, 200])
        ActionChains(self.driver).key_down(Keys.SHIFT).send_keys(Keys.ARROW_RIGHT, Keys.ARROW_DOWN, Keys.ARROW_DOWN).key_up(Keys.SHIFT).perform()
        self.settle()
        self.assertEqual(self.place(2), [60, 410, 170, 220])
        handle = self.handle("2 left mirror")
        self.assertEqual(handle.get_attribute("aria-description"), "6 % from the left, 41 % from the top, 17 % wide, 22 % high")
        self.assertIn("Screen 2 left mirror: 6 % from the left, 41 % from the top, 17 % wide, 22 % high.", self.panel().text)
        self.assertEqual(self.focus(), "place of screen 2 left mirror")
        self.assertTrue(self.js("const s = getComputedStyle(document.activeElement); return s.outlineStyle !== 'none' && parseFloat(s.outlineWidth) >= 2"))
        for _ in range(40):
            keys(Keys.ARROW_LEFT)
        self.assertEqual(self.place(2)[0], 0)
        self.keys("z")
        self.assertEqual(self.place(2)[0], 10)
        self.assertEqual(self.focus(), "place of screen 2 left mirror")
        keys(Keys.TAB)
        self.assertEqual(self.focus(), "place of screen 3")

    def test_11_one_drag_is_one_step_back(self):
        self.opened()
        self.press("Arrange the screens")
        self.drag(self.handle("2 left mirror"), self.handle("1"))
        self.assertNotEqual(self.place(2), [40, 420, 160, 200])
        self.press("Undo")
        self.assertEqual(self.place(2), [40, 420, 160, 200])
        self.press("Redo")
        self.press("Back to the grid")
        self.assertEqual((self.place(1), self.place(2)), (None, None))
        self.assertIn("photograph cabin-3.jpg", self.names())
        self.assertIn("Undo brings their places back.", self.panel().text)
        self.press("Undo the last change")
        self.assertEqual(self.place(1), [250, 100, 500, 350])
        start = self.handle("1")
        self.js("arguments[0].scrollIntoView({block: 'center'})", start)
        ActionChains(self.driver, duration=40).move_to_element(start).click_and_hold().move_by_offset(40, 40).send_keys(Keys.ESCAPE).release().perform()
        self.settle()
        self.assertEqual(self.place(1), [250, 100, 500, 350])

    def test_11_places_are_typed(self):
        self.opened()
        self.press("Arrange the screens")
        Select(self.labelled("Screen")).select_by_visible_text("2 left mirror")
        self.assertEqual([self.labelled(f"{side} %").get_attribute("value") for side in ["Left", "Top", "Width", "Height"]], ["4", "42", "16", "20"])
        self.write("Left %", "12,5")
        self.assertEqual(self.place(2), [125, 420, 160, 200])
        self.write("Width %", "90")
        self.assertEqual(self.place(2), [125, 420, 160, 200])
        self.assertIn("left and width make 102.5 %", self.text("place-message"))
        self.assertEqual(self.labelled("Width %").get_attribute("aria-invalid"), "true")
        self.write("Width %", "1")
        self.assertIn("at least 2 %", self.text("place-message"))
        self.write("Width %", "20")
        self.assertEqual((self.place(2), self.text("place-message")), ([125, 420, 200, 200], ""))
        self.assertEqual(self.labelled("Width %").get_attribute("aria-invalid"), None)

    # ---- the photograph

    def test_11_a_photograph_is_chosen_saved_once_and_kept(self):
        self.opened(NAMES)
        picture = self.picture()
        file = f"{self.downloads}/our cabin.jpg"
        with open(file, "wb") as out:
            out.write(picture)
        self.assertEqual(self.over(), None)
        self.js("window.clicked = 0; document.getElementById('photograph-file').addEventListener('click', event => { window.clicked += 1; event.preventDefault(); })")
        self.press("Choose a photograph")
        self.assertEqual(self.js("return window.clicked"), 1)
        self.driver.find_element(By.ID, "photograph-file").send_keys(file)
        WebDriverWait(self.driver, 5).until(lambda _: self.over())
        self.settle()
        self.assertEqual(self.over(), ["photograph of the cabin, our cabin.jpg", 800, 600, "0.75"])
        shape = self.js("const b = document.querySelector('[data-cabin=now] .cabin-stage').getBoundingClientRect(); return b.width / b.height")
        self.assertAlmostEqual(shape, 4 / 3, places=1)
        self.assertEqual(self.names(), (NAMES + b"photograph our cabin.jpg\n").decode())
        self.saved("our cabin.jpg")
        self.press("Save")
        self.saved("cabin.book")
        self.assertEqual(self.saved("cabin.book.names"), NAMES + b"photograph our cabin.jpg\n")
        self.assertEqual(self.saved("our cabin.jpg"), picture)
        self.assertIn("cabin.book, cabin.book.names and our cabin.jpg were given to the browser", self.text("notice"))
        self.press("Save")
        self.assertIn("cabin.book and cabin.book.names were given", self.text("notice"))
        self.press("Undo")
        self.assertEqual((self.over(), self.names()), (None, NAMES.decode()))
        self.press("Redo")
        self.assertEqual(self.over()[0], "photograph of the cabin, our cabin.jpg")
        self.js("app.draft.write()")
        self.load()
        self.press("Go on with it")
        self.press("Cabin")
        WebDriverWait(self.driver, 5).until(lambda _: self.over())
        self.assertEqual(self.over()[1:3], [800, 600])
        self.press("Remove the photograph")
        self.assertEqual((self.over(), self.names()), (None, NAMES.decode()))

    def test_11_a_photograph_comes_with_its_book(self):
        self.opened(LAYOUT, ("cabin-3.jpg", self.picture()))
        self.assertEqual(self.over()[0], "photograph of the cabin, cabin-3.jpg")
        self.assertEqual((self.text("notice"), self.message()), ("", ""))
        self.press("Save")
        self.saved("cabin.book")
        self.saved("cabin.book.names")
        self.assertIn("cabin.book and cabin.book.names were given", self.text("notice"))
        self.press("Book")
        self.press("New book")
        self.press("Cabin")
        self.assertEqual((self.over(), self.names()), (None, ""))
        self.press("Take over the names of cabin.book")
        self.assertEqual(self.over()[0], "photograph of the cabin, cabin-3.jpg")
        self.assertEqual(self.place(1), [250, 100, 500, 350])

    HANDLES, pick, written = Books.HANDLES, Books.pick, Books.written

    def test_11_a_photograph_is_put_beside_the_opened_files(self):
        files = {"cabin.book": BOOK, "cabin.book.names": LAYOUT, "cabin-3.jpg": self.picture()}
        self.pick(files)
        self.press("Cabin")
        WebDriverWait(self.driver, 5).until(lambda _: self.over())
        self.press("Save")
        self.assertEqual(set(self.written()), {"cabin.book", "cabin.book.names"})
        self.assertEqual(self.text("notice"), "cabin.book and cabin.book.names were saved.")
        other = self.picture(300, 400, "image/png")
        self.drop_on_panel("view.png", other, "image/png")
        self.press("Save")
        self.assertEqual(self.written()["cabin.book.names"], LAYOUT.replace(b"cabin-3.jpg", b"view.png"))
        self.assertEqual(self.saved("view.png"), other)
        self.assertIn("view.png was given to the browser, which puts it with its downloads. Put view.png beside the book.", self.text("notice"))
        self.press("Book")
        self.press("Save as a new file")
        for name in ["cabin.book", "cabin.book.names"]:
            self.saved(name)
        self.assertEqual(self.saved("view.png"), other)

    def test_11_a_missing_photograph_is_asked_for_by_its_name(self):
        self.opened()
        self.assertIn("The photograph of the cabin, cabin-3.jpg, did not come with cabin.book.", self.text("notice"))
        self.assertIn("The photograph cabin-3.jpg was not opened with this book: choose it", self.message())
        self.labelled("Choose cabin-3.jpg")
        self.press("Go on without it")
        self.drop(("cabin-3.jpg", self.picture()))
        time.sleep(0.3)
        self.settle()
        self.assertEqual((self.over()[0], self.message()), ("photograph of the cabin, cabin-3.jpg", ""))
        self.assertEqual(self.names(), LAYOUT.decode())
        self.press("Save")
        self.assertIn("cabin.book and cabin.book.names were given", self.text("notice"))

    def test_11_what_is_dropped_on_the_cabin_is_its_photograph(self):
        self.opened(NAMES)
        self.drop_on_panel("view.png", self.picture(300, 400, "image/png"), "image/png")
        self.assertEqual(self.over()[:3], ["photograph of the cabin, view.png", 300, 400])
        self.assertFalse(self.js("return document.body.classList.contains('dropping')"))
        self.drop_on_panel("wrong.png", b"no picture at all", "image/png")
        self.assertIn("wrong.png cannot be read as a picture.", self.text("notice"))
        self.assertEqual(self.over()[0], "photograph of the cabin, view.png")
        self.drop_on_panel("notes.txt", b"hello", "text/plain")
        self.assertIn("notes.txt is no preset book and was not opened", self.text("notice"))
        self.js("const slice = Object.getOwnPropertyDescriptor(Blob.prototype, 'size'); Object.defineProperty(Blob.prototype, 'size', { configurable: true, get() { return this.name === 'large.png' ? 30 * 1048576 : slice.get.call(this); } })")
        self.drop_on_panel("large.png", self.picture(30, 40, "image/png"), "image/png")
        self.assertIn("large.png has 30 MB. A photograph may have 25 MB at most", self.text("notice"))
        self.assertEqual(self.names(), (NAMES + b"photograph view.png\n").decode())

    def test_11_a_picture_that_the_names_do_not_have_is_not_used(self):
        self.driver.execute_async_script(
            """const [files, done] = arguments, data = new DataTransfer();
            for (const [name, text, type] of files) data.items.add(new File([Uint8Array.from(atob(text), c => c.charCodeAt(0))], name, { type }));
            document.querySelector('main').dispatchEvent(new DragEvent('drop', { dataTransfer: data, bubbles: true, cancelable: true }));
            setTimeout(done, 200);""",
            [[name, base64.b64encode(content).decode(), type] for name, content, type in [("cabin.book", BOOK, ""), ("cabin.book.names", LAYOUT, ""), ("view.png", self.picture(30, 40, "image/png"), "image/png")]])
        self.settle()
        self.assertIn("view.png is not used: the names have the photograph cabin-3.jpg.", self.text("notice"))
        self.press("Cabin")
        self.assertEqual((self.over(), self.names()), (None, LAYOUT.decode()))

    def test_11_a_picture_elsewhere_is_asked_about(self):
        self.opened(NAMES)
        self.press("Why")
        drop = """const [text, done] = arguments, data = new DataTransfer();
            data.items.add(new File([Uint8Array.from(atob(text), c => c.charCodeAt(0))], 'view.png', { type: 'image/png' }));
            document.querySelector('main').dispatchEvent(new DragEvent('drop', { dataTransfer: data, bubbles: true, cancelable: true }));
            setTimeout(done, 200);"""
        text = base64.b64encode(self.picture(300, 400, "image/png")).decode()
        self.driver.execute_async_script(drop, text)
        self.assertIn("view.png is a picture and no preset book.", self.text("notice"))
        self.press("Do not use it")
        self.assertEqual((self.text("notice"), self.names()), ("", NAMES.decode()))
        self.driver.execute_async_script(drop, text)
        self.press("Use it as the photograph of the cabin")
        WebDriverWait(self.driver, 5).until(lambda _: self.over())
        self.assertEqual(self.over()[0], "photograph of the cabin, view.png")

    def test_11_a_browser_that_keeps_no_photograph_says_so(self):
        self.opened(NAMES)
        self.js("indexedDB.open = () => { throw new Error('none'); }")
        self.drop_on_panel("view.png", self.picture(300, 400, "image/png"), "image/png")
        self.assertEqual(self.message(), "This browser cannot keep the photograph: after a reload, choose view.png again.")
        self.js("app.draft.write()")
        self.load()
        self.press("Go on with it")
        self.press("Cabin")
        WebDriverWait(self.driver, 5).until(lambda _: self.message())
        self.assertEqual(self.message(), "This browser has not kept the photograph view.png: choose it again.")

    # ---- compared

    def test_11_compared_with_the_wanted_picture(self):
        self.opened(NAMES)
        self.assertEqual(Select(self.labelled("Compare with")).first_selected_option.text, "nothing")
        self.press("Wanted picture")
        Select(self.labelled("source on screen 2 left mirror")).select_by_visible_text("1 left door")
        self.settle()
        self.press("Cabin")
        self.assertEqual(Select(self.labelled("Compare with")).first_selected_option.text, "the wanted picture")
        self.assertEqual([differs for *_, differs in self.shown()], [False, True, True, False, False])
        self.assertEqual(self.shown("other"), [[3, False, False], [1, False, True], [-5, True, True], [4, False, False], [-2, True, False]])
        text = self.panel().text
        self.assertIn("screen 2 left mirror: shows 5 rear left mirrored, wanted 1 left door", text)
        self.assertIn("2 of 5 screens differ, marked with ≠:", text)
        Select(self.labelled("Compare with")).select_by_visible_text("nothing")
        self.settle()
        self.assertEqual(self.shown("other") if self.js("return document.querySelector('[data-cabin=other]').offsetParent !== null") else [], [])
        self.assertFalse(any(differs for *_, differs in self.shown()))

    def test_11_compared_with_a_preset(self):
        self.opened(NAMES + b"preset 0 Yard\n")
        Select(self.labelled("Compare with")).select_by_visible_text("preset 1")
        self.settle()
        self.assertIn("All 5 screens show the same in both pictures.", self.panel().text)
        Select(self.labelled("Compare with")).select_by_visible_text("preset 0 Yard")
        self.settle()
        self.assertIn("Preset 0 Yard", self.panel().text)
        other = [entry for entry, *_ in self.shown("other")]
        kind, rank, word = self.js("const p = app.library.presets(1, app.state.book.bytes)[0]; return [p.kind, p.rank, p.word]")
        self.assertEqual(other, self.library("window", kind, rank, word))
        self.assertIn("screen 5: shows source 2 mirrored, is not in preset 0", self.panel().text)
        self.press("Book")
        self.press("remove preset 0")
        self.press("remove preset 0")
        self.press("Cabin")
        self.assertEqual(Select(self.labelled("Compare with")).first_selected_option.text, "nothing")

    def test_11_the_sheet_has_the_cabin_once_it_is_known(self):
        self.opened(NAMES)
        self.press("Sheet")
        cabin = "return document.querySelector('#sheet .cabin-drawing')"
        self.assertIsNone(self.js(cabin))
        self.drop(("cabin.book.names", LAYOUT), ("cabin-3.jpg", self.picture()))
        self.settle()
        drawing = self.js(cabin)
        self.assertIn("screen 2 left mirror shows 5 rear left mirrored", drawing.get_attribute("aria-label"))
        self.assertEqual(len(drawing.find_elements(By.CSS_SELECTOR, "image")), 1)
        self.assertEqual([int(e.get_attribute("data-entry")) for e in sorted(drawing.find_elements(By.CSS_SELECTOR, ".cabin-screen"), key=lambda e: e.get_attribute("data-screen"))], self.screens())
        pdf = base64.b64decode(self.driver.print_page())
        self.assertTrue(pdf.startswith(b"%PDF") and b"/Subtype /Image" in pdf)

    # ---- everywhere

    def test_11_the_cabin_fits_every_page_and_is_readable(self):
        names = LAYOUT.replace(b"left mirror", b"W" * 80)
        for scheme, widths in [("light", [320, 768, 3840]), ("dark", [320, 1280])]:
            for width in widths:
                self.size(width, 800, scheme)
                self.fresh()
                self.opened(names, ("cabin-3.jpg", self.picture()))
                self.press("Wanted picture")
                self.press("mirror the view on screen 1")
                for kind, rank in [("D", 5), ("B", 64)]:
                    if rank == 64:
                        self.rig(kind, rank)
                    self.press("Cabin")
                    for press in [None, "Arrange the screens", "Arrange the screens"]:
                        if press:
                            self.press(press)
                        self.assertLessEqual(self.js("return document.documentElement.scrollWidth"), width, f"{kind}{rank}, {press}")
                        self.assertEqual(self.js(CONTRAST), [])
                        self.assertEqual(self.js(PLATES), [], f"{scheme}, {width}, {kind}{rank}")

    def test_11_forced_colours_leave_the_marks(self):
        self.opened(NAMES)
        self.press("Wanted picture")
        self.press("mirror the view on screen 1")
        self.press("Cabin")
        self.driver.execute_cdp_cmd("Emulation.setEmulatedMedia", {"media": "", "features": [{"name": "forced-colors", "value": "active"}]})
        self.settle()
        self.assertEqual(self.js(PLATES), [])
        mark, ground = self.js("const e = document.querySelector('.cabin-differs'), s = document.querySelector('.cabin-ground'); return [getComputedStyle(e).stroke, getComputedStyle(s).fill]")
        self.assertNotEqual(mark, ground)

    def test_11_the_cabin_is_drawn_when_it_is_looked_at(self):
        self.opened(NAMES)
        self.press("Why")
        self.js("window.drawn = 0; new MutationObserver(() => { window.drawn += 1; }).observe(document.getElementById('panel-cabin'), { subtree: true, childList: true, attributes: true })")
        self.word("1 2 3")
        self.assertEqual(self.js("return window.drawn"), 0)
        self.press("Cabin")
        self.assertEqual([entry for entry, *_ in self.shown()], self.screens())


# Text of the drawing that has too little contrast to its plate, or runs out of its screen or plate.
PLATES = """
const parse = text => text.match(/[\\d.]+/g).slice(0, 3).map(Number);
const lum = rgb => rgb.map(v => { v /= 255; return v <= 0.04045 ? v / 12.92 : ((v + 0.055) / 1.055) ** 2.4; }).reduce((s, v, i) => s + v * [0.2126, 0.7152, 0.0722][i], 0);
const bad = [];
for (const screen of document.querySelectorAll('.cabin-screen')) {
    const [plate] = [...screen.querySelectorAll('svg > .cabin-plate')];
    const ground = parse(getComputedStyle(plate).fill), box = plate.getBoundingClientRect();
    if (getComputedStyle(plate).opacity !== '1' || getComputedStyle(plate).fillOpacity !== '1') bad.push('a plate that is seen through');
    for (const text of screen.querySelectorAll('svg > text')) {
        const [a, b] = [lum(parse(getComputedStyle(text).fill)), lum(ground)].map(v => v + 0.05);
        const place = text.getBoundingClientRect(), wide = /WWW/.test(screen.textContent);
        if (Math.max(a, b) / Math.min(a, b) < 4.5) bad.push(`contrast of ${text.textContent}`);
        if (!wide && (place.left < box.left - 1 || place.right > box.right + 1)) bad.push(`${text.textContent} runs out`);
    }
}
return bad;"""
