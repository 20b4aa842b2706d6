"""Screens of the cabin in front of others, marks of differences, refused places, and photographs that are no cabin."""
from selenium.webdriver.common.keys import Keys
from selenium.webdriver.support.ui import Select

from in_browser.cabin import BOOK, NAMES, Cabin
from in_browser.page import PageTest

# The screens whose content is not seen whole: another element is at its place.
BURIED = """return [...document.querySelectorAll('[data-cabin=now] .cabin-screen')].filter(screen =>
    [...screen.querySelectorAll('svg > text, .view, .cabin-unequal')].some(e => {
        const b = e.getBoundingClientRect();
        return [0.2, 0.5, 0.8].some(at => document.elementFromPoint(b.left + b.width * at, b.top + b.height / 2)?.closest('.cabin-screen') !== screen);
    })).map(screen => Number(screen.dataset.screen)).sort((a, b) => a - b)"""


def places(**numbers):
    return b"".join(b"place %d %d %d %d %d\n" % (int(screen[1:]), *place) for screen, place in numbers.items())


class Covered(PageTest):
    opened, drop_on_panel, picture, place, handle, names = Cabin.opened, Cabin.drop_on_panel, Cabin.picture, Cabin.place, Cabin.handle, Cabin.names

    def buried(self):
        self.js("document.querySelector('[data-cabin=now]').scrollIntoView({block: 'center'})")
        return self.js(BURIED)

    def hidden(self):
        return self.js("const e = document.getElementById('hidden-screens'); return e.offsetParent === null ? '' : e.textContent")

    # ---- covered

    ROW = {"s1": (0, 0, 300, 300), "s2": (350, 0, 300, 300), "s3": (700, 0, 300, 300), "s4": (100, 500, 300, 300)}

    def test_a_covered_screen_is_named(self):
        self.opened(NAMES + b"screen 4 right mirror\n" + places(**self.ROW, s5=(100, 500, 300, 300)))
        self.assertEqual((self.hidden(), self.buried()), ("Screen 4 right mirror is hidden behind screen 5: arrange the screens.", [4]))
        self.press("Sheet")
        note = lambda: self.js("return [...document.querySelectorAll('#sheet .cabin-note')].map(e => e.textContent).join(' ')")
        self.assertEqual(note(), "Screen 4 right mirror is hidden behind screen 5.")
        inside = self.js("const e = document.querySelector('#sheet .cabin-note').getBoundingClientRect(), s = document.querySelector('#sheet .cabin-drawing').getBoundingClientRect(); return e.bottom <= s.bottom + 1 && e.right <= s.right + 1")
        self.assertTrue(inside)
        self.press("Cabin")
        self.press("Arrange the screens")
        self.assertEqual(self.hidden(), "Screen 4 right mirror is hidden behind screen 5.")
        Select(self.labelled("Screen")).select_by_value("5")
        self.write("Left %", "12")
        self.assertEqual(self.hidden(), "Screen 4 right mirror is mostly hidden behind screen 5.")
        self.write("Left %", "50")
        self.assertEqual(self.hidden(), "")
        self.press("Arrange the screens")
        self.assertEqual(self.buried(), [])
        self.press("Sheet")
        self.assertEqual(note(), "")

    def test_a_screen_inside_another_is_seen_and_covers_no_text(self):
        self.opened(NAMES + places(**self.ROW, s5=(180, 580, 140, 160)))
        self.assertEqual((self.hidden(), self.buried()), ("", []))
        self.press("Wanted picture")
        Select(self.labelled("source on screen 4")).select_by_value("3")
        self.settle()
        self.press("Cabin")
        self.assertEqual(self.buried(), [])

    def test_without_room_they_stand_in_front(self):
        self.opened(NAMES + places(s1=(0, 0, 1000, 1000)))
        self.assertIn("Screens 2 left mirror, 3, 4 and 5 have no place yet, and there is no room: they stand in front of screen 1.", self.panel().text)
        self.assertNotIn("where there is room", self.panel().text)
        self.assertEqual((self.hidden(), self.buried()), ("", []))

    # ---- compared

    # What is wrong with a mark: not seen, without contrast, not inside its screen, or over a text.
    MARKS = """const wrong = [];
    for (const sign of document.querySelectorAll('.cabin-sign')) {
        sign.scrollIntoView({ block: 'center', inline: 'center' });
        const screen = sign.closest('.cabin-screen'), b = sign.getBoundingClientRect(), s = screen.querySelector(':scope > :is(.cabin-plate, .cabin-glass)').getBoundingClientRect();
        const name = `${sign.closest('figure').dataset.cabin} ${screen.dataset.screen}`;
        for (const at of [0.1, 0.5, 0.9]) if (document.elementFromPoint(b.left + b.width * at, b.top + b.height / 2)?.closest('.cabin-screen') !== screen) wrong.push(`${name} is covered`);
        if (getComputedStyle(sign).fill === getComputedStyle(sign.nextElementSibling).fill) wrong.push(`${name} has no contrast`);
        if (b.left < s.left || b.right > s.right || b.top < s.top || b.bottom > s.bottom) wrong.push(`${name} is outside`);
        for (const text of screen.querySelectorAll('svg > text')) {
            const t = text.getBoundingClientRect();
            // The box of a text is higher than its letters.
            if (t.left < b.right - 1 && b.left + 1 < t.right && t.top + 3 < b.bottom && b.top < t.bottom - 3) wrong.push(`${name} is over ${text.textContent}`);
        }
    }
    return [document.querySelectorAll('.cabin-sign').length, wrong];"""

    def test_every_mark_is_inside_its_screen(self):
        for kind, rank, width in [("D", 5, 1280), ("B", 16, 1280), ("D", 64, 1280), ("D", 64, 320), ("B", 16, 768)]:
            self.size(width, 900)
            self.fresh()
            self.drop(("cabin.book", b""), ("cabin.book.names", b"".join(b"screen %d left rear side\n" % screen for screen in range(1, 65))))
            self.press("Second edition")
            self.rig(kind, rank)
            self.word(" ".join(map(str, range(1, rank))))
            self.press("Wanted picture")
            self.press("Set all screens straight")
            self.press("Cabin")
            differing = sum(one != two for one, two in zip(self.screens(), range(1, rank + 1)))
            self.assertGreaterEqual(differing, rank - 1)
            self.assertEqual(self.js(self.MARKS), [2 * differing, []], f"{kind}{rank} at {width} px")

    def test_a_marked_screen_does_not_cover_one_inside_it(self):
        self.opened(NAMES + places(s1=(0, 0, 1000, 1000), s2=(40, 420, 160, 200), s3=(40, 700, 160, 200), s4=(800, 420, 160, 200), s5=(800, 700, 160, 200)))
        self.press("Wanted picture")
        self.press("mirror the view on screen 1")
        self.press("Cabin")
        self.assertEqual((self.buried(), self.js(self.MARKS)), ([], [2, []]))

    def test_numbers_of_presets_and_sources_do_not_run_together(self):
        self.opened(NAMES + b"source 3 rear right\n")
        self.word("1 2")
        Select(self.labelled("Compare with")).select_by_visible_text("preset 1")
        self.settle()
        shown, kept = self.screens(), self.js("const p = app.panels.cabin.presets[1]; return app.library.window(p.kind, p.rank, p.word)")
        self.assertEqual((shown[0], kept[0]), (2, 3))
        self.assertIn("screen 1: shows source 2, in preset 1 it shows source 3 rear right", self.panel().text)

    def compared(self):
        self.press("Cabin")
        return Select(self.labelled("Compare with")).first_selected_option.text, self.text("compared-gone")

    def test_the_comparison_follows_its_preset(self):
        for word in ["1", "2", "3"]:
            self.word(word)
            self.press("Book")
            self.press("Append the present preset")
        self.press("Cabin")
        Select(self.labelled("Compare with")).select_by_visible_text("preset 1")
        self.settle()
        # Each change is one that the cabin does not see while another panel is open.
        for change, expected in [("remove preset 0", "preset 0"), ("move preset 0 down", "preset 1"), ("duplicate preset 0", "preset 2"), ("replace preset 2", "preset 2")]:
            self.press("Book")
            self.press(change)
            self.assertEqual(self.compared(), (expected, ""), change)
        for _ in range(4):
            self.press("Undo")
        self.assertEqual(self.compared(), ("preset 1", ""))
        self.write_name(1, "Yard")
        self.press("Book")
        self.press("remove preset 1")
        self.assertEqual(self.compared(), ("nothing", "Preset 1 Yard, which was compared with, is no longer in the book."))
        self.assertIsNone(self.js("const e = document.querySelector('[data-cabin=other]'); return e.offsetParent"))
        Select(self.labelled("Compare with")).select_by_visible_text("preset 1")
        self.settle()
        self.assertEqual(self.compared(), ("preset 1", ""))
        self.press("Book")
        self.press("Convert to the first edition")
        self.assertEqual(self.compared(), ("preset 1", ""))
        self.drop(("other.book", BOOK))
        self.press("Open the file other.book all the same")
        self.assertEqual(self.compared(), ("nothing", ""))

    def write_name(self, preset, name):
        self.press("Book")
        self.write(f"name of preset {preset}", name)

    # ---- arranged

    def values(self):
        return [self.labelled(f"{side} %").get_attribute("value") for side in ["Left", "Top", "Width", "Height"]]

    def test_a_refused_number_stays_until_it_is_mended(self):
        self.opened(NAMES + places(s1=(250, 100, 500, 350)))
        self.press("Arrange the screens")
        self.write("Width %", "90")
        self.write("Height %", "abc")
        self.write("Top %", "20")
        self.assertEqual((self.place(1), self.values()), ([250, 200, 500, 350], ["25", "20", "90", "abc"]))
        self.assertEqual(self.text("place-message"), "Width is still 50 %. The screen would end outside the cabin: left and width make 115 %, and 100 % is all there is. It is taken as soon as left is 10 % or less. "
                         "Height is still 35 %. Type a number from 0 to 100, such as 12.5.")
        self.assertEqual([self.labelled(f"{side} %").get_attribute("aria-invalid") for side in ["Left", "Top", "Width", "Height"]], [None, None, "true", "true"])
        # A width that was refused for the left edge fits beside a smaller one.
        self.write("Left %", "5")
        self.assertEqual((self.place(1), self.values()), ([50, 200, 900, 350], ["5", "20", "90", "abc"]))
        self.assertEqual(self.text("place-message"), "Height is still 35 %. Type a number from 0 to 100, such as 12.5.")
        self.write("Height %", "30")
        self.assertEqual((self.place(1), self.text("place-message")), ([50, 200, 900, 300], ""))
        self.write("Height %", "99")
        Select(self.labelled("Screen")).select_by_value("2")
        self.settle()
        self.assertEqual((self.text("place-message"), self.labelled("Height %").get_attribute("aria-invalid")), ("", None))

    def test_what_was_said_of_places_goes_with_them(self):
        self.opened(NAMES + places(s1=(250, 100, 500, 350)))
        self.press("Arrange the screens")
        self.press("Back to the grid")
        self.assertIn("All screens stand in the grid again.", self.panel().text)
        self.press("Undo the last change")
        self.assertEqual(self.place(1), [250, 100, 500, 350])
        self.assertNotIn("stand in the grid", self.panel().text)

    def test_another_book_has_none_of_the_sentences_of_the_one_before(self):
        self.press("Cabin")
        self.press("Arrange the screens")
        self.press("Back to the grid")
        self.assertIn("All screens stand in the grid.", self.panel().text)
        self.write("Width %", "abc")
        grid = self.js("return app.panels.cabin.arranging.places[0].width / 10")
        self.drop(("other.book", BOOK))
        self.press("load preset 1")
        self.press("Cabin")
        self.assertEqual((self.values()[2], self.text("place-message")), (str(grid), ""))
        self.assertNotIn("stand in the grid", self.panel().text)

    # ---- the photograph

    def test_the_focus_stays_when_the_photograph_goes(self):
        self.opened(NAMES)
        self.drop_on_panel("view.png", self.picture(300, 400, "image/png"), "image/png")
        self.labelled("Remove the photograph").send_keys(Keys.ENTER)
        self.settle()
        self.assertEqual((self.focus(), self.names()), ("choose-photograph", NAMES.decode()))

    def test_a_photograph_too_narrow_is_refused(self):
        self.opened(NAMES)
        for width, height in [(1, 2000), (2000, 1), (501, 100)]:
            self.drop_on_panel("view.png", self.picture(width, height, "image/png"), "image/png")
            self.assertIn(f"view.png has {width} × {height} pixels. One side of a photograph may be 5 times as long as the other at most", self.text("notice"))
            self.assertIn("Nothing was changed.", self.text("notice"))
            self.assertEqual(self.names(), NAMES.decode())
        self.drop_on_panel("view.png", self.picture(100, 500, "image/png"), "image/png")
        self.assertEqual((self.text("notice"), self.names()), ("", (NAMES + b"photograph view.png\n").decode()))
        box = self.js("const b = document.querySelector('[data-cabin=now] .cabin-stage').getBoundingClientRect(); return [b.width, b.height]")
        self.assertGreater(min(box), 80)
        self.drop(("cabin.book", BOOK), ("cabin.book.names", NAMES + b"photograph high.png\n"), ("high.png", self.picture(10, 900, "image/png")))
        self.press("Open the file cabin.book all the same")
        self.settle()
        self.assertIn("high.png has 10 × 900 pixels.", self.text("notice"))
