"""What is kept: nothing that is not saved goes without a question, and the star beside the book's name says what is saved."""
import base64
import time

from selenium.webdriver.support.ui import WebDriverWait

from in_browser.books import Books as _Books
from in_browser.page import PageTest

BOOK = _Books.BOOK
NAMES = b"source 1 rear view\nscreen 1 windscreen\n"
DROP = """const [files, done] = arguments;
    const data = new DataTransfer();
    for (const [name, text, type] of files) data.items.add(new File([Uint8Array.from(atob(text), c => c.charCodeAt(0))], name, { type }));
    document.querySelector('main').dispatchEvent(new DragEvent('drop', { dataTransfer: data, bubbles: true, cancelable: true }));
    setTimeout(done, 250);"""


class Keeping(PageTest):
    written, HANDLES, pick = _Books.written, _Books.HANDLES, _Books.pick

    def other(self):
        return bytes(self.js("return [...app.library.append(2, [], 'D', 5, [5, 4])]"))

    def picture(self, width, height):
        """A picture that the browser makes."""
        url = self.js("const c = Object.assign(document.createElement('canvas'), { width: arguments[0], height: arguments[1] }); c.getContext('2d').fillRect(0, 0, 9, 9); return c.toDataURL('image/png')", width, height)
        return base64.b64decode(url.split(",")[1])

    def drop_typed(self, *files):
        """Drops files that say what they are: each a name, bytes and a type."""
        self.driver.execute_async_script(DROP, [[name, base64.b64encode(content).decode(), type] for name, content, type in files])
        self.settle()

    def photograph(self, name, content):
        """Makes a picture the photograph of the cabin."""
        self.drop_typed((name, content, "image/png"))
        if "is a picture and no preset book." in self.text("notice"):
            self.press("Use it as the photograph of the cabin")
            WebDriverWait(self.driver, 5).until(lambda _: self.js("return app.state.photograph?.file") == name)
        self.settle()

    def starred(self):
        title = self.driver.title.startswith("* ")
        self.assertEqual(self.text("book-title").endswith(" *"), title)
        return title

    def value(self, label):
        return self.labelled(label).get_attribute("value")

    def held(self):
        return self.js("return app.state.names.lines.map(line => line.raw)")

    def delay(self):
        self.press("Delays")
        self.js("const e = document.getElementById('step-time'); e.value = '2.5'; e.dispatchEvent(new Event('change'))")
        self.settle()

    def layout(self):
        self.press("Cabin")
        self.press("Arrange the screens")
        self.write("Left %", "5")

    def test_07_what_is_not_saved_is_asked_about_before_another_book(self):
        files = [("cabin.book", BOOK), ("cabin.book.names", NAMES)]
        name = lambda: self.write("name of source 1", "front")
        for change in [name, self.delay, self.layout, lambda: self.photograph("view.png", self.picture(30, 40))]:
            self.fresh()
            self.drop(*files)
            change()
            held = self.held()
            self.assertNotEqual(held, NAMES.decode().splitlines())
            self.press("Book")
            for replace in [lambda: self.drop(("other.book", self.other())), lambda: self.drop(*files), lambda: self.press("New book")]:
                replace()
                self.assertIn("The names of cabin.book are not saved.", self.text("notice"))
                self.press("Keep cabin.book as it is here")
                self.assertEqual((self.text("notice"), self.held()), ("", held))
            self.drop(*files)
            self.press("Open the file cabin.book all the same")
            self.assertEqual(self.held(), NAMES.decode().splitlines())
            self.assertEqual((self.text("notice"), self.starred()), ("", False))

    def test_07_the_star_says_what_is_not_saved(self):
        self.pick({"cabin.book": BOOK, "cabin.book.names": NAMES}, denied="cabin.book.names")
        self.assertFalse(self.starred())
        for change in [lambda: self.write("name of source 1", "front"), self.delay, self.layout]:
            change()
            self.assertTrue(self.starred())
            self.press("Save")
            self.assertIn("cabin.book.names was NOT saved", self.text("notice"))
            self.assertTrue(self.starred())
            self.press("Undo")
            self.assertFalse(self.starred())
        self.press("Book")
        self.write("File name", "renamed.book")
        self.assertTrue(self.starred())
        self.press("Undo")
        self.assertFalse(self.starred())

    def test_07_undo_to_another_book_finds_it_saved(self):
        self.drop(("a.book", BOOK), ("a.book.names", NAMES))
        self.drop(("b.book", self.other()))
        for step, name in [("Undo", "a.book"), ("Redo", "b.book"), ("Undo", "a.book")]:
            self.press(step)
            self.assertIn(name, self.text("book-title"))
            self.assertFalse(self.starred())
        self.press("Book")
        self.press("New book")
        self.assertNotIn("not saved", self.text("notice"))

    def test_07_names_in_no_file_stay_unsaved_after_a_reload(self):
        """Those that the browser remembers count as saved if they came from a file, and not if they were only typed."""
        self.drop(("cabin.book", BOOK), ("cabin.book.names", NAMES))
        self.load()
        self.press("Go on with it")
        self.assertFalse(self.starred())
        self.load()
        self.press("Start fresh")
        self.drop(("cabin.book", BOOK))
        self.assertEqual((self.value("name of source 1"), self.starred()), ("rear view", False))
        self.write("name of source 1", "front")
        self.assertTrue(self.starred())
        self.load()
        self.press("Go on with it")
        self.assertTrue(self.starred())
        self.load()
        self.press("Start fresh")
        self.drop(("cabin.book", BOOK))
        self.assertEqual((self.value("name of source 1"), self.starred()), ("front", True))

    def test_07_a_second_photograph_of_the_same_name_is_another(self):
        one, two = self.picture(30, 40), self.picture(50, 40)
        self.drop_typed(("cabin.book", BOOK, ""), ("cabin.book.names", NAMES + b"photograph view.png\n", ""), ("view.png", one, "image/png"))
        self.assertFalse(self.starred())
        self.photograph("view.png", two)
        self.assertTrue(self.starred())
        self.press("Book")
        self.press("New book")
        self.assertIn("The photograph of cabin.book is not saved.", self.text("notice"))
        self.press("Keep cabin.book as it is here")
        self.press("Save")
        self.assertEqual((self.saved("view.png"), self.starred()), (two, False))
        self.press("Undo")
        self.assertTrue(self.starred(), "the file has the other picture now")
        self.press("Save")
        self.assertEqual((self.saved("view.png"), self.starred()), (one, False))

    def test_07_a_converted_or_renamed_book_has_its_photograph(self):
        picture = self.picture(30, 40)
        files = [("cabin.book", BOOK, ""), ("cabin.book.names", NAMES + b"photograph view.png\n", ""), ("view.png", picture, "image/png")]
        changes = {"cabin-second-edition.book": lambda: self.press("Convert to the second edition"), "other.book": lambda: self.write("File name", "other.book")}
        for name, change in changes.items():
            self.drop_typed(*files)
            change()
            self.press("Save")
            self.assertIn(f"{name}, {name}.names and view.png were given to the browser", self.text("notice"))
            self.assertEqual((self.saved("view.png"), self.starred()), (picture, False))
            self.press("Save")
            self.assertNotIn("view.png", self.text("notice"))

    def heading(self):
        return self.value("Title"), self.value("Remarks")

    def test_09_title_and_remarks_belong_to_book_and_preset(self):
        self.drop(("a.book", BOOK))
        self.press("load preset 0")
        self.press("Sheet")
        self.write("Title", "Lesson A")
        self.write("Remarks", "of a.book")
        written = ("Lesson A", "of a.book")
        self.press("Book")
        self.press("load preset 1")
        self.press("Sheet")
        self.assertEqual(self.heading(), ("", ""))
        self.write("Title", "Lesson A1")
        self.drop(("b.book", BOOK))
        self.press("Sheet")
        self.assertEqual(self.heading(), ("", ""))
        self.assertNotIn("Lesson", self.text("sheet"))
        self.write("Title", "Lesson B")
        self.press("Undo")
        self.assertEqual((self.text("book-title"), self.heading()), ("a.book (first edition)", ("Lesson A1", "")))
        self.press("Undo")
        self.assertEqual(self.heading(), written)
        self.press("The whole book")
        self.assertEqual(self.heading(), ("", ""))
        self.press("The whole book")
        self.press("Book")
        self.press("move preset 0 down")
        self.write("File name", "c.book")
        self.press("Sheet")
        self.assertEqual(self.heading(), written)
        self.assertIn("c.book, first edition, preset 1", self.text("sheet"))
        self.word("1 2 5")
        self.assertEqual(self.heading(), written, "a word that is composed takes along what was written")
        self.press("Undo")
        self.load()
        self.press("Go on with it")
        self.press("Sheet")
        self.assertEqual(self.heading(), written)
        self.assertIn("of a.book", self.text("sheet"))
        for _ in range(2):
            self.press("Book")
            self.js("app.shelf.mark({ saved: true })")
            self.press("New book")
            self.press("Sheet")
            self.assertEqual((self.text("book-title"), self.heading()), ("new.book (second edition)", ("", "")))
            self.write("Title", "Lesson of a new book")

    def test_07_what_is_given_once_more_is_what_is_here_now(self):
        self.drop(("cabin.book", BOOK), ("cabin.book.names", NAMES))
        self.press("Save")
        self.assertEqual(self.saved("cabin.book"), BOOK)
        self.saved("cabin.book.names")
        self.press("remove preset 0")
        self.press("Give cabin.book once more")
        self.assertEqual(self.saved("cabin.book"), bytes(self.js("return [...app.state.book.bytes]")))
        self.assertFalse(self.starred())
        self.write("File name", "other.book")
        self.assertEqual(self.text("notice"), "", "the other name has another file")

    def test_07_names_that_are_saved_as_a_new_file_are_saved(self):
        self.pick({"cabin.book": BOOK, "cabin.book.names": NAMES}, denied="cabin.book.names")
        self.write("name of source 1", "front")
        self.press("Save")
        self.assertTrue(self.starred())
        self.press("Save cabin.book.names as a new file")
        self.assertEqual(self.saved("cabin.book.names"), NAMES.replace(b"rear view", b"front"))
        self.assertFalse(self.starred())
        self.assertIn("cabin.book was saved. cabin.book.names was given to the browser", self.text("notice"))
        self.assertFalse(self.asks_before_leaving())

    def test_07_of_two_names_files_that_of_the_book_is_used(self):
        car, lorry = ("car.book.names", b"source 1 car\n"), ("lorry.book.names", b"source 1 lorry\n")
        for files in [(car, lorry), (lorry, car)]:
            self.drop(("car.book", BOOK), *files)
            self.assertEqual((self.value("name of source 1"), self.starred()), ("car", False))
            self.assertEqual(self.text("notice"), "lorry.book.names is not used: the names of car.book are those of car.book.names.")
            self.drop(*files)
            self.assertEqual((self.value("name of source 1"), self.starred()), ("car", False))
        self.drop(("ship.book", BOOK), car, lorry)
        self.assertIn("None of the 2 names files is used: none is called ship.book.names.", self.text("notice"))
        self.assertEqual((self.text("book-title"), self.value("name of source 1")), ("ship.book (first edition)", ""))
        self.drop(("car.book", self.other()), car, ("car.book.names", b"source 1 bus\n"))
        self.assertIn("None of the 2 names files is used: 2 are called car.book.names.", self.text("notice"))
        self.assertEqual(self.value("name of source 1"), "")

    def test_07_names_of_another_book_are_not_saved_with_this_one(self):
        lorry = ("lorry.book.names", b"source 1 lorry\n")
        self.drop(("car.book", BOOK), lorry)
        self.assertEqual(self.text("notice"), "The names are those of lorry.book.names, which is not named after car.book: they are not saved with it yet.")
        self.assertEqual((self.value("name of source 1"), self.starred()), ("lorry", True))
        self.press("Save")
        self.assertEqual((self.saved("car.book.names"), self.starred()), (lorry[1], False))
        self.drop(("car.book", BOOK), ("car.book.names", NAMES))
        self.assertFalse(self.starred())
        self.drop(lorry)
        self.assertEqual(self.text("notice"), "The names of lorry.book.names are those of car.book now, and not saved with it yet. Undo brings the others back.")
        self.assertTrue(self.starred())
        self.press("Undo")
        self.assertEqual((self.text("notice"), self.value("name of source 1"), self.starred()), ("", "rear view", False))
        self.drop(("car.book.names", b"source 1 car\n"))
        self.assertEqual(self.text("notice"), "The names of car.book.names are those of car.book now. Undo brings the others back.")
        self.assertFalse(self.starred())

    def test_07_names_that_the_browser_remembers_stay(self):
        """Whatever else comes with the book: a picture that cannot be read, or a names file that is wrong."""
        self.drop(("cabin.book", BOOK), ("cabin.book.names", NAMES))
        wrong = {("view.png", b"no picture", "image/png"): "view.png cannot be read as a picture. Choose a JPEG, PNG or WebP file. cabin.book came without its names: those that it had here before are used.",
                 ("cabin.book.names", b"source 0 sky\n", ""): "None of its names is used. Those that cabin.book had here before are used."}
        for file, sentence in wrong.items():
            for _ in range(2):
                self.drop_typed(("cabin.book", BOOK, ""), file)
                self.assertIn(sentence, self.text("notice"))
                self.assertEqual((self.value("name of source 1"), self.starred()), ("rear view", False))
        self.drop_typed(("other.book", self.other(), ""), ("view.png", b"no picture", "image/png"))
        self.assertIn("view.png cannot be read as a picture.", self.text("notice"))
        self.press("Take over the names of cabin.book")
        self.assertEqual(self.value("name of source 1"), "rear view")

    def test_07_sentences_about_names_go_when_they_are_over(self):
        self.drop(("cabin.book", BOOK), ("cabin.book.names", NAMES))
        self.drop(("cabin.book", BOOK))
        self.assertIn("those that it had here before are used.", self.text("notice"))
        self.press("load preset 0")
        self.assertIn("those that it had here before are used.", self.text("notice"))
        self.write("name of source 1", "front")
        self.assertEqual(self.text("notice"), "")

    def test_07_names_that_were_set_aside_are_told_beside_other_names(self):
        self.drop(("cabin.book", BOOK))
        self.drop(("cabin.book.names", NAMES), ("cabin.book.names~", b"preset 1 Copy\n"))
        self.assertIn("The names of cabin.book.names are those of cabin.book now.", self.text("notice"))
        self.assertIn("cabin.book.names~ is not used: it may be an editor's copy.", self.text("notice"))
        self.drop(("cabin.book", BOOK), ("lorry.book.names", NAMES), ("cabin.book.names~", b"preset 1 Copy\n"))
        self.assertIn("cabin.book.names~ is not used: it may be an editor's copy.", self.text("notice"))
        self.assertIn("The names are those of lorry.book.names", self.text("notice"))

    def test_07_the_last_drop_wins(self):
        """A large picture is still being read when another book is opened."""
        slow = [("slow.book", BOOK, ""), ("view.png", self.picture(30, 40), "image/png")]
        self.js("const make = createImageBitmap; window.createImageBitmap = async blob => { await new Promise(done => setTimeout(done, 900)); window.decoded = (window.decoded ?? 0) + 1; return make(blob); }")
        later = [lambda: self.drop(("quick.book", self.other())), lambda: (self.press("Book"), self.press("New book"))]
        for turn, (begin, name) in enumerate(zip(later, ["quick.book", "new.book"], strict=True), 1):
            self.drop_typed(*slow)
            begin()
            self.assertIn(name, self.text("book-title"))
            WebDriverWait(self.driver, 5).until(lambda _: self.js("return window.decoded") == turn)
            time.sleep(0.3)
            self.assertIn(name, self.text("book-title"))
        self.drop_typed(*slow)
        WebDriverWait(self.driver, 5).until(lambda _: "slow.book" in self.text("book-title"))

    def test_07_a_fresh_start_discards_only_what_was_named(self):
        first = self.driver.current_window_handle
        self.word("1 2 5")
        self.load()
        self.drop(("cabin.book", BOOK))
        self.load()
        self.assertIn("cabin.book with 2 presets", self.text("notice"))
        self.assertIn("new.book with 0 presets and a word of 3 letters", self.text("notice"))
        labels = self.js("return [...document.querySelectorAll('#notice button')].map(e => e.textContent)")
        self.assertRegex(labels[1], r"^Go on with new\.book of .* at ")
        self.size(360, 740)
        self.assertLessEqual(self.js("return document.documentElement.scrollWidth"), 360)
        self.size(1280, 900)
        self.press(labels[1])
        self.assertEqual(self.letters(), [1, 2, 5])
        self.load()
        self.driver.switch_to.new_window("tab")
        try:
            self.load()
            self.drop(("later.book", BOOK))
            self.js("app.draft.write()")
        finally:
            self.driver.close()
            self.driver.switch_to.window(first)
        self.press("Start fresh")
        self.load()
        self.assertIn("later.book with 2 presets", self.text("notice"))
        self.assertNotIn("new.book", self.text("notice"))
        self.assertNotIn("cabin.book", self.text("notice"))

    def test_07_a_duplicate_has_no_half_characters(self):
        name = "\U0001f69c" * 80
        self.drop(("cabin.book", BOOK), ("cabin.book.names", f"preset 0 {name}\n".encode()))
        self.press("duplicate preset 0")
        self.assertEqual(self.value("name of preset 1"), name[:73] + " (copy)")
        self.press("Save")
        self.assertEqual(self.saved("cabin.book.names").decode(), f"preset 0 {name}\npreset 1 {name[:73]} (copy)\n")
