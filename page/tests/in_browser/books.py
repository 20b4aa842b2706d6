"""Books and their names: opened, changed, saved, kept as a draft."""
import base64
import json
import subprocess
import time

from selenium.webdriver.common.action_chains import ActionChains
from selenium.webdriver.common.by import By
from selenium.webdriver.common.keys import Keys
from selenium.webdriver.support.ui import WebDriverWait

from in_browser.page import ROOT, PageTest


class Books(PageTest):
    BOOK = bytes.fromhex("02 02 04 00 01 02 01 02 03 05 06 00 05 02 03 05 01 02 00 00 08 00 02 00")

    def test_07_dropped_loaded_appended_converted_saved(self):
        self.drop(("cabin.book", self.BOOK), ("cabin.book.names", b"# ours\nsource 1 rear view\npreset 1 Yard\n"))
        self.assertIn("cabin.book (first edition)", self.text("book-title"))
        self.assertEqual(self.text("book-verdict"), "2 presets, first edition.")
        self.assertEqual(self.labelled("name of preset 1").get_attribute("value"), "Yard")
        self.load()
        self.drop(("cabin.book", self.BOOK))
        self.assertEqual(self.labelled("name of preset 1").get_attribute("value"), "Yard")
        self.drop(("cabin.book", bytes.fromhex("02 02 00 00 03 05 00 00 00 00 04 00 02 00")))
        self.assertEqual(self.labelled("name of preset 1").get_attribute("value"), "")
        self.drop(("cabin.book", self.BOOK), ("cabin.book.names", b"# ours\nsource 1 rear view\npreset 1 Yard\n"))
        self.press("load preset 1")
        self.assertEqual((self.letters(), self.screens()), ([5, 2, 3, 5, 1, 2], [3, -5, 1, 4, -2]))
        self.assertFalse(self.asks_before_leaving())
        self.word("1 2")
        self.assertTrue(self.asks_before_leaving())
        self.write("Name of the preset", "Reversing")
        self.press("Append the present preset")
        self.assertTrue(self.text("book-title").endswith("*"))
        self.press("Save as a new file")
        expected = bytes(self.js("return [...app.library.append(1, arguments[0], 'D', 5, [1, 2])]", list(self.BOOK)))
        self.assertEqual(self.saved("cabin.book"), expected)
        self.assertFalse(self.text("book-title").endswith("*"))
        self.assertFalse(self.asks_before_leaving())
        self.assertEqual(self.saved("cabin.book.names"), b"# ours\nsource 1 rear view\npreset 1 Yard\npreset 2 Reversing\n")
        self.press("Convert to the second edition")
        self.press("Save")
        self.assertEqual(self.saved("cabin-second-edition.book"), bytes(self.js("return [...app.library.convert(1, arguments[0])]", list(expected))))
        self.press("Undo")
        self.assertIn("first edition", self.text("book-title"))

    def test_07_unsaved_book_is_asked_about(self):
        self.drop(("one.book", self.BOOK))
        self.press("Append the present preset")
        self.drop(("two.book", b""))
        self.assertIn("one.book is not saved.", self.text("notice"))
        self.press("Keep one.book as it is here")
        self.assertIn("one.book", self.text("book-title"))
        self.drop(("two.book", b""))
        self.press("Open the file two.book all the same")
        self.press("Second edition")
        self.assertIn("two.book (second edition)", self.text("book-title"))

    def test_07_the_edition_is_found_or_asked_for(self):
        second = bytes(self.js("return [...app.library.convert(1, arguments[0])]", list(self.BOOK)))
        for name, content, edition in [("one.book", self.BOOK, "first"), ("two.book", second, "second")]:
            self.drop((name, content))
            self.assertEqual(self.text("book-title"), f"{name} ({edition} edition)")
            self.assertEqual(self.text("book-verdict"), f"2 presets, {edition} edition.")
        self.drop(("empty.book", b""))
        self.assertIn("empty.book is empty. In which edition", self.text("notice"))
        self.assertIn("two.book", self.text("book-title"))
        self.press("Do not open empty.book")
        self.assertEqual((self.text("notice"), self.text("book-title")), ("", "two.book (second edition)"))
        for choice in ["First edition", "Second edition"]:
            self.drop(("empty.book", b""))
            self.press(choice)
            self.assertEqual(self.text("book-title"), f"empty.book ({choice.lower()})")
        self.drop(("both.book", bytes(2)))
        self.assertIn("both.book can be read in two ways: 0 presets, first edition, or 0 presets, second edition.", self.text("notice"))
        self.press("First edition")
        self.drop(("one.book", self.BOOK))
        self.press("Convert to the second edition")
        self.assertEqual(self.text("book-title"), "one-second-edition.book (second edition) *")
        self.press("Convert to the first edition")
        self.assertEqual(self.text("book-title"), "one-first-edition.book (first edition) *", "there is no such file yet")
        self.assertEqual(bytes(self.js("return [...app.state.book.bytes]")), self.BOOK)
        self.press("Undo")
        self.press("Undo")
        self.assertEqual(self.text("book-title"), "one.book (first edition)")

    def test_07_reload_with_unsaved_work_asks(self):
        def asked():
            self.driver.get_log("performance")
            self.driver.refresh()
            events = [json.loads(entry["message"])["message"] for entry in self.driver.get_log("performance")]
            return "beforeunload" in [event["params"]["type"] for event in events if event["method"] == "Page.javascriptDialogOpening"]

        self.press("Book")
        self.assertFalse(asked())
        self.press("add step 1: exchanges lanes 1 and 2")
        self.assertFalse(asked())
        self.press("add step 1: exchanges lanes 1 and 2")
        self.js("Storage.prototype.setItem = () => { throw new Error('full'); }")
        self.assertTrue(asked())
        self.fresh()

    def test_07_nothing_is_lost_by_a_reload(self):
        self.drop(("cabin.book", self.BOOK), ("cabin.book.names", b"source 1 rear view\npreset 1 Yard\n"))
        self.word("1 2 5")
        self.press("Append the present preset")
        self.word("1 2 5 4")
        self.labelled("Word").send_keys(" x")
        book = bytes(self.js("return [...app.state.book.bytes]"))
        self.load()
        self.assertEqual((self.letters(), self.text("book-title")), ([], "new.book (second edition)"))
        today = self.js("return new Date().toLocaleString('en-GB', { dateStyle: 'long' })")
        self.assertIn(f"Your work of {today} at ", self.text("notice"))
        self.assertIn("cabin.book with 3 presets and a word of 4 letters", self.text("notice"))
        self.press("Go on with it")
        self.assertEqual((self.letters(), self.labelled("Word").get_attribute("value")), ([1, 2, 5, 4], "1 2 5 4 x"))
        self.assertEqual((self.text("book-title"), bytes(self.js("return [...app.state.book.bytes]"))), ("cabin.book (first edition) *", book))
        self.assertEqual(self.labelled("name of source 1").get_attribute("value"), "rear view")
        self.press("Undo")
        self.press("Save")
        self.press("Save without it")
        self.assertEqual(self.saved("cabin.book"), book)
        self.load()
        self.word("3")
        self.load()
        self.assertIn("new.book with 0 presets and a word of 1 letter", self.text("notice"))
        self.press("Go on with it")
        self.load()
        self.press("Start fresh")
        self.assertEqual(self.text("notice"), "")
        self.load()
        self.assertEqual((self.text("notice"), self.letters()), ("", []))

    HANDLES = """
        const [files, asks, fails] = arguments;
        window.written = {};
        window.showOpenFilePicker = async options => Object.entries(files).map(([name, text]) => ({
            kind: 'file', name,
            getFile: async () => new File([Uint8Array.from(atob(text), c => c.charCodeAt(0))], name),
            queryPermission: async () => 'prompt',
            requestPermission: async ({ mode }) => mode === 'readwrite' && asks !== name ? 'granted' : 'denied',
            createWritable: async () => {
                if (fails === name) throw new Error('disk full');
                let bytes = null;
                return { write: async part => { bytes = [...part]; }, close: async () => { window.written[name] = bytes; } };
            },
        }));"""

    def pick(self, files, denied=None, failing=None):
        """Opens files by the button, in a browser whose files have handles."""
        texts = {name: base64.b64encode(content).decode() for name, content in files.items()}
        self.js(self.HANDLES, texts, denied, failing)
        self.js("app.shelf.mark({ saved: true, savedNames: true, savedPhotograph: true }); app.store.markWordKept()")
        self.press("Open")
        WebDriverWait(self.driver, 5).until(lambda _: list(files)[0] in self.text("book-title"))
        self.settle()

    def written(self):
        time.sleep(0.1)
        return {name: bytes(content) for name, content in self.js("const list = window.written; window.written = {}; return list").items()}

    def test_07_one_press_saves_book_and_names_to_their_files(self):
        files = {"cabin.book": self.BOOK, "cabin.book.names": b"preset 1 Yard\n"}
        self.pick(files)
        self.press("remove preset 0")
        self.press("Save")
        book = bytes(self.js("return [...app.state.book.bytes]"))
        self.assertEqual(self.written(), {"cabin.book": book, "cabin.book.names": b"preset 0 Yard\n"})
        self.assertEqual(self.text("notice"), "cabin.book and cabin.book.names were saved.")
        self.assertFalse(self.text("book-title").endswith("*"))
        self.press("Save as a new file")
        self.assertEqual((self.saved("cabin.book"), self.saved("cabin.book.names"), self.written()), (book, b"preset 0 Yard\n", {}))
        self.assertIn("cabin.book and cabin.book.names were given to the browser", self.text("notice"))
        self.press("Give cabin.book.names once more")
        self.assertEqual(self.saved("cabin.book.names"), b"preset 0 Yard\n")
        self.write("File name", "other.book")
        self.keys("s")
        self.assertEqual((self.saved("other.book"), self.saved("other.book.names"), self.written()), (book, b"preset 0 Yard\n", {}))
        self.press("Undo")
        self.write("name of preset 0", "")
        self.press("Save")
        self.assertEqual(self.written(), {"cabin.book": book, "cabin.book.names": b""})

    def test_07_what_was_not_saved_is_told(self):
        files = {"cabin.book": self.BOOK, "cabin.book.names": b"preset 1 Yard\n"}
        self.pick(files, denied="cabin.book.names")
        self.press("remove preset 0")
        self.press("Save")
        book = bytes(self.js("return [...app.state.book.bytes]"))
        self.assertEqual(self.written(), {"cabin.book": book})
        self.assertEqual(self.text("notice").split("Save ")[0], "cabin.book was saved. cabin.book.names was NOT saved: the browser was not allowed to write it.")
        self.press("Save cabin.book.names as a new file")
        self.assertEqual(self.saved("cabin.book.names"), b"preset 0 Yard\n")
        self.fresh()
        self.pick(files, failing="cabin.book")
        self.press("remove preset 0")
        self.press("Save")
        self.assertEqual(self.written(), {})
        self.assertIn("cabin.book was NOT saved: it could not be written (disk full). cabin.book.names was NOT saved: the book was not.", self.text("notice"))
        self.assertTrue(self.text("book-title").endswith("*"))
        self.press("Save cabin.book as a new file")
        self.assertEqual(self.saved("cabin.book"), book)
        self.assertEqual(self.saved("cabin.book.names"), b"preset 0 Yard\n")
        self.assertFalse(self.text("book-title").endswith("*"))
        self.pick({"one.book": self.BOOK}, denied="one.book")
        self.drop(("cabin.book.names", b"source 1 rear view\n"))
        self.press("Save")
        self.assertIn("one.book was NOT saved", self.text("notice"))

    def test_07_a_choice_that_is_given_up_opens_nothing(self):
        self.js("window.showOpenFilePicker = async () => { throw new DOMException('given up', 'AbortError'); }")
        self.press("Open")
        self.assertEqual((self.text("notice"), self.text("book-title")), ("", "new.book (second edition)"))
        self.js("window.clicked = 0; document.getElementById('file').click = () => { window.clicked += 1; }; window.showOpenFilePicker = undefined")
        self.press("Open")
        self.press("Book")
        self.press("Open a file")
        self.assertEqual(self.js("return window.clicked"), 2)

    def test_07_the_draft_of_an_open_window_survives_a_fresh_start_elsewhere(self):
        first = self.driver.current_window_handle
        self.word("1 2 5")
        self.js("app.draft.write()")
        self.driver.switch_to.new_window("tab")
        try:
            self.load()
            self.press("Start fresh")
        finally:
            self.js("app.draft.write = () => {}")
            self.driver.close()
            self.driver.switch_to.window(first)
        WebDriverWait(self.driver, 5).until(lambda _: self.js("return Object.keys(localStorage).some(key => key.startsWith('winnathey draft'))"))
        self.load()
        self.press("Go on with it")
        self.assertEqual(self.letters(), [1, 2, 5])

    def test_07_saving_asks_for_the_word_that_is_in_no_book(self):
        self.word("1 2 5")
        self.press("Save")
        self.assertIn("not in the book yet", self.text("notice"))
        self.press("Append it and save")
        self.assertEqual(self.saved("new.book"), bytes(self.js("return [...app.library.append(2, [], 'D', 5, [1, 2, 5])]")))
        self.assertFalse(self.asks_before_leaving())
        self.word("1 2")
        self.press("Save")
        self.press("Save without it")
        self.assertEqual(len(self.saved("new.book")), 12)
        self.assertTrue(self.asks_before_leaving())

    def test_07_what_is_no_book_is_not_opened(self):
        """Of a file that is too long only the front is read: saved, it would replace the whole."""
        self.drop(("cabin.book", self.BOOK), ("cabin.book.names", b"preset 1 Yard\n"))
        picture = (ROOT / "page/screenshots/d5-light-360.png").read_bytes()
        for name, content in [("large.book", bytes(70000)), ("damaged.book", bytes([9] * 50)), ("photo.png", picture), ("one.book", b"x")]:
            self.drop((name, content), (f"{name}.names", b"preset 1 Other\n"))
            self.assertIn(f"{name} is no preset book and was not opened: ", self.text("notice"))
            self.assertIn("cabin.book stays as it is.", self.text("notice"))
            self.assertEqual(bytes(self.js("return [...app.state.book.bytes]")), self.BOOK)
            self.assertEqual(self.labelled("name of preset 1").get_attribute("value"), "Yard")
            self.keys("s")
            self.assertEqual(self.saved("cabin.book"), self.BOOK)

    def test_07_what_is_said_of_saving_is_true(self):
        self.word("1 2")
        self.press("Book")
        self.press("Append the present preset")
        self.assertIn("The book is not saved yet.", self.text("book-message"))
        self.press("New book")
        choices = self.js("return [...document.querySelectorAll('#notice button')].map(e => e.textContent)")
        self.assertEqual(choices, ["Start a new book all the same", "Keep new.book as it is here"])
        self.press("Keep new.book as it is here")
        self.press("Save")
        self.assertEqual(len(self.saved("new.book")), 11)
        self.assertIn("new.book was given to the browser", self.text("notice"))
        self.assertEqual(self.text("book-message"), "")
        self.assertFalse(self.text("book-title").endswith("*"))

    def test_07_a_name_being_typed_counts_when_saving(self):
        self.press("Book")
        field = self.labelled("File name")
        field.send_keys(Keys.CONTROL, "a")
        field.send_keys("lesson.book")
        self.keys("s")
        self.assertEqual(self.saved("lesson.book"), b"")
        self.press("Wanted picture")
        self.press("mirror the view on screen 1")
        self.labelled("Rig").send_keys("")
        self.keys("s")
        self.saved("lesson.book")
        self.assertEqual(self.js("return app.state.wanted[0]"), -1)
        self.press("Modules")
        self.press("module 2 has failed (exchanges lanes 2 and 3)")
        self.keys("s")
        self.saved("lesson.book")
        self.assertEqual(self.js("return app.state.failed"), [2])

    def test_07_undo_knows_what_the_book_has(self):
        self.word("1 2 5")
        self.press("Book")
        self.press("Append the present preset")
        self.assertEqual(self.js("return app.store.preset"), 0)
        self.press("Undo")
        self.assertIn("Undo changed the book: it is new.book with 0 presets now.", self.text("notice"))
        self.assertEqual(self.letters(), [1, 2, 5])
        self.assertTrue(self.asks_before_leaving())
        self.press("Append the present preset")
        self.assertEqual(self.text("notice"), "")
        self.press("New book")
        self.press("Start a new book all the same")
        self.assertTrue(self.asks_before_leaving())
        self.press("Undo")
        self.assertEqual(self.js("return [app.store.preset, app.store.wordUnsaved]"), [0, False])

    def test_07_another_rig_or_book_has_another_preset(self):
        self.drop(("cabin.book", self.BOOK))
        self.press("load preset 1")
        self.assertFalse(self.asks_before_leaving())
        self.drop(("copy.book", self.BOOK))
        self.assertEqual(self.js("return app.store.preset"), 1)
        self.assertFalse(self.asks_before_leaving())
        self.rig("D", 6)
        self.assertEqual(self.letters(), [5, 2, 3, 5, 1, 2])
        self.assertTrue(self.asks_before_leaving())
        self.press("load preset 0")
        self.assertIn("Undo brings it back", self.text("book-message"))
        self.press("Undo")
        self.assertEqual(self.letters(), [5, 2, 3, 5, 1, 2])

    def test_07_names_of_a_book_outlive_changes_that_were_not_saved(self):
        self.drop(("cabin.book", self.BOOK))
        self.write("name of preset 1", "Yard")
        self.press("Append the present preset")
        self.js("app.store.markBookSaved()")
        self.load()
        self.drop(("cabin.book", self.BOOK))
        self.assertEqual(self.labelled("name of preset 1").get_attribute("value"), "Yard")

    def test_07_names_belong_to_one_book(self):
        self.rig("B", 8)
        self.write("name of source 1", "Cabin 1 front")
        self.write("name of screen 2", "left mirror")
        self.word("1 8")
        self.press("Book")
        self.write("File name", "cabin1.book")
        self.press("Append the present preset")
        self.press("Save")
        self.saved("cabin1.book")
        other = bytes(self.js("return [...app.library.append(2, [], 'B', 8, [8, 7])]"))
        self.drop(("cabin2.book", other))
        value = lambda label: self.labelled(label).get_attribute("value")
        self.assertEqual((value("name of source 1"), value("name of screen 2")), ("", ""))
        self.assertIn("cabin2.book has no names", self.text("notice"))
        self.press("load preset 0")
        self.press("Sheet")
        self.assertIn("cabin2.book", self.text("sheet"))
        self.assertNotIn("Cabin 1", self.text("sheet"))
        self.write("name of source 1", "Cabin 2 front")
        self.press("Take over the names of cabin1.book")
        self.assertEqual((value("name of source 1"), value("name of screen 2")), ("Cabin 2 front", "left mirror"))
        self.press("Undo")
        self.assertEqual((value("name of source 1"), value("name of screen 2")), ("Cabin 2 front", ""))
        self.press("Book")
        self.press("New book")
        self.assertEqual(value("name of source 1"), "Cabin 2 front")
        self.press("Start a new book all the same")
        self.assertEqual(value("name of source 1"), "")
        self.press("Leave it without names")
        self.assertEqual((value("name of source 1"), self.text("notice")), ("", ""))
        self.drop(("cabin2.book", other))
        self.assertEqual(value("name of source 1"), "Cabin 2 front")
        self.assertIn("those that it had here before", self.text("notice"))
        self.press("Use no names")
        self.assertEqual(value("name of source 1"), "")
        self.drop(("cabin1.book.names", b"source 1 Cabin 1 front\n"))
        self.assertIn("The names of cabin1.book.names are those of cabin2.book now, and not saved with it yet.", self.text("notice"))
        self.assertEqual(value("name of source 1"), "Cabin 1 front")

    def test_07_names_of_presets_that_the_book_does_not_have(self):
        """They are told when they are read, and go with the first change of the book, whatever that is."""
        names = b"# ours\npreset 1 Yard\npreset 2 Gone\nsource 1 rear view\npreset 9 Far\n"
        files = [("cabin.book", self.BOOK), ("cabin.book.names", names)]
        told = "The names are for presets 2 'Gone', 9 'Far' too, which cabin.book does not have: the next change of the book drops that."
        changes = [("Append the present preset", b"# ours\npreset 1 Yard\nsource 1 rear view\n"),
                   ("remove preset 0", b"# ours\npreset 0 Yard\nsource 1 rear view\n"),
                   ("move preset 0 down", b"# ours\npreset 0 Yard\nsource 1 rear view\n"),
                   ("duplicate preset 0", b"# ours\npreset 2 Yard\nsource 1 rear view\n"),
                   ("replace preset 0", b"# ours\npreset 1 Yard\nsource 1 rear view\n"),
                   ("Convert to the second edition", b"# ours\npreset 1 Yard\nsource 1 rear view\n")]
        for change, kept in changes:
            # Another visit each time: of many files in one the browser may keep the last ones back.
            self.fresh()
            self.drop(*files)
            self.assertEqual(self.text("book-past"), told)
            self.press("Save")
            self.assertEqual((self.saved("cabin.book"), self.saved("cabin.book.names")), (self.BOOK, names))
            self.press(change)
            self.assertIn("The names of presets 2 'Gone', 9 'Far' were dropped: the book did not have them.", self.text("book-message"))
            self.assertEqual(self.text("book-past"), "")
            self.press("Save")
            name = self.js("return app.state.book.name")
            self.assertNotEqual(self.saved(name), self.BOOK)
            self.assertEqual(self.saved(f"{name}.names"), kept)
            self.press("Undo")
            self.assertIn("Undo changed the book", self.text("notice"))
            self.press("Save")
            self.assertEqual((self.saved("cabin.book"), self.saved("cabin.book.names")), (self.BOOK, names))
        self.drop(("cabin.book", self.BOOK))
        self.assertIn("those that it had here before are used.", self.text("notice"))
        self.assertEqual(self.text("book-past"), told)
        self.drop(("other.names", b"preset 5 Here\n"))
        self.assertIn("The names are for preset 5 'Here' too, which cabin.book", self.text("book-past"))
        self.press("remove preset 1")
        self.assertIn("The name of preset 5 'Here' was dropped: the book did not have it.", self.text("book-message"))

    def test_07_a_converted_book_keeps_the_names_that_are_open_with_it(self):
        names = b"source 1 rear view\npreset 1 Yard\n"
        self.pick({"cabin.book": self.BOOK, "cabin.book.names": names})
        self.press("Convert to the second edition")
        self.assertEqual(self.labelled("name of preset 1").get_attribute("value"), "Yard")
        self.press("Save")
        book = bytes(self.js("return [...app.library.convert(1, arguments[0])]", list(self.BOOK)))
        self.assertEqual((self.saved("cabin-second-edition.book"), self.saved("cabin-second-edition.book.names")), (book, names))
        self.assertEqual(self.written(), {}, "the files of the book before stay as they are")

    def test_07_names_that_were_set_aside_are_explained(self):
        """The command's, from a change of the book that was cut off, and an editor's copy: neither is a book, and neither is used."""
        parked = b"# winnathey parked these names: book SHA-256 00 becomes 11, presets 3, removed 0\npreset 1 Old\n"
        self.drop(("cabin.book", self.BOOK), ("cabin.book.names~", parked))
        self.assertIn("cabin.book.names~ is not used: it has the names of cabin.book from before a change that was cut off", self.text("notice"))
        self.assertIn("if there is no cabin.book.names, give the file that name", self.text("notice"))
        self.assertEqual(self.text("book-title"), "cabin.book (first edition)")
        self.assertEqual(self.labelled("name of preset 1").get_attribute("value"), "")
        self.drop(("cabin.book", self.BOOK), ("cabin.book.names", b"preset 1 Yard\n"), ("cabin.book.names~", parked))
        self.assertIn("cabin.book.names~ is not used", self.text("notice"))
        self.assertEqual(self.labelled("name of preset 1").get_attribute("value"), "Yard")
        self.drop(("cabin.book.names~", b"preset 1 Copy\n"))
        self.assertIn("cabin.book.names~ is not used: it may be an editor's copy. The names of cabin.book are in cabin.book.names", self.text("notice"))
        self.assertEqual((self.text("book-title"), self.labelled("name of preset 1").get_attribute("value")), ("cabin.book (first edition)", "Yard"))

    def rows(self):
        return self.js("return [...document.querySelectorAll('#presets li')].map(e => [e.dataset.letters, e.querySelector('input').value])")

    def test_07_presets_are_removed_replaced_moved_and_duplicated(self):
        made = "let book = new Uint8Array(0); for (const word of arguments[0]) book = app.library.append(2, book, 'D', 5, word); return [...book]"
        book = bytes(self.js(made, [[1], [2], [3]]))
        self.drop(("cabin.book", book), ("cabin.book.names", b"preset 0 one\npreset 1 two\npreset 2 three\n"))
        start = [["1", "one"], ["2", "two"], ["3", "three"]]
        self.assertEqual(self.rows(), start)
        self.press("load preset 2")
        self.press("remove preset 1")
        self.assertEqual(self.rows(), [["1", "one"], ["3", "three"]])
        self.assertIn("Preset 1 was removed.", self.text("book-message"))
        self.assertEqual(self.js("return app.store.preset"), 1)
        self.assertEqual(self.focus(), "remove preset 1")
        self.press("Undo")
        self.assertEqual(self.rows(), start)
        self.press("move preset 0 down")
        self.assertEqual((self.rows(), self.focus()), ([["2", "two"], ["1", "one"], ["3", "three"]], "move preset 1 down"))
        ActionChains(self.driver).send_keys(Keys.ENTER).perform()
        self.settle()
        self.assertEqual([name for _, name in self.rows()], ["two", "three", "one"])
        self.assertFalse(self.labelled("move preset 2 down").is_enabled())
        self.press("move preset 1 up")
        self.assertEqual([name for _, name in self.rows()], ["three", "two", "one"])
        self.press("duplicate preset 0")
        self.assertEqual(self.rows(), [["3", "three"], ["3", "three (copy)"], ["2", "two"], ["1", "one"]])
        self.word("5 2 5")
        self.press("replace preset 1")
        self.assertEqual(self.rows()[1], ["5 2 5", "three (copy)"])
        self.assertEqual(self.js("return [app.store.preset, app.store.wordUnsaved]"), [1, False])
        self.labelled("Word").send_keys(" x")
        self.settle()
        self.press("replace preset 0")
        self.assertIn("Nothing was replaced", self.text("notice"))
        self.press("Go back to the last word")
        self.assertEqual(bytes(self.js("return [...app.state.book.bytes]")), bytes(self.js(made, [[3], [5, 2, 5], [2], [1]])))
        for _ in range(4):
            self.press("remove preset 0")
        self.assertEqual((self.rows(), self.focus()), ([], "append"))
        for _ in range(10):
            self.press("Undo")
        self.assertEqual(self.rows(), start)
        self.rig("A", 1)
        self.press("replace preset 0")
        self.assertIn("Choose rank 2 or more.", self.text("book-message"))
        self.assertEqual(self.rows(), start)

    def test_07_damaged_presets_can_be_removed(self):
        self.drop(("damaged.book", (ROOT / "tests/books/refused/8-letter.first").read_bytes()))
        row = self.js("return document.querySelector('#presets [data-refusal]')")
        labels = [element.get_attribute("aria-label").split()[0] for element in row.find_elements(By.TAG_NAME, "button")]
        self.assertEqual(labels, ["move", "move", "remove"])
        self.press(f"remove preset {row.get_attribute('data-preset')}")
        self.assertEqual(self.js("return document.querySelectorAll('#presets [data-refusal]').length"), 0)

    def test_07_many_presets_are_searched(self):
        made = "let book = new Uint8Array(0); for (let at = 0; at < arguments[0]; at++) book = app.library.append(2, book, 'D', 5, [1 + at % 5, 2, 5]); return [...book]"
        names = "".join(f"preset {at} lesson {at}\n" for at in range(45)).encode()
        self.drop(("few.book", bytes(self.js(made, 20))))
        self.assertFalse(self.labelled_or_none("Search the presets"))
        self.drop(("many.book", bytes(self.js(made, 45))), ("many.book.names", names))
        self.assertIn("Presets 0 to 19 of 45", self.panel().text)
        self.labelled("Search the presets").send_keys("lesson 4")
        self.settle()
        self.assertEqual([name for _, name in self.rows()], ["lesson 4", *(f"lesson {at}" for at in range(40, 45))])
        self.assertIn("6 presets of 45 found", self.panel().text)
        self.assertFalse(self.labelled("move preset 41 up").is_enabled())
        self.press("remove preset 41")
        self.assertEqual([name for _, name in self.rows()], ["lesson 4", "lesson 40", "lesson 42", "lesson 43", "lesson 44"])
        self.write("Search the presets", "nothing")
        self.assertIn("0 presets of 44 found", self.panel().text)
        self.write("Search the presets", "")
        self.press("Later presets ▶")
        self.press("Later presets ▶")
        self.press("move preset 40 up")
        self.assertIn("Presets 20 to 39 of 44", self.panel().text)
        self.assertEqual((self.rows()[-1][1], self.focus()), ("lesson 40", "move preset 39 up"))
        self.labelled("Search the presets").send_keys("lesson 4")
        self.settle()
        self.js("app.shelf.mark({ saved: true, savedNames: true, savedPhotograph: true })")
        self.drop(("few.book", bytes(self.js(made, 20))))
        self.assertTrue(self.labelled("move preset 1 up").is_enabled())

    def test_07_two_books_and_what_is_no_file_are_told(self):
        self.drop(("one.book", self.BOOK), ("two.book", b""))
        self.assertIn("These are 2 books", self.text("notice"))
        self.driver.execute_async_script(
            """const done = arguments[0], data = new DataTransfer();
            data.items.add(new File([], 'folder'));
            File.prototype.slice = () => ({ arrayBuffer: async () => { throw new DOMException('no file', 'NotFoundError'); } });
            document.body.dispatchEvent(new DragEvent('drop', { dataTransfer: data, bubbles: true, cancelable: true }));
            setTimeout(done, 80);""")
        self.assertIn("folder cannot be read", self.text("notice"))
        self.assertIn("new.book", self.text("book-title"))

    def test_07_refused_calls_change_nothing(self):
        self.drop(("old.book", self.BOOK))
        self.rig("D", 64)
        self.press("Append the present preset")
        self.assertIn(self.library("message", 6), self.text("book-message"))
        self.assertFalse(self.text("book-title").endswith("*"))
        book = bytes(self.js("return [...app.library.append(2, app.library.append(2, [], 'A', 3, [1]), 'D', 64, [1])]"))
        self.drop(("wide.book", book))
        self.press("Convert to the first edition")
        self.assertIn(self.library("message", 18), self.text("book-message"))
        self.assertEqual(self.js("return document.querySelector('#presets .culprit').dataset.preset"), "1")
        self.drop(("large.book", bytes(70000)))
        self.assertIn(self.library("message", 1), self.text("notice"))
        self.assertIn("wide.book", self.text("book-title"))
        self.drop(("wrong.names", b"source 1 sky\nsource 0 sky\n"))
        self.assertIn("line 2", self.text("notice"))
        self.rig("A", 1)
        self.press("New book")
        self.press("Append the present preset")
        self.assertIn(self.library("message", 21), self.text("book-message"))

    def test_07_opened_by_the_field(self):
        folder = ROOT / "tests/books/both"
        self.driver.find_element(By.ID, "file").send_keys(str(folder / "example.second"))
        WebDriverWait(self.driver, 5).until(lambda _: "example.second" in self.text("book-title"))
        self.settle()
        self.assertEqual(self.text("book-verdict"), "2 presets, second edition.")

    def test_07_two_hundred_books(self):
        made = subprocess.run(["node", str(ROOT / "page/tests/books.mjs")], check=True, capture_output=True, text=True)
        books = json.loads(made.stdout)
        self.assertEqual(len(books), 200)
        seen = self.driver.execute_async_script(
            """const [books, done] = arguments;
            const pause = () => new Promise(next => setTimeout(next));
            (async () => {
                const seen = [];
                for (const [at, { bytes }] of books.entries()) {
                    const data = new DataTransfer();
                    data.items.add(new File([Uint8Array.from(bytes)], `book ${at}`));
                    app.store.change({ book: { name: 'none', edition: 2, bytes: new Uint8Array(0) } });
                    app.store.markBookSaved();
                    document.body.dispatchEvent(new DragEvent('drop', { dataTransfer: data, bubbles: true, cancelable: true }));
                    const notice = document.getElementById('notice');
                    while (app.state.book.name === 'none' && notice.hidden) await pause();
                    const asks = [...notice.querySelectorAll('button')].map(e => e.textContent).filter(text => text.endsWith(' edition'));
                    if (asks.length > 0) [...notice.querySelectorAll('button')].find(e => e.textContent === 'Second edition').click();
                    app.updatePanel();
                    const { book } = app.state, opened = book.name !== 'none';
                    seen.push({ bytes: opened ? [...book.bytes] : bytes, editions: opened ? asks.length > 0 ? [1, 2] : [book.edition] : [],
                        verdict: opened ? document.getElementById('book-verdict').textContent.slice(0, -1) : notice.textContent.split('was not opened: ')[1].replace(/ none stays as it is.$/, ''),
                        rows: [...document.querySelectorAll('#presets li')].map(e => e.dataset.refusal ? `refused ${e.dataset.refusal}` : `letters ${e.dataset.letters}`) });
                    app.notice('');
                }
                done(seen);
            })();""", books)
        for book, shown in zip(books, seen, strict=True):
            self.assertEqual(shown, book)

    def test_07_second_tab_warns(self):
        first = self.driver.current_window_handle
        self.drop(("cabin.book", self.BOOK))
        hidden = lambda: self.js("return document.getElementById('other-tab').hidden")
        self.assertTrue(hidden())
        self.driver.switch_to.new_window("tab")
        try:
            self.load()
            self.assertTrue(hidden())
            self.drop(("cabin.book", self.BOOK))
            WebDriverWait(self.driver, 5).until(lambda _: not hidden())
            self.driver.switch_to.window(first)
            WebDriverWait(self.driver, 5).until(lambda _: not hidden())
            self.driver.switch_to.window([handle for handle in self.driver.window_handles if handle != first][0])
        finally:
            self.driver.close()
            self.driver.switch_to.window(first)
        WebDriverWait(self.driver, 5).until(lambda _: hidden())
