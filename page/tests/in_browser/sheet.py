"""The sheet for the training record: of a preset and of a whole book, on the screen and on paper."""
import base64
import hashlib
import re
import shutil
import subprocess
from pathlib import Path

from in_browser.page import PageTest, RIGS, ROOT

# The book and the names of which tests/pictures/sheet.html is the command's report.
CABIN = [("D", 5, "4 4 2 5 3 5 1 2"), ("B", 2, "1 2 1 2")]
CABIN_NAMES = "source 1 rear view\nscreen 1 windscreen\npreset 0 Motorway <fast>\ndelay 2.5\n"
WORST_NAME = "\"quoted\" \\ and </style><script>document.title = 'taken'</script> & more"


class Sheet(PageTest):
    def book(self, edition, presets):
        book = []
        for kind, rank, word in presets:
            book = self.js("const [edition, book, kind, rank, word] = arguments; return [...app.library.append(edition, book, kind, rank, word)]", edition, book, kind, rank, list(map(int, word.split())))
        return bytes(book)

    def printed(self):
        """The sheet as the printer gets it."""
        pdf = self.driver.execute_cdp_cmd("Page.printToPDF", {"preferCSSPageSize": True})["data"]
        self.pdf = Path(self.downloads, "sheet.pdf")
        self.pdf.write_bytes(base64.b64decode(pdf))

    def pages(self):
        """The text of each printed page."""
        text = subprocess.run(["pdftotext", "-layout", self.pdf, "-"], capture_output=True, check=True, text=True).stdout
        return text.split("\f")[:-1]

    def smallest(self):
        """The smallest text in points, by poppler, which rounds sizes: so three times as large."""
        xml = subprocess.run(["pdftohtml", "-xml", "-stdout", "-i", "-zoom", "3", self.pdf], capture_output=True, check=True, text=True).stdout
        return min(map(int, re.findall(r'<fontspec [^>]*size="(-?\d+)"', xml))) / 3

    def has_margins(self, name, book):
        hash = hashlib.sha256(book).hexdigest()
        pages = self.pages()
        for number, page in enumerate(pages, 1):
            lines = page.strip().splitlines()
            self.assertIn(name, lines[0])
            self.assertIn(f"SHA-256 {hash}", lines[1])
            self.assertRegex(lines[-1], rf"Date: .*20\d\d.* page {number} of {len(pages)}$")
        return pages

    def test_09_sheet(self):
        for kind, rank in RIGS:
            self.rig(kind, rank)
            self.word(self.long_word(rank, 9))
            self.press("Sheet")
            self.write("Title", f"Yard {kind}{rank}")
            text = self.text("sheet")
            for part in [f"Yard {kind}{rank}", " ".join(map(str, self.letters())), " ".join(map(str, self.js("return app.answers.form"))), self.text("hash"), "2"]:
                self.assertIn(part, text)
            for place in ["Centre", "Cabin", "Instructor", "Signature"]:
                self.assertIn(place, text)
            self.printed()
            pages = len(re.findall(rb"/Type\s*/Page\b", self.pdf.read_bytes()))
            self.assertLessEqual(pages, 1 if rank <= 5 else 4)

    def test_09_sheet_belongs_to_its_preset(self):
        self.word("1 2 5")
        self.press("Sheet")
        self.assertIn("this preset is in no book yet", self.text("sheet"))
        self.write("Title", "Reversing")
        self.press("Book")
        self.press("Append the present preset")
        self.word("3")
        self.press("Append the present preset")
        self.press("Sheet")
        self.assertIn("new.book, second edition, preset 1", self.text("sheet"))
        self.assertIn("Reversing", self.text("sheet"))
        self.press("Book")
        self.press("load preset 0")
        self.press("Sheet")
        self.assertIn("Reversing", self.text("sheet"))
        self.assertIn("new.book, second edition, preset 0", self.text("sheet"))
        self.assertIn(hashlib.sha256(bytes(self.js("return [...app.state.book.bytes]"))).hexdigest(), self.text("sheet"))

    def test_names_are_in_the_picture(self):
        self.write("name of source 2", "rear view")
        self.write("name of screen 1", "left mirror")
        self.word("1")
        self.press("Sheet")
        drawn = self.js("return [...document.querySelectorAll('#sheet figure text')].map(e => e.textContent)")
        self.assertIn("2 rear view", drawn)
        self.assertIn("screen 1 left mirror", drawn)

    def test_nothing_is_cut_on_a_phone(self):
        self.word("4 5")
        for lane in range(1, 6):
            self.write(f"name of source {lane}", "rear view, right")
            self.write(f"name of screen {lane}", "far right window")
        self.press("Sheet")
        for width in [320, 360, 600]:
            self.size(width, 900)
            for part in ["#sheet", "#sheet .screens"]:
                self.assertLessEqual(*self.js("const e = document.querySelector(arguments[0]); return [e.scrollWidth, e.clientWidth]", part), f"{part} at {width}")
        # The picture has these names whole.
        drawn = self.js("return [...document.querySelectorAll('#sheet figure text')].map(e => e.textContent)")
        self.assertIn("screen 5 far right window", drawn)

    def test_the_whole_book_is_the_command_s_report(self):
        """The same parts in the same order, with the same words."""
        book = self.book(1, CABIN)
        self.drop(("cabin.book", book), ("cabin.book.names", CABIN_NAMES.encode()))
        self.press("Sheet")
        self.press("The whole book")
        outline = """const [root] = arguments;
            return [...root.querySelectorAll('section, h1, h2, h3, th, td, p, li, figure, figcaption, table, div, a')].filter(e => !e.closest('svg')).map(e => {
                const own = e.matches('h1, h2, h3, th, td, p, li, figcaption, a') ? e.textContent.trim().replace(/\\s+/g, ' ') : '';
                return [e.tagName.toLowerCase(), e.className, e.id, own];
            });"""
        mine = self.js(outline, self.js("return document.getElementById('sheet')"))
        report = (ROOT / "tests/pictures/sheet.html").read_text()
        theirs = self.js("const root = new DOMParser().parseFromString(arguments[0], 'text/html').querySelector('main');" + outline.replace("const [root] = arguments;", ""), report)
        # The date is another one, and so is the library, which the page has as WebAssembly.
        self.assertEqual([row[3] for row in mine if row[0] == "th"], [row[3] for row in theirs if row[0] == "th"])
        masked = lambda rows: [[*row[:3], "" if at > 0 and rows[at - 1][3] in ("Date", "Library", "SHA-256 of the library") else row[3]] for at, row in enumerate(rows)]
        self.assertEqual(masked(mine), masked(theirs))
        self.assertGreater(len(mine), 100)

    def test_every_page_says_what_it_is_of(self):
        if not shutil.which("pdftotext"):
            self.skipTest("poppler-utils is not installed")
        word = lambda rank, length: self.long_word(rank, length)
        presets = [("A", 5, word(5, 9)), ("B", 8, word(8, 40)), ("D", 16, word(16, 60)), ("B", 64, word(64, 300))]
        book = self.book(2, presets)
        self.drop(("cabin.book", book), ("cabin.book.names", f"preset 0 {WORST_NAME}\nsource 1 {WORST_NAME}\nscreen 1 {WORST_NAME}\ndelay 2.5\n".encode()))
        self.press("Sheet")
        self.press("The whole book")
        self.printed()
        pages = self.has_margins("cabin.book", book)
        corners = [page.strip().splitlines()[1].split("  ")[-1].strip() for page in pages]
        self.assertEqual(corners[0], "4 presets")
        for part in ["Presets of cabin.book", "Instructor", "Signature", "verify_certificate.py", "Contents"]:
            self.assertIn(part, pages[0])
        for corner in ["Preset 0", "Preset 1", "Preset 2", "Preset 3", "Delays of A5", "Delays of B8", "Delays of D16", "Delays of B64"]:
            self.assertIn(corner, corners)
        self.assertEqual(set(corners[1:]) & {"4 presets", ""}, set())
        self.assertGreaterEqual(self.smallest(), 8)
        self.assertIn("There is no table for B64", pages[-1])
        self.assertIn(WORST_NAME, self.text("sheet"))
        self.assertNotEqual(self.driver.title, "taken")
        self.load()

    def test_a_single_preset_has_its_margins_too(self):
        if not shutil.which("pdftotext"):
            self.skipTest("poppler-utils is not installed")
        book = self.book(1, CABIN)
        self.drop(("cabin.book", book), ("cabin.book.names", CABIN_NAMES.encode()))
        self.press("load preset 1")
        self.press("Sheet")
        self.printed()
        for page in self.has_margins("cabin.book", book):
            self.assertIn("Preset 1", page.strip().splitlines()[1])
        self.assertIn("Signature", self.pages()[0])
        self.assertGreaterEqual(self.smallest(), 8)

    def test_a_refused_record_is_a_warning_on_the_first_page(self):
        book = bytearray(self.book(1, CABIN))
        book[4] = 99
        self.drop(("cabin.book", bytes(book)))
        self.press("Sheet")
        self.press("The whole book")
        warning = self.js("return document.querySelector('#sheet .warning')?.textContent")
        self.assertRegex(warning, r"Warning: preset 0: ")
        self.assertIn("refused 8", self.text("sheet"))

    def test_all_presets_are_printed(self):
        """On the screen a long book is cut short."""
        if not shutil.which("pdftotext"):
            self.skipTest("poppler-utils is not installed")
        book = self.book(1, [("A", 3, str(1 + number % 3)) for number in range(25)])
        self.drop(("long.book", book))
        self.press("Sheet")
        self.press("The whole book")
        self.assertIn("5 further presets and the delay tables are printed too.", self.text("sheet"))
        self.printed()
        corners = [page.strip().splitlines()[1].split("  ")[-1].strip() for page in self.has_margins("long.book", book)]
        self.assertEqual(list(dict.fromkeys(corners)), ["25 presets", *(f"Preset {number}" for number in range(25)), "Delays of A3"])
