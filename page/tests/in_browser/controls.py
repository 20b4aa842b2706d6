"""Buttons and boxes of the panels do the same by keyboard and by touch."""
import re
import time

from selenium.webdriver.common.keys import Keys

from in_browser.page import PageTest


class Controls(PageTest):
    BOOK = bytes.fromhex("03 05 04 00 04 05 01 02 03 05 06 00 05 02 03 05 01 02 00 00 08 00 02 00")
    NAMES = b"source 1 rear view\nscreen 2 left mirror\npreset 0 Road\nplace 1 100 100 300 300\ndelay 2.5\n"
    PANELS = [("Wanted picture", "mirror the view on screen 1"), ("Cabin", None), ("Cabin", "Arrange the screens"),
              ("Modules", "module 5 has failed (exchanges lanes 4 and 5 and mirrors both)"), ("Sheet", None)]
    # Those that hand over to the browser, which has a choice of files or prints; and one whose picture is the one that is there.
    LEFT_OUT = ("Choose a photograph", "Print the sheet", "Use the straight picture")

    def start(self, tab, prepare):
        """A book with names, its preset 1, and the panel as it is prepared."""
        self.fresh()
        self.drop(("cabin.book", self.BOOK), ("cabin.book.names", self.NAMES))
        self.press("load preset 1")
        self.press(tab)
        if prepare:
            self.press(prepare)

    def controls(self):
        return self.js("""return [...document.querySelectorAll('.panel:not([hidden]) button, .panel:not([hidden]) input[type=checkbox]')]
            .filter(e => e.offsetParent !== null && !e.disabled)""")

    def label(self, element):
        return self.js("const e = arguments[0]; return (e.getAttribute('aria-label') || e.labels?.[0]?.textContent || e.textContent).trim()", element)

    def outcome(self):
        """What can be seen: texts, fields, boxes, the word and the screens."""
        self.settle()
        return self.js("""const panel = document.querySelector('.panel:not([hidden])');
            const fields = [...document.querySelectorAll('input, select, textarea')].map(e => e.type === 'checkbox' || e.type === 'radio' ? e.checked : e.value);
            return JSON.stringify([panel.id, document.body.innerText, fields, app.state.word])""")

    def touch(self, element):
        x, y = self.js("""arguments[0].scrollIntoView({block: 'center'});
            const b = arguments[0].getBoundingClientRect(); return [b.x + b.width / 2, b.y + b.height / 2]""", element)
        self.driver.execute_cdp_cmd("Input.dispatchTouchEvent", {"type": "touchStart", "touchPoints": [{"x": x, "y": y}]})
        self.driver.execute_cdp_cmd("Input.dispatchTouchEvent", {"type": "touchEnd", "touchPoints": []})
        time.sleep(0.05)

    def test_each_by_keyboard_and_by_touch(self):
        """Of those that differ by a number alone, as one for each screen, the last."""
        seen = 0
        for tab, prepare in self.PANELS:
            self.start(tab, prepare)
            before = self.outcome()
            names = [self.label(element) for element in self.controls()]
            for name, at in {re.sub(r"\d+", "", name): at for at, name in enumerate(names) if name not in self.LEFT_OUT}.items():
                with self.subTest(panel=tab, control=name):
                    outcomes = []
                    for act in (lambda element: element.send_keys(Keys.SPACE), self.touch):
                        self.start(tab, prepare)
                        act(self.controls()[at])
                        outcomes.append(self.outcome())
                    self.assertNotEqual(outcomes[0], before)
                    self.assertEqual(outcomes[1], outcomes[0])
                    seen += 1
        self.assertGreater(seen, 15)
