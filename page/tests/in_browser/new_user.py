"""A task of a new user, from the labels alone."""
import base64

from selenium.webdriver.common.by import By
from selenium.webdriver.support.ui import Select

from in_browser.page import PageTest


class NewUser(PageTest):
    def test_rear_view_mirrored_into_the_left_mirror(self):
        """From an empty page by the labels alone: compose at D5, save into a new book, open it again, print its sheet."""
        self.rig("D", 5)
        self.write("name of source 1", "rear view")
        self.write("name of screen 2", "left mirror")
        self.press("Wanted picture")
        Select(self.labelled("source on screen 2 left mirror")).select_by_visible_text("1 rear view")
        self.settle()
        self.press("mirror the view on screen 2 left mirror")
        self.assertIn("mirror one view more", self.panel().text)
        self.press("mirror the view on screen 5")
        self.press("Use these steps as the word")
        screen = self.js("return document.querySelector('#screens [data-screen=\"2\"]')")
        self.assertEqual(screen.find_element(By.CLASS_NAME, "shows").text.split(), ["1", "rear", "view", "mirrored"])
        self.press("Book")
        self.write("File name", "lesson.book")
        self.write("Name of the preset", "Reversing")
        self.press("Append the present preset")
        self.assertTrue(self.js("return document.getElementById('unkept').hidden"))
        self.press("Save as a new file")
        book = self.saved("lesson.book")
        names = self.saved("lesson.book.names")
        self.fresh()
        self.drop(("lesson.book", book), ("lesson.book.names", names))
        self.press("load preset 0")
        self.assertEqual(self.screens()[1], -1)
        self.press("Sheet")
        self.assertIn("Reversing", self.text("sheet"))
        self.assertIn("1 rear viewmirrored", self.text("sheet"))
        self.assertTrue(base64.b64decode(self.driver.print_page()).startswith(b"%PDF"))
