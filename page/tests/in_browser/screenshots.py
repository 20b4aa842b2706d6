"""The stored screenshots."""
from pathlib import Path

from in_browser.page import PageTest, shot


class Screenshots(PageTest):
    FOLDER = None

    def test_screenshots(self):
        if self.FOLDER is None:
            self.skipTest("no folder was named")
        self.driver.execute_cdp_cmd("Emulation.setScrollbarsHidden", {"hidden": True})
        named = {"source": ["left door", "rear right", "front view", "crane hook", "rear left"],
                 "screen": ["windscreen", "left mirror", "left window", "hook monitor", "right mirror"]}
        names = "".join(f"{keyword} {at} {name}\n" for keyword, list in named.items() for at, name in enumerate(list, 1))
        for scheme in ["light", "dark"]:
            for width, height in [(1280, 900), (360, 1180)]:
                self.size(width, height, scheme)
                self.fresh()
                self.drop(("cabin-3.book", b""), ("cabin-3.book.names", names.encode()))
                self.press("Second edition")
                self.word("4 4 2 5 3 5 1 2")
                self.press("Why")
                self.js("scrollTo(0, 0); document.activeElement.blur()")
                shot(self.driver, Path(self.FOLDER, f"d5-{scheme}-{width}.png"))
        self.size(1280, 900, "light")
        self.rig("D", 64)
        self.word(self.long_word(64, 4096))
        self.js("scrollTo(0, 0); document.activeElement.blur()")
        shot(self.driver, Path(self.FOLDER, "d64-light-1280.png"))
