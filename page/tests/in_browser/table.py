"""The table of calls and answers in Chromium."""
import base64
import os
import tempfile
import unittest
from pathlib import Path

from in_browser.page import ROOT, chromium


class TableTest(unittest.TestCase):
    """The table of calls and answers through winnathey.mjs and winnathey.wasm, in an empty page."""

    RUN = """
        const [library, runner, wasm, table, done] = arguments;
        const module = text => import(URL.createObjectURL(new Blob([text], { type: 'text/javascript' })));
        (async () => {
            const [{ load, Refusal }, { runTable, said }] = await Promise.all([module(library), module(runner)]);
            const w = await load(Uint8Array.from(atob(wasm), byte => byte.charCodeAt(0)));
            return said(runTable(table, w, Refusal), 'Chromium');
        })().then(done, error => done(String(error)));
    """

    def test_rows(self):
        read = lambda path: (ROOT / path).read_text(encoding="utf-8")
        wasm = Path(os.environ.get("WINNATHEY_WASM", ROOT / "target/targets/wasm32/winnathey.wasm")).read_bytes()
        mjs = Path(os.environ.get("WINNATHEY_MJS", ROOT / "bindings/javascript/winnathey.mjs")).read_text(encoding="utf-8")
        given = mjs, read("tests/calls_table.mjs"), base64.b64encode(wasm).decode(), read("tests/calls.jsonl")
        with tempfile.TemporaryDirectory(prefix="page-") as folder:
            driver = chromium(folder)
            try:
                page = Path(folder) / "empty.html"
                page.write_text("<!doctype html><title>The table of calls</title>", encoding="utf-8")
                driver.get(page.as_uri())
                said = driver.execute_async_script(self.RUN, *given)
            finally:
                driver.quit()
        self.assertRegex(said, r"^calls: \d+ rows through JavaScript in Chromium ")
        print(said)
