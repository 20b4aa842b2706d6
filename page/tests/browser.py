#!/usr/bin/python3
"""The page in Chromium, as a user works with it: the tests of in_browser/, one file for each subject.

usage: browser.py PAGE [--screenshots FOLDER] [--jobs N] [TEST ...]
A TEST is a class of tests or one of its tests: Books, or Books.test_07_opened_by_the_field. With --jobs N browsers work side by side, each on a class
of tests, and what measures time runs behind them by itself.
Needs Debian's chromium, chromium-driver and python3-selenium. WINNATHEY_WASM is the library that the page has to hold.
"""
import importlib
import subprocess
import sys
import unittest
from concurrent.futures import ThreadPoolExecutor
from pathlib import Path

from in_browser.page import PageTest
from in_browser.screenshots import Screenshots

for file in sorted((Path(__file__).resolve().parent / "in_browser").glob("*.py")):
    module = importlib.import_module(f"in_browser.{file.stem}")
    # The classes of a subject, not those that it imports.
    globals().update({name: value for name, value in vars(module).items() if getattr(value, "__module__", "") == module.__name__ and isinstance(value, type)})

MEASURING = ["Speed"]


def side_by_side(given, jobs, names):
    """Runs each class of tests in a process of its own, those with the most tests first, and prints what they print."""
    run = lambda name: subprocess.run([sys.executable, __file__, *given, name], stdout=subprocess.PIPE, stderr=subprocess.STDOUT, text=True)
    with ThreadPoolExecutor(jobs) as pool:
        results = list(pool.map(run, [name for name in names if name not in MEASURING]))
    results += [run(name) for name in names if name in MEASURING]
    print("\n".join(result.stdout for result in results))
    return any(result.returncode for result in results)


if __name__ == "__main__":
    given, arguments = sys.argv[1:2], sys.argv[2:]
    PageTest.PAGE = Path(given[0]).resolve()
    if arguments[:1] == ["--screenshots"]:
        Screenshots.FOLDER = arguments[1]
        given, arguments = [*given, *arguments[:2]], arguments[2:]
    if arguments[:1] == ["--jobs"]:
        classes = {name: value for name, value in globals().items() if isinstance(value, type) and issubclass(value, unittest.TestCase)}
        tests = {name: len(unittest.defaultTestLoader.getTestCaseNames(value)) for name, value in classes.items()}
        names = arguments[2:] or sorted(filter(tests.get, tests), key=tests.get, reverse=True)
        sys.exit(side_by_side(given, int(arguments[1]), names))
    result = unittest.main(argv=[sys.argv[0], *arguments], exit=False).result
    for test, reason in result.skipped:
        print(f"page, skipped: {test.id().removeprefix('__main__.').removeprefix('in_browser.')} ({reason})")
    sys.exit(not result.wasSuccessful())
