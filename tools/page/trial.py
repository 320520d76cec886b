"""What the tests of the page share: how rows are counted, and how the page is opened and asked."""
import json
import os

import drive

TOP = os.path.dirname(os.path.dirname(os.path.dirname(os.path.realpath(__file__))))
PAGE = os.path.abspath(os.environ.get("PAGE", f"{TOP}/release/page.html"))
READY = "document.body?.dataset.ready === 'yes'"


class Rows:
    """How many rows have passed and failed."""

    passed = failed = 0


def count(name, holds, more=""):
    """Counts a row."""
    if holds:
        Rows.passed += 1
    else:
        Rows.failed += 1
        print(f"FAILED {name}{': ' if more else ''}{more}", flush=True)


def same(name, got, wanted):
    """Counts a row that wants two values to be equal."""
    count(name, got == wanted, f"\n  page   {str(got)[:600]}\n  wanted {str(wanted)[:600]}")


def read(path):
    with open(path, encoding="utf-8") as file:
        return file.read()


def add_probe(browser):
    """Gives the page what tests ask it."""
    browser.eval(f"{read(f'{TOP}/tools/page/probe.js')}\nglobalThis.probe = probe; 0")


def open_page(browser, hash_part=""):
    """Opens the page as in a new tab, in which nothing is kept, and waits for what it shows first."""
    browser.eval("if (globalThis.keep) { globalThis.keep = () => true; sessionStorage.clear() } 0")
    browser.call("Page.navigate", url="about:blank")
    if not browser.go(f"file://{PAGE}{hash_part}", READY):
        raise drive.Fault("the page doesn't become ready")
    add_probe(browser)
    browser.eval("probe.settled()")


def act(browser, *deeds):
    """Does something in the page, and waits after each deed until all has been shown that it leads to."""
    for deed in deeds:
        browser.eval(f"{{ {deed} }} 0")
        browser.eval("probe.settled()")


def open_example(browser, name):
    """Opens an example, by its name or its number."""
    number = name if isinstance(name, int) else f"examples.findIndex(it => it.name === {json.dumps(name)})"
    act(browser, f"openExample({number})")
