#!/usr/bin/env python3
"""The page of a fan in a headless browser: random relays and links are clicked, and what it shows is held against the library's survivors.

    PYTHONPATH=python python3 tests/page_clicks.py
"""
import pathlib
import random
import tempfile

from selenium import webdriver
from selenium.webdriver.chrome.options import Options
from selenium.webdriver.chrome.service import Service

from gustparsley import Mesh
from gustparsley.draw import Picture, page

CLICK = "arguments[0].dispatchEvent(new MouseEvent('click', {bubbles: true}))"


def shown(browser):
    """What the page says: how many paths are whole, and of each whether it is."""
    items = browser.execute_script("return [...document.querySelectorAll('#paths li')].map(item => [item.textContent, item.classList.contains('broken')])")
    lanes = browser.execute_script("return [...document.querySelectorAll('svg [data-path]')].map(part => [Number(part.dataset.path), part.classList.contains('broken')])")
    assert all(broken == items[i][1] for i, broken in lanes), "a lane and the list differ"
    assert all(text.endswith("broken" if broken else "whole") for text, broken in items)
    return browser.find_element("id", "whole").text, [not broken for _, broken in items]


def alive(mesh, source, targets, paths, bundle, stopped, cuts):
    told = mesh.bundle_survivors(source, targets[0], paths, stopped, cuts) if bundle else mesh.survivors(source, targets, paths, stopped, cuts)
    return f"{told.whole} of {len(paths)} paths are whole", [entry.whole for entry in told]


def main():
    rng = random.Random(7)
    options = Options()
    for word in ("--headless=new", "--no-sandbox", "--disable-gpu", "--disable-dev-shm-usage"):
        options.add_argument(word)
    browser = webdriver.Chrome(service=Service("/usr/bin/chromedriver"), options=options)
    clicks = 0
    try:
        with tempfile.TemporaryDirectory() as folder:
            for mesh, bundle in ((Mesh.two(2), False), (Mesh.cube(4), False), (Mesh.two(1), True), (Mesh.two(4), False), (Mesh.cube(16), True)):
                listed = rng.sample(range(mesh.relays), mesh.links + 1)
                source, targets = listed[0], listed[1:2] if bundle else listed[1:]
                paths = mesh.bundle(source, targets[0]) if bundle else mesh.plan(source, targets)
                file = pathlib.Path(folder, "page.html")
                file.write_text(page(Picture.of(mesh, paths, f"Paths in {mesh}")), encoding="utf-8")
                browser.get(file.as_uri())
                stopped, cuts = set(), set()
                assert shown(browser) == alive(mesh, source, targets, paths, bundle, stopped, cuts)
                relays = sorted({relay for path in paths for relay in path})
                wires = sorted({tuple(sorted(pair)) for path in paths for pair in zip(path, path[1:])})
                for _ in range(40):
                    if rng.random() < 0.5:
                        relay = rng.choice(relays)
                        part = rng.choice(browser.find_elements("css selector", f'[data-relay="{relay}"]'))
                        stopped ^= {relay}
                    else:
                        wire = rng.choice(wires)
                        part = rng.choice(browser.find_elements("css selector", f'[data-link="{wire[0]}-{wire[1]}"]'))
                        cuts ^= {wire}
                    browser.execute_script(CLICK, part)
                    clicks += 1
                    assert shown(browser) == alive(mesh, source, targets, paths, bundle, stopped, cuts), (mesh, stopped, cuts)
                browser.execute_script(CLICK, browser.find_element("id", "mend"))
                assert shown(browser) == alive(mesh, source, targets, paths, bundle, (), ())
    finally:
        browser.quit()
    print(f"page: after each of {clicks} clicks on relays and links the page shows the library's survivors")


if __name__ == "__main__":
    main()
