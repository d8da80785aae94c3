"""The picture of the page in README, docs/console.png: python3 -B -m tests.console.picture writes it anew."""

import os
import tempfile
import time

from desk.console.page import write_page
from tests.console.room import HOME
from tests.explain.browser import Browser

WIDTH, HEIGHT, MOMENT = 1340, 800, 14  # at this moment of the scenario the ring closes
PICTURE = os.path.join(HOME, "docs", "console.png")


def main():
    """Opens the page, goes to the moment, and takes the picture."""
    with tempfile.TemporaryDirectory() as folder, Browser() as browser:
        path = os.path.join(folder, "console.html")
        write_page(path)
        browser.open(path, WIDTH, HEIGHT)
        while not browser.value("document.body.dataset.ready"):
            time.sleep(0.05)
        browser.value("const scenario = document.getElementById('scenario'); scenario.value = 'ring'; scenario.dispatchEvent(new Event('change'))")
        browser.value(f"station.go({MOMENT})")
        with open(PICTURE, "wb") as file:
            file.write(browser.picture())


if __name__ == "__main__":
    main()
