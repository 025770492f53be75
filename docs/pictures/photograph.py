#!/usr/bin/env python3
"""Takes the pictures of the page `apps/playground`, as docs/GUIDE.md and README.md show them:

playground.png           the story of the guide
playground-denial.png    Carol passes her right on to Bob

Build the program first (`rt run` in crates/spki). Needs Chromium with Selenium, and pngquant, which makes the files small (Debian: chromium,
chromium-driver, python3-selenium, pngquant).
Usage: docs/pictures/photograph.py
"""
import os
import shutil
import subprocess
import sys
from typing import Any

HERE = os.path.dirname(os.path.abspath(__file__))
sys.path.append(os.path.join(HERE, "..", "..", "tests"))
from shared import page_tests  # noqa: E402

InChromium: Any = page_tests().InChromium

# By their names: width and height, and the number of the example on the page.
PICTURES = {"playground": (1120, 1110, 0), "playground-denial": (1120, 760, 5)}


class Camera(InChromium):
    """The browser of the page's tests, which here takes pictures."""

    def take(self, name, width, height, example):
        """Chooses the example with a number on the page, waits for its answer, and writes the picture NAME.png, so many pixels wide and high. Raises
        AssertionError if the answer does not come, which is Yes to the first example and No to any other that is taken, and CalledProcessError if
        pngquant fails."""
        size = {"width": width, "height": height, "deviceScaleFactor": 1, "mobile": False}
        self.browser.execute_cdp_cmd("Emulation.setDeviceMetricsOverride", size)
        self.setUp()
        self.browser.execute_script("const it = document.getElementById('example'); it.value = arguments[0];"
                                    "it.dispatchEvent(new Event('change'))", str(example))
        self.until("return document.getElementById('span').textContent && document.getElementById('kind').textContent === arguments[0]",
                   "No" if example else "Yes")
        self.until("return !document.getAnimations().length")
        path = os.path.join(HERE, f"{name}.png")
        self.browser.save_screenshot(path)
        subprocess.run(["pngquant", "--speed", "1", "--nofs", "--force", "--output", path, "48", path], check=True)


def main():
    """Takes all pictures, and returns 0. Ends the script with status 1 if there is no pngquant."""
    if not shutil.which("pngquant"):
        sys.exit("there is no pngquant; Debian: pngquant")
    Camera.setUpClass()
    try:
        for name, settings in PICTURES.items():
            Camera().take(name, *settings)
    finally:
        Camera.doClassCleanups()
    return 0


if __name__ == "__main__":
    sys.exit(main())
