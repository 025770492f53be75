#!/usr/bin/env python3
"""Times the page `apps/playground` in Chromium: from a keystroke to the answer on the page, for the story of the guide and for a question of
about 50,000 octets, and the first paint. The exit status is 1 if a limit is exceeded.

Build the program first (`rt run` in crates/spki). The library decides where crates/spki_c/out has it. Needs Chromium with Selenium (Debian:
chromium, chromium-driver, python3-selenium). Usage: bench/playground.py
"""
import os
import statistics
import sys
import time
from typing import Any

HERE = os.path.dirname(os.path.abspath(__file__))
sys.path.append(os.path.join(HERE, "..", "tests"))
from shared import LIBRARY, page_tests  # noqa: E402

PAGE = page_tests()
InChromium: Any = PAGE.InChromium

STORY_SECONDS, LONG_SECONDS, PAINT_SECONDS = 0.05, 0.3, 0.2
RUNS = 15
# Changes the request, and returns the seconds until the answer to it is drawn.
KEYSTROKE = """
    const done = arguments[arguments.length - 1], box = document.getElementById('request'), line = document.getElementById('line');
    const wanted = box.value.includes('read') ? 'no' : 'yes', begins = performance.now();
    box.value = wanted === 'no' ? 'packages\\nrear' : 'packages\\nread\\n/builds/web/index.html';
    const seen = (_, observer) => line.textContent.startsWith(wanted) && (observer.disconnect(),
      requestAnimationFrame(() => done((performance.now() - begins) / 1000)));
    new MutationObserver(seen).observe(line, {childList: true, characterData: true, subtree: true});
    box.dispatchEvent(new Event('input', {bubbles: true}));"""


class Timed(InChromium):
    """The browser of the page's tests, in which the page is timed. `engine` says what decides: the library if it is built, else the program."""

    engine = "library" if os.path.exists(f"{LIBRARY[:-2]}.so") else "program"

    def to_the_answer(self, question):
        """The median of the seconds from a keystroke to the answer. `question` is a dictionary, whose `acl` and `sequence` are put into the page.
        Raises TimeoutException of Selenium if an answer does not come."""
        for name in ("acl", "sequence"):
            self.paste(name, question[name])
        # (until the page has answered to these texts)
        time.sleep(2)
        return statistics.median(self.browser.execute_async_script(KEYSTROKE) for _ in range(RUNS))

    def to_the_first_paint(self):
        """The median of the seconds from a reload to the first paint. Raises AssertionError, as `until` does, if it does not come."""
        seconds = []
        for _ in range(RUNS):
            self.browser.refresh()
            seconds.append(self.until("return performance.getEntriesByName('first-contentful-paint')[0]?.startTime") / 1000)
        return statistics.median(seconds)


def main():
    """Prints the three times. Returns the exit status: 1 if a limit is exceeded."""
    Timed.setUpClass()
    try:
        timed = Timed()
        timed.setUp()
        rows = [("the first paint", timed.to_the_first_paint(), PAINT_SECONDS), ("the story", timed.to_the_answer(PAGE.STORY), STORY_SECONDS),
                ("a long question", timed.to_the_answer(PAGE.long_question()), LONG_SECONDS)]
    finally:
        Timed.doClassCleanups()
    for name, seconds, limit in rows:
        print(f"{name}: {seconds * 1000:.0f} ms (at most {limit * 1000:.0f}), {Timed.engine}")
    return 1 if any(seconds > limit for _, seconds, limit in rows) else 0


if __name__ == "__main__":
    sys.exit(main())
