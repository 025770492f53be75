"""Does what docs/OPERATING.md says, one command after the other in the folder of the example behind nginx, and compares what is written."""
import os
import unittest

from harness import needs, served
from harness.support import output_of, text_of
from suite import test_guide


@needs.needs(*served.NEEDS, *needs.LIBRARY)
class Operating(unittest.TestCase):
    """The page in a shell."""

    def check_page(self, shell: str) -> None:
        """A shell that runs the commands of the page must write what the page says. END is written after the output of each command."""
        site = served.Site()
        self.addCleanup(site.end)
        steps = list(test_guide.steps_of_markdown(text_of("docs/OPERATING.md")))
        settings = {**site.settings, "EXAMPLE": served.EXAMPLE, "PATH": f"{os.path.dirname(site.program)}:{site.settings['PATH']}"}
        try:
            output = output_of(shell, text="".join(test_guide.script(steps)), cwd=site.room, env=settings, seconds=served.SECONDS)[1]
        finally:
            # (the page starts a second daemon, which would run on)
            output_of("sh", "-c", "kill $(cat run/second.pid)", cwd=site.room)
        written = [each.strip("\n") for each in output.split(f"{test_guide.END}\n")]
        self.assertEqual(written, [*(answer.strip("\n") for _, _, answer in steps), ""])

    def test_in_sh(self) -> None:
        self.check_page("sh")

    def test_in_bash(self) -> None:
        self.check_page("bash")
