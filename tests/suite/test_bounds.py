"""The bounds that `bench/slowest.py` measures are those of docs/PERFORMANCE.md, its named texts are no larger than they say, and its search makes the
same texts from the same seed."""
import os
import random
import sys
import unittest
from typing import Any

from harness.support import BENCH, loaded, text_of

sys.path.append(BENCH)


class Bounds(unittest.TestCase):
    """The table of bounds, and the texts."""

    slowest: Any

    @classmethod
    def setUpClass(cls) -> None:
        cls.slowest = loaded(os.path.join(BENCH, "slowest.py"))

    def test_table(self) -> None:
        """In docs/PERFORMANCE.md the section on slow texts has exactly the rows of the bench as its table, and the seconds for each GB written."""
        section = text_of("docs/PERFORMANCE.md").split("## The texts that take longest\n")[1].split("\n## ")[0]
        table = [line for line in section.splitlines() if line.startswith("| ")]
        self.assertEqual(table, ["| Call | Time | Memory |", *self.slowest.rows()])
        self.assertIn(f"For each GB that is written a command takes {self.slowest.SECONDS_AN_OCTET * 1e9:g} s more.", section)

    def test_named_texts(self) -> None:
        """A row of NAMED, a text that was slow once, names its calls by how their names begin: each beginning is that of a call. The text for the
        first such call is no larger than call and row allow: `listed` and `asked` are the most octets of the list and of the question. Except for
        `intersect` the list gets at most 4,096 octets, so that the test is fast."""
        for named in self.slowest.NAMED:
            for word in named.words:
                self.assertTrue([call for call in self.slowest.CALLS if call.what.startswith(word)], (named.what, word))
            call = next(call for call in self.slowest.CALLS if call.what.startswith(named.words))
            listed = min(named.listed, call.listed if call.word == "intersect" else 4096)
            texts = self.slowest.sized(call, named.recipe, listed, named.asked)
            self.assertLessEqual(len(texts.list_text()), min(call.listed, listed), named.what)
            self.assertLessEqual(sum(map(len, texts.parts()[1:])), min(call.asked, named.asked), named.what)  # (without the list)

    def test_the_search_is_repeated(self) -> None:
        """A recipe says how a text is made. 50 random changes of one give another one, the same both times, since the seed is the same."""
        recipes = sys.modules["recipes"]  # (slowest.py has loaded it)
        last_recipes = []
        for _ in range(2):
            chance, recipe = random.Random("seed"), self.slowest.NAMED[0].recipe
            for _ in range(50):
                recipe = recipes.changed(chance, recipe)
            last_recipes.append(recipe)
        self.assertEqual(*last_recipes)
        self.assertNotEqual(recipe, self.slowest.NAMED[0].recipe)
