"""Values and texts that are right or nearly right."""
import random

from model.values import Value, canonical

from . import spellings
from .mutations import mutated, mutated_text


def maybe_changed(value: Value, rng: random.Random, chance: float) -> Value:
    """The value, or by chance one that differs from it at one or more places. `chance` is that of a first change, and halves with each."""
    while rng.random() < chance:
        value = mutated(value, rng)
        chance /= 2
    return value


def maybe_wrong_text(value: Value, rng: random.Random, wrong: float = 0.35) -> bytes:
    """A text of a value, with mistakes by chance. `wrong` is the chance of a first mistake in the text, and halves with each. Before, by
    a quarter of this chance, it is a right transport form whose octets are nearly a canonical form, and has no other mistake."""
    if rng.random() < wrong / 4:
        return spellings.in_braces(mutated_text(canonical(value), rng), rng)
    text = spellings.text_of(value, rng)
    while rng.random() < wrong:
        text = mutated_text(text, rng)
        wrong /= 2
    return text
