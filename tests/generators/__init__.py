"""Generated texts for `tests/differential.py`: most are valid or nearly valid.

| Module | Makes |
|---|---|
| `spellings` | texts of a value in all three forms, with every way to write a string |
| `mutations`, `nearly` | values and texts that differ a little from a given one, always or by chance |
| `tags` | tags and requests that belong together, or nearly |
| `cases` | cases with a chain of certificates, most of which join |
| `guards` | questions to a guard, also with calls that are misuse |
| `rare` | texts at the limits |
| `seldom` | what seldom comes by chance: each has a number of its own |
| `asked`, `questions` | the kinds of questions; a question by a seed and a number |
| `smaller` | a smaller question that still shows a difference |

Everything is made from a `random.Random`, so a seed and a number give the same text again."""
