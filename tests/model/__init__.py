"""An executable reading of docs/FORMATS.md: what the program `spki` answers to a text, computed by other means.

The model was written from docs/FORMATS.md and the RFCs that it names, and not from the sources of the program. It is written to be compared with the
document by a reader, so it is simple and slow: each module reads one section, and keeps its tables as they are there. `tests/differential.py`
compares its answers with those of the program on generated texts. Where the two differ, the document decides.

| Module | Section of docs/FORMATS.md |
|---|---|
| `values`, `octets`, `canonical`, `transport`, `advanced`, `printed`, `forms` | S-expressions in canonical form, transport form, advanced form |
| `tags`, `intersection` | Tags |
| `structures`, `case` | Keys, hashes, dates, entries, certificates; the case |
| `evidence`, `reduction`, `derivations` | Evidence and decision |
| `answers` | The program |
| `calls` | The library for C programs |
| `guard` | Questions to a guard |

`plain` has values as Python has them, for tests that make and read some. `laws` tries on the model's own answers what the document says of them
beside the tables. `coverage` counts: a table that is declared as `Rows` lists what the document names, and a row that no generated text reaches shows
as zero. The document names more that no text reaches: `refused Memory`, the faults of reading and writing, and bad words of a command line (see
tests/suite/test_hostile.py and tests/suite/test_words.py); TooLong of octets in braces, since their base64 is longer; and Bad where a transport form
does not begin with `{`, since such a text is read as advanced form."""
