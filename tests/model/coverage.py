"""Counts how often each row of the document's tables is used, so that a row that no generated text reaches is seen."""
from collections.abc import Iterable

TABLES: list["Rows"] = []


class Rows:
    """The rows of one table: its title, their names, and how often each was used. Each table that is made is added to TABLES."""

    def __init__(self, title: str, names: Iterable[str]) -> None:
        self.title = title
        self.counts = dict.fromkeys(names, 0)
        TABLES.append(self)

    def count_use(self, name: str) -> None:
        """Counts one use of a row. Raises KeyError for a name that the table does not list, which is an error of the model."""
        if name not in self.counts:
            raise KeyError(f"{self.title} has no row {name!r}")
        self.counts[name] += 1


def counts() -> dict[tuple[str, str], int]:
    """How often each row was used in this process, by the table's title and the row's name."""
    return {(table.title, name): count for table in TABLES for name, count in table.counts.items()}


def reset_counts() -> None:
    """Sets all counts to 0."""
    for table in TABLES:
        table.counts = dict.fromkeys(table.counts, 0)
