"""Plain values, of Python's own types: a string is `bytes`, a string with a display hint a pair of `bytes` (hint, string), a list a `list`."""
from typing import Any

from . import canonical as canonical_form
from . import values
from .printed import printed
from .values import Atom, Value


def plain(value: Value) -> Any:
    """The plain value of a value of the model."""
    if isinstance(value, Atom):
        return value.body if value.hint is None else (value.hint, value.body)
    return [plain(member) for member in value]


def value_of(plain_value: Any) -> Value:
    """The value of the model of a plain value: the inverse of `plain`."""
    if isinstance(plain_value, list):
        return tuple(map(value_of, plain_value))
    return Atom(plain_value[1], plain_value[0]) if isinstance(plain_value, tuple) else Atom(plain_value)


def read(text: bytes) -> Any:
    """The plain value of a canonical text. Raises FormFault if the text is not one."""
    return plain(canonical_form.read(text))


def canonical(plain_value: Any) -> bytes:
    """The canonical text of a plain value."""
    return values.canonical(value_of(plain_value))


def on_one_line(plain_value: Any) -> str:
    """A plain value in advanced form, as messages show it: in one line of ASCII."""
    return printed(value_of(plain_value)).decode()
