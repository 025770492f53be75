"""Which form a text is in (section "Which form a text is in"). `X.count_use(row)` counts one use of a row of the table X (coverage.py)."""
from . import advanced, transport
from .coverage import Rows
from .octets import past_whitespace
from .values import LONGEST, FormFault, Value, canonical

FORMS = Rows("form of a text that is read", ["transport", "advanced or canonical"])
LIMIT = Rows("limit of the canonical form", ["TooLong, though the text is not"])


def read(text: bytes) -> Value:
    """The value of a text in any of the three forms. Raises FormFault with the first fault."""
    if text[past_whitespace(text, 0):][:1] == b"{":
        value = transport.read(text)
        FORMS.count_use("transport")
    else:
        value = advanced.read(text)
        FORMS.count_use("advanced or canonical")
    return value


def read_within_limit(text: bytes) -> Value:
    """The value of a text whose canonical form is needed. Raises FormFault: the first fault, or TooLong if that form is over a text's limit."""
    value = read(text)
    # (a canonical form is less than four times as long as any other text of the value, so that of a short text is not measured)
    if len(text) > LONGEST // 4 and len(canonical(value)) > LONGEST:
        LIMIT.count_use("TooLong, though the text is not")
        raise FormFault("TooLong")
    return value
