"""What docs/FORMATS.md says of answers beside the tables, tried on the model's own answers.

What is written is read again as the same value, as far as it is within the limits of what is read. An intersection contains a request
exactly if both tags do: the rules and the sets of requests are two sections of the document, and this compares them."""
from collections.abc import Callable, Iterable

from . import forms, tags
from .answers import Answer, ModelDisagrees
from .coverage import Rows
from .tags import Tag, contains
from .values import LONGEST, FormFault, Value, canonical

TRIED = Rows("law that was tried", [
    "what is written is read again", "a request of both tags", "a request of one tag or none", "an intersection that is too deep to be read again"])


def check_laws(command: str, text: bytes, answer: Answer, requests: Callable[[tuple[Tag, ...]], Iterable[Value]]) -> None:
    """Raises ModelDisagrees if an answer of the model breaks a law. Refusals, other commands and intersections that are too deep to be read are not
    tried, nor answers over half the limit of a text: their canonical form may be over it. `requests` gives some requests near some tags."""
    status, octets = answer
    if status or command not in ("canonical", "advanced", "transport", "intersect") or len(octets) > LONGEST // 2:
        return
    value = forms.read(text)
    try:
        again = forms.read(octets)
    except FormFault as fault:
        if command == "intersect" and fault.kind == "TooDeep":
            TRIED.count_use("an intersection that is too deep to be read again")
            return
        raise ModelDisagrees(f"what is written is no text: {fault}") from None
    if command != "intersect":
        if canonical(again) != canonical(value):
            raise ModelDisagrees("what is written is read as another value")
        TRIED.count_use("what is written is read again")
    else:
        assert isinstance(value, tuple)
        a, b, common = tags.read(value[1]), tags.read(value[2]), tag_of_any_size(again)
        for request in requests((a, b, common)):
            is_of_both = contains(a, request) and contains(b, request)
            TRIED.count_use("a request of both tags" if is_of_both else "a request of one tag or none")
            if contains(common, request) != is_of_both:
                raise ModelDisagrees(f"{canonical(request)!r}: in both tags: {is_of_both}, in the intersection: {not is_of_both}")


def tag_of_any_size(value: Value) -> Tag:
    """The tag that an answer has written, read without the limit of nodes: an intersection may have more."""
    reader = tags.Reader()
    reader.nodes = -10**9  # (from here the count does not reach the limit)
    return reader.tag(value)
