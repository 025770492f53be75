"""The library for C programs on another kind of machine, called as ctypes calls one that is loaded into this process: `relay.c`, which an
emulator runs, does the calls. Each block of memory that a call is given is copied there and back. Both kinds of machines have addresses and
numbers of 64 bits, the lowest octet first."""
import ctypes
import os
import struct
import subprocess
from collections.abc import Callable
from ctypes import POINTER, Array, Structure, addressof, byref, c_bool, c_int, c_int64, c_void_p, sizeof, string_at
from typing import Any, BinaryIO, cast

from harness.guard_door import Asked, Decision, Listed, Text

# In the order of `calls` in relay.c. The first copies memory.
CALLS = ("memory", "spki_answer", "spki_check_accepted", "spki_guard_open", "spki_guard_close", "spki_guard_entries", "spki_guard_ask",
         "spki_asked_count", "spki_asked_signature", "spki_asked_mark", "spki_asked_granted", "spki_asked_possible", "spki_asked_decide",
         "spki_asked_explain", "spki_asked_reduce", "spki_asked_close", "spki_string")
ARGUMENTS = 8  # (of each call: relay.c reads so many)
PARTS = ("sequence", "key", "request", "moment")
# In the tests a longer text, or more strings, are misuse: no octet of them is read.
MOST_OCTETS, MOST_WORDS = 1 << 22, 2000
# The type of what `byref` returns, and the base of all types of ctypes that are one number or pointer: ctypes has no public names for them.
REFERENCE: Any = type(byref(c_int()))
SIMPLE: Any = c_int.__mro__[1]


def numbers(*values: int) -> bytes:
    """The octets of numbers, 64 bits each and the lowest octet first, as `relay.c` reads them. A negative number is its two's complement."""
    return struct.pack(f"<{len(values)}Q", *(value % 2**64 for value in values))


class Request:
    """What one call is given: blocks of memory, which are named by their numbers; links (block, the place in it where an address is put, the block of
    this address); and arguments (whether it is the address of a block, and the block's number or a value)."""

    def __init__(self) -> None:
        self.blocks: list[bytes] = []
        self.links: list[tuple[int, int, int]] = []
        self.arguments: list[tuple[bool, int]] = []
        self.written: list[tuple[int, Any]] = []
        """The blocks that are copied back, and where to."""

    def block(self, octets: bytes) -> int:
        """Adds a block of memory with these octets. Returns its number."""
        self.blocks.append(octets)
        return len(self.blocks) - 1

    def give(self, value: Any, kind: Any) -> None:
        """Adds an argument: a number, 0 for null, or the address of a block. `kind` is the type to which ctypes would convert the value."""
        is_pointer = not issubclass(kind, SIMPLE)
        if isinstance(value, REFERENCE):
            self.lend(cast(Any, value)._obj)  # (what `byref` refers to)
        elif isinstance(value, (Array, Structure)) or is_pointer and value is not None:
            self.lend(value)
        elif isinstance(value, bytes):
            self.arguments.append((True, self.block(value + b"\0")))
        else:
            self.arguments.append((False, (value.value if isinstance(value, SIMPLE) else value) or 0))

    def lend(self, value: Any) -> None:
        """Adds an argument that is the address of a value. What the call writes there is copied back, except to a question, which no call writes."""
        block = self.question(value) if isinstance(value, Asked) else self.block(bytes(value))
        self.arguments.append((True, block))
        if not isinstance(value, Asked):
            self.written.append((block, value))

    def question(self, asked: Asked) -> int:
        """Adds a block that is a question, and blocks for all that it points to. Returns the number of the first."""
        block = self.block(bytes(asked))
        for name in PARTS:
            self.text(block, getattr(Asked, name).offset, getattr(asked, name))
        if asked.words:
            # (an array of no strings has an address too, so one is copied, as of an array that is too long)
            count = max(1, asked.word_count if asked.word_count <= MOST_WORDS else 0)
            words = self.block(string_at(addressof(asked.words.contents), count * sizeof(Text)))
            self.links.append((block, Asked.words.offset, words))
            for place in range(count):
                self.text(words, place * sizeof(Text), asked.words[place])
        if asked.seconds:
            self.links.append((block, Asked.seconds.offset, self.block(bytes(asked.seconds.contents))))
        return block

    def text(self, block: int, place: int, text: Text) -> None:
        """Adds a block with the octets of a text, and a link to it from the place of its pointer in `block`. Null stays null."""
        at = c_void_p.from_address(addressof(text)).value  # (`text.octets` would be the octets up to a 00, and not the address)
        if at:
            length = text.length if text.length <= MOST_OCTETS else 1
            self.links.append((block, place, self.block(string_at(at, length))))

    def octets_for(self, call: int) -> bytes:
        """The request as `relay.c` reads it, with the number of the call."""
        blocks = b"".join(numbers(len(octets)) + octets for octets in self.blocks)
        links = b"".join(numbers(*link) for link in self.links)
        arguments = b"".join(numbers(*argument) for argument in [*self.arguments, *[(False, 0)] * (ARGUMENTS - len(self.arguments))])
        return numbers(len(self.blocks)) + blocks + numbers(len(self.links)) + links + numbers(call) + arguments


class Call:
    """A call of the library, by its number in CALLS, with the types `argtypes` and `restype` as a function of ctypes has them."""

    def __init__(self, relayed: "Relayed", number: int) -> None:
        self.relayed, self.number = relayed, number
        self.argtypes: list[Any] = []
        self.restype: Any = c_int

    def decided(self, *arguments: Any) -> Decision:
        """What `spki_asked_decide` returns. A call by `relay.c` returns one number: it writes the decision's last second to one more argument."""
        until, call = c_int64(), Call(self.relayed, self.number)
        call.argtypes = [*self.argtypes, POINTER(c_int64)]
        return Decision(call(*arguments, byref(until)), until.value)

    def __call__(self, *arguments: Any) -> Any:
        """Has the other machine do the call with these arguments, copies back what it has written, and returns what it returns."""
        if self.restype is Decision:
            return self.decided(*arguments)
        request = Request()
        for value, kind in zip(arguments, self.argtypes, strict=True):
            request.give(value, kind)
        returned, blocks = self.relayed.relay(self.number, request)
        for block, value in request.written:
            ctypes.memmove(addressof(value), blocks[block][1], sizeof(value))
            if isinstance(value, Listed):
                self.relayed.fetch(value)
            elif isinstance(value, c_void_p):
                value.value = address_here(value.value, request, blocks)
        # (a truth value is one octet of what is returned)
        returned = returned & 0xff if self.restype is c_bool else returned
        return None if self.restype is None else self.restype(returned).value


def address_here(address: int | None, request: Request, blocks: list[tuple[int, bytes]]) -> int | None:
    """An address of the other machine as one of this process, if it is in or at the end of an array that was lent. Any other address, as that of a
    guard, is returned as it is: only the other machine uses it. `blocks` has for each block of the request its address there and its octets."""
    for block, value in request.written:
        at, octets = blocks[block]
        if address is not None and at <= address <= at + len(octets) and isinstance(value, Array):
            return address - at + addressof(value)
    return address


class Relayed:
    """In the place of a library that ctypes loads. Each process of this machine that calls it runs the command `words`, `relay.c` by an emulator.
    `process` runs it, and `owner` is the number of the process that has started that, since a fork copies both."""

    def __init__(self, words: list[str]) -> None:
        self.words, self.owner = words, 0
        self.process: subprocess.Popen[bytes] | None = None

    def __getattr__(self, name: str) -> Callable[..., Any]:
        """The call of the library that has this name."""
        if name not in CALLS:
            raise AttributeError(name)
        call = Call(self, CALLS.index(name))
        setattr(self, name, call)
        return call

    def pipes(self) -> tuple[BinaryIO, BinaryIO]:
        """The pipe to the program on the other machine, and the one from it. Each process here starts such a program at its first call: a forked
        process must not use the pipes of its parent."""
        if self.process is None or self.owner != os.getpid():
            self.process, self.owner = subprocess.Popen(self.words, stdin=subprocess.PIPE, stdout=subprocess.PIPE), os.getpid()
        return cast(BinaryIO, self.process.stdin), cast(BinaryIO, self.process.stdout)

    def relay(self, call: int, request: Request) -> tuple[int, list[tuple[int, bytes]]]:
        """Has the other machine do the call of a number. Returns what it returns, and of each block its address there and its octets afterwards."""
        to_other, from_other = self.pipes()
        to_other.write(request.octets_for(call))
        to_other.flush()

        def number() -> int:
            """The next number from the other machine."""
            return int(struct.unpack("<Q", read_exactly(from_other, 8))[0])

        returned = number()
        return returned, [(number(), read_exactly(from_other, len(octets))) for octets in request.blocks]

    def fetch(self, listed: Listed) -> None:
        """Copies the texts of a signature from the other machine, by call 0, which copies memory, and sets its addresses to those of the copies."""
        copies = []
        for name in ("key", "message", "value", "octets"):
            at, length, request = getattr(listed, name), getattr(listed, f"{name}_length"), Request()
            if at:
                request.block(bytes(length))  # (call 0 copies into this block)
                request.arguments = [(False, at), (False, length)]
                _, [(_, octets)] = self.relay(0, request)
                copies.append(ctypes.create_string_buffer(octets))
                setattr(listed, name, addressof(copies[-1]))
        # (a copy lasts as long as what points to it)
        listed.copies = copies

    def close(self) -> None:
        """Ends the process of the other machine, if this process has started it."""
        if self.process is not None and self.owner == os.getpid():
            to_other, from_other = self.pipes()
            to_other.close()
            self.process.wait()
            from_other.close()
            self.process = None


def read_exactly(pipe: BinaryIO, length: int) -> bytes:
    """The next `length` octets of a pipe. Raises EOFError if it ends before."""
    octets = pipe.read(length)
    if len(octets) != length:
        raise EOFError("the process that does the calls has ended")
    return octets
