"""What a store asks of the package's index by blocks of lines."""
from __future__ import annotations

import json
from collections.abc import Iterator
from typing import NamedTuple, Optional

from dilforec import sentences
from dilforec.index import Index, channel_of
from dilforec.library import LINE_TOO_LONG, MEMORY, OK, fault
from dilforec.refusals import Refused, refused

_BLOCK = 1 << 20
_ERROR = b'{"error":'


class Refusal(NamedTuple):
    """A line that was refused: its place among those that were executed, from 0, the refusal's name, and the line."""

    place: int
    name: str
    line: bytes

    def why(self, index: Index) -> Refused:
        """The exception, with a sentence that tells the field."""
        try:
            ((_, given),) = json.loads(self.line).items()
            sentence = sentences.of_document(self.name, index.schema, given) if isinstance(given, dict) else ""
        except (ValueError, AttributeError):
            sentence = ""
        return refused(self.name, None, sentence)


class Executed(NamedTuple):
    """What came of lines: how many were gone through, which of them were refused, and whether memory ran out then."""

    lines: int
    refusals: "list[Refusal]"
    out_of_memory: bool = False


def execute_lines(index: Index, lines: bytes) -> Executed:
    """Executes lines, each of which ends with its LF and isn't blank. A refused one does nothing, and the others go on.

    If memory runs out, some lines after those that it tells of may be done, too.
    """
    refusals: "list[Refusal]" = []
    before = 0
    for block in _blocks(lines):
        rest = block.split(b"\n")[:-1]
        while rest:
            code, done = _execute(index, rest, before, refusals)
            if code == MEMORY:
                return Executed(before + done, refusals, True)
            if code == LINE_TOO_LONG:
                refusals.append(Refusal(before + done, "LineTooLong", rest[done]))
                done += 1
            elif code != OK:
                raise fault(code)
            before, rest = before + done, rest[done:]
    return Executed(before, refusals)


def execute_together(index: Index, lines: bytes) -> "Optional[Refusal]":
    """Executes lines, each of which ends with its LF and isn't blank, all or none.

    If one is refused, the first of these is returned, and nothing was done; nor was it if MemoryError is raised.
    """
    count = lines.count(b"\n")
    code, done, told = channel_of(index).transact(lines, count, has_replies=False)
    if code == LINE_TOO_LONG:
        return Refusal(done, "LineTooLong", _line(lines, done))
    if code != OK:
        raise fault(code)
    if done == count:
        return None
    if not told:
        raise MemoryError("there is no memory for a refusal")
    return Refusal(done, json.loads(told)["error"], _line(lines, done))


def _line(lines: bytes, place: int) -> bytes:
    return lines.split(b"\n", place + 1)[place]


def _blocks(lines: bytes) -> "Iterator[bytes]":
    """Lines in blocks of a megabyte, or of one line that is longer. Each block has room made for its replies."""
    start = 0
    while start < len(lines):
        end = len(lines) if len(lines) - start <= _BLOCK else lines.rfind(b"\n", start, start + _BLOCK) + 1
        if end <= start:
            end = lines.index(b"\n", start) + 1
        yield lines[start:end]
        start = end


def _execute(index: Index, lines: "list[bytes]", before: int, refusals: "list[Refusal]") -> "tuple[int, int]":
    """The library's code for lines, and how many were done or refused before it."""
    replies = bytearray()
    try:
        code, done = channel_of(index).ask_block(lines, replies.extend)
    except MemoryError:
        return MEMORY, 0
    if replies.count(b"\n") < done:
        # There was no memory to take the replies.
        return MEMORY, 0
    if _ERROR in replies:
        for place, reply in enumerate(replies.split(b"\n")):
            if reply.startswith(_ERROR):
                refusals.append(Refusal(before + place, json.loads(reply)["error"], lines[place]))
    return code, done
