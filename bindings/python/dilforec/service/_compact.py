"""A journal written anew with its live documents alone, while transactions go on."""
from __future__ import annotations

import json
from collections.abc import Callable, Collection, Iterable, Iterator
from typing import NamedTuple, Optional

from dilforec.service import _files as files
from dilforec.service._disk import Disk
from dilforec.service._errors import BadJournal
from dilforec.service._files import LockedFile
from dilforec.service._journal import Journal
from dilforec.service._lines import ADD, COMMIT, encode, mark
from dilforec.service._replay import Numbers, Source

# A commit takes at most 1,000,000 operations.
_COMMIT_EACH = 100_000
_BLOCK = 1 << 20
# After how many lines it is looked whether the compaction is to end.
_CHECK_EACH = 10_000


class Sizes(NamedTuple):
    """The bytes of a journal before a compaction and after it."""

    before: int
    after: int


class _Output:
    """A file that grows by blocks. Before each, `check` may raise."""

    def __init__(self, disk: Disk, file: LockedFile, check: "Callable[[], None]") -> None:
        self._disk, self._file, self._check = disk, file, check
        self._waiting: "list[bytes]" = []
        self._size = 0
        self.end = 0

    def write(self, data: bytes) -> None:
        self._waiting.append(data)
        self._size += len(data)
        if self._size >= _BLOCK:
            self.flush()

    def flush(self) -> None:
        data, self._waiting, self._size = b"".join(self._waiting), [], 0
        if data:
            self._check()
            self._disk.write(self._file.fd, data, self.end)
            self.end += len(data)


class _Bits:
    """A set of numbers that are added in rising order: one bit for each number from the first to the last."""

    def __init__(self, numbers: Iterable[int] = ()) -> None:
        self._bytes, self._first, self.count = bytearray(), 0, 0
        for number in numbers:
            self.add(number)

    def add(self, number: int) -> None:
        if not self._bytes:
            self._first = number
        byte, bit = divmod(number - self._first, 8)
        if byte >= len(self._bytes):
            self._bytes.extend(bytes(byte + 1 - len(self._bytes)))
        self._bytes[byte] |= 1 << bit
        self.count += 1

    def __contains__(self, number: int) -> bool:
        byte, bit = divmod(number - self._first, 8)
        return 0 <= byte < len(self._bytes) and bool(self._bytes[byte] >> bit & 1)

    def remove(self, number: int) -> None:
        byte, bit = divmod(number - self._first, 8)
        self._bytes[byte] &= ~(1 << bit)
        self.count -= 1


class Compaction:
    """A compaction of a journal up to a commit: its live documents in the order of their stamps, so that ties stay.

    The journal is only read, until `finish` puts the new file in its place. Whatever ends it before, the journal is as
    it was, and the new file is of no use to anyone.
    """

    def __init__(
        self, journal: Journal, numbers: Numbers, check: "Callable[[], None]", *, schema: Optional[bytes] = None,
        drop: Collection[str] = (),
    ) -> None:
        """Begins one up to the last commit. OSError is raised if the new file can't be made.

        `check` is called now and then, and may raise what is to end it. With a schema, the new file has that one, and
        its documents are without the fields of `drop`; then nothing may be written to the journal until the end.
        """
        self._journal, self._numbers, self._copied = journal, numbers, journal.kept
        self._before = journal.kept
        self._schema, self._drop = schema or journal.schema, frozenset(drop)
        self._check = check
        self._file = journal.begin_beside()
        self._output = _Output(journal.disk, self._file, check)

    def write(self, live: Iterable[int]) -> None:
        """Writes the documents of these numbers, which rise, and the numbers of the store."""
        output = self._output
        output.write(self._schema)
        for place, line in enumerate(self._last_adds(live), 1):
            output.write(self._without_dropped(line) if self._drop else line + b"\n")
            if place % _COMMIT_EACH == 0:
                output.write(COMMIT)
        output.write(mark(self._numbers.last_id, self._numbers.commit))
        output.write(COMMIT)
        output.flush()
        self._journal.disk.sync(self._file.fd)

    def _last_adds(self, live: Iterable[int]) -> "Iterator[bytes]":
        """The last add of each number, in the order of the journal; it replaced those before it."""
        lines, marked = self._marked(live)
        for line in files.lines(self._journal.fd, len(self._journal.schema), self._copied):
            lines -= 1
            if lines in marked:
                yield line

    def _marked(self, live: Iterable[int]) -> "tuple[int, _Bits]":
        """How many lines the journal has, and which of them are last adds of numbers, counted from its end."""
        wanted, marked, count = _Bits(live), _Bits(), 0
        for line in files.lines_backwards(self._journal.fd, len(self._journal.schema), self._copied):
            found = ADD.match(line)
            if found and int(found[1]) in wanted:
                wanted.remove(int(found[1]))
                marked.add(count)
            count += 1
            if count % _CHECK_EACH == 0:
                self._check()
        if wanted.count:
            raise BadJournal("a document is in the index and not in the journal")
        return count, marked

    def _without_dropped(self, line: bytes) -> bytes:
        document = json.loads(line)["add"]
        return encode({"add": {name: document[name] for name in document if name not in self._drop}}) + b"\n"

    def follow(self) -> None:
        """Copies what was written to the journal since, and committed."""
        end = self._journal.kept
        for _, block in files.blocks(self._journal.fd, self._copied, end):
            self._output.write(block)
        self._output.flush()
        self._copied = end

    def source(self) -> Source:
        """The lines of the new file so far, after its first."""
        return Source(self._file.fd, len(self._schema), self._output.end)

    def finish(self) -> Sizes:
        """Puts the new file in the journal's place. Nothing may be written to the journal meanwhile."""
        self.follow()
        self._journal.disk.sync(self._file.fd)
        self._journal.take_place(self._file, self._schema, self._output.end)
        return Sizes(self._before, self._output.end)

    def abandon(self) -> None:
        """Takes the new file away, unless it is the journal."""
        self._journal.abandon(self._file)
