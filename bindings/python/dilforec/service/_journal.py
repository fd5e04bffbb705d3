"""A journal: one file, to which whole transactions are written at the end, each synced before the next."""
from __future__ import annotations

import os
from typing import Optional

from dilforec.service import _files as files
from dilforec.service._disk import Disk
from dilforec.service._errors import BadJournal, NotWritten, OutcomeUnknown
from dilforec.service._files import LockedFile
from dilforec.service._lines import COMMIT

_LONGEST_SCHEMA = 1 << 16


class Journal:
    """An open, locked journal. `end` is the place after its last whole transaction, where the next one goes.

    `kept` is the place after the last one that is committed in the index, too, and so won't be cut back.
    """

    def __init__(self, path: str, disk: Disk) -> None:
        """Opens a journal, or makes an empty file. Locked, OSError or BadJournal is raised, and nothing is written."""
        self.path = os.path.realpath(path)
        self.disk = disk
        self._file = LockedFile(self.path)
        try:
            self.size = os.fstat(self.fd).st_size
            self.schema = self._first_line()
            self.end = files.after_last(self.fd, COMMIT, len(self.schema), self.size) if self.schema else 0
            self.kept = 0
        except BaseException:
            self.close()
            raise

    @property
    def fd(self) -> int:
        """The descriptor of the file; -1 once it is closed."""
        return self._file.fd

    @property
    def beside(self) -> str:
        """The file that a compaction writes."""
        return self.path + ".compacting"

    def _first_line(self) -> bytes:
        """The schema's line; nothing if no LF ends it."""
        head = os.pread(self.fd, _LONGEST_SCHEMA, 0)
        return head[: head.find(b"\n") + 1]

    def before_last(self) -> int:
        """Where the last transaction begins."""
        return files.after_last(self.fd, COMMIT, len(self.schema), self.end - len(COMMIT))

    def has_zeros(self, start: int) -> bool:
        """Whether a byte from a place on to the end is 0, as no line has it, and a torn write has."""
        return any(b"\0" in block for _, block in files.blocks(self.fd, start, self.end))

    def begin(self, schema: bytes) -> None:
        """Writes the first line of a new journal: the file is empty, or has a beginning of that line and nothing else.

        BadJournal is raised for any other file, which somebody may need.
        """
        if not schema.startswith(os.pread(self.fd, len(schema), 0)) or self.size >= len(schema):
            raise BadJournal(f"{self.path} isn't a journal: it doesn't begin with a line that is a schema")
        self.disk.cut(self.fd, 0)
        self.disk.write(self.fd, schema, 0)
        self.disk.sync(self.fd)
        self.disk.sync_folder(os.path.dirname(self.path))
        self.schema, self.end = schema, len(schema)
        self._begin()

    def cut_tail(self) -> int:
        """Cuts off what follows the last whole transaction, and returns how many bytes that were."""
        torn = self.size - self.end
        if torn:
            self.disk.cut(self.fd, self.end)
        # What was read may not have been synced by the process that wrote it, nor the file's name.
        self.disk.sync(self.fd)
        self.disk.sync_folder(os.path.dirname(self.path))
        self._begin()
        return torn

    def _begin(self) -> None:
        # What is beside a journal is what a compaction left that didn't come to its end.
        _remove(self.beside)
        self.keep()

    def append(self, transaction: bytes) -> None:
        """Writes a transaction and syncs. NotWritten and OutcomeUnknown are raised if that fails; see `cut_back`."""
        try:
            self.disk.write(self.fd, transaction, self.end)
            self.disk.sync(self.fd)
        except OSError as error:
            self.cut_back(self.end, error)
        self.end += len(transaction)

    def keep(self) -> None:
        """Notes that what was appended is committed."""
        self.kept = self.end

    def cut_back(self, end: int, cause: BaseException) -> None:
        """Gives the file an earlier end, syncs, and raises NotWritten for the cause; OutcomeUnknown if that fails."""
        try:
            self.disk.cut(self.fd, end)
            self.disk.sync(self.fd)
        except OSError as error:
            raise OutcomeUnknown(
                f"outcome unknown: {_words(cause)}, and then the journal couldn't be cut back: {_words(error)}"
            ) from error
        self.end = end
        raise NotWritten(f"nothing was done: {_words(cause)}") from cause

    def begin_beside(self) -> LockedFile:
        """Makes a new, locked file for a compaction, whose owner, group and permissions are the journal's.

        OSError is raised if it can't be made, or can't be given to the journal's owner.
        """
        _remove(self.beside)
        return LockedFile.made(self.beside, self.fd)

    def take_place(self, file: LockedFile, schema: bytes, end: int) -> None:
        """Puts the compacted file in the journal's place. It is locked, synced and whole, and has this end."""
        self.disk.rename(self.beside, self.path)
        old, self._file, self.schema, self.end = self._file, file, schema, end
        self.keep()
        old.close()
        try:
            self.disk.sync_folder(os.path.dirname(self.path))
        except OSError as error:
            raise OutcomeUnknown(
                "outcome unknown: which of two files is the journal after a crash, "
                f"since its folder couldn't be synced: {_words(error)}"
            ) from error

    def abandon(self, file: LockedFile) -> None:
        """Takes a compaction's file away, unless it is the journal, or a fork left it to the parent."""
        if file is not self._file and file.is_open:
            file.close()
            _remove(self.beside)

    def close(self) -> None:
        """Closes the file, and so gives the lock back."""
        self._file.close()


def _remove(path: str) -> None:
    try:
        os.remove(path)
    except FileNotFoundError:
        pass


def _words(error: BaseException) -> str:
    return error.strerror or str(error) if isinstance(error, OSError) else str(error) or type(error).__name__


def journal_schema(path: str) -> Optional[bytes]:
    """The first line of a journal that may be open elsewhere, if there is one."""
    with open(path, "rb") as file:
        head = file.readline(_LONGEST_SCHEMA)
    return head if head.endswith(b"\n") else None
