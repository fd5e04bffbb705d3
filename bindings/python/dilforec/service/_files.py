"""Files that are locked as long as they are open, and their lines by blocks."""
from __future__ import annotations

import fcntl
import os
import threading
from collections.abc import Iterator
from weakref import WeakSet

from dilforec.service._errors import Locked

_BLOCK = 1 << 20
_MODE = 0o640

# Descriptors are opened and closed within it, so that a fork knows all of them.
_FORKING = threading.RLock()
_OPEN: "WeakSet[LockedFile]" = WeakSet()


class LockedFile:
    """An open file that no other process has locked. A child of a fork has neither the file nor the lock."""

    def __init__(self, path: str) -> None:
        """Opens a file, made if it isn't there, and locks it. Locked is raised if another process has it."""
        while True:
            self._open(path, os.O_RDWR | os.O_CREAT)
            try:
                self._lock(path)
                if _is_at(self.fd, path):
                    return
            except BaseException:
                self.close()
                raise
            # A compaction put another file there, after this one was opened.
            self.close()

    @classmethod
    def made(cls, path: str, like: int) -> LockedFile:
        """Makes a file that wasn't there, with the owner, the group and the permissions of an open one, and locks it.

        OSError is raised if this process may not give it to that owner, and the file is gone then.
        """
        file = cls.__new__(cls)
        file._open(path, os.O_RDWR | os.O_CREAT | os.O_EXCL | os.O_NOFOLLOW)
        try:
            file._lock(path)
            wanted, has = os.fstat(like), os.fstat(file.fd)
            if (wanted.st_uid, wanted.st_gid) != (has.st_uid, has.st_gid):
                os.fchown(file.fd, wanted.st_uid, wanted.st_gid)
            os.fchmod(file.fd, wanted.st_mode & 0o777)
        except BaseException:
            file.close()
            os.remove(path)
            raise
        return file

    def _open(self, path: str, flags: int) -> None:
        with _FORKING:
            self.fd = os.open(path, flags | os.O_CLOEXEC, _MODE)
            _OPEN.add(self)

    def _lock(self, path: str) -> None:
        try:
            fcntl.flock(self.fd, fcntl.LOCK_EX | fcntl.LOCK_NB)
        except BlockingIOError:
            raise Locked(f"{path} is open in another process") from None

    @property
    def is_open(self) -> bool:
        """Whether it wasn't closed, nor left to the parent by a fork."""
        return self.fd >= 0

    def close(self) -> None:
        """Closes it, and so gives the lock back; again, it does nothing."""
        with _FORKING:
            if self.is_open:
                # A child that was just forked may have the descriptor for a moment, and with it the lock.
                fcntl.flock(self.fd, fcntl.LOCK_UN)
                self.leave_to_parent()

    def leave_to_parent(self) -> None:
        """Closes it, but the lock stays the parent's, as long as that has the file open."""
        fd, self.fd = self.fd, -1
        _OPEN.discard(self)
        os.close(fd)


def _after_fork_in_child() -> None:
    for file in list(_OPEN):
        file.leave_to_parent()
    _FORKING.release()


os.register_at_fork(
    before=_FORKING.acquire, after_in_parent=_FORKING.release, after_in_child=_after_fork_in_child,
)


def _is_at(fd: int, path: str) -> bool:
    try:
        return os.path.samestat(os.fstat(fd), os.stat(path))
    except FileNotFoundError:
        return False


def blocks(fd: int, start: int, end: int) -> "Iterator[tuple[int, bytes]]":
    """What is between two places, in blocks of whole lines, each with its place. The end has to end a line."""
    at, kept = start, b""
    while at < end:
        read = os.pread(fd, min(_BLOCK, end - at), at)
        if not read:
            raise OSError(f"the file ends at byte {at}, before {end}")
        at += len(read)
        whole = read.rfind(b"\n") + 1
        if whole:
            block = kept + read[:whole]
            yield at - len(read) + whole - len(block), block
            kept = read[whole:]
        else:
            kept += read


def lines(fd: int, start: int, end: int) -> "Iterator[bytes]":
    """The lines between two places, each without its LF."""
    for _, block in blocks(fd, start, end):
        yield from block.split(b"\n")[:-1]


def lines_backwards(fd: int, start: int, end: int) -> "Iterator[bytes]":
    """The lines between two places from the last to the first, each without its LF."""
    at, begun = end, b""
    while at > start:
        low = max(start, at - _BLOCK)
        read = os.pread(fd, at - low, low)
        if len(read) < at - low:
            raise OSError(f"the file ends at byte {low + len(read)}, before {at}")
        at, text = low, read + begun
        if at > start:
            # The first line may have begun in the block before.
            first, lf, text = text.partition(b"\n")
            begun = first + lf
        yield from reversed(text.split(b"\n")[:-1])


def after_last(fd: int, wanted: bytes, start: int, end: int) -> int:
    """The place after the last line that is `wanted`, its LF included, between two places; `start` if there is none.

    A line begins at `start`. What comes after the last LF is no line.
    """
    pattern, at = b"\n" + wanted, end
    while at > start:
        low = max(start - 1, at - _BLOCK)
        found = os.pread(fd, min(end, at + len(pattern)) - low, low).rfind(pattern)
        if found >= 0:
            return low + found + len(pattern)
        at = low if low > start - 1 else start
    return start
