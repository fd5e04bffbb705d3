"""The calls on files that a journal rests on. Tests put others in their place, which fail or end the process."""
from __future__ import annotations

import os

# What a journal needs of a sync is its bytes and its size, not its times.
_sync = getattr(os, "fdatasync", os.fsync)


class Disk:
    """Each call raises OSError if it fails."""

    def write(self, fd: int, data: bytes, at: int) -> None:
        """Writes all bytes, from a place on."""
        rest = memoryview(data)
        while rest:
            written = os.pwrite(fd, rest, at)
            rest, at = rest[written:], at + written

    def cut(self, fd: int, size: int) -> None:
        """Gives the file a size."""
        os.ftruncate(fd, size)

    def sync(self, fd: int) -> None:
        """Returns when what was written is on disk."""
        _sync(fd)

    def rename(self, old: str, new: str) -> None:
        """Puts a file in the place of another, at once."""
        os.rename(old, new)

    def sync_folder(self, folder: str) -> None:
        """Returns when the names of a folder are on disk."""
        fd = os.open(folder, os.O_RDONLY | getattr(os, "O_DIRECTORY", 0))
        try:
            os.fsync(fd)
        finally:
            os.close(fd)
