"""Free memory, given back to the system."""
from __future__ import annotations

import ctypes

_malloc_trim = ctypes.CDLL(None).malloc_trim
_malloc_trim.argtypes = [ctypes.c_size_t]


def trim() -> None:
    """Gives memory that the process holds free back to the system.

    Merges and closed indexes leave it in pieces between what is in use. The process fills these again, but they stay
    resident until glibc's `malloc_trim` looks for them, in all of the process's memory: some milliseconds for an index
    of 100,000 documents, in which other threads wait if they allocate. So call it seldom: after many commits, after a
    merge, or once an index is closed.
    """
    _malloc_trim(0)
