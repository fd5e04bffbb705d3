"""The functions of the shared object (bindings/c/dilforec.h), and handles that threads, signals and forks can't misuse."""
from __future__ import annotations

import contextlib
import ctypes
import os
import pathlib
import re
import threading
import weakref
from collections.abc import Callable, Iterator, Sequence
from typing import Any, Optional, Protocol, TypeVar, runtime_checkable

from dilforec.refusals import LineTooLong
from dilforec.values import Stats

T = TypeVar("T")

SHARED = pathlib.Path(__file__).resolve().parent / "libdilforec.so"

OK, MEMORY, LINE_TOO_LONG, USED_UP, CLOSED, NOTHING, GONE = range(7)
NO_REPLY = NO_BYTE = ctypes.c_size_t(-1).value
NO_LIMIT = ctypes.c_uint32(-1).value

# A longer reply has a buffer of its own, which isn't kept.
KEPT_ROOM = 1 << 20
FIRST_ROOM = 4096
# The most bytes of the reply to a line other than a search.
REPLY_TO_CHANGE = 128
# A transaction of at most as many bytes takes less time than to wait for one's turn among the threads.
BRIEF_TRANSACTION = 1 << 14
# How often replies that are there are taken, if memory is short.
TRIES = 3

COMMIT, ROLLBACK = b'{"commit":true}', b'{"rollback":true}'
# How the replies begin of what is uncommitted then, of a commit, and of both calls after which nothing is.
STAMP, COMMITTED = b'{"stamp":', b'{"commit":'
SETTLED = COMMITTED, b'{"rollback":'
STAMPS = re.compile(re.escape(STAMP))


class Closed(ValueError):
    """The index, the searcher or the merge was closed."""


class UsedUp(OverflowError):
    """The index took 2**61 lines."""


class NothingToMerge(LookupError):
    """No merge is due, or the index has no schema."""


class Busy(RuntimeError):
    """A signal handler, or a finalizer, called an index, a searcher or a merge in the middle of a call on it in its
    thread; or a transaction began within another of its thread."""


class Handle(ctypes.Structure):
    _fields_ = [("at", ctypes.c_void_p)]


class Measured(ctypes.Structure):
    """How large an index is."""

    _fields_ = [(name, ctypes.c_uint64) for name in Stats._fields]


def load(kind: type[ctypes.CDLL]) -> ctypes.CDLL:
    """The shared object, with the types of its functions."""
    if not SHARED.is_file():
        raise ImportError(f"{SHARED} isn't there: bindings/python/link.py makes it")
    library = kind(str(SHARED))
    # Handles and buffers go by their addresses, which costs least.
    at, text, size, code = ctypes.c_void_p, ctypes.c_char_p, ctypes.c_size_t, ctypes.c_int32
    types: dict[str, tuple[list[Any], Any]] = {
        "dilforec_open": ([at], code),
        "dilforec_execute": ([at, text, size], code),
        "dilforec_execute_lines": ([at, text, size, at], code),
        "dilforec_execute_fields": ([at, text, size, text, size], code),
        "dilforec_execute_groups": ([at, text, size, size], code),
        "dilforec_transaction": ([at, text, size, at], code),
        "dilforec_replace": ([at, text, size, text, size], code),
        "dilforec_reply": ([at, at, size], size),
        "dilforec_stats": ([at, at], code),
        "dilforec_syntax_at": ([text, size, at], code),
        "dilforec_close": ([at], code),
        "dilforec_searcher": ([at, at], code),
        "dilforec_searcher_again": ([at, at], code),
        "dilforec_search": ([at, text, size], code),
        "dilforec_search_fields": ([at, text, size, text, size], code),
        "dilforec_search_groups": ([at, text, size, size], code),
        "dilforec_searcher_reply": ([at, at, size], size),
        "dilforec_searcher_stats": ([at, at], code),
        "dilforec_searcher_close": ([at], code),
        "dilforec_limit_merges": ([at, ctypes.c_uint32], code),
        "dilforec_merge_begin": ([at, at], code),
        "dilforec_merge_run": ([at], code),
        "dilforec_merge_end": ([at], code),
        "dilforec_merge_close": ([at], code),
    }
    for name, (given, told) in types.items():
        function = getattr(library, name)
        function.argtypes, function.restype = given, told
    return library


# While a function of this one runs, other threads of Python do too; not while one of the other does. That is for calls
# that take less time than to wait for one's turn among the threads.
LIBRARY, BRIEF = load(ctypes.CDLL), load(ctypes.PyDLL)


def fault(code: int) -> Exception:
    """What a code other than 0 means."""
    if code == MEMORY:
        return MemoryError("the index had no memory; nothing changed")
    if code == LINE_TOO_LONG:
        return LineTooLong("LineTooLong")
    if code == USED_UP:
        return UsedUp("the index took 2**61 lines")
    if code == CLOSED:
        return Closed("closed")
    if code == NOTHING:
        return NothingToMerge("no merge is due, or the index has no schema")
    return RuntimeError(f"code {code} of the library")


def syntax_at(query: str) -> Optional[int]:
    """How many characters of a query could be read, if it isn't in the grammar. None also if memory is short."""
    text, at = query.encode(), ctypes.c_size_t()
    code = LIBRARY.dilforec_syntax_at(text, len(text), ctypes.addressof(at))
    if code or at.value == NO_BYTE:
        return None
    return len(text[:at.value].decode())


@runtime_checkable
class Asking(Protocol):
    """What an index, a searcher and a cluster have in common: lines of searches in, and replies out."""

    @property
    def is_open(self) -> bool: ...

    def ask(self, line: bytes) -> bytes: ...

    def ask_each(self, lines: Sequence[bytes], names: Optional[bytes]) -> list[bytes]: ...

    def searcher(self) -> Asking: ...

    def stats(self) -> Stats: ...

    def close(self) -> None: ...


class Owner:
    """A handle that is closed at the end. One thread is in it at a time; others wait for it.

    The lock may be taken again by the thread that has it, so that a signal handler gets an error and doesn't wait for
    itself; `_busy` says that a call is on its way.
    """

    _close = LIBRARY.dilforec_close
    # Whether a fork waits for a call that is on its way.
    is_awaited = True

    def __init__(self, opened: Callable[[int], int]) -> None:
        self.lock = threading.RLock()
        self._busy = False
        self._handle = Handle()
        self._at = ctypes.addressof(self._handle)
        code = opened(self._at)
        if code:
            raise fault(code)
        OPEN[id(self)] = weakref.ref(self)

    def _check(self) -> None:
        if self._busy:
            raise Busy("this came in the middle of a call on the same index, searcher or merge, as from a signal handler")

    def _call(self, call: Callable[[], T]) -> T:
        """What a call gives. No other thread is in the handle meanwhile."""
        with self.lock:
            self._check()
            try:
                self._busy = True
                return call()
            finally:
                self._busy = False

    @property
    def is_open(self) -> bool:
        return bool(self._handle.at)

    def close(self) -> None:
        """Closes the handle; again, it does nothing."""
        with self.lock:
            self._check()
            try:
                self._busy = True
                self._close(self._at)
                OPEN.pop(id(self), None)
            finally:
                self._busy = False

    def abandon(self) -> None:
        """Leaves the handle closed, and what it pointed to as it is."""
        self._handle.at = None
        self._busy = False

    def __del__(self) -> None:
        # An interpreter that ends may have taken the library apart already.
        if getattr(self, "_at", None) and self._handle.at:
            self.close()


class MergeHandle(Owner):
    """A merge that was begun. While it runs, its index may be used, and a fork doesn't wait for it."""

    _close = LIBRARY.dilforec_merge_close
    is_awaited = False

    def run(self) -> None:
        """Makes the segment."""
        code = self._call(lambda: int(LIBRARY.dilforec_merge_run(self._at)))
        if code:
            raise fault(code)


class Channel(Owner):
    """Lines in and replies out, over one handle."""

    _ask, _ask_fields, _ask_groups, _reply, _fork, _measure = (
        LIBRARY.dilforec_execute, LIBRARY.dilforec_execute_fields, LIBRARY.dilforec_execute_groups, BRIEF.dilforec_reply,
        BRIEF.dilforec_searcher, BRIEF.dilforec_stats,
    )

    # Whether something is uncommitted; also if it isn't known, as after an interrupt.
    _has_uncommitted = False
    # Whether it has to be rolled back before anything changes.
    _owes_rollback = False
    # The thread whose transaction is under way.
    _turn_of: Optional[int] = None

    def __init__(self, opened: Callable[[int], int] = LIBRARY.dilforec_open) -> None:
        self._make_room(FIRST_ROOM)
        self._turn = threading.Lock()
        super().__init__(opened)

    def _make_room(self, size: int) -> None:
        # A part of it is bytes, which its type doesn't know.
        self._room: Any = ctypes.create_string_buffer(size)
        self._room_at = ctypes.addressof(self._room)
        self._room_size = size
        self._view = memoryview(self._room).cast("B")

    def ask(self, line: bytes) -> bytes:
        """The reply to a line; none to a blank one."""
        with self.lock:
            if self._busy:
                self._check()
            try:
                self._busy = True
                code = self._ask(self._at, line, len(line))
                if code:
                    raise fault(code)
                return self._read()
            finally:
                self._busy = False

    def change(self, line: bytes) -> bytes:
        """As `ask`, of a line that may change something."""
        with self.lock:
            if self._busy:
                self._check()
            try:
                self._busy = True
                before = self._begin_change()
                code = self._ask(self._at, line, len(line))
                if code:
                    self._has_uncommitted = before
                    raise fault(code)
                told = self._read()
                if not told.startswith(STAMP):
                    self._has_uncommitted = before and not told.startswith(SETTLED)
                return told
            finally:
                self._busy = False

    def _begin_change(self) -> bool:
        """Rolls back what has to be, and tells whether something else is uncommitted. From now on it is: an interrupt
        may come before it is known."""
        if self._owes_rollback:
            self._roll_back()
        before, self._has_uncommitted = self._has_uncommitted, True
        return before

    def ask_each(self, lines: Sequence[bytes], names: Optional[bytes],
                 limits: Sequence[Optional[int]] = ()) -> list[bytes]:
        """The replies to several searches, between which no other thread comes.

        The first has chosen fields, if there are names; one that has a limit has as many groups at most, and no names.
        """
        with self.lock:
            self._check()
            try:
                self._busy = True
                told = []
                for place, line in enumerate(lines):
                    limit = limits[place] if limits else None
                    if limit is not None:
                        code = self._ask_groups(self._at, line, len(line), limit)
                    elif names is not None and place == 0:
                        code = self._ask_fields(self._at, line, len(line), names, len(names))
                    else:
                        code = self._ask(self._at, line, len(line))
                    if code:
                        raise fault(code)
                    told.append(self._read())
                return told
            finally:
                self._busy = False

    def replace(self, delete: bytes, add: bytes) -> bytes:
        """The reply to a delete's line and an add's, as one."""
        with self.lock:
            self._check()
            try:
                self._busy = True
                before = self._begin_change()
                code = LIBRARY.dilforec_replace(self._at, delete, len(delete), add, len(add))
                if code:
                    self._has_uncommitted = before
                    raise fault(code)
                told = self._read()
                self._has_uncommitted = before or told.startswith(STAMP)
                return told
            finally:
                self._busy = False

    def ask_block(self, lines: Sequence[bytes], take: Callable[[memoryview], None]) -> tuple[int, int]:
        """Has several lines done, none of which is a search. The code, and how many were done before it.

        `take` gets their replies, in room that was made before. A MemoryError is of what comes before the lines are
        done; if `take` has one, it is tried again, and then given up.
        """
        with self.lock:
            self._check()
            try:
                self._busy = True
                if self._room_size < len(lines) * REPLY_TO_CHANGE:
                    self._make_room(len(lines) * REPLY_TO_CHANGE)
                block, done = b"\n".join(lines), ctypes.c_size_t()
                before = self._begin_change()
                code = LIBRARY.dilforec_execute_lines(self._at, block, len(block), ctypes.addressof(done))
                for _ in range(TRIES if code != CLOSED else 0):
                    with contextlib.suppress(MemoryError):
                        replies = self._view[:self._reply(self._at, self._room_at, self._room_size)]
                        self._has_uncommitted = before or STAMPS.search(replies) is not None
                        take(replies)
                        break
                return code, done.value
            finally:
                self._busy = False

    def transact(self, block: bytes, lines: int, *, has_replies: bool) -> tuple[int, int, bytes]:
        """Has the lines of a block, which are as many, done, all or none. The code, how many lines are before the first
        that can't be done, and the reply: the refusal, or, if replies are wanted, those to all lines.

        A MemoryError is of what comes before the lines are done; if there is none for the reply then, it is empty.
        """
        with self.lock:
            self._check()
            try:
                self._busy = True
                return self._transact(block, lines, has_replies)
            finally:
                self._busy = False

    def _transact(self, block: bytes, lines: int, has_replies: bool) -> tuple[int, int, bytes]:
        if has_replies and self._room_size < lines * REPLY_TO_CHANGE:
            self._make_room(lines * REPLY_TO_CHANGE)
        done, told = ctypes.c_size_t(), b""
        library = BRIEF if len(block) <= BRIEF_TRANSACTION else LIBRARY
        before = self._begin_change()
        code = library.dilforec_transaction(self._at, block, len(block), ctypes.addressof(done))
        self._has_uncommitted = before or (code == OK and done.value == lines > 0)
        for _ in range(TRIES if code == OK and (has_replies or done.value < lines) else 0):
            with contextlib.suppress(MemoryError):
                told = self._read()
                break
        return code, done.value, told

    def transact_and_commit(self, block: bytes, lines: int, keep: Callable[[bytes], None]) -> tuple[int, int, bytes]:
        """As `transact`, and then a commit, or else nothing that was uncommitted stays. No other call comes between.

        If all lines were done, the code is the commit's, and so is the reply: a refusal, or what `keep` gets, even if
        an interrupt comes just then.
        """
        with self.lock:
            self._check()
            try:
                self._busy = True
                try:
                    return self._transact_and_commit(block, lines, keep)
                finally:
                    if self._has_uncommitted:
                        self._give_up()
            finally:
                self._busy = False

    def _transact_and_commit(self, block: bytes, lines: int, keep: Callable[[bytes], None]) -> tuple[int, int, bytes]:
        code, done, told = self._transact(block, lines, False)
        if code or done < lines:
            return code, done, told
        try:
            code = self._ask(self._at, COMMIT, len(COMMIT))
            return code, done, self._keep_commit(keep)
        except BaseException:
            self._keep_commit(keep)
            raise

    def _keep_commit(self, keep: Callable[[bytes], None]) -> bytes:
        """The last reply. If it is a commit's, and not that to lines which come before, or none, `keep` gets it."""
        told = self._short_reply()
        if told.startswith(COMMITTED):
            self._has_uncommitted = False
            keep(told)
        return told

    def roll_back(self) -> None:
        """Rolls back what is uncommitted; if memory is short, before the next change."""
        with self.lock:
            self._check()
            try:
                self._busy = True
                if self._has_uncommitted:
                    self._give_up()
            finally:
                self._busy = False

    def _give_up(self) -> None:
        self._owes_rollback = True
        with contextlib.suppress(MemoryError, Closed, UsedUp):
            self._roll_back()

    def _roll_back(self) -> None:
        code = self._ask(self._at, ROLLBACK, len(ROLLBACK))
        if code:
            raise fault(code)
        self._has_uncommitted = self._owes_rollback = False

    def has_uncommitted(self) -> bool:
        """Whether something is uncommitted, and doesn't have to be rolled back. Closed if there is no index any more."""
        with self.lock:
            self._check()
            # Another thread's call, while it runs, has taken the handle.
            if not self.is_open:
                raise fault(CLOSED)
            try:
                self._busy = True
                if self._owes_rollback:
                    self._roll_back()
                return self._has_uncommitted
            finally:
                self._busy = False

    @contextlib.contextmanager
    def turn(self) -> Iterator[None]:
        """A transaction's turn; those of other threads wait for its end. Busy within another one of its thread."""
        if self._turn_of == threading.get_ident():
            raise Busy("a transaction is under way in this thread, and no other can begin within it")
        with self._turn:
            try:
                self._turn_of = threading.get_ident()
                yield
            finally:
                self._turn_of = None

    def end_turn_of_others(self) -> None:
        """Rolls back the transaction of a thread that a fork left in its parent."""
        if self._turn.locked() and self._turn_of != threading.get_ident():
            self._turn, self._turn_of = threading.Lock(), None
            with contextlib.suppress(Busy):
                self.roll_back()

    def _read(self) -> bytes:
        length = self._reply(self._at, self._room_at, self._room_size)
        if length <= self._room_size:
            told: bytes = self._room[:length]
            return told
        # This long is a reply to a search alone, which may be asked again.
        if length <= KEPT_ROOM:
            self._make_room(length)
            self._reply(self._at, self._room_at, length)
            return self._view[:length].tobytes()
        own = ctypes.create_string_buffer(length)
        self._reply(self._at, ctypes.addressof(own), length)
        return memoryview(own).cast("B").tobytes()

    def _short_reply(self) -> bytes:
        """The last reply; nothing if it is longer than one to a line other than a search, or there is no memory."""
        for _ in range(TRIES):
            with contextlib.suppress(MemoryError):
                length: int = self._reply(self._at, self._room_at, self._room_size)
                return self._view[:length].tobytes() if length <= REPLY_TO_CHANGE else b""
        return b""

    def searcher(self) -> Searches:
        """A channel of its own to the last commit."""
        with self.lock:
            self._check()
            try:
                self._busy = True
                return Searches(lambda slot: int(self._fork(self._at, slot)))
            finally:
                self._busy = False

    def stats(self) -> Stats:
        """How large the last commit is."""
        with self.lock:
            self._check()
            try:
                self._busy = True
                told = Measured()
                code = self._measure(self._at, ctypes.addressof(told))
                if code:
                    raise fault(code)
                return Stats(told.segments, told.documents, told.live)
            finally:
                self._busy = False

    def limit_merges(self, limit: int) -> None:
        """Limits what commits merge."""
        code = self._call(lambda: int(BRIEF.dilforec_limit_merges(self._at, limit)))
        if code:
            raise fault(code)

    def begin_merge(self) -> MergeHandle:
        """The merge that is due next."""
        return self._call(lambda: MergeHandle(lambda slot: int(BRIEF.dilforec_merge_begin(self._at, slot))))

    def end_merge(self) -> bool:
        """Takes in what the merge made that was begun last, and tells whether there was something."""
        code = self._call(lambda: int(LIBRARY.dilforec_merge_end(self._at)))
        if code and code not in (NOTHING, GONE):
            raise fault(code)
        return not code


class Searches(Channel):
    """Searches in and replies out, over one commit. Each of them counts as the first line of a script."""

    _ask, _ask_fields, _ask_groups, _reply, _fork, _measure = (
        LIBRARY.dilforec_search, LIBRARY.dilforec_search_fields, LIBRARY.dilforec_search_groups,
        BRIEF.dilforec_searcher_reply, BRIEF.dilforec_searcher_again, BRIEF.dilforec_searcher_stats,
    )
    _close = LIBRARY.dilforec_searcher_close


# A fork waits for the calls of other threads, since the child has none of these threads to end a call that was on its
# way. One thread at a time takes the locks; its own signal handlers may fork within that, so there is a list for each
# fork.
OPEN: dict[int, weakref.ref[Owner]] = {}
FORKING = threading.RLock()
HELD: list[list[Owner]] = []


def opened(known: Sequence[Owner]) -> list[Owner]:
    """The handles that are open, but those that are known, in one order."""
    references = (OPEN.get(key) for key in sorted(OPEN))
    return [owner for reference in references if reference and (owner := reference()) and owner not in known]


def before_fork() -> None:
    FORKING.acquire()
    held: list[Owner] = []
    HELD.append(held)
    # Others may be opened meanwhile.
    while owners := [owner for owner in opened(held) if owner.is_awaited]:
        for owner in owners:
            owner.lock.acquire()
            held.append(owner)


def after_fork() -> None:
    for owner in HELD.pop():
        owner.lock.release()
    FORKING.release()


def after_fork_in_child() -> None:
    # A merge, or opened after the last look: if it is in use, the child can't have it.
    for owner in opened(HELD[-1]):
        if owner.lock.acquire(blocking=False):
            owner.lock.release()
        else:
            owner.lock = threading.RLock()
            owner.abandon()
    for owner in HELD[-1]:
        if isinstance(owner, Channel):
            owner.end_turn_of_others()
    after_fork()


if hasattr(os, "register_at_fork"):
    os.register_at_fork(before=before_fork, after_in_parent=after_fork, after_in_child=after_fork_in_child)
