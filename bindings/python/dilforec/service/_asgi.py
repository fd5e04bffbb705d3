"""The application for servers of ASGI: one loop has all connections, threads search, and the store's does the changes.

With a thread for each change, most of the time would go to waking threads. So what arrives in one round of the loop is
handed on together, and wakes the loop together.
"""
from __future__ import annotations

import asyncio
from collections.abc import Awaitable, Callable, Generator, Mapping
from contextlib import suppress
from functools import partial
from http import HTTPStatus
from typing import Any, Dict, Generic, NamedTuple, Optional, TypeVar

from dilforec.service._app import Application
from dilforec.service._changes import Change
from dilforec.service._http import HttpError, Request, Response, failure, too_large
from dilforec.service._threads import Threads

Scope = Mapping[str, Any]
Receive = Callable[[], Awaitable[Dict[str, Any]]]
Send = Callable[[Dict[str, Any]], Awaitable[None]]
T = TypeVar("T")

# What a server that is the service's own has among the extensions of a scope: a call that sends a response, given it
# and its body, by one write. To tell ASGI of each header takes longer than to do a small change.
WHOLE = "dilforec.whole"
# The most bytes of a head, without what stands between its parts.
LONGEST_HEAD = 81_920
# All bodies that are held have at most as many bytes as this many of the longest.
_BODIES = 16
# A group of changes doesn't wait for more if so many rounds of the loop brought none; a request takes two or three.
_QUIET_ROUNDS = 5
_NONE: "Mapping[str, Any]" = {}
# A body that nobody wants is read over if it isn't longer than the limit by more; else its connection is closed.
SKIPPED = 1 << 20


class Gone(Exception):
    """The client went away."""


class Asgi:
    """An application for any server of ASGI that runs it in one process."""

    def __init__(self, application: Application, threads: int, body_seconds: float) -> None:
        """`threads` is how many requests that read are answered at a time; a body has to arrive in `body_seconds`."""
        self._application = application
        self._body_seconds = body_seconds
        # The bytes of all bodies that are held.
        self._held = 0
        self._threads = Threads(threads, "dilforec-read")
        self._together = Together(application)

    def close(self) -> None:
        """Ends its threads."""
        self._threads.close()

    async def __call__(self, scope: Scope, receive: Receive, send: Send) -> None:
        if scope["type"] == "lifespan":
            await self._live(receive, send)
        elif scope["type"] == "http":
            await self._serve(scope, receive, send)
        else:
            raise ValueError(f"it answers HTTP alone, and no {scope['type']}")

    async def _live(self, receive: Receive, send: Send) -> None:
        while True:
            event = (await receive())["type"]
            if event == "lifespan.shutdown":
                self.close()
            await send({"type": f"{event}.complete"})
            if event == "lifespan.shutdown":
                return

    async def _serve(self, scope: Scope, receive: Receive, send: Send) -> None:
        request = _request(scope)
        try:
            response = await self._answer(request, receive)
        except Gone:
            return
        except Exception as error:
            response = self._application.failed(request, error)
        finally:
            self._held -= request.held
        response = self._application.answered(request, response)
        body = b"" if request.method == "HEAD" else response.body
        send_whole = scope.get("extensions", _NONE).get(WHOLE)
        if send_whole is not None:
            await send_whole(response, body)
            return
        headers = [(name.lower().encode("latin-1"), value.encode("latin-1")) for name, value in response.lines()]
        await send({"type": "http.response.start", "status": response.status.value, "headers": headers})
        await send({"type": "http.response.body", "body": body})

    async def _answer(self, request: Request, receive: Receive) -> Response:
        application = self._application
        if request.size > LONGEST_HEAD:
            return failure(head_too_large()).and_close()
        call = application.admit(request)
        if isinstance(call, Response):
            return call.and_close() if _is_endless(request, application.limits.body) else call
        if request.has_body:
            refusal = await self._read(request, receive)
            if refusal:
                return failure(refusal).and_close()
        if application.is_brief(request):
            begun = application.begin(request, call)
        else:
            begun = await self._threads.call(partial(application.begin, request, call))
        if isinstance(begun, Response):
            return begun
        await self._together.do(begun)
        return application.finish(request, begun)

    async def _read(self, request: Request, receive: Receive) -> Optional[HttpError]:
        """Reads a body, or returns why it is refused. Gone is raised if the client goes away."""
        limit, parts = self._application.limits.body, []
        time = _Time(self._body_seconds)
        try:
            more = True
            while more:
                message = await time.wait(receive())
                if message["type"] != "http.request":
                    raise Gone
                parts.append(message.get("body", b""))
                more, request.held = message.get("more_body", False), request.held + len(parts[-1])
                self._held += len(parts[-1])
                if request.held > limit:
                    return too_large(limit)
                if self._held > _BODIES * limit:
                    return _busy()
        except asyncio.TimeoutError:
            return slow(f"the body didn't arrive within {self._body_seconds:g} seconds")
        finally:
            time.end()
        request.body = b"".join(parts)
        return None


class Waiting(NamedTuple):
    """A change that waits, and who waits for it."""

    change: Change
    done: "asyncio.Future[None]"


class Together:
    """Hands on changes to the store's thread, a group at a time, so that those of many clients share a sync.

    While a group is done, others gather. Clients that were just answered mostly ask again at once, so the next group
    waits for as many as there were, until some rounds of the loop bring no more.
    """

    def __init__(self, application: Application) -> None:
        self._application = application
        self._waiting: "list[Waiting]" = []
        # Whether a group is gathered or done, and how many the next one has if all ask again.
        self._is_busy, self._expected = False, 0

    async def do(self, change: Change) -> None:
        """Has a change done. It says itself what came of it."""
        loop = asyncio.get_running_loop()
        done: "asyncio.Future[None]" = loop.create_future()
        self._waiting.append(Waiting(change, done))
        if not self._is_busy:
            self._is_busy = True
            loop.call_soon(self._gather, loop, 0, 0)
        await done

    def _gather(self, loop: asyncio.AbstractEventLoop, seen: int, quiet: int) -> None:
        """Hands on what waits, unless more is expected."""
        waiting = len(self._waiting)
        quiet = quiet + 1 if waiting == seen else 0
        if waiting < self._expected and quiet < _QUIET_ROUNDS:
            loop.call_soon(self._gather, loop, waiting, quiet)
            return
        jobs, self._waiting = self._waiting, []
        try:
            self._application.submit([job.change for job in jobs], partial(self._wake, loop, jobs))
        except Exception as error:
            self._settle(loop, jobs, error)

    def _wake(self, loop: asyncio.AbstractEventLoop, jobs: "list[Waiting]") -> None:
        # If the loop was closed, so were the connections of those who wait.
        with suppress(RuntimeError):
            loop.call_soon_threadsafe(self._settle, loop, jobs)

    def _settle(
        self, loop: asyncio.AbstractEventLoop, jobs: "list[Waiting]", error: Optional[Exception] = None,
    ) -> None:
        """Has a group answered, and begins the next."""
        for job in jobs:
            if job.done.done():
                continue
            if error is None:
                job.done.set_result(None)
            else:
                job.done.set_exception(error)
        self._expected = len(jobs) + len(self._waiting)
        self._is_busy = bool(self._waiting)
        if self._waiting:
            loop.call_soon(self._gather, loop, 0, 0)


def head_too_large() -> HttpError:
    """The refusal of a head over the limit."""
    words = f"the head is over {LONGEST_HEAD} bytes"
    return HttpError(HTTPStatus.REQUEST_HEADER_FIELDS_TOO_LARGE, "HeadTooLarge", words)


def slow(words: str) -> HttpError:
    """The refusal of what took too long to arrive."""
    return HttpError(HTTPStatus.REQUEST_TIMEOUT, "TooSlow", words)


class _Time:
    """The seconds that something may take from its first wait on. If it is there at once, there is no timer."""

    def __init__(self, seconds: float) -> None:
        self._seconds = seconds
        self._timer: Optional[asyncio.TimerHandle] = None
        self._is_over = False

    async def wait(self, awaited: "Awaitable[T]") -> T:
        """What is awaited. TimeoutError is raised when the time is over."""
        steps = awaited.__await__()
        try:
            first = next(steps)
        except StopIteration as end:
            there: T = end.value
            return there
        self._begin()
        try:
            return await _Rest(first, steps)
        except asyncio.CancelledError:
            if self._is_over:
                raise asyncio.TimeoutError from None
            raise

    def end(self) -> None:
        """Ends the timer, if there is one."""
        if self._timer is not None:
            self._timer.cancel()

    def _begin(self) -> None:
        task = asyncio.current_task()
        if self._timer is None and task is not None:
            self._timer = asyncio.get_running_loop().call_later(self._seconds, self._expire, task)

    def _expire(self, task: "asyncio.Task[Any]") -> None:
        self._is_over = True
        task.cancel()


class _Rest(Generic[T]):
    """Something whose first step was done, which waits."""

    def __init__(self, first: object, steps: "Generator[Any, None, T]") -> None:
        self._first, self._steps = first, steps

    def __await__(self) -> "Generator[Any, None, T]":
        try:
            yield self._first
        except BaseException as error:
            self._steps.throw(error)
            raise
        return (yield from self._steps)


def _request(scope: Scope) -> Request:
    headers: "dict[str, str]" = {}
    size = len(scope["path"]) + len(scope["query_string"])
    for given, value in scope["headers"]:
        name, text = given.decode("latin-1"), value.decode("latin-1")
        size += len(name) + len(text)
        headers[name] = f"{headers[name]}, {text}" if name in headers else text
    client = scope.get("client")
    request = Request(scope["method"], scope["path"], scope["query_string"], headers, client[0] if client else "")
    request.size = size
    return request


def _busy() -> HttpError:
    words = "too many bodies arrive at a time; nothing was done"
    return HttpError(HTTPStatus.SERVICE_UNAVAILABLE, "TooManyBodies", words, Retry_After="1")


def _is_endless(request: Request, limit: int) -> bool:
    """Whether the rest of a request that is refused isn't read over."""
    length = request.headers.get("content-length", "0")
    return "transfer-encoding" in request.headers or not length.isdigit() or int(length) > limit + SKIPPED
