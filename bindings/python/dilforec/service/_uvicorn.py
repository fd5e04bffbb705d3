"""Uvicorn, as it serves the application: its protocol with limits, and an end that waits for answers in progress.

Uvicorn takes a class of connections (`Config(http=..)`). This one is its own over httptools, whose callbacks tell where
a request begins and ends, so that clients that are slow, silent or too many are closed, and that each error of the
server itself is the service's JSON, and is counted.
"""
from __future__ import annotations

import asyncio
import logging
import socket
import sys
import time
from collections.abc import Callable
from functools import partial
from http import HTTPStatus
from typing import Any, NamedTuple, NoReturn, Optional

import httptools
import uvicorn
from uvicorn.protocols.http.httptools_impl import HttpToolsProtocol

from dilforec.service._app import Application
from dilforec.service._asgi import LONGEST_HEAD, SKIPPED, WHOLE, Asgi, head_too_large, slow
from dilforec.service._http import HttpError, Request, Response, bad, failure

log = logging.getLogger("dilforec.service")

# Requests of one connection that wait or are answered. A client that sends more ahead is cut off after them.
_MOST_AHEAD = 256
# Httptools reads no longer address: it has the places in it in 16 bits.
_LONGEST_URL = 65_535
# A connection that was refused is read on for so many seconds, so that the refusal arrives.
_LINGERING = 2.0
# So many seconds the application has to refuse a request by its head whose body is at fault.
_HEAD_START = 0.1
# As many connections over their number are told so at a time; others are closed without a word.
_MOST_BEYOND = 64
# An answer that is shorter is sent by one write, and a longer one isn't copied for that.
_SENT_WHOLE = 65_536
# How often it is looked whether the service ends, and at all connections, in seconds.
_LOOK, _SWEEP = 0.1, 1.0
_CLOSE = b"connection", b"close"


class Patience(NamedTuple):
    """The most connections, and how many seconds each has: to be silent or not to read, for a head, for a body.

    `grace` is how many seconds answers in progress have at the end.
    """

    connections: int = 4000
    idle: float = 60
    head: float = 15
    body: float = 60
    grace: float = 30


class Watch:
    """What the connections of a server share."""

    def __init__(self, application: Application, patience: Patience) -> None:
        self.application, self.patience = application, patience
        self.connections: "set[Connection]" = set()
        # Those over their number, which are told so.
        self.beyond: "set[Connection]" = set()

    def sweep(self) -> None:
        """Closes the connections whose time is over."""
        now = time.monotonic()
        for connection in [*self.connections, *self.beyond]:
            connection.look(now)

    def cut_off(self) -> None:
        """Closes all connections, whatever waits to be sent."""
        for connection in [*self.connections, *self.beyond]:
            connection.line.abort()

    def refusal(self, error: HttpError, peer: str) -> bytes:
        """The bytes of an answer to what is no request, which is counted and logged."""
        request = Request("?", "?", b"", {}, peer)
        response = self.application.answered(request, failure(error).and_close())
        return response.head() + b"\r\n" + response.body


class Seen:
    """What was seen of a connection."""

    def __init__(self) -> None:
        # Since when it has been as it is; requests that aren't answered yet.
        self.since = time.monotonic()
        self.ahead = 0
        # Whether a head or a body has begun, and whether all that comes is thrown away.
        self.in_head = self.in_body = self.is_over = False
        self.head_bytes = self.skipped_bytes = self.url_bytes = 0
        # Why the parser was stopped by a callback.
        self.refusal: Optional[HttpError] = None
        # What waited to be sent at the last look, and since when nothing of it was.
        self.unsent, self.unsent_since = 0, self.since


class Connection(HttpToolsProtocol):
    """A connection of uvicorn's, whose client has limits."""

    line: asyncio.Transport
    # Uvicorn's own, which are there from the connection's and the request's beginning on.
    flow: Any
    scope: Any

    def __init__(self, watch: Watch, **given: Any) -> None:
        super().__init__(**given)
        self.watch, self.seen = watch, Seen()

    # What the loop calls

    def connection_made(self, transport: Any) -> None:
        self.line = transport
        super().connection_made(transport)
        watch, most = self.watch, self.watch.patience.connections
        if len(watch.connections) < most:
            watch.connections.add(self)
            return
        words = f"{most} connections are open, and no more are taken"
        self.refuse(HttpError(HTTPStatus.SERVICE_UNAVAILABLE, "TooManyConnections", words, Retry_After="5"))
        if len(watch.beyond) < _MOST_BEYOND:
            watch.beyond.add(self)
        else:
            self.line.abort()

    def connection_lost(self, exc: Optional[Exception]) -> None:
        self.watch.connections.discard(self)
        self.watch.beyond.discard(self)
        super().connection_lost(exc)

    def data_received(self, data: bytes) -> None:
        seen = self.seen
        if seen.is_over:
            self.skip(len(data))
            return
        was_in_head = seen.in_head
        if seen.in_body and not seen.ahead:
            self.skip(len(data))
        super().data_received(data)
        if was_in_head and seen.in_head:
            seen.head_bytes += len(data)
            if seen.head_bytes > LONGEST_HEAD:
                self.refuse(head_too_large())

    # What httptools calls

    def on_message_begin(self) -> None:
        super().on_message_begin()
        self.seen.in_head, self.seen.head_bytes, self.seen.url_bytes = True, 0, 0
        if not self.seen.ahead:
            self.seen.since = time.monotonic()

    def on_url(self, url: bytes) -> None:
        super().on_url(url)
        self.seen.url_bytes += len(url)

    def on_headers_complete(self) -> None:
        seen = self.seen
        if seen.url_bytes > _LONGEST_URL:
            words = f"the address is over {_LONGEST_URL} bytes"
            self.stop(HttpError(HTTPStatus.REQUEST_URI_TOO_LONG, "TooLong", words))
        if seen.ahead >= _MOST_AHEAD:
            self.stop(bad("TooManyRequests", f"over {_MOST_AHEAD} requests were sent ahead of their answers"))
        before = self.cycle
        super().on_headers_complete()
        seen.in_head, seen.in_body, seen.skipped_bytes = False, True, 0
        # A request for another protocol is none that is answered.
        if self.cycle is not before:
            seen.ahead += 1
            self.scope["extensions"] = {WHOLE: partial(self.send_whole, self.cycle)}

    def on_message_complete(self) -> None:
        super().on_message_complete()
        self.seen.in_body = False

    # What uvicorn calls

    def on_response_complete(self) -> None:
        """Begins the next request. Uvicorn would also have a timer for each answer, but `look` sees who is silent."""
        self.seen.ahead -= 1
        self.seen.since = time.monotonic()
        self.server_state.total_requests += 1
        if not self.line.is_closing():
            self.flow.resume_reading()
            self.begin_next()

    def resume_writing(self) -> None:
        super().resume_writing()
        self.begin_next()

    def begin_next(self) -> None:
        """Begins the next request that was sent ahead, unless the client has yet to read the answer before."""
        if self.pipeline and len(self.pipeline) == self.seen.ahead and not self.flow.write_paused:
            request, application = self.pipeline.pop()
            task = self.loop.create_task(request.run_asgi(application))
            task.add_done_callback(self.tasks.discard)
            self.tasks.add(task)

    def send_400_response(self, msg: str) -> None:
        """Answers what is no request. Uvicorn calls it while it handles the parser's error."""
        self.refuse(self.seen.refusal or _error_of(sys.exc_info()[1], msg))

    # What the application calls

    async def send_whole(self, request: Any, response: Response, body: bytes) -> None:
        """Sends the answer to a request, which is uvicorn's, as uvicorn does, but by one write."""
        if self.flow.write_paused and not request.disconnected:
            await self.flow.drain()
        if request.disconnected:
            return
        head = [response.head(), *(b"%b: %b\r\n" % header for header in self.server_state.default_headers)]
        closes = ("Connection", "close") in response.headers
        if _CLOSE in request.scope["headers"]:
            head.append(b"" if closes else b"connection: close\r\n")
            closes = True
        head.append(b"\r\n")
        if len(body) < _SENT_WHOLE:
            self.line.write(b"".join(head) + body)
        else:
            self.line.write(b"".join(head))
            self.line.write(body)
        request.response_started = request.response_complete = True
        request.message_event.set()
        if closes or not request.keep_alive:
            self.line.close()
        self.on_response_complete()

    # Limits

    def stop(self, error: HttpError) -> NoReturn:
        """Has the parser stop, from within a callback of its."""
        self.seen.refusal = error
        raise error

    def skip(self, count: int) -> None:
        """Counts bytes that are thrown away, of which there is a limit."""
        self.seen.skipped_bytes += count
        if self.seen.skipped_bytes > self.watch.application.limits.body + SKIPPED:
            self.line.abort()

    def refuse(self, error: HttpError) -> None:
        """Answers that it isn't answered, and closes the connection, once the client has had time to read that.

        If answers to requests before are to come, it is closed after them instead.
        """
        seen = self.seen
        seen.is_over, seen.in_head = True, False
        if not seen.ahead:
            self.answer(error)
            return
        if seen.ahead == 1 and seen.in_body:
            # The application may refuse it by its head; else it waits for a body that doesn't come.
            self.loop.call_later(_HEAD_START, self.refuse_body, error)
        self.shutdown()

    def refuse_body(self, error: HttpError) -> None:
        """Answers a request whose body is at fault, and tells the application that the client went away."""
        request: Any = self.cycle
        if self.seen.ahead and not self.line.is_closing():
            request.disconnected = True
            request.message_event.set()
            self.seen.ahead = 0
            self.answer(error)

    def answer(self, error: HttpError) -> None:
        """Sends a refusal, and nothing after it."""
        self.seen.since = time.monotonic()
        self.line.write(self.watch.refusal(error, self.client[0] if self.client else ""))
        if self.line.can_write_eof():
            self.line.write_eof()

    def look(self, now: float) -> None:
        """Closes it if its time is over."""
        seen, patience, silent = self.seen, self.watch.patience, now - self.seen.since
        if self.does_not_read(now):
            log.info("closed a connection from %s, which doesn't read", self.client)
            self.line.abort()
        elif seen.is_over:
            if silent > _LINGERING and not seen.ahead:
                self.line.abort()
        elif seen.in_head and not seen.ahead:
            if silent > patience.head:
                self.refuse(slow(f"the head didn't arrive within {patience.head:g} seconds"))
        elif seen.in_body and not seen.ahead:
            if silent > patience.body:
                self.line.abort()
        elif not seen.ahead and silent > patience.idle:
            self.line.close()

    def does_not_read(self, now: float) -> bool:
        """Whether nothing of what waits to be sent was taken for too long."""
        unsent, seen = self.line.get_write_buffer_size(), self.seen
        if not unsent or unsent != seen.unsent:
            seen.unsent, seen.unsent_since = unsent, now
        return now - seen.unsent_since > self.watch.patience.idle


def _error_of(error: Optional[BaseException], words: str) -> HttpError:
    """The refusal of what httptools can't parse."""
    told = str(error or words)
    if isinstance(error, httptools.HttpParserInvalidMethodError):
        return HttpError(HTTPStatus.NOT_IMPLEMENTED, "NotImplemented", "there is no such method")
    if "header bytes" in told:
        return head_too_large()
    return bad("BadRequest", f"this isn't a request: {told.rstrip('.').lower()}")


class Served:
    """A server of uvicorn over an application, at a socket that is bound."""

    def __init__(self, application: Application, bound: socket.socket, threads: int, patience: Patience) -> None:
        self._bound, self._patience = bound, patience
        self._asgi = Asgi(application, threads, patience.body)
        self._watch = Watch(application, patience)
        protocol: Any = partial(Connection, self._watch)
        self._server = uvicorn.Server(uvicorn.Config(
            self._asgi, loop="none", http=protocol, ws="none", lifespan="off", interface="asgi3", log_config=None,
            log_level="critical", access_log=False, proxy_headers=False, server_header=False, backlog=1024,
            timeout_keep_alive=max(1, round(patience.idle)),
        ))

    def run(self, listens: "Callable[[], None]", ends: "Callable[[], None]") -> None:
        """Serves until a signal, SIGTERM or SIGINT, or `end`.

        `listens` is called once it takes connections, and `ends` when it takes no more.
        """
        _install_loop()
        try:
            asyncio.run(self._run(listens, ends))
        finally:
            self._asgi.close()

    def end(self) -> None:
        """Has `run` end, as a signal does."""
        self._server.should_exit = True

    async def _run(self, listens: "Callable[[], None]", ends: "Callable[[], None]") -> None:
        watching = asyncio.create_task(self._look(listens, ends))
        await self._server.serve(sockets=[self._bound])
        watching.cancel()

    async def _look(self, listens: "Callable[[], None]", ends: "Callable[[], None]") -> None:
        """Looks at all connections now and then, and, when the service ends, cuts off what takes too long."""
        while not self._server.started:
            await asyncio.sleep(0)
        listens()
        swept = time.monotonic()
        while not self._server.should_exit:
            await asyncio.sleep(_LOOK)
            if time.monotonic() - swept > _SWEEP:
                swept = time.monotonic()
                self._watch.sweep()
        ends()
        last = time.monotonic() + self._patience.grace
        while time.monotonic() < last:
            await asyncio.sleep(_LOOK)
            self._watch.sweep()
        log.warning("answers in progress took longer than %g seconds, and are cut off", self._patience.grace)
        self._watch.cut_off()
        self._server.force_exit = True


def _install_loop() -> None:
    try:
        import uvloop
    except ImportError:
        return
    uvloop.install()
