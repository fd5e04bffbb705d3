"""The command `serve`: a store over HTTP, until a signal ends it."""
from __future__ import annotations

import argparse
import logging
import os
import pathlib
import resource
import signal
import socket
import stat
import tempfile
import threading
import time
from collections.abc import Callable, Iterator
from contextlib import ExitStack, contextmanager
from typing import TYPE_CHECKING, Optional

from dilforec.service import _example as example
from dilforec.service import _schema as schema
from dilforec.service._app import Application
from dilforec.service._errors import Stopped
from dilforec.service._guard import Guard, Tokens, hosts_of
from dilforec.service._http import is_loopback
from dilforec.service._reads import Limits
from dilforec.service._refusal import Refusal
from dilforec.service._store import Store

if TYPE_CHECKING:
    from dilforec.service._uvicorn import Served

log = logging.getLogger("dilforec.service")

# Beside its connections a service has its threads, files and modules.
_OTHER_DESCRIPTORS = 128


def serve(given: argparse.Namespace) -> int:
    """Serves until it is ended, and returns the status."""
    tokens = _tokens(given)
    if not given.journal and not given.example:
        raise Refusal("--journal is missing: the file where the documents are kept")
    _check_descriptors(given.connections + given.threads + _OTHER_DESCRIPTORS)
    with ExitStack() as stack:
        path = given.journal or os.path.join(stack.enter_context(tempfile.TemporaryDirectory()), "example.journal")
        bound = stack.enter_context(_listening(*given.listen))
        application = _application(given, tokens, bound)
        server = _server(given, application, bound)
        opening = _Opening(given, path, application, server, _place(bound))
        _await_signals(given, application, server)
        try:
            server.run(listens=opening.start, ends=opening.end)
        finally:
            opening.close()
    log.info("ended")
    return 0


class _Opening(threading.Thread):
    """A thread that opens the store, while the server says already that it isn't ready."""

    def __init__(self, given: argparse.Namespace, path: str, application: Application, server: Served, at: str) -> None:
        super().__init__(name="dilforec-open", daemon=True)
        self._given, self._path, self._application, self._server, self._at = given, path, application, server, at
        self._is_ending = False
        self._store: Optional[Store] = None
        self._error: Optional[BaseException] = None
        self._told = schema.Progress()

    def run(self) -> None:
        began = time.monotonic()
        try:
            self._store = store = self._opened()
        except BaseException as error:
            self._error = error
            self._server.end()
            return
        self._application.open(store)
        print(f"{len(store):,} documents in {time.monotonic() - began:.1f} s, at {self._at}", flush=True)
        _notify("READY=1")

    def _opened(self) -> Store:
        """The store, with the example's documents if it is new and they are wanted."""
        given = self._given
        fields = example.SCHEMA if given.example else schema.of_file(given.schema)
        store = Store(fields, self._path, key=given.key, progress=self._progress)
        if store.torn:
            log.warning("cut %d bytes off the journal, of a transaction that wasn't acknowledged", store.torn)
        if given.example and not store.commits:
            with store.transaction() as transaction:
                for document in example.documents():
                    transaction.add(document)
        return store

    def _progress(self, done: int, of: int, documents: int) -> None:
        if self._is_ending:
            raise Stopped("it was ended before the journal was read")
        self._application.replayed = documents
        self._told(done, of, documents)

    def end(self) -> None:
        """Tells that the service ends."""
        self._is_ending = True
        _notify("STOPPING=1")

    def close(self) -> None:
        """Closes the store. What stopped it from being opened is raised, unless that was the end of the service."""
        self.end()
        if self.ident is not None:
            self.join()
        if self._store:
            self._store.close()
        if self._error and not isinstance(self._error, Stopped):
            raise self._error


def _server(given: argparse.Namespace, application: Application, bound: socket.socket) -> Served:
    try:
        from dilforec.service._uvicorn import Patience, Served
    except ImportError as error:
        raise Refusal(
            f"{error.name or 'uvicorn'} isn't there, which it needs to serve: install Debian's packages "
            "python3-uvicorn, python3-httptools and python3-uvloop, which a virtual environment has if it was made with "
            "--system-site-packages, or pip install 'dilforec[service]'"
        ) from None
    patience = Patience(given.connections, given.idle, given.head_seconds, given.body_seconds, given.grace)
    return Served(application, bound, given.threads, patience)


def _application(given: argparse.Namespace, tokens: Tokens, bound: socket.socket) -> Application:
    host, is_local = given.listen[0], _is_local(bound)
    if is_local:
        hosts = {"localhost", *given.host}
    else:
        hosts = hosts_of(host, bound.getsockname()[1], given.host)
    beyond = not is_local and not is_loopback(host)
    if beyond and tokens.write is None:
        log.warning("it listens beyond this machine without a token: everybody can read, nobody can change anything")
    elif beyond and not tokens.read and not tokens.for_reads:
        log.warning("it listens beyond this machine: everybody can read; --read-token-file has reads need a token too")
    if host in ("0.0.0.0", "::") and not given.host:
        log.warning("it answers to localhost alone: --host gives the name that others use for it")
    guard = Guard(hosts, tokens, not beyond, given.allow_origin)
    return Application(None, guard, Limits(given.body, given.answer, given.clauses))


# Tokens


def _tokens(given: argparse.Namespace) -> Tokens:
    for option in "token_reads", "read_token_file":
        if getattr(given, option) and given.token_file is None:
            raise Refusal(f"--{option.replace('_', '-')} needs --token-file")
    tokens = Tokens(_token(given.token_file), _token(given.read_token_file), given.token_reads)
    if tokens.write is not None and tokens.write == tokens.read:
        raise Refusal("the two tokens are the same: one that only reads has to be another")
    return tokens


def _token(path: Optional[str]) -> Optional[str]:
    if path is None:
        return None
    try:
        token = pathlib.Path(path).read_text().strip()
        mode = os.stat(path).st_mode
    except (OSError, ValueError) as error:
        raise Refusal(f"the token can't be read: {error}") from None
    if len(token) < 16 or not token.isascii() or len(token.split()) != 1:
        raise Refusal(f"{path} has to have one word of 16 letters or more, the token")
    if mode & stat.S_IROTH:
        log.warning("everybody on this machine can read the token in %s", path)
    return token


def _await_signals(given: argparse.Namespace, application: Application, server: Served) -> None:
    """Has SIGHUP read the tokens again, and SIGTERM and SIGINT end the server, also before and after it has a loop."""
    def read_again(*_: object) -> None:
        try:
            application.guard.tokens = _tokens(given)
            log.info("the tokens were read again")
        except Refusal as error:
            log.error("the tokens stay as they are: %s", error)

    signal.signal(signal.SIGHUP, read_again)
    for number in signal.SIGTERM, signal.SIGINT:
        signal.signal(number, lambda *_: server.end())


# Sockets


def _check_descriptors(needed: int) -> None:
    soft, hard = resource.getrlimit(resource.RLIMIT_NOFILE)
    if soft != resource.RLIM_INFINITY and soft < needed:
        if hard != resource.RLIM_INFINITY and hard < needed:
            raise Refusal(f"{needed} descriptors are needed, and {hard} allowed: ulimit -n, or fewer --connections")
        resource.setrlimit(resource.RLIMIT_NOFILE, (needed, hard))


@contextmanager
def _listening(host: str, port: Optional[int]) -> "Iterator[socket.socket]":
    """A socket at an address, or, without a port, at a path. It refuses connections until the server listens."""
    try:
        bound = _bound_at(host) if port is None else _bound(host, port)
    except OSError as error:
        at = f"unix:{host}" if port is None else f"{host}:{port}"
        raise Refusal(f"it can't listen at {at}: {error.strerror or error}") from None
    try:
        yield bound
    finally:
        bound.close()
        if port is None:
            pathlib.Path(host).unlink(missing_ok=True)


def _bound(host: str, port: int) -> socket.socket:
    family, kind, protocol, _, address = socket.getaddrinfo(host, port, type=socket.SOCK_STREAM)[0]
    return _at(socket.socket(family, kind, protocol), lambda made: made.bind(address))


def _bound_at(path: str) -> socket.socket:
    """A local socket, for its owner and group. One that another process left behind is replaced."""
    def bind(made: socket.socket) -> None:
        if pathlib.Path(path).is_socket():
            with socket.socket(socket.AF_UNIX) as other:
                try:
                    other.connect(path)
                except ConnectionRefusedError:
                    os.unlink(path)
        before = os.umask(0o117)
        try:
            made.bind(path)
        finally:
            os.umask(before)

    return _at(socket.socket(socket.AF_UNIX), bind)


def _at(made: socket.socket, bind: "Callable[[socket.socket], None]") -> socket.socket:
    try:
        made.setsockopt(socket.SOL_SOCKET, socket.SO_REUSEADDR, 1)
        bind(made)
        return made
    except BaseException:
        made.close()
        raise


def _is_local(bound: socket.socket) -> bool:
    return bound.family == socket.AF_UNIX


def _place(bound: socket.socket) -> str:
    """Where a bound socket is, as clients name it."""
    if _is_local(bound):
        return f"unix:{bound.getsockname()}"
    host, port = bound.getsockname()[:2]
    host = f"[{host}]" if ":" in host else host
    return f"http://{host}:{port}/"


def _notify(state: str) -> None:
    """Tells systemd, if it asked for that (Type=notify)."""
    path = os.environ.get("NOTIFY_SOCKET")
    if path:
        with socket.socket(socket.AF_UNIX, socket.SOCK_DGRAM) as told:
            try:
                told.sendto(state.encode(), f"\0{path[1:]}" if path.startswith("@") else path)
            except OSError as error:
                log.warning("systemd wasn't told: %s", error)
