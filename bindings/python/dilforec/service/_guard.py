"""Who may do what: by the Host, the Origin, the content's type and a token."""
from __future__ import annotations

import hmac
from collections.abc import Iterable
from http import HTTPStatus
from typing import NamedTuple, Optional

from dilforec.service._http import JSON, JSON_LINES, HttpError, Request, Response, is_loopback

# How long a browser needn't ask again whether another site's page may search here, in seconds.
_ASKED_FOR = "600"


class Tokens(NamedTuple):
    """What a request has to have: `write` to change something, and `read` or `write` to read.

    Without `write` no change needs one. Without `read`, reads need `write` if `for_reads` says so, else none.
    """

    write: Optional[str] = None
    read: Optional[str] = None
    for_reads: bool = False


class Guard:
    """Lets a request through, or raises its refusal.

    `hosts` are the values of the header Host that are answered: `name:port`, or `name` for any port. `tokens` may be
    replaced at any time. If there is none for changes, nothing can be changed unless `open_writes` is true. `origins`
    are those of other sites whose pages may search.
    """

    def __init__(
        self, hosts: Iterable[str], tokens: Tokens = Tokens(), open_writes: bool = True, origins: Iterable[str] = (),
    ) -> None:
        self.tokens = tokens
        self._hosts = {host.lower() for host in hosts}
        self._open_writes = open_writes
        self._origins = {origin.lower() for origin in origins}

    def host(self, request: Request) -> None:
        """Refuses a Host that isn't one of its own: a page elsewhere whose name was made to lead here has another."""
        host = request.host.lower()
        if host in self._hosts:
            return
        name = host if host.endswith("]") else host.rpartition(":")[0] or host
        if name not in self._hosts:
            raise HttpError(HTTPStatus.MISDIRECTED_REQUEST, "Misdirected", "this isn't the host that was asked for")

    def reads(self, request: Request) -> None:
        """Refuses a request that reads without a token, if one is needed."""
        tokens = self.tokens
        if tokens.read is not None or tokens.for_reads:
            given = _token(request)
            # Both are compared, so that the time tells nothing.
            if not _same(given, tokens.write) | _same(given, tokens.read):
                raise _unauthorized()

    def changes(self, request: Request) -> None:
        """Refuses a request that changes something, unless it may."""
        self._check_origin(request)
        self._check_writer(request)
        if request.method != "DELETE" or request.type:
            # No form of a page elsewhere can send these.
            if request.type not in (JSON, JSON_LINES):
                raise HttpError(
                    HTTPStatus.UNSUPPORTED_MEDIA_TYPE, "BadContentType",
                    f"the content's type has to be {JSON} or {JSON_LINES}",
                )

    def asks_to_read(self, request: Request) -> Optional[Response]:
        """The answer to a browser that asks whether a page of another site may read; None if it asks something else."""
        wanted = request.headers.get("access-control-request-method")
        if request.method != "OPTIONS" or wanted not in ("GET", "HEAD") or not self._may_search(request):
            return None
        return Response(HTTPStatus.NO_CONTENT, b"", headers=(
            ("Access-Control-Allow-Methods", "GET, HEAD"),
            ("Access-Control-Allow-Headers", "Authorization, If-None-Match"),
            ("Access-Control-Max-Age", _ASKED_FOR),
        ))

    def sharing(self, request: Request) -> "tuple[tuple[str, str], ...]":
        """Headers by which a browser lets a page of another site read the answer, if that page may search."""
        if not self._origins:
            return ()
        if not self._may_search(request):
            return (("Vary", "Origin"),)
        return (
            ("Vary", "Origin"), ("Access-Control-Allow-Origin", request.headers["origin"]),
            ("Access-Control-Expose-Headers", "ETag"),
        )

    def _may_search(self, request: Request) -> bool:
        return request.headers.get("origin", "").lower() in self._origins

    def _check_origin(self, request: Request) -> None:
        origin = request.headers.get("origin")
        if origin is None:
            return
        scheme, _, host = origin.lower().partition("://")
        if scheme not in ("http", "https") or host != request.host.lower():
            words = "a page of another origin can't change anything here"
            raise HttpError(HTTPStatus.FORBIDDEN, "ForeignOrigin", words)

    def _check_writer(self, request: Request) -> None:
        tokens = self.tokens
        if tokens.write is None:
            if not self._open_writes:
                words = "nothing can be changed here: the service was started without a token"
                raise HttpError(HTTPStatus.FORBIDDEN, "ReadOnly", words)
            return
        given = _token(request)
        writes, reads = _same(given, tokens.write), _same(given, tokens.read)
        if not writes and reads:
            raise HttpError(HTTPStatus.FORBIDDEN, "ReadOnly", "this token is for reading alone")
        if not writes:
            raise _unauthorized()


def _token(request: Request) -> bytes:
    """The token of a request; nothing, which is no token, if it has none."""
    scheme, _, given = request.headers.get("authorization", "").partition(" ")
    return given.strip().encode("latin-1", "replace") if scheme.lower() == "bearer" else b""


def _same(given: bytes, token: Optional[str]) -> bool:
    return token is not None and hmac.compare_digest(given, token.encode())


def _unauthorized() -> HttpError:
    words = "the token is missing, or isn't the right one"
    return HttpError(HTTPStatus.UNAUTHORIZED, "Unauthorized", words, WWW_Authenticate="Bearer")


def hosts_of(host: str, port: int, named: Iterable[str]) -> "set[str]":
    """The Hosts of a service that listens at an address, and is known by other names too."""
    everywhere = host in ("0.0.0.0", "::")
    names = set() if everywhere else {f"[{host}]" if ":" in host else host}
    if everywhere or is_loopback(host):
        names |= {"localhost", "127.0.0.1", "[::1]"}
    here = {f"{name}:{port}" for name in names}
    if port == 80:
        here |= names
    return here | set(named)
