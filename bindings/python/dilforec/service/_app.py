"""The service as an application: who may ask what, and which call of a store each request is. It serves WSGI itself."""
from __future__ import annotations

import logging
import re
from collections.abc import Callable, Iterable
from functools import partial
from http import HTTPStatus
from typing import TYPE_CHECKING, Optional, TypeVar, Union

from dilforec.refusals import Refused
from dilforec.service._changes import Change, Changes
from dilforec.service._errors import BadSchema, Busy, KeyTaken, NoSuchDocument, Unavailable, VersionChanged
from dilforec.service._guard import Guard
from dilforec.service._http import HttpError, Request, Response, answer, bad, failure
from dilforec.service._metrics import Metrics
from dilforec.service._page import PAGE, POLICY
from dilforec.service._reads import Limits, Reads
from dilforec.service._store import Store

if TYPE_CHECKING:
    from _typeshed.wsgi import StartResponse, WSGIEnvironment

T = TypeVar("T")
Call = Callable[[Request], Union[Response, Change]]

log = logging.getLogger("dilforec.service")

_STATUSES = {status: f"{status.value} {status.phrase}" for status in HTTPStatus}
_DOCUMENT = re.compile("/documents/(0|[1-9][0-9]{0,19})")
# Anybody may ask for these, by any name: they say nothing that a stranger mustn't know.
_HEALTH = ("/healthz", "/readyz")
_OPEN = ("/", *_HEALTH)
# What pages of other sites may read, if their origin is allowed.
_SHARED = ("/search", "/documents", "/documents/ID", "/documents/key/KEY", "/status", "/openapi.json")
# These stand for many paths.
_NAMED = ("/documents/ID", "/documents/key/KEY")
# To read these takes less time than to hand them to another thread; so does to begin a change with a short body.
_BRIEF = ("/", *_HEALTH, "/status", "/documents/ID", "/documents/key/KEY")
_BRIEF_BODY = 65_536


class Application:
    """Answers requests from a store. Any WSGI server runs it that has one process; several threads may call it.

    A server of another kind asks in steps, so that a body is read only once its head was let in, and so that changes
    of several clients share a sync: `admit`, `begin`, `submit` and `finish`, and `answered` at the end.
    """

    def __init__(self, store: Optional[Store], guard: Guard, limits: Limits = Limits()) -> None:
        """The application of a store, or of one that isn't open yet, until `open` hands it in."""
        self.guard, self.limits, self.metrics = guard, limits, Metrics()
        # How many documents a store that is being opened has so far.
        self.replayed = 0
        self._store: Optional[Store] = None
        self._calls: "dict[str, dict[str, Call]]" = {
            "/": {"GET": self._page}, "/healthz": {"GET": self._healthy}, "/readyz": {"GET": self._ready},
        }
        if store is not None:
            self.open(store)

    def open(self, store: Store) -> None:
        """Answers from a store from now on."""
        reads, changes = Reads(store, self.metrics, self.limits), Changes(store)
        self._store = store
        self._calls.update({
            "/documents": {"GET": reads.list, "POST": changes.add},
            "/documents/ID": {"GET": reads.get, "PUT": changes.replace, "DELETE": changes.delete},
            "/documents/key/KEY": {
                "GET": reads.get_by_key, "PUT": changes.put_by_key, "DELETE": changes.delete_by_key,
            },
            "/transaction": {"POST": changes.transaction},
            "/search": {"GET": reads.search},
            "/status": {"GET": reads.status},
            "/metrics": {"GET": reads.metrics},
            "/compact": {"POST": reads.compact},
            "/openapi.json": {"GET": reads.openapi},
        })

    def __call__(self, environ: WSGIEnvironment, start_response: StartResponse) -> "Iterable[bytes]":
        request = _request(environ)
        response = self.answered(request, self._answer(request, environ))
        start_response(_STATUSES[response.status], response.lines())
        return [b"" if request.method == "HEAD" else response.body]

    def _answer(self, request: Request, environ: WSGIEnvironment) -> Response:
        call = self.admit(request)
        if isinstance(call, Response):
            return call
        if request.has_body:
            length = request.length(self.limits.body)
            request.body = environ["wsgi.input"].read(length or 0)
            if len(request.body) != (length or 0):
                return failure(bad("BadLength", "the body is shorter than its length"))
        begun = self.begin(request, call)
        if isinstance(begun, Response):
            return begun
        assert self._store is not None
        self._store.do(begun.transaction)
        return self.finish(request, begun)

    # The steps

    def admit(self, request: Request) -> "Union[Response, Call]":
        """The call that a request is for, by its head, or the answer to one that isn't let in."""
        return self._tried(request, partial(self._admitted, request))

    def is_brief(self, request: Request) -> bool:
        """Whether a request takes less time to begin than to hand to another thread. Its body is there."""
        name = _name(request)
        is_change = name != "/compact" and request.method not in ("GET", "HEAD")
        return len(request.body) <= _BRIEF_BODY if is_change else name in _BRIEF

    def begin(self, request: Request, call: Call) -> "Union[Response, Change]":
        """Does all of a request but its change."""
        return self._tried(request, partial(call, request))

    def submit(self, begun: "Iterable[Change]", then: "Callable[[], None]") -> None:
        """Has changes done that were begun, and calls `then` from another thread once they are."""
        assert self._store is not None
        self._store.submit(*[each.transaction for each in begun], then=then)

    def finish(self, request: Request, change: Change) -> Response:
        """The answer to a change that was done."""
        self.metrics.took("transactions", change.began)
        return self._tried(request, change.response)

    def failed(self, request: Request, error: Exception) -> Response:
        """The answer if the service itself fails, which it logs."""
        log.error("%s failed", request.line, exc_info=error)
        words = "the service failed; its log says how"
        return failure(HttpError(HTTPStatus.INTERNAL_SERVER_ERROR, "Failed", words))

    def answered(self, request: Request, response: Response) -> Response:
        """Counts an answer and logs it, and returns it with what a browser needs for a page of another site."""
        if request.method in ("GET", "HEAD", "OPTIONS") and _name(request) in _SHARED:
            response = response._replace(headers=(*response.headers, *self.guard.sharing(request)))
        if response.status >= 400:
            self.metrics.count("failures_total" if response.status >= 500 else "refusals_total")
        level = logging.WARNING if response.status in (401, 403) else logging.DEBUG
        if log.isEnabledFor(level):
            log.log(level, "%s %d, asked by %s", request.line, response.status, request.address)
        return response

    def _admitted(self, request: Request) -> "Union[Response, Call]":
        name = _name(request)
        if name not in _HEALTH:
            self.guard.host(request)
        calls = self._calls.get(name) if name == request.path or name in _NAMED else None
        if calls is None:
            raise self._no_call()
        asked = self.guard.asks_to_read(request) if name in _SHARED else None
        if asked:
            return asked
        method = "GET" if request.method == "HEAD" else request.method
        if method not in calls:
            taken = ", ".join(calls)
            raise HttpError(
                HTTPStatus.METHOD_NOT_ALLOWED, "MethodNotAllowed", f"the path takes {taken}", Allow=taken,
            )
        if method != "GET":
            self.guard.changes(request)
        elif name not in _OPEN:
            self.guard.reads(request)
        if request.has_body:
            request.length(self.limits.body)
        return calls[method]

    def _no_call(self) -> HttpError:
        if self._store is None:
            return HttpError(
                HTTPStatus.SERVICE_UNAVAILABLE, "Starting", "the documents are being read from the journal",
                Retry_After="1",
            )
        return HttpError(HTTPStatus.NOT_FOUND, "NotFound", "there is no such path")

    def _tried(self, request: Request, call: "Callable[[], T]") -> "Union[T, Response]":
        """What a call gives, or the answer that tells its error."""
        try:
            return call()
        except HttpError as error:
            return failure(error)
        except NoSuchDocument as error:
            return failure(HttpError(HTTPStatus.NOT_FOUND, "NoSuchDocument", str(error)))
        except VersionChanged as error:
            return failure(HttpError(HTTPStatus.PRECONDITION_FAILED, "VersionChanged", str(error)))
        except KeyTaken as error:
            whose: "dict[str, object]" = {"key": error.key, "id": error.id}
            return failure(HttpError(HTTPStatus.CONFLICT, "KeyTaken", str(error), more=whose))
        except Refused as error:
            return failure(bad(error.name, str(error)))
        except BadSchema as error:
            return failure(bad("BadSchema", str(error)))
        except Busy as error:
            return failure(HttpError(HTTPStatus.CONFLICT, "Busy", str(error)))
        except Unavailable as error:
            return failure(HttpError(HTTPStatus.SERVICE_UNAVAILABLE, type(error).__name__, str(error)))
        except MemoryError:
            return failure(HttpError(HTTPStatus.SERVICE_UNAVAILABLE, "Memory", "there was no memory; nothing was done"))
        except Exception as error:
            return self.failed(request, error)

    # What needs no store

    def _page(self, request: Request) -> Response:
        return Response(HTTPStatus.OK, PAGE, "text/html; charset=utf-8", (("Content-Security-Policy", POLICY),))

    def _healthy(self, request: Request) -> Response:
        return answer({"healthy": True})

    def _ready(self, request: Request) -> Response:
        store = self._store
        if store is None:
            told = answer({"ready": False, "documents": self.replayed}, HTTPStatus.SERVICE_UNAVAILABLE)
            return told._replace(headers=(("Retry-After", "1"),))
        return answer({"ready": True, "documents": len(store), "writable": store.writable})


def _name(request: Request) -> str:
    """The name of a path's calls."""
    if request.call is None:
        request.call = path = request.path
        if _DOCUMENT.fullmatch(path):
            request.call = "/documents/ID"
        elif path.startswith("/documents/key/") and path != "/documents/key/":
            request.call = "/documents/key/KEY"
    return request.call


def _request(environ: WSGIEnvironment) -> Request:
    headers = {
        name[5:].lower().replace("_", "-"): value for name, value in environ.items() if name.startswith("HTTP_")
    }
    for name in "CONTENT_TYPE", "CONTENT_LENGTH":
        if environ.get(name):
            headers[name.lower().replace("_", "-")] = environ[name]
    path = environ.get("PATH_INFO", "").encode("latin-1").decode(errors="replace")
    query = environ.get("QUERY_STRING", "").encode("latin-1")
    return Request(environ["REQUEST_METHOD"], path, query, headers, environ.get("REMOTE_ADDR", ""))
