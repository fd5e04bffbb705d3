"""The calls that read, and the one that compacts: each is a call of a store."""
from __future__ import annotations

import secrets
from http import HTTPStatus
from typing import Any, NamedTuple

from dilforec.refusals import Syntax
from dilforec.service import _parameters as parameters
from dilforec.service._changes import document_id, document_key
from dilforec.service._errors import NoSuchDocument
from dilforec.service._http import Request, Response, answer, bad, tagged, unchanged
from dilforec.service._metrics import Metrics, resident_bytes
from dilforec.service._openapi import described
from dilforec.service._snapshot import Snapshot
from dilforec.service._store import Store
from dilforec.service._versions import version_of
from dilforec.values import Field, as_json


class Limits(NamedTuple):
    """What one request may ask for: the bytes of its body and of the answer, and the clauses of a query."""

    body: int = 16 << 20
    answer: int = 16 << 20
    clauses: int = 256


class Reads:
    """Answers from the last commit of a store."""

    def __init__(self, store: Store, metrics: Metrics, limits: Limits) -> None:
        self._store, self._metrics, self._limits = store, metrics, limits
        self._process = secrets.token_hex(8)

    def search(self, request: Request) -> Response:
        """A search."""
        given = request.parameters("q", "top", "after", lists=("groups", "fields"))
        after = parameters.after(given["after"]) if "after" in given else None
        top = parameters.top(given["top"]) if "top" in given else None
        fields = parameters.names(given["fields"]) if "fields" in given else None
        query, groups = given.get("q", "*"), parameters.groups(given.get("groups", ""))
        parameters.check_clauses(query, self._limits.clauses)
        try:
            with self._store.snapshot() as snapshot, self._metrics.timed("searches"):
                tag = self._tag(snapshot)
                if request.knows(tag):
                    return unchanged(tag)
                found = snapshot.search_json(
                    query, groups=list(groups), top=top, fields=fields, after=after, most=groups,
                )
        except Syntax as error:
            # The package tells it in characters.
            raise bad("Syntax", str(error), None if error.at is None else len(query[:error.at].encode())) from None
        return tagged(self._limited(Response(HTTPStatus.OK, found)), tag)

    def _tag(self, snapshot: Snapshot) -> str:
        """What an answer depends on beside the address: the commit, of this process, since another may have a journal
        that was restored."""
        return f"{self._process}-{snapshot.commit}"

    def _limited(self, response: Response) -> Response:
        """An answer that isn't over the limit."""
        most = self._limits.answer
        if len(response.body) > most:
            words = f"the answer has {len(response.body)} bytes, and {most} are the most: ask for fewer documents"
            raise bad("AnswerTooLarge", f"{words}, or for less of them by `fields`")
        return response

    def list(self, request: Request) -> Response:
        """The documents with the next numbers."""
        given = request.parameters("after", "limit")
        after, limit = parameters.number("after", given.get("after", "0")), parameters.limit(given.get("limit", "100"))
        with self._store.snapshot() as snapshot:
            tag = self._tag(snapshot)
            if request.knows(tag):
                return unchanged(tag)
            return tagged(self._limited(answer({"documents": snapshot.documents(after, limit)})), tag)

    def get(self, request: Request) -> Response:
        """The document of a number."""
        id = document_id(request)
        document = self._store.get(id)
        if document is None:
            raise NoSuchDocument(id)
        return _document(request, document)

    def get_by_key(self, request: Request) -> Response:
        """The document of a key."""
        key = document_key(request, self._store)
        document = self._store.get_by_key(key)
        if document is None:
            raise NoSuchDocument(key)
        return _document(request, document)

    def status(self, request: Request) -> Response:
        """How large the store is, and its schema."""
        request.parameters()
        store = self._store
        with store.snapshot() as snapshot:
            stats = snapshot.stats()
            return answer({
                "documents": stats.live, "segments": stats.segments, "commit": snapshot.commit,
                "writable": store.writable, "journal_bytes": store.journal_bytes, "resident_bytes": resident_bytes(),
                "schema": [as_json(field) for field in store.fields], "key": store.key,
            })

    def metrics(self, request: Request) -> Response:
        """What the service counts, for Prometheus."""
        request.parameters()
        store = self._store
        with store.snapshot() as snapshot:
            stats = snapshot.stats()
        text = self._metrics.text({
            "documents": ("Documents of the last commit.", stats.live),
            "deleted_documents": (
                "Documents that were deleted, and aren't merged away yet.", stats.documents - stats.live,
            ),
            "segments": ("Segments of the last commit.", stats.segments),
            "commits": ("The number of the last commit.", store.commits),
            "journal_bytes": ("The size of the journal.", store.journal_bytes),
            "resident_bytes": ("The memory of the process.", resident_bytes()),
            "writable": ("1, or 0 after a write whose outcome is unknown.", int(store.writable)),
        })
        return Response(HTTPStatus.OK, text.encode(), "text/plain; version=0.0.4; charset=utf-8")

    def compact(self, request: Request) -> Response:
        """Writes the journal anew, maybe with another schema."""
        request.parameters()
        if not request.body.strip():
            return answer(self._store.compact()._asdict())
        given = request.json()
        is_known = isinstance(given, dict) and not set(given) - {"schema", "drop"}
        if not is_known or not isinstance(given.get("drop", []), list):
            raise bad("BadSchema", "a compaction takes nothing, or a schema and the names of fields to drop")
        try:
            fields = [Field(**field) for field in given["schema"]]
        except (KeyError, TypeError, ValueError) as error:
            raise bad("BadSchema", f"a schema is a list of fields with name, kind and default: {error}") from None
        return answer(self._store.compact(schema=fields, drop=given.get("drop", []))._asdict())

    def openapi(self, request: Request) -> Response:
        """What the service answers, as OpenAPI describes it."""
        request.parameters()
        return answer(described(self._store.fields, self._store.key))


def _document(request: Request, document: "dict[str, Any]") -> Response:
    version = version_of(document)
    return unchanged(version) if request.knows(version) else tagged(answer(document), version)
