"""The calls that change documents: what a request asks for as a transaction, and what came of it as an answer."""
from __future__ import annotations

import time
from collections.abc import Callable
from http import HTTPStatus
from typing import Any, NamedTuple, Optional

from dilforec.refusals import Refused
from dilforec.service import _parameters as parameters
from dilforec.service._errors import NoSuchDocument, TransactionRefused
from dilforec.service._http import HttpError, Request, Response, bad
from dilforec.service._lines import Key
from dilforec.service._store import Store
from dilforec.service._transaction import Transaction


class Change(NamedTuple):
    """A change that a request asks for. If its operations are a body's, `places` are their places in it, from 1."""

    transaction: Transaction
    status: HTTPStatus
    began: float
    places: "Optional[list[int]]" = None

    def response(self) -> Response:
        """What came of it, once it is done. The error that it ended with is raised."""
        error = self.transaction.error
        if isinstance(error, TransactionRefused):
            refusal = error.refusal
            raise bad(refusal.name, str(refusal), self.places[error.number - 1] if self.places else None)
        done = self.transaction.done
        ids = ",".join(map(str, done.ids))
        return Response(self.status, f'{{"ids":[{ids}],"commit":{done.commit}}}\n'.encode())


class Changes:
    """Makes transactions of requests to a store."""

    def __init__(self, store: Store) -> None:
        self._store = store

    def add(self, request: Request) -> Change:
        """Adds documents."""
        return self._posted(request, Transaction.add)

    def transaction(self, request: Request) -> Change:
        """Does lines of a script."""
        return self._posted(request, Transaction.command)

    def replace(self, request: Request) -> Change:
        """Puts a document in the place of the one of a number."""
        id, version, document = document_id(request), _version(request), request.json()
        return self._change("BadId", lambda transaction: transaction.replace(id, document, version=version))

    def delete(self, request: Request) -> Change:
        """Deletes the document of a number."""
        id, version = document_id(request), _version(request)
        return self._change("BadId", lambda transaction: transaction.delete_document(id, version=version))

    def put_by_key(self, request: Request) -> Change:
        """Puts a document at a key, which the document needn't have again."""
        key, version, document = document_key(request, self._store), _version(request), request.json()
        if isinstance(document, dict) and self._store.key is not None:
            document.setdefault(self._store.key, key)
        return self._change("BadKey", lambda transaction: transaction.put_by_key(key, document, version=version))

    def delete_by_key(self, request: Request) -> Change:
        """Deletes the document of a key."""
        key, version = document_key(request, self._store), _version(request)
        return self._change("BadKey", lambda transaction: transaction.delete_by_key(key, version=version))

    def _change(self, name: str, operation: "Callable[[Transaction], None]") -> Change:
        began, transaction = time.perf_counter(), self._store.new_transaction()
        try:
            operation(transaction)
        except ValueError as error:
            raise bad(name, str(error)) from None
        return Change(transaction, HTTPStatus.OK, began)

    def _posted(self, request: Request, operation: "Callable[[Transaction, Any], None]") -> Change:
        """A transaction of the body's values. A refusal tells the line, or the place in a list."""
        request.parameters()
        if "if-match" in request.headers:
            raise bad("BadMatch", "If-Match is for the path of one document")
        began, transaction = time.perf_counter(), self._store.new_transaction()
        places: "list[int]" = []
        for place, value in request.values():
            places.append(place)
            try:
                operation(transaction, value)
            except Refused as error:
                raise bad(error.name, str(error), place) from None
            except ValueError as error:
                raise bad("BadCommand", str(error), place) from None
        if not places:
            raise bad("Empty", "there is nothing in the body")
        return Change(transaction, HTTPStatus.CREATED, began, places)


def document_id(request: Request) -> int:
    """The number of the document that the path names."""
    request.parameters()
    return parameters.number("the document's number", request.path.rpartition("/")[2])


def document_key(request: Request, store: Store) -> Key:
    """The key of the document that the path names."""
    request.parameters()
    text = request.path[len("/documents/key/"):]
    try:
        return store.key_of(text)
    except ValueError as error:
        if store.key is None:
            raise HttpError(HTTPStatus.NOT_FOUND, "NoKey", "the service was started without a key") from None
        # No document can have it.
        raise NoSuchDocument(text) from error


def _version(request: Request) -> Optional[str]:
    """The version that the document has to have (If-Match), if the request says one."""
    if "if-none-match" in request.headers:
        raise bad("BadMatch", "a change takes If-Match, and no If-None-Match")
    tag = request.headers.get("if-match")
    if tag is None or tag.strip() == "*":
        return tag if tag is None else "*"
    if "," in tag:
        raise bad("BadMatch", "If-Match has one tag, or *")
    # A weak one is none of the service's, so it fits no version.
    return tag.strip().strip('"') if not tag.startswith("W/") else tag
