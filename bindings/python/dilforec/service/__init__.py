"""A store of documents that many clients search and change, that survives a crash, and is served over HTTP.

docs/SERVICE.md says how it is started, called and kept. Without HTTP:

    from dilforec import text, u64
    from dilforec.service import Store

    with Store([text("title", default=True), u64("year")], "books.journal") as store:
        store.add({"title": "Programming Pearls", "year": 1986})
        print(store.search("pearls").count)

`asgi` makes an application of a store for any server of ASGI, and `application` for any of WSGI that has threads.
Either runs it in one process. `dilforec serve` runs it on uvicorn, and a `Client` asks it, with the methods of a store.
"""
from __future__ import annotations

from collections.abc import Iterable
from typing import Optional

from dilforec.service._app import Application
from dilforec.service._asgi import Asgi
from dilforec.service._client import Client, ClientTransaction, NotAllowed
from dilforec.service._errors import (
    BadJournal, BadSchema, Busy, KeyTaken, Locked, NoSuchDocument, NotWritten, OutcomeUnknown, Stopped,
    TransactionRefused, Unavailable, VersionChanged,
)
from dilforec.service._compact import Sizes
from dilforec.service._guard import Guard, Tokens
from dilforec.service._reads import Limits
from dilforec.service._snapshot import Answer, Hit, Snapshot
from dilforec.service._store import Store
from dilforec.service._transaction import Done, Transaction
from dilforec.service._versions import version_of

__all__ = [
    "Answer", "Application", "Asgi", "BadJournal", "BadSchema", "Busy", "Client", "ClientTransaction", "Done", "Hit",
    "KeyTaken", "Locked", "NoSuchDocument", "NotAllowed", "NotWritten", "OutcomeUnknown", "Sizes", "Snapshot",
    "Stopped", "Store", "Transaction", "TransactionRefused", "Unavailable", "VersionChanged", "application", "asgi",
    "version_of",
]


def application(
    store: Store, *, hosts: Iterable[str], token: Optional[str] = None, read_token: Optional[str] = None,
    token_reads: bool = False, changes: bool = True, origins: Iterable[str] = (), body_limit: int = 16 << 20,
    answer_limit: int = 16 << 20, clauses: int = 256,
) -> Application:
    """A WSGI application of a store, for a server that has one process, with threads.

    `hosts` are the values of the header Host that it answers to: `name:port`, or `name` for any port. With a token,
    what changes something needs it, and with `token_reads` what reads too; with a `read_token` what reads needs one of
    the two. Without a token, `changes` says whether anybody may change something. `origins` are sites whose pages may
    search, as `https://www.example.org`. `body_limit` and `answer_limit` are in bytes; `clauses` is how many words and
    ranges a query may have.
    """
    guard = Guard(hosts, Tokens(token, read_token, token_reads), changes, origins)
    return Application(store, guard, Limits(body_limit, answer_limit, clauses))


def asgi(
    store: Store, *, hosts: Iterable[str], token: Optional[str] = None, read_token: Optional[str] = None,
    token_reads: bool = False, changes: bool = True, origins: Iterable[str] = (), body_limit: int = 16 << 20,
    answer_limit: int = 16 << 20, clauses: int = 256, threads: int = 16, body_seconds: float = 60,
) -> Asgi:
    """An ASGI application of a store, for a server that has one process. Close it at the end.

    What it is given is as for `application`. It reads in `threads`, and a body has to arrive within `body_seconds`; how
    long a head may take, and a client that doesn't read, is the server's to say.
    """
    made = application(
        store, hosts=hosts, token=token, read_token=read_token, token_reads=token_reads, changes=changes,
        origins=origins, body_limit=body_limit, answer_limit=answer_limit, clauses=clauses,
    )
    return Asgi(made, threads, body_seconds)
