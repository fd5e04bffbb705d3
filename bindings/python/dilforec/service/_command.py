"""The command dilforec: serve, compact and load."""
from __future__ import annotations

import argparse
import logging
import re
import sys
from collections.abc import Sequence
from typing import Any, Optional

from dilforec.service import _schema as schema
from dilforec.service._errors import BadJournal, BadSchema, Locked, Unavailable
from dilforec.service._load import load
from dilforec.service._refusal import Refusal
from dilforec.service._serve import serve
from dilforec.service._store import Store

_KEY = "a keyword or number field by whose values documents are known, each value once"
_ORIGIN = re.compile(r"https?://[^/\s,;*@?#]+", re.IGNORECASE)


def parser() -> argparse.ArgumentParser:
    """The command's arguments."""
    made = argparse.ArgumentParser(prog="dilforec", description="A full-text index that survives, over HTTP.")
    commands = made.add_subparsers(dest="command", required=True)
    serving = commands.add_parser("serve", help="serve an index over HTTP", description="Serves an index over HTTP.")
    _add_serving(serving)
    compacting = commands.add_parser("compact", help="write a journal anew, with its live documents alone",
                                     description="Writes a journal anew, with its live documents alone.")
    _add_compacting(compacting)
    loading = commands.add_parser("load", help="put files of documents into a journal",
                                  description="Puts files of documents into a journal, while no service has it open.")
    _add_loading(loading)
    for each in serving, compacting, loading:
        each.add_argument("--log", metavar="LEVEL", default="info", choices=["debug", "info", "warning", "error"],
                          help="debug, info (default), warning or error")
    return made


def _add_compacting(compact: argparse.ArgumentParser) -> None:
    compact.add_argument("--journal", metavar="FILE", required=True)
    compact.add_argument("--schema", metavar="FILE", help="the fields from now on, as a JSON list")
    compact.add_argument("--drop", metavar="FIELD", action="append", default=[],
                         help="a field that isn't in the schema any more; again for more")


def _add_loading(load: argparse.ArgumentParser) -> None:
    load.add_argument("files", metavar="FILE", nargs="+", help="a JSON text on each line; CSV if it ends with .csv")
    load.add_argument("--journal", metavar="FILE", required=True,
                      help="where the documents are kept; made if it isn't there")
    load.add_argument("--schema", metavar="FILE", help="the fields, as a JSON list; without it those of the journal")
    load.add_argument("--key", metavar="FIELD", help=_KEY)


def _add_serving(serve: argparse.ArgumentParser) -> None:
    kept = serve.add_mutually_exclusive_group(required=True)
    kept.add_argument("--schema", metavar="FILE", help="the fields, as a JSON list; `id` is added")
    kept.add_argument("--example", action="store_true", help="serve a few books, in a journal that is new")
    serve.add_argument("--journal", metavar="FILE", help="where the documents are kept; made if it isn't there")
    serve.add_argument("--key", metavar="FIELD", help=_KEY)
    serve.add_argument("--listen", metavar="HOST:PORT", type=_address, default=("127.0.0.1", 8090),
                       help="where to listen (127.0.0.1:8090), or unix:PATH")
    serve.add_argument("--host", metavar="NAME[:PORT]", action="append", default=[],
                       help="another name that clients may use for it, as behind a proxy; again for more")
    serve.add_argument("--token-file", metavar="FILE", help="a token of 16 letters or more, for what changes something")
    serve.add_argument("--read-token-file", metavar="FILE",
                       help="another token, for what only reads; reads need one of the two then")
    serve.add_argument("--token-reads", action="store_true", help="the token is needed for what reads too")
    serve.add_argument("--allow-origin", metavar="ORIGIN", type=_origin, action="append", default=[],
                       help="a site whose pages may search, as https://www.example.org; again for more")
    for name, default, unit, words in [
        ("threads", 16, "N", "searches at a time"),
        ("connections", 4000, "N", "open connections"),
        ("idle", 60, "SECONDS", "a connection that is silent, or doesn't read, so long is closed"),
        ("head-seconds", 15, "SECONDS", "how long the head of a request may take to arrive"),
        ("body-seconds", 60, "SECONDS", "how long the body of a request may take to arrive"),
        ("grace", 30, "SECONDS", "how long answers in progress may take at the end"),
        ("body", 16 << 20, "BYTES", "the longest body of a request"),
        ("answer", 16 << 20, "BYTES", "the longest answer to a search"),
        ("clauses", 256, "N", "the most words and ranges of a query"),
    ]:
        serve.add_argument(f"--{name}", metavar=unit, type=_at_least(1), default=default, help=f"{words} ({default})")


def _address(text: str) -> "tuple[str, Optional[int]]":
    """A host and a port, or the path of a local socket and None."""
    if text.startswith("unix:") and text != "unix:":
        return text[len("unix:"):], None
    host, colon, port = text.rpartition(":")
    if not colon or not port.isdigit() or int(port) > 65535:
        raise argparse.ArgumentTypeError(f"{text!r} isn't HOST:PORT, nor unix:PATH")
    return host.strip("[]") or "127.0.0.1", int(port)


def _origin(text: str) -> str:
    if not _ORIGIN.fullmatch(text):
        raise argparse.ArgumentTypeError(f"{text!r} isn't an origin, as https://www.example.org")
    return text


def _at_least(least: int) -> Any:
    def number(text: str) -> int:
        if not text.isdigit() or int(text) < least:
            raise argparse.ArgumentTypeError(f"{text!r} isn't a number from {least} on")
        return int(text)
    return number


def main(arguments: Optional[Sequence[str]] = None) -> int:
    """Runs the command, and returns its status.

    It is 0, 2 if it can't begin, or go on by what it was given, 3 if memory ran out, 4 if a file failed, 130 if it was
    interrupted.
    """
    given = parser().parse_args(arguments)
    logging.basicConfig(format="%(asctime)s %(levelname)s %(message)s", level=given.log.upper())
    try:
        return _COMMANDS[given.command](given)
    except (Refusal, BadSchema, BadJournal, Locked) as error:
        return _said(error, 2)
    except MemoryError:
        return _said("there is no memory for the index", 3)
    except KeyboardInterrupt:
        return _said("it was interrupted", 130)
    except (OSError, Unavailable) as error:
        return _said(error, 4)


def _said(error: object, status: int) -> int:
    print(f"dilforec: {error}", file=sys.stderr)
    return status


def _compact(given: argparse.Namespace) -> int:
    if given.drop and not given.schema:
        raise Refusal("--drop needs --schema, the fields that are left")
    wanted = schema.of_file(given.schema) if given.schema else None
    with Store(schema.of_journal(given.journal), given.journal, progress=schema.Progress()) as store:
        before, after = store.compact(schema=wanted, drop=given.drop)
        print(f"{len(store):,} documents; the journal had {before:,} bytes, and has {after:,}")
    return 0


_COMMANDS = {"serve": serve, "compact": _compact, "load": load}
