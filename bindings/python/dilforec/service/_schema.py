"""What the commands have in common: a schema that is read from a file, and lines about a long replay."""
from __future__ import annotations

import json
import logging
import pathlib
import time
from typing import Any

from dilforec.service._journal import journal_schema
from dilforec.service._refusal import Refusal
from dilforec.values import Field

log = logging.getLogger("dilforec.service")


def of_file(path: str) -> "list[Field]":
    """The fields of a schema's file."""
    try:
        return _fields(json.loads(pathlib.Path(path).read_bytes()), path)
    except ValueError as error:
        raise Refusal(f"{path} isn't JSON: {error}") from None
    except OSError as error:
        raise Refusal(f"{path} can't be read: {error.strerror}") from None


def of_journal(path: str) -> "list[Field]":
    """The fields of a journal that is there, without the store's own."""
    try:
        line = journal_schema(path)
    except FileNotFoundError:
        raise Refusal(f"{path} isn't there") from None
    fields = _fields(json.loads(line) if line and line.startswith(b"{") else None, path)
    return [field for field in fields if field.name != "id"]


def _fields(value: Any, path: str) -> "list[Field]":
    """The fields of a schema: a list, or a script's line."""
    if isinstance(value, dict):
        value = value.get("schema")
    try:
        return [Field(**field) for field in value]
    except (TypeError, ValueError) as error:
        raise Refusal(f"{path} isn't a schema, a list of fields with name, kind and default: {error}") from None


class Progress:
    """A line a second about a long replay."""

    def __init__(self) -> None:
        self._next = time.monotonic() + 1

    def __call__(self, done: int, of: int, documents: int) -> None:
        if time.monotonic() >= self._next:
            self._next = time.monotonic() + 1
            log.info("%d documents from %d of %d MB, %d %%", documents, done >> 20, of >> 20, 100 * done // of)
