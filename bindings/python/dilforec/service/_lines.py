"""The lines of a journal, and the operations of a transaction that become lines.

A journal is a script. Its first line is the schema, and then come transactions: adds, deletes, and a commit. An add has
the document's number as its first member. One more line may be before a commit, a search, which changes nothing: the
two numbers in its query are the highest that was ever given to a document, and the number of this commit.
"""
from __future__ import annotations

import json
import re
from collections.abc import Mapping
from typing import Any, NamedTuple, Optional, Union

from dilforec.index import encoder
from dilforec.refusals import refused
from dilforec.values import Field, as_json

COMMIT = b'{"commit":true}\n'
ADD = re.compile(rb'\{"add":\{"id":([0-9]{1,20})[,}]')
ADDS = re.compile(b"\n" + ADD.pattern)
MARK = re.compile(rb'\{"search":\{"query":"id:([0-9]{1,20}) id:([0-9]{1,20})"\}\}\Z')
OTHERS = b'{"delete":{', b'{"delete_all":true}', COMMIT[:-1]

# A document within the limits of the index is within those of its line, since no letter is written as six.
_encode = encoder(allow_nan=False)

# What a document is known by in a store that has a key: the value of a keyword or number field.
Key = Union[str, int]


class Operation(NamedTuple):
    """An add, whose text is the document's, or a delete, whose text is the line's.

    `id` is the number of the document that an add replaces or a delete names, `key` the key of the document that is
    added or deleted. If it `needs` that document, it has to be there, and have the version, unless this is None.
    """

    text: bytes
    is_add: bool
    id: Optional[int] = None
    key: Optional[Key] = None
    needs: bool = False
    version: Optional[str] = None

    @property
    def named(self) -> Key:
        """The number or the key that it names, for a sentence."""
        return self.id if self.id is not None else self.key if self.key is not None else ""


def encode(value: object) -> bytes:
    """JSON on one line. BadJson is raised if the value has no JSON, or a text that isn't Unicode."""
    try:
        return _encode(value).encode()
    except (ValueError, TypeError, RecursionError) as error:
        raise refused("BadJson") from error


def schema_line(fields: "list[Field]") -> bytes:
    """The first line."""
    return encode({"schema": [as_json(field) for field in fields]}) + b"\n"


def mark(last_id: int, commit: int) -> bytes:
    """The line that keeps the highest number ever given, and the number of the commit after it."""
    return b'{"search":{"query":"id:%d id:%d"}}\n' % (last_id, commit)


def document_text(document: Mapping[str, Any], id: Optional[int] = None) -> bytes:
    """The JSON of a document without its number. ValueError is raised if it has one that isn't `id`."""
    if not isinstance(document, Mapping):
        raise refused("NotAnObject")
    if "id" in document:
        if document["id"] is not id and (document["id"] != id or isinstance(document["id"], bool)):
            raise ValueError("`id` is given by the store, and can't be chosen")
        document = {name: value for name, value in document.items() if name != "id"}
    return encode(document if isinstance(document, dict) else dict(document))


def delete_line(field: str, value: Union[str, int]) -> bytes:
    """The line of a delete by a field's value, without its LF."""
    return encode({"delete": {field: value}})


def add_line(text: bytes, id: int) -> bytes:
    """The line that adds a document, with its LF."""
    rest = text[1:]
    return b'{"add":{"id":%d%s%s}\n' % (id, b"" if rest == b"}" else b",", rest)


def _number(text: str) -> Union[int, float]:
    # Python's -0 is 0, and the index refuses it as it does -0.0.
    return -0.0 if text == "-0" else int(text)


def _refuse_constant(name: str) -> None:
    raise ValueError(f"{name} isn't JSON")


_decode = json.JSONDecoder(parse_int=_number, parse_constant=_refuse_constant).decode


def read_json(text: str) -> Any:
    """What a text of JSON says, as a script reads it: `-0` isn't the whole number 0. ValueError if it isn't JSON."""
    return _decode(text)
