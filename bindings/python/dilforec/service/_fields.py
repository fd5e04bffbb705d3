"""The fields of a store: those of its schema, and `id`."""
from __future__ import annotations

import json
import re
from typing import NamedTuple, Optional

from dilforec import sentences
from dilforec.index import Index
from dilforec.refusals import Refused
from dilforec.service._errors import BadSchema
from dilforec.service._lines import Key, schema_line
from dilforec.values import Field

_NUMBER = re.compile("0|-?[1-9][0-9]{0,19}")


class Fields(NamedTuple):
    """The fields that a store was opened with, and the one of them that is the key, if there is one."""

    given: "list[Field]"
    key: Optional[Field]

    @property
    def all(self) -> "list[Field]":
        """The fields of the index."""
        return [*self.given, Field("id", "u64")]

    @property
    def line(self) -> bytes:
        """The first line of the journal."""
        return schema_line(self.all)

    def is_line(self, line: bytes) -> bool:
        """Whether a line says the same, however it is written."""
        try:
            return [Field(**field) for field in json.loads(line)["schema"]] == self.all
        except (ValueError, TypeError, KeyError):
            return False

    def new_index(self) -> Index:
        """A new index. BadSchema is raised if it refuses the schema."""
        try:
            return Index(*self.all)
        except Refused as error:
            raise BadSchema(f"the schema is refused: {error}") from error

    def key_of(self, text: str) -> Key:
        """The key that a text means. ValueError is raised if it is none, or there are none."""
        if self.key is None:
            raise ValueError("the store has no key")
        if self.key.kind == "keyword":
            return text
        if not _NUMBER.fullmatch(text) or not sentences.is_of(self.key.kind, int(text)):
            raise ValueError(f"{text!r} is no {self.key.kind} number, as {self.key.name!r} has")
        return int(text)

    def changed(self, given: "list[Field]", drop: "frozenset[str]") -> Fields:
        """Those of a store whose schema changes. BadSchema is raised if it would lose a field that isn't dropped."""
        kinds = {field.name: field.kind for field in given}
        unknown = sorted(drop - {field.name for field in self.given})
        if unknown:
            raise BadSchema(f"there is no field {unknown[0]!r} to drop")
        if self.key is not None and self.key.name in drop:
            raise BadSchema(f"{self.key.name!r} can't be dropped, since it is the store's key")
        for field in self.given:
            if field.name in drop:
                continue
            if field.name not in kinds:
                raise BadSchema(f"{field.name!r} isn't in the schema any more: it has to be named as dropped")
            if kinds[field.name] != field.kind:
                raise BadSchema(f"{field.name!r} is a {field.kind} field, and can't become a {kinds[field.name]} field")
        return store_fields(given, None if self.key is None else self.key.name)


def store_fields(given: "list[Field]", key: Optional[str]) -> Fields:
    """The fields of a store. BadSchema is raised if they can't be, or if the key isn't one of them."""
    if any(field.name == "id" for field in given):
        raise BadSchema("the schema has a field `id`, which is the store's own")
    if len(given) >= 32:
        raise BadSchema(f"the schema has {len(given)} fields: 31 at most, since the store adds `id`")
    if key is None:
        return Fields(given, None)
    field = next((field for field in given if field.name == key), None)
    if field is None or field.kind == "text":
        raise BadSchema(f"the key {key!r} is no keyword or number field of the schema")
    return Fields(given, field)
