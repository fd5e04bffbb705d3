"""A few books, for a first look."""
from __future__ import annotations

import json
import pathlib
from typing import Any

from dilforec.values import keyword, text, u64

SCHEMA = [
    text("title", default=True), text("author", default=True), text("about", default=True), keyword("shelf"),
    keyword("language"), u64("year"), u64("pages"),
]


def documents() -> "list[dict[str, Any]]":
    """The books, of which the file beside this one has one on each line."""
    lines = pathlib.Path(__file__).with_name("_example.jsonl").read_text("utf-8").splitlines()
    return [json.loads(line) for line in lines]
