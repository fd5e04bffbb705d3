"""Versions of documents, which tell whether one is still what somebody has read."""
from __future__ import annotations

import hashlib
from collections.abc import Mapping
from typing import Any

from dilforec.service._lines import encode

# Whatever version a document has.
ANY = "*"


def version_of(document: Mapping[str, Any]) -> str:
    """The version of a document that a store has given, whole, with its `id`: 32 hexadecimal digits.

    It is a digest of the document, so it is the same after a restart, a compaction and in a copy, and changes whenever
    the document does. The number of the commit wouldn't: a compaction forgets which commit wrote a document.
    """
    text = encode({name: document[name] for name in sorted(document)})
    return hashlib.blake2b(text, digest_size=16).hexdigest()
