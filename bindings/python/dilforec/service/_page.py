"""The page, and the policy under which a browser runs its own script and style, and no others."""
from __future__ import annotations

import base64
import hashlib
import pathlib
import re

PAGE = pathlib.Path(__file__).with_name("_page.html").read_bytes()


def _source(element: str) -> str:
    found = re.search(f"<{element}>(.*?)</{element}>".encode(), PAGE, re.DOTALL)
    assert found is not None
    return f"'sha256-{base64.b64encode(hashlib.sha256(found[1]).digest()).decode()}'"


POLICY = "; ".join([
    "default-src 'none'", f"script-src {_source('script')}", f"style-src {_source('style')}", "connect-src 'self'",
    "img-src data:", "base-uri 'none'", "form-action 'none'", "frame-ancestors 'none'",
])
