#!/usr/bin/env python3
"""Fills the manual page of the library from its header, where each function's comment is before it.

    packaging/manual.py bindings/c/dilforec.h packaging/dilforec.3.in

The page goes to standard output: @SYNOPSIS@ becomes the declarations, @DESCRIPTION@ the header's first comment, and
@FUNCTIONS@ each declared function with what its comment says.
"""
from __future__ import annotations

import pathlib
import re
import sys

# A comment that begins a line, and the declaration of a function right after it.
DECLARED = re.compile(r"^/\*(?P<says>(?:[^*]|\*(?!/))*)\*/\n(?P<is>(?!static|typedef)\w[^;{]*\bdilforec_\w+\([^;{]*\);)", re.M)


def plain(comment: str) -> list[str]:
    """The paragraphs of a comment, each on one line."""
    lines = [re.sub(r"^\s*\*? ?", "", line).rstrip() for line in comment.strip().splitlines()]
    return [" ".join(part.split()) for part in "\n".join(lines).split("\n\n") if part.strip()]


def roff(text: str) -> str:
    """A line that troff prints as it is."""
    text = text.replace("\\", "\\e").replace("-", "\\-")
    return "\\&" + text if text.startswith((".", "'")) else text


def page(header: str, template: str) -> str:
    """The manual page."""
    declared = [(it["is"], plain(it["says"])) for it in DECLARED.finditer(header)]
    first = plain(header[header.index("/*") + 2:header.index("*/")])
    functions = []
    for declaration, says in declared:
        functions += [".TP", f".B {roff(' '.join(declaration.split()))}", roff(" ".join(says))]
    filled = {
        "@SYNOPSIS@": "\n".join(roff(line) for declaration, _ in declared for line in declaration.splitlines()),
        "@DESCRIPTION@": "\n.PP\n".join(roff(part) for part in first),
        "@FUNCTIONS@": "\n".join(functions),
    }
    for mark, text in filled.items():
        template = template.replace(mark, text)
    return template


if __name__ == "__main__":
    header, template = (pathlib.Path(name).read_text(encoding="utf-8") for name in sys.argv[1:])
    print(page(header, template), end="")
