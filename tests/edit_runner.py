#!/usr/bin/env python3
"""Tries the runner of the edits, `.ci/edits.py`, on a repository of one small crate.

    python3 tests/edit_runner.py

Three edits are refused as their rows say: two that are tried together, and one that is first tried beside an edit that
can't be parsed. Each other one must count as failed, for its own reason: it changes nothing, it can't be parsed, it
brings a function without a contract, another goal or another function refuses it, or it has no row. Then the crate
itself is made wrong, so that its control fails. All this takes about a minute of a processor. The last line is
'N passed, M failed'.
"""
import pathlib
import shutil
import subprocess
import sys
import tempfile

from counts import Counts

ROOT = pathlib.Path(__file__).resolve().parents[1]

SOURCE = """\
#![tactic(auto)]
ghost use Rattle.std.specs.Prelude.{◌≡◌, ◌+◌, ◌≤◌, ◌<◌};

/// The number after this one.
pub fn next(n: u8) -> u8
    requires { n < 100 }
    ensures { result ≡ n + 1 }
{
    n + 1
}

/// The number after the next.
pub fn second(n: u8) -> u8
    requires { n < 99 }
    ensures least { n + 2 ≤ result }
    ensures most { result ≤ n + 2 }
{
    next(next(n))
}
"""

NEXT, SECOND = "    n + 1", "    next(next(n))"

# Of each edit the line that it changes, what stands there then, its row, and how what the runner says of it begins.
EDITS = {
    "adds-one": (SECOND, "    next(n)", "second: returns-clause-least", "is refused by second: returns-clause-least"),
    "gives-the-number": (NEXT, "    n", "next: returns", "is refused by next: returns"),
    "gives-zero": (SECOND, "    0", "second: returns-clause-least", "is refused by second: returns-clause-least"),
    "changes-nothing": (NEXT, "    1 + n", "next: returns", "isn't refused"),
    "cannot-be-parsed": (NEXT, "    n +", "next: returns", "is bad"),
    "stands-nowhere": ("    n + 2", "    n", "next: returns", "is bad"),
    "without-contract": (SECOND, "    fn same(n: u8) -> u8 { n } same(n)", "second: returns-clause-least", "is bad"),
    "by-another-goal": (SECOND, "    next(n)", "second: returns-clause-most", "is refused by second: returns-clause-"),
    "by-another-function": (NEXT, "    n + 2", "second: returns-clause-most", "is refused by "),
    "without-row": (NEXT, "    n", None, "isn't tried"),
}
GOOD = {"adds-one", "gives-the-number", "gives-zero"}


def repository(top: pathlib.Path, source: str) -> None:
    """Writes a repository whose one crate has this source, with the runner and the edits."""
    (top / ".git").mkdir()
    (top / "crates.txt").write_text("small:\n", encoding="utf-8")
    (top / "crates/small/src").mkdir(parents=True)
    (top / "crates/small/src/lib.rt").write_text(source, encoding="utf-8")
    folder = top / ".ci/edits/small"
    folder.mkdir(parents=True)
    for name in ("edits.py", "kit.py"):
        shutil.copy(ROOT / ".ci" / name, top / ".ci")
    rows = []
    for name, (old, new, row, _) in EDITS.items():
        (folder / f"{name}.edit").write_text(f"file: src/lib.rt\nold: {old}\nnew: {new}\n", encoding="utf-8")
        rows += [f"small/{name} {row}"] if row else []
    table = ["# The rows.", "", *rows, "small/gone next: returns", ""]
    (top / ".ci/edits.txt").write_text("\n".join(table), encoding="utf-8")


def said(source: str) -> tuple[str, int]:
    """What the runner says of such a repository, and its status."""
    with tempfile.TemporaryDirectory() as name:
        top = pathlib.Path(name)
        repository(top, source)
        done = subprocess.run([sys.executable, top / ".ci/edits.py", "small"], capture_output=True, text=True)
        return done.stdout + done.stderr, done.returncode


def main() -> int:
    counts = Counts("edits")

    def check(name: str, text: str, wanted: str) -> None:
        counts.check(name, wanted in text, f"no {wanted!r} in\n{text}")

    text, status = said(SOURCE)
    for name, (*_, wanted) in EDITS.items():
        check(name, text, f"edits: small/{name} {wanted}")
    check("a row alone", text, "edits: small/gone has a row")
    check("the control", text, "edits: small: without an edit next, second: proved")
    check("a group", text, "edits: 2 of small are tried together")
    # The control and the good edits; all others, and the row.
    check("the last line", text, f"\n{1 + len(GOOD)} passed, {len(EDITS) - len(GOOD) + 1} failed\n")
    check("the status", str(status), "1")

    text, status = said(SOURCE.replace(NEXT, "    n"))
    check("a wrong crate", text, "edits: small: without an edit small::next isn't proved")
    for name in sorted(GOOD):
        check("an edit of it", text, f"edits: small/{name} isn't tried")
    return counts.end()


if __name__ == "__main__":
    sys.exit(main())
