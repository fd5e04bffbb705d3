#!/usr/bin/env python3
"""Uses the crate `dilforec` from another repository.

    python3 tests/another_repository.py FOLDER    copies what another repository needs into a folder, with a program to begin with
    python3 tests/another_repository.py           does so in an empty repository, and runs the program unproved

The program is crates/example_index under another name. The last line of the second is 'N passed, M failed'.
"""
from __future__ import annotations

import pathlib
import re
import shutil
import subprocess
import sys
import tempfile

from counts import Counts

ROOT = pathlib.Path(__file__).resolve().parents[1]
DOOR, EXAMPLE, OWN = "dilforec", "example_index", "mine"


def lines() -> dict[str, str]:
    """The lines of crates.txt by the crate that each is of."""
    text = (ROOT / "crates.txt").read_text("utf-8")
    return {line.split()[0].rstrip(":"): line for line in text.splitlines() if re.match(r"\w+[^:]*:", line)}


def below(crate: str, of: dict[str, str]) -> list[str]:
    """A crate and those of this repository that it stands on, lowest first."""
    found: list[str] = []
    for name in of[crate].partition(":")[2].split():
        if name in of:
            found += [each for each in below(name, of) if each not in found]
    return [*found, crate]


def copy(folder: pathlib.Path) -> pathlib.Path:
    """Makes the repository, and returns the folder of its program."""
    of = lines()
    needed = below(DOOR, of)
    for name in needed:
        shutil.copytree(ROOT / "crates" / name, folder / "crates" / name, ignore=shutil.ignore_patterns("out", "must-fail"))
    own = folder / "crates" / OWN
    shutil.copytree(ROOT / "crates" / EXAMPLE, own, ignore=shutil.ignore_patterns("out"))
    for path in own.rglob("*"):
        if path.suffix in (".rt", ".antt"):
            path.write_text(path.read_text("utf-8").replace(f"Rattle.{EXAMPLE}.", f"Rattle.{OWN}."), "utf-8")
    (folder / "crates.txt").write_text("".join(f"{of[name]}\n" for name in needed) + re.sub(r"^\w+", OWN, of[EXAMPLE]) + "\n", "utf-8")
    shutil.copy(ROOT / "HANDLES", folder)
    return own


def main() -> int:
    if sys.argv[1:]:
        print(copy(pathlib.Path(sys.argv[1])))
        return 0
    counts = Counts("another repository")
    if not shutil.which("rt"):
        counts.skip("dilforec", "there is no kit")
        return counts.end()
    with tempfile.TemporaryDirectory() as name:
        folder = pathlib.Path(name)
        subprocess.run(["git", "init", "-q", folder], check=True)
        own = copy(folder)
        done = subprocess.run(["rt", "try", "--seconds", "300"], cwd=own, stdin=subprocess.DEVNULL, capture_output=True, text=True)
        wanted = (own / "stdout").read_text("utf-8")
        counts.check("a program over dilforec", done.returncode == 0 and done.stdout == wanted, done.stdout + done.stderr)
    return counts.end()


if __name__ == "__main__":
    sys.exit(main())
