"""What the test of an installation is made of: checks that are counted, commands, and where things are."""
from __future__ import annotations

import gzip
import os
import pathlib
import subprocess
import sys
from pathlib import Path
from typing import Any

ROOT = pathlib.Path(__file__).resolve().parents[1]
sys.path.append(str(ROOT / "tests"))

from counts import Counts  # noqa: E402

VERSION = (ROOT / "VERSION").read_text(encoding="utf-8").strip()

Done = subprocess.CompletedProcess[str]

# Nothing of the caller's own Python, and no network.
PLAIN = {name: value for name, value in os.environ.items() if not name.startswith(("PYTHON", "PIP_", "VIRTUAL_ENV"))}
PLAIN |= {
    "PIP_NO_INDEX": "1", "PIP_NO_CACHE_DIR": "1", "PIP_DISABLE_PIP_VERSION_CHECK": "1", "PYTHONDONTWRITEBYTECODE": "1",
    "http_proxy": "http://127.0.0.1:9", "https_proxy": "http://127.0.0.1:9",
}

counts = Counts("install")
check, skip, attempt, finish = counts.check, counts.skip, counts.attempt, counts.end


def run(*words: str | Path, **settings: Any) -> Done:
    """What a command did: its status, standard output and standard error as text."""
    given: dict[str, Any] = {"capture_output": True, "text": True, "timeout": 300, "env": PLAIN, **settings}
    done: Done = subprocess.run(words, **given)
    return done


def said(done: Done) -> str:
    """All that a command printed."""
    return done.stdout + done.stderr


def is_in_page(text: str) -> bool:
    """Whether a program printed what docs/EMBEDDING.md says that it prints."""
    wanted = "".join(f"    {line}\n" for line in text.splitlines())
    return bool(text) and wanted in (ROOT / "docs/EMBEDDING.md").read_text(encoding="utf-8")


class Place:
    """Where things are, installed below an empty folder."""

    def __init__(self, root: Path, prefix: str, libraries: str, zsh: str) -> None:
        self.root = root
        self.prefix = root / prefix
        self.libraries = self.prefix / libraries
        self.program = self.prefix / "bin/fts"
        self.pages = self.prefix / "share/doc/dilforec"
        self.header = self.prefix / "include/dilforec.h"
        self.bash = self.prefix / "share/bash-completion/completions/fts"
        self.zsh = self.prefix / zsh / "_fts"

    def manual(self, name: str) -> str:
        """The text of a manual page."""
        found = next((self.prefix / "share/man").glob(f"*/{name}*"))
        return (gzip.decompress(found.read_bytes()) if found.suffix == ".gz" else found.read_bytes()).decode()

    def fts(self, *words: str, **settings: Any) -> Done:
        """Runs the program."""
        return run(self.program, *words, **settings)

    def shell(self, script: str, **settings: Any) -> Done:
        """Runs a script of the shell that finds `fts` here."""
        path = f"{self.program.parent}:{os.environ['PATH']}"
        return run("sh", "-c", script, env={**PLAIN, "PATH": path}, **settings)
