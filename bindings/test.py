#!/usr/bin/env python3
"""Tests the library from C, Python and, where cargo or rustc is there, Rust.

    python3 bindings/test.py

Build the library first, by `make`. Each worked script through each language has to give the replies
that are stored beside it, also where each growth is refused in turn and the call made again; the rest is in the tests.
What isn't there is skipped, and told: cargo and rustc, a compiler of C++, mypy. The last line is 'N passed, M
failed'.
"""
from __future__ import annotations

import os
import pathlib
import re
import shutil
import subprocess
import sys
import tempfile
from pathlib import Path
from typing import Any

HERE = pathlib.Path(__file__).resolve().parent
OUT = HERE / "out"
EXAMPLES = HERE.parent / "examples"
SCRIPTS = [path for path in sorted(EXAMPLES.glob("*.jsonl")) if not path.name.endswith(".replies.jsonl")]
CC = os.environ.get("CC", "cc")
UVICORN = pathlib.Path("/usr/lib/python3/dist-packages/uvicorn")
COUNTS = r"(\d+) passed, (\d+) failed"
STRICTLY = ["-pedantic", "-Wall", "-Wextra", "-Werror"]
# How long one command or file of tests may take.
SECONDS = 900

sys.path[:0] = [str(HERE / "python"), str(HERE.parent / "tests")]

import link  # noqa: E402
import processes  # noqa: E402
from counts import Counts  # noqa: E402

counts = Counts("bindings")
count = counts.add


def skipped(name: str, what: str) -> None:
    counts.skip(name, f"{what} isn't there")


def run(*words: str | Path, **settings: Any) -> subprocess.CompletedProcess[Any]:
    return processes.completed(*words, seconds=SECONDS, **settings)


def step(name: str, *words: str | Path, counts: str | None = None, **settings: Any) -> bool:
    """Counts what a pattern finds in a command's words, how many passed and failed; without one, the command itself.

    How many growths were refused is told beside it, if the command says it.
    """
    done = run(*words, text=True, **settings)
    said = done.stdout + done.stderr
    told = [(int(good), int(bad)) for good, bad in re.findall(counts, said)] if counts else [(1, 0)]
    good, bad = sum(it[0] for it in told), sum(it[1] for it in told)
    refusals = sum(int(number) for number in re.findall(r"(\d+) refusals", said))
    name += f" ({refusals} refusals)" if refusals else ""
    count(name, good, bad if done.returncode == 0 and good else max(bad, 1), said)
    return done.returncode == 0


def compiled(name: str, *more: str | Path) -> Path:
    """The path of a test in C, with the library and the refusals of bindings/refuse.c in it."""
    made = OUT / name
    done = run(CC, "-std=c11", "-O1", *STRICTLY, "-I", HERE / "c", "-o", made, HERE / f"c/tests/{name}.c",
               *more, link.ARCHIVE, "-pthread", "-ldl", text=True)
    if done.returncode != 0 or done.stderr:
        count(f"C, {name} compiled without a warning", 0, 1, done.stderr)
    return made


def in_c() -> None:
    names()
    refuse = OUT / "refuse.o"
    step("C, the refusals", CC, "-c", "-O1", "-o", refuse, HERE / "refuse.c")
    header = HERE / "c/dilforec.h"
    step("C, the header alone", CC, "-std=c99", *STRICTLY, "-fsyntax-only", "-include", header, "-x", "c", "/dev/null")
    step("C, handles", compiled("handles"), counts=COUNTS)
    step("C, blocks, pairs, chosen fields, groups and merges, each growth refused", compiled("calls", refuse), counts=COUNTS)
    step("C, closing frees", compiled("closes", "-Wl,--wrap=malloc,--wrap=realloc,--wrap=free"), counts=COUNTS)
    step("C, the deepest lines in a stack of 512 KiB", compiled("stack"), counts=COUNTS)
    step("C, eight threads", compiled("threads"))
    lines = compiled("lines", refuse)
    worked("C, worked scripts", lines)
    worked("C, worked scripts, each growth refused", lines, "refuse")
    beside()


def names() -> None:
    """Others see the functions of the header alone, in the archive and in the shared object."""
    wanted = set(re.findall(r"\b(dilforec_\w+)\(", (HERE / "c/dilforec.h").read_text()))
    for where, library in ("-g", link.ARCHIVE), ("-D", OUT / link.SONAME):
        told = run("nm", where, "--defined-only", library, text=True).stdout
        found = {line.split()[2] for line in told.splitlines() if len(line.split()) == 3}
        count(f"C, the names of {library.name}", int(found == wanted), int(found != wanted), found ^ wanted)
    told = run("readelf", "-d", OUT / link.SONAME, text=True).stdout
    count("C, the soname", int(f"[{link.SONAME}]" in told), int(f"[{link.SONAME}]" not in told), told)


def beside() -> None:
    """A program that walks folders by glibc's fts(3), and its headers beside ours."""
    walks = HERE / "c/tests/walk.c", HERE / "c/tests/beside.c"
    strictly: list[str | Path] = [*STRICTLY, "-D_DEFAULT_SOURCE", "-I", HERE / "c"]
    step("C, both headers as C99", CC, "-std=c99", *strictly, "-fsyntax-only", *walks)
    if shutil.which("c++"):
        step("C, both headers as C++17", "c++", "-std=c++17", *strictly, "-fsyntax-only", "-x", "c++", *walks)
    else:
        skipped("C, both headers as C++17", "c++")
    with tempfile.TemporaryDirectory() as folder:
        files = pathlib.Path(folder, "files")
        files.mkdir()
        for number in range(7):
            (files / str(number)).touch()
        library = f"{folder}/libwalk.so"
        if not step("C, a library over fts(3)", CC, *strictly, "-shared", "-fPIC", "-o", library, walks[0]):
            return
        forms: dict[str, list[str | Path]] = {
            "archive": [link.ARCHIVE], "shared object": [OUT / link.SONAME, f"-Wl,-rpath,{OUT}"],
        }
        for name, ours in forms.items():
            # Both orders of linking, and the neighbour as a shared object.
            for place, given in enumerate(([library, *ours], [*ours, library])):
                made = f"{folder}/beside"
                step(f"C, the {name} linked beside fts(3)", CC, "-std=c99", *strictly, "-o", made, walks[1], *given,
                     f"-Wl,-rpath,{folder}")
                step(f"C, the {name} beside fts(3), {'after' if place == 0 else 'before'} it", made, files, "7")


def worked(name: str, *words: str | Path) -> None:
    """Counts the scripts that give their stored replies. A number on standard error is how often a call was refused."""
    told = [(path, run(*words, stdin=path.open())) for path in SCRIPTS]
    wrong = [path.name for path, done in told
             if done.returncode or done.stdout != path.with_suffix(".replies.jsonl").read_bytes()]
    count(name, len(told) - len(wrong), len(wrong), wrong)
    if len(words) > 1 and not wrong:
        refusals = sum(int(done.stderr) for _, done in told)
        count(f"{name}: {refusals} refusals", int(refusals > 0), int(refusals == 0))


def in_python() -> None:
    environment = {**os.environ, "PYTHONPATH": str(HERE / "python"), "PYTHONDONTWRITEBYTECODE": "1"}
    refuse = OUT / "refuse.so"
    if not step("Python, the refusals", CC, "-shared", "-fPIC", "-O1", "-o", refuse, HERE / "refuse.c", "-ldl"):
        return
    for path in sorted((HERE / "python/tests").glob("test_*.py")):
        if path.stem.startswith(("test_service", "test_cluster", "test_connections")):
            continue  # tests/service.py and tests/cluster.py run these.
        more = {"LD_PRELOAD": str(refuse)} if path.stem == "test_memory" else {}
        done = processes.run_tests(sys.executable, path, env={**environment, **more}, seconds=SECONDS)
        refusals = re.search(r"\d+ refusals", done.said)
        name = f"Python, {path.name}" + (f" ({refusals[0]})" if refusals else "")
        count(name, done.passed, done.failed, done.said)
        if done.skipped:
            counts.skip(name, "the machine lacks what they need", done.skipped)
    mypy = shutil.which("mypy") or shutil.which("mypy", path="/usr/bin")
    if mypy:
        with tempfile.TemporaryDirectory() as folder:
            # Debian's uvicorn has types, and doesn't say so.
            if UVICORN.is_dir():
                os.symlink(UVICORN, f"{folder}/uvicorn")
            # The configuration there names all the Python of the repository.
            step("Python, mypy --strict", mypy, "--strict", "--cache-dir", OUT / "mypy", cwd=HERE / "python",
                 env={**os.environ, "MYPYPATH": folder})
    else:
        skipped("Python, mypy --strict", "mypy")


def in_rust() -> None:
    rust, refuse = HERE / "rust", OUT / "refuse.so"
    results = r"test result: \w+. (\d+) passed; (\d+) failed"
    if shutil.which("cargo"):
        cargo: list[str | Path] = ["cargo", "test", "--offline", "--target-dir", OUT / "target"]
        step("Rust", *cargo, cwd=rust, counts=results)
        step("Rust, each growth refused", *cargo, "--test", "growths", "--", "--nocapture", cwd=rust, counts=results,
             env={**os.environ, "LD_PRELOAD": str(refuse)})
        with tempfile.TemporaryDirectory() as folder:
            named = shutil.copy(link.ARCHIVE, pathlib.Path(folder, "another_name.a"))
            step("Rust, an archive of another name", *cargo, "--test", "index", "--no-run", cwd=rust,
                 env={**os.environ, "DILFOREC_ARCHIVE": str(named)})
    elif shutil.which("rustc"):
        made = OUT / "libdilforec.rlib"
        environment = {**os.environ, "CARGO_MANIFEST_DIR": str(rust), "CARGO_PKG_VERSION": "0"}
        done = run("rustc", "--edition=2021", "--crate-type=rlib", "--crate-name=dilforec", rust / "src/lib.rs",
                   f"-Lnative={OUT}", "-lstatic=dilforec", "-o", made, text=True, env=environment)
        done = done.returncode and done or run(
            "rustc", "--edition=2021", "--test", rust / "tests/index.rs", f"--extern=dilforec={made}",
            f"-Lnative={OUT}", "-o", OUT / "index", env=environment, text=True)
        if done.returncode:
            count("Rust, compiled by rustc", 0, 1, done.stderr)
        else:
            step("Rust", OUT / "index", counts=results)
    else:
        skipped("Rust", "neither cargo nor rustc")


def main() -> int:
    OUT.mkdir(exist_ok=True)
    try:
        link.link()
        in_c()
        in_python()
        in_rust()
    except (link.NotBuilt, OSError, subprocess.SubprocessError) as error:
        count("the library", 0, 1, error)
    return counts.end()


if __name__ == "__main__":
    sys.exit(main())
