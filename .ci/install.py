#!/usr/bin/env python3
"""Installs what was built into an empty folder, and uses it from there as a user would.

    .ci/install.py          what `make install` installs, and a wheel; after `make`, or after the gate's other parts
    .ci/install.py --deb    what `make deb` packs, unpacked side by side

What the machine lacks, as cmake or a second Python, is skipped and counted. The last line is 'N passed, M failed'.
"""
from __future__ import annotations

import os
import pathlib
import re
import shutil
import sys
import tempfile
from pathlib import Path

import uses
from trials import ROOT, VERSION, Done, Place, attempt, check, finish, run, said, skip

# Below the prefix.
EXPECTED = [
    "bin/fts", "lib/libdilforec.so.0", "lib/libdilforec.so", "lib/libdilforec.a", "include/dilforec.h",
    "lib/pkgconfig/dilforec.pc", "lib/cmake/dilforec/dilforec-config.cmake", "share/man/man1/fts.1",
    "share/man/man1/dilforec.1",
    "share/man/man3/dilforec.3", "share/bash-completion/completions/fts", "share/zsh/site-functions/_fts",
    "share/doc/dilforec/README.md", "share/doc/dilforec/docs/SCRIPT.md", "share/doc/dilforec/bench/MEASURED-ALL.md",
    "share/doc/dilforec/examples/catalogue.jsonl",
]

# What lintian may say: no licence has been chosen, and there is no bug whose number an upload could close.
ALLOWED = {"copyright-without-copyright-notice", "initial-upload-closes-no-bugs"}


def make(*words: str) -> Done:
    """Calls make with what is built, so that nothing is proved here."""
    built = {
        "DILFOREC_PROGRAM": str(ROOT / "crates/fts/out/fts"),
        "DILFOREC_CRATE_ARCHIVE": str(ROOT / "crates/fts_c/out/libfts_c.a"),
    }
    return run("make", "-s", "-C", ROOT, *words, env={**built, **os.environ})


# A kit's command that knows what make may call, and no module beside it.
RT = """#!/bin/sh
echo "$(basename "$PWD"): $*" >> "$SAID"
mkdir -p out
case "$*" in
    lib) : > "out/lib$(basename "$PWD").a" ;;
    "run -- --version") : > out/fts ;;
    *) exit 1 ;;
esac
"""


def public_commands(folder: Path) -> None:
    """`make` builds by `rt lib` and `rt run` alone, each library once and after those that it stands on."""
    copy, kit = folder / "copy", folder / "kit"
    shutil.copytree(ROOT, copy, ignore=shutil.ignore_patterns(".git", "out", ".ci", "docs", "bench", "tests", "target"))
    kit.mkdir()
    (kit / "rt").write_text(RT)
    (kit / "rt").chmod(0o755)
    variables = {name: value for name, value in os.environ.items() if not name.startswith(("DILFOREC_", "MAKE"))}
    done = run("make", "-s", "-j4", "-C", copy, "crates/fts/out/fts", "crates/fts_c/out/libfts_c.a",
               env={**variables, "PATH": f"{kit}:{os.environ['PATH']}", "SAID": str(folder / "called")})
    called = (folder / "called").read_text().splitlines() if not done.returncode else []
    libraries = [line.partition(":")[0] for line in called[:-2]]
    stands = {line.split(":")[0].split()[0]: line.split(":")[1].split() for line in (ROOT / "crates.txt").read_text().splitlines()
              if ":" in line and not line.startswith("#")}
    below: dict[str, set[str]] = {}
    for name in stands:
        below[name] = {name}.union(*(below[it] for it in stands[name] if it in below))
    wanted = (below["fts"] | below["fts_c"]) - {"fts", "fts_c"}
    after = all(libraries.index(it) < libraries.index(name) for name in libraries for it in stands[name] if it in wanted)
    check("make builds by the kit's public commands", sorted(libraries) == sorted(wanted) and after, said(done) + "\n".join(called))
    check("make builds the program and the archive last", called[-2:] == ["fts: run -- --version", "fts_c: lib"], called[-2:])


def files() -> dict[str, int]:
    """The files outside the folder that an installation could write, each with its time."""
    folders: tuple[str | Path, ...] = "/usr/local", *(ROOT / it for it in ("bindings", "packaging", "docs", "examples"))
    return {str(path): path.lstat().st_mtime_ns for it in folders for path in pathlib.Path(it).rglob("*")
            if path.is_symlink() or path.is_file()}


def installed(folder: Path) -> Place | None:
    """Installs below a folder, and returns the place, or nothing."""
    # This links the library if need be, so that what follows has to leave all else as it was.
    done = make("all")
    if not check("make", done.returncode == 0, said(done)):
        return None
    before = files()
    done = make("install", f"DESTDIR={folder}", "PREFIX=/usr/local")
    if not check("make install", done.returncode == 0, said(done)):
        return None
    after = files()
    check("nothing else was written", before == after, set(before.items()) ^ set(after.items()))
    place = Place(folder, "usr/local", "lib", "share/zsh/site-functions")
    missing = [name for name in EXPECTED if not (place.prefix / name).exists()]
    check("each file is there", not missing, missing)
    return place


def uninstalled(place: Place) -> None:
    done = make("uninstall", f"DESTDIR={place.root}", "PREFIX=/usr/local")
    left = [path for path in place.root.rglob("*") if not path.is_dir() or "dilforec" in path.name]
    check("make uninstall", done.returncode == 0 and not left, f"{said(done)}{left}")


def unpacked(folder: Path) -> Place | None:
    """Unpacks the packages for Debian below a folder, and returns the place, or nothing."""
    if not all(map(shutil.which, ("dpkg-deb", "dpkg-architecture"))):
        return skip("make deb", "dpkg-deb or dpkg-architecture isn't there")
    done = make("deb")
    if not check("make deb", done.returncode == 0, said(done)):
        return None
    made = [ROOT / line for line in done.stdout.splitlines() if line.endswith(".deb")]
    check("four packages", len(made) == 4, done.stdout)
    for package in made:
        run("dpkg-deb", "--extract", package, folder)
    if shutil.which("lintian"):
        told = re.findall(r"^[EW]: .*", said(run("lintian", "--allow-root", *made)), re.MULTILINE)
        check("lintian", not [it for it in told if it.split()[2] not in ALLOWED], "\n".join(told))
    else:
        skip("lintian", "it isn't there")
    libraries = run("dpkg-architecture", "-qDEB_HOST_MULTIARCH").stdout.strip()
    return Place(folder, "usr", f"lib/{libraries}", "share/zsh/vendor-completions")


def versions(place: Place) -> None:
    """Each place that has a version has that of the file VERSION."""
    def found(pattern: str, text: str) -> str | None:
        return (re.search(pattern, text, re.MULTILINE) or [None, None])[1]

    cmake = place.libraries / "cmake/dilforec/dilforec-config-version.cmake"
    told = {
        "fts --version": found(r"^fts (.*)$", place.fts("--version").stdout),
        "dilforec.h": found(r'^#define DILFOREC_VERSION "(.*)"$', place.header.read_text()),
        "dilforec.pc": found(r"^Version: (.*)$", (place.libraries / "pkgconfig/dilforec.pc").read_text()),
        "CMake": found(r'^set\(PACKAGE_VERSION "(.*)"\)$', cmake.read_text()),
        "dilforec": found(r'^__version__ = "(.*)"$', (ROOT / "bindings/python/dilforec/__init__.py").read_text()),
        "Cargo.toml": found(r'^version = "(.*)"$', (ROOT / "bindings/rust/Cargo.toml").read_text()),
        "CHANGELOG.md": found(r"^## (\S+) \(\d{4}-\d\d-\d\d\)$", (place.pages / "CHANGELOG.md").read_text()),
        **{page: found(rf'^\.TH {page.split(".")[0].upper()} \d "\d{{4}}-\d\d-\d\d" "Dilforec (\S+)"', place.manual(page))
           for page in ("fts.1", "dilforec.1", "dilforec.3")},
    }
    check("one version", set(told.values()) == {VERSION}, told)


def main() -> int:
    of_debian = "--deb" in sys.argv[1:]
    with tempfile.TemporaryDirectory() as name:
        folder = pathlib.Path(name)
        if not of_debian:
            attempt(public_commands, folder)
        (folder / "root").mkdir()
        place = (unpacked if of_debian else installed)(folder / "root")
        if not place:
            return finish()
        for part in versions, uses.examples, uses.at_terminal, uses.help_of_run, uses.pages, uses.completions:
            attempt(part, place)
        for trial in uses.byte_order_mark, uses.in_c, uses.in_cmake:
            attempt(trial, place, folder)
        if of_debian:
            attempt(uses.with_debian_python, place)
        else:
            attempt(uses.with_wheel, folder)
            attempt(uninstalled, place)
    return finish()


if __name__ == "__main__":
    sys.exit(main())
