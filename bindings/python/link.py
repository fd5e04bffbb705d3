"""Makes what other programs link: `libdilforec.a`, and the shared object that the package calls.

    python3 bindings/python/link.py

Both are made of two archives: `libfts_c.a`, which `rt lib` makes in crates/fts_c, and the kit's `liblibc_c.a`, in `c/`
beside the folder of `rt`. The environment's DILFOREC_CRATE_ARCHIVE and DILFOREC_LIBC_ARCHIVE name others. CC, LD and
OBJCOPY are the tools, `cc`, `ld` and `objcopy` without them.

Others see the functions of dilforec.h alone, in the archive as in the shared object.
"""
from __future__ import annotations

import os
import pathlib
import shutil
import subprocess
import tempfile

HERE = pathlib.Path(__file__).resolve().parent
OUT = HERE.parent / "out"
ARCHIVE = OUT / "libdilforec.a"
SHARED = HERE / "dilforec/libdilforec.so"

# It changes with the interface; docs/EMBEDDING.md says when.
SONAME = "libdilforec.so.0"
EXPORTS = "{ global: dilforec_*; local: *; };\n"


class NotBuilt(Exception):
    """An archive that the library is made of isn't there."""


def archives() -> tuple[pathlib.Path, pathlib.Path]:
    """The crate's archive and the kit's."""
    own = HERE.parents[1] / "crates/fts_c/out/libfts_c.a"
    kit = pathlib.Path(os.path.realpath(shutil.which("rt") or "rt")).parents[1] / "c/liblibc_c.a"
    found = (
        pathlib.Path(os.environ.get("DILFOREC_CRATE_ARCHIVE", own)),
        pathlib.Path(os.environ.get("DILFOREC_LIBC_ARCHIVE", kit)),
    )
    for path in found:
        if not path.is_file():
            raise NotBuilt(f"{path} isn't there: run `make` at the top of the repository, with the kit on the PATH")
    return found


def archive(to: pathlib.Path = ARCHIVE) -> pathlib.Path:
    """Makes one archive of both, with one object in it, and returns its path."""
    own, kit = archives()
    with tempfile.TemporaryDirectory() as folder:
        made = pathlib.Path(folder, "dilforec.o")
        subprocess.run(
            [os.environ.get("LD", "ld"), "-r", "-o", made, "--whole-archive", own, "--no-whole-archive", kit],
            check=True,
        )
        subprocess.run(
            [os.environ.get("OBJCOPY", "objcopy"), "--wildcard", "--keep-global-symbol=dilforec_*", made],
            check=True,
        )
        packed = pathlib.Path(folder, to.name)
        subprocess.run(["ar", "rcs", packed, made], check=True)
        _replace(packed, to)
    return to


def shared(to: pathlib.Path = SHARED) -> pathlib.Path:
    """Makes a shared object of both, and returns its path."""
    with tempfile.TemporaryDirectory() as folder:
        exports = pathlib.Path(folder, "exports")
        exports.write_text(EXPORTS)
        made = pathlib.Path(folder, to.name)
        whole = archive(pathlib.Path(folder, ARCHIVE.name))
        subprocess.run(
            [os.environ.get("CC", "cc"), "-shared", "-o", made, f"-Wl,-soname,{SONAME}",
             f"-Wl,--version-script={exports}", "-Wl,--whole-archive", whole, "-Wl,--no-whole-archive"],
            check=True,
        )
        _replace(made, to)
    return to


def _replace(made: pathlib.Path, to: pathlib.Path) -> None:
    # A program that has the old one open keeps it.
    to.parent.mkdir(parents=True, exist_ok=True)
    to.unlink(missing_ok=True)
    shutil.copy(made, to)


def link() -> None:
    """Makes both where they belong: the archive in bindings/out, the shared object there and within the package."""
    archive()
    shared()
    _replace(SHARED, OUT / SONAME)
    (OUT / SHARED.name).unlink(missing_ok=True)
    # No symbolic link: the gate refuses one in the tree.
    os.link(OUT / SONAME, OUT / SHARED.name)


if __name__ == "__main__":
    link()
    print(ARCHIVE, OUT / SONAME, SHARED, sep="\n")
