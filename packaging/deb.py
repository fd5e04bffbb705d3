#!/usr/bin/env python3
"""Packs what `make install` installs, and the Python package, for Debian.

    packaging/deb.py FOLDER

Leaves fts, libdilforec0, libdilforec-dev and python3-dilforec in the folder. It takes dpkg-deb and dpkg-architecture.
packaging/debian has the packages' descriptions. The packages' bytes depend on nothing but what is packed.
"""
from __future__ import annotations

import calendar
import email.utils
import gzip
import hashlib
import os
import pathlib
import re
import shutil
import subprocess
import sys
import tempfile
import time
import zipfile

HERE = pathlib.Path(__file__).resolve().parent
TOP = HERE.parent
VERSION = (TOP / "VERSION").read_text(encoding="utf-8").strip()
REVISION = f"{VERSION}-1"
MAINTAINER = "Dilforec maintainers <maintainers@users.noreply.dilforec.example>"
HOME = "https://dilforec.example"

# Which package a path goes into, below usr/; the first that fits.
PACKAGES = [
    ("libdilforec0", r"lib/[^/]+/libdilforec\.so\.\d+"),
    ("libdilforec-dev", r"lib/[^/]+/.*|include/.*|share/man/man3/.*"),
    ("python3-dilforec", r"share/man/man1/dilforec\.1"),
    ("fts", r".*"),
]

# The command of the Python package, by Debian's Python.
COMMAND = """#!/usr/bin/python3
import sys

from dilforec.__main__ import main

sys.exit(main())
"""


def run(*words: str | pathlib.Path, **more: str) -> str:
    return subprocess.run(words, check=True, stdout=subprocess.PIPE, text=True, env={**os.environ, **more}).stdout


def released() -> int:
    """When the version was released, as CHANGELOG.md says, in seconds since 1970."""
    found = re.search(rf"^## {re.escape(VERSION)} \((.*)\)$", (TOP / "CHANGELOG.md").read_text(encoding="utf-8"), re.M)
    if not found:
        sys.exit(f"CHANGELOG.md has no release {VERSION}")
    return calendar.timegm(time.strptime(found[1], "%Y-%m-%d"))


def share_out(folder: pathlib.Path, architecture: str) -> None:
    """Installs everything, and moves each file into the tree of its package."""
    whole = folder / "whole"
    run("make", "-C", TOP, "-s", "install", f"DESTDIR={whole}", "PREFIX=/usr", f"libdir=/usr/lib/{architecture}",
        "zshdir=/usr/share/zsh/vendor-completions")
    for path in sorted(whole.rglob("*")):
        if path.is_symlink() or path.is_file():
            name = path.relative_to(whole / "usr").as_posix()
            package = next(package for package, pattern in PACKAGES if re.fullmatch(pattern, name))
            to = folder / package / "usr" / name
            to.parent.mkdir(parents=True, exist_ok=True)
            path.rename(to)
    shutil.rmtree(whole)


def unpack_wheel(folder: pathlib.Path, architecture: str) -> None:
    """Puts the Python package where Debian's Python looks. It calls the shared object of libdilforec0."""
    modules = folder / "python3-dilforec/usr/lib/python3/dist-packages"
    modules.mkdir(parents=True)
    run(sys.executable, "-c", "import sys, backend; backend.build_wheel(sys.argv[1])", folder,
        PYTHONPATH=str(TOP / "bindings/python"), PYTHONDONTWRITEBYTECODE="1")
    wheel = next(folder.glob("*.whl"))
    with zipfile.ZipFile(wheel) as packed:
        for name in packed.namelist():
            # The documents are in fts, and dpkg keeps the record.
            if ".data/" not in name and not name.endswith("/RECORD"):
                packed.extract(name, modules)
    wheel.unlink()
    command = folder / "python3-dilforec/usr/bin/dilforec"
    command.parent.mkdir(parents=True)
    command.write_text(COMMAND, encoding="utf-8")
    command.chmod(0o755)
    shared = modules / "dilforec/libdilforec.so"
    shared.unlink()
    shared.symlink_to(f"../../../{architecture}/{soname(folder, architecture).name}")


def soname(folder: pathlib.Path, architecture: str) -> pathlib.Path:
    return next((folder / "libdilforec0/usr/lib" / architecture).glob("libdilforec.so.*"))


def stanzas(libc: str) -> dict[str, str]:
    """What packaging/debian/control says of each package."""
    text = (HERE / "debian/control").read_text(encoding="utf-8")
    text = text.replace("${version}", REVISION).replace("${libc}", libc)
    return {re.match(r"Package: (\S+)", it)[1]: it.strip() for it in text.split("\n\n")}  # type: ignore[index]


def newest_symbol(*objects: pathlib.Path) -> str:
    """The newest version of glibc's symbols that one of the objects asks for."""
    asked = [it for path in objects for it in re.findall(rb"GLIBC_(\d+)\.(\d+)", path.read_bytes())]
    return ".".join(map(str, max((int(major), int(minor)) for major, minor in asked)))


def compress(to: pathlib.Path, content: bytes) -> None:
    to.parent.mkdir(parents=True, exist_ok=True)
    to.write_bytes(gzip.compress(content, 9, mtime=0))


def add_documents(tree: pathlib.Path, package: str, seconds: int) -> None:
    """Compresses the manual pages, and adds the changelog and the copyright."""
    for page in sorted((tree / "usr/share/man").rglob("*.[0-9]")):
        compress(page.with_name(page.name + ".gz"), page.read_bytes())
        page.unlink()
    own = tree / "usr/share/doc" / package
    change = (
        f"dilforec ({REVISION}) unstable; urgency=medium\n\n  * Version {VERSION}; CHANGELOG.md says what is new.\n\n"
        f" -- {MAINTAINER}  {email.utils.formatdate(seconds)}\n"
    )
    compress(own / "changelog.Debian.gz", change.encode())
    shutil.copy(HERE / "debian/copyright", own / "copyright")


def add_control(tree: pathlib.Path, package: str, stanza: str, shared: str) -> None:
    """Writes DEBIAN/: the description, the sums, and what dpkg does beside unpacking."""
    files = [path for path in sorted(tree.rglob("*")) if path.is_file() and not path.is_symlink()]
    size = sum(-(-path.stat().st_size // 1024) for path in files)
    control = tree / "DEBIAN"
    control.mkdir()
    first, rest = stanza.split("\n", 1)
    written = {
        "control": f"{first}\nSource: dilforec\nVersion: {REVISION}\nArchitecture: amd64\nMaintainer: {MAINTAINER}\n"
                   f"Installed-Size: {size}\nPriority: optional\nHomepage: {HOME}\n{rest}\n",
        "md5sums": "".join(f"{hashlib.md5(it.read_bytes()).hexdigest()}  {it.relative_to(tree)}\n" for it in files),
    }
    if package == "libdilforec0":
        number = shared.rsplit(".", 1)[1]
        written["shlibs"] = f"libdilforec {number} libdilforec{number} (>= {VERSION})\n"
        written["triggers"] = "activate-noawait ldconfig\n"
    for name, text in written.items():
        (control / name).write_text(text, encoding="utf-8")
    if package == "python3-dilforec":
        for name in "postinst", "prerm":
            shutil.copy(HERE / "debian" / name, control / name)
            (control / name).chmod(0o755)


def main() -> None:
    to = pathlib.Path(sys.argv[1])
    to.mkdir(parents=True, exist_ok=True)
    seconds, architecture = released(), run("dpkg-architecture", "-qDEB_HOST_MULTIARCH").strip()
    os.umask(0o022)
    with tempfile.TemporaryDirectory() as name:
        folder = pathlib.Path(name)
        share_out(folder, architecture)
        unpack_wheel(folder, architecture)
        shared = soname(folder, architecture)
        for package, stanza in stanzas(newest_symbol(folder / "fts/usr/bin/fts", shared)).items():
            tree = folder / package
            add_documents(tree, package, seconds)
            add_control(tree, package, stanza, shared.name)
            tree.chmod(0o755)
            made = to / f"{package}_{REVISION}_amd64.deb"
            run("dpkg-deb", "--root-owner-group", "--build", tree, made, SOURCE_DATE_EPOCH=str(seconds))
            print(made)


if __name__ == "__main__":
    main()
