"""Makes crates/fts_c/out/libfts_c.a over the libraries that `rt ci` has just proved.

`rt ci` proves a static library and makes no archive of it. `rt lib` does, but it takes a library below only if a stamp
beside it, a sum of its sources, says what it is of, and `rt ci` writes none: so it would prove each of them once more. This
writes the stamps first, and takes them away again, so that later commands here build what the kit would build. If a stamp
is wrong, `rt lib` proves that library anew.
"""
from __future__ import annotations

import pathlib
import subprocess
import sys

import kit


def main() -> int:
    crates = kit.crates(kit.module("rtlib"))
    written = []
    try:
        for library in crates["fts_c"].below():
            made = pathlib.Path(library.rlib)
            stamp = made.with_name("stamp")
            if made.is_dir() and not stamp.exists():
                written.append(stamp)
                stamp.write_text(library.stamp(), encoding="utf-8")
        return subprocess.run(["rt", "lib"], cwd=kit.ROOT / "crates/fts_c").returncode
    finally:
        for stamp in written:
            stamp.unlink(missing_ok=True)


if __name__ == "__main__":
    sys.exit(main())
