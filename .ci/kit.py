"""The kit's own modules: what `rt` knows of crates, of their stamps and of how many proofs go side by side."""
import functools
import importlib.machinery
import importlib.util
import os
import pathlib
import shutil
import sys
from typing import Any

ROOT = pathlib.Path(__file__).resolve().parents[1]


@functools.lru_cache(maxsize=None)
def module(name: str) -> Any:
    """The module `rt` or `rtlib` of the kit whose `rt` is on the PATH."""
    sys.dont_write_bytecode = True
    file = pathlib.Path(os.path.realpath(shutil.which("rt") or "rt")).with_name("rt" if name == "rt" else f"{name}.py")
    loader = importlib.machinery.SourceFileLoader(name, str(file))
    spec = importlib.util.spec_from_loader(name, loader)
    assert spec
    made = importlib.util.module_from_spec(spec)
    sys.modules[name] = made
    loader.exec_module(made)
    return made


def crates(lib: Any) -> dict[str, Any]:
    """The crates of this repository by their names, as the kit's module `lib` reads them."""
    os.chdir(ROOT)
    return {crate.name: crate for crate in lib.crates_below(str(ROOT))}
