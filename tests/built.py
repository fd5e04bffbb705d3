"""The programs that the tests run: as the gate has built them, or as $FTS and $FTS_LIST name them."""
import os
import pathlib

ROOT = pathlib.Path(__file__).resolve().parents[1]
PROGRAM = os.environ.get("FTS", str(ROOT / "crates/fts/out/fts"))
# Runs a script over a plain list of documents.
PLAIN = os.environ.get("FTS_LIST", str(ROOT / "crates/fts_list/out/fts_list"))
