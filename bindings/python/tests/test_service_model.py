"""A store beside a model: transactions, refusals, faults of its disk, compactions, changes of the schema, restarts.

    DILFOREC_EXAMPLES=1000 python3 test_service_model.py

needs hypothesis (Debian: python3-hypothesis). Without the variable there are 60 runs, the same each time.
"""
from __future__ import annotations

import unittest
from typing import Any

try:
    import service_machine
except ImportError:
    MACHINE: Any = None
else:
    MACHINE = service_machine.Machine


@unittest.skipIf(MACHINE is None, "hypothesis isn't there")
class Models(unittest.TestCase):
    def test_machine(self) -> None:
        """Whatever is done to a store, it has what the model has, and answers so."""
        test = MACHINE.TestCase()
        test.runTest()


if __name__ == "__main__":
    unittest.main()
