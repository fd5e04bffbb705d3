"""python -m dilforec, which is also the command dilforec."""
import sys

from dilforec.service._command import main

if __name__ == "__main__":
    sys.exit(main())
