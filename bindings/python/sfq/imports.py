"""The command sfq-import, which `python3 -m sfq.imports` runs too, and the call by which a program imports; what they do is in
`commands/imports.py`."""
import sys

from .commands.imports import Imported, Options, import_sources, main

__all__ = ["Imported", "Options", "import_sources", "main"]

if __name__ == "__main__":
    sys.exit(main())
