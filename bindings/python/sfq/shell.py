"""The command sfq-shell, which `python3 -m sfq.shell` runs too; what it does is in `commands/shell.py`."""
import sys

from .commands.shell import main

__all__ = ["main"]

if __name__ == "__main__":
    sys.exit(main())
