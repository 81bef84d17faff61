"""The command sfq-export, which `python3 -m sfq.exports` runs too; what it does is in `commands/exports.py`."""
import sys

from .commands.exports import main

__all__ = ["main"]

if __name__ == "__main__":
    sys.exit(main())
