"""The command sfq-ask, which `python3 -m sfq.ask` runs too; what it does is in `commands/ask.py`."""
import sys

from .commands.ask import main

__all__ = ["main"]

if __name__ == "__main__":
    sys.exit(main())
