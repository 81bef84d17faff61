"""The command sfq-schema, which `python3 -m sfq.schemas` runs too; what it does is in `commands/schemas.py`."""
import sys

from .commands.schemas import main

__all__ = ["main"]

if __name__ == "__main__":
    sys.exit(main())
