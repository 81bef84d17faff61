"""How a run ends before its answer."""
from sfq.commands.endings import spelled

# The statuses that sfq has too, and the cluster's own.
MISUSE, TABLE, QUERY, FILES, MEMORY, CLUSTER = 2, 4, 5, 6, 7, 8


class Ended(Exception):
    """The run ends with this status, and this text on standard error."""

    def __init__(self, status: int, text: bytes) -> None:
        super().__init__(status, text)
        self.status, self.text = status, text


def ended(status: int, text: str) -> Ended:
    """The end with a line of sfq-scale's own."""
    return Ended(status, f"sfq-scale: {spelled(text.encode('utf-8', 'surrogateescape'))}\n".encode())
