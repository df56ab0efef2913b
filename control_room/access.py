"""Where a broker's nodes listen, and by which name they are spoken to."""
from dataclasses import dataclass
from typing import Tuple

Address = Tuple[str, int]
# The arguments by which a queue is declared as a stream.
STREAM = {"x-queue-type": "stream"}


@dataclass(frozen=True)
class Access:
    """Where the broker's nodes listen, and who may speak to them."""
    nodes: Tuple[Address, ...]
    user: str
    password: str
