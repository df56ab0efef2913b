"""Clock time and the day's seconds. A session knows seconds of its day; telephones know Unix time."""
import time
from dataclasses import dataclass
from datetime import datetime, timezone


@dataclass(frozen=True)
class DayClock:
    """A day that was at the second `begin` when the Unix time was `began` milliseconds, and goes `speed` times as fast as life."""
    began: int
    begin: int
    speed: int

    def second(self, moment: int) -> int:
        """Returns the day's second, rounded down and at least 0, at a Unix time in milliseconds."""
        return max(0, self.begin + (moment - self.began) * self.speed // 1000)

    def moment(self, second: int) -> int:
        """Returns the first Unix time in milliseconds at which the day has come to this second."""
        return self.began - (self.begin - second) * 1000 // self.speed

    def now(self) -> int:
        """Returns the day's second at this moment."""
        return self.second(unix_now())


def unix_now() -> int:
    """Returns the Unix time in milliseconds."""
    return time.time_ns() // 1_000_000


def written(moment: int) -> str:
    """Returns a Unix time in milliseconds as RFC 3339 writes it, in UTC."""
    at = datetime.fromtimestamp(moment / 1000, timezone.utc)
    return at.isoformat(timespec="milliseconds").replace("+00:00", "Z")


def read_moment(text: str) -> int:
    """Returns the Unix time in milliseconds of an RFC 3339 date and time, which has to name its zone; else raises ValueError."""
    at = datetime.fromisoformat(text.strip().replace("Z", "+00:00").replace("z", "+00:00"))
    if at.tzinfo is None:
        raise ValueError("the time names no zone")
    return round(at.timestamp() * 1000)
