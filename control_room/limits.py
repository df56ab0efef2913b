"""Limits of rate: a bucket of tokens for each name."""
import time
from collections import OrderedDict
from typing import Callable, Tuple


class RateLimit:
    """Lets each name act `rate` times a second in the long run, and `burst` times at once. Forgets the least recent names."""

    def __init__(self, rate: float, burst: int, names: int = 100_000, now: Callable[[], float] = time.monotonic):
        self.rate = rate
        self.burst = burst
        self.names = names
        self.now = now
        self.buckets: "OrderedDict[str, Tuple[float, float]]" = OrderedDict()

    def _left(self, name: str) -> float:
        left, since = self.buckets.get(name, (float(self.burst), self.now()))
        return min(float(self.burst), left + (self.now() - since) * self.rate)

    def take(self, name: str) -> float:
        """Counts one act of a name. Returns 0 where it may act, else the seconds after which it may."""
        left = self._left(name)
        if left < 1.0:
            return (1.0 - left) / self.rate
        self.buckets[name] = (left - 1.0, self.now())
        self.buckets.move_to_end(name)
        while len(self.buckets) > self.names:
            self.buckets.popitem(last=False)
        return 0.0

    def is_empty(self, name: str) -> bool:
        """Returns whether a name may not act now; counts nothing."""
        return self._left(name) < 1.0
