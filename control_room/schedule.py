"""When the bridge sends the clock, and when it asks for a batch."""
from typing import List

from trip_log import Entry, TripLog

from control_room.zones import Zone


class Schedule:
    """The lines of the bridge itself: the clock each `tick` seconds of the day, and a batch each `every` seconds while somebody waits."""

    def __init__(self, zone: Zone):
        self.zone = zone
        self.told = -1
        self.next_batch = 0
        self.waits = False
        self.asking = False

    def see(self, entry: Entry) -> None:
        """Takes an entry of the log: a bridge that is new learns the clock by it."""
        if entry.reply == "now":
            self.told = max(self.told, entry.said[0])
        if entry.kind == "batch":
            self.asking = False
        self.waits = self.waits or entry.reply == "waiting" or (entry.commit is not None)

    def clock_before(self, now: int) -> List[str]:
        """Returns the clock's line where it has gone on since it was last told, else none. Times are the day's seconds."""
        if now <= self.told:
            return []
        self.told = now
        return [f"clock {now}"]

    def due(self, now: int, log: TripLog) -> List[str]:
        """Returns the lines to send at a second of the day, over what stands on the log."""
        if self._asks(now, log):
            self.next_batch = now + self.zone.every
            self.asking = True
            return self.clock_before(now) + ["batch"]
        return self.clock_before(now) if now >= self.told + self.zone.tick else []

    def _asks(self, now: int, log: TripLog) -> bool:
        if now < self.next_batch or self.asking or not self.waits or log.open_batches or log.asked != log.opened:
            return False
        self.waits = bool(log.waiting())
        return self.waits

    def pause(self) -> float:
        """Returns the seconds of life until it is worth looking again."""
        return max(0.02, min(0.5, self.zone.tick / self.zone.speed / 2))
