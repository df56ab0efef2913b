"""What is to be said to two sessions so that the second takes each vehicle over from the first, as it becomes idle there."""
from typing import Collection, List, Set, Tuple

from running.faults import Fault
from trip_log import TripLog, Vehicle

FIRST, SECOND = 0, 1
NAMES = ("first", "second")
OF_VEHICLES = ("at", "on", "off")

Due = Tuple[int, str]  # a session, and the line that is to be said to it


class Handover:
    """The hand-over of all vehicles, by what stands on both logs, so that a relay that is started again goes on.

    All vehicles are taken off duty in the second, and only then in the first. One that is off duty in the
    first gets no new rider, whatever batch is open, as its plan has another version. Once it has no stop either it never has one again: the
    second is told where it is, and when its log has that, that it is on duty. Vehicles of `resting` are left off duty.
    """

    def __init__(self, first: TripLog, second: TripLog, resting: Collection[int]):
        self.logs = (first, second)
        self.resting = resting
        self.sent: Set[Due] = set()
        self.over: Set[int] = set()
        if others := set(resting) - set(first.vehicles):
            raise Fault(f"vehicle {min(others)} is not in the fleet file")

    def take(self, session: int, line: str) -> None:
        """Takes the next line of a session's log. Raises Fault where the session refuses what was said."""
        entry = self.logs[session].read(line + "\n")
        if entry and entry.kind in OF_VEHICLES and entry.reply == "refused":
            said = " ".join([entry.kind, *map(str, entry.numbers)])
            if (session, said) in self.sent:
                raise Fault(f"the {NAMES[session]} session refuses {said} ({entry.said[0]})")

    def due(self) -> List[Due]:
        """Returns the lines that are to be said now, and have not been."""
        # While one is on duty in the second by the fleet file alone, nothing else is said.
        lines = [(SECOND, f"off {vehicle.id}") for vehicle in self.logs[SECOND].vehicles.values() if vehicle.version == 0]
        lines = lines or [due for vehicle in self.logs[FIRST].vehicles.values() for due in self._due(vehicle)]
        return [due for due in lines if due not in self.sent]

    def _due(self, first: Vehicle) -> List[Due]:
        second = self.logs[SECOND].vehicles[first.id]
        if first.on_duty:
            return [(FIRST, f"off {first.id}")] if not second.on_duty else []
        if first.stops or first.id in self.over:
            return []
        if second.on_duty:
            self.over.add(first.id)
            return []
        if (first.at, first.ready) != (second.at, second.ready):
            return [(SECOND, f"at {first.id} {first.at} {first.ready}")]
        if first.id in self.resting:
            self.over.add(first.id)
            return []
        return [(SECOND, f"on {first.id}")]

    def is_over(self) -> bool:
        """Returns whether every vehicle has gone over."""
        return len(self.over) == len(self.logs[FIRST].vehicles)
