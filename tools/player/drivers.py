"""Simulated drivers: each knows the map and its vehicle's plan as the log has it, follows it, and reports.

A driver reports, when a crossing is reached, the next one with the second at which the vehicle will be there (`crossing`), or, when
a stop is served, the next stop (`stop`). Now and then one is held up on the way, which the report says; now and then one takes a
break when idle. An idle driver who is sent ahead drives there, as long as the vehicle's version is that of the order or of the
driver's own reports since.
"""
import itertools
import random
from dataclasses import dataclass, field, replace
from typing import Callable, Dict, Iterable, List, Optional

from player.roads import Roads
from trip_log import TripLog, Vehicle


@dataclass(frozen=True)
class Habits:
    """What drivers do: what they report, the share of crossings at which one is held up, for how many seconds, the share of drivers who
    take a break, and its seconds."""
    report: str = "crossing"
    hold_ups: float = 0.0
    held_least: int = 30
    held_most: int = 180
    breaks: float = 0.0
    break_seconds: int = 600


@dataclass(frozen=True)
class Order:
    """An order ahead: a vehicle, as long as it has this version, to a node."""
    vehicle: int
    version: int
    node: int


@dataclass
class WayAhead:
    """What is left of an order: where to, the version that stands as long as nothing else happens, and when the vehicle drives on."""
    node: int
    version: int
    leaves: int


@dataclass
class Drivers:
    """All drivers of a session. `breaks` says when whose break is due; `home` says to which node an idle vehicle goes back from where
    it is, None where it stays."""
    roads: Roads
    log: TripLog
    habits: Habits
    draw: random.Random
    home: Callable[[Vehicle], Optional[int]] = lambda vehicle: None
    breaks: Dict[int, int] = field(default_factory=dict)
    ahead: Dict[int, WayAhead] = field(default_factory=dict)
    orders: int = 0
    late_orders: int = 0
    _back: Dict[int, int] = field(default_factory=dict)

    def plan_breaks(self, begin: int, end: int) -> None:
        """Draws who takes a break, and from when."""
        for vehicle in self.log.vehicles:
            if self.draw.random() < self.habits.breaks:
                self.breaks[vehicle] = self.draw.randint(begin, max(begin, end))

    def reports(self, now: int, unless: Iterable[int] = ()) -> List[str]:
        """Returns what is reported now, at most one line of each vehicle, in fleet order; of vehicles in `unless` nothing."""
        lines = []
        for vehicle in self.log.vehicles.values():
            if vehicle.id not in unless and (line := self.report(vehicle, now)):
                lines.append(line)
        return lines

    def all_reports(self, now: int) -> List[str]:
        """Returns what is reported until every driver is on the way to a moment after now, or idle, when nothing else happens
        meanwhile: all lines of the first vehicle, then those of the next."""
        lines = []
        for vehicle in self.log.vehicles.values():
            line = self.report(vehicle, now)
            foreseen = replace(vehicle, stops=list(vehicle.stops)) if line else vehicle
            while line:
                lines.append(line)
                self._foresee(foreseen, line)
                line = self.report(foreseen, now)
        return lines

    def _foresee(self, vehicle: Vehicle, line: str) -> None:
        """Makes a vehicle what it is once the log has a report."""
        word, _, *numbers = line.split()
        vehicle.version += 1
        if word == "at":
            vehicle.at, vehicle.ready = map(int, numbers)
        elif word == "done":
            vehicle.stops.pop(0)
            vehicle.ready += self.log.settings["dwell"]
        else:
            vehicle.on_duty = word == "on"

    def report(self, vehicle: Vehicle, now: int) -> Optional[str]:
        """Returns what the driver of a vehicle reports now, None where that is nothing."""
        if vehicle.stops:
            return self._drive_report(vehicle, now) if vehicle.ready <= now else None
        return self._duty_report(vehicle, now) or self._ahead_report(vehicle, now)

    def are_moving(self) -> bool:
        """Returns whether any vehicle drives, or has a plan."""
        return bool(self.ahead) or any(vehicle.stops or self.home(vehicle) is not None for vehicle in self.log.vehicles.values())

    def next_break(self) -> Optional[int]:
        """Returns when the next break begins or ends, None where none does."""
        return min(itertools.chain(self.breaks.values(), self._back.values()), default=None)

    def obey(self, orders: Iterable[Order], now: int) -> None:
        """Takes orders ahead. One that names another version than the vehicle's is late, and is not obeyed."""
        for order in orders:
            vehicle = self.log.vehicles[order.vehicle]
            if vehicle.version == order.version and not vehicle.stops and vehicle.on_duty:
                self.ahead[order.vehicle] = WayAhead(order.node, order.version, max(vehicle.ready, now))
                self.orders += 1
            else:
                self.late_orders += 1

    def _drive_report(self, vehicle: Vehicle, now: int) -> str:
        self.ahead.pop(vehicle.id, None)
        target = vehicle.stops[0].node
        if vehicle.at == target:
            return f"done {vehicle.id}"
        if self.habits.report == "stop":
            return f"at {vehicle.id} {target} {vehicle.ready + self._whole_way(vehicle.at, target)}"
        node, seconds = self.roads.next_node(vehicle.at, target)
        return f"at {vehicle.id} {node} {vehicle.ready + seconds + self._hold_up()}"

    def _whole_way(self, node: int, target: int) -> int:
        """Returns the seconds to a target, with those of all hold-ups on the way."""
        seconds = 0
        while node != target:
            node, more = self.roads.next_node(node, target)
            seconds += more + self._hold_up()
        return seconds

    def _hold_up(self) -> int:
        habits = self.habits
        if habits.hold_ups and self.draw.random() < habits.hold_ups:
            return self.draw.randint(habits.held_least, habits.held_most)
        return 0

    def _duty_report(self, vehicle: Vehicle, now: int) -> Optional[str]:
        if vehicle.on_duty and self.breaks.get(vehicle.id, now + 1) <= now:
            del self.breaks[vehicle.id]
            self._back[vehicle.id] = now + self.habits.break_seconds
            self.ahead.pop(vehicle.id, None)
            return f"off {vehicle.id}"
        if self._back.get(vehicle.id, now + 1) <= now:
            del self._back[vehicle.id]
            return f"on {vehicle.id}"
        return None

    def _ahead_report(self, vehicle: Vehicle, now: int) -> Optional[str]:
        """Returns the next crossing on the way that an order sends an idle vehicle, or on its way home."""
        way = self.ahead.get(vehicle.id)
        if way is None:
            return self._home_report(vehicle, now)
        if way.leaves > now:
            return None
        if vehicle.version != way.version or vehicle.at == way.node:
            del self.ahead[vehicle.id]
            return None
        node, seconds = self.roads.next_node(vehicle.at, way.node)
        way.version, way.leaves = way.version + 1, way.leaves + seconds + self._hold_up()
        return f"at {vehicle.id} {node} {way.leaves}"

    def _home_report(self, vehicle: Vehicle, now: int) -> Optional[str]:
        target = self.home(vehicle) if vehicle.ready <= now else None
        if target is None or target == vehicle.at:
            return None
        node, seconds = self.roads.next_node(vehicle.at, target)
        return f"at {vehicle.id} {node} {vehicle.ready + seconds + self._hold_up()}"
