"""Sheets of idle vehicles sent ahead, made from a log as it grows.

After each commit the requests that its seating leaves out are paired with the vehicles that were idle, on duty and in no seat when
the batch was opened, each within a reach of seconds, at the least sum of travel times; a request without a vehicle costs the reach.
A sheet's line is that of `ride_dispatch ahead`.
"""
from typing import Dict, List, Optional, Tuple

from player.files import InputError
from player.pairing import least_pairing
from player.roads import Roads
from player.sheets import Certifier, Go, Sheet, Standing
from trip_log import Batch, Commit, Entry, TripLog


class Advisor:
    """Follows a log, and gives the sheet that is due behind each commit. `log` has taken each entry before `take` does."""

    def __init__(self, roads: Roads, log: TripLog, reach: int, checks: bool = False):
        self.roads, self.log, self.reach = roads, log, reach
        self.certified = 0
        self.last: Optional[Sheet] = None
        self._certifier = Certifier(roads.arcs, reach) if checks else None
        self._idle: Dict[int, Standing] = {}
        self._batches: Dict[int, Batch] = {}

    def take(self, entry: Entry) -> Optional[Sheet]:
        """Returns the sheet that is due behind an entry, None where that is no commit."""
        if entry.batch:
            self._batches[entry.batch.number] = entry.batch
            self._idle[entry.batch.number] = {
                vehicle.id: (vehicle.at, vehicle.version) for vehicle in self.log.vehicles.values()
                if vehicle.on_duty and not vehicle.stops}
        elif entry.commit:
            self.last = self._sheet(entry.commit)
            return self.last
        elif entry.kind == "abandon":
            self._batches.pop(entry.numbers[0]), self._idle.pop(entry.numbers[0])
        return None

    def _sheet(self, commit: Commit) -> Sheet:
        batch, idle = self._batches.pop(commit.number), self._idle.pop(commit.number)
        seated = {seat.request for seat in commit.seats}
        for seat in commit.seats:
            idle.pop(seat.vehicle, None)
        rows = [(number, self.log.requests[number].origin) for number in batch.requests if number not in seated]
        sheet = self._paired(commit.number, rows, idle)
        if self._certifier:
            if fault := self._certifier.fault_of(sheet, commit.number, rows, idle):
                raise InputError(f"the sheet of batch {commit.number} is not certified: {fault}: {sheet.line()}")
            self.certified += 1
        return sheet

    def _paired(self, number: int, rows: List[Tuple[int, int]], idle: Standing) -> Sheet:
        order = {vehicle: place for place, vehicle in enumerate(idle)}
        times = []
        for _, pickup in rows:
            seconds = self.roads.toward(pickup).seconds
            times.append({order[vehicle]: seconds[at] for vehicle, (at, _) in idle.items() if 0 <= seconds[at] <= self.reach})
        columns, prices, pays = least_pairing(times, self.reach)
        vehicles = list(idle)
        goes = [Go(request, vehicles[column], idle[vehicles[column]][1], pickup, time[column])
                for (request, pickup), time, column in zip(rows, times, columns) if column is not None]
        cost = sum(prices) - sum(pays.values())
        return Sheet(number, cost, tuple(goes), {request: price for (request, _), price in zip(rows, prices)},
                     {vehicles[column]: pay for column, pay in pays.items()})
