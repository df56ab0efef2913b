"""Simulated drivers: each knows the map and what the control room tells of its own vehicle, and reports as drivers do."""
import asyncio
import secrets
from dataclasses import dataclass
from typing import Any, Dict, Optional

from player.drivers import Drivers
from trip_log import Stop, Vehicle

from control_room.client import Client, Told
from control_room.day_clock import DayClock, written


@dataclass
class Tally:
    """What simulated people count."""
    sent: int = 0
    taken: int = 0
    refused: int = 0
    again: int = 0


def as_vehicle(plan: Dict[str, Any]) -> Vehicle:
    """Returns a plan that was told as the drivers of tools/player read it."""
    stops = [Stop(stop["request"], stop["what"] == "pickup", stop["node"]) for stop in plan["stops"]]
    return Vehicle(plan["vehicle"], plan["at"], plan["ready"]["second"], plan["on_duty"], plan["version"], stops=stops)


def body_of(command: str, clock: DayClock) -> Dict[str, Any]:
    """Returns the body of a report for a command of a feed, `at V NODE TIME` or `done V`."""
    fields = command.split()
    if fields[0] == "at":
        return {"report": "at", "node": int(fields[2]), "time": written(clock.moment(int(fields[3])))}
    return {"report": fields[0]}


class Driver:
    """One driver: follows the plan by a WebSocket, and reports the next crossing, or a stop that is served, when it is time."""

    def __init__(self, client: Client, vehicle: int, ways: Drivers, clock: DayClock, tally: Tally):
        self.client = client
        self.vehicle = vehicle
        self.ways = ways
        self.clock = clock
        self.tally = tally
        self.plan: Optional[Dict[str, Any]] = None
        self.news = asyncio.Event()
        self.over = False

    def end(self) -> None:
        """Lets the driver go home after the report that is under way."""
        self.over = True
        self.news.set()

    async def run(self) -> None:
        """Drives until told to end."""
        following = asyncio.create_task(self.client.follow(self._told))
        try:
            while not self.over:
                await self._step()
        finally:
            following.cancel()

    def _told(self, said: Dict[str, Any]) -> None:
        plan = said.get("plan")
        if plan and (self.plan is None or plan["version"] >= self.plan["version"]):
            self.plan = plan
            self.news.set()

    async def _step(self) -> None:
        """Reports where something is due, else waits until it is, or until the plan changes."""
        plan = self.plan
        command = self.ways.report(as_vehicle(plan), self.clock.now()) if plan else None
        if command:
            await self._report(command)
            return
        self.news.clear()
        wait = None
        if plan and plan["stops"]:
            wait = max(0.02, self.clock.moment(plan["ready"]["second"]) / 1000 - self.clock.moment(self.clock.now()) / 1000)
        try:
            await asyncio.wait_for(self.news.wait(), wait)
        except asyncio.TimeoutError:
            pass

    async def _report(self, command: str) -> None:
        self.tally.sent += 1
        told: Told = await self.client.surely("POST", f"vehicles/{self.vehicle}/reports", body_of(command, self.clock),
                                              secrets.token_hex(8))
        self.tally.again += told.tries - 1
        if told.status == 200:
            self.tally.taken += 1
            self._told(told.said)
        else:
            self.tally.refused += 1
            now = await self.client.surely("GET", f"vehicles/{self.vehicle}")
            if now.status == 200:
                self.plan = now.said
            await asyncio.sleep(0.1)
