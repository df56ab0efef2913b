"""A day of simulated people over HTTP: riders who ask, cancel and ride, and the drivers of all vehicles."""
import asyncio
import random
import secrets
import signal
import sys
import time
from dataclasses import dataclass, field
from typing import Any, Callable, Dict, List

import aiohttp
from live_city import CANCELS, HABITS, LATEST
from player.drivers import Drivers, Habits
from trip_log import TripLog, read_fleet

from control_room.chart import read_chart
from control_room.client import Client
from control_room.simulated_drivers import Driver, Tally
from control_room.tokens import Person, sign
from control_room.zones import Zone

FOREVER = 4_102_444_800  # The year 2100.


@dataclass
class Crowd:
    """How many riders ask: so many an hour of the day, so many in all (0 for no end), and how long each waits and rides."""
    an_hour: int = 300
    in_all: int = 0
    seed: int = 1
    riders: Tally = field(default_factory=Tally)
    drivers: Tally = field(default_factory=Tally)
    asked: Dict[int, str] = field(default_factory=dict)
    confirmed: Dict[int, int] = field(default_factory=dict)
    closed: Dict[int, str] = field(default_factory=dict)
    wishes: Dict[int, Dict[str, int]] = field(default_factory=dict)
    seconds: List[float] = field(default_factory=list)


class Simulation:
    """The simulated people of one zone."""

    def __init__(self, zone: Zone, server: str, secret: bytes, crowd: Crowd, http: aiohttp.ClientSession):
        self.zone = zone
        self.server = server
        self.secret = secret
        self.crowd = crowd
        self.http = http
        self.clock = zone.clock()
        self.roads = read_chart(zone.map).roads
        self.draw = random.Random(crowd.seed)
        self.run = secrets.token_hex(3)
        self.drivers: List[Driver] = []
        self.listen: Callable[[Dict[str, Any]], None] = lambda one: None
        self.riding: "set[asyncio.Task[None]]" = set()

    def client(self, role: str, name: str) -> Client:
        """Returns the client of a simulated person."""
        return Client(self.http, self.server, self.zone.name, sign(self.secret, Person(role, self.zone.name, name), FOREVER))

    async def drive(self) -> None:
        """Drives all vehicles until told to end."""
        fleet = read_fleet(self.zone.fleet)
        habits = Habits(hold_ups=HABITS.hold_ups)
        ways = Drivers(self.roads, TripLog(fleet), habits, random.Random(self.crowd.seed + 1))
        self.drivers = [Driver(self.client("driver", str(vehicle.id)), vehicle.id, ways, self.clock, self.crowd.drivers)
                        for vehicle in fleet.vehicles]
        await asyncio.gather(*(driver.run() for driver in self.drivers))

    def end_drivers(self) -> None:
        """Lets all drivers go home."""
        for driver in self.drivers:
            driver.end()

    async def ask(self) -> None:
        """Lets riders come, one after the other at drawn times, until all have asked."""
        number = 0
        while not self.crowd.in_all or number < self.crowd.in_all:
            number += 1
            await asyncio.sleep(self.draw.expovariate(self.crowd.an_hour / 3600) / self.zone.speed)
            origin, destination = self.draw.sample(range(1, self.roads.nodes + 1), 2)
            ride = asyncio.create_task(self._ride(number, origin, destination, self.draw.random()))
            self.riding.add(ride)
            ride.add_done_callback(self.riding.discard)

    async def wait_for_riders(self) -> None:
        """Ends once every rider has been served or turned away."""
        while self.riding:
            await asyncio.wait(self.riding)

    async def _ride(self, number: int, origin: int, destination: int, mood: float) -> None:
        """One rider: asks, perhaps cancels later, and listens until the ride is over."""
        name = f"sim-{self.run}-{number}"
        client = self.client("rider", name)
        straight = self.roads.seconds(origin, destination)
        if straight is None:
            return
        self.crowd.riders.sent += 1
        began = time.monotonic()
        told = await client.surely("POST", "requests", {
            "from": origin, "to": destination, "seats": 2 if mood > 0.8 else 1, "wait_at_most": LATEST,
            "ride_at_most": 2 * straight + 300}, f"ask {number}")
        self.crowd.seconds.append(time.monotonic() - began)
        self.crowd.riders.again += told.tries - 1
        if told.status != 201:
            self.crowd.riders.refused += 1
            return
        self.crowd.riders.taken += 1
        self.crowd.asked[told.said["request"]] = f"rider:{name}"
        self.crowd.wishes[told.said["request"]] = {"from": origin, "to": destination}
        self._note(told.said)
        await self._listen(client, told.said["request"], mood)

    async def _listen(self, client: Client, request: int, mood: float) -> None:
        over = asyncio.Event()

        def told(said: Dict[str, Any]) -> None:
            for one in said.get("requests", []):
                self._note(one)
                if one["request"] == request and one["state"] in ("dropped", "away", "cancelled"):
                    over.set()

        following = asyncio.create_task(client.follow(told))
        try:
            if mood < CANCELS:
                await asyncio.sleep(mood / CANCELS * 600 / self.zone.speed)
                await client.surely("DELETE", f"requests/{request}", None, f"cancel {request}")
            await over.wait()
        finally:
            following.cancel()

    def _note(self, one: Dict[str, Any]) -> None:
        """Keeps what a rider is told, to be compared with the kept log."""
        self.listen(one)
        if one["state"] in ("confirmed", "aboard", "dropped"):
            self.crowd.confirmed[one["request"]] = one["vehicle"]
        if one["state"] in ("dropped", "away", "cancelled"):
            self.crowd.closed[one["request"]] = one["state"]


async def play(zone: Zone, server: str, secret: bytes, crowd: Crowd) -> None:
    """Plays simulated people until SIGTERM, or until all riders are served."""
    ended = asyncio.Event()
    asyncio.get_running_loop().add_signal_handler(signal.SIGTERM, ended.set)
    connector = aiohttp.TCPConnector(limit=0, force_close=False)
    async with aiohttp.ClientSession(connector=connector) as http:
        simulation = Simulation(zone, server, secret, crowd, http)
        driving = asyncio.create_task(simulation.drive())
        asking = asyncio.create_task(simulation.ask())
        until = asyncio.create_task(ended.wait())
        await asyncio.wait([asking, driving, until], return_when=asyncio.FIRST_COMPLETED)
        if asking.done() and not ended.is_set():
            await asyncio.wait([asyncio.create_task(simulation.wait_for_riders()), until], return_when=asyncio.FIRST_COMPLETED)
        for task in (driving, asking, until, *simulation.riding):
            task.cancel()
        await asyncio.gather(driving, asking, until, *simulation.riding, return_exceptions=True)


def main(zone: Zone, server: str, secret: bytes, crowd: Crowd) -> int:
    """Runs a simulation. Returns 0."""
    signal.signal(signal.SIGINT, signal.SIG_IGN)
    asyncio.run(play(zone, server, secret, crowd))
    print(f"riders {crowd.riders}, drivers {crowd.drivers}", file=sys.stderr)
    return 0


