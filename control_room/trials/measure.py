#!/usr/bin/python3
"""Measures a control room: how many commands a second pass through HTTP to the log's line, how long a rider's request takes to its
line while 1,000 drivers report, and the processors' time of each part.

    /usr/bin/python3 control_room/trials/measure.py [--seconds 60] [--reports 100] [--riders 5] [--callers 32] [--webs 1] [--nodes 1]

Drivers stand still and report where they are, each in turn, so many of all of them a second; riders ask at the same time. Then,
without riders, callers report one behind the other as fast as they are answered.
"""
import argparse
import asyncio
import os
import signal
import statistics
import sys
import time
from collections import Counter
from dataclasses import dataclass, field
from pathlib import Path
from typing import Any, Dict, List

from trial_room import PROGRAM, running

from control_room import supervisor
from control_room.__main__ import Words, number
from control_room.client import Client
from control_room.day_clock import written
from control_room.parts import Room
from control_room.tokens import Person, secret_of, sign
from control_room.zones import Zone

TICKS = os.sysconf("SC_CLK_TCK")


def seconds_of(process: int) -> float:
    """Returns the processors' time in seconds of a process so far, 0 where it is no more."""
    try:
        fields = Path(f"/proc/{process}/stat").read_text().rsplit(")", 1)[1].split()
    except (FileNotFoundError, ProcessLookupError):
        return 0.0
    return (int(fields[11]) + int(fields[12])) / TICKS


def children(process: int) -> List[int]:
    """Returns the children of a process."""
    return [int(child) for child in Path(f"/proc/{process}/task/{process}/children").read_text().split()]


def times(room: Room) -> Dict[str, float]:
    """Returns the processors' time of each part so far, in seconds."""
    spent: Dict[str, float] = {"these callers": time.process_time()}
    for name, part in room.parts.items():
        assert part.process is not None
        kind = name.split(".")[0]
        spent[kind] = spent.get(kind, 0.0) + seconds_of(part.process.pid)
        if kind == "keeper":
            spent["session"] = spent.get("session", 0.0) + sum(seconds_of(child) for child in children(part.process.pid))
    for node in room.broker.nodes:
        assert node.process is not None
        spent["broker"] = spent.get("broker", 0.0) + sum(seconds_of(child) for child in children(node.process.pid))
    return spent


@dataclass
class Load:
    """Callers of a zone, and what they measure: the seconds of each call by what it said."""
    zone: Zone
    server: str
    secret: bytes
    http: Any
    took: Dict[str, List[float]] = field(default_factory=dict)
    statuses: Counter = field(default_factory=Counter)

    def client(self, role: str, name: str) -> Client:
        return Client(self.http, self.server, self.zone.name, sign(self.secret, Person(role, self.zone.name, name), 4_000_000_000))

    async def call(self, what: str, client: Client, path: str, body: Dict[str, Any], good: int) -> None:
        began = time.monotonic()
        try:
            status = (await client.call("POST", path, body)).status
        except asyncio.TimeoutError:
            status = 0
        self.took.setdefault(what, []).append(time.monotonic() - began)
        self.statuses["taken" if status == good else str(status or "no answer")] += 1

    async def report(self, vehicle: int) -> None:
        """One driver reports the crossing 1, now."""
        clock = self.zone.clock()
        body = {"report": "at", "node": 1 + vehicle % 100, "time": written(clock.moment(clock.now()))}
        await self.call("report", self.client("driver", str(vehicle)), f"vehicles/{vehicle}/reports", body, 200)

    async def ask(self, rider: int) -> None:
        body = {"from": 1 + rider % 99, "to": 100, "wait_at_most": 900, "ride_at_most": 3_600}
        await self.call("request", self.client("rider", f"r{rider}"), "requests", body, 201)

    async def steadily(self, what: Any, a_second: float, seconds: float, names: int) -> None:
        """Calls so many times a second, whether answers come or not."""
        tasks, began, made = [], time.monotonic(), 0
        while time.monotonic() < began + seconds:
            while made < (time.monotonic() - began) * a_second:
                made += 1
                tasks.append(asyncio.create_task(what(1 + made % names)))
            await asyncio.sleep(0.005)
        await asyncio.gather(*tasks)

    async def behind_each_other(self, first: int, step: int, until: float) -> None:
        """One caller after which others come: reports as fast as it is answered."""
        vehicle = first
        while time.monotonic() < until:
            await self.report(1 + vehicle % 1_000)
            vehicle += step


def spread(seconds: List[float]) -> str:
    """Returns the median and the ninety-ninth of a hundred in milliseconds."""
    ordered = sorted(seconds)
    return f"median {statistics.median(ordered) * 1000:.0f} ms, 99 of 100 within {ordered[(len(ordered) * 99 - 1) // 100] * 1000:.0f} ms"


def said(statuses: Counter) -> str:
    """Returns how many calls were taken, and the HTTP statuses of the others."""
    return ", ".join(f"{name}: {count}" for name, count in sorted(statuses.items(), reverse=True))


def parts_line(before: Dict[str, float], after: Dict[str, float], seconds: float) -> str:
    """Returns the processors' time of each part in hundredths of one processor."""
    return ", ".join(f"{name} {100 * (after[name] - before[name]) / seconds:.1f} %" for name in sorted(after))


async def measure(words: argparse.Namespace, room: Room, zone: Zone, server: str) -> None:
    import aiohttp

    async with aiohttp.ClientSession(connector=aiohttp.TCPConnector(limit=0)) as http:
        load = Load(zone, server, secret_of(room.folder), http)
        before, began = times(room), time.monotonic()
        await asyncio.gather(load.steadily(load.report, words.reports, words.seconds, 1_000),
                             load.steadily(load.ask, words.riders, words.seconds, 10**9))
        print(f"1,000 drivers who report {words.reports} times a second, {words.riders} requests a second, {words.seconds} s:")
        for what, took in load.took.items():
            print(f"  {what}: {len(took)}, {spread(took)}")
        print(f"  {said(load.statuses)}; processors: {parts_line(before, times(room), time.monotonic() - began)}")
        load = Load(zone, server, secret_of(room.folder), http)
        before, began = times(room), time.monotonic()
        until = began + words.seconds / 2
        await asyncio.gather(*(load.behind_each_other(caller * 7, words.callers, until) for caller in range(words.callers)))
        lasted = time.monotonic() - began
        rate = len(load.took["report"]) / lasted
        print(f"{words.callers} callers, each behind its answer: {rate:.0f} commands a second to the log's line, "
              f"{spread(load.took['report'])}\n  {said(load.statuses)}; processors: {parts_line(before, times(room), lasted)}")


async def come_back(room: Room, zone: Zone, server: str) -> None:
    """Ends the bridge, the web server, and where ride_resume is there the session, by force, and measures how long it takes until a command
    is answered again."""
    import aiohttp

    async with aiohttp.ClientSession() as http:
        client = Load(zone, server, secret_of(room.folder), http).client("driver", "1")
        for name in (f"bridge.{zone.name}", "web.1", *(["session"] if zone.resume else [])):
            began = time.monotonic()
            if name == "session":
                os.kill(int(Path(zone.path("session.pid")).read_text()), signal.SIGKILL)
            else:
                room.end_by_force(name)
                room.start(room.parts[name])
            looking = asyncio.create_task(look_after(room))
            told = await client.surely("POST", "vehicles/1/reports", {"report": "on"}, name)
            took = time.monotonic() - began
            looking.cancel()
            lines = supervisor.health(server)[zone.name]["lines"]
            print(f"{name} ended by force over {lines} lines: the next command is answered ({told.status}) after {took:.1f} s")


async def look_after(room: Room) -> None:
    """Starts again what has ended, until cancelled."""
    while True:
        room.look_after()
        await asyncio.sleep(0.1)


def main() -> int:
    """Runs the measurement. Returns 0."""
    words = Words(description=__doc__, formatter_class=argparse.RawDescriptionHelpFormatter)
    for name, least, most, default, meaning in (
            ("seconds", 4, 3_600, 60, "seconds of the first part; the second takes half"),
            ("reports", 1, 10_000, 100, "reports a second of all drivers"),
            ("riders", 1, 1_000, 5, "requests a second"), ("callers", 1, 1_000, 32, "callers at once in the second part"),
            ("webs", 1, 8, 1, "web servers"), ("nodes", 1, 5, 1, "nodes of the broker"), ("side", 2, 100, 60, "the city's side")):
        words.add_argument(f"--{name}", type=number(least, most), default=default, metavar="N", help=f"{meaning} (default {default})")
    given = words.parse_args()
    print(f"program {PROGRAM}")
    with running("--city", str(given.side), "--vehicles", "1000", "--speed", "1", "--nobody", "--webs", str(given.webs), "--nodes",
                 str(given.nodes)) as (room, zones, server):
        asyncio.run(measure(given, room, zones[0], server))
        asyncio.run(come_back(room, zones[0], server))
    return 0


if __name__ == "__main__":
    sys.exit(main())
