"""Two companies over one map: each is a zone, with its own fleet file, session, streams and kept log."""
import asyncio
import shutil
import tempfile
import unittest
from pathlib import Path
from typing import List

from trial_room import needs_broker, running

from trip_log import read_fleet, read_log

from control_room import HERE
from control_room.client import Client, Told
from control_room.parts import Room
from control_room.tokens import Person, secret_of, sign
from control_room.zones import Zone

EXAMPLES = HERE.parent / "examples"
RIDE = {"from": 1, "to": 6, "wait_at_most": 900, "ride_at_most": 1_800}


@needs_broker
class Companies(unittest.TestCase):
    def own(self, name: str, fleet: str) -> str:
        """Returns a new folder with examples/' map and this fleet file of it."""
        folder = Path(tempfile.mkdtemp(prefix="control_room.company.")) / name
        self.addCleanup(shutil.rmtree, folder.parent)
        folder.mkdir()
        shutil.copy(EXAMPLES / "map.gr", folder / "map.gr")
        shutil.copy(EXAMPLES / fleet, folder / "fleet.txt")
        return str(folder)

    def test_each_company_serves_its_own_riders(self) -> None:
        north, south = self.own("north", "north_cars.txt"), self.own("south", "south_cabs.txt")
        words = ("--own", north, "--own", south, "--begin", "25200", "--columns", "6", "--nobody")
        with running(*words) as (room, zones, server):
            told = asyncio.run(self.ask(room, zones, server))
            self.assertEqual([one.status for one in told], [201, 201, 403])
            for zone in zones:
                self.assertEqual(len(read_log(zone.kept_log, read_fleet(zone.fleet)).requests), 1)

    async def ask(self, room: Room, zones: List[Zone], server: str) -> List[Told]:
        """Returns what a rider of each company hears, and then the first one's who asks the other company."""
        import aiohttp

        async with aiohttp.ClientSession() as http:
            tokens = [sign(secret_of(room.folder), Person("rider", zone.name, "ada"), 4_000_000_000) for zone in zones]
            askers = [Client(http, server, zone.name, token) for zone, token in zip(zones, tokens)]
            askers.append(Client(http, server, zones[1].name, tokens[0]))
            return [await asker.surely("POST", "requests", RIDE, f"ask {place}") for place, asker in enumerate(askers)]


if __name__ == "__main__":
    unittest.main()
