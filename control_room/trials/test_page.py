"""The office's page in a real browser: a ride from its request to the drop-off, keys, a telephone's width, and 1,000 vehicles."""
import asyncio
import itertools
import os
import threading
import time
import unittest
from typing import Any, Callable, Dict, List

from browser import browser, needs_browser
from trial_room import needs_broker, running

from player.roads import read_map
from trip_log import read_fleet

from control_room.parts import Room
from control_room.supervisor import health
from control_room.tokens import Person, secret_of, sign
from control_room.zones import Zone

# Where it is set pictures of the page are written there.
PICTURES = os.environ.get("CONTROL_ROOM_PICTURES", "")


def address(room: Room, zone: Zone, server: str) -> str:
    """Returns the page's address with a token of the office."""
    return f"{server}/#zone={zone.name}&token={sign(secret_of(room.folder), Person('office', 'all', 'trial'), 4_000_000_000)}"


def wait_until(what: str, is_so: Callable[[], bool], seconds: float = 60.0) -> None:
    """Ends once something is so; raises AssertionError after so many seconds."""
    until = time.monotonic() + seconds
    while not is_so():
        if time.monotonic() > until:
            raise AssertionError(f"{what} did not come in {seconds:.0f} s")
        time.sleep(0.05)


def picture(driver: Any, name: str) -> None:
    if PICTURES:
        driver.save_screenshot(os.path.join(PICTURES, name))


def count(driver: Any, name: str) -> int:
    """Returns one of the page's counts of the day, -1 where it is not shown yet."""
    text = driver.execute_script(f"return document.querySelector('[data-count={name}]')?.textContent ?? '-1'")
    return int(text.replace(",", ""))


def shown(driver: Any) -> List[str]:
    """Returns the states of the rides that a rider's page shows."""
    states: List[str] = driver.execute_script("return [...document.querySelectorAll('[data-state]')].map(box => box.dataset.state)")
    return states


def complaints(driver: Any) -> List[Dict[str, Any]]:
    """Returns what the browser found wrong."""
    return [entry for entry in driver.get_log("browser") if entry["level"] in ("SEVERE", "WARNING")]


class Rides(threading.Thread):
    """One rider and the drivers of a city, over HTTP, in a thread of their own."""

    def __init__(self, room: Room, zone: Zone, server: str):
        super().__init__(daemon=True)
        self.words = (zone, server, secret_of(room.folder))
        self.states: List[str] = []

    def run(self) -> None:
        asyncio.run(self._run())

    async def _run(self) -> None:
        import aiohttp
        from control_room.simulate import Crowd, Simulation

        async with aiohttp.ClientSession() as http:
            simulation = Simulation(*self.words, Crowd(an_hour=100_000, in_all=1, seed=3), http)
            simulation.listen = lambda one: self.states.append(one["state"])
            driving = asyncio.create_task(simulation.drive())
            await simulation.ask()
            await simulation.wait_for_riders()
            simulation.end_drivers()
            await driving


class Moves(threading.Thread):
    """The drivers of 1,000 idle vehicles, who go about: each is told to the next crossing, 100 of them a second."""

    def __init__(self, room: Room, zone: Zone, server: str):
        super().__init__(daemon=True)
        self.zone, self.server, self.secret = zone, server, secret_of(room.folder)
        self.over = False

    def run(self) -> None:
        asyncio.run(self._run())

    async def _run(self) -> None:
        import aiohttp
        from control_room.client import Client

        roads = read_map(self.zone.map)
        next_node = {tail: head for tail, head, _seconds in roads.arcs}
        at = {vehicle.id: vehicle.at for vehicle in read_fleet(self.zone.fleet).vehicles if vehicle.at is not None}
        async with aiohttp.ClientSession() as http:
            for vehicle in itertools.cycle(list(at)):
                if self.over:
                    return
                at[vehicle] = next_node[at[vehicle]]
                token = sign(self.secret, Person("driver", self.zone.name, str(vehicle)), 4_000_000_000)
                client = Client(http, self.server, self.zone.name, token)
                body = {"report": "at", "node": at[vehicle], "in": 60}
                asyncio.create_task(client.surely("POST", f"vehicles/{vehicle}/reports", body, os.urandom(8).hex()))
                await asyncio.sleep(0.01)


@needs_broker
@needs_browser
class Page(unittest.TestCase):
    def test_a_ride_from_its_request_to_the_drop_off(self) -> None:
        with running("--city", "8", "--vehicles", "5", "--speed", "10", "--nobody") as (room, zones, server), browser(1280, 900) as driver:
            driver.get(address(room, zones[0], server))
            wait_until("the map", lambda: count(driver, "idle") == 5)
            self.assertNotIn("token", driver.current_url)
            rides = Rides(room, zones[0], server)
            rides.start()
            seen: List[str] = []

            def see(name: str, wanted: int) -> None:
                wait_until(f"{name} {wanted}", lambda: count(driver, name) == wanted, 120)
                seen.append(name)

            see("requests", 1)
            see("confirmed", 1)
            see("driving", 1)
            self.keys(driver)
            see("picked", 1)
            see("dropped", 1)
            wait_until("an idle fleet", lambda: count(driver, "idle") == 5)
            wait_until("the audit's yes", lambda: driver.find_element("id", "audit").text.startswith("audit: yes"), 120)
            rides.join(30)
            told = list(dict.fromkeys(rides.states))
            self.assertGreaterEqual(len(told), 3)  # A seat may come before the rider is told of the waiting.
            self.assertEqual(told, ["waiting", "confirmed", "aboard", "dropped"][-len(told):])
            self.assertEqual(complaints(driver), [])

    def keys(self, driver: Any) -> None:
        """Goes about the map by keys alone."""
        from selenium.webdriver.common.keys import Keys

        chart = driver.find_element("id", "map")
        driver.execute_script("document.getElementById('map').focus()")
        for _ in range(5):  # The one that drives has a plan.
            chart.send_keys("n")
            if "Plan:" in driver.find_element("id", "vehicle").text:
                break
        self.assertRegex(driver.find_element("id", "vehicle").text, r"^Vehicle \d: .*Plan: ")
        chart.send_keys("+", Keys.ARROW_LEFT, "f", "0")
        chart.send_keys(Keys.ESCAPE)
        self.assertFalse(driver.find_element("id", "vehicle").is_displayed())

    def test_a_ride_by_the_pages_of_its_rider_and_its_driver(self) -> None:
        words = ("--city", "3", "--vehicles", "1", "--speed", "10", "--nobody")
        with running(*words) as (room, zones, server), browser(390, 844, True) as rider, browser(390, 844, True) as driver:
            for page, role, name in ((rider, "rider", "ada"), (driver, "driver", "1")):
                page.get(f"{server}/telephone#token={sign(secret_of(room.folder), Person(role, zones[0].name, name), 4_000_000_000)}")
            rider.find_element("name", "from").send_keys("1")
            rider.find_element("name", "to").send_keys("9")
            rider.find_element("css selector", "#ask button").click()
            wait_until("a seat", lambda: shown(rider) == ["confirmed"])
            self.assertRegex(rider.find_element("id", "rides").text, r"Confirmed: vehicle 1, at the latest \d\d:\d\d:\d\d\. It should come at")
            picture(rider, "rider.png")
            picture(driver, "driver.png")
            wait_until("the drop-off", lambda: self.drive_on(driver) or shown(rider) == ["dropped"], 120)
            self.assertIn("You arrived at", rider.find_element("id", "rides").text)
            self.assertIn("you are idle", driver.find_element("id", "stops").text)

    @staticmethod
    def drive_on(driver: Any) -> bool:
        """Presses what a driver would press now: a stop is served, or the next crossing is reached."""
        for name in ("done", "next"):
            button = driver.find_element("id", name)
            if button.is_enabled():
                button.click()
                time.sleep(0.4)
                return False
        return False

    def test_a_bad_token_asks_for_one(self) -> None:
        with running("--town", "--nobody") as (room, zones, server), browser(390, 844, True) as driver:
            driver.get(f"{server}/#zone=millbrook&token=office.all.desk.4000000000.00")
            wait_until("the form", lambda: driver.find_element("id", "enter").is_displayed())
            self.assertIn("not of this control room", driver.find_element("id", "enter-why").text)
            token = sign(secret_of(room.folder), Person("office", "all", "trial"), 4_000_000_000)
            driver.find_element("id", "enter-token").send_keys(token)
            driver.find_element("css selector", "#enter button").click()
            wait_until("the map", lambda: count(driver, "idle") == 5)
            self.assertLessEqual(driver.execute_script("return document.documentElement.scrollWidth"), 390)

    def test_a_thousand_vehicles_at_five_pictures_a_second(self) -> None:
        words = ("--city", "40", "--vehicles", "1000", "--speed", "5", "--nobody")
        with running(*words) as (room, zones, server), browser(1280, 900) as driver:
            driver.get(address(room, zones[0], server))
            wait_until("the map", lambda: count(driver, "idle") == 1_000)
            moves = Moves(room, zones[0], server)
            moves.start()
            wait_until("500 reports", lambda: health(server)[zones[0].name]["lines"] > 500)
            before, began = driver.execute_script("return Number(document.body.dataset.pictures)"), time.monotonic()
            slowest = 0.0
            while time.monotonic() < began + 10:
                slowest = max(slowest, float(driver.execute_script("return document.body.dataset.milliseconds")))
                time.sleep(0.1)
            rate = (driver.execute_script("return Number(document.body.dataset.pictures)") - before) / (time.monotonic() - began)
            print(f"1,000 vehicles: {rate:.1f} pictures a second, the slowest of those looked at took {slowest:.0f} ms")
            picture(driver, "thousand.png")
            moves.over = True
            self.assertGreaterEqual(rate, 5.0)
            self.assertEqual(complaints(driver), [])


if __name__ == "__main__":
    unittest.main()
