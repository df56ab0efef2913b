"""Tests of the relay: by hand, and between two sessions of the program with a relay that is killed in the middle."""
import os
import subprocess
import sys
import tempfile
import time
import unittest

from files_at_hand import EXAMPLES, ROOT

from running.faults import Fault
from running.handover import FIRST, SECOND, Handover
from trip_log import TripLog, read_fleet

PROGRAM = os.environ.get("RIDE_DISPATCH", os.path.join(ROOT, "crates", "ride_dispatch", "out", "ride_dispatch"))
TOOL = [sys.executable, "-B", os.path.join(ROOT, "tools", "relay.py")]
FLEET = os.path.join(EXAMPLES, "fleet.txt")
TOWN = ["--map", os.path.join(EXAMPLES, "map.gr"), "--fleet", FLEET]
VEHICLES = 5  # of the town
LIMIT = 30.0  # seconds that anything is waited for


class ByHand(unittest.TestCase):
    def setUp(self):
        folder = tempfile.TemporaryDirectory()
        self.addCleanup(folder.cleanup)
        path = os.path.join(folder.name, "fleet.txt")
        with open(path, "w", encoding="ascii") as file:
            file.write("vehicle 1 2 1 0\nvehicle 2 2 4 0\n")
        self.handover = Handover(TripLog(read_fleet(path)), TripLog(read_fleet(path)), [])
        self.path = path
        for session in (FIRST, SECOND):
            self.take(session, "log 1 feeds 2 desks 1")

    def take(self, session, *lines):
        """Takes lines of a session's log."""
        for line in lines:
            self.handover.take(session, line)

    def test_a_vehicle_with_a_rider(self):
        self.take(FIRST, "f1 request 7 2 4 1 600 300 = waiting", "f1 batch = asked 1", "d1 open 1 at 0 requests 7 plans 1@0 2@0",
                  "d1 commit 1 cost 180 seats 7:1:0:0 prices 7:180 pays outcomes 7:confirmed")
        self.assertEqual(self.handover.due(), [(SECOND, "off 1"), (SECOND, "off 2")])
        self.take(SECOND, "f2 off 1 = duty", "f2 off 2 = duty")
        self.assertEqual(self.handover.due(), [(FIRST, "off 1"), (FIRST, "off 2")])
        self.take(FIRST, "f2 off 1 = duty", "f2 off 2 = duty")
        self.assertEqual(self.handover.due(), [(SECOND, "on 2")])  # it stands where the fleet file says
        self.take(SECOND, "f2 on 2 = duty")
        self.take(FIRST, "f2 at 1 2 60 = onmap", "f2 done 1 = picked 7", "f2 at 1 4 180 = onmap")
        self.assertEqual(self.handover.due(), [])
        self.take(FIRST, "f2 done 1 = dropped 7")
        self.assertEqual(self.handover.due(), [(SECOND, "at 1 4 180")])
        self.take(SECOND, "f2 at 1 4 180 = onmap")
        self.assertEqual(self.handover.due(), [(SECOND, "on 1")])
        self.assertFalse(self.handover.is_over())
        self.take(SECOND, "f2 on 1 = duty")
        self.assertEqual((self.handover.due(), self.handover.is_over()), ([], True))

    def test_a_driver_who_rests(self):
        self.handover.resting = [1, 2]
        for session in (FIRST, SECOND):
            self.take(session, "f2 off 1 = duty", "f2 off 2 = duty")
        self.assertEqual((self.handover.due(), self.handover.is_over()), ([], True))
        with self.assertRaisesRegex(Fault, "vehicle 3 is not in the fleet file"):
            Handover(*self.handover.logs, [3])

    def test_what_was_sent_is_due_no_more_and_a_refusal_ends_all(self):
        self.handover.sent.add((SECOND, "off 1"))
        self.assertEqual(self.handover.due(), [(SECOND, "off 2")])
        self.take(SECOND, "f2 off 3 = refused 10")  # another's
        with self.assertRaisesRegex(Fault, r"the second session refuses off 1 \(10\)"):
            self.take(SECOND, "f2 off 1 = refused 10")


class Words(unittest.TestCase):
    def test_what_is_bad_is_one_line(self):
        for words, part in (([], "required"), (["none", "none", FLEET, "--first", "/x", "--second", "/x"], "none: No such file"),
                            ([FLEET, FLEET, FLEET, "--first", "/dev/null", "--second", "/x"], "no named pipe")):
            done = subprocess.run([*TOOL, *words], stdout=subprocess.PIPE, stderr=subprocess.PIPE, text=True, timeout=60, check=False)
            self.assertEqual((done.returncode, done.stderr.count("\n")), (2, 1), done.stderr)
            self.assertIn(part, done.stderr)


class Running:
    """A session of the program in a folder, whose pipes are held."""

    def __init__(self, folder):
        self.folder, self.held, self.offset = folder, [], 0
        os.mkdir(folder)
        for name in ("riders", "drivers"):
            os.mkfifo(os.path.join(folder, name))
            self.held.append(os.open(os.path.join(folder, name), os.O_RDWR | os.O_CLOEXEC))
        pipes = [word for name in ("riders", "drivers") for word in (f"--{name}", os.path.join(folder, name))]
        self.path = os.path.join(folder, "log")
        with open(self.path, "wb") as log:
            self.process = subprocess.Popen([PROGRAM, "serve", *TOWN, *pipes, "--workers", "1", "--desks", "1"], stdout=log)
        self.log = TripLog(read_fleet(FLEET))

    def say(self, feed, *lines):
        """Writes lines into a feed."""
        os.write(self.held[feed], "".join(line + "\n" for line in lines).encode())

    def read(self):
        """Takes what has come on the log."""
        with open(self.path, "rb") as file:
            file.seek(self.offset)
            for line in file:
                if line.endswith(b"\n"):
                    self.offset += len(line)
                    self.log.read(line.decode())

    def end(self):
        """Ends both feeds. Returns what the audit says."""
        for pipe in self.held:
            os.close(pipe)
        self.process.wait(LIMIT)
        return subprocess.run([PROGRAM, "audit", *TOWN, "--log", self.path], stdout=subprocess.PIPE, text=True, check=True).stdout


@unittest.skipUnless(os.path.exists(PROGRAM), f"{PROGRAM} is not there (RIDE_DISPATCH names another)")
class TwoSessions(unittest.TestCase):
    def setUp(self):
        folder = tempfile.TemporaryDirectory()
        self.addCleanup(folder.cleanup)
        self.first, self.second = (Running(os.path.join(folder.name, name)) for name in ("first", "second"))
        for session in (self.first, self.second):
            self.addCleanup(session.process.wait)
            self.addCleanup(session.process.kill)

    def relay(self):
        """Returns a relay between both."""
        words = [self.first.path, self.second.path, FLEET, "--pause", "0.005"]
        pipes = ["--first", os.path.join(self.first.folder, "drivers"), "--second", os.path.join(self.second.folder, "drivers")]
        return subprocess.Popen([*TOOL, *words, *pipes], stdout=subprocess.PIPE, text=True)

    def until(self, holds):
        """Waits until this holds of both logs; looks meanwhile that no vehicle is on duty in both."""
        end = time.monotonic() + LIMIT
        while True:
            self.second.read()
            self.first.read()  # read later, so that one on duty in the second was off duty here before
            both = [number for number, vehicle in self.second.log.vehicles.items()
                    if vehicle.version and vehicle.on_duty and self.first.log.vehicles[number].on_duty]
            self.assertEqual(both, [])
            if holds():
                return
            self.assertLess(time.monotonic(), end)
            time.sleep(0.002)

    def drive(self, session, number):
        """Drives a vehicle's next stop in a session, a minute's way each."""
        vehicle = session.log.vehicles[number]
        stop, version = vehicle.stops[0], vehicle.version
        session.say(1, f"at {number} {stop.node} {vehicle.ready + 60}", f"done {number}")
        self.until(lambda: session.log.vehicles[number].version == version + 2)

    def serve(self, session, *requests):
        """Asks for these requests and waits until all have a vehicle. Returns the vehicles that drive."""
        session.say(0, "clock 25200", *requests, "batch")
        self.until(lambda: session.log.outcomes["confirmed"] == len(requests))
        return [vehicle.id for vehicle in session.log.vehicles.values() if vehicle.stops]

    def test_a_change_with_riders_aboard_and_a_relay_that_is_killed(self):
        driving = self.serve(self.first, "request 101 1 6 1 25500 900", "request 102 9 4 1 25500 900")
        self.assertEqual(len(driving), 2)
        with self.relay() as relay:
            self.until(lambda: sum(vehicle.on_duty and vehicle.version > 0 for vehicle in self.second.log.vehicles.values()) == VEHICLES - 2)
            relay.kill()
        self.drive(self.first, driving[0])
        with self.relay() as relay:
            self.drive(self.first, driving[0])
            self.until(lambda: self.second.log.vehicles[driving[0]].on_duty)
            self.assertFalse(self.second.log.vehicles[driving[1]].on_duty)
            self.serve(self.second, "request 201 23 4 1 25900 900")
            for _ in range(2):
                self.drive(self.first, driving[1])
            said, _ = relay.communicate(timeout=LIMIT)
        self.assertEqual(relay.returncode, 0)
        self.assertEqual(sorted(int(line.split()[1]) for line in said.splitlines()), [1, 2, 3, 4, 5])
        for vehicle in [vehicle for vehicle in self.second.log.vehicles.values() if vehicle.stops]:
            for _ in range(2):
                self.drive(self.second, vehicle.id)
        self.assertRegex(self.first.end(), r"\Ayes .* confirmed 2 away 0 picked 2 dropped 2 finished yes\n\Z")
        self.assertRegex(self.second.end(), r"\Ayes .* confirmed 1 away 0 picked 1 dropped 1 finished yes\n\Z")


if __name__ == "__main__":
    unittest.main()
