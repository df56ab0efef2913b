"""Tests of the dispatcher that deals trips by an exact solver, where scipy is installed: the best order of stops, and the least assignment
against all that there are."""
import itertools
import os
import random
import sys
import unittest

sys.path.insert(0, os.path.dirname(os.path.dirname(os.path.abspath(__file__))))

from player.cases import Trips  # noqa: E402
from player.insertion import Ride  # noqa: E402
from player.riders import Rider  # noqa: E402
from player.roads import Roads, grid_city  # noqa: E402
from player.runs import Setup, fresh, play_against  # noqa: E402
from trip_log import Fleet, Stop, Vehicle  # noqa: E402

if Trips:
    from player.trips import BROKEN, LEFT_OUT, Route, Router, solved

SETTINGS = {"batch": 128, "penalty": 3600, "drive": 1, "wait": 1, "lead": 0, "dwell": 0, "log": 1}


def row_of_four():
    """Crossings 1 to 4 in a row, a minute between neighbours."""
    return Roads(4, [(a, b, 60) for a in range(1, 5) for b in (a - 1, a + 1) if 1 <= b <= 4])


def delay_of(roads, dwell, vehicle, start, stops, rides, due):
    """The sum of the delays of an order of stops, None where it keeps not all limits."""
    time, at, load, delay, picked = start - dwell, vehicle.at, 0, 0, {}
    for stop in stops:
        ride = rides[stop.request]
        time, at = time + dwell + roads.seconds(at, stop.node), stop.node
        load += ride.seats if stop.pickup else -ride.seats
        if stop.pickup:
            picked[ride.id] = time
            if time > ride.latest or load > vehicle.seats:
                return None
        elif ride.id not in picked or time - picked[ride.id] > ride.longest:
            return None
        else:
            delay += time - due[ride.id]
    return delay


@unittest.skipUnless(Trips, "scipy is not installed")
class Orders(unittest.TestCase):
    def test_the_best_order_is_the_least_of_all(self):
        draw, found = random.Random(6), 0
        for _ in range(40):
            roads, dwell = grid_city(4, draw), draw.choice([0, 20])
            rides = {n: Ride(n, *draw.sample(range(1, 17), 2), draw.choice([1, 1, 2]), 0, draw.randint(150, 500), draw.randint(150, 700))
                     for n in (1, 2, 3)}
            due = {n: roads.seconds(ride.origin, ride.destination) for n, ride in rides.items()}
            vehicle = Vehicle(1, at=draw.randint(1, 16), seats=2)
            stops = [Stop(n, pickup, ride.origin if pickup else ride.destination) for n, ride in rides.items() for pickup in (True, False)]
            delays = [delay_of(roads, dwell, vehicle, 0, order, rides, due) for order in itertools.permutations(stops)]
            least = min((delay for delay in delays if delay is not None), default=None)
            route = Router(roads, dwell, rides, due).best(vehicle, 0, [], frozenset(rides))
            self.assertEqual(route.delay if route else None, least)
            if route:
                found += 1
                self.assertEqual(delay_of(roads, dwell, vehicle, 0, route.stops, rides, due), least)
        self.assertTrue(found > 5)


@unittest.skipUnless(Trips, "scipy is not installed")
class Assignments(unittest.TestCase):
    def test_the_least_of_all(self):
        draw, pool = random.Random(7), [1, 2, 3, 4]
        for _ in range(60):
            trips = []
            for _ in range(3):
                sets = [frozenset(draw.sample(pool, draw.randint(1, 3))) for _ in range(draw.randint(0, 4))]
                delays = {members: Route(draw.randint(50, 500), ()) for members in sets}
                trips.append({frozenset(): Route(draw.randint(0, 50), ()), **delays})
            promised = {number: draw.random() < 0.3 for number in pool}

            def cost(chosen):
                """What a choice costs, None where somebody is in two trips."""
                served = [number for members in chosen for number in members]
                left = [number for number in pool if number not in served]
                ways = sum(options[members].delay for options, members in zip(trips, chosen))
                return None if len(served) != len(set(served)) else ways + sum(BROKEN if promised[n] else LEFT_OUT for n in left)

            costs = [cost(chosen) for chosen in itertools.product(*trips)]
            self.assertEqual(cost(solved(trips, pool, promised)), min(value for value in costs if value is not None))


@unittest.skipUnless(Trips, "scipy is not installed")
class Evenings(unittest.TestCase):
    def test_a_promise_may_move_to_another_vehicle(self):
        # Both vehicles leave at 100. Rider 1 at crossing 2 is nearer to the first. Then rider 2 asks at crossing 1, whom it alone can have
        # at the latest second, 130, and it has one seat: rider 1 goes to the second vehicle, which is there at 220.
        roads = row_of_four()
        fleet = Fleet(SETTINGS, [Vehicle(1, at=1, ready=100, seats=1), Vehicle(2, at=4, ready=100, seats=1)])
        riders = [Rider(1, 0, 2, 3, 1, 0, 300, 300), Rider(2, 30, 1, 4, 1, 0, 130, 300)]
        board, dealt = Trips(roads, fresh(fleet)), []

        def note(entry):
            if entry.commit:
                dealt.extend((seat.request, seat.vehicle) for seat in entry.commit.seats)

        board.watchers.append(note)
        figures = play_against(Setup(roads, "", fleet, riders, every=30), board).figures
        self.assertEqual((dealt, figures.values()["served"]), ([(1, 1), (2, 1), (1, 2)], 2))
        self.assertEqual((board.log.requests[1].picked_at, board.log.requests[2].picked_at), (220, 100))

    def test_the_same_seed_gives_the_same_figures(self):
        roads, draw = grid_city(5, random.Random(2)), random.Random(3)
        riders = [Rider(n, 20 * n, *draw.sample(range(1, 26), 2), 1, 0, 20 * n + 300, 700) for n in range(1, 25)]
        fleet = Fleet(SETTINGS, [Vehicle(1, at=1, seats=3), Vehicle(2, at=25, seats=3)])

        def values():
            return play_against(Setup(roads, "", fleet, riders, every=30, tick=30), Trips(roads, fresh(fleet))).figures.values()

        self.assertEqual(values(), values())
        self.assertTrue(values()["served"] > 5)


if __name__ == "__main__":
    unittest.main()
