"""Tests of the simulator's parts over a row of four crossings, a minute between neighbours, and over drawn towns."""
import itertools
import os
import random
import sys
import tempfile
import unittest
from pathlib import Path

HERE = os.path.dirname(os.path.abspath(__file__))
sys.path.insert(0, os.path.dirname(HERE))

from player.ahead import Advisor  # noqa: E402
from player.board import Board, cheapest_insertion, nearest_idle  # noqa: E402
from player.drivers import Drivers, Habits, Order  # noqa: E402
from player.files import InputError, open_fleet, write_fleet  # noqa: E402
from player.insertion import Offer, PlanBook, Ride, with_ride  # noqa: E402
from player.manhattan import AVENUES, Places, asking_times, drawn_ride, manhattan  # noqa: E402
from player.pairing import least_pairing  # noqa: E402
from player.riders import Limits, Office, Rider, read_riders  # noqa: E402
from player.roads import Roads, grid_city, read_map  # noqa: E402
from player.runs import Setup, fresh, play_against  # noqa: E402
from player.sheets import Certifier, sheet_of  # noqa: E402
from trip_log import Fleet, Stop, TripLog, Vehicle  # noqa: E402

SETTINGS = {"batch": 32, "penalty": 3600, "drive": 1, "wait": 0, "lead": 0, "dwell": 0, "log": 1}


def row_of_four():
    return Roads(4, [(a, b, 60) for a in range(1, 5) for b in (a - 1, a + 1) if 1 <= b <= 4])


def fleet_of(*stands, **settings):
    """Vehicles of two seats at these crossings, from second 0 on."""
    return Fleet({**SETTINGS, **settings}, [Vehicle(number, at=node, seats=2) for number, node in enumerate(stands, 1)])


class RoadMaps(unittest.TestCase):
    def test_the_way_is_the_shortest(self):
        # 1 to 3 takes 200 at once, and 60 three times by 2 and 4.
        roads = Roads(4, [(1, 2, 60), (2, 4, 60), (4, 3, 60), (1, 3, 200), (3, 1, 5)])
        self.assertEqual([roads.seconds(node, 3) for node in (1, 2, 3, 4)], [180, 120, 0, 60])
        self.assertEqual((roads.next_node(1, 3), roads.next_node(3, 2)), ((2, 60), (1, 5)))

    def test_no_way(self):
        self.assertIsNone(Roads(2, [(1, 2, 60)]).seconds(2, 1))

    def test_times_are_those_of_all_walks(self):
        roads = grid_city(4, random.Random(5))
        least = {(a, b): 0 if a == b else 10 ** 9 for a in range(1, 17) for b in range(1, 17)}
        least.update({(tail, head): seconds for tail, head, seconds in roads.arcs})
        for by, a, b in itertools.product(range(1, 17), repeat=3):  # Floyd 1962
            least[a, b] = min(least[a, b], least[a, by] + least[by, b])
        self.assertEqual({pair: roads.seconds(*pair) for pair in least}, least)

    def test_a_grid_has_both_directions(self):
        arcs = grid_city(3, random.Random(1)).arcs
        self.assertEqual(len(arcs), 4 * 3 * 2)
        self.assertEqual(sorted(head for tail, head, _ in arcs if tail == 5), [2, 4, 6, 8])

    def test_files(self):
        with tempfile.TemporaryDirectory() as folder:
            path = f"{folder}/map.gr"
            roads = grid_city(3, random.Random(1))
            roads.write(path, "a town")
            self.assertEqual(read_map(path).arcs, roads.arcs)
            for text in ("", "p sp 2 1\n", "a 1 2 3\n", "p sp 2 1\na 1 3 60\n", "p sp 2 1\na 1 2\n", "p sp x 1\n", "p sp 1 0\np sp 1 0\n"):
                Path(path).write_text(text)
                with self.assertRaises(InputError, msg=text):
                    read_map(path)

    def test_manhattan_is_one_way_and_whole(self):
        roads = manhattan(random.Random(1), 12)
        self.assertEqual(roads.nodes, 12 * AVENUES)
        self.assertTrue(all(seconds >= 0 for seconds in roads.toward(1).seconds[1:]))
        ends = {(tail, head) for tail, head, _ in roads.arcs}
        self.assertIn((AVENUES + 2, 2), ends)  # the second avenue runs to the south
        self.assertNotIn((2, AVENUES + 2), ends)


class Riders(unittest.TestCase):
    def riders_of(self, text, limits=Limits()):
        with tempfile.TemporaryDirectory() as folder:
            path = f"{folder}/requests"
            Path(path).write_text(text)
            return read_riders(path, row_of_four(), limits)

    def test_a_feed(self):
        riders, left_out = self.riders_of(
            "# a morning\nclock 100\nrequest 7 2 4 1 600 300\nat 1 2 5\nclock 130\nbook 200 8 1 4 2 900 400\ncancel 7\nrequest 9 9 1 1 5 5\n"
            "book 500 10 1 4 1 900 400\nunbook 10\n")
        self.assertEqual(riders, [Rider(7, 100, 2, 4, 1, 0, 600, 300, 130), Rider(8, 200, 1, 4, 2, 0, 900, 400)])
        self.assertEqual(left_out, 2)  # the driver's report, and a request from no crossing

    def test_a_table(self):
        text = "time,from,to,seats,longest\n00:02,2,4,,\n60,1,3,2,500\n"
        riders, _ = self.riders_of(text, Limits(wait=300, detour=100))
        self.assertEqual(riders, [Rider(2, 60, 1, 3, 2, 0, 360, 500), Rider(1, 120, 2, 4, 1, 0, 420, 220)])

    def test_faulty_tables(self):
        for text in ("", "clock 5\n", "time from to\n", "time from to price\n1 2 3 4\n", "time from to\n1 2\n", "time from to\nx 2 3\n",
                     "time from to\n5 2 9\n", "time from to\n07:60 2 3\n", "time from to id\n5 2 3 0\n",
                     "time from to longest\n5 2 3 -1\n",
                     "time from to latest\n5 2 3 9999999999\n", "id time from to\n1 5 2 3\n1 5 2 4\n"):
            with self.assertRaises(InputError, msg=text):
                self.riders_of(text)

    def test_who_asks_when(self):
        riders = [Rider(7, 100, 2, 4, 1, 0, 200, 300, 150), Rider(8, 120, 1, 4, 1, 0, 170, 300)]
        office = Office(riders, 30, 1.0, random.Random(1))
        self.assertEqual((office.step, office.next_moment()), (10, 100))
        self.assertEqual(office.due(120), [(100, "request 7 2 4 1 200 300"), (120, "request 8 1 4 1 170 300")])
        office.turned_away(8, 130)
        self.assertEqual(office.due(160), [(150, "cancel 7"), (160, "request 18 1 4 1 170 300")])
        office.turned_away(18, 160)  # the latest pickup is over before 190
        self.assertIsNone(office.next_moment())

    def test_a_share_asks_again(self):
        riders = [Rider(number, 0, 1, 2, 1, 0, 900, 900) for number in range(1, 1001)]
        self.assertEqual(len(Office(riders, 30, 0.0, random.Random(1)).asking_again), 0)
        self.assertTrue(400 < len(Office(riders, 30, 0.5, random.Random(1)).asking_again) < 600)

    def test_an_evening_has_its_marginals(self):
        draw = random.Random(3)
        times = asking_times(19 * 3600, 21 * 3600, 5000, draw)
        # At seven 6.3 of 100 rides of a day, at eight 5.9: 5,000 and 4,683, each give or take four standard deviations.
        first = sum(time < 20 * 3600 for time in times)
        self.assertTrue(abs(first - 5000) < 283 and abs(len(times) - first - 4683) < 274)
        roads = manhattan(random.Random(1))
        lengths = [drawn_ride(roads, Places(roads.nodes, 186), draw)[2] for _ in range(150)]
        self.assertTrue(480 < sum(lengths) / 150 < 690)


class NoHoldUps(random.Random):
    def random(self):
        return 1.0


class HoldUps(NoHoldUps):
    def random(self):
        return 0.0

    def randint(self, least, most):
        return most


class DriversReport(unittest.TestCase):
    def drivers_of(self, at, ready, stops, draw=NoHoldUps(), **habits):
        log = TripLog(Fleet(dict(SETTINGS), [Vehicle(7, at=at, ready=ready, stops=stops, seats=2)]))
        return Drivers(row_of_four(), log, Habits(hold_ups=0.5, **habits), draw)

    def test_what_is_reported(self):
        there = [Stop(1, True, 3)]
        for said, now, at, ready, stops in (
                ([], 500, 1, 100, []),  # idle
                ([], 500, 1, 501, there),  # on the way
                (["at 7 2 560"], 500, 1, 500, there),  # the next crossing
                (["done 7"], 500, 3, 480, there)):  # a stop that is served
            self.assertEqual(self.drivers_of(at, ready, stops).reports(now), said)

    def test_the_next_stop_alone(self):
        self.assertEqual(self.drivers_of(1, 500, [Stop(1, True, 4)], report="stop").reports(500), ["at 7 4 680"])

    def test_a_hold_up_makes_the_report_late(self):
        self.assertEqual(self.drivers_of(1, 500, [Stop(1, True, 3)], HoldUps()).reports(500), ["at 7 2 740"])

    def test_a_break_begins_when_idle_and_ends(self):
        drivers = self.drivers_of(1, 0, [Stop(1, True, 1)])
        vehicle = drivers.log.vehicles[7]
        drivers.breaks[7] = 400
        self.assertEqual(drivers.reports(500), ["done 7"])
        vehicle.stops.clear()
        self.assertEqual((drivers.reports(399), drivers.reports(500)), ([], ["off 7"]))
        vehicle.on_duty = False
        self.assertEqual((drivers.reports(1099), drivers.reports(1100)), ([], ["on 7"]))

    def test_an_order_ahead_is_obeyed_as_long_as_its_version_stands(self):
        drivers = self.drivers_of(1, 0, [])
        vehicle = drivers.log.vehicles[7]
        drivers.obey([Order(7, 1, 3)], 500)
        self.assertEqual((drivers.reports(500), drivers.late_orders), ([], 1))
        drivers.obey([Order(7, 0, 3)], 500)
        self.assertEqual(drivers.reports(500), ["at 7 2 560"])
        vehicle.at, vehicle.ready, vehicle.version = 2, 560, 1
        self.assertEqual((drivers.reports(559), drivers.reports(560)), ([], ["at 7 3 620"]))
        vehicle.at, vehicle.ready, vehicle.version = 3, 620, 2
        self.assertEqual(drivers.reports(620), [])
        drivers.obey([Order(7, 2, 1)], 700)
        vehicle.version = 4  # a ride came and went
        self.assertEqual(drivers.reports(700), [])

    def test_an_idle_vehicle_drives_home(self):
        drivers = self.drivers_of(3, 500, [])
        drivers.home = lambda vehicle: None if vehicle.at == 1 else 1
        self.assertEqual((drivers.reports(499), drivers.reports(500)), ([], ["at 7 2 560"]))


class Insertion(unittest.TestCase):
    def book_of(self, vehicle, rides=(), **settings):
        log = TripLog(Fleet({**SETTINGS, **settings}, [vehicle]))
        book = PlanBook(row_of_four(), log)
        book.ride = {ride.id: ride for ride in rides}.__getitem__
        return book, book.plan(vehicle)

    def test_an_idle_vehicle(self):
        book, plan = self.book_of(Vehicle(1, at=1, seats=2), wait=2, dwell=10)
        # It leaves at 100, is there at 160, stands for 10 and drives 120: 190 driven, and twice 60 waited.
        self.assertEqual(book.best_offer(plan, Ride(7, 2, 4, 1, 0, 160, 130), 100, 10 ** 9), Offer(310, 0, 0))
        self.assertIsNone(book.best_offer(plan, Ride(7, 2, 4, 1, 0, 159, 130), 100, 10 ** 9))
        self.assertIsNone(book.best_offer(plan, Ride(7, 2, 4, 1, 0, 160, 129), 100, 10 ** 9))
        self.assertIsNone(book.best_offer(plan, Ride(7, 2, 4, 1, 0, 160, 130), 100, 310))

    def test_on_the_way_nothing_is_driven_more(self):
        first = Ride(7, 1, 4, 1, 0, 600, 300, 0)
        vehicle = Vehicle(1, at=1, ready=100, seats=2, rides=[7], stops=[Stop(7, False, 4)])
        book, plan = self.book_of(vehicle, [first])
        self.assertEqual(book.best_offer(plan, Ride(8, 2, 3, 1, 0, 600, 300), 100, 10 ** 9), Offer(0, 0, 0))
        self.assertIsNone(book.best_offer(plan, Ride(8, 2, 3, 2, 0, 200, 300), 100, 10 ** 9))  # no room, and behind it too late

    def test_offers_are_the_least_of_all_places(self):
        """Against a plain search: every pair of places, the whole plan timed and judged anew."""
        draw = random.Random(4)
        for _ in range(60):
            roads = grid_city(4, draw)
            wishes = [Ride(n, *draw.sample(range(1, 17), 2), draw.choice([1, 1, 2]), 0, draw.randint(200, 900), draw.randint(200, 900))
                      for n in range(1, 5)]
            settings = {**SETTINGS, "wait": draw.randint(0, 2), "dwell": draw.choice([0, 20])}
            log = TripLog(Fleet(settings, [Vehicle(1, at=draw.randint(1, 16), seats=2)]))
            book = PlanBook(roads, log)
            book.ride = {ride.id: ride for ride in wishes}.__getitem__
            vehicle = log.vehicles[1]
            for ride in wishes:
                offer = book.best_offer(book.plan(vehicle), ride, 0, 10 ** 9)
                self.assertEqual(offer, plain_best(roads, settings, vehicle, {r: book.ride(r) for r in vehicle.rides}, ride))
                if offer:
                    vehicle.stops = list(with_ride(vehicle.stops, ride, offer.pickup, offer.dropoff))
                    vehicle.rides.append(ride.id)
                    vehicle.version += 1


    def test_costs_are_those_of_the_program(self):
        """The cheapest places of each seat of the morning of examples/ cost together what its log says of each batch."""
        examples = Path(HERE).parents[1] / "examples"
        roads = read_map(str(examples / "map.gr"))
        log = TripLog(open_fleet(str(examples / "fleet.txt"), roads.nodes))
        book, plans, costs = PlanBook(roads, log), {}, []
        for line in (examples / "morning.log").read_text().splitlines(keepends=True):
            if " open " in line:
                plans = {plan.vehicle: plan for plan in book.plans()}
            entry = log.read(line)
            if entry and entry.commit:
                seats = {seat.request: seat.vehicle for seat in entry.commit.seats}
                offers = [book.best_offer(plans[vehicle], book.ride(number)._replace(picked=None), log.clock, 10 ** 9)
                          for number, vehicle in seats.items()]
                away = len(entry.commit.outcomes) - len(seats)
                costs.append((sum(offer.cost for offer in offers) + away * log.settings["penalty"], entry.commit.cost))
        self.assertEqual(costs, [(925, 925), (45, 45), (1005, 1005), (900, 900), (725, 725)])


def plain_best(roads, settings, vehicle, rides, ride):
    """The cheapest offer by trying all places, the first of those that cost the same."""
    def timed(stops):
        time, at, times = vehicle.ready - settings["dwell"], vehicle.at, []
        for stop in stops:
            time, at = time + settings["dwell"] + roads.seconds(at, stop.node), stop.node
            times.append(time)
        return times

    def is_kept(stops, times):
        load, picked, wanted = 0, {}, {**rides, ride.id: ride}
        for stop, time in zip(stops, times):
            other = wanted[stop.request]
            load += other.seats if stop.pickup else -other.seats
            if stop.pickup:
                picked[other.id] = time
            if load > vehicle.seats or (stop.pickup and time > other.latest) or time - picked[other.id] > other.longest:
                return False
        return True

    old, offers = timed(vehicle.stops), []
    for i in range(len(old) + 1):
        for j in range(i, len(old) + 1):
            stops = with_ride(vehicle.stops, ride, i, j)
            times = timed(stops)
            if is_kept(stops, times):
                driven = times[-1] - (old[-1] if old else vehicle.ready)
                offers.append(Offer(settings["drive"] * driven + settings["wait"] * times[i], i, j))
    return min(offers, key=lambda offer: offer.cost) if offers else None


class Pairings(unittest.TestCase):
    def test_of_the_formats_page(self):
        self.assertEqual(least_pairing([{1: 120}], 600), ([1], [120], {}))
        self.assertEqual(least_pairing([{}], 119), ([None], [119], {}))
        columns, prices, pays = least_pairing([{1: 120}, {1: 180}], 600)
        self.assertEqual((columns, prices, pays), ([1, None], [540, 600], {1: 420}))

    def test_prices_certify_drawn_pairings(self):
        draw = random.Random(3)
        for _ in range(300):
            without = draw.randint(1, 12)
            rows = [{10 + c: draw.randint(0, 12) for c in range(draw.randint(0, 4)) if draw.random() < 0.7} for _ in range(draw.randint(0, 4))]
            columns, prices, pays = least_pairing(rows, without)
            taken = [column for column in columns if column is not None]
            self.assertEqual(len(taken), len(set(taken)))
            cost = sum(without if column is None else row[column] for row, column in zip(rows, columns))
            self.assertEqual(cost, sum(prices) - sum(pays.values()))
            for row, price in zip(rows, prices):
                self.assertTrue(price <= without and all(price <= cost + pays.get(column, 0) for column, cost in row.items()))


# Sheets over two requests and a vehicle at crossing 1, and what is wrong with each.
WRONG_SHEETS = (
    ("moves 1 cost 720 goes 7:1@0:3:120 prices 7:540 8:600 pays 1:420", ""),
    ("moves 2 cost 720 goes 7:1@0:3:120 prices 7:540 8:600 pays 1:420", "another batch, or other requests"),
    ("moves 1 cost 120 goes 7:1@0:3:120 prices 7:540 pays 1:420", "another batch, or other requests"),
    ("moves 1 cost 720 goes 7:1@1:3:120 prices 7:540 8:600 pays 1:420", "a vehicle that is not idle at this version"),
    ("moves 1 cost 720 goes 7:2@0:3:120 prices 7:540 8:600 pays 1:420", "a vehicle that is not idle at this version"),
    ("moves 1 cost 720 goes 7:1@0:4:180 prices 7:540 8:600 pays 1:420", "a node that is not the pickup of a request that was left out"),
    ("moves 1 cost 720 goes 9:1@0:3:120 prices 7:540 8:600 pays 1:420", "a node that is not the pickup of a request that was left out"),
    ("moves 1 cost 720 goes 7:1@0:3:119 prices 7:540 8:600 pays 1:420", "another time, or one out of reach"),
    ("moves 1 cost 300 goes 7:1@0:3:120 8:1@0:4:180 prices 7:120 8:180 pays", "a vehicle or a request twice"),
    ("moves 1 cost 721 goes 7:1@0:3:120 prices 7:540 8:600 pays 1:420", "another cost"),
    ("moves 1 cost 1200 goes prices 7:600 8:600 pays", "a price above the reach, or above a pair's time and payment"),
    ("moves 1 cost 720 goes 7:1@0:3:120 prices 7:539 8:600 pays 1:420", "prices that do not sum to the cost and the payments"),
    ("moves 1 cost 720 goes 7:1@0:3:120 prices 7:120 8:600 pays 1:0", "prices that do not sum to the cost and the payments"),
    ("moves 1 cost 720 goes 7:1@0:3:120 prices 7:541 8:599 pays 1:420", "a price above the reach, or above a pair's time and payment"),
    ("moves 1 cost 720 goes 7:1@0:3:120 prices 7:539 8:601 pays 1:420", "a price above the reach, or above a pair's time and payment"),
)


class Sheets(unittest.TestCase):
    def sheet_of(self, reach, *requests):
        """The sheet of a vehicle at crossing 1, when all of a batch are turned away."""
        log = TripLog(fleet_of(1))
        advisor = Advisor(row_of_four(), log, reach, checks=True)
        numbers = " ".join(request.split()[1] for request in requests)
        lines = ["log 1 feeds 2 desks 1", *(f"f1 {request} = waiting" for request in requests), "f1 batch = asked 1",
                 f"d1 open 1 at 0 requests {numbers} plans 1@0",
                 f"d1 commit 1 cost 9 seats prices {' '.join(n + ':9' for n in numbers.split())} pays outcomes "
                 + " ".join(n + ":away" for n in numbers.split())]
        for line in lines:
            entry = log.read(line + "\n")
            if entry:
                advisor.take(entry)
        return advisor.last.line()

    def test_of_the_formats_page(self):
        self.assertEqual(self.sheet_of(600, "request 7 3 4 1 100 300"), "moves 1 cost 120 goes 7:1@0:3:120 prices 7:120 pays")
        self.assertEqual(self.sheet_of(119, "request 7 3 4 1 100 300"), "moves 1 cost 119 goes prices 7:119 pays")
        self.assertEqual(self.sheet_of(600, "request 7 3 4 1 100 300", "request 8 4 3 1 100 300"),
                         "moves 1 cost 720 goes 7:1@0:3:120 prices 7:540 8:600 pays 1:420")

    def test_what_is_wrong_is_not_certified(self):
        certifier = Certifier(row_of_four().arcs, 600)
        for line, fault in WRONG_SHEETS:
            self.assertEqual(certifier.fault_of(sheet_of(line), 1, [(7, 3), (8, 4)], {1: (1, 0)}), fault, line)

    def test_lines_that_are_no_sheets(self):
        for line in ("", "moves", "moves 1 cost x goes prices pays", "moves 1 price 1 goes prices pays", "moves 1 cost 1 goes prices  pays",
                     "moves 1 cost 01 goes prices pays", "moves 1 cost 1 prices goes pays", "moves 1 cost 1 goes 7:1:3:120 prices pays"):
            with self.assertRaises(ValueError):
                sheet_of(line)


class Evenings(unittest.TestCase):
    """Evenings against the boards of this process."""

    def outcome_of(self, choose, riders, stands=(1,), **more):
        roads = row_of_four()
        fleet = fleet_of(*stands)
        setup = Setup(roads, "", fleet, riders, every=1, **more)
        return play_against(setup, Board(roads, fresh(fleet), choose)).figures.values()

    def test_two_share_or_not(self):
        riders = [Rider(1, 0, 1, 4, 1, 0, 100, 900), Rider(2, 10, 2, 3, 1, 0, 100, 900)]
        values = self.outcome_of(cheapest_insertion, riders)
        self.assertEqual((values["served"], values["pooled, % of served"], values["driven, s"]), (2, 100.0, 180))
        self.assertEqual((values["wait, mean s"], values["delay aboard, mean s"]), (25.0, 0.0))  # 0 and 50
        values = self.outcome_of(nearest_idle, riders)
        self.assertEqual((values["served"], values["away"]), (1, 1))

    def test_who_asks_again_is_served_when_the_vehicle_is_free(self):
        riders = [Rider(1, 0, 1, 4, 1, 0, 100, 900), Rider(2, 10, 3, 2, 1, 0, 500, 900)]
        values = self.outcome_of(nearest_idle, riders, again=30)
        # Asks at 10, 40, .. 190, when the vehicle is idle at 4 since 180; it is at 3 at 250.
        self.assertEqual((values["served"], values["requests, with those asked again"], values["wait, 9 of 10 within s"]), (2, 8, 240))

    def test_the_same_seed_gives_the_same_figures(self):
        roads = grid_city(6, random.Random(2))
        draw = random.Random(3)
        riders = [Rider(n, 9 * n, *draw.sample(range(1, 37), 2), 1, 0, 9 * n + 400, 900) for n in range(1, 60)]
        fleet = fleet_of(1, 9, 36)

        def values(seed):
            setup = Setup(roads, "", fleet, riders, Habits(hold_ups=0.2, breaks=0.5), every=1, again=30, again_share=0.5, seed=seed)
            return play_against(setup, Board(roads, fresh(fleet), cheapest_insertion)).figures.values()

        self.assertEqual(values(1), values(1))
        self.assertNotEqual(values(1), values(2))
        self.assertTrue(values(1)["late reports"] > 0)


class FleetFiles(unittest.TestCase):
    def test_written_and_read(self):
        with tempfile.TemporaryDirectory() as folder:
            path = f"{folder}/fleet.txt"
            fleet = fleet_of(1, 4, dwell=20)
            fleet.vehicles[1].chairs = 2
            write_fleet(path, fleet)
            self.assertEqual(open_fleet(path, 4), fleet)
            for text in ("", "vehicle 1 4\n", "set batch\n", "set penlty 5\nvehicle 1 4 1 0\n", "set batch 200\nvehicle 1 4 1 0\n",
                         "vehicle 1 4 9 0\n", "vehicle x 4 1 0\n", "vehicle 1 4 1 0\nvehicle 1 4 1 0\n", "vehicle 1 17 1 0\n",
                         "vehicle 1 4 1 0 5\n", "vehicle 1 4 1 1000000001\n"):
                Path(path).write_text(text)
                with self.assertRaises(InputError, msg=text):
                    open_fleet(path, 4)


if __name__ == "__main__":
    unittest.main()
