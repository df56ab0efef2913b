"""Travel times and offers beside brute force over drawn days."""
import random
import sys
import tempfile
import unittest
from itertools import product
from pathlib import Path

sys.path.insert(0, str(Path(__file__).resolve().parent))

import brute_force
from drawn_days import Writer, draw_busy_world, draw_map
from offers import Offers
from road_map import RoadMap, read_map
from travel_times import TravelTimes
from worked import write


def batches_of(seed: int, turns: int):
    """Yields the batches that are opened in a drawn day, with travel times by brute force."""
    with tempfile.TemporaryDirectory() as folder:
        draw = random.Random(seed)
        world = draw_busy_world(draw, Path(folder))
        times, writer = brute_force.all_times(read_map(str(world.map))), Writer(draw, world, 2, 2)
        for _ in range(turns):
            opened = writer.history.board.opened
            writer.turn()
            if writer.history.board.opened > opened:
                yield writer.history.board.batches[opened + 1], times


class TimesOfDrawnMaps(unittest.TestCase):
    def test_all_pairs_of_drawn_maps(self):
        for seed in range(30):
            draw = random.Random(seed)
            with tempfile.TemporaryDirectory() as folder:
                road_map = read_map(write(folder, "map", draw_map(draw, draw.randint(2, 12))))
            expected, roads = brute_force.all_times(road_map), TravelTimes(road_map)
            pairs = list(expected)
            draw.shuffle(pairs)
            for tail, head in pairs:
                if draw.random() < 0.5:
                    roads.row(head, 1).to(tail)  # so that the row to the head is there, as far as the tail
                found = roads.between(tail, head)
                self.assertEqual(brute_force.FAR if found is None else found, expected[tail, head])

    def test_times_within_a_bound(self):
        for seed in range(30):
            draw = random.Random(seed)
            with tempfile.TemporaryDirectory() as folder:
                road_map = read_map(write(folder, "map", draw_map(draw, draw.randint(2, 12))))
            expected, bound = brute_force.all_times(road_map), draw.randint(0, 120)
            times = TravelTimes(road_map).row(1, 1).within(bound)
            for node in range(1, road_map.nodes + 1):
                if expected[node, 1] <= bound:
                    self.assertEqual(times[node], expected[node, 1])
                else:
                    self.assertGreater(times[node], bound)

    def test_ways_that_take_no_time_and_nodes_beyond_reach(self):
        roads = TravelTimes(RoadMap(4, [(1, 2, 5), (2, 3, 0), (3, 3, 7)]))
        self.assertEqual([roads.row(3, 1).within(5)[node] for node in (1, 2, 3)], [5, 0, 0])
        self.assertEqual([roads.between(1, 3), roads.between(3, 1), roads.between(4, 4)], [5, None, 0])
        self.assertGreater(roads.row(4, 1).within(10**9)[1], 10**9)


class OffersOfDrawnDays(unittest.TestCase):
    def test_each_place_and_the_least_offer(self):
        counts = [self.check_batch(*opened) for seed in range(20) for opened in batches_of(seed, 150)]
        pairs, places = map(sum, zip(*counts))
        self.assertGreater(pairs, 300)
        self.assertGreater(places, 4 * pairs)

    def check_batch(self, batch, travel_times):
        """Compares all pairs of a batch; returns how many pairs and how many places."""
        day, pairs, places = brute_force.Day(travel_times, batch.market.settings, batch.market.now), 0, 0
        for copy, ride in product(batch.copies.values(), batch.rides.values()):
            costs = {(i, j): day.cost(copy, ride, i, j) for i, j in day.places(copy)}
            offers = Offers(batch.market, ride)
            self.assertEqual({(i, j): offers.cost_at(copy, i, j) for i, j in costs}, costs)
            least = min((cost for cost in costs.values() if cost is not None), default=None)
            self.check_least(offers, copy, least)
            pairs, places = pairs + 1, places + len(costs)
        return pairs, places

    def check_least(self, offers, copy, least):
        offer = offers.least(copy, 1 << 62)
        self.assertEqual(offer and offer[0], least)
        if least is not None:
            self.assertIsNone(offers.least(copy, least))
            self.assertEqual(offers.least(copy, least + 1), offer)


if __name__ == "__main__":
    unittest.main()
