"""Tests of where nodes are placed."""
import math
import os
import tempfile
import unittest
from typing import List, Sequence, Tuple

from files_at_hand import EXAMPLES, written

from places import Place, columns_of, fitted, laid_out, places_of, read_places
from player.roads import Roads, read_map

GRID = [(1, 2), (2, 3), (4, 5), (5, 6), (1, 4), (2, 5), (3, 6)]  # two rows of three


def both_ways(pairs: Sequence[Tuple[int, int]], seconds: int = 60) -> Roads:
    arcs = [(tail, head, seconds) for pair in pairs for tail, head in (pair, pair[::-1])]
    return Roads(max(max(pair) for pair in pairs), arcs)


class Grids(unittest.TestCase):
    def test_rows_and_columns(self) -> None:
        self.assertEqual(columns_of(both_ways(GRID)), 3)
        places, how = places_of(both_ways(GRID), None)
        self.assertEqual((places[0], places[2], places[3], how), ((0.0, 0.0), (2.0, 0.0), (0.0, 1.0), "as a grid"))

    def test_what_is_no_grid(self) -> None:
        self.assertEqual(columns_of(both_ways(GRID + [(3, 4)])), 0)  # from one row's end to the next one's begin
        self.assertEqual(columns_of(both_ways(GRID + [(1, 5)])), 0)  # across
        self.assertEqual(columns_of(both_ways([(1, 2), (2, 3)])), 0)  # no second row

    def test_the_town_of_examples_has_six_columns(self) -> None:
        self.assertEqual(columns_of(read_map(os.path.join(EXAMPLES, "map.gr"))), 6)


class TravelTimes(unittest.TestCase):
    def test_a_row_is_laid_out_as_one(self) -> None:
        # Distances on a line are travel times exactly.
        places = laid_out(both_ways([(1, 2), (2, 3), (3, 4)]))
        for one in range(4):
            for other in range(4):
                ratio = math.dist(places[one], places[other]) / (math.dist(places[0], places[1]) or 1)
                self.assertAlmostEqual(ratio, abs(one - other), places=6)

    def test_a_square_has_equal_sides(self) -> None:
        # A ring of four: opposite corners are 120 s apart, neighbours 60.
        places = laid_out(both_ways([(1, 2), (2, 3), (3, 4), (4, 1)]))
        sides = [math.dist(places[one], places[(one + 1) % 4]) for one in range(4)]
        self.assertAlmostEqual(max(sides) / min(sides), 1, places=6)
        self.assertGreater(math.dist(places[0], places[2]), sides[0])

    def test_one_node(self) -> None:
        self.assertEqual(len(laid_out(Roads(1, []))), 1)


class Files(unittest.TestCase):
    def read(self, text: str, nodes: int) -> List[Place]:
        with tempfile.TemporaryDirectory() as folder:
            return read_places(written(folder, "places", text), nodes)

    def test_a_file_of_the_challenge(self) -> None:
        self.assertEqual(self.read("c two\np aux sp co 2\nv 2 -73 40\nv 1 -74 41\n", 2), [(-74.0, -41.0), (-73.0, -40.0)])

    def test_a_table_of_an_extract(self) -> None:
        # At 60 degrees a degree of longitude is half as wide as one of latitude.
        places = self.read("node osm_id latitude longitude\n1 101 60.0 10.0\n2 102 60.0 12.0\n", 2)
        self.assertAlmostEqual(places[1][0] - places[0][0], 1.0)
        self.assertEqual(places[0][1], -60.0)


class Pages(unittest.TestCase):
    def test_proportions_stay(self) -> None:
        # 2 by 1 in 220 by 400 with an edge of 10: a unit is 100 pixels.
        self.assertEqual(fitted([(0, 0), (2, 1)], 220, 400, 10), ([(10, 10), (210, 110)], 120))


if __name__ == "__main__":
    unittest.main()
