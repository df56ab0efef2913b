"""A city of Manhattan's form, and the riders of an evening there.

The network is a grid of 22 avenues and 186 streets, 4,092 crossings, as many as the network of Alonso-Mora et al. 2017 has. Avenues and
streets are one-way in turn; every sixth avenue, every tenth street and the border are two-way. A block of an avenue has 100 metres, one
of a street 150.

What follows is drawn by marginals that are published of New York's taxis, and written down here from memory: the share of a day's
rides by hour, the density of pickups and drop-offs, highest between 34th and 59th Street, and the length of rides, lognormal with 9.7
minutes in the mean and 8.3 in the median.
"""
import bisect
import itertools
import math
import random
from typing import List, Optional, Sequence, Tuple

from player.riders import Rider
from player.roads import Arc, Roads

AVENUES, STREETS = 22, 186
AVENUE_BLOCK = (14, 28)  # seconds of a block, both ends included
STREET_BLOCK = (24, 48)
HOUR_SHARES = (4.0, 3.0, 2.2, 1.6, 1.2, 1.0, 2.1, 3.6, 4.5, 4.6, 4.5, 4.6, 4.8, 4.8, 5.0, 4.8, 4.1, 5.0, 6.1, 6.3, 5.9, 5.7, 5.6, 4.9)
MIDTOWN, SPREAD = 0.42, 0.19  # of the island's length: where the density is highest, and its standard deviation
MEAN_RIDE, RIDE_SPREAD = 582, 0.55  # seconds, and the standard deviation of their logarithm
SHORTEST, LONGEST = 120, 2400  # seconds of a ride
NEAR = 0.1  # a ride's way may differ by so much from the drawn length


def manhattan(draw: random.Random, streets: int = STREETS) -> Roads:
    """Returns the network of so many streets, whose blocks take drawn seconds."""
    arcs: List[Arc] = []

    def join(tail: int, head: int, forward: bool, two_way: bool, block: Tuple[int, int]) -> None:
        if forward or two_way:
            arcs.append((tail, head, draw.randint(*block)))
        if two_way or not forward:
            arcs.append((head, tail, draw.randint(*block)))

    for street in range(streets):
        for avenue in range(AVENUES):
            node = street * AVENUES + avenue + 1
            if avenue + 1 < AVENUES:
                join(node, node + 1, street % 2 == 0, street % 10 == 0 or street == streets - 1, STREET_BLOCK)
            if street + 1 < streets:
                join(node, node + AVENUES, avenue % 2 == 0, avenue % 6 == 0 or avenue == AVENUES - 1, AVENUE_BLOCK)
    return Roads(AVENUES * streets, arcs)


def density(node: int, streets: int) -> float:
    """Returns how often riders are picked up and dropped at a node, to that of the densest."""
    street, avenue = divmod(node - 1, AVENUES)
    along = (street / (streets - 1) - MIDTOWN) / SPREAD
    across = (avenue / (AVENUES - 1) - 0.5) / 0.6
    return math.exp(-(along * along + across * across) / 2)


class Places:
    """Draws nodes by their density: that of a grid of so many streets, or all alike where `streets` is None."""

    def __init__(self, nodes: int, streets: Optional[int]):
        self.weights = [0.0] + [density(node, streets) if streets else 1.0 for node in range(1, nodes + 1)]
        self._sums = list(itertools.accumulate(self.weights))

    def any(self, draw: random.Random) -> int:
        """Returns a node of the whole map."""
        return bisect.bisect_right(self._sums, draw.random() * self._sums[-1], hi=len(self._sums) - 1)

    def of(self, nodes: Sequence[int], draw: random.Random) -> int:
        """Returns one of these nodes."""
        return draw.choices(nodes, [self.weights[node] for node in nodes])[0]


def asking_times(begin: int, end: int, an_hour: float, draw: random.Random) -> List[int]:
    """Returns when riders ask, in order: so many in the first hour's rate, and in proportion to its share of a day's rides later."""
    first = HOUR_SHARES[begin // 3600 % 24]
    times, moment = [], float(begin)
    while True:
        share = HOUR_SHARES[int(moment) // 3600 % 24]
        moment += draw.expovariate(an_hour / 3600 * share / first)
        if moment >= end:
            return times
        times.append(int(moment))


def evening_riders(roads: Roads, places: Places, times: Sequence[int], wait: int, draw: random.Random) -> List[Rider]:
    """Returns the riders who ask at these times: each waits at most so many seconds, and rides at most as much longer than the
    fastest way."""
    riders = []
    for number, asks in enumerate(times, 1):
        origin, destination, way = drawn_ride(roads, places, draw)
        riders.append(Rider(number, asks, origin, destination, 1, 0, asks + wait, way + wait))
    return riders


def drawn_ride(roads: Roads, places: Places, draw: random.Random) -> Tuple[int, int, int]:
    """Returns origin, destination and seconds of a ride of a drawn length. Where no node is at about that length another is drawn."""
    middle = math.log(MEAN_RIDE) - RIDE_SPREAD ** 2 / 2
    while True:
        destination = places.any(draw)
        length = min(max(draw.lognormvariate(middle, RIDE_SPREAD), SHORTEST), LONGEST)
        least, most = length * (1 - NEAR), length * (1 + NEAR)
        seconds = roads.toward(destination).seconds
        origins = [node for node in range(1, roads.nodes + 1) if least <= seconds[node] <= most]
        if origins:
            origin = places.of(origins, draw)
            return origin, destination, seconds[origin]
