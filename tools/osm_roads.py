"""Reads the roads of an OpenStreetMap extract. It takes pyosmium."""
from typing import Dict, Iterator, List, Sequence, Tuple

import osmium

from road_network import Place, Road, directions_of, is_open, speed_of

Point = Tuple[int, osmium.osm.Location]


class RoadReader(osmium.SimpleHandler):
    """The roads of an extract, and the places of their points."""

    def __init__(self) -> None:
        super().__init__()
        self.roads: List[Road] = []
        self.places: Dict[int, Place] = {}

    def way(self, way: osmium.osm.Way) -> None:
        """Takes a way, as osmium calls it."""
        tags = {tag.k: tag.v for tag in way.tags}
        if not is_open(tags):
            return
        forward, backward = directions_of(tags)
        # An extract's edge cuts roads: the points beyond it have no place.
        for points in pieces_of([(node.ref, node.location) for node in way.nodes]):
            self.places.update((ref, (place.lat, place.lon)) for ref, place in points)
            self.roads.append(Road([ref for ref, _ in points], speed_of(tags), forward, backward))


def pieces_of(points: Sequence[Point]) -> Iterator[List[Point]]:
    """Returns the runs of two and more points that have a place."""
    piece: List[Point] = []
    for ref, location in points:
        if location.valid():
            piece.append((ref, location))
            continue
        if len(piece) > 1:
            yield piece
        piece = []
    if len(piece) > 1:
        yield piece


def read_roads(path: str) -> Tuple[List[Road], Dict[int, Place]]:
    """Returns the roads of an extract, and the places of their points. Raises RuntimeError where osmium does not read it."""
    reader = RoadReader()
    reader.apply_file(path, locations=True)
    return reader.roads, reader.places
