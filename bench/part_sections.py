"""The sections of bench/all.py that time parts of the dispatcher: each word of ride_bench, beside its peer where it has one."""
import re
from functools import partial
from typing import Callable, Dict, List, NamedTuple, Optional, Sequence, Tuple

from measuring import Ran, each, found, in_turn, in_words, megabytes, number, quartiles, ratio, same, span, table
from workshop import EXAMPLES, Workshop

OURS = "ride_bench"

Runs = Dict[str, List[Ran]]


def beside(shop: Workshop, turns: int, commands: Dict[str, Optional[Sequence[str]]]) -> Runs:
    """Returns what runs of each command give, in turn. One that is None is left out."""
    ways: Dict[str, Callable[[], Ran]] = {name: partial(shop.run, *words) for name, words in commands.items() if words}
    return in_turn(turns, ways)


def peer_words(shop: Workshop, name: str, *words: str) -> Optional[List[str]]:
    """Returns the command of a peer, or None where it cannot be built."""
    path = shop.peer(name)
    return [path, *words] if path else None


# Reading a map.


def reading_of(text: str) -> Tuple[Tuple[int, int], float]:
    """Returns a map's nodes and arcs, and the milliseconds that its reading took."""
    size = found(r"^nodes (\d+) arcs (\d+)", text)
    took = found(r"^([\d.]+) (micro|milli)seconds", text)
    return (int(size[1]), int(size[2])), float(took[1]) / (1000 if took[2] == "micro" else 1)


def reading(shop: Workshop) -> List[str]:
    """Times the reading of a map of New York's size."""
    path = f"{EXAMPLES}/map.gr" if shop.quick else shop.path("new_york.gr")
    if not shop.quick:
        shop.script("write_map.py", path)
    turns = shop.turns(3)
    ran = beside(shop, turns, {"`read_map`": [shop.bench, "read_map", path], "C": peer_words(shop, "read_map", path)})
    read = {name: [reading_of(run.text) for run in runs] for name, runs in ran.items()}
    nodes, arcs = same("the map's size", (size for runs in read.values() for size, _ in runs))
    row = [f"{nodes:,} nodes, {arcs:,} arcs", *(each([took for _, took in runs], "ms", 1) for runs in read.values())]
    return [in_words(turns, "run of each.", "runs of each in turn."), "", *table(["Map", *read], [row])]


# Least pairings.


def grids_of(text: str) -> Dict[str, Tuple[int, int]]:
    """Returns the cost of each grid and the fewest microseconds that it took."""
    lines = re.findall(r"^(\w+ \d+ x \d+) cost (\d+) best (\d+) microseconds$", text, re.MULTILINE)
    return {name: (int(cost), int(best)) for name, cost, best in lines}


def grid_name(name: str) -> str:
    """Returns how a grid is called on the page."""
    kind, rows, _, columns = name.split()
    return f"{'products of row and column' if kind == 'product' else kind}, {int(rows):,} x {int(columns):,}"


def pairings(shop: Workshop) -> List[str]:
    """Times least pairings of grids."""
    turns = shop.turns(2)
    ran = beside(shop, turns, {"`solve_grid`": [shop.bench, "grids"], "C": peer_words(shop, "assignment"), "scipy": shop.scipy()})
    timed = {name: [grids_of(run.text) for run in runs] for name, runs in ran.items()}
    peers = list(timed)[1:]
    rows = []
    for grid in same("which grids there are", (list(run) for runs in timed.values() for run in runs)):
        cost = same(f"the least cost of {grid}", (run[grid][0] for runs in timed.values() for run in runs))
        best = {name: [run[grid][1] for run in runs] for name, runs in timed.items()}
        rows.append([grid_name(grid), f"{cost:,}", *(each(times, "us", 0) for times in best.values()),
                     *(ratio(min(best["`solve_grid`"]), min(best[peer])) for peer in peers)])
    head = ["Grid", "Cost", *timed, *(f"of {peer}'s" for peer in peers)]
    return [f"Each is the best of 20 in its run; {in_words(turns, 'run of each', 'runs of each in turn').lower()}.", "", *table(head, rows)]


# Places.


def places_of(text: str) -> List[float]:
    """Returns the nanoseconds of a plain search, of one by slack, and of the tables of a plan. Both searches have to find the same."""
    sums = found(r"^sums (\d+) and (\d+)$", text)
    same("the sums of both searches", [sums[1], sums[2]])
    return [float(nanos) for nanos in found(r"plain (\d+) ns, by slack (\d+) ns, tables (\d+) ns$", text).groups()]


def places(shop: Workshop) -> List[str]:
    """Times the cheapest places in a plan."""
    turns = shop.turns(2)
    runs = [places_of(shop.run(shop.bench, "places").text) for _ in range(turns)]
    plain, fast, tables = (list(nanos) for nanos in zip(*runs))
    rows = [["`best_place`, which looks at a whole plan only where it would cost less", each([nanos / 1000 for nanos in plain], "us"),
             each([nanos / 120 for nanos in plain], "ns", 0)],
            ["`best_place_fast`", each([nanos / 1000 for nanos in fast], "us"), each([nanos / 120 for nanos in fast], "ns", 0)],
            ["`Slack::of`, once a vehicle and batch", each([nanos / 1000 for nanos in tables], "us"), ""]]
    return [f"Best of 21 turns, {in_words(turns, 'run', 'runs').lower()}.", "", *table(["", "A search", "A pair of places"], rows)]


# A shared board.

LOADS = {"no lock": "the board's own calls", "one pass": "one pass", "two passes": "two passes, on two threads",
         "two passes and the scribe": "two passes, and the scribe's reading all that they add"}


def rates_of(text: str) -> Dict[str, int]:
    """Returns the commands a second of each way to the board."""
    return {name: int(rate) for name, rate in re.findall(r"^([\w ]+): (\d+) commands a second$", text, re.MULTILINE)}


def shared(shop: Workshop) -> List[str]:
    """Times a board that threads share."""
    turns = shop.turns(3)
    runs = [rates_of(shop.run(shop.bench, "shared").text) for _ in range(turns)]
    ways = same("the ways", (list(run) for run in runs))
    rows = [[LOADS.get(name, name), span([run[name] / 1e6 for run in runs], "million")] for name in ways]
    return [f"A million `clock` commands, {in_words(turns, 'run', 'runs').lower()}.", "", *table(["", "Commands a second"], rows)]


# Bookings.


def bookings_of(text: str) -> Tuple[Tuple[int, int], int]:
    """Returns how many were booked and how many released, and the milliseconds of a day."""
    booked, released, millis = map(int, found(r"^bookings (\d+) released (\d+) in (\d+) ms$", text).groups())
    return (booked, released), millis


def bookings(shop: Workshop) -> List[str]:
    """Times a day of bookings."""
    turns = shop.turns(3)
    runs = [bookings_of(shop.run(shop.bench, "bookings").text) for _ in range(turns)]
    booked, released = same("how many are booked and released", (counts for counts, _ in runs))
    row = [f"{booked:,} booked, {released:,} released", each([millis for _, millis in runs], "ms", 0)]
    return [in_words(turns, "run.", "runs."), "", *table(["A day of bookings", "By the clock"], [row])]


# Rows.


def rows_of(text: str) -> Tuple[List[str], int]:
    """Returns what each row reached, and the mean microseconds of a row."""
    return re.findall(r"^from .*$", text, re.MULTILINE), int(found(r"^mean of \d+ rows: (\d+) microseconds$", text)[1])


def rows(shop: Workshop) -> List[str]:
    """Times full rows of travel times."""
    turns = shop.turns(24)
    ran = beside(shop, turns, {OURS: [shop.bench, "new_york"], "C++": peer_words(shop, "dijkstra", "new_york")})
    timed = {name: [rows_of(run.text) for run in runs] for name, runs in ran.items()}
    same("the sums of rows", (sums for runs in timed.values() for sums, _ in runs))
    means = {name: [micros / 1000 for _, micros in runs] for name, runs in timed.items()}
    columns = [[f"{value:.1f} ms" for value in quartiles(times)] for times in means.values()]
    names = ("fastest run", "first quartile", "median", "slowest run")
    lines = [f"Figures of {in_words(turns, 'run of each', 'runs of each in turn').lower()}, each first every second time.", "",
             *table(["Mean of 30 full rows", *means], [[name, *cells] for name, *cells in zip(names, *columns)])]
    if "C++" in means:
        faster = sum(ours < theirs for ours, theirs in zip(means[OURS], means["C++"]))
        lines += ["", f"`ride_bench` was the faster of the two in {faster} of the {turns} pairs."]
    return lines


# Rows by a hierarchy.


class Swept(NamedTuple):
    """Of 512 rows to so many nodes: their sum, how many nodes are selected, and the microseconds of that and of the rows."""
    sum: int
    selected: int
    selecting: int
    micros: int


class Made(NamedTuple):
    """A hierarchy: how many links it has, how many nodes are contracted, the milliseconds of its contraction and packing, and the rows to so
    many nodes."""
    links: int
    contracted: int
    contracting: int
    packing: int
    swept: Dict[int, Swept]


def made_of(text: str) -> Made:
    """Returns what a run over a named map prints."""
    nodes = int(found(r"^nodes (\d+) arcs", text)[1])
    links, kind, count, contracting = found(r"^links (\d+), nodes (contracted|left) (\d+), (?:contracted )?in (\d+) ms$", text).groups()
    packing = found(r"^packed in (\d+) ms$", text)
    lines = re.findall(r"^wanted (\d+) rows 512 sum (\d+), selected (\d+) nodes in (\d+) us, rows in (\d+) us$", text, re.MULTILINE)
    swept = {int(wanted): Swept(*map(int, fields)) for wanted, *fields in lines}
    contracted = int(count) if kind == "contracted" else nodes - int(count)
    return Made(int(links), contracted, int(contracting), int(packing[1]), swept)


def hierarchy_rows(made: Dict[str, List[Made]]) -> List[List[str]]:
    """Returns the rows of a map's table, the best of each figure's runs."""
    def row(name: str, figure: Callable[[Made], float], unit: str) -> List[str]:
        return [name, *(f"{number(min(map(figure, runs)))} {unit}" for runs in made.values())]

    cells = [row("contraction", lambda run: run.contracting / 1000, "s"), row("packing", lambda run: run.packing, "ms"),
             ["nodes contracted", *(f"{runs[0].contracted:,}" for runs in made.values())],
             ["links", *(f"{runs[0].links:,}" for runs in made.values())]]
    wanted = same("which rows there are", (list(run.swept) for runs in made.values() for run in runs))
    for many in wanted:
        same(f"the sum of 512 rows to {many} nodes", (run.swept[many].sum for runs in made.values() for run in runs))
        cells.append(row(f"selection of about {many:,} nodes", lambda run: run.swept[many].selecting / 1000, "ms"))
        cells.append(row(f"512 rows to about {many:,} nodes", lambda run: run.swept[many].micros / 1000, "ms"))
    return cells


def hierarchy_table(shop: Workshop, name: str, turns: int) -> List[str]:
    """Times the hierarchy of a map in turn with the peer; returns what is said of it and its table."""
    ran = beside(shop, turns, {OURS: [shop.bench, "hierarchy", name], "C++": peer_words(shop, "hierarchy", name)})
    size = found(r"^nodes (\d+) arcs (\d+)$", ran[OURS][0].text)
    made = {peer: [made_of(run.text) for run in runs] for peer, runs in ran.items()}
    head = [f"`hierarchy {name}`: {int(size[1]):,} nodes, {int(size[2]):,} arcs", *made]
    rows_of_map = [*hierarchy_rows(made), ["memory of the whole run", *map(megabytes, ran.values())]]
    said = "One run of each." if turns == 1 else f"The best of {in_words(turns, '', 'runs').lower()} of each in turn."
    return [said, "", *table(head, rows_of_map), ""]


def sums_table(shop: Workshop) -> List[str]:
    """Returns the table of the small map, of which no times are taken."""
    ran = beside(shop, 1, {OURS: [shop.bench], "C++": peer_words(shop, "hierarchy")})
    sums = {name: found(r"wanted 10 rows 4 sum (\d+)$", runs[0].text)[1] for name, runs in ran.items()}
    same("the sum of 4 rows", sums.values())
    return table(["A small map", *sums], [["sum of 4 rows to 10 nodes", *sums.values()]])


def hierarchies(shop: Workshop) -> List[str]:
    """Times hierarchies of the three maps, and rows by them."""
    if shop.quick:
        return sums_table(shop)
    lines = hierarchy_table(shop, "new_york", 5) + hierarchy_table(shop, "lattice", 1) + hierarchy_table(shop, "random", 1)
    return lines[:-1]
