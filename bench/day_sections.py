"""The sections of bench/all.py that time whole runs of ride_dispatch over files: replays, audits, drills and leagues."""
import filecmp
import os
import sys
from functools import partial
from typing import Callable, Dict, List, NamedTuple, Sequence, Tuple

from live import NEW_YORK
from machine import TOP
from measuring import TAKEN, Ran, busiest_ratio, found, in_turn, in_words, same, table, taken
from player.files import InputError, read_lines
from workshop import EXAMPLES, Workshop

TOWN, TOWN_NODES = f"{EXAMPLES}/map.gr", 30
CITY_NODES = 10_000
MIRRORED = '$1 == "vehicle" {{ print $1, $2, $3, {} - $4, $5; next }} {{ print }}'  # the vehicles of a second company


class Day(NamedTuple):
    """A map, a fleet file and a feed, and how the day is called on the page."""
    map: str
    fleet: str
    feed: str
    name: str

    def over(self) -> List[str]:
        """Returns the words that name map and fleet."""
        return ["--map", self.map, "--fleet", self.fleet]

    def replay(self, shop: Workshop) -> List[str]:
        """Returns the command that replays it."""
        return [shop.program, "replay", *self.over(), "--feed", self.feed]


def morning() -> Day:
    """Returns the morning of examples/."""
    return Day(TOWN, f"{EXAMPLES}/fleet.txt", f"{EXAMPLES}/morning.txt", "the morning of examples/")


def city_day(shop: Workshop) -> Day:
    """Returns the city's day; a quick one is the morning of examples/."""
    if shop.quick:
        return morning()
    day = Day(shop.path("city.gr"), shop.path("city_fleet.txt"), shop.path("city_feed.txt"),
              "2,000 batches of 8 over a city of 10,000 crossings, 39,600 arcs and 1,000 vehicles, with 12,000 cancellations")
    shop.script("write_day.py", "city", *day[:3])
    return day


def peak(shop: Workshop, nodes: int, batches: int) -> Day:
    """Returns batches of 128 with 1,000 vehicles, over the town, the city or New York's size."""
    map_path = {TOWN_NODES: TOWN, CITY_NODES: shop.path("city.gr"), NEW_YORK: shop.path("new_york.gr")}[nodes]
    name = {TOWN_NODES: "the town of examples/, 30 crossings", CITY_NODES: "a city of 10,000 crossings",
            NEW_YORK: "New York's size, 264,346 crossings"}[nodes]
    if nodes == CITY_NODES:
        shop.script("write_day.py", "city", map_path, shop.path("city_fleet.txt"), shop.path("city_feed.txt"))
    elif nodes == NEW_YORK:
        shop.script("write_map.py", map_path)
    day = Day(map_path, shop.path(f"peak_{nodes}_fleet.txt"), shop.path(f"peak_{nodes}_{batches}_feed.txt"), name)
    shop.script("write_day.py", "peak", str(nodes), str(batches), day.fleet, day.feed)
    return day


def silent(shop: Workshop, *words: str) -> Callable[[], Ran]:
    """Returns a way to run a command whose output nobody wants."""
    return partial(shop.run, *words, into=os.devnull)


# Replays.


def city_rows(shop: Workshop, day: Day) -> Dict[str, Callable[[], Ran]]:
    """Returns the peer's rows of a day's map, none where it is missing."""
    path = shop.peer("dijkstra")
    return {"2,000 rows of the same map by the peer in C++, one thread": partial(shop.run, path, day.map, "2000")} if path else {}


def replays(shop: Workshop) -> List[str]:
    """Times whole replays, beside the peer's rows of the same map."""
    commands = Day(TOWN, f"{EXAMPLES}/fleet.txt", shop.path("commands.txt"), "100,000 commands without batches over the town of examples/")
    shop.script("write_day.py", "commands", commands.feed)
    short = in_turn(shop.turns(5), {commands.name: silent(shop, *commands.replay(shop))})
    day = city_day(shop)
    long = in_turn(shop.turns(3), {day.name: silent(shop, *day.replay(shop)), **city_rows(shop, day)})
    rows = [[f"{name}; {in_words(len(runs), 'run', 'runs').lower()}", *taken(runs)] for name, runs in {**short, **long}.items()]
    return table(["Feed", *TAKEN], rows)


def peaks(shop: Workshop) -> List[str]:
    """Times replays of full batches over three maps."""
    sizes = ((TOWN_NODES, 1),) if shop.quick else ((TOWN_NODES, 8), (CITY_NODES, 8), (NEW_YORK, 8), (NEW_YORK, 24))
    days = {size: peak(shop, *size) for size in sizes}
    turns = shop.turns(2)
    ran = in_turn(turns, {f"{nodes} {batches}": silent(shop, *day.replay(shop)) for (nodes, batches), day in days.items()})
    rows = [[day.name, str(batches), *taken(ran[f"{nodes} {batches}"])] for (nodes, batches), day in days.items()]
    return [in_words(turns, "run of each.", "runs of each in turn."), "", *table(["Map", "Batches", *TAKEN], rows)]


# Audits.


def session_words(shop: Workshop, day: Day, feeds: Sequence[str], desks: int) -> List[str]:
    """Returns the command of a session over files, with four workers in all."""
    return [shop.program, "serve", *day.over(), "--riders", feeds[0], "--drivers", feeds[1],
            "--workers", str(4 // desks), "--desks", str(desks)]


def two_feeds(shop: Workshop, day: Day) -> Tuple[str, str]:
    """Returns the feeds of a day's requests and batches, and of its cancellations."""
    feeds = shop.path("day_riders.txt"), shop.path("day_drivers.txt")
    shop.once("awk", '$1 != "cancel"', day.feed, into=feeds[0])
    shop.once("awk", '$1 == "cancel"', day.feed, into=feeds[1])
    return feeds


def audits(shop: Workshop) -> List[str]:
    """Times the audit of a day beside its replay, and sessions of the same requests."""
    day, log = city_day(shop), shop.path("day.log")
    feeds = two_feeds(shop, day)
    batches = read_lines(day.feed).count("batch")
    turns = shop.turns(2)
    ways: Dict[str, Callable[[], Ran]] = {
        "`replay`, which writes the log": partial(shop.run, *day.replay(shop), into=log),
        "`audit` of the log": partial(shop.run, shop.program, "audit", *day.over(), "--log", log),
        "`serve`, one desk of four workers": silent(shop, *session_words(shop, day, feeds, 1)),
        "`serve`, two desks of two workers": silent(shop, *session_words(shop, day, feeds, 2))}
    ran = in_turn(turns, ways)
    replayed = list(ran.values())[0]
    rows = []
    for name, runs in ran.items():
        an_hour = f"{batches / min(run.clock for run in runs) * 3600:,.0f}" if "serve" in name else ""
        rows.append([name, *taken(runs), busiest_ratio(runs, replayed), an_hour])
    return [f"{day.name[0].upper()}{day.name[1:]}; {in_words(turns, 'run of each', 'runs of each in turn').lower()}.", "",
            *table(["", *TAKEN, "of the replay's processors' time", "Batches an hour"], rows)]


def second_auditor(shop: Workshop) -> List[str]:
    """Times both auditors over one log, of which they have to say the same."""
    day, log = city_day(shop), shop.path("day.log")
    shop.once(*day.replay(shop), into=log)
    ran = {"`audit`": shop.run(shop.program, "audit", *day.over(), "--log", log),
           "`inspector/check_log.py`": shop.run(sys.executable, f"{TOP}/inspector/check_log.py", day.map, day.fleet, log)}
    said = same("what both auditors say", (run.text.strip() for run in ran.values()))
    audit = list(ran.values())[:1]
    rows = [[name, *taken([run]), busiest_ratio([run], audit)] for name, run in ran.items()]
    return [f"One run of each over the log of {day.name}. Both say `{said}`.", "", *table(["", *TAKEN, "of `audit`'s processors' time"], rows)]


def going_on(shop: Workshop) -> List[str]:
    """Times what a day's log gives back, beside the replay that writes it: a session goes on from it with nothing, and writes it again."""
    day, log, again = city_day(shop), shop.path("day.log"), shop.path("again.log")
    nothing = ["--riders", os.devnull, "--drivers", os.devnull, "--workers", "1"]
    turns = shop.turns(2)
    ran = in_turn(turns, {
        "`replay`, which writes the log": partial(shop.run, *day.replay(shop), into=log),
        "`ride_resume`, which goes on from it with nothing": partial(shop.run, shop.resume, *day.over(), "--log", log, *nothing, into=again)})
    if not filecmp.cmp(log, again, shallow=False):
        raise InputError("a log that is finished does not give itself back")
    replayed = list(ran.values())[0]
    rows = [[name, *taken(runs), busiest_ratio(runs, replayed)] for name, runs in ran.items()]
    return [f"{day.name[0].upper()}{day.name[1:]}; {in_words(turns, 'run of each', 'runs of each in turn').lower()}. The second log is the first, to "
            "the byte.", "", *table(["", *TAKEN, "of the replay's processors' time"], rows)]


# Drills.


def drill_name(text: str) -> str:
    """Returns how a drill is called on the page, from its answer."""
    nodes, vehicles, requests, batches = map(int, found(r"^drill nodes (\d+) arcs \d+ vehicles (\d+) requests (\d+) batches (\d+) ", text).groups())
    return f"{nodes:,} nodes, {vehicles:,} vehicles, {requests:,} requests in {batches:,} batches"


def drills(shop: Workshop) -> List[str]:
    """Times drills, the last of them beside the replay of a day of the same size."""
    sizes = ((4, 3, 16), (6, 5, 40)) if shop.quick else ((40, 50, 400), (40, 200, 2_000), (100, 1_000, 16_000))
    day, turns = city_day(shop), shop.turns(2)
    ways: Dict[str, Callable[[], Ran]] = {
        f"drill {place}": partial(shop.run, shop.program, "drill", "--side", str(side), "--vehicles", str(vehicles),
                                  "--requests", str(requests), "--seed", "1")
        for place, (side, vehicles, requests) in enumerate(sizes)}
    ran = in_turn(turns, {**ways, "replay": silent(shop, *day.replay(shop))})
    rows = [[drill_name(same("a drill's line", (run.text for run in ran[name]))), *taken(ran[name]), ""] for name in ways]
    rows[-1][-1] = busiest_ratio(ran[list(ways)[-1]], ran["replay"])
    rows.append([f"`replay` of {day.name}", *taken(ran["replay"]), "1.00"])
    return [in_words(turns, "run of each.", "runs of each in turn."), "",
            *table(["Drill", *TAKEN, "of the replay's processors' time"], rows)]


# Leagues.


def leagues(shop: Workshop) -> List[str]:
    """Times rounds of two companies beside replays over each fleet."""
    day, nodes = (morning(), TOWN_NODES) if shop.quick else (peak(shop, CITY_NODES, 8), CITY_NODES)
    other = day._replace(fleet=shop.path("second_fleet.txt"))
    shop.once("awk", MIRRORED.format(nodes + 1), day.fleet, into=other.fleet)
    turns = shop.turns(2)
    ran = in_turn(turns, {
        "`replay` over the first fleet": silent(shop, *day.replay(shop)), "`replay` over the second fleet": silent(shop, *other.replay(shop)),
        "`league` of both": silent(shop, shop.program, "league", *day.over(), "--second", other.fleet, "--feed", day.feed)})
    return [in_words(turns, "run of each.", "runs of each in turn."), "", *table(["", *TAKEN], [[name, *taken(runs)] for name, runs in ran.items()])]
