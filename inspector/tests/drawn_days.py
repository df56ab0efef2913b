"""Drawn days: small maps, fleets and sessions of the program, from a random generator, for tests and checks."""
from __future__ import annotations

import os
import random
import subprocess
import sys
from dataclasses import dataclass, field
from pathlib import Path

sys.path.insert(0, str(Path(__file__).resolve().parents[1]))

from certificate import Batch  # noqa: E402
from check_log import read_board  # noqa: E402
from entries import read_entry  # noqa: E402
from history import History  # noqa: E402
from offers import Offers  # noqa: E402
from plans import Ride, Vehicle  # noqa: E402

PROGRAM = Path(__file__).resolve().parents[2] / "crates/ride_dispatch/out/ride_dispatch"


def program_path() -> str | None:
    """Returns the program to compare with: that of RIDE_DISPATCH, or the one that was built here; None without one."""
    return os.environ.get("RIDE_DISPATCH") or (str(PROGRAM) if PROGRAM.exists() else None)


@dataclass
class World:
    """A map and a fleet file in a folder, with the settings, the vehicles' ids and the number of nodes."""

    folder: Path
    nodes: int
    settings: dict[str, int]
    vehicles: list[int]
    map: Path = field(init=False)
    fleet: Path = field(init=False)

    def __post_init__(self) -> None:
        self.map, self.fleet = self.folder / "map.gr", self.folder / "fleet.txt"


def draw_map(draw: random.Random, nodes: int) -> str:
    """Returns the text of a map: mostly a ring with chords, sometimes with ways that lead nowhere or take no time."""
    ring = [(node, node % nodes + 1) for node in range(1, nodes + 1)]
    arcs = [pair for way in ring for pair in (way, way[::-1]) if draw.random() < 0.95]
    arcs += [(draw.randint(1, nodes), draw.randint(1, nodes)) for _ in range(draw.randint(0, 2 * nodes))]
    least, most = draw.choice([0, 1, 20]), 90
    seconds = [draw.choice([10**6, 10**9]) if draw.random() < 0.03 else draw.randint(least, most) for _ in arcs]
    lines = [f"a {tail} {head} {time}" for (tail, head), time in zip(arcs, seconds)]
    return "\n".join([f"p sp {nodes} {len(arcs)}", *lines, ""])


def draw_settings(draw: random.Random) -> dict[str, int]:
    """Returns settings by name, of which each is given or left out."""
    choices = {"batch": [1, 2, 3, 5, 128], "penalty": [0, 150, 400, 900, 100_000], "drive": [0, 1, 2], "wait": [0, 1, 3],
               "lead": [0, 5, 60], "dwell": [0, 7, 30], "log": [1, 2]}
    return {name: draw.choice(values) for name, values in choices.items() if draw.random() < 0.6}


def draw_world(draw: random.Random, folder: Path) -> World:
    """Writes a map and a fleet file into the folder and returns what stands in them."""
    nodes, settings = draw.randint(3, 14), draw_settings(draw)
    ids = draw.sample([*range(1, 30), 10**18 - 1, 0], draw.choice([0, 1, 2, 3, 3, 4, 5, 8]))
    world = World(folder, nodes, settings, ids)
    world.map.write_text(draw_map(draw, nodes))
    lines = [f"set {name} {value}" for name, value in settings.items()]
    for name in ids:
        chairs = f" {draw.randint(0, 2)}" if draw.random() < 0.5 else ""
        lines.append(f"vehicle {name} {draw.randint(1, 5)} {draw.randint(1, nodes)} {draw.choice([0, 0, 5, 40])}{chairs}")
    world.fleet.write_text("\n".join([*lines, ""]))
    return world


def draw_busy_world(draw: random.Random, folder: Path) -> World:
    """Writes a world of few vehicles with batches of one request, in which plans grow long."""
    world = draw_world(draw, folder)
    world.settings = {"batch": 1, "penalty": draw.choice([250, 100_000, 100_000]), "dwell": draw.choice([0, 0, 9]), "wait": draw.choice([0, 0, 1]),
                      "drive": draw.choice([0, 1, 1]), "lead": draw.choice([0, 20])}
    world.vehicles = [1, 2]
    fleet = [f"set {name} {value}" for name, value in world.settings.items()]
    fleet += [f"vehicle {name} {draw.randint(2, 5)} {draw.randint(1, world.nodes)} 0 1" for name in world.vehicles]
    world.fleet.write_text("\n".join([*fleet, ""]))
    return world


def draw_request(draw: random.Random, world: World, clock: int, name: int) -> str:
    """Returns a request, now and then a faulty one."""
    ends = [draw.randint(1, world.nodes), draw.randint(0 if draw.random() < 0.05 else 1, world.nodes + (draw.random() < 0.05))]
    latest, longest = clock + draw.choice([0, 60, 200, 600, 900]), draw.choice([30, 100, 300, 600, 1500])
    seats, chairs = draw.choice([0, 1, 1, 1, 2, 2, 3, 9]), draw.choice([0, 0, 0, 1, 2])
    line = f"request {name} {ends[0]} {ends[1]} {seats} {latest} {longest}"
    return line + (f" {chairs}" if draw.random() < (0.5 if world.settings.get("log") == 2 else 0.03) else "")


def next_report(vehicle: Vehicle, clock: int, late: int) -> str | None:
    """Returns what a driver who follows the map reports at this clock, `late` seconds later than planned, or None."""
    if not vehicle.stops:
        return None
    stop, arrival = vehicle.stops[0], vehicle.ready + vehicle.legs[0]
    if vehicle.at == stop.node and arrival <= clock:
        return f"done {vehicle.id}"
    if arrival <= clock or vehicle.ready < clock:
        return f"at {vehicle.id} {stop.node} {arrival + late}"
    return None


def draw_command(draw: random.Random, world: World, history: History, names: list[int]) -> str:
    """Returns a command of any kind, most of them lawful; `names` gets the ids of requests."""
    board, kind = history.board, draw.random()
    if kind < 0.42:
        names.append(draw.choice(names) if names and draw.random() < 0.05 else len(names) + 100)
        return draw_request(draw, world, board.clock, names[-1])
    if kind < 0.52:
        return f"cancel {draw.choice(names) if names else 1}"
    if kind < 0.75:
        return "batch"
    if kind < 0.9:
        return f"clock {board.clock + draw.choice([0, 1, 5, 30, 30, 90])}"
    if kind < 0.93 and world.vehicles:
        return f"{draw.choice(['on', 'on', 'off'])} {draw.choice(world.vehicles)}"
    if kind < 0.97:
        return f"at {draw.choice([*world.vehicles, 77])} {draw.randint(1, world.nodes)} {board.clock + draw.randint(-5, 60)}"
    return draw.choice(["done 77", "nonsense", "", "# a comment", "clock 1000000001", "at 1 2", "done 1", "batch 2"])


class Live:
    """A session of `serve` over two named pipes, whose log is followed as it grows."""

    def __init__(self, program: str, world: World, desks: int) -> None:
        pipes = [world.folder / name for name in ("riders", "drivers")]
        for pipe in pipes:
            pipe.unlink(missing_ok=True)
            os.mkfifo(pipe)
        self.history = History(read_board(str(world.map), str(world.fleet)))
        self.log: list[bytes] = []
        self.wrong: str | None = None
        self.process = subprocess.Popen(
            [program, "serve", "--map", str(world.map), "--fleet", str(world.fleet), "--riders", str(pipes[0]),
             "--drivers", str(pipes[1]), "--workers", "2", "--desks", str(desks)],
            stdout=subprocess.PIPE, stderr=subprocess.DEVNULL)
        assert self.process.stdout is not None  # as it is a pipe
        self.output = self.process.stdout
        self.pipes = [open(pipe, "w", encoding="ascii") for pipe in pipes]

    def send(self, riders: list[str], drivers: list[str]) -> None:
        """Sends these commands at once and reads the log until each is answered."""
        waited = 0
        for pipe, lines in zip(self.pipes, (riders, drivers)):
            pipe.write("".join(line + "\n" for line in lines))
            pipe.flush()
            waited += sum(1 for line in lines if line.strip() and not line.startswith("#"))
        while waited:
            line = self._read()
            waited -= line.startswith(b"f")

    def _read(self) -> bytes:
        line = self.output.readline()
        if not line:
            raise EOFError("the session ended by itself")
        self.log.append(line)
        self.wrong = self.wrong or self.history.wrong(line)
        return line

    def close(self) -> bytes:
        """Ends both feeds and returns the whole log."""
        for pipe in self.pipes:
            pipe.close()
        with self.output as log:
            rest = log.read()
        self.process.wait()
        return b"".join(self.log) + rest


def play_live(program: str, draw: random.Random, world: World, desks: int, turns: int) -> bytes:
    """Plays a day on two pipes and returns its log. Drivers follow their plans, sometimes late."""
    live = Live(program, world, desks)
    names: list[int] = []
    live.send(["clock 0"], [])
    for _ in range(turns):
        riders = [draw_command(draw, world, live.history, names) for _ in range(draw.choice([1, 1, 2, 4, 9]))]
        drivers = []
        for vehicle in list(live.history.board.vehicles.values()):
            if draw.random() < 0.5:
                report = next_report(vehicle, live.history.board.clock, draw.choice([0, 0, 0, 0, 5, 90, 400]))
                drivers += [report] if report else []
        live.send(riders, drivers)
    return live.close()


def play_like_drill(program: str, draw: random.Random, world: World) -> bytes:
    """Plays a day as `drill` does: groups of requests, then a batch; drivers report all that they can, never late."""
    live, name = Live(program, world, 1), 0
    for group in range(6):
        live.send([f"clock {30 * group}"], [])
        report_all(live)
        requests = []
        for _ in range(draw.randint(0, 8)):
            name += 1
            ends = draw.sample(range(1, world.nodes + 1), 2)
            requests.append(f"request {name} {ends[0]} {ends[1]} {draw.randint(1, 2)} {30 * group + 900} 3600")
        live.send([*requests, "batch"], [])
    live.send(["clock 1000000000"], [])
    report_all(live)
    return live.close()


def report_all(live: Live) -> None:
    """Lets each driver report until nothing is left to tell at this clock."""
    for name in list(live.history.board.vehicles):
        while report := next_report(live.history.board.vehicles[name], live.history.board.clock, 0):
            before = len(live.log)
            live.send([], [report])
            if any(b"refused" in line for line in live.log[before:]):
                break


def write_day(draw: random.Random, world: World, turns: int) -> bytes:
    """Returns a log that no program wrote, with batches of one request that desks now and then give up."""
    writer = Writer(draw, world, draw.choice([1, 2]), draw.choice([1, 2]))
    for _ in range(turns):
        writer.turn()
    for actor in writer.history.actors:
        if actor.startswith(b"f") and draw.random() < 0.8:
            writer.say(f"{actor.decode()} {draw.choice(['end', 'end', 'end', 'cut'])}")
    for _ in range(draw.choice([0, 2, 50])):
        writer.desk()
    return b"".join(writer.lines)


class Writer:
    """A log that grows by drawn lawful lines; the settings have `batch` 1."""

    def __init__(self, draw: random.Random, world: World, feeds: int, desks: int) -> None:
        self.draw, self.world = draw, world
        self.history = History(read_board(str(world.map), str(world.fleet)))
        self.names: list[int] = []
        self.lines: list[bytes] = []
        self.say(f"log {world.settings.get('log', 1)} feeds {feeds} desks {desks}")

    def turn(self) -> None:
        """Lets a feed or a desk do something."""
        if self.draw.random() < 0.6:
            self.feed()
        else:
            self.desk()

    def say(self, line: str) -> None:
        """Adds a line where it is lawful."""
        if not self.history.wrong(line.encode() + b"\n"):
            self.lines.append(line.encode() + b"\n")

    def feed(self) -> None:
        """Adds a drawn command of a feed with its reply, or a bad line."""
        board, version = self.history.board, self.world.settings.get("log", 1)
        actor = self.draw.choice([actor for actor in self.history.actors if actor.startswith(b"f")]).decode()
        told = [next_report(vehicle, board.clock, self.draw.choice([0, 0, 90])) for vehicle in board.vehicles.values()]
        reports = [report for report in told if report]
        command = self.draw.choice(reports) if reports and self.draw.random() < 0.4 else draw_command(
            self.draw, self.world, self.history, self.names)
        if command.startswith("request") and version == 2 and len(command.split()) == 7:
            command += " 0"
        entry = read_entry(f"{actor} {command} = duty\n".encode(), version)
        if entry is None:
            self.say(f"{actor} bad {len(self.lines)}")
        else:
            self.lines.append(f"{actor} {command} = {board.reply(entry.word, entry.numbers)}\n".encode())

    def desk(self) -> None:
        """Adds what a desk may do: it opens a batch, commits the one that it has, gives it up, or ends."""
        board, desk = self.history.board, self.draw.choice([a for a in self.history.actors if a.startswith(b"d")])
        opened = next((batch for batch in board.batches.values() if batch.desk == desk), None)
        if opened is None and board.opened < board.asked:
            copies = " ".join(f" {vehicle.id}@{vehicle.version}" for vehicle in board.vehicles.values())
            due = "".join(f" {name}" for name in board.due())
            line = f"{desk.decode()} open {board.opened + 1} at {board.clock} requests{due} plans{copies}".replace("  ", " ")
            self.say(line)
        elif opened is None:
            self.say(f"{desk.decode()} {self.draw.choice(['end', 'cut'])}" if self.draw.random() < 0.2 else "f3")
        elif self.draw.random() < 0.25:
            self.say(f"{desk.decode()} abandon {opened.number}")
        else:
            self.say(self.commit_of(opened))

    def commit_of(self, batch: Batch) -> str:
        """Returns the line of a lawful commit of a batch of at most one request."""
        head, penalty = f"{batch.desk.decode()} commit {batch.number}", batch.market.settings.penalty
        if not batch.rides:
            return f"{head} cost 0 seats prices pays outcomes"
        (name, ride), = batch.rides.items()
        offers = [offer for copy in batch.copies.values() for offer in all_offers(batch, copy, ride)]
        cost, vehicle, i, j = min(offers, default=(penalty, 0, 0, 0))
        seats = [(name, vehicle, i, j)] if offers and cost <= penalty else []
        seat, price = "".join(" " + ":".join(map(str, seat)) for seat in seats), min(cost, penalty)
        outcome = self.history.board.outcomes(batch, seats)[name]
        return f"{head} cost {price} seats{seat} prices {name}:{price} pays outcomes {name}:{outcome}"


def all_offers(batch: Batch, copy: Vehicle, ride: Ride) -> list[tuple[int, int, int, int]]:
    """Returns (cost, vehicle, i, j) of each offer of the vehicle, of which each place is judged whole."""
    places = [(i, j) for j in range(len(copy.stops) + 1) for i in range(j + 1)]
    costs = [(Offers(batch.market, ride).cost_at(copy, i, j), i, j) for i, j in places]
    return [(cost, copy.id, i, j) for cost, i, j in costs if cost is not None]


def same_cost_seat(draw: random.Random, world: World, log: bytes) -> bytes:
    """Returns the log with a seat moved to another offer of the same vehicle that costs the same; or as it was."""
    history, lines = History(read_board(str(world.map), str(world.fleet))), log.splitlines(keepends=True)
    choices = []
    for place, line in enumerate(lines):
        entry = read_entry(line, history.board.settings.log)
        if entry and entry.word == b"commit":
            batch = history.board.batches[entry.numbers[0]]
            for name, vehicle, i, j in entry.seats:
                offers = all_offers(batch, batch.copies[vehicle], batch.rides[name])
                cost = next(offer[0] for offer in offers if offer[2:] == (i, j))
                choices += [(place, (name, vehicle, i, j), (name, vehicle, *offer[2:]))
                            for offer in offers if offer[0] == cost and offer[2:] != (i, j)]
        if history.wrong(line):
            break
    if choices:
        place, old, new = draw.choice(choices)
        before, after = (b" " + ":".join(map(str, seat)).encode() + b" " for seat in (old, new))
        lines[place] = lines[place].replace(before, after, 1)
    return b"".join(lines)


def commands_of(log: bytes, version: int) -> list[str]:
    """Returns the commands of a log's feeds in its order, a bad line as one."""
    told = []
    for line in log.splitlines(keepends=True):
        entry = read_entry(line, version)
        if entry is not None and entry.actor.startswith(b"f") and entry.word not in (b"end", b"cut"):
            told.append(" ".join([entry.word.decode(), *map(str, entry.numbers)]))
    return told


def run_program(program: str, *words: str) -> tuple[bytes, int]:
    """Returns the program's standard output and status."""
    ran = subprocess.run([program, *words], stdout=subprocess.PIPE, stderr=subprocess.DEVNULL, check=False)
    return ran.stdout, ran.returncode
