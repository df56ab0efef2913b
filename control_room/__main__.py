"""The control room's commands: run, and one for each part that it starts; token, to let somebody in."""
import argparse
import sys
import time
from pathlib import Path
from typing import Callable, List, NoReturn, Optional

EXAMPLE = "example: /usr/bin/python3 -m control_room run --city 20 --vehicles 40 --speed 10"
PARTS = ("keeper", "bridge", "web", "simulate")


class Words(argparse.ArgumentParser):
    """A parser that says what is wrong in one line."""

    def error(self, message: str) -> NoReturn:
        print(f"{self.prog}: {message}", file=sys.stderr)
        sys.exit(2)


def number(least: int, most: int) -> Callable[[str], int]:
    """Returns the reader of a whole number of a range."""
    def read(text: str) -> int:
        if not (text.isascii() and text.isdigit() and len(text) < 12 and least <= int(text) <= most):
            raise argparse.ArgumentTypeError(f"a whole number from {least} to {most} is wanted, not {text!r:.40}")
        return int(text)
    return read


def parser() -> Words:
    """Returns the parser of all commands."""
    words = Words(prog="control_room", description=__doc__, epilog=EXAMPLE)
    commands = words.add_subparsers(dest="command", required=True, metavar="COMMAND", parser_class=Words)
    _run_words(commands.add_parser("run", help="start broker, session, bridge, web server and simulated people; Ctrl-C ends all",
                                   epilog=EXAMPLE))
    token = commands.add_parser("token", help="print a token", epilog="example: /usr/bin/python3 -m control_room token FOLDER rider ada")
    token.add_argument("folder", metavar="FOLDER", help="the control room's folder")
    token.add_argument("role", choices=("rider", "driver", "office"))
    token.add_argument("name", metavar="NAME", help="a rider's name, a driver's vehicle number, a name in the office")
    token.add_argument("--zone", default="all", help="the zone that it is for (default all)")
    token.add_argument("--hours", type=number(1, 100_000), default=24, metavar="N", help="hours for which it holds (default 24)")
    stop = commands.add_parser("stop", help="end what is left of a room whose run was ended by force")
    stop.add_argument("folder", metavar="FOLDER", help="the control room's folder")
    for name in PARTS:
        part = commands.add_parser(name, help=f"one part, as run starts it: {name}")
        part.add_argument("folder", metavar="FOLDER", help="the control room's folder")
        if name != "web":
            part.add_argument("zone", metavar="ZONE")
        if name in ("web", "simulate"):
            part.add_argument("--host", default="127.0.0.1", help="address to listen on (default 127.0.0.1)")
            part.add_argument("--port", type=number(1, 65_535), default=8080, metavar="N", help="port (default 8080)")
        if name == "simulate":
            _crowd_words(part)
    return words


def _crowd_words(words: argparse.ArgumentParser) -> None:
    words.add_argument("--riders-an-hour", type=number(1, 100_000), default=240, metavar="N",
                       help="simulated riders who ask in an hour of the day (default 240)")
    words.add_argument("--riders", type=number(0, 100_000), default=0, metavar="N", help="riders in all (default 0: no end)")
    words.add_argument("--seed", type=number(0, 2**31 - 1), default=1, metavar="N", help="what cities and people are drawn by (default 1)")


def _run_words(words: argparse.ArgumentParser) -> None:
    which = words.add_mutually_exclusive_group()
    which.add_argument("--town", action="store_true", help="the town of examples/ (this is what runs without a choice)")
    which.add_argument("--city", type=number(2, 100), metavar="SIDE", help="a drawn city, a grid of SIDE times SIDE crossings")
    which.add_argument("--own", metavar="FOLDER", action="append",
                       help="your own map.gr and fleet.txt, and nodes.co with coordinates where there is one; a zone that is named after "
                            "the folder, and one more for each time that it is given")
    which.add_argument("--again", metavar="FOLDER", help="goes on with a room of which nothing runs any more, from its kept logs")
    words.add_argument("--vehicles", type=number(1, 1_000), default=30, metavar="N", help="vehicles of a drawn city (default 30)")
    words.add_argument("--zones", type=number(1, 9), default=1, metavar="N",
                       help="so many drawn cities, each a session of its own (default 1)")
    words.add_argument("--speed", type=number(1, 200), default=5, metavar="N", help="seconds of the day in one of life (default 5)")
    words.add_argument("--every", type=number(1, 3_600), default=15, metavar="SECONDS",
                       help="seconds of the day between two batches, of which a session has 2,000 (default 15)")
    words.add_argument("--begin", type=number(0, 86_400), default=0, metavar="SECOND",
                       help="the day's second at which an own zone begins (default 0)")
    words.add_argument("--columns", type=number(0, 1_000), default=0, metavar="N",
                       help="crossings in a row of an own map that is a grid and has no nodes.co (default 0: the page draws a square)")
    words.add_argument("--nobody", action="store_true", help="no simulated riders and drivers")
    words.add_argument("--for", dest="minutes", type=number(0, 100_000), default=0, metavar="MINUTES",
                       help="end after so long (default 0: Ctrl-C)")
    words.add_argument("--program", metavar="PATH",
                       help="the built ride_dispatch (default: crates/ride_dispatch/out/ride_dispatch, or the one on the path)")
    words.add_argument("--resume", metavar="PATH",
                       help="the built ride_resume (default: crates/ride_resume/out/ride_resume, the one beside the program, or the one on the "
                            "path; without any a session that breaks off does not go on)")
    words.add_argument("--folder", help="a new folder for all files (default: one in the system's temporary folder)")
    words.add_argument("--host", default="127.0.0.1", help="address to listen on (default 127.0.0.1)")
    words.add_argument("--port", type=number(1, 65_535), default=8080, metavar="N", help="port of the page (default 8080)")
    words.add_argument("--nodes", type=number(1, 5), default=1, metavar="N",
                       help="nodes of the broker, each with a copy of the streams (default 1)")
    words.add_argument("--webs", type=number(1, 8), default=1, metavar="N", help="web servers, which share the port (default 1)")
    _crowd_words(words)


def part(words: argparse.Namespace) -> int:
    """Runs one part. Returns its status."""
    from control_room import bridge, keeper, simulate, web
    from control_room.broker import Broker
    from control_room.tokens import secret_of
    from control_room.zones import load_zone, load_zones

    folder = Path(words.folder)
    if words.command == "web":
        return web.main(secret_of(folder), load_zones(words.folder), Broker(folder / "broker").access(), words.host, words.port)
    zone = load_zone(str(folder / "zones" / words.zone))
    if words.command == "keeper":
        return keeper.main(zone)
    if words.command == "bridge":
        return bridge.main(zone, Broker(folder / "broker").access())
    crowd = simulate.Crowd(words.riders_an_hour, words.riders, words.seed)
    return simulate.main(zone, f"http://{words.host}:{words.port}", secret_of(folder), crowd)


def give_token(words: argparse.Namespace) -> int:
    """Prints a token. Returns 0."""
    from control_room.tokens import Person, secret_of, sign

    if not Path(words.folder, "zones").is_dir():
        raise ValueError(f"{words.folder} is no control room's folder")
    print(sign(secret_of(Path(words.folder)), Person(words.role, words.zone, words.name), int(time.time()) + words.hours * 3600))
    return 0


def stop_remnants(words: argparse.Namespace) -> int:
    """Ends what is left of a room. Returns 0."""
    from control_room import remnants

    print("ended: " + (", ".join(remnants.stop(Path(words.folder).resolve())) or "nothing was left"))
    return 0


def main(arguments: Optional[List[str]] = None) -> int:
    """Runs a command. Returns its status: 2 with one line on standard error where the words or the files are not in order."""
    words = parser().parse_args(arguments)
    try:
        import aiohttp  # noqa: F401
        import pika  # noqa: F401
    except ImportError as missing:
        print(f"control_room: {missing}; with Debian's python3-aiohttp and python3-pika run it by /usr/bin/python3", file=sys.stderr)
        return 2
    from control_room.supervisor import run

    try:
        if words.command == "run":
            return run(words)
        if words.command == "stop":
            return stop_remnants(words)
        return give_token(words) if words.command == "token" else part(words)
    except (ValueError, OSError) as cause:
        print(f"control_room: {cause}", file=sys.stderr)
        return 2
    except KeyboardInterrupt:
        return 130


if __name__ == "__main__":
    sys.exit(main())
