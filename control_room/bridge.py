"""The bridge of a zone: plays the streams of riders and drivers into its session, and publishes the kept log.

A line is published once it is on the disk, and nobody but the bridge reads the kept log; so whatever a rider is told stands there.
Bridges may die at any moment: all that one knows it reads again from the streams and the kept log.
"""
import asyncio
import json
import os
import signal
import sys
import time
from dataclasses import dataclass
from typing import Any, Dict, List, Optional, Tuple

from trip_log import LogError, TripLog, read_fleet

from control_room.access import Access
from control_room.auditor import audit_from_time_to_time
from control_room.day_clock import unix_now
from control_room.feed_player import FeedPlayer, Misplaced
from control_room.kept_log import CannotStart, is_running, lock, read_kept
from control_room.link import Link
from control_room.log_tail import LogTail
from control_room.messages import Gate
from control_room.schedule import Schedule
from control_room.zones import Zone

# A publication has so many bytes of lines at most, or one line.
LONGEST_CHUNK = 60_000
# Messages are played together that come within one turn, so many at most.
MOST_TOGETHER = 200
# A bridge that is to end plays on until no message came for so many seconds.
QUIET = 0.5
# Seconds in which the broker may take the last lines of a session that broke off.
LAST_WORDS = 5.0
# Of a session that is no more all messages count as played.
ALL = sys.maxsize


class BridgeError(Exception):
    """Why a bridge cannot go on."""


@dataclass(frozen=True)
class Line:
    """A line of the kept log with its number from 1, and the index of the feed whose message it answers, None for other lines."""
    number: int
    text: str
    feed: Optional[int]


def chunk_text(lines: List[Line], origins: Dict[int, Tuple[str, str]], moment: int) -> bytes:
    """Returns the message of the stream of the log that tells these lines.

    `first` is the number of the first line, `of` says for the lines that answer a message its id and who said it, `moment` is the
    Unix time in milliseconds at which the lines were on the disk.
    """
    return json.dumps({"first": lines[0].number, "lines": [line.text for line in lines],
                       "of": {str(number): origin for number, origin in origins.items()}, "moment": moment}, separators=(",", ":")).encode()


class Bridge:
    """A running bridge."""

    def __init__(self, zone: Zone, link: Link):
        self.zone = zone
        self.link = link
        fleet = read_fleet(zone.fleet)
        self.log = TripLog(fleet)
        self.tail = LogTail(zone.kept_log)
        version = fleet.settings["log"]
        self.feeds = [FeedPlayer(actor, zone.pipe(name), Gate(zone.clock(), version))
                      for actor, name in (("f1", "riders"), ("f2", "drivers"))]
        self.schedule = Schedule(zone)
        self.writing = asyncio.Lock()
        self.unpublished: "asyncio.Queue[Line]" = asyncio.Queue()
        self.news_of_messages = asyncio.Event()
        self.published = self._published_before()
        self.messages = 0
        self.over = False
        self.ending = asyncio.Event()

    def _published_before(self) -> int:
        """Returns how many lines an earlier bridge knew to be published; perhaps more are, which readers pass over."""
        self.note = os.open(self.zone.path("published"), os.O_RDWR | os.O_CREAT | os.O_CLOEXEC, 0o644)
        said = os.pread(self.note, 20, 0).strip()
        return int(said) if said.isdigit() else 0

    async def run(self) -> None:
        """Runs until the session has ended and its log is published; raises BridgeError where it broke off."""
        following = asyncio.create_task(self._follow_log())
        publishing = asyncio.create_task(self._publish())
        players: List["asyncio.Task[None]"] = []
        played = await self._played(following)
        for index, (feed, name) in enumerate(zip(self.feeds, ("riders", "drivers"))):
            players.append(asyncio.create_task(self._play(index, self.zone.stream(name), played[index])))
        if played[0] != ALL:
            players.append(asyncio.create_task(self._tick()))
        auditing = asyncio.create_task(audit_from_time_to_time(self.zone, self.link, self.ending))
        ending = asyncio.create_task(self._end_when_told(players))
        await self._first_fault([following, publishing, *players, auditing, ending], publishing)
        for task in (following, *players, auditing, ending):
            task.cancel()
        if not self.log.finished():
            raise self._broke_off()

    def _broke_off(self) -> BridgeError:
        return BridgeError(f"the session of {self.zone.name} broke off after line {self.log.lines} of {self.zone.kept_log}")

    async def _first_fault(self, tasks: List["asyncio.Task[None]"], last: "asyncio.Task[None]") -> None:
        """Waits until the last task has ended; a fault of any is raised."""
        while not last.done():
            done, _ = await asyncio.wait([task for task in tasks if not task.done()], return_when=asyncio.FIRST_COMPLETED)
            for task in done:
                if not task.cancelled():
                    task.result()
        last.result()

    # The kept log.

    async def _follow_log(self) -> None:
        """Reads the kept log until the session is no more. Raises BridgeError some seconds after one that broke off: the next begins once no
        bridge is there, and what the broker did not take by then the next bridge publishes."""
        while True:
            lines = await self.tail.lines(1.0)
            for text in lines:
                self._see(text)
            if not lines and not is_running(self.zone.kept_log):
                for text in self.tail.take():
                    self._see(text)
                break
        self.unpublished.put_nowait(Line(0, "", None))
        if not self.log.finished():
            await asyncio.sleep(LAST_WORDS)
            raise self._broke_off()

    def _see(self, text: str) -> None:
        entry = self.log.read(text + "\n")
        feed = None
        if entry and entry.actor in ("f1", "f2"):
            index = int(entry.actor[1]) - 1
            if self.feeds[index].see(entry.kind, entry.numbers):
                feed = index
        if entry:
            self.schedule.see(entry)
        self.unpublished.put_nowait(Line(self.log.lines, text, feed))

    async def _played(self, following: "asyncio.Task[None]") -> List[int]:
        """Returns how many messages of each stream are answered or will be: those before this bridge's marks; all without a session.

        The clock comes before the marks: a session that goes on commits a batch that it had open as soon as it hears of anything, and by
        the old clock riders would be promised what is over."""
        if not is_running(self.zone.kept_log):
            return [ALL, ALL]
        for feed in self.feeds:
            await feed.write([f"clock {self.zone.clock().now()}", f"cancel {feed.mark}"])
        waits = [feed.played for feed in self.feeds]
        marks = asyncio.ensure_future(asyncio.gather(*waits))
        await asyncio.wait([marks, following], return_when=asyncio.FIRST_COMPLETED)
        if following.done() and not marks.done():
            marks.cancel()
            following.result()
            return [ALL, ALL]
        return list(marks.result())

    async def _publish(self) -> None:
        """Publishes each line once it is on the disk, in order, until the log's end."""
        loop = asyncio.get_running_loop()
        while not self.over:
            lines, origins = await self._next_lines()
            if lines:
                await loop.run_in_executor(None, self.tail.sync)
                await self.link.publish_surely(self.zone.stream("log"), chunk_text(lines, origins, unix_now()))
                self.published = lines[-1].number
                os.pwrite(self.note, b"%-20d" % self.published, 0)

    async def _next_lines(self) -> Tuple[List[Line], Dict[int, Tuple[str, str]]]:
        """Returns the next lines to publish, at least one where the log goes on, and of each that answers a message whose it was."""
        lines: List[Line] = []
        origins: Dict[int, Tuple[str, str]] = {}
        size = 0
        while not lines or (size < LONGEST_CHUNK and not self.unpublished.empty()):
            line = await self.unpublished.get()
            if line.number == 0:
                self.over = True
                break
            origin = await self._origin(line)
            if line.number > self.published:
                lines.append(line)
                size += len(line.text)
                if origin:
                    origins[line.number] = origin
        return lines, origins

    async def _origin(self, line: Line) -> Optional[Tuple[str, str]]:
        """Returns the id and the sender of the message that a line answers, once it was read."""
        if line.feed is None:
            return None
        said = line.text.split(" ", 1)[1].split(" = ")[0]
        while True:
            self.news_of_messages.clear()
            origin = self.feeds[line.feed].origin_of(said)
            if origin:
                return origin.id, origin.who
            await self.news_of_messages.wait()

    # Feeds.

    async def _play(self, index: int, stream: str, played: int) -> None:
        """Plays a stream's messages behind the first `played` into its feed."""
        feed = self.feeds[index]
        reading = self.link.read(stream, "first")
        async for _offset, body in reading:
            lines = [feed.take(body, played)]
            while len(lines) < MOST_TOGETHER and not reading.came.empty():
                _offset, body = await reading.__anext__()
                lines.append(feed.take(body, played))
            self.messages += len(lines)
            self.news_of_messages.set()
            news = [line for line in lines if line is not None]
            if news:
                await self._say(index, news)

    async def _say(self, index: int, lines: List[str]) -> None:
        """Writes lines of messages into a feed, the clock before those of riders."""
        async with self.writing:
            await self.feeds[index].write(self.schedule.clock_before(self.zone.clock().now()) + lines if index == 0 else lines)

    async def _tick(self) -> None:
        """Sends the clock, and asks for batches, by the schedule."""
        while not self.ending.is_set():
            async with self.writing:
                lines = self.schedule.due(self.zone.clock().now(), self.log)
                if lines:
                    await self.feeds[0].write(lines)
            await asyncio.sleep(self.schedule.pause())

    async def _end_when_told(self, players: List["asyncio.Task[None]"]) -> None:
        """Once the bridge is to end: plays what still comes, then lets go of the pipes."""
        await self.ending.wait()
        before = -1
        while before != self.messages:
            before = self.messages
            await asyncio.sleep(QUIET)
        for player in players:
            player.cancel()
        for feed in self.feeds:
            feed.close()


async def serve(zone: Zone, access: Access) -> None:
    """Runs the bridge of a zone until its session ends, or until it is told to end by SIGTERM."""
    link = Link(access, zone.streams())
    link.start()
    bridge = Bridge(zone, link)
    asyncio.get_running_loop().add_signal_handler(signal.SIGTERM, bridge.ending.set)
    try:
        await bridge.run()
    finally:
        await link.close()


def wait_for_session(zone: Zone) -> None:
    """Ends once a session has the zone's kept log, or all that stands there is over."""
    looked_at: Any = None
    while not is_running(zone.kept_log):
        found = os.stat(zone.kept_log)
        if looked_at != (found.st_ino, found.st_size):
            looked_at = found.st_ino, found.st_size
            if read_kept(zone.kept_log).over:
                return
        time.sleep(0.1)


def main(zone: Zone, access: Access) -> int:
    """Runs a zone's bridge, of which there is one. Returns 0 after a whole session, else 3, 2 where another bridge runs."""
    try:
        wait_for_session(zone)
        signal.signal(signal.SIGINT, signal.SIG_IGN)
        with open(zone.path("bridge.lock"), "w") as held:
            lock(held.fileno())
            asyncio.run(serve(zone, access))
    except BlockingIOError:
        print(f"another bridge of {zone.name} runs", file=sys.stderr)
        return 2
    except (BridgeError, CannotStart, Misplaced, LogError, OSError) as cause:
        print(f"bridge of {zone.name}: {cause}", file=sys.stderr)
        return 3
    return 0
