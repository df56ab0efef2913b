"""A zone as a web server has it: its view by the stream of the log, and messages that wait for their lines."""
import asyncio
import json
import os
import time
from typing import Any, Dict, List, Optional

from trip_log import read_fleet

from control_room.chart import read_chart
from control_room.day_clock import unix_now
from control_room.link import Link, LinkLost
from control_room.messages import Message
from control_room.views import Times
from control_room.watch import Watch
from control_room.words import Problem
from control_room.zone_view import Answer, ZoneView
from control_room.zones import Zone

# Seconds for which an answer is waited for; and for which the broker is, before the message is given up.
ANSWER_IN = 6.0
BROKER_IN = 12.0
# A server that begins has caught up when no message of the log came for so many seconds, or one that is newer than it.
CAUGHT_UP = 1.5


class WebZone:
    """A zone's view that follows its stream of the log, and sends what people say."""

    def __init__(self, zone: Zone, link: Link):
        self.zone = zone
        self.link = link
        self.clock = zone.clock()
        self.times = Times(self.clock)
        self.view = ZoneView(read_fleet(zone.fleet))
        nodes = zone.path("nodes.co")
        self.chart = read_chart(zone.map, nodes if os.path.exists(nodes) else None, zone.columns)
        self.watch = Watch()
        self.audit: Optional[Dict[str, Any]] = None
        self.waiters: Dict[str, "List[asyncio.Future[Answer]]"] = {}
        self.began = unix_now()
        self.last_news = time.monotonic()
        self.caught_up = False
        self.tasks: "List[asyncio.Task[None]]" = []

    def start(self) -> None:
        """Begins to follow the streams."""
        self.tasks = [asyncio.create_task(work) for work in (self._follow_log(), self._follow_audits(), self._watch())]

    async def _follow_log(self) -> None:
        async for _offset, body in self.link.read(self.zone.stream("log"), "first"):
            self.last_news = time.monotonic()
            for answer in self.view.take(body):
                self._tell(answer)
            if self.view.moment >= self.began:
                self.caught_up = True

    def _tell(self, answer: Answer) -> None:
        for waiter in self.waiters.pop(answer.name, []):
            if not waiter.done():
                waiter.set_result(answer)

    async def _follow_audits(self) -> None:
        async for _offset, body in self.link.read(self.zone.stream("audit"), "last"):
            self.audit = json.loads(body)

    async def _watch(self) -> None:
        while True:
            self.watch.mark(self.view, time.monotonic())
            await asyncio.sleep(1.0)
            if self.link.up.is_set() and time.monotonic() - self.last_news > CAUGHT_UP:
                self.caught_up = True

    def news_age(self) -> float:
        """Returns the age in seconds of the last line that came."""
        return max(0.0, (unix_now() - self.view.moment) / 1000) if self.view.moment else time.monotonic() - self.last_news

    async def say(self, stream: str, message: Message) -> Optional[Answer]:
        """Sends a message and returns its answer from the kept log; None where it is sent and not yet answered."""
        known = self.view.answer_to(message.who, message.id)
        if known:
            return known
        name = f"{message.who} {message.id}"
        answered: "asyncio.Future[Answer]" = asyncio.get_running_loop().create_future()
        self.waiters.setdefault(name, []).append(answered)
        try:
            await self._send(stream, message)
            return await asyncio.wait_for(answered, ANSWER_IN)
        except asyncio.TimeoutError:
            return None
        finally:
            self._forget(name, answered)

    def _forget(self, name: str, waiter: "asyncio.Future[Answer]") -> None:
        waiters = self.waiters.get(name, [])
        if waiter in waiters:
            waiters.remove(waiter)
        if not waiters:
            self.waiters.pop(name, None)

    async def _send(self, stream: str, message: Message) -> None:
        """Sends a message until the broker has confirmed it; the same message twice is played once."""
        until = time.monotonic() + BROKER_IN
        while True:
            try:
                left = until - time.monotonic()
                return await asyncio.wait_for(self.link.publish(self.zone.stream(stream), message.text()), max(0.01, left))
            except (LinkLost, asyncio.TimeoutError) as cause:
                if time.monotonic() >= until:
                    raise Problem("no-broker", "Send it again with the same Idempotency-Key: it counts once.", retry_after=5) from cause
                await asyncio.sleep(0.2)

    def stop(self) -> None:
        for task in self.tasks:
            task.cancel()
