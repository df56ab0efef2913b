"""The broker's streams by AMQP 0.9.1: publishing with confirmations, and reading from an offset, over any loss of the connection."""
import asyncio
import itertools
from typing import Any, Callable, Dict, List, Optional, Sequence, Tuple, Union

import pika
from pika.adapters.asyncio_connection import AsyncioConnection

from control_room.access import STREAM, Access

# So many messages of a stream are under way to a reader at most, and so many are acknowledged at once.
UNDER_WAY = 2_000
ACKNOWLEDGED = 500
# Seconds until a broker that does not answer is given up, and until the next is tried.
PATIENCE = 8.0
PAUSE = 0.3

Offset = Union[int, str]


class LinkLost(Exception):
    """The connection to the broker was lost before a publication was confirmed. It may or may not stand in the stream."""


class Reading:
    """A stream that is read in order from an offset: `async for offset, body in reading`."""

    def __init__(self, stream: str, offset: Offset):
        self.stream = stream
        self.next_offset = offset
        self.came: "asyncio.Queue[Tuple[int, int, bytes]]" = asyncio.Queue()
        self.channel: Any = None
        self.unacknowledged = 0

    def __aiter__(self) -> "Reading":
        return self

    async def __anext__(self) -> Tuple[int, bytes]:
        while True:
            tag, offset, body = await self.came.get()
            self._acknowledge(tag)
            if isinstance(self.next_offset, int) and offset < self.next_offset:
                continue
            self.next_offset = offset + 1
            return offset, body

    def _acknowledge(self, tag: int) -> None:
        self.unacknowledged += 1
        if self.unacknowledged >= ACKNOWLEDGED and self.channel and self.channel.is_open:
            self.unacknowledged = 0
            self.channel.basic_ack(tag, multiple=True)

    def begin(self, channel: Any) -> None:
        """Asks a new channel for the stream from the place to which it was read. What came by an older one is read anew."""
        self.channel, self.unacknowledged, self.came = channel, 0, _emptied(self.came)
        channel.basic_qos(prefetch_count=UNDER_WAY)
        channel.basic_consume(self.stream, self._take(channel), arguments={"x-stream-offset": self.next_offset})

    def _take(self, channel: Any) -> Callable[..., None]:
        def take(_channel: Any, delivery: Any, properties: Any, body: bytes) -> None:
            if channel is self.channel:
                self.came.put_nowait((delivery.delivery_tag, properties.headers["x-stream-offset"], body))
        return take


def _emptied(queue: "asyncio.Queue[Any]") -> "asyncio.Queue[Any]":
    while not queue.empty():
        queue.get_nowait()
    return queue


class Link:
    """A connection to one of the broker's nodes that is made anew whenever it is lost."""

    def __init__(self, access: Access, streams: Sequence[str]):
        self.access = access
        self.streams = list(streams)
        self.up = asyncio.Event()
        self.readings: List[Reading] = []
        self.unconfirmed: Dict[int, "asyncio.Future[None]"] = {}
        self.published = 0
        self.losses = 0
        self.connection: Any = None
        self.channel: Any = None
        self.lost: "Optional[asyncio.Future[str]]" = None
        self.task: "Optional[asyncio.Task[None]]" = None

    def start(self) -> None:
        """Begins to connect, and goes on for as long as the link is not closed."""
        self.task = asyncio.get_running_loop().create_task(self._keep_up())

    async def close(self) -> None:
        """Ends the connection for good."""
        if self.task:
            self.task.cancel()
            await asyncio.gather(self.task, return_exceptions=True)
        self._drop("closed")

    def read(self, stream: str, offset: Offset) -> Reading:
        """Returns the reading of a stream from an offset: a number, 'first', 'last' or 'next'."""
        reading = Reading(stream, offset)
        self.readings.append(reading)
        if self.up.is_set():
            self._begin(reading)
        return reading

    async def publish(self, stream: str, body: bytes) -> None:
        """Ends once the broker has confirmed the message; raises LinkLost where the connection is lost before."""
        await self.up.wait()
        confirmed: "asyncio.Future[None]" = asyncio.get_running_loop().create_future()
        self.published += 1
        self.unconfirmed[self.published] = confirmed
        try:
            self.channel.basic_publish("", stream, body, pika.BasicProperties(delivery_mode=2), mandatory=True)
        except pika.exceptions.AMQPError as cause:
            raise LinkLost(str(cause)) from cause
        await confirmed

    async def publish_surely(self, stream: str, body: bytes) -> None:
        """As `publish`, but sends the message again over each loss, so that it may stand in the stream twice."""
        while True:
            try:
                return await self.publish(stream, body)
            except LinkLost:
                await asyncio.sleep(PAUSE)

    # Connections.

    async def _keep_up(self) -> None:
        for host, port in itertools.cycle(self.access.nodes):
            self.lost = asyncio.get_running_loop().create_future()
            try:
                await asyncio.wait_for(self._connect(host, port), PATIENCE)
                for reading in self.readings:
                    self._begin(reading)
                self.up.set()
                await self.lost
            except (LinkLost, asyncio.TimeoutError, pika.exceptions.AMQPError):
                pass
            self.up.clear()
            self.losses += 1
            self._drop("the connection was lost")
            await asyncio.sleep(PAUSE)

    async def _connect(self, host: str, port: int) -> None:
        parameters = pika.ConnectionParameters(
            host, port, credentials=pika.PlainCredentials(self.access.user, self.access.password),
            heartbeat=20, socket_timeout=3, stack_timeout=5, connection_attempts=1)
        loop = asyncio.get_running_loop()
        self.connection = await self._answer(lambda done: AsyncioConnection(
            parameters, on_open_callback=done, on_open_error_callback=self._on_lost, on_close_callback=self._on_lost, custom_ioloop=loop))
        self.channel = await self._answer(lambda done: self.connection.channel(on_open_callback=done))
        self.channel.add_on_close_callback(self._on_lost)
        self.channel.add_on_return_callback(self._on_returned)
        self.published = 0
        await self._answer(lambda done: self.channel.confirm_delivery(self._on_confirmed, callback=done))
        for stream in self.streams:
            await self._answer(lambda done: self.channel.queue_declare(stream, durable=True, arguments=STREAM, callback=done))

    async def _answer(self, call: Callable[[Callable[[Any], None]], Any]) -> Any:
        """Returns what the broker answers to a call; raises LinkLost where the connection is lost first."""
        answered: "asyncio.Future[Any]" = asyncio.get_running_loop().create_future()

        def done(what: Any) -> None:
            if not answered.done():
                answered.set_result(what)

        call(done)
        assert self.lost is not None
        await asyncio.wait([answered, self.lost], return_when=asyncio.FIRST_COMPLETED)
        if not answered.done():
            raise LinkLost(self.lost.result())
        return answered.result()

    def _begin(self, reading: Reading) -> None:
        def opened(channel: Any) -> None:
            channel.add_on_close_callback(self._on_lost)
            channel.add_on_cancel_callback(lambda _frame: self._on_lost(channel, "a reading was cancelled"))
            reading.begin(channel)

        self.connection.channel(on_open_callback=opened)

    def _on_lost(self, _which: Any, why: Any = "") -> None:
        if self.lost and not self.lost.done():
            self.lost.set_result(str(why))

    def _on_returned(self, _channel: Any, _method: Any, _properties: Any, _body: bytes) -> None:
        self._on_lost(None, "the broker has no such stream")

    def _on_confirmed(self, frame: Any) -> None:
        method = frame.method
        if method.NAME != "Basic.Ack":
            return self._on_lost(None, "a publication was not taken")
        tags = [tag for tag in self.unconfirmed if tag <= method.delivery_tag] if method.multiple else [method.delivery_tag]
        for tag in tags:
            confirmed = self.unconfirmed.pop(tag, None)
            if confirmed and not confirmed.done():
                confirmed.set_result(None)

    def _drop(self, why: str) -> None:
        unconfirmed, self.unconfirmed = self.unconfirmed, {}
        for confirmed in unconfirmed.values():
            if not confirmed.done():
                confirmed.set_exception(LinkLost(why))
                confirmed.exception()  # Read here, so that nobody is told of it where nobody waits.
        if self.connection is not None and not (self.connection.is_closed or self.connection.is_closing):
            try:
                self.connection.close()
            except pika.exceptions.AMQPError:
                pass
        self.connection = self.channel = None


