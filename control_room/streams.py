"""The streams of a new broker, made before any part of the room speaks to it.

RabbitMQ 3.10 finds its streams again by their coordinator, and that by a name which each node notes in
`data/NODE/coordination/NODE/names.dets`. Declarations and messages are confirmed at once; that table's file has the name half a second
to a second later. A node that is ended by force in between has queues, messages and the coordinator's own log on its disk, and takes
itself for one that never had a coordinator (`rabbit_stream_coordinator:recover`). Then each declaration ends by `not_found: home node
.. of durable queue .. is down or inaccessible`, however long one waits and however often the node is started; put into the table by hand,
the one name brings all back. A queue that was noted while the coordinator had not yet heard of it ends in the same way.

So nobody speaks to a broker before that time is over: `begin` declares all streams, waits until each node's table has the name, and only
then notes that they are made; bridges and web servers are started behind it. A broker that ended before the note holds nothing that anybody
said, and begins from nothing. One that ended behind it gives back each confirmed message.
"""
import os
import time
from typing import Callable, Sequence

from control_room.access import STREAM, Access
from control_room.broker import Broker, BrokerError, Node

# The name that a node's table has to have, and where the table's head has the number of its entries, which is written last (Erlang's
# dets, version 9).
COORDINATOR = b"rabbit_stream_coordinator"
COUNT = slice(32, 36)
# Seconds in which all nodes have noted the coordinator, and how often a new broker is begun before that counts as a fault.
PATIENCE = 60.0
ATTEMPTS = 3


def begin(broker: Broker, streams: Sequence[str], say: Callable[[str], None]) -> None:
    """Starts a broker, and ends once it has these streams and will have them however it ends; raises BrokerError."""
    for left in range(ATTEMPTS - 1, -1, -1):
        broker.start()
        try:
            if not broker.is_made():
                make(broker, streams)
            return
        except BrokerError as cause:
            if not left:
                raise
            say(f"{cause}; the broker begins anew")
            broker.stop()


def make(broker: Broker, streams: Sequence[str]) -> None:
    """Makes the streams of a broker that is up, and notes that it has them; raises BrokerError where one is not made."""
    declare(broker.access(), streams)
    until = time.monotonic() + PATIENCE
    while not all(knows_coordinator(node) for node in broker.nodes):
        for node in broker.nodes:
            node.must_run()
        if time.monotonic() > until:
            raise BrokerError(f"a node has no coordinator of streams after {PATIENCE:.0f} s; see {broker.folder}")
        time.sleep(0.05)
    os.sync()  # The machine may end too.
    broker.note_made()


def declare(access: Access, streams: Sequence[str]) -> None:
    """Declares streams at the first node; raises BrokerError."""
    import pika  # Here, as the room's other parts are tested where it is missing.

    host, port = access.nodes[0]
    try:
        connection = pika.BlockingConnection(pika.ConnectionParameters(
            host, port, credentials=pika.PlainCredentials(access.user, access.password), heartbeat=20, socket_timeout=3))
        channel = connection.channel()
        for stream in streams:
            channel.queue_declare(stream, durable=True, arguments=STREAM)
        connection.close()
    except pika.exceptions.AMQPError as cause:
        raise BrokerError(f"the streams are not made: {type(cause).__name__} {cause}".strip()) from cause


def knows_coordinator(node: Node) -> bool:
    """Returns whether a node would find its streams' coordinator again if it were ended now."""
    tables = [path.read_bytes() for path in node.data.glob("*/coordination/*/names.dets")]
    return any(COORDINATOR in table and any(table[COUNT]) for table in tables)
