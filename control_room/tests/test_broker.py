"""The broker's files, and streams that are made before anybody speaks; no broker runs."""
import os
import subprocess
import unittest
from typing import List
from unittest import mock

from room_tests import WithFolder, has_libraries

from control_room import broker as broker_module
from control_room import streams
from control_room.broker import Broker, BrokerError
from control_room.tokens import secret_of

# The table of names of a node (Erlang's dets, version 9) as a killed node left it, and as it is a second later: its first 48 bytes.
HEAD = bytes.fromhex("0000153800abcdef00000001000000010000000900000100000001000000000100000000000000000000010002000000")
NAMED = HEAD[:32] + b"\0\0\0\1\0\0\0\1" + HEAD[40:]


class Quiet(Broker):
    """A broker that notes what would be started, and ended."""

    def __init__(self, *words: object) -> None:
        super().__init__(*words)  # type: ignore[arg-type]
        self.done: List[str] = []

    def start(self) -> None:
        with mock.patch.object(broker_module, "is_installed", return_value=True):
            super().start()

    def start_epmd(self) -> None:
        self.done.append("names")

    def start_node(self, node: broker_module.Node) -> None:
        self.done.append("node")
        node.data.mkdir(parents=True, exist_ok=True)

    def wait_for(self, node: broker_module.Node) -> None:
        self.done.append("up")

    def stop(self) -> None:
        self.done.append("stop")


def note_table(node: broker_module.Node, text: bytes) -> None:
    """Writes a node's table of names."""
    path = node.data / node.name / "coordination" / node.name / "names.dets"
    path.parent.mkdir(parents=True, exist_ok=True)
    path.write_bytes(text)


class Made(WithFolder):
    def test_a_new_broker_is_unmade_until_it_is_noted(self) -> None:
        first = Broker(self.folder / "broker", 3)
        again = Broker(self.folder / "broker", 1)  # As bridges and web servers know it.
        self.assertEqual((again.password, [node.port for node in again.nodes]), (first.password, [node.port for node in first.nodes]))
        self.assertFalse(again.is_made())
        first.note_made()
        self.assertTrue(again.is_made())
        self.assertTrue(Broker(self.folder / "broker").is_made())

    def test_a_broker_from_before_streams_were_noted_is_made(self) -> None:
        Broker(self.folder)
        (self.folder / "unmade").unlink()
        self.assertTrue(Broker(self.folder).is_made())

    def test_a_plan_that_was_not_written_whole_is_drawn_anew(self) -> None:
        (self.folder / "broker.json.new").write_text('{"epmd": 4')
        self.assertEqual(len(Broker(self.folder, 2).nodes), 2)
        self.assertEqual(os.stat(self.folder / "broker.json").st_mode & 0o777, 0o600)

    def test_only_an_unmade_broker_begins_from_nothing_and_one_node_after_the_other(self) -> None:
        found = Quiet(self.folder, 2)
        kept = [node.data / "messages" for node in found.nodes]
        for left in ([], kept):
            for path in kept:
                path.parent.mkdir(parents=True, exist_ok=True)
                path.write_text("said")
            found.start()
            self.assertEqual([path for path in kept if path.exists()], left)
            found.note_made()
        self.assertEqual(found.done, ["names", "node", "up", "node", "up", "names", "node", "node", "up", "up"])


class Streams(WithFolder):
    def setUp(self) -> None:
        super().setUp()
        self.broker = Quiet(self.folder, 2)
        self.said: List[str] = []
        self.declared: List[List[str]] = []

    def begin(self, *faults: bool) -> None:
        """Begins the broker, whose streams are not declared where there is a fault in turn."""
        left = list(faults)

        def declare(_access: object, names: List[str]) -> None:
            self.declared.append(names)
            if left and left.pop(0):
                raise BrokerError("the streams are not made")
            for node in self.broker.nodes:
                note_table(node, NAMED + streams.COORDINATOR)

        with mock.patch.object(streams, "declare", declare):
            streams.begin(self.broker, ["town.riders", "town.log"], self.said.append)

    def test_the_coordinator_is_known_once_the_table_counts_it(self) -> None:
        node = self.broker.nodes[0]
        self.assertFalse(streams.knows_coordinator(node))
        for text, known in ((HEAD, False), (HEAD + streams.COORDINATOR, False), (NAMED + b"another", False),
                            (NAMED + streams.COORDINATOR, True), (b"", False)):
            note_table(node, text)
            self.assertEqual(streams.knows_coordinator(node), known)

    def test_streams_are_made_once(self) -> None:
        self.begin()
        self.assertTrue(self.broker.is_made())
        self.begin()
        self.assertEqual((self.declared, self.said), ([["town.riders", "town.log"]], []))

    def test_a_broker_whose_streams_are_not_made_begins_anew(self) -> None:
        self.begin(True, True)
        self.assertTrue(self.broker.is_made())
        self.assertEqual(self.broker.done.count("stop"), 2)
        self.assertEqual(self.said, ["the streams are not made; the broker begins anew"] * 2)

    def test_a_broker_that_makes_no_streams_is_a_fault(self) -> None:
        with self.assertRaisesRegex(BrokerError, "the streams are not made"):
            self.begin(*[True] * streams.ATTEMPTS)
        self.assertFalse(self.broker.is_made())

    @unittest.skipIf(has_libraries(), has_libraries() or "")
    def test_a_broker_that_is_not_there_makes_no_streams(self) -> None:
        with self.assertRaisesRegex(BrokerError, "the streams are not made: AMQPConnectionError"):
            streams.declare(self.broker.access(), ["town.riders"])

    def test_each_node_has_to_know_the_coordinator(self) -> None:
        note_table(self.broker.nodes[0], NAMED + streams.COORDINATOR)
        with mock.patch.object(streams, "declare"), mock.patch.object(streams, "PATIENCE", 0.1):
            with self.assertRaisesRegex(BrokerError, "no coordinator"):
                streams.make(self.broker, [])
        self.assertFalse(self.broker.is_made())

    def test_a_node_that_has_ended_is_not_waited_for(self) -> None:
        node = self.broker.nodes[1]
        node.process = subprocess.Popen(["/bin/false"])
        node.process.wait()
        with mock.patch.object(streams, "declare"), self.assertRaisesRegex(BrokerError, "ended with status 1"):
            streams.make(self.broker, [])


class Secrets(WithFolder):
    def test_a_secret_is_drawn_once_and_whole(self) -> None:
        (self.folder / "secret.new").write_text("from a process that was ended")
        secret = secret_of(self.folder)
        self.assertEqual((len(secret), secret_of(self.folder)), (64, secret))
        self.assertEqual([path.name for path in self.folder.iterdir()], ["secret"])
        self.assertEqual(os.stat(self.folder / "secret").st_mode & 0o777, 0o600)


if __name__ == "__main__":
    unittest.main()
