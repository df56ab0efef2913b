"""A broker of three nodes loses no command while its nodes are ended and started again."""
import asyncio
import os
import random
import shutil
import signal
import tempfile
import time
import unittest
from pathlib import Path
from typing import List, Set, Tuple

from trial_room import needs_broker

from control_room.broker import Broker, Node
from control_room.day_clock import DayClock
from control_room.link import Link
from control_room.messages import Gate, Message, read_message

COMMANDS = int(os.environ.get("CONTROL_ROOM_COMMANDS", "100000"))
# So many publications wait for their confirmation at once.
TOGETHER = 200
STREAM = "trial.drivers"
# So many nodes are ended, each while its part of the commands is published.
ENDS = 6


def command(number: int) -> bytes:
    """Returns the message of a command that no other is."""
    return Message(f"c{number}", "driver:1", "at", {"vehicle": 1, "node": 1, "time": number}).text()


@needs_broker
class Cluster(unittest.TestCase):
    def setUp(self) -> None:
        self.folder = Path(tempfile.mkdtemp(prefix="control_room.cluster."))
        self.addCleanup(shutil.rmtree, self.folder)
        self.broker = Broker(self.folder, 3)
        self.addCleanup(self.broker.stop)
        self.broker.start()
        self.ended: List[Tuple[str, float]] = []
        self.losses = self.begun = 0

    def test_no_command_is_lost_while_nodes_end(self) -> None:
        began = time.monotonic()
        asyncio.run(self.publish_all())
        took = time.monotonic() - began
        found, again = asyncio.run(self.read_all())
        print(f"{COMMANDS} commands confirmed in {took:.0f} s, {COMMANDS / took:.0f} a second, while "
              f"{', '.join(f'{name} (back after {back:.0f} s)' for name, back in self.ended)} were ended; {self.losses} connections lost; "
              f"{len(found)} in the stream, {again} of them twice")
        self.assertEqual(len(found), COMMANDS)
        self.assertEqual(len(self.ended), ENDS)
        sizes = [sum(path.stat().st_size for path in node.folder.glob("data/**/*.segment")) for node in self.broker.nodes]
        self.assertGreater(min(sizes), COMMANDS * len(command(0)), f"each node has a copy: {sizes}")

    async def publish_all(self) -> None:
        """Publishes each command until it is confirmed, while nodes are ended."""
        link = Link(self.broker.access(), [STREAM])
        link.start()
        await link.up.wait()
        room = asyncio.Semaphore(TOGETHER)
        trouble = asyncio.create_task(self.trouble())
        tasks = []
        for number in range(COMMANDS):
            while number * ENDS >= (self.begun + 1) * COMMANDS:
                await asyncio.sleep(0.05)  # The next node is ended while the next part is published.
            await room.acquire()
            tasks.append(asyncio.create_task(self.publish(link, number, room)))
        await asyncio.gather(*tasks)
        await trouble
        self.losses = link.losses
        await link.close()

    async def publish(self, link: Link, number: int, room: asyncio.Semaphore) -> None:
        try:
            await link.publish_surely(STREAM, command(number))
        finally:
            room.release()

    async def trouble(self) -> None:
        """Ends one node after the other by SIGKILL, and starts each again; the next is ended once it is back."""
        draw = random.Random(1)
        for node in draw.sample(self.broker.nodes, 3) * (ENDS // 3):
            await asyncio.sleep(draw.uniform(1, 3))
            self.end(node)
            down = time.monotonic()
            await asyncio.sleep(1.0)
            self.broker.start_node(node)
            await asyncio.get_running_loop().run_in_executor(None, self.broker.wait_for, node)
            self.ended.append((node.name, time.monotonic() - down))
            self.begun += 1

    @staticmethod
    def end(node: Node) -> None:
        assert node.process is not None
        os.killpg(node.process.pid, signal.SIGKILL)
        node.process.wait()

    async def read_all(self) -> Tuple[Set[str], int]:
        """Returns the commands that stand in the stream as a bridge plays them, and how many messages stand there again."""
        for node in self.broker.nodes:
            if node.process is None or node.process.poll() is not None:
                self.broker.start_node(node)
            await asyncio.get_running_loop().run_in_executor(None, self.broker.wait_for, node)
        link, gate = Link(self.broker.access(), [STREAM]), Gate(DayClock(0, 0, 1), 1)
        link.start()
        reading, found, again = link.read(STREAM, "first"), set(), 0
        try:
            while True:
                _offset, body = await asyncio.wait_for(reading.__anext__(), 10.0)
                message = read_message(body)
                line = gate.line_for(message)
                if message is None or line is None:
                    again += 1
                else:
                    found.add(message.id)
        except asyncio.TimeoutError:
            return found, again
        finally:
            await link.close()


if __name__ == "__main__":
    unittest.main()
