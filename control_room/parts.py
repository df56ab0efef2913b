"""The parts of a control room as processes: started, started again where they end by themselves, and ended in order."""
import os
import signal
import subprocess
import sys
import time
from dataclasses import dataclass, field
from pathlib import Path
from typing import Callable, Dict, List, Optional, Tuple

from control_room import HERE, remnants
from control_room.broker import Broker, end_surely, last_line
from control_room.keeper import Keeper, status_words
from control_room.zones import Zone

PYTHON = "/usr/bin/python3" if os.path.exists("/usr/bin/python3") else sys.executable
# A part that ends by itself is started again after so many seconds.
AGAIN_AFTER = 1.0


@dataclass
class Part:
    """A process of this package: the words behind `python3 -m control_room`, and the statuses with which it is not started again."""
    name: str
    words: List[str]
    final: Tuple[int, ...] = ()
    process: "Optional[subprocess.Popen[bytes]]" = None
    starts: int = 0
    ended_at: float = 0.0


@dataclass
class Room:
    """All parts of a running control room, and where what they say is kept."""
    folder: Path
    broker: Broker
    say: Callable[[str], None]
    parts: Dict[str, Part] = field(default_factory=dict)
    keepers: List[Keeper] = field(default_factory=list)

    def hold(self, zone: Zone) -> None:
        """Holds a zone's pipes too, so that its feeds go on where bridge and keeper break off in the same second."""
        self.keepers.append(Keeper(zone))
        self.keepers[-1].hold()

    def let_go(self) -> None:
        """Lets go of all pipes."""
        for keeper in self.keepers:
            keeper.let_go()

    def start(self, part: Part) -> None:
        """Starts a part. What it says goes into the folder `said`."""
        self.parts[part.name] = part
        said = self.folder / "said"
        said.mkdir(exist_ok=True)
        with open(said / f"{part.name}.txt", "ab") as output:
            part.process = subprocess.Popen([PYTHON, "-m", "control_room", *part.words], cwd=HERE.parent, stdin=subprocess.DEVNULL,
                                            stdout=output, stderr=output, start_new_session=True,
                                            env={**os.environ, remnants.MARK: str(self.folder)})
        remnants.note(self.folder, part.name, part.process.pid)
        part.starts += 1
        part.ended_at = 0.0

    def look_after(self) -> Optional[str]:
        """Starts again what has ended. Returns why the room cannot go on, None where it does."""
        for node in self.broker.nodes:
            if node.process and node.process.poll() is not None:
                self.say(f"{node.name} {status_words(node.process.returncode)}; it is started again")
                self.broker.start_node(node)
        for part in self.parts.values():
            fault = self._look_after(part)
            if fault:
                return fault
        return None

    def _look_after(self, part: Part) -> Optional[str]:
        status = part.process.poll() if part.process else None
        if status is None or status == 0:
            return None
        if not part.ended_at:
            words = status_words(status) + (f": {last_line(self.folder / 'said' / f'{part.name}.txt')}" if status > 0 else "")
            if status in part.final:
                return f"{part.name} {words}"
            part.ended_at = time.monotonic()
            self.say(f"{part.name} {words}; it is started again")
        elif time.monotonic() >= part.ended_at + AGAIN_AFTER:
            self.start(part)
        return None

    def end(self, names: List[str], seconds: float) -> None:
        """Tells these parts to end, and waits for each."""
        chosen = [self.parts.pop(name) for name in names if name in self.parts]
        for part in chosen:
            if part.process:
                part.process.terminate()
        for part in chosen:
            if part.process:
                end_surely(part.process, seconds)

    def end_by_force(self, name: str) -> None:
        """Ends a part, or a node of the broker, at once, as a fault would (SIGKILL); it is looked after later."""
        nodes = {node.name: node.process for node in self.broker.nodes}
        process = nodes[name] if name in nodes else self.parts[name].process
        if process and process.poll() is None:
            if name in nodes:
                os.killpg(process.pid, signal.SIGKILL)  # The node's own group: its Erlang, and what that started.
            else:
                process.kill()
            process.wait()

    def named(self, beginning: str) -> List[str]:
        """Returns the names of the parts that begin so."""
        return [name for name in self.parts if name.startswith(beginning)]
