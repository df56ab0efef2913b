"""What is left of a control room whose `run` was ended by force: its parts, told to end in order."""
import json
import os
import signal
import time
from pathlib import Path
from typing import Dict, List

from control_room.whole import write_whole

# Every process of a room has its folder in its environment under this name, by which it is known again.
MARK = "CONTROL_ROOM_FOLDER"
# Seconds for which the parts of one kind are waited for.
PATIENCE = 60.0


def note(folder: Path, name: str, process: int) -> None:
    """Notes the process of a part in the room's folder."""
    path = folder / "processes.json"
    noted: Dict[str, int] = json.loads(path.read_text()) if path.exists() else {}
    noted[name] = process
    write_whole(path, json.dumps(noted, indent=1) + "\n")


def is_of(process: int, folder: Path) -> bool:
    """Returns whether a process runs and is of this room."""
    try:
        environment = Path(f"/proc/{process}/environ").read_bytes().split(b"\0")
    except OSError:
        return False
    return f"{MARK}={folder}".encode() in environment


def living(folder: Path) -> Dict[str, int]:
    """Returns the processes of a room's noted parts that run, by name."""
    path = folder / "processes.json"
    if not path.is_file():
        raise ValueError(f"{folder} is no control room's folder")
    noted: Dict[str, int] = json.loads(path.read_text())
    return {name: process for name, process in noted.items() if is_of(process, folder)}


def stop(folder: Path) -> List[str]:
    """Tells what is left of a room to end, in order, and waits for it. Returns the names of what was left."""
    found = living(folder)
    for beginnings in (("run",), ("simulate",), ("web",), ("bridge", "keeper"), ("room",), ("epmd",)):
        chosen = {name: process for name, process in found.items() if name.startswith(beginnings)}
        for process in chosen.values():
            os.kill(process, signal.SIGTERM)
        until = time.monotonic() + PATIENCE
        while any(is_of(process, folder) for process in chosen.values()) and time.monotonic() < until:
            time.sleep(0.1)
    return list(found)
