"""The live audit: the program's own audit over the whole lines of the kept log, from time to time."""
import asyncio
import json
import os
import time
from dataclasses import asdict, dataclass
from typing import TYPE_CHECKING, Optional, Tuple

from control_room.day_clock import unix_now
from control_room.kept_log import whole_lines
from control_room.zones import Zone

if TYPE_CHECKING:
    from control_room.link import Link


@dataclass(frozen=True)
class AuditWord:
    """What an audit said: its line and status, of how many bytes of the kept log, how long it took, and when (Unix milliseconds)."""
    said: str
    status: int
    size: int
    seconds: float
    moment: int

    def text(self) -> bytes:
        return json.dumps(asdict(self)).encode()


async def audit(zone: Zone) -> AuditWord:
    """Returns what an audit of the zone's kept log says now."""
    text = await asyncio.get_running_loop().run_in_executor(None, whole_lines, zone.kept_log)
    began = time.monotonic()
    try:
        said, status = await _said(zone, text)
    except OSError as fault:
        said, status = f"no audit: {fault}", -1
    return AuditWord(said, status, len(text), round(time.monotonic() - began, 3), unix_now())


async def _said(zone: Zone, text: bytes) -> Tuple[str, int]:
    """Returns what the program's audit says of a text, and its status."""
    process = await asyncio.create_subprocess_exec(
        "nice", "-n", "10", zone.program, "audit", "--map", zone.map, "--fleet", zone.fleet, "--log", "/dev/stdin",
        stdin=asyncio.subprocess.PIPE, stdout=asyncio.subprocess.PIPE, stderr=asyncio.subprocess.DEVNULL, start_new_session=True)
    try:
        said, _ = await process.communicate(text)
    finally:
        if process.returncode is None:
            process.kill()
    return said.decode("utf-8", "replace").strip(), process.returncode or 0


async def audit_from_time_to_time(zone: Zone, link: "Link", ending: asyncio.Event) -> None:
    """Audits the kept log each `audit_every` seconds where it has grown, and publishes the word; until the bridge is to end."""
    before: Optional[int] = None
    while zone.audit_every > 0 and not ending.is_set():
        try:
            await asyncio.wait_for(ending.wait(), zone.audit_every)
            return
        except asyncio.TimeoutError:
            pass
        if os.path.getsize(zone.kept_log) != before:
            word = await audit(zone)
            before = word.size
            await link.publish_surely(zone.stream("audit"), word.text())
