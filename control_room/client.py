"""A client of the control room: what a telephone's program does, over losses of the server, the broker or the bridge."""
import asyncio
import json
from dataclasses import dataclass
from typing import Any, Callable, Dict, Optional

import aiohttp

# Seconds until a call is given up and made again, and between two tries.
CALL = 20.0
PAUSE = 0.3
# A call is made so many times at most.
TRIES = 400


@dataclass(frozen=True)
class Told:
    """An answer: its status, its document, and how many tries it took."""
    status: int
    said: Dict[str, Any]
    tries: int


class Client:
    """Somebody's program with a token in a zone, at one of the web servers."""

    def __init__(self, http: aiohttp.ClientSession, server: str, zone: str, token: str):
        self.http = http
        self.server = server
        self.zone = zone
        self.token = token

    async def call(self, method: str, path: str, body: Optional[Dict[str, Any]] = None, key: str = "") -> Told:
        """Makes one call of the zone's pages; raises aiohttp.ClientError and asyncio.TimeoutError."""
        headers = {"Authorization": f"Bearer {self.token}"}
        if key:
            headers["Idempotency-Key"] = key
        async with self.http.request(method, f"{self.server}/zones/{self.zone}/{path}", json=body, headers=headers,
                                     timeout=aiohttp.ClientTimeout(total=CALL)) as response:
            return Told(response.status, json.loads(await response.text()), 1)

    async def surely(self, method: str, path: str, body: Optional[Dict[str, Any]] = None, key: str = "") -> Told:
        """Makes a call until it is answered: a lost call, a message that is not answered yet, and a busy server are tried again.

        What is said needs a key, by which the control room knows it again, so that it counts once.
        """
        for tries in range(1, TRIES + 1):
            try:
                told = await self.call(method, path, body, key)
            except (aiohttp.ClientError, asyncio.TimeoutError, ValueError):
                await asyncio.sleep(PAUSE)
                continue
            if told.status in (202, 429) or (told.status == 503 and "code" not in told.said):
                await asyncio.sleep(PAUSE)
                continue
            return Told(told.status, told.said, tries)
        raise asyncio.TimeoutError(f"{method} {path} was not answered in {TRIES} tries")

    async def follow(self, told: Callable[[Dict[str, Any]], None]) -> None:
        """Listens to the zone's WebSocket until cancelled, and connects anew whenever it is lost."""
        while True:
            try:
                await self._follow_once(told)
            except (aiohttp.ClientError, asyncio.TimeoutError, OSError, json.JSONDecodeError):
                pass
            await asyncio.sleep(PAUSE)

    async def _follow_once(self, told: Callable[[Dict[str, Any]], None]) -> None:
        async with self.http.ws_connect(f"{self.server}/zones/{self.zone}/live", heartbeat=30.0, max_msg_size=0) as socket:
            await socket.send_str(json.dumps({"token": self.token}))
            async for message in socket:
                if message.type == aiohttp.WSMsgType.TEXT:
                    told(json.loads(message.data))
