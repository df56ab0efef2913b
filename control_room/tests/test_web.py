"""The pages over HTTP and WebSocket, with a link that keeps what is published in place of a broker."""
import asyncio
import json
import unittest
from typing import Any, Dict, List

from room_tests import ROOT, ROW_LOG, WithFolder, has_libraries

from control_room.tokens import Person, sign

MISSING = has_libraries()
if not MISSING:
    from aiohttp import web
    from aiohttp.test_utils import TestClient, TestServer
    from kept_link import KeptLink

    from control_room import client as client_module
    from control_room import web as room_web
    from control_room import web_live, web_zone
    from control_room.client import Client

SECRET = b"test"


@unittest.skipIf(MISSING, MISSING)
class Pages(WithFolder, unittest.IsolatedAsyncioTestCase):
    async def asyncSetUp(self) -> None:
        zone = self.row_zone()
        self.link = KeptLink(zone.clock())
        self.room = room_web.make_room(SECRET, {"row": zone}, self.link)
        self.zone = self.link.zone = self.room.zones["row"]
        self.zone.caught_up = True
        for limit in (self.room.strangers, *self.room.limits.values()):
            limit.now = lambda: 0.0  # The time of rates stands still, however slow the machine is.
        self.link.tell(ROW_LOG[:3])
        self.client = TestClient(TestServer(room_web.make_app(self.room)))
        await self.client.start_server()
        self.addAsyncCleanup(self.client.close)

    def token(self, role: str, name: str, zone: str = "row") -> Dict[str, str]:
        return {"Authorization": f"Bearer {sign(SECRET, Person(role, zone, name), 4_000_000_000)}"}

    async def refusal(self, method: str, path: str, status: int, kind: str, **words: Any) -> Dict[str, Any]:
        """Makes a call that has to be refused by a problem document of this status and kind, which is returned."""
        answer = await self.client.request(method, path, **words)
        said = json.loads(await answer.text())
        self.assertEqual((answer.status, answer.content_type, said["type"], said["status"]),
                         (status, "application/problem+json", f"/problems#{kind}", status), said)
        return said

    def ask(self, **more: Any) -> Dict[str, Any]:
        return {"from": 2, "to": 3, "wait_at_most": 300, "ride_at_most": 300, **more}

    async def test_a_rider_asks_and_is_told_nothing_that_is_not_on_the_log(self) -> None:
        self.link.replies["request"] = "waiting"
        answer = await self.client.post("/zones/row/requests", json=self.ask(), headers=self.token("rider", "ada"))
        said = await answer.json()
        self.assertEqual((answer.status, answer.headers["Location"], said["state"], "vehicle" in said),
                         (201, "/zones/row/requests/1", "waiting", False))
        self.link.tell(["f1 batch = asked 1", "d1 open 1 at 100 requests 1 plans 1@0 2@0",
                        "d1 commit 1 cost 140 seats 1:1:0:0 prices 1:140 pays outcomes 1:confirmed"])
        said = await (await self.client.get("/zones/row/requests/1", headers=self.token("rider", "ada"))).json()
        self.assertEqual((said["state"], said["vehicle"]), ("confirmed", 1))

    async def test_no_answer_in_time_is_no_promise(self) -> None:
        before, web_zone.ANSWER_IN = web_zone.ANSWER_IN, 0.05
        try:
            words = {"json": self.ask(), "headers": {**self.token("rider", "ada"), "Idempotency-Key": "one"}}
            answer = await self.client.post("/zones/row/requests", **words)
            self.assertEqual((answer.status, (await answer.json())["state"]), (202, "sent"))
            # The line comes later; the same call, made again, is answered by it, and is played once.
            name = await self.played_id()
            self.link.tell([f"f1 {self.link.sent[0][1]} = waiting"], [name, "rider:ada"])
            answer = await self.client.post("/zones/row/requests", **words)
            self.assertEqual((answer.status, (await answer.json())["request"], len(self.link.sent)), (201, 1, 1))
        finally:
            web_zone.ANSWER_IN = before

    async def played_id(self) -> str:
        return next(iter(self.link.gates["riders"].seen)).split()[1]

    async def test_a_key_is_of_one_call(self) -> None:
        self.link.replies.update(request="waiting", cancel="cancelled")
        headers = {**self.token("rider", "ada"), "Idempotency-Key": "one"}
        for _ in range(2):
            answer = await self.client.post("/zones/row/requests", json=self.ask(), headers=headers)
            self.assertEqual((answer.status, (await answer.json())["request"]), (201, 1))
        answer = await self.client.delete("/zones/row/requests/1", headers=headers)
        self.assertEqual((await answer.json())["state"], "cancelled")
        self.assertEqual([line.split()[0] for _name, line in self.link.sent], ["request", "cancel"])

    async def test_the_program_s_refusals_have_their_code_and_words(self) -> None:
        self.link.replies["request"] = "refused 2"
        said = await self.refusal("POST", "/zones/row/requests", 422, "refused-2", json=self.ask(to=99), headers=self.token("rider", "ada"))
        self.assertEqual((said["code"], said["title"]), (2, "request node"))
        self.assertIn("= refused 2", said["detail"])
        self.link.replies["done"] = "refused 14"
        said = await self.refusal("POST", "/zones/row/vehicles/1/reports", 409, "refused-14", json={"report": "done"},
                                  headers=self.token("driver", "1"))
        self.assertEqual((said["code"], said["title"], said["instance"]), (14, "no stop", "/zones/row/vehicles/1/reports"))

    async def test_bad_tokens(self) -> None:
        good = self.token("rider", "ada")["Authorization"]
        for header in ({}, {"Authorization": "Bearer "}, {"Authorization": "Basic x"}, {"Authorization": good.replace("ada", "bob")},
                       {"Authorization": good[:-2] + "zz"}, {"Authorization": f"Bearer {sign(SECRET, Person('rider', 'row', 'ada'), 1)}"}):
            await self.refusal("GET", "/zones/row/requests", 401, "bad-token", headers=header)
        await self.refusal("GET", "/zones/row/requests", 403, "other-zone", headers=self.token("rider", "ada", "elsewhere"))
        await self.refusal("GET", "/zones/none/requests", 404, "no-zone", headers=self.token("rider", "ada"))

    async def test_tokens_cannot_be_guessed_without_end(self) -> None:
        for _ in range(20):
            await self.refusal("GET", "/zones/row/requests", 401, "bad-token", headers={"Authorization": "Bearer x"})
        await self.refusal("GET", "/zones/row/requests", 429, "too-often", headers={"Authorization": "Bearer x"})

    async def test_foreign_rides_and_vehicles(self) -> None:
        self.link.replies["request"] = "waiting"
        await self.client.post("/zones/row/requests", json=self.ask(), headers=self.token("rider", "ada"))
        for method in ("GET", "DELETE"):
            await self.refusal(method, "/zones/row/requests/1", 404, "refused-7", headers=self.token("rider", "bob"))
            await self.refusal(method, "/zones/row/requests/1", 403, "other-role", headers=self.token("driver", "1"))
        for headers in (self.token("driver", "2"), self.token("rider", "ada")):
            await self.refusal("GET", "/zones/row/vehicles/1", 403, "other-vehicle", headers=headers)
            await self.refusal("POST", "/zones/row/vehicles/1/reports", 403, "other-vehicle", headers=headers, json={"report": "done"})
        for role, name in (("rider", "ada"), ("driver", "1")):
            await self.refusal("GET", "/zones/row/office", 403, "other-role", headers=self.token(role, name))
        await self.refusal("POST", "/zones/row/requests", 403, "other-role", headers=self.token("driver", "1"), json=self.ask())
        await self.refusal("GET", "/zones/row/vehicles/9", 404, "refused-10", headers=self.token("driver", "9"))
        self.assertEqual(len(self.link.sent), 1)

    async def test_bodies_that_are_none(self) -> None:
        rider = self.token("office", "eve")
        for body in (b"", b"{", b"[]", b"3", b"\xff\xfe", b"[" * 2_000):
            await self.refusal("POST", "/zones/row/requests", 400, "bad-json", data=body, headers=rider)
        strange = {**rider, "Content-Type": "text/plain; charset=none"}
        await self.refusal("POST", "/zones/row/requests", 400, "bad-json", data=b"{}", headers=strange)
        await self.refusal("POST", "/zones/row/requests", 413, "too-long", data=b" " * 5_000, headers=rider)
        others: List[Dict[str, object]] = [
            {"from": "2"}, {"from": -1}, {"from": 1.5}, {"seats": True}, {"seats": 10 ** 18}, {"wait_at_most": None}, {"more": 1},
            {"pickup_by": "2026-01-01T00:00:00Z"}, {"ride_at_most": None}]
        for wrong in others:
            await self.refusal("POST", "/zones/row/requests", 422, "bad-member", json=self.ask(**wrong), headers=rider)
        for by in ("soon", "2026-01-01T00:00:00", "1900-01-01T00:00:00Z", "9999-99-99T00:00:00Z", 5, []):
            asked = {"from": 2, "to": 3, "ride_at_most": 300, "pickup_by": by}
            await self.refusal("POST", "/zones/row/requests", 422, "bad-member", json=asked, headers=rider)
        for said in ({}, {"report": "clock"}, {"report": "at"}, {"report": "at", "node": 1},
                     {"report": "at", "node": 1, "in": 1, "time": "x"},
                     {"report": "done", "node": 1}, {"report": ["at"]}, {"report": "batch"}):
            await self.refusal("POST", "/zones/row/vehicles/1/reports", 422, "bad-member", json=said, headers=rider)
        self.assertEqual(self.link.sent, [])

    async def test_floods(self) -> None:
        rider = self.token("rider", "ada")
        statuses = [(await self.client.get("/zones/row/requests", headers=rider)).status for _ in range(30)]
        self.assertEqual(statuses, [200] * 20 + [429] * 10)
        answer = await self.client.get("/zones/row/requests", headers=self.token("rider", "bob"))
        self.assertEqual(answer.status, 200)
        self.assertIn("Retry-After", (await self.client.get("/zones/row/requests", headers=rider)).headers)

    async def test_open_requests_of_one_rider(self) -> None:
        self.link.replies["request"] = "waiting"
        for _ in range(4):
            answer = await self.client.post("/zones/row/requests", json=self.ask(), headers=self.token("rider", "ada"))
            self.assertEqual(answer.status, 201)
        await self.refusal("POST", "/zones/row/requests", 409, "open-requests", json=self.ask(), headers=self.token("rider", "ada"))

    async def test_a_server_that_still_reads_says_so(self) -> None:
        self.zone.caught_up = False
        await self.refusal("GET", "/zones/row/requests", 503, "reading", headers=self.token("rider", "ada"))

    async def test_no_page_and_no_method(self) -> None:
        await self.refusal("GET", "/nothing", 404, "no-page")
        await self.refusal("GET", "/static/secret.py", 404, "no-page")
        await self.refusal("GET", "/static/..%2fweb.py", 404, "no-page")
        await self.refusal("DELETE", "/zones/row/requests", 405, "other-method", headers=self.token("rider", "ada"))

    async def test_pages_that_anyone_may_see(self) -> None:
        for path in ("/", "/telephone", "/api", "/problems", "/openapi.json", "/static/office.js", "/static/office.css", "/health", "/zones"):
            answer = await self.client.get(path)
            self.assertEqual(answer.status, 200, path)
            self.assertIn("frame-ancestors 'none'", answer.headers["Content-Security-Policy"])

    async def test_openapi_has_each_page_for_programs(self) -> None:
        said = json.loads((ROOT / "control_room/static/openapi.json").read_text())
        described = {(method.upper(), path) for path, methods in said["paths"].items() for method in methods if method != "parameters"}
        app = room_web.make_app(self.room)
        routes = [(route.method, route.resource) for route in app.router.routes()]
        served = {(method, resource.canonical) for method, resource in routes if resource is not None and method != "HEAD"}
        plain = {path for path in ("/", "/static/{name}", "/problems", "/{name}", "/api", "/telephone")}
        self.assertEqual(described, {(method, path) for method, path in served if path not in plain})

    async def test_a_socket_tells_a_rider_of_the_own_requests_alone(self) -> None:
        self.link.replies["request"] = "waiting"
        for name in ("ada", "bob"):
            await self.client.post("/zones/row/requests", json=self.ask(), headers=self.token("rider", name))
        socket = await self.client.ws_connect("/zones/row/live")
        await socket.send_json({"token": self.token("rider", "bob")["Authorization"][7:]})
        await asyncio.sleep(0.05)
        tellers = web_live.tellers_of(self.room, self.zone)
        tellers.tell_all()
        said = await socket.receive_json(timeout=2)
        self.assertEqual([one["request"] for one in said["requests"]], [2])
        await socket.close()

    async def test_a_socket_without_a_good_token_is_closed(self) -> None:
        for first in ("{}", "[]", "torn", '{"token": 5}', '{"token": "x"}', "[" * 2_000):
            socket = await self.client.ws_connect("/zones/row/live")
            await socket.send_str(first)
            self.assertEqual((await socket.receive_json(timeout=2))["problem"]["type"], "/problems#bad-token")
            await socket.receive(timeout=2)
            self.assertEqual(socket.close_code, 4401)


@unittest.skipIf(MISSING, MISSING)
class Clients(unittest.IsolatedAsyncioTestCase):
    async def test_a_call_is_made_again_with_its_key_until_it_is_answered(self) -> None:
        statuses, keys = [202, 503, 429, 201], []

        async def answer(request: Any) -> Any:
            keys.append(request.headers["Idempotency-Key"])
            return web.json_response({"state": "waiting"}, status=statuses[len(keys) - 1])

        app = web.Application()
        app.router.add_post("/zones/row/requests", answer)
        async with TestClient(TestServer(app)) as http:
            client = Client(http.session, str(http.make_url("")).rstrip("/"), "row", "token")
            before, client_module.PAUSE = client_module.PAUSE, 0.01
            try:
                told = await client.surely("POST", "requests", {}, "one")
            finally:
                client_module.PAUSE = before
        self.assertEqual((told.status, told.tries, keys), (201, 4, ["one"] * 4))


if __name__ == "__main__":
    unittest.main()
