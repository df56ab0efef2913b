"""The program's refusals in words, and problem documents (RFC 9457)."""
from dataclasses import dataclass
from typing import Any, Dict, Optional, Tuple


@dataclass(frozen=True)
class Refusal:
    """A refusal of the program: its name, the HTTP status that fits it, and a sentence for who was refused."""
    name: str
    status: int
    sentence: str


# The codes and names are those of docs/formats.md.
REFUSALS: Dict[int, Refusal] = {
    1: Refusal("duplicate", 409, "A request of this number was accepted before."),
    2: Refusal("request node", 422, "The map has no such crossing."),
    3: Refusal("same node", 422, "The ride begins and ends at the same crossing."),
    4: Refusal("seats", 422, "Seats or places for wheelchairs are out of range, or none is asked for."),
    5: Refusal("value", 422, "A time is out of range."),
    6: Refusal("requests full", 503, "The session has accepted 100,000 requests and takes no more."),
    7: Refusal("unknown request", 404, "No request of this number was accepted."),
    8: Refusal("aboard", 409, "The rider is aboard: the ride can no longer be cancelled."),
    9: Refusal("closed", 409, "The request is closed: it was served, turned away or cancelled."),
    10: Refusal("vehicle", 404, "The fleet has no such vehicle."),
    11: Refusal("report node", 422, "The map has no such crossing."),
    12: Refusal("backwards", 409, "The report is of a second before that of the vehicle's last report."),
    13: Refusal("no road to the first stop", 409, "No road leads from there to the vehicle's first stop."),
    14: Refusal("no stop", 409, "The vehicle has no stop to serve."),
    15: Refusal("elsewhere", 409, "The vehicle is not at its first stop."),
    16: Refusal("asks full", 503, "2,000 batches were asked for: the session seats nobody any more."),
    17: Refusal("day over", 409, "The day is over."),
}


# Refusals of the control room itself: the HTTP status and what they say.
OWN: Dict[str, Tuple[int, str]] = {
    "bad-json": (400, "the body is no JSON object"),
    "bad-token": (401, "the token is not good"),
    "other-zone": (403, "the token is of another zone"),
    "other-role": (403, "the token is of another role"),
    "other-vehicle": (403, "the token is not of that vehicle's driver"),
    "not-said": (403, "the bridge did not let this through"),
    "no-zone": (404, "there is no such zone"),
    "no-page": (404, "there is nothing here"),
    "other-method": (405, "this method is not for this page"),
    "open-requests": (409, "too many open requests"),
    "too-long": (413, "the body is too long"),
    "bad-member": (422, "the body does not say what is needed"),
    "too-often": (429, "too many requests"),
    "too-many-sockets": (429, "too many sockets"),
    "bad-call": (400, "this is no call of HTTP that can be answered"),
    "reading": (503, "this server still reads what has happened so far"),
    "no-broker": (503, "the message could not be handed on"),
}


class Problem(Exception):
    """A refusal that is answered by a problem document: one of the control room's own, or one of the program's, which has a code."""

    def __init__(self, kind: str, detail: str = "", retry_after: Optional[int] = None, code: Optional[int] = None):
        if code is None:
            self.status, self.title = OWN[kind]
        else:
            self.status, self.title = _refusal(code).status, _refusal(code).name
        super().__init__(self.title)
        self.kind = kind
        self.detail = detail
        self.retry_after = retry_after
        self.code = code

    def document(self, instance: str = "") -> Dict[str, Any]:
        """Returns the problem document of this refusal."""
        said: Dict[str, Any] = {"type": f"/problems#{self.kind}", "title": self.title, "status": self.status}
        if self.detail:
            said["detail"] = self.detail
        if instance:
            said["instance"] = instance
        if self.code is not None:
            said["code"] = self.code
        return said


def _refusal(code: int) -> Refusal:
    return REFUSALS.get(code, Refusal(f"refused {code}", 409, "The program refused this."))


def refused(code: int, line: str = "") -> Problem:
    """Returns the problem that a log's line `.. = refused CODE` is: with the program's own code, name and line."""
    detail = _refusal(code).sentence + (f" The log says: {line}" if line else "")
    return Problem(f"refused-{code}", detail, code=code)
