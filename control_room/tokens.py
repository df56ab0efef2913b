"""Tokens: who somebody is, signed by the control room's secret. No server keeps a list of them."""
import hashlib
import hmac
import os
import re
import time
from dataclasses import dataclass
from pathlib import Path

from control_room.whole import write_whole

ROLES = ("rider", "driver", "office")
NAME = re.compile(r"[A-Za-z0-9_-]{1,40}")
EVERY_ZONE = "all"


class BadToken(ValueError):
    """A token that is none, is not signed by this control room, or has run out."""


@dataclass(frozen=True)
class Person:
    """Who speaks: a rider by name, the driver of a vehicle by its number, or somebody of the office; in one zone or in all."""
    role: str
    zone: str
    name: str

    def who(self) -> str:
        """Returns the word by which messages name this person."""
        return f"{self.role}:{self.name}"

    def may_enter(self, zone: str) -> bool:
        """Returns whether this person's token is of that zone."""
        return self.zone in (zone, EVERY_ZONE)


def _signature(secret: bytes, text: str) -> str:
    return hmac.new(secret, text.encode(), hashlib.sha256).hexdigest()


def sign(secret: bytes, person: Person, expires: int) -> str:
    """Returns a token of a person that holds until the Unix second `expires`."""
    for name in (person.zone, person.name):
        if not NAME.fullmatch(name):
            raise ValueError(f"a name has 1 to 40 letters, digits, - and _, and is not {name!r}")
    if person.role not in ROLES:
        raise ValueError(f"a role is one of {', '.join(ROLES)}, and not {person.role!r}")
    if person.role == "driver" and not person.name.isdigit():
        raise ValueError(f"a driver's name is the vehicle's number, and not {person.name!r}")
    text = f"{person.role}.{person.zone}.{person.name}.{expires}"
    return f"{text}.{_signature(secret, text)}"


def read_token(secret: bytes, token: str, now: float = 0.0) -> Person:
    """Returns who a token names; raises BadToken. `now` is the Unix second, 0 for this moment's."""
    text, _, signature = token.rpartition(".")
    # Signatures are compared as bytes, since a stranger's text may hold any letter.
    if not hmac.compare_digest(_signature(secret, text).encode(), signature.encode("utf-8", "replace")):
        raise BadToken("the token is not of this control room")
    role, zone, name, expires = text.split(".")
    if int(expires) < (now or time.time()):
        raise BadToken("the token has run out")
    return Person(role, zone, name)


def secret_of(folder: Path) -> bytes:
    """Returns the secret of a control room's folder, which is drawn where there is none."""
    path = folder / "secret"
    if not path.exists():
        write_whole(path, os.urandom(32).hex(), 0o600)
    return path.read_bytes()
