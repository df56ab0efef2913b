"""Mutations: one change to a log, a map or a fleet file, by kind, for comparing two auditors."""
from __future__ import annotations

import random
import re
from typing import Callable

Lines = list[bytes]
Change = Callable[[random.Random, Lines], Lines]
NUMBER = re.compile(rb"[0-9]+")


def on_line(change: Callable[[random.Random, bytes], bytes]) -> Change:
    """Returns the change of lines that changes one of them so."""
    def changed(draw: random.Random, lines: Lines) -> Lines:
        place = draw.randrange(len(lines))
        return [*lines[:place], change(draw, lines[place]), *lines[place + 1:]]
    return changed


def on_match(pattern: bytes, change: Callable[[random.Random, re.Match], bytes]) -> Change:
    """Returns the change that replaces one match of the pattern, drawn among all lines that have one."""
    compiled = re.compile(pattern)

    def changed(draw: random.Random, lines: Lines) -> Lines:
        places = [place for place, line in enumerate(lines) if compiled.search(line)]
        if not places:
            return lines
        place = draw.choice(places)
        match = draw.choice(list(compiled.finditer(lines[place])))
        line = lines[place][:match.start()] + change(draw, match) + lines[place][match.end():]
        return [*lines[:place], line, *lines[place + 1:]]
    return changed


def on_number(change: Callable[[random.Random, int], object]) -> Change:
    """Returns the change that replaces one number."""
    return on_match(rb"[0-9]+", lambda draw, match: str(change(draw, int(match[0]))).encode())


def fields_changed(change: Callable[[random.Random, Lines], Lines]) -> Change:
    """Returns the change of one line's fields."""
    return on_line(lambda draw, line: b" ".join(change(draw, line.rstrip(b"\n").split(b" "))) + b"\n")


def in_lines(word: bytes, change: Change) -> Change:
    """Returns the change of one line that has this word."""
    def changed(draw: random.Random, lines: Lines) -> Lines:
        places = [place for place, line in enumerate(lines) if word in line.split(b" ")]
        if not places:
            return lines
        place = draw.choice(places)
        return [*lines[:place], *change(draw, [lines[place]]), *lines[place + 1:]]
    return changed


def draw_one(*changes: Change) -> Change:
    """Returns the change that makes one of these."""
    return lambda draw, lines: draw.choice(changes)(draw, lines)


def swap(draw: random.Random, items: list) -> list:
    """Returns the items with two neighbours swapped."""
    if len(items) < 2:
        return items
    place = draw.randrange(len(items) - 1)
    return [*items[:place], items[place + 1], items[place], *items[place + 2:]]


def drop(draw: random.Random, items: list) -> list:
    """Returns the items without one."""
    place = draw.randrange(len(items))
    return items[:place] + items[place + 1:]


def double(draw: random.Random, items: list) -> list:
    """Returns the items with one twice."""
    place = draw.randrange(len(items))
    return items[:place + 1] + items[place:]


def move(draw: random.Random, items: list) -> list:
    """Returns the items with one somewhere else."""
    place = draw.randrange(len(items))
    rest = items[:place] + items[place + 1:]
    to = draw.randint(0, len(rest))
    return [*rest[:to], items[place], *rest[to:]]


def byte_put(draw: random.Random, lines: Lines) -> Lines:
    """Returns the lines with one byte replaced by another."""
    def changed(draw: random.Random, line: bytes) -> bytes:
        place = draw.randrange(len(line))
        return line[:place] + bytes([draw.choice([0, 9, 10, 11, 13, 32, 45, 58, 64, 255, draw.randrange(256)])]) + line[place + 1:]
    return on_line(changed)(draw, lines)


def torn(draw: random.Random, lines: Lines) -> Lines:
    """Returns the lines cut within one."""
    place = draw.randrange(len(lines))
    return [*lines[:place], lines[place][:draw.randrange(len(lines[place]))]]


def prices_moved(draw: random.Random, lines: Lines) -> Lines:
    """Returns the lines with two prices of a commit changed while their sum is kept."""
    places = [place for place, line in enumerate(lines) if (b" prices " in line and line.split(b" pays")[0].count(b":") > 1)]
    if not places:
        return lines
    place = draw.choice(places)
    head, rest = lines[place].split(b" prices ", 1)
    prices, tail = rest.split(b"pays", 1)
    items = [item.split(b":") for item in prices.split()]
    if len(items) < 2:
        return lines
    amount, (one, other) = draw.choice([1, 2, 10, 60]), draw.sample(range(len(items)), 2)
    items[one][1] = b"%d" % (int(items[one][1]) + amount)
    items[other][1] = b"%d" % max(0, int(items[other][1]) - amount)
    prices = b" ".join(b":".join(item) for item in items)
    return [*lines[:place], head + b" prices " + prices + b" pays" + tail, *lines[place + 1:]]


def price_and_pay_raised(draw: random.Random, lines: Lines) -> Lines:
    """Returns the lines with a seat's price and its vehicle's payment raised (or lowered) by the same amount."""
    places = [place for place, line in enumerate(lines) if re.search(rb" seats [0-9]", line)]
    if not places:
        return lines
    place, amount = draw.choice(places), draw.choice([1, 1, 5, 100, -1])
    seat = draw.choice(re.findall(rb"([0-9]+):([0-9]+):[0-9]+:[0-9]+", lines[place].split(b" prices")[0]))
    head, rest = lines[place].split(b" prices", 1)
    prices, tail = rest.split(b" pays", 1)
    pays, outcomes = tail.split(b" outcomes", 1)
    prices = re.sub(rb" %s:([0-9]+)" % seat[0], lambda m: b" %s:%d" % (seat[0], max(0, int(m[1]) + amount)), prices)
    paid = {vehicle: amount for vehicle, amount in (item.split(b":") for item in pays.split())}
    paid[seat[1]] = b"%d" % max(0, int(paid.get(seat[1], b"0")) + amount)
    order = [item.split(b"@")[0] for line in lines[:place] if b" plans " in line for item in line.split(b" plans ")[1].split()]
    ranked = sorted((vehicle for vehicle in paid if paid[vehicle] != b"0"), key=order.index)
    pays = b"".join(b" %s:%s" % (vehicle, paid[vehicle]) for vehicle in ranked)
    return [*lines[:place], head + b" prices" + prices + b" pays" + pays + b" outcomes" + outcomes, *lines[place + 1:]]


def abandoned(draw: random.Random, lines: Lines) -> Lines:
    """Returns the lines up to a commit, which is replaced by an abandon."""
    places = [place for place, line in enumerate(lines) if b" commit " in line]
    if not places:
        return lines
    place = draw.choice(places)
    actor, _, batch = lines[place].split(b" ")[:3]
    rest = lines[place + 1:] if draw.random() < 0.5 else []
    return [*lines[:place], b"%s abandon %s\n" % (actor, batch), *rest]


def foreign_line(draw: random.Random, lines: Lines) -> Lines:
    """Returns the lines with a line more."""
    line = draw.choice([b"\n", b"f1\n", b"f3 end\n", b"f1 bad 0\n", b"f1 bad 7\n", b"f2 bad 7\n", b"d1 end\n", b"d2 cut\n", b"f1 end\n",
                        b"f2 cut\n", b"f1 batch = refused 16\n", b"f1 clock 0 = now 0\n", b"f1 on 1 = duty\n", b"d1 abandon 1\n",
                        b"d1 open 1 at 0 requests plans\n", b"d2 open 2 at 0 requests plans\n", b"x" * 131_073 + b"\n", b"x" * 200_000,
                        b"f1 bad 1" + b" " * 131_065 + b"\n", b"f1 done 99 = refused 10\n", b"f2 cancel 88 = refused 7\n",
                        b"d1 commit 1 cost 0 seats prices pays outcomes\n", b"log 1 feeds 1 desks 1\n", b"f1 batch = asked 1\n"])
    place = draw.randint(0, len(lines))
    return [*lines[:place], line, *lines[place:]]


def other_head(draw: random.Random, lines: Lines) -> Lines:
    """Returns the lines with another head."""
    heads = [b"log %d feeds %d desks %d\n" % (log, feeds, desks) for log in (1, 2) for feeds in (1, 2) for desks in (1, 2)]
    return [draw.choice([*heads, b"log 0 feeds 1 desks 1\n", b"log 1 feeds 3 desks 1\n", b"log 1 feeds 1\n"]), *lines[1:]]


WORDS = [b"request", b"cancel", b"at", b"done", b"on", b"off", b"clock", b"batch", b"bad", b"end", b"cut", b"open", b"commit", b"abandon",
         b"waiting", b"cancelled", b"freed 1", b"onmap", b"late 5", b"late 5 broken 101", b"picked 101", b"dropped 101", b"duty",
         b"now 0", b"asked 1", b"refused 1", b"confirmed", b"away", b"gone", b"moved:0:1", b"behind:0:30", b"seats", b"prices", b"pays",
         b"outcomes", b"plans", b"requests", b"cost", b"Confirmed", b"REQUEST"]

NUMBER_UP = on_number(lambda draw, number: number + draw.choice([1, 1, 2, 60]))
NUMBER_DOWN = on_number(lambda draw, number: max(0, number - draw.choice([1, 1, 2, 60])))
SIZES = [0, 1, 255, 256, 2**32 - 1, 2**32, 10**9, 10**9 + 1, 10**18 - 1, 10**18, 2**63, 2**64, 10**30]
OUTCOME = rb":(confirmed|away|gone|moved:[0-9]+:[0-9]+|behind:[0-9]+:[0-9]+)"

SPELLING_KINDS: dict[str, Change] = {
    "leading zero": on_match(rb"[0-9]+", lambda draw, match: b"0" + match[0]),
    "signed or empty number": on_match(
        rb"[0-9]+", lambda draw, match: draw.choice([b"-", b"+", b""]) + draw.choice([match[0], b""])),
    "number of another size": on_number(lambda draw, _: draw.choice(SIZES)),
    "two blanks": on_match(rb" ", lambda draw, _: draw.choice([b"  ", b"\t", b" \t", b""])),
    "blank at an end": on_line(lambda draw, line: draw.choice([b" " + line, line.rstrip(b"\n") + b" \n"])),
    "carriage return": on_match(rb"\n", lambda draw, _: draw.choice([b"\r\n", b"\r", b"\n\r"])),
    "no LF at the end": lambda draw, lines: [*lines[:-1], lines[-1].rstrip(b"\n")],
    "torn tail": torn,
    "byte replaced": byte_put,
    "another word": on_match(rb"[a-z]+(:[0-9]+)*", lambda draw, _: draw.choice(WORDS)),
    "items moved between lists": fields_changed(move),
    "nothing": lambda draw, lines: [],
}

MEANING_KINDS: dict[str, Change] = {
    "number up": NUMBER_UP,
    "number down": NUMBER_DOWN,
    "number by an order": on_number(lambda draw, number: draw.choice([number * 10, number // 10])),
    "number of a request": in_lines(b"request", draw_one(NUMBER_UP, NUMBER_DOWN)),
    "number of a report": in_lines(b"at", draw_one(NUMBER_UP, NUMBER_DOWN)),
    "number of an opening": in_lines(b"open", draw_one(NUMBER_UP, NUMBER_DOWN)),
    "number of a commit": in_lines(b"commit", draw_one(NUMBER_UP, NUMBER_DOWN)),
    "number of a late report": in_lines(b"late", draw_one(NUMBER_UP, NUMBER_DOWN)),
    "items swapped": fields_changed(swap),
    "items of a commit swapped": in_lines(b"commit", fields_changed(swap)),
    "items of an opening swapped": in_lines(b"open", fields_changed(swap)),
    "item dropped": fields_changed(drop),
    "item of a commit dropped": in_lines(b"commit", fields_changed(drop)),
    "item doubled": fields_changed(double),
    "item of a commit doubled": in_lines(b"commit", fields_changed(double)),
    "line dropped": drop,
    "line doubled": double,
    "line moved": move,
    "lines swapped": swap,
    "another actor": on_match(rb"^[fd][0-9]", lambda draw, _: draw.choice(
        [b"f1", b"f2", b"d1", b"d2", b"f3", b"d0", b"x1", b"F1"])),
    "another reply": on_match(rb"= .*", lambda draw, _: b"= " + draw.choice(WORDS[14:26])),
    "another outcome": on_match(OUTCOME, lambda draw, _: b":" + draw.choice(WORDS[26:31])),
    "stale for confirmed": on_match(rb":(confirmed|moved:[0-9]+:[0-9]+)", lambda draw, match: draw.choice(
        [b":confirmed", b":moved:%d:%d" % (draw.randint(0, 3), draw.randint(0, 4)), b":behind:0:30"])),
    "whole tail cut": lambda draw, lines: lines[:draw.randrange(len(lines) + 1)],
    "another head": other_head,
    "prices moved": prices_moved,
    "price and pay raised": price_and_pay_raised,
    "a pay of 0": on_match(rb" pays", lambda draw, _: b" pays %d:0" % draw.randint(1, 9)),
    "another place": on_match(rb":[0-9]+:[0-9]+(?= )", lambda draw, _: b":%d:%d" % (
        draw.randint(0, 4), draw.randint(0, 5))),
    "another vehicle": on_match(rb":[0-9]+(?=:[0-9]+:[0-9]+ )", lambda draw, _: b":%d" % draw.randint(1, 30)),
    "abandoned": abandoned,
    "line more": foreign_line,
    "end and cut": on_match(rb" (end|cut)$", lambda draw, match: b" cut" if match[1] == b"end" else b" end"),
    "two logs": lambda draw, lines: lines + lines[draw.choice([0, 1]):],
    "reversed": lambda draw, lines: [lines[0], *lines[:0:-1]],
}

ODD_LINES = [
    b"c x\n", b"#\n", b" c\n", b"cx y\n", b" # x\n", b"p sp 4 6\n", b"p\n", b"p sp 0 0\n", b"p sp 500001 1\n",
    b"p sp 3 2000001\n", b"a 1 2\n", b"a 1 2 1000000001\n", b"a 0 1 5\n", b"a 1 1 0\n", b"set batch 0\n",
    b"set batch 129\n", b"set lead 3600\n", b"set log 3\n", b"set drive 1001\n", b"set nothing 1\n",
    b"vehicle 1 17 1 0\n", b"vehicle 50 4 1 1000000001\n", b"vehicle 51 4 1 0 5\n", b"vehicle 52 4 1 0\n",
    b"vehicle 53 4 0 0\n", b"x" * 201 + b"\n", b"#" * 201 + b"\n", b"c" * 201 + b"\n", b" " * 201 + b"\n",
    b" " * 200 + b"\n", b"\x0b\n", b"\x0c\n", b"\r\n", b"\xff\n", b"set batch 5 5\n", b"set\n", b"p sp 3 3 # x\n"]

TEXT_KINDS: dict[str, Change] = {
    **{name: change for name, change in SPELLING_KINDS.items() if name != "items moved between lists"},
    **{name: MEANING_KINDS[name] for name in (
        "number up", "number down", "number by an order", "item dropped", "item doubled", "line dropped",
        "line doubled", "line moved", "lines swapped", "whole tail cut")},
    "line more": lambda draw, lines: move(draw, [draw.choice(ODD_LINES), *lines]),
}


def draw_log_change(draw: random.Random) -> tuple[str, Change]:
    """Returns a kind of change of a log and its name, in most cases one of meaning."""
    kinds = MEANING_KINDS if draw.random() < 0.75 else SPELLING_KINDS
    return draw.choice(list(kinds.items()))
