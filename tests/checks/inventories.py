"""Random inventories, and the one of a picture, for the checks that judge what the program makes of them."""

import random
from typing import Dict, List, Set

Json = Dict[str, object]


def as_inventory(picture: Json) -> List[Json]:
    """The inventory of a picture's cluster."""
    ledgers = picture["ledgers"]
    delay = picture["lostDelayTicks"] if picture["format"] == 2 else 0
    lines: List[Json] = [{"inventory": 1, "grace": picture["grace"], "lostDelayTicks": delay, "bookies": picture["bookies"]}]
    for ledger in ledgers:
        contents = [
            {key: value for key, value in content.items() if key != "ledger"}
            for content in picture["contents"]
            if content["ledger"] == ledger["id"]
        ]
        lines.append({**ledger, "contents": contents})
    return [*lines, {"end": True, "ledgers": len(ledgers)}]


def some_ranges(rng: random.Random, end: int) -> List[List[int]]:
    """Some ranges of entries, each past the one before it, of which the last may go past the end."""
    ranges: List[List[int]] = []
    first = rng.randrange(3)
    while first <= end and rng.random() < 0.7:
        last = first + rng.randrange(5)
        ranges.append([first, last])
        first = last + 1 + rng.randrange(3)
    return ranges


def some_content(rng: random.Random, name: str, end: int, is_empty: bool) -> Json:
    content: Json = {"bookie": name}
    if is_empty:
        content["entries"] = []
    else:
        content[rng.choice(["entries", "lacks"])] = rng.choice([some_ranges(rng, end), [[0, end]], []])
    if rng.random() < 0.2:
        content["told"] = rng.choice([[[0, end]], some_ranges(rng, end), []])
    if rng.random() < 0.2:
        content["assumed"] = True
    return content


def some_ledger(rng: random.Random, number: int, names: List[str], empties: Set[str]) -> Json:
    size = rng.randint(1, min(5, len(names)))
    quorum = rng.randint(1, size)
    end = rng.choice([0, 1, rng.randrange(2, 20), rng.randrange(20, 60)])
    firsts = sorted({0, *(rng.randrange(1, end + 1) for _ in range(rng.randrange(3)) if end)})
    ledger: Json = {
        "id": number,
        "state": rng.choice(["CLOSED", "OPEN", "IN_RECOVERY"]),
        "lastEntryId": end - 1,
        "ensembleSize": size,
        "writeQuorumSize": quorum,
        "ackQuorumSize": rng.randint(1, quorum),
        "fragments": [{"firstEntry": first, "ensemble": rng.sample(names, size)} for first in firsts],
    }
    if rng.random() < 0.9:
        told = rng.sample(names, rng.randint(0, len(names)))
        ledger["contents"] = [some_content(rng, name, end, name in empties) for name in told]
    return ledger


def some_inventory(rng: random.Random) -> List[Json]:
    names = [f"b{number}:3181" for number in range(rng.randint(1, 9))]
    listed = rng.sample(names, rng.randint(1, len(names)))
    bookies: List[Json] = []
    for name in listed:
        bookie: Json = {"name": name, "up": rng.random() < 0.8}
        for mark, chance in (("readOnly", 0.2), ("empty", 0.15)):
            if rng.random() < chance:
                bookie[mark] = True
        if rng.random() < 0.6:
            bookie["rack"] = rng.choice(["/r1", "/r2", "/r10"])
        bookies.append(bookie)
    head: Json = {"inventory": 1, "grace": 0, "lostDelayTicks": 0, "bookies": bookies}
    if rng.random() < 0.5:
        head["held"] = "striped"
    if rng.random() < 0.5:
        head["taken"] = "2026-11-26T22:14:00Z"
    empties = {str(bookie["name"]) for bookie in bookies if bookie.get("empty")}
    lines: List[Json] = [head]
    for number in rng.sample(range(100), rng.randrange(8)):
        unread: Json = {"id": number, "unread": True}
        lines.append(unread if rng.random() < 0.1 else some_ledger(rng, number, names, empties))
    if rng.random() < 0.9:
        lines.append({"end": True, "ledgers": len(lines) - 1})
    return lines
