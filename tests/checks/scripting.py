"""Pictures and scripts for the checks of what a play prints: small ones that are written by hand, and random ones."""

import random
import subprocess
from typing import Any, Dict, List, Tuple

Json = Dict[str, Any]


def picture(ledgers: List[Json], bookies: List[str], contents: List[Json], **more: Any) -> Json:
    return {
        "format": 2 if "lostDelayTicks" in more else 1,
        "grace": 2,
        "bookies": [{"name": name, "up": True} for name in bookies],
        "ledgers": ledgers,
        "contents": contents,
        **more,
    }


def ledger(number: int, state: str, quorums: Tuple[int, int, int], fragments: List[Tuple[int, List[str]]], **more: Any) -> Json:
    size, write, ack = quorums
    return {
        "id": number,
        "state": state,
        "ensembleSize": size,
        "writeQuorumSize": write,
        "ackQuorumSize": ack,
        "version": 0,
        "fragments": [{"firstEntry": first, "ensemble": members} for first, members in fragments],
        **more,
    }


def holds(bookie: str, number: int, *ranges: Tuple[int, int]) -> Json:
    return {"bookie": bookie, "ledger": number, "entries": [list(one) for one in ranges]}


def run(program: str, words: List[str], typed: str = "") -> "subprocess.CompletedProcess[str]":
    return subprocess.run([program, *words], input=typed, capture_output=True, text=True, timeout=120, check=False)


def some_command(rng: random.Random, names: List[str], ledgers: List[Json]) -> str:
    worker, one = rng.choice(names), rng.choice(ledgers)
    number, size = one["id"], one["ensembleSize"]
    place = f"{worker} {number} {rng.randrange(len(one['fragments']))} {rng.randrange(size)}"
    version = one["version"] + rng.choice([0, 0, 0, 1, 1, 2])
    return rng.choice(
        [
            f"lose {worker}",
            f"join {worker}",
            "audit",
            f"acquire {worker} {number}",
            f"acquire {worker} {number}",
            f"release {worker} {number}",
            f"finish {worker} {number}",
            f"expire {worker}",
            f"grace {worker} {number}",
            f"tick {rng.randint(0, 3)}",
            f"roll {number} {rng.randrange(size)} {worker}",
            f"fence {worker} {number}",
            f"seal {worker} {number}",
            f"copy {place} {version}",
            f"copy {place} {version}",
            f"swap {place} {version}",
            f"checkout {place}",
            "spend",
            "discard",
            "disable",
            "enable",
            "undo",
            "undo",
            "redo",
            "survey",
            "clock",
        ]
    )


def some_picture(rng: random.Random) -> Json:
    names = [f"b{number}:3181" for number in range(1, rng.randint(3, 5) + 1)]
    ledgers, contents = [], []
    for number in rng.sample(range(1, 2**30), rng.randint(1, 3)):
        size = rng.randint(1, 3)
        write = rng.randint(1, size)
        firsts = [0, *sorted(rng.sample(range(1, 200), rng.randint(0, 2)))]
        state = rng.choice(["CLOSED", "OPEN", "IN_RECOVERY"])
        end = firsts[-1] + rng.randint(0, 150)
        more = {"lastEntryId": end} if state == "CLOSED" else {}
        fragments = [(first, rng.sample(names, size)) for first in firsts]
        ledgers.append(ledger(number, state, (size, write, rng.randint(1, write)), fragments, **more))
        for (first, members), stop in zip(fragments, [*firsts[1:], end + 1]):
            for index, name in enumerate(members):
                mine = [e for e in range(first, stop) if (index - e) % size < write and rng.random() < 0.95]
                contents += [(name, number, entry) for entry in mine]
    shown = [holds(name, number, *[(e, e) for n, l, e in contents if (n, l) == (name, number)]) for name, number in sorted({(n, l) for n, l, _ in contents})]
    return picture(ledgers, names, shown, **({"lostDelayTicks": rng.randint(0, 3)} if rng.random() < 0.3 else {}))
