"""What has to be answered where bookies are to be stopped, and by waves and risk: a plain reference, entry by entry and over
every completion.

A completion of an entry says of each bookie of which nobody told whether it holds the entry. The ledgers' rules are asked
write set by write set. Nothing here is counted by ranges.
"""

from collections import Counter
from itertools import combinations
from typing import Dict, FrozenSet, Iterator, List, NamedTuple, Optional, Set, Tuple

RULES = ("readable", "kept", "recoverable", "writable", "replaceable")


class Bookie(NamedTuple):
    """A bookie of a picture. Without a rack it is in none."""

    is_up: bool
    is_read_only: bool
    is_empty: bool
    rack: Optional[str]


class Content(NamedTuple):
    """What is told, or only assumed, of a bookie and a ledger. Of a bookie without a content nothing is."""

    entries: FrozenSet[int]
    is_assumed: bool


class Ledger(NamedTuple):
    """A ledger with the contents of its bookies. Each fragment is its first entry and its ensemble."""

    id: int
    state: str
    last: int
    size: int
    write: int
    ack: int
    fragments: List[Tuple[int, List[str]]]
    contents: Dict[str, Content]


class Cluster(NamedTuple):
    """The bookies by name, and the ledgers."""

    bookies: Dict[str, Bookie]
    ledgers: List[Ledger]


class Question(NamedTuple):
    """What is asked. `keep` is a number, `ack` or `ack-1`."""

    stopped: FrozenSet[str]
    keep: str = "ack"
    may_block_recovery: bool = False
    may_block_writers: bool = False
    ensemble: Optional[int] = None
    racks: Optional[int] = None
    is_for_good: bool = False
    is_strict: bool = False
    # Whether bookies are named by their racks.
    is_by_rack: bool = False


class Entry(NamedTuple):
    """What matters of an entry: who is known to hold it, of whom nobody told, and whether some known copy is only assumed.

    Only members of its write set are meant, and of them only registered ones that aren't empty.
    """

    known: FrozenSet[str]
    untold: FrozenSet[str]
    ack: int
    is_assumed: bool


def bookie_of(shown: Dict[str, object]) -> Bookie:
    return Bookie(shown["up"], shown.get("readOnly", False), shown.get("empty", False), shown.get("rack"))


def content_of(shown: Dict[str, object]) -> Content:
    entries = frozenset(entry for first, last in shown["entries"] for entry in range(first, last + 1))
    return Content(entries, shown.get("assumed", False))


def cluster_of(pictures: List[Dict[str, list]]) -> Cluster:
    """The cluster that these pictures show together."""
    bookies = {shown["name"]: bookie_of(shown) for picture in pictures for shown in picture["bookies"]}
    ledgers = []
    for picture in pictures:
        for shown in picture["ledgers"]:
            sizes = (shown[f"{which}Size"] for which in ("ensemble", "writeQuorum", "ackQuorum"))
            fragments = [(fragment["firstEntry"], fragment["ensemble"]) for fragment in shown["fragments"]]
            told = {held["bookie"]: content_of(held) for held in picture["contents"] if held["ledger"] == shown["id"]}
            ledgers.append(Ledger(shown["id"], shown["state"], shown.get("lastEntryId", -1), *sizes, fragments, told))
    return Cluster(bookies, ledgers)


# Entries.


def write_set(ledger: Ledger, ensemble: List[str], entry: int) -> FrozenSet[str]:
    return frozenset(ensemble[(entry + rank) % ledger.size] for rank in range(ledger.write))


def stop_of(ledger: Ledger, number: int) -> int:
    """One past the last entry of a fragment; of a last one without a stop, one past the greatest entry that is told."""
    if number + 1 < len(ledger.fragments):
        return ledger.fragments[number + 1][0]
    if ledger.state == "CLOSED":
        return ledger.last + 1
    greatest = max((entry for content in ledger.contents.values() for entry in content.entries), default=-1)
    return max(ledger.fragments[number][0], greatest + 1)


def is_told(ledger: Ledger, name: str, question: Question) -> bool:
    """Whether what the bookie holds counts as told: what is assumed does of a closed ledger, where nobody is strict, but not
    that the bookie holds nothing."""
    content = ledger.contents.get(name)
    if content is None:
        return False
    return not content.is_assumed or (ledger.state == "CLOSED" and not question.is_strict and bool(content.entries))


def entry_of(cluster: Cluster, ledger: Ledger, members: FrozenSet[str], entry: int, question: Question) -> Entry:
    """An entry that was written to these members."""
    known, untold, is_assumed = set(), set(), False
    for name in members:
        bookie = cluster.bookies[name]
        if not bookie.is_up or bookie.is_empty:
            continue
        if not is_told(ledger, name, question):
            untold.add(name)
        elif entry in ledger.contents[name].entries:
            known.add(name)
            is_assumed |= ledger.contents[name].is_assumed
    return Entry(frozenset(known), frozenset(untold), ledger.ack, is_assumed)


def entries_of(cluster: Cluster, ledger: Ledger, question: Question) -> Iterator[Entry]:
    for number, (first, ensemble) in enumerate(ledger.fragments):
        for entry in range(first, stop_of(ledger, number)):
            yield entry_of(cluster, ledger, write_set(ledger, ensemble, entry), entry, question)


# The entries of each ledger, by its id: those that are alike, and how many there are of them.
Counted = Dict[int, List[Tuple[Entry, int]]]


def counted_of(cluster: Cluster, question: Question) -> Counted:
    return {ledger.id: list(Counter(entries_of(cluster, ledger, question)).items()) for ledger in cluster.ledgers}


def copies_to_keep(question: Question, ack: int) -> int:
    """At least one copy is kept, whatever is asked."""
    return max(1, {"ack": ack, "ack-1": ack - 1}[question.keep] if "ack" in question.keep else int(question.keep))


def completions(entry: Entry) -> Iterator[FrozenSet[str]]:
    """All that the copies of an entry can be."""
    for number in range(len(entry.untold) + 1):
        for holders in combinations(sorted(entry.untold), number):
            yield entry.known.union(holders)


def is_lost(copies: FrozenSet[str], question: Question) -> bool:
    return len(copies) > 0 and len(copies - question.stopped) == 0


def is_fallen(copies: FrozenSet[str], question: Question, ack: int) -> bool:
    return len(copies - question.stopped) < min(len(copies), copies_to_keep(question, ack))


def may_be_on_disks(cluster: Cluster, entry: Entry, question: Question) -> bool:
    """Whether a bookie that is down goes for good, and may have a copy that the entry lacks of those that it is to keep."""
    if not question.is_for_good or all(cluster.bookies[name].is_up for name in question.stopped):
        return False
    return len(entry.known) < copies_to_keep(question, entry.ack)


# Ledgers that aren't closed.


def writable(cluster: Cluster) -> Set[str]:
    return {name for name, bookie in cluster.bookies.items() if bookie.is_up and not bookie.is_read_only}


def write_sets(ledger: Ledger) -> List[FrozenSet[str]]:
    ensemble = ledger.fragments[-1][1]
    return [write_set(ledger, ensemble, entry) for entry in range(ledger.size)]


def loses_its_tail(cluster: Cluster, ledger: Ledger, question: Question) -> bool:
    """Whether too few members of some write set are left of those that may have acknowledged an entry nobody told of.

    What is down and goes for good counts among those that there are now, whether its disk is empty or not; and so does an
    empty bookie that is up and stopped, with what was written to it since it came back. That recovery may be blocked lowers
    what has to be left only where the bookies come back.
    """
    least = copies_to_keep(question, ledger.ack)
    if question.is_for_good or not question.may_block_recovery:
        least = max(least, ledger.write - ledger.ack + 1)
    for members in write_sets(ledger):
        full = {name for name in members if cluster.bookies[name].is_up and not cluster.bookies[name].is_empty}
        left = full - question.stopped
        going = {name for name in members & question.stopped if cluster.bookies[name].is_up or question.is_for_good}
        if len(left) < min(len(full | going), least):
            return True
    return False


def is_blocked(cluster: Cluster, ledger: Ledger, stopped: FrozenSet[str]) -> bool:
    """Whether some write set has too few members to write to, and no ensemble can be made."""
    left = writable(cluster) - stopped
    return len(left) < ledger.size and any(len(members & left) < ledger.ack for members in write_sets(ledger))


def gets_blocked(cluster: Cluster, ledger: Ledger, question: Question) -> bool:
    return is_blocked(cluster, ledger, question.stopped) and not is_blocked(cluster, ledger, frozenset())


def loses_its_ensemble(cluster: Cluster, ledger: Ledger, question: Question) -> bool:
    """Whether a recovery that has begun finds an ensemble now and wouldn't: one failed write makes it look for one."""
    now = writable(cluster)
    return ledger.state == "IN_RECOVERY" and len(now - question.stopped) < ledger.size <= len(now)


def is_unrecoverable(cluster: Cluster, ledger: Ledger, question: Question) -> bool:
    if ledger.state == "CLOSED":
        return False
    if loses_its_tail(cluster, ledger, question):
        return True
    is_blocked_then = gets_blocked(cluster, ledger, question) or loses_its_ensemble(cluster, ledger, question)
    return is_blocked_then and not question.may_block_recovery


def finds_no_ensemble(cluster: Cluster, size: int, question: Question) -> bool:
    """Whether an ensemble of this size, or enough racks, could be found and wouldn't be."""
    now = writable(cluster)
    left = now - question.stopped
    racks_now, racks_left = (len({cluster.bookies[name].rack for name in names} - {None}) for names in (now, left))
    least = question.racks or 0
    return len(left) < size <= len(now) or racks_left < least <= racks_now


def is_unwritable(cluster: Cluster, ledger: Ledger, question: Question) -> bool:
    if ledger.state != "OPEN" or question.may_block_writers:
        return False
    return finds_no_ensemble(cluster, ledger.size, question) or gets_blocked(cluster, ledger, question)


def new_ledgers(cluster: Cluster, question: Question) -> int:
    """1 where new ledgers count as one that finds no ensemble."""
    if question.ensemble is None or question.may_block_writers:
        return 0
    return int(finds_no_ensemble(cluster, question.ensemble, question))


def places_left_over(cluster: Cluster, ensemble: List[str], stopped: FrozenSet[str]) -> int:
    """How many places of a fragment find no bookie."""
    members = set(ensemble)
    places = {name for name in members if name in stopped or not cluster.bookies[name].is_up}
    return max(0, len(places) - len(writable(cluster) - members - stopped))


def unplaced(cluster: Cluster, ledger: Ledger, question: Question) -> int:
    """How many fragments have more places that find no bookie than now."""
    if not question.is_for_good:
        return 0
    pairs = (
        (places_left_over(cluster, ensemble, question.stopped), places_left_over(cluster, ensemble, frozenset()))
        for _, ensemble in ledger.fragments
    )
    return sum(then > now for then, now in pairs)


def may_lose_acknowledged(cluster: Cluster, ledger: Ledger, question: Question) -> bool:
    """Whether some entry that was acknowledged, and of which nobody told, may have a copy now and none then.

    Any ack quorum of those members of a write set may have it of whom nobody told that they don't, and an empty bookie may
    whatever is told of it, since it was written to. This asks no rule: it is what a yes promises.
    """
    for members in write_sets(ledger) if ledger.state != "CLOSED" else []:
        may_hold = sorted(
            name for name in members if cluster.bookies[name].is_empty or not is_told(ledger, name, question)
        )
        for number in range(ledger.ack, len(may_hold) + 1):
            for holders in map(frozenset, combinations(may_hold, number)):
                up = frozenset(name for name in holders if cluster.bookies[name].is_up)
                if is_lost(up, question) or question.is_for_good and is_lost(holders, question):
                    return True
    return False


# Answers.


class Numbers(NamedTuple):
    """How many entries break a rule whatever is held, and how many may break it; and the ledgers and fragments."""

    no: Dict[str, int]
    unknown: Dict[str, int]
    disks: int


def numbers_of(cluster: Cluster, ledgers: List[Ledger], question: Question, counted: Counted) -> Numbers:
    """The numbers of all rules, of these ledgers alone."""
    no, unknown, disks = Counter(dict.fromkeys(RULES, 0)), Counter(), 0
    for ledger in ledgers:
        for entry, count in counted[ledger.id]:
            disks += count * may_be_on_disks(cluster, entry, question)
            for rule, broken in (
                ("readable", [is_lost(copies, question) for copies in completions(entry)]),
                ("kept", [is_fallen(copies, question, entry.ack) for copies in completions(entry)]),
            ):
                no[rule] += count * all(broken)
                unknown[rule] += count * (any(broken) and not all(broken))
        no["recoverable"] += is_unrecoverable(cluster, ledger, question)
        no["writable"] += is_unwritable(cluster, ledger, question)
        no["replaceable"] += unplaced(cluster, ledger, question)
    return Numbers(no, unknown, disks)


def verdict_of(numbers: Numbers) -> Tuple[str, Optional[str], int]:
    """The verdict, the rule it names, and that rule's number."""
    for rule in RULES:
        if numbers.no[rule]:
            return "no", rule, numbers.no[rule]
    for rule in RULES:
        if numbers.unknown[rule]:
            return "unknown", rule, numbers.unknown[rule]
    if numbers.disks:
        return "unknown", "disks", numbers.disks
    return "yes", None, 0


def whole_numbers(cluster: Cluster, question: Question, counted: Counted) -> Numbers:
    """The numbers of all ledgers, and of new ones."""
    numbers = numbers_of(cluster, cluster.ledgers, question, counted)
    numbers.no["writable"] += new_ledgers(cluster, question)
    return numbers


def rules_of(numbers: Numbers) -> Dict[str, object]:
    """The numbers as JSON shows them."""
    rules: Dict[str, object] = {name: {"no": numbers.no[name], "unknown": numbers.unknown[name]} for name in RULES[:2]}
    return {**rules, **{name: numbers.no[name] for name in RULES[2:]}, "disks": numbers.disks}


def weight_of(numbers: Numbers, verdict: str, rule: Optional[str]) -> int:
    """How much of a ledger speaks for the verdict."""
    if rule == "disks":
        return numbers.disks
    return {"no": numbers.no, "unknown": numbers.unknown, "yes": Counter()}[verdict][rule]


def against(cluster: Cluster, question: Question, counted: Counted, verdict: str, rule: Optional[str]) -> List[Tuple[int, int]]:
    """The ten worst ledgers, each with how many of its entries speak against a stop."""
    numbers = [(numbers_of(cluster, [ledger], question, counted), ledger.id) for ledger in cluster.ledgers]
    weights = [(weight_of(those, verdict, rule), number) for those, number in numbers]
    worst = sorted((-weight, number) for weight, number in weights if weight)[:10]
    return [(number, -weight if rule in ("readable", "kept", "disks") else 0) for weight, number in worst]


def notes_of(cluster: Cluster, question: Question, counted: Counted, taken: Optional[str]) -> List[str]:
    up = {name for name in question.stopped if cluster.bookies[name].is_up}
    notes = [f"{name} is not registered" for name in sorted(question.stopped - up)]
    nowhere = sum(count for alike in counted.values() for entry, count in alike if not entry.known and not entry.untold)
    if nowhere:
        notes.append(f"{nowhere} {'entry' if nowhere == 1 else 'entries'} can't be read already, with or without this stop")
    if any(ledger.state == "OPEN" and up & set(ledger.fragments[-1][1]) for ledger in cluster.ledgers):
        notes.append("writers pause until they have changed their ensembles")
    counted = [ledger for ledger in cluster.ledgers if ledger.state != "CLOSED" or ledger.last >= 0]
    if len(up & writable(cluster)) >= min((ledger.ack for ledger in counted), default=1):
        time = "" if taken is None else f" ({taken})"
        notes.append(
            f"a ledger created since the input was taken{time} may have all its copies on these bookies: "
            "make them read-only, take a new input, ask again"
        )
    empty = [] if cluster.ledgers else ["no ledger was judged: the answer is for a cluster without ledgers"]
    lacks_rack = question.is_by_rack and any(bookie.is_up and bookie.rack is None for bookie in cluster.bookies.values())
    unracked = ["some registered bookies have no known rack: they don't count as in a rack that is named"] if lacks_rack else []
    return notes + unasked_notes(cluster, question) + empty + unracked


def unasked_notes(cluster: Cluster, question: Question) -> List[str]:
    """The notes on words that ask nothing of this stop."""
    now = writable(cluster)
    notes = []
    if question.racks and not question.ensemble and all(ledger.state != "OPEN" for ledger in cluster.ledgers):
        notes.append("--min-racks asks nothing here: no ledger is open, and --ensemble is not given")
    if question.racks and len({cluster.bookies[name].rack for name in now} - {None}) < question.racks:
        notes.append(
            "the bookies that can be written to stand in too few racks for --min-racks already, with or without this stop"
        )
    if question.ensemble and len(now) < question.ensemble:
        notes.append(
            "new ledgers of the size that --ensemble gives find too few bookies already, with or without this stop"
        )
    if question.may_block_writers and (question.ensemble or question.racks):
        notes.append("--ensemble and --min-racks ask nothing where --allow-blocked-writers is given")
    return notes


def answer_of(
    cluster: Cluster, question: Question, counted: Optional[Counted] = None, taken: Optional[str] = None
) -> Dict[str, object]:
    """The answer as JSON shows it; of what speaks against a stop, the ledgers and entries alone. Who counts the entries
    otherwise than one by one gives what was counted; who knows when the oldest input was taken, that time."""
    counted = counted_of(cluster, question) if counted is None else counted
    numbers = whole_numbers(cluster, question, counted)
    verdict, rule, named = verdict_of(numbers)
    entries: Counter = Counter()
    now: Counter = Counter()
    without: Counter = Counter()
    for entry, count in (pair for alike in counted.values() for pair in alike):
        entries[entry] += count
        now[len(entry.known)] += count
        without[len(entry.known - question.stopped)] += count
    columns = range(max(now, default=0) + 1)
    return {
        "verdict": verdict,
        "rule": rule,
        "count": named,
        "rules": rules_of(numbers),
        "judged": {
            "ledgers": len(cluster.ledgers),
            "entries": sum(entries.values()),
            "assumed": sum(count for entry, count in entries.items() if entry.is_assumed),
            "unknown": sum(count for entry, count in entries.items() if entry.untold),
            "unread": 0,
            "missing": 0,
            "announced": None,
            "taken": taken,
        },
        "copies": {"now": [now[number] for number in columns], "without": [without[number] for number in columns]},
        "against": against(cluster, question, counted, verdict, rule),
        "notes": notes_of(cluster, question, counted, taken),
    }


# Waves and risk.


def up_bookies(cluster: Cluster) -> List[str]:
    return sorted(name for name, bookie in cluster.bookies.items() if bookie.is_up)


def waves_of(cluster: Cluster, question: Question, are_in_racks: bool) -> Dict[str, object]:
    """The rounds as JSON shows them: each bookie is in the first one that may be stopped together with it."""
    counted = counted_of(cluster, question)

    def verdict_on(names: Set[str]) -> Tuple[str, Optional[str], int]:
        return verdict_of(whole_numbers(cluster, question._replace(stopped=frozenset(names)), counted))

    def may_join(name: str, round: List[str]) -> bool:
        rack = cluster.bookies[name].rack
        is_of_rack = rack is not None and rack == cluster.bookies[round[0]].rack
        return (is_of_rack or not are_in_racks) and verdict_on({name, *round})[0] == "yes"

    rounds: List[List[str]] = []
    alone: List[Dict[str, object]] = []
    for name in up_bookies(cluster):
        verdict, rule, count = verdict_on({name})
        joined = [round for round in rounds if verdict == "yes" and may_join(name, round)]
        if verdict != "yes":
            alone.append({"bookie": name, "verdict": verdict, "rule": rule, "count": count})
        elif joined:
            joined[0].append(name)
        else:
            rounds.append([name])
    return {"waves": rounds, "alone": alone}


# What is lost, as JSON names it, and its bookies.
Lost = Tuple[Dict[str, object], Set[str]]


def losses(cluster: Cluster, question: Question, counted: Counted, lost: List[Lost]) -> List[object]:
    """What each of these losses breaks, as JSON shows it: the worst first, by what is broken in the order of the rules, and
    then by what nobody knows."""
    weighed = []
    for named, stopped in lost:
        numbers = whole_numbers(cluster, question._replace(stopped=frozenset(stopped)), counted)
        broken = [*(numbers.no[rule] for rule in RULES), *(numbers.unknown[rule] for rule in RULES[:2]), numbers.disks]
        weighed.append(([-number for number in broken], {**named, "rules": rules_of(numbers)}))
    return [shown for _, shown in sorted(weighed, key=lambda pair: pair[0])]


def risk_of(cluster: Cluster, question: Question) -> Dict[str, object]:
    """What the next losses cost, as JSON shows it, with each two bookies."""
    counted = counted_of(cluster, question)
    copies = [len(entry.known) for alike in counted.values() for entry, _ in alike if entry.known]
    full = {name for name, bookie in cluster.bookies.items() if bookie.is_up and not bookie.is_empty}
    # An acknowledged entry may lack a copy on as many members of its write set as needn't have acknowledged it.
    acknowledged = [
        max(0, len(members & full) - (ledger.write - ledger.ack))
        for ledger in cluster.ledgers if ledger.state != "CLOSED" for members in write_sets(ledger)
    ]
    up = up_bookies(cluster)
    racks = sorted({bookie.rack for bookie in cluster.bookies.values()} - {None})
    of_rack = {rack: {name for name, bookie in cluster.bookies.items() if bookie.rack == rack} for rack in racks}
    return {
        "fewest_copies": min(copies, default=None),
        "fewest_copies_not_closed": min(acknowledged, default=None),
        "not_judged": 0,
        "bookies": losses(cluster, question, counted, [({"bookie": name}, {name}) for name in up]),
        "racks": losses(cluster, question, counted, [({"rack": rack}, of_rack[rack]) for rack in racks]),
        "pairs": losses(cluster, question, counted, [({"bookies": list(pair)}, set(pair)) for pair in combinations(up, 2)]),
    }
