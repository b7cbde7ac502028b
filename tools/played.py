"""What tools/page reads of a script and of its play: the commands, what was answered, and what each step changed.

`run --json` says what each line changed. Only the members down and the entries lost in each fragment are in no change, so
the script that is played has a `survey` after the user's commands. It begins with a `report`, and from there the state is
kept. It is told as the lines of a report and a survey.
"""

import json
import re
from itertools import zip_longest
from typing import IO, Any, Dict, Iterable, Iterator, List, NamedTuple, Optional, Set, Tuple

MAX_LINE_BYTES = 1024
MAX_SCRIPT_BYTES = 1_048_576
# How many states are told at most: a survey of each is read.
MOST_TOLD = 5000
REPORT, SURVEY = b"report\n", b"survey\n"
# The kinds of changes that no picture shows.
IN_NO_PICTURE = {"task", "lock", "clock", "autorecovery"}

Json = Dict[str, Any]
# Lines by their slots. An empty text is no line.
Lines = Iterator[Tuple[str, str]]


class Line(NamedTuple):
    """A line of a script: its number, its bytes without the LF, and whether it is answered."""

    number: int
    text: bytes
    is_answered: bool


class Step(NamedTuple):
    """A command, as a plan would write it, with its reply and the kinds of what it changed."""

    command: Optional[str]
    text: str
    kinds: Tuple[str, ...]


def shown(text: bytes) -> str:
    """Returns a text as it is shown: a byte that is no UTF-8, or a character that can't be seen, goes by its number."""
    plain = text.decode("utf-8", "backslashreplace")
    hidden = r"[\x00-\x08\x0a-\x1f\x7f-\x9f\u200b-\u200f\u2028-\u202e\u2060-\u2069\ufeff]"
    return re.sub(hidden, lambda found: f"\\u{ord(found[0]):04x}", plain)


def lines_of(text: bytes) -> List[bytes]:
    """Returns a text's lines: each ends at an LF or at the end, and an LF that ends the text begins no further one."""
    lines = text.split(b"\n")
    return lines if lines[-1] else lines[:-1]


def without_cr(line: bytes) -> bytes:
    """Returns a line without the one CR at its end."""
    return line[:-1] if line.endswith(b"\r") else line


def parted(text: bytes) -> Tuple[bytes, Optional[bytes]]:
    """Parts an input into its picture and its script, where a line has a single `%`."""
    lines = text.split(b"\n")
    for number, line in enumerate(lines):
        if without_cr(line) == b"%":
            return b"\n".join(lines[:number]), b"\n".join(lines[number + 1 :])
    return text, None


def read_script(text: bytes) -> List[Line]:
    """Reads a script's lines."""
    lines = []
    for number, raw in enumerate(lines_of(text), 1):
        line = without_cr(raw)
        is_command = line.strip(b" \t")[:1] not in (b"", b"#")
        lines.append(Line(number, raw, is_command or len(line) > MAX_LINE_BYTES))
    return lines


def told_after(commands: List[Line]) -> Set[int]:
    """Returns after which commands the state is told, by their places: 0 is before all, and K after the K-th.

    That is after each, where it fits into a script; else after as many as fit, at like distances.
    """
    length = sum(len(it.text) + 1 for it in commands)
    room = min((MAX_SCRIPT_BYTES - length - len(REPORT)) // len(SURVEY), MOST_TOLD)
    count = len(commands) + 1
    if room >= count:
        return set(range(count))
    return {round(at * (count - 1) / (room - 1)) for at in range(room)} if room > 1 else set()


def told_script(commands: List[Line], told: Set[int]) -> bytes:
    """Returns the script that is played: a report, and the commands, with a survey where the state is told."""
    parts = [REPORT + SURVEY if told else b""]
    for place, command in enumerate(commands, 1):
        parts += [command.text, b"\n", SURVEY if place in told else b""]
    return b"".join(parts)


def or_dash(value: Optional[int]) -> str:
    """Returns a number as a report has it."""
    return "-" if value is None else str(value)


def top_lines(report: Json) -> Lines:
    """Yields the first lines of a report."""
    delay = f" delay {report['delay']}" if report["delay"] else ""
    yield "c", f"clock {report['clock']} grace {report['grace']}{delay}"
    yield "a", "" if report["autorecovery"] else "autorecovery disabled"


def bookie_line(bookie: Json, delay: int) -> str:
    """Returns the line of a bookie."""
    since = f" since {bookie['lostAt']}" if delay and not bookie["up"] else ""
    return f"bookie {bookie['name']} {'up' if bookie['up'] else 'down'} {bookie['held']}{since}"


def ledger_lines(slot: str, ledger: Json, pieces: Iterable[int]) -> Lines:
    """Yields the lines of a ledger and of some fragments. A fragment stops at the next one, or after the last entry."""
    last, fragments, task, lock = (ledger[it] for it in ("lastEntryId", "fragments", "task", "lock"))
    sizes = f"{ledger['ensembleSize']} {ledger['writeQuorumSize']} {ledger['ackQuorumSize']}"
    yield slot, f"ledger {ledger['id']} {ledger['state']} version {ledger['version']} last {or_dash(last)} quorum {sizes}"
    stops = [it["firstEntry"] for it in fragments[1:]] + [None if last is None else last + 1]
    for piece in pieces:
        first, members = fragments[piece]["firstEntry"], " ".join(fragments[piece]["ensemble"])
        yield f"{slot}f{piece}", f"fragment {piece} first {first} stop {or_dash(stops[piece])} {members}"
    yield f"{slot}t", f"task {' '.join(task)}" if task else ""
    due = f" due {lock['due']}" if lock and lock["due"] is not None else ""
    yield f"{slot}k", f"lock {lock['owner']}{due}" if lock else ""


def changed_lines(slot: str, ledger: Json, change: Json) -> Lines:
    """Makes a change of a ledger, and yields the lines that can show it."""
    what, now, fragments = change["what"], change["now"], ledger["fragments"]
    piece = change.get("fragment", len(fragments) - 1)
    if what == "member":
        fragments[piece]["ensemble"][change["index"]] = now
    elif what == "fragment":
        fragments[piece:] = [now] if now else []
        yield f"{slot}f{piece}", ""
        yield f"{slot}s{piece}", ""
    else:
        ledger[what] = now
    # The fragment before may stop elsewhere now.
    yield from ledger_lines(slot, ledger, range(max(piece - 1, 0), min(piece + 1, len(fragments))))


def count_of(ranges: List[List[int]]) -> int:
    """Returns how many entries are in ranges."""
    return sum(last - first + 1 for first, last in ranges)


class Telling:
    """The state, as the first report with all changes made, and as lines by slots, as it was told last.

    A slot is `c` for the clock, `a` for AutoRecovery, `bN` for a bookie and `lN` for a ledger by its place. Of a ledger
    `lNfK` is a fragment, `lNsK` its line of the survey, `lNt` the task and `lNk` the lock.
    """

    def __init__(self) -> None:
        self.slots: Dict[str, int] = {}
        self.texts: Dict[str, int] = {}
        self.report: Json = {"bookies": [], "ledgers": []}
        self.survey: List[Json] = []
        # By names and ids.
        self.places: Dict[Any, int] = {}
        # The texts that were told, and those that are not yet.
        self.told: Dict[str, int] = {}
        self.left: Dict[str, str] = {}

    def begin(self, report: Json) -> None:
        """Takes in the first report."""
        self.report = report
        self.left.update(top_lines(report))
        for place, it in enumerate(report["bookies"]):
            self.places[it["name"]] = place
            self.left[f"b{place}"] = bookie_line(it, report["delay"])
        for place, it in enumerate(report["ledgers"]):
            self.places[it["id"]] = place
            self.left.update(ledger_lines(f"l{place}", it, range(len(it["fragments"]))))

    def make(self, change: Json) -> None:
        """Makes a change."""
        what, report = change["what"], self.report
        if "bookie" in change:
            place = self.places[change["bookie"]]
            it = report["bookies"][place]
            if what == "entries":
                it["held"] += count_of(change["gained"]) - count_of(change["gone"])
            else:
                it.update(change["now"])
            self.left[f"b{place}"] = bookie_line(it, report["delay"])
        elif "ledger" in change:
            place = self.places[change["ledger"]]
            self.left.update(changed_lines(f"l{place}", report["ledgers"][place], change))
            # Where a fragment comes or goes, the next survey is taken in from its first line on.
            self.survey = [] if what == "fragment" else self.survey
        else:
            report[what] = change["now"]
            self.left.update(top_lines(report))

    def tell(self, survey: List[Json]) -> List[int]:
        """Takes in a survey, and returns what differs since the last one: slots and texts by turns, -1 for no text."""
        for it, before in zip_longest(survey, self.survey):
            if it != before:
                slot = f"l{self.places[it['ledger']]}s{it['fragment']}"
                self.left[slot] = f"down {it['down']} lost {or_dash(it['lost'])}"
        numbers: List[int] = []
        for slot, text in self.left.items():
            number = self.texts.setdefault(text, len(self.texts)) if text else -1
            # Not each line that can show a change shows it, and several steps can lead back.
            if self.told.get(slot, -1) != number:
                self.told[slot] = number
                numbers += [self.slots.setdefault(slot, len(self.slots)), number]
        self.survey, self.left = survey, {}
        return numbers


class Play(NamedTuple):
    """A play: the steps that were answered, what each changed, by places that begin at 0 with the start, and its end."""

    telling: Telling
    steps: List[Step]
    changes: Dict[int, List[int]]
    # None where the output was cut.
    end: Optional[str]


def reply_in(told: Json) -> str:
    """Returns the reply of a line as `run` prints it without `--json`."""
    reply = told["reply"]
    if reply == "refused":
        it = told["refusal"]
        return f"refused {it['number']} {it['name']}" + ("" if it["value"] is None else f" {it['value']}")
    return told["fault"] if reply == "fault" else f"{reply} {told[reply]}" if reply in ("clock", "ticket") else reply


def read_play(told: Set[int], stream: IO[bytes]) -> Play:
    """Reads what `run --json` prints of the script that `told_script` made. It may end early, or be cut."""
    telling, end = Telling(), None
    steps: List[Step] = []
    changes: Dict[int, List[int]] = {}
    own = [REPORT, SURVEY] if told else []
    for line in stream:
        it = json.loads(line) if line.endswith(b"\n") else {}
        if "line" not in it:
            end = it.get("end")
        elif not own:
            steps.append(Step(it["command"], reply_in(it), tuple({change["what"] for change in it["changes"]})))
            for change in it["changes"] if told else []:
                telling.make(change)
            own = [SURVEY] if len(steps) in told else []
        elif own.pop(0) == REPORT:
            telling.begin(it["report"])
        else:
            changes[len(steps)] = telling.tell(it["survey"])
    return Play(telling, steps, changes, end)


class Pictures(NamedTuple):
    """Which picture each state shows, by numbers that begin at 0, and after which step each picture came first."""

    of_steps: List[int]
    first: List[int]
    # The pictures that came by a bookie's loss or return.
    registrations: Set[int]


def pictures_of(steps: List[Step]) -> Pictures:
    """Tells which states show the same picture.

    An undo or a redo leads back to a state that was there before; a line that changes nothing, or only what no picture
    shows, leaves the picture as it is.
    """
    first, registrations = [0], set()
    past: List[int] = []
    undone: List[int] = []
    now = 0
    of_steps = [0]
    for place, step in enumerate(steps, 1):
        if step.text != "ok":
            pass
        elif step.command == "undo":
            undone.append(now)
            now = past.pop()
        elif step.command == "redo":
            past.append(now)
            now = undone.pop()
        else:
            past.append(now)
            undone = []
            if set(step.kinds) - IN_NO_PICTURE:
                now = len(first)
                first.append(place)
                registrations |= {now} if "registration" in step.kinds else set()
        of_steps.append(now)
    return Pictures(of_steps, first, registrations)


def chosen_of(pictures: Pictures, most: int) -> List[int]:
    """Chooses pictures to ask about: that of the end and of the start, those of losses and returns, then others."""
    last = pictures.of_steps[-1]
    chosen = [last, 0] if last else [0]
    for some in (sorted(pictures.registrations), range(len(pictures.first))):
        left = [it for it in some if it not in chosen]
        room = min(max(most - len(chosen), 0), len(left))
        chosen += [left[at * len(left) // room] for at in range(room)]
    return sorted(chosen[:most])
