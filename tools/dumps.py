"""What reads the dumps of a cluster: what BookKeeper's shell and its admin endpoints printed, each form by a function.

docs/PICTURE.md tells where each dump comes from. A fault has the file and the line. No line of a dump is ever printed,
as it may hold a password.
"""

import io
import json
import re
from functools import lru_cache
from itertools import chain
from typing import Any, Callable, Dict, FrozenSet, Iterable, Iterator, List, NamedTuple, NoReturn, Optional
from typing import Pattern, Set, Tuple

MAX_NAME_BYTES = 300
# How many bytes of a dump are read at once.
BUFFER = 1 << 20

GRACE_FIELD = "openLedgerRereplicationGracePeriod"
DEFAULT_GRACE_MS = 30_000
DELAY_FIELD = "lostBookieRecoveryDelay"

LEVEL = r"(TRACE|DEBUG|INFO|WARN|ERROR|FATAL)"
ERRORS = {"ERROR", "FATAL"}
# What a logger puts before a line: its time and level, with or without the thread and the class.
LOGGED = re.compile(
    r"(?:[0-9]{4}-[0-9]{2}-[0-9]{2}[T ])?[0-9]{2}:[0-9]{2}:[0-9]{2}[.,][0-9]{3}(?:Z|[+-][0-9]{4})? "
    rf"(?:\[[^\]]*\] )?(?:- )?{LEVEL} +(?:(?:- )?\[[^\]]*\] - |[\w.$]+ - )?"
)
# What is printed without a logger, and has no data: by Java, by kubectl, by ZooKeeper's shell, and of an exception.
CHATTER = re.compile(
    r"(?:ZooKeeper )?JMX enabled|SLF4J(?:\([A-Z]\))?: |log4j:|WARNING: |Picked up \w+: |\S+ .*VM warning: |\[[0-9]+\.[0-9]+s\]\["
    r"|Defaulted container |Unable to use a TTY |(?:ERROR|WARN) StatusLogger "
    r"|Connecting to \S+$|WATCHER::$|WatchedEvent "
)
STACK = re.compile(r"(?:\s*(?:Caused by|Suppressed): )?[\w.$]+(?:Exception|Error)\b|\s+at [\w.$]+|\s+\.\.\. [0-9]+ ")
NAME = re.compile(rf"[!-~]{{1,{MAX_NAME_BYTES}}}")
# A number of a dump, of at most as many digits as BookKeeper's have.
NUMBER = "[0-9]{1,19}"
SIGNED = re.compile(f"-?{NUMBER}")

# What `listbookies` prints above a list, by what is listed, and where nothing is listed.
HEADINGS = {"rw": "ReadWrite Bookies :", "ro": "Readonly Bookies :", "all": "All Bookies :"}
NO_BOOKIE = "No bookie exists!"
LISTED_BY_ID = re.compile(r"BookieID:(\S+), IP:(\S*), Port:\S*, Hostname:(\S*)")
LISTED_BY_ADDRESS = re.compile(r"([^\s,:]+:[0-9]{1,5})(?:\s+(\S+) \((\S+)\))?")
LISTED = re.compile(rf"BookieID:|(?:ReadWrite|Readonly|All) Bookies|{NO_BOOKIE}|{LISTED_BY_ADDRESS.pattern}$")
UNRESOLVED = {"", "UNKNOWN", "N/A"}

# A ledger and its metadata as BookKeeper prints them, and its fragments among them.
LEDGER_HEADING = re.compile(f"ledgerID: ({NUMBER})")
METADATA = re.compile(r"LedgerMetadata\{([^{}\[\]]*), ensembles=\{([^{}]*)\}(?:, customMetadata=\{[^{}]*\})?\}")
FRAGMENT = re.compile(rf"({NUMBER})=\[([^\[\]{{}}=]*)")
LEDGERS = re.compile("ledgerID|LedgerMetadata")
# An error that says of a single ledger that it could not be read.
UNREAD = re.compile(rf"Unable to read the ledger ?:? ?({NUMBER})\b")
STRANGE_FIELD = "the metadata has a field that isn't known, or twice"
STATES = {"OPEN", "IN_RECOVERY", "CLOSED"}
SIZES = ["ensembleSize", "writeQuorumSize", "ackQuorumSize"]
FIELDS = {"formatVersion", "state", "length", "lastEntryId", "digestType", "password", *SIZES}

# The same in a znode: its first line, its fields with their block before them, and the znode's own facts after them.
ZNODE_HEADING = re.compile(r"BookieMetadataFormatVersion\s+([0-9]+)")
ZNODE_SIZES = ["ensembleSize", "quorumSize", "ackQuorumSize"]
ZNODE_FIELDS = {"length", "lastEntryId", "state", "digestType", "password", "ctime", "cToken"}
ZNODE_BLOCKS = {"segment": {"ensembleMember", "firstEntryId"}, "customMetadata": {"key", "value"}}
ZNODE_FACTS = {"cZxid", "mZxid", "pZxid", "ctime", "mtime", "cversion", "dataVersion", "aclVersion"}
ZNODE_FACTS |= {"ephemeralOwner", "dataLength", "numChildren"}

ZNODE_WORDS = "|".join(sorted({*ZNODE_SIZES, *ZNODE_FIELDS, *ZNODE_FACTS}.union(*ZNODE_BLOCKS.values())))
ZNODE = re.compile(rf"LedgerMetadata|BookieMetadataFormatVersion|\s*(?:(?:{ZNODE_WORDS})(?:: | = )|\w+ \{{$|\}}$)")

# What `ledger` prints of an index, and `readledger` of entries.
INDEX_HEADING = re.compile(f"===== LEDGER: ({NUMBER}) =====")
INDEX_COUNT = re.compile(r"entries\s*: *(.*)")
INDEX_FACT = re.compile(r"(?:master key|size|isFenced)\s*:.*")
INDEXED = re.compile(rf"entry ({NUMBER})\s*:\s*(N/A|\(log: ?[0-9]+, pos: ?[0-9]+\))")
INDEX = re.compile("=====|entry [0-9]|master key|size |entries |isFenced")
ENTRY_READ = re.compile(rf"-{{9}} Lid=({NUMBER}), Eid=({NUMBER})(?:, EntrySize=[0-9]+)? -{{9}}")
NOT_READ = re.compile(f"Failed to read entry ({NUMBER}) -- (.*)")
# What a bookie answers if it lacks the entry, or has nothing of the ledger. What a metadata server lacks isn't told by it.
NOT_THERE = re.compile("No such (?:entry|ledger(?: exists(?: on Bookies)?)?)")
# What follows a read that failed. It alone names the ledger.
READ_ERROR = re.compile(rf"Error future\.get while reading entries from ledger ({NUMBER})(?!\S).*")
READ = re.compile(rf"---------|Failed to read entry {NUMBER} --|Error future\.get while reading entries")

# What `listunderreplicated` prints: a ledger, and below it what its task has.
TASK = re.compile(f"(?:ledgerID: )?({NUMBER})")
TASK_FACT = re.compile(r"\s*(Ctime|MissingReplica|ReplicationWorkerId) : (.*)")
TASKS = re.compile(rf"(?:{TASK.pattern}$|{TASK_FACT.pattern})")


class Fault(Exception):
    """What is wrong with the dumps, and where."""


class Line(NamedTuple):
    """A line of a dump: where it stands, its text without what a logger puts before it, and that logger's level, if any."""

    place: str
    text: str
    level: str = ""


class Pairs(List[Tuple[str, Any]]):
    """A JSON object as it stands, where a key may come twice."""


class Member(NamedTuple):
    """A member of a JSON object: its key and value, and where it stands."""

    key: str
    value: Any
    place: str


class Listed(NamedTuple):
    """A bookie as a list has it; its address and host are None where the list doesn't tell them."""

    name: str
    address: Optional[str]
    host: Optional[str]
    place: str


class Shown(NamedTuple):
    """Whether a bookie is registered, and read-only."""

    up: bool
    read_only: bool = False


class Metadata(NamedTuple):
    """A ledger's metadata: its state, a closed one's last entry and length, its sizes, its fragments by first entries."""

    state: str
    last: Optional[int]
    sizes: Tuple[int, int, int]
    fragments: Tuple[Tuple[int, Tuple[str, ...]], ...]
    length: Optional[int] = None


class Ledger(NamedTuple):
    """A ledger as a dump has it; its version is None where the dump doesn't tell it."""

    id: int
    metadata: Metadata
    version: Optional[int]
    place: str


class Unread(NamedTuple):
    """A ledger that could not be read, and why."""

    id: int
    why: str


class Entries(NamedTuple):
    """Which entries a bookie holds, and of which this is told: None where it is told of all."""

    held: FrozenSet[int]
    told: Optional[FrozenSet[int]]


class Index(NamedTuple):
    """A ledger's index: whether each entry that it lists is there, and how many it says it has, by where it says so."""

    entries: Dict[int, bool]
    counts: Dict[str, int]


class Holding(NamedTuple):
    """What a dump tells that a bookie holds of a ledger."""

    bookie: str
    ledger: int
    entries: FrozenSet[int]
    told: Optional[FrozenSet[int]]
    place: str


Range = Tuple[int, int]
Bookies = Dict[str, Shown]
# What is called with each line of a log that is passed over.
Passed = Callable[[Line], None]


def unknown(line: Line, what: str) -> NoReturn:
    """A line is none that the tool knows in such a dump."""
    raise Fault(f"{line.place}: this line isn't known in {what}")


def by_name(name: str) -> List[Tuple[int, str]]:
    """Returns what names are sorted by, so that bk2 comes before bk10."""
    return [(int(part), "") if part.isdigit() else (-1, part) for part in re.findall(r"[0-9]+|[^0-9]+", name)]


class Dump(NamedTuple):
    """A dump that is open, by its name. It is read once, as it may come out of a pipe."""

    file: str
    stream: io.BufferedReader

    def is_json(self) -> bool:
        """Whether this is an admin endpoint's answer, and not what the shell printed."""
        return self.stream.peek(1).lstrip().startswith((b"{", b"["))

    def text(self) -> str:
        """Returns the whole text."""
        with self.stream as it:
            data = it.read()
        try:
            return data.decode()
        except UnicodeDecodeError as error:
            number = data.count(b"\n", 0, error.start) + 1
            raise Fault(f"{self.file}:{number}: this is no text")

    def lines(self) -> Iterator[Line]:
        """Yields the lines of what the shell printed, but for empty ones."""
        with self.stream as it:
            for number, data in enumerate(it, 1):
                place = f"{self.file}:{number}"
                try:
                    line = data.decode()
                except UnicodeDecodeError:
                    raise Fault(f"{place}: this is no text")
                if line[-1] != "\n":
                    raise Fault(f"{place}: the last line has no end, as if the dump was cut")
                logged = LOGGED.match(line)
                line = (line[logged.end() :] if logged else line).rstrip()
                if line:
                    yield Line(place, line, logged[1] if logged else "")


def open_dump(file: str) -> Dump:
    """Opens a dump."""
    try:
        return Dump(file, io.BufferedReader(io.FileIO(file), BUFFER))
    except OSError as error:
        raise Fault(f"{file}: {error.strerror}")


def data_lines(dump: Dump, data: Pattern[str], passed: Passed) -> Iterator[Line]:
    """Yields the lines of a dump that have data, which begin so, and those that nothing is known of.

    Lines of a log without data are passed over, with an exception's lines after them, and after data that is an error.
    """
    is_after = False
    for line in dump.lines():
        if data.match(line.text):
            is_after = line.level in ERRORS
            yield line
        elif line.level or CHATTER.match(line.text) or is_after and STACK.match(line.text):
            is_after = True
            passed(line)
        else:
            yield line


def some_lines(dump: Dump, data: Pattern[str], passed: Passed) -> List[Line]:
    """Returns these lines of a dump that has some."""
    lines = list(data_lines(dump, data, passed))
    if not lines:
        raise Fault(f"{dump.file}:1: nothing stands here")
    return lines


def read_object(dump: Dump) -> List[Member]:
    """Returns the members of the JSON object that an admin endpoint answered."""
    file, text = dump.file, dump.text()
    try:
        value = json.loads(text, object_pairs_hook=Pairs)
    except (ValueError, RecursionError) as error:
        raise Fault(f"{file}:{getattr(error, 'lineno', 1)}: this is no whole JSON, as if the dump was cut")
    if not isinstance(value, Pairs):
        raise Fault(f"{file}:1: this is no JSON object")
    members, number, before = [], 1, 0
    for key, member in value:
        found = max(before, text.find(json.dumps(key), before))
        number += text.count("\n", before, found)
        members.append(Member(key, member, f"{file}:{number}"))
        before = found + 1
    return members


def number_in(text: Optional[str], what: str, place: str) -> int:
    """Returns a number that a dump must have."""
    if text is None or not SIGNED.fullmatch(text):
        raise Fault(f"{place}: {what} is no number, or missing")
    return int(text)


@lru_cache(maxsize=100_000)
def is_name(text: str) -> bool:
    """Whether this may be a bookie's name."""
    return NAME.fullmatch(text) is not None


def name_in(text: str, place: str) -> str:
    """Returns a bookie's name."""
    if not is_name(text):
        raise Fault(f"{place}: a bookie's name has 1 to {MAX_NAME_BYTES} characters of ASCII, and no space")
    return text


def told(text: Optional[str]) -> Optional[str]:
    """Returns an address or a host, unless the shell could not tell it."""
    return None if text is None or text in UNRESOLVED else text


def listed_by_id(line: Line) -> Optional[Listed]:
    """Returns the bookie of a line `BookieID:bk1:3181, IP:10.0.0.1, Port:3181, Hostname:bk1`."""
    found = LISTED_BY_ID.fullmatch(line.text)
    return Listed(name_in(found[1], line.place), told(found[2]), told(found[3]), line.place) if found else None


def listed_by_address(line: Line) -> Optional[Listed]:
    """Returns the bookie of an older line `bk1:3181 10.0.0.1 (bk1)`, with a tab, or of a bare `bk1:3181`."""
    found = LISTED_BY_ADDRESS.fullmatch(line.text)
    return Listed(name_in(found[1], line.place), told(found[2]), told(found[3]), line.place) if found else None


def bookies_by_shell(lines: List[Line], kind: str) -> List[Listed]:
    """Returns what `listbookies` printed, as it does for `rw`, `ro` or `all`."""
    listed = []
    for line in lines:
        if line.text in HEADINGS.values():
            if line.text != HEADINGS[kind]:
                raise Fault(f"{line.place}: `{line.text}` stands above a list that was named --bookies-{kind}")
        elif line.text != NO_BOOKIE:
            listed.append(listed_by_id(line) or listed_by_address(line) or unknown(line, "a list of bookies"))
    if not listed and lines[-1].text != NO_BOOKIE:
        raise Fault(f"{lines[-1].place}: no bookie follows, as if the dump was cut")
    return listed


def bookies_by_admin(dump: Dump) -> List[Listed]:
    """Returns what `list_bookies` answered: the bookies with their hostnames, or null."""
    listed = []
    for name, host, place in read_object(dump):
        if not (host is None or isinstance(host, str) and re.fullmatch(r"\S*", host)):
            raise Fault(f"{place}: a list of bookies has names with a hostname or null")
        listed.append(Listed(name_in(name, place), None, told(host), place))
    return listed


def read_bookies(file: str, kind: str, passed: Passed) -> List[Listed]:
    """Returns the bookies of a list, whichever form it has. An error that is logged in it is a fault."""
    dump = open_dump(file)
    judged = without_errors(passed, "the list of bookies")
    return bookies_by_admin(dump) if dump.is_json() else bookies_by_shell(some_lines(dump, LISTED, judged), kind)


def metadata_of(fields: Dict[str, str], sizes: List[str], fragments: Any, place: str) -> Metadata:
    """Returns the metadata that these fields tell, with its sizes under these names."""
    state = fields.get("state")
    if state not in STATES:
        raise Fault(f"{place}: the state is none of {', '.join(sorted(STATES))}, or missing")
    last, length = None, None
    if state == "CLOSED":
        last = number_in(fields.get("lastEntryId"), "lastEntryId", place)
        length = number_in(fields["length"], "length", place) if "length" in fields else None
    ensemble, write, ack = (number_in(fields.get(name), name, place) for name in sizes)
    return Metadata(state, last, (ensemble, write, ack), tuple(fragments), length)


def single_fields(members: Iterable[Tuple[str, str, str]], known: Set[str]) -> Dict[str, str]:
    """Returns fields that may come once each, and are known."""
    fields: Dict[str, str] = {}
    for name, value, place in members:
        if name not in known or name in fields:
            raise Fault(f"{place}: {STRANGE_FIELD}")
        fields[name] = value
    return fields


def fragments_by_shell(text: str, place: str) -> List[Tuple[int, Tuple[str, ...]]]:
    """Returns the fragments of a text `0=[bk1:3181, bk2:3181], 100=[bk2:3181, bk3:3181]`."""
    fragments = []
    for part in text[:-1].split("], ") if text else []:
        found = FRAGMENT.fullmatch(part)
        if not (found and text.endswith("]")):
            raise Fault(f"{place}: the ensembles can't be read")
        members = tuple(found[2].split(", "))
        for name in members:
            if not is_name(name):
                name_in(name, place)
        fragments.append((int(found[1]), members))
    return fragments


def metadata_by_shell(line: Line) -> Metadata:
    """Returns the metadata of a text `LedgerMetadata{formatVersion=3, ..}`."""
    found = METADATA.fullmatch(line.text.strip())
    if not found:
        raise Fault(f"{line.place}: this is no whole metadata of a ledger, as if the dump was cut")
    pairs = [pair.partition("=") for pair in found[1].split(", ")]
    fields = {name: value for name, _, value in pairs}
    if len(fields) < len(pairs) or not FIELDS.issuperset(fields):
        raise Fault(f"{line.place}: {STRANGE_FIELD}")
    return metadata_of(fields, SIZES, fragments_by_shell(found[2], line.place), line.place)


def znode_pairs(lines: List[Line]) -> List[Tuple[str, str, str]]:
    """Returns the fields of a ledger's znode, each with its block's name before it, and where it stands.

    A block's begin is a field too; the facts of a znode, as `dataVersion = 1`, have `stat` before them.
    """
    block, pairs = "", []
    for line in lines:
        text = line.text.strip()
        begin = re.fullmatch(r"(\w+) \{", text)
        field = re.fullmatch(r"(\w+): (.*)", text)
        fact = re.fullmatch(r"(\w+) = (.*)", text)
        if begin and not block and begin[1] in ZNODE_BLOCKS:
            block = begin[1]
            pairs.append((block, "", line.place))
        elif block and text == "}":
            block = ""
        elif block and field and field[1] in ZNODE_BLOCKS[block]:
            pairs.append((f"{block}.{field[1]}", field[2], line.place))
        elif not block and field and field[1] in ZNODE_FIELDS | set(ZNODE_SIZES):
            pairs.append((field[1], field[2], line.place))
        elif not block and fact and fact[1] in ZNODE_FACTS:
            pairs.append((f"stat.{fact[1]}", fact[2], line.place))
        else:
            unknown(line, "a ledger's znode")
    if block:
        raise Fault(f"{lines[-1].place}: a block has no end, as if the dump was cut")
    return pairs


def znode_fragments(pairs: List[Tuple[str, str, str]]) -> List[Tuple[int, Tuple[str, ...]]]:
    """Returns the segments of a ledger's znode."""
    segments: List[Tuple[List[int], List[str], str]] = []
    for name, value, place in pairs:
        if name == "segment":
            segments.append(([], [], place))
        elif name == "segment.firstEntryId":
            segments[-1][0].append(number_in(value, "firstEntryId", place))
        elif name == "segment.ensembleMember":
            segments[-1][1].append(name_in(value[1:-1] if re.fullmatch('".*"', value) else "", place))
    for firsts, _, place in segments:
        if len(firsts) != 1:
            raise Fault(f"{place}: a segment has no firstEntryId, or two")
    return [(firsts[0], tuple(members)) for firsts, members, _ in segments]


def metadata_by_znode(lines: List[Line]) -> Tuple[Metadata, Optional[int]]:
    """Returns the metadata and the version of a ledger's znode in the text form, `BookieMetadataFormatVersion 2`."""
    heading = ZNODE_HEADING.fullmatch(lines[0].text)
    if not heading or heading[1] != "2":
        raise Fault(f"{lines[0].place}: only znodes of BookieMetadataFormatVersion 2 are text that can be read")
    pairs = znode_pairs(lines[1:])
    place = lines[-1].place
    single = [pair for pair in pairs if pair[0].split(".")[0] not in ZNODE_BLOCKS]
    known = ZNODE_FIELDS | set(ZNODE_SIZES) | {f"stat.{name}" for name in ZNODE_FACTS}
    fields = single_fields(single, known)
    fields.setdefault("ackQuorumSize", fields.get("quorumSize", ""))
    version = fields.get("stat.dataVersion")
    metadata = metadata_of(fields, ZNODE_SIZES, znode_fragments(pairs), place)
    return metadata, None if version is None else number_in(version, "dataVersion", place)


def ledger_by_text(number: int, lines: List[Line]) -> Ledger:
    """Returns a ledger by its metadata alone: as the shell prints it, or of its znode."""
    if len(lines) == 1 and lines[0].text.lstrip().startswith("LedgerMetadata"):
        return Ledger(number, metadata_by_shell(lines[0]), None, lines[0].place)
    metadata, version = metadata_by_znode(lines)
    return Ledger(number, metadata, version, lines[0].place)


def ledgers_by_shell(lines: Iterable[Line], file: str) -> Iterator[Ledger]:
    """Yields what `listledgers -m` or `ledgermetadata` printed: a line `ledgerID: 7`, and the metadata after it."""
    number, place = None, f"{file}:1"
    for line in lines:
        place = line.place
        heading = LEDGER_HEADING.fullmatch(line.text)
        if heading and number is None:
            number = int(heading[1])
        elif number is not None and line.text.lstrip().startswith("LedgerMetadata"):
            yield Ledger(number, metadata_by_shell(line), None, place)
            number = None
        elif heading:
            raise Fault(f"{place}: the ledger before has no metadata: list the ledgers with -m")
        else:
            unknown(line, "a list of ledgers")
    if number is not None:
        raise Fault(f"{place}: no metadata follows: list the ledgers with -m, or the dump was cut")
    if place == f"{file}:1":
        raise Fault(f"{place}: no ledger stands here")


def ledgers_by_admin(dump: Dump) -> Iterator[Ledger]:
    """Yields what `ledger/list` or `ledger/metadata` answered: the ledgers' metadata, as text."""
    for key, value, place in read_object(dump):
        lines = [Line(place, line) for line in value.splitlines()] if isinstance(value, str) else []
        if not lines:
            raise Fault(f"{place}: the metadata is no text: ask with print_metadata=true, without decode_meta")
        yield ledger_by_text(number_in(key, "the ledger's id", place), lines)


def without_errors(passed: Passed, what: str, allowed: Optional[Pattern[str]] = None) -> Passed:
    """Returns what passes lines over, but no error that is logged, unless such an error is allowed."""

    def judged(line: Line) -> None:
        if line.level in ERRORS and not (allowed and allowed.match(line.text)):
            raise Fault(f"{line.place}: an error is logged here, so {what} may be cut")
        passed(line)

    return judged


def read_ledgers(file: str, passed: Passed) -> Iterator[Ledger]:
    """Yields the ledgers of a list, whichever form it has. An error in it is a fault, unless it is of a single ledger."""
    dump = open_dump(file)
    judged = without_errors(passed, "the list of ledgers", UNREAD)
    return ledgers_by_admin(dump) if dump.is_json() else ledgers_by_shell(data_lines(dump, LEDGERS, judged), file)


def read_metadata(word: str, passed: Passed) -> Ledger:
    """Returns the ledger of a word `ID=FILE`."""
    number, file = part_word(word)
    ledger = number_in(number, f"the id of `{word}`", "--metadata")
    return ledger_by_text(ledger, some_lines(open_dump(file), ZNODE, passed))


def part_word(word: str) -> Tuple[str, str]:
    """Returns what stands before and after the first `=` of a word."""
    before, equals, file = word.partition("=")
    if not (before and file):
        raise Fault(f"`{word}`: a name, `=` and a file are expected")
    return before, file


def entries_indexed(lines: Iterable[Line], named: Optional[int]) -> Dict[int, Entries]:
    """Returns the entries by ledger of what `ledger` printed of an index. A heading or a word names the ledger."""
    indexes: Dict[int, Index] = {} if named is None else {named: Index({}, {})}
    ledger = named
    for line in lines:
        heading = INDEX_HEADING.fullmatch(line.text)
        count = INDEX_COUNT.fullmatch(line.text)
        indexed = INDEXED.fullmatch(line.text)
        if heading:
            ledger = ledger_in(heading[1], named, line)
            indexes.setdefault(ledger, Index({}, {}))
        elif (count or indexed) and ledger is None:
            raise Fault(f"{line.place}: name the ledger, as BOOKIE/LEDGER=FILE")
        elif count and ledger is not None:
            indexes[ledger].counts[line.place] = number_in(count[1], "the number of entries", line.place)
        elif indexed and ledger is not None:
            entries, entry = indexes[ledger].entries, int(indexed[1])
            entries[entry] = indexed[2] != "N/A" or entries.get(entry, False)
        elif not INDEX_FACT.fullmatch(line.text):
            unknown(line, "an index")
    return {ledger: told_by(index) for ledger, index in indexes.items()}


def told_by(index: Index) -> Entries:
    """Returns what an index tells. If it says how many entries it has, each needs a line. Without any it tells nothing."""
    for place, count in index.counts.items():
        absent = next((entry for entry in range(count) if entry not in index.entries), None)
        if absent is not None:
            raise Fault(f"{place}: it says {count} entries, and entry {absent} isn't listed, as if the dump was cut")
    held = frozenset(entry for entry, is_there in index.entries.items() if is_there)
    return Entries(held, None if index.entries or 0 in index.counts.values() else frozenset())


def entries_read(lines: Iterable[Line], named: Optional[int], passed: Passed) -> Dict[int, Entries]:
    """Returns the entries by ledger that `readledger` could read from one bookie, and those that it asked for.

    A line of an entry that isn't there doesn't name its ledger. A word does, or the error that follows it.
    """
    entries: Dict[int, Dict[int, bool]] = {} if named is None else {named: {}}
    missed: Dict[int, str] = {}
    for line in lines:
        read, failed, error = (form.fullmatch(line.text) for form in [ENTRY_READ, NOT_READ, READ_ERROR])
        if not (read or failed or error):
            unknown(line, "what readledger prints")
        if not error:
            need_ledger(missed)
        if read:
            entries.setdefault(ledger_in(read[1], named, line), {})[int(read[2])] = True
        elif error:
            of_ledger = entries.setdefault(ledger_in(error[1], named, line), {})
            of_ledger.update({entry: of_ledger.get(entry, False) for entry in missed})
            missed = {}
        elif failed and not NOT_THERE.fullmatch(failed[2]):
            pass_failure(line, passed)
        elif failed and named is None:
            missed = {int(failed[1]): line.place}
        elif failed and named is not None:
            entries[named].setdefault(int(failed[1]), False)
    need_ledger(missed)
    return {ledger: Entries(frozenset(it for it in asked if asked[it]), frozenset(asked)) for ledger, asked in entries.items()}


def need_ledger(missed: Dict[int, str]) -> None:
    """Judges that there is no entry that a bookie lacks, by its place, of which nothing names the ledger."""
    for place in missed.values():
        raise Fault(f"{place}: no line names this entry's ledger: if the dump is of one alone, name it, as BOOKIE/LEDGER=FILE")


def pass_failure(line: Line, passed: Passed) -> None:
    """Passes a read over that failed, if it is logged. It tells nothing of what the bookie holds."""
    if not line.level:
        raise Fault(f"{line.place}: the read failed, so it isn't known whether the bookie holds the entry")
    passed(line)


def ledger_in(text: str, named: Optional[int], line: Line) -> int:
    """Returns the ledger that a line names."""
    if named not in (None, int(text)):
        raise Fault(f"{line.place}: this is of ledger {int(text)}, and ledger {named} was named")
    return int(text)


def read_holdings(
    word: str, data: Pattern[str], entries_of: Callable[[Iterable[Line], Optional[int]], Dict[int, Entries]], passed: Passed
) -> List[Holding]:
    """Returns what the bookie of a word `BOOKIE=FILE` or `BOOKIE/LEDGER=FILE` holds, by a dump of this form.

    A dump that has nothing but lines that are passed over tells nothing of the ledger that is named.
    """
    before, file = part_word(word)
    bookie, slash, number = before.partition("/")
    named = number_in(number, f"the ledger of `{before}=`", "the command line") if slash else None
    lines = data_lines(open_dump(file), data, passed)
    first = next(lines, None)
    if first is None and named is not None:
        return [Holding(bookie, named, frozenset(), frozenset(), f"{file}:1")]
    entries = {} if first is None else entries_of(chain([first], lines), named)
    place = f"{file}:1" if first is None else first.place
    if not entries:
        raise Fault(f"{place}: no entry of any ledger stands here: name the ledger, as BOOKIE/LEDGER=FILE")
    return [Holding(bookie, ledger, held, asked, place) for ledger, (held, asked) in entries.items()]


def read_index(word: str, passed: Passed) -> List[Holding]:
    """Returns what `ledger` printed on a bookie's host. If an error is logged in it, it may be cut, unless it tells nothing."""
    errors: List[str] = []

    def noticed(line: Line) -> None:
        if line.level in ERRORS:
            errors.append(line.place)
        passed(line)

    holdings = read_holdings(word, INDEX, entries_indexed, noticed)
    if errors and any(holding.told is None for holding in holdings):
        raise Fault(f"{errors[0]}: an error is logged here, so the index may be cut")
    return holdings


def read_entries(word: str, passed: Passed) -> List[Holding]:
    """Returns what `readledger` printed for a bookie."""
    return read_holdings(word, READ, lambda lines, named: entries_read(lines, named, passed), passed)


def missing_by_shell(lines: Iterable[Line]) -> Dict[int, Set[str]]:
    """Returns what `listunderreplicated -printmissingreplica` printed: the ledgers with a task, and what they miss."""
    missing: Dict[int, Set[str]] = {}
    ledger = None
    for line in lines:
        task, fact = TASK.fullmatch(line.text), TASK_FACT.fullmatch(line.text)
        if task:
            ledger = int(task[1])
            missing.setdefault(ledger, set())
        elif not fact or ledger is None:
            unknown(line, "a list of under-replicated ledgers")
        elif fact[1] == "MissingReplica":
            missing[ledger].add(name_in(fact[2], line.place))
    return missing


def missing_by_admin(dump: Dump) -> Dict[int, Set[str]]:
    """Returns what `list_under_replicated_ledger?printmissingreplica=true` answered: the replicas by their ledgers."""
    missing = {}
    for key, names, place in read_object(dump):
        if not (isinstance(names, list) and all(isinstance(name, str) for name in names)):
            raise Fault(f"{place}: the missing replicas aren't a list of names: ask with printmissingreplica=true")
        missing[number_in(key, "the ledger's id", place)] = {name_in(name, place) for name in names}
    return missing


def read_missing(file: str, passed: Passed) -> Dict[int, Set[str]]:
    """Returns the ledgers of a list of those that have a task, with the replicas that it names missing."""
    dump = open_dump(file)
    judged = without_errors(passed, "the list of tasks")
    return missing_by_admin(dump) if dump.is_json() else missing_by_shell(data_lines(dump, TASKS, judged))


def compare_facts(listed: Iterable[Listed]) -> None:
    """Judges whether all lists tell a bookie's address and host alike."""
    facts: Dict[Tuple[str, str], Tuple[str, str]] = {}
    for bookie in listed:
        for what, value in [("address", bookie.address), ("hostname", bookie.host)]:
            if value is None:
                continue
            before, place = facts.setdefault((bookie.name, what), (value, bookie.place))
            if before != value:
                raise Fault(f"{bookie.place}: {bookie.name} has another {what} than at {place}, as of two clusters")


def bookies_in(lists: List[List[Listed]]) -> Dict[str, str]:
    """Returns where each bookie stands, in lists of one kind that have to tell the same."""
    listed = [{bookie.name: bookie.place for bookie in each} for each in lists]
    for other in listed[1:]:
        for name in sorted(set(listed[0]) ^ set(other), key=by_name):
            place = listed[0].get(name) or other.get(name)
            raise Fault(f"{place}: {name} stands here, and not in the other list of these bookies")
    return listed[0] if listed else {}


def registered_by(files: Dict[str, List[str]], passed: Passed) -> Bookies:
    """Returns the bookies of all lists, and whether they are registered: read-write or read-only."""
    lists = {kind: [read_bookies(file, kind, passed) for file in files[kind]] for kind in files}
    compare_facts(bookie for kind in lists for each in lists[kind] for bookie in each)
    writing, reading, known = (bookies_in(lists[kind]) for kind in ["rw", "ro", "all"])
    for name in sorted(set(writing) & set(reading), key=by_name):
        raise Fault(f"{reading[name]}: {name} is read-only here, and read-write at {writing[name]}")
    for name, place in sorted({**writing, **reading}.items()):
        if lists["all"] and name not in known:
            raise Fault(f"{place}: {name} is registered here, and not in the list of all bookies")
    return {name: Shown(name in writing or name in reading, name in reading) for name in {**writing, **reading, **known}}


def configured(file: str, fields: Set[str]) -> Dict[str, int]:
    """Returns those of these fields that `server_config` has, which are numbers."""
    members = [member for member in read_object(open_dump(file)) if member.key in fields]
    return {key: number_in(str(value), key, place) for key, value, place in members}


def merged_ledgers(ledgers: Iterable[Ledger]) -> Dict[int, Ledger]:
    """Returns the ledgers by their ids. Where several dumps have one, they have to tell the same."""
    merged: Dict[int, Ledger] = {}
    for ledger in ledgers:
        before = merged.setdefault(ledger.id, ledger)
        versions = {before.version, ledger.version} - {None}
        if before.metadata != ledger.metadata or len(versions) > 1:
            raise Fault(
                f"{ledger.place}: ledger {ledger.id} is another than at {before.place}, as of two clusters or times"
            )
        merged[ledger.id] = before if before.version is not None else ledger
    return merged


def members_of(ledger: Ledger) -> Set[str]:
    """Returns all bookies of a ledger's ensembles."""
    return {name for _, members in ledger.metadata.fragments for name in members}


def ranges_of(entries: Iterable[int]) -> List[Range]:
    """Returns entries as ranges."""
    ranges: List[Range] = []
    for entry in sorted(entries):
        first = ranges.pop()[0] if ranges and ranges[-1][1] + 1 == entry else entry
        ranges.append((first, entry))
    return ranges


def compact(value: Any) -> str:
    """Returns a value as a line of JSON."""
    return json.dumps(value, separators=(",", ":"))
