"""What reads a cluster of BookKeeper out of ZooKeeper, by the client of Debian's package python3-kazoo.

It only reads. Many requests are in flight at once. A fault has the path, and never what stands there, as a ledger's
metadata has its password.
"""

import contextlib
import logging
import re
import sys
from collections import deque
from typing import Any, Callable, Deque, Dict, Iterable, Iterator, List, NamedTuple, Optional, Pattern, Set, Tuple, Union

from dumps import ZNODE_SIZES, Bookies, Fault, Ledger, Line, Metadata, Shown, Unread, metadata_by_znode, metadata_of, name_in

ROOT = "/ledgers"
# How BookKeeper's `metadataServiceUri` begins. It has semicolons between the servers.
SERVICE = re.compile(r"^zk(\+[a-z]+)?://")
# Where Debian's modules of Python are. This one is Python alone, so that another python3 can use it.
DEBIAN_MODULES = "/usr/lib/python3/dist-packages"
NO_CLIENT = "ZooKeeper's client isn't there: apt-get install python3-kazoo"
# How long an answer is waited for, and how many are: a list of children may have thousands of names.
MAX_SECONDS = 10
MAX_LISTS = 32
MAX_READS = 512

# What managers of ledgers make of a ledger's id: a path of digits, of 10 or 19 together, or a name alone.
MANAGERS = {f"{kind}LedgerManagerFactory" for kind in ["Hierarchical", "LegacyHierarchical", "LongHierarchical", "Flat"]}
LEDGER, LEDGER_BRANCH = re.compile("L[0-9]{4,}"), re.compile("[0-9]{2,4}")
TASK, TASK_BRANCH = re.compile("urL[0-9]+"), re.compile("[0-9a-f]{4}")
REPLICA = re.compile(r'^\s*replica: "([^"]*)"', re.MULTILINE)

# The numbers of `LedgerMetadataFormat`: its single fields of numbers, its state and the states, a segment and its fields.
NUMBERS = {1: "quorumSize", 2: "ensembleSize", 3: "length", 4: "lastEntryId", 9: "ackQuorumSize"}
STATE, STATES = 5, {1: "OPEN", 2: "IN_RECOVERY", 3: "CLOSED"}
SEGMENT, MEMBER, FIRST_ENTRY = 6, 1, 2


class Shape(NamedTuple):
    """What ZooKeeper has of a cluster beside its ledgers.

    The delay for lost bookies is in seconds. A ledger that has a task has the replicas that are named missing, or none.
    """

    bookies: Bookies
    racks: Optional[bytes]
    delay: Optional[int]
    missing: Dict[int, Set[str]]
    is_disabled: bool


def varint(data: bytes, at: int) -> Tuple[int, int]:
    """Returns the number that stands here, seven bits a byte, the lowest first, and where it ends."""
    value, shift = 0, 0
    while data[at] & 0x80:
        value |= (data[at] & 0x7F) << shift
        at, shift = at + 1, shift + 7
    return value | data[at] << shift, at + 1


def fields_of(data: bytes) -> Iterator[Tuple[int, Union[int, bytes]]]:
    """Yields the fields of a message of protobuf: their numbers, with a number or bytes."""
    at = 0
    while at < len(data):
        key, at = varint(data, at)
        value, size = None, {1: 8, 5: 4}.get(key & 7, 0)
        if key & 7 == 0:
            value, at = varint(data, at)
        elif key & 7 == 2:
            size, at = varint(data, at)
        elif not size:
            raise ValueError
        if at + size > len(data):
            raise ValueError
        yield key >> 3, data[at : at + size] if value is None else value
        at += size


def signed(value: Union[int, bytes]) -> int:
    """Returns a number of 64 bits with its sign."""
    if isinstance(value, bytes):
        raise ValueError
    return value - (1 << 64) if value >> 63 else value


def segment_of(data: Union[int, bytes]) -> Tuple[int, Tuple[str, ...]]:
    """Returns a fragment: its first entry, and its ensemble."""
    if isinstance(data, int):
        raise ValueError
    fields = list(fields_of(data))
    [first] = [signed(value) for number, value in fields if number == FIRST_ENTRY]
    return first, tuple(value.decode() for number, value in fields if number == MEMBER and isinstance(value, bytes))


def metadata_by_protobuf(data: bytes, place: str) -> Metadata:
    """Returns the metadata of a `LedgerMetadataFormat` that stands behind its length."""
    try:
        size, at = varint(data, 0)
        if at + size != len(data):
            raise ValueError
        fields = list(fields_of(data[at:]))
        texts = {NUMBERS[number]: str(signed(value)) for number, value in fields if number in NUMBERS}
        states = [STATES.get(signed(value), "") for number, value in fields if number == STATE]
        fragments = [segment_of(value) for number, value in fields if number == SEGMENT]
    except (ValueError, IndexError):
        raise Fault(f"{place}: this is no whole metadata of a ledger")
    for _, members in fragments:
        for name in members:
            name_in(name, place)
    texts.update({"state": state for state in states})
    texts.setdefault("ackQuorumSize", texts.get("quorumSize", ""))
    return metadata_of(texts, ZNODE_SIZES, fragments, place)


def metadata_in(data: bytes, place: str) -> Metadata:
    """Returns the metadata of a ledger's znode: behind its heading protobuf's bytes or protobuf's text."""
    heading, _, rest = data.partition(b"\n")
    if heading == b"BookieMetadataFormatVersion\t3":
        return metadata_by_protobuf(rest, place)
    try:
        lines = [Line(place, line) for line in data.decode().split("\n") if line.strip()]
    except UnicodeDecodeError:
        raise Fault(f"{place}: this is no text")
    if not lines:
        raise Fault(f"{place}: nothing stands here")
    return metadata_by_znode(lines)[0]


class Server:
    """A server, or several, that answer what stands at paths."""

    def __init__(self, client: Any, exceptions: Any, hosts: str) -> None:
        self.client = client
        self.exceptions = exceptions
        self.hosts = hosts

    def answer(self, path: str, asked: Any) -> Any:
        """Returns what was answered, or None where nothing stands at the path (any more)."""
        try:
            return asked.get(timeout=MAX_SECONDS)
        except self.exceptions.NoNodeError:
            return None
        except self.exceptions.NoAuthError:
            raise Fault(f"{path}: ZooKeeper doesn't allow to read this")
        except (self.exceptions.KazooException, self.client.handler.timeout_exception):
            raise Fault(f"{self.hosts}: ZooKeeper doesn't answer any more")

    def answers(self, ask: Callable[[str], Any], paths: Iterable[str], most: int) -> Iterator[Tuple[str, Any]]:
        """Yields the answer for each path, in their order, with so many requests in flight at most."""
        asked: Deque[Tuple[str, Any]] = deque()
        for path in paths:
            asked.append((path, ask(path)))
            if len(asked) == most:
                path, first = asked.popleft()
                yield path, self.answer(path, first)
        for path, last in asked:
            yield path, self.answer(path, last)

    def read(self, paths: Iterable[str]) -> Iterator[Tuple[str, Optional[Tuple[bytes, Any]]]]:
        """Yields the paths with what stands there: its data, and the znode's facts."""
        return self.answers(self.client.get_async, paths, MAX_READS)

    def data(self, path: str) -> Optional[bytes]:
        """Returns the data at a path, if there is a znode."""
        [(_, found)] = self.read([path])
        return found and found[0]

    def children(self, *paths: str) -> Iterator[str]:
        """Yields the paths of all znodes right below these."""
        for path, names in self.answers(self.client.get_children_async, paths, MAX_LISTS):
            for name in names or []:
                yield f"{path}/{name}"

    def names(self, path: str) -> List[str]:
        """Returns the names of the bookies right below a path."""
        return [name_in(child.rpartition("/")[2], path) for child in self.children(path)]

    def below(self, paths: Iterable[str], leaf: Pattern[str], branch: Pattern[str]) -> Iterator[str]:
        """Yields the paths of all leaves below these, however deep."""
        branches = []
        for path in self.children(*paths):
            name = path.rpartition("/")[2]
            if leaf.fullmatch(name):
                yield path
            elif branch.fullmatch(name):
                branches.append(path)
        if branches:
            yield from self.below(branches, leaf, branch)


class Cluster:
    """A cluster as ZooKeeper has it, below the root of its ledgers."""

    def __init__(self, server: Server, root: str) -> None:
        self.server = server
        self.root = root
        # Under Pulsar the racks stand beside the root of the ledgers.
        self.racks = f"{root.rpartition('/')[0]}/bookies"
        self.judge_layout()

    def judge_layout(self) -> None:
        """Judges whether the ledgers stand in a way that is known."""
        layout = self.server.data(f"{self.root}/LAYOUT")
        if layout is None:
            raise Fault(f"{self.root}/LAYOUT: nothing is there, so this is no root of ledgers: HOST:PORT/ROOT names it")
        manager = re.match(rb"[0-9]+\s+(?:[\w$]+\.)*(\w+)", layout)
        if not manager or manager[1].decode() not in MANAGERS:
            raise Fault(f"{self.root}/LAYOUT: this manager of ledgers isn't known")

    def bookies(self) -> Bookies:
        """Returns all bookies that are registered or have a cookie. One that is becoming read-only is read-only."""
        reading = set(self.server.names(f"{self.root}/available/readonly"))
        writing = set(self.server.names(f"{self.root}/available")) - {"readonly"} - reading
        cookies = set(self.server.names(f"{self.root}/cookies"))
        up = {name: Shown(True, name in reading) for name in reading | writing}
        return {**{name: Shown(False) for name in cookies}, **up}

    def missing(self) -> Dict[int, Set[str]]:
        """Returns the replicas that are named missing, by the ledgers that have a task."""
        tasks = self.server.below([f"{self.root}/underreplication/ledgers"], TASK, TASK_BRANCH)
        found = ((path, answer) for path, answer in self.server.read(tasks) if answer is not None)
        return {
            int(path.rpartition("urL")[2]): set(REPLICA.findall(data.decode("utf-8", "replace")))
            for path, (data, _) in found
        }

    def shape(self) -> Shape:
        """Returns all but the ledgers."""
        delay = self.server.data(f"{self.root}/underreplication/lostBookieRecoveryDelay")
        if delay is not None and not re.fullmatch(rb"[0-9]{1,10}", delay):
            raise Fault(f"{self.root}/underreplication/lostBookieRecoveryDelay: this is no number of seconds")
        return Shape(
            self.bookies(),
            self.server.data(self.racks),
            None if delay is None else int(delay),
            self.missing(),
            self.server.data(f"{self.root}/underreplication/disable") is not None,
        )

    def ledgers(self) -> Iterator[Union[Ledger, Unread]]:
        """Yields the ledgers, but for those that go away meanwhile."""
        for path, found in self.server.read(self.server.below([self.root], LEDGER, LEDGER_BRANCH)):
            if found is None:
                continue
            number = int("".join(re.findall("[0-9]+", path[len(self.root) :])))
            try:
                yield Ledger(number, metadata_in(found[0], path), found[1].version, path)
            except Fault as fault:
                yield Unread(number, str(fault))


def split_address(address: str) -> Tuple[str, str]:
    """Returns the servers and the root of `HOST:PORT,HOST:PORT/ROOT`, or of a `metadataServiceUri`."""
    hosts, _, root = SERVICE.sub("", address).partition("/")
    return hosts.replace(";", ","), f"/{root.strip('/')}" if root.strip("/") else ROOT


@contextlib.contextmanager
def open_cluster(address: str) -> Iterator[Cluster]:
    """Connects to the servers of an address (see `split_address`), and ends that at last."""
    hosts, root = split_address(address)
    sys.path.append(DEBIAN_MODULES)
    try:
        import kazoo.client
        import kazoo.exceptions
    except ImportError:
        raise Fault(NO_CLIENT)
    # What a fault says isn't said by the client, too; and it doesn't connect again, as its requests are lost then.
    quiet = logging.getLogger("kazoo")
    quiet.addHandler(logging.NullHandler())
    quiet.propagate = False
    try:
        client = kazoo.client.KazooClient(hosts=hosts, timeout=MAX_SECONDS, connection_retry={"max_tries": 0})
    except ValueError:
        raise Fault(f"{address}: this is no HOST:PORT,HOST:PORT/ROOT")
    try:
        client.start(timeout=MAX_SECONDS)
    except client.handler.timeout_exception:
        raise Fault(f"{hosts}: no ZooKeeper answers")
    try:
        yield Cluster(Server(client, kazoo.exceptions, hosts), root)
    finally:
        client.stop()
        client.close()
