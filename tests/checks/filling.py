"""A ZooKeeper server of Debian's, on loopback and in a folder of its own, and the znodes of a cluster that it is filled with.

Who imports it sets `sys.dont_write_bytecode` first, and has the folder tools/ on its path.
"""

import importlib.util
import os
import socket
import subprocess
import sys
import time
from typing import Any, Dict, Iterable, List, NamedTuple, Optional, Tuple

import zookeeper
from judging import install

PACKAGES = ["zookeeper", "python3-kazoo"]
SERVER = "/usr/share/java/zookeeper.jar"
SERVER_CLASS = "org.apache.zookeeper.server.ZooKeeperServerMain"
SECRET = "ledger-secret"
SECONDS = 60

HIERARCHICAL = "2\norg.apache.bookkeeper.meta.HierarchicalLedgerManagerFactory:1"
FLAT = "2\norg.apache.bookkeeper.meta.FlatLedgerManagerFactory:1"
UNKNOWN = "2\norg.apache.bookkeeper.meta.MSLedgerManagerFactory:1"

BOOKIES = [f"bk{number}:3181" for number in range(1, 13)]
READ_ONLY, GONE = ["bk10:3181"], ["bk11:3181", "bk12:3181"]


class Ledger(NamedTuple):
    """A ledger that is filled in: its id, state, last entry, sizes, fragments, how often it was changed, its znode's format."""

    id: int
    state: str
    last: int
    sizes: Tuple[int, int, int]
    fragments: List[Tuple[int, List[str]]]
    version: int
    form: int


def by_text(ledger: Ledger) -> bytes:
    """Returns a ledger's znode of format 2. An even ledger's ack quorum isn't told where it is the write quorum."""
    size, write, ack = ledger.sizes
    segments = [
        "segment {\n%s  firstEntryId: %d\n}\n" % ("".join(f'  ensembleMember: "{name}"\n' for name in members), first)
        for first, members in ledger.fragments
    ]
    last = ledger.last if ledger.state == "CLOSED" else -1
    told = "" if ack == write else f"ackQuorumSize: {ack}\n"
    return (
        f"BookieMetadataFormatVersion\t2\nquorumSize: {write}\nensembleSize: {size}\nlength: {ledger.id % 1000}\n"
        f"lastEntryId: {last}\nstate: {ledger.state}\n{''.join(segments)}digestType: CRC32C\n"
        f'password: "{SECRET}\\000"\n{told}ctime: 1715680800123\ncustomMetadata {{\n  key: "application"\n  value: "pulsar"\n}}\n'
    ).encode()


def varint(value: int) -> bytes:
    """Returns a number as protobuf has it."""
    value &= 2**64 - 1
    low = bytes([value & 127 | (128 if value > 127 else 0)])
    return low + varint(value >> 7) if value > 127 else low


def field(number: int, value: Any) -> bytes:
    """Returns a field as protobuf has it."""
    if isinstance(value, int):
        return varint(number << 3) + varint(value)
    data = value.encode() if isinstance(value, str) else value
    return varint(number << 3 | 2) + varint(len(data)) + data


def by_bytes(ledger: Ledger) -> bytes:
    """Returns a ledger's znode of format 3."""
    size, write, ack = ledger.sizes
    segments = [b"".join(field(1, name) for name in members) + field(2, first) for first, members in ledger.fragments]
    last = field(4, ledger.last) if ledger.state == "CLOSED" else b""
    state = {"OPEN": 1, "IN_RECOVERY": 2, "CLOSED": 3}[ledger.state]
    message = field(1, write) + field(2, size) + field(3, ledger.id % 1000) + last + field(5, state)
    message += b"".join(field(6, segment) for segment in segments) + field(7, 3) + field(8, SECRET)
    message += (b"" if ack == write else field(9, ack)) + field(10, 1715680800123) + field(12, -1)
    return b"BookieMetadataFormatVersion\t3\n" + varint(len(message)) + message


def path_of(number: int) -> str:
    """Returns the path of a ledger's znode, in the layout that its id has."""
    if number < 10**10:
        digits = f"{number:010}"
        return f"{digits[:2]}/{digits[2:6]}/L{digits[6:]}"
    digits = f"{number:019}"
    return f"{digits[:3]}/{digits[3:7]}/{digits[7:11]}/{digits[11:15]}/L{digits[15:]}"


def are_there() -> bool:
    """Whether the packages are there."""
    folder = os.path.join(zookeeper.DEBIAN_MODULES, "kazoo")
    return os.path.exists(SERVER) and (os.path.isdir(folder) or importlib.util.find_spec("kazoo") is not None)


def need_packages() -> Optional[str]:
    """Installs the packages where that is possible, and returns why this check is left out, if it is."""
    if not are_there():
        install(PACKAGES)
    return None if are_there() else f"apt-get install {' '.join(PACKAGES)}"


class Keeper:
    """A server of ZooKeeper, in a folder of its own."""

    def __init__(self, folder: str) -> None:
        with socket.create_server(("127.0.0.1", 0)) as it:
            self.port = it.getsockname()[1]
        config = os.path.join(folder, "zoo.cfg")
        with open(config, "w") as it:
            it.write(f"dataDir={folder}/data\nclientPort={self.port}\nclientPortAddress=127.0.0.1\n"
                     "admin.enableServer=false\nmaxClientCnxns=0\n")
        words = ["java", "-Xmx256m", "-Dzookeeper.jmx.log4j.disable=true", "-cp", SERVER, SERVER_CLASS, config]
        self.process = subprocess.Popen(words, cwd=folder, stdin=subprocess.DEVNULL,
                                        stdout=subprocess.DEVNULL, stderr=subprocess.DEVNULL)
        self.wait()

    def wait(self) -> None:
        """Waits until the server answers."""
        for _ in range(SECONDS * 10):
            try:
                with socket.create_connection(("127.0.0.1", self.port), 1) as it:
                    it.sendall(b"srvr")
                    if b"Mode" in it.recv(4096):
                        return
            except OSError:
                pass
            time.sleep(0.1)
        raise RuntimeError("the server doesn't answer")

    def end(self) -> None:
        """Ends the server."""
        self.process.kill()
        self.process.wait()


def client_of(keeper: Keeper) -> Any:
    """Returns a client that is connected to the server."""
    sys.path.append(zookeeper.DEBIAN_MODULES)
    import kazoo.client

    client = kazoo.client.KazooClient(hosts=f"127.0.0.1:{keeper.port}", timeout=SECONDS)
    client.start(timeout=SECONDS)
    return client


def znodes_of(ledgers: Iterable[Ledger]) -> Dict[str, Tuple[bytes, int]]:
    """Returns what stands at the paths of these ledgers, and how often it was changed."""
    return {path_of(it.id): (by_text(it) if it.form == 2 else by_bytes(it), it.version) for it in ledgers}


def fill(client: Any, root: str, layout: str, znodes: Dict[str, Tuple[bytes, int]]) -> None:
    """Fills in a cluster: its bookies, and these znodes below its root, each changed so often."""
    every = {"LAYOUT": (layout.encode(), 0), "INSTANCEID": (b"an id", 0), "idgen": (b"", 0)}
    every.update({f"cookies/{name}": (SECRET.encode(), 1) for name in BOOKIES})
    every.update(znodes)
    client.ensure_path(f"{root}/available/readonly")
    for name in set(BOOKIES) - set(GONE):
        client.create(f"{root}/available/{'readonly/' if name in READ_ONLY else ''}{name}", ephemeral=True)
    folders = {path.rpartition("/")[0] for path in every} | {"underreplication/locks"}
    for path in sorted(folders):
        client.ensure_path(f"{root}/{path}")
    waiting = [client.create_async(f"{root}/{path}", data) for path, (data, _) in every.items()]
    waiting += [client.set_async(f"{root}/{path}", data) for path, (data, count) in every.items() for _ in range(count)]
    for it in waiting:
        it.get(timeout=SECONDS)
