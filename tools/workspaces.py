"""Crates beside a copy of those that they use: how the tests of tests/calls and the programs of bench/ are tried and built.

A file with Rattle's ending stands only in a crate of crates.txt. So the tests and these programs have other endings, and a
workspace in a temporary folder makes crates of them.
"""

import contextlib
import os
import shutil
import subprocess
import threading
from pathlib import Path
from typing import Dict, List, Optional, Sequence

TOP = Path(__file__).resolve().parent.parent
# In seconds: how often a trial's folder is looked through for what it builds.
PAUSE = 0.1


def name_of(line: str) -> Optional[str]:
    """Returns the crate that a line of crates.txt names, if it names one. Options may stand between name and colon."""
    words, colon, _ = line.split("#")[0].partition(":")
    return words.split()[0] if colon else None


def crates_below(uses: Sequence[str]) -> List[str]:
    """Returns the repository's crates among these, with all that they stand on."""
    lines = (TOP / "crates.txt").read_text().splitlines()
    below = {name_of(line): line.split("#")[0].partition(":")[2].split() for line in lines if name_of(line)}
    found: List[str] = []
    more = list(uses)
    while more:
        name = more.pop()
        if name in below and name not in found:
            found.append(name)
            more += below[name]
    return found


def make_workspace(top: Path, name: str, uses: Sequence[str], options: str, sources: Dict[str, str], with_kept: bool) -> Path:
    """Makes a crate with these sources beside a copy of the crates that it uses, and returns its folder.

    With `with_kept` the copies have what earlier checks kept of them.
    """
    found = crates_below(uses)
    ignored = None if with_kept else shutil.ignore_patterns("out")
    for crate in found:
        shutil.copytree(TOP / "crates" / crate, top / "crates" / crate, ignore=ignored)
    lines = (TOP / "crates.txt").read_text().splitlines()
    kept = [line for line in lines if name_of(line) in found]
    (top / "crates.txt").write_text("\n".join([*kept, f"{name}{options}: {' '.join(uses)}", ""]))
    shutil.copy(TOP / "HANDLES", top)
    folder = top / "crates" / name
    (folder / "src").mkdir(parents=True)
    for file, text in sources.items():
        place = folder / "src" / file
        place.parent.mkdir(exist_ok=True)
        place.write_text(text)
    return folder


class Keeper(threading.Thread):
    """Links the largest file of each of these names that a trial makes, since the trial throws all away when it ends."""

    def __init__(self, room: Path, kept: Dict[str, Path]) -> None:
        super().__init__(daemon=True)
        self.room = room
        self.kept = kept
        self.has_ended = threading.Event()

    def run(self) -> None:
        while not self.has_ended.wait(PAUSE):
            for name, place in self.kept.items():
                for file in self.room.glob(f"*/*/{name}"):
                    with contextlib.suppress(FileNotFoundError):
                        self.link(file, place)

    def link(self, file: Path, place: Path) -> None:
        if place.exists():
            if file.samefile(place) or file.stat().st_size <= place.stat().st_size:
                return
            place.unlink()
        os.link(file, place)


def try_crate(folder: Path, room: Path, kept: Dict[str, Path], words: Sequence[str]) -> "subprocess.CompletedProcess[str]":
    """Tries a crate without any proof, in a room of its own, and keeps files that the trial builds on the way.

    The words stand after `rt try`: `--test` runs its tests, and after `--` a program's arguments stand.
    """
    keeper = Keeper(room, kept)
    keeper.start()
    tried = subprocess.run(
        ["rt", "try", *words],
        cwd=folder,
        env={**os.environ, "TMPDIR": str(room)},
        stdin=subprocess.DEVNULL,
        stdout=subprocess.PIPE,
        stderr=subprocess.STDOUT,
        encoding="utf-8",
        errors="backslashreplace",
    )
    keeper.has_ended.set()
    keeper.join()
    return tried
