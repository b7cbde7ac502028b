"""What the checks of documents share. Each prints a line 'ok: NAME' or 'FAILED: NAME' for each thing that it judges.

Who imports it sets `sys.dont_write_bytecode` first: a folder of compiled modules in tests/checks/ would be taken for a check.
"""

import fcntl
import glob
import os
import re
import shutil
import subprocess
import sys
from typing import List, NamedTuple, Optional, Tuple

TOP = os.path.dirname(os.path.dirname(os.path.dirname(os.path.abspath(__file__))))
FENCE = re.compile(r"( *)(`{3,}|~{3,}) *(\S*).*")
FAILED: List[str] = []


class Block(NamedTuple):
    """A block of a document, with the line and the mark of its fence. An indented block has none."""

    number: int
    mark: Optional[str]
    lines: List[str]


class Document(NamedTuple):
    """A document by its name from the top: its numbered lines outside of fenced blocks, and its blocks."""

    name: str
    prose: List[Tuple[int, str]]
    blocks: List[Block]


def judge(name: str, wrong: List[str]) -> None:
    """One thing is judged: it passes where nothing is wrong with it, and what is wrong is printed."""
    print(f"FAILED: {name}" if wrong else f"ok: {name}")
    for line in wrong:
        print(f"    {line}")
    if wrong:
        FAILED.append(name)


def status() -> int:
    """Returns the status that a check ends with."""
    return 1 if FAILED else 0


def need_program() -> str:
    """Returns the path of the program, which is proved and built first, or only compiled, where UNPROVED is set."""
    rehearse = os.path.join(TOP, "rehearse")
    if not os.environ.get("UNPROVED") and subprocess.run([rehearse, "--prove"]).returncode != 0:
        sys.exit(1)
    return subprocess.run([rehearse, "--program"], stdout=subprocess.PIPE, text=True, check=True).stdout.strip()


def install(packages: List[str]) -> None:
    """Installs packages of Debian where that is possible, while no other check installs any."""
    if os.geteuid() != 0 or not shutil.which("apt-get"):
        return
    with open(__file__, "rb") as it:
        fcntl.flock(it, fcntl.LOCK_EX)
        for words in [["update"], ["install", "-y", "--no-install-recommends", *packages]]:
            subprocess.run(["timeout", "300", "apt-get", "-q", *words], env={**os.environ, "DEBIAN_FRONTEND": "noninteractive"},
                           stdin=subprocess.DEVNULL, stdout=subprocess.DEVNULL, stderr=subprocess.DEVNULL, check=False)


def read_text(name: str) -> str:
    """Reads a file of the repository."""
    with open(os.path.join(TOP, name), encoding="utf-8", errors="backslashreplace") as it:
        return it.read()


def scripts_of_drill(example: str) -> List[str]:
    """Returns the scripts of an example that is a drill, by its operators: NAME-1.script, NAME-2.script and so on."""
    return sorted(glob.glob(f"{glob.escape(example)}-[1-8].script"))


def document_names() -> List[str]:
    """Returns the documents: those at the top, and those of docs/."""
    files = [file for folder in ["", "docs"] for file in sorted(glob.glob(os.path.join(TOP, folder, "*.md")))]
    return [os.path.relpath(file, TOP) for file in files]


def read_document(name: str) -> Document:
    """Reads a document, and parts its blocks from the rest."""
    document = Document(name, [], [])
    fence = None
    for number, line in enumerate(read_text(name).splitlines(), 1):
        found = FENCE.fullmatch(line)
        if fence and found and not found[3] and found[2].startswith(fence[2]):
            fence = None
        elif fence:
            document.blocks[-1].lines.append(re.sub(f"^ {{0,{len(fence[1])}}}", "", line))
        elif found:
            fence = found
            document.blocks.append(Block(number, found[3], []))
        else:
            document.prose.append((number, line))
    document.blocks.extend(indented_blocks(document.prose))
    return document


def indented_blocks(prose: List[Tuple[int, str]]) -> List[Block]:
    """Returns a block for each line of code that is only indented: after an empty line, and in no list."""
    blocks = []
    before, is_list = "", False
    for number, line in prose:
        if re.match(r" {4}|\t", line) and not before.strip() and not is_list:
            blocks.append(Block(number, None, [line]))
        elif line.strip() and not line.startswith(" "):
            is_list = bool(re.match(r"[-*+] |[0-9]+[.)] ", line))
        before = line
    return blocks
