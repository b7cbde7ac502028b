"""How lines are edited that are typed at `talk` on a terminal, where rlwrap is there.

Usage: editing.py NAME COMMAND PICTURE, where NAME begins what is judged

An arrow key brings an earlier line back, and Tab completes a command of a script and a bookie's name. Standard output and the
status are what they are without rlwrap, and without a terminal, or with --quiet, it isn't started. The picture is one that has
a bookie b2:3181, which gets a longer name.
"""

import fcntl
import os
import pty
import select
import shutil
import struct
import subprocess
import sys
import tempfile
import termios
from typing import Dict, List, NamedTuple, Optional

sys.dont_write_bytecode = True
from judging import judge, status
from talking import PATIENCE, differing

END, UP, BREAK = b"\x04", b"\x1b[A", b"\x03"
NAME = sys.argv[1]
SIZE = struct.pack("HHHH", 24, 80, 0, 0)
PROMPT = b"> "


class Ended(NamedTuple):
    """What a terminal was told, and a pipe, where standard output is one; and the status, or the signal below 0."""

    terminal: bytes
    output: bytes
    code: int


class Typist:
    """Types at a command on a terminal, once it has asked for a line."""

    def __init__(self, words: List[str], settings: Dict[str, str], is_piped: bool) -> None:
        read_end, write_end = os.pipe()
        self.child, self.terminal = pty.fork()
        if self.child == 0:
            fcntl.ioctl(0, termios.TIOCSWINSZ, SIZE)
            if is_piped:
                os.dup2(write_end, 1)
            os.execve(words[0], words, settings)
        os.close(write_end)
        self.heard: Dict[int, bytes] = {self.terminal: b"", read_end: b""}
        self.pipe = read_end

    def hear(self, since: int, awaited: Optional[bytes]) -> None:
        """Takes what comes, until the terminal was told this after so many bytes, or until the end."""
        ends = list(self.heard)
        while ends and (awaited is None or awaited not in self.heard[self.terminal][since:]):
            ready = select.select(ends, [], [], PATIENCE)[0]
            if not ready:
                return
            for it in ready:
                try:
                    piece = os.read(it, 4096)
                except OSError:
                    piece = b""
                self.heard[it] += piece
                if not piece:
                    ends.remove(it)

    def play(self, typed: List[bytes]) -> Ended:
        """Types each piece after a prompt, the first one at the start."""
        since, awaited = 0, PROMPT
        for piece in typed:
            self.hear(since, awaited)
            since, awaited = len(self.heard[self.terminal]), b"\n" + PROMPT
            os.write(self.terminal, piece)
        self.hear(since, None)
        ended = os.waitpid(self.child, 0)[1]
        os.close(self.terminal)
        os.close(self.pipe)
        code = -os.WTERMSIG(ended) if os.WIFSIGNALED(ended) else os.WEXITSTATUS(ended)
        return Ended(self.heard[self.terminal], self.heard[self.pipe], code)


def differences(wanted: bytes, found: bytes, code: int, wanted_code: int = 0) -> List[str]:
    """Returns how an output and a status differ from those that are wanted."""
    return differing("output", wanted, found) + ([] if code == wanted_code else [f"status {code}"])


def judge_edited(command: str, picture: str, settings: Dict[str, str]) -> None:
    """Judges what is typed with an arrow key and Tab, and that rlwrap changes nothing else."""
    talk = [command, "talk", picture]
    typed = [b"clock\n", UP + b"\n", b"sur\t\n", b"lo\tbk-\t\n", END]
    survey = b"ledger 7 fragment 0 down 0 lost 0\nledger 9 fragment 0 down 0 lost -\n"
    answers = b"line 1: clock 0\nline 2: clock 0\nline 3: survey\n" + survey + b"line 4: ok\n"
    ended = Typist(talk, settings, True).play(typed)
    judge(f"{NAME}: an arrow key, a command and a name by Tab", differences(answers, ended.output, ended.code))
    ended = Typist(talk, settings, True).play([UP + b"\n", END])
    judge(f"{NAME}: a line of an earlier session", differences(b"line 1: ok\n", ended.output, ended.code))
    ended = Typist(["/bin/sh", "-c", 'exec "$0" --color never "$@"', *talk], settings, False).play(typed)
    wrong = [repr(it) for it in answers.splitlines() if it + b"\r" not in ended.terminal]
    judge(f"{NAME}: the answers on the terminal", wrong + ([] if ended.code == 0 else [str(ended)]))
    ended = Typist(talk, settings, True).play([b"join b1:3181\n", BREAK])
    judge(f"{NAME}: the status of a break", differences(b"line 1: refused 4 AlreadyUp\n", ended.output, ended.code, -2))
    for file, code in [("/bin/sh", 3), ("/none", 4)]:
        ended = Typist([command, "talk", file], settings, True).play([])
        judge(f"{NAME}: the status where the picture is {file}", differences(b"", ended.output, ended.code, code))


def judge_plain(command: str, picture: str, settings: Dict[str, str], folder: str) -> None:
    """Judges where rlwrap isn't started: what the terminal is told is the program's and the echo alone."""
    talk, line = [command, "talk", picture], b"clock\r\nline 1: clock 0\r\n"
    shown = PROMPT + line + PROMPT + b"\r\n"
    for name, changed in [
        ("without rlwrap", {"PATH": folder}),
        ("on a terminal without codes", {"TERM": "dumb"}),
        ("where no history can be kept", {"HOME": os.path.join(folder, "none")}),
    ]:
        ended = Typist(talk, {**settings, **changed}, False).play([b"clock\n", END])
        judge(f"{NAME}: a prompt alone {name}", differences(shown, ended.terminal, ended.code))
    elsewhere = ["/bin/sh", "-c", 'exec "$0" "$@" 2> /dev/null', *talk]
    for name, words in [("with --quiet", [*talk, "--quiet"]), ("where errors go elsewhere", elsewhere)]:
        started = Typist(words, settings, False)
        os.write(started.terminal, b"clock\n")
        started.hear(0, b"clock 0\r\n")
        os.write(started.terminal, END)
        ended = started.play([])
        judge(f"{NAME}: nothing {name}", differences(line, ended.terminal, ended.code))
    ended = subprocess.run(talk, input=b"clock\n", env=settings, stdout=subprocess.PIPE, stderr=subprocess.PIPE)
    wrong = differing("errors", b"", ended.stderr)
    judge(f"{NAME}: nothing in pipes", differences(b"line 1: clock 0\n", ended.stdout, ended.returncode) + wrong)


def main() -> int:
    """Judges all, and returns the status."""
    command, example = sys.argv[2:]
    with tempfile.TemporaryDirectory() as folder:
        without = os.path.join(folder, "path")
        os.mkdir(without)
        for it in ("bash", "dirname", "find", "readlink", "sha256sum", "sh"):
            os.symlink(shutil.which(it), os.path.join(without, it))
        picture = os.path.join(folder, "picture")
        with open(example, encoding="utf-8") as it, open(picture, "w", encoding="utf-8") as other:
            other.write(it.read().replace("b2:3181", "bk-2.example.org:3181"))
        settings = {**os.environ, "HOME": folder, "TERM": "xterm"}
        judge_edited(command, picture, settings)
        judge_plain(command, picture, settings, without)
    return status()


if __name__ == "__main__":
    sys.exit(main())
