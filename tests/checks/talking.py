"""The program, typed at: what it prints is heard as it comes."""

import os
import select
import subprocess
from typing import List, Tuple

# In seconds: longer than any answer takes.
PATIENCE = 20


class Talk:
    """A command whose standard input and output are at hand."""

    def __init__(self, command: List[str], **places) -> None:
        pipes = {"stdin": subprocess.PIPE, "stdout": subprocess.PIPE, "stderr": subprocess.PIPE}
        self.program = subprocess.Popen(command, bufsize=0, **{**pipes, **places})

    def say(self, text: str) -> None:
        self.program.stdin.write(text.encode())

    def hear(self, count: int) -> str:
        """Returns what comes next, as soon as it has so many bytes, or all that comes in time."""
        heard = b""
        while len(heard) < count and select.select([self.program.stdout], [], [], PATIENCE)[0]:
            piece = os.read(self.program.stdout.fileno(), count - len(heard))
            if not piece:
                break
            heard += piece
        return heard.decode()

    def is_silent(self) -> bool:
        """Whether nothing comes for a while."""
        return not select.select([self.program.stdout], [], [], 0.2)[0]

    def end(self) -> Tuple[str, str, int]:
        """Ends the input, and returns the rest of the output, what standard error has, and the status."""
        output, fault = self.program.communicate(timeout=PATIENCE)
        return output.decode(), (fault or b"").decode(), self.program.returncode


def differing(what: str, expected: object, found: object) -> List[str]:
    return [] if expected == found else [f"{what}: {found!r}, and not {expected!r}"]
