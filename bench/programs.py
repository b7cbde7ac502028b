#!/usr/bin/env python3
"""The programs of this folder that stand on the crates: each is proved and built, or only compiled, beside a copy of them.

Usage: bench/programs.py FILE
That compiles all of them into one file, on their smallest sizes and without any proof: the program that its first argument
names reads standard input. A bench that is run with `--tiny` takes the file that the environment's TINY_PROGRAMS names,
and without one compiles its own program.
"""

import os
import re
import shutil
import subprocess
import sys
import tempfile
from pathlib import Path
from typing import Dict, List, Optional, Sequence, Tuple

BENCH = Path(__file__).resolve().parent
TOP = BENCH.parent
sys.path.append(str(TOP / "tools"))
from workspaces import make_workspace, try_crate

# The root of the crate that has all programs as modules. A trial waits, so that the file which it builds can be kept.
MAIN = """// The programs of bench/ in one: the last argument names the one that reads standard input.
#![tactic(auto)]

%s
use anyhow::bail;
use std::time::Duration;
use std::{env, thread};

fn main(rt: HostRuntime) -> anyhow::Result<()> {
    let words: Vec<String> = env::args(&rt)?.collect(rt.alloc())?;
    let Some(word) = words.last() else {
        bail!("no program is named")
    };
    match word.as_str() {
%s        "wait" => {
            thread::sleep(&rt, Duration::from_secs(2));
            Ok(())
        }
        _ => bail!("there is no such program"),
    }
}
"""
MAIN_OF_A_PROGRAM = re.compile(r"^fn main\(rt: HostRuntime\)(.*?^}\n)", re.MULTILINE | re.DOTALL)
RUN = "pub fn run<R: std::thread::Threads + std::sync::Wait + Sync>(rt: &HostRuntime, threads: &R)"


class Program:
    """The program of NAME.program, which uses these crates and libraries and may have options in crates.txt.

    `beside` has further sources by their files. In a tiny copy each text of `tiny` stands for another.
    """

    def __init__(
        self,
        name: str,
        uses: str,
        options: str = "",
        tiny: Sequence[Tuple[str, str]] = (),
        beside: Optional[Dict[str, str]] = None,
    ) -> None:
        self.name, self.uses, self.options, self.tiny = name, uses.split(), options, tiny
        self.beside = beside or {}

    def text(self, is_tiny: bool) -> str:
        """Returns the source of the program."""
        text = (BENCH / (self.name + ".program")).read_text()
        for old, new in self.tiny if is_tiny else ():
            text = text.replace(old, new)
        return text

    def module(self) -> Dict[str, str]:
        """Returns the sources of the tiny program as a module of a crate, by their files.

        Only the crate's `main` has threads, and may wait. So the program's is a function `run` here, to which they are given.
        """
        before, body, after = MAIN_OF_A_PROGRAM.split(self.text(True).replace("#![tactic(auto)]\n", ""))
        body = body.replace("&rt, &rt", "rt, threads").replace("&rt", "rt")
        beside = {f"{self.name}/{file}": source for file, source in self.beside.items()}
        return {f"{self.name}.rt": before + RUN + body + after, **beside}

    def copy(self, top: str, is_tiny: bool, is_proved: bool) -> str:
        """Returns the folder of the program beside a copy of the crates, with what was proved of them where it is to be."""
        sources = {"main.rt": self.text(is_tiny), **self.beside}
        return str(make_workspace(Path(top), self.name, self.uses, self.options, sources, is_proved))

    def outputs(self, top: str, inputs: List[str], is_tiny: bool, is_proved: bool = True) -> List[str]:
        """Returns what the program prints of each input. Where it is tiny no proof is made."""
        compiled = os.environ.get("TINY_PROGRAMS")
        if is_tiny and compiled:
            return [run([compiled, self.name], it) for it in inputs]
        is_proved = is_proved and not is_tiny
        folder = self.copy(top, is_tiny, is_proved)
        if not is_proved:
            return try_each(folder, os.path.join(top, "cases"), inputs)
        program = self.build(folder, inputs[0])
        return [run([program], it) for it in inputs]

    def build(self, folder: str, some: str) -> str:
        """Proves and builds the program, and runs it once on some input."""
        built = subprocess.run(["rt", "run"], cwd=folder, input=some, capture_output=True, text=True)
        if built.returncode != 0:
            sys.exit(built.stdout + built.stderr + "the program was not proved, not built or not run")
        return os.path.join(folder, "out", self.name)


DESKS = Program(
    "desks",
    "reh_types reh_cluster reh_picture reh_session reh_desk anyhow",
    " may_wait=1",
    [("ROUNDS: usize = 9;", "ROUNDS: usize = 1;"), ("[2000, 20000, 100000, 200000]", "[1, 2, 3, 4]")],
)
EVENTS = Program(
    "events",
    "reh_types reh_cluster reh_scan reh_picture reh_session anyhow",
    tiny=[("ROUNDS: usize = 9;", "ROUNDS: usize = 1;")],
)
LOADS = Program(
    "loads",
    "reh_types reh_cluster reh_picture reh_session reh_desk anyhow",
    " may_wait=7",
    [("CALLS: usize = 20000;", "CALLS: usize = 2000;")],
    {"replays.rt": (TOP / "tests" / "calls" / "replays.test").read_text()},
)
QUESTIONS = Program(
    "questions",
    "reh_census reh_tally reh_rules reh_waves reh_picture reh_inputs anyhow",
    tiny=[
        ("ROUNDS: usize = 5;", "ROUNDS: usize = 1;"),
        ("BOOKIES: u16 = 256;", "BOOKIES: u16 = 64;"),
        ("LEDGERS: u32 = 100_000;", "LEDGERS: u32 = 100;"),
    ],
)
TALLIES = Program(
    "tallies",
    "reh_census reh_tally anyhow",
    tiny=[
        ("ROUNDS: usize = 3;", "ROUNDS: usize = 1;"),
        ("LEDGERS: usize = 64;", "LEDGERS: usize = 2;"),
        ("ENTRIES: u64 = 65536;", "ENTRIES: u64 = 64;"),
    ],
)
JSON = Program("json", "serde_json anyhow")
PROGRAMS = [DESKS, EVENTS, JSON, LOADS, QUESTIONS, TALLIES]


def run(words: List[str], text: str) -> str:
    done = subprocess.run(words, input=text, capture_output=True, text=True)
    if done.returncode != 0:
        sys.exit(done.stderr + "the program ended with status %d" % done.returncode)
    return done.stdout


def try_each(folder: str, cases: str, inputs: List[str]) -> List[str]:
    """Returns what the program prints of each input, without any proof. It is compiled once."""
    os.mkdir(cases)
    for number, text in enumerate(inputs):
        with open(os.path.join(cases, "%d" % number), "w") as case:
            case.write(text)
    done = subprocess.run(["rt", "try", "--cases", cases], cwd=folder, capture_output=True, text=True)
    if done.returncode != 0:
        sys.exit(done.stdout + done.stderr + "the program was not compiled or not run")
    return done.stdout.split("== ")[1:]


def sources_of_all() -> Dict[str, str]:
    """Returns the sources of the crate that has all programs, by their files."""
    names = [program.name for program in PROGRAMS]
    modules = "".join(f"mod {name};\n" for name in names)
    arms = "".join(f'        "{name}" => {name}::run(&rt, &rt),\n' for name in names)
    sources = {"main.rt": MAIN % (modules, arms)}
    for program in PROGRAMS:
        sources.update(program.module())
    return sources


def compile_all(place: str) -> None:
    """Compiles all programs into one file, by one trial."""
    uses = sorted({use for program in PROGRAMS for use in program.uses})
    with tempfile.TemporaryDirectory() as top:
        folder = make_workspace(Path(top), "programs", uses, "", sources_of_all(), False)
        room, kept = Path(top, "room"), Path(top, "kept")
        room.mkdir()
        trial = try_crate(folder, room, {"program": kept}, ["--", "wait"])
        if trial.returncode != 0 or not kept.exists():
            sys.exit(trial.stdout + "the programs were not compiled")
        kept.chmod(0o755)
        shutil.move(str(kept), place)


if __name__ == "__main__":
    if len(sys.argv) != 2:
        sys.exit(__doc__)
    compile_all(sys.argv[1])
