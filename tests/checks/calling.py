"""The crate of the tests of tests/calls: each file NAME.test is a module NAME of it, beside a copy of the crates that it uses."""

import os
import sys
from pathlib import Path
from typing import Dict

from judging import TOP

sys.path.append(os.path.join(TOP, "tools"))
from workspaces import make_workspace

TESTS = Path(TOP, "tests", "calls")
USES = (
    "reh_census reh_tally reh_rules reh_answer reh_against reh_waves reh_census_file reh_types reh_stripe reh_held reh_cluster"
    " reh_audit reh_scan reh_step reh_picture reh_session reh_desk reh_crew reh_lines reh_commands"
    " reh_transcript reh_play reh_script reh_drill reh_inputs reh_inventory reh_inventory_census"
).split()


def modules() -> Dict[str, str]:
    """Returns the sources of the crate by their files."""
    names = sorted(file.stem for file in TESTS.glob("*.test"))
    sources = {f"{name}.rt": (TESTS / f"{name}.test").read_text() for name in names}
    root = "".join(f"#[cfg(test)]\nmod {name};\n" for name in names)
    return {"lib.rt": f"// The tests of public calls.\n#![tactic(auto)]\n\n{root}", **sources}


def make_calls(top: Path) -> Path:
    """Makes the crate in a workspace of its own, and returns its folder."""
    return make_workspace(top, "calls", USES, " tests_may=Threads+Wait", modules(), False)
