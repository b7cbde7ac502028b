"""Pictures of clusters for questions, and the time of the program that is asked about them."""

import os
import subprocess
import sys
import time

IS_TINY = sys.argv[1:] == ["--tiny"]
RUNS, WIDE, PICTURES, LEDGERS = (1, 1, 2, 1) if IS_TINY else (9, 64, 200, 512)
TOP = os.path.dirname(os.path.dirname(os.path.abspath(__file__)))
PROGRAM = os.environ.get("REHEARSE") or os.path.join(TOP, "crates", "rehearse", "out", "rehearse")


def picture(names, ledgers, first=0):
    """A picture of closed ledgers with ids from the first on, each of so many entries, with a write quorum, an ensemble, and the
    ranges of each who holds some."""
    return '{"format":1,"grace":3,"bookies":[%s],"ledgers":[%s],"contents":[%s]}' % (
        ",".join('{"name":"%s","up":true}' % name for name in names),
        ",".join(
            '{"id":%d,"state":"CLOSED","lastEntryId":%d,"ensembleSize":%d,"writeQuorumSize":%d,"ackQuorumSize":2,"version":0,'
            '"fragments":[{"firstEntry":0,"ensemble":[%s]}]}'
            % (number, entries - 1, len(ensemble), writes, ",".join('"%s"' % name for name in ensemble))
            for number, (entries, writes, ensemble, _) in enumerate(ledgers, first)
        ),
        ",".join(
            '{"bookie":"%s","ledger":%d,"entries":[%s]}' % (name, number, ranges)
            for number, (_, _, _, held) in enumerate(ledgers, first)
            for name, ranges in held
        ),
    )


def wide(firsts):
    """64 bookies and ledgers of 65,536 entries, each on sixteen, of whom one holds these ranges, and the others all."""
    names = ["b%d" % number for number in range(64)]
    ensembles = [[names[(ledger + index) % 64] for index in range(16)] for ledger in range(WIDE)]
    held = lambda ensemble: [(ensemble[0], firsts)] + [(name, "[0,65535]") for name in ensemble[1:]]
    return picture(names, [(65_536, 8, ensemble, held(ensemble)) for ensemble in ensembles])


def many(first=0):
    """Twelve bookies and ledgers of 1,000 entries on three of the first eleven."""
    names = ["b%d" % number for number in range(12)]
    ensembles = [[names[(ledger + index) % 11] for index in range(3)] for ledger in range(LEDGERS)]
    ledgers = [(1_000, 3, ensemble, [(name, "[0,999]") for name in ensemble]) for ensemble in ensembles]
    return picture(names, ledgers, first)


def seconds(*words):
    """The least time of the runs with these words, and what the last one wrote."""
    times = []
    for _ in range(RUNS):
        begun = time.perf_counter()
        done = subprocess.run([PROGRAM, *words], capture_output=True, text=True)
        times.append(time.perf_counter() - begun)
        if done.returncode not in (0, 8, 9):
            sys.exit(done.stderr + "the program ended with status %d" % done.returncode)
    return min(times), done.stdout


def additions():
    """How long ten million additions take."""
    begun = time.perf_counter()
    total = 0
    for number in range(10_000_000):
        total += number
    return time.perf_counter() - begun
