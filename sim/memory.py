"""Each allocation of a run refused in turn: the report comes, or want of memory is told and nothing written.

The program runs under a C library whose malloc fails once (`refuse.c`, which the machine's C compiler makes). A primary
that is refused memory is told of in the report, so a report may be another one than with ample memory; it is judged
like any other.
"""

from __future__ import annotations

import os
import subprocess
import tempfile
from collections import Counter
from collections.abc import Iterator
from pathlib import Path

from . import judge, runs, scenario
from .runs import Outcome

SCENARIOS = ("insert_and_select", "lying_primary", "deadlock_at_secondary", "loss_before_commit")
REFUSED = Outcome(6, b"", b"out of memory\n")


class Refusing:
    """A program whose allocations are refused, one in each run."""

    def __init__(self, program: Path, folder: Path):
        self.program, self.count = program, folder / "count"
        self.library = folder / "refuse.so"
        source = Path(__file__).with_name("refuse.c")
        subprocess.run(["cc", "-O2", "-shared", "-fPIC", "-o", self.library, source], check=True)

    def run(self, text: bytes, at: int) -> Outcome:
        """A run in which this allocation is refused, or none for 0."""
        given = {"LD_PRELOAD": str(self.library), "REFUSE_AT": str(at), "REFUSE_COUNT": str(self.count)}
        how = {"input": text, "capture_output": True, "timeout": runs.SECONDS, "env": {**os.environ, **given}}
        ended = subprocess.run([self.program, "step"], **how)
        return Outcome(ended.returncode, ended.stdout, ended.stderr)

    def allocations(self, text: bytes) -> int:
        """How many allocations a run makes where none is refused."""
        self.run(text, 0)
        return int(self.count.read_text())


def refuse_all(program: Path, name: str) -> tuple[Counter[str], list[str]]:
    """What came of each run of a stored scenario, and what is wrong."""
    path = runs.TOP / f"scenarios/{name}.hrdb"
    text, due = path.read_bytes(), path.with_suffix(".report").read_bytes()
    shown: Counter[str] = Counter()
    with tempfile.TemporaryDirectory() as folder:
        refusing = Refusing(program, Path(folder))
        wrong = []
        for at in range(1, refusing.allocations(text) + 1):
            outcome = refusing.run(text, at)
            shown[word_of(outcome, due)] += 1
            wrong += [f"{name}, allocation {at}: {it}" for it in faults(text, outcome)]
    return shown, wrong


def word_of(outcome: Outcome, due: bytes) -> str:
    if outcome.status == 6:
        return "out of memory"
    return "the report" if outcome.out == due else "another report"


def faults(text: bytes, outcome: Outcome) -> Iterator[str]:
    """Ok with a report that may be, or Memory with nothing written."""
    if outcome.status == 0 and not outcome.told:
        yield from judge.faults_of(scenario.read(text), outcome.out, is_short=True)
    elif outcome != REFUSED:
        yield runs.brief(outcome)
