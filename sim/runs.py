"""Runs of the program, and what is wrong with each."""

from __future__ import annotations

import subprocess
import sys
from collections import Counter
from dataclasses import dataclass
from pathlib import Path

from . import judge, replay, report, scenario
from .scenario import Refused, Scenario

TOP = Path(__file__).resolve().parent.parent
SECONDS = 60


@dataclass(frozen=True)
class Outcome:
    """How a run ended: its exit status (a signal's number is negative), its output, and what it told."""

    status: int
    out: bytes
    told: bytes


def program() -> Path:
    """The program that `./hrdb` runs, which is built first where it isn't there."""
    found = subprocess.run([TOP / "tools/program"], stdout=subprocess.PIPE, text=True)
    if found.returncode:
        sys.exit(found.returncode)
    return Path(found.stdout.rstrip("\n"))


def run(program: Path, text: bytes, stack: int | None = None) -> Outcome:
    """A run of `step` on this text, with at most so many KiB of stack."""
    words = [program, "step"] if stack is None else ["sh", "-c", f'ulimit -s {stack} && exec "$0" step', program]
    ended = subprocess.run(words, input=text, capture_output=True, timeout=SECONDS)
    return Outcome(ended.returncode, ended.stdout, ended.stderr)


def refused(line: Refused) -> Outcome:
    """What is due of a text that is no scenario."""
    return Outcome(3, b"", f"input: {line}\n".encode())


@dataclass
class Trial:
    """The programs that are tried, which must all do the same; whether reports are also foretold to the byte; the stack
    that the programs get, in KiB; and how the first program's last run ended."""

    programs: list[Path]
    foretells: bool = True
    stack: int | None = None
    last: Outcome = Outcome(0, b"", b"")

    def faults(self, text: bytes) -> list[str]:
        """What is wrong with the runs of these programs on this text."""
        first, *others = (run(it, text, self.stack) for it in self.programs)
        self.last = first
        found = [f"{path} does something else" for path, it in zip(self.programs[1:], others) if it != first]
        try:
            read = scenario.read(text)
        except Refused as line:
            return found + ([] if first == refused(line) else [f"due is {line}: {brief(first)}"])
        if first.status != 0 or first.told:
            return [*found, f"a report is due: {brief(first)}"]
        return found + self.report_faults(read, first.out)

    def report_faults(self, read: Scenario, told: bytes) -> list[str]:
        """The report is one that may be, and that which the models foretell."""
        found = judge.faults_of(read, told)
        due = replay.report(read) if self.foretells else told
        return found if told == due else [*found, f"foretold is another report: {first_line(told, due)}"]


def brief(outcome: Outcome) -> str:
    return f"status {outcome.status}, {len(outcome.out)} bytes, told {outcome.told[-300:]!r}"


def first_line(told: bytes, due: bytes) -> str:
    """The first line in which two texts differ."""
    lines = zip([*told.split(b"\n"), b""], [*due.split(b"\n"), b""])
    return next((f"{one!r}, due {other!r}" for one, other in lines if one != other), "one goes on")


def seen(told: bytes) -> Counter[str]:
    """What a report shows, so that a table of many runs tells what was tried."""
    found = report.read(told)
    shows: Counter[str] = Counter({"reports": 1})
    for it in judge.all_tries(found):
        why = f" {it.said[1]}" if it.ending == "primary" else ""
        shows[f"ending {it.ending}{why}"] += 1
    for it in found.convictions:
        shows[f"convicted {it.reason}"] += 1
    for it in found.replicas:
        shows[f"replica {it.state}"] += 1
        shows["preemptions"] += it.preempted
    for commit in found.commits:
        shows["accepted answers"] += len(commit.answers)
    return shows
