"""Reports of `hrdb step`: the type, and its reading, which is strict.

Written from `docs/FORMATS.md`. `read` raises `BadReport` at the first line that the format doesn't have there.
"""

from __future__ import annotations

import re
from dataclasses import dataclass, field

from .machine import Answer, Count, Failed, Row, Rows
from .syntax import GREATEST, LEAST, Value

NUMBER = r"(0|[1-9][0-9]*)"
LITERAL = re.compile(r"NULL|-?(?:0|[1-9][0-9]*)|'(?:[ -&(-~]|'')*'")
COMMIT = re.compile(rf"commit {NUMBER} session {NUMBER} block {NUMBER} txn {NUMBER}")
TRY = re.compile(rf"block {NUMBER} try {NUMBER} txn {NUMBER} (.+)")
REPLICA = re.compile(
    rf"replica {NUMBER} (table|range) position {NUMBER} preempted {NUMBER} (live|lost|convicted)( primary)?"
)
ENDINGS = {
    "committed": re.compile(rf"committed {NUMBER}"),
    "rolledback": re.compile("rolledback"),
    "deadlock": re.compile(rf"deadlock((?: {NUMBER})*)"),
    "primary": re.compile(rf"primary {NUMBER} (lost|convicted|suspected)"),
    "differ": re.compile(rf"differ {NUMBER}"),
    "memory": re.compile("memory"),
    "unfinished": re.compile("unfinished"),
}
REASONS = {
    "contradicted": re.compile(rf"contradicted txn {NUMBER} statement {NUMBER}"),
    "differs": re.compile(rf"differs txn {NUMBER} statement {NUMBER}"),
    "blocked": re.compile(rf"blocked txn {NUMBER}"),
    "deadlock": re.compile(rf"deadlock txn {NUMBER}"),
    "restart": re.compile(rf"restart {NUMBER}"),
}


class BadReport(Exception):
    """The line, from 1, at which a text is no report."""


@dataclass(frozen=True)
class Commit:
    place: int
    session: int
    block: int
    txn: int
    answers: tuple[Answer, ...]


@dataclass(frozen=True)
class Try:
    """A transaction; `said` are the words behind its ending's first, and `given` and `agreed` are there where it differs."""

    block: int
    number: int
    txn: int
    ending: str
    said: tuple[str, ...] = ()
    given: Answer | None = None
    agreed: Answer | None = None


@dataclass(frozen=True)
class Conviction:
    replica: int
    reason: str
    numbers: tuple[int, ...]


@dataclass(frozen=True)
class Replica:
    kind: str
    position: int
    preempted: int
    state: str
    is_primary: bool
    tables: tuple[tuple[str, tuple[Row, ...]], ...]


@dataclass
class Report:
    commits: list[Commit] = field(default_factory=list)
    sessions: list[list[Try]] = field(default_factory=list)
    convictions: list[Conviction] = field(default_factory=list)
    replicas: list[Replica] = field(default_factory=list)


class Lines:
    """The lines of a report, taken from the first on."""

    def __init__(self, text: bytes):
        if not text.endswith(b"\n") or any(it != 10 and not 32 <= it <= 126 for it in text):
            raise BadReport("it doesn't end with a line feed, or has a byte that no report has")
        self.lines = text.decode("ascii").split("\n")[:-1]
        self.place = 0

    def refuse(self, why: str) -> BadReport:
        return BadReport(f"line {self.place + 1}: {why}")

    def next(self, pattern: str | re.Pattern) -> re.Match | None:
        """Takes the next line where it has this form."""
        if self.place == len(self.lines):
            return None
        match = re.compile(pattern).fullmatch(self.lines[self.place])
        self.place += match is not None
        return match

    def must(self, pattern: str | re.Pattern) -> re.Match:
        match = self.next(pattern)
        if match is None:
            raise self.refuse(f"not {pattern}")
        return match

    def row(self) -> Row:
        """A line `(V, V, ..)`."""
        line = self.must(r"\(.*\)")[0]
        values, place = [], 1
        while place < len(line):
            literal = LITERAL.match(line, place)
            if literal is None or not line.startswith((", ", ")"), literal.end()):
                raise self.refuse("no row")
            values.append(self.value(literal[0]))
            place = literal.end() + (2 if line.startswith(", ", literal.end()) else 1)
        return tuple(values)

    def value(self, literal: str) -> Value:
        if literal.startswith("'"):
            return literal[1:-1].replace("''", "'")
        number = None if literal == "NULL" else int(literal)
        if literal == "-0" or (number is not None and not LEAST <= number <= GREATEST):
            raise self.refuse("no number of 64 bits")
        return number

    def answer(self, before: str) -> Answer:
        """An answer whose first line begins with `before`."""
        if match := self.next(rf"{before}count {NUMBER}"):
            return Count(int(match[1]))
        if match := self.next(rf"{before}rows {NUMBER}"):
            return Rows(tuple(self.row() for _ in range(int(match[1]))))
        cause = rf"(duplicate -?{NUMBER}|overflow|null [1-9][0-9]*|toomany|unfit)"
        return Failed(self.must(rf"{before}failed {cause}")[1])


def read(text: bytes) -> Report:
    """The report that a text is."""
    lines, report = Lines(text), Report()
    lines.must("hrdb report 1")
    for place in range(1, int(lines.must(rf"commits {NUMBER}")[1]) + 1):
        report.commits.append(commit_of(lines, place))
    while lines.next(f"session {len(report.sessions) + 1}"):
        report.sessions.append(tries_of(lines))
    while match := lines.next(rf"convicted {NUMBER} (\w+.*)"):
        report.convictions.append(conviction_of(lines, int(match[1]), match[2]))
    while match := lines.next(REPLICA):
        if int(match[1]) != len(report.replicas):
            raise lines.refuse("another replica's number")
        head = (match[2], int(match[3]), int(match[4]), match[5], match[6] is not None)
        report.replicas.append(Replica(*head, tables_of(lines)))
    lines.must("end")
    if lines.place < len(lines.lines):
        raise lines.refuse("a line behind the end")
    return report


def commit_of(lines: Lines, place: int) -> Commit:
    numbers = [int(it) for it in lines.must(COMMIT).groups()]
    if numbers[0] != place:
        raise lines.refuse("another place")
    answers: list[Answer] = []
    while lines.place < len(lines.lines) and lines.lines[lines.place].startswith("answer "):
        answers.append(lines.answer(f"answer {len(answers) + 1} "))
    return Commit(*numbers, tuple(answers))


def tries_of(lines: Lines) -> list[Try]:
    tries = []
    while match := lines.next(TRY):
        ending = match[4].split(" ")[0]
        said = ENDINGS[ending].fullmatch(match[4]) if ending in ENDINGS else None
        if said is None:
            raise lines.refuse("no ending")
        head = (int(match[1]), int(match[2]), int(match[3]), ending, tuple(match[4].split(" ")[1:]))
        answers = (lines.answer("given "), lines.answer("agreed ")) if ending == "differ" else ()
        tries.append(Try(*head, *answers))
    return tries


def conviction_of(lines: Lines, replica: int, text: str) -> Conviction:
    reason = text.split(" ")[0]
    said = REASONS[reason].fullmatch(text) if reason in REASONS else None
    if said is None:
        raise lines.refuse("no reason")
    return Conviction(replica, reason, tuple(int(it) for it in said.groups()))


def tables_of(lines: Lines) -> tuple[tuple[str, tuple[Row, ...]], ...]:
    tables = []
    while match := lines.next(rf"table ([a-z_][a-z0-9_]*) {NUMBER}"):
        tables.append((match[1], tuple(lines.row() for _ in range(int(match[2])))))
    return tuple(tables)
