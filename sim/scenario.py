"""Scenarios: the type, and which scenario a text is, or its first refused line.

Written from `docs/FORMATS.md` apart from the program's reader. `read` answers a `Scenario` or raises `Refused` with the
line and the kind that the program must tell.
"""

from __future__ import annotations

import re
from dataclasses import dataclass, field

from . import machine, syntax
from .machine import Catalog, ColumnOf, Machine, Table
from .syntax import BadStatement, Statement

MOST_BYTES = 1 << 20
MOST_OF_LINE = 1024
MOST_SESSIONS, MOST_STATEMENTS, MOST_SUBMITS = 64, 100, 4000
MOST_TABLES, MOST_ROWS, MOST_FAULTS, MOST_SUSPECTS = 16, 10_000, 1000, 64
MOST_CHOICES = 200_000
MOST_NUMBER = 1_000_000
MOST_IN_LIST = 8
DEFAULT_ROUNDS = 200
# The kinds of refusal, the first of which is told where several apply to a line.
KINDS = "toolong linetoolong badbyte version form limit unknown repeated statement row unended".split()

NUMBER = re.compile(r"0|[1-9][0-9]*")
SIGNED = re.compile(r"-?(0|[1-9][0-9]*)")
NAME = re.compile(r"[A-Za-z_][A-Za-z0-9_]*")
CALL_OF_SESSION = re.compile(r"(begin|commit|rollback)[ \t]*;?", re.IGNORECASE)
TABLE_TOKEN = re.compile(r"[ \t]*([(),]|[^ \t(),]+)[ \t]*")
ROW_LINE = re.compile(r"row[ \t]+([^ \t(]+)[ \t]*(\(.*)")
CHOICE = re.compile(r"([srtg])(0|[1-9][0-9]*)")


class Refused(Exception):
    """The line, from 1, and the kind for which the text is no scenario."""

    def __init__(self, line: int, kind: str):
        super().__init__(f"line {line}: {kind}")
        self.line, self.kind = line, kind


@dataclass(frozen=True)
class Act:
    """What a replica does at a call: `word` is as in a `lie` line, or `before` or `after` for a loss."""

    word: str
    numbers: tuple[int, ...] = ()

    @property
    def is_loss(self) -> bool:
        return self.word in ("before", "after")

    @property
    def text(self) -> str:
        """As in a scenario's line."""
        return " ".join(["lose" if self.is_loss else "lie", self.word, *map(str, self.numbers)])

    def acts_on(self, job: str) -> bool:
        """Whether it is an act on a call of this job: run, commit, rollback or restart."""
        return self.is_loss or (job == "restart" if self.word == "position" else job == "run")


@dataclass
class Block:
    """A transaction of a script: its statements with their texts, and whether it ends with COMMIT."""

    statements: list[Statement] = field(default_factory=list)
    texts: list[str] = field(default_factory=list)
    commits: bool = True


@dataclass(frozen=True)
class Choice:
    """`word` is s, r, t, g or rounds."""

    word: str
    number: int


@dataclass
class Scenario:
    f: int = 0
    kinds: list[str] = field(default_factory=list)
    retries: int = 0
    catalog: Catalog = ()
    indexes: list[tuple[str, str]] = field(default_factory=list)
    start: Machine = field(default_factory=lambda: Machine(()))
    scripts: list[dict[int, Act]] = field(default_factory=list)
    suspects: list[int] = field(default_factory=list)
    sessions: list[list[Block]] = field(default_factory=list)
    schedule: list[Choice] | None = None

    @property
    def choices(self) -> list[Choice]:
        return [Choice("rounds", DEFAULT_ROUNDS)] if self.schedule is None else self.schedule

    def lies(self, replica: int) -> bool:
        """Whether a replica's script has an act but a loss."""
        return any(not act.is_loss for act in self.scripts[replica].values())

    def loses(self, replica: int) -> bool:
        return any(act.is_loss for act in self.scripts[replica].values())

    @property
    def liars(self) -> set[int]:
        return {it for it in range(len(self.kinds)) if self.lies(it)}


class Kind(Exception):
    """A reason for which the line at hand is refused."""


class Problems(set):
    """The reasons found so far for which the line at hand, which has its form, is refused."""

    def add_where(self, kind: str, holds: bool) -> None:
        if holds:
            self.add(kind)

    def refuse(self) -> None:
        if self:
            raise Kind(min(self, key=KINDS.index))


def must_form(holds: object) -> None:
    if not holds:
        raise Kind("form")


def number_of(word: str) -> int:
    must_form(NUMBER.fullmatch(word))
    return int(word)


def is_name(word: str) -> bool:
    return NAME.fullmatch(word) is not None and word.lower() not in syntax.KEYWORDS


def name_of(word: str, problems: Problems) -> str:
    """A name in small letters; one that is too long is of its form."""
    must_form(is_name(word))
    problems.add_where("limit", len(word) > syntax.LONGEST_NAME)
    return word.lower()


def lines_of(text: bytes) -> list[bytes]:
    """The lines of a text without what ends them."""
    pieces = text.split(b"\n")
    last = pieces.pop()
    lines = [it[:-1] if it.endswith(b"\r") else it for it in pieces]
    return [*lines, last] if last else lines


def read(text: bytes) -> Scenario:
    """The scenario that a text is; raises `Refused` where it is none."""
    if len(text) > MOST_BYTES:
        raise Refused(0, "toolong")
    lines, said = lines_of(text), Reading()
    for number, line in enumerate(lines, 1):
        try:
            said.line(line)
        except Kind as kind:
            raise Refused(number, str(kind)) from None
        except BadStatement:
            raise Refused(number, "statement") from None
    if said.part in ("version", "f", "replicas", "session", "schedule"):
        raise Refused(len(lines) + 1, "unended")
    return said.scenario


class Reading:
    """What the lines so far have said. `part` names what may come next: version, f, replicas, head, tables, faults,
    sessions, session, schedule or nothing."""

    ORDER = ("head", "tables", "faults", "sessions", "nothing")

    def __init__(self) -> None:
        self.scenario = Scenario()
        self.part = "version"
        self.block: Block | None = None
        self.submits = 0
        self.faults = 0
        self.rows = 0
        self.written_out = 0

    def line(self, raw: bytes) -> None:
        if len(raw) > MOST_OF_LINE:
            raise Kind("linetoolong")
        if any(it != 9 and not 32 <= it <= 126 for it in raw):
            raise Kind("badbyte")
        line = raw.decode("ascii").strip(" \t")
        if line and not line.startswith("#"):
            getattr(self, f"in_{self.part}", self.outside)(line, line.split())

    def goes_on(self, part: str) -> None:
        """A line of this part may stand here, and none of an earlier part behind it."""
        must_form(self.ORDER.index(self.part) <= self.ORDER.index(part))
        self.part = part

    # The first three lines.

    def in_version(self, _: str, words: list[str]) -> None:
        must_form(len(words) == 2 and words[0] == "hrdb")
        if number_of(words[1]) != 1:
            raise Kind("version")
        self.part = "f"

    def in_f(self, _: str, words: list[str]) -> None:
        must_form(len(words) == 2 and words[0] == "f")
        self.scenario.f = number_of(words[1])
        if self.scenario.f > 3:
            raise Kind("limit")
        self.part = "replicas"

    def in_replicas(self, line: str, words: list[str]) -> None:
        must_form("(" not in line)
        must_form(words[0] == "replicas" and len(words) == 2 * self.scenario.f + 2)
        if any(it not in ("table", "range") for it in words[1:]):
            raise Kind("unknown")
        self.scenario.kinds = words[1:]
        self.scenario.scripts = [{} for _ in words[1:]]
        self.part = "head"

    # The lines outside of sessions and schedules.

    def outside(self, line: str, words: list[str]) -> None:
        word = TABLE_TOKEN.match(line)[1] if line.startswith("table") else words[0]
        form = {
            "retries": self.retries,
            "table": self.table,
            "index": self.index,
            "row": self.row,
            "lie": self.fault,
            "lose": self.fault,
            "suspect": self.suspect,
            "session": self.session,
            "schedule": self.schedule,
        }.get(word)
        must_form(form and self.part != "nothing")
        form(line, words)

    def retries(self, _: str, words: list[str]) -> None:
        must_form(self.part == "head" and len(words) == 2)
        self.scenario.retries = number_of(words[1])
        if self.scenario.retries > 9:
            raise Kind("limit")
        self.part = "tables"

    def table(self, line: str, _: list[str]) -> None:
        problems = Problems()
        table = table_form(line, problems)
        self.goes_on("tables")
        names = [it.name for it in table.columns]
        problems.add_where("limit", len(self.scenario.catalog) == MOST_TABLES or len(names) > machine.MOST_COLUMNS)
        taken = any(it.name == table.name for it in self.scenario.catalog)
        problems.add_where("repeated", taken or len(set(names)) < len(names))
        problems.refuse()
        self.scenario.catalog += (table,)
        rows = self.scenario.start.rows
        self.scenario.start = Machine(self.scenario.catalog)
        self.scenario.start.rows.update(rows)

    def index(self, _: str, words: list[str]) -> None:
        problems = Problems()
        must_form(len(words) == 3)
        names = (name_of(words[1], problems), name_of(words[2], problems))
        table = next((it for it in self.scenario.catalog if it.name == names[0]), None)
        must_form(table is None or table.columns[0].name != names[1])
        self.goes_on("tables")
        problems.add_where("unknown", table is None or all(it.name != names[1] for it in table.columns))
        problems.add_where("repeated", names in self.scenario.indexes)
        problems.refuse()
        self.scenario.indexes.append(names)

    def row(self, line: str, _: list[str]) -> None:
        problems = Problems()
        match = ROW_LINE.fullmatch(line)
        must_form(match)
        name = name_of(match[1], problems)
        self.goes_on("tables")
        problems.add_where("limit", self.rows == MOST_ROWS)
        problems.add_where("unknown", all(it.name != name for it in self.scenario.catalog))
        problems.refuse()
        insert = syntax.Insert(name, (), (syntax.parse_tuple(match[2]),))
        answer = self.scenario.start.run(machine.bind(self.scenario.catalog, insert))
        if isinstance(answer, machine.Failed):
            raise Kind("row")
        self.rows += 1

    def fault(self, _: str, words: list[str]) -> None:
        problems = Problems()
        must_form(len(words) >= 4)
        replica, call = number_of(words[1]), number_of(words[2])
        act = (lie_form if words[0] == "lie" else loss_form)(words[3:], problems)
        self.goes_on("faults")
        problems.add_where("limit", not 1 <= call <= MOST_NUMBER or self.faults == MOST_FAULTS)
        problems.add_where("unknown", replica >= len(self.scenario.kinds))
        problems.refuse()
        if call in self.scenario.scripts[replica]:
            raise Kind("repeated")
        self.scenario.scripts[replica][call] = act
        self.faults += 1

    def suspect(self, _: str, words: list[str]) -> None:
        must_form(len(words) == 3 and words[1] == "after")
        after, suspects = number_of(words[2]), self.scenario.suspects
        self.goes_on("faults")
        if not 1 <= after <= MOST_NUMBER or len(suspects) == MOST_SUSPECTS or after < max(suspects, default=1):
            raise Kind("limit")
        suspects.append(after)

    def session(self, _: str, words: list[str]) -> None:
        must_form(len(words) == 1)
        self.goes_on("sessions")
        if len(self.scenario.sessions) == MOST_SESSIONS:
            raise Kind("limit")
        self.scenario.sessions.append([])
        self.part, self.block = "session", None

    def schedule(self, _: str, words: list[str]) -> None:
        must_form(len(words) == 1)
        self.scenario.schedule = []
        self.part = "schedule"

    # The lines within a session, and within a schedule.

    def in_session(self, line: str, _: list[str]) -> None:
        call = CALL_OF_SESSION.fullmatch(line)
        word = call[1].lower() if call else ""
        if line == "end":
            if self.block is not None:
                raise Kind("unended")
            self.part = "sessions"
        elif word == "begin":
            must_form(self.block is None)
            self.block = Block()
        elif word:
            self.scenario.sessions[-1].append(self.block or Block())
            self.scenario.sessions[-1][-1].commits = word == "commit"
            self.block = None
        else:
            self.statement(line)

    def statement(self, line: str) -> None:
        block = self.block or Block()
        self.submits += self.scenario.retries + 1
        if self.submits > MOST_SUBMITS or len(block.statements) == MOST_STATEMENTS:
            raise Kind("limit")
        block.statements.append(machine.bind(self.scenario.catalog, syntax.parse(line)))
        block.texts.append(line)
        self.block = block

    def in_schedule(self, line: str, words: list[str]) -> None:
        if line == "end":
            self.part = "nothing"
            return
        problems, left = Problems(), list(words)
        while left:
            self.choice(left, problems)
        problems.refuse()

    def choice(self, left: list[str], problems: Problems) -> None:
        """Takes the next choice from the words that are left."""
        replicas, sessions = len(self.scenario.kinds), len(self.scenario.sessions)
        word = left.pop(0)
        if word == "rounds":
            must_form(left)
            found = Choice(word, number_of(left.pop(0)))
            problems.add_where("limit", found.number == 0)
        else:
            match = CHOICE.fullmatch(word)
            must_form(match)
            found = Choice(match[1], int(match[2]))
            is_there = 1 <= found.number <= sessions if match[1] == "s" else found.number < replicas
            problems.add_where("unknown", not is_there)
        self.written_out += found.number * (sessions + replicas) if word == "rounds" else 1
        problems.add_where("limit", self.written_out > MOST_CHOICES)
        self.scenario.schedule.append(found)


def table_form(line: str, problems: Problems) -> Table:
    """The table that a line `table NAME (..)` says."""
    words = TABLE_TOKEN.findall(line)
    must_form(len(words) >= 7 and words[2] == "(" and words[-1] == ")")
    name = name_of(words[1], problems)
    columns = [ColumnOf("", "")]
    columns.clear()
    for place, column in enumerate(split_at_commas(words[3:-1])):
        must_form(len(column) in (2, 3) and column[1] in ("int", "text"))
        if place == 0:
            must_form(column[1:] == ["int", "key"])
        must_form(place == 0 or column[2:] in ([], ["null"]))
        columns.append(ColumnOf(name_of(column[0], problems), column[1], column[2:] == ["null"]))
    return Table(name, tuple(columns))


def split_at_commas(words: list[str]) -> list[list[str]]:
    pieces: list[list[str]] = [[]]
    for word in words:
        if word == ",":
            pieces.append([])
        else:
            pieces[-1].append(word)
    return pieces


def lie_form(words: list[str], problems: Problems) -> Act:
    """The act that the last words of a `lie` line say."""
    word, numbers = words[0], words[1:]
    if word == "wrong":
        must_form(len(numbers) == 1 and SIGNED.fullmatch(numbers[0]))
        wrong = int(numbers[0])
        problems.add_where("limit", not syntax.LEAST <= wrong <= syntax.GREATEST)
        return Act(word, (wrong,))
    wanted = {"drop": 1, "position": 1, "early": 0, "fail": 0}.get(word, len(numbers))
    must_form(word in ("drop", "position", "early", "fail", "block", "deadlock") and len(numbers) == wanted)
    found = tuple(number_of(it) for it in numbers)
    problems.add_where("limit", len(found) > MOST_IN_LIST or any(it >= 2**64 for it in found))
    return Act(word, found)


def loss_form(words: list[str], _: Problems) -> Act:
    must_form(words in (["before"], ["after"]))
    return Act(words[0])
