"""Replicas as a report must show them: an engine with locks over the plain machine, and the wrapper that lies by script.

An engine keeps what each running transaction has run, and plays it over what is committed for each statement: it is
slow, and right by definition. Which locks a statement needs is all in which the two kinds differ.
"""

from __future__ import annotations

from collections import deque
from collections.abc import Iterator
from dataclasses import dataclass

from . import syntax, write
from .machine import Answer, Catalog, Count, Failed, Machine, Rows, Table, table_of
from .scenario import Act, Scenario
from .syntax import GREATEST, LEAST, Statement

Span = tuple[int, int]
ALL: Span = (LEAST, GREATEST)


@dataclass(frozen=True)
class Done:
    answer: Answer

    @property
    def told(self) -> str:
        return write.answer(self.answer)


@dataclass(frozen=True)
class Blocked:
    by: tuple[int, ...]

    @property
    def told(self) -> str:
        return f"waits for {', '.join(map(str, self.by)) or 'nobody'}"


@dataclass(frozen=True)
class Deadlock:
    members: tuple[int, ...]

    @property
    def told(self) -> str:
        return f"deadlock {', '.join(map(str, self.members))}"


@dataclass(frozen=True)
class Lost:
    told: str = "lost"


Reply = Done | Blocked | Deadlock | Lost


@dataclass(frozen=True)
class Need:
    """A span of a table's keys that a statement reads, or changes."""

    table: str
    low: int
    high: int
    exclusive: bool

    def conflicts(self, other: Need) -> bool:
        meets = self.table == other.table and self.low <= other.high and other.low <= self.high
        return meets and (self.exclusive or other.exclusive)


def needs(kind: str, catalog: Catalog, tree: Statement) -> list[Need]:
    """What a statement locks at an engine of this kind."""
    exclusive = not isinstance(tree, syntax.Select)
    found = []
    for name, span in spans(catalog, tree):
        if kind == "table":
            span = ALL
        if span is not None:
            found.append(Need(name, *span, exclusive))
    return found


def spans(catalog: Catalog, tree: Statement) -> Iterator[tuple[str, Span | None]]:
    """For each table entry the least span of keys that its statement can be seen to need, None where that is empty."""
    if isinstance(tree, syntax.Insert):
        yield tree.table, inserted(table_of(catalog, tree.table), tree)
        return
    select = isinstance(tree, syntax.Select)
    entries = tree.entries if select else (syntax.Entry(tree.table, tree.table),)
    on = tree.on if select else None
    tables = [table_of(catalog, it.table) for it in entries]
    for place, entry in enumerate(entries):
        keys = KeyOf(place, [it.alias for it in entries], tables)
        yield entry.table, common(span(on, keys), span(tree.where, keys))


def inserted(table: Table, tree: syntax.Insert) -> Span | None:
    names = tree.columns or tuple(it.name for it in table.columns)
    if table.columns[0].name not in names:
        return None
    place = names.index(table.columns[0].name)
    keys = [it[place].value for it in tree.tuples if isinstance(it[place].value, int)]
    return (min(keys), max(keys)) if keys else None


@dataclass
class KeyOf:
    """Tells which columns of a condition are the key of the entry at `place`."""

    place: int
    aliases: list[str]
    tables: list[Table]

    def is_key(self, operand: syntax.Operand) -> bool:
        if not isinstance(operand, syntax.Column) or operand.table not in (None, self.aliases[self.place]):
            return False
        return operand.name == self.tables[self.place].columns[0].name and (
            operand.table is not None or self.is_alone(operand.name)
        )

    def is_alone(self, name: str) -> bool:
        return sum(any(it.name == name for it in table.columns) for table in self.tables) == 1


FLIPPED = {"<": ">", "<=": ">=", ">": "<", ">=": "<=", "=": "=", "<>": "<>"}


def span(tree: syntax.Condition | None, keys: KeyOf) -> Span | None:
    """The span of keys outside of which a condition is true of no row."""
    if isinstance(tree, syntax.Both):
        return common(span(tree.left, keys), span(tree.right, keys))
    if isinstance(tree, syntax.Either):
        left, right = span(tree.left, keys), span(tree.right, keys)
        if left is None or right is None:
            return left or right
        return (min(left[0], right[0]), max(left[1], right[1]))
    if isinstance(tree, syntax.Compare):
        if keys.is_key(tree.left) and isinstance(tree.right, syntax.Literal):
            return compared(tree.operator, tree.right.value)
        if keys.is_key(tree.right) and isinstance(tree.left, syntax.Literal):
            return compared(FLIPPED[tree.operator], tree.left.value)
    return ALL


def compared(operator: str, value: syntax.Value) -> Span | None:
    if value is None:
        return None
    low, high = {
        "=": (value, value),
        "<": (LEAST, value - 1),
        "<=": (LEAST, value),
        ">": (value + 1, GREATEST),
        ">=": (value, GREATEST),
        "<>": ALL,
    }[operator]
    return (low, high) if low <= high else None


def common(one: Span | None, other: Span | None) -> Span | None:
    if one is None or other is None:
        return None
    low, high = max(one[0], other[0]), min(one[1], other[1])
    return (low, high) if low <= high else None


class Engine:
    """A database that keeps each transaction's locks until it ends."""

    def __init__(self, kind: str, start: Machine):
        self.kind, self.base, self.count = kind, start.copy(), 0
        self.restart_empty()

    def restart_empty(self) -> None:
        self.attempts: dict[int, list[Statement]] = {}
        self.held: dict[int, list[Need]] = {}
        self.waits: dict[int, list[int]] = {}

    def run(self, txn: int, tree: Statement) -> Reply:
        wanted = needs(self.kind, self.base.catalog, tree)
        self.waits.pop(txn, None)
        holders = sorted(
            other
            for other, held in self.held.items()
            if other != txn and any(one.conflicts(it) for one in held for it in wanted)
        )
        if cycle := self.cycle(txn, holders):
            return Deadlock(cycle)
        if holders:
            self.waits[txn] = holders
            return Blocked(tuple(holders))
        self.held.setdefault(txn, []).extend(wanted)
        view = self.base.copy()
        for earlier in self.attempts.setdefault(txn, []):
            view.run(earlier)
        self.attempts[txn].append(tree)
        return Done(view.run(tree))

    def cycle(self, txn: int, holders: list[int]) -> tuple[int, ...] | None:
        """The shortest cycle that a wait for the holders would close, and of these the first in the order of numbers."""
        paths, seen = deque((txn, it) for it in holders), set(holders)
        while paths:
            path = paths.popleft()
            waits = self.waits.get(path[-1], [])
            if txn in waits:
                return path
            paths.extend((*path, it) for it in waits if it not in seen)
            seen.update(waits)
        return None

    def commit(self, txn: int) -> None:
        for tree in self.attempts.get(txn, []):
            self.base.run(tree)
        self.count += 1
        self.release(txn)

    def release(self, txn: int) -> None:
        """The transaction is gone, and nobody waits for it."""
        for kept in (self.attempts, self.held, self.waits):
            kept.pop(txn, None)
        self.waits = {it: [other for other in waits if other != txn] for it, waits in self.waits.items()}


class Backend:
    """An engine that does at each call what its script says; a call that is lost is answered None."""

    def __init__(self, scenario: Scenario, replica: int):
        self.engine = Engine(scenario.kinds[replica], scenario.start)
        self.script, self.calls, self.lost = scenario.scripts[replica], 0, False

    def next_act(self) -> Act:
        self.calls += 1
        return self.script.get(self.calls, Act("honest"))

    def run(self, txn: int, tree: Statement) -> Reply:
        act = self.next_act()
        if self.lost or act.is_loss:
            if act.word == "after" and not self.lost:
                self.engine.run(txn, tree)
            self.lost = True
            return Lost()
        made_up = self.made_up(act)
        return made_up if made_up is not None else self.told(act, txn, self.engine.run(txn, tree))

    def made_up(self, act: Act) -> Reply | None:
        """The reply of an act by which the engine isn't called."""
        return {
            "drop": lambda: Done(Count(act.numbers[0])),
            "fail": lambda: Done(Failed("overflow")),
            "block": lambda: Blocked(act.numbers),
            "deadlock": lambda: Deadlock(act.numbers),
        }.get(act.word, lambda: None)()

    def told(self, act: Act, txn: int, reply: Reply) -> Reply:
        if act.word == "wrong" and isinstance(reply, Done):
            return Done(Rows((act.numbers,)))
        if act.word == "early" and isinstance(reply, Done):
            self.engine.commit(txn)
        return reply

    def end(self, txn: int, commits: bool) -> bool:
        """A commit or a rollback; whether it was answered."""
        act = self.next_act()
        loses = act.is_loss or self.lost
        if not self.lost and act.word != "before":
            (self.engine.commit if commits else self.engine.release)(txn)
        self.lost = loses
        return not loses

    def restart(self) -> int | None:
        """How many transactions are told to be committed."""
        act = self.next_act()
        if act.is_loss:
            return None
        self.lost = False
        self.engine.restart_empty()
        return act.numbers[0] if act.word == "position" else self.engine.count
