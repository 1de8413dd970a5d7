"""Scenarios from a seed: few keys, many writers, and replicas that lie and are lost.

`scenario(seed)` gives the lines of a scenario; the same seed gives the same lines. What a session's statements are is in
`Statements`; which of them make trouble for each other is left to chance, which the few keys help.
"""

from __future__ import annotations

from random import Random

from . import write
from .machine import Catalog, ColumnOf, Table

EXTREMES = (2**63 - 1, -(2**63), 2**62, -(2**62), 0)
TEXTS = ("a", "b", "it''s", "", "z z", "~" * 64)
LETTERS = "abcdefgh"
OPERATORS = ("=", "<>", "!=", "<", "<=", ">", ">=")


class Dice:
    """Random draws in the words that the makers use."""

    def __init__(self, seed: int | str):
        self.random = Random(seed)

    def one_in(self, n: int) -> bool:
        return self.random.randrange(n) == 0

    def number(self, least: int, most: int) -> int:
        return self.random.randint(least, most)

    def small(self, most: int) -> int:
        """From 0 to `most`, mostly small."""
        return min(self.random.randint(0, most) for _ in range(3))

    def pick(self, *items):
        return items[self.random.randrange(len(items))]

    def few_of(self, items: list, least: int, most: int) -> list:
        return self.random.sample(items, min(len(items), self.number(least, most)))


class Statements:
    """Statements over a catalog, on keys from 1 to `keys`."""

    def __init__(self, dice: Dice, catalog: Catalog, keys: int, narrow: bool = False):
        self.dice, self.catalog, self.keys, self.narrow = dice, catalog, keys, narrow

    def any(self) -> str:
        table = self.dice.pick(*self.catalog)
        if self.narrow:
            return self.of_one_row(table)
        if self.dice.one_in(150):
            return self.deep(table)
        makers = [self.update] * 5 + [self.select] * 4 + [self.insert, self.insert, self.delete, self.join, self.groups]
        return self.dice.pick(*makers)(table)

    def of_one_row(self, table: Table) -> str:
        """A write or a read of one row, and of nothing else."""
        where, column = f"WHERE id = {self.key()}", table.columns[1].name
        return self.dice.pick(
            f"UPDATE {table.name} SET {column} = {self.dice.number(0, 99)} {where}",
            f"UPDATE {table.name} SET {column} = {column} + 1 {where}",
            f"SELECT {column} FROM {table.name} {where}",
            f"SELECT {column} FROM {table.name} {where}",
        )

    def deep(self, table: Table) -> str:
        """As many parentheses as a line holds, or as many negations or comparisons."""
        name, key = table.name, table.columns[0].name
        depth = (1000 - len(name) - 4 * len(key)) // 2
        return self.dice.pick(
            f"SELECT {'(' * (depth - 20)}{key}{')' * (depth - 20)} FROM {name}",
            f"SELECT * FROM {name} WHERE {'(' * (depth - 20)}{key} = 1{')' * (depth - 20)}",
            f"SELECT COUNT(*) FROM {name} WHERE {'NOT ' * (depth // 2 - 20)}{key} = {self.key()}",
            f"DELETE FROM {name} WHERE {key} = 1{' OR 1=2' * (depth // 4 - 20)}",
            f"SELECT {key}{'+1' * (depth - 30)} FROM {name}",
        )

    def key(self) -> int:
        return self.dice.number(1, self.keys)

    def literal(self, column: ColumnOf) -> str:
        if column.nullable and self.dice.one_in(5):
            return "NULL"
        if column.kind == "text":
            return f"'{self.dice.pick(*TEXTS)}'"
        return str(self.dice.pick(*EXTREMES) if self.dice.one_in(20) else self.dice.number(-9, 20))

    def column(self, table: Table, kind: str | None = None) -> ColumnOf | None:
        """A column of a kind, or of any; None where the table has none."""
        found = [it for it in table.columns if kind in (None, it.kind)]
        return self.dice.pick(*found) if found else None

    def where(self, table: Table) -> str:
        """Mostly a key, so that transactions meet at some rows and not at others."""
        return f" WHERE {self.condition(table, '')}" if not self.dice.one_in(8) else ""

    def condition(self, table: Table, alias: str) -> str:
        key = alias + table.columns[0].name
        low = self.key()
        return self.dice.pick(
            f"{key} = {low}",
            f"{key} = {low}",
            f"{low} = {key}",
            f"{key} BETWEEN {low} AND {low + self.dice.number(0, 3)}",
            f"{key} IN ({low}, {self.key()})",
            f"{key} {self.dice.pick(*OPERATORS)} {low}",
            f"{key} > {low} AND {self.comparison(table, alias)}",
            f"{key} = {low} OR {self.comparison(table, alias)}",
            f"NOT ({self.comparison(table, alias)})",
            self.comparison(table, alias),
        )

    def comparison(self, table: Table, alias: str) -> str:
        column = self.column(table)
        name = alias + column.name
        return self.dice.pick(
            f"{name} {self.dice.pick(*OPERATORS)} {self.literal(column)}",
            f"{name} NOT BETWEEN {self.literal(column)} AND {self.literal(column)}",
            f"{name} IS {self.dice.pick('', 'NOT ')}NULL",
            f"{name} NOT IN ({self.literal(column)}, {self.literal(column)})",
        )

    def expression(self, table: Table, alias: str = "") -> str:
        """A sum or product over a table's numbers."""
        column = self.column(table, "int")
        name, number = alias + column.name, self.dice.number(1, 4)
        return self.dice.pick(name, f"{name} + {number}", f"{name} - {number}", f"{name} * {number}", f"({name} - 1) * {name}")

    def update(self, table: Table) -> str:
        others = list(table.columns[1:])
        if not others:
            return self.delete(table)
        sets = [f"{it.name} = {self.assigned(table, it)}" for it in self.dice.few_of(others, 1, 2)]
        return f"UPDATE {table.name} SET {', '.join(sets)}{self.where(table)}"

    def assigned(self, table: Table, column: ColumnOf) -> str:
        if column.kind == "int" and not self.dice.one_in(4):
            return self.dice.pick(f"{column.name} + {self.key()}", self.expression(table))
        return self.literal(column)

    def insert(self, table: Table) -> str:
        named = [table.columns[0], *self.dice.few_of(list(table.columns[1:]), 0, len(table.columns))]
        if not self.dice.one_in(3):
            named = list(table.columns)
        names = f" ({', '.join(it.name for it in named)})" if named != list(table.columns) else ""
        rows = ", ".join(self.tuple(named) for _ in range(1 + self.dice.small(2)))
        return f"INSERT INTO {table.name}{names} VALUES {rows}"

    def tuple(self, columns: list[ColumnOf]) -> str:
        key = str(self.dice.number(1, 2 * self.keys)) if not self.dice.one_in(30) else "NULL"
        return f"({', '.join([key, *map(self.literal, columns[1:])])})"

    def delete(self, table: Table) -> str:
        return f"DELETE FROM {table.name}{self.where(table)}"

    def select(self, table: Table) -> str:
        column = self.column(table)
        items = self.dice.pick(
            "*",
            ", ".join(it.name for it in self.dice.few_of(list(table.columns), 1, 3)),
            self.expression(table),
            f"COUNT(*), SUM({self.column(table, 'int').name})",
            f"MIN({column.name}), MAX({column.name}), COUNT({column.name})",
        )
        return f"SELECT {items} FROM {table.name}{self.where(table)}"

    def groups(self, table: Table) -> str:
        column, number = self.column(table), self.column(table, "int")
        return f"SELECT {column.name}, COUNT(*), SUM({number.name}) FROM {table.name}{self.where(table)} GROUP BY {column.name}"

    def join(self, table: Table) -> str:
        other = self.dice.pick(*self.catalog)
        left, right = self.column(table, "int").name, self.column(other, "int").name
        on = f"a.{left} {self.dice.pick('=', '=', '<')} b.{right}"
        where = f" WHERE {self.condition(table, 'a.')}" if self.dice.one_in(2) else ""
        items = self.dice.pick(f"a.{left}, b.{other.columns[0].name}", "COUNT(*)", self.expression(other, "b."))
        return f"SELECT {items} FROM {table.name} a JOIN {other.name} AS b ON {on}{where}"


def catalog(dice: Dice) -> Catalog:
    """One to three tables, seldom as many and as wide as may be."""
    most = 16 if dice.one_in(40) else 3
    wide = 7 if dice.one_in(20) else 3
    return tuple(Table(f"t{place}", columns(dice, dice.number(0, wide))) for place in range(1 + dice.small(most - 1)))


def columns(dice: Dice, others: int) -> tuple[ColumnOf, ...]:
    kinds = [dice.pick("int", "int", "text") for _ in range(others)]
    return (ColumnOf("id", "int"), *(ColumnOf(LETTERS[at], it, dice.one_in(2)) for at, it in enumerate(kinds)))


def tables(dice: Dice, made: Catalog, keys: int) -> list[str]:
    """The lines of tables with their indexes and rows."""
    statements, lines = Statements(dice, made, keys), []
    for table in made:
        lines.append(write.table(table))
        lines += [f"index {table.name} {it.name}" for it in table.columns[1:] if dice.one_in(3)]
        for key in dice.few_of(list(range(1, keys + 1)), 0, keys):
            values = ", ".join([str(key), *map(statements.literal, table.columns[1:])])
            lines.append(f"row {table.name} ({values})")
    return lines


def act(dice: Dice, txns: int) -> str:
    """What a liar does, with transactions' numbers that may be there."""
    numbers = " ".join(str(dice.number(1, txns)) for _ in range(dice.small(4)))
    return dice.pick(
        f"wrong {dice.number(-3, 20)}",
        f"wrong {dice.pick(*EXTREMES)}",
        f"drop {dice.small(3)}",
        f"drop {dice.number(0, 1)}",
        "early",
        "early",
        "fail",
        f"block {numbers}".strip(),
        f"deadlock {numbers}".strip(),
        f"deadlock {dice.number(1, txns)} {dice.number(1, txns)}",
        f"position {dice.small(5)}",
    )


def faults(dice: Dice, f: int, txns: int) -> list[str]:
    """Lies of up to f replicas, seldom of more, and losses of any."""
    replicas = list(range(2 * f + 1))
    most = 2 * f + 1 if dice.one_in(6) else f
    liars = dice.few_of(replicas, 0, most)
    if most and dice.one_in(2):
        liars = sorted({0, *liars} if len(liars) < most else liars)
    lines = [line for it in liars for line in lies(dice, it, txns)]
    if not dice.one_in(3):
        losers = dice.few_of(replicas, 0, 2)
        lines += [f"lose {it} {call(dice)} {dice.pick('before', 'after')}" for it in losers for _ in range(1 + dice.small(3))]
    return once_a_call(lines) + suspicions(dice)


def call(dice: Dice) -> int:
    return 1 + dice.small(dice.pick(4, 12, 40))


def lies(dice: Dice, replica: int, txns: int) -> list[str]:
    """A few lies, or one at each of many calls, of which restarts are seldom any but behind a loss."""
    if dice.one_in(6):
        first, act_of_all = call(dice), act(dice, txns)
        found = [f"lie {replica} {it} {act_of_all}" for it in range(first, first + dice.number(2, 30))]
    else:
        found = [f"lie {replica} {call(dice)} {act(dice, txns)}" for _ in range(1 + dice.small(5))]
    if dice.one_in(3):
        lost = call(dice)
        found = [f"lose {replica} {lost} after", f"lie {replica} {lost + 1} position {dice.small(4)}", *found]
    return found


def once_a_call(lines: list[str]) -> list[str]:
    """The lines without those that tell a replica's call again."""
    kept: dict[tuple[str, ...], str] = {}
    for line in lines:
        kept.setdefault(tuple(line.split()[1:3]), line)
    return list(kept.values())


def suspicions(dice: Dice) -> list[str]:
    if not dice.one_in(4):
        return []
    return [f"suspect after {it}" for it in sorted(1 + dice.small(5) for _ in range(1 + dice.small(3)))]


def block(dice: Dice, statements: Statements) -> list[str]:
    lines = ["BEGIN"] if dice.one_in(10) else []
    lines += [statements.any() for _ in range(dice.small(6) if dice.one_in(2) else dice.number(1, 3))]
    return [*lines, "ROLLBACK" if dice.one_in(8) else "COMMIT"]


def sessions(dice: Dice, statements: Statements) -> list[list[str]]:
    count = dice.number(1, 12) if dice.one_in(8) else dice.number(1, 4)
    return [
        [line for _ in range(1 + dice.small(3)) for line in block(dice, statements)] for _ in range(count)
    ]


def schedule(dice: Dice, sessions: int, replicas: int) -> list[str]:
    """None; single choices that favour some sessions and replicas, and mostly rounds behind them."""
    if dice.one_in(3):
        return []
    favoured = [f"s{dice.number(1, sessions)}", f"r{dice.number(0, replicas - 1)}", f"s{dice.number(1, sessions)}"]
    lines = []
    for _ in range(dice.number(0, 12)):
        words = []
        for _ in range(dice.number(1, 14)):
            replica = dice.number(0, replicas - 1)
            words.append(dice.pick(*favoured, f"s{dice.number(1, sessions)}", f"r{replica}", f"t{replica}", f"g{replica}"))
        lines.append(" ".join(words))
        if dice.one_in(6):
            lines.append(f"rounds {dice.number(1, 4)}")
    if not dice.one_in(8):
        lines.append(f"rounds {dice.number(10, 150)}")
    return ["schedule", *lines, "end"]


def scenario(seed: int) -> list[str]:
    """The lines of a scenario: one in four is narrow."""
    dice = Dice(seed)
    return narrow(dice) if dice.one_in(4) else wide(dice)


def wide(dice: Dice) -> list[str]:
    """Of anything a little."""
    f = dice.pick(0, 1, 1, 1, 1, 1, 2, 2, 3)
    keys = dice.pick(1, 2, 3, 3, 6, 20)
    made = catalog(dice)
    lines = head(dice, f)
    if not dice.one_in(3):
        lines.append(f"retries {dice.small(9)}")
    lines += tables(dice, made, keys)
    scripts = sessions(dice, Statements(dice, made, keys))
    lines += faults(dice, f, 2 * len(scripts) + 1)
    return lines + ends(dice, scripts, 2 * f + 1)


def narrow(dice: Dice) -> list[str]:
    """Reads and writes of one or two rows, a replica that mostly drops a write, and choices one by one, so that replicas
    run what they are given at quite different times."""
    f, keys = dice.pick(1, 1, 1, 2), dice.number(1, 2)
    made = (Table("t", (ColumnOf("id", "int"), ColumnOf("v", "int"))),)
    lines = [*head(dice, f), f"retries {dice.small(2)}", write.table(made[0])]
    lines += [f"row t ({key}, {dice.number(0, 9)})" for key in range(1, keys + 1)]
    liar = 0 if dice.one_in(2) else dice.number(0, 2 * f)
    lines += [f"lie {liar} {it} {dice.pick('drop 1', 'drop 1', 'early', 'wrong 5')}" for it in {call(dice), 1 + dice.small(3)}]
    statements = Statements(dice, made, keys, narrow=True)
    scripts = [[line for _ in range(dice.number(1, 2)) for line in block(dice, statements)] for _ in range(dice.number(2, 3))]
    return lines + ends(dice, scripts, 2 * f + 1)


def head(dice: Dice, f: int) -> list[str]:
    replicas = [dice.pick("table", "range") for _ in range(2 * f + 1)]
    return ["hrdb 1", f"f {f}", f"replicas {' '.join(replicas)}"]


def ends(dice: Dice, scripts: list[list[str]], replicas: int) -> list[str]:
    """The lines of sessions, and of the schedule."""
    lines = [line for script in scripts for line in ["session", *script, "end"]]
    return lines + schedule(dice, len(scripts), replicas)
