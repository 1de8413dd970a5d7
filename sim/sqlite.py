"""The plain machine beside SQLite, on made-up statements.

Where SQLite means something else nothing is compared: a sum that overflows, an answer of more rows than this profile
gives, a statement whose failure depends on the order of rows, and one that is too deep for SQLite's parser.
"""

from __future__ import annotations

import re
import sqlite3
from collections.abc import Iterable

from . import machine, syntax, write
from .make import catalog, Dice, Statements, tables

STATEMENTS = 40


def compare(seeds: Iterable[int]) -> tuple[int, list[str]]:
    """How many statements were compared, and those that differ."""
    compared, wrong = 0, []
    for seed in seeds:
        dice = Dice(f"sqlite {seed}")
        both = Both(dice)
        for _ in range(STATEMENTS):
            text = both.statements.any()
            agrees = both.agrees(text)
            compared += agrees is not None
            if agrees is False:
                wrong.append(f"seed {seed}: {text}")
                break
    return compared, wrong


class Both:
    """The same tables in the plain machine and in SQLite."""

    def __init__(self, dice: Dice):
        made = catalog(dice)
        self.statements = Statements(dice, made, 6)
        self.plain = machine.Machine(made)
        self.sqlite = sqlite3.connect(":memory:", isolation_level=None)
        for table in made:
            self.create(table)
        for line in tables(dice, made, 6):
            if line.startswith("row "):
                self.agrees(re.sub(r"^row (\w+) ", r"INSERT INTO \1 VALUES ", line))

    def create(self, table: machine.Table) -> None:
        columns = [f"{it.name} {it.kind}{'' if it.nullable else ' NOT NULL'}" for it in table.columns]
        columns[0] = f"{table.columns[0].name} INT PRIMARY KEY NOT NULL"
        self.sqlite.execute(f"CREATE TABLE {table.name} ({', '.join(columns)})")

    def agrees(self, text: str) -> bool | None:
        """Whether both answer the same, and hold the same then; None where SQLite means something else."""
        tree = machine.bind(self.plain.catalog, syntax.parse(text))
        before = self.plain.copy()
        due = self.plain.run(tree)
        if due in (machine.Failed("overflow"), machine.Failed("toomany")):
            return None
        try:
            told = self.answer(text, isinstance(tree, syntax.Select))
        except sqlite3.OperationalError as error:
            if "parser stack overflow" not in str(error):
                raise
            self.plain = before
            return None
        except sqlite3.IntegrityError as error:
            word = "duplicate" if "UNIQUE" in str(error) else "null"
            return isinstance(due, machine.Failed) and due.cause.startswith(word) and self.holds(before)
        return told == write.answer(due) and self.holds(self.plain)

    def answer(self, text: str, selects: bool) -> str:
        cursor = self.sqlite.execute(text)
        if not selects:
            return f"count {cursor.rowcount}"
        return write.answer(machine.Rows(tuple(sorted(cursor.fetchall(), key=machine.row_order))))

    def holds(self, plain: machine.Machine) -> bool:
        """Whether SQLite's tables have the rows of this machine."""
        return all(
            self.sqlite.execute(f"SELECT * FROM {it.name} ORDER BY 1").fetchall() == plain.in_order(it.name)
            for it in plain.catalog
        )
