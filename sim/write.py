"""The texts of values, answers and scenarios."""

from __future__ import annotations

from . import machine
from .machine import Answer, Count, Failed, Row
from .syntax import Value


def literal(value: Value) -> str:
    if value is None:
        return "NULL"
    return str(value) if isinstance(value, int) else "'" + value.replace("'", "''") + "'"


def row(values: Row) -> str:
    return "(" + ", ".join(map(literal, values)) + ")"


def answer(it: Answer) -> str:
    """An answer's lines, with no line feed behind the last."""
    if isinstance(it, Count):
        return f"count {it.number}"
    if isinstance(it, Failed):
        return f"failed {it.cause}"
    return "\n".join([f"rows {len(it.rows)}", *map(row, it.rows)])


def table(it: machine.Table) -> str:
    """The line of a scenario that says a table."""
    key, *others = it.columns
    columns = [f"{key.name} int key", *(f"{c.name} {c.kind}{' null' if c.nullable else ''}" for c in others)]
    return f"table {it.name} ({', '.join(columns)})"
