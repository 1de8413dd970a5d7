"""The plain machine: what statements mean, on lists of rows.

It has no locks, no indexes and no transactions. Written from the profile's rules, apart from the program: conditions in
three values, errors in their order, and a Failed answer that changes nothing.
"""

from __future__ import annotations

from collections.abc import Callable, Iterator
from dataclasses import dataclass

from . import syntax
from .syntax import BadStatement, Value

Row = tuple[Value, ...]
Pair = tuple[Row, ...]
MOST_ROWS = 128
MOST_COLUMNS = 8


@dataclass(frozen=True)
class ColumnOf:
    """A column of a table; `kind` is int or text."""

    name: str
    kind: str
    nullable: bool = False


@dataclass(frozen=True)
class Table:
    """A table's name and columns, of which the first is the key."""

    name: str
    columns: tuple[ColumnOf, ...]

    def place(self, name: str) -> int:
        """A column's place from 0."""
        for place, column in enumerate(self.columns):
            if column.name == name:
                return place
        raise BadStatement(f"no column {name} in {self.name}")


Catalog = tuple[Table, ...]


@dataclass(frozen=True)
class Count:
    number: int


@dataclass(frozen=True)
class Rows:
    """Rows in ascending order, so that equal answers are equal values."""

    rows: tuple[Row, ...]


@dataclass(frozen=True)
class Failed:
    """`cause` is as a report writes it: `duplicate 7`, `overflow`, `null 2`, `toomany`."""

    cause: str


Answer = Count | Rows | Failed


class Failure(Exception):
    """A statement's error while it runs; its text is the cause."""


def value_order(value: Value) -> tuple:
    """NULL first, then numbers, then texts by bytes."""
    if value is None:
        return (0,)
    return (1, value) if isinstance(value, int) else (2, value)


def row_order(row: Row) -> list[tuple]:
    return [value_order(it) for it in row]


def in_64_bits(number: int) -> int:
    if not syntax.LEAST <= number <= syntax.GREATEST:
        raise Failure("overflow")
    return number


class Scope:
    """The entries of a statement, and what the columns of its text are called in them."""

    def __init__(self, catalog: Catalog, entries: tuple[syntax.Entry, ...]):
        self.tables = [table_of(catalog, it.table) for it in entries]
        self.aliases = [it.alias for it in entries]
        if len(set(self.aliases)) < len(self.aliases):
            raise BadStatement("a name twice")

    def find(self, column: syntax.Column) -> tuple[int, int]:
        """The entry of a column, and its place in that entry's table."""
        found = [
            (entry, [it.name for it in table.columns].index(column.name))
            for entry, (table, alias) in enumerate(zip(self.tables, self.aliases))
            if column.table in (None, alias) and any(it.name == column.name for it in table.columns)
        ]
        if len(found) != 1:
            raise BadStatement(f"{len(found)} columns {column.name}")
        return found[0]

    def kind(self, tree: syntax.Expression) -> str | None:
        """An expression's kind, or None where it is NULL and fits each; its parts are checked."""
        if isinstance(tree, syntax.Literal):
            return literal_kind(tree)
        if isinstance(tree, syntax.Column):
            entry, place = self.find(tree)
            return self.tables[entry].columns[place].kind
        for side in (tree.left, tree.right):
            must_fit(self.kind(side), "int")
        return "int"

    def check(self, tree: syntax.Condition | None) -> None:
        """Each comparison of a condition has sides of one kind."""
        if isinstance(tree, syntax.Compare):
            must_fit(self.kind(tree.left), self.kind(tree.right))
        elif isinstance(tree, syntax.IsNull):
            self.kind(tree.operand)
        elif isinstance(tree, syntax.Not):
            self.check(tree.inner)
        elif tree is not None:
            self.check(tree.left)
            self.check(tree.right)


def table_of(catalog: Catalog, name: str) -> Table:
    for table in catalog:
        if table.name == name:
            return table
    raise BadStatement(f"no table {name}")


def literal_kind(literal: syntax.Literal) -> str | None:
    if isinstance(literal.value, str):
        if len(literal.value) > syntax.LONGEST_TEXT:
            raise BadStatement("a text too long")
        return "text"
    return None if literal.value is None else "int"


def must_fit(one: str | None, other: str | None) -> None:
    if one is not None and other is not None and one != other:
        raise BadStatement(f"{one} beside {other}")


def value(tree: syntax.Expression, pair: Pair, scope: Scope) -> Value:
    """The value of an expression; operands are evaluated from the left, also where one is NULL."""
    if isinstance(tree, syntax.Literal):
        return tree.value
    if isinstance(tree, syntax.Column):
        entry, place = scope.find(tree)
        return pair[entry][place]
    left, right = value(tree.left, pair, scope), value(tree.right, pair, scope)
    if left is None or right is None:
        return None
    result = {"+": left + right, "-": left - right, "*": left * right}[tree.operator]
    return in_64_bits(result)


COMPARED: dict[str, Callable] = {
    "=": lambda a, b: a == b,
    "<>": lambda a, b: a != b,
    "<": lambda a, b: a < b,
    "<=": lambda a, b: a <= b,
    ">": lambda a, b: a > b,
    ">=": lambda a, b: a >= b,
}


def truth(tree: syntax.Condition, pair: Pair, scope: Scope) -> bool | None:
    """True, False, or None for unknown."""
    if isinstance(tree, syntax.Compare):
        left, right = value(tree.left, pair, scope), value(tree.right, pair, scope)
        return None if left is None or right is None else COMPARED[tree.operator](left, right)
    if isinstance(tree, syntax.IsNull):
        return value(tree.operand, pair, scope) is None
    if isinstance(tree, syntax.Not):
        inner = truth(tree.inner, pair, scope)
        return None if inner is None else not inner
    sides = (truth(tree.left, pair, scope), truth(tree.right, pair, scope))
    decides = isinstance(tree, syntax.Either)
    if decides in sides:
        return decides
    return None if None in sides else not decides


class Machine:
    """The tables of a catalog with their rows, each kept by its key."""

    def __init__(self, catalog: Catalog):
        self.catalog = catalog
        self.rows: dict[str, dict[int, Row]] = {it.name: {} for it in catalog}

    def copy(self) -> Machine:
        other = Machine(self.catalog)
        other.rows = {name: dict(rows) for name, rows in self.rows.items()}
        return other

    def in_order(self, table: str) -> list[Row]:
        """A table's rows in the order of their keys."""
        return [row for _, row in sorted(self.rows[table].items())]

    def run(self, tree: syntax.Statement) -> Answer:
        """A statement's answer; the rows are then what it leaves."""
        try:
            if isinstance(tree, syntax.Select):
                return Rows(tuple(sorted(self._select(tree), key=row_order)))
            if isinstance(tree, syntax.Insert):
                return self._insert(tree)
            return self._update(tree) if isinstance(tree, syntax.Update) else self._delete(tree)
        except Failure as failure:
            return Failed(str(failure))

    def _kept(self, scope: Scope, *conditions: syntax.Condition | None) -> list[Pair]:
        """The rows, or pairs, of which each condition is true, in order of first key and then second."""
        tests = [it for it in conditions if it is not None]
        return [it for it in self._pairs(scope) if all(truth(test, it, scope) is True for test in tests)]

    def _pairs(self, scope: Scope) -> Iterator[Pair]:
        first, *others = (self.in_order(it.name) for it in scope.tables)
        for row in first:
            if not others:
                yield (row,)
            for other in (others or [[]])[0]:
                yield (row, other)

    def _select(self, tree: syntax.Select) -> list[Row]:
        scope = Scope(self.catalog, tree.entries)
        kept = self._kept(scope, tree.on, tree.where)
        items = tree.items or tuple(all_columns(scope))
        if tree.groups:
            places = [scope.find(it) for it in tree.groups]
            groups: dict[Row, list[Pair]] = {}
            for pair in kept:
                groups.setdefault(tuple(pair[entry][place] for entry, place in places), []).append(pair)
            few(groups)
            members = [groups[it] for it in sorted(groups, key=row_order)]
        elif any(isinstance(it, syntax.Aggregate) for it in items):
            members = [kept]
        else:
            few(kept)
            members = [[it] for it in kept]
        return [tuple(shown(item, pairs, scope) for item in items) for pairs in members]

    def _insert(self, tree: syntax.Insert) -> Answer:
        table = table_of(self.catalog, tree.table)
        after = dict(self.rows[tree.table])
        for literals in tree.tuples:
            row = inserted_row(table, tree.columns, literals)
            refuse_nulls(table, range(len(row)), row)
            if row[0] in after:
                raise Failure(f"duplicate {row[0]}")
            after[row[0]] = row
        self.rows[tree.table] = after
        return Count(len(tree.tuples))

    def _update(self, tree: syntax.Update) -> Answer:
        scope = Scope(self.catalog, (syntax.Entry(tree.table, tree.table),))
        table = scope.tables[0]
        kept = self._kept(scope, tree.where)
        changed = {pair[0][0]: updated(table, tree.sets, pair, scope) for pair in kept}
        self.rows[tree.table] = {**self.rows[tree.table], **changed}
        return Count(len(kept))

    def _delete(self, tree: syntax.Delete) -> Answer:
        scope = Scope(self.catalog, (syntax.Entry(tree.table, tree.table),))
        gone = {pair[0][0] for pair in self._kept(scope, tree.where)}
        self.rows[tree.table] = {key: row for key, row in self.rows[tree.table].items() if key not in gone}
        return Count(len(gone))


def few(found) -> None:
    if len(found) > MOST_ROWS:
        raise Failure("toomany")


def all_columns(scope: Scope) -> Iterator[syntax.Column]:
    for table, alias in zip(scope.tables, scope.aliases):
        for column in table.columns:
            yield syntax.Column(alias, column.name)


def shown(item: syntax.Expression | syntax.Aggregate, pairs: list[Pair], scope: Scope) -> Value:
    """What an item shows of a group, of which a plain item sees the first member."""
    if not isinstance(item, syntax.Aggregate):
        return value(item, pairs[0], scope)
    if item.column is None:
        return len(pairs)
    entry, place = scope.find(item.column)
    values = [pair[entry][place] for pair in pairs if pair[entry][place] is not None]
    if item.word == "count":
        return len(values)
    if not values:
        return None
    return in_64_bits(sum(values)) if item.word == "sum" else {"min": min, "max": max}[item.word](values)


def inserted_row(table: Table, columns: tuple[str, ...], literals: tuple[syntax.Literal, ...]) -> Row:
    """The row that a tuple says, with NULL for each column that isn't named."""
    row: list[Value] = [None] * len(table.columns)
    places = [table.place(it) for it in columns] or range(len(row))
    for place, literal in zip(places, literals):
        row[place] = literal.value
    return tuple(row)


def refuse_nulls(table: Table, places, row: Row) -> None:
    for place in places:
        if row[place] is None and not table.columns[place].nullable:
            raise Failure(f"null {place + 1}")


def updated(table: Table, sets, pair: Pair, scope: Scope) -> Row:
    """A row after assignments from the left, each over the old row."""
    row = list(pair[0])
    for name, tree in sets:
        place = table.place(name)
        row[place] = value(tree, pair, scope)
        refuse_nulls(table, [place], tuple(row))
    return tuple(row)


def bind(catalog: Catalog, tree: syntax.Statement) -> syntax.Statement:
    """The tree, where its names and kinds fit the catalog."""
    if isinstance(tree, syntax.Select):
        _bind_select(catalog, tree)
    elif isinstance(tree, syntax.Insert):
        _bind_insert(catalog, tree)
    else:
        scope = Scope(catalog, (syntax.Entry(tree.table, tree.table),))
        scope.check(tree.where)
        if isinstance(tree, syntax.Update):
            _bind_sets(scope, tree)
    return tree


def _bind_select(catalog: Catalog, tree: syntax.Select) -> None:
    scope = Scope(catalog, tree.entries)
    scope.check(tree.on)
    scope.check(tree.where)
    groups = [scope.find(it) for it in tree.groups]
    items = tree.items or tuple(all_columns(scope))
    mixes = bool(groups) or any(isinstance(it, syntax.Aggregate) for it in items)
    if len(items) > MOST_COLUMNS or (tree.items is None and groups):
        raise BadStatement("too many columns, or * of groups")
    for item in items:
        if isinstance(item, syntax.Aggregate):
            if item.column is not None and scope.kind(item.column) != "int" and item.word == "sum":
                raise BadStatement("a sum of texts")
            continue
        scope.kind(item)
        if mixes and not (isinstance(item, syntax.Column) and scope.find(item) in groups):
            raise BadStatement("an item beside aggregates")


def _bind_insert(catalog: Catalog, tree: syntax.Insert) -> None:
    table = table_of(catalog, tree.table)
    if len(set(tree.columns)) < len(tree.columns):
        raise BadStatement("a name twice")
    places = [table.place(it) for it in tree.columns] or list(range(len(table.columns)))
    for literals in tree.tuples:
        if len(literals) != len(places):
            raise BadStatement("a tuple of another length")
        for place, literal in zip(places, literals):
            must_fit(literal_kind(literal), table.columns[place].kind)


def _bind_sets(scope: Scope, tree: syntax.Update) -> None:
    table = scope.tables[0]
    places = [table.place(name) for name, _ in tree.sets]
    if 0 in places or len(set(places)) < len(places):
        raise BadStatement("the key assigned, or a name twice")
    for place, (_, expression) in zip(places, tree.sets):
        must_fit(scope.kind(expression), table.columns[place].kind)
