"""The SQL profile's text: tokens, and trees from them.

Written from the profile's grammar alone. A statement that isn't one, for whatever reason, raises `BadStatement`: the
report and the refusals of a scenario never tell more than that.
"""

from __future__ import annotations

import re
from dataclasses import dataclass, field

Value = int | str | None

KEYWORDS = frozenset(
    "select from inner join on where group by insert into values update set delete and or not is null between in as"
    " count sum min max begin commit rollback order limit asc desc".split()
)
AGGREGATES = ("count", "sum", "min", "max")
COMPARISONS = ("=", "<>", "!=", "<=", ">=", "<", ">")
LONGEST_STATEMENT = 1024
LONGEST_NAME = 32
LONGEST_TEXT = 64
LEAST, GREATEST = -(2**63), 2**63 - 1

TOKEN = re.compile(
    r"[ \t]*(?:(?P<name>[A-Za-z_][A-Za-z0-9_]*)|(?P<number>[0-9]+)|(?P<text>'(?:[^']|'')*'(?!'))"
    r"|(?P<sign><>|!=|<=|>=|[(),.;*+\-=<>])|(?P<end>\Z))"
)


class BadStatement(Exception):
    """The text is no statement, or its names and kinds don't fit the tables."""


@dataclass(frozen=True)
class Token:
    """`kind` is keyword, name, number, text, sign or end; `word` is what it says, a keyword or name in small letters."""

    kind: str
    word: str


@dataclass(frozen=True)
class Literal:
    value: Value


@dataclass(frozen=True)
class Column:
    """A column as written: `t.c`, or `c` with no table."""

    table: str | None
    name: str


@dataclass(frozen=True)
class Arithmetic:
    operator: str
    left: Expression
    right: Expression


Operand = Literal | Column
Expression = Literal | Column | Arithmetic


@dataclass(frozen=True)
class Compare:
    operator: str
    left: Operand
    right: Operand


@dataclass(frozen=True)
class IsNull:
    operand: Operand


@dataclass(frozen=True)
class Not:
    inner: Condition


@dataclass(frozen=True)
class Both:
    left: Condition
    right: Condition


@dataclass(frozen=True)
class Either:
    left: Condition
    right: Condition


Condition = Compare | IsNull | Not | Both | Either


@dataclass(frozen=True)
class Aggregate:
    """`column` is None for COUNT(*)."""

    word: str
    column: Column | None


@dataclass(frozen=True)
class Entry:
    """A table of a SELECT, and the name by which its columns are called."""

    table: str
    alias: str


@dataclass(frozen=True)
class Select:
    """`items` is None for `*`."""

    items: tuple[Expression | Aggregate, ...] | None
    entries: tuple[Entry, ...]
    on: Condition | None
    where: Condition | None
    groups: tuple[Column, ...]


@dataclass(frozen=True)
class Insert:
    """`columns` is empty where none are named."""

    table: str
    columns: tuple[str, ...]
    tuples: tuple[tuple[Literal, ...], ...]


@dataclass(frozen=True)
class Update:
    table: str
    sets: tuple[tuple[str, Expression], ...]
    where: Condition | None


@dataclass(frozen=True)
class Delete:
    table: str
    where: Condition | None


Statement = Select | Insert | Update | Delete


def tokens(text: str) -> list[Token]:
    """The tokens of a text, with one of kind `end` behind them."""
    if len(text) > LONGEST_STATEMENT:
        raise BadStatement("too long")
    found, place = [], 0
    while not found or found[-1].kind != "end":
        match = TOKEN.match(text, place)
        if match is None:
            raise BadStatement(f"no token at {place}")
        found.append(_token(match.lastgroup or "end", match[match.lastgroup or "end"]))
        place = match.end()
    return found


def _token(kind: str, word: str) -> Token:
    if kind == "name":
        word = word.lower()
        if len(word) > LONGEST_NAME:
            raise BadStatement("a name too long")
        return Token("keyword" if word in KEYWORDS else "name", word)
    if kind == "number" and int(word) > GREATEST + 1:
        raise BadStatement("a number too large")
    if kind == "text":
        if any(not " " <= it <= "~" for it in word):
            raise BadStatement("a byte that no text has")
        return Token(kind, word[1:-1].replace("''", "'"))
    return Token(kind, word)


@dataclass
class Reader:
    """Reads trees from tokens, from the left, with one token to look at."""

    left: list[Token]
    place: int = field(default=0)

    def sees(self, *words: str) -> bool:
        """Whether the next token is one of these keywords or signs."""
        token = self.left[self.place]
        return token.kind in ("keyword", "sign") and token.word in words

    def takes(self, *words: str) -> str | None:
        """Takes the next token where it is one of these, and tells which."""
        return self.take().word if self.sees(*words) else None

    def take(self) -> Token:
        token = self.left[self.place]
        self.place += 1
        return token

    def must(self, *words: str) -> None:
        """The next tokens are these, one after another."""
        for word in words:
            if self.takes(word) is None:
                raise BadStatement(f"no {word}")

    def of_kind(self, kind: str) -> str:
        if self.left[self.place].kind != kind:
            raise BadStatement(f"no {kind}")
        return self.take().word

    def name(self) -> str:
        return self.of_kind("name")

    def listed(self, item):
        """One or more of what `item` reads, with commas between."""
        found = [item()]
        while self.takes(","):
            found.append(item())
        return tuple(found)

    def statement(self) -> Statement:
        word = self.takes("select", "insert", "update", "delete")
        if word is None:
            raise BadStatement("no statement begins so")
        tree = {"select": self.select, "insert": self.insert, "update": self.update, "delete": self.delete}[word]()
        self.takes(";")
        self.of_kind("end")
        return tree

    def select(self) -> Select:
        items = None if self.takes("*") else self.listed(self.item)
        self.must("from")
        entries, on = [self.entry()], None
        if self.sees("inner", "join"):
            self.takes("inner")
            self.must("join")
            entries.append(self.entry())
            self.must("on")
            on = self.condition()
        where = self.where()
        groups: tuple[Column, ...] = ()
        if self.takes("group"):
            self.must("by")
            groups = self.listed(self.column)
        return Select(items, tuple(entries), on, where, groups)

    def item(self) -> Expression | Aggregate:
        word = self.takes(*AGGREGATES)
        if word is None:
            return self.expression()
        self.must("(")
        column = None if word == "count" and self.takes("*") else self.column()
        self.must(")")
        return Aggregate(word, column)

    def entry(self) -> Entry:
        table = self.name()
        if self.takes("as") or self.left[self.place].kind == "name":
            return Entry(table, self.name())
        return Entry(table, table)

    def column(self) -> Column:
        first = self.name()
        return Column(first, self.name()) if self.takes(".") else Column(None, first)

    def insert(self) -> Insert:
        self.must("into")
        table, columns = self.name(), ()
        if self.takes("("):
            columns = self.listed(self.name)
            self.must(")")
        self.must("values")
        return Insert(table, columns, self.listed(self.literals))

    def literals(self) -> tuple[Literal, ...]:
        self.must("(")
        values = self.listed(self.literal)
        self.must(")")
        return values

    def update(self) -> Update:
        table = self.name()
        self.must("set")
        return Update(table, self.listed(self.assignment), self.where())

    def assignment(self) -> tuple[str, Expression]:
        name = self.name()
        self.must("=")
        return name, self.expression()

    def delete(self) -> Delete:
        self.must("from")
        return Delete(self.name(), self.where())

    def where(self) -> Condition | None:
        return self.condition() if self.takes("where") else None

    def condition(self) -> Condition:
        tree = self.conjunction()
        while self.takes("or"):
            tree = Either(tree, self.conjunction())
        return tree

    def conjunction(self) -> Condition:
        tree = self.negation()
        while self.takes("and"):
            tree = Both(tree, self.negation())
        return tree

    def negation(self) -> Condition:
        if self.takes("not"):
            return Not(self.negation())
        if self.takes("("):
            tree = self.condition()
            self.must(")")
            return tree
        return self.check(self.operand())

    def check(self, operand: Operand) -> Condition:
        """What stands behind the first operand of a condition."""
        operator = self.takes(*COMPARISONS)
        if operator:
            return Compare("<>" if operator == "!=" else operator, operand, self.operand())
        if self.takes("is"):
            negated = self.takes("not")
            self.must("null")
            return Not(IsNull(operand)) if negated else IsNull(operand)
        negated = self.takes("not")
        tree = self.between(operand) if self.takes("between") else self.among(operand)
        return Not(tree) if negated else tree

    def between(self, operand: Operand) -> Condition:
        low = self.operand()
        self.must("and")
        return Both(Compare(">=", operand, low), Compare("<=", operand, self.operand()))

    def among(self, operand: Operand) -> Condition:
        self.must("in")
        first, *others = (Compare("=", operand, it) for it in self.literals())
        tree: Condition = first
        for it in others:
            tree = Either(tree, it)
        return tree

    def operand(self) -> Operand:
        return self.column() if self.left[self.place].kind == "name" else self.literal()

    def expression(self) -> Expression:
        tree = self.term()
        while operator := self.takes("+", "-"):
            tree = Arithmetic(operator, tree, self.term())
        return tree

    def term(self) -> Expression:
        tree = self.factor()
        while self.takes("*"):
            tree = Arithmetic("*", tree, self.factor())
        return tree

    def factor(self) -> Expression:
        if self.takes("("):
            tree = self.expression()
            self.must(")")
            return tree
        return self.operand()

    def literal(self) -> Literal:
        if self.takes("null"):
            return Literal(None)
        if self.left[self.place].kind == "text":
            return Literal(self.take().word)
        sign = -1 if self.takes("-") else 1
        number = sign * int(self.of_kind("number"))
        if number > GREATEST:
            raise BadStatement("a number too large")
        return Literal(number)


def parse(text: str) -> Statement:
    """The tree of a statement's text."""
    return Reader(tokens(text)).statement()


def parse_tuple(text: str) -> tuple[Literal, ...]:
    """The values of a text that is one tuple, as of a row line."""
    reader = Reader(tokens(text))
    values = reader.literals()
    reader.of_kind("end")
    return values
