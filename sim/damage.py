"""Damaged scenarios: those of seeds and the stored ones, with bytes, words and lines broken."""

from __future__ import annotations

from functools import cache

from . import make, runs, scenario
from .make import Dice
from .scenario import Refused

# Words that stand in other places than where they come to stand.
WORDS = (
    "0 1 -1 00 007 3 4 10 999999999999999999999 18446744073709551616 -9223372036854775809 9223372036854775808 t t0 id"
    " NULL 'x' ' ( ) , ; , * key int text null end session schedule rounds s0 s1 s99 r0 r9 t1 g2 BEGIN commit ROLLBACK"
    " lie lose before after wrong block deadlock position suspect index row table replicas f hrdb retries # SELECT FROM"
    " WHERE AND OR NOT BETWEEN IN SUM COUNT(*) GROUP BY - + = <> <="
).split()
BYTES = b"\x00\t\n\r\x1f !'(),-;#=09aZ_~\x7f\x80\xff"


@cache
def stored() -> list[bytes]:
    return [it.read_bytes() for it in sorted(runs.TOP.glob("scenarios/*.hrdb"))]


def damaged(seed: int) -> bytes:
    """A scenario with one to four damages."""
    dice = Dice(f"damage {seed}")
    text = dice.pick(*stored()) if dice.one_in(3) else ("\n".join(make.scenario(seed)) + "\n").encode()
    for _ in range(1 + dice.small(3)):
        text = dice.pick(of_bytes, of_words, of_words, of_lines)(dice, text)
    return text


def of_bytes(dice: Dice, text: bytes) -> bytes:
    """Bytes are changed, left out, put in, or cut off at the end."""
    place = dice.number(0, len(text))
    found = bytes([dice.pick(*BYTES) if not dice.one_in(5) else dice.number(0, 255)])
    return dice.pick(
        text[:place] + found + text[place + 1 :],
        text[:place] + text[place + 1 :],
        text[:place] + found + text[place:],
        text[:place] + found * dice.pick(2, 70, 1100) + text[place:],
        text[:place],
    )


def of_words(dice: Dice, text: bytes) -> bytes:
    """A word of a line is changed, left out, said again, or gets another beside it."""
    lines = text.split(b"\n")
    place = dice.number(0, len(lines) - 1)
    words = lines[place].split(b" ")
    at, other = dice.number(0, len(words) - 1), dice.pick(*WORDS).encode()
    words[at : at + 1] = dice.pick([other], [], [words[at], words[at]], [other, words[at]], [words[at], other])
    lines[place] = b" ".join(words)
    return b"\n".join(lines)


def of_lines(dice: Dice, text: bytes) -> bytes:
    """A line is left out, said again, or comes to stand elsewhere; or a stretch of lines goes."""
    lines = text.split(b"\n")
    place, other = dice.number(0, len(lines) - 1), dice.number(0, len(lines) - 1)
    line = lines[place]
    kind = dice.number(0, 3)
    if kind != 1:
        del lines[place]
    if kind in (1, 2):
        lines.insert(other, line)
    if kind == 3:
        del lines[place : place + dice.number(1, 5)]
    return b"\n".join(lines)


def kind_of(text: bytes) -> str:
    """The kind for which a text is refused, or that it is read."""
    try:
        scenario.read(text)
    except Refused as refused:
        return f"refused {refused.kind}"
    return "read"
