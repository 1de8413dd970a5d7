"""A failing scenario cut down to a small one that still fails: lines are left out for as long as that may be."""

from __future__ import annotations

from collections.abc import Callable, Iterator

Fails = Callable[[list[str]], bool]


def shrink(lines: list[str], fails: Fails) -> list[str]:
    """A part of these lines that fails, and of which no stretch of lines can be left out."""
    lines = one_choice_a_line(lines)
    smaller: list[str] | None = lines
    while smaller is not None:
        lines = smaller
        smaller = next((it for it in parts(lines) if fails(it)), None)
    return lines


def parts(lines: list[str]) -> Iterator[list[str]]:
    """The lines without one stretch of them, long stretches first."""
    length = len(lines) // 2
    while length:
        for start in range(0, len(lines) - length + 1, max(1, length // 4)):
            yield lines[:start] + lines[start + length :]
        length = length * 2 // 3


def one_choice_a_line(lines: list[str]) -> list[str]:
    """The lines with each choice of a schedule on a line of its own."""
    if "schedule" not in lines:
        return lines
    start = lines.index("schedule") + 1
    words = " ".join(lines[start:]).replace("rounds ", "rounds_").split()
    return lines[:start] + [it.replace("_", " ") for it in words]
