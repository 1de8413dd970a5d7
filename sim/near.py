"""Scenarios near to the stored ones: a few choices swapped, left out or put in, a lie or a loss at another call.

What takes several things at once, as a vote that is stale, is hardly met by chance; near to a run that has it, it is.
"""

from __future__ import annotations

from functools import cache

from . import runs
from .make import Dice
from .shrink import one_choice_a_line

MOST_LINES = 120


@cache
def stored() -> list[list[str]]:
    """The stored scenarios that have a report, but for the longest."""
    found = [path.with_suffix(".hrdb") for path in sorted(runs.TOP.glob("scenarios/*.report"))]
    lines = [it.read_text().splitlines() for it in found]
    return [it for it in lines if len(it) <= MOST_LINES]


def scenario(seed: int) -> list[str]:
    """The lines of a stored scenario with one to six changes."""
    dice = Dice(f"near {seed}")
    lines = one_choice_a_line(dice.pick(*stored()))
    for _ in range(1 + dice.small(5)):
        lines = dice.pick(of_choices, of_choices, of_choices, of_faults)(dice, lines)
    return lines


def of_choices(dice: Dice, lines: list[str]) -> list[str]:
    """Two neighbours of a schedule change places, one is left out, or another is put in; or 200 rounds get a schedule."""
    sessions, replicas = lines.count("session"), len(lines[2].split()) - 1
    numbers = [f"s{dice.number(1, max(1, sessions))}", *(f"{it}{dice.number(0, replicas - 1)}" for it in "rrtg")]
    if "schedule" not in lines:
        return [*lines, "schedule", *(dice.pick(*numbers) for _ in range(dice.number(1, 9))), "rounds 60", "end"]
    first, last = lines.index("schedule") + 1, len(lines) - 1
    if first == last:
        return lines
    at = dice.number(first, last - 1)
    return dice.pick(
        lines[:at] + lines[at : at + 2][::-1] + lines[at + 2 :] if at + 1 < last else lines,
        lines[:at] + lines[at + 1 :],
        lines[:at] + [dice.pick(*numbers)] + lines[at:],
        lines[:last] + [f"rounds {dice.number(1, 20)}"] + lines[last:],
    )


def of_faults(dice: Dice, lines: list[str]) -> list[str]:
    """A lie or loss comes at another call, goes, or one more is there; or refused transactions are tried again."""
    places = [at for at, it in enumerate(lines) if it.startswith(("lie ", "lose "))]
    tables = [at for at, it in enumerate(lines) if it.startswith(("table ", "row ", "index "))]
    replica, call = dice.number(0, len(lines[2].split()) - 2), 1 + dice.small(6)
    act = dice.pick("lose {} {} before", "lose {} {} after", "lie {} {} drop 1", "lie {} {} wrong 7", "lie {} {} early")
    added = [act.format(replica, call)]
    if not places or dice.one_in(3):
        at = tables[-1] + 1 if tables else 3
        retries = lines[:3] + [f"retries {dice.number(1, 3)}"] + lines[3:]
        return lines[:at] + added + lines[at:] if lines[3].startswith("retries") or dice.one_in(2) else retries
    at = dice.pick(*places)
    words = lines[at].split()
    moved = [" ".join([words[0], words[1], str(call), *words[3:]])]
    return lines[:at] + dice.pick(moved, moved, [], [lines[at], *added]) + lines[at + 1 :]
