"""One act in `transfer_beside_reader`: each lie and each loss, at each replica and each of its first calls."""

from __future__ import annotations

from collections.abc import Iterator

from . import judge, report, runs, scenario
from .runs import Trial

ACTS = (
    "lie wrong 7",
    "lie drop 1",
    "lie early",
    "lie block",
    "lie block 2",
    "lie deadlock",
    "lie deadlock 1 2",
    "lie fail",
    "lie position 1",
    "lose before",
    "lose after",
)
REPLICAS, CALLS = 3, 12
COUNT = len(ACTS) * REPLICAS * CALLS


def with_act(act: str, replica: int, call: int) -> bytes:
    """The scenario with two retries and this one act."""
    lines = (runs.TOP / "scenarios/transfer_beside_reader.hrdb").read_text().splitlines()
    lines.insert(next(at for at, it in enumerate(lines) if it.startswith("table")), "retries 2")
    word, _, rest = act.partition(" ")
    lines.insert(lines.index("session"), f"{word} {replica} {call} {rest}")
    return ("\n".join(lines) + "\n").encode()


def failing(trial: Trial) -> Iterator[str]:
    """What is wrong, with the act, replica and call of which."""
    for act in ACTS:
        for replica in range(REPLICAS):
            for call in range(1, CALLS + 1):
                for fault in faults(trial, act, replica, call):
                    yield f"{act} at call {call} of replica {replica}: {fault}"


def faults(trial: Trial, act: str, replica: int, call: int) -> list[str]:
    """The run is well by all that holds of any run, both transactions commit, nobody else is convicted, nobody at all
    for a loss, and both other replicas hold what both transactions leave."""
    text = with_act(act, replica, call)
    found = trial.faults(text)
    if found:
        return found
    told = report.read(trial.last.out)
    may_be = set() if act.startswith("lose") else {replica}
    if {it.replica for it in told.convictions} - may_be:
        found.append("another replica is convicted")
    if len(told.commits) != 2:
        found.append(f"{len(told.commits)} commits")
    for number, it in enumerate(told.replicas):
        if number != replica and (it.position, it.state) != (2, "live"):
            found.append(f"replica {number} is {it.state} at {it.position}")
    due = list(judge.serial(scenario.read(text), told.commits))
    if any(list(commit.answers) != answers for commit, (_, answers) in zip(told.commits, due)):
        found.append("other answers than those of the plain machine")
    return found
