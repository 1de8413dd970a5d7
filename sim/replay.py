"""The report that a scenario's run must give, to the byte, by the models of this folder alone."""

from __future__ import annotations

from collections.abc import Iterator
from dataclasses import dataclass

from . import write
from .engines import Backend
from .scenario import Block, Scenario
from .shepherd import Event, Shepherd, Txn


@dataclass
class Try:
    block: int
    number: int
    txn: Txn


class Session:
    """A script, and the tries that it has made."""

    def __init__(self, number: int, blocks: list[Block]):
        self.number, self.blocks = number, blocks
        self.tries: list[Try] = []

    def choose(self, shepherd: Shepherd, retries: int) -> bool:
        """Makes the session's next call; false where there is none."""
        last = self.tries[-1] if self.tries else None
        if last is not None and last.txn.is_open:
            return self.goes_on(shepherd, last)
        block, number = (last.block + 1, 1) if last else (1, 1)
        if last is not None and last.txn.phase == "refused" and last.number <= retries:
            block, number = last.block, last.number + 1
        if block > len(self.blocks):
            return False
        self.tries.append(Try(block, number, shepherd.begin(self.number)))
        return True

    def goes_on(self, shepherd: Shepherd, last: Try) -> bool:
        if last.txn.is_pending:
            return False
        block = self.blocks[last.block - 1]
        done = len(last.txn.statements)
        if done < len(block.statements):
            shepherd.submit(last.txn, block.statements[done])
        else:
            shepherd.ask(last.txn, block.commits)
        return True


class Run:
    """A scenario's replicas and sessions, and the shepherd between them."""

    def __init__(self, scenario: Scenario):
        self.scenario = scenario
        self.shepherd = Shepherd(scenario.f, len(scenario.kinds))
        self.backends = [Backend(scenario, it) for it in range(len(scenario.kinds))]
        self.sessions = [Session(number, it) for number, it in enumerate(scenario.sessions, 1)]
        # Where a replica's script had an act for its call, whether or not it changed the reply.
        self.acts: list[Event] = []

    def whole(self) -> Run:
        for it in self.scenario.choices:
            if it.word == "rounds":
                self.rounds(it.number)
            else:
                self.choice(it.word, it.number)
        return self

    def rounds(self, count: int) -> None:
        """So many rounds; where one changes nothing, no later one does."""
        for _ in range(count):
            chosen = [self.choice("s", it.number) for it in self.sessions]
            chosen += [self.choice("r", it) for it in range(len(self.backends))]
            if not any(chosen):
                return

    def choice(self, word: str, number: int) -> bool:
        """Makes a choice, and the suspicions that are due behind it; false where nothing came of it."""
        if word == "s":
            acted = self.sessions[number - 1].choose(self.shepherd, self.scenario.retries)
        else:
            acted = word in "rt" and self.shepherd.take(number) is not None
            acted |= word in "rg" and self.give(number)
        suspects = self.scenario.suspects
        while self.shepherd.suspects < len(suspects) and suspects[self.shepherd.suspects] <= len(self.shepherd.log):
            self.shepherd.suspect()
            acted = True
        return acted

    def give(self, replica: int) -> bool:
        """Makes the backend's call of the job that is out."""
        job, backend = self.shepherd.replicas[replica].out, self.backends[replica]
        if job is None:
            return False
        act = backend.script.get(backend.calls + 1)
        if act is not None and act.acts_on(job.word):
            self.acts.append(Event(self.shepherd.next_turn, "act", job.txn, replica, act.text))
        if job.word == "run":
            tree = self.shepherd.txn(job.txn).statements[job.index - 1]
            self.shepherd.ran(replica, backend.run(job.txn, tree))
        elif job.word == "restart":
            self.shepherd.restarted(replica, backend.restart())
        else:
            self.shepherd.ended(replica, backend.end(job.txn, job.word == "commit"))
        return True

    def report(self) -> bytes:
        return ("\n".join(self.lines()) + "\n").encode()

    def lines(self) -> Iterator[str]:
        """The report's lines."""
        yield "hrdb report 1"
        yield f"commits {len(self.shepherd.log)}"
        tries = {it.txn.number: it for session in self.sessions for it in session.tries}
        for place, txn in enumerate(self.shepherd.log, 1):
            yield f"commit {place} session {txn.session} block {tries[txn.number].block} txn {txn.number}"
            for index, answer in enumerate(txn.answers, 1):
                yield f"answer {index} {write.answer(answer)}"
        for session in self.sessions:
            yield f"session {session.number}"
            for it in session.tries:
                yield f"block {it.block} try {it.number} txn {it.txn.number} {it.txn.ending}"
        for it in self.shepherd.convictions:
            yield f"convicted {it.replica} {it.text}"
        for number in range(len(self.backends)):
            yield from self.replica_lines(number)
        yield "end"

    def replica_lines(self, number: int) -> Iterator[str]:
        progress, base = self.shepherd.replicas[number], self.backends[number].engine.base
        state = "convicted" if progress.convicted else "lost" if progress.lost else "live"
        primary = " primary" if self.shepherd.primary == number else ""
        position = f"position {progress.position} preempted {progress.preempted}"
        yield f"replica {number} {self.scenario.kinds[number]} {position} {state}{primary}"
        for table in base.catalog:
            rows = base.in_order(table.name)
            yield f"table {table.name} {len(rows)}"
            yield from map(write.row, rows)


def report(scenario: Scenario) -> bytes:
    """The report of a scenario's run."""
    return Run(scenario).whole().report()
