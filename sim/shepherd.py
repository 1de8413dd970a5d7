"""The shepherd's rules, on plain lists: what each replica is told to do next, and what follows from each call.

Everything is looked up anew each time, as the rules are worded. `Shepherd` has one method for each call of a session or a
replica, and `follow` does what is due behind it.
"""

from __future__ import annotations

from collections.abc import Iterator
from dataclasses import dataclass, field

from . import write
from .engines import Blocked, Deadlock, Done, Lost, Reply
from .machine import Answer
from .syntax import Statement

ENDED = ("rolledback", "refused")


@dataclass
class Txn:
    """`phase` is active, asked, logged, rolledback or refused; `given` has each answer with the length of the log then."""

    number: int
    session: int
    statements: list[Statement] = field(default_factory=list)
    given: list[tuple[Answer, int]] = field(default_factory=list)
    phase: str = "active"
    order: int = 0
    ending: str = "unfinished"

    @property
    def is_open(self) -> bool:
        return self.phase in ("active", "asked")

    @property
    def is_ended(self) -> bool:
        return self.phase in ENDED

    @property
    def answers(self) -> list[Answer]:
        return [answer for answer, _ in self.given]

    @property
    def is_pending(self) -> bool:
        """A statement has no answer yet, or the commit was asked for."""
        return self.phase == "asked" or len(self.given) < len(self.statements)

    @property
    def rank(self) -> tuple[int, int]:
        """Logged ones by place, then asked ones by the order of asking, then the others by number."""
        return ({"logged": 0, "asked": 1}.get(self.phase, 2), self.order or self.number)


@dataclass
class Attempt:
    """What a transaction has run at a replica since it last ended there, and its last reply while it waits."""

    answers: list[Answer] = field(default_factory=list)
    waits: set[int] = field(default_factory=set)
    deadlock: tuple[int, ...] = ()
    touched: bool = False
    preempted: bool = False


@dataclass(frozen=True)
class Job:
    """`word` is run, commit, rollback or restart; a run's statement has its number from 1."""

    word: str
    txn: int = 0
    index: int = 0


@dataclass
class Progress:
    """What the shepherd knows of a replica."""

    position: int = 0
    lost: bool = False
    convicted: bool = False
    doubt: bool = False
    out: Job | None = None
    preempted: int = 0
    attempts: dict[int, Attempt] = field(default_factory=dict)

    @property
    def is_well(self) -> bool:
        return not self.lost and not self.convicted

    def attempt(self, txn: int) -> Attempt:
        return self.attempts.setdefault(txn, Attempt())

    def answers(self, txn: int) -> list[Answer]:
        return self.attempts[txn].answers if txn in self.attempts else []

    def is_running(self, txn: int) -> bool:
        return bool(self.answers(txn))

    def stops(self, txn: int) -> None:
        """The transaction ended here: nobody waits for it, and no deadlock with it stands."""
        self.attempts[txn] = Attempt()
        for other in self.attempts.values():
            other.waits.discard(txn)
            if txn in other.deadlock:
                other.deadlock = ()

    def waits(self, txn: int) -> set[int]:
        return self.attempts[txn].waits if txn in self.attempts else set()

    def leads_to(self, start: int, end: int) -> bool:
        """Whether a chain of waits leads from one transaction to another."""
        seen, left = set(), [start]
        while left:
            for it in self.waits(left.pop()) - seen:
                seen.add(it)
                left.append(it)
        return end in seen


@dataclass(frozen=True)
class Event:
    """What happened in a turn, for those who look at the run: `word` is begin, submit, ask, rollback, given, suspect, take,
    reply, decide, refuse, convict, primary or preempt, and `text` says more."""

    turn: int
    word: str
    txn: int = 0
    replica: int = -1
    text: str = ""


class Shepherd:
    def __init__(self, f: int, replicas: int):
        self.f = f
        self.txns: list[Txn] = []
        self.log: list[Txn] = []
        self.replicas = [Progress() for _ in range(replicas)]
        self.primary: int | None = 0
        self.search_after = 0
        self.asked = 0
        self.suspects = 0
        self.history: list[Event] = []
        self.clear_turn()

    @property
    def convictions(self) -> list[Event]:
        return [it for it in self.history if it.word == "convict"]

    @property
    def next_turn(self) -> int:
        return self.history[-1].turn + 1 if self.history else 1

    def note(self, word: str, txn: int = 0, replica: int = -1, text: str = "") -> None:
        self.history.append(Event(self.turn, word, txn, replica, text))

    def clear_turn(self) -> None:
        """A turn begins: nothing has happened in it."""
        self.turn = self.next_turn
        self.fresh: tuple[int, int, Reply] | None = None
        self.bad_restart: tuple[int, int] | None = None
        self.left: tuple[int, str] | None = None

    def txn(self, number: int) -> Txn:
        return self.txns[number - 1]

    def open(self) -> list[Txn]:
        return [it for it in self.txns if it.is_open]

    # Calls of sessions.

    def begin(self, session: int) -> Txn:
        self.clear_turn()
        self.txns.append(Txn(len(self.txns) + 1, session))
        self.note("begin", len(self.txns))
        self.follow()
        return self.txns[-1]

    def submit(self, txn: Txn, tree: Statement) -> None:
        self.clear_turn()
        txn.statements.append(tree)
        self.note("submit", txn.number)
        self.follow()

    def ask(self, txn: Txn, commits: bool) -> None:
        self.clear_turn()
        if commits:
            self.asked += 1
            txn.phase, txn.order = "asked", self.asked
        else:
            txn.phase, txn.ending = "rolledback", "rolledback"
        self.note("ask" if commits else "rollback", txn.number)
        self.follow()

    def suspect(self) -> None:
        self.clear_turn()
        self.suspects += 1
        self.note("suspect", replica=-1 if self.primary is None else self.primary)
        if self.primary is not None:
            self.primary_goes("suspected")
        elif (candidate := self.candidate()) is not None:
            self.search_after = candidate
        self.follow()

    # Calls of replicas.

    def take(self, replica: int) -> Job | None:
        self.clear_turn()
        progress = self.replicas[replica]
        job = None if progress.out else self.next_job(replica)
        if job is not None:
            progress.out = job
            if job.word == "run":
                progress.attempt(job.txn)
            self.note("take", job.txn, replica, f"{job.word} {job.index}" if job.index else job.word)
            self.follow()
        return job

    def ran(self, replica: int, reply: Reply) -> None:
        self.clear_turn()
        progress = self.replicas[replica]
        job, progress.out = progress.out, None
        self.note("reply", job.txn, replica, reply.told)
        if isinstance(reply, Lost):
            self.is_lost(replica)
        else:
            self.fresh = (replica, job.txn, reply)
            self.record(replica, job, reply)
        self.follow()

    def record(self, replica: int, job: Job, reply: Reply) -> None:
        progress, txn = self.replicas[replica], self.txn(job.txn)
        attempt = progress.attempt(job.txn)
        attempt.touched, attempt.waits, attempt.deadlock = True, set(), ()
        if isinstance(reply, Done):
            attempt.answers.append(reply.answer)
            if replica == self.primary and txn.is_open and len(txn.given) < job.index:
                txn.given.append((reply.answer, len(self.log)))
                self.note("given", txn.number, replica, write.answer(reply.answer))
        elif isinstance(reply, Blocked):
            attempt.waits = {it for it in reply.by if progress.is_running(it)}
        elif all(progress.is_running(it) for it in reply.members):
            attempt.deadlock = reply.members

    def ended(self, replica: int, answered: bool) -> None:
        """A commit or a rollback was answered, or lost."""
        self.clear_turn()
        progress = self.replicas[replica]
        job, progress.out = progress.out, None
        self.note("reply", job.txn, replica, "done" if answered else "lost")
        if not answered:
            progress.doubt = job.word == "commit"
            self.is_lost(replica)
        else:
            progress.position += job.word == "commit"
            progress.stops(job.txn)
        self.follow()

    def restarted(self, replica: int, count: int | None) -> None:
        self.clear_turn()
        progress = self.replicas[replica]
        progress.out = None
        self.note("reply", 0, replica, "lost" if count is None else f"{count} committed")
        if count is not None:
            if count in (progress.position, progress.position + progress.doubt):
                progress.position = count
            else:
                self.bad_restart = (replica, count)
            progress.lost = progress.doubt = False
        self.follow()

    def is_lost(self, replica: int) -> None:
        self.replicas[replica].lost = True
        self.replicas[replica].attempts = {}
        if replica == self.primary:
            self.primary_goes("lost")

    def primary_goes(self, why: str) -> None:
        self.left = (self.primary, why)
        self.search_after, self.primary = self.primary, None

    # What a replica may do.

    def is_processed(self, replica: int, txn: Txn) -> bool:
        progress = self.replicas[replica]
        is_committed = txn.phase == "logged" and txn.order <= progress.position
        return is_committed or len(progress.answers(txn.number)) == len(txn.statements)

    def processed(self, replica: int) -> int:
        """How many of the log, from its beginning, are processed at a replica."""
        count = 0
        while count < len(self.log) and self.is_processed(replica, self.log[count]):
            count += 1
        return count

    def next_job(self, replica: int) -> Job | None:
        progress = self.replicas[replica]
        if progress.convicted:
            return None
        if progress.lost:
            return Job("restart")
        for number, attempt in sorted(progress.attempts.items()):
            if attempt.touched and (self.txn(number).is_ended or attempt.preempted):
                return Job("rollback", number)
        if progress.position < len(self.log):
            txn = self.log[progress.position]
            if progress.answers(txn.number) == txn.answers:
                return Job("commit", txn.number)
        runs = [it for it in self.txns if self.may_run(replica, it)]
        if not runs:
            return None
        txn = min(runs, key=lambda it: it.rank)
        return Job("run", txn.number, len(progress.answers(txn.number)) + 1)

    def may_run(self, replica: int, txn: Txn) -> bool:
        """Whether the transaction's next statement may run at this replica."""
        progress = self.replicas[replica]
        done = len(progress.answers(txn.number))
        is_here = txn.is_open or txn.phase == "logged" and txn.order > progress.position
        if not is_here or progress.waits(txn.number) or progress.attempt(txn.number).deadlock:
            return False
        if replica == self.primary:
            return txn.is_open and done == len(txn.given) < len(txn.statements)
        return done < len(txn.given) and txn.given[done][1] <= self.processed(replica)

    # What follows in a turn.

    def follow(self) -> None:
        steps = (
            self.convict_by_evidence,
            self.refuse_with_primary,
            self.refuse_by_reply,
            self.decide,
            self.contradict,
            self.new_primary,
            self.preempt,
        )
        while any(step() for step in steps):
            pass

    def convict(self, replica: int, text: str) -> None:
        self.replicas[replica].convicted = True
        self.note("convict", replica=replica, text=text)
        if replica == self.primary:
            self.primary_goes("convicted")
        elif self.left is not None and self.left[0] == replica:
            self.left = (replica, "convicted")

    def convict_by_evidence(self) -> bool:
        for replica, progress in enumerate(self.replicas):
            text = None if progress.convicted else self.evidence(replica)
            if text is not None:
                self.convict(replica, text)
                return True
        return False

    def evidence(self, replica: int) -> str | None:
        progress = self.replicas[replica]
        if progress.position < len(self.log):
            txn = self.log[progress.position]
            told = progress.answers(txn.number)
            if len(told) == len(txn.statements) and told != txn.answers:
                return f"differs txn {txn.number} statement {first_difference(told, txn.answers)}"
        if self.fresh is not None and self.fresh[0] == replica:
            _, txn, reply = self.fresh
            if isinstance(reply, Blocked) and not is_sound_wait(progress, txn, reply.by):
                return f"blocked txn {txn}"
            if isinstance(reply, Deadlock) and not is_sound_deadlock(progress, txn, reply.members):
                return f"deadlock txn {txn}"
        if self.bad_restart is not None and self.bad_restart[0] == replica:
            return f"restart {self.bad_restart[1]}"
        return None

    def refuse(self, txn: Txn, ending: str) -> bool:
        txn.phase, txn.ending = "refused", ending
        self.note("refuse", txn.number, text=ending)
        return True

    def refuse_with_primary(self) -> bool:
        """Where the primary went in this turn, the open transactions go with it."""
        if self.left is None or not self.open():
            return False
        return self.refuse(self.open()[0], f"primary {self.left[0]} {self.left[1]}")

    def refuse_by_reply(self) -> bool:
        if self.fresh is None or self.fresh[0] != self.primary or not isinstance(self.fresh[2], Deadlock):
            return False
        txn = self.txn(self.fresh[1])
        members = " ".join(map(str, self.fresh[2].members))
        return txn.is_open and self.refuse(txn, f"deadlock {members}")

    def ready(self, txn: Txn) -> list[int]:
        return [
            number
            for number, progress in enumerate(self.replicas)
            if progress.is_well
            and len(progress.answers(txn.number)) == len(txn.statements)
            and all(self.is_processed(number, it) for it in self.log)
        ]

    def votes(self, txn: Txn) -> Iterator[tuple[list[Answer], int]]:
        """The answers on which more than f ready replicas agree, with the lowest of them."""
        ready = self.ready(txn)
        for number in ready:
            told = self.replicas[number].answers(txn.number)
            if sum(self.replicas[it].answers(txn.number) == told for it in ready) > self.f:
                yield told, number
                return

    def asked_txns(self) -> list[Txn]:
        return sorted((it for it in self.txns if it.phase == "asked"), key=lambda it: it.rank)

    def decide(self) -> bool:
        for txn in self.asked_txns():
            if any(told == txn.answers for told, _ in self.votes(txn)):
                self.log.append(txn)
                txn.phase, txn.order, txn.ending = "logged", len(self.log), f"committed {len(self.log)}"
                self.note("decide", txn.number, text=str(len(self.log)))
                return True
        return False

    def contradict(self) -> bool:
        for txn in self.asked_txns():
            for told, _ in self.votes(txn):
                index = first_difference(told, txn.answers)
                given, agreed = write.answer(txn.answers[index - 1]), write.answer(told[index - 1])
                self.refuse(txn, f"differ {index}\ngiven {given}\nagreed {agreed}")
                self.convict(self.primary, f"contradicted txn {txn.number} statement {index}")
                return True
        return False

    def candidate(self) -> int | None:
        """The first replica behind the start of the search that is well."""
        count = len(self.replicas)
        for step in range(1, count + 1):
            number = (self.search_after + step) % count
            if self.replicas[number].is_well:
                return number
        return None

    def new_primary(self) -> bool:
        candidate = self.candidate() if self.primary is None else None
        if candidate is None or self.replicas[candidate].position != len(self.log):
            return False
        self.primary = candidate
        self.note("primary", replica=candidate)
        return True

    def preempt(self) -> bool:
        for number, progress in enumerate(self.replicas):
            if not progress.is_well or number == self.primary:
                continue
            for txn in sorted(progress.attempts):
                if self.must_give_way(progress, self.txn(txn)):
                    progress.attempts[txn].preempted = True
                    progress.preempted += 1
                    self.note("preempt", txn, number)
                    return True
        return False

    def must_give_way(self, progress: Progress, txn: Txn) -> bool:
        """Whether a running transaction is in the way of one that ranks before it, or is the last of a deadlock."""
        if not progress.is_running(txn.number) or txn.is_ended or progress.attempts[txn.number].preempted:
            return False
        for number, attempt in progress.attempts.items():
            other = self.txn(number)
            if txn.number in attempt.waits and other.phase in ("logged", "asked") and other.rank < txn.rank:
                return True
            if txn.number in attempt.deadlock and self.is_last(progress, txn, attempt.deadlock):
                return True
        return False

    def is_last(self, progress: Progress, txn: Txn, members: tuple[int, ...]) -> bool:
        going = any(self.txn(it).is_ended or progress.attempts[it].preempted for it in members)
        return not going and txn.rank == max(self.txn(it).rank for it in members)


def first_difference(told: list[Answer], due: list[Answer]) -> int:
    """The number, from 1, of the first answer that differs."""
    return next(index for index, (one, other) in enumerate(zip(told, due), 1) if one != other)


def is_sound_wait(progress: Progress, txn: int, named: tuple[int, ...]) -> bool:
    ascends = all(one < other for one, other in zip(named, named[1:]))
    waits = all(it != txn and progress.is_running(it) and not progress.leads_to(it, txn) for it in named)
    return bool(named) and ascends and waits


def is_sound_deadlock(progress: Progress, txn: int, members: tuple[int, ...]) -> bool:
    if len(members) < 2 or members[0] != txn or len(set(members)) < len(members):
        return False
    follows = zip(members[1:], (*members[2:], txn))
    return all(progress.is_running(it) and other in progress.waits(it) for it, other in follows)
