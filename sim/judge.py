"""What must hold of every report, whatever the run.

Nothing here knows how a run goes: only which scenario it was, which words a report may say of it, and what one plain
machine answers. `faults_of` lists what is wrong with a report, and nothing where all is well.
"""

from __future__ import annotations

from collections.abc import Iterator

from .machine import Answer, Machine, row_order, Rows
from .report import BadReport, Commit, Conviction, read, Replica, Report, Try
from .scenario import Block, Scenario

REFUSALS = ("deadlock", "primary", "differ", "memory")


def faults_of(scenario: Scenario, text: bytes, is_short: bool = False) -> list[str]:
    """What is wrong with this report of a run of this scenario; only where memory is short may it be refused."""
    try:
        report = read(text)
    except BadReport as bad:
        return [f"no report: {bad}"]
    frame = list(frame_faults(scenario, report))
    if frame:
        return frame
    checks = (numbering, commits_and_tries, tries, convictions, states, answers, orders, rows, quiet)
    found = [fault for check in checks for fault in check(scenario, report)]
    if not is_short and any(it.ending == "memory" for it in all_tries(report)):
        found.append("a transaction is refused for want of memory")
    return found


def frame_faults(scenario: Scenario, report: Report) -> Iterator[str]:
    """As many sessions, replicas and tables as the scenario has; each commit and try is of a block that is there."""
    if len(report.sessions) != len(scenario.sessions):
        yield f"{len(report.sessions)} sessions"
    if [it.kind for it in report.replicas] != scenario.kinds:
        yield "other replicas"
    names = [it.name for it in scenario.catalog]
    for number, replica in enumerate(report.replicas):
        if [name for name, _ in replica.tables] != names:
            yield f"other tables at replica {number}"
    for commit in report.commits:
        if block_of(scenario, commit.session, commit.block) is None:
            yield f"commit {commit.place} is of no block"
    for session, found in enumerate(report.sessions, 1):
        for it in found:
            if block_of(scenario, session, it.block) is None:
                yield f"txn {it.txn} is of no block"


def block_of(scenario: Scenario, session: int, block: int) -> Block | None:
    if 1 <= session <= len(scenario.sessions) and 1 <= block <= len(scenario.sessions[session - 1]):
        return scenario.sessions[session - 1][block - 1]
    return None


def all_tries(report: Report) -> list[Try]:
    return [it for session in report.sessions for it in session]


def numbering(_: Scenario, report: Report) -> Iterator[str]:
    """Transactions are numbered from 1 on, in each session upwards."""
    numbers = [it.txn for it in all_tries(report)]
    if sorted(numbers) != list(range(1, len(numbers) + 1)):
        yield f"transactions {numbers}"
    for session in report.sessions:
        if [it.txn for it in session] != sorted(it.txn for it in session):
            yield "a session's transactions out of order"


def commits_and_tries(scenario: Scenario, report: Report) -> Iterator[str]:
    """The commits are those that the sessions tell, one for each, and a session's stand in the order of its script."""
    told = sorted(
        (int(it.said[0]), session, it.block, it.txn)
        for session, found in enumerate(report.sessions, 1)
        for it in found
        if it.ending == "committed"
    )
    if told != [(it.place, it.session, it.block, it.txn) for it in report.commits]:
        yield "the commits aren't those of the sessions"
    for session in range(1, len(report.sessions) + 1):
        blocks = [it.block for it in report.commits if it.session == session]
        if any(one >= other for one, other in zip(blocks, blocks[1:])):
            yield f"session {session} commits its blocks as {blocks}"
    for commit in report.commits:
        block = block_of(scenario, commit.session, commit.block)
        if not block.commits or len(commit.answers) != len(block.statements):
            yield f"commit {commit.place} has no COMMIT, or another number of answers"


def tries(scenario: Scenario, report: Report) -> Iterator[str]:
    """Each try follows from the one before, and ends as its block may."""
    for session, found in enumerate(report.sessions, 1):
        due = (1, 1)
        for it in found:
            if (it.block, it.number) != due:
                yield f"txn {it.txn} is block {it.block} try {it.number}, and {due} was due"
            again = it.ending in REFUSALS and it.number <= scenario.retries
            due = (it.block, it.number + 1) if again else (it.block + 1, 1)
            yield from ending(scenario, report, block_of(scenario, session, it.block), it)
        if any(it.ending == "unfinished" for it in found[:-1]):
            yield f"session {session} went on behind an unfinished transaction"


def ending(scenario: Scenario, report: Report, block: Block, it: Try) -> Iterator[str]:
    """A transaction's ending is one that its block, its replicas and its log can bring about."""
    if it.ending in ("committed", "differ") and not block.commits or it.ending == "rolledback" and block.commits:
        yield f"txn {it.txn} ends as {it.ending}, and its block as {'COMMIT' if block.commits else 'ROLLBACK'}"
    if it.ending == "differ":
        if not 1 <= int(it.said[0]) <= len(block.statements) or it.given == it.agreed:
            yield f"txn {it.txn} doesn't differ"
    if it.ending == "deadlock":
        members = [int(number) for number in it.said]
        numbers = {other.txn for other in all_tries(report)}
        if len(members) < 2 or members[0] != it.txn or len(set(members)) < len(members) or not numbers >= set(members):
            yield f"txn {it.txn}: no deadlock can be {members}"
    if it.ending == "primary":
        yield from primary_left(scenario, report, it)


def primary_left(scenario: Scenario, report: Report, it: Try) -> Iterator[str]:
    replica, why = int(it.said[0]), it.said[1]
    if replica >= len(report.replicas):
        yield f"txn {it.txn}: no replica {replica}"
    elif why == "convicted" and all(other.replica != replica for other in report.convictions):
        yield f"txn {it.txn}: replica {replica} isn't convicted"
    elif why == "lost" and not scenario.loses(replica):
        yield f"txn {it.txn}: replica {replica} is never lost"
    elif why == "suspected" and not any(after <= len(report.commits) for after in scenario.suspects):
        yield f"txn {it.txn}: no suspicion was due"


def convictions(scenario: Scenario, report: Report) -> Iterator[str]:
    """Each replica is convicted once at most, of something that was there, and with few liars only liars are."""
    convicted = [it.replica for it in report.convictions]
    if len(set(convicted)) < len(convicted) or any(it >= len(report.replicas) for it in convicted):
        yield f"convicted are {convicted}"
    sizes = {
        it.txn: len(block_of(scenario, session, it.block).statements)
        for session, found in enumerate(report.sessions, 1)
        for it in found
    }
    for it in report.convictions:
        yield from conviction(scenario, sizes, it)


def conviction(scenario: Scenario, sizes: dict[int, int], it: Conviction) -> Iterator[str]:
    if it.reason != "restart" and it.numbers[0] not in sizes:
        yield f"replica {it.replica} is convicted of no transaction"
    elif it.reason in ("contradicted", "differs") and not 1 <= it.numbers[1] <= sizes[it.numbers[0]]:
        yield f"replica {it.replica} is convicted of no statement"
    if not scenario.lies(it.replica):
        # What an honest replica tells of waits, deadlocks and restarts is sound whatever the others do.
        alone = it.reason in ("blocked", "deadlock", "restart")
        if alone or len(scenario.liars) <= scenario.f:
            yield f"replica {it.replica} is convicted ({it.reason}), and it is honest"


def states(scenario: Scenario, report: Report) -> Iterator[str]:
    """What each replica's line says can stand beside the rest."""
    convicted = {it.replica for it in report.convictions}
    if sum(it.is_primary for it in report.replicas) > 1:
        yield "two primaries"
    for number, replica in enumerate(report.replicas):
        if (replica.state == "convicted") != (number in convicted):
            yield f"replica {number} is {replica.state}"
        if replica.is_primary and replica.state != "live":
            yield f"the primary is {replica.state}"
        if replica.state == "lost" and not scenario.loses(number):
            yield f"replica {number} is lost, which it never is"
        if replica.position > len(report.commits):
            yield f"replica {number} has committed {replica.position} of {len(report.commits)}"


def serial(scenario: Scenario, commits: list[Commit]) -> Iterator[tuple[Machine, list[Answer]]]:
    """After each of the told blocks, played alone in the order of commits: the machine, and that block's answers."""
    plain = scenario.start.copy()
    for commit in commits:
        block = block_of(scenario, commit.session, commit.block)
        yield plain, [plain.run(it) for it in block.statements]


def answers(scenario: Scenario, report: Report) -> Iterator[str]:
    """With few liars the accepted answers are those of the plain machine."""
    if len(scenario.liars) > scenario.f:
        return
    for commit, (_, due) in zip(report.commits, serial(scenario, report.commits)):
        if list(commit.answers) != due:
            yield f"commit {commit.place}: told {list(commit.answers)}, due {due}"


def orders(_: Scenario, report: Report) -> Iterator[str]:
    """The rows of each answer are in ascending order."""
    told = [answer for commit in report.commits for answer in commit.answers]
    told += [answer for it in all_tries(report) for answer in (it.given, it.agreed)]
    for answer in told:
        if isinstance(answer, Rows) and list(answer.rows) != sorted(answer.rows, key=row_order):
            yield f"rows out of order: {answer}"


def rows(scenario: Scenario, report: Report) -> Iterator[str]:
    """Each honest replica has the rows after a prefix of the commits: as many as its position says, or, where it is
    lost, one more. The rows of each replica are in order."""
    after = [tables_of(scenario.start)]
    after += [tables_of(plain) for plain, _ in serial(scenario, report.commits)]
    for number, replica in enumerate(report.replicas):
        for name, found in replica.tables:
            keys = [row_order(row[:1]) for row in found]
            if any(one >= other for one, other in zip(keys, keys[1:])):
                yield f"replica {number}: table {name} out of order"
        if not scenario.lies(number) and replica.tables not in prefixes(scenario, number, replica, after):
            yield f"replica {number} doesn't hold the rows at position {replica.position}"


def prefixes(scenario: Scenario, number: int, replica: Replica, after: list) -> list:
    """The tables that an honest replica may hold."""
    may_doubt = replica.state == "lost" or replica.state == "convicted" and scenario.loses(number)
    return after[replica.position : replica.position + 1 + may_doubt]


def tables_of(plain: Machine) -> tuple:
    return tuple((it.name, tuple(plain.in_order(it.name))) for it in plain.catalog)


def quiet(scenario: Scenario, report: Report) -> Iterator[str]:
    """Where nobody lies nobody is convicted and nothing differs, and where nothing disturbs only deadlocks refuse."""
    if not scenario.liars:
        if report.convictions or any(it.ending == "differ" for it in all_tries(report)):
            yield "nobody lies, and somebody is convicted or an answer differs"
        if not any(scenario.scripts) and not scenario.suspects:
            if any(it.ending in ("primary", "differ") for it in all_tries(report)):
                yield "nothing disturbs, and a transaction is refused for more than a deadlock or want of memory"
            if not report.replicas[0].is_primary:
                yield "nothing disturbs, and replica 0 isn't the primary"
