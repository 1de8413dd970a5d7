"""A run as a page that a person looks at: one HTML file, which needs nothing from elsewhere.

The lanes go from the first turn to the last: the log, each session with its tries, each replica with its jobs. When what
happened is told by the models of this folder, which must foretell the very report that is drawn; the tables below say
what the report says.
"""

from __future__ import annotations

from html import escape

from . import judge, replay, report, scenario, write
from .report import Report, Try
from .scenario import Scenario
from .shepherd import Event

LEFT, TOP, LANE, GAP, MARGIN = 120, 54, 40, 12, 40
LETTER = 6.4
NARROWEST, WIDEST = 9, 30
WIDTH = 1500

STYLE = """
body { font: 14px/1.45 system-ui, sans-serif; margin: 24px; color: #1c2733; max-width: 1640px }
h1 { font-size: 20px } h2 { font-size: 16px; margin: 26px 0 6px }
figure { margin: 12px 0; overflow-x: auto } svg text { font: 11px ui-monospace, monospace; fill: #1c2733 }
table { border-collapse: collapse } th, td { border: 1px solid #d4dae1; padding: 3px 9px; text-align: left; vertical-align: top }
th { background: #eef2f6; font-weight: 600 } td, code { font-family: ui-monospace, monospace; font-size: 12px; white-space: pre-wrap }
.key span { display: inline-block; margin: 0 14px 4px 0 } .key i { display: inline-block; width: 22px; height: 12px; margin-right: 5px }
"""

ENDINGS = {
    "committed": ("#bfe3c4", "committed"),
    "differ": ("#f4b6b0", "refused: more than f replicas agree on another answer"),
    "primary": ("#f8d3a3", "refused: its primary is gone"),
    "deadlock": ("#dcc5ec", "refused: a deadlock"),
    "rolledback": ("#d5dbe1", "rolled back by its session"),
    "unfinished": ("#ffffff", "unfinished"),
}
JOBS = {
    "run": ("#cfe0f5", "1.2: statement 2 of transaction 1 is run"),
    "waits": ("#fbe7a8", "it waits for others"),
    "deadlock": ("#dcc5ec", "a deadlock is told"),
    "commit": ("#7fc98a", "C1: transaction 1 is committed"),
    "rollback": ("#d5dbe1", "B1: transaction 1 is rolled back"),
    "restart": ("#e8c9a0", "it is restarted"),
    "lost": ("#4a5560", "the call is lost, and the replica with it"),
}
RED, GREEN, GOLD, PALE_RED, GREY = "#c0281c", "#2c7a3f", "#f7ecc2", "#fbe4e1", "#8a96a3"


class Canvas:
    """The elements of an SVG figure, with the turns along its width."""

    def __init__(self, turns: int):
        self.turns = turns
        self.step = max(NARROWEST, min(WIDEST, WIDTH / max(turns, 1)))
        self.width = LEFT + self.step * (turns + 2) + MARGIN
        self.elements: list[str] = []
        # Where the last word written at a height ends.
        self.ends: dict[float, float] = {}

    def at(self, turn: float) -> float:
        """Where a turn stands."""
        return LEFT + self.step * turn

    def room(self, first: float, last: float) -> int:
        """How many letters stand between two turns."""
        return int((last - first) * self.step / LETTER)

    def box(self, first: float, last: float, y: float, height: float, fill: str, tip: str = "", edge: str = "none") -> None:
        x, width = self.at(first), max(3.0, self.step * (last - first))
        style = f'fill="{fill}" stroke="{edge}" stroke-width="{2 if edge == RED else 1}"'
        tip = f"<title>{escape(tip)}</title>" if tip else ""
        self.elements.append(f'<rect x="{x:.1f}" y="{y}" width="{width:.1f}" height="{height}" rx="2" {style}>{tip}</rect>')

    def line(self, turn: float, y: float, height: float, colour: str, dashes: str = "") -> None:
        x = self.at(turn)
        style = f'stroke="{colour}" stroke-dasharray="{dashes}"'
        self.elements.append(f'<line x1="{x:.1f}" x2="{x:.1f}" y1="{y}" y2="{y + height}" {style}/>')

    def text(self, x: float, y: float, words: str, colour: str = "", anchor: str = "start") -> None:
        style = f' style="fill: {colour}"' if colour else ""
        self.elements.append(f'<text x="{x:.1f}" y="{y}" text-anchor="{anchor}"{style}>{escape(words)}</text>')

    def text_where_free(self, x: float, heights: tuple[float, ...], words: str, colour: str) -> None:
        """Words at the first of these heights at which none stand in their way; left out where there is none."""
        free = [it for it in heights if self.ends.get(it, 0) < x]
        if free:
            self.text(x, free[0], words, colour)
            self.ends[free[0]] = x + LETTER * (len(words) + 1)

    def svg(self, height: float) -> str:
        size = f'width="{self.width:.0f}" height="{height:.0f}" viewBox="0 0 {self.width:.0f} {height:.0f}"'
        return f'<svg xmlns="http://www.w3.org/2000/svg" {size}>{"".join(self.elements)}</svg>'


def page(name: str, read: Scenario, told: bytes) -> str:
    """The page of a scenario's run, whose report is `told`."""
    found = report.read(told)
    run = replay.Run(read).whole()
    foretold = run.report() == told
    figure = Figure(read, run).svg() if foretold else "<p>The models don't foretell this report, so there are no lanes.</p>"
    parts = [
        f"<h1>{escape(name)}</h1>",
        f"<p>{escape(summary(read, found, run.shepherd.history if foretold else []))}</p>",
        f"<figure>{figure}</figure>",
        key("Tries of transactions", ENDINGS) + key("Jobs of replicas", JOBS) + marks() if foretold else "",
        "<h2>Committed, in this order</h2>" + commits_table(read, found),
        "<h2>What became of each try</h2>" + tries_table(read, found),
        "<h2>Replicas</h2>" + replicas_table(read, found),
    ]
    head = f'<meta charset="utf-8"><title>{escape(name)}</title><style>{STYLE}</style>'
    return f'<!doctype html>\n<html lang="en"><head>{head}</head>\n<body>\n' + "\n".join(parts) + "\n</body></html>\n"


def summary(read: Scenario, found: Report, history: list[Event]) -> str:
    """Who may lie, who does, and what came of it, in a few sentences."""
    liars = [str(it) for it in sorted(read.liars)]
    words = f"{counted(len(read.sessions), 'session')} and {counted(len(read.kinds), 'replica')}, of which {read.f} may lie. "
    words += f"Replicas {' and '.join(liars)} lie." if len(liars) > 1 else f"Replica {liars[0]} lies." if liars else "None lies."
    turns = {it.replica: f" in turn {it.turn}" for it in history if it.word == "convict"}
    for it in found.convictions:
        reason = " ".join([it.reason, *conviction_words(it)])
        words += f" Replica {it.replica} is convicted{turns.get(it.replica, '')}: {reason}."
    begun = counted(len(judge.all_tries(found)), "try", "tries")
    return f"{words} {counted(len(found.commits), 'commit')} in {begun}."


def counted(count: int, one: str, more: str = "") -> str:
    return f"{count} {one if count == 1 else more or one + 's'}"


def conviction_words(it: report.Conviction) -> list[str]:
    if it.reason == "restart":
        return [str(it.numbers[0])]
    return [f"txn {it.numbers[0]}", *(f"statement {number}" for number in it.numbers[1:])]


class Figure:
    """The lanes of a run."""

    def __init__(self, read: Scenario, run: replay.Run):
        self.read, self.run = read, run
        self.history = run.shepherd.history
        self.last = self.history[-1].turn if self.history else 1
        self.canvas = Canvas(self.last)
        self.sessions_top = TOP
        self.replicas_top = TOP + (LANE + GAP) * len(run.sessions) + GAP
        self.bottom = self.replicas_top + (LANE + 2 * GAP) * len(run.backends)

    def svg(self) -> str:
        for number, session in enumerate(self.run.sessions):
            self.session_lane(self.sessions_top + (LANE + GAP) * number, session)
        for number in range(len(self.run.backends)):
            self.replica_lane(self.replicas_top + GAP + (LANE + 2 * GAP) * number, number)
        self.log_lane()
        return self.canvas.svg(self.bottom + GAP)

    def of(self, *words: str, txn: int = 0, replica: int = -1) -> list[Event]:
        """The events of these words that are of this transaction or replica."""
        return [
            it
            for it in self.history
            if it.word in words and (not txn or it.txn == txn) and (replica < 0 or it.replica == replica)
        ]

    def log_lane(self) -> None:
        self.canvas.text(8, 24, "commits")
        for it in self.of("decide"):
            self.canvas.line(it.turn, 30, self.bottom - 30, GREEN, "2 4")
            self.canvas.text(self.canvas.at(it.turn), 24, it.text, GREEN, "middle")
        for it in self.of("suspect"):
            self.canvas.line(it.turn, 42, self.bottom - 42, RED, "6 3")
            self.canvas.text_where_free(self.canvas.at(it.turn) + 3, (40,), "suspicion", RED)

    def session_lane(self, y: float, session: replay.Session) -> None:
        self.canvas.text(8, y + 24, f"session {session.number}")
        for it in session.tries:
            ends = self.of("decide", "refuse", "rollback", txn=it.txn.number)
            first, last = self.of("begin", txn=it.txn.number)[0].turn, ends[0].turn if ends else self.last
            ending = it.txn.ending.split("\n")[0]
            tip = f"block {it.block} try {it.number}: transaction {it.txn.number}, {ending}"
            self.canvas.box(first, last, y, LANE, ENDINGS[ending.split()[0]][0], tip, GREY)
            self.words_in(first, last, y + 15, f"T{it.txn.number} block {it.block} try {it.number}", f"T{it.txn.number}")
            self.words_in(first, last, y + 32, ending, "")
            for given in self.of("given", txn=it.txn.number):
                self.canvas.box(given.turn - 0.12, given.turn + 0.12, y + 1, 5, GREY, f"given: {given.text}")

    def words_in(self, first: float, last: float, y: float, *choices: str) -> None:
        """The first of these words that fits between two turns."""
        room = self.canvas.room(first, last)
        words = next((it for it in choices if len(it) < room), "")
        self.canvas.text(self.canvas.at(first) + 4, y, words)

    def replica_lane(self, y: float, number: int) -> None:
        kind = self.read.kinds[number]
        self.canvas.text(8, y + 17, f"replica {number}")
        self.canvas.text(8, y + 32, f"{kind}{', lies' if self.read.lies(number) else ''}", RED if self.read.lies(number) else GREY)
        for first, last in self.primary_spans(number):
            self.canvas.box(first, last, y - 2, LANE + 4, GOLD, "the primary")
        convicted = self.of("convict", replica=number)
        for it in convicted:
            self.canvas.box(it.turn, self.last + 1, y - 2, LANE + 4, PALE_RED, f"convicted: {it.text}")
        for first, last in self.lost_spans(number):
            self.canvas.box(first, last, y + LANE - 6, 6, JOBS["lost"][0], "lost")
        for take in self.of("take", replica=number):
            self.job(y, number, take)
        for it in self.of("preempt", replica=number):
            self.canvas.text(self.canvas.at(it.turn) + 2, y - 4, f"T{it.txn} gives way", RED)
        for it in convicted:
            self.canvas.line(it.turn, y - 8, LANE + 14, RED)
            near_end = self.canvas.at(it.turn) + LETTER * (len(it.text) + 12) > self.canvas.width
            x = self.canvas.at(it.turn) + (-4 if near_end else 4)
            self.canvas.text(x, y + LANE + 14, f"convicted: {it.text}", RED, "end" if near_end else "start")

    def primary_spans(self, number: int) -> list[tuple[float, float]]:
        """From when to when a replica is the primary."""
        spans, since = [], 0.0 if number == 0 else None
        for it in self.history:
            goes = it.word == "convict" or it.word == "suspect" or it.word == "reply" and it.text == "lost"
            if it.word == "primary" and it.replica == number:
                since = it.turn
            elif goes and it.replica == number and since is not None:
                spans.append((since, it.turn))
                since = None
        return spans if since is None else [*spans, (since, self.last + 1)]

    def lost_spans(self, number: int) -> list[tuple[float, float]]:
        spans, since = [], None
        for it in self.of("reply", replica=number):
            if it.text == "lost":
                since = it.turn if since is None else since
            elif since is not None and it.text.endswith("committed"):
                spans.append((since, it.turn))
                since = None
        return spans if since is None else [*spans, (since, self.last + 1)]

    def job(self, y: float, number: int, take: Event) -> None:
        """A job from when it is taken until it is answered, with what the replica's script made of it."""
        replies = [it for it in self.of("reply", replica=number) if it.turn > take.turn]
        word, _, index = take.text.partition(" ")
        told = replies[0].text if replies else "no reply yet"
        last = replies[0].turn if replies else self.last
        fill = JOBS.get(told.split(" ")[0], JOBS[word])[0]
        made_up = next((it for it in self.run.acts if it.replica == number and replies and it.turn == last), None)
        short = {"run": f"{take.txn}.{index}", "commit": f"C{take.txn}", "rollback": f"B{take.txn}"}.get(word, "up")
        tip = f"{word} {take.txn or ''} {index}: {told}" + (f" (its script: {made_up.text})" if made_up else "")
        self.canvas.box(take.turn + 0.05, last - 0.05, y + 10, LANE - 18, fill, tip, RED if made_up else GREY)
        self.canvas.text(self.canvas.at((take.turn + last) / 2), y + 25, short, "#fff" if told == "lost" else "", "middle")
        if made_up:
            words = made_up.text.removeprefix("lie ")
            self.canvas.text_where_free(self.canvas.at(take.turn) + 1, (y + 7, y - 4), words, RED)


def key(title: str, colours: dict[str, tuple[str, str]]) -> str:
    items = "".join(
        f'<span><i style="background: {colour}; border: 1px solid {GREY}"></i>{escape(words)}</span>'
        for colour, words in colours.values()
    )
    return f'<p class="key"><b>{title}.</b> {items}</p>'


def marks() -> str:
    return (
        f'<p class="key"><b>Marks.</b> <span><i style="background: {GOLD}"></i>the primary</span>'
        f'<span><i style="background: {PALE_RED}"></i>convicted</span>'
        f'<span><i style="background: #fff; border: 2px solid {RED}"></i>the replica lies here, or is lost, by its script</span>'
        f'<span style="color: {GREEN}">a dashed green line: a commit is decided</span>'
        f'<span style="color: {GREY}">a grey dot: an answer is given to the session</span></p>'
    )


def html_table(heads: list[str], rows: list[list[str]]) -> str:
    head = "".join(f"<th>{escape(it)}</th>" for it in heads)
    body = "".join("<tr>" + "".join(f"<td>{escape(it)}</td>" for it in row) + "</tr>" for row in rows)
    return f"<table><tr>{head}</tr>{body}</table>"


def commits_table(read: Scenario, found: Report) -> str:
    rows = []
    for it in found.commits:
        texts = read.sessions[it.session - 1][it.block - 1].texts
        for index, (text, answer) in enumerate(zip(texts or [""], it.answers or [None])):
            head = [str(it.place), str(it.session), str(it.block), str(it.txn)] if index == 0 else [""] * 4
            rows.append([*head, text, write.answer(answer) if answer is not None else ""])
    return html_table(["commit", "session", "block", "transaction", "statement", "accepted answer"], rows)


def tries_table(read: Scenario, found: Report) -> str:
    rows = [
        [str(number), str(it.block), str(it.number), str(it.txn), ending_of(it)]
        for number, tries in enumerate(found.sessions, 1)
        for it in tries
    ]
    return html_table(["session", "block", "try", "transaction", "ending"], rows)


def ending_of(it: Try) -> str:
    words = " ".join([it.ending, *it.said])
    if it.given is None or it.agreed is None:
        return words
    return f"{words}\ngiven {write.answer(it.given)}\nagreed {write.answer(it.agreed)}"


def replicas_table(read: Scenario, found: Report) -> str:
    rows = []
    for number, it in enumerate(found.replicas):
        script = [f"call {call}: {act.text}" for call, act in sorted(read.scripts[number].items())]
        tables = [f"{name} {' '.join(map(write.row, rows_of))}" for name, rows_of in it.tables]
        state = it.state + (", the primary" if it.is_primary else "")
        rows.append([str(number), it.kind, "\n".join(script), state, str(it.position), str(it.preempted), "\n".join(tables)])
    heads = ["replica", "engine", "script", "state", "position", "preempted", "committed rows"]
    return html_table(heads, rows)
