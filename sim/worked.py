"""The models held against what stands in the repository, worked out by hand and apart from them.

Three tables: the scenarios with their reports or refusals, and the scenarios and the statements of `hr_runs`. Each answers the
names of the rows that differ, and how many there were.
"""

from __future__ import annotations

from pathlib import Path

from . import judge, machine, replay, report, scenario, syntax, write
from .scenario import Problems, Refused

Outcome = tuple[int, list[str]]


def refusal_of(text: bytes) -> str | None:
    """What the program tells of a text that is no scenario, or None where it is one."""
    try:
        scenario.read(text)
    except Refused as refused:
        return f"input: {refused}"
    return None


def scenarios(top: Path) -> Outcome:
    """Each stored scenario is read, and its report judged well; or it is refused at the stored line."""
    wrong, found = [], sorted(top.glob("scenarios/*.hrdb"))
    for path in found:
        text, told = path.read_bytes(), path.with_suffix(".refused")
        due = told.read_text().strip() if told.exists() else None
        if refusal_of(text) != due:
            wrong.append(path.name)
        elif due is None and judge.faults_of(scenario.read(text), path.with_suffix(".report").read_bytes()):
            wrong.append(path.name)
    return len(found), wrong


def page(top: Path) -> Outcome:
    """The scenario of `docs/FORMATS.md`, its first example, gives the report of the second."""
    text, told = (top / "docs/FORMATS.md").read_text().split("```\n")[1:4:2]
    return 1, [] if replay.report(scenario.read(text.encode())) == told.encode() else ["docs/FORMATS.md"]


def part_of(top: Path, file: str, name: str) -> list[str]:
    """The lines of a part of what `hr_runs` is given or writes."""
    lines = (top / "crates/hr_runs" / file).read_text().split("\n")[:-1]
    start = lines.index(f"%% {name}") + 1
    heads = (place for place in range(start, len(lines)) if lines[place].startswith("%% "))
    return lines[start : next(heads, len(lines))]


def reader_texts(top: Path) -> Outcome:
    """Each text of the part `scenarios` is a scenario, or refused at the line and for the kind written there."""
    told = iter(part_of(top, "stdout", "scenarios"))
    wrong, cases = [], list(texts_of(part_of(top, "stdin", "scenarios")))
    for name, text in cases:
        while next(told) != name:
            pass
        due = next(told)
        due = "input: " + due.split(",")[0] if due.startswith("line ") else None
        if refusal_of(text.encode()) != due:
            wrong.append(name)
    return len(cases), wrong


def texts_of(stdin: list[str]):
    """The names and texts of the part `scenarios`."""
    name, text = "", ""
    for line in stdin:
        if line.startswith("== "):
            name, text = line[3:], ""
        elif line == "==":
            yield name, text
        else:
            text += expanded(line)


def expanded(line: str) -> str:
    """The lines that a line of such a text stands for."""
    word, _, rest = line.partition(" ")
    if word == "%raw":
        return rest.replace("^", "\r").replace("$", "\n")
    count, _, rest = rest.partition(" ")
    if word == "%repeat":
        return "".join(rest.replace("@", str(number)) + "\n" for number in range(1, int(count) + 1))
    if word == "%long":
        return rest.ljust(int(count), "x") + "\n"
    return line + "\n"


def statements(top: Path) -> Outcome:
    """Each statement of the part `statements` that is one is answered as written there, and each other one is refused."""
    told = part_of(top, "stdout", "statements")
    wrong, count, place, plain = [], 0, 0, machine.Machine(())
    for line in part_of(top, "stdin", "statements"):
        place += 1
        if line == "database":
            plain = machine.Machine(())
        elif line.startswith("table"):
            plain = with_table(plain, line)
        else:
            count += 1
            if answered(plain, line) != in_order(answer_at(told, place)):
                wrong.append(line)
        place += len(answer_at(told, place).split("\n"))
    return count, wrong


def with_table(plain: machine.Machine, line: str) -> machine.Machine:
    other = machine.Machine(plain.catalog + (scenario.table_form(line, Problems()),))
    other.rows.update(plain.rows)
    return other


def answer_at(told: list[str], place: int) -> str:
    """The lines of the answer that begins here."""
    lines = 1
    if told[place].startswith("rows "):
        lines += int(told[place].split(" ")[1])
    return "\n".join(told[place : place + lines])


def in_order(told: str) -> str | None:
    """An answer with its rows in ascending order, which the machine's needn't be; None where it is a problem's text."""
    lines = report.Lines(f"{told}\n".encode())
    try:
        found = lines.answer("")
    except report.BadReport:
        return None
    if isinstance(found, machine.Rows):
        found = machine.Rows(tuple(sorted(found.rows, key=machine.row_order)))
    return write.answer(found)


def answered(plain: machine.Machine, line: str) -> str | None:
    """The text of a statement's answer, or None where it is none."""
    try:
        return write.answer(plain.run(machine.bind(plain.catalog, syntax.parse(line))))
    except syntax.BadStatement:
        return None
