"""Tries `hrdb step` on made-up scenarios, and judges what it does.

  python3 -m sim seeds [FIRST LAST]     scenarios of these seeds: each report is judged, and foretold to the byte
  python3 -m sim near [FIRST LAST]      scenarios near to the stored ones, by these seeds: the same
  python3 -m sim damage [FIRST LAST]    scenarios of these seeds with bytes, words and lines broken: read or refused
  python3 -m sim one_fault              one act in `transfer_beside_reader`: each act, replica and call, 396 runs
  python3 -m sim memory                 each allocation of four scenarios is refused in turn
  python3 -m sim worked                 the models against the repository's own worked scenarios, texts and statements
  python3 -m sim sqlite [FIRST LAST]    the plain machine against SQLite, on statements of these seeds
  python3 -m sim make SEED              writes the scenario of a seed
  python3 -m sim foretell < SCENARIO    writes the report that is due
  python3 -m sim judge SCENARIO REPORT  what can't be in this report of this scenario

Seeds are whole numbers from 0; without FIRST and LAST they are 1 to 1000.

  --program FILE  a build of the program; where there are several they must agree (where none is named: what ./hrdb runs)
  --judge-alone   reports are judged, and not foretold
  --stack KIB     the program gets so much stack
"""

from __future__ import annotations

import argparse
import os
import sys
from collections import Counter
from collections.abc import Callable
from pathlib import Path
from typing import NoReturn

from . import damage, judge, make, memory, near, one_fault, replay, runs, scenario, sqlite, worked
from .runs import Trial
from .scenario import Refused
from .shrink import shrink

PROGRESS = 1000
SEEDS = ["1", "1000"]


class WrongWords(Exception):
    """Why a command's words mean nothing."""


def main() -> int:
    """The exit status: 0 where all is well, 1 where something is wrong, and 2 for words that mean nothing."""
    sys.setrecursionlimit(20_000)
    given = parser().parse_args()
    call, form, runs_program = COMMANDS[given.command]
    try:
        words = read_words(form, given.words)
        programs = programs_of(given.program) if runs_program else []
    except WrongWords as why:
        usage(f"{given.command} {form}", str(why))
    return call(Trial(programs, not given.judge_alone, given.stack), *words)


def parser() -> argparse.ArgumentParser:
    made = argparse.ArgumentParser("python3 -m sim", add_help=False, formatter_class=argparse.RawDescriptionHelpFormatter)
    made.add_argument("command", choices=sorted(COMMANDS))
    made.add_argument("words", nargs="*")
    made.add_argument("--program", action="append", type=Path)
    made.add_argument("--judge-alone", action="store_true")
    made.add_argument("--stack", type=int)
    made.add_argument("-h", "--help", action="version", version=__doc__)
    made.error = lambda why: usage("COMMAND [WORDS]", f"{why} (-h tells of each command)")
    return made


def usage(form: str, why: str) -> NoReturn:
    print(f"usage: python3 -m sim {form}".rstrip(), f"sim: {why}", sep="\n", file=sys.stderr)
    sys.exit(2)


def read_words(form: str, words: list[str]) -> list[int | Path]:
    """The words of a command whose usage line has this form, whose words may be left out where it is in brackets."""
    if form.startswith("[") and not words:
        words = SEEDS
    names = form.strip("[]").split()
    if len(words) != len(names):
        raise WrongWords(f"words wanted: {len(names)}, given: {len(words)}")
    found = [a_file(it) if name in ("SCENARIO", "REPORT") else a_seed(it) for name, it in zip(names, words)]
    if names == ["FIRST", "LAST"] and found[0] > found[1]:
        raise WrongWords("LAST is before FIRST")
    return found


def a_seed(word: str) -> int:
    if not (word.isascii() and word.isdigit()):
        raise WrongWords(f"{word} is no whole number")
    return int(word)


def a_file(word: str) -> Path:
    if not os.access(word, os.R_OK) or Path(word).is_dir():
        raise WrongWords(f"{word} is no file that can be read")
    return Path(word)


def programs_of(named: list[Path] | None) -> list[Path]:
    """The programs that are named, or the one that `./hrdb` runs."""
    for it in named or []:
        if not os.access(it, os.X_OK) or it.is_dir():
            raise WrongWords(f"{it} is no program")
    return [it.resolve() for it in named] if named else [runs.program()]


def seeds(trial: Trial, first: int, last: int) -> int:
    return run_all(trial, make.scenario, first, last)


def nears(trial: Trial, first: int, last: int) -> int:
    return run_all(trial, near.scenario, first, last)


def run_all(trial: Trial, maker: Callable[[int], list[str]], first: int, last: int) -> int:
    """Runs the scenarios of seeds; the first one that fails is cut down, and written."""
    shown: Counter[str] = Counter()
    for seed in range(first, last + 1):
        lines = maker(seed)
        if faults := trial.faults(text_of(lines)):
            return tell(trial, seed, lines, faults)
        shown += runs.seen(trial.last.out) if trial.last.status == 0 else Counter({"refused": 1})
        progress(seed, first)
    for what, count in sorted(shown.items()):
        print(f"{what}: {count}")
    print(f"{last - first + 1} runs passed, 0 failed")
    return 0


def damaged(trial: Trial, first: int, last: int) -> int:
    """Runs damaged scenarios: each is read and judged, or refused at the line and for the kind that is due."""
    shown: Counter[str] = Counter()
    for seed in range(first, last + 1):
        text = damage.damaged(seed)
        if faults := trial.faults(text):
            print(f"seed {seed}: {faults}")
            sys.stdout.buffer.write(text)
            return 1
        shown[damage.kind_of(text)] += 1
        progress(seed, first)
    for what, count in sorted(shown.items()):
        print(f"{what}: {count}")
    print(f"{last - first + 1} runs passed, 0 failed")
    return 0


def progress(seed: int, first: int) -> None:
    done = seed - first + 1
    if done % PROGRESS == 0:
        print(f"{done} runs passed", file=sys.stderr, flush=True)


def text_of(lines: list[str]) -> bytes:
    return ("\n".join(lines) + "\n").encode()


def tell(trial: Trial, seed: int, lines: list[str], faults: list[str]) -> int:
    print(f"seed {seed}: {faults}", flush=True)
    small = shrink(lines, lambda it: bool(trial.faults(text_of(it))))
    print(f"cut down, it fails with {trial.faults(text_of(small))}:")
    print("\n".join(small))
    return 1


def one_faults(trial: Trial) -> int:
    failed = list(one_fault.failing(trial))
    print(*failed, sep="\n", end="\n" if failed else "")
    print(f"{one_fault.COUNT - len(failed)} runs passed, {len(failed)} failed")
    return bool(failed)


def refused_memory(trial: Trial) -> int:
    failed = 0
    for program in trial.programs:
        for name in memory.SCENARIOS:
            shown, wrong = memory.refuse_all(program, name)
            print(f"{program.name}, {name}: {dict(sorted(shown.items()))}", *wrong, sep="\n")
            failed += len(wrong)
    return bool(failed)


def tables(_: Trial) -> int:
    """The models against what was worked out by hand."""
    failed = 0
    for table in (worked.scenarios, worked.page, worked.reader_texts, worked.statements):
        count, wrong = table(runs.TOP)
        print(f"{table.__name__}: {count - len(wrong)} agree, {len(wrong)} differ", *wrong)
        failed += len(wrong)
    return bool(failed)


def beside_sqlite(_: Trial, first: int, last: int) -> int:
    compared, wrong = sqlite.compare(range(first, last + 1))
    print(f"{compared} statements agree, {len(wrong)} differ", *wrong, sep="\n")
    return bool(wrong)


def made(_: Trial, seed: int) -> int:
    sys.stdout.buffer.write(text_of(make.scenario(seed)))
    return 0


def foretold(_: Trial) -> int:
    """As the program would: a report, or the line that is told of a text that is no scenario, and its status."""
    try:
        read = scenario.read(sys.stdin.buffer.read())
    except Refused as line:
        due = runs.refused(line)
        sys.stderr.buffer.write(due.told)
        return due.status
    sys.stdout.buffer.write(replay.report(read))
    return 0


def judged(_: Trial, text: Path, told: Path) -> int:
    try:
        read = scenario.read(text.read_bytes())
    except Refused as line:
        print(f"{text} is no scenario: {line}")
        return 1
    found = judge.faults_of(read, told.read_bytes())
    print(*found or ["nothing is wrong"], sep="\n")
    return bool(found)


# What each calls, its words, and whether it runs a program.
COMMANDS: dict[str, tuple[Callable[..., int], str, bool]] = {
    "seeds": (seeds, "[FIRST LAST]", True),
    "near": (nears, "[FIRST LAST]", True),
    "damage": (damaged, "[FIRST LAST]", True),
    "one_fault": (one_faults, "", True),
    "memory": (refused_memory, "", True),
    "worked": (tables, "", False),
    "sqlite": (beside_sqlite, "[FIRST LAST]", False),
    "make": (made, "SEED", False),
    "foretell": (foretold, "", False),
    "judge": (judged, "SCENARIO REPORT", False),
}

if __name__ == "__main__":
    sys.exit(main())
