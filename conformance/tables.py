"""Results of importers: as tests of TAP, as a table, and as files that say what an importer is known to do."""
from __future__ import annotations

import json
import os
from typing import Dict, List

from cases import LEVELS, Case
from compare import Difference

Results = Dict[str, str]
"""How an importer does each case that it does not do as expected, by the case's name."""

COLUMNS = ("same", "takes", "refuses", "differs", "breaks")
"""What may come of a case: all as expected; accepted where it is to be refused; refused where it is to be accepted; ended as expected,
with something else that differs; and an adapter that crashes, prints what no contract knows, or never ends."""


def row_of(found: List[Difference]) -> str:
    """What differs, in a few words that stay the same from run to run: `takes, refs`, or `same`."""
    words: List[str] = []
    for it in found:
        word = it.what if it.what != "end" else _ended(it)
        words += [] if word in words else [word]
    return ", ".join(words) or "same"


def _ended(difference: Difference) -> str:
    if difference.seen.startswith("accepted"):
        return "takes"
    return "refuses" if difference.seen.startswith("refused") else "breaks"


def column_of(row: str) -> str:
    """The column that counts a row."""
    first = row.split(", ")[0]
    return first if first in COLUMNS else "differs"


class Tally:
    """What came of the cases of one importer: how many of each level are in each column, and the row of each case."""

    def __init__(self, name: str, version: str):
        self.name = name
        self.version = version
        self.rows: Results = {}
        self.counts: Dict[str, Dict[str, int]] = {}

    def add(self, case: Case, row: str) -> None:
        """Counts a case, by the row that row_of gives."""
        self.rows[case.name] = row
        level = self.counts.setdefault(case.row, dict.fromkeys(COLUMNS, 0))
        level[column_of(row)] += 1


def table(tallies: List[Tally]) -> List[str]:
    """The lines of a table with a row for each importer and level."""
    lines = ["| importer | level | cases | " + " | ".join(COLUMNS) + " |", "|---" * (len(COLUMNS) + 3) + "|"]
    for tally in tallies:
        for level in LEVELS:
            counts = tally.counts.get(level)
            if counts:
                cells = [tally.version, level, str(sum(counts.values())), *(str(counts[it]) for it in COLUMNS)]
                lines.append("| " + " | ".join(cells) + " |")
    return lines


def tap_of(number: int, name: str, passes: bool, found: List[Difference]) -> str:
    """A test of TAP version 14, with what differs below it."""
    lines = [f"{'ok' if passes else 'not ok'} {number} - {name}"]
    if found:
        lines.append("  ---")
        for it in found:
            lines += [f"  - what: {json.dumps(it.what)}", f"    expected: {json.dumps(it.expected)}", f"    seen: {json.dumps(it.seen)}"]
        lines.append("  ...")
    return "\n".join(lines)


def read_results(folder: str, name: str) -> Results:
    """What an importer is known to do: the lines `CASE: WHAT DIFFERS` of its file. Raises OSError and ValueError."""
    with open(os.path.join(folder, name), encoding="ascii") as file:
        lines = [it.rstrip("\n") for it in file if it.strip() and not it.startswith("#")]
    pairs = [it.partition(": ") for it in lines]
    if any(not row for _, _, row in pairs):
        raise ValueError(f"{folder}/{name}: a line is not `CASE: WHAT DIFFERS`")
    return {case: row for case, _, row in pairs}


def first_line(folder: str, name: str) -> str:
    """The version of the importer that a file of results tells, and its date."""
    with open(os.path.join(folder, name), encoding="ascii") as file:
        return file.readline().strip("# \n")


def write_results(folder: str, tally: Tally, date: str) -> None:
    """Writes what was seen of an importer, its version, the day and its table first."""
    os.makedirs(folder, exist_ok=True)
    with open(os.path.join(folder, tally.name), "w", encoding="ascii") as file:
        print(f"# {tally.version}, {date}", *("# " + it for it in table([tally])), sep="\n", file=file)
        for case in sorted(tally.rows):
            if tally.rows[case] != "same":
                print(f"{case}: {tally.rows[case]}", file=file)
