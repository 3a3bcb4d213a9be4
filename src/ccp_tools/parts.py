"""Splits a scenario into parts that one run of `ccp` takes, and joins what they print into what one run would print.

Each part has the traces of its cases alone, and of more than 13 programs those of its cases. A run takes at most 1,024
cases and 1,048,576 bytes, and `timeline` and `acks` at most 64 cases and 262,144 acknowledgements."""
from __future__ import annotations

import csv
import io
import json
import re
import sys
from dataclasses import dataclass
from pathlib import Path
from typing import Any, Dict, Iterator, List, Mapping, NoReturn, Sequence, Set, Tuple

from .errors import CcpError
from .tables import COLUMNS, LIMITS, MODES, SUMS
from .texts import read_table

# the modes whose limits count, for each thing that can be printed
OUTPUTS = {
    "campaign": ("campaign",),
    "timeline": ("timeline",),
    "acks": ("acks",),
    "metrics": ("campaign", "timeline", "acks"),
}


@dataclass(frozen=True)
class Part:
    """A part: the numbers of its cases in the scenario, from `first` up to `end`, without it, and its scenario's
    text."""

    first: int
    end: int
    text: str


# ---- splitting


class Splitter:
    """Splits the cases of a scenario into runs of cases that one run of `ccp` takes. `size` is the most cases of a
    part."""

    def __init__(self, whole: Dict[str, Any], output: str, size: int) -> None:
        self.whole = whole
        self.cases: List[Any] = whole["cases"]
        traces = whole.get("traces")
        self.traces: Dict[str, Any] = traces if isinstance(traces, dict) else {}
        self.size = min([size] + [MODES[mode].cases or size for mode in OUTPUTS[output]])
        self.most_acks = None if output == "campaign" else LIMITS["acks_in_all"]
        self.has_many_programs = has_many_programs(whole)
        # the bytes without cases and traces
        emptied: Dict[str, Any] = {"cases": [], **({"traces": {}} if self.traces else {})}
        self.bare = len(json.dumps({**whole, **emptied}))
        self.trace_bytes = {name: len(json.dumps({name: text})) for name, text in self.traces.items()}

    def trace_of(self, case: Any) -> str | None:
        """The name of a case's trace; None where the scenario has no such trace."""
        name = case.get("trace") if isinstance(case, dict) else None
        return name if isinstance(name, str) and name in self.traces else None

    def spans(self) -> Iterator[Tuple[int, int]]:
        """The parts as spans of cases: as many cases a part as the limits allow."""
        first, size, acks = 0, self.bare, 0
        used: Set[str | None] = set()
        programs: Set[str] = set()
        for at, case in enumerate(self.cases):
            # the bytes of a case with the comma and the blank after it, and those of its trace if it is the first one
            case_size, case_acks, name = len(json.dumps(case)) + 2, acks_of(case), self.trace_of(case)
            more = case_size + (self.trace_bytes[name] if name and name not in used else 0)
            programs |= programs_of(case) if self.has_many_programs else set()
            is_full = self.is_full(at - first, size + more) or self.has_too_many(acks + case_acks)
            if at > first and (is_full or len(programs) > LIMITS["named_programs"]):
                yield first, at
                first, used, size, acks = at, set(), self.bare, 0
                more, programs = case_size + (self.trace_bytes[name] if name else 0), programs_of(case)
            used.add(name)
            size, acks = size + more, acks + case_acks
        yield first, len(self.cases)

    def is_full(self, cases: int, size: int) -> bool:
        """Whether a part of `cases` cases takes no more, or one that has `size` bytes with the next case."""
        return cases >= self.size or size > LIMITS["input_bytes"]

    def has_too_many(self, acks: int) -> bool:
        """Whether `acks` acknowledgements are more than a run takes."""
        return self.most_acks is not None and acks > self.most_acks

    def part(self, first: int, end: int) -> Part:
        """The part of a span. The first one keeps all traces where they fit, so that a trace that no case uses is
        refused as in one run."""
        made = with_used_programs(dict(self.whole, cases=self.cases[first:end]))
        text = json.dumps(made)
        if self.traces and (first or len(text) > LIMITS["input_bytes"]):
            used = {self.trace_of(case) for case in made["cases"]}
            made["traces"] = {name: text for name, text in self.traces.items() if name in used}
            text = json.dumps(made)
        if len(text) > LIMITS["input_bytes"]:
            what = "cases[%d] alone has %d bytes with its trace and the programs" % (first, len(text))
            raise CcpError("%s, and one run takes at most %d: cut the trace" % (what, LIMITS["input_bytes"]), 3)
        return Part(first, end, text)


def has_many_programs(scenario: Mapping[str, Any]) -> bool:
    """Whether a scenario has more programs than one run takes."""
    programs = scenario.get("programs")
    return isinstance(programs, dict) and len(programs) > LIMITS["named_programs"]


def programs_of(case: Any) -> Set[str]:
    """The names of the programs of a case."""
    members = case if isinstance(case, dict) else {}
    return {members[role] for role in ("ss", "ca") if isinstance(members.get(role), str)}


def with_used_programs(scenario: Dict[str, Any]) -> Dict[str, Any]:
    """A scenario, without the programs that no case of it uses where one run doesn't take all of them."""
    if not has_many_programs(scenario):
        return scenario
    used = {name for case in scenario["cases"] for name in programs_of(case)}
    return {**scenario, "programs": {name: text for name, text in scenario["programs"].items() if name in used}}


def acks_of(case: Any) -> int:
    """The acknowledgements of a case; those of one that `ccp` refuses don't matter."""
    count = case.get("acks") if isinstance(case, dict) else None
    return count if type(count) is int and 0 <= count <= LIMITS["acks"] else 0


def refuse_constant(name: str) -> NoReturn:
    """Refuses NaN and Infinity, which Python takes for JSON."""
    raise ValueError("%s is no JSON" % name)


def parts_of(data: bytes, output: str, size: int) -> List[Part]:
    """The parts of a scenario's bytes; the whole is one part where it can't be split, and then `ccp` says why."""
    try:
        # -0 is a number of another kind to ccp, as a text is
        whole = json.loads(
            data.decode("utf-8"),
            parse_constant=refuse_constant,
            parse_int=lambda digits: digits if digits == "-0" else int(digits),
        )
        cases = whole["cases"]
        if not isinstance(cases, list) or not cases:
            raise ValueError("no cases to split")
    except (ValueError, KeyError, TypeError, RecursionError):
        return [Part(0, 0, data.decode("utf-8", "surrogateescape"))]
    splitter = Splitter(whole, output, size)
    return [splitter.part(first, end) for first, end in splitter.spans()]


def in_whole(line: str, first: int) -> str:
    """The line of a refusal, with the number of the case in the scenario."""
    return re.sub(r"cases\[(\d+)\]", lambda found: "cases[%d]" % (int(found.group(1)) + first), line, count=1)


# ---- joining


def print_joined(output: str, texts: Sequence[Path], firsts: Sequence[int]) -> None:
    """Prints what the parts printed as what one run would print. `firsts` are the numbers of their first cases."""
    if output == "campaign":
        print_table(texts)
    elif output == "metrics":
        print_metrics(texts)
    else:
        for path, first in zip(texts, firsts):
            print_flows(path, first)


def text_in(path: Path) -> str:
    """The text of a part's output."""
    return path.read_text(encoding="utf-8", errors="surrogateescape")


def print_table(texts: Sequence[Path]) -> None:
    """One table of the rows of all, after the programs' frames of the first, with the total of all."""
    tables = [read_table(text_in(path)) for path in texts]
    lines = ["install %d %s" % (number, frame.hex()) for number, frame in tables[0].installs.items()]
    lines.append(" ".join(COLUMNS))
    lines += [" ".join(str(row[name]) for name in COLUMNS) for table in tables for row in table.rows]
    total = {name: sum(table.total[name] for table in tables) for name in ["cases", *SUMS]}
    print("\n".join(lines + ["total " + " ".join("%s=%d" % item for item in total.items())]))


def print_flows(path: Path, first: int) -> None:
    """The flows of a part, with their numbers in the scenario; the programs' frames come once, from the first part."""
    with open(path, encoding="utf-8", errors="surrogateescape") as file:
        for line in file:
            if line.startswith("flow "):
                _, number, rest = line.split(" ", 2)
                line = "flow %d %s" % (int(number) + first, rest)
            if not first or not line.startswith("install "):
                sys.stdout.write(line)


def print_metrics(texts: Sequence[Path]) -> None:
    """One CSV of the rows of all. A column that a part lacks, since none of its cases has that member, is empty
    there."""
    tables = [list(csv.reader(io.StringIO(text_in(path)))) for path in texts]
    columns: List[str] = []
    for table in tables:
        columns = merged(columns, table[0])
    out = csv.writer(sys.stdout, lineterminator="\n")
    out.writerow(columns)
    for heading, *rows in tables:
        for row in rows:
            values = dict(zip(heading, row))
            out.writerow([values.get(name, "") for name in columns])


def merged(columns: List[str], more: Sequence[str]) -> List[str]:
    """Columns with those of another part: a new one comes before the next one that is known, as in the whole's
    heading."""
    made = list(columns)
    at = len(made)
    for name in reversed(more):
        if name in made:
            at = made.index(name)
        else:
            made.insert(at, name)
    return made
