"""Inputs that nobody means well, by chance and the same again by their seeds, and what must hold of each run.

`case_of(kind, seed, number)` is the words of a command and the files of its folder. `judge` says what is wrong with how
it ended: an end that no page names, a line that isn't one or is too long, a success without an output, or something
left behind."""
from __future__ import annotations

import bz2
import copy
import gzip
import json
import lzma
import os
import random
import re
from dataclasses import dataclass, field
from functools import lru_cache
from pathlib import Path
from typing import Any, Callable, Dict, Iterator, List, Tuple

from support import EXAMPLES, TRACES, Ran, ccp

DATA = Path(__file__).parent / "data"
# the most bytes of an error's line
LONGEST = 400
# what the pages name: done, a failure, wrong words, the program's refusal and faults
STATUSES = (0, 1, 2, 3, 4, 5, 6)
# commands that print nothing where all is well
SILENT = ("plot", "compare")

NAMES = ["a b", "a'b", 'a"b', "a\nb", "-a", "--quiet", "a;b", "$(id)", "`id`", "a\x1b[31mb", "x" * 250, "é" * 100]
NAMES += ["{}", "{= die =}", "a=b", "a,b", "*", "~", ".hidden", "a\rb", "%s%n", "a\udcff"]
VALUES: List[Any] = [
    None,
    True,
    0,
    1,
    -1,
    1.5,
    2**63,
    2**64,
    10**40,
    "",
    "x",
    "é",
    "x" * 300,
    [],
    {},
    [1],
    {"a": 1},
]
VALUES += ["reno", "5\n5\n", "0\n", "9\n1\n", "x\n", float("nan"), float("inf"), [[]]]
NUMBERS = ["0", "1", "-1", "007", "1.5", "1e5", "", "x", "18446744073709551615", "18446744073709551616", "9" * 5000]
LINES = ["", "total", "end", "link rounds=0 sent=0 acked=0 lost=0 inflight=0", "flow 0 case=a agent=reno", "\0", "é"]


@dataclass(frozen=True)
class Case:
    """The words of a command, the first of which is its name, and the files of the folder that it runs in."""

    words: List[str]
    files: Dict[str, bytes] = field(default_factory=dict)

    def write(self, folder: Path) -> None:
        """Writes the files to a folder."""
        for name, data in self.files.items():
            (folder / name).write_bytes(data)


# ---- what is changed by chance


def places_of(value: Any, place: Tuple[Any, ...] = ()) -> Iterator[Tuple[Any, ...]]:
    """The places of a JSON value's members."""
    for key in list(value) if isinstance(value, dict) else range(len(value)) if isinstance(value, list) else []:
        yield (*place, key)
        yield from places_of(value[key], (*place, key))


def with_members(draw: random.Random, given: Any) -> Any:
    """A JSON value with up to three members that are changed, renamed, repeated or gone."""
    made = copy.deepcopy(given)
    for _ in range(draw.choice([1, 1, 2, 3])):
        *above, key = draw.choice(list(places_of(made)) or [(None,)])
        owner = made
        for one in above:
            owner = owner[one]
        if key is None:
            return made
        if draw.random() < 0.3:
            del owner[key]
        elif draw.random() < 0.7:
            owner[key] = draw.choice(VALUES)
        elif isinstance(owner, list):
            owner.append(copy.deepcopy(owner[key]))
        else:
            owner[str(key) + "x"] = owner.pop(key)
    return made


def with_lines(draw: random.Random, text: str) -> str:
    """A text with up to three lines that are changed, moved, repeated or gone."""
    lines = text.split("\n")
    for _ in range(draw.choice([1, 1, 2, 3])):
        at, kind = draw.randrange(min(len(lines), 60)), draw.random()
        numbers = list(re.finditer("[0-9]+", lines[at]))
        if kind < 0.5 and numbers:
            found = draw.choice(numbers)
            lines[at] = lines[at][: found.start()] + draw.choice(NUMBERS) + lines[at][found.end() :]
        elif kind < 0.6:
            lines[at] = lines[at][: draw.randrange(len(lines[at]) + 1)]
        elif kind < 0.7:
            lines[at:] = []
        elif kind < 0.85:
            lines.insert(at, draw.choice([*LINES, *lines[:60]]))
        elif len(lines) > 1:
            del lines[at]
        lines = lines or [""]
    return "\n".join(lines)


def with_bytes(draw: random.Random, data: bytes) -> bytes:
    """Bytes of which one is another, or the end is gone, or something comes behind it; or as they are."""
    at, kind = draw.randrange(len(data) or 1), draw.random()
    if kind < 0.3:
        return data[:at] + bytes([draw.randrange(256)]) + data[at + 1 :]
    return data[:at] if kind < 0.6 else data + draw.choice([data, b"\0", b"x"]) if kind < 0.8 else data


# ---- the kinds


@lru_cache(maxsize=None)
def texts() -> Dict[str, str]:
    """A small scenario and what each mode of it prints."""
    scenario = json.loads((EXAMPLES / "live.json").read_text(encoding="utf-8"))
    for case in scenario["cases"]:
        case["acks"] = 60
    shared = json.loads((EXAMPLES / "shared.json").read_text(encoding="utf-8"))
    shared["shared"]["rounds"] = 30
    made = {"live": json.dumps(scenario), "shared.json": json.dumps(shared)}
    made.update({mode: ccp(mode, given=made["live"]).output for mode in ("campaign", "timeline", "acks")})
    for mode in ("shared", "shared-timeline", "shared-acks"):
        made[mode] = ccp(mode, given=made["shared.json"]).output
    return made


def of_texts(draw: random.Random) -> Case:
    """A scenario and texts of a run, of which some are damaged, for the commands that read both."""
    is_shared = draw.random() < 0.5
    modes = ["shared", "shared-timeline", "shared-acks"] if is_shared else ["campaign", "timeline", "acks"]
    scenario = texts()["shared.json" if is_shared else "live"]
    if draw.random() < 0.7:
        scenario = json.dumps(with_members(draw, json.loads(scenario)))
    files = {mode: texts()[mode] if draw.random() < 0.5 else with_lines(draw, texts()[mode]) for mode in modes}
    picked = draw.sample(modes, draw.randint(1, 3))
    options = draw.choice([[], ["--until", "1"], ["--by", "trace"], ["--json"], ["--window-ms", "100"]])
    words = draw.choice(
        [
            ["metrics", "s.json", *picked, *options],
            ["metrics", "s.json", *picked, *options],
            ["verify", "s.json", picked[0]],
            ["table", picked[0]],
            ["plot", draw.choice(["flows", "cdf", "shares", "packets"]), "--scenario", "s.json", picked[0], "x.svg"],
        ]
    )
    return Case(words, {name: text.encode("utf-8", "replace") for name, text in {**files, "s.json": scenario}.items()})


def of_names(draw: random.Random) -> Case:
    """Files with hostile names, that have what the command reads or anything else."""
    name = draw.choice(NAMES)
    data = draw.choice([TRACES[0].read_bytes(), texts()["live"].encode(), texts()["campaign"].encode(), b"", b"\0"])
    words = draw.choice(
        [
            ["trace", "info", name],
            ["trace", "cut", "--to", "5", name],
            ["scenario", name],
            ["scenario", "--senders", "mine=" + name, str(TRACES[0])],
            ["explain", name],
            ["table", name],
            ["metrics", name, name],
            ["plot", "bars", name, name + ".svg"],
            # `compare` finds out here what it would run; what it writes is tested with its folder
            ["compare", name, "--senders", "reno", "--dry-run"],
        ]
    )
    return Case(words, {name: data})


# a number or a text as `traces` isn't among them: `compare` has its own tests of what it reads from there
TOML = {
    "traces": ['["fixed.trace"]', "[]", '["none.trace"]', '["fixed.trace", "fixed.trace"]', "[7]"],
    "senders": ['["reno"]', '["reno", "x=none.portus"]', '["m=agent.py"]', "[7]", '"reno"', '["reno" , "reno"]'],
    "seconds": ["0.1", "-1", "nan", "inf", "1e308", '"x"', "true", "[1]"],
    "delay_ms": ["20", "0", "-5", '"1..3"', "[20, 30]", "99999999999999999999"],
    "queue": ["10", '"1bdp"', '"x"', "0", "1e5"],
    "seeds": ["[1, 2]", '"1..3"', '"3..1"', "{}"],
    "losses": ['"rate:0.01"', '"rate:2"', '"x"', "0.01"],
    "nothing": ["1"],
    "[table]": ["x"],
}


def of_toml(draw: random.Random) -> Case:
    """A compare.toml by chance, of which nothing runs."""
    names = ["traces", "senders", *draw.sample(list(TOML)[2:], draw.randint(0, 3))]
    lines = ["%s = %s" % (name, TOML[name][0] if draw.random() < 0.6 else draw.choice(TOML[name])) for name in names]
    text = "\n".join(lines) + "\n"
    data = with_bytes(draw, text.encode()) if draw.random() < 0.4 else text.encode()
    files = {"c.toml": data, "fixed.trace": TRACES[0].read_bytes(), "agent.py": agent_text(draw).encode()}
    return Case(["compare", "c.toml", "--dry-run"], files)


AGENT = """from ccp_tools.drive import Agent, Change, Update
import math, os, sys
%s
class Mine(Agent):
    programs = %s
    def on_create(self, create):
        %s
    def on_report(self, report):
        %s
"""
PROGRAM = "{'p': '(def (Report (volatile n 0)) (gain 1)) (when true (:= Report.n 7) (report))'}"
DEEDS = ["sys.exit(0)", "sys.exit('x' * 9999)", "raise BaseException", "raise GeneratorExit", "1 / 0", "report.none"]
DEEDS += [
    "self.none",
    "raise RuntimeError('a\\nb' * 999)",
    "raise MemoryError",
    "report['none']",
    "(lambda f: f(f))(0)",
]
DEEDS += ["print('hello')", "pass"]
RETURNS = ["Update(cwnd=%s)", "Change('p', gain=%s)", "Change(%s)", "%s", "Update(rate=%s)", "Update(none=%s)"]
GIVEN = [
    "math.nan",
    "-math.inf",
    "1e300",
    "-1",
    "2**64",
    "'7'",
    "[]",
    "1500.5",
    "None",
    "object()",
    "'x' * 9999",
    "b''",
]
TOPS = ["", "", "", "sys.exit(0)", "import none", "def f(:", "agent = 7", "class Other(Agent): pass", "\0", "raise"]
PROGRAMS = [PROGRAM, PROGRAM, PROGRAM, "7", "{7: 7}", "{'p': 7}", "{'p': '('}", "property(lambda self: sys.exit(0))"]


def agent_text(draw: random.Random) -> str:
    """The file of an agent that does something that it shouldn't, or answers so."""
    deed = draw.choice(DEEDS)
    answer = "return " + draw.choice(RETURNS) % draw.choice(GIVEN)
    create = draw.choice([answer, deed]) if draw.random() < 0.2 else "return Change('p')"
    return AGENT % (draw.choice(TOPS), draw.choice(PROGRAMS), create, draw.choice([answer, deed]))


def of_agents(draw: random.Random) -> Case:
    """An agent's file, and a scenario that is right or not."""
    scenario = json.loads((DATA / "driven.json").read_text(encoding="utf-8"))["scenario"]
    if draw.random() < 0.2:
        scenario = json.dumps(with_members(draw, json.loads(scenario)))
    return Case(["drive", "agent.py", "s.json"], {"agent.py": agent_text(draw).encode(), "s.json": scenario.encode()})


def of_sources(draw: random.Random) -> Case:
    """Damaged CSV, results of iperf and logs, from which traces are made."""
    columns = ["--time-column", draw.choice(["time", "none", "0"]), "--count-column", draw.choice(["len", "1", "-1"])]
    name, words = draw.choice(
        [
            ("packets.csv", ["from-csv", *columns]),
            ("packets.csv", ["from-csv", *columns, "--unit", "ms", "--separator", draw.choice([",", ";", "x"])]),
            ("iperf3.json", ["from-iperf3"]),
            ("mm-link.log", ["from-mahimahi-log"]),
            ("pantheon.log", ["measured"]),
        ]
    )
    data = with_lines(draw, (DATA / name).read_text(encoding="utf-8")).encode("utf-8", "replace")
    return Case(["trace", *words, name], {name: with_bytes(draw, data) if draw.random() < 0.3 else data})


def of_packed(draw: random.Random) -> Case:
    """Packed traces: damaged, cut, one in another, and some that unpack to far more than they have."""
    pack: Callable[[bytes], bytes] = draw.choice([gzip.compress, bz2.compress, lzma.compress])
    plain = draw.choice([TRACES[0].read_bytes(), b"", b"\n" * 2**20, b"7" * 2**20, pack(TRACES[0].read_bytes())])
    data = pack(plain) * (draw.choice([1, 90]) if len(plain) == 2**20 else 1)
    return Case(draw.choice([["trace", "info"], ["scenario"]]) + ["x.trace"], {"x.trace": with_bytes(draw, data)})


KINDS: Dict[str, Callable[[random.Random], Case]] = {
    "texts": of_texts,
    "names": of_names,
    "toml": of_toml,
    "agents": of_agents,
    "sources": of_sources,
    "packed": of_packed,
}


def case_of(kind: str, seed: int, number: int) -> Case:
    """A case of a kind; equal numbers give equal cases."""
    return KINDS[kind](random.Random("%s %d %d" % (kind, seed, number)))


# ---- what must hold


def judge(case: Case, ran: Ran, left: List[str]) -> str:
    """What is wrong with the end of a run, or an empty text. `left` are the names that are new in its folder."""
    name = case.words[0]
    begin = "drive: " if name == "drive" else "ccp %s: " % name
    errors = [line for line in ran.errors.split("\n")[:-1] if not line.startswith("ccp: warning: ")]
    if "Traceback" in ran.errors or "Exception ignored" in ran.errors:
        return "a traceback"
    if ran.status not in STATUSES:
        return "the status %d" % ran.status
    if ran.status == 0:
        is_shown = bool(ran.output or left) or name in SILENT
        return "" if is_shown else "a success without an output"
    # these print what they found, and say by their status that it isn't all well
    if name in ("verify", "explain") and ran.output and not errors:
        return ""
    if not errors or not errors[-1].startswith(begin):
        return "no line that begins with %r" % begin
    if [line for line in errors if line.startswith(begin)][1:]:
        return "more than one line"
    if len(errors[-1].encode("utf-8", "replace")) > LONGEST:
        return "a line of %d bytes" % len(errors[-1].encode("utf-8", "replace"))
    return "left behind: %s" % ", ".join(left) if left else ""


def new_names(folder: Path, case: Case) -> List[str]:
    """The names in a folder that aren't those of the case's files, nor what Python keeps of modules."""
    return sorted(set(os.listdir(folder)) - set(case.files) - {"__pycache__"})
