"""Inputs of each mode with what is expected of the program: what the reference model prints, where it has the mode,
else what the input was made for."""
from __future__ import annotations

import json
import re
from dataclasses import dataclass, field
from random import Random
from typing import Any, Callable, Dict, List, Optional, Sequence, Set, Tuple

from .. import texts
from ..errors import BadText, CcpError
from ..program import Run
from ..tables import LIMITS
from . import driven, inputs, modes, wire
from .code import heads
from .flow import flows_of
from .inputs import Traits, chance
from .language import MOST, Fault, Meaning

# what runs the program: a mode, its input and its options
Runner = Callable[..., Run]
Judge = Callable[[Run, Runner], Optional[str]]
REFUSAL = re.compile(r"ccp: input refused: (.+)\n")
WIDE = ["33 fields", "64 fields", "64 controls", "64 blocks", "eight locals", "code of 201 to 256 instructions"]


@dataclass
class Trial:
    """One input. `judge` returns what is wrong with a run of it, or None; `traits` are those that the input has."""

    mode: str
    data: bytes
    judge: Judge
    traits: Traits
    options: Dict[str, Any] = field(default_factory=dict)


def prints(expected: str, status: int = 0) -> Judge:
    """A judge that wants this output."""

    def judge(ran: Run, _run: Runner) -> Optional[str]:
        if ran.status != status:
            return "status %d: %s" % (ran.status, ran.errors.strip())
        return None if ran.output == expected else first_difference(ran.output, expected)

    return judge


def first_difference(here: str, expected: str) -> str:
    """The first line in which two texts differ."""
    pairs = list(zip(here.split("\n"), expected.split("\n")))
    for number, (line, other) in enumerate(pairs, 1):
        if line != other:
            return "line %d is\n  %s\nand is expected to be\n  %s" % (number, line, other)
    return "there are %d lines, and %d are expected" % (here.count("\n"), expected.count("\n"))


def refuses(reason: str) -> Judge:
    """A judge that wants this refusal."""

    def judge(ran: Run, _run: Runner) -> Optional[str]:
        expected = "ccp: input refused: %s\n" % reason
        if ran.status == 3 and ran.errors == expected and not ran.output:
            return None
        return "status %d, %s; expected is %s" % (ran.status, ran.errors.strip(), expected.strip())

    return judge


def wanted(draw: Random, more: Sequence[str] = ()) -> List[str]:
    """A trait to make, or none."""
    return [draw.choice([*WIDE, *more])] if chance(draw, 0.3) else []


def source_bytes(text: str) -> bytes:
    """The bytes of a program's text."""
    return text.encode("utf-8")


# ---- programs


def check(draw: Random) -> Trial:
    """An accepted program: its summary, and a line of the listing for each field, control variable, block and
    instruction."""
    traits: Traits = set()
    text = inputs.Programs(draw, traits, wanted(draw)).text()
    summary = modes.check_summary(text)
    meaning = Meaning(text)

    def judge(ran: Run, _run: Runner) -> Optional[str]:
        lines = ran.output.split("\n")[:-1]
        if ran.status or lines[:1] != [summary]:
            return "status %d, %s %s; expected is %s" % (ran.status, ran.errors.strip(), lines[:1], summary)
        instructions = [line for line in lines[1:] if line[0].isdigit()]
        declared = [line for line in lines[1:] if line.startswith(("report ", "control "))]
        if len(instructions) > 200:
            traits.add("code of 201 to 256 instructions")
        wrong = len(instructions) > meaning.count() or len(declared) != len(meaning.declared)
        return "the listing has %d instructions and %d names" % (len(instructions), len(declared)) if wrong else None

    return Trial("check", source_bytes(text), judge, traits)


def fold(draw: Random) -> Trial:
    """A program over acknowledgements."""
    traits: Traits = set()
    text = inputs.Programs(draw, traits, wanted(draw)).text()
    given = inputs.acknowledgements(draw, draw.randrange(60), traits)
    lines = "".join(inputs.ack_text(draw, ack) for ack in given)
    expected = modes.fold(text, given)
    traits |= {"faults"} if "\nfault " in "\n" + expected else set()
    end = "" if text.endswith("\n") else "\n"
    return Trial("fold", source_bytes(text + end + "---\n" + lines), prints(expected), traits)


def changed_program(draw: Random) -> Trial:
    """A program in which something was changed: it is accepted or refused, and `fold` and `campaign` refuse it for the
    same reason at the same place."""
    traits: Traits = set()
    text = changed(draw, inputs.Programs(draw, traits, wanted(draw)).text())
    scenario = {"version": 1, "programs": {"p": text}, "traces": {}, "cases": []}

    def judge(ran: Run, run: Runner) -> Optional[str]:
        found = REFUSAL.fullmatch(ran.errors)
        if ran.status not in (0, 3) or (ran.status == 3) != bool(found):
            return "status %d: %s" % (ran.status, ran.errors.strip())
        reason = found.group(1) if found else ""
        folded = run("fold", source_bytes(text + "\n---\n"))
        played = run("campaign", json.dumps(scenario).encode())
        other = reason.replace("program ", "program p ", 1)
        for name, one, errors in (("fold", folded, reason), ("campaign", played, other)):
            line = "ccp: input refused: %s\n" % errors if errors else ""
            if one.errors != line:
                return "check says %s and %s %s" % (reason or "ok", name, one.errors.strip() or "ok")
        return None

    return Trial("check", source_bytes(text), judge, traits)


def changed(draw: Random, text: str) -> str:
    """A text with one to three characters, words or lists changed."""
    for _ in range(draw.randrange(1, 4)):
        at = draw.randrange(len(text))
        end = min(len(text), at + draw.choice([0, 1, 1, 5, 40]))
        words = [
            "(",
            ")",
            " ",
            "x",
            "0",
            "18446744073709551616",
            "-",
            "Report.x",
            "(report)",
            "true",
            "+infinity",
            "ewma",
            ";",
        ]
        text = text[:at] + draw.choice(["", "", *words]) + text[end:]
        text = text or "("
    return text.replace("---", "--")


# ---- scenarios, by the reference model


def played(mode: str, made: Callable[[Any], str]) -> Callable[[Random], Trial]:
    """What makes trials of a mode that the reference model has."""

    def trial(draw: Random) -> Trial:
        traits: Traits = set()
        is_wide = chance(draw, 0.1)
        want = ["windows above 2^32"] if is_wide else wanted(draw)
        scenario = inputs.scenario(draw, traits, want, 12 if is_wide else 120)
        expected = made(scenario)
        traits |= seen_in(scenario)
        options = {"workers": draw.choice([1, 1, 2, 8, 32])}
        return Trial(mode, json.dumps(scenario).encode(), prints(expected), traits, options)

    return trial


def seen_in(scenario: Dict[str, Any]) -> Set[str]:
    """The traits that show in the run of a scenario."""
    found = set()
    for flow in flows_of(scenario):
        flow.run_campaign_word()
        seen = {
            "faults": flow.faults,
            "held reports": flow.held,
            "timeouts": flow.timeouts,
            "windows above 2^32": flow.peak > 2**32,
        }
        found |= {trait for trait, is_seen in seen.items() if is_seen}
    return found


def live(draw: Random) -> Trial:
    """A live run: its text is the one of the word that its counts name, and `audit` says yes to it."""
    traits: Traits = set()
    scenario = inputs.scenario(draw, traits, wanted(draw), 60)
    data = json.dumps(scenario).encode()
    options = {"datapaths": draw.choice([1, 2, 4]), "agents": draw.choice([1, 2, 4])}

    def judge(ran: Run, run: Runner) -> Optional[str]:
        if ran.status:
            return "status %d: %s" % (ran.status, ran.errors.strip())
        verdict = run("audit", data + b"\n---\n" + ran.output.encode())
        if verdict.output != "yes\n":
            return "audit says %s" % (verdict.output or verdict.errors).strip()
        lines: List[str] = []
        for flow, printed in zip(flows_of(scenario), texts.read_flows(ran.output)):
            flow.run_counts([(ticket.taken or 0, ticket.answered or 0) for ticket in printed.tickets])
            lines += flow.lines()
        return prints("".join(line + "\n" for line in lines))(ran, run)

    return Trial("live", data, judge, traits, options)


def audit(draw: Random) -> Trial:
    """A timeline by the reference model, to which `audit` says yes, or one in which a line of a flow was changed."""
    traits: Traits = set()
    scenario = inputs.scenario(draw, traits, wanted(draw), 80)
    lines = modes.timeline(scenario).split("\n")[:-1]
    expected = "yes\n"
    if chance(draw, 0.5):
        at = draw.randrange(len(lines))
        number = sum(line.startswith("end ") for line in lines[:at])
        lines[at] = with_another_number(lines[at])
        expected = "no flow %d\n" % number
    traits |= seen_in(scenario)
    text = "".join(line + "\n" for line in lines)
    return Trial("audit", json.dumps(scenario).encode() + b"\n---\n" + text.encode(), prints(expected), traits)


def with_another_number(line: str) -> str:
    """A line whose last number is larger by one."""
    found = re.search(r"([0-9]+)([^0-9]*)$", line)
    assert found
    return line[: found.start()] + str(int(found.group(1)) + 1) + found.group(2)


# the modes over one bottleneck, each with what it prints
SHARED: Dict[str, Callable[[Dict[str, Any]], str]] = {
    "shared": modes.shared,
    "shared-timeline": modes.shared_timeline,
    "shared-acks": modes.shared_acks,
}


def shared(draw: Random) -> Trial:
    """Flows over one bottleneck."""
    traits: Traits = set()
    scenario = inputs.scenario(draw, traits, wanted(draw), 60)
    scenario["shared"] = {
        "trace": draw.choice(["t0", "t1"]),
        "queue": draw.choice([1, 10, 4096]),
        "quantum_us": draw.choice([1, 1000, 50_000, 1_000_000]),
        "rounds": draw.randrange(1, 200),
    }
    for case in scenario["cases"]:
        if chance(draw, 0.3):
            case["start_us"] = draw.choice([0, 1, 50_000, 10_000_000])
    mode = draw.choice(sorted(SHARED))
    expected = SHARED[mode](scenario)
    workers = draw.choice([1, 2, 8, 32])
    return Trial(mode, json.dumps(scenario).encode(), prints(expected), traits, {"workers": workers})


# ---- modes without a reference: lines and statuses


def readable(read: Callable[[str], Any], more: Callable[[Any], Optional[str]] = lambda made: None) -> Judge:
    """A judge that wants a text that the package reads."""

    def judge(ran: Run, _run: Runner) -> Optional[str]:
        if ran.status:
            return "status %d: %s" % (ran.status, ran.errors.strip())
        try:
            return more(read(ran.output))
        except (BadText, CcpError) as error:
            return str(error)

    return judge


def rollout(draw: Random) -> Trial:
    """A rollout: an entry for each step, refused where the text isn't a program, and an epoch for each other one."""
    traits: Traits = set()
    scenario = inputs.scenario(draw, traits, wanted(draw), 60)
    scenario["programs"]["bad"] = "(def)\n(when x (report))"
    names = list(scenario["programs"])
    for one in scenario["cases"]:
        steps = [draw.choice(names) for _ in range(draw.randrange(1, 5))]
        one.update(cwnd=draw.choice([0, 4344, 2**32 - 1]), steps=steps)

    def steps_of(flows: List[texts.Flow]) -> Optional[str]:
        for flow, one in zip(flows, scenario["cases"]):
            entries = [entry.refusal for entry in flow.entries]
            expected = ["Unknown at 2:7" if name == "bad" else None for name in one["steps"]]
            started = [epoch.step for epoch in flow.epochs]
            if entries != expected or started != [step for step, why in enumerate(expected) if why is None]:
                return "flow %s has the entries %s and epochs of %s" % (flow.number, entries, started)
        return None if len(flows) == len(scenario["cases"]) else "%d flows" % len(flows)

    options = {"datapaths": draw.choice([1, 2, 4]), "agents": draw.choice([1, 2])}
    return Trial("rollout", json.dumps(scenario).encode(), readable(texts.read_flows, steps_of), traits, options)


def soak(draw: Random) -> Trial:
    """The generated campaign: the same sums for each number of workers."""
    number = draw.choice([0, 1, 2**32 - 1, draw.randrange(2**32)])

    def judge(ran: Run, run: Runner) -> Optional[str]:
        other = run("soak", b"", number=number, workers=draw.choice([1, 3]))
        if other.output != ran.output:
            return first_difference(ran.output, other.output)
        return readable(texts.read_soak)(ran, run)

    return Trial("soak", b"", judge, set(), {"number": number, "workers": draw.choice([8, 32])})


# ---- refusals with long paths


def refused_scenario(draw: Random) -> Trial:
    """A scenario with one mistake deep inside, whose path is known."""
    traits: Traits = {"a long path of a refusal"}
    scenario = inputs.scenario(draw, traits, (), 10)
    count = draw.choice([1, 12, 101, 1024])
    scenario["cases"] = [dict(scenario["cases"][0], name="c%d" % at) for at in range(count)]
    at = draw.choice([count - 1, draw.randrange(count)])
    reason = mistake(draw, scenario, at)
    return Trial("campaign", json.dumps(scenario).encode(), refuses(reason), traits)


def mistake(draw: Random, scenario: Dict[str, Any], at: int) -> str:
    """Makes a mistake in a case or a name, and returns the refusal."""
    one = scenario["cases"][at]
    kind = draw.randrange(5)
    if kind == 0:
        where = draw.choice([10, 100, 300])
        one["losses"] = [*range(where), draw.choice([2**32, where - 1, "x", -1])]
        word = "range" if one["losses"][-1] in (2**32, -1) else "wrong"
        return "%s cases[%d].losses[%d]" % (word, at, where)
    if kind == 1:
        name = draw.choice(["x" * 33, "x" * 60, "\u00fc" * 12, "a b" * 20])
        scenario["traces"] = {**scenario["traces"], name: "1\n"}
        return "wrong traces.%s" % "".join(chr(b) if 0x20 <= b <= 0x7E else "?" for b in name.encode())
    if kind == 2:
        del one["timeout_us"]
        return "missing cases[%d].timeout_us" % at
    if kind == 3:
        lines = draw.choice([1, 100, 2000])
        scenario["traces"] = {"long-%s" % ("n" * 25): "1\n" * lines + "x\n", **scenario["traces"]}
        return "trace long-%s BadLine %d" % ("n" * 25, lines + 1)
    lines = draw.choice([1, 30, 900])
    scenario["programs"] = {"0" * 32: "(def)" + "\n" * lines + "  (when x (report))"}
    return "program %s Unknown at %d:9" % ("0" * 32, lines + 1)


# ---- frames

TOO_WIDE = 9


@dataclass
class Feed:
    """A flow over `feed`: the answers that are expected of its acknowledgements."""

    number: int
    version: int
    program: int
    meaning: Meaning
    cwnd: int
    answers: List[bytes] = field(default_factory=list)

    def run(self, given: Sequence[Dict[str, int]]) -> None:
        """Makes the answers."""
        state = self.meaning.start({}, self.cwnd, 0, 0)
        first = 0
        for at, ack in enumerate(given):
            outcome, state = self.meaning.one(state, ack)
            now = ack.get("now", 0)
            if isinstance(outcome, Fault):
                self._fault(at, outcome, (now, state.cwnd))
                return
            if not isinstance(outcome, str):
                values = [value for _, value in outcome]
                span, seen = (first, at + 1), (now, state.cwnd, state.rate)
                self.answers.append(wire.measure(self.number, self.program, 0, span, seen, values, self.version))
                first = at + 1

    def _fault(self, at: int, fault: Fault, seen: Tuple[int, int]) -> None:
        index = next(number for number, head in enumerate(heads(self.meaning)) if head is fault.node)
        what = (wire.KINDS.index(fault.kind), index)
        self.answers.append(wire.fault(self.number, self.program, 0, at, what, seen, self.version))


def feed(draw: Random) -> Trial:
    """Frames of a program and its acknowledgements: the reports and faults that the program's source means."""
    traits: Traits = set()
    text = inputs.Programs(draw, traits, wanted(draw, ["64 blocks", "64 blocks", "33 fields"])).text()
    meaning = Meaning(text)
    given = inputs.acknowledgements(draw, draw.randrange(1, 40), traits)
    cwnd = draw.choice([0, 14_480, 2**32 + 5, MOST])
    flow = Feed(draw.choice([0, 7, 63]), draw.choice([1, 2]), 3, meaning, cwnd)
    traits |= {"windows above 2^32"} if cwnd > 2**32 else set()
    traits |= {"an Install of 64 events"} if len(meaning.blocks) == LIMITS["blocks"] else set()
    is_wide = flow.version == 1 and len(meaning.fields) > LIMITS["short_fields"]
    if is_wide:
        flow.answers.append(wire.refused(flow.number, TOO_WIDE, 3))
    else:
        flow.run(given)
    traits |= {"faults"} if any(answer[0] == wire.FAULT for answer in flow.answers) else set()
    acks = b"".join(wire.ack(flow.number, ack, flow.version) for ack in given)
    scenario = {"version": 1, "programs": {"p": text}, "traces": {}, "cases": []}
    start = wire.create(flow.number, cwnd, 1448, flow.version)
    change = wire.change(flow.number, 3, (), flow.version)

    def judge(printed: Run, run: Runner) -> Optional[str]:
        if printed.status:
            return "status %d: %s" % (printed.status, printed.errors.strip())
        install = bytes.fromhex(printed.output.split("\n")[3].split(" ")[2])
        ran = run("feed", start + install + change + acks)
        answers = output_bytes(ran)
        if ran.status or answers != b"".join(flow.answers):
            return "status %d, the answers are %s, and expected is %s" % (
                ran.status,
                answers.hex(),
                b"".join(flow.answers).hex(),
            )
        return None

    return Trial("campaign", json.dumps(scenario).encode(), judge, traits, {"wire": True})


def output_bytes(ran: Run) -> bytes:
    """The bytes that a run wrote."""
    return ran.output.encode("utf-8", "surrogateescape")


# ---- an agent outside


def drive(draw: Random) -> Trial:
    """An agent outside, by what it sends: the frames that the flows answer, and the texts of its run."""
    traits: Traits = set()
    scenario = inputs.scenario(draw, traits, wanted(draw), 60)
    frames = inputs.Frames(draw, scenario, traits).all()
    data = json.dumps(scenario).encode() + draw.choice([b"\n---\n", b"\r\n---\r\n"]) + frames
    mode = draw.choice(["drive", *driven.MODES])
    expected = driven.run(mode, data)

    def judge(ran: Run, _run: Runner) -> Optional[str]:
        if (ran.status, ran.errors) != (expected.status, expected.errors):
            said = (ran.status, ran.errors.strip(), expected.status, expected.errors.strip())
            return "status %d, %s; expected is status %d, %s" % said
        if mode == "drive":
            written = output_bytes(ran)
            wrong = written != expected.output
            return "the frames are %s, and expected is %s" % (written.hex(), expected.output.hex()) if wrong else None
        text = expected.output.decode()
        return None if ran.output == text else first_difference(ran.output, text)

    return Trial(mode, data, judge, traits)


def refused_drive(draw: Random) -> Trial:
    """An input whose scenario has one mistake, with frames after it, or that has no line `---`."""
    traits: Traits = set()
    scenario = inputs.scenario(draw, traits, (), 10)
    reason = mistake(draw, scenario, draw.randrange(len(scenario["cases"])))
    data = json.dumps(scenario).encode()
    mode = draw.choice(driven.MODES)
    if chance(draw, 0.2):
        return Trial(
            mode, data + draw.choice([b"\n---", b"", b"\n--- \n", b"\n----\n"]), refuses("no separator"), traits
        )
    return Trial(mode, data + b"\n---\n" + draw.choice([b"", b"\t", wire.update(0)]), refuses(reason), traits)


# the trials by their names, each with how often it is made
TRIALS: Dict[str, Tuple[Callable[[Random], Trial], int]] = {
    "check": (check, 12),
    "changed program": (changed_program, 12),
    "fold": (fold, 16),
    "campaign": (played("campaign", modes.campaign), 10),
    "timeline": (played("timeline", modes.timeline), 10),
    "acks": (played("acks", modes.acks), 8),
    "live": (live, 6),
    "audit": (audit, 8),
    "shared": (shared, 5),
    "rollout": (rollout, 4),
    "refused scenario": (refused_scenario, 6),
    "feed": (feed, 10),
    "soak": (soak, 1),
    "drive": (drive, 12),
    "refused drive": (refused_drive, 3),
}
# the trials of modes that a program may not have, each with one of its modes
NEEDED = {"drive": "drive", "refused drive": "drive"}
