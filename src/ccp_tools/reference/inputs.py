"""Random inputs of `ccp` that it accepts: programs, acknowledgements, traces and scenarios.

Each function takes a `random.Random`, so that equal seeds give equal inputs; that of `hypothesis` will do too. The
traits that an input has are noted by their names in a set."""
from __future__ import annotations

import struct
from random import Random
from typing import Any, Callable, Dict, List, Sequence, Set, Union

from ..tables import AGENTS, LIMITS, PRIMITIVE_WORDS, PRIMITIVES
from . import wire
from .driven import DrivenFlow, Runs
from .language import MOST, Meaning

# what is seldom met by chance, and what inputs of their own are made for
TRAITS = [
    "a comment at the end",
    "text on many lines",
    "tabs",
    "eight locals",
    "code of 201 to 256 instructions",
    "33 fields",
    "64 fields",
    "64 controls",
    "64 blocks",
    "64 slots",
    "windows above 2^32",
    "an Install of 64 events",
    "a long path of a refusal",
    "numbers of 64 bits",
    "faults",
    "held reports",
    "timeouts",
]
# the same of the modes of `drive`
DRIVEN_TRAITS = [
    "a run to its end",
    "refused frames",
    "a change under way",
    "a cut frame",
    "a bad frame",
    "a late answer",
]
# an expression or a command: an atom, or a list
Tree = Union[str, List[Any]]
Traits = Set[str]

CONNECTIVES = ["&&", "||", "and", "or"]
# the operators whose result is a Bool
TRUTHS = [">", "<", "==", "gt", "lt", "eq", *CONNECTIVES]
AGENT_FIELDS = ["acked", "loss", "timeout", "rtt", "inflight", "ecn"]
BIG = [2**32, 2**32 + 1, 5 * 10**9, 2**63, 2**64 - 2, MOST]


def chance(draw: Random, share: float) -> bool:
    """Whether something of this share of all cases is so."""
    return draw.random() < share


def numeral(draw: Random) -> str:
    """A numeral, mostly a small one."""
    if chance(draw, 0.05):
        return str(draw.choice(BIG))
    text = str(draw.choice([0, 1, 2, 10, 100, 1000, 1448, 65535, 1_000_000, draw.randrange(10_000)]))
    return "0" * draw.randrange(3) + text if chance(draw, 0.05) else text


class Programs:
    """Makes programs: `text()` is the next one. `wide` are traits that a program is to have."""

    def __init__(self, draw: Random, traits: Traits, wanted: Sequence[str] = ()) -> None:
        self.draw = draw
        self.traits = traits
        self.wanted = set(wanted)
        self.numbers: List[str] = []
        self.bools: List[str] = []
        self.locals: Dict[str, bool] = {}

    def text(self) -> str:
        """A program's text that `ccp` accepts."""
        while True:
            forms = [self._definition(), *self._blocks()]
            layout = Layout(self.draw, self.traits)
            text = layout.text(forms)
            meaning = Meaning(text)
            if meaning.count() <= LIMITS["instrs"] and meaning.need() <= LIMITS["temps"]:
                if "code of 201 to 256 instructions" in self.wanted:
                    forms.append(self._padding(meaning))
                    text = layout.text(forms)
                self.traits |= layout.traits
                return text

    # ---- declarations

    def _definition(self) -> Tree:
        self.numbers, self.bools = [], []
        fields = self._count("33 fields", 33, "64 fields", 64)
        controls = self._count("64 controls", 64, "", 0)
        names = self.draw.sample(AGENT_FIELDS, self.draw.randrange(len(AGENT_FIELDS) + 1))
        names = (names + ["f%d" % at for at in range(fields)])[:fields]
        others = self.draw.sample(["cap", "mss"], self.draw.randrange(3))
        others = (others + ["c%d" % at for at in range(controls)])[:controls]
        group: List[Tree] = ["Report", *[self._declaration(name, "Report.") for name in names]]
        parts: List[Tree] = [self._declaration(name, "") for name in others]
        if names or chance(self.draw, 0.1):
            parts.insert(self.draw.randrange(len(parts) + 1), group)
        return ["def", *parts]

    def _count(self, one: str, one_count: int, other: str, other_count: int) -> int:
        for trait, count in ((one, one_count), (other, other_count)):
            if trait and trait in self.wanted:
                self.traits.add(trait)
                return count
        return self.draw.randrange(7)

    def _declaration(self, name: str, prefix: str) -> Tree:
        is_bool = chance(self.draw, 0.2)
        value = self.draw.choice(["true", "false"]) if is_bool else numeral(self.draw)
        if not is_bool and chance(self.draw, 0.1):
            value = "+infinity"
        (self.bools if is_bool else self.numbers).append(prefix + name)
        return (["volatile"] if chance(self.draw, 0.5) else []) + [name, value]

    # ---- expressions

    def number(self, depth: int) -> Tree:
        """An expression that may stand where a number is expected."""
        if depth == 0 or chance(self.draw, 0.25):
            return self._leaf()
        word = self.draw.choice(["+", "-", "*", "/", "max", "min", "add", "sub", "div"])
        left, right = self.number(depth - 1), self.number(depth - 1)
        if word in ("/", "div") and chance(self.draw, 0.85):
            right = ["max", "1", right]
        if word in ("-", "sub") and chance(self.draw, 0.8):
            left = ["max", left, right] if isinstance(right, str) else ["max", left, numeral(self.draw)]
            right = right if isinstance(right, str) else left[2]
        if word in ("*", "+", "add") and chance(self.draw, 0.7):
            left, right = ["min", left, "100000"], ["min", right, "100000"]
        return [word, left, right]

    def _leaf(self) -> str:
        local = [name for name, is_bool in self.locals.items() if not is_bool]
        kinds: List[Sequence[str]] = [[numeral(self.draw)], PRIMITIVE_WORDS, ["Cwnd", "Rate", "Micros"]]
        kinds += [names for names in (self.numbers, self.bools, local) if names]
        return self.draw.choice(list(self.draw.choice(kinds)))

    def truth(self, depth: int) -> Tree:
        """An expression that is a Bool."""
        local = [name for name, is_bool in self.locals.items() if is_bool]
        if depth == 0 or chance(self.draw, 0.2):
            return self.draw.choice(["true", "false", "Flow.was_timeout", *self.bools, *local])
        word = self.draw.choice(TRUTHS)
        if word in CONNECTIVES:
            either = [self.truth, self.number]
            return [word, self.draw.choice(either)(depth - 1), self.draw.choice(either)(depth - 1)]
        return [word, self.number(depth - 1), self.number(depth - 1)]

    # ---- commands

    def _blocks(self) -> List[Tree]:
        if "64 blocks" in self.wanted:
            self.traits.add("64 blocks")
            return [self._small_block() for _ in range(LIMITS["blocks"])]
        return [self._block() for _ in range(self.draw.randrange(1, 5))]

    def _small_block(self) -> Tree:
        self.locals = {}
        return ["when", self.truth(0), self._assignment(0), ["fallthrough"]]

    def _block(self) -> Tree:
        self.locals = {}
        condition = "true" if chance(self.draw, 0.4) else self.truth(2)
        commands = [self._command() for _ in range(self.draw.randrange(1, 6))]
        if "eight locals" in self.wanted:
            commands += [self._local() for _ in range(LIMITS["locals"] - len(self.locals))]
            self.traits.add("eight locals")
        if chance(self.draw, 0.6):
            commands.insert(self.draw.randrange(len(commands) + 1), ["fallthrough"])
        return ["when", condition, *commands]

    def _command(self) -> Tree:
        kind = self.draw.randrange(10)
        if kind == 0:
            return [":=", "Micros", "0"]
        if kind in (1, 2):
            return ["report"]
        if kind == 3:
            return self._window()
        if kind == 4 and len(self.locals) < LIMITS["locals"]:
            return self._local()
        return self._assignment(2)

    def _window(self) -> Tree:
        if "windows above 2^32" in self.wanted:
            return [":=", "Cwnd", ["max", "Cwnd", str(self.draw.choice(BIG[:4]))]]
        bound = str(self.draw.choice([20_000, 100_000, 1_000_000]))
        return [":=", "Cwnd", ["min", bound, self.number(2)]]

    def _local(self) -> Tree:
        value = self.truth(2) if chance(self.draw, 0.3) else self.number(2)
        name = "l%d" % len(self.locals)
        self.locals[name] = self._is_bool(value)
        return [":=", name, value]

    def _is_bool(self, value: Tree) -> bool:
        """The kind that a local takes from its value."""
        if not isinstance(value, str):
            return value[0] in TRUTHS
        return value in ("true", "false", "Flow.was_timeout", *self.bools) or self.locals.get(value, False)

    def _assignment(self, depth: int) -> Tree:
        """An assignment to a name that has a meaning."""
        local_bools = [name for name, is_bool in self.locals.items() if is_bool]
        local_numbers = [name for name, is_bool in self.locals.items() if not is_bool]
        bools = self.bools + local_bools
        if bools and chance(self.draw, 0.25):
            return self._conditional(self.draw.choice(bools), self.truth(depth), depth)
        target = self.draw.choice([*self.numbers, *local_numbers, "Rate"])
        if chance(self.draw, 0.15):
            return [":=", target, ["ewma", str(self.draw.randrange(11)), self.number(depth)]]
        return self._conditional(target, self.number(depth), depth)

    def _conditional(self, target: str, value: Tree, depth: int) -> Tree:
        word = self.draw.choice([":=", ":=", "bind"])
        if chance(self.draw, 0.3):
            value = [self.draw.choice(["if", "!if"]), self.truth(depth), value]
        return [word, target, value]

    def _padding(self, meaning: Meaning) -> Tree:
        """A block that brings the count of a program to 210 or more."""
        missing = self.draw.randrange(210, LIMITS["instrs"] + 1) - meaning.count() - 1
        target = self.draw.choice([*self.numbers, "Rate"])
        return ["when", "true", *[[":=", target, numeral(self.draw)] for _ in range(max(0, missing))]]


class Layout:
    """Writes trees as texts with blanks, line ends and comments between the tokens."""

    def __init__(self, draw: Random, traits: Traits) -> None:
        self.draw = draw
        self.traits: Traits = set()
        self.style = draw.choice(["plain", "plain", "lines", "tabs", "comments"])
        self.ends_in_comment = chance(draw, 0.15)

    def text(self, forms: Sequence[Tree]) -> str:
        """The text of some forms."""
        made = "".join(self._spaced(tokens_of(form)) + "\n" for form in forms)
        if self.ends_in_comment:
            self.traits.add("a comment at the end")
            made = made.rstrip("\n") + self.draw.choice(["# the end", "#", "\t# (def", "\n# \u00fc\t)"])
        if made.count("\n") > 20:
            self.traits.add("text on many lines")
        if "\t" in made:
            self.traits.add("tabs")
        return made

    def _spaced(self, tokens: Sequence[str]) -> str:
        made = ""
        for token in tokens:
            between = bool(made) and token != ")" and made[-1] != "("
            made += self._between(between) + token
        return made

    def _between(self, is_needed: bool) -> str:
        blank = " " if is_needed else ""
        if self.style == "lines" and chance(self.draw, 0.4):
            return self.draw.choice(["\n", "\r\n", "\n  ", " \n\n"])
        if self.style == "tabs" and chance(self.draw, 0.5):
            return self.draw.choice(["\t", "\t\t", " \t"])
        if self.style == "comments" and chance(self.draw, 0.1):
            return self.draw.choice([" # why\n", "#\n", "\t# ) (\n"])
        return blank


def tokens_of(tree: Tree) -> List[str]:
    """The tokens of a tree."""
    if isinstance(tree, str):
        return [tree]
    return ["(", *[token for part in tree for token in tokens_of(part)], ")"]


# ---- acknowledgements


def acknowledgements(draw: Random, count: int, traits: Traits) -> List[Dict[str, int]]:
    """Acknowledgements as no link need give them: any values, with times that mostly rise."""
    now, made = 0, []
    for _ in range(count):
        now += draw.randrange(30_000)
        ack = {"now": now, "bytes_acked": draw.randrange(3000), "rtt_sample_us": draw.randrange(200_000)}
        for name in draw.sample(PRIMITIVES[:-1], draw.randrange(4)):
            ack[name] = draw.choice([0, 1, draw.randrange(100_000)])
        if chance(draw, 0.03):
            ack[draw.choice(PRIMITIVES[:-1])] = draw.choice(BIG)
            traits.add("numbers of 64 bits")
        if chance(draw, 0.05):
            ack["was_timeout"] = 1
        made.append(ack)
    return made


def ack_text(draw: Random, ack: Dict[str, int]) -> str:
    """An acknowledgement line, with its parts in any order."""
    parts = ["%s=%d" % pair for pair in ack.items()]
    draw.shuffle(parts)
    return draw.choice([" ", "\t", "  "]).join(parts) + draw.choice(["\n", "\n", "\r\n"])


# ---- scenarios


def trace_text(draw: Random) -> str:
    """A trace's text."""
    times, now = [], 0
    for _ in range(draw.randrange(1, 12)):
        now += draw.choice([0, 0, 1, 1, 2, 5, 20, 300])
        times.append(now)
    if times[-1] == 0:
        times.append(draw.randrange(1, 20))
    blank = draw.choice(["", "", " ", "\t"])
    end = draw.choice(["\n", "\r\n", "\n\n"])
    return "".join(blank + str(time) + end for time in times)


def losses(draw: Random) -> List[int]:
    """Numbers of packets that are lost, which rise."""
    if chance(draw, 0.5):
        return []
    first, count = draw.randrange(40), draw.randrange(1, 12)
    steps = [draw.choice([1, 1, 2, 30]) for _ in range(count)]
    return [first + sum(steps[:at]) for at in range(count)]


def case(draw: Random, name: str, programs: Sequence[str], most_acks: int, traits: Traits) -> Dict[str, Any]:
    """A case of a scenario with the trace `t0` or `t1`."""
    made: Dict[str, Any] = {
        "name": name,
        "agent": draw.choice(list(AGENTS)),
        "trace": draw.choice(["t0", "t1"]),
        "mss": draw.choice([1, 536, 1448, 1448, 8948, 65535]),
        "queue": draw.choice([1, 2, 5, 20, 100, 4096]),
        "delay_us": draw.choice([0, 1, 5000, 20_000, 10_000_000]),
        "timeout_us": draw.choice([1, 100_000, 1_000_000, 60_000_000]),
        "acks": draw.randrange(most_acks + 1),
    }
    optional = {"losses": losses(draw), "mark": draw.choice([1, 3, 50]), "lag": draw.choice([0, 1, 2, 7, 1000])}
    made.update({member: value for member, value in optional.items() if chance(draw, 0.5)})
    if chance(draw, 0.5):
        made["slots"] = draw.choice([1, 2, 4, LIMITS["slots"]])
        traits |= {"64 slots"} if made["slots"] == LIMITS["slots"] else set()
    for phase in ("ss", "ca"):
        if programs and chance(draw, 0.6):
            made[phase] = draw.choice(list(programs))
    return made


def scenario(draw: Random, traits: Traits, wanted: Sequence[str] = (), most_acks: int = 120) -> Dict[str, Any]:
    """A scenario of a few cases, which all modes but `rollout` and `shared` read."""
    programs = {name: Programs(draw, traits, wanted).text() for name in ["p", "Q", "0"][: draw.randrange(3)]}
    if wanted and not programs:
        programs = {"p": Programs(draw, traits, wanted).text()}
    names = list(programs)
    cases = [case(draw, "c%d" % at, names, most_acks, traits) for at in range(draw.randrange(1, 4))]
    traces = {"t0": trace_text(draw), "t1": trace_text(draw)}
    return {"version": 1, "programs": programs, "traces": traces, "cases": cases}


# ---- frames of an agent outside


class Frames:
    """Makes what an agent outside may send to the flows of a scenario. `all()` gives the bytes: most are answers that
    move the flows on, some are frames that are refused or ignored, and the end may be cut or bad."""

    def __init__(self, draw: Random, scenario: Dict[str, Any], traits: Traits) -> None:
        self.draw = draw
        self.traits = traits
        self.runs = Runs(scenario)
        # how often a frame isn't one that the flow can apply
        self.share = draw.choice([0.0, 0.1, 0.5])

    def all(self) -> bytes:
        """The frames of a run."""
        made = []
        for _ in range(self.draw.choice([0, 3, 40, 400, 400, 400])):
            if self.runs.present is None:
                break
            made.append(self._next(self.runs.present))
            self.runs.answer(wire.frame_at(made[-1], 0, len(made[-1])))
        if self.runs.present is None:
            self.traits.add("a run to its end")
            made += [self._hostile(None) for _ in range(self.draw.choice([0, 0, 1, 5]))]
        for flow in self.runs.flows:
            late = flow.case.get("lag", 0) and flow.tickets
            seen = {"faults": flow.faults, "held reports": flow.held, "timeouts": flow.timeouts, "a late answer": late}
            self.traits |= {trait for trait, is_seen in seen.items() if is_seen}
        return b"".join(made) + self._end()

    def _next(self, flow: DrivenFlow) -> bytes:
        if chance(self.draw, self.share):
            return self._hostile(flow)
        if flow.epochs and chance(self.draw, 0.8):
            return wire.update(flow.number, self._values(flow, flow.program), self._version())
        number = self.draw.randrange(len(flow.programs.texts))
        if flow.epochs:
            self.traits.add("a change under way")
        return wire.change(flow.number, number, self._values(flow, number), self._version())

    def _version(self) -> int:
        return self.draw.choice([1, 2])

    def _values(self, flow: DrivenFlow, program: int) -> List[wire.Value]:
        controls = len(flow.programs[program].controls)
        kinds: List[Callable[[], wire.Value]] = [self._window, self._window, self._rate]
        if controls:
            kinds.append(lambda: (wire.CONTROL, self.draw.randrange(controls), self._number()))
        count = self.draw.choice([0, 1, 1, 2, 5, LIMITS["pairs"] if chance(self.draw, 0.1) else 1])
        return [self.draw.choice(kinds)() for _ in range(count)]

    def _window(self) -> wire.Value:
        return wire.IMPLICIT, wire.CWND, self.draw.choice([0, 1, 1448, 14_480, 100_000, self._number()])

    def _rate(self) -> wire.Value:
        return wire.IMPLICIT, wire.RATE, self._number()

    def _number(self) -> int:
        return self.draw.choice([0, 1, 1000, self.draw.randrange(10**6), self.draw.choice(BIG)])

    def _hostile(self, flow: Union[DrivenFlow, None]) -> bytes:
        """A frame that no flow applies, or only by chance."""
        number = flow.number if flow else self.draw.choice([0, 1])
        other = self.draw.choice([number + 1, 63, 64, 2**32 - 1])
        version, above = self._version(), self.draw.choice([3, 15, 16, 255, 2**32 - 1])
        cap = (wire.CONTROL, self.draw.randrange(LIMITS["controls"]), self._number())
        made = [
            wire.update(number, [cap], version),
            wire.update(other, [self._window()], version),
            wire.change(other, 0, [], version),
            wire.change(number, above, [], version),
            wire.change(number, 0, [self._rate(), cap], version),
            wire.create(number, 1, 1448, version),
            wire.measure(number, 0, 0, (0, 1), (0, 1, 2), [1] * self.draw.randrange(33), version),
            wire.fault(number, 0, 0, 0, (0, 0), (0, 0), version),
            wire.ack(number, {"now": 1, "was_timeout": 1}, version),
            wire.refused(number, self.draw.randrange(1, 10), 0, version),
            self._install(number, version),
        ]
        at = self.draw.randrange(len(made))
        self.traits |= {"refused frames"} if at < 5 else set()
        return made[at]

    def _install(self, flow: int, version: int) -> bytes:
        """An Install that says nothing that a code may say."""
        counts = [self.draw.randrange(most) for most in (33, 65, 65, 257)] if chance(self.draw, 0.3) else [0, 0, 0, 0]
        flag, register = struct.pack("<BQ", 1, self._number()), struct.pack("<BQ", 6, 255)
        body = flag * (counts[0] + counts[1]) + struct.pack("<HH", 7, 7) * counts[2]
        body = struct.pack("<I", 3) + body + (bytes([14]) + register * 3) * counts[3]
        return struct.pack("<BBBBHHII", wire.INSTALL, version, *counts, flow, 16 + len(body)) + body

    def _end(self) -> bytes:
        """What comes after the frames: mostly nothing."""
        whole = self._hostile(self.runs.present)
        kind = self.draw.randrange(8)
        if kind == 0:
            self.traits.add("a cut frame")
            return whole[: self.draw.randrange(1, len(whole))]
        if kind == 1:
            at = self.draw.randrange(len(whole))
            self.traits.add("a bad frame")
            return whole[:at] + bytes([self.draw.randrange(256)]) + whole[at + 1 :]
        return bytes(self.draw.randrange(256) for _ in range(self.draw.randrange(40))) if kind == 2 else b""
