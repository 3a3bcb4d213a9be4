"""The limits that a scenario of a grid passes, all of them in one message, with what fits worked out.

A message names a length (--seconds, --cut or --acks), the least --aggregate, and a quantum. Each of them was tried: the
scenario that it makes passes no limit."""
from __future__ import annotations

import math
from collections import Counter
from dataclasses import dataclass
from typing import TYPE_CHECKING, Any, Callable, Dict, List, Mapping, Sequence, Tuple

from .errors import CcpError
from .scenario_files import Scenario, scenario_text
from .tables import LIMITS, MODES

if TYPE_CHECKING:
    from .scenario import Grid

# the most cases of a mode's scenario; `audit` and the modes of `drive` read as many as `live`
CASES: Dict[str, int] = {
    mode.name: mode.cases or LIMITS["flows"] for mode in MODES.values() if mode.cases or mode.kind in ("audit", "drive")
}
# the modes that `ccp over` runs in parts, with its option for each
SPLIT = {"campaign": "", "timeline": " --timeline", "acks": " --acks"}
# the kinds of limits that a shorter or aggregated trace fits
OF_LENGTH = ("acks", "acks in all", "bytes", "rounds", "queue")


@dataclass(frozen=True)
class Passed:
    """A limit that is passed: its kind, what passes it, and what to do where neither a length nor --aggregate helps."""

    kind: str
    text: str
    remedy: str = ""


# ---- sizes


def bytes_of(made: Scenario, traces: Mapping[str, Any] | Sequence[str]) -> int:
    """The bytes of these traces in the scenario's text."""
    with_them = {**made, "cases": [], "traces": {name: made["traces"][name] for name in traces}}
    return len(scenario_text(with_them)) - len(scenario_text({**with_them, "traces": {}}))


def longest_case(made: Scenario) -> Tuple[int, int, str]:
    """The bytes of the case that takes most with its trace and the programs, those of its trace, and its name."""
    bare = len(scenario_text({**made, "traces": {}, "cases": []}))
    traces = {name: bytes_of(made, [name]) for name in made["traces"]}
    sizes = [
        (bare + traces[case["trace"]] + len(scenario_text({"cases": [case]})), traces[case["trace"]], case["name"])
        for case in made["cases"]
    ]
    return max(sizes, key=lambda size: size[0], default=(bare, 0, ""))


def is_too_long(made: Scenario, is_whole: bool) -> bool:
    """Whether the scenario has more bytes than one run accepts, or with `is_whole` one of its cases alone."""
    most = LIMITS["input_bytes"]
    # each has two bytes at least, so that long lists needn't be written to know it
    lost = [2 * len(case.get("losses", ())) for case in made["cases"]]
    if (max(lost, default=0) if is_whole else sum(lost)) > most:
        return True
    return (longest_case(made)[0] if is_whole else len(scenario_text(made))) > most


# ---- what is passed


def passed_by(grid: Grid, made: Scenario, is_of_mode: bool = True) -> List[Passed]:
    """The limits that the scenario of a grid passes: those of each case, and with `is_of_mode` those of its mode."""
    found = [*passed_programs(grid, made), *passed_acks(grid, made)]
    found += [*passed_queues(grid, made), *passed_rounds(made)]
    if is_of_mode:
        found += [*([] if grid.is_whole else passed_sums(grid.mode, made)), *passed_bytes(made, grid.is_whole)]
    return found


def passed_programs(grid: Grid, made: Scenario) -> List[Passed]:
    """Whether there are too many programs for one run."""
    count, most = len(made["programs"]), LIMITS["named_programs"]
    text = "%d programs: a scenario has at most %d" % (count, most)
    is_passed = count > most and not grid.is_whole
    return [Passed("programs", text, "at most %d programs" % most)] if is_passed else []


def passed_acks(grid: Grid, made: Scenario) -> List[Passed]:
    """Whether the case with most acknowledgements has too many."""
    case = max(made["cases"], key=lambda one: one["acks"], default={"acks": 0})
    if case["acks"] <= LIMITS["acks"]:
        return []
    length = "%g s of the trace %s" % ((grid.seconds_us or 0) / 1e6, case["trace"])
    return [
        Passed("acks", "%s are %d acknowledgements, and a case has at most %d" % (length, case["acks"], LIMITS["acks"]))
    ]


def passed_queues(grid: Grid, made: Scenario) -> List[Passed]:
    """Whether the longest queue is too long."""
    case: Dict[str, Any] = max(made["cases"], key=lambda one: one["queue"], default={"queue": 0})
    if case["queue"] <= LIMITS["queue"]:
        return []
    link = grid.links[case["trace"]]
    queues = [*filter(None, [grid.own[case["trace"]].queue]), *grid.queue]
    queue = next(one for one in queues if one.on(link, case["delay_us"], grid.aggregate) == case["queue"])
    what = "a queue of %s of the trace %s is %d packets" % (queue.label, case["trace"], case["queue"])
    return [Passed("queue", "%s, and at most %d may wait" % (what, LIMITS["queue"]), "a shorter queue")]


def passed_rounds(made: Scenario) -> List[Passed]:
    """Whether a run over one link has too many rounds."""
    shared = made.get("shared", {})
    rounds, most = shared.get("rounds", 0), LIMITS["rounds"]
    if rounds <= most:
        return []
    what = "%g s are %d rounds" % (rounds * shared["quantum_us"] / 1e6, rounds)
    return [Passed("rounds", "%s, and a run has at most %d" % (what, most))]


def passed_sums(mode: str, made: Scenario) -> List[Passed]:
    """Whether one run of a mode has too many cases or acknowledgements."""
    cases, acks, found = len(made["cases"]), sum(case["acks"] for case in made["cases"]), []
    if cases > CASES[mode]:
        text = "%d cases: one run of `%s` has at most %d" % (cases, mode, CASES[mode])
        found.append(Passed("cases", text, "at most %d cases" % CASES[mode]))
    if mode != "campaign" and acks > LIMITS["acks_in_all"]:
        text = "%d acknowledgements in all: one run of `%s` has at most %d" % (acks, mode, LIMITS["acks_in_all"])
        found.append(Passed("acks in all", text))
    return found


def passed_bytes(made: Scenario, is_whole: bool) -> List[Passed]:
    """Whether the scenario has too many bytes, or with `is_whole` a case of it alone. What passes it is bytes_text."""
    return [Passed("bytes", "")] if is_too_long(made, is_whole) else []


def bytes_text(made: Scenario, is_whole: bool) -> str:
    """How many bytes the scenario has, or with `is_whole` its longest case."""
    most = LIMITS["input_bytes"]
    if is_whole:
        size, traces, name = longest_case(made)
        text = "the case %s alone has %d bytes (%d of its trace), and one run has at most %d"
        return text % (name, size, traces, most)
    size = len(scenario_text(made))
    return "%d bytes (%d of traces), and one run has at most %d" % (size, bytes_of(made, made["traces"]), most)


# ---- what fits


def refuse(grid: Grid, made: Scenario, is_of_mode: bool = True) -> None:
    """Raises a CcpError that names every limit that the scenario passes, and what fits all of them."""
    found = passed_by(grid, made, is_of_mode)
    if not found:
        return
    ways = Ways(grid, made, found, is_of_mode)
    remedies = ", ".join(one.remedy for one in found if one.kind not in OF_LENGTH)
    out = ", or ".join(ways.all())
    texts = "; ".join(one.text or bytes_text(made, grid.is_whole) for one in found)
    raise CcpError(": ".join(filter(None, [texts, "; ".join(filter(None, [remedies, out]))])))


class Ways:
    """What makes the scenario of a grid fit its limits of length."""

    def __init__(self, grid: Grid, made: Scenario, found: Sequence[Passed], is_of_mode: bool) -> None:
        self.grid, self.made, self.is_of_mode = grid, made, is_of_mode
        self.kinds = {one.kind for one in found}
        self.by_hand = ["a shorter queue"] if "queue" in self.kinds else []

    def all(self) -> List[str]:
        """Each way, in the words of a message."""
        found = []
        if self.kinds & set(OF_LENGTH):
            found = [self.quantum(), self.length(), *([] if self.kinds - {"queue"} else self.by_hand), self.aggregate()]
        if self.grid.mode in SPLIT and self.is_of_mode and not self.grid.is_whole and self.fits(is_whole=True):
            found.append("--whole writes it for `ccp over%s`, which splits it" % SPLIT[self.grid.mode])
        return [text for text in found if text]

    def fits(self, ignored: Sequence[str] = (), **changes: Any) -> bool:
        """Whether the grid with these members changed passes no limit of length but those of the `ignored` kinds."""
        changed = self.grid.changed(**changes)
        kinds = {one.kind for one in passed_by(changed, changed.draft(), self.is_of_mode)}
        return not kinds & set(OF_LENGTH) - set(ignored)

    def has_chances(self) -> bool:
        """Whether packets are lost by chance."""
        own = [one.loss for one in self.grid.conditions.values() if one.loss]
        return any(one.chances for one in (*self.grid.losses, *own))

    def quantum(self) -> str:
        """The least quantum in whole milliseconds with which the rounds fit, where nothing else has to change."""
        changes = self.with_quantum()
        if not changes or not self.fits(**changes):
            return ""
        return "a quantum of %g ms" % (changes["shared"]["quantum_us"] / 1000)

    def with_quantum(self) -> Dict[str, Any]:
        """The change of the grid that makes its rounds fit, or none."""
        shared = self.made.get("shared", {})
        if "rounds" not in self.kinds:
            return {}
        length_us = shared["rounds"] * shared["quantum_us"]
        quantum_us = 1000 * -(-length_us // (1000 * LIMITS["rounds"]))
        is_there = self.grid.shared and quantum_us <= LIMITS["quantum_us"]
        return {"shared": {**(self.grid.shared or {}), "quantum_us": quantum_us}} if is_there else {}

    def length(self) -> str:
        """The longest run that fits, as an option."""
        if self.kinds == {"queue"}:
            return ""
        more = "".join(" and " + text for text in self.by_hand)
        if self.grid.seconds_us:
            longest = self.longest_seconds()
            text = ("%d.%03d" % divmod(longest, 1000)).rstrip("0").rstrip(".")
            return "--seconds %s%s" % (text, more) if longest else ""
        changes: Dict[str, Any] = {}
        if "acks in all" in self.kinds:
            changes["acks"] = LIMITS["acks_in_all"] // len(self.made["cases"])
        if not self.fits(["queue"], **changes):
            # a cut before the first time of a trace would leave nothing of it
            times = self.grid.recorded.values()
            least, most = max(max(1, one[0]) for one in times), max(one[-1] for one in times)
            changes["cut_ms"] = largest(least, most - 1, lambda ms: self.fits(["queue"], **{**changes, "cut_ms": ms}))
        words = ["--%s %d" % (name.removesuffix("_ms"), value) for name, value in changes.items()]
        return " ".join(words) + more if changes.get("cut_ms", 1) else ""

    def longest_seconds(self) -> int:
        """The longest --seconds that fits, in milliseconds; 0 where none does."""
        most = largest(1, (self.grid.seconds_us or 0) // 1000, self.counts_fit)
        if most and self.fits(["queue"], seconds_us=1000 * most):
            return most
        return largest(1, most, lambda ms: self.fits_or_is_empty(1000 * ms))

    def fits_or_is_empty(self, length_us: int) -> bool:
        """Whether a length fits, or is so short that the link sends nothing in it."""
        try:
            return self.fits(["queue"], seconds_us=length_us)
        except CcpError:
            return True

    def counts_fit(self, length_ms: int) -> bool:
        """Whether acknowledgements and rounds fit for a length in milliseconds, which takes no scenario to know."""
        grid, length_us = self.grid, 1000 * length_ms
        if grid.shared:
            return -(-length_us // grid.shared["quantum_us"]) <= LIMITS["rounds"]
        places = Counter((case["trace"], case["delay_us"]) for case in self.made["cases"])
        counts = {place: grid.acks_in(grid.links[place[0]], length_us, place[1]) for place in places}
        is_summed = self.is_of_mode and not grid.is_whole and grid.mode != "campaign"
        in_all = sum(counts[place] * cases for place, cases in places.items()) if is_summed else 0
        return max(counts.values(), default=0) <= LIMITS["acks"] and in_all <= LIMITS["acks_in_all"]

    def aggregate(self) -> str:
        """The least --aggregate that fits the length that was asked for."""
        changes = self.with_quantum()
        is_by_acks = "acks in all" in self.kinds and not self.grid.seconds_us
        # losses by chance change with the size of a packet, so that the figures would be others
        if self.kinds <= {"rounds"} or "rounds" in self.kinds and not changes or is_by_acks or self.has_chances():
            return ""
        most = max(case["acks"] for case in self.made["cases"]) / LIMITS["acks"]
        first = max(self.grid.aggregate + 1, math.ceil(self.grid.aggregate * most) - 1)
        for count in range(first, LIMITS["segment_bytes"] // self.grid.mss + 1):
            if self.fits(aggregate=count, **changes):
                more = " and a quantum of %g ms" % (changes["shared"]["quantum_us"] / 1000) if changes else ""
                return "--aggregate %d%s" % (count, more)
        return ""


def largest(least: int, most: int, fits: Callable[[int], bool]) -> int:
    """The largest number of a range that fits, where each smaller one fits too; 0 where none does."""
    if least > most or not fits(least):
        return 0
    low, high = least, most + 1
    while high - low > 1:
        middle = (low + high) // 2
        low, high = (middle, high) if fits(middle) else (low, middle)
    return low
