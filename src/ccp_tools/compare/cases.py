"""The cases of a comparison: a grid of `ccp scenario` whose senders are measured over the same seconds."""

from __future__ import annotations

from dataclasses import dataclass, field
from typing import Any, Dict, List, Mapping, Sequence, Tuple

from .. import aggregation, cautions, limits, slow_start
from ..errors import CcpError
from ..parts import has_many_programs, with_used_programs
from ..scenario import Grid, most_acks
from ..scenario_files import Scenario
from ..senders import OWN
from ..tables import LIMITS
from ..traces import Trace

# traces begin anew after their end, and in a shorter run slow start has a large part
LEAST_US = cautions.SHORT_US
# what is left out of a run of LEAST_US or more, and the shortest run of which anything is left out
FIRST_US = slow_start.UNTIL_US
LEAST_WITHOUT_FIRST_US = 10_000_000


@dataclass
class Comparison(Grid):
    """A grid in which the cases of a trace have so many acknowledgements that none ends before the trace's `spans_us`,
    where they aren't measured by acknowledgements. `shortened` has the reason, by trace, where a limit made a span
    shorter than the recording."""

    is_by_acks: bool = False
    spans_us: Dict[str, int] = field(default_factory=dict)
    shortened: Dict[str, str] = field(default_factory=dict)

    def changed(self, **changes: Any) -> Grid:
        """The same comparison with other members, which says nothing, and reads no file again."""
        return super().changed(**{"spans_us": {}, "shortened": {}, **changes})

    def scenario(self) -> Scenario:
        """The scenario. A file that can't be read, and a limit of a case or of its bytes, is a CcpError."""
        made = self.draft()
        limits.refuse(self, made)
        return made

    @property
    def ends_with_need(self) -> bool:
        """Every figure is of what comes before the end of a span."""
        return True

    def acks_of(self, link: Trace, name: str, delay_us: int) -> int:
        """The acknowledgements of a case: more than any sender can have up to the end of the span."""
        if self.is_by_acks:
            return self.acks
        if name not in self.spans_us:
            self.spans_us[name] = self.chosen_us(link, name)
        return most_acks(link, self.spans_us[name], self.timeout_of(name))

    def acks_in(self, link: Trace, length_us: int, _delay_us: int) -> int:
        """More acknowledgements than any sender can have in a time."""
        return most_acks(link, length_us, min([self.timeout_us, *map(self.timeout_of, self.own)]))

    def needed_us(self, _made: Scenario, name: str) -> int | None:
        """Up to which time a trace is needed: the whole rounds of its span, which all senders together run."""
        if self.is_by_acks:
            return None
        quantum_us, rounds = rounds_of(self.spans_us[name])
        return quantum_us * rounds

    def chosen_us(self, link: Trace, name: str) -> int:
        """The seconds that the senders of a trace are measured over, in microseconds."""
        span = self.seconds_us or max(LEAST_US, 1000 * self.recorded[name][-1])
        if not self.seconds_us and most_acks(link, span, self.timeout_of(name)) > LIMITS["acks"]:
            wanted, span = span, longest_us(link, self.timeout_of(name))
            what = "%g s need more than %d acknowledgements" % (wanted / 1e6, LIMITS["acks"])
            more = self.longer(name, wanted)
            self.shortened[name] = what + more.replace(", or", "; it is whole with")
            values = (name, span / 1e6, what, span / 1e6, more)
            self.notes.append("the trace %s is measured over %g s: %s (--seconds %g%s)" % values)
        if not link.chances(span):
            raise CcpError("the trace %s has no chance in %g s" % (name, span / 1e6))
        return span

    def longer(self, name: str, wanted_us: int) -> str:
        """The option with which a trace can be measured over a time, as `, or --aggregate 4`; nothing where none is."""
        for count in range(self.aggregate + 1, LIMITS["segment_bytes"] // self.mss + 1):
            link = Trace(aggregation.aggregated(self.recorded[name], count, name).times)
            if most_acks(link, wanted_us, self.timeout_of(name)) <= LIMITS["acks"]:
                return ", or --aggregate %d" % count
        return ""


def begin_of(span_us: int | None) -> int:
    """Where a run of a length is measured from, unless --from says it, in microseconds: FIRST_US, in proportion less of
    a run that is shorter than LEAST_US, to a tenth of a second; 0 below LEAST_WITHOUT_FIRST_US, and where the length
    isn't known."""
    if span_us is None or span_us < LEAST_WITHOUT_FIRST_US:
        return 0
    return min(FIRST_US, FIRST_US * span_us // LEAST_US // 100_000 * 100_000)


def rounds_of(span_us: int) -> Tuple[int, int]:
    """The least quantum of whole milliseconds, in microseconds, whose rounds one run takes for a span, and how many
    these are."""
    quantum_us = 1000 * max(1, -(-span_us // (1000 * LIMITS["rounds"])))
    return quantum_us, -(-span_us // quantum_us)


def longest_us(link: Trace, timeout_us: int) -> int:
    """The longest span, in whole milliseconds, whose acknowledgements a case may have."""
    low, high = 1, LIMITS["trace_ms"] * 100
    while high - low > 1:
        middle = (low + high) // 2
        low, high = (middle, high) if most_acks(link, 1000 * middle, timeout_us) <= LIMITS["acks"] else (low, middle)
    return 1000 * low


def outside_of(case: Mapping[str, Any]) -> str:
    """The label of a case's sender where it is an agent outside, else the empty text."""
    return str(case["sender"]) if case["agent"] == OWN else ""


def parts_of(scenario: Dict[str, Any]) -> List[Tuple[int, Dict[str, Any]]]:
    """The scenario in parts that one run of `timeline`, `acks` and `audit` accepts, or for an agent outside one of
    `drive`, each with the number of its first case."""
    made: List[Tuple[int, Dict[str, Any]]] = []
    first, at, cases = 0, 0, scenario["cases"]
    while at < len(cases):
        at += 1
        is_last = at == len(cases) or outside_of(cases[at]) != outside_of(cases[first])
        if is_last or not fits(scenario, cases[first : at + 1]):
            made.append((first, part_of(scenario, cases[first:at])))
            first = at
    return made


def part_of(scenario: Dict[str, Any], cases: Sequence[Dict[str, Any]]) -> Dict[str, Any]:
    """The scenario with some cases alone, their traces, and where it has too many programs for one run theirs."""
    names = {case["trace"] for case in cases}
    traces = {name: text for name, text in scenario["traces"].items() if name in names}
    return with_used_programs({**scenario, "cases": list(cases), "traces": traces})


def fits(scenario: Dict[str, Any], cases: Sequence[Dict[str, Any]]) -> bool:
    """Whether one run accepts these cases. A case that no run accepts is found when the scenario is made."""
    from ..scenario_files import scenario_text

    if len(cases) > LIMITS["flows"] or sum(case["acks"] for case in cases) > LIMITS["acks_in_all"]:
        return False
    part = part_of(scenario, cases)
    return not has_many_programs(part) and len(scenario_text(part)) <= LIMITS["input_bytes"]
