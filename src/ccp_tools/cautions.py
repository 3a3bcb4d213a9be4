"""Which figures can't be trusted as they stand, and why: the regimes of docs/fidelity.md. This is the one place that
decides it, for every command. Without pandas, whose import takes half a second."""

from __future__ import annotations

from dataclasses import dataclass
from typing import Any, Collection, Dict, FrozenSet, Iterable, Iterator, List, Mapping, Sequence

from . import slow_start
from .spans import Link, Window
from .traces import Trace, gap_warning

# the page that measures the regimes, from the top of the repository
PAGE = "docs/fidelity.md"
# a run from the beginning that isn't longer has mostly what slow start does (rules of thumb of the page)
SHORT_US = 30_000_000
# a rate varies where the chances of two seconds differ by more than this share
SAME_RATE = 0.1
# how many seconds of a trace are looked at for that
MOST_SECONDS = 120
# the most names in a sentence
MOST_NAMES = 6
WAITS = frozenset("queueing_mean_ms queueing_p50_ms queueing_p95_ms queueing_p99_ms rtt_mean_ms power".split())


@dataclass(frozen=True)
class Caution:
    """Why figures can't be trusted as they stand: a sentence, the heading of PAGE that has more, the names of the cases
    that it is about, and which of their figures, by the names of metrics.METRICS, or None where it is all."""

    text: str
    heading: str
    cases: FrozenSet[str]
    figures: FrozenSet[str] | None = None

    @property
    def link(self) -> str:
        """The place of PAGE, from the top of the repository."""
        return "%s#%s" % (PAGE, self.heading)

    def line(self) -> str:
        """The sentence with the place of PAGE, as a command prints it."""
        return "%s (%s)" % (self.text, self.link)

    def covers(self, cases: Collection[str], figure: str) -> bool:
        """Whether it is about a figure of one of these cases."""
        return (self.figures is None or figure in self.figures) and not self.cases.isdisjoint(cases)


def found(
    scenario: Mapping[str, Any],
    rows: Sequence[Mapping[str, Any]] = (),
    windows: Mapping[str, Window] | None = None,
    recorded: Mapping[str, Sequence[int]] | None = None,
    is_shared: bool = False,
) -> List[Caution]:
    """The cautions of a scenario's cases, those of a link first. `rows` are the figures of cases, as metrics.rows_of
    has them; without them, no caution is about how a case ran. `windows` are the measured times of each trace;
    without them, no run counts as short. `recorded` are the traces' times as they were recorded, where the
    scenario has others. `is_shared` says that shares of flows on one link are shown too."""
    made = [*of_gaps(scenario, windows or {}, recorded), *of_short_runs(scenario, rows, windows), *of_chance(scenario)]
    if rows:
        made += [*of_timeouts(rows), *of_builtin_losses(scenario), *of_builtin_waits(scenario, windows or {})]
        made += of_slow_start(rows)
    if is_shared:
        text = "shares of one order of the flows say little: `ccp metrics --orders all` has means over all orders"
        made.append(Caution(text, "flows-on-one-link", frozenset(), frozenset()))
    return made


# ---- the link


def of_gaps(
    scenario: Mapping[str, Any], windows: Mapping[str, Window], recorded: Mapping[str, Sequence[int]] | None
) -> Iterator[Caution]:
    """A trace with a gap in the measured time in which a retransmission timer fires. The chances of aggregated packets
    are further apart than those of the link, so only the recording says it."""
    link = Link(scenario)
    for name, cases in cases_by(scenario, "trace").items():
        if recorded is not None:
            times = recorded[name]
        elif any(case.get("aggregate", 1) > 1 for case in cases):
            continue
        else:
            times = link.trace(name).times
        text = gap_warning(name, measured_times(times, windows.get(name, Window())))
        if text:
            yield Caution(text, "what-can-be-trusted", names_of(cases))


def measured_times(times: Sequence[int], window: Window) -> Sequence[int]:
    """The times of a trace up to the end of the measured time, and the one after it, since a gap may last longer."""
    if window.until_us is None or 1000 * times[-1] <= window.until_us:
        return times
    inside = sum(1 for time in times if 1000 * time <= window.until_us)
    return times[: inside + 1]


def of_short_runs(
    scenario: Mapping[str, Any], rows: Sequence[Mapping[str, Any]], windows: Mapping[str, Window] | None
) -> Iterator[Caution]:
    """Traces that are measured over less than SHORT_US with slow start in it."""
    if windows is None:
        return
    ends = {row["case"]: row["end_s"] for row in rows if row.get("end_s") is not None}
    short = []
    for name, cases in cases_by(scenario, "trace").items():
        window = windows.get(name, Window())
        until_us = window.until_us
        if until_us is None:
            until_us = round(1e6 * min((ends[case["name"]] for case in cases if case["name"] in ends), default=1e9))
        if window.begin_us < slow_start.UNTIL_US and until_us < SHORT_US:
            short.append(name)
    if short:
        first, least = slow_start.UNTIL_US / 1e6, SHORT_US / 1e6
        text = "%s: less than %g s were measured, with slow start in them, which changes each figure"
        text += ": --seconds %g --from %g leaves it out"
        names = names_of(case for case in scenario["cases"] if case["trace"] in short)
        yield Caution(text % (listed(short), least, least, first), "rules-of-thumb", names)


# ---- the senders


def of_chance(scenario: Mapping[str, Any]) -> Iterator[Caution]:
    """The built-in CUBIC with losses by chance."""
    cases = [case for case in scenario["cases"] if is_builtin(case, "cubic", "ca") and case.get("rate")]
    if cases:
        text = (
            "%s: with losses by chance the built-in CUBIC is a fifth too fast, or more, and ahead of Reno where Linux's"
        )
        text += " is behind: linux-cubic isn't"
        yield Caution(text % listed(map(label_of, cases)), "losses-by-chance", names_of(cases))


def of_builtin_losses(scenario: Mapping[str, Any]) -> Iterator[Caution]:
    """The losses of the built-in CUBIC, which has no HyStart."""
    cases = [case for case in scenario["cases"] if is_builtin(case, "cubic", "ss")]
    if cases:
        text = "lost%%: %s: the built-in CUBIC has no HyStart, and loses several times what Linux's does"
        text += ": linux-cubic has it"
        figures = frozenset(["loss_rate"])
        yield Caution(text % listed(map(label_of, cases)), "what-can-be-trusted", names_of(cases), figures)


def of_builtin_waits(scenario: Mapping[str, Any], windows: Mapping[str, Window]) -> Iterator[Caution]:
    """The queueing delays of the built-in agents where the rate varies."""
    link = Link(scenario)
    builtin = [case for case in scenario["cases"] if is_builtin(case, "reno", "ca") or is_builtin(case, "cubic", "ca")]
    used = dict.fromkeys(case["trace"] for case in builtin)
    varying = {name for name in used if is_varying(link.trace(name), windows.get(name, Window()).until_us)}
    cases = [case for case in builtin if case["trace"] in varying]
    if cases:
        text = (
            "wait: %s: where the rate varies the built-in agents cut twice for one overflow, and wait up to 28 %% less"
        )
        text += " than Linux's: linux-reno and linux-cubic don't"
        yield Caution(text % listed(map(place_of, cases)), "what-can-be-trusted", names_of(cases), WAITS)


def is_builtin(case: Mapping[str, Any], agent: str, role: str) -> bool:
    """Whether a case runs an agent with its built-in program in a role, `ss` or `ca`."""
    return case.get("agent") == agent and role not in case


def is_varying(link: Trace, until_us: int | None) -> bool:
    """Whether a link has more chances in one second of the measured time than in another."""
    end_s = (until_us or link.period_us) // 10**6
    edges = [link.chances(10**6 * at) for at in range(max(2, min(MOST_SECONDS, end_s)) + 1)]
    counts = [after - before for before, after in zip(edges, edges[1:])]
    # a chance more or less comes with where a second ends
    return max(counts) > (1 + SAME_RATE) * min(counts) + 1


# ---- how the cases ran


def of_timeouts(rows: Sequence[Mapping[str, Any]]) -> Iterator[Caution]:
    """Cases with timeouts, which aren't those of a retransmission timer."""
    some = [row for row in rows if row.get("timeouts")]
    if some:
        text = "%s: a timeout here comes only when no acknowledgement can arrive: ccp has no retransmission timer"
        cases = frozenset(str(row["case"]) for row in some)
        yield Caution(text % listed(map(place_of, some)), "what-the-model-leaves-out-and-its-price", cases)


def of_slow_start(rows: Sequence[Mapping[str, Any]]) -> Iterator[Caution]:
    """Loss rates that are those of slow start, over seeds in the mean."""
    shares: Dict[str, List[float]] = {}
    for row in rows:
        values = shares.setdefault(place_of(row), [])
        values += [row[slow_start.FIGURE]] if row.get(slow_start.FIGURE) is not None else []
    means = {place: sum(values) / len(values) if values else None for place, values in shares.items()}
    cases = frozenset(str(row["case"]) for row in rows if slow_start.is_marked(means[place_of(row)]))
    for text in slow_start.note_of(list(means), list(means.values())):
        yield Caution("lost%: " + text, "rules-of-thumb", cases, frozenset(["loss_rate"]))


# ---- names


def cases_by(scenario: Mapping[str, Any], member: str) -> Dict[str, List[Mapping[str, Any]]]:
    """The cases of a scenario by a member."""
    made: Dict[str, List[Mapping[str, Any]]] = {}
    for case in scenario["cases"]:
        made.setdefault(case[member], []).append(case)
    return made


def names_of(cases: Iterable[Mapping[str, Any]]) -> FrozenSet[str]:
    """The names of cases."""
    return frozenset(str(case["name"]) for case in cases)


def label_of(case: Mapping[str, Any]) -> str:
    """The sender of a case, or of its figures."""
    return str(case.get("sender", case.get("agent")))


def place_of(case: Mapping[str, Any]) -> str:
    """What a case is of, in words."""
    return "%s on %s" % (label_of(case), case["trace"])


def listed(names: Iterable[str]) -> str:
    """Different names as a sentence has them, the first MOST_NAMES of them."""
    every = list(dict.fromkeys(names))
    more = " and %d more" % (len(every) - MOST_NAMES) if len(every) > MOST_NAMES else ""
    return ", ".join(every[:MOST_NAMES]) + more
