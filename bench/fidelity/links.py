"""Links on which a search found a sender of `ccp` far from ns-3: the packets that each stack gets through in 4 seconds.

`links/links.csv` has the links: a name, the pieces of the trace as MSxCHANCES, the queue in packets and the delay in
milliseconds. `links/served.csv` has what was measured on them, a row a run: the link, the algorithm, the stack, its
version, the run's number, the packets, and of Linux how late packets left the emulator in microseconds."""

from __future__ import annotations

import json
from dataclasses import dataclass
from pathlib import Path
from typing import Any, Dict, Iterable, Iterator, List, Sequence, Tuple

import pandas as pd
from ccp_tools import program, scenario
from ccp_tools.compare.cases import parts_of
from ccp_tools.errors import CcpError
from ccp_tools.frames import acks_in

from . import kernel, model, ns3
from .cases import ALGORITHMS, HOST_US, SEGMENT_BYTES, TIMEOUT_US
from .limits import Finding
from .logs import read_log
from .pages import table

HERE = Path(__file__).resolve().parent / "links"
SECONDS = 4
UNTIL_US = 1_000_000 * SECONDS
# what no link of a search serves in this time
MOST_ACKS = 12_000
COLUMNS = ["link", "algorithm", "stack", "version", "run", "packets", "late_mean_us"]
# how far the packets of `ccp` may be from those of the reference, in per cent
LIMIT_PERCENT = 20
LIMIT = "packets on found links within %d %%" % LIMIT_PERCENT


@dataclass(frozen=True)
class Found:
    """A link: the pieces of its trace, each some milliseconds with some chances spread evenly over them, the queue in
    packets, and the round-trip time without waiting in milliseconds."""

    name: str
    pieces: Tuple[Tuple[int, int], ...]
    queue: int
    delay_ms: int

    @property
    def trace(self) -> str:
        """The trace's text. The last chance of a piece is at its end."""
        begin, lines = 0, []
        for length, chances in self.pieces:
            lines += ["%d\n" % (begin - (-(at + 1) * length // chances)) for at in range(chances)]
            begin += length
        return "".join(lines)


def pieces_of(text: str) -> Tuple[Tuple[int, int], ...]:
    """The pieces in a text as `200x80 50x0`."""
    pairs = [word.split("x") for word in text.split()]
    return tuple((int(length), int(chances)) for length, chances in pairs)


def text_of(pieces: Iterable[Tuple[int, int]]) -> str:
    return " ".join("%dx%d" % piece for piece in pieces)


def read(folder: Path = HERE) -> List[Found]:
    """The links in a folder."""
    rows = pd.read_csv(folder / "links.csv")
    made = zip(rows["name"], rows["pieces"], rows["queue"], rows["delay_ms"])
    return [Found(name, pieces_of(pieces), int(queue), int(delay_ms)) for name, pieces, queue, delay_ms in made]


def read_served(folder: Path = HERE) -> pd.DataFrame:
    """What was measured on the links in a folder; none is an empty frame."""
    path = folder / "served.csv"
    return pd.read_csv(path) if path.exists() else pd.DataFrame(columns=COLUMNS)


# ---- what the stacks serve


def scenario_of(links: Sequence[Found], algorithm: str, folder: Path) -> Dict[str, Any]:
    """The scenario of the links, one case each, with the sender like Linux of an algorithm."""
    made: Dict[str, Any] = {"cases": [], "traces": {}, "programs": {}}
    for number, link in enumerate(links):
        words = ["--senders", "linux-" + algorithm, "--queue", str(link.queue), "--acks", str(MOST_ACKS)]
        words += ["--mss", str(SEGMENT_BYTES), "--timeout-ms", str(TIMEOUT_US // 1000)]
        one = scenario.make([*words, "--", str(written(link, folder))])
        (case,) = one["cases"]
        case.update(name="%d" % number, delay_us=1000 * link.delay_ms + HOST_US)
        made["traces"].update(one["traces"])
        made["programs"].update(one["programs"])
        made["cases"].append(case)
        made["version"] = one["version"]
    return made


def of_model(links: Sequence[Found], algorithm: str, folder: Path, path: str | None = None) -> Iterator[int]:
    """The packets that each link serves in `ccp`."""
    for _, part in parts_of(scenario_of(links, algorithm, folder)):
        for flow in acks_in(program.run("acks", json.dumps(part), program=path).output):
            delay_us = part["cases"][flow.number]["delay_us"]
            frame = flow.frame
            is_served = ~frame["was_timeout"].astype(bool) & (frame["now"] - delay_us <= UNTIL_US)
            yield int(is_served.sum())


def written(link: Found, folder: Path) -> Path:
    """The file of a link's trace, in a folder."""
    path = folder / (link.name + ".trace")
    if not path.exists():
        path.write_text(link.trace)
    return path


def in_log(path: Path) -> int:
    """The packets that a link served before the end, by its log."""
    log = read_log(path)
    return int(((log["wait_us"] >= 0) & (log["time_us"] + log["wait_us"] <= UNTIL_US)).sum())


def of_ns3(link: Found, algorithm: str, folder: Path) -> int:
    """The packets that a link serves in ns-3."""
    log = folder / ("ns3-%s-%s.log" % (link.name, algorithm))
    words = ["--trace=%s" % written(link, folder), "--queue=%d" % link.queue, "--log=%s" % log]
    ns3.said([*words, "--flows=%s:%d" % (algorithm, 1000 * link.delay_ms), "--seconds=%d" % SECONDS], folder, link.name)
    return in_log(log)


def of_kernel(link: Found, algorithm: str, folder: Path, number: int) -> Tuple[int, float]:
    """The packets that a link serves by the kernel, and how late they left the emulator; a late run is made again."""
    log = folder / ("linux-%s-%s-%d.log" % (link.name, algorithm, number))
    words = [str(written(link, folder)), str(link.queue), str(1000 * link.delay_ms), "%ds" % SECONDS, str(log)]
    late = 0.0
    for _ in range(kernel.TRIES):
        streams = [(algorithm, log.with_suffix(".windows"))]
        said = kernel.emulated(words, folder, streams, 10 * SECONDS, link.name)
        late = late_in(said, link)
        if late <= kernel.LATEST_US:
            break
    return in_log(log), late


def late_in(said: str, link: Found) -> float:
    """How late packets left in the mean, by what the emulator says."""
    found = dict(word.split("=") for word in said.split() if "=" in word)
    if "late_mean_us" not in found:
        raise CcpError("link %s: the emulator ended early: %s" % (link.name, said.strip()))
    return float(found["late_mean_us"])


def run(links: Sequence[Found], stacks: Sequence[str], folder: Path, runs: int, path: str | None) -> pd.DataFrame:
    """What the stacks serve on the links, a row a run."""
    rows: List[List[Any]] = []
    for algorithm in ALGORITHMS:
        if "ccp" in stacks:
            counts = of_model(links, algorithm, folder, path)
            known = model.identity(path)
            rows += [[link.name, algorithm, "ccp", known, 1, got, None] for link, got in zip(links, counts)]
        for link in links:
            if "ns3" in stacks:
                rows.append([link.name, algorithm, "ns-3", ns3.identity(), 1, of_ns3(link, algorithm, folder), None])
            if "linux" in stacks:
                kernel.build(folder)
                for number in range(1, runs + 1):
                    got, late = of_kernel(link, algorithm, folder, number)
                    rows.append([link.name, algorithm, "linux", kernel.identity(), number, got, late])
    return pd.DataFrame(rows, columns=COLUMNS)


# ---- tables and the limit


def served_text(served: pd.DataFrame, stack: str, link: str, algorithm: str) -> str:
    """The median of the packets that a stack served, with their range where the runs differ."""
    value = packets_of(served, stack, link, algorithm)
    if value is None:
        return "-"
    some = runs_of(served, stack, link, algorithm)["packets"]
    least, most = int(some.min()), int(some.max())
    return "%.0f" % value if least == most else "%.0f (%d to %d)" % (value, least, most)


def served_table(links: Sequence[Found], served: pd.DataFrame) -> str:
    """The packets of both algorithms on each link, a row a link."""
    heads = ["link", "pieces: ms x packets", "queue", "ms", "sender", "like Linux", "ns-3", "Linux"]
    rows = []
    for link in links:
        for algorithm in ALGORITHMS:
            counts = [served_text(served, stack, link.name, algorithm) for stack in ("ccp", "ns-3", "linux")]
            place = [link.name, text_of(link.pieces), str(link.queue), str(link.delay_ms)]
            rows.append([*(place if algorithm == ALGORITHMS[0] else [""] * 4), algorithm, *counts])
    return table(heads, rows)


def runs_of(served: pd.DataFrame, stack: str, link: str, algorithm: str) -> pd.DataFrame:
    """The rows of a stack on a link."""
    return served[(served["stack"] == stack) & (served["link"] == link) & (served["algorithm"] == algorithm)]


def packets_of(served: pd.DataFrame, stack: str, link: str, algorithm: str) -> float | None:
    """The median of the packets over the runs of a stack, or None where there is none."""
    rows = runs_of(served, stack, link, algorithm)
    return None if rows.empty else float(rows["packets"].median())


def findings(links: Sequence[Found], served: pd.DataFrame) -> Iterator[Finding]:
    """The packets of `ccp` beside those of Linux, or where they weren't measured of ns-3, on each link."""
    for link in links:
        for algorithm in ALGORITHMS:
            ours = packets_of(served, "ccp", link.name, algorithm)
            other = packets_of(served, "linux", link.name, algorithm)
            other = packets_of(served, "ns-3", link.name, algorithm) if other is None else other
            if ours is not None and other:
                percent = 100 * (ours / other - 1)
                value = "%.0f beside %.0f, %+.1f %%" % (ours, other, percent)
                cell = (link.name, link.queue, link.delay_ms)
                yield Finding(LIMIT, cell, "linux-" + algorithm, value, abs(percent) <= LIMIT_PERCENT)
