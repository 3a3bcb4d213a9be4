"""examples/senders/, examples/like-linux/, and the figures of docs/senders.md."""
from __future__ import annotations

import argparse
import csv
import io
import json
import re
from pathlib import Path
from typing import Any, Dict, List, Tuple

import pytest
from support import EXAMPLES, REPOSITORY, ccp, command, needs

from ccp_tools import program as programs
from ccp_tools import texts
from ccp_tools.senders import LIKE_LINUX, PROGRAMS
from ccp_tools.senders import sender as sender_of

SENDERS = {path.stem: path for path in sorted((EXAMPLES / "senders").glob("*.portus"))}
FOLDS = sorted((EXAMPLES / "like-linux").glob("*.portus"))
PAGE = REPOSITORY / "docs" / "senders.md"
TRACES = [EXAMPLES / "traces" / name for name in ("fixed.trace", "train.trace", "wave.trace")]
HEAD = "| trace | sender | Mbit/s | used % | lost packets | delay ms | p95 ms |"
BEFORE_AND_AFTER = re.compile(r"\| \w+ \| \d+ \| \d+ \| (reno|cubic) \| ")
Figures = Dict[Tuple[str, str], str]


def scenario_of(senders: List[str], *words: object) -> str:
    """The scenario of some senders over traces, as `ccp scenario` makes it."""
    own = ",".join("%s=%s" % (name, SENDERS[name]) if name in SENDERS else name for name in senders)
    made = command("scenario", "--senders", own, *words)
    assert made.status == 0, made.errors
    return made.output


@pytest.mark.parametrize("name", SENDERS)
def test_each_sender_is_accepted(program: Path, name: str) -> None:
    assert len(SENDERS) == 6
    ran = ccp("check", given=SENDERS[name].read_text(encoding="utf-8"))
    assert ran.status == 0 and ran.output.startswith("ok "), ran.errors


@pytest.mark.parametrize("mss", [1, 536, 65535])
def test_no_sender_is_answered_or_faults(program: Path, mss: int) -> None:
    """Losses, timeouts, marks, small and large segments, a queue of one packet: one epoch, no fault, no report held."""
    grid = ["--mss", mss, "--queue", "1,100", "--mark", "none,3", "--losses", "none,0+1+2+3+4+5,rate:0.2:1"]
    text = scenario_of(list(SENDERS), *grid, "--delay-ms", "0,20", "--acks", 400, *TRACES)
    for row in programs.run_table(text, program=program).rows:
        assert (row["held"], row["faults"], row["epochs"]) == (0, 0, 1), row


# ---- senders like Linux


@pytest.mark.parametrize("path", FOLDS, ids=lambda path: path.stem)
def test_worked_folds_of_senders_like_linux(program: Path, path: Path) -> None:
    given = path.read_text(encoding="utf-8") + "---\n" + path.with_suffix(".acks").read_text(encoding="utf-8")
    assert ccp("fold", given=given).output == path.with_suffix(".out").read_text(encoding="utf-8")


def test_the_package_has_the_programs_of_senders_like_linux() -> None:
    assert [path.name for path in FOLDS] == sorted(path.name for path in PROGRAMS.iterdir())
    for path in FOLDS:
        assert (PROGRAMS / path.name).read_bytes() == path.read_bytes(), path.name


def test_senders_like_linux_by_name(tmp_path: Path) -> None:
    """Each by its name, with the text of its program, wherever the command runs."""
    ran = command("scenario", "--senders", "linux-reno,mine=linux-cubic", TRACES[0], cwd=tmp_path)
    assert ran.status == 0, ran.errors
    made = json.loads(ran.output)
    assert [[case.get(name) for name in ("sender", "agent", "ss", "ca")] for case in made["cases"]] == [
        ["linux-reno", "reno", "linux-reno", "linux-reno"],
        ["mine", "cubic", "mine", "mine"],
    ]
    for name, file in {"linux-reno": "linux_reno", "mine": "linux_cubic"}.items():
        assert made["programs"][name] == (PROGRAMS / (file + ".portus")).read_text(encoding="utf-8")


@pytest.mark.parametrize("text", ["linux-reno=reno", "linux-cubic=delay.portus", "linux-reno:p", "linux-vegas"])
def test_names_of_senders_like_linux_are_theirs(text: str) -> None:
    with pytest.raises(argparse.ArgumentTypeError, match="linux-reno"):
        sender_of(text)
    assert sender_of("linux-reno=linux-reno") == LIKE_LINUX["linux-reno"]


@pytest.mark.parametrize("path", FOLDS, ids=lambda path: path.stem)
def test_the_count_of_a_sender_like_linux(path: Path) -> None:
    ran = ccp("check", given=path.read_text(encoding="utf-8"))
    found = re.search(r" count=(\d+)", ran.output)
    assert ran.status == 0 and found and int(found[1]) <= 256, ran.errors


@pytest.fixture(scope="module", name="links_for_faults")
def links_for_faults_fixture() -> List[Dict[str, Any]]:
    """Scenarios with losses, timeouts, marks and queues of one packet, and long ones with a queue of 4,096."""
    grid = ["--queue", "1,100", "--mark", "none,3", "--losses", "none,0+1+2+3+4+5,rate:0.2:1"]
    some = scenario_of(list(LIKE_LINUX), *grid, "--delay-ms", "0,20", "--acks", 400, *TRACES)
    long = scenario_of(list(LIKE_LINUX), "--queue", "4096", "--acks", 65536, "--delay-ms", "0,80", TRACES[0])
    return [json.loads(text) for text in (some, long)]


@pytest.mark.parametrize("mss", [1, 2, 536, 1448, 4611, 4612, 8948, 9000, 65535])
def test_senders_like_linux_never_fault(program: Path, links_for_faults: List[Dict[str, Any]], mss: int) -> None:
    """No agent answers either, so that each case is one epoch."""
    for scenario in links_for_faults:
        made = {**scenario, "cases": [{**case, "mss": mss} for case in scenario["cases"]]}
        for row in programs.run_table(json.dumps(made), program=program).rows:
            assert (row["held"], row["faults"], row["epochs"]) == (0, 0, 1), row


@pytest.mark.parametrize("trace", ["10\n", "1\n" * 200, "3600000\n"], ids=["slow", "fast", "once-an-hour"])
def test_senders_like_linux_never_fault_on_links_of_other_rates(program: Path, tmp_path: Path, trace: str) -> None:
    path = tmp_path / "t.trace"
    path.write_text(trace)
    grid = ["--mss", 65535, "--queue", "4096", "--delay-ms", "0,20", "--losses", "none,rate:0.001:1"]
    text = scenario_of(list(LIKE_LINUX), *grid, "--acks", 20000, path)
    assert all(row["faults"] == 0 for row in programs.run_table(text, program=program).rows)


def test_one_overflow_is_one_loss_event(program: Path) -> None:
    """The overflow that ends slow start, of a queue shorter than the window: the losses are learned over more than a
    round trip. The built-in programs cut thrice, those like Linux once, and HyStart comes before the overflow."""
    senders = ["reno", "linux-reno", "cubic", "linux-cubic"]
    text = scenario_of(senders, "--queue", 50, "--delay-ms", 80, "--acks", 1200, TRACES[0])
    rows = programs.run_table(text, program=program).rows
    assert [(row["epochs"], row["lost"]) for row in rows] == [(4, 145), (1, 132), (4, 182), (1, 7)]


# ---- HyStart, by acknowledgements made for it


def rounds(samples_ms: List[float], flight: int = 19, apart_us: int = 3000) -> str:
    """Acknowledgements with these round-trip times, `apart_us` apart. A round has one more than are in flight."""
    form = "bytes_acked=1 packets_acked=1 now=%d packets_in_flight=%d rtt_sample_us=%d\n"
    times = enumerate(samples_ms)
    return "".join(form % (20_000 + apart_us * at, flight, 1000 * sample) for at, sample in times)


def window_after(acks: str) -> int:
    """CUBIC's window after acknowledgements, in segments of one byte. It begins with one."""
    given = (EXAMPLES / "like-linux" / "linux_cubic.portus").read_text(encoding="utf-8") + "---\n" + acks
    found = re.search(r"^end .* cwnd=(\d+)", ccp("fold", given=given).output, re.MULTILINE)
    assert found
    return int(found[1])


def test_slow_start_goes_on_while_nothing_changes(program: Path) -> None:
    assert window_after(rounds([20.0] * 60)) == 61


@pytest.mark.parametrize("late, ends", [(23.9, False), (24.0, False), (24.1, True)])
def test_hystart_ends_with_the_ninth_late_sample(program: Path, late: float, ends: bool) -> None:
    """From the second round on all samples are late: by more than 4 ms, since an eighth of 20 ms is less. Slow start
    ends with the ninth of them, not with the eighth, and the window before it is the threshold."""
    assert window_after(rounds([20.0] * 20 + [late] * 8)) == 29
    assert window_after(rounds([20.0] * 20 + [late] * 9)) == (29 if ends else 30)
    assert window_after(rounds([20.0] * 20 + [late] * 12)) == (29 if ends else 33)


def test_hystart_compares_the_least_of_all_samples(program: Path) -> None:
    """One sample that isn't late, the tenth of its round, comes too late; as the eighth it keeps slow start going."""
    early = [20.0] * 20 + [26.0] * 7 + [20.0] + [26.0] * 12
    assert window_after(rounds(early)) == 41
    assert window_after(rounds([20.0] * 20 + [26.0] * 9 + [20.0] * 5)) == 29


def test_hystart_needs_sixteen_segments(program: Path) -> None:
    """Rounds of ten in a window below 16 are all late, and nothing ends; the samples of a round count from 16 on."""
    assert window_after(rounds([20.0] + [30.0] * 14, flight=9)) == 16
    assert window_after(rounds([20.0] + [30.0] * 22, flight=49)) == 24
    assert window_after(rounds([20.0] + [30.0] * 23, flight=49)) == 24


@pytest.mark.parametrize("apart_us, ends", [(1999, True), (2000, False)])
def test_hystart_ends_with_a_long_train(program: Path, apart_us: int, ends: bool) -> None:
    """Acknowledgements less than 2 ms apart for more than (60 + 1) / 2 ms: the 17th of a round, 32 ms after its first.
    At 2 ms exactly, as whole milliseconds give, a host with its jitter has no train."""
    acks = rounds([60.0] * 60, flight=39, apart_us=apart_us)
    assert window_after("".join(acks.splitlines(True)[:56])) == 57
    assert window_after("".join(acks.splitlines(True)[:58])) == (57 if ends else 59)


# ---- the figures of the page


def measured(folder: Path, senders: List[str], *words: object) -> Figures:
    """The figures of the page, by trace and sender."""
    scenario = folder / "scenario.json"
    scenario.write_text(scenario_of(senders, *words), encoding="utf-8")
    for mode in ("campaign", "acks"):
        ran = programs.run(mode, scenario.read_bytes(), workers=programs.processors())
        (folder / mode).write_text(ran.output, encoding="utf-8")
    made = command("metrics", scenario, folder / "campaign", folder / "acks")
    assert made.status == 0, made.errors
    found = {}
    for row in csv.DictReader(io.StringIO(made.output)):
        found[row["trace"], row["sender"]] = "%.2f %.1f %d %.1f %.0f" % (
            float(row["throughput_mbps"]),
            100 * float(row["utilization"]),
            int(row["lost"]),
            float(row["queueing_mean_ms"]),
            float(row["queueing_p95_ms"]),
        )
    return found


def tables_of(path: Path) -> List[Tuple[str, List[List[str]]]]:
    """The tables of figures of a page, each with the lines before it since the heading or the table before."""
    found: List[Tuple[str, List[List[str]]]] = []
    before: List[str] = []
    rows: List[List[str]] = []
    is_within = False
    for line in path.read_text(encoding="utf-8").split("\n"):
        if line == HEAD:
            rows, is_within = [], True
            found.append(("\n".join(before), rows))
            before = []
        elif is_within and line.startswith("| "):
            rows.append([cell.strip() for cell in line.strip("|").split("|")])
        elif not line.startswith("|---"):
            is_within = False
            before = [line] if line.startswith("## ") else before + [line]
    return found


@pytest.mark.slow
@needs("import pandas")
def test_figures_of_the_page(program: Path, tmp_path: Path) -> None:
    near = measured(tmp_path, ["reno", "cubic", *SENDERS], "--acks", 10000, *TRACES)
    far_senders = ["reno", "cubic", "aimd", "scalable", "highspeed"]
    far = measured(tmp_path, far_senders, "--delay-ms", 200, "--acks", 40000, TRACES[0])
    marked = measured(tmp_path, ["reno", "aimd", "proportional"], "--mark", 20, "--acks", 10000, *TRACES)
    tables = tables_of(PAGE)
    assert len(tables) == 7
    for before, rows in tables:
        figures = far if "delay of 200 ms" in before else marked if "with marks from 20" in before else near
        assert rows
        for trace, sender, *cells in rows:
            assert " ".join(cells) == figures[trace, sender], (trace, sender)


@pytest.mark.slow
@needs("import pandas")
def test_figures_of_senders_like_linux(program: Path, tmp_path: Path) -> None:
    """The columns of the table before and after that `ccp` measures, with the time of a host in the delay."""
    wanted = [line.strip("|\n ").split(" | ") for line in PAGE.open(encoding="utf-8") if BEFORE_AND_AFTER.match(line)]
    assert len(wanted) == 24
    found: Dict[Tuple[str, str, str], Figures] = {}
    for trace, queue, ms, sender, figure, *cells in wanted:
        if (trace, queue, ms) not in found:
            path = EXAMPLES / "traces" / (trace + ".trace")
            words = ["--queue", queue, "--delay-ms", ms + ".05", "--acks", 30000, path]
            found[trace, queue, ms] = measured(tmp_path, ["reno", "linux-reno", "cubic", "linux-cubic"], *words)
        at = ["Mbit/s", "used %", "lost packets", "wait", "p95"].index(figure)
        rows = found[trace, queue, ms]
        assert cells[:2] == [rows[trace, name].split()[at] for name in (sender, "linux-" + sender)], (trace, queue, ms)


# ---- `highspeed` against a model of its RFC

# RFC 3649, appendix B: from how many segments on, a(w) and b(w)
HIGHSPEED = (
    (38, 1, 0.50), (118, 2, 0.44), (221, 3, 0.41), (347, 4, 0.38), (495, 5, 0.37), (663, 6, 0.35), (851, 7, 0.34),
    (1058, 8, 0.33), (1284, 9, 0.32), (1529, 10, 0.31), (1793, 11, 0.30), (2076, 12, 0.29), (2378, 13, 0.28),
    (2699, 14, 0.28), (3039, 15, 0.27), (3399, 16, 0.27), (3778, 17, 0.26),
)  # fmt: skip
# one loss in as many packets, and the mean window in segments that docs/senders.md shows
HIGHSPEED_MEANS = ((1000, 38), (2000, 53), (4000, 77), (10000, 214))
MSS = 1448


def row_of(window: float) -> Tuple[int, float]:
    """The increase and the decrease of a window of `window` segments."""
    return [(increase, decrease) for least, increase, decrease in HIGHSPEED if least <= max(38, window)][-1]


def mean_by_model(window: float, packets: int, losses: int) -> float:
    """The mean window over `losses` losses, one every `packets` packets, by the table alone and with no rounding: a
    packet takes the part 1/window of a round trip."""
    sent, trips = 0, 0.0
    for _ in range(losses):
        for _ in range(packets):
            sent, trips = sent + 1, trips + 1 / window
            window += row_of(window)[0] / window
        window *= 1 - row_of(window)[1]
    return sent / trips


def mean_of(reports: List[texts.Report], first: int, last: int) -> float:
    """The mean window in segments over time, from one report to another."""
    steps = zip(reports[first:last], reports[first + 1 :])
    area = sum(report.cwnd * (after.now - report.now) for report, after in steps)
    return area / (reports[last].now - reports[first].now) / MSS


@pytest.mark.slow
@pytest.mark.parametrize("packets, wanted", HIGHSPEED_MEANS)
def test_highspeed_against_a_model_of_its_rfc(program: Path, packets: int, wanted: int) -> None:
    """A link that is never full, and losses at equal distances: the mean window over time from the third loss on."""
    lost = list(range(packets * 3 // 100 + 20, 65_536, packets))
    case = {"name": "a", "agent": "reno", "ss": "p", "ca": "p", "trace": "t", "mss": MSS, "queue": 4096}
    case.update(delay_us=100_000, timeout_us=1_000_000, acks=65_536, losses=lost)
    text = SENDERS["highspeed"].read_text(encoding="utf-8")
    scenario = {"version": 1, "traces": {"t": "1\n" * 40}, "programs": {"p": text}, "cases": [case]}
    reports = texts.read_flows(ccp("timeline", given=json.dumps(scenario)).output)[0].reports
    at = [place for place, report in enumerate(reports) if report.fields["lost"]]
    assert len(at) == len(lost)
    mean = mean_of(reports, at[2], at[-1])
    model = mean_by_model(reports[at[2]].cwnd / MSS, packets, len(at) - 3)
    assert round(mean) == wanted
    assert abs(mean / model - 1) < 0.04


def test_the_means_of_the_page() -> None:
    means = "%d, %d, %d and %d segments" % tuple(mean for _, mean in HIGHSPEED_MEANS)
    assert means in PAGE.read_text(encoding="utf-8")
