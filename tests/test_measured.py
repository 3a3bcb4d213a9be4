"""`ccp compare --measured`: a real sender's throughput and delay from a link log, beside the simulated ones."""
from __future__ import annotations

import html
import re
from pathlib import Path

import pytest
from inside import run_inside
from support import TRACES, needs, require, three_digits

pytestmark = needs("import matplotlib", "import pandas", "import jinja2")
require("matplotlib")

from ccp_tools.compare import measured  # noqa: E402
from ccp_tools.metrics import Window  # noqa: E402
from ccp_tools.traces import read_trace  # noqa: E402

DATA = Path(__file__).parent / "data"
LOG = DATA / "mm-link.log"
SPAN_MS = 400


@pytest.fixture(scope="session")
def link(tmp_path_factory: pytest.TempPathFactory) -> Path:
    """The link of the log as a trace."""
    path = tmp_path_factory.mktemp("measured") / "link.trace"
    path.write_text(run_inside("trace", "from-mahimahi-log", LOG).output)
    return path


def figures_of_log() -> list[str]:
    """Throughput, utilization, loss and delays of the log's first 400 ms, by a reader of its own."""
    events = [line.split() for line in LOG.read_text().splitlines() if not line.startswith("#")]
    inside = [words for words in events if int(words[0]) <= 37 + SPAN_MS]  # its base timestamp is 37
    left = [words for words in inside if words[1] == "-"]
    first, last = int(left[0][0]), int(left[-1][0])
    chances = [words for words in inside if words[1] == "#" and first <= int(words[0]) <= last]
    came = [words for words in inside if words[1] == "+"]
    waits = sorted(int(words[3]) for words in left)
    ranks = [waits[-(-len(waits) * share // 100) - 1] for share in (50, 95, 99)]
    return [
        three_digits(8 * 1504 * len(left) / (last - first) / 1000, 2),
        three_digits(100 * len(left) / len(chances), 1),
        three_digits(100 * (1 - len(left) / len(came)), 2),
        three_digits(sum(waits) / len(waits), 1),
        *(three_digits(wait, 1) for wait in ranks),
        "none",
        three_digits((last - first) / 1000, 2),
    ]


def test_a_real_sender_beside_the_simulated_ones(link: Path, program: Path, tmp_path: Path) -> None:
    words = [link, "--senders", "reno", "--seconds", SPAN_MS / 1000, "--measured", "real=%s" % LOG]
    made = run_inside("compare", *words, "--plots", "svg,pdf", "--out", tmp_path / "out", "--ccp", program)
    assert made.status == 0, made.errors
    wanted = figures_of_log()
    page = (tmp_path / "out" / "report.html").read_text()
    cells = [html.unescape(cell) for cell in re.findall(r"<td[^>]*>([^<]*)</td>", page)]
    place = cells.index("real")
    assert cells[place - 1] == "link, measured" and cells[place + 1 : place + 1 + len(wanted)] == wanted
    assert "real: %s, " % LOG in page and 'href="bars.pdf"' in page
    row = next(line for line in made.output.splitlines() if " real " in line).split()
    assert row[:2] == ["link,", "measured"] and row[3:7] == wanted[:4]
    assert 'measured = ["real=%s"]' % LOG in (tmp_path / "out" / "compare.toml").read_text()


def test_the_trace_of_a_log(link: Path) -> None:
    times, other = read_trace(link), read_trace(TRACES[0])
    windows = {"other": Window(), "link": Window(0, 100_000)}
    found = measured.read([("real", str(LOG))], {"other": other, "link": times}, windows)
    assert found[0].trace == "link" and found[0].found.packets == 45
    assert found[0].doubts() == ""
    longer = measured.read([("real", str(LOG))], {"link": times}, {"link": Window(0, 15_000_000)})
    wanted = "its log has 0.484 s of packets, and the simulated senders are measured over 15 s"
    assert longer[0].doubts() == wanted == measured.rows_of(longer, ["trace", "sender"])[0].doubts
    two = {"other": other, "another": [5]}
    assert measured.read([("real", str(LOG))], two, windows)[0].trace == ""
    # a tunnel's log has delays of the whole way, and no chances: it belongs to the only trace
    tunnel = measured.read([("x", str(DATA / "pantheon.log"))], {"other": other}, windows)
    assert tunnel[0].trace == "other" and "its delays are of the whole way" in measured.notes_of(tunnel)[0]
    assert measured.rows_of(tunnel, ["trace", "sender"])[0].values["queueing_p95_ms"] == (None, None)


@pytest.mark.parametrize("given, error", [("a b=x", "[NAME=]LOG"), ("real=/nowhere", "/nowhere: "), (TRACES[0], "log")])
def test_what_is_no_log(link: Path, program: Path, tmp_path: Path, given: object, error: str) -> None:
    words = [link, "--senders", "reno", "--seconds", 0.4, "--measured", given, "--out", tmp_path / "out"]
    made = run_inside("compare", *words)
    assert made.status in (1, 2) and error in made.errors and not (tmp_path / "out").exists(), made.errors
