"""`ccp compare`: the same seconds for all senders, doubts, the folder, compare.toml, and the report in a browser."""
from __future__ import annotations

import argparse
import csv
import html
import json
import os
import re
import shutil
import signal
import subprocess
import sys
import time
from pathlib import Path
from types import SimpleNamespace

import pytest
from inside import run_inside
from support import EXAMPLES, REPOSITORY, TRACES, command, needs, ran, require, script, three_digits

pytestmark = needs("import matplotlib", "import pandas", "import jinja2")
require("matplotlib")

from ccp_tools import metrics  # noqa: E402
from ccp_tools.cautions import Caution  # noqa: E402
from ccp_tools.compare import cases, report, shared  # noqa: E402
from ccp_tools.compare import command as compare  # noqa: E402
from ccp_tools.compare.cases import Comparison  # noqa: E402
from ccp_tools.metrics import Window  # noqa: E402
from ccp_tools.queues import Queue  # noqa: E402
from ccp_tools.traces import Trace, read_trace  # noqa: E402

FAULTY = """(def (Report (volatile seen 0)) (least +infinity))
(when true (:= Report.seen 1) (:= least (+ least 1)) (report))
"""
SPAN_US = 400_000


def run_compare(room: Path, *words: str) -> Path:
    """The folder of a comparison of three senders on two traces, one of which faults."""
    (room / "faulty.portus").write_text(FAULTY)
    senders = "reno, delay=%s,faulty=%s" % (EXAMPLES / "delay.portus", room / "faulty.portus")
    given = [TRACES[0], TRACES[1], "--senders", senders, "--seconds", "0.4", *words]
    made = command("compare", *given, "--out", room / "out")
    assert made.status == 0, made.errors
    (room / "out" / "printed").write_text(made.output)
    (room / "out" / "errors").write_text(made.errors)
    return room / "out"


@pytest.fixture(scope="module")
def compared(program, tmp_path_factory) -> Path:
    """The folder of a comparison with the defaults."""
    return run_compare(tmp_path_factory.mktemp("compare"))


@pytest.fixture(scope="module")
def aggregated(program, tmp_path_factory) -> Path:
    """The same of packets of two segments, a queue by the link's rate, and without the beginning."""
    return run_compare(tmp_path_factory.mktemp("two"), "--aggregate", "2", "--queue", "2bdp", "--from", "0.1")


def own_figures(folder: Path, begin_us: int = 0):
    """Each figure of the report from the raw acknowledgements, by a reader of its own: of each case the cells of the
    first table, and the figures of metrics.csv."""
    scenario = json.loads((folder / "scenario.json").read_text())
    found, span_us = {}, SPAN_US - begin_us
    for part in re.split(r"(?m)^flow ", (folder / "acks.txt").read_text())[1:]:
        head, *lines = part.rstrip("\n").split("\n")
        case = scenario["cases"][int(head.split(" ")[0])]
        acks = [{word.split("=")[0]: int(word.split("=")[1]) for word in line.split(" ")} for line in lines]
        assert len(acks) == case["acks"] and acks[-1]["now"] > SPAN_US, "%s ends before the span" % case["name"]
        inside = [ack for ack in acks if begin_us <= ack["now"] - (begin_us > 0) < SPAN_US + (begin_us == 0)]
        times = [1000 * int(time) for time in scenario["traces"][case["trace"]].split()]
        every = (turn * times[-1] + time for turn in range(SPAN_US // times[-1] + 1) for time in times)
        chances = sum(1 for time in every if time <= SPAN_US and (not begin_us or time > begin_us))
        trips = sorted(ack["rtt_sample_us"] for ack in inside if ack.get("packets_acked"))
        waits = [trip - case["delay_us"] for trip in trips]
        lost = sum(ack.get("lost_pkts_sample", 0) for ack in inside)
        rate = 8 * sum(ack.get("bytes_acked", 0) for ack in inside) / span_us
        ranked = [waits[max(0, -(-len(waits) * share // 100) - 1)] / 1000 for share in (50, 95, 99)]
        losses = [ack["now"] for ack in inside if ack.get("lost_pkts_sample")]
        found[case["trace"], case["sender"]] = {
            "throughput_mbps": rate,
            "utilization": len(trips) / chances,
            "loss_rate": lost / (lost + len(trips)),
            "queueing_mean_ms": sum(waits) / len(waits) / 1000,
            "queueing_p50_ms": ranked[0],
            "queueing_p95_ms": ranked[1],
            "queueing_p99_ms": ranked[2],
            "power": rate / (sum(trips) / len(trips) / 1000),
            "span_s": span_us / 1e6,
            "end_s": acks[-1]["now"] / 1e6,
            "rtt_mean_ms": sum(trips) / len(trips) / 1000,
            "first_loss_s": losses[0] / 1e6 if losses else None,
            "packets": len(trips),
            "lost": lost,
            "timeouts": sum(ack.get("was_timeout", 0) for ack in inside),
        }
    return found


def cells_of(own):
    """The cells of the report's first table, in its order."""
    shown = [("throughput_mbps", 2, 1), ("utilization", 1, 100), ("loss_rate", 2, 100)]
    shown += [("queueing_%s_ms" % name, 1, 1) for name in ("mean", "p50", "p95", "p99")]
    shown += [("power", 3, 1), ("span_s", 2, 1)]
    return [three_digits(own[name] * factor, decimals) for name, decimals, factor in shown]


def rows_of_page(page: str):
    """The cells of each row of the report's first table, and whether the row is marked."""
    body = page.partition('<table id="figures">')[2].partition("</table>")[0].partition("<tbody>")[2]
    for row in re.findall(r"<tr.*?</tr>", body, re.DOTALL):
        cells = [
            html.unescape(re.sub(r"<[^>]*>", "", cell)).strip() for cell in re.findall(r"<td.*?</td>", row, re.DOTALL)
        ]
        yield cells, "doubtful" in row, 'best"' in row


@pytest.mark.parametrize(
    "name, begin_us, extra",
    [
        pytest.param("compared", 0, 0, marks=pytest.mark.together("test_compare-compared")),
        pytest.param("aggregated", 100_000, 1, marks=pytest.mark.together("test_compare-aggregated")),
    ],
)
def test_each_figure_of_the_report(request, name, begin_us, extra):
    """In the first table, in what is printed, in metrics.csv, and in the table over all traces. `extra` columns say in
    what the cases of a trace differ."""
    folder = request.getfixturevalue(name)
    own, page = own_figures(folder, begin_us), (folder / "report.html").read_text()
    rows = list(rows_of_page(page))
    assert len(rows) == len(own) == 6
    for cells, _, _ in rows:
        assert cells[2:] == cells_of(own[cells[0], cells[1].split(" ")[0]]), cells
    for line in (folder / "printed").read_text().split("\n")[1:7]:
        words = line.replace(" !", "").split()
        figures = cells_of(own[words[0], words[1]])
        assert words[2:] == [*figures[:4], *figures[5:]], line
    with (folder / "metrics.csv").open() as file:
        for row in csv.DictReader(file):
            for figure, value in own[row["trace"], row["sender"]].items():
                shown = float(row[figure]) if row[figure] else None
                assert shown == pytest.approx(value, rel=1e-8), (row["case"], figure)
    for sender in ("reno", "delay", "faulty"):
        of_all = [own[trace, sender] for trace in ("fixed", "wave")]
        means = [sum(one[name] for one in of_all) / 2 for name in ("utilization", "loss_rate", "queueing_p95_ms")]
        wanted = "".join(
            '<td class="number">%s</td>' % text
            for text in map(three_digits, (100 * means[0], 100 * means[1], means[2]), (1, 2, 1))
        )
        assert re.search(r"<td>%s( \u26a0)?</td>%s" % (sender, re.escape(wanted)), page), (sender, wanted)


def test_what_each_case_did(compared):
    """The counts of the report are those of the raw acknowledgements and of the lines of the timeline."""
    own, page = own_figures(compared), (compared / "report.html").read_text()
    body = page.partition("What each case did")[2].partition("</table>")[0]
    texts = re.split(r"(?m)^flow ", (compared / "timeline.txt").read_text())[1:]
    for text in texts:
        case = re.match(r"[0-9]+ case=(\S+)", text)[1]
        figures = own[tuple(case.split("-"))]
        counts = [figures[name] for name in ("packets", "lost", "timeouts")]
        counts.append(len(re.findall(r"(?m)^ticket [0-9]+ report ", text)))
        counts.append(int(re.search(r"(?m)^end .* held=([0-9]+)", text)[1]))
        counts += [len(re.findall(r"(?m)^%s " % kind, text)) for kind in ("fault", "epoch")]
        assert "<td>%s</td>%s" % (case, "".join('<td class="number">%d</td>' % count for count in counts)) in body


def test_packets_of_two_segments(aggregated):
    page = (aggregated / "report.html").read_text()
    assert "1448, 2 in a packet" in page and ">2bdp: 20<" in page and "fixed: 0.1 to 0.4" in page
    assert "12.0</td>" in page.partition("longest gap")[2].partition("</table>")[0]
    first, *_ = json.loads((aggregated / "scenario.json").read_text())["cases"]
    assert (first["mss"], first["queue"], first["aggregate"]) == (2896, 20, 2)


def test_doubts_are_seen_and_never_bold(compared):
    page = (compared / "report.html").read_text()
    for cells, is_marked, is_bold in rows_of_page(page):
        assert is_marked == cells[1].startswith("faulty") and not (is_marked and is_bold), cells
    assert "case fixed-faulty: " in (compared / "errors").read_text() and "faults of its program" in page
    warning = "faulty.portus:2:44: `least` begins as `+infinity`: a sum of it is a fault (`Overflow`)"
    assert warning in (compared / "errors").read_text() and warning in html.unescape(page).partition('id="results"')[0]
    assert "! faulty on fixed: " in (compared / "printed").read_text()
    assert page.index("Before you read the figures") < page.index('id="results"') < page.index('<table id="figures">')
    with (compared / "metrics.csv").open() as file:
        rows = {row["case"]: row for row in csv.DictReader(file)}
    assert int(rows["fixed-faulty"]["faults"]) > 100 and rows["fixed-reno"]["doubts"] == ""


def test_the_report_says_what_ran(compared, program):
    import hashlib

    page = (compared / "report.html").read_text()
    # what the launcher's script lists are the proved programs of this checkout
    listed = ran([REPOSITORY / "tools/launcher/checked-program", "--proved"]).output.splitlines()
    is_proved = any(Path(path).samefile(program) for path in listed)
    assert ("<b>The proved program</b>" in page) == is_proved
    assert ("<b>A program without a known proof</b>" in page) == (not is_proved)
    assert ('<th scope="row">ccp, proved</th><td><code>%s</code>' % ("yes" if is_proved else "no")) in page
    assert hashlib.sha256(program.read_bytes()).hexdigest() in page
    for text in (FAULTY, (EXAMPLES / "delay.portus").read_text(), "".join("%d\n" % t for t in read_trace(TRACES[0]))):
        assert hashlib.sha256(text.encode()).hexdigest() in page
    assert "The judge said yes" in page and html.escape("2 traces, 6 cases") in page
    assert "{{" not in page and not re.search(r'(src|href)="(https?:)?//', page) and "url(" not in page


def test_the_report_of_a_program_without_a_known_proof(program, tmp_path):
    """A copy of the proved program is one too: nobody looked at it."""
    copy = shutil.copy(program, tmp_path / "ccp")
    words = [TRACES[0], "--senders", "reno", "--acks", "60", "--quiet", "--ccp", copy, "--out", tmp_path / "out"]
    assert command("compare", *words).status == 0
    page = (tmp_path / "out" / "report.html").read_text()
    assert "<b>A program without a known proof</b>" in page and "<b>The proved program</b>" not in page


def test_a_used_folder_and_compare_toml(compared, tmp_path, program):
    """The file that is kept makes the same again, in a folder that keeps nothing of the comparison before."""
    out = tmp_path / "out"
    shutil.copytree(compared, out)
    (out / "mine.txt").write_text("kept")
    toml = (
        (compared / "compare.toml").read_text().replace('wave.trace"', 'wave.trace"').replace(', "%s"' % TRACES[1], "")
    )
    (tmp_path / "one.toml").write_text(toml)
    made = command("compare", tmp_path / "one.toml", "--out", out, "--quiet")
    assert made.status == 0 and made.errors == "", made.errors
    assert made.output.split("\n")[:4] == [line.rstrip() for line in (compared / "printed").read_text().split("\n")[:4]]
    names = {path.name for path in out.iterdir()}
    assert "flows-wave.svg" not in names and "flows-fixed.svg" in names and (out / "mine.txt").read_text() == "kept"


def test_spans_that_differ_are_refused(tmp_path, program):
    """A window of one packet leaves the link idle, so it ends later."""
    words = [TRACES[2], "--senders", "reno,slow=%s" % (tmp_path / "slow.portus"), "--acks", "60", "--quiet"]
    slow = "(def (Report (volatile seen 0)))\n(when true (:= Report.seen 1) (:= Cwnd 1448) (report))\n"
    (tmp_path / "slow.portus").write_text(slow)
    made = command("compare", *words, "--out", tmp_path / "out")
    assert made.status == 1 and "isn't comparable: --seconds S" in made.errors and "--different-spans" in made.errors
    made = command("compare", *words, "--different-spans", "--out", tmp_path / "out")
    page = (tmp_path / "out" / "report.html").read_text()
    assert made.status == 0 and "measured over different spans" in page
    # a long condition has a row of its own
    assert '<div class="long"><dt>gaps</dt><dd>the trace train has ' in page and "<div><dt>seeds</dt>" in page


def test_no_sender_ends_before_the_span():
    """A case has more acknowledgements than there are chances and timeouts up to the end of the span."""
    for path in TRACES:
        link = Trace(read_trace(path))
        for span in (1000, 400_000, 15_000_000):
            assert cases.most_acks(link, span, 1_000_000) == link.chances(span) + span // 1_000_000 + 1
        longest = cases.longest_us(link, 1_000_000)
        assert cases.most_acks(link, longest, 1_000_000) <= 65_536 < cases.most_acks(link, longest + 1000, 1_000_000)
    grid = Comparison([("wave", str(TRACES[1]))])
    assert grid.scenario()["cases"][0]["acks"] > 20_000 and grid.spans_us == {"wave": 30_000_000}


@pytest.mark.parametrize(
    "span_s, begin_s",
    [(30, 5), (29.999, 4.9), (65.5, 5), (18, 3), (10, 1.6), (9.999, 0), (7.863, 0), (0.4, 0), (None, 0)],
)
def test_how_much_is_left_out_where_nothing_is_said(span_s, begin_s):
    """5 s of 30 s or more, a sixth of less, and nothing below 10 s or where the length isn't known."""
    span_us = None if span_s is None else round(1e6 * span_s)
    assert cases.begin_of(span_us) == 1e6 * begin_s
    grid = SimpleNamespace(spans_us={} if span_us is None else {"a": span_us})
    scenario = {"traces": {"a": "1\n"}}
    assert compare.windows_of(grid, scenario, None) == {"a": Window(cases.begin_of(span_us), span_us)}
    assert compare.windows_of(grid, scenario, 0) == {"a": Window(0, span_us)}


def test_a_trace_alone_is_a_comparison(tmp_path):
    """Of the senders like Linux, over 30 s but for the first 5, with a note where fewer fit, in a new folder."""
    parser = compare.Parser()
    compare.add_arguments(parser)
    given = parser.parse_args(["fixed.trace"])
    assert given.senders is None and compare.begin_given(given) is None
    assert compare.begin_given(parser.parse_args(["fixed.trace", "--from", "0"])) == 0
    # a log counts from its first packet
    assert compare.begin_given(parser.parse_args(["fixed.trace", "--measured", "log"])) == 0
    made = run_inside("compare", TRACES[0], "--dry-run")
    assert made.status == 0 and "cases=2\nacknowledgements=60062\ntrace fixed seconds=30\n" in made.output, made.errors
    fast = tmp_path / "fast.trace"
    fast.write_text("".join("%d\n" % (number // 9) for number in range(9, 1000)))
    made = run_inside("compare", fast, "--dry-run")
    text = "the trace fast is measured over 7.339 s: 30 s need more than 65536 acknowledgements"
    assert made.errors == "ccp: warning: %s (--seconds 7.339, or --aggregate 5)\n" % text


def test_a_comparison_without_a_folder_gets_a_new_one(program, tmp_path, monkeypatch):
    """It is said on standard output, also with --quiet, and no comparison before it loses its files."""
    monkeypatch.chdir(tmp_path)
    (tmp_path / "ccp-out").mkdir()
    (tmp_path / "ccp-out" / "report.html").write_text("mine")
    words = ["compare", TRACES[0], "--senders", "reno", "--acks", "60", "--quiet", "--ccp", program]
    made = run_inside(*words)
    assert made.status == 0 and made.output.endswith("\nreport: ccp-out-2/report.html\n"), made.errors
    assert (tmp_path / "ccp-out" / "report.html").read_text() == "mine"
    assert (tmp_path / "ccp-out-2" / "report.html").is_file() and "from" not in (
        tmp_path / "ccp-out-2" / "compare.toml"
    ).read_text()


def test_cautions_are_seen(compared):
    """Below the table and in the first box, with the page that has more; and nothing that they are about is bold."""
    page, printed = (compared / "report.html").read_text(), (compared / "printed").read_text()
    text = "fixed, wave: less than 30 s were measured, with slow start in them, which changes each figure"
    assert "\ncaution: %s: --seconds 30 --from 5 leaves it out (docs/fidelity.md#rules-of-thumb)\n" % text in printed
    box = page.partition("Before you read the figures")[2].partition("</ul>")[0]
    assert text in box and '<a href="docs/fidelity.md#rules-of-thumb">' in box
    assert not any(is_bold for _, _, is_bold in rows_of_page(page))
    below = page.partition('<table id="figures">')[2].partition("</table>")[2]
    assert "None is bold where a caution above is about this figure" in below.partition("<h3>")[0]


def row(sender, trace="t", doubts="", half=None, **figures):
    """A row of the table, with its figure of each seed where they are lists."""
    by_seed, values = {}, dict.fromkeys(report.TABLE, (1.0, half))
    for name, value in figures.items():
        if isinstance(value, list):
            by_seed = {seed: {**by_seed.get(seed, {}), name: one} for seed, one in enumerate(value)}
            value = sum(value) / len(value)
        values[name] = (value, half)
    return report.Row({"trace": trace, "sender": sender}, values, doubts, ("%s-%s" % (trace, sender),), by_seed)


def best_in(rows, name, found=()):
    """The senders whose figure is bold."""
    return [one.by["sender"] for one in rows if report.best_of(rows, one, name, found)]


def test_the_best_value_is_bold_where_no_caution_is_about_it():
    rows = [row("a", throughput_mbps=3.0, loss_rate=0.2), row("b", throughput_mbps=2.0, loss_rate=0.1)]
    rows += [row("c", throughput_mbps=9.0, doubts="no report"), row("d", trace="u", throughput_mbps=1.0)]
    assert best_in(rows, "throughput_mbps") == ["a"] and best_in(rows, "loss_rate") == ["b"]
    assert best_in(rows, "power") == [] == best_in(rows, "span_s")
    losses = [Caution("why", "limits", frozenset(["t-b"]), frozenset(["loss_rate"]))]
    assert best_in(rows, "loss_rate", losses) == [] and best_in(rows, "throughput_mbps", losses) == ["a"]
    assert best_in(rows, "throughput_mbps", [Caution("why", "limits", frozenset(["t-a"]))]) == []
    assert best_in(rows, "throughput_mbps", [Caution("why", "limits", frozenset(["u-d"]))]) == ["a"]


@pytest.mark.parametrize(
    "first, second, half, best",
    [
        # the intervals don't meet
        ([5.0, 5.1, 4.9], [3.0, 3.2, 2.9], 0.5, ["a"]),
        # they meet, and each seed has the same order: t = 17.3 with two degrees of freedom, whose limit is 4.30
        ([5.0, 7.0, 9.0], [4.8, 6.9, 8.8], 5.0, ["a"]),
        # t = 2.3
        ([5.0, 7.0, 9.0], [4.9, 6.6, 8.8], 5.0, []),
        ([5.0, 7.0, 9.0], [5.0, 7.0, 9.0], 0.0, []),
        ([5.0, 7.0, None], [4.8, None, 8.8], 5.0, []),
    ],
)
def test_over_seeds_the_best_value_is_bold_where_it_is_apart(first, second, half, best):
    known = [[value for value in some if value is not None] for some in (first, second)]
    rows = [row(name, half=half, throughput_mbps=some) for name, some in zip("ab", known)]
    for one, some in zip(rows, (first, second)):
        one.by_seed.update({seed: {"throughput_mbps": value} for seed, value in enumerate(some)})
    assert best_in(rows, "throughput_mbps") == best
    # a third one that is as good leaves none
    assert best_in([*rows, row("c", half=half, throughput_mbps=known[0])], "throughput_mbps") == []


def test_the_first_box_says_how_much_was_measured(compared):
    """Of a recording that isn't measured to its end, and nothing of one that is."""
    box = (compared / "report.html").read_text().partition("Before you read the figures")[2].partition("</ul>")[0]
    assert "<li>wave: 0.4 of 4 s of the recording were measured</li>" in box and "<li>fixed: " not in box


def test_a_recording_that_a_limit_shortens(tmp_path):
    """The box has the reason and the way out, and so does standard output; --quiet has no part in either."""
    path = tmp_path / "lte.trace"
    path.write_text("".join("%d\n" % number for number in range(1, 140_001)))
    grid = Comparison([(None, str(path))], is_quiet=True)
    grid.draft()
    windows = {"lte": Window(0, grid.spans_us["lte"])}
    found = report.Page.parts_measured(SimpleNamespace(grid=grid, windows=windows))
    reason = "140 s need more than 65536 acknowledgements; it is whole with --aggregate 3"
    assert found == ["lte: 65.5 of 140 s of the recording were measured: " + reason]
    whole = Comparison([(None, str(path))], aggregate=3)
    assert whole.draft()["cases"][0]["acks"] <= 65_536 and whole.spans_us == {"lte": 140_000_000}
    assert not report.Page.parts_measured(SimpleNamespace(grid=whole, windows={"lte": Window(0, 140_000_000)}))


def test_gaps_that_aggregation_makes_are_no_gaps_of_the_recording(tmp_path):
    """A packet of four chances leaves with the last one, 270 ms after the one before."""
    path = tmp_path / "slow.trace"
    path.write_text("".join("%d\n" % (90 * number) for number in range(1, 101)) + "9150\n")
    words = ["compare", path, "--senders", "reno", "--dry-run", "--aggregate", "4"]
    made = run_inside(*words)
    assert made.status == 0 and made.errors == "", made.errors
    path.write_text(path.read_text() + "9400\n")
    assert "the trace slow has 1 gap longer than 200 ms, up to 250 ms" in run_inside(*words).errors


@pytest.mark.parametrize(
    "value, half, text",
    [
        (0.00312, None, "0.00312"),
        (0.0031249, 0.0010249, "0.00312 ±0.00102"),
        (0, 0, "0 ±0"),
        (0, None, "0"),
        (0, 0.0123, "0 ±0.0123"),
        (11.541, 0.2, "11.541 ±0.200"),
        (1e-9, None, "1.00e-09"),
    ],
)
def test_figures_have_three_significant_digits(value, half, text):
    assert metrics.SHOWN["power"].text(value, half) == text


@pytest.mark.parametrize(
    "words, status, error",
    [
        (["{trace}", "--senders", "", "--out", "{out}"], 2, "before and after each comma"),
        (["{trace}", "--from", "0.2", "--seconds", "0.2", "--out", "{out}"], 2, "--from 0.2: fixed is measured over"),
        (["{trace}", "--senders", "bbr", "--out", "{out}"], 2, "bbr is no sender"),
        (["{trace}", "--senders", "reno", "--delay", "20"], 2, "--delay 20 (did you mean --delay-ms?)"),
        (["{trace}", "--senders", "reno,", "--out", "{out}"], 2, "before and after each comma"),
        (["{trace}", "--senders", "reno", "--out", "{trace}"], 1, "is a file, and --out is a folder"),
        (["/nowhere", "--senders", "reno", "--out", "{out}"], 1, "/nowhere: No such file"),
        (["{trace}", "--senders", "reno", "--queue", "0", "--out", "{out}"], 2, "--queue: 0"),
        (["{trace}", "--senders", "reno", "--seconds", "600", "--out", "{out}"], 1, "--seconds 65."),
        (["{trace}", "--senders", "a=/nowhere", "--out", "{out}"], 1, "/nowhere: No such file"),
        (["{trace}", "--senders", "reno", "--seconds", "600", "--out", "{out}"], 1, "or --aggregate 10"),
        (["{trace}", "--senders", "a={trace}", "--acks", "3", "--out", "{out}"], 1, "fixed.trace:1:1: program Unexp"),
        (["{trace}", "--senders", "reno", "--queue-ms", "9", "--queue", "9", "--out", "{out}"], 2, "not allowed with"),
        (["{out}.toml", "--out", "{out}"], 1, ".toml: No such file"),
    ],
)
def test_what_is_refused(program, tmp_path, words, status, error):
    places = {"trace": TRACES[0], "out": tmp_path / "out"}
    made = command("compare", *(word.format(**places) for word in words))
    assert made.status == status and error in made.errors and "Traceback" not in made.errors, made.errors


def test_a_trace_that_is_given_twice_is_named_once(program, tmp_path):
    words = (TRACES[0], TRACES[0], "--senders", "reno", "--seconds", "0.2", "--dry-run")
    made = command("compare", *words)
    assert made.status == 0 and made.errors == "ccp: warning: the trace %s is given more than once\n" % TRACES[0]
    assert command("compare", *words, "--quiet").errors == ""


def test_an_option_beside_the_file_replaces_its_alternative(tmp_path):
    """--queue-ms in place of the file's queue, and --acks in place of its seconds."""
    path = tmp_path / "one.toml"
    path.write_text('traces = ["%s"]\nsenders = "reno"\nqueue = ["7", "1bdp"]\nseconds = 3\n' % TRACES[0])
    parser = compare.Parser()
    compare.add_arguments(parser)

    def read(*words: str) -> argparse.Namespace:
        return compare.with_file(parser.parse_args([str(path), *words]))

    assert compare.comparison_of(read()).queue == [Queue(7), Queue(products=1)] and read().seconds == 3_000_000
    assert compare.comparison_of(read("--queue-ms", "50")).queue == [Queue(ms=50)]
    assert read("--acks", "9").acks == 9 and read("--acks", "9").seconds is None


def test_the_file_keeps_every_option(tmp_path):
    words = "--queue-ms 5,10 --delay-ms 10,20.5 --losses none,rate:0.01:3,rate:0.1 --seeds 1..3 --mark none,7 --mss 500"
    words += " --timeout-ms 300 --slots 3 --lag 2 --cut 900 --aggregate 2 --seconds 0.5 --from 0.1 --size column"
    parser = compare.Parser()
    compare.add_arguments(parser)
    programs = ["reno, mine=%s, x=cubic:held" % (EXAMPLES / "delay.portus"), "--portus", "held=%s" % TRACES[1]]
    rest = ["--title", 'A "title"', "--font", "DejaVu Sans,6", "--shared", "--different-spans"]
    given = parser.parse_args(["a=%s" % TRACES[0], *words.split(), "--senders", *programs, *rest])
    (tmp_path / "one.toml").write_text(compare.toml_text(given, compare.comparison_of(given)))
    read = compare.with_file(parser.parse_args([str(tmp_path / "one.toml")]))
    assert read.senders.words == given.senders.words
    assert [(one.label, one.seed) for one in read.losses] == [(one.label, one.seed) for one in given.losses]
    assert {**vars(read), "losses": None} == {**vars(given), "losses": None}


@pytest.mark.parametrize("words, begin_us", [("--from 0", 0), ("--from 2.5", 2_500_000), ("", None)])
def test_the_file_keeps_what_is_left_out(tmp_path, words, begin_us):
    """Where nothing was said it says nothing, so that each trace gets its own beginning again."""
    parser = compare.Parser()
    compare.add_arguments(parser)
    given = parser.parse_args(["a=%s" % TRACES[0], "--senders", "reno", *words.split()])
    text = compare.toml_text(given, compare.comparison_of(given))
    (tmp_path / "one.toml").write_text(text)
    assert ("from = " in text) == (begin_us is not None)
    assert compare.with_file(parser.parse_args([str(tmp_path / "one.toml")])).begin == begin_us


def wait_for_processes(begun_by):
    """Waits until a process has begun others, for half a second at most: on one processor it begins none."""
    end = time.monotonic() + 0.5
    while time.monotonic() < end:
        if any(parent_of(folder) == begun_by for folder in Path("/proc").glob("[0-9]*")):
            return
        time.sleep(0.005)


def parent_of(folder):
    """The number of the process that began the process of a folder of /proc, or None where that has ended."""
    try:
        return int((folder / "stat").read_text(errors="replace").rpartition(")")[2].split()[1])
    except OSError:
        return None


@pytest.mark.parametrize("number, is_for_all, status", [(signal.SIGINT, True, 130), (signal.SIGTERM, False, 143)])
def test_an_interrupt_ends_a_comparison(program, tmp_path, number, is_for_all, status):
    """Silently and at once, also while plots are drawn in processes of their own; the folder can be used again."""
    out = tmp_path / "out"
    words = [sys.executable, "-m", "ccp_tools", "compare", TRACES[0], TRACES[1], "--senders", "reno,cubic"]
    words += ["--acks", "2000", "--different-spans", "--out", out]
    env = {**os.environ, "PYTHONPATH": str(REPOSITORY / "src")}
    for step in ("figures", "plots"):
        running = subprocess.Popen(
            list(map(str, words)),
            stdout=subprocess.PIPE,
            stderr=subprocess.PIPE,
            env=env,
            text=True,
            start_new_session=True,
        )
        shown = ""
        while not shown.endswith(": %s\n" % step):
            line = running.stderr.readline()
            assert line, shown
            shown += line
        if step == "plots":
            wait_for_processes(running.pid)
        (os.killpg if is_for_all else os.kill)(running.pid, number)
        output, errors = running.communicate(timeout=30)
        assert running.returncode == status and (output, errors) == ("", ""), (running.returncode, errors)
        with pytest.raises(ProcessLookupError):
            os.killpg(running.pid, 0)
    made = command("compare", TRACES[0], "--senders", "reno", "--acks", "60", "--quiet", "--out", out)
    assert made.status == 0 and (out / "report.html").exists() and not list(out.glob("*wave*")), made.errors


def test_an_older_comparison_leaves_no_plot(compared, tmp_path, program):
    """Neither its further pages and other forms; where there is no list of files, they are the user's own."""
    for has_list in (True, False):
        out = tmp_path / ("listed" if has_list else "old")
        shutil.copytree(compared, out)
        older = ["bars.png", "bars-2.svg", "flows-wave-2.pdf", "rtt.svg", "scatter-3.eps", "shared-wave.svg"]
        for name in older:
            (out / name).write_text("older")
        (out / "bars-mine.txt").write_text("kept")
        names = json.loads((out / "files.json").read_text())
        if has_list:
            (out / "files.json").write_text(json.dumps(names + older))
        else:
            (out / "files.json").unlink()
        there = {path.name: path.read_bytes() for path in out.iterdir()}
        made = command("compare", TRACES[0], "--senders", "reno", "--acks", "60", "--quiet", "--out", out)
        if not has_list:
            assert (
                made.status == 1 and "%s: this command writes a file of this name" % (out / "acks.txt") in made.errors
            )
            assert {path.name: path.read_bytes() for path in out.iterdir()} == there
            break
        assert made.status == 0, made.errors
        left = {path.name for path in out.iterdir()} - set(json.loads((out / "files.json").read_text()))
        assert left == {"files.json", "bars-mine.txt", "printed", "errors"}, left


def test_dry_run_writes_nothing(program, tmp_path):
    words = [TRACES[0], "--senders", "reno", "--seconds", "0.3", "--dry-run", "--out", tmp_path / "out"]
    made = command("compare", *words)
    assert made.status == 0 and "acknowledgements=301" in made.output and "time=about" in made.output
    assert not (tmp_path / "out").exists()


# ---- the page in a browser

MEASURE = """<script>window.addEventListener("load", function () {
  var wide = document.documentElement.clientWidth, bad = [];
  Array.prototype.forEach.call(document.images, function (image) {
    var box = image.parentElement.getBoundingClientRect(), own = image.getBoundingClientRect();
    var isTall = own.top < box.top - 1 || own.bottom > box.bottom + 1, isWide = own.right > box.right + 1;
    if (!image.naturalWidth || box.right > wide + 1 || isTall) { bad.push(image.alt); }
    if (isWide && getComputedStyle(image.parentElement).overflowX !== "auto") { bad.push("wide " + image.alt); }
  });
  document.querySelector("#figures th button").click();
  var asked = performance.getEntriesByType("resource").map(function (one) { return one.name; });
  document.title = "MEASURED " + JSON.stringify({images: document.images.length, bad: bad,
    asked: asked.filter(function (name) { return name.indexOf("data:") !== 0; }),
    scrolls: document.documentElement.scrollWidth > wide, sorted: document.querySelectorAll("[aria-sort]").length});
});</script></body>"""


def outside(pdf: Path):
    """The words of a PDF that aren't inside their page, and how many words there are."""
    seen = ran(["pdftotext", "-bbox", pdf, "-"])
    found, count = [], 0
    for wide, high, body in re.findall(r'<page width="([0-9.]+)" height="([0-9.]+)">(.*?)</page>', seen.output, re.S):
        for *box, word in re.findall(r'<word xMin="(.*?)" yMin="(.*?)" xMax="(.*?)" yMax="(.*?)">(.*?)</word>', body):
            left, top, right, bottom = map(float, box)
            count += 1
            if left < 0 or top < 0 or right > float(wide) or bottom > float(high):
                found.append(word)
    return found, count


@needs("chromium", "pdftotext")
@pytest.mark.parametrize("width", [1200, 420])
def test_the_page_in_a_browser(compared, tmp_path, width):
    """No error on its console, nothing asked of a network, each picture inside its box, on screen and printed."""
    page = tmp_path / "page.html"
    page.write_text((compared / "report.html").read_text().replace("</body>", MEASURE))
    common = [
        "chromium",
        "--headless",
        "--no-sandbox",
        "--disable-gpu",
        "--user-data-dir=%s" % tmp_path,
        "--window-size=%d,900" % width,
    ]
    common += ["--enable-logging=stderr", "--log-level=0", "--host-resolver-rules=MAP * ~NOTFOUND"]
    seen = ran([*common, "--virtual-time-budget=4000", "--dump-dom", page.as_uri()])
    found = json.loads(html.unescape(re.search(r"<title>MEASURED (.*?)</title>", seen.output).group(1)))
    assert found == {"images": 6, "bad": [], "asked": [], "scrolls": False, "sorted": 1}, found
    assert ":CONSOLE" not in seen.errors, [line for line in seen.errors.split("\n") if "CONSOLE" in line]
    printed = ran([*common, "--no-pdf-header-footer", "--print-to-pdf=%s" % (tmp_path / "page.pdf"), page.as_uri()])
    assert (tmp_path / "page.pdf").read_bytes().startswith(b"%PDF"), printed.errors
    words, count = outside(tmp_path / "page.pdf")
    assert count > 500 and not words, words


# ---- senders that share a link


def test_when_flows_converge():
    import numpy as np

    from ccp_tools.compare.shared import converged

    got = np.array([[9, 1], [5, 5], [8, 2], [6, 5], [5, 5]])
    acked = np.vstack([[0, 0], got.cumsum(axis=0)])
    assert converged([0, 1, 2, 3, 4, 5], acked) == 3
    assert converged([0, 1, 2, 3], acked[:4]) is None


# the scenario of two flows over one link
JOINED = {
    "version": 1,
    "traces": {"t": "1\n"},
    "shared": {"trace": "t", "queue": 8, "quantum_us": 5000, "rounds": 20},
    "cases": [{"name": name, "trace": "t"} for name in "ab"],
}


def test_a_program_with_the_acknowledgements_of_a_shared_link(tmp_path):
    """Where the program has the mode, one run gives the series."""
    data = REPOSITORY / "tests" / "data"
    path = script(tmp_path, "ccp", '[ "$1" = shared-acks ] || exit 2\ncat %s\n' % (data / "two-flows.acks"))
    series = shared.series_of(json.loads((data / "two-flows.json").read_text()), path)
    assert series.times == [at * 5 / 1000 for at in range(12)] and series.acked[-1].tolist() == [20272, 13032]
    assert series.lost[-1] == 2 and len(series.queue) == 11


def test_a_flow_that_ends_before_the_run():
    one = {**JOINED, "cases": [{"name": name, "trace": "t", "acks": 9} for name in "ab"]}
    table = SimpleNamespace(rows=[{"acks": 9, "now": 51_000}, {"acks": 8, "now": 51_000}])
    rows = [{"sender": "x", "doubts": ""}, {"sender": "y", "doubts": "no report"}]
    found = shared.doubts_of(one, table, rows)
    assert found[0] == "t, all together: y: no report" and "x: it had all its 9 acknowledgements at 0.05 s" in found[1]
    assert len(found) == 2


@pytest.mark.slow
def test_senders_together(program, tmp_path):
    words = [TRACES[0], "--senders", "reno,cubic", "--seconds", "0.2", "--queue", "20", "--shared", "--quiet"]
    made = command("compare", *words, "--out", tmp_path / "out")
    assert made.status == 0, made.errors
    shared = json.loads((tmp_path / "out" / "shared.json").read_text())["shared"][0]
    assert shared["senders"] == ["reno", "cubic"] and len(shared["times_s"]) == len(shared["acked_bytes"]) > 20
    assert len(shared["lost_packets"]) == len(shared["times_s"])
    assert shared["queue_ms"] is None or len(shared["queue_ms"]) == len(shared["times_s"]) - 1
    page = (tmp_path / "out" / "report.html").read_text()
    assert "Sharing one link" in page and (tmp_path / "out" / "shared-fixed.svg").exists()
    table = (tmp_path / "out" / "shared-fixed.txt").read_text()
    for number, name in enumerate(shared["senders"]):
        row = next(line.split(" ") for line in table.split("\n") if line.startswith("fixed-%s " % name))
        assert int(row[9]) == shared["acked_bytes"][-1][number]


@pytest.mark.slow
def test_senders_together_over_seeds(program, tmp_path):
    """A run for each seed: the table has means with intervals, and plots are of the first seed."""
    words = [TRACES[0], "--senders", "reno,cubic", "--seconds", "1", "--queue", "20,40", "--shared", "--quiet"]
    made = command("compare", *words, "--losses", "rate:0.01", "--seeds", "3..5", "--out", tmp_path / "out")
    assert made.status == 0, made.errors
    files = {path.name for path in (tmp_path / "out").glob("shared-fixed*.txt")}
    assert files == {"shared-fixed.txt", "shared-fixed-s4.txt", "shared-fixed-s5.txt"}
    figures = json.loads((tmp_path / "out" / "shared.json").read_text())["shared"][0]["figures"]
    assert [(row["sender"], row["seed"]) for row in figures[:3]] == [("reno", 3), ("cubic", 3), ("reno", 4)]
    shares = [row["share"] for row in figures if row["sender"] == "reno"]
    mean = sum(shares) / 3
    # 4.303 is the quantile 0.975 of Student's t with two degrees of freedom
    half = 4.3026527 * (sum((one - mean) ** 2 for one in shares) / 2 / 3) ** 0.5
    page = (tmp_path / "out" / "report.html").read_text()
    assert "<td>reno</td>" in page and "%.1f ±%.1f" % (100 * mean, 100 * half) in page
    assert "in a run for each seed" in page and "Plots over time are of the first queue" in page
    for number, seed in ((0, ""), (2, "-s4")):
        table = (tmp_path / "out" / ("shared-fixed%s.txt" % seed)).read_text().splitlines()
        row = next(line.split(" ") for line in table if line.startswith("fixed-reno"))
        assert abs(8 * int(row[9]) / 1e6 - figures[number]["throughput_mbps"]) < 1e-6


def test_what_only_some_seeds_have():
    row = {"sender": "a", "doubts": "", **{name: 0.5 for name in shared.FIGURES}}
    rows = [
        {**row, "converged_s": 1.5},
        {**row, "converged_s": None},
        {**row, "converged_s": 2.5, "doubts": "no report"},
    ]
    found = shared.table_of([shared.Sharing("t", ["a"], None, rows, 1000)])
    assert found[0]["cells"][-1] == "2.00 ±6.35 in 2 of 3" and found[0]["doubts"] == "no report"
    assert shared.table_of([shared.Sharing("t", ["a"], None, rows[1:2], 1000)])[0]["cells"][-2:] == ["50.00", "none"]
