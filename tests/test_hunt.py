"""`ccp hunt`: links and their class, the search, what is made small, the files, and what is refused."""
from __future__ import annotations

import json
import random
import re
from dataclasses import replace
from pathlib import Path

import pytest
from inside import run_inside
from support import EXAMPLES, has_mode, needs, require

pytestmark = needs("import pandas", "import scipy", "import matplotlib")
require("pandas")

from ccp_tools import probe, program, traces  # noqa: E402
from ccp_tools.errors import CcpError, UsageError  # noqa: E402
from ccp_tools.hunt import drawing, files, goals, hunted, learned, runs, search, shrink, wording  # noqa: E402
from ccp_tools.hunt.hunted import Effort, hunt, quarry_of  # noqa: E402
from ccp_tools.hunt.links import Link, LinkClass, link_of, slots_of  # noqa: E402
from ccp_tools.hunt.options import FAULTS  # noqa: E402

DELAY = EXAMPLES / "delay.portus"
WAVE = EXAMPLES / "traces" / "wave.trace"
# a class of short links, and the words that ask for it
SHORT = LinkClass(seconds=1, queue=(100, 100), delay_us=(20_000, 20_000), peak=2)
WORDS = ["--seconds", "1", "--queue", "100", "--delay-ms", "20", "--peak", "2"]
WAITS = ["--assert", "queueing_mean_ms<=20", *WORDS]
BASE = slots_of(traces.read_trace(WAVE), 50, 2)
CLASSES = [
    LinkClass(),
    LinkClass(seconds=2, losses=4, mark=(5, 20), mss=(500, 1448), lag=(0, 9), timeout_us=(200_000, 2_000_000)),
    LinkClass(seconds=1, queue_bdp=(0.5, 2), rate_mbps=(2, 40), gap_ms=300),
    LinkClass(seconds=2, base=BASE, change=0.3),
    FAULTS,
]
SQUARE = Link(((50, 0), (50, 100)), 100, 20_000)


def some(of: LinkClass, count: int, seed: int = 1) -> list:
    """Links of a class: drawn ones, changed ones, crossed ones and simple ones."""
    draw = random.Random(seed)
    links = [drawing.drawn(of, draw) for _ in range(count)]
    changed = [drawing.mutated(of, draw, link) for link in links]
    crossed = [drawing.crossed(of, draw, *draw.sample(links, 2)) for _ in links]
    return [*links, *changed, *crossed, *drawing.simplest(of)]


# ---- links


@pytest.mark.parametrize("of", CLASSES, ids=["usual", "numbers", "products", "trace", "faults"])
def test_every_link_is_of_its_class(of):
    links = some(of, 40)
    assert all(of.allows(link) for link in links)
    assert len(set(links)) > 80 and some(of, 40) == links and some(of, 40, seed=2) != links


def test_a_link_is_what_its_trace_says():
    for link in [SQUARE, *some(LinkClass(seconds=1), 8)]:
        trace = traces.Trace(traces.trace_times(link.trace()))
        assert trace.period_us == 1000 * link.period_ms and len(trace.times) == link.total
        assert link.gap_ms() == max(traces.gaps_of(trace.times))
        for now in (0, 999, 50_000, 123_456, 999_999, 1_000_000, 7_777_777):
            assert trace.chances(now) == link.chances(now)


def test_a_link_is_kept_as_data():
    for link in some(CLASSES[1], 5):
        assert link_of(json.loads(json.dumps(link.data()))) == link
    for wrong in ({}, {"pieces": [[1, 0]], "queue": 1, "delay_us": 0}, {"pieces": [[0, 1]], "queue": 1, "delay_us": 0}):
        with pytest.raises((ValueError, KeyError, TypeError)):
            link_of(wrong)


def test_slots_of_a_trace():
    assert slots_of([0, 1, 50, 51, 120], 50, 10) == ((50, 3), (50, 1), (50, 1))
    assert slots_of([10, 500], 50, 0.1) == ((50, 1), (50, 1))


def test_mean_rates_are_drawn_on_a_logarithmic_scale():
    of, draw = LinkClass(seconds=1, rate_mbps=(0.5, 32), gap_ms=300), random.Random(3)
    slow = sum(drawing.drawn(of, draw).mbps < 4 for _ in range(200))
    assert 70 < slow < 130, slow


# ---- scores


def test_the_reference_is_the_best_window_that_loses_little():
    figures = [{"utilization": u, "loss_rate": loss} for u, loss in ((0.4, 0), (0.8, 0.02), (0.9, 0.03))]
    assert goals.best_of(figures) == 1
    assert goals.best_of([{"utilization": 1, "loss_rate": 0.5}, {"utilization": 0.9, "loss_rate": 0.4}]) == 1
    sender = {"utilization": 0.2, "loss_rate": 0}
    assert goals.scored(goals.GOALS["low-throughput"], SQUARE, [sender, *figures]) == pytest.approx(0.75)


@pytest.mark.parametrize("text, is_broken", [("utilization>=0.5", True), ("utilization<=0.5", False)])
def test_a_property(text, is_broken):
    goal = goals.asserted(" %s " % text)
    assert (goal.score(SQUARE, {"utilization": 0.2}, None) >= goal.found) == is_broken
    assert goal.score(SQUARE, {"utilization": None}, None) == goals.NOTHING
    assert goal.score(SQUARE, {"utilization": 0.5}, None) < goal.found


def test_links_that_cannot_matter_run_without_references(program):
    """Their scores are NOTHING, the others are what they are."""
    quarry = quarry_of(str(DELAY), goals.GOALS["low-throughput"], LinkClass(seconds=1), path=program)
    links = some(LinkClass(seconds=1), 4)
    whole, bound = quarry.scores(links), 0.5
    for one, other in zip(whole, quarry.scores(links, bound)):
        assert other == one or (one < bound and other == goals.NOTHING)


def test_figures_are_those_of_metrics(program):
    links = some(LinkClass(seconds=1), 2)
    flows = [runs.flow_of(word, program) for word in ("linux-reno", "window:16")]
    measured = runs.Measured(flows, LinkClass(seconds=1), program, begin_us=200_000)
    for link, found in zip(links, measured.figures(links)):
        scenario = measured.scenario(link, flows)
        for one, other in zip(probe.mean_figures(scenario, measured.window), found):
            assert {**vars(one), "case": ""} == {**{name: other[name] for name in vars(one)}, "case": ""}
            assert other["stalled"] == pytest.approx(one.timeouts * link.timeout_us / 1e6 / one.span_s)


def test_figures_do_not_depend_on_what_runs_beside(program):
    """Alone, with others, and in forked processes."""
    links, flows = some(SHORT, 3), [runs.flow_of("reno", program)]
    alone = [runs.Measured(flows, SHORT, program).figures([link])[0] for link in links]
    forked = runs.Measured(flows, SHORT, program, workers=3)
    for found in (runs.Measured(flows, SHORT, program).figures(links), forked.figures(links)):
        assert [{**one[0], "case": ""} for one in found] == [{**one[0], "case": ""} for one in alone]
    broken = runs.Measured([runs.Flow("no", {"agent": "no"})], SHORT, program, workers=2)
    with pytest.raises(CcpError, match="agent"):
        broken.figures(links)


# ---- the hunt


def test_a_property_is_broken_by_a_small_link(program):
    """The link is that of docs/hunt.md, after few links."""
    made = hunt(str(DELAY), goals.asserted("queueing_mean_ms<=20"), replace(SHORT, seconds=4), program=program)
    assert made.is_found and made.small.link == SQUARE
    assert made.found.links + made.shrink_links <= 150 and made.holds == 20


def test_a_property_that_holds(program):
    made = hunt(str(DELAY), goals.asserted("loss_rate<=0.5"), SHORT, effort=Effort(links=60), program=program)
    assert not made.is_found and made.small is None and made.found.links == 60


def test_low_throughput_beside_the_best_window(program):
    effort = Effort(links=120, near=10, holds=6)
    made = hunt(str(DELAY), "low-throughput", LinkClass(seconds=2), effort=effort, program=program)
    assert made.is_found and made.best.score > 0.5 and len(made.small.link.pieces) <= 2
    assert made.small.score >= 0.8 * made.best.score and made.holds >= 6


def coincidence(links):
    """A score that only links with one queue have."""
    return [float(link.queue == 57) for link in links]


def test_a_find_that_few_near_links_have_is_none():
    known = [Link(((1000, 1000),), 57, 20_000)]
    made = hunt(score=coincidence, least=0.5, of=LinkClass(), known=known, effort=Effort(links=100))
    assert made.best and made.best.score == 1 and made.holds < 12 and not made.is_found
    wide = hunt(score=lambda links: [float(link.queue > 57) for link in links], least=0.5, effort=Effort(links=100))
    assert wide.is_found and wide.holds >= 12


def test_a_steady_link_goes_before_a_coincidence():
    """The best score is that of one queue; a lower one that near links have too is the find."""

    def score(links):
        return [0.5 * (link.queue > 100) + (link.queue == 57) for link in links]

    known = [Link(((1000, 1000),), 57, 20_000)]
    made = hunt(score=score, least=0.2, known=known, effort=Effort(links=600))
    assert made.is_found and made.small.link.queue > 100 and made.small.score == 0.5


@pytest.mark.parametrize("name", list(hunted.SEARCHES))
def test_searches_are_repeatable_and_keep_to_their_links(name):
    seen = []

    def score(links):
        seen.append(len(links))
        return [link.gap_ms() + link.queue / 1000 for link in links]

    effort = Effort(links=130, seed=5, search=name, near=0)
    first, second = (hunt(score=score, least=1e9, effort=effort).found for _ in range(2))
    assert first.links == 130 and sum(seen) == 260 and first == second
    assert [value for _, value in first.steps] == sorted(value for _, value in first.steps)
    assert hunt(score=score, least=1e9, effort=replace(effort, seed=6)).found.best or name == "grid"


def test_minutes_end_a_hunt():
    made = hunt(score=lambda links: [0.0] * len(links), least=1, effort=Effort(links=10**6, minutes=1e-9))
    assert made.found.links < 200


# ---- making small


def test_shrinking_keeps_the_score_and_ends_small():
    """A score that one loss, one gap and a short queue decide: nothing else is left."""

    def score(links, least=0):
        return [float(7 in link.losses and link.gap_ms() >= 60 and link.queue <= 50) for link in links]

    of = LinkClass(seconds=2, losses=4, gap_ms=200)
    found = Link(tuple((50, count) for count in [50] * 5 + [0, 1] + [54] * 33), 37, 23_000, losses=(3, 7, 900, 1100))
    assert of.allows(found)
    small, tried = shrink.shrunk(search.Rated(1.0, found), of, score, 1.0)
    assert small.score == 1 and of.allows(small.link) and shrink.cost(small.link, of) < shrink.cost(found, of)
    assert small.link.losses == (7,) and len(small.link.pieces) <= 3 and small.link.queue in (20, 30, 40, 50)
    assert tried <= shrink.MOST_TRIED + shrink.AT_ONCE
    assert shrink.shrunk(search.Rated(1.0, found), of, score, 1.0, most=1)[1] <= 200


def test_shrinking_near_a_trace_leaves_the_slots_that_count():
    of = LinkClass(seconds=2, base=BASE, change=0.5)

    def score(links, least=0):
        return [float(link.pieces[3][1] < BASE[3][1]) for link in links]

    found = next(link for link in some(of, 200) if score([link]) == [1.0])
    small, _ = shrink.shrunk(search.Rated(1.0, found), of, score, 1.0)
    assert sum(one != other for one, other in zip(small.link.pieces, BASE)) == 1


def test_near_links_are_near_and_repeat():
    assert shrink.near_links(SQUARE, 20) == shrink.near_links(SQUARE, 20)
    for link in shrink.near_links(SQUARE, 20):
        assert abs(link.queue - 100) <= 3 and 0 <= link.delay_us - 20_000 <= 3000
        assert all(0.9 * ms <= near <= 1.1 * ms for (ms, _), (near, _) in zip(SQUARE.pieces, link.pieces))


# ---- the command and its folder


def test_the_folder_runs_the_find_again(program, tmp_path):
    """Its campaign is table.txt, and its options make the same bytes again, with other workers too."""
    first, second = tmp_path / "a", tmp_path / "b"
    ran = run_inside("hunt", DELAY, *WAITS, "--out", first, "--workers", "1")
    assert ran.status == 1 and "holds on 20 of 20 near links" in ran.output, ran
    assert "delay uses 8" in ran.output and re.search(r"^delay +\d+\.\d\d", ran.output, re.MULTILINE)
    table = run_inside("hunt", first / "hunt.toml", "--out", second, "--workers", "4")
    assert (table.status, table.output) == (1, ran.output)
    names = sorted(path.name for path in first.iterdir())
    assert names == sorted([*json.loads((first / "files.json").read_text()), "files.json"])
    assert set("scenario.json found.trace found.txt table.txt flows.svg hunt.toml hunt.json".split()) < set(names)
    for name in names:
        assert (first / name).read_bytes() == (second / name).read_bytes(), name
    assert len((first / "flows.svg").read_bytes()) < 100_000
    given = (first / "scenario.json").read_text()
    assert (first / "table.txt").read_text() == support_table(given)
    assert (first / "found.trace").read_text() == json.loads(given)["traces"]["found"]


def support_table(given: str) -> str:
    """What `campaign` prints of a scenario."""
    return program.run("campaign", given).output


def test_a_property_that_holds_has_status_0(program, tmp_path):
    words = ["--assert", "loss_rate<=0.5", *WORDS, "--links", "30", "--out", tmp_path / "out"]
    ran = run_inside("hunt", DELAY, *words)
    assert (ran.status, ran.output) == (0, "no link of 30 breaks loss_rate<=0.5\n")
    assert sorted(path.name for path in (tmp_path / "out").iterdir()) == ["files.json", "hunt.json", "hunt.toml"]


def test_a_corpus_comes_first_and_grows(program, tmp_path):
    words = ["hunt", DELAY, *WAITS, "--corpus", tmp_path / "links"]
    first, second = run_inside(*words), run_inside(*words, "--seed", "9")
    assert first.status == second.status == 1 and first.output == second.output
    assert "links/link-" in first.errors and "links/link-" not in second.errors
    assert len(list((tmp_path / "links").iterdir())) == 1
    # the first link already is one that breaks it: 20 near links, and few that may be smaller
    assert int(re.search(r"(\d+) links in", second.errors)[1]) < 60


def test_a_fault_has_an_input_of_fold(program, tmp_path):
    """A program that divides by what its losses leave of 3."""
    text = DELAY.read_text().replace("(:= Cwnd mss)\n", "(:= Cwnd (/ mss (- 3 (min 3 Report.lost))))\n")
    own, out = tmp_path / "own.portus", tmp_path / "out"
    own.write_text(text)
    ran = run_inside("hunt", own, "--for", "fault", "--out", out)
    line = text[: text.index("(:= Cwnd (/ mss")].count("\n") + 1
    assert ran.status == 0 and "ZeroDivisor at %d:" % line in ran.output and "warning" not in ran.errors, ran
    folded = program_run("fold", (out / "fault.ccp").read_text())
    assert re.search("^fault epoch=0 .* kind=ZeroDivisor at=%d:" % line, folded, re.MULTILINE), folded
    assert "ZeroDivisor" in (out / "fault.txt").read_text() and not (out / "flows.svg").exists()
    scenario = json.loads((out / "scenario.json").read_text())
    assert " faults=1 " in support_table((out / "scenario.json").read_text())
    assert len(scenario["cases"][0].get("losses", [])) <= 3


def program_run(mode: str, given: str) -> str:
    """What a mode prints of an input."""
    return program.run(mode, given).output


def test_two_flows_over_one_link(program, monkeypatch):
    """Whatever runs them: the hunt asks one function."""
    made = hunt(str(DELAY), "unfair", SHORT, against="reno", effort=Effort(links=5, near=4, holds=4), program=program)
    assert made.is_found and made.small.score > 0.3

    def equal(scenario, path):
        assert scenario["shared"]["queue"] == scenario["cases"][1]["queue"]
        return [{"share": 0.5, "throughput_mbps": 1, "loss_rate": 0, "lost": 0, "timeouts": 0, "faults": 0}] * 2

    monkeypatch.setattr(runs, "shared_figures", equal)
    fair = hunt("reno", "unfair", SHORT, effort=Effort(links=5), program=program)
    assert fair.small is None and [score for _, score in fair.found.steps] == [0]


def test_an_agent_outside(program, tmp_path):
    if not has_mode("drive"):
        pytest.skip("the program has no mode drive")
    words = ["--assert", "utilization>=1.01", "--seconds", "0.5", "--rate", "12", "--peak", "1", "--links", "2"]
    ran = run_inside("hunt", EXAMPLES / "agents" / "aimd.py", *words, "--near", "2", "--out", tmp_path / "out")
    assert ran.status == 1 and "aimd uses " in ran.output, ran
    assert (tmp_path / "out" / "table.txt").read_text().startswith("case agent acks")


def test_a_learned_policy(program):
    """Its rewards are the score, by an environment in the form of Gymnasium."""
    closed = []

    class Env:
        def __init__(self, scenario):
            support_table(json.dumps(scenario))  # it is one that ccp accepts
            self.left, self.queue = 3, scenario["cases"][0]["queue"]

        def reset(self):
            return self.queue, {}

        def step(self, action):
            self.left -= 1
            return self.queue, action, False, self.left == 0, {}

        def close(self):
            closed.append(1)

    of = LinkClass(seconds=0.5, queue=(10, 20))
    made = hunt(
        score=learned.score_of(Env, lambda queue: queue, of),
        least=-1000,
        of=of,
        effort=Effort(links=10, near=2, holds=1),
    )
    assert made.best.score == -30 and made.best.link.queue == 10 and len(closed) >= 10


def test_what_a_find_says():
    timeouts = {"utilization": 0.5, "throughput_mbps": 6, "loss_rate": 0.01, "queueing_mean_ms": 3.0, "timeouts": 2}
    timeouts["faults"] = 0
    long_gap = replace(SQUARE, pieces=((300, 0), (300, 600)), losses=(3, 9), lag=2, mss=500, mark=4, timeout_us=2_000)
    flow = runs.Flow("reno", {"agent": "reno"})
    quarry = hunted.Quarry(
        goals.GOALS["losses"], LinkClass(), "windows", [flow], runs.Runs([flow], LinkClass(), Path())
    )
    said = wording.sentence(quarry, long_gap, [(flow, timeouts)])
    assert said == (
        "on nothing for 300 ms and 24 Mbit/s for 300 ms in turn, a queue of 100 and 20 ms, lag 2, mss 500, mark 4,"
        " timeout 2 ms, packets 3, 9 lost: reno uses 50.0 % of it (6.00 Mbit/s), loses 1.00 %, waits 3.0 ms in the"
        " mean, 2 timeouts"
    )
    cautions = " ".join(wording.cautions(quarry, long_gap, [(flow, timeouts)]))
    assert "pauses for 301 ms" in cautions and "reno has timeouts" in cautions and "knew the link" in cautions
    assert wording.trace_words(Link(((1000, 1000),), 1, 0)) == "a constant 12 Mbit/s"


def test_dry_run(program):
    ran = run_inside("hunt", DELAY, "--for", "losses", "--dry-run", "--queue", "1bdp..2bdp", "--seconds", "1")
    assert ran.status == 0 and "queue=1..2 bdp\n" in ran.output and "links=1000\n" in ran.output, ran
    assert re.search(r"^time=about [0-9.]+ s", ran.output, re.MULTILINE)


@pytest.mark.parametrize(
    "words, line",
    [
        ([], "one of --for GOAL and --assert"),
        (["--assert", "queueing_p95_ms<=3"], "the figures are utilization"),
        (["--assert", "utilization=>1"], "FIGURE>=NUMBER or FIGURE<=NUMBER"),
        (["--for", "losses", "--holds", "30"], "there are 20 near links"),
        (["--for", "losses", "--queue", "9..5"], "isn't N or LOW..HIGH"),
        (["--for", "losses", "--queue", "1bdp..x"], "nor products as 1bdp..2bdp"),
        (["--for", "losses", "--rate", "1", "--gap", "5"], "12.0 ms between two chances"),
        (["--for", "losses", "--from", "4"], "a time before that of --seconds"),
        (["--for", "losses", "--slot", "5000"], "shorter than a slot"),
        (["--for", "losses", "--change", "0.1"], "--change is of --trace"),
        (["--for", "losses", "--trace", str(WAVE), "--peak", "3"], "--peak: the traces are that of --trace"),
        (["--for", "losses", "--against", "delay=%s" % DELAY], "two senders have the label delay"),
        (["--for", "unfair", "--against", "windows"], "another sender is expected"),
        (["--for", "fault", "--against", "reno"], "a fault is one whatever others do"),
        (["--for", "losses", "--assert", "faults<=0"], "not allowed with argument"),
    ],
)
def test_words_that_are_refused(program, words, line):
    ran = run_inside("hunt", DELAY, *words)
    assert ran.status == 2 and line in ran.errors and ran.errors.count("\n") == 1, ran


def test_files_that_are_refused(program, tmp_path):
    wrong, links, options = tmp_path / "wrong.portus", tmp_path / "links", tmp_path / "hunt.toml"
    wrong.write_text("(def (mss 1)) (when true (:= Cwnd nothing))")
    ran = run_inside("hunt", wrong, *WAITS)
    assert ran.status == 1 and "wrong.portus: program Unknown at 1:35; `ccp explain" in ran.errors, ran
    ran = run_inside("hunt", DELAY, *WAITS, "--out", wrong)
    assert ran.status == 1 and "is a file, and --out is a folder" in ran.errors
    links.mkdir()
    (links / "a.json").write_text('{"link": {"pieces": []}}')
    ran = run_inside("hunt", DELAY, *WAITS, "--corpus", links)
    assert ran.status == 1 and "a.json: no link of `ccp hunt`" in ran.errors, ran
    options.write_text('sender = "reno"\nhurry = 3\n')
    ran = run_inside("hunt", options)
    assert ran.status == 1 and "hurry: the options are sender, portus, for" in ran.errors, ran


def test_words_beside_a_file_go_before_it(program, tmp_path):
    options = tmp_path / "hunt.toml"
    options.write_text('sender = "%s"\nassert = "loss_rate<=0.5"\nlinks = 900\nseconds = 1\nqueue = "2bdp"\n' % DELAY)
    ran = run_inside("hunt", options, "--links", "12")
    assert (ran.status, ran.output) == (0, "no link of 12 breaks loss_rate<=0.5\n"), ran


def test_a_fault_outside_a_measured_window_is_noticed(program):
    """The assertion of faults runs the wide class, and one link with a fault ends it."""
    with pytest.raises(UsageError, match="a sender or a score"):
        hunt()
    assert files.plain(goals.NOTHING) is None and files.plain(1.5) == 1.5
