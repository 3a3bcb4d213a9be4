"""Queues by a link's own rate, and packets of several segments, of `ccp scenario` and `ccp compare`."""
from __future__ import annotations

import argparse

import pytest
from inside import run_inside
from support import TRACES

from ccp_tools import aggregation, queues, scenario
from ccp_tools.errors import CcpError, UsageError
from ccp_tools.losses import loss
from ccp_tools.queues import Queue
from ccp_tools.tables import LIMITS
from ccp_tools.traces import Trace, read_trace, trace_text

# a packet each millisecond, and four in five with a gap
STEADY, UNEVEN = Trace([1]), Trace([1, 2, 3, 5])
WORDS = ["--senders", "reno", "--seconds", "3"]


def cases(*words):
    return scenario.make([str(word) for word in (*WORDS, *words)])["cases"]


@pytest.fixture
def fast(tmp_path):
    """A link of 96 Mbit/s: eight chances each millisecond."""
    path = tmp_path / "fast.trace"
    path.write_text("1\n" * 8)
    return path


# ---- queues


def test_forms_of_a_queue():
    wanted = [Queue(100), Queue(products=1), Queue(10), Queue(20), Queue(30), Queue(products=0.5)]
    assert queues.queues("100, 1bdp,10..30:10, 0.5BDP,100") == wanted
    assert queues.queues_ms("100, 2.5,100.0") == [Queue(ms=100), Queue(ms=2.5)]
    for one in [*wanted, Queue(ms=2.5)]:
        read = queues.queues_ms if one.ms else queues.queues
        assert read(one.text()) == [one]


@pytest.mark.parametrize("text", ["0", "0bdp", "bdp", "-1bdp", "1bpd", "4097", "1,,2", "", "100ms", "1bdp..2bdp"])
def test_what_is_no_queue(text):
    with pytest.raises(argparse.ArgumentTypeError):
        queues.queues(text)


@pytest.mark.parametrize("text", ["0", "0.0", "x", "1..2", "", "1e3", "5,"])
def test_what_is_no_queue_in_milliseconds(text):
    with pytest.raises(argparse.ArgumentTypeError):
        queues.queues_ms(text)


def test_packets_of_a_queue():
    """By hand: 20 ms at a packet a millisecond are 20 packets, and 4 packets in 5 ms are 16 of them."""
    assert [one.on(STEADY, 20_000) for one in (Queue(7), Queue(products=1.1), Queue(ms=100))] == [7, 22, 100]
    assert [one.on(UNEVEN, 20_000) for one in (Queue(7), Queue(products=1), Queue(ms=6))] == [7, 16, 5]
    assert Queue(products=1).on(STEADY, 0) == 1
    # a link whose chances are those of packets of four segments carries four times as much
    assert [one.on(STEADY, 20_000, 4) for one in (Queue(100), Queue(2), Queue(products=1))] == [25, 1, 20]


def test_queues_of_a_scenario():
    """Each case's queue is that of its own link and delay, and its name says how it was asked for."""
    made = cases("--queue", "30,1bdp", "--delay-ms", "20,50", *TRACES)
    for case in made:
        link = Trace(read_trace(str(next(path for path in TRACES if path.stem == case["trace"]))))
        product = -(-case["delay_us"] * len(link.times) // link.period_us)
        assert case["queue"] == (product if "-q1bdp-" in case["name"] else 30), case["name"]
    assert len({case["name"] for case in made}) == len(made) == 12
    assert [case["queue"] for case in cases("--queue-ms", "100,7", TRACES[0])] == [100, 7]


def test_a_queue_that_no_scenario_accepts(fast):
    with pytest.raises(CcpError, match="is 8000 packets, and at most 4096 may wait.*or --aggregate 2"):
        cases("--queue-ms", "1000", fast)
    assert cases("--queue-ms", "1000", "--aggregate", "2", fast)[0]["queue"] == 4000


# ---- packets of several segments


def test_times_keep_their_rate_and_period():
    times = list(range(1, 8))
    for count in (1, 2, 3, 7, 14):
        made = aggregation.aggregated(times, count, "t").times
        turns = made[-1] / times[-1]
        assert turns == int(turns) and count * len(made) == turns * len(times)
        link, one = Trace(made), Trace(times)
        for us in (0, 3000, 7000, 20_000, 123_000):
            assert link.chances(us) == one.chances(us) // count
    with pytest.raises(CcpError, match="t: --aggregate 2 needs 2 turns"):
        aggregation.aggregated([LIMITS["trace_ms"]], 2, "t")


@pytest.mark.parametrize("chances", [40_000, 40_001, 40_002, 40_003])
@pytest.mark.parametrize("count", [2, 3, 4, 7, 45])
def test_every_long_trace_is_shortened(chances, count):
    """Also one whose chances aren't a multiple: its text is shorter, its period the same, its rate within K/N."""
    times = sorted((number * 7919) % 60_000 + 1 for number in range(chances))
    made = aggregation.aggregated(times, count, "t")
    assert len(made.times) == chances // count and made.left_over == chances % count
    assert made.times[-1] == times[-1] and made.times[:-1] == times[count - 1 :: count][: len(made.times) - 1]
    assert len(trace_text(made.times)) < len(trace_text(times)) / (count - 0.1)
    assert 0 <= 1 - count * len(made.times) / chances < count / chances


def test_what_is_left_over_is_said_on_one_line(tmp_path):
    path = tmp_path / "long.trace"
    path.write_text(trace_text(range(1, 40_004)))
    made = run_inside("scenario", "--senders", "reno", "--seconds", 9, "--aggregate", 4, path)
    said = "the last 3 of the 40003 chances of the trace long go with the packet before: 0.0075 % less"
    assert made.status == 0 and made.errors == "ccp: warning: --aggregate 4: %s\n" % said
    assert run_inside("scenario", "--aggregate", 4, "--quiet", path).errors == ""


def test_what_is_counted_in_packets():
    """By hand: 100 segments are 12.5 packets of 8, 12 are 1.5, and 1 is at least one."""
    assert [aggregation.packets_of(count, 8) for count in (0, 1, 11, 12, 20, 100)] == [0, 1, 1, 2, 3, 13]
    assert aggregation.lost_packets([0, 7, 8, 23, 40], 8) == [0, 1, 2, 5]


@pytest.mark.parametrize("text", ["rate:0.01", "rate:0.2", "gilbert:0.01:0.3", "gilbert:0.1:0.5"])
@pytest.mark.parametrize("count", [1, 2, 8])
def test_the_share_of_lost_packets(text, count):
    """What is drawn has the share that is worked out: 200,000 segments, so within a tenth of it or so."""
    one = loss(text)
    share = aggregation.share_lost(one, count)
    drawn = aggregation.lost_packets(one.drawn(3, 200_000), count)
    assert abs(len(drawn) / (200_000 / count) - share) < 0.1 * share
    assert share >= one.rate and (count > 1 or share == one.rate)


def test_no_losses_and_listed_ones():
    assert [aggregation.share_lost(loss(text), 4) for text in ("none", "5+17")] == [0, None]


def test_a_case_of_packets(fast):
    words = ["--queue", "100", "--mark", "42", "--lag", "10", "--losses", "5+17+18", fast]
    (plain,), (made,) = cases(*words), cases(*words, "--aggregate", "8")
    assert (plain["mss"], plain["queue"], plain["mark"], plain["lag"]) == (1448, 100, 42, 10)
    assert (made["mss"], made["queue"], made["mark"], made["lag"]) == (11584, 13, 5, 1)
    assert (plain["losses"], made["losses"], made["aggregate"]) == ([5, 17, 18], [0, 2], 8)
    assert "aggregate" not in plain and made["acks"] * 8 == plain["acks"] == 8 * (3000 - 20)
    assert scenario.make([*WORDS, "--aggregate", "1", str(TRACES[1])]) == scenario.make([*WORDS, str(TRACES[1])])


def test_losses_hit_the_same_segments():
    """With a seed the same segments are lost, however many a packet has; it is lost if one of them is."""
    words = ["--losses", "rate:0.01", "--seeds", "4", TRACES[0]]
    (plain,), (made,) = cases(*words), cases(*words, "--aggregate", "4")
    wanted = sorted({number // 4 for number in plain["losses"]})
    assert made["losses"] == [number for number in wanted if number < 2 * made["acks"]]
    assert made["rate"] == round(1 - 0.99**4, 6)


def test_the_shared_link():
    words = ["--senders", "reno", "--for", "shared", "--shared", "fixed:100:1:50", "--aggregate", "4"]
    made = scenario.make([*words, str(TRACES[0])])
    assert made["shared"]["queue"] == 25 and made["cases"][0]["mss"] == 4 * 1448


def test_when_it_is_needed(fast):
    """A length that no case reaches says which aggregate does, and that one does."""
    with pytest.raises(CcpError, match="--seconds 8.212, or --aggregate 3"):
        cases("--seconds", "20", fast)
    assert cases("--seconds", "20", "--aggregate", "3", fast)[0]["acks"] <= LIMITS["acks"]
    with pytest.raises(CcpError, match=r"--seconds [0-9.]+$"):
        cases("--seconds", "3000", fast)
    with pytest.raises(UsageError, match="packets of 66608 bytes.*at most --aggregate 45"):
        cases("--aggregate", "46", fast)


def test_a_trace_that_is_given_twice(capsys):
    assert [case["trace"] for case in cases(TRACES[0], TRACES[0])] == ["fixed", "fixed-2"]
    assert "is given more than once" in capsys.readouterr().err
