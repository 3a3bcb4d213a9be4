"""`ccp plot lines` and `ccp plot heat`: a metric over one parameter or two."""
from __future__ import annotations

from itertools import product

import pytest
from inside import run_inside
from support import needs, require

pytestmark = needs("import pandas", "import scipy", "import matplotlib")
pd = require("pandas")
matplotlib = require("matplotlib")

from ccp_tools import metrics, plots  # noqa: E402
from ccp_tools.errors import CcpError, UsageError  # noqa: E402
from ccp_tools.plots import Look, parameters  # noqa: E402


def row(sender: str, value: float, **more: object) -> dict:
    case = "-".join(map(str, [sender, *more.values()]))
    return {
        "case": case,
        "trace": "t",
        "sender": sender,
        "queue": 100,
        "delay_ms": 20.0,
        "loss": "none",
        **more,
        "throughput_mbps": value,
    }


def queues(*seeds: int) -> pd.DataFrame:
    """Two senders over three queues and some seeds."""
    rows = product(("a", "b"), (20, 5, 100), seeds)
    return pd.DataFrame([row(s, (1 if s == "a" else 2) * q + seed, queue=q, seed=seed) for s, q, seed in rows])


def surface(frame, *axes: str, metric: str = "throughput_mbps", is_grouped: bool = False) -> parameters.Surface:
    return plots.surface_of(frame, is_grouped, metric, axes or (None,), "file")


def drawn(make) -> list:
    return plots.drawn(Look(), make)


def test_lines_are_means_with_intervals_over_seeds_in_the_order_of_the_parameter():
    frame = queues(1, 2, 6)
    (figure,) = drawn(lambda: plots.lines(surface(frame, "queue")))
    (panel,) = figure.axes
    first, second = [line for line in panel.lines if line.get_marker() in ("o", "s")]
    assert list(first.get_xdata()) == list(second.get_xdata()) == [5, 20, 100]
    assert list(first.get_ydata()) == [8, 23, 103] and list(second.get_ydata()) == [13, 43, 203]
    half = metrics.groups(frame, ["sender", "queue"], ["throughput_mbps"])["throughput_mbps_ci95"].iloc[0]
    ends = panel.collections[0].get_segments()[0]
    assert (ends[1][1] - ends[0][1]) / 2 == pytest.approx(half) and half > 1
    assert panel.get_xscale() == "log" and panel.get_xlabel() == "queue [packets]"
    assert [text.get_text() for text in figure.legends[0].get_texts()] == ["a", "b"]
    # without seeds there is no interval
    (figure,) = drawn(lambda: plots.lines(surface(queues(1), "queue")))
    assert not [bars for bars in figure.axes[0].collections if len(bars.get_segments())]


def test_groups_by_columns_are_plotted_as_their_cases():
    frame = queues(1, 2, 6)
    grouped = metrics.groups(frame, ["trace", "sender", "queue"], ["throughput_mbps"])
    one, other = surface(frame, "queue").frame, surface(grouped, "queue", is_grouped=True).frame
    pd.testing.assert_frame_equal(one, other)


def test_senders_of_set_are_one_line_over_its_number():
    rows = [row("d-high%d-low%d" % pair, 10.0, set_high=pair[0], set_low=pair[1]) for pair in product((4, 12), (1, 2))]
    found = surface(pd.DataFrame([*rows, row("high4", 1.0)])[:4], "high")
    assert list(found.frame["sender"]) == ["d-low1", "d-low2", "d-low1", "d-low2"] and found.axes == ("set_high",)
    both = surface(pd.DataFrame(rows), "high", "set_low")
    assert set(both.frame["sender"]) == {"d"} and parameters.axis_label("set_high") == "high"


def test_a_panel_for_each_trace_and_what_else_differs():
    rows = [row("a", 1.0, trace=t, delay_ms=d, queue=int(q * d)) for t, d, q in product("xy", (10, 40), (1,))]
    # a queue that is given by the delay is no other parameter
    assert set(surface(pd.DataFrame(rows), "delay_ms").frame["panel"]) == {"x", "y"}
    rows = [row("a", 1.0, delay_ms=d, queue=q) for d, q in product((10, 40), (20, 100))]
    assert set(surface(pd.DataFrame(rows), "delay_ms").frame["panel"]) == {"t\nqueue 20", "t\nqueue 100"}


def test_a_parameter_that_is_no_number_has_its_values_in_turn():
    rows = [row("a", value, loss=loss) for value, loss in ((3.0, "none"), (1.0, "gilbert:0.1:0.5"))]
    (figure,) = drawn(lambda: plots.lines(surface(pd.DataFrame(rows))))
    assert [text.get_text() for text in figure.axes[0].get_xticklabels()] == ["none", "gilbert:0.1:0.5"]
    rows = [row("a", 1.0, mark=mark) for mark in ("none", 4)]
    assert surface(pd.DataFrame(rows), "mark").values("mark") == ["none", "4"]


def test_more_senders_than_a_panel_shows_come_on_further_pages():
    rows = [row("s%d" % at, 1.0, queue=queue) for at, queue in product(range(9), (1, 2))]
    assert len(drawn(lambda: plots.lines(surface(pd.DataFrame(rows), "queue")))) == 2


# ---- heat


def grid(count: int, value=lambda x, y: x + 10.0 * y) -> pd.DataFrame:
    pairs = product(range(1, count + 1), (10, 40))
    return pd.DataFrame([row("a", value(x, y), queue=x, delay_ms=y) for x, y in pairs])


def test_cells_of_a_heat_map_have_their_values_and_colours():
    frame = grid(3)[:-1]  # one cell isn't there
    (figure,) = drawn(lambda: plots.heat(surface(frame, "queue", "delay_ms")))
    panel, bar = figure.axes
    values = panel.collections[0].get_array().reshape(2, 3)
    assert values.tolist() == [[101, 102, 103], [401, 402, None]] and values.mask[1][2]
    assert [text.get_text() for text in panel.texts] == ["101.00", "102.00", "103.00", "401.00", "402.00"]
    assert [text.get_text() for text in panel.get_yticklabels()] == ["10", "40"]
    assert bar.get_ylabel() == "throughput [Mbit/s]" and panel.get_position().x1 < bar.get_position().x0
    assert bar.get_tightbbox().x1 <= figure.bbox.x1


def test_an_interval_stands_below_the_value_and_small_cells_have_no_text():
    some = pd.concat([grid(2).assign(seed=1), grid(2, lambda x, y: x + 10.0 * y + 1).assign(seed=2)])
    (figure,) = drawn(lambda: plots.heat(surface(some, "queue", "delay_ms")))
    assert figure.axes[0].texts[0].get_text() == "101.50\n±6.35"
    (figure,) = drawn(lambda: plots.heat(surface(grid(60), "queue", "delay_ms")))
    assert not figure.axes[0].texts and len(figure.axes[0].get_xticks()) <= parameters.MOST_TICKS


def test_colours_rise_evenly_in_lightness():
    """So that a map can be read in grey, and with each kind of colour blindness."""
    colours = matplotlib.colormaps[parameters.COLOURS]([at / 20 for at in range(21)])[:, :3]
    grey = colours @ [0.2126, 0.7152, 0.0722]
    assert min(grey[1:] - grey[:-1]) > 0.01


# ---- the command


@pytest.mark.parametrize(
    "words, line",
    [
        (["lines", "--x", "foo"], "--x foo: there is no such column; they differ in queue"),
        (["lines", "--x", "delay_ms"], "--x delay_ms: the cases don't differ in it; they differ in queue"),
        (["lines", "--metric", "power"], "it has no value of power"),
        (["heat", "--x", "queue", "--y", "queue"], "--x and --y: both are queue"),
        (["heat", "--x", "queue"], "required: --y"),
    ],
)
def test_what_is_refused(tmp_path, words, line):
    file = tmp_path / "metrics.csv"
    file.write_text(metrics.csv_text(queues(1, 2)))
    ran = run_inside("plot", *words, file, tmp_path / "plot.svg")
    assert ran.status in (1, 2) and line in ran.errors and ran.errors.count("\n") == 1, ran


def test_files_of_lines_at_the_width_of_a_column(tmp_path):
    file = tmp_path / "metrics.json"
    file.write_text(metrics.json_text(queues(1, 2), None, ()))
    ran = run_inside("plot", "lines", "--size", "column", file, tmp_path / "plot.svg")
    assert ran.status == 0 and not ran.errors, ran
    assert 'width="252pt"' in (tmp_path / "plot.svg").read_text()


def test_one_parameter_is_found_and_of_two_one_is_asked_for():
    assert surface(queues(1)).axes == ("queue",)
    with pytest.raises(UsageError, match="--x COLUMN is expected: the cases differ in queue, delay_ms"):
        surface(grid(2))
    with pytest.raises(CcpError, match="it has no value of power"):
        surface(queues(1), "queue", metric="power")
