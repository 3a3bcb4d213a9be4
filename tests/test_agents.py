"""The agents of examples/agents/, in Python, in C and in Perl, over examples/drive.json."""
from __future__ import annotations

import importlib.util
import json
import math
import re
import shutil
import subprocess
import sys
from functools import partial
from pathlib import Path
from typing import Any, Dict, List

import pytest
from support import EXAMPLES, REPOSITORY, needs, ran, require

require("pandas")
from ccp_tools import drive, frames, metrics  # noqa: E402

AGENTS = EXAMPLES / "agents"
SCENARIO = EXAMPLES / "drive.json"
# the link of the scenario, in Mbit/s, and how long a packet takes without a queue, in microseconds
MBPS, DELAY_US = 12, 20_000


def figures(driver: Path, name: str) -> List[Dict[str, float]]:
    """Of each case the throughput in Mbit/s, the mean wait in milliseconds from the first half second on, and the share
    of packets that were lost."""
    made = drive.run(drive.load_agent(AGENTS / (name + ".py")), SCENARIO, program=driver, timeout=60)
    table, acks = made.table(), made.acks()
    found = []
    for number, row in table.iterrows():
        settled = acks[(acks["flow"] == number) & (acks["now"] > 500_000)]
        wait = (settled["rtt_sample_us"].mean() - DELAY_US) / 1000
        lost = row["lost"] / (row["lost"] + row["acks"] - row["timeouts"])
        found.append({"mbps": 8 * row["acked"] / row["now"], "wait": wait, "lost": lost})
    return found


# ---- the page


PAGE = (REPOSITORY / "docs" / "drive.md").read_text(encoding="utf-8")


@pytest.mark.parametrize("name", ["aimd", "copa", "bbr"])
def test_figures_of_the_page(driver: Path, name: str) -> None:
    """The row of an agent, by the figures that `ccp metrics` has."""
    row = re.search(r"^\| `%s\.py`.*? \| (.*) \|$" % name, PAGE, re.MULTILINE)
    assert row
    made = drive.run(drive.load_agent(AGENTS / (name + ".py")), SCENARIO, program=driver, timeout=60)
    acks = frames.acks_in(made.text("drive-acks"))
    found = metrics.figures(json.loads(SCENARIO.read_text(encoding="utf-8")), acks=acks)
    cells = [
        "%.2f | %.1f | %.2f" % (one.throughput_mbps, one.queueing_mean_ms, 100 * one.loss_rate)
        for one in found.itertuples()
    ]
    assert row[1] == " | ".join(cells)


@pytest.mark.parametrize("first", ["with Session(", "env = Env("])
def test_code_of_the_page(driver: Path, first: str, monkeypatch: pytest.MonkeyPatch, tmp_path: Path) -> None:
    code = next(block for block in re.findall(r"```python\n(.*?)```", PAGE, re.DOTALL) if block.startswith(first))
    monkeypatch.chdir(REPOSITORY)
    names = {name: getattr(drive, name) for name in ("Change", "Report")}
    names.update({name: partial(getattr(drive, name), program=driver) for name in ("Session", "Env")})
    exec(code.replace('"run.drive"', repr(str(tmp_path / "run.drive"))), names)
    if "env" in names:
        assert len(names["observation"]) == 3 and not names["truncated"]
        names["env"].close()


# ---- what the agents do


def test_the_scenario_has_the_program_of_the_agents() -> None:
    scenario = json.loads(SCENARIO.read_text(encoding="utf-8"))
    assert scenario["programs"] == {"round": (AGENTS / "round.portus").read_text(encoding="utf-8")}


def test_aimd(driver: Path) -> None:
    """It fills the link, and the queue too where that is long."""
    long, short = figures(driver, "aimd")
    assert long["mbps"] > 0.9 * MBPS and short["mbps"] > 0.85 * MBPS
    assert long["wait"] > 20 and long["lost"] < 0.02 and 0 < short["lost"] < 0.02


def test_copa(driver: Path) -> None:
    """It fills the link with a short queue: 1 / delta = 2 packets, and what the steps of a half round trip add."""
    long, short = figures(driver, "copa")
    assert long["mbps"] > 0.95 * MBPS and short["mbps"] > 0.9 * MBPS
    assert 1 < long["wait"] < 8 and long["lost"] == 0 and short["lost"] < 0.06


def test_bbr(driver: Path) -> None:
    """It fills the link but for the phases that drain, and waits only in the phases that probe."""
    long, short = figures(driver, "bbr")
    for one in (long, short):
        assert one["mbps"] > 0.9 * MBPS and one["wait"] < 3 and one["lost"] < 0.04


def test_states_of_bbr() -> None:
    """STARTUP, DRAIN, the cycle of eight gains, and PROBE_RTT where no shorter round trip comes for ten seconds."""
    agent: Any = drive.load_agent(AGENTS / "bbr.py")
    agent.on_create(drive.Create(0, "a", 4500, 1500))
    states: List[str] = []
    gains: List[float] = []
    now = 0
    for number in range(800):
        # 12 Mbit/s, and a queue that isn't empty again after the first round trips
        rtt = 20_000 if number < 20 else 25_000
        now += rtt
        acked = int(min(agent.window, 1.5 * rtt))
        fields = {"acked": acked, "timeout": 0, "rtt": rtt, "inflight": acked}
        update = agent.on_report(drive.Report(0, "a", "bbr", 0, 0, 1, now, int(agent.window), 0, fields))
        states.append(agent.state)
        gains.append(agent.gain())
        assert update.cwnd >= 4 * 1500
        if agent.state == "PROBE_RTT":
            assert update.cwnd == 4 * 1500
    runs = [state for at, state in enumerate(states) if at == 0 or states[at - 1] != state]
    assert runs[:5] == ["STARTUP", "DRAIN", "PROBE_BW", "PROBE_RTT", "PROBE_BW"]
    begin = states.index("PROBE_BW")
    assert gains[begin : begin + 9] == [1.25, 0.75, 1, 1, 1, 1, 1, 1, 1.25]
    assert gains[0] == pytest.approx(2 / math.log(2)) and gains[states.index("DRAIN")] == pytest.approx(math.log(2) / 2)
    # 200 ms of it, and 25 ms until the next report
    assert 8 <= states[: states.index("PROBE_RTT") + 40].count("PROBE_RTT") <= 9


def test_agents_go_on_after_timeouts_and_gaps(driver: Path) -> None:
    """A link that stops for longer than a timeout, and losses of a whole window."""
    scenario = json.loads(SCENARIO.read_text(encoding="utf-8"))
    scenario["traces"]["fixed"] = "".join("%d\n" % at for at in range(1, 400)) + "3000\n"
    case = {**scenario["cases"][0], "acks": 1500, "timeout_us": 300_000, "losses": [0, 1, *range(200, 260)]}
    scenario["cases"] = [case, {**case, "name": "late", "lag": 5, "slots": 1}]
    for name in ("aimd", "copa", "bbr"):
        agent = drive.load_agent(AGENTS / (name + ".py"))
        table = drive.run(agent, scenario, program=driver, timeout=60).table()
        assert table["timeouts"][0] > 0 and (table["faults"] == 0).all() and (table["acks"] == 1500).all(), name


def module_of(path: Path) -> Any:
    """A script as a module."""
    spec = importlib.util.spec_from_file_location(path.stem, path)
    assert spec and spec.loader
    module = importlib.util.module_from_spec(spec)
    spec.loader.exec_module(module)
    return module


def test_the_learner_learns(driver: Path) -> None:
    """The mean reward of the last 20 of 200 episodes is above that of the first 20, by the same numbers each time."""
    tabular = module_of(AGENTS / "tabular.py")
    means = tabular.learn(str(driver), 200, seed=1)
    assert len(means) == 200 and sum(means[-20:]) / 20 > sum(means[:20]) / 20 + 0.1
    assert tabular.learn(str(driver), 3, seed=4) == tabular.learn(str(driver), 3, seed=4)


def test_the_learner_as_a_command(driver: Path) -> None:
    made = ran([sys.executable, AGENTS / "tabular.py", "--episodes", "4", "--ccp", driver])
    assert made.status == 0 and made.output.startswith("episodes   0 to   3: mean reward of a step "), made.errors


# ---- in C


@pytest.fixture(scope="session")
def compiled(tmp_path_factory: pytest.TempPathFactory) -> Path:
    """The agent in C."""
    compiler = next((name for name in ("cc", "gcc", "clang") if shutil.which(name)), None)
    if compiler is None:
        pytest.skip("no compiler of C is installed")
    path = tmp_path_factory.mktemp("c") / "aimd"
    words = [compiler, "-std=c99", "-O2", "-Wall", "-Wextra", "-Werror", "-o", path, AGENTS / "aimd.c"]
    made = ran(words)
    assert made.status == 0, made.errors
    return path


@pytest.mark.parametrize("name", ["aimd.c", "aimd.pl"])
def test_agents_in_other_languages_are_short(name: str) -> None:
    assert len((AGENTS / name).read_text(encoding="utf-8").split("\n")) <= 81


# as the heads of the agents say; `timeout` ends what waits for ever
RECIPE = "mkfifo frames; (cat %s; echo ---; %s) < frames | tee run.drive | %s drive > frames"


def recorded(folder: Path, scenario: Path, agent: Path, driver: Path) -> bytes:
    """The recording of a run over two pipes."""
    folder.mkdir(exist_ok=True)
    line = "set -o pipefail; " + RECIPE % (scenario, agent, driver)
    made = ran(["timeout", "100", "bash", "-c", line], cwd=folder)
    assert (made.status, made.errors) == (0, "")
    return (folder / "run.drive").read_bytes()


def test_the_recipe_is_that_of_the_pages() -> None:
    """The whole group reads the frames, so that their pipe is open while the scenario is written."""
    recipe = re.compile(r"\(cat \S+; echo ---; \S+\) < (\S*frames) \| (tee \S+ \| )?\./ccp drive > \1$", re.MULTILINE)
    for path in (AGENTS / "aimd.c", AGENTS / "aimd.pl", REPOSITORY / "docs" / "drive.md"):
        assert recipe.search(path.read_text(encoding="utf-8")), path


@needs("mkfifo")
def test_the_agent_in_c(driver: Path, compiled: Path, tmp_path: Path) -> None:
    """Over two pipes, as its head says; its run is that of aimd.py."""
    recording = recorded(tmp_path, SCENARIO, compiled, driver)
    table = frames.read_table(ran([driver, "drive-table"], recording).output)
    other = drive.run(drive.load_agent(AGENTS / "aimd.py"), SCENARIO, program=driver).table()
    assert table.equals(other)


@needs("mkfifo", "perl")
def test_the_agent_in_perl(program: Path, compiled: Path, tmp_path: Path) -> None:
    """It writes the frames of the agent in C."""
    one, other = (recorded(tmp_path / path.name, SCENARIO, path, program) for path in (compiled, AGENTS / "aimd.pl"))
    assert one == other and len(one) > 10_000


@needs("mkfifo")
def test_a_scenario_that_no_pipe_holds(program: Path, compiled: Path, tmp_path: Path) -> None:
    """Nobody waits for another one while the scenario is on its way."""
    scenario = json.loads(SCENARIO.read_text(encoding="utf-8"))
    scenario["traces"]["fixed"] = "".join("%d\n" % at for at in range(1, 139_000))
    path = tmp_path / "long.json"
    path.write_text(json.dumps(scenario) + "\n", encoding="utf-8")
    assert path.stat().st_size > 1_000_000
    assert recorded(tmp_path, path, compiled, program).startswith(path.read_bytes() + b"---\n\5")


def test_the_agent_in_c_names_a_refusal(driver: Path, compiled: Path, tmp_path: Path) -> None:
    """A scenario without the program that it starts."""
    scenario = json.loads(SCENARIO.read_text(encoding="utf-8"))
    data = json.dumps({**scenario, "programs": {}}).encode() + b"\n---\n"
    with subprocess.Popen(
        [driver, "drive"], stdin=subprocess.PIPE, stdout=subprocess.PIPE, stderr=subprocess.PIPE
    ) as run:
        assert run.stdin and run.stdout and run.stderr
        run.stdin.write(data)
        run.stdin.flush()
        done = subprocess.run([compiled], stdin=run.stdout, stdout=run.stdin, stderr=subprocess.PIPE, timeout=60)
        assert done.returncode == 1 and done.stderr == b"aimd: refused, reason 6\n"
        run.stdin.close()
        assert run.wait(60) == 3 and b"frame cut at" in run.stderr.read()
