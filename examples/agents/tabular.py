#!/usr/bin/env python3
"""A learner with a table (Q-learning: Watkins and Dayan, 1992), over the episodes of an environment.

    examples/agents/tabular.py [--episodes N] [--seed S] [--ccp PATH]

It knows nothing of congestion: its state is how long a round trip is beside the least one, and whether a packet was
lost; its actions make the window smaller or larger. The reward of a step is the share of the link that was used, less a
share for waiting, and less 1 for a loss. It prints the mean reward of a step over each 20 episodes, which grows while
chance in the choice of actions falls. Equal seeds give equal runs."""
import argparse
import sys
from pathlib import Path
from typing import List, Optional

import numpy as np

from ccp_tools.drive import Change, Env, Report

ROUND = Path(__file__).with_name("round.portus").read_text(encoding="utf-8")
MSS, DELAY_US, MBPS = 1500, 20_000, 12
# upper ends of the ratios of a round trip to the least one
RATIOS = (1.1, 1.3, 1.6, 2.0, 2.5)
# what an action makes of the window: a factor, and segments more
ACTIONS = ((0.5, 0), (1, -2), (1, 0), (1, 2), (1.5, 0))
STEP, DISCOUNT = 0.2, 0.8


def scenario(episodes: int) -> dict:
    """A case for each of at most 64 episodes, over a link of 12 Mbit/s."""
    case = {"trace": "fixed", "mss": MSS, "queue": 60, "delay_us": DELAY_US, "timeout_us": 1_000_000, "acks": 500}
    cases = [{"name": "e%d" % at, **case} for at in range(min(episodes, 64))]
    return {"version": 1, "programs": {"round": ROUND}, "traces": {"fixed": "1\n"}, "cases": cases}


def reward_of(report: Report, before: Optional[Report]) -> float:
    """The reward of a step."""
    span = max(1, report.now - before.now) if before else report.now
    used = 8 * report["acked"] / span / MBPS
    waited = max(0, report["rtt"] - DELAY_US - 1000) / DELAY_US
    return used - 0.5 * min(waited, 2) - (1 if report["lost"] else 0)


def state_of(rtt: float, lost: float) -> int:
    """The number of a state."""
    ratio = rtt / (DELAY_US + 1000)
    return 2 * sum(ratio > end for end in RATIOS) + (lost > 0)


def learn(program: Optional[str] = None, episodes: int = 200, seed: int = 1) -> List[float]:
    """The mean reward of a step of each episode."""
    draw = np.random.default_rng(seed)
    values = np.zeros((2 * len(RATIOS) + 2, len(ACTIONS)))
    observe, act = ("rtt", "lost", "cwnd"), {"cwnd": (MSS, 100 * MSS)}
    means = []
    with Env(
        scenario(episodes), start=Change("round"), observe=observe, act=act, reward=reward_of, program=program
    ) as env:
        for episode in range(episodes):
            chance = max(0.02, 1 - episode / (0.6 * episodes))
            (rtt, lost, window), _ = env.reset()
            state, rewards, is_over = state_of(rtt, lost), [], False
            while not is_over:
                is_random = draw.random() < chance
                action = int(draw.integers(len(ACTIONS))) if is_random else int(values[state].argmax())
                factor, more = ACTIONS[action]
                (rtt, lost, window), reward, _, is_over, _ = env.step([factor * window + more * MSS])
                if not is_over:
                    after = state_of(rtt, lost)
                    goal = reward + DISCOUNT * values[after].max()
                    values[state, action] += STEP * (goal - values[state, action])
                    state = after
                    rewards.append(reward)
            means.append(float(np.mean(rewards)))
    return means


def main() -> None:
    words = argparse.ArgumentParser(description=__doc__, formatter_class=argparse.RawDescriptionHelpFormatter)
    words.add_argument("--episodes", type=int, default=200, metavar="N", help="(200)")
    words.add_argument("--seed", type=int, default=1, metavar="S", help="(1)")
    words.add_argument("--ccp", metavar="PATH", help="the program ccp (CCP_PROGRAM, or the one that ./ccp runs)")
    asked = words.parse_args()
    means = learn(asked.ccp, asked.episodes, asked.seed)
    for first in range(0, len(means), 20):
        part = means[first : first + 20]
        print("episodes %3d to %3d: mean reward of a step %6.3f" % (first, first + len(part) - 1, np.mean(part)))


if __name__ == "__main__":
    sys.exit(main())
