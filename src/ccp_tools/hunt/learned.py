"""Hunts of a learned policy: its episodes are cases, so a score of links is what it gets on them."""
from __future__ import annotations

from contextlib import closing
from typing import Any, Callable, List, Sequence

from ..scenario_files import Scenario
from .links import Link, LinkClass


def case_scenario(link: Link, of: LinkClass, agent: str = "reno") -> Scenario:
    """The scenario of one case on a link, without programs: those of the agent are added by what drives it."""
    case = {"name": "found", "agent": agent, **link.case("found", of.acks(link))}
    return {"version": 1, "traces": {"found": link.trace()}, "cases": [case]}


def score_of(
    make_env: Callable[[Scenario], Any], policy: Callable[[Any], Any], of: LinkClass
) -> Callable[[Sequence[Link]], List[float]]:
    """A score of links for `hunt(score=..)`: what a policy misses there, minus the sum of its rewards.

    `make_env` makes an environment of a scenario, in the form of Gymnasium, as ccp_tools.drive.Env; `policy` maps an
    observation to an action. Each link has an environment of its own, so its score doesn't depend on the links before
    it, as far as the policy has no chance and no memory in it."""

    def score(links: Sequence[Link]) -> List[float]:
        return [-rewards(make_env(case_scenario(link, of)), policy) for link in links]

    return score


def rewards(env: Any, policy: Callable[[Any], Any]) -> float:
    """The sum of the rewards of one episode."""
    total, is_over = 0.0, False
    with closing(env):
        observation, _ = env.reset()
        while not is_over:
            observation, reward, terminated, truncated, _ = env.step(policy(observation))
            total, is_over = total + float(reward), terminated or truncated
    return total
