"""An agent of your own that drives flows on the virtual link, over `ccp drive`.

    from ccp_tools.drive import Agent, Change, Report, Session, Update, run

    class Double(Agent):
        programs = {"p": "(def (Report (volatile acked 0))) (when true .. (report))"}

        def on_create(self, create):
            return Change("p", cwnd=4 * create.mss)

        def on_report(self, report):
            return Update(cwnd=report.cwnd + report["acked"])

    made = run(Double(), "scenario.json", record="run.drive")
    print(made.table())

`Session` is the same without a class, one answer after another; `Env` has the form of an environment of Gymnasium.
`python3 -m ccp_tools.drive AGENT.py SCENARIO` runs an agent of a file. docs/drive.md is the tutorial."""
from __future__ import annotations

from importlib import import_module
from typing import TYPE_CHECKING, Any

from .agents import Agent, Driven, load_agent, run, run_file
from .errors import AgentFailed, BadAnswer, Ended, FrameRefused, NoField, NotAsked, Silent
from .messages import Answer, Change, Create, Fault, Refused, Report, Event, Update
from .session import Session, with_programs

if TYPE_CHECKING:
    from .env import Box, Env

__all__ = [
    "Agent",
    "AgentFailed",
    "Answer",
    "BadAnswer",
    "Box",
    "Change",
    "Create",
    "Driven",
    "Ended",
    "Env",
    "Fault",
    "FrameRefused",
    "NoField",
    "NotAsked",
    "Refused",
    "Report",
    "Session",
    "Silent",
    "Event",
    "Update",
    "load_agent",
    "run",
    "run_file",
    "with_programs",
]


def __getattr__(name: str) -> Any:
    # numpy, which the environment uses, is imported when it is
    if name in ("Box", "Env"):
        return getattr(import_module(".env", __name__), name)
    raise AttributeError("module %r has no attribute %r" % (__name__, name))
