"""Additive increase and multiplicative decrease (Chiu and Jain, 1989): the window grows by a segment in each round
trip, and is halved at a loss.

It leaves out slow start. A further loss within a round trip of one that was answered belongs to it."""
from pathlib import Path

from ccp_tools.drive import Agent, Change, Create, Report, Update


class Aimd(Agent):
    programs = {"round": Path(__file__).with_name("round.portus").read_text(encoding="utf-8")}

    def on_create(self, create: Create) -> Change:
        self.mss, self.window, self.calm = create.mss, create.cwnd, 0
        return Change("round")

    def on_report(self, report: Report) -> Update:
        if report["timeout"]:
            self.window = self.mss
        elif report["lost"] and report.now >= self.calm:
            self.window = max(2 * self.mss, self.window // 2)
            self.calm = report.now + report["rtt"]
        elif not report["lost"]:
            self.window += self.mss * report["acked"] // self.window
        return Update(cwnd=self.window)
