"""Copa: a window whose rate moves towards 1 / (delta * queueing delay). After Arun and Balakrishnan, "Copa: Practical
Delay-Based Congestion Control for the Internet", NSDI 2018; the numbers of sections are that paper's.

As in the paper: the standing round-trip time is the least one over half a smoothed one, and the least one is that of 10
s (2.1); the window moves by v / delta segments for each window that is acknowledged, and v doubles in each round trip
once the window has moved in one direction for three (2.1); slow start doubles the window until the rate is above the
target (2.1); competitive mode, where the queue wasn't nearly empty for five round trips, has an additive increase of
1 / delta and halves it at a loss (2.2).

What it leaves out: pacing, since the link sends by the window alone; a step for each acknowledgement, since it gets
reports, two in a round trip, and makes the steps of all their bytes at once. The smoothed round-trip time has weights
of 9 and 1 tenths in place of 7 and 1 eighths. A timeout begins again with one segment in slow start: the paper doesn't
say what it does."""
from collections import deque
from typing import Deque, Tuple

from ccp_tools.drive import Agent, Change, Create, Report, Update

# two reports in a round trip; `standing` and `most` are the least and the greatest round trip since the one before
HALF_ROUND = """
(def (Report (volatile acked 0) (volatile lost 0) (volatile timeout false)
  (volatile standing +infinity) (volatile most 0) (srtt 0)))
(when true
  (:= Report.acked (+ Report.acked Ack.bytes_acked))
  (:= Report.lost (+ Report.lost Ack.lost_pkts_sample))
  (:= Report.timeout (|| Report.timeout Flow.was_timeout))
  (:= Report.standing (min Report.standing Flow.rtt_sample_us))
  (:= Report.most (max Report.most Flow.rtt_sample_us))
  (:= Report.srtt (ewma 9 Flow.rtt_sample_us))
  (fallthrough))
(when (|| Report.timeout (> (* 2 Micros) Report.srtt)) (report) (:= Micros 0))
"""
DELTA = 0.5
MEMORY_US = 10_000_000
MOST_SEGMENTS = 4096


class Copa(Agent):
    programs = {"copa": HALF_ROUND}

    def on_create(self, create: Create) -> Change:
        self.mss = create.mss
        # in segments
        self.window = create.cwnd / create.mss
        self.is_starting = True
        # the competitive parameter 1 / delta, and when the queue was nearly empty last
        self.greed, self.emptied = 1 / DELTA, 0
        self.velocity, self.direction, self.kept = 1.0, 0, 0
        self.round_end, self.round_window = 0, self.window
        # (time, least, greatest) of the reports of the last 10 s
        self.seen: Deque[Tuple[int, int, int]] = deque()
        return Change("copa")

    def on_report(self, report: Report) -> Update:
        if report["timeout"] or not report["standing"]:
            self.window, self.is_starting, self.velocity, self.kept = 1.0, True, 1.0, 0
            return self.answer_window()
        self.remember(report)
        least = min(low for _, low, _ in self.seen)
        self.choose_mode(report, least)
        queueing = report["standing"] - least
        # the rate window / standing against the target greed / queueing
        is_below = self.window * queueing <= self.greed * report["standing"]
        acked = report["acked"] / self.mss
        if self.is_starting and is_below:
            self.window += acked
        else:
            self.is_starting = False
            self.turn(1 if is_below else -1)
            self.window += self.direction * self.velocity * self.greed * acked / self.window
        self.window = min(max(self.window, 2.0), MOST_SEGMENTS)
        if report.now >= self.round_end:
            self.end_round(report)
        return self.answer_window()

    def answer_window(self) -> Update:
        return Update(cwnd=int(self.window * self.mss))

    def remember(self, report: Report) -> None:
        """Keeps the round trips of 10 s."""
        self.seen.append((report.now, report["standing"], report["most"]))
        while self.seen[0][0] < report.now - MEMORY_US:
            self.seen.popleft()

    def turn(self, direction: int) -> None:
        """Begins with velocity 1 where the direction changes."""
        if direction != self.direction:
            self.direction, self.velocity, self.kept = direction, 1.0, 0

    def end_round(self, report: Report) -> None:
        """Once in a round trip: the velocity doubles where the window went on in its direction for three."""
        moved = (self.window - self.round_window) * self.direction > 0
        self.kept = self.kept + 1 if moved else 0
        if self.kept >= 3:
            self.velocity *= 2
        elif not moved:
            self.velocity = 1.0
        self.round_end, self.round_window = report.now + report["srtt"], self.window
        if self.is_competitive(report):
            self.greed += 1

    def is_competitive(self, report: Report) -> bool:
        return report.now - self.emptied > 5 * report["srtt"]

    def choose_mode(self, report: Report, least: int) -> None:
        """Competitive where the queue wasn't nearly empty for five round trips."""
        recent = [high for time, _, high in self.seen if time > report.now - 4 * report["srtt"]]
        if report["standing"] - least < 0.1 * (max(recent) - least) or report["standing"] == least:
            self.emptied = report.now
        if not self.is_competitive(report):
            self.greed = 1 / DELTA
        elif report["lost"]:
            self.greed = max(1 / DELTA, self.greed / 2)
