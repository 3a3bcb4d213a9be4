"""BBR: a window of the bandwidth times the round-trip time that it has measured. After Cardwell, Cheng, Gunn, Yeganeh
and Jacobson, "BBR: Congestion-Based Congestion Control", ACM Queue 14(5), 2016.

As in the paper: the bandwidth is the greatest delivery rate of ten round trips, the round-trip time the least one of 10
s; STARTUP with a gain of 2 / ln 2 until the bandwidth grows by less than a quarter in three round trips, DRAIN until no
more is in flight than their product, PROBE_BW with its cycle of eight gains, a round trip each, and PROBE_RTT with four
segments for 200 ms where no shorter round trip came for 10 s.

What it leaves out: pacing, since the link sends by the window alone. So each gain multiplies the window in place of the
rate, and a gain of 1.25 fills a queue for a round trip (`rate` has the paper's pacing rate, which nothing reads). Rates
are those of whole reports, one in a round trip, in place of samples of each packet; the cycle begins with its first
gain, not by chance; nothing looks for policers; a loss changes nothing, and a timeout begins with four segments."""
import math
from collections import deque
from typing import Deque

from ccp_tools.drive import Agent, Change, Create, Report, Update

ROUND = """
(def (Report (volatile acked 0) (volatile timeout false) (volatile rtt +infinity) (inflight 0)))
(when true
  (:= Report.acked (+ Report.acked Ack.bytes_acked))
  (:= Report.timeout (|| Report.timeout Flow.was_timeout))
  (:= Report.rtt (min Report.rtt Flow.rtt_sample_us))
  (:= Report.inflight Flow.bytes_in_flight)
  (fallthrough))
(when (|| Report.timeout (> Micros Flow.rtt_sample_us)) (report) (:= Micros 0))
"""
HIGH_GAIN = 2 / math.log(2)
CYCLE = (1.25, 0.75, 1, 1, 1, 1, 1, 1)
MEMORY_US = 10_000_000
PROBE_RTT_US = 200_000
LEAST_SEGMENTS = 4


class Bbr(Agent):
    programs = {"bbr": ROUND}

    def on_create(self, create: Create) -> Change:
        self.mss, self.window = create.mss, create.cwnd
        self.state, self.phase = "STARTUP", 0
        # delivery rates of the last ten round trips, in bytes a microsecond
        self.rates: Deque[float] = deque(maxlen=10)
        self.full, self.still = 0.0, 0
        # the least round trip in microseconds, and when it was seen
        self.least, self.least_at = 0, 0
        self.before = self.until = 0
        return Change("bbr")

    def on_report(self, report: Report) -> Update:
        self.measure(report)
        if report["timeout"] or not self.least:
            self.window = LEAST_SEGMENTS * self.mss
        else:
            self.move(report)
        return Update(cwnd=int(self.window), rate=int(1e6 * self.gain() * max(self.rates)))

    def measure(self, report: Report) -> None:
        """The two filters."""
        span, self.before = max(1, report.now - self.before), report.now
        if self.state != "PROBE_RTT" or not self.rates:
            self.rates.append(report["acked"] / span)
        rtt, is_old = report["rtt"], report.now - self.least_at > MEMORY_US
        if rtt and (not self.least or rtt <= self.least or is_old and self.state == "PROBE_RTT"):
            self.least, self.least_at = rtt, report.now

    def product(self) -> float:
        """The bandwidth-delay product in bytes."""
        return max(self.rates) * self.least

    def gain(self) -> float:
        return {"STARTUP": HIGH_GAIN, "DRAIN": 1 / HIGH_GAIN, "PROBE_RTT": 1}.get(self.state, CYCLE[self.phase])

    def move(self, report: Report) -> None:
        """The next state, and its window."""
        if self.state != "PROBE_RTT" and report.now - self.least_at > MEMORY_US:
            self.state, self.until = "PROBE_RTT", report.now + max(PROBE_RTT_US, self.least)
        elif self.state == "PROBE_RTT" and report.now >= self.until:
            self.least_at = report.now
            self.state, self.phase = "PROBE_BW" if self.still >= 3 else "STARTUP", 0
        elif self.state == "STARTUP":
            self.look_for_full_pipe()
        elif self.state == "DRAIN" and report["inflight"] <= self.product():
            self.state, self.phase = "PROBE_BW", 0
        elif self.state == "PROBE_BW":
            self.phase = (self.phase + 1) % len(CYCLE)
        self.window = self.sized(report)

    def look_for_full_pipe(self) -> None:
        """Full once the bandwidth grows by less than a quarter in three round trips."""
        if max(self.rates) >= 1.25 * self.full:
            self.full, self.still = max(self.rates), 0
        else:
            self.still += 1
        if self.still >= 3:
            self.state = "DRAIN"

    def sized(self, report: Report) -> float:
        least = LEAST_SEGMENTS * self.mss
        if self.state == "PROBE_RTT":
            return least
        if self.state == "STARTUP":
            return max(least, min(self.window + report["acked"], HIGH_GAIN * self.product()))
        # in DRAIN a window of the product lets the queue run empty
        return max(least, self.product() * (1 if self.state == "DRAIN" else self.gain()))
