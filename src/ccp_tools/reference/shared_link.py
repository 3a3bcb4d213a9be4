"""Flows over one bottleneck, round by round, as docs/shared.md has it."""
from __future__ import annotations

from collections import deque
from typing import Deque, List, Sequence

from .flow import Acknowledgement, Flow, Members
from .link import Packet, Trace


class Bottleneck:
    """The link that all flows share. `rounds` is how many rounds were run."""

    def __init__(self, scenario: Members) -> None:
        self.case = scenario["shared"]
        self.trace = Trace(scenario["traces"][self.case["trace"]])
        self.chance = self.rounds = 0
        # the chances of the packets of all flows that wait, which rise
        self.later: Deque[int] = deque()

    def run(self, flows: Sequence[Flow]) -> None:
        """Runs the rounds, and then takes and answers what is left."""
        for flow in flows:
            flow.link.start = flow.case.get("start_us", 0)
        while self.rounds < self.case["rounds"] and not all(is_done(flow) for flow in flows):
            now = self.rounds * self.case["quantum_us"]
            self._send_all(flows, now)
            for flow in flows:
                answer(flow, now + self.case["quantum_us"])
            self.rounds += 1
        for flow in flows:
            flow.settle_all()

    def _send_all(self, flows: Sequence[Flow], now: int) -> None:
        """The flows take turns until none has fewer packets in flight than it may have."""
        while True:
            sending = [flow for flow in flows if not is_done(flow) and may_send(flow, now)]
            if not sending:
                return
            for flow in sending:
                flow.link.flight.append(self._send(flow, now))

    def _send(self, flow: Flow, now: int) -> Packet:
        while self.later and self.later[0] <= now:
            self.later.popleft()
        waiting, link = len(self.later), flow.link
        number, link.sent = link.sent, link.sent + 1
        if number in link.losses or waiting >= self.case["queue"]:
            return Packet(number, now, None, None, False)
        self.chance = self.trace.first(now, self.chance)
        at = self.trace.chance(self.chance)
        self.chance += 1
        if at > now:
            self.later.append(at)
        return Packet(number, now, at, at + flow.case["delay_us"], link.marks(waiting))

    def line(self, flows: Sequence[Flow]) -> str:
        """The line on the link's packets."""
        sent, acked = sum(flow.link.sent for flow in flows), sum(flow.link.acked for flow in flows)
        flight = sum(len(flow.link.flight) for flow in flows)
        counts = (self.rounds, sent, acked, sum(flow.lost for flow in flows), flight)
        return "link rounds=%d sent=%d acked=%d lost=%d inflight=%d" % counts


def is_done(flow: Flow) -> bool:
    """Whether a flow has all its acknowledgements."""
    return bool(flow.acks == flow.case["acks"])


def may_send(flow: Flow, now: int) -> bool:
    """Whether a flow has started and has fewer packets in flight than its window allows."""
    return now >= flow.link.start and len(flow.link.flight) < flow.link.allowance(flow.state.cwnd)


def answer(flow: Flow, end: int) -> None:
    """A flow's acknowledgements that come before the end of a round, with its letters."""
    for ack in acks_before(flow, end):
        flow.ack(ack)
        flow.settle_due()
    if is_done(flow):
        flow.settle_all()


def acks_before(flow: Flow, end: int) -> List[Acknowledgement]:
    """The acknowledgements of a flow that come before a time; at most one of them, the last, is a timeout."""
    link = flow.link
    made: List[Acknowledgement] = []
    left = flow.case["acks"] - flow.acks
    for packet in [packet for packet in link.flight if packet.arrival is not None and packet.arrival < end]:
        if len(made) < left:
            made.append(link.acknowledged(packet))
    if len(made) < left and link.flight and all(packet.arrival is None for packet in link.flight):
        at = max(link.now, link.flight[0].sent) + flow.case["timeout_us"]
        if at < end:
            made.append(link.timed_out(at))
    return made
