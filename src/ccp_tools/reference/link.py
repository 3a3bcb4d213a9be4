"""A link over a trace, as docs/link.md has it. All times are in microseconds of virtual time."""
from __future__ import annotations

from collections import deque
from dataclasses import dataclass
from typing import Any, Deque, Dict, Mapping, Optional

from ..tables import LIMITS, PRIMITIVES


class Trace:
    """When a link can serve a packet. `times` are the times of its text in milliseconds."""

    def __init__(self, text: str) -> None:
        self.times = [int(line.strip(" \t\r")) for line in text.split("\n") if line.strip(" \t\r")]

    def chance(self, k: int) -> int:
        """When chance k, from 0, is."""
        turns, at = divmod(k, len(self.times))
        return 1000 * (self.times[-1] * turns + self.times[at])

    def first(self, now: int, k: int) -> int:
        """The number of the first chance at or after a time that is k or more."""
        k = max(k, len(self.times) * (now // (1000 * self.times[-1]) - 1))
        while self.chance(k) < now:
            k += 1
        return k


@dataclass
class Packet:
    """A packet in flight. `at` is its chance and `arrival` that of its acknowledgement; both are None where it is
    lost."""

    number: int
    sent: int
    at: Optional[int]
    arrival: Optional[int]
    marked: bool


class Link:
    """A case's own link: `next` gives one acknowledgement after another."""

    def __init__(self, trace: Trace, case: Mapping[str, Any]) -> None:
        self.trace = trace
        self.case = case
        self.now = self.rtt = self.sent = self.acked = self.chance = 0
        # rates are over the time since it; a flow of `shared` may start later
        self.start = 0
        self.losses = set(case.get("losses", []))
        # in the order of their numbers
        self.flight: Deque[Packet] = deque()
        # the chances of the packets that wait, which rise
        self.later: Deque[int] = deque()

    def _send(self) -> Packet:
        while self.later and self.later[0] <= self.now:
            self.later.popleft()
        waiting = len(self.later)
        number, self.sent = self.sent, self.sent + 1
        if number in self.losses or waiting >= self.case["queue"]:
            return Packet(number, self.now, None, None, False)
        self.chance = self.trace.first(self.now, self.chance)
        at = self.trace.chance(self.chance)
        self.chance += 1
        if at > self.now:
            self.later.append(at)
        return Packet(number, self.now, at, at + self.case["delay_us"], self.marks(waiting))

    def marks(self, waiting: int) -> bool:
        """Whether a packet that comes while `waiting` others wait is marked."""
        return "mark" in self.case and waiting >= self.case["mark"]

    def allowance(self, window: int) -> int:
        """How many packets a window in bytes allows in flight."""
        return int(min(LIMITS["flight"], max(1, window // self.case["mss"])))

    def next(self, window: int) -> Dict[str, int]:
        """The next acknowledgement, or timeout, of a window in bytes."""
        while len(self.flight) < self.allowance(window):
            self.flight.append(self._send())
        arrived = next((packet for packet in self.flight if packet.arrival is not None), None)
        return self.timed_out(self.now + self.case["timeout_us"]) if arrived is None else self.acknowledged(arrived)

    def acknowledged(self, packet: Packet) -> Dict[str, int]:
        """The acknowledgement of a packet in flight; it and all packets before it leave the flight."""
        assert packet.arrival is not None
        mss = self.case["mss"]
        lost = 0
        while self.flight.popleft() is not packet:
            lost += 1
        self.now, self.rtt = packet.arrival, packet.arrival - packet.sent
        self.acked += 1
        ack = self._seen(bytes_acked=mss, packets_acked=1, lost_pkts_sample=lost)
        if lost:
            ack.update(bytes_misordered=mss, packets_misordered=1)
        if packet.marked:
            ack.update(ecn_bytes=mss, ecn_packets=1)
        return ack

    def timed_out(self, at: int) -> Dict[str, int]:
        """The timeout at a time; all packets leave the flight as lost."""
        lost = len(self.flight)
        self.now = at
        self.flight.clear()
        return self._seen(lost_pkts_sample=lost, was_timeout=1)

    def _seen(self, **values: int) -> Dict[str, int]:
        """The primitives at the present time, with some values."""
        mss, flight = self.case["mss"], len(self.flight)
        ack = {**dict.fromkeys(PRIMITIVES, 0), **values}
        ack.update(now=self.now, rtt_sample_us=self.rtt, packets_in_flight=flight, bytes_in_flight=flight * mss)
        since = self.now - self.start
        if since > 0:
            ack["rate_incoming"] = mss * self.acked * 1_000_000 // since
            ack["rate_outgoing"] = mss * self.sent * 1_000_000 // since
        return ack
