"""Reno and CUBIC, as docs/agents.md has them, after RFC 5681 and RFC 9438.

examples/agent.py has a Reno of its own, since it is an example of an agent outside `ccp` that one copies and
changes."""
from __future__ import annotations

from dataclasses import dataclass
from typing import Dict, Mapping, Optional, Type, Union

from ..tables import LIMITS

MOST = 2**64 - 1
SEGMENTS = LIMITS["flight"]


@dataclass(frozen=True)
class Update:
    """A reply that sets the window, in bytes."""

    window: int


@dataclass(frozen=True)
class Change:
    """A reply that starts the program of a phase, "ss" or "ca", with a window and a cap, in bytes."""

    phase: str
    window: int
    cap: int


Reply = Optional[Union[Update, Change]]


def stop(number: int) -> int:
    """A number that saturates at 0 and at 2^64-1."""
    return max(0, min(number, MOST))


def first_segments(mss: int) -> int:
    """The initial window in segments (RFC 5681, section 3.1)."""
    return 2 if mss > 2190 else 3 if mss > 1095 else 4


class Agent:
    """What the agents have in common. `phase` is "ss" (slow start) or "ca" (congestion avoidance), `epoch` the number
    of the changes after the first one, `ssthresh` the threshold in bytes, and `calm` a time: a loss before it belongs
    to the loss event that was answered last."""

    def __init__(self, mss: int) -> None:
        self.mss = mss
        self.ssthresh = MOST
        self.phase = "ss"
        self.calm = self.epoch = 0

    def bytes(self) -> int:
        """The window in bytes."""
        raise NotImplementedError

    def report(self, seen: Mapping[str, int]) -> Reply:
        """The reply to a report of the agent's own epoch, by the fields that it reads, `now` and `cwnd`."""
        raise NotImplementedError

    def change(self, phase: str) -> Reply:
        """A change to the program of a phase."""
        self.phase = phase
        self.epoch += 1
        return Change(phase, self.bytes(), self.ssthresh)


class Reno(Agent):
    """Reno; windows are in bytes."""

    def __init__(self, mss: int) -> None:
        super().__init__(mss)
        self.window = first_segments(mss) * mss

    def bytes(self) -> int:
        """The window in bytes."""
        return self.window

    def _held(self, window: int) -> int:
        return min(max(window, self.mss), SEGMENTS * self.mss)

    def _cut(self, seen: Mapping[str, int]) -> int:
        flight = stop(seen["inflight"] + stop(seen["loss"] * self.mss))
        return min(max(flight // 2, 2 * self.mss), SEGMENTS * self.mss)

    def report(self, seen: Mapping[str, int]) -> Reply:
        """The reply of Reno: a cut at a loss or a mark, once in a round trip, one segment after a timeout, else
        growth."""
        if self.phase == "ss":
            self.window = self._held(seen["cwnd"])
        if seen["timeout"]:
            self.ssthresh, self.window, self.calm = self._cut(seen), self.mss, 0
            return self.change("ss")
        if seen["loss"] or seen["ecn"]:
            if seen["now"] < self.calm:
                return None
            self.ssthresh = self.window = self._cut(seen)
            self.calm = stop(seen["now"] + seen["rtt"])
            return self.change("ca")
        if self.phase == "ss":
            return self.change("ca") if seen["cwnd"] >= self.ssthresh else None
        if not seen["acked"]:
            return None
        self.window = self._held(stop(self.window + max(1, stop(self.mss * seen["acked"] // self.window))))
        return Update(self.window)


def cube_root(number: int) -> int:
    """The greatest number whose cube is at most a number."""
    root, above = 0, 1 << number.bit_length() // 3 + 1
    while above - root > 1:
        middle = (root + above) // 2
        root, above = (middle, above) if middle ** 3 <= number else (root, middle)
    return root


class Cubic(Agent):
    """CUBIC; windows are in thousandths of a segment, and times of the curve in milliseconds."""

    def __init__(self, mss: int) -> None:
        super().__init__(mss)
        self.w = 1000 * first_segments(mss)
        self.w_max = self.w_prior = self.w_est = self.k = self.t0 = 0

    def bytes(self) -> int:
        """The window in bytes, rounded down."""
        return self.w * self.mss // 1000

    def curve(self, time: int) -> int:
        """The window of the curve at a time after its start."""
        distance = min(abs(time - self.k), 1_000_000)
        off = 4 * distance**3 // 10_000_000
        return stop(self.w_max + off) if time >= self.k else stop(self.w_max - off)

    def report(self, seen: Mapping[str, int]) -> Reply:
        """The reply of CUBIC: a cut to 0.7 at a loss or a mark, once in a round trip, one segment after a timeout, else
        growth along the curve."""
        if self.phase == "ss":
            self.w = min(max(stop(seen["cwnd"] * 1000 // self.mss), 1000), 1000 * SEGMENTS)
        if seen["timeout"]:
            self.w_prior = self.w
            self.ssthresh = max(2000, self.w * 7 // 10) * self.mss // 1000
            self.w, self.calm = 1000, 0
            return self.change("ss")
        if seen["loss"] or seen["ecn"]:
            return None if seen["now"] < self.calm else self._cut(seen)
        if self.phase == "ss":
            if seen["cwnd"] < self.ssthresh:
                return None
            self.w_max = self.w_est = self.w
            self.k, self.t0 = 0, seen["now"]
            return self.change("ca")
        return self._grown(seen) if seen["acked"] else None

    def _cut(self, seen: Mapping[str, int]) -> Reply:
        self.w_prior = self.w
        self.w_max = self.w * 17 // 20 if self.w < self.w_max else self.w
        self.w = self.w_est = max(2000, self.w * 7 // 10)
        self.t0, self.k = seen["now"], cube_root(max(0, self.w_max - self.w) * 2_500_000)
        self.ssthresh = self.bytes()
        self.calm = stop(seen["now"] + seen["rtt"])
        return self.change("ca")

    def _grown(self, seen: Mapping[str, int]) -> Reply:
        most = 1000 * SEGMENTS
        part = min(most, stop(seen["acked"] * 1000 // self.mss))
        time, ahead = max(0, seen["now"] - self.t0) // 1000, seen["rtt"] // 1000
        share = 9000 * part // (17 * self.w) if self.w_est < self.w_prior else 1000 * part // self.w
        self.w_est = min(most, self.w_est + share)
        if self.curve(time) < self.w_est:
            self.w = max(self.w, self.w_est)
        else:
            target = min(max(self.curve(stop(time + ahead)), self.w), self.w + self.w // 2)
            self.w += min(target - self.w, (target - self.w) * part // self.w)
        self.w = min(max(self.w, 1000), most)
        return Update(self.bytes())


# the agents, by the names that cases give them
AGENT_NAMED: Dict[str, Type[Agent]] = {"reno": Reno, "cubic": Cubic}
