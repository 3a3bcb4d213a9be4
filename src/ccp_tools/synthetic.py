"""Synthetic traces: the times, in milliseconds, at which a made-up link can send a packet.

They come from a seed by a simple model each, the same on every machine and every version of Python: only Python's
random() is drawn from, whose sequence for a seed is guaranteed. They aren't recordings, and nothing was fitted to a
real network. Rates are in Mbit/s of packets of `packet` bytes."""
from __future__ import annotations

import random
from typing import Callable, List, Sequence

Draw = Callable[[], float]

# the rates of a radio as shares of the mean
LADDER = (0.15, 0.3, 0.45, 0.6, 0.8, 1.0, 1.2, 1.35)


def per_millisecond(mbps: float, packet: int) -> float:
    """How many packets a millisecond a rate is."""
    return mbps * 1000 / (8 * packet)


def draw_of(seed: int) -> Draw:
    """A source of numbers from 0 to 1 by a seed."""
    return random.Random(seed).random


def normal(draw: Draw) -> float:
    """A number that is nearly normally distributed: the sum of twelve draws. They are added one by one, since sum()
    rounds in another way from Python 3.12 on."""
    total = 0.0
    for _ in range(12):
        total += draw()
    return total - 6


def arrivals(draw: Draw, mean: float) -> int:
    """How many packets come in a millisecond at random, that many on average."""
    tries = max(20, int(4 * mean) + 1)
    return sum(draw() * tries < mean for _ in range(tries))


def lte(length: int, mean_mbps: float, max_mbps: float | None, packet: int, seed: int) -> List[int]:
    """Packets at random at a rate that wanders each 20 ms and is pulled back to its mean, up to `max_mbps` (three
    times the mean where it is None); from 0 an outage of 20 to 500 ms begins. The model of a cellular link behind
    Sprout (NSDI 2013). `length` is in milliseconds."""
    draw = draw_of(seed)
    mean = per_millisecond(mean_mbps, packet)
    highest = per_millisecond(max_mbps, packet) if max_mbps else 3 * mean
    rate, outage = mean, 0
    times: List[int] = []
    for now in range(1, length + 1):
        if now % 20 == 0:
            rate = min(highest, max(0, rate + 0.01 * (mean - rate) + 0.07 * mean * normal(draw)))
            outage = int(20 + 480 * draw()) if rate == 0 and outage <= 0 else outage - 20
        if outage <= 0:
            times += [now] * arrivals(draw, rate)
    return times


def wifi(length: int, mean_mbps: float, packet: int, seed: int) -> List[int]:
    """Bursts of 1 to 32 packets that leave in one millisecond, as aggregated frames do, with a wait that is the burst's
    time on air and that of other stations; the radio's rate goes up and down the LADDER every 100 to 500 ms."""
    draw = draw_of(seed)
    mean = per_millisecond(mean_mbps, packet)
    rung, now, next_rung = 5, 1.0, 200.0
    times: List[int] = []
    while now <= length:
        if now >= next_rung:
            rung = min(len(LADDER) - 1, max(0, rung + (1 if draw() < 0.5 + (4 - rung) * 0.08 else -1)))
            next_rung += 100 + 400 * draw()
        burst = 1 + int(32 * draw())
        times += [int(now)] * burst
        # half of the time is that of others, on average
        now += burst / (mean * LADDER[rung]) * (0.5 + draw()) * 0.8
    return times


def satellite(length: int, mean_mbps: float, packet: int, seed: int) -> List[int]:
    """A steady rate, drawn anew from 60 to 140 % of the mean each 15 s after a gap of 40 to 160 ms, as when a link
    moves from one satellite of a low orbit to the next."""
    draw = draw_of(seed)
    mean = per_millisecond(mean_mbps, packet)
    rate, sent, gap_until = mean, 0.0, 0
    times: List[int] = []
    for now in range(1, length + 1):
        if now % 15_000 == 1:
            rate, gap_until = mean * (0.6 + 0.8 * draw()), now + 40 + int(120 * draw())
        if now >= gap_until:
            sent += rate
        times += [now] * (int(sent) - len(times))
    return times


def steps(length: int, rates_mbps: Sequence[float], every_s: float, packet: int) -> List[int]:
    """Constant rates one after another, each for `every_s` seconds."""
    rates = [per_millisecond(rate, packet) for rate in rates_mbps]
    sent = 0.0
    times: List[int] = []
    for now in range(1, length + 1):
        sent += rates[(now - 1) // max(1, int(1000 * every_s)) % len(rates)]
        times += [now] * (int(sent + 1e-9) - len(times))
    return times
