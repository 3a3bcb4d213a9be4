"""Packets of several segments, as segmentation offload sends them on fast links.

`count` chances of a link become one packet of `count` segments. The packet leaves at the last of its chances, so the
link's rate stays, and a case reaches `count` times as far. What is given in segments is counted in such packets:
queues, marks, the lag of answers, and losses, where a packet is lost if one of its segments is."""
from __future__ import annotations

import math
from dataclasses import dataclass
from typing import List, Sequence

from .errors import CcpError
from .losses import Loss
from .tables import LIMITS


# a trace of more packets than this isn't repeated: it would be longer than without aggregation
MOST_REPEATED = 4096


@dataclass(frozen=True)
class Aggregated:
    """The times of a trace of packets, in milliseconds, and how many chances at its end no packet of their own has."""

    times: List[int]
    left_over: int = 0


def aggregated(times: Sequence[int], count: int, path: str) -> Aggregated:
    """The times of every `count`th chance, with the same period.

    A short trace whose chances aren't a multiple of `count` is repeated until they are, so that its rate stays exactly
    the same. Of a longer one at most `count` - 1 chances at the end go with the last packet, so the rate is lower by
    less than `count` in the number of chances. A trace of fewer chances than a packet needs, which would have to be
    repeated for too long, is a CcpError that names the file at `path`."""
    turns = count // math.gcd(len(times), count)
    is_short = turns * len(times) <= MOST_REPEATED * count and turns * times[-1] <= LIMITS["trace_ms"]
    if is_short:
        repeated = [turn * times[-1] + time for turn in range(turns) for time in times]
        return Aggregated(repeated[count - 1 :: count])
    if len(times) < count:
        text = "%s: --aggregate %d needs %d turns of its %d chances, which are longer than %d ms"
        raise CcpError(text % (path, count, turns, len(times), LIMITS["trace_ms"]))
    made = list(times[count - 1 :: count])
    # the last packet leaves when the trace ends, so that the trace begins anew when it did
    made[-1] = times[-1]
    return Aggregated(made, len(times) % count)


def packets_of(segments: int, count: int) -> int:
    """How many packets some segments are, rounded to the nearest number, at least 1; 0 stays 0."""
    return max(1, (segments + count // 2) // count) if segments else 0


def lost_packets(segments: Sequence[int], count: int) -> List[int]:
    """The numbers of the packets that hold one of these segments."""
    return list(dict.fromkeys(number // count for number in segments))


def share_lost(one: Loss, count: int) -> float | None:
    """The share of packets of `count` segments that is lost on average; None where the losses are listed."""
    if not one.chances or count == 1:
        return one.rate
    # none is lost: the first segment comes through, and after each of the others no burst begins
    return round(1 - (1 - (one.rate or 0)) * (1 - one.chances[0]) ** (count - 1), 6)
