"""Which loss rates are those of slow start.

A sender's first slow start ends by overflowing the queue, and what it loses then is lost once, however long it runs. So
a loss rate that is mostly this overflow depends on the length of the run, and says little about how the sender loses
later. Senders with HyStart, as Linux's CUBIC, don't have this overflow (docs/fidelity.md)."""

from __future__ import annotations

from typing import TYPE_CHECKING, Any, List, Mapping, Sequence

if TYPE_CHECKING:
    import pandas as pd

# The losses up to this time are counted as slow start's. In the 36 cases of bench/fidelity, with queues of 50 to 250
# packets and 20 and 80 ms, slow start ends by its overflow within 4 s, also where the rate falls as on `wave`.
UNTIL_US = 5_000_000
# a loss rate is marked where more than this share of its losses is slow start's
MOST_SHARE = 0.5
FIGURE = "slow_start_loss_share"


def of_acks(case: Mapping[str, Any], frame: pd.DataFrame) -> float | None:
    """The share of the lost packets of acknowledgements that is lost up to UNTIL_US, from 0 to 1. None where nothing is
    lost, and where a case loses packets beside those of the queue, which may come at any time."""
    lost = frame["lost_pkts_sample"].to_numpy().astype("int64")
    if not lost.any() or case.get("losses"):
        return None
    return float(lost[frame["now"].to_numpy() <= UNTIL_US].sum() / lost.sum())


def of_table(case: Mapping[str, Any], span_us: int, lost: int) -> float | None:
    """The same of a row of a table, which has no times: 1 where the run isn't longer than UNTIL_US, else None."""
    return 1.0 if lost and span_us <= UNTIL_US and not case.get("losses") else None


def is_marked(share: Any) -> bool:
    """Whether a loss rate with this share is one of slow start."""
    return share is not None and share == share and share > MOST_SHARE


def note_of(names: Sequence[str], shares: Sequence[Any]) -> List[str]:
    """A line about the loss rates that are those of slow start, if there are any: `names` are what they are of."""
    marked = [name for name, share in zip(names, shares) if is_marked(share)]
    if not marked:
        return []
    shown = ", ".join(marked[:6]) + (" and %d more" % (len(marked) - 6) if len(marked) > 6 else "")
    text = "most losses are slow start's, in the first %g s; a longer run with --from %g leaves them out: %s"
    return [text % (UNTIL_US / 1e6, UNTIL_US / 1e6, shown)]
