"""The figures in a folder: the tables that are printed of them, the parts of pages, and what the limits find."""

from __future__ import annotations

from dataclasses import dataclass, field
from pathlib import Path
from typing import Dict, List

from ccp_tools.errors import CcpError

from . import chance, limits, links, pages, results, shares, spread


@dataclass
class Kept:
    """`printed` are tables, `made` the parts of pages by their names, and `found` what each limit finds."""

    printed: List[str] = field(default_factory=list)
    made: Dict[str, str] = field(default_factory=dict)
    found: List[limits.Finding] = field(default_factory=list)


def kept_in(folder: Path) -> Kept:
    """What the files of a folder give. A folder without any is a CcpError."""
    kept, changes = Kept(), None
    if (folder / "spread.csv").exists():
        changes = results.read(folder / "spread.csv", spread.COLUMNS)
        kept.printed.append(pages.changes_table(changes))
    if (folder / "results.csv").exists():
        frame = results.read(folder / "results.csv")
        kept.found = limits.findings(frame, limits.reference_of(frame), changes)
        kept.made.update(pages.sections(frame, kept.found, changes))
        kept.printed += [pages.grid(frame), kept.made["orders"]]
    if (folder / "chance.csv").exists():
        frame = results.read(folder / "chance.csv", chance.COLUMNS_OF_CHANCE)
        made = {"chance": chance.throughput(frame), "leads": chance.leads(frame)}
        kept.made.update(made)
        kept.printed += made.values()
        kept.found += chance.findings(frame, limits.reference_of(frame))
    if (folder / "shares.csv").exists():
        kept.made["shares"] = shares.shares_table(results.read(folder / "shares.csv", shares.COLUMNS))
        kept.printed.append(kept.made["shares"])
    if (folder / "links" / "served.csv").exists():
        some, served = links.read(folder / "links"), links.read_served(folder / "links")
        kept.made["links"] = links.served_table(some, served)
        kept.printed.append(kept.made["links"])
        kept.found += links.findings(some, served)
    if kept.found:
        kept.made["limits"] = pages.limits(kept.found)
        kept.printed.append(kept.made["limits"])
    if not kept.printed:
        raise CcpError("%s: no results.csv or other figures of bench/fidelity are there" % folder)
    return kept
