"""The command `ccp hunt`."""
from __future__ import annotations

import argparse
import sys
import time
from typing import List

from .. import program
from ..arguments import warn
from . import faults, files, wording
from .hunted import SEARCHES, Effort, Hunted, Quarry, hunted, quarry_of
from .links import LinkClass
from .options import add_arguments, class_of, effort_of, goal_of, with_file
from .search import SIZE, Search

__all__ = ["add_arguments", "run"]


def run(arguments: argparse.Namespace) -> int:
    """Runs `ccp hunt`."""
    arguments = with_file(arguments)
    goal, of, effort = goal_of(arguments), class_of(arguments), effort_of(arguments)
    files.check_folder(arguments.out)
    known = files.corpus_of(arguments.corpus)
    quarry = quarry_of(
        arguments.sender,
        goal,
        of,
        arguments.against,
        begin_us=round(1e6 * (arguments.begin or 0)),
        path=program.find_program(arguments.ccp),
        workers=arguments.workers or program.processors(),
        portus=arguments.portus,
    )
    if arguments.dry_run:
        sys.stdout.write(dry_run(quarry, effort))
        return 0
    begun = time.monotonic()
    made = hunted(goal, of, quarry.scores, effort, known)
    if not arguments.quiet:
        note(quarry, made, time.monotonic() - begun)
    return finished(arguments, effort, quarry, made)


def finished(arguments: argparse.Namespace, effort: Effort, quarry: Quarry, made: Hunted) -> int:
    """Prints what was found, writes it, and returns the exit status."""
    sys.stdout.write(report(quarry, made))
    if arguments.out:
        texts = files.texts_of(arguments, effort, quarry, made)
        files.write(arguments, texts, quarry.of.seconds if "scenario.json" in texts and is_drawn(quarry) else 0)
    if made.is_found and made.small and arguments.corpus:
        link = made.small.link
        text = wording.sentence(quarry, link, quarry.shown(link))
        added = files.add_to_corpus(arguments.corpus, link, quarry.goal.name, text)
        if added and not arguments.quiet:
            program.note("ccp hunt: %s has the link" % added)
    return int(made.is_found) if arguments.asserted else int(not made.is_found)


def is_drawn(quarry: Quarry) -> bool:
    """Whether a find has a picture: that of flows on one link would need other modes."""
    return quarry.goal.runs == "measured" and not quarry.flows[0].file


def note(quarry: Quarry, made: Hunted, seconds: float) -> None:
    """Says how the hunt went, on standard error."""
    links = made.found.links + made.shrink_links + len(made.near)
    text = "ccp hunt: %d links in %.1f s" % (links, seconds)
    program.note(text + (", %d of them to make the find small" % made.shrink_links if made.small else ""))
    if made.small and made.is_found:
        for caution in wording.cautions(quarry, made.small.link, quarry.shown(made.small.link)):
            warn(caution)


def report(quarry: Quarry, made: Hunted) -> str:
    """What is printed: the find as a sentence, the table of its senders, and on how many near links it holds."""
    if made.small is None:
        return "%s\n" % nothing(quarry, made)
    link = made.small.link
    shown = quarry.shown(link)
    said = wording.sentence(quarry, link, shown)
    if not made.is_found:
        text = "%s: what was found %s, a coincidence:\n%s\n"
        return text % (nothing(quarry, made), wording.near_words(made), said)
    lines = [said, wording.table(quarry, shown).rstrip("\n")]
    if files.is_fault(quarry):
        lines.insert(1, faults.words(files.scenario_of(quarry, link), quarry.runs.path))
    return "\n".join([*lines, *([wording.near_words(made)] if made.near else [])]) + "\n"


def nothing(quarry: Quarry, made: Hunted) -> str:
    """What is said where there is no find."""
    if quarry.goal.keeps or files.is_fault(quarry):
        return "no link of %d is found for %s" % (made.found.links, quarry.goal.name)
    return "no link of %d breaks %s" % (made.found.links, quarry.goal.name)


# ---- --dry-run


def dry_run(quarry: Quarry, effort: Effort) -> str:
    """What is searched through, how many links a second, and about how long it takes."""
    begun = time.monotonic()
    SEARCHES["chance"](Search(quarry.of, quarry.scores, SIZE, effort.seed + 1, float("inf")))
    each = (time.monotonic() - begun) / SIZE
    lines = class_words(quarry.of)
    lines += ["senders=%s" % ",".join(flow.label for flow in quarry.flows)]
    lines += ["links=%d" % effort.links, "links a second=about %.0f" % (1 / each)]
    return "\n".join([*lines, "time=about %.1f s and what making it small takes" % (effort.links * each)]) + "\n"


def class_words(of: LinkClass) -> List[str]:
    """The class of links, a range a line."""
    low, high = of.queue_bdp or of.queue
    unit = " bdp" if of.queue_bdp else " packets"
    rate = "rate=%g..%g Mbit/s" % of.rate_mbps
    if of.base:
        rate = "trace=%g Mbit/s, each of its slots changed by at most %g %%" % (of.rate_mbps[0], 100 * of.change)
    return [
        "seconds=%g, slots of %d ms" % (of.seconds, of.slot_ms),
        rate if of.base else "%s, at most %g times that in a slot, gaps of at most %d ms" % (rate, of.peak, of.gap_ms),
        "queue=%g..%g%s" % (low, high, unit),
        "delay=%g..%g ms" % (of.delay_us[0] / 1000, of.delay_us[1] / 1000),
        "timeout=%g..%g ms, lag=%d..%d" % (of.timeout_us[0] / 1000, of.timeout_us[1] / 1000, *of.lag),
        "mss=%d..%d, mark=%d..%d, losses=0..%d" % (*of.mss, *of.mark, of.losses),
    ]
