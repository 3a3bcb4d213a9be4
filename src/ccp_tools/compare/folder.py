"""The folder of a comparison, and the names of the files that it writes there."""

from __future__ import annotations

import itertools
import os
import re
from typing import Sequence

# the folder of a comparison that names none
FOLDER = "ccp-out"

# the files of every comparison; NAME stands for letters that names of traces and senders have
TEXTS = "compare.toml scenario.json table.txt timeline.txt acks.txt metrics.csv metrics.json report.html files.json"
PLOTS = ("bars", "scatter", "overall", "delay", "flows-NAME", "shared-NAME")
NAME = "[A-Za-z0-9_.-]+"


def written_names(forms: Sequence[str], has_seeds: bool, is_shared: bool, outside: Sequence[str]) -> re.Pattern[str]:
    """The names of files that a comparison may write: with plots of some forms, as svg, over seeds or not, with
    --shared or not, and with the recordings of agents outside with these labels."""
    names = TEXTS.split() + (["groups.csv", "groups.json"] if has_seeds else [])
    found = [re.escape(name) for name in names]
    kinds = [name for name in PLOTS if is_shared or not name.startswith("shared")]
    endings = "|".join(sorted({"svg", *forms}))
    found += ["%s(-[0-9]+)?[.](%s)" % (name.replace("NAME", NAME), endings) for name in kinds]
    if is_shared:
        found += ["shared[.]json", "shared-%s[.](json|txt)" % NAME]
    found += [r"%s(\+[0-9]+)?[.]drive" % re.escape(label) for label in outside]
    return re.compile("|".join(found))


def unused_folder() -> str:
    """The first of FOLDER, FOLDER-2, FOLDER-3 and so on that isn't there: no comparison before loses its files."""
    names = itertools.chain([FOLDER], ("%s-%d" % (FOLDER, number) for number in itertools.count(2)))
    return next(name for name in names if not os.path.lexists(name))
