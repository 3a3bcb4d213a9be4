"""The folder of a hunt: the scenario that runs the find again, its picture, and the hunt as data; and the corpus, a
folder of found links that later hunts begin with."""
from __future__ import annotations

import argparse
import hashlib
import json
import math
import re
from dataclasses import asdict
from pathlib import Path
from typing import Any, Dict, List

from .. import program, result_folder
from ..errors import CcpError
from ..files import read_text, reason_of, write_text
from ..scenario_files import Scenario, scenario_text
from . import faults, wording
from .hunted import Effort, Hunted, Quarry
from .links import Link, link_of
from .options import toml_text
from .runs import Outside

# the names of the files that a hunt may write
NAMES = "hunt.toml hunt.json found.trace found.txt scenario.json table.txt references.txt flows.svg fault.ccp fault.txt"
WRITTEN = re.compile("|".join(map(re.escape, NAMES.split())))


def check_folder(path: str | None) -> None:
    """Refuses a folder that can't be one, before anything is run."""
    if path is not None and Path(path).exists() and not Path(path).is_dir():
        raise CcpError("%s is a file, and --out is a folder" % path)


# ---- what is found, as a scenario


def scenario_of(quarry: Quarry, link: Link) -> Scenario:
    """The scenario that runs a find again: the sender and the reference that counts. That of a fault ends with it."""
    flows = [flow for flow, _ in quarry.shown(link)]
    made = quarry.runs.scenario(link, flows)
    if is_fault(quarry) and len(made["cases"]) == 1:
        return faults.cut_at_fault(made, quarry.runs.path)
    return made


def is_fault(quarry: Quarry) -> bool:
    """Whether faults are looked for."""
    return quarry.goal.runs == "tables"


def mode_of(quarry: Quarry) -> str:
    """The mode whose table is that of the find."""
    return "shared" if quarry.goal.runs == "shared" else "campaign"


# ---- the folder


def texts_of(arguments: argparse.Namespace, effort: Effort, quarry: Quarry, made: Hunted) -> Dict[str, str]:
    """The files of a hunt but its picture, by their names."""
    files = {"hunt.toml": toml_text(arguments)}
    data = data_of(arguments, effort, quarry, made)
    if made.small is None or not made.is_found:
        return {**files, "hunt.json": json_text(data)}
    link, path = made.small.link, quarry.runs.path
    shown = quarry.shown(link)
    scenario = scenario_of(quarry, link)
    said = [wording.sentence(quarry, link, shown)]
    said += [faults.words(scenario, path)] if is_fault(quarry) else []
    said += [wording.near_words(made)] if made.near else []
    said += ["caution: " + text for text in wording.cautions(quarry, link, shown)]
    data.update(text=said[0], figures={flow.label: dict(one) for flow, one in shown})
    files.update({"hunt.json": json_text(data), "found.trace": link.trace(), "found.txt": "\n".join(said) + "\n"})
    if isinstance(quarry.runs, Outside):
        files["table.txt"] = quarry.runs.driven(link).text("drive-table")
    if scenario["cases"]:
        files["scenario.json"] = scenario_text(scenario)
        table = program.run(mode_of(quarry), scenario, program=path).output
        files["references.txt" if "table.txt" in files else "table.txt"] = table
    return {**files, **(faults.files_of(scenario, path) if is_fault(quarry) else {})}


def data_of(arguments: argparse.Namespace, effort: Effort, quarry: Quarry, made: Hunted) -> Dict[str, Any]:
    """All of a hunt as data. Scores of links without a figure are null."""
    data: Dict[str, Any] = {"sender": arguments.sender, "goal": quarry.goal.name, "against": quarry.against}
    data.update(program=program.identity(quarry.runs.path).sha256, effort=asdict(effort), links=made.found.links)
    data["class"] = asdict(quarry.of)
    data["steps"] = [{"links": links, "score": plain(score)} for links, score in made.found.steps]
    data["is_found"] = made.is_found
    if made.best is not None and made.small is not None:
        data["best"] = {"score": made.best.score, **made.best.link.data()}
        data["small"] = {"score": made.small.score, **made.small.link.data()}
        data.update(shrink_links=made.shrink_links, holds=made.holds, near=[plain(score) for score in made.near])
    return data


def plain(score: float) -> float | None:
    """A score as JSON has it."""
    return score if math.isfinite(score) else None


def json_text(data: Dict[str, Any]) -> str:
    """The text of data, one line a member, and one for each step."""
    return json.dumps(data, indent=1) + "\n"


def write(arguments: argparse.Namespace, files: Dict[str, str], picture_s: float) -> None:
    """Writes the files of a hunt to its folder, in place of those that an earlier hunt wrote there; where `picture_s`
    isn't 0, also a picture of that many seconds."""
    with result_folder.opened(Path(arguments.out), WRITTEN) as folder:
        for name, text in files.items():
            folder.write(name, text)
        if picture_s:
            draw(folder.room, program.find_program(arguments.ccp), picture_s)
        folder.keep()


def draw(folder: Path, path: Path, seconds: float) -> None:
    """Draws the link and the senders of a find over its seconds, as `ccp plot flows` does."""
    from .. import cli

    given = folder / "scenario.json"
    texts = {mode: folder / ("%s.txt" % mode) for mode in ("timeline", "acks")}
    for mode, file in texts.items():
        write_text(file, program.run(mode, given.read_bytes(), program=path).output)
    words = ["plot", "flows", "--quiet", "--scenario", str(given), "--acks-file", str(texts["acks"])]
    words += ["--until", "%g" % seconds, str(texts["timeline"]), str(folder / "flows.svg")]
    status = cli.main(words)
    for file in texts.values():
        file.unlink()
    if status:
        raise CcpError("the picture %s can't be drawn" % (folder / "flows.svg"))


# ---- the corpus


def corpus_of(path: str | None) -> List[Link]:
    """The links of a corpus, in the order of their files' names. A folder that isn't there has none."""
    if path is None:
        return []
    folder = Path(path)
    if folder.exists() and not folder.is_dir():
        raise CcpError("%s is a file, and --corpus is a folder" % path)
    return [corpus_link(file) for file in sorted(folder.glob("*.json"))]


def corpus_link(file: Path) -> Link:
    """The link of a file of a corpus."""
    try:
        return link_of(json.loads(read_text(file))["link"])
    except (ValueError, KeyError, TypeError, IndexError) as error:
        raise CcpError("%s: no link of `ccp hunt`: %s" % (file, error)) from None


def add_to_corpus(path: str, link: Link, goal: str, text: str) -> Path | None:
    """Adds a link to a corpus, and returns its file; None where it has the link already."""
    if link in corpus_of(path):
        return None
    data = link.data()
    digest = hashlib.sha256(json.dumps(data, sort_keys=True).encode()).hexdigest()
    file = Path(path) / ("link-%s.json" % digest[:12])
    try:
        file.parent.mkdir(parents=True, exist_ok=True)
    except OSError as error:
        raise CcpError("%s: %s" % (path, reason_of(error))) from None
    write_text(file, json.dumps({"link": data, "for": goal, "found": text}, indent=1) + "\n")
    return file
