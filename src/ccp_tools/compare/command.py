"""The command `ccp compare`."""

from __future__ import annotations

import argparse
import re
import sys
import time
from pathlib import Path
from typing import Any, Dict, List, Mapping, Sequence, Tuple

import pandas as pd

from .. import cautions, metrics, plots, program, result_folder
from ..arguments import Parser, add_ccp, group_of, list_of, shown, warn
from ..errors import CcpError, UsageError, cut
from ..files import name_of
from ..metrics import Window
from ..scenario import LINK_VALUES, add_grid, grid_of, link_values, seconds, thousandths
from ..scenario_files import Scenario, scenario_text
from ..senders import DEFAULT, Settings, files_of, senders, with_settings
from ..tables import AGENTS
from ..toml_files import read_toml, toml_lines
from . import measured, outside, programs, report, shared
from .cases import Comparison, begin_of, outside_of, part_of
from .folder import unused_folder, written_names
from .runs import Progress, Results, Runner, shown_cases

# members of Comparison that are kept in compare.toml as they stand, by the names of their options
KEPT = ("mss", "acks", "slots", "lag", "cut", "aggregate", "title")
# options of which one replaces the other
ALTERNATIVES = (("queue", "queue_ms"), ("seconds", "acks"))
# the most acknowledgements of a calibrating case of --dry-run
TRIAL_ACKS = 256


class Named(List[Any]):
    """Senders with the words that they were given by, and the numbers of --set that made several of one word."""

    words: List[str] = []
    settings: Settings = ()


def named_senders(text: str) -> Named:
    """A parser of --senders that keeps the words."""
    made = Named(senders(accepts_outside=True)(text))
    made.words = [word.strip() for word in text.split(",")]
    return made


def first_seconds(text: str) -> int:
    """A parser of the seconds that are left out, as microseconds."""
    return 0 if thousandths(text) == 0 else seconds(text)


def plot_form(text: str) -> str:
    """The ending of a plot's files."""
    if "." + text not in plots.KINDS:
        raise argparse.ArgumentTypeError("%s is no form of a plot: svg, pdf, png and eps are accepted" % shown(text))
    return text


def add_arguments(parser: argparse.ArgumentParser) -> None:
    """Adds the arguments of `ccp compare`."""
    add_grid(parser)
    actions = parser._option_string_actions
    actions["--senders"].type = named_senders
    actions["--seconds"].help = "what all senders are measured over (the trace's length, at least 30 s)"
    actions["--acks"].help = "acknowledgements of a case, in place of seconds"
    add = group_of(parser, "length").add_argument
    what = "leaves out the first S seconds, as slow start (5; of less than 30 s a sixth; 0 below 10 s)"
    add("--from", dest="begin", type=first_seconds, metavar="S", help=what)
    add("--different-spans", action="store_true", help="accepts cases that are measured over different spans")
    group = group_of(parser, "senders")
    what = "also runs all senders together over each trace, and shows their shares"
    group.add_argument("--shared", action="store_true", help=what)
    measured.add_arguments(group)
    output = group_of(parser, "output")
    add = output.add_argument
    add("--out", metavar="DIR", help="the folder that gets all files (ccp-out, or ccp-out-2 and so on, a new one)")
    forms = list_of(plot_form)
    add("--plots", type=forms, default=["svg"], metavar="LIST", help="forms of plots: svg, pdf, png, eps (svg)")
    add("--dry-run", action="store_true", help="only says how large it is and about how long it takes")
    add("--trust", action="store_true", help="accepts a program, agents outside and a folder that compare.toml names")
    plots.add_look(output)
    actions["--title"].help = "the title of the report"
    add_ccp(output)


# ---- compare.toml


def toml_words(values: Mapping[str, Any], path: str) -> List[str]:
    """The words of the command line that a TOML file stands for."""
    words: List[str] = []
    for name, value in values.items():
        if name == "traces":
            continue
        if name == "links" and isinstance(value, list):
            words += ["--link=" + link_word(one, path) for one in value]
            continue
        if name == "trust":
            raise CcpError("%s: trust: the command line alone says that a file is trusted" % name_of(path))
        if isinstance(value, bool):
            words += ["--" + name] if value else []
        elif name in ("portus", "measured", "set", "link") and isinstance(value, list):
            words += [word for one in value for word in ("--" + name, str(one))]
        elif isinstance(value, (str, int, float, list)):
            parts = value if isinstance(value, list) else [value]
            words.append(
                "--%s=%s" % (name, ",".join("%g" % part if isinstance(part, float) else str(part) for part in parts))
            )
        else:
            raise CcpError("%s: %s: a text, a number, a list or true is expected" % (name_of(path), cut(name)))
    traces = values.get("traces", [])
    if not isinstance(traces, list):
        raise CcpError("%s: traces: a list of files is expected" % name_of(path))
    return words + ["--", *map(str, traces)]


def link_word(values: Any, path: str) -> str:
    """The word of --link that a table [[links]] stands for: its `trace`, its `name` where it has one, and its
    conditions by their names in --link, where `delay-ms` and `timeout-ms` are accepted too."""
    if not isinstance(values, dict) or not isinstance(values.get("trace"), str):
        raise CcpError("%s: links: a table [[links]] with a text `trace` is expected" % name_of(path))
    own = {str(name).removesuffix("-ms"): value for name, value in values.items() if name not in ("trace", "name")}
    for name, value in own.items():
        if name not in LINK_VALUES or isinstance(value, (bool, list, dict)):
            text = "%s: links: %s: one value is expected of trace, name, %s"
            raise CcpError(text % (name_of(path), cut(name), ", ".join(LINK_VALUES)))
    conditions = ",".join(
        "%s=%s" % (name, "%g" % value if isinstance(value, float) else value) for name, value in own.items()
    )
    return "".join(
        ["%s=" % values["name"] if "name" in values else "", values["trace"], conditions and ":" + conditions]
    )


def with_file(arguments: argparse.Namespace) -> argparse.Namespace:
    """The arguments with those of the file compare.toml that is given in place of traces. What is given beside the file
    goes before it. What the file runs, and where it writes, is refused without --trust beside it."""
    paths = [path for name, path in arguments.traces if name is None and path.endswith(".toml")]
    if not paths:
        return arguments
    if len(arguments.traces) > 1 or arguments.link:
        raise UsageError("%s: it has the traces, so none is given beside it" % name_of(paths[0]))
    parser = Parser(prog="ccp compare")
    add_arguments(parser)
    try:
        made = parser.parse_args(toml_words(read_toml(paths[0]), paths[0]))
    except UsageError as error:
        raise CcpError("%s: %s" % (name_of(paths[0]), error)) from None
    defaults = vars(parser.parse_args(["trace"]))
    given = {name: value for name, value in vars(arguments).items() if value != defaults.get(name)}
    given.pop("traces", None)
    if not arguments.trust:
        check_trust(made, given, paths[0])
    for pair in ALTERNATIVES:
        if set(pair) & set(given):
            given = {**dict.fromkeys(pair), **given}
    for name, value in given.items():
        setattr(made, name, value)
    return made


def check_trust(made: argparse.Namespace, given: Mapping[str, Any], path: str) -> None:
    """Refuses what the options `made` of a file would run, or where they would write, but for what the options `given`
    beside it replace. The file itself can't allow it."""
    named = [("ccp", made.ccp), ("out", made.out)]
    named += [("senders", one.file) for one in made.senders or [] if one.file]
    for name, value in named:
        if value is not None and name not in given:
            what = "writes to" if name == "out" else "runs"
            text = "%s: %s: it %s %s: --trust accepts that, if you trust the file"
            raise CcpError(text % (name_of(path), name, what, cut(str(value))))


def toml_text(arguments: argparse.Namespace, grid: Comparison) -> str:
    """The options of a comparison as compare.toml has them."""
    values: Dict[str, Any] = {
        "traces": ["%s=%s" % (name, path) if name else path for name, path in arguments.traces],
        "senders": list(dict.fromkeys(arguments.senders.words)),
        "portus": ["%s=%s" % pair for pair in arguments.portus],
        "link": [one.text for one in arguments.link],
        "set": ["%s=%s" % (name, ",".join(map(str, numbers))) for name, numbers in arguments.senders.settings],
        **link_values(arguments, grid),
    }
    for name in KEPT:
        values[name] = getattr(arguments, name)
    for name, us in (("seconds", arguments.seconds), ("from", arguments.begin)):
        values[name] = None if us is None else us / 1e6
    values["timeout-ms"] = arguments.timeout_ms and arguments.timeout_ms / 1000
    values["different-spans"], values["shared"] = arguments.different_spans, arguments.shared
    values["measured"] = ["%s=%s" % pair for pair in arguments.measured]
    values["plots"] = arguments.plots if arguments.plots != ["svg"] else None
    size = arguments.size
    values["size"] = None if size == "screen" else size if isinstance(size, str) else "%dx%d" % size
    name, points = arguments.font
    values["font"] = name if points is None else "%s,%g" % (name, points)
    if values["font"] == plots.FONT:
        del values["font"]
    trust = "--trust " if any(one.file for one in arguments.senders) else ""
    return "# ccp compare compare.toml %s--out DIR\n%s" % (trust, toml_lines(values))


# ---- the comparison


def with_numbers(found: Named, arguments: argparse.Namespace) -> Named:
    """The senders that --set makes of those of --senders, each with the word of its own."""
    groups = with_settings(found, arguments.portus, arguments.set)
    made = Named(one for some in groups for one in some)
    made.words = [word for word, some in zip(found.words, groups) for _ in some]
    made.settings = arguments.set
    return made


def comparison_of(arguments: argparse.Namespace) -> Comparison:
    """The grid that the arguments ask for."""
    if arguments.set and not arguments.senders.settings:
        arguments.senders = with_numbers(arguments.senders, arguments)
    plain = argparse.Namespace(**{**vars(arguments), "mode": "campaign", "whole": True, "set": []})
    plain.steps = plain.cwnd = plain.shared = None
    return Comparison(**vars(grid_of(plain)), is_by_acks=arguments.acks is not None)


def windows_of(grid: Comparison, scenario: Scenario, begin_us: int | None) -> Dict[str, Window]:
    """The window of time of each trace, which begins as begin_of says where no time is given."""
    for name, span in grid.spans_us.items():
        if begin_us is not None and span <= begin_us:
            raise UsageError("--from %g: %s is measured over %g s" % (begin_us / 1e6, name, span / 1e6))
    spans = {name: grid.spans_us.get(name) for name in scenario["traces"]}
    return {name: Window(begin_of(span) if begin_us is None else begin_us, span) for name, span in spans.items()}


def begin_given(arguments: argparse.Namespace) -> int | None:
    """The seconds that are left out, where the arguments say so: a log of --measured counts from its first packet."""
    return 0 if arguments.begin is None and arguments.measured else arguments.begin


def answered_of(arguments: argparse.Namespace) -> List[str]:
    """The senders whose agent is named, so that it is meant to answer their program."""
    found = []
    for one, word in zip(arguments.senders, arguments.senders.words):
        rest = word.partition("=")[2] or word
        if one.programs() and rest.split(":")[0] == one.agent:
            found.append(one.label)
    return found


def run(arguments: argparse.Namespace) -> int:
    """Runs `ccp compare`."""
    arguments = with_file(arguments)
    arguments.senders = arguments.senders or named_senders(DEFAULT)
    grid = comparison_of(arguments)
    scenario = grid.scenario()
    if not arguments.quiet:
        for text in [*grid.notes, *(one.line() for one in cautions.found(scenario, recorded=grid.recorded))]:
            warn(text)
    if arguments.dry_run:
        path, _ = checked_program(arguments, scenario)
        print(size_text(grid, scenario, path), end="")
        return 0
    check_shared(arguments)
    windows = windows_of(grid, scenario, begin_given(arguments))
    progress, out = Progress(arguments.quiet), Path(arguments.out or unused_folder())
    with result_folder.opened(out, names_of(arguments)) as folder:
        path, remarks = checked_program(arguments, scenario)
        beside = measured.read(arguments.measured, grid.recorded, windows)
        say_spans(progress, grid, windows)
        options = toml_text(arguments, grid)
        folder.write("compare.toml", options)
        folder.write("scenario.json", scenario_text(scenario))
        results = run_cases(arguments, scenario, windows, Runner(path, folder.room, progress))
        page = page_of(arguments, grid, scenario, results, windows, folder, progress, path, remarks, beside)
        folder.write("report.html", page.html(options))
        folder.keep()
    progress.say("the report: %s" % name_of(out / "report.html"))
    if any(one.file for one in arguments.senders):
        progress.say("ccp compare compare.toml runs its agents outside again, which takes --trust")
    sys.stdout.write(page.summary())
    if not arguments.out:
        print("report: %s" % (out / "report.html"))
    return 0


def names_of(arguments: argparse.Namespace) -> re.Pattern[str]:
    """The names of the files that a comparison may write."""
    outside_labels = [one.label for one in arguments.senders if one.file]
    return written_names(arguments.plots, bool(arguments.seeds), arguments.shared, outside_labels)


def checked_program(arguments: argparse.Namespace, scenario: Scenario) -> Tuple[Path, List[str]]:
    """The program to run, and what `explain` warns of in the senders' programs. One that it refuses is a CcpError, as
    is an agent outside that can't run; --dry-run doesn't load such an agent."""
    path = program.find_program(arguments.ccp)
    remarks = programs.check(files_of(arguments.senders, arguments.portus), scenario["programs"], path)
    outside.check(arguments.senders, path, is_loaded=not arguments.dry_run)
    if not arguments.quiet:
        for text in remarks:
            warn(text)
    return path, remarks


def pages_words(count: int) -> str:
    """What is said of the pages of plots of some senders, where they are more than a panel shows."""
    most = plots.MOST_SENDERS
    return "" if count <= most else ": %d senders, %d a panel, so on several pages" % (count, most)


def check_shared(arguments: argparse.Namespace) -> None:
    """Refuses --shared with more senders than a plot tells apart."""
    count, most = len(arguments.senders), plots.MOST_SENDERS
    if arguments.shared and count > most:
        raise UsageError("--shared: %d senders, and at most %d are shown together" % (count, most))


def run_cases(
    arguments: argparse.Namespace, scenario: Scenario, windows: Mapping[str, Window], runner: Runner
) -> Results:
    """Runs the cases of a comparison."""
    numbers = [number for some in shown_cases(scenario).values() for number in some]
    runner.outside = {one.label: one.file for one in arguments.senders if one.file}
    return runner.run(scenario, windows, answered_of(arguments), numbers)


def page_of(
    arguments: argparse.Namespace,
    grid: Comparison,
    scenario: Scenario,
    results: Results,
    windows: Mapping[str, Window],
    folder: result_folder.Folder,
    progress: Progress,
    path: Path,
    remarks: Sequence[str],
    beside: Sequence[measured.RealSender] = (),
) -> report.Page:
    """Writes the figures and the plots, and returns what the report shows, with the real senders `beside`."""
    frame = results.figures
    by = ["trace", "sender", *report.varying_of(frame)]
    groups = metrics.groups(frame, by) if frame["seed"].nunique() > 1 else None
    columns = [*metrics.columns_of(scenario)[0], *metrics.METRICS, "doubts"]
    folder.write("metrics.csv", metrics.csv_text(frame[columns]))
    folder.write("metrics.json", metrics.json_text(frame[columns], None, ()))
    if groups is not None:
        folder.write("groups.csv", metrics.csv_text(groups))
        folder.write("groups.json", metrics.json_text(groups, by, metrics.METRICS))
    if not arguments.quiet:
        metrics.print_doubts(frame)
    if metrics.spans_differ(frame) and not arguments.different_spans:
        raise CcpError(different_spans(frame))
    sharings = shared.run_all(scenario, windows, folder.room, progress, path) if arguments.shared else []
    if sharings:
        folder.write("shared.json", shared.json_text(sharings))
    progress.say("plots%s" % pages_words(len(arguments.senders)))
    forms = ["." + form for form in arguments.plots]
    made = report.draw(scenario, results, folder.room, plots.look_of(arguments), windows, sharings, forms)
    real = report.Real(measured.rows_of(beside, by), measured.notes_of(beside))
    return report.Page(
        arguments, grid, scenario, frame, by, groups, results, made, windows, path, sharings, remarks, real
    )


def different_spans(frame: pd.DataFrame) -> str:
    """What is wrong with a comparison of different spans."""
    spans = frame.groupby("trace", sort=False)["span_s"].agg(["min", "max"])
    trace = (spans["max"] / spans["min"]).idxmax()
    values = (trace, spans["min"][trace], spans["max"][trace])
    text = "the senders on %s are measured over %.3g to %.3g s, which isn't comparable"
    return text % values + ": --seconds S measures all over the same; --different-spans accepts it"


def say_spans(progress: Progress, grid: Comparison, windows: Mapping[str, Window]) -> None:
    """Says what the senders are measured over."""
    for name, window in windows.items():
        if window.until_us is not None:
            begin = "%g to " % (window.begin_us / 1e6) if window.begin_us else ""
            progress.say("trace %s: every sender is measured over %s%g s" % (name, begin, window.until_us / 1e6))


# ---- --dry-run


def size_text(grid: Comparison, scenario: Scenario, path: Path) -> str:
    """How large a comparison is, and about how long it takes."""
    acks = sum(case["acks"] for case in scenario["cases"])
    lines = ["cases=%d" % len(scenario["cases"]), "acknowledgements=%d" % acks]
    lines += ["trace %s seconds=%g" % (name, span / 1e6) for name, span in grid.spans_us.items()]
    lines.append("disk=%.0f MB" % ((155 * acks + len(scenario_text(scenario)) + 2e6) / 1e6))
    lines.append("time=about %.0f s" % estimated_s(scenario, path, acks))
    return "\n".join(lines) + "\n"


def estimated_s(scenario: Scenario, path: Path, acks: int) -> float:
    """About how many seconds a comparison takes: one case is run, and each acknowledgement is printed, counted twice
    more, checked once without other workers, and read."""
    # an agent outside takes what its own code takes; the datapath does the same for it as for another one
    case = {**scenario["cases"][0]}
    if outside_of(case):
        case["agent"] = next(iter(AGENTS))
    seen = []
    for count in (0, min(TRIAL_ACKS, case["acks"])):
        trial = part_of(scenario, [{**case, "acks": count}])
        begun = time.monotonic()
        program.run("acks", trial, program=path, workers=1)
        seen.append(time.monotonic() - begun)
    each = max(0.0, seen[1] - seen[0]) / max(1, min(TRIAL_ACKS, case["acks"]))
    workers = min(program.processors(), len(scenario["cases"]))
    return 4 * seen[0] + acks * each * (3 / workers + 1) + acks * 1e-5 + 5 * (1 + len(scenario["traces"]) / 3)
