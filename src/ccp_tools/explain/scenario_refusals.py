"""What is wrong with a scenario that `ccp` refuses, and how to mend it."""
from __future__ import annotations

import re
from typing import Callable, Dict, List, Optional

from ..tables import AGENTS, BUILT_INS, LIMITS, MODES
from . import program_refusals
from .asking import total_acks
from .findings import (
    Finding,
    Text,
    cut,
    did_you_mean,
    hints_of_file,
    looks_like_path,
    looks_like_trace,
    nearest,
    pointed,
)
from .json_places import Value
from .scenarios import NAME, Scenario, reads
from .sentences import OF_SCENARIOS

# members that `ccp` ignores and that say nothing wrong: of editors, and what `ccp scenario` writes for `ccp metrics`
NOTES = re.compile(r"[$_].*|comment|note|description|title|sender|seed|rate|loss|segments|aggregate")
TRACE_FROM_HERE = "`ccp scenario %s ..` makes one."
# the modes that `ccp over` splits, with its option for each
SPLIT = {"campaign": "", "timeline": " --timeline", "acks": " --acks"}
Explain = Callable[[Scenario, str, str, Value, str, Value, str], Finding]


def more_cases(mode: str) -> str:
    """What takes more cases than a run of a mode."""
    if mode in SPLIT:
        return " `ccp over%s` takes any number." % SPLIT[mode]
    if mode == "live":
        return " `campaign` takes 1024, and `ccp over --timeline` prints reports of any number."
    return ""


def refusal_of(scenario: Scenario, mode: str, reason: str) -> Finding:
    """The finding of a refusal, as `range cases[0].mss`."""
    kind, _, rest = reason.partition(" ")
    if kind == "json":
        return json_refusal(scenario, reason)
    if kind == "program":
        return program_refusal(scenario, mode, reason, rest)
    if kind == "trace":
        return trace_refusal(scenario, reason, rest)
    if kind == "totals":
        return totals_refusal(scenario, mode, reason)
    within, name, value = scenario.found(rest)
    of = "whole"
    if rest.startswith("shared."):
        of = "bottleneck"
    elif rest.startswith("cases["):
        of = scenario.case_kind(mode)
    found = EXPLAINED[kind](scenario, mode, of, within, name, value, rest)
    found.what = reason.rstrip()
    # the causes of `wrong` are many, and the hints name the one
    general = [] if kind == "wrong" and found.hints else [" ".join(OF_SCENARIOS[kind])]
    found.hints = general + found.hints + wrong_mode(scenario, mode)
    return found


def wrong_mode(scenario: Scenario, mode: str) -> List[str]:
    """A hint where the scenario looks like one of another mode."""
    looks = scenario.mode()
    if looks == "rollout" and reads(mode) != "rollout":
        return ["Its cases have `steps` or `cwnd`: this looks like a scenario of `rollout`."]
    if reads(mode) == "rollout" and looks != "rollout":
        return ["No case has `steps` or `cwnd`: this looks like a scenario of `%s`." % looks]
    if reads(mode) == "shared" and looks == "campaign":
        return ["It has no member `shared`: this looks like a scenario of `campaign` or `live`."]
    return []


# ---- no JSON


def json_refusal(scenario: Scenario, reason: str) -> Finding:
    """The finding of a text that isn't JSON."""
    why = scenario.broken
    if why is None:
        return Finding("refused", 0, 0, reason, [" ".join(OF_SCENARIOS["json"])])
    text = scenario.text.text
    what = reason + ": the text isn't JSON"
    other = hints_of_file(text.encode("utf-8", "surrogateescape"))
    if not other and looks_like_trace(text):
        other = ["This looks like a trace: a scenario holds it in its member `traces`, and `ccp scenario` makes one."]
    if other:
        return Finding("refused", 0, 1, what, other)
    hints = ["%s." % (why.why[:1].upper() + why.why[1:])] + json_hints(text, why.start)
    return Finding("refused", why.start, why.start + 1, what, hints)


def json_hints(text: str, start: int) -> List[str]:
    """What is likely meant where a text stops being JSON."""
    here = text[start : start + 12]
    before = text[:start].rstrip()
    if text.startswith("\ufeff"):
        return ["Save the file as UTF-8 without a byte order mark."]
    if re.match(r"//|/\*|#|;", here):
        return ['JSON has no comments. A member that ccp doesn\'t know is ignored, as `"comment": ".."`.']
    word = re.match(r"(True|False|None|NaN|Infinity|undefined|nil|yes|no)\b", here)
    if word:
        meant = {"True": "true", "False": "false", "None": "null"}.get(word.group())
        return ["JSON writes `%s`." % meant] if meant else ["JSON has no `%s`." % word.group()]
    if re.match(r"[+]?[.]?[0-9]", here):
        return [
            "Write digits without a sign `+`, without zeros before them and with a digit on both sides of the point."
        ]
    name = re.match(r"([A-Za-z_]\w*)\s*:", here)
    if name:
        return ['A member\'s name is in double quotes: `"%s"`.' % name.group(1)]
    if not before and looks_like_path(text):
        return ["The text looks like the path of a file. Give the file's content."]
    return hints_of_mark(here[:1], before)


def hints_of_mark(mark: str, before: str) -> List[str]:
    """What is likely meant at a single character, by the text before it."""
    if mark and mark in "\u201c\u201d\u2018\u2019":
        return ['This is a curly quote: write `"`.']
    if mark == "'":
        return ['JSON has double quotes: write `"`.']
    if mark and mark in "}]" and before.endswith(","):
        return ["Remove the comma before it."]
    if mark == '"' and before[-1:] not in ("", "{", "[", ",", ":"):
        return ["A comma is missing before it."]
    if mark == "(" and not before:
        return ["This looks like a program: `ccp explain --for check`."]
    return []


# ---- members


def missing(scenario: Scenario, _mode: str, of: str, within: Value, name: str, _value: Value, _path: str) -> Finding:
    """A needed member isn't there."""
    hints = [scenario.rules.allowed(of, name) or "`shared`: the link that all flows share."]
    known = scenario.rules.members(of)
    stray = [key for key in within.names() if key not in known and not NOTES.fullmatch(key)]
    near = nearest(name, stray) if stray else None
    if near:
        key = within.members(near)[-1][0]
        hints.append("`%s` is in its place: did you mean `%s`?" % (cut(near), name))
        return Finding("refused", key.start, key.end, "", hints)
    return Finding("refused", within.start, within.start + 1, "", hints)


def wrong(scenario: Scenario, _mode: str, of: str, _within: Value, name: str, value: Value, path: str) -> Finding:
    """A value has the wrong type, or a name or a loss is wrong."""
    hints = [scenario.rules.allowed(of, name)] if of != "whole" or name in scenario.rules.members("whole") else []
    if path.startswith(("programs.", "traces.")):
        if not NAME.fullmatch(name):
            key = scenario.table(path.split(".")[0])[name][0]
            return Finding("refused", key.start, key.end, "", hints_of_name(name))
        hints = ["It is %s; a %s is a text." % (value.kind_name(), path[: path.index(".") - 1])]
    elif not path:
        hints = ["The whole is an object `{..}`; here is %s." % value.kind_name()]
    elif re.fullmatch(r"cases\[[0-9]+\]", path):
        hints = ["A case is an object `{..}`; here is %s." % value.kind_name()]
    elif re.search(r"losses\[[0-9]+\]", path):
        hints += hints_of_loss(scenario, value, path)
    else:
        hints += hints_of_value(scenario, of, name, value)
    return Finding("refused", value.start, value.end, "", [hint for hint in hints if hint])


def hints_of_name(name: str) -> List[str]:
    """What is wrong with a name."""
    if not name:
        return ["The name is empty; a name is 1 to 32 letters, digits, `_`, `-` and `.`."]
    bad = re.search("[^A-Za-z0-9_.-]", name)
    if bad:
        better = re.sub("[^A-Za-z0-9_.-]", "-", name)[:32]
        return [
            "A name is 1 to 32 letters, digits, `_`, `-` and `.`; `%s` isn't one of them. Write `%s`."
            % (cut(bad.group()), better)
        ]
    return ["A name has at most 32 letters; this one has %d." % len(name)]


def hints_of_loss(scenario: Scenario, value: Value, path: str) -> List[str]:
    """A number of `losses` that is no whole number, or isn't above the one before it."""
    number = value.whole()
    matched = re.search(r"losses\[([0-9]+)\]", path)
    if number is None or matched is None:
        return hints_of_number(value)
    index = int(matched.group(1))
    before = scenario.found(path[: path.rindex("[")] + "[%d]" % (index - 1))[2]
    return ["%d comes after %s: each number is above the one before." % (number, before.is_)]


def hints_of_number(value: Value, is_needed: bool = True) -> List[str]:
    """Why a value is no whole number."""
    if value.kind == "text":
        bare = value.is_.strip()
        return ["Write the number without quotes: %s." % bare] if bare.isdigit() else ["A text isn't a number."]
    if value.kind != "number":
        if value.kind_name() != "null":
            return ["Here is %s." % value.kind_name()]
        if is_needed:
            return ["Write a number; `null` isn't one."]
        return ["Leave the member out to have its default; `null` isn't one."]
    number = float(value.is_)
    if number == 0:
        return ["Write `0`."]
    if number.is_integer() and abs(number) < 2**53:
        return ["A whole number has no fraction and no exponent: write %d." % number]
    return ["It is no whole number below 2^64."]


def hints_of_value(scenario: Scenario, of: str, name: str, value: Value) -> List[str]:
    """Why a member's value is wrong."""
    if name in ("trace", "ss", "ca", "steps"):
        return hints_of_reference(scenario, name, value)
    if name == "agent":
        near = did_you_mean(value.is_, list(AGENTS)) if value.kind == "text" else []
        return ["Here is %s." % shown_value(value)] + near
    if name == "name":
        return (
            hints_of_name(value.is_) if value.kind == "text" else ["A name is a text; here is %s." % value.kind_name()]
        )
    if name in ("programs", "traces", "shared"):
        return ["It is an object `{..}`; here is %s." % value.kind_name()]
    if name in ("cases", "losses"):
        return ["It is a list `[..]`; here is %s." % value.kind_name()]
    return hints_of_number(value, scenario.rules.needs(of, name))


def hints_of_reference(scenario: Scenario, name: str, value: Value) -> List[str]:
    """Why the name of a trace or a program stands for nothing."""
    of = "traces" if name == "trace" else "programs"
    if name == "steps" and value.kind != "text":
        return ["It is a list of names of `programs`; here is %s." % value.kind_name()]
    if value.kind != "text":
        return ["It is the name of a member of `%s`; here is %s." % (of, value.kind_name())]
    names = list(scenario.table(of))
    if value.is_ in [built_in.replace("_", ".") for built_in in BUILT_INS]:
        return ["The built-in programs can't be named: leave `%s` out to have one." % name]
    if looks_like_path(value.is_) and "/" in value.is_:
        return ["This is a path. Put the file's text into `%s` under a name, and name it here." % of]
    if not names:
        return ["`%s` has no members." % of]
    return ["`%s` has %s." % (of, cut(", ".join(names), 200))] + did_you_mean(value.is_, names)


def shown_value(value: Value) -> str:
    """A value as a sentence shows it."""
    return '"%s"' % cut(value.is_) if value.kind == "text" else value.kind_name()


def out_of_range(scenario: Scenario, mode: str, of: str, _within: Value, name: str, value: Value, path: str) -> Finding:
    """A number or a count is outside of its range."""
    if path == "cases":
        limit = MODES[mode].cases or LIMITS["flows"]
        first = value.is_[limit]
        hint = "`%s` takes at most %d cases; here are %d.%s" % (mode, limit, len(value.is_), more_cases(mode))
        return Finding("refused", first.start, first.start + 1, "", [hint])
    if path == "programs":
        hint = "At most %d programs; here are %d." % (LIMITS["named_programs"], len(value.names()))
        return Finding("refused", value.start, value.start + 1, "", [hint])
    if path.endswith(".steps"):
        hints = [scenario.rules.allowed(of, "steps"), "Here are %d." % len(value.is_)]
        return Finding("refused", value.start, value.end, "", hints)
    allowed = "`version`: it is 1." if path == "version" else scenario.rules.allowed(of, name)
    if "losses[" in path:
        allowed = "The number of a packet is from 0 to 4294967295."
    return Finding("refused", value.start, value.end, "", [allowed, "Here is %s." % value.is_])


EXPLAINED: Dict[str, Explain] = {"missing": missing, "wrong": wrong, "range": out_of_range}


def totals_refusal(scenario: Scenario, mode: str, reason: str) -> Finding:
    """The finding of too many acknowledgements in all."""
    cases = scenario.cases()
    count = "%d case%s" % (len(cases), "" if len(cases) == 1 else "s")
    hint = "Here are %d acknowledgements in %s; the limit is %d. `campaign` has no such limit." % (
        total_acks(cases),
        count,
        LIMITS["acks_in_all"],
    )
    found = scenario.whole.member("cases") if scenario.whole else None
    start = found.start if found else 0
    hints = [" ".join(OF_SCENARIOS["totals"]), hint + (more_cases(mode) if mode in SPLIT else "")]
    return Finding("refused", start, start + 1, reason, hints)


# ---- programs and traces


def program_refusal(scenario: Scenario, mode: str, reason: str, rest: str) -> Finding:
    """The refusal of a program's text: its place in the program, and in the scenario."""
    name, _, refusal = rest.partition(" ")
    value = scenario.table("programs")[name][1]
    data = value.is_.encode("utf-8")
    found = program_refusals.refusal_of(data.decode("latin-1"), refusal)
    found.what = reason
    if looks_like_path(value.is_):
        path = cut(value.is_.strip())
        found.hints = [
            "The text is `%s`, which looks like a path. A scenario holds the program's text itself;" % path,
            "`ccp scenario --portus %s=%s ..` puts it in." % (name, path),
        ]
    found.hints += wrong_mode(scenario, mode)
    if not value.is_ or " at " not in refusal:
        found.start, found.end = value.start, value.end
        return found
    place_within(found, value, data)
    return found


def place_within(found: Finding, value: Value, data: bytes) -> None:
    """Moves a finding in the bytes of a text to the text's place in the scenario, and has it show the text's own
    line."""
    first = len(data[: found.start].decode("utf-8", "ignore"))
    last = max(first + 1, len(data[: found.end].decode("utf-8", "ignore")))
    lines = Text("", value.is_)
    line, column = lines.place(first)
    found.within = pointed(line, lines.line(line), column, last - first)
    found.start, found.end = value.starts[first], value.starts[min(last, len(value.is_))]


def trace_refusal(scenario: Scenario, reason: str, rest: str) -> Finding:
    """The refusal of a trace's text."""
    name, _, refusal = rest.partition(" ")
    kind, _, number = refusal.partition(" ")
    value = scenario.table("traces")[name][1]
    hints = [" ".join(OF_SCENARIOS[kind])]
    lines = Text("", value.is_)
    at = line_of_trace(value.is_, kind, number)
    if at is None:
        return Finding("refused", value.start, value.end, reason, hints)
    line = lines.line(at)
    if looks_like_path(value.is_):
        path = cut(value.is_.strip())
        hints = ["The text is `%s`, which looks like a path. A scenario holds the trace's text itself;" % path]
        hints.append(TRACE_FROM_HERE % path)
    elif kind == "BadLine":
        hints += hints_of_trace_line(line)
    elif kind == "NotRising":
        before = [other.strip() for other in value.is_.split("\n")[: at - 1] if other.strip()]
        hints.append("%s comes after %s." % (line.strip(), before[-1]))
    first = lines.start_of(at, 1)
    end = min(first + max(1, len(line)), len(value.is_))
    shown = pointed(at, line, 1, len(line))
    return Finding("refused", value.starts[first], value.starts[end], reason, hints, shown)


def line_of_trace(text: str, kind: str, number: str) -> Optional[int]:
    """The line that a refusal of a trace is about, or None."""
    if kind == "ZeroPeriod":
        return 1 + max(at for at, line in enumerate(text.split("\n")) if line.strip())
    return int(number) if number else None


def hints_of_trace_line(line: str) -> List[str]:
    """Why a line is no time."""
    bare = line.strip(" \t\r")
    if bare.startswith("\ufeff"):
        return ["It begins with a byte order mark: save the trace as UTF-8 without it."]
    if re.fullmatch("[0-9]+", bare):
        return ["%s is above 3600000, an hour in milliseconds." % cut(bare)]
    if re.fullmatch("-[0-9]+", bare):
        return ["A time isn't negative."]
    if re.fullmatch("[0-9]*[.][0-9]+", bare):
        return ["Times are whole milliseconds."]
    if re.fullmatch(r"[0-9]+ [#+-] [0-9 ]+", bare):
        return ["This is a line of a log of Mahimahi: `ccp trace` makes a trace of it."]
    if re.fullmatch(r"[0-9]+[ \t,;]+.*", bare):
        return ["One number a line; here are more. `ccp trace from-csv` reads tables."]
    if bare.startswith(("#", "//")):
        return ["A trace has no comments."]
    if "\\n" in bare:
        return ["The text has `\\\\n`, a backslash and an n: write `\\n` in JSON for a line end."]
    return ["The line is `%s`." % cut(bare)]
