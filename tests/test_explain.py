"""`ccp explain`: that it never says otherwise than the program, over rows/, and what it says of mistakes."""
from __future__ import annotations

import json
import re
import time
from pathlib import Path
from typing import Any, List, Optional, Sequence

import pytest
from rows_of import runs_of
from support import EXAMPLES, REPOSITORY, TRACES, command

from ccp_tools import program as programs
from ccp_tools.explain import (
    asking,
    command as explain,
    program_refusals,
    scenario_refusals,
    scenarios,
    sentences,
    warnings_of,
)
from ccp_tools.explain.command import Given
from ccp_tools.explain.findings import Finding, Text, nearest, printed
from ccp_tools.tables import AGENTS, LIMITS, MODES, PRIMITIVE_WORDS

DEFINITIONS = REPOSITORY / "crates"


def given_of(data: bytes | str) -> Given:
    return Given("row", data if isinstance(data, bytes) else data.encode("utf-8", "surrogateescape"))


def explained(
    program: Path,
    text: bytes | str,
    mode: Optional[str] = None,
    *,
    status: int = 1,
    holds: Sequence[str] = (),
    lacks: Sequence[str] = (),
    quiet: bool = False,
) -> str:
    """What is printed of a text, which has to have some parts and not others."""
    given = given_of(text)
    ended, lines = explain.lines_of(program, given, mode or explain.mode_of(given), quiet)
    shown = "\n".join(lines) + "\n"
    assert ended == status, shown
    for part in holds:
        assert part in shown
    for part in lacks:
        assert part not in shown
    return shown


# ---- the program and this command say the same, over rows/


def value_at(text: str, start: int) -> Any:
    """The JSON value at a place, as Python reads it."""
    return json.JSONDecoder().raw_decode(text, start)[0]


def value_of(whole: Any, path: str) -> Any:
    """The value of a path in what Python reads."""
    for name, index in re.findall(r"([a-z_]+)|\[([0-9]+)\]", path):
        whole = whole[name] if name else whole[int(index)]
    return whole


def is_wrong_place(mode: str, reason: str, text: Text, found: Finding) -> bool:
    """Whether the place of an explanation isn't that of the refusal."""
    line, column = text.place(found.start)
    kind, _, rest = reason.partition(" ")
    if kind == "acknowledgement":
        return line != int(reason.split()[2])
    if kind == "program" and mode in ("check", "fold"):
        place = re.search(r" at ([0-9]+):([0-9]+)$", reason)
        return place is not None and (line, column) != (int(place.group(1)), int(place.group(2)))
    if kind not in ("program", "trace", "missing", "wrong", "range"):
        return False
    return is_wrong_in_json(text.text, kind, rest, found)


def is_wrong_in_json(text: str, kind: str, rest: str, found: Finding) -> bool:
    whole = value_at(text, len(text) - len(text.lstrip()))
    if kind in ("program", "trace"):
        return is_wrong_in_text(text, whole, kind, rest, found)
    here = value_at(text, found.start)
    if rest.startswith(("programs.", "traces.")):
        of, name = rest.split(".", 1)
        return here != whole[of].get(name) and scenarios.path_name(str(here)) != name
    if kind == "missing":
        return here != value_of(whole, re.sub(r"[.]?[a-z_]+$", "", rest)) and not isinstance(here, str)
    there = value_of(whole, rest)
    return here != there and not (rest == "cases" and here in there)


def is_wrong_in_text(text: str, whole: Any, kind: str, rest: str, found: Finding) -> bool:
    name, refusal = rest.split(" ", 1)
    held = whole[kind + "s"][name]
    place = re.search(r" at ([0-9]+):([0-9]+)$|(?:BadLine|NotRising) ([0-9]+)$", refusal)
    if not place or not held:
        return value_at(text, found.start) != held and not refusal.startswith("ZeroPeriod")
    line, column = int(place.group(1) or place.group(3)), int(place.group(2) or 1)
    left = held.encode().split(b"\n", line - 1)[line - 1][column - 1 :].decode()
    return value_at('"' + text[found.start :], 0) != left


def test_agrees_with_the_program_over_rows(program: Path) -> None:
    seen = {True: 0, False: 0}
    for name, mode, data, reason in runs_of(explain.ASKED):
        refused, text, found = explain.explained(program, given_of(data), mode)
        assert refused == (reason is not None), name
        levels = [one.level for one in found]
        assert levels.count("refused") == refused and levels[:1] == ["refused"] * refused + levels[:1] * (
            not refused
        ), name
        seen[refused] += 1
        assert all(printed(text, one) for one in found), name
        if reason is not None:
            first = found[0]
            assert reason.rstrip() in first.what and first.hints, name
            assert not is_wrong_place(mode, reason, text, first), "%s: %s at %s" % (
                name,
                reason,
                text.place(first.start),
            )
    assert min(seen.values()) > 300, seen


def test_reads_json_as_the_program() -> None:
    """What isn't JSON to one of them isn't to the other."""
    for name, mode, data, reason in runs_of(explain.SCENARIOS):
        broken = scenarios.Scenario("row", given_of(data).text).broken
        assert (broken is not None) == (reason == "json"), "%s: %s" % (name, broken)


# ---- what it knows is what the pages and the definitions have


def table_of(page: str) -> dict[str, tuple[str, str]]:
    """The table of refusals of a page in docs/: of each name its cause and what to do."""
    found, within = {}, False
    for line in (REPOSITORY / "docs" / page).read_text(encoding="utf-8").split("\n"):
        within = line.startswith("| Refusal | Cause | What to do |") or within and line.startswith("|")
        bare = re.sub(r"\[([^]]*)\]\([^)]*\)", r"\1", line)
        cells = [cell.strip().replace("\\|", "|") for cell in re.split(r"(?<!\\)\|", bare)[1:-1]]
        name = re.match(r"`(?:trace <name> )?(\w+)", cells[0]) if within else None
        if name:
            found[name.group(1)] = (cells[1], cells[2])
    return found


def test_the_sentences_are_those_of_the_pages() -> None:
    assert table_of("language.md") == sentences.OF_PROGRAMS
    assert table_of("scenarios.md") == sentences.OF_SCENARIOS


def test_there_is_a_sentence_for_each_refusal() -> None:
    text = (DEFINITIONS / "portus_build/specs/RefusalText.antt").read_text(encoding="utf-8")
    names = set(re.findall(r'"([A-Z][A-Za-z]+)', text)) - {"NoMemory"}
    assert names and names == set(sentences.OF_PROGRAMS)
    assert set(program_refusals.HINTS) <= names
    kinds = {"json", "missing", "wrong", "range", "program", "totals"}
    assert set(sentences.OF_SCENARIOS) == kinds | {"BadLine", "EmptyTrace", "NotRising", "ZeroPeriod"}


def test_the_package_has_the_schema() -> None:
    assert scenarios.SCHEMA.read_bytes() == (EXAMPLES / "scenario.schema.json").read_bytes()


# ---- programs

PROGRAMS = [
    (
        "(def (Report (acked 0)))\n(when (>= Report.acked 5) (report))",
        ["2:8: refused: program BadName at 2:8", ">=", "^^"],
    ),
    ("(def)\n(when (not true) (report))", ["2:7", "There is no `not`"]),
    ("(def (x -1))", ["1:9", "no negative numbers"]),
    ("(def)\n(when true (:= Cwnd (* Cwnd 1.5)))", ["2:29", "(/ (* x 15) 10)"]),
    ("(def)\n(when true (:= Cwnd (* Cwnd 0.25)))", ["(/ (* x 25) 100)"]),
    ("(def (x \u201c1\u201d))", ["1:9", "curly quote"]),
    ("; a sender\n(def)", ["1:1", "A comment begins with `#`"]),
    ("(def (Report (acked 0)))\n(when (> acked 5) (report))", ["2:10", "`Report.acked`"]),
    ("(def)\n(when (> Ack.rtt_sample_us 5) (report))", ["2:10", "`Flow.rtt_sample_us`"]),
    ("(def)\n(when (> Flow.rtt_sample_ms 5) (report))", ["2:10", "`Flow.rtt_sample_us`"]),
    ("(def (goal 5))\n(when (> gaol 5) (report))", ["2:10", "Did you mean `goal`?"]),
    ("(def)\n(when (> (+ Cwnd 1 2) 5) (report))", ["2:10", "takes two parts, here are 3"]),
    ("(when true (report))", ["1:1", "begins with `(def ..)`"]),
    ("(def)\n(when true (report)", ["2:1", "`)` of `(when ..`"]),
    ("(def)\n(when Cwnd (report))", ["2:7", "(> Cwnd 0)"]),
    ("(def)\n(when true (if true (report)))", ["2:12", "block of their own"]),
    ("(def (x 0))\n(when true (:= x (if true 1 2)))", ["`(:= x (if condition value))`"]),
    ("(def (x 0))\n(when true (:= x (ewma 80 Cwnd)))", ["2:24", "in tenths"]),
    ("(def)\n(when true (:= Ack.now 5))", ["2:16", "NotWritable"]),
    ("(def (Report (Report.x 0)))", ["1:15", "`(x 0)`"]),
    ("examples/mine.portus", ["1:1", "path of a file"]),
    ("(def)\n---\nnow=1\n", ["2:1", "belong to `fold`"]),
    ("(def)\r\n(when true (report))\r\n(when\r\n", ["3:1", "Unclosed"]),
]


@pytest.mark.parametrize("text, holds", PROGRAMS)
def test_programs(program: Path, text: str, holds: List[str]) -> None:
    explained(program, text, "check", holds=holds)


def test_a_program_with_other_line_ends(program: Path) -> None:
    explained(program, "(def)\r\n(when true (report))\r\n", status=0, holds=["accepted by check"])


UNDECLARED = "(def (Report (volatile x 0)))\n(when true (:= Report.y 1) (report))\n(when true (:= Report.y 2))"


def test_an_undeclared_field_is_declared_and_never_a_local(program: Path) -> None:
    """A name with a prefix never becomes a local."""
    holds = ["`Report.y` has no meaning here", "declared in `(Report ..)` of `def`, without the prefix: `(y 0)`"]
    for lacks in (["assign it", "A local ends", "Did you mean"],):
        explained(program, UNDECLARED, "check", holds=holds, lacks=lacks)
        whole = json.loads(scenario(ss="mine"))
        whole["programs"] = {"mine": UNDECLARED}
        explained(program, json.dumps(whole), "campaign", holds=["program mine Unknown at 2:16", *holds], lacks=lacks)
    explained(program, UNDECLARED.replace("Report.y", "Flow.rtt_us"), "check", lacks=["assign it"])
    near = "(def (Report (lost 0)))\n(when true (:= Report.losts 1))"
    explained(program, near, "check", holds=["Did you mean `Report.lost`?", "`(losts 0)`"])
    explained(
        program, "(def (x 0))\n(when true (:= y 1))\n(when (> y 1))", "check", holds=["assign it in this body first"]
    )


def test_a_fraction_as_the_weight_of_ewma(program: Path) -> None:
    text = "(def (x 0))\n(when true (:= x (ewma %s Cwnd)))"
    explained(program, text % "0.9", "check", holds=["in tenths: write `9` for 0.9"], lacks=["(/ (*", "2^64"])
    explained(program, text % "0.25", "check", holds=["write `2` or `3` for 0.25"])
    explained(program, text % "2.5", "check", holds=["a numeral from 0 to 10"])


@pytest.mark.parametrize("word", ["+infty", "+inf", "+Infinity", "+infinite", "+\u221e"])
def test_a_misspelt_infinity(program: Path, word: str) -> None:
    if word.isascii():
        explained(program, "(def (least %s))" % word, "check", holds=["Did you mean `+infinity`?"], lacks=["as `_"])


def test_files_that_are_no_text(program: Path) -> None:
    utf16 = "(def)\n".encode("utf-16")
    explained(program, utf16, "check", holds=["This is UTF-16: save it as UTF-8."], lacks=["0xFF", "ASCII"])
    explained(program, utf16[2:], "check", holds=["This is UTF-16"])
    explained(program, scenario().encode("utf-16"), "campaign", holds=["json", "This is UTF-16"], lacks=["no value"])
    binary = b"\x7fELF\x02\x01\x01\0\0\0"
    explained(program, binary, "check", holds=["This is no text: the file is an executable."], lacks=["U+007F"])
    explained(program, binary, "campaign", holds=["This is no text"], lacks=["no value of JSON"])
    explained(program, b"\x1f\x8b\x08\0\0", "check", holds=["compressed by gzip"])
    explained(program, b"\xff\xfe", "campaign", holds=["This is UTF-16"])


def test_a_trace_in_place_of_a_program_or_a_scenario(program: Path) -> None:
    small, large = "1\n2\n5\n", "".join("%d\n" % time for time in range(20_000))
    huge = "".join("%d\n" % (time // 10) for time in range(200_000))
    for text in (small, large, huge):
        explained(program, text, holds=["This looks like a trace"], lacks=["comments count"])
    for text in (small, large):
        explained(program, text, "campaign", holds=["json", "This looks like a trace"], lacks=["Write digits"])


# ---- warnings of accepted programs


def texts_of(text: str) -> List[str]:
    return [str(one) for one in warnings_of(text)]


QUIET = (
    "(def (Report (volatile got 0)))\n(when true (:= Report.got (+ Report.got 1)) (:= Cwnd 1) (report) (fallthrough))\n"
)
WARNED = [
    ("(when true (:= cwnd 5))", "3:16: `cwnd` is a local", "Did you mean `Cwnd`?"),
    ("(when true (:= got 5))", "3:16: `got` is a local", "`Report.got`"),
    ("(when true (:= Got 5) (:= Cwnd Got))", "`Got` is a local", "Did you mean `Report.got`?"),
    ("(when true (:= rtt_sample_us 5) (:= Cwnd rtt_sample_us))", "`rtt_sample_us` is a local", "`Flow.rtt_sample_us`"),
    ("(when true (:= half (/ Cwnd 2)))", "nothing reads it", "declare it in `def`"),
    ("(when true (:= Cwnd 2))\n(when true (report))", "4:2: this block is never reached: the block of line 3", ""),
    ("(when (|| true Flow.was_timeout) (report))\n(when true (report))", "4:2: this block is never reached", ""),
    ("(when (> 1 2) (report))", "3:7: this block never runs", ""),
    ("(when true (:= Cwnd (+ 1 +infinity)))", "3:26: `+infinity` is 2^64-1: a sum", ""),
    ("(when true (:= Cwnd (mul Cwnd +infinity)))", "a product of it is a fault", ""),
]


@pytest.mark.parametrize("block, text, hint", WARNED)
def test_warnings(program: Path, block: str, text: str, hint: str) -> None:
    found = warnings_of(QUIET + block)
    assert len(found) == 1 and text in str(found[0]) and hint in "\n".join(found[0].hints), found
    explained(
        program,
        QUIET + block,
        "check",
        status=0,
        holds=["warning: " + found[0].text, hint, "accepted by check, 1 warning"],
    )
    explained(program, QUIET + block, "check", status=0, quiet=True, lacks=["warning"])


def test_a_plain_program_has_no_warning() -> None:
    assert texts_of(QUIET) == []
    assert texts_of(QUIET + "(when true (:= half (/ Cwnd 2)) (:= Cwnd half))") == []


def test_a_sum_of_a_name_that_begins_as_infinity() -> None:
    """It is a fault before the first assignment, and none after one that every acknowledgement makes."""
    program = "(def (Report (least +infinity)))\n(when true %s(:= Cwnd (+ Report.least 1)) (report))"
    assert "`Report.least` begins as `+infinity`" in texts_of(program % "")[0]
    assert texts_of(program % "(:= Report.least (min Report.least Flow.rtt_sample_us)) ") == []
    assert len(texts_of(program % "(:= Report.least (if Flow.was_timeout 5)) ")) == 1
    before = "(when true (:= Report.least (min Report.least 5)) (fallthrough))\n(when true"
    assert texts_of((program % "").replace("(when true", before)) == []
    under = before.replace("true", "(> Cwnd 9)", 1).replace("\n(when true", "\n(when %s")
    assert texts_of((program % "").replace("(when true", under % "(&& (== mss 1) (> Cwnd  9))")) == []
    assert len(texts_of((program % "").replace("(when true", under % "(|| (== mss 1) (> Cwnd 9))"))) == 1
    name = before.replace("true", "(> x 9)", 1).replace("\n(when true", "\n%s(when (> x 9)")
    named = (program % "").replace("(def ", "(def (x 0) ").replace("(when true", name)
    assert texts_of(named % "") == texts_of(named % "(when (> x 9) (:= y x) (:= Rate y) (fallthrough))\n") == []
    falls = "(when (< x 9) (:= x (if Flow.was_timeout 10)) (fallthrough))\n"
    for between in ("(when true (:= x 10) (fallthrough))\n", falls):
        assert len(texts_of(named % between)) == 1, between
    # after a block that doesn't fall through no other one runs
    assert texts_of(named % falls.replace(" (fallthrough)", "")) == []
    assert len(texts_of((named % "").replace("(fallthrough)", "(:= x 10) (fallthrough)"))) == 1
    infinite = "(when Flow.was_timeout (:= Report.least +infinity) (fallthrough))\n"
    assert len(texts_of(named % infinite)) == 1
    assert texts_of(named % infinite.replace(" (fallthrough)", "")) == []
    blended = "(def (Report (mean +infinity)))\n(when true (:= Report.mean (ewma 8 Cwnd)) (:= Cwnd 1) (report))"
    assert "`ewma` multiplies it" in texts_of(blended)[0]
    assert texts_of((program % "").replace("(+ Report.least 1)", "(+ Report.least 0)")) == []


def test_fields_that_make_an_agent_answer() -> None:
    own = "(def (Report (volatile %s 0)))\n(when true (:= Report.%s 1) (:= Cwnd 9000) (report))"
    for name in ("acked", "loss", "timeout", "ecn"):
        found = warnings_of(own % (name, name))
        assert [one.text for one in found] == [
            "an agent reads the field `%s`, and answers this program's reports" % name
        ]
        assert (found[0].line, found[0].column) == (1, 24)
        assert "Choose another name" in found[0].hints[0]
    assert texts_of(own % ("rtt", "rtt")) == texts_of(own % ("lost", "lost")) == []


def test_no_report_and_no_window() -> None:
    assert texts_of("(def) (when true (:= Cwnd 1))") == ["1:2: it never reports: no `(report)` is reached"]
    found = texts_of("(def) (when true (report))")
    assert len(found) == 1 and "the window never moves" in found[0]
    assert len(texts_of("(def) (when true) (when true (:= Cwnd 1) (report))")) == 3


@pytest.mark.parametrize(
    "path",
    [
        *sorted((EXAMPLES / "senders").glob("*.portus")),
        EXAMPLES / "delay.portus",
        EXAMPLES / "early.portus",
        *sorted(EXAMPLES.glob("*_[cs][as].portus")),
        *sorted((REPOSITORY / "src/ccp_tools/like_linux").glob("*.portus")),
    ],
    ids=lambda path: path.stem,
)
def test_senders_and_built_in_programs_have_no_warning(path: Path) -> None:
    assert texts_of(path.read_text(encoding="utf-8")) == []


def test_warnings_of_what_is_refused_or_is_no_program() -> None:
    """They may be anything, and never break off."""
    for text in (
        "",
        "(",
        ")",
        "()",
        "(def",
        "(when)",
        "(def) (when)",
        "(def) (when true (:= x))",
        "1\n2\n",
        "(def (Report",
    ):
        assert isinstance(warnings_of(text), list)
    for name, _, data, _ in runs_of(["check", "fold"]):
        assert isinstance(warnings_of(given_of(data).text), list), name


# ---- inputs of fold

LINES = [
    ("now=1 ", "ends with a blank", "3:6"),
    ("now=1,bytes_acked=2", "no commas", "3:1"),
    ("Ack.now=1", "without its prefix", "3:1"),
    ("now=1.5", "whole", "3:1"),
    ("now=1 was_timeout=true", "0 or 1", "3:7"),
    ("now=1 now=2", "twice", "3:7"),
    ("byte_acked=2", "Did you mean `bytes_acked`?", "3:1"),
    ("now = 5", "has no `=`", "3:1"),
    ("now=18446744073709551616", "2^64", "3:1"),
    ("flow 0 case=a agent=reno", "without its line `flow`", "3:1"),
]


@pytest.mark.parametrize("line, why, place", LINES)
def test_acknowledgement_lines(program: Path, line: str, why: str, place: str) -> None:
    holds = [why, "row:%s: refused: acknowledgement line 3" % place]
    explained(program, "(def)\n---\n%s\n" % line, holds=holds)


def test_separators(program: Path) -> None:
    explained(program, "(def)\n--- \nnow=1\n", holds=["2:1: refused: no separator", "a blank after `---`"])
    explained(program, "(def)\n ---\nnow=1\n", holds=["2:1", "a blank before `---`"])
    holds = ["3:1: refused: no separator", "Put a line `---` before the acknowledgements."]
    explained(
        program, "(def)\n(when true (report))\nnow=1 bytes_acked=5\nnow=2\n", holds=holds, lacks=["only comments"]
    )
    explained(program, "(def)\nnow=1\n", "check", holds=["`fold` reads them after the program and a line `---`"])
    explained(program, "(def)\r\n---\r\nnow=1\r\n", status=0, holds=["accepted by fold"])


def test_a_fault_of_fold(program: Path) -> None:
    text = "(def (Report (left 2000)))\n# \u00fc\n(when true\n"
    text += "  (:= Report.left (- Report.left Ack.bytes_acked))\n  (report))\n---\n"
    acks = "now=1 bytes_acked=1500\n\nnow=2 bytes_acked=1500\n"
    holds = [
        "row:4:20: fault: Underflow at acknowledgement 1, counted from 0",
        "     4 |   (:= Report.left (- Report.left Ack.bytes_acked))",
        "       |                    ^",
        "In `(- Report.left Ack.bytes_acked)` the left part is 500 and the right part 1500.",
        "(- (max a b) b)",
        "The acknowledgement is `now=2 bytes_acked=1500`.",
        "accepted by fold, with a fault",
    ]
    explained(program, text + acks, status=0, holds=holds)
    explained(program, text + "now=1\n", status=0, lacks=["fault"])


@pytest.mark.parametrize("name", ["fault", "connectives"])
def test_a_fault_of_an_example(program: Path, name: str) -> None:
    explained(program, (EXAMPLES / (name + ".ccp")).read_bytes(), status=0, holds=[": fault: ", "the left part is"])


def test_a_fault_in_an_average_and_in_a_part_of_an_expression(program: Path) -> None:
    ewma = "(def (Report (mean +infinity)))\n(when true (:= Report.mean (ewma 8 Ack.now)) (report))\n---\nnow=1\n"
    explained(program, ewma, status=0, holds=["2:29: fault: Overflow", "the values 8 and 18446744073709551615 meet"])
    part = (
        "(def (Report (x 3)))\n(when true (:= Report.x (+ (- Report.x 1) (/ 8 (- Report.x 3)))) (report))\n---\nnow=1\n"
    )
    holds = ["2:44: fault: ZeroDivisor", "left part is 8 and the right part 0", "`Report.x` was 3"]
    explained(program, part, status=0, holds=holds)


# ---- scenarios


def scenario(cut: Optional[str] = None, **members: Any) -> str:
    """A scenario of one case in lines, with other members of the case or without one."""
    case = {"name": "a", "agent": "reno", "trace": "t", "mss": 1448, "queue": 10, "delay_us": 20000}
    case.update({"timeout_us": 1000000, "acks": 4, **members})
    case = {name: value for name, value in case.items() if name != cut}
    return json.dumps({"version": 1, "traces": {"t": "10\n"}, "cases": [case]}, indent=1)


SCENARIOS = [
    (scenario(agent="Reno"), ['"reno" or "cubic"', "Did you mean `reno`?", "9:13"]),
    (scenario(trace="T"), ["`traces` has t.", "Did you mean `t`?"]),
    (scenario(queue=5000), ["a whole number from 1 to 4096", "Here is 5000."]),
    (scenario(mss="1448"), ["without quotes: 1448"]),
    (scenario(mss=None), ["`null` isn't one"]),
    (scenario(acks=2e4), ["write 20000"]),
    (scenario(name="my case"), ["Write `my-case`."]),
    (scenario("queue", queu=5), ["missing cases[0].queue", "did you mean `queue`?"]),
    (scenario(losses=[3, 3]), ["3 comes after 3"]),
    (scenario(ss="mine"), ["`programs` has no members"]),
    (scenario().replace('"10\\n"', '"traces/my.trace"'), ["looks like a path", "ccp scenario traces/my.trace"]),
    (scenario().replace('"10\\n"', '"10\\n0.5\\n"'), ["BadLine 2", "whole milliseconds"]),
    (scenario().replace('"10\\n"', '"10\\n5\\n"'), ["NotRising 2", "5 comes after 10."]),
    (scenario().replace('"10\\n"', '"\\ufeff10\\n"'), ["BadLine 1", "a byte order mark"]),
    (scenario().replace("4\n", "4,\n"), ["json", "Remove the comma before it."]),
    (scenario().replace('"version"', '// a comment\n "version"'), ["json", "JSON has no comments"]),
    ("\ufeff" + scenario(), ["json", "byte order mark"]),
    ("", ["json", "empty"]),
    (scenario().replace('"reno"', "\u201creno\u201d"), ["json", "curly quote"]),
    (
        scenario().replace('"version": 1', '"version": 1, "programs": {"p": "(def)\\n(when x)"}'),
        ["program p Unknown at 2:7", "2 | (when x)", "2:48"],
    ),
    (scenario().replace('"version": 1', '"version": 1, "programs": {"p": "my.portus"}'), ["looks like a path"]),
]


@pytest.mark.parametrize("text, holds", SCENARIOS, ids=range(len(SCENARIOS)))
def test_scenarios(program: Path, text: str, holds: List[str]) -> None:
    explained(program, text, "campaign", holds=holds)


@pytest.mark.parametrize(
    "members", [{"agent": "Reno"}, {"trace": "T"}, {"mss": "1"}, {"name": ""}, {"losses": [3, 3]}, {"ss": 5}]
)
def test_what_is_wrong_is_said_without_the_other_causes(program: Path, members: dict[str, Any]) -> None:
    explained(
        program,
        scenario(**members),
        "campaign",
        holds=["refused: wrong cases[0]."],
        lacks=["A value has the wrong type"],
    )


def test_warnings_of_scenarios(program: Path) -> None:
    text = scenario(loss=[1], Lag=5, marks=3, colour="red", cwnd=5)
    holds = [
        "`Lag` is ignored\n",
        "Did you mean `lag`?",
        "Did you mean `losses`?",
        "Did you mean `mark`?",
        "ccp knows no such member",
        "`cwnd` is ignored by `campaign`",
        "accepted by campaign, 5 warnings",
    ]
    explained(program, text, "campaign", status=0, holds=holds)
    twice = scenario().replace('"acks"', '"mss": 5,\n "acks"').replace('"t":', '"u": "1", "t":')
    explained(program, twice, status=0, holds=["`mss` is here 2 times", "no case uses the trace `u`"])
    whole = json.loads(scenario())
    whole["cases"] *= 2
    explained(program, json.dumps(whole), status=0, holds=["the cases 0 and 1 have one name"])
    explained(program, text, "campaign", status=0, quiet=True, lacks=["warning"])
    whole["cases"] = [{**whole["cases"][0], "name": "c%d" % at, "Lag": at} for at in range(3)]
    holds = ["Did you mean `lag`?\n  It is so at 2 more places.", "accepted by campaign, 1 warning"]
    explained(program, json.dumps(whole), "campaign", status=0, holds=holds)


@pytest.mark.parametrize("losses", ["none", "rate:0.01", "17+40"])
def test_what_ccp_scenario_makes_has_no_warning(program: Path, losses: str) -> None:
    made = command("scenario", "--senders", "reno,cubic,linux-cubic", "--losses", losses, *TRACES)
    explained(program, made.output, "campaign", status=0, holds=["accepted by campaign\n"], lacks=["warning"])


def test_times_in_other_units(program: Path) -> None:
    holds = ["14:", "`delay_us` is 20 microseconds", "20 ms are 20000", "accepted by campaign, 1 warning"]
    explained(program, scenario(delay_us=20), status=0, holds=holds[1:])
    explained(program, scenario(timeout_us=1), status=0, holds=["`timeout_us` is 1 microsecond,", "1 s is 1000000"])
    explained(program, scenario(delay_us=0, timeout_us=1000), status=0, lacks=["warning"])
    whole = json.loads(scenario(delay_us=20))
    whole["cases"] = [dict(whole["cases"][0], name="c%d" % at) for at in range(5)]
    assert explained(program, json.dumps(whole), status=0).count("warning:") == 1


def test_starts_of_flows(program: Path) -> None:
    """A case's start is read for a shared link alone."""
    text = scenario(start_us=20)
    ignored = "`start_us` is ignored by `campaign`"
    explained(program, text, "campaign", status=0, holds=[ignored, "1 warning"], lacks=["20 microseconds"])
    whole = {**json.loads(text), "shared": {"trace": "t", "queue": 9, "quantum_us": 1000, "rounds": 9}}
    holds = ["`start_us` is 20 microseconds", "1 warning"]
    explained(program, json.dumps(whole), "shared", status=0, holds=holds, lacks=["ignored"])
    found = scenario_refusals.refusal_of(
        scenarios.Scenario("row", json.dumps(whole)), "shared", "range cases[0].start_us"
    )
    assert "a whole number from 0 to 10000000000" in " ".join(found.hints)


def test_warnings_of_programs_in_scenarios(program: Path) -> None:
    whole = json.loads(scenario(ss="mine", ca="mine"))
    whole["programs"] = {"mine": "(def)\n# \u00fc\n(when true (:= cwnd 5)\n (:= Cwnd 5) (report))"}
    text = json.dumps(whole, indent=1, ensure_ascii=False)
    line = [at for at, one in enumerate(text.split("\n"), 1) if '"mine":' in one][0]
    holds = [
        "row:%d:" % line,
        "warning: program `mine`: `cwnd` is a local of this body, and nothing reads it",
        "     3 | (when true (:= cwnd 5)",
    ]
    explained(program, text, status=0, holds=holds)
    whole["cases"][0].pop("ss")
    whole["cases"][0].pop("ca")
    explained(program, json.dumps(whole), status=0, holds=["no case uses the program `mine`"], lacks=["is a local"])


def test_no_warning_of_what_a_case_may_mean(program: Path) -> None:
    explained(program, scenario(trace="T"), "campaign", holds=["`traces` has t."], lacks=["no case uses"])
    two = json.loads(scenario(ss="p"))
    two["programs"] = {"p": "(def)", "q": "(def)"}
    explained(program, json.dumps(two), "campaign", status=0, holds=["no case uses the program `q`"])
    two["cases"][0]["ca"] = "r"
    holds = ["wrong cases[0].ca", "`programs` has p, q."]
    explained(program, json.dumps(two), "campaign", holds=holds, lacks=["no case uses"])


def test_another_mode(program: Path) -> None:
    text = (EXAMPLES / "rollout.json").read_text(encoding="utf-8")
    explained(program, text, status=0, holds=["accepted by rollout"])
    explained(program, text, "campaign", holds=["looks like a scenario of `rollout`"])
    explained(program, scenario(), "shared", holds=["looks like a scenario of `campaign`"])
    explained(program, scenario(), "rollout", holds=["looks like a scenario of `campaign`"])


def test_long_lines_are_cut(program: Path) -> None:
    text = scenario(queue=5000).replace("\n", " ").replace('"10', '"' + "10\\n" * 5000 + "10")
    printed_lines = explained(program, text, holds=["range cases[0].queue", ".. "]).split("\n")
    assert max(map(len, printed_lines)) < 200


def test_the_first_example_of_the_page(program: Path) -> None:
    """It is accepted without a warning, and its own program keeps its window and isn't answered."""
    page = (REPOSITORY / "docs" / "scenarios.md").read_text(encoding="utf-8")
    text = page.split("```json\n")[1].split("```")[0]
    explained(program, text, status=0, holds=["accepted by campaign\n"])
    row = programs.run_table(text, program=program).rows[1]
    assert (row["epochs"], row["faults"], row["lost"], row["peak"]) == (1, 0, 2, 12 * 1448)


# ---- inputs of drive

# a scenario, its line `---`, and six frames; the sixth begins at byte 463
DRIVEN = (EXAMPLES / "driven.drive").read_bytes()
FRAMES = DRIVEN.index(b"---\n") + 4
DRIVES = [
    (DRIVEN[:FRAMES], ["frame cut at 335", "The input ends while a flow waits for a frame"]),
    (DRIVEN[:-5], ["frame cut at 463", "   463 | 04 01 01", "The last frame has 21 of its 26 bytes."]),
    (DRIVEN[:470], ["frame cut at 463", "The last frame has 7 of the 16 bytes of its head."]),
    (DRIVEN[:463] + b"\t", ["frame Kind at 463", "   463 | 09\n       | ^^\n", "from 1 to 8", "byte 0 of frame 5"]),
    (
        DRIVEN[:-10] + b"\5",
        ["frame Class at 479", "class 3, or to `Cwnd`", "byte 16 of frame 5, which begins at byte 463"],
    ),
    (DRIVEN + b"\7\1" + b"\0" * 10 + b"\x88" + b"\0" * 115 + b"\2", ["frame Flag at 617", "   594 | .. 00 00"]),
    (DRIVEN.replace(b"\n---\n", b"\n--- \n"), ["no separator", "The line has a blank after `---`: remove it."]),
    (DRIVEN[: FRAMES - 1], ["no separator", "The line `---` counts with its line end: end it."]),
    (DRIVEN.replace(b'"acks":5', b'"acks":65537'), ["range cases[0].acks", "Here is 65537."]),
    (DRIVEN.replace(b'"trace"', b'"trce"'), ["missing cases[0].trace", "did you mean `trace`?"]),
    (DRIVEN.replace(b"\n---", b" " * LIMITS["input_bytes"] + b"\n---"), ["Before the line `---` are 1048907 bytes"]),
    (b" " * (LIMITS["input_bytes"] + 1), ["The input has 1048577 bytes", "No line `---` is in it"]),
]


@pytest.mark.parametrize("data, holds", DRIVES, ids=range(len(DRIVES)))
def test_inputs_of_drive(program: Path, data: bytes, holds: List[str]) -> None:
    explained(program, data, "drive-table", holds=[*holds, "refused by drive-table"])


def test_frames_after_a_scenario_are_an_input_of_drive(program: Path) -> None:
    explained(program, DRIVEN, status=0, holds=["ccp explain: accepted by drive\n"])
    explained(program, DRIVEN[:-1], holds=["ccp explain: refused by drive\n"])


def test_an_agent_outside_may_use_any_program(program: Path) -> None:
    """No case names one, and the agent reads any fields; but a program without a report tells nothing."""
    given = DRIVEN.replace(b'"name"', b'"agent":"reno","name"')
    explained(program, given, "drive", status=0, holds=["ccp explain: accepted by drive\n"])
    given = DRIVEN.replace(b'"name"', b'"ss":"p","name"').replace(
        b'{"p":', b'{"q":"(def) (when true (:= Cwnd 1))","p":'
    )
    holds = ["`ss` is ignored by `drive`", "program `q`: it never reports", "accepted by drive, 2 warnings"]
    explained(program, given, "drive", status=0, holds=holds)


# ---- that nothing is run


def cases(count: int, **members: Any) -> dict[str, Any]:
    whole = json.loads(scenario(**members))
    whole["cases"] = [dict(whole["cases"][0], name="c%d" % at) for at in range(count)]
    return dict(whole)


@pytest.mark.parametrize("mode", ["campaign", "timeline", "acks", "live", "shared", "audit", "rollout"])
def test_accepts_a_long_scenario_without_running_it(program: Path, mode: str) -> None:
    """Each of these would take minutes with the unproved program, and seconds with the proved one."""
    whole = cases(4, acks=65_536, cwnd=5, steps=["p"])
    whole["programs"] = {"p": "(def)"}
    whole["shared"] = {"trace": "t", "queue": 5, "quantum_us": 1000, "rounds": 10_000}
    begun = time.monotonic()
    text = json.dumps(whole) + ("\n---\nflow 0 case=c0\n" if mode == "audit" else "")
    explained(program, text, mode, status=0, holds=["accepted by " + mode])
    assert time.monotonic() - begun < 20


def test_a_campaign_of_exactly_the_most_cases(program: Path) -> None:
    whole = cases(LIMITS["cases"], acks=60_000)
    explained(program, json.dumps(whole), "campaign", status=0, holds=["accepted by campaign"])
    for at in (0, 500, LIMITS["cases"] - 1):
        wrong = json.loads(json.dumps(whole))
        wrong["cases"][at]["losses"] = [1, 0]
        explained(program, json.dumps(wrong), "campaign", holds=["wrong cases[%d].losses[1]" % at, "0 comes after 1"])
    whole["cases"].append(whole["cases"][0])
    explained(program, json.dumps(whole), "campaign", holds=["range cases", "at most 1024 cases; here are 1025"])


@pytest.mark.parametrize("mode", ["timeline", "shared", "audit"])
def test_exactly_the_most_flows(program: Path, mode: str) -> None:
    whole = cases(LIMITS["flows"], acks=4096)
    whole["shared"] = {"trace": "t", "queue": 5, "quantum_us": 1000, "rounds": 10_000}
    ending = "\n---\n" if mode == "audit" else ""
    explained(program, json.dumps(whole) + ending, mode, status=0, holds=["accepted by " + mode])
    whole["cases"][63]["acks"] += 1
    explained(program, json.dumps(whole) + ending, mode, holds=["totals", "262145 acknowledgements in 64 cases"])
    whole["cases"][63]["queue"] = 0
    explained(program, json.dumps(whole) + ending, mode, holds=["range cases[63].queue"])
    whole["cases"].append(whole["cases"][0])
    explained(program, json.dumps(whole) + ending, mode, holds=["range cases"])


def test_the_member_shared_is_refused_last(program: Path) -> None:
    whole = cases(5, acks=60_000)
    explained(program, json.dumps(whole), "shared", holds=["totals"])
    whole["cases"].pop()
    explained(program, json.dumps(whole), "shared", holds=["missing shared"])
    whole["shared"] = {"trace": "t", "queue": 5, "quantum_us": 1000, "rounds": 0}
    explained(program, json.dumps(whole), "shared", holds=["range shared.rounds"])


def test_a_scenario_of_the_most_bytes(program: Path) -> None:
    for count in (1, 3, LIMITS["cases"]):
        text = json.dumps(cases(count, acks=60_000))
        for length in range(LIMITS["input_bytes"] - 2, LIMITS["input_bytes"] + 1):
            explained(program, text + " " * (length - len(text)), "campaign", status=0, holds=["accepted by campaign"])
        explained(
            program, text + " " * (LIMITS["input_bytes"] + 1 - len(text)), "campaign", holds=["more than 1048576 bytes"]
        )


def test_counts_the_cases(program: Path) -> None:
    explained(
        program, json.dumps(cases(5, acks=65536)), "timeline", holds=["327680 acknowledgements in 5 cases; the limit"]
    )
    whole = scenarios.Scenario("one", scenario(acks=262145))
    found = scenario_refusals.totals_refusal(whole, "timeline", "totals")
    assert "262145 acknowledgements in 1 case; the limit" in found.hints[1]


# ---- the command


@pytest.mark.parametrize(
    "name", ["campaign.json", "live.json", "shared.json", "rollout.json", "fault.ccp", "reno_ss.portus", "driven.drive"]
)
def test_takes_the_examples(program: Path, name: str) -> None:
    ran = command("explain", "--ccp", program, EXAMPLES / name)
    assert ran.status == 0 and not ran.errors and "accepted" in ran.output


@pytest.mark.parametrize("words", [[], ["-"], ["--for", "campaign"], ["--quiet"]], ids=" ".join)
def test_standard_input(program: Path, words: List[str]) -> None:
    ran = command("explain", "--ccp", program, *words, given=scenario(queue=0, marks=1))
    assert ran.status == 1 and not ran.errors
    assert ran.output.startswith("standard input:12:13: refused: range cases[0].queue\n")
    assert ("warning" in ran.output) == (words != ["--quiet"])


def test_help() -> None:
    ran = command("explain", "--help")
    assert (
        ran.status == 0 and not ran.errors and "ccp explain [--for MODE]" in ran.output and "Exit status" in ran.output
    )


def test_refuses_arguments(tmp_path: Path) -> None:
    for words in (["--for", "soak"], ["no-such-file"], ["--ccp", "/no/such/program", "-"], ["a", "b"], [str(tmp_path)]):
        ran = command("explain", *words, given="(def)")
        assert ran.status == 2 and not ran.output, words
        assert ran.errors.startswith("ccp explain: ") and ran.errors.count("\n") == 1, ran.errors


def test_the_option_that_named_the_program(program: Path) -> None:
    ran = command("explain", "--program", program, given="(def) (when true (:= Cwnd 1) (report))")
    assert ran.status == 0 and "ccp: warning: --program is now --ccp" in ran.errors


def test_the_nearest_word() -> None:
    known = ["losses", "mark", "mss", "Flow.rtt_sample_us"]
    pairs = {"loss": "losses", "marks": "mark", "MSS": "mss", "rttSampleUs": "Flow.rtt_sample_us", "zzz": None}
    for word, wanted in {**pairs, "flow.rtt-sample-us": "Flow.rtt_sample_us"}.items():
        assert nearest(word, known) == wanted


def test_tables_that_it_uses() -> None:
    assert set(AGENTS) == {"reno", "cubic"} and "Flow.was_timeout" in PRIMITIVE_WORDS
    assert MODES["campaign"].cases == LIMITS["cases"] and asking.LIMITS["flows"] == MODES["live"].cases
