"""Tests of the readers of texts, of scenario files, and of runs."""
import json
import os
import re

import pytest
from support import EXAMPLES, REPOSITORY, script

from ccp_tools import frames, program, scenario_files, table, texts, traces
from ccp_tools.errors import BadText, CcpError, Failed, NoProgram


def refused(kind, part, work):
    with pytest.raises(kind) as found:
        work()
    assert part in str(found.value)
    return found.value


def example(name):
    return (EXAMPLES / name).read_text(encoding="utf-8")


def test_kinds():
    kinds = {
        "campaign.out": "table",
        "shared.out": "table",
        "measurement-program.out": "fold",
        "first-report.out": "fold",
    }
    for name, kind in kinds.items():
        assert texts.kind_of(example(name)) == kind, name
    head = "flow 0 case=a agent=reno\n"
    for text, kind in (
        (head + "epoch 0 program=0 at=0 cwnd=1\n", "live"),
        (head + "now=1\n", "acks"),
        (head + "flow 1 case=b agent=reno\n", "acks"),
        ("flow 0 case=a\n", "rollout"),
        ("soak number=1\n", "soak"),
        ("ok blocks=1 fields=0 controls=0 need=1 count=3\n", "check"),
        ("yes\n", "audit"),
        ("no flow 3\n", "audit"),
        ("install 0 00\n", "install"),
        ("install 0 00\n" + head + "now=1\n", "acks"),
        ("", ""),
        ("hello\n", ""),
    ):
        assert texts.kind_of(text) == kind, text


def test_shipped_texts_are_read():
    table = texts.read_table(example("shared.out"))
    assert (
        table.link["inflight"] == 349
        and table.rows[2]["case"] == "reno-80ms"
        and table.rows[2]["acked"] == 3898500
        and table.total["lost"] == 563
    ), str(table.link)
    for name in sorted(os.listdir(EXAMPLES)):
        if name.endswith(".out") and texts.kind_of(example(name)) == "fold":
            flow = texts.read_flows(example(name))[0]
            assert len(flow.reports) == flow.end.reports == example(name).count("report "), name


def test_texts_of_the_pages_are_read():
    """The texts that docs/ shows: rollouts, live runs, timelines and acknowledgements."""
    found = []
    for name in sorted(os.listdir(REPOSITORY / "docs")):
        for block in (
            re.findall(
                r"^```\n(.*?)^```$", (REPOSITORY / "docs" / name).read_text(encoding="utf-8"), re.DOTALL | re.MULTILINE
            )
            if name.endswith(".md")
            else []
        ):
            text = re.sub(r"^\$ .*\n", "", block)
            # a page's forms have <names>, what it leaves out is dots, and some blocks have several commands
            if (
                not re.search("<|^\\.\\.|^\\$ ", text, re.MULTILINE)
                and "agent.py" not in block
                and texts.kind_of(text) in ("live", "rollout", "acks", "fold", "table")
            ):
                reader = {"table": texts.read_table, "acks": texts.read_acks}.get(texts.kind_of(text), texts.read_flows)
                reader(text)
                found.append(texts.kind_of(text))
    assert {"rollout", "table", "fold"} <= set(found), str(found)


def test_each_part_of_a_flow():
    text = """flow 3 case=x agent=cubic
epoch 0 program=4 at=0 cwnd=10
epoch 1 program=2 at=7 cwnd=20
fault epoch=0 ack=6 kind=Overflow at=2:5
ticket 0 report program=4 epoch=0 span=0..4 taken=5 answered=6 reply=update:12 now=9 cwnd=10 rate=1 now=8 rate=7
ticket 1 fault epoch=0 ack=6 taken=7 answered=7 reply=change:2:20:30
end acks=9 reports=1 held=2 faults=1 tail=7..9 stopped=yes cwnd=20 rate=0
"""
    flow = texts.read_flows(text)[0]
    assert (flow.number, flow.case, flow.agent) == (3, "x", "cubic") and [epoch.at for epoch in flow.epochs] == [
        0,
        7,
    ], "flow"
    report, notice = flow.tickets
    assert (
        report.fields == {"now": 8, "rate": 7}
        and report.now == 9
        and report.reply == texts.Reply("update", window=12)
        and flow.reports == [report]
    ), str(report)
    assert notice.reply == texts.Reply("change", 20, 2, 30) and notice.ack == 6 and flow.faults[0].place == "2:5", str(
        notice
    )
    assert flow.end.stopped and flow.end.first == 7 and flow.end.held == 2, str(flow.end)


def test_replies_of_an_agent_outside():
    whole = 2**64 - 1
    expected = {
        "update:cwnd=9000": texts.Reply("update", 9000, values=(("cwnd", 9000),)),
        "update:rate=7,control63=1": texts.Reply("update", values=(("rate", 7), ("control63", 1))),
        "change:3:": texts.Reply("change", program=3),
        "change:15:cwnd=1,cwnd=2": texts.Reply("change", 2, 15, values=(("cwnd", 1), ("cwnd", 2))),
        "change:0:control0=%d" % whole: texts.Reply("change", program=0, values=(("control0", whole),)),
    }
    end = "end acks=7 reports=1 held=0 faults=0 tail=7..7 stopped=no cwnd=0 rate=0\n"
    line = "flow 0 case=a agent=own\nticket 0 fault epoch=0 ack=6 taken=7 answered=7 reply=%s\n" + end
    for text, reply in expected.items():
        ticket = texts.read_flows(line % text)[0].tickets[0]
        assert ticket.reply == reply and table.reply_text(reply) == text
    for text in ("update:", "update:cwnd", "update:cwnd=1,", "change:x:", "change:3:flow=1", "change:3:cwnd=-1"):
        refused(texts.BadText, "reply", lambda text=text: texts.read_flows(line % text))
    shown = "ticket 0 report program=3 epoch=0 span=0..1 taken=1 answered=1 reply=%s now=1 cwnd=2 rate=3 acked=4\n"
    text = "flow 0 case=a agent=own\n" + shown % "change:3:rate=5,cwnd=6,control1=7" + end
    reports = frames.read_timeline(text).reports
    row = reports.iloc[0]
    assert (row.reply, row.reply_program, row.reply_window, row.reply_rate, row.reply_control1) == (
        "change",
        3,
        6,
        5,
        7,
    )


def test_an_absent_primitive_is_zero():
    ack = texts.read_acks("flow 0 case=a agent=reno\nnow=5\n")[0].acks[0]
    assert ack["now"] == 5 and ack["bytes_acked"] == 0 and list(ack) == ["now"], str(ack)
    refused(KeyError, "other", lambda: ack["other"])


LINK = "link rounds=3 sent=9 acked=1 lost=2 inflight=6\n"


def test_texts_of_a_shared_link_end_with_it():
    part = "flow 0 case=a agent=reno\nepoch 0 program=0 at=0 cwnd=4344\n"
    end = "end acks=0 reports=0 held=0 faults=0 tail=0..0 stopped=no cwnd=4344 rate=0\n"
    (flow,) = texts.read_flows(part + end + LINK)
    assert flow.end.acks == 0 and texts.kind_of(part + end + LINK) == "live"
    acks = "flow 0 case=a agent=reno\nnow=5\nflow 1 case=b agent=cubic\n"
    assert [len(flow.acks) for flow in texts.read_acks(acks + LINK)] == [1, 0]
    assert frames.read_acks(acks + LINK)["now"].tolist() == [5]
    for text in (part + end, acks):
        assert texts.read_link(text + LINK) == {"rounds": 3, "sent": 9, "acked": 1, "lost": 2, "inflight": 6}
        refused(BadText, "no line `link`", lambda: texts.read_link(text))
    assert texts.read_flows(LINK) == texts.read_acks(LINK) == [] and frames.read_acks(LINK).empty
    refused(BadText, "nothing comes after", lambda: texts.read_flows(part + end + LINK + part + end))
    refused(BadText, "nothing comes after", lambda: texts.read_acks(acks + LINK + acks))
    refused(BadText, "nothing comes after", lambda: frames.read_acks(acks + LINK + acks))


def test_bad_texts_are_refused_with_their_line():
    head = "flow 0 case=a agent=reno\n"
    for read, text, line in (
        (texts.read_flows, head + "epoch x program=0 at=0 cwnd=1\n", 2),
        (texts.read_flows, head + "end acks=1\n", 2),
        (texts.read_flows, head + head, 2),
        (texts.read_acks, "now=1\n", 1),
        (texts.read_acks, head + "now=-1\n", 2),
        (texts.read_acks, head + "now=1 \n", 2),
        (texts.read_table, "hello\n", 1),
        (texts.read_table, example("campaign.out").replace("fixed-cubic cubic 4000", "fixed-cubic cubic 4000 1"), 3),
    ):
        assert refused(BadText, "", lambda: read(text)).line == line, "%r: not line %d" % (text[:60], line)
    table = example("campaign.out")
    refused(BadText, "sum", lambda: texts.read_table(table.replace("lost=2252", "lost=2253")))
    refused(
        BadText,
        "18 cases, and the table 17",
        lambda: texts.read_table("\n".join(line for line in table.split("\n") if not line.startswith("wave-early"))),
    )


def test_chances():
    """Chance k comes at 1000 * (P * (k / n) + t[k mod n]); chances up to a time are those at it too."""
    trace = traces.Trace([1, 1, 3])
    assert [trace.chance_us(k) for k in range(6)] == [1000, 1000, 3000, 4000, 4000, 6000], "chances"
    for until in range(0, 20_000, 500):
        assert trace.chances(until) == sum(trace.chance_us(k) <= until for k in range(100)), "chances up to %d" % until
    assert trace.chances(-1) == 0 and traces.Trace([0, 2]).chances(0) == 1, "at the beginning"
    for times in ([], [0], [2, 1], [3_600_001]):
        refused(CcpError, "", lambda: traces.Trace(times))


def test_scenarios(tmp_path):
    path = tmp_path / "a.json"
    made = {"version": 1, "traces": {"t": "1\n"}, "cases": [{"name": "a"}, {"name": "b"}]}
    scenario_files.write_scenario(made, path)
    assert scenario_files.read_scenario(path) == made and path.read_text().count("\n") == 6
    path.write_text('{"version": 1,\n "cases": [1,]}')
    refused(CcpError, "a.json:2:14: no JSON", lambda: scenario_files.read_scenario(path))
    refused(CcpError, "x:1:1: no JSON: a scenario is expected", lambda: scenario_files.scenario_of("case agent", "x"))
    refused(CcpError, "nothing.json: No such file", lambda: scenario_files.read_scenario(tmp_path / "nothing.json"))


def test_runs(program_path):
    scenario = json.loads(example("campaign.json"))
    table = program.run_table(scenario, wire=True)
    assert table.rows == texts.read_table(example("campaign.out")).rows
    assert sorted(table.installs) == [0, 1, 2, 3] and table.installs[0][0] == 3
    error = refused(Failed, "input refused: json", lambda: program.run("campaign", "{"))
    assert error.status == 3 and program.run("campaign", "{", check=False).status == 3
    assert program.knows_mode("campaign") and not program.knows_mode("nothing")


@pytest.mark.slow
def test_a_run_over_one_bottleneck(program_path):
    assert program.run_table(example("shared.json"), "shared").link["sent"] == 40488


def test_runs_of_timelines(program_path):
    scenario = json.loads(example("live.json"))
    rows, flows, acks = program.run_table(scenario).rows, program.run_flows(scenario), program.run_acks(scenario)
    for row, flow, of_acks in zip(rows, flows, acks):
        assert row["reports"] == len(flow.reports) and row["acks"] == len(of_acks.acks)
        assert row["acked"] == sum(ack["bytes_acked"] for ack in of_acks.acks)


def test_the_program_is_found(tmp_path, monkeypatch):
    refused(NoProgram, "CCP_PROGRAM=PATH names another", lambda: program.find_program("/no/such/ccp"))
    mine = script(tmp_path, "ccp", "exit 0\n")
    monkeypatch.setenv("CCP_PROGRAM", str(mine))
    assert program.find_program() == mine and program.find_program("/bin/true").name == "true"
    monkeypatch.delenv("CCP_PROGRAM")
    monkeypatch.setattr(program, "checkout", lambda: None)
    monkeypatch.setenv("PATH", str(tmp_path))
    assert program.find_program() == mine
    monkeypatch.setenv("PATH", "/nowhere")
    refused(NoProgram, "no ccp on the PATH", program.find_program)


def test_which_program_it_is(tmp_path):
    mine = script(tmp_path, "ccp", "exit 0\n")
    found = program.identity(mine)
    assert len(found.sha256) == 64 and not found.is_proved and found.version
    refused(CcpError, "No such file", lambda: program.identity(tmp_path / "none"))
