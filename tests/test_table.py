"""Tests of `ccp table`."""
import csv
import io
import re

from support import EXAMPLES, ccp, command

from ccp_tools.tables import PRIMITIVES

LIVE = """flow 0 case=a agent=reno
epoch 0 program=0 at=0 cwnd=4344
fault epoch=0 ack=3 kind=Overflow at=1:20
ticket 0 report program=0 epoch=0 span=0..4 taken=4 answered=4 reply=none now=60000 cwnd=10136 rate=0 acked=5792 loss=0 rtt=30000
ticket 1 report program=0 epoch=0 span=4..6 taken=6 answered=7 reply=update:9000 now=90000 cwnd=20136 rate=0 acked=2896 loss=2 rtt=50000
end acks=7 reports=2 held=0 faults=1 tail=6..7 stopped=no cwnd=10136 rate=0 acked=0 loss=0 rtt=30000
"""  # noqa: E501
FIELDS = """report program=0 epoch=0 span=0..1 now=5 cwnd=9 rate=0 now=77 span=3
end acks=1 reports=1 tail=1..1 stopped=yes cwnd=9 rate=0 now=0 span=0
"""
ACKS = """flow 0 case=a agent=cubic
lost_pkts_sample=3 now=200000 rate_outgoing=21720 was_timeout=1
bytes_acked=1448 packets_acked=1 now=221000 rate_incoming=6552 rate_outgoing=26208 rtt_sample_us=21000
flow 1 case=b agent=reno
flow 2 case=c agent=reno
bytes_acked=1 packets_acked=1 now=3 rtt_sample_us=3
"""
ROLLOUT = """flow 0 case=a
step 0 installed at=0
step 1 refused at=0 Unknown at 1:13
epoch 0 step=0 at=0 cwnd=4344
end acks=0 reports=0 tail=0..0 stopped=no cwnd=4344 rate=0
"""


def rows_of(text, *words):
    printed, errors, status = command("table", *words, given=text)
    assert status == 0, errors
    return list(csv.DictReader(io.StringIO(printed)))


def test_a_table():
    table = (EXAMPLES / "campaign.out").read_text()
    rows = rows_of(table)
    assert len(rows) == table.count("\n") - 2 and list(rows[0]) == table.split("\n")[0].split(" "), "%d rows" % len(
        rows
    )
    assert " ".join(rows[0].values()) == table.split("\n")[1], "the first case"
    assert rows_of("install 0 00\n" + table) == rows, "after install lines"


def test_a_shared_table_keeps_the_line_of_its_link():
    table = (EXAMPLES / "shared.out").read_text()
    rows = rows_of(table)
    assert len(rows) == 4 and {row["link_lost"] for row in rows} == {"563"} and rows[3]["acked"] == "4668000", str(
        rows[0]
    )
    assert rows_of(table, "--what", "link") == [
        {"rounds": "10000", "sent": "40488", "acked": "39576", "lost": "563", "inflight": "349"}
    ], "the link alone"


def test_a_soak():
    text, errors, status = ccp("soak", "--number", "3")
    assert status == 0, "soak: %s" % errors
    rows = rows_of(text)
    assert len(rows) == 1 and rows[0]["number"] == "3" and rows[0]["cases"] == "64", str(rows)


def test_reports():
    folded = ccp("fold", given=(EXAMPLES / "measurement-program.ccp").read_text())[0]
    rows = rows_of(folded)
    assert len(rows) == folded.count("report "), "%d rows of a fold" % len(rows)
    rows = rows_of(LIVE)
    assert [row["ticket"] for row in rows] == ["0", "1"], "tickets"
    assert (
        rows[1]["first"] == "4"
        and rows[1]["end"] == "6"
        and rows[1]["reply"] == "update:9000"
        and rows[1]["loss"] == "2"
    ), str(rows[1])
    assert rows_of(LIVE, "--what", "faults") == [
        {"flow": "0", "case": "a", "epoch": "0", "ack": "3", "kind": "Overflow", "at": "1:20"}
    ], "faults"
    assert rows_of(LIVE, "--what", "epochs")[0]["cwnd"] == "4344", "epochs"
    ends = rows_of(LIVE, "--what", "flows")[0]
    assert ends["held"] == "0" and ends["tail"] == "6..7" and ends["stopped"] == "no" and ends["rtt"] == "30000", str(
        ends
    )


def test_fields_with_the_names_of_columns():
    row = rows_of(FIELDS)[0]
    assert row["now"] == "5" and row["field_now"] == "77" and row["span"] == "3", str(row)


def test_a_rollout():
    assert rows_of(ROLLOUT, "--what", "steps")[1] == {
        "flow": "0",
        "case": "a",
        "step": "1",
        "at": "0",
        "refusal": "Unknown at 1:13",
    }, "steps"
    assert rows_of(ROLLOUT, "--what", "epochs")[0]["step"] == "0" and rows_of(ROLLOUT) == [], "epochs"


def test_acknowledgements():
    rows = rows_of(ACKS)
    assert [(row["flow"], row["case"], row["ack"], row["now"]) for row in rows] == [
        ("0", "a", "0", "200000"),
        ("0", "a", "1", "221000"),
        ("2", "c", "0", "3"),
    ], str(rows)
    assert (
        rows[0]["lost_pkts_sample"] == "3" and rows[0]["bytes_acked"] == "0" and list(rows[0])[4:] == PRIMITIVES
    ), str(rows[0])


def test_what_the_program_prints():
    """A timeline and acknowledgements of the program itself."""
    given = (EXAMPLES / "live.json").read_text()
    timeline, acks = ccp("timeline", given=given)[0], ccp("acks", given=given)[0]
    rows = rows_of(timeline)
    assert rows and len(rows) == len(re.findall(r"^ticket \d+ report ", timeline, re.MULTILINE)), "%d reports" % len(
        rows
    )
    rows = rows_of(acks)
    assert rows and len(rows) == acks.count("now="), "%d acknowledgements" % len(rows)


def test_other_texts_are_refused():
    for text, part in (
        ("flow 0 case=a\nhello\n", "line 2"),
        ("hello\n", "line 1"),
        ("", "nothing"),
        (LIVE[:-60], "line 6"),
        (ACKS + "x=1\n", "line 7"),
        (LIVE.replace("taken=4", "token=4"), "line 4"),
        ((EXAMPLES / "campaign.out").read_text().rsplit("total", 1)[0], "no line `total`"),
        (LIVE.rsplit("end", 1)[0], "the text is cut"),
    ):
        printed, errors, status = command("table", given=text)
        assert (
            status == 1
            and part in errors
            and errors.startswith("ccp table: standard input: ")
            and errors.count("\n") == 1
        ), "%r: %s" % (text[:40], errors)
    printed, errors, status = command("table", "no-such-file")
    assert status == 1 and errors == "ccp table: no-such-file: No such file or directory\n", errors
    printed, errors, status = command("table", "--what", "link", given=LIVE)
    assert status == 1 and "there are no link in this text" in errors, errors
