"""Tests of what `ccp trace` reads and writes beside traces: logs, captures, CSV, results of iperf, packed files.

tests/data/make writes the files that they read."""
from __future__ import annotations

import bz2
import gzip
import json
import lzma
import time
from pathlib import Path
from typing import Any, Dict, List

import pytest
from support import TRACES, ccp, command, needs, ran
from test_traces import made, refused, times, trace

from ccp_tools.errors import CcpError
from ccp_tools.link_logs import log_of, measured_of, measured_of_log
from ccp_tools.traces import read_trace

DATA = Path(__file__).parent / "data"
LINK = list(range(2, 501, 2)) + list(range(504, 1001, 4))


def test_the_files_are_those_of_their_script(tmp_path: Path) -> None:
    assert ran([DATA / "make", tmp_path]).status == 0
    for path in sorted(DATA.iterdir()):
        # runs of the program aren't made by it, nor is what is packed
        if path.name != "make" and path.stem not in ("two-flows", "driven") and path.suffix not in (".gz", ".xz"):
            assert path.read_bytes() == (tmp_path / path.name).read_bytes(), path.name


# ---- CSV


def test_packets() -> None:
    words = ["from-csv", "--time-column", "time", "--count-column", "len"]
    assert times(made(*words, DATA / "packets.csv")) == [0, 100, 100, 700, 1500]
    words = ["from-csv", "--separator", ";", "--count-column", 3, "--unit", "ms", "--count", "packets"]
    assert times(made(*words, "-", given="5;x;1\n9;x;2\n")) == [0, 4, 4]
    assert times(made("from-csv", "--count", "rows", "-", given="0.5\n0.75\n0.75\n1.5\n")) == [0, 250, 250, 1000]
    assert times(made("from-csv", "--separator", "tab", "-", given="1\t1500\n2\t1500\n")) == [0, 1000]


def test_intervals() -> None:
    words = ["from-csv", "--kind", "intervals"]
    assert times(made(*words, "--separator", ";", DATA / "intervals.csv")) == [333, 667, 1000, 1500, 2000]
    # a packet that begins in one interval ends in the next
    assert times(made(*words, "-", given="1,2250\n2,2250\n")) == [667, 1333, 2000]
    # the time of a clock: the first interval is as long as the second one
    clock = ["--separator", "space", "--count-column", 5]
    assert times(made(*words, *clock, DATA / "blanks.log")) == [500, 1000, 1333, 1667, 2000]
    begin = ["--time-is", "begin"]
    assert times(made(*words, *begin, "-", given="5,3000\n6,1500\n")) == [500, 1000, 2000]


def test_rates() -> None:
    """A rate holds up to the next row's time, and the last one as long as the one before it."""
    words = ["from-csv", "--count", "mbps", "--count-column", "mbps", DATA / "rates.csv"]
    assert times(made(*words)) == [1000, 1500, 2000, 4000, 5000, 6000]
    # ending at its row's time, the first rate holds for no time
    assert times(made(*words, "--time-is", "end")) == [500, 1000, 2500, 3500]
    form = ["--time-format", "%Y.%m.%d_%H.%M.%S", "--count-column", "DL_bitrate", "--count", "kbps"]
    assert times(made("from-csv", *form, DATA / "rates-with-dates.csv")) == [500, 1000, 2000, 2333, 2667, 3000]
    assert times(made("from-csv", "--count", "bytes-per-second", "-", given="0,1500\n1,3000\n")) == [1000, 1500, 2000]
    assert times(made("from-csv", "--count", "bps", "-", given="0,12000\n1,0\n2,12000\n")) == [1000, 3000]


def test_a_byte_order_mark_and_comments_of_csv_are_skipped() -> None:
    text = b"\xef\xbb\xbftime,len\r\n# a comment\r\n1,1500\r\n\r\n2,1500\r\n"
    assert times(made("from-csv", "--time-column", "time", "-", given=text)) == [0, 1000]


def test_csv_is_refused() -> None:
    wrong: List[tuple[List[object], str, str]] = [
        ([], "1,x\n2,3\n", ":1: no number in column 2: x"),
        ([], "1,1500\n2,\n", ":2: no number in column 2: it is empty"),
        ([], "2,1500\n1,1500\n", ":2: its time is before"),
        ([], "1,nan\n", ":1: column 2: nan is no count"),
        ([], "1,-5\n", "is no count, rate or time"),
        ([], "1,1e14\n", "more than 50000000 packets"),
        ([], "", "nothing in it"),
        ([], "time,len\n", "a heading and no row"),
        ([], "1;1500\n2;1500\n", "--separator ';' may split"),
        ([], "1\t1500\n2\t1500\n", "--separator tab may split"),
        ([], "1 1500\n2 1500\n", "--separator space may split"),
        (["--time-column", "t"], "time,len\n1,2\n", "no column t; the first line has time, len"),
        (["--count-column", "9"], "1,2\n", ":1: there is no column 9"),
        (["--kind", "iperf"], "1,2\n", ":1: no interval of `iperf -y C`"),
        (["--kind", "iperf"], "", "nothing in it"),
        (["--count", "mbps"], "1,2\n", "two rows at least"),
        (["--time-format", "%H:%M"], "12:00,1500\n12;01,1500\n", ":2: column 1 isn't a time of the form"),
        ([], '1,"' + "x" * 200_000 + '"\n', "no CSV: field larger"),
    ]
    for words, text, part in wrong:
        refused(1, part, "from-csv", *words, "-", given=text)


# ---- iperf


def test_iperf() -> None:
    assert times(made("from-csv", "--kind", "iperf", DATA / "iperf2.csv")) == [500, 1000, 2000]
    for name in ("iperf3.json", "iperf3-stream.json"):
        # the first second is omitted
        assert times(made("from-iperf3", DATA / name)) == [500, 1000, 1250, 1500, 1750, 2000, 3000]
        assert times(made("from-iperf3", "--reverse", DATA / name)) == [1000, 1500, 2000]


def test_iperf_is_refused() -> None:
    def without(change: Any) -> str:
        whole = json.loads((DATA / "iperf3.json").read_text())
        change(whole)
        return json.dumps(whole)

    def no_sum(whole: Dict[str, Any]) -> None:
        del whole["intervals"][2]["sum"]

    def text_for_bytes(whole: Dict[str, Any]) -> None:
        whole["intervals"][1]["sum"]["bytes"] = "3000"

    wrong = {
        '{"error": "unable to connect to server"}': "iperf3 failed: unable to connect",
        '{"start": {}, "intervals": [': "a part of a JSON text",
        '{"a": 1}': "JSON of another tool",
        "[1, 2]": "JSON of another tool",
        '{"version": 1, "cases": [], "traces": {}}': "a scenario of ccp",
        '{"start": {}, "intervals": [], "end": {}}': "no interval",
        "Connecting to host 10.0.0.2, port 5201\n": "a text of iperf; run it with --json",
        (DATA / "iperf2.csv").read_text(): "the CSV of iperf",
        "": "nothing in it",
        "1\n2\n": "another text",
        "[" * 100_000: "a part of a JSON text",
        without(no_sum): "intervals[2]: there is no member sum",
        without(text_for_bytes): "intervals[1]: sum has no numbers",
    }
    for text, part in wrong.items():
        refused(1, part, "from-iperf3", "-", given=text)


# ---- captures


@needs("tshark")
@pytest.mark.parametrize("name", ["capture.pcap", "capture.pcapng"])
def test_a_capture(name: str, tmp_path: Path) -> None:
    """Of 4,608 bytes three whole packets come; without the small one, at the same times."""
    assert times(made("from-pcap", DATA / name)) == [0, 2, 10]
    only = ["--filter", "tcp.srcport == 5001"]
    assert times(made("from-pcap", *only, DATA / name)) == [0, 2, 10]
    refused(1, "nothing is left", "from-pcap", "--packet", 66, "--filter", "tcp.srcport == 80", DATA / name)
    packed = tmp_path / "x.gz"
    packed.write_bytes(gzip.compress((DATA / name).read_bytes()))
    assert times(made("from-pcap", packed)) == [0, 2, 10]


@needs("tshark")
def test_captures_are_refused() -> None:
    data = (DATA / "capture.pcap").read_bytes()
    refused(1, "no packet that the filter takes", "from-pcap", "--filter", "udp", DATA / "capture.pcap")
    refused(1, "tshark: ", "from-pcap", "--filter", "no such field ==", DATA / "capture.pcap")
    cut = trace("from-pcap", "-", given=data[:-100])
    assert cut.status == 0 and "ends in the middle of a packet" in cut.errors and times(cut.output) == [0, 2]


def test_what_is_no_capture() -> None:
    for data, part in (
        (b"", "it is empty"),
        (b"1\n2\n", "it is a text"),
        (b"\0" * 24, "binary data"),
        (b"\xff", "UTF-8"),
    ):
        refused(1, part, "from-pcap", "-", given=data)


def test_a_capture_without_tshark(tmp_path: Path) -> None:
    ran = command("trace", "from-pcap", DATA / "capture.pcap", env={"PATH": str(tmp_path)})
    assert ran.status == 1 and "tshark isn't installed" in ran.errors


# ---- logs


def test_a_log_of_mahimahi() -> None:
    assert times(made("from-mahimahi-log", DATA / "mm-link.log")) == LINK
    found = measured_of_log(DATA / "mm-link.log")
    # of each ten packets of 480 ms one is dropped; they wait 0, 2, 4, 6 or 8 ms
    assert found.packets == 216 and found.loss_rate == pytest.approx(0.1) and found.delay_is_queueing
    assert (found.delay_p50_ms, found.delay_p95_ms, found.delay_p99_ms) == (4, 8, 8)
    assert found.throughput_mbps == pytest.approx(8 * 216 * 1504 / (1000 * (486 - 2)))
    assert found.utilization == pytest.approx(216 / 243)
    assert found.figures()["queueing_p95_ms"] == 8
    early = measured_of_log(DATA / "mm-link.log", until_s=0.1)
    assert early.delay_p95_ms == 0 and early.packets == 45


def test_a_log_of_pantheon() -> None:
    assert times(made("from-mahimahi-log", DATA / "pantheon.log")) == [*range(0, 1001, 5)]
    both = measured_of_log(DATA / "pantheon.log")
    assert both.packets == 100 and not both.delay_is_queueing and "queueing_p95_ms" not in both.figures()
    second = measured_of_log(DATA / "pantheon.log", flow=2)
    assert (second.packets, second.delay_mean_ms, second.seconds, second.loss_rate) == (50, 40.5, 0.98, 0)
    with pytest.raises(CcpError, match="no flow 3; its flows are 1, 2"):
        measured_of_log(DATA / "pantheon.log", flow=3)


def test_measured_is_printed() -> None:
    text = made("measured", DATA / "mm-link.log")
    assert "packets               216\n" in text and "loss_rate             0.1\n" in text
    found = json.loads(made("measured", "--json", "--flow", 1, DATA / "pantheon.log", DATA / "pantheon.log"))
    assert len(found) == 2 and found[0]["delay_mean_ms"] == 30.25


def test_a_log_without_a_head_begins_with_its_first_event() -> None:
    assert times(made("from-mahimahi-log", "-", given="1000 # 1504\n1002 # 1504\n")) == [0, 2]
    log = log_of("5 + 1500\n5 - 1500 0\n9 - 1500 3\n")
    assert log.base == 5 and measured_of(log).utilization is None


def test_logs_are_refused() -> None:
    wrong = {
        "": "no event of a link",
        "# base timestamp: 3\n": "no event of a link",
        "1 ? 1500\n": ":1: no event of a link log",
        "1 + \n": "no whole number of bytes after +",
        "1 + 1500\n2 - 1500\n": ":2: a packet that leaves has bytes and a delay",
        "1 + 1500\n": "no chance of the link",
        "x # 1500\n": ":1: no event",
        "1 + 1500 a b\n": "the number of a flow",
        "# base timestamp: 9\n3 # 1504\n": "a chance comes 6 ms before",
        "1\n2\n3\n": ":1: no event",
        "1,2\n2,3\n3,4\n": "a table of 2 columns",
        (DATA / "iperf3.json").read_text(): "JSON of iperf3",
    }
    for text, part in wrong.items():
        refused(1, part, "from-mahimahi-log", "-", given=text)
    refused(1, "binary data", "from-mahimahi-log", "-", given=b"\0\1\2\3" * 9)
    refused(1, "no two packets leave", "measured", "-", given="1 # 1504\n2 - 1500 0\n")


def scenario(**more: Any) -> Dict[str, Any]:
    """A scenario of one case of Reno with a loss, over a link of 2 ms a packet that repeats each 10 ms."""
    case = {"name": "a", "agent": "reno", "trace": "t", "mss": 1448, "queue": 4, "delay_us": 10_500}
    case.update({"timeout_us": 200_000, "acks": 400, "losses": [5, 90], **more})
    return {"version": 1, "traces": {"t": "2\n4\n6\n8\n10\n"}, "cases": [case]}


def test_acknowledgements_as_a_log(tmp_path: Path, program: Path) -> None:
    """The log has the case's link, and the throughput, the losses and the delays of its acknowledgements."""
    whole = scenario()
    (tmp_path / "s.json").write_text(json.dumps(whole))
    acks = ccp("acks", given=json.dumps(whole)).output
    (tmp_path / "acks").write_text(acks)
    text = made("to-mahimahi-log", tmp_path / "s.json", tmp_path / "acks")
    (tmp_path / "a.log").write_text(text)
    row = dict(zip(*[line.split() for line in ccp("campaign", given=json.dumps(whole)).output.split("\n")[:2]]))
    found = measured_of_log(tmp_path / "a.log")
    lost, timeouts = int(row["lost"]), int(row["timeouts"])
    assert lost > 2 and found.packets == 400 - timeouts
    assert found.loss_rate == pytest.approx(lost / (lost + found.packets))
    assert 8 * found.packets * 1448 / (1000 * found.seconds) == pytest.approx(1000 * found.throughput_mbps)
    samples = [line for line in acks.split("\n") if "packets_acked=1" in line]
    waits = sorted(int(line.split("rtt_sample_us=")[1].split()[0]) - 10_500 for line in samples)
    assert abs(found.delay_p95_ms - waits[-(-95 * len(waits) // 100) - 1] / 1000) <= 1
    link = times(made("from-mahimahi-log", tmp_path / "a.log"))
    assert link == [2 * (at + 1) for at in range(len(link))] and abs(2 * len(link) - int(row["now"]) / 1000) <= 2
    events = [int(line.split()[0]) for line in text.split("\n") if line and line[0] != "#"]
    assert events == sorted(events)


def test_which_case_is_a_log(tmp_path: Path, program: Path) -> None:
    whole = scenario(acks=30)
    whole["cases"].append(dict(whole["cases"][0], name="b", queue=9))
    path, acks = tmp_path / "s.json", tmp_path / "acks"
    path.write_text(json.dumps(whole))
    acks.write_text(ccp("acks", given=json.dumps(whole)).output)
    assert "case b " in made("to-mahimahi-log", "--case", "b", path, acks)
    refused(2, "--case NAME names it, of a, b", "to-mahimahi-log", path, acks)
    refused(1, "no case c; there are a, b", "to-mahimahi-log", "--case", "c", path, acks)
    refused(1, "line 1: ", "to-mahimahi-log", path, TRACES[0])
    refused(1, "no flow in it", "to-mahimahi-log", path, "-", given="")
    del whole["cases"][1]["delay_us"]
    refused(
        1, "the case b has no member delay_us", "to-mahimahi-log", "--case", "b", "-", acks, given=json.dumps(whole)
    )
    refused(1, "no case b", "to-mahimahi-log", "--case", "b", "-", acks, given='{"cases": [1]}')


# ---- packed files, and what files are


@pytest.mark.parametrize("pack", [gzip.compress, lzma.compress, bz2.compress], ids=["gzip", "xz", "bzip2"])
def test_packed_files(pack: Any, tmp_path: Path) -> None:
    path = tmp_path / "x"
    path.write_bytes(pack(b"1\n2\n5\n"))
    assert read_trace(path) == [1, 2, 5]
    assert times(made("cut", "--to", 2, path)) == [1, 2]
    assert times(made("cut", "--to", 2, "-", given=path.read_bytes())) == [1, 2]
    path.write_bytes(pack((DATA / "packets.csv").read_bytes()))
    words = ["from-csv", "--time-column", "time", "--count-column", "len"]
    assert times(made(*words, path)) == [0, 100, 100, 700, 1500]
    whole = pack(b"".join(b"%d\n" % time for time in range(1, 20_000)))
    refused(1, "and cut: its end is missing", "info", "-", given=whole[:-20])
    refused(1, "and damaged: ", "info", "-", given=whole[:40] + b"\xff\0" * 40 + whole[120:])


@pytest.mark.parametrize("pack", [gzip.compress, lzma.compress, bz2.compress], ids=["gzip", "xz", "bzip2"])
def test_packed_files_that_unpack_to_too_much(pack: Any, tmp_path: Path) -> None:
    """They are refused at the bound, after a second at most; a packet capture may have more bytes."""
    path = tmp_path / "x"
    # each of the three can be one after another
    for piece, count, most in ((b"\n" * 2**20, 400, "16777216 lines"), (b"1" * 2**20, 400, "67108864 bytes")):
        path.write_bytes(pack(piece) * count)
        begun = time.process_time()
        with pytest.raises(CcpError, match="^%s: it has more than %s, the most that are read$" % (path, most)):
            read_trace(path)
        assert time.process_time() - begun < 1


def test_lines_of_a_plain_file() -> None:
    refused(1, "standard input: it has more than 16777216 lines", "info", "-", given=b"\n" * (2**24 + 1))


def test_packed_files_of_the_repository() -> None:
    assert read_trace(DATA / "link.trace.gz") == read_trace(DATA / "link.trace.xz") == LINK


def test_what_a_file_is_is_named(tmp_path: Path) -> None:
    whats = {
        (DATA / "capture.pcap").read_bytes(): "a packet capture (pcap); `ccp trace from-pcap`",
        (DATA / "capture.pcapng").read_bytes(): "a packet capture (pcapng)",
        "1\n2\n".encode("utf-16"): "UTF-16 text; `iconv",
        "1\n2\n".encode("utf-16-le"): "UTF-16 text; `iconv",
        "1\n2\n".encode("utf-16-be"): "UTF-16 text; `iconv",
        "1\n2\n".encode("utf-32"): "UTF-32 text",
        b"\xef\xbb\xbf1\n2\n": "a byte order mark comes first",
        b"\0" * 24: "binary data",
        b"\x28\xb5\x2f\xfd...": "packed by zstd",
        b"PK\x03\x04...": "a zip archive",
        b"\x7fELF\x02\x01": "a compiled program",
        b"1\n2\n3\xe9\n": ":3: the byte 0xE9 isn't UTF-8",
        b"": "no time in it",
        b"\n\n": "no time in it",
        (DATA / "iperf3.json").read_bytes(): "JSON of iperf3; `ccp trace from-iperf3`",
        b'{"qlog_version": "0.3"}': "a qlog of QUIC",
        b'{"x": 1}': "JSON of another tool",
        b'{"traces": {}, "cases": []}': "a scenario of ccp",
        (DATA / "mm-link.log").read_bytes(): "a link log of Mahimahi or Pantheon; `ccp trace from-mahimahi-log`",
        (DATA / "pantheon.log").read_bytes(): "a link log of Mahimahi or Pantheon",
        (DATA / "iperf2.csv").read_bytes(): "the CSV of iperf",
        (DATA / "rates.csv").read_bytes(): "a table of 3 columns with commas between",
        b"0.5\n0.75\n1.0\n": "a column of times with fractions; `ccp trace from-csv --count rows`",
        b"<!DOCTYPE html>\n<html>": "a page of the web",
        b"version https://git-lfs.github.com/spec/v1\n": "a pointer of Git LFS",
        b"12:00:00.000001 IP 10.0.0.1.5001 > 10.0.0.2.40000\n": "a text of tcpdump",
        b"State  Recv-Q Send-Q\n": "a text of `ss`",
        b"flow 0 case=a agent=reno\nnow=1\n": "a text that `ccp` prints",
        b"# a sender\n(def (Report (volatile acked 0)))\n": "a datapath program",
    }
    for data, part in whats.items():
        refused(1, part, "info", "-", given=data)
    path = tmp_path / "x.pcap"
    path.write_bytes(b"\0" * 24)
    refused(1, "%s: CSV is expected, and it is binary data" % path, "from-csv", path)


def test_an_endless_file_is_refused(monkeypatch: pytest.MonkeyPatch) -> None:
    monkeypatch.setattr("ccp_tools.trace_files.MOST_TEXT", 1000)
    with pytest.raises(CcpError, match="/dev/zero: it has more than 1000 bytes"):
        read_trace("/dev/zero")
