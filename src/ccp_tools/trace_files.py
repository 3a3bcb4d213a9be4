"""Reads files of traces and measurements, unpacks packed ones, and names what can't be read and what converts it.

    read_plain(path)        the bytes of a file, unpacked where gzip, xz or bzip2 packed it
    read_text(path, what)   its text; `what` says in a message what was expected
    recognised(text)        what a text is that isn't what was expected, and what makes a trace of it

A path `-` is standard input. A file is read and unpacked in pieces, up to its bound: MOST_TEXT bytes and MOST_LINES
lines, and MOST_BYTES of a packet capture."""
from __future__ import annotations

import bz2
import codecs
import gzip
import io
import json
import lzma
import re
import zlib
from typing import Any, Callable

from .errors import CcpError
from .files import MOST_BYTES, PIECE, Begun, PathLike, name_of, open_bytes, reason_of

# the most bytes and lines of a text, unpacked: one of 60 s at 1 Gbit/s has 5 million lines. What a few bytes unpack to
# costs a second at most up to here
MOST_TEXT = 1 << 26
MOST_LINES = 1 << 24

# the bytes that a packed file begins with, what opens it, and what packed it
Opener = Callable[[Any], Any]
PACKED: list[tuple[bytes, Opener, str]] = [
    (b"\x1f\x8b", gzip.open, "gzip"),
    (b"\xfd7zXZ\x00", lzma.open, "xz"),
    (b"BZh", bz2.open, "bzip2"),
]

PCAP = "a packet capture (pcap); `ccp trace from-pcap` makes a trace of it"
PCAPNG = "a packet capture (pcapng); `ccp trace from-pcap` makes a trace of it"
CAPTURES = (b"\xd4\xc3\xb2\xa1", b"\xa1\xb2\xc3\xd4", b"\x4d\x3c\xb2\xa1", b"\xa1\xb2\x3c\x4d", b"\x0a\x0d\x0d\x0a")
UTF_16 = "UTF-16 text; `iconv -f UTF-16 -t UTF-8 FILE > NEW` makes UTF-8 of it"
UTF_32 = "UTF-32 text; `iconv -f UTF-32 -t UTF-8 FILE > NEW` makes UTF-8 of it"

# what files that are no text begin with
BINARIES = [
    *[(magic, PCAP) for magic in CAPTURES[:-1]],
    (CAPTURES[-1], PCAPNG),
    (codecs.BOM_UTF32_LE, UTF_32),
    (codecs.BOM_UTF32_BE, UTF_32),
    (codecs.BOM_UTF16_LE, UTF_16),
    (codecs.BOM_UTF16_BE, UTF_16),
    (b"\x28\xb5\x2f\xfd", "packed by zstd; `zstd -d FILE` unpacks it"),
    (b"\x04\x22\x4d\x18", "packed by lz4; `lz4 -d FILE` unpacks it"),
    (b"PK\x03\x04", "a zip archive; `unzip FILE` unpacks it"),
    (b"7z\xbc\xaf\x27\x1c", "a 7z archive; `7z x FILE` unpacks it"),
    (b"\x7fELF", "a compiled program"),
    (b"%PDF", "a PDF"),
    (b"\x89PNG", "a PNG picture"),
    (b"PAR1", "a Parquet file; write it as CSV first, as pandas does"),
    (b"\x89HDF", "an HDF5 file; write it as CSV first, as pandas does"),
    (b"SQLite format 3\0", "a database of SQLite; write the table as CSV first"),
]


# ---- bytes


def read_plain(path: PathLike) -> bytes:
    """The bytes of a file, unpacked. A file that can't be read, or is packed and damaged, is a CcpError."""
    file = open_bytes(path)
    try:
        beginning = file.read(PIECE)
        begun = Begun(beginning, file)
        for magic, opener, name in PACKED:
            if beginning.startswith(magic):
                return unpacked(begun, opener, name, path)
        return bounded(begun, path)
    except OSError as error:
        raise CcpError("%s: %s" % (name_of(path), reason_of(error))) from None
    finally:
        if str(path) != "-":
            file.close()


def unpacked(packed: Begun, opener: Opener, name: str, path: PathLike) -> bytes:
    """The content of a packed file."""
    try:
        with opener(packed) as file:
            return bounded(file, path)
    except EOFError:
        raise CcpError("%s: it is packed by %s and cut: its end is missing" % (name_of(path), name)) from None
    except (OSError, lzma.LZMAError, zlib.error) as error:
        raise CcpError("%s: it is packed by %s and damaged: %s" % (name_of(path), name, error)) from None


def bounded(file: Any, path: PathLike) -> bytes:
    """The bytes of an open file, in pieces. More bytes or lines than its bound are a CcpError."""
    whole, lines = io.BytesIO(), 0
    piece = file.read(PIECE)
    is_text = not is_capture(piece)
    most = MOST_TEXT if is_text else MOST_BYTES
    while piece:
        lines += piece.count(b"\n")
        if whole.tell() + len(piece) > most:
            raise CcpError("%s: it has more than %d bytes, the most that are read" % (name_of(path), most))
        if is_text and lines > MOST_LINES:
            raise CcpError("%s: it has more than %d lines, the most that are read" % (name_of(path), MOST_LINES))
        whole.write(piece)
        piece = file.read(PIECE)
    return whole.getvalue()


def is_capture(data: bytes) -> bool:
    """Whether bytes are those of a packet capture, by how they begin."""
    return data.startswith(CAPTURES)


def what_is(data: bytes) -> str | None:
    """What bytes are that are no text in UTF-8, with what converts them; None where they don't say it."""
    for magic, what in BINARIES:
        if data.startswith(magic):
            return what
    if data[257:262] == b"ustar":
        return "a tar archive; `tar -xf FILE` unpacks it"
    begin = data[:65_536]
    if b"\0" not in begin:
        return None
    # text of Latin letters in UTF-16 without a mark has a zero in every second byte, and none beside
    for odd in (0, 1):
        if len(begin) > 3 and not any(begin[odd::2]) and b"\0" not in begin[1 - odd :: 2]:
            return UTF_16
    return "binary data"


# ---- text


def read_text(path: PathLike, expected: str = "a text in UTF-8") -> str:
    """The text of a file, unpacked. A byte order mark stays, as U+FEFF."""
    return text_of(read_plain(path), path, expected)


def text_of(data: bytes, path: PathLike, expected: str = "a text in UTF-8") -> str:
    """The text of a file's bytes; bytes that are no UTF-8 are a CcpError that says what they are."""
    what = what_is(data)
    if what:
        raise CcpError("%s: %s is expected, and it is %s" % (name_of(path), expected, what))
    try:
        return data.decode("utf-8")
    except UnicodeDecodeError as error:
        line = data.count(b"\n", 0, error.start) + 1
        byte = data[error.start]
        raise CcpError("%s:%d: the byte 0x%02X isn't UTF-8" % (name_of(path), line, byte)) from None


def without_mark(text: str) -> str:
    """A text without the byte order mark that spreadsheets write first."""
    return text[1:] if text.startswith("\ufeff") else text


# ---- what a text is

FROM_CSV = "`ccp trace from-csv` makes a trace of it"
LINK_LOG = "a link log of Mahimahi or Pantheon; `ccp trace from-mahimahi-log` makes a trace of it"
IPERF_CSV = "the CSV of iperf; `ccp trace from-csv --kind iperf` makes a trace of it"
EVENT = re.compile(r"[0-9]+(\.[0-9]+)? [-+#d] [0-9]+")

# what a text's first lines match, and what it is
TEXTS = [
    (
        re.compile(r"\s*<(!doctype|html|\?xml)", re.IGNORECASE),
        "a page of the web in place of a file; get the file itself",
    ),
    (
        re.compile(r"version https://git-lfs"),
        "a pointer of Git LFS in place of a file; `git lfs pull` gets the file itself",
    ),
    (re.compile(r"# (mahimahi mm-link|init timestamp:|base timestamp:)|" + EVENT.pattern), LINK_LOG),
    (re.compile(r"[0-9]{14},[0-9.]+,[0-9]+,[0-9.]+,[0-9]+,[0-9]+,[0-9.]+-[0-9.]+,"), IPERF_CSV),
    (
        re.compile(r"(Connecting to host|Server listening|-+\n(Client|Server) )"),
        "a text of iperf; run it with --json (iperf3) or -y C (iperf2)",
    ),
    (
        re.compile(r"[0-9]{2}:[0-9]{2}:[0-9]{2}\.[0-9]+ (IP|ARP)"),
        "a text of tcpdump; write a capture by `-w FILE`, and `ccp trace from-pcap` makes a trace of it",
    ),
    (
        re.compile(r"(State|Netid) +Recv-Q|.*\b(cwnd|ssthresh):[0-9]"),
        "a text of `ss`, which doesn't say when the link could send",
    ),
    (re.compile(r"(flow [0-9]+ case=|case agent |fold report|report program=)"), "a text that `ccp` prints"),
    (re.compile(r"\s*(#.*\n\s*)*\(def\b"), "a datapath program"),
]

# a key of a JSON text, and the tool that writes it
JSON_KEYS = [
    ("intervals", "JSON of iperf3; `ccp trace from-iperf3` makes a trace of it"),
    ("cases", "a scenario of ccp; its traces are texts in the member `traces`"),
    ("qlog_version", "a qlog of QUIC, which doesn't say when the link could send"),
    ("qlog_format", "a qlog of QUIC, which doesn't say when the link could send"),
    ("x_values", "data of flent; write its throughput by `flent -f csv`, and " + FROM_CSV),
    ("round_trips", "JSON of irtt, which measures delay and no throughput"),
]


def recognised(text: str) -> str | None:
    """What a text is that is no trace, with what makes a trace of it where something does; None where it isn't
    known."""
    if not text.strip():
        return None
    begin = text.lstrip()[:1]
    if begin in ("{", "["):
        return what_json(text)
    head = text[:65_536]
    for pattern, what in TEXTS:
        if pattern.match(head):
            return what
    return what_columns(head)


def what_json(text: str) -> str:
    """What a JSON text is, by its keys. A text of a line an event, as iperf3 streams it, counts as JSON too."""
    try:
        made = json.loads(text)
    except (ValueError, RecursionError):
        first = text.lstrip().partition("\n")[0]
        if re.match(r'\{"event":', first):
            return JSON_KEYS[0][1]
        return "a part of a JSON text; get the whole file"
    keys = made if isinstance(made, dict) else made[0] if made and isinstance(made[0], dict) else {}
    for key, what in JSON_KEYS:
        if key in keys:
            return what
    return "JSON of another tool; write times and bytes as CSV, and " + FROM_CSV


def what_columns(head: str) -> str | None:
    """What a text of columns is: CSV with a separator, or a column of times with fractions."""
    lines = [line.strip() for line in head.split("\n")[:20] if line.strip() and not line.startswith("#")]
    if len(lines) < 2:
        return None
    for sign, name in ((",", "commas"), (";", "semicolons"), ("\t", "tabs"), (" ", "blanks")):
        counts = {len(line.split(sign) if sign != " " else line.split()) for line in lines[:-1]}
        if len(counts) == 1 and counts != {1}:
            return "a table of %d columns with %s between; %s" % (counts.pop(), name, FROM_CSV)
    if all(re.fullmatch(r"[0-9]+\.[0-9]+", line) for line in lines[:-1]):
        return "a column of times with fractions; `ccp trace from-csv --count rows` makes a trace of it"
    return None
