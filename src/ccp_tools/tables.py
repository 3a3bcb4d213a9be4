"""The modes, options, columns, operators, primitives, agents and limits of `ccp`, and the sub-commands of the package.

Written by tools/write-tables from the definitions of the crates and tools/modes.json; don't edit it."""
from dataclasses import dataclass
from typing import Dict, List, Optional, Tuple


@dataclass(frozen=True)
class Mode:
    """A mode of the program.

    `kind` is the form of its input: program, fold, campaign, live, shared, rollout, audit, feed, drive or nothing. A
    kind of scenario has the name of its definition in examples/scenario.schema.json. `reads` and `does` say it in
    words, `cases` is the most cases of its scenario (None where it reads none, or one and more), `options` are the names
    of its options without dashes, `files` the FILEs that the launcher takes."""

    name: str
    kind: str
    reads: str
    does: str
    cases: Optional[int]
    options: Tuple[str, ...]
    files: Tuple[str, ...]
    page: str
    example: str


@dataclass(frozen=True)
class Option:
    """An option of the program. `least` and `most` bound its number, and are None for a flag."""

    name: str
    least: Optional[int]
    most: Optional[int]
    does: str
    modes: Tuple[str, ...]


@dataclass(frozen=True)
class Command:
    """A sub-command of the package: the module that has it, the modules of others that it uses, and what it does."""

    name: str
    module: str
    modules: Tuple[str, ...]
    does: str


# the modes in the order in which pages show them
MODES: Dict[str, Mode] = {
    "check": Mode(
        name="check",
        kind="program",
        reads="a program",
        does="shows a program's summary and its compiled code",
        cases=None,
        options=(),
        files=("FILE",),
        page="docs/language.md",
        example="./ccp check examples/reno_ss.portus",
    ),
    "fold": Mode(
        name="fold",
        kind="fold",
        reads="a program and acknowledgements",
        does="runs a program over acknowledgements and prints its reports",
        cases=None,
        options=(),
        files=("PROGRAM", "ACKS"),
        page="docs/language.md",
        example="./ccp fold examples/measurement-program.ccp",
    ),
    "campaign": Mode(
        name="campaign",
        kind="campaign",
        reads="a scenario of at most 1,024 cases",
        does="runs each case and prints a table",
        cases=1024,
        options=("workers", "wire"),
        files=("FILE",),
        page="docs/scenarios.md",
        example="./ccp campaign examples/campaign.json",
    ),
    "timeline": Mode(
        name="timeline",
        kind="live",
        reads="a scenario of at most 64 cases",
        does="prints every report of each case",
        cases=64,
        options=("workers", "wire"),
        files=("FILE",),
        page="docs/timeline.md",
        example="./ccp timeline examples/live.json",
    ),
    "acks": Mode(
        name="acks",
        kind="live",
        reads="a scenario of at most 64 cases",
        does="prints every acknowledgement of each case, as lines for fold",
        cases=64,
        options=("workers",),
        files=("FILE",),
        page="docs/timeline.md",
        example="./ccp acks examples/live.json",
    ),
    "live": Mode(
        name="live",
        kind="live",
        reads="a scenario of at most 64 cases",
        does="runs the cases on datapath and agent threads, and prints every report",
        cases=64,
        options=("datapaths", "agents", "wire"),
        files=("FILE",),
        page="docs/live.md",
        example="./ccp live examples/live.json",
    ),
    "shared": Mode(
        name="shared",
        kind="shared",
        reads="a scenario with a bottleneck",
        does="runs all flows over one bottleneck and prints a table",
        cases=64,
        options=("workers",),
        files=("FILE",),
        page="docs/shared.md",
        example="./ccp shared examples/shared.json",
    ),
    "shared-timeline": Mode(
        name="shared-timeline",
        kind="shared",
        reads="a scenario with a bottleneck",
        does="prints every report of flows over one bottleneck",
        cases=64,
        options=("workers", "wire"),
        files=("FILE",),
        page="docs/shared.md",
        example="./ccp shared-timeline examples/shared.json",
    ),
    "shared-acks": Mode(
        name="shared-acks",
        kind="shared",
        reads="a scenario with a bottleneck",
        does="prints every acknowledgement of flows over one bottleneck",
        cases=64,
        options=("workers",),
        files=("FILE",),
        page="docs/shared.md",
        example="./ccp shared-acks examples/shared.json",
    ),
    "rollout": Mode(
        name="rollout",
        kind="rollout",
        reads="a scenario of a rollout",
        does="installs programs while their flows run, and prints every report",
        cases=64,
        options=("datapaths", "agents"),
        files=("FILE",),
        page="docs/rollout.md",
        example="./ccp rollout --datapaths 2 --agents 2 examples/rollout.json",
    ),
    "audit": Mode(
        name="audit",
        kind="audit",
        reads="a scenario and a live text",
        does="judges whether live could have printed the text",
        cases=None,
        options=(),
        files=("SCENARIO", "TEXT"),
        page="docs/audit.md",
        example="./ccp live examples/live.json > live.txt; ./ccp audit examples/live.json live.txt",
    ),
    "feed": Mode(
        name="feed",
        kind="feed",
        reads="frames",
        does="answers each frame as a datapath does, for your own agent",
        cases=None,
        options=(),
        files=("FILE",),
        page="docs/frames.md",
        example="grep -v '^#' examples/feed.hex | xxd -r -p | ./ccp feed | xxd -p",
    ),
    "drive": Mode(
        name="drive",
        kind="drive",
        reads="a scenario and frames",
        does="lets your own agent drive flows on the link, and tells it what they report",
        cases=None,
        options=(),
        files=("SCENARIO", "FRAMES"),
        page="docs/drive.md",
        example="./ccp drive examples/driven.drive | xxd -p",
    ),
    "drive-table": Mode(
        name="drive-table",
        kind="drive",
        reads="a scenario and frames",
        does="prints the table of driven flows",
        cases=None,
        options=("wire",),
        files=("SCENARIO", "FRAMES"),
        page="docs/drive.md",
        example="./ccp drive-table examples/driven.drive",
    ),
    "drive-timeline": Mode(
        name="drive-timeline",
        kind="drive",
        reads="a scenario and frames",
        does="prints every report of driven flows",
        cases=None,
        options=("wire",),
        files=("SCENARIO", "FRAMES"),
        page="docs/drive.md",
        example="./ccp drive-timeline examples/driven.drive",
    ),
    "drive-acks": Mode(
        name="drive-acks",
        kind="drive",
        reads="a scenario and frames",
        does="prints every acknowledgement of driven flows",
        cases=None,
        options=(),
        files=("SCENARIO", "FRAMES"),
        page="docs/drive.md",
        example="./ccp drive-acks examples/driven.drive",
    ),
    "soak": Mode(
        name="soak",
        kind="nothing",
        reads="nothing",
        does="prints the sums of 64 generated cases",
        cases=None,
        options=("workers", "number"),
        files=(),
        page="",
        example="./ccp soak --number 7 --workers 4",
    ),
}

OPTIONS: Dict[str, Option] = {
    "datapaths": Option(
        name="datapaths",
        least=1,
        most=32,
        does="threads of datapaths",
        modes=("live", "rollout"),
    ),
    "agents": Option(
        name="agents",
        least=1,
        most=32,
        does="threads of agents",
        modes=("live", "rollout"),
    ),
    "workers": Option(
        name="workers",
        least=1,
        most=32,
        does="threads that share the cases or flows",
        modes=("campaign", "soak", "shared", "shared-timeline", "shared-acks", "timeline", "acks"),
    ),
    "number": Option(
        name="number",
        least=0,
        most=4294967295,
        does="the number from which the cases are drawn",
        modes=("soak",),
    ),
    "wire": Option(
        name="wire",
        least=None,
        most=None,
        does="prints the Install frames of the programs first",
        modes=("live", "campaign", "timeline", "shared-timeline", "drive-table", "drive-timeline"),
    ),
}

# the exit statuses of the program, with what they mean
STATUSES: Dict[int, str] = {0: 'done', 2: 'words refused', 3: 'input refused', 4: 'read fault', 5: 'write fault', 6: 'out of memory'}

COMMANDS: Dict[str, Command] = {
    "compare": Command(
        name="compare",
        module="compare",
        modules=("pandas", "numpy", "scipy", "matplotlib", "jinja2"),
        does="compares senders over traces: tables, figures and a report",
    ),
    "hunt": Command(
        name="hunt",
        module="hunt",
        modules=("pandas", "numpy", "scipy", "matplotlib"),
        does="finds a link on which a sender is bad, and makes it small",
    ),
    "tune": Command(
        name="tune",
        module="tune",
        modules=(),
        does="finds numbers of a program that do better on links, and checks them on others",
    ),
    "scenario": Command(
        name="scenario",
        module="scenario",
        modules=(),
        does="makes a scenario from traces and a grid of senders, queues, delays and losses",
    ),
    "trace": Command(
        name="trace",
        module="traces",
        modules=(),
        does="shows, cuts, makes and converts traces of links",
    ),
    "metrics": Command(
        name="metrics",
        module="metrics",
        modules=("pandas", "numpy", "scipy"),
        does="throughput, delay, loss and fairness of each case",
    ),
    "plot": Command(
        name="plot",
        module="plots",
        modules=("pandas", "numpy", "scipy", "matplotlib"),
        does="plots bars, scatter, distributions and flows over time",
    ),
    "explain": Command(
        name="explain",
        module="explain",
        modules=(),
        does="explains why an input is refused, and where",
    ),
    "table": Command(
        name="table",
        module="table",
        modules=(),
        does="writes what a mode printed as CSV or JSON",
    ),
    "verify": Command(
        name="verify",
        module="verify",
        modules=(),
        does="checks a live text against its scenario, and shows the first line that differs",
    ),
    "over": Command(
        name="over",
        module="over",
        modules=(),
        does="runs a large scenario in parts, on several machines if you like",
    ),
}

# the Debian packages of modules that commands use
PACKAGES: Dict[str, str] = {'pandas': 'python3-pandas',
 'numpy': 'python3-numpy',
 'scipy': 'python3-scipy',
 'matplotlib': 'python3-matplotlib',
 'jinja2': 'python3-jinja2'}

# the operators in the order of their numbers: the word of each, and the mark that a program may write for it
MARKS: Dict[str, str] = {'add': '+',
 'sub': '-',
 'mul': '*',
 'div': '/',
 'max': 'max',
 'min': 'min',
 'gt': '>',
 'lt': '<',
 'eq': '==',
 'and': '&&',
 'or': '||'}

# the primitives in the order of their numbers, as a program writes them
PRIMITIVE_WORDS: List[str] = ['Ack.bytes_acked', 'Ack.packets_acked', 'Ack.bytes_misordered', 'Ack.packets_misordered', 'Ack.ecn_bytes',
 'Ack.ecn_packets', 'Ack.lost_pkts_sample', 'Ack.now', 'Flow.bytes_in_flight', 'Flow.packets_in_flight',
 'Flow.bytes_pending', 'Flow.rate_incoming', 'Flow.rate_outgoing', 'Flow.rtt_sample_us', 'Flow.was_timeout']

# the same, as a line of acknowledgements names them
PRIMITIVES: List[str] = ['bytes_acked', 'packets_acked', 'bytes_misordered', 'packets_misordered', 'ecn_bytes', 'ecn_packets',
 'lost_pkts_sample', 'now', 'bytes_in_flight', 'packets_in_flight', 'bytes_pending', 'rate_incoming', 'rate_outgoing',
 'rtt_sample_us', 'was_timeout']

# the agents, each with the number of its built-in program of congestion avoidance
AGENTS: Dict[str, int] = {'reno': 1, 'cubic': 2}

# the built-in programs in the order of their numbers, as the files of examples/ name them
BUILT_INS: List[str] = ['reno_ss', 'reno_ca', 'cubic_ca']

# the columns of numbers in a table, each with whether the line `total` has its sum
IS_SUMMED: Dict[str, bool] = {'acks': True,
 'reports': True,
 'held': True,
 'faults': True,
 'epochs': False,
 'lost': True,
 'timeouts': True,
 'acked': True,
 'peak': False,
 'cwnd': False,
 'now': False,
 'tail': False}

COLUMNS: List[str] = ["case", "agent", *IS_SUMMED]
SUMS: List[str] = [name for name, is_summed in IS_SUMMED.items() if is_summed]

# the limits, by the names that the crates give them without `most_`
LIMITS: Dict[str, int] = {'input_bytes': 1048576,
 'audit_bytes': 67108864,
 'text_bytes': 65536,
 'lists': 64,
 'name_bytes': 64,
 'fields': 64,
 'controls': 64,
 'blocks': 64,
 'locals': 8,
 'temps': 8,
 'instrs': 256,
 'tenths': 10,
 'primitive_count': 15,
 'pairs': 66,
 'acks': 65536,
 'acks_in_all': 262144,
 'flows': 64,
 'cases': 1024,
 'workers': 32,
 'slots': 64,
 'lag': 1000,
 'segment_bytes': 65535,
 'queue': 4096,
 'mark': 4096,
 'flight': 4096,
 'delay_us': 10000000,
 'timeout_us': 60000000,
 'trace_ms': 3600000,
 'scene_name_bytes': 32,
 'named_programs': 13,
 'steps': 16,
 'first_window': 4294967295,
 'quantum_us': 1000000,
 'rounds': 10000,
 'operation': 14,
 'answer_bytes': 64,
 'short_fields': 32,
 'reason': 9,
 'frame_bytes': 8596,
 'kept_programs': 16,
 'messages': 1048576,
 'start_us': 10000000000}
