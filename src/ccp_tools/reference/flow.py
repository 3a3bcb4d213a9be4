"""A flow, as docs/flow.md has it: its word of acknowledgements, takings and answers, and what of it is printed."""
from __future__ import annotations

from dataclasses import dataclass
from pathlib import Path
from typing import Any, Callable, Dict, Iterator, List, Mapping, Optional, Sequence, Tuple, Union

from ..tables import AGENTS, BUILT_INS
from .agents import AGENT_NAMED, MOST, Change, Reply, Update
from .language import Fault, Meaning, State
from .link import Link, Trace

TEXTS = Path(__file__).resolve().parent / "programs"
# the fields that an agent reads
READ = ("acked", "loss", "timeout", "rtt", "inflight", "ecn")
# a scenario, or a case of one
Members = Mapping[str, Any]
Acknowledgement = Dict[str, int]


class Illegal(Exception):
    """A letter that can't be made there."""


class Programs:
    """The programs of a scenario by their numbers: the built-in ones, and then its own in byte order of their names.
    Each is read when it is first used."""

    def __init__(self, scenario: Members) -> None:
        given = scenario.get("programs", {})
        self.names = sorted(given, key=str.encode)
        self.texts = [(TEXTS / (name + ".portus")).read_text(encoding="utf-8") for name in BUILT_INS]
        self.texts += [given[name] for name in self.names]
        self._known: Dict[int, Meaning] = {}

    def number(self, name: str) -> int:
        """The number of one of the scenario's own programs."""
        return len(BUILT_INS) + self.names.index(name)

    def __getitem__(self, number: int) -> Meaning:
        if number not in self._known:
            self._known[number] = Meaning(self.texts[number])
        return self._known[number]


class Report:
    """A report that waits or is taken."""

    def __init__(self, flow: BaseFlow, now: int, fields: List[Tuple[str, int]]) -> None:
        self.program, self.epoch = flow.program, len(flow.epochs) - 1
        self.span = (flow.first, flow.acks)
        self.now, self.cwnd, self.rate, self.fields = now, flow.state.cwnd, flow.state.rate, fields

    def line(self) -> str:
        """The line of the report up to its span."""
        return "report program=%d epoch=%d span=%d..%d" % (self.program, self.epoch, *self.span)

    def shown(self) -> str:
        """The rest of the line."""
        return " now=%d cwnd=%d rate=%d%s" % (self.now, self.cwnd, self.rate, fields_text(self.fields))

    def read(self, look: Sequence[str]) -> Dict[str, int]:
        """What an agent reads of the report: the fields of `look`, which its present program declares."""
        by_name = dict(self.fields)
        seen = {name: by_name.get(name, 0) if name in look else 0 for name in READ}
        return {"now": self.now, "cwnd": self.cwnd, **seen}


@dataclass(frozen=True)
class Notice:
    """The notice of a fault: the program and the epoch, the number of the acknowledgement, and its time and the window
    after it, which is that before it."""

    program: int
    epoch: int
    ack: int
    fault: Fault
    now: int
    cwnd: int


class Ticket:
    """A report or a fault notice that was taken, with the counts of acknowledgements at its taking and its answer, and
    the reply as a line shows it."""

    def __init__(self, subject: Union[Report, Notice], taken: int) -> None:
        self.subject = subject
        self.taken = taken
        self.answered = 0
        self.reply = "none"


def fields_text(fields: Sequence[Tuple[str, int]]) -> str:
    """Fields as the end of a line has them."""
    return "".join(" %s=%d" % field for field in fields)


class BaseFlow:
    """What flows have in common, whoever answers their reports: the letters `ack` and `take`, epochs, and texts.

    `number` is the flow's number, `case` its case, `traces` the traces' texts by their names, `programs` those of the
    scenario, and `agent_name` what its texts call its agent. `heard` is called with each acknowledgement. Letters that
    can't be made raise Illegal."""

    def __init__(
        self,
        number: int,
        case: Members,
        traces: Mapping[str, str],
        programs: Programs,
        agent_name: str,
        heard: Callable[[Acknowledgement], None] = lambda ack: None,
    ) -> None:
        self.number, self.case, self.programs, self.heard = number, case, programs, heard
        self.agent_name = agent_name
        self.link = Link(Trace(traces[case["trace"]]), case)
        self.acks = self.first = self.held = self.made = self.last = self.peak = 0
        self.lost = self.timeouts = self.acked = 0
        self.program = 0
        self.stopped = False
        self.epochs: List[Tuple[int, int, int]] = []
        self.faults: List[Tuple[int, int, str, str]] = []
        self.tickets: List[Ticket] = []
        self.waiting: List[Report] = []
        self.notice: Optional[Notice] = None
        self.out: Optional[Ticket] = None
        self.state = State({}, 0, 0, 0)

    def _begin_epoch(self, program: int, state: State) -> None:
        """Starts an epoch of a program in a state."""
        self.program, self.state = program, state
        self.stopped, self.notice, self.first = False, None, self.acks
        self.epochs.append((program, self.acks, state.cwnd))
        self.peak = max(self.peak, state.cwnd)

    # ---- the letters

    def ack(self, given: Optional[Acknowledgement] = None) -> None:
        """One acknowledgement, of the flow's own link unless it is given."""
        if self.acks == self.case["acks"]:
            raise Illegal("all %d acknowledgements are in" % self.acks)
        ack = given or self.link.next(self.state.cwnd)
        self.heard(ack)
        self.acks += 1
        self.last = ack["now"]
        self.lost += ack["lost_pkts_sample"]
        self.timeouts += ack["was_timeout"]
        self.acked += ack["bytes_acked"]
        if not self.stopped:
            room = len(self.waiting) < self.case.get("slots", 4)
            outcome, self.state = self.programs[self.program].one(self.state, ack, room)
            self._record(outcome, ack)
        self.peak = max(self.peak, self.state.cwnd)

    def _record(self, outcome: Union[str, Fault, List[Tuple[str, int]]], ack: Acknowledgement) -> None:
        if isinstance(outcome, Fault):
            self.stopped = True
            epoch, at = len(self.epochs) - 1, self.acks - 1
            self.notice = Notice(self.program, epoch, at, outcome, ack["now"], self.state.cwnd)
            self.faults.append((epoch, at, outcome.kind, outcome.place))
        elif outcome == "held":
            self.held += 1
        elif not isinstance(outcome, str):
            self.made += 1
            self.waiting.append(Report(self, ack["now"], outcome))
            self.first = self.acks

    def can_take(self) -> bool:
        """Whether a taking is possible: no ticket is out, and a report or a fault notice waits."""
        return self.out is None and bool(self.waiting or self.notice)

    def take(self) -> None:
        """Takes the oldest report, else the fault notice, as a ticket."""
        if not self.can_take():
            raise Illegal("a ticket is out" if self.out else "no report and no fault waits")
        subject: Union[Report, Notice]
        if self.waiting:
            subject = self.waiting.pop(0)
        else:
            assert self.notice is not None
            subject, self.notice = self.notice, None
        self.out = Ticket(subject, self.acks)
        self.tickets.append(self.out)

    def _closed(self) -> Ticket:
        """The ticket that is out, which is answered now."""
        if self.out is None:
            raise Illegal("no ticket is out")
        ticket, self.out = self.out, None
        ticket.answered = self.acks
        return ticket

    def next_letter(self) -> str:
        """The letter that the campaign word has next, "A", "T" or "C", or the empty text where it is complete."""
        is_over = self.acks == self.case["acks"]
        if self.out and (is_over or self.acks - self.out.taken >= self.case.get("lag", 0)):
            return "C"
        if self.can_take():
            return "T"
        return "" if is_over else "A"

    # ---- texts

    def head(self) -> str:
        """The line that begins the flow's part of a text."""
        return "flow %d case=%s agent=%s" % (self.number, self.case["name"], self.agent_name)

    def lines(self) -> List[str]:
        """The flow's part of a text of `live`, `timeline` and `drive-timeline`."""
        return [
            self.head(),
            *("epoch %d program=%d at=%d cwnd=%d" % (number, *epoch) for number, epoch in enumerate(self.epochs)),
            *("fault epoch=%d ack=%d kind=%s at=%s" % fault for fault in self.faults),
            *("ticket %d %s" % (number, ticket_line(ticket)) for number, ticket in enumerate(self.tickets)),
            self._end_line(),
        ]

    def _end_line(self) -> str:
        counts = (self.acks, self.made, self.held, len(self.faults), self.first, self.acks)
        line = "end acks=%d reports=%d held=%d faults=%d tail=%d..%d" % counts
        line += " stopped=%s cwnd=%d rate=%d" % ("yes" if self.stopped else "no", self.state.cwnd, self.state.rate)
        return line + fields_text(self.programs[self.program].shown(self.state))

    def row(self) -> Dict[str, Union[int, str]]:
        """The flow's row of a table, by its columns."""
        return {
            "case": self.case["name"],
            "agent": self.agent_name,
            "acks": self.acks,
            "reports": self.made,
            "held": self.held,
            "faults": len(self.faults),
            "epochs": len(self.epochs),
            "lost": self.lost,
            "timeouts": self.timeouts,
            "acked": self.acked,
            "peak": self.peak,
            "cwnd": self.state.cwnd,
            "now": self.last,
            "tail": self.acks - self.first,
        }


def ticket_line(ticket: Ticket) -> str:
    """The line of an answered ticket, from its subject on."""
    counts = " taken=%d answered=%d reply=%s" % (ticket.taken, ticket.answered, ticket.reply)
    if isinstance(ticket.subject, Report):
        return ticket.subject.line() + counts + ticket.subject.shown()
    return "fault epoch=%d ack=%d" % (ticket.subject.epoch, ticket.subject.ack) + counts


class Flow(BaseFlow):
    """A flow with an agent of the model's own, as a word is made on it: its letters are `ack`, `take` and `settle`."""

    def __init__(
        self,
        number: int,
        case: Members,
        traces: Mapping[str, str],
        programs: Programs,
        heard: Callable[[Acknowledgement], None] = lambda ack: None,
    ) -> None:
        super().__init__(number, case, traces, programs, case["agent"], heard)
        self.agent = AGENT_NAMED[case["agent"]](case["mss"])
        own = {phase: programs.number(case[phase]) for phase in ("ss", "ca") if phase in case}
        self.roles = {"ss": 0, "ca": AGENTS[case["agent"]], **own}
        self._change(Change("ss", self.agent.bytes(), MOST))

    def _change(self, change: Change) -> None:
        program = self.roles[change.phase]
        values = {"cap": change.cap, "mss": self.case["mss"]}
        self._begin_epoch(program, self.programs[program].start(values, change.window, self.state.rate, self.last))

    def settle(self) -> None:
        """Applies the agent's answer to the ticket that is out."""
        ticket = self._closed()
        reply = self._reply(ticket.subject)
        ticket.reply = self._reply_text(reply)
        if isinstance(reply, Update):
            self.state.cwnd = reply.window
        elif isinstance(reply, Change):
            self._change(reply)
        self.peak = max(self.peak, self.state.cwnd)

    def _reply(self, subject: Union[Report, Notice]) -> Reply:
        if subject.epoch != self.agent.epoch:
            return None
        if not isinstance(subject, Report):
            return self.agent.change(self.agent.phase)
        fields = self.programs[self.roles[self.agent.phase]].fields
        return self.agent.report(subject.read([name[len("Report.") :] for name in fields]))

    def _reply_text(self, reply: Reply) -> str:
        if reply is None:
            return "none"
        if isinstance(reply, Update):
            return "update:%d" % reply.window
        return "change:%d:%d:%d" % (self.roles[reply.phase], reply.window, reply.cap)

    # ---- words

    def settle_due(self) -> None:
        """What the campaign word has after an acknowledgement: answers that are due, and takings."""
        while self.out and self.acks - self.out.taken >= self.case.get("lag", 0) or self.can_take():
            if self.out:
                self.settle()
            else:
                self.take()

    def settle_all(self) -> None:
        """Takes and answers what is left."""
        while self.out or self.can_take():
            if self.out:
                self.settle()
            else:
                self.take()

    def advance(self, count: int) -> None:
        """Makes acknowledgements until there are `count` of them."""
        if count < self.acks:
            raise Illegal("the count falls to %d, and %d acknowledgements are in" % (count, self.acks))
        while self.acks < count:
            self.ack()

    def run_campaign_word(self) -> None:
        """Makes the campaign word, which `campaign`, `timeline` and `acks` have."""
        letters: Dict[str, Callable[[], None]] = {"A": self.ack, "T": self.take, "C": self.settle}
        letter = self.next_letter()
        while letter:
            letters[letter]()
            letter = self.next_letter()

    def run_counts(self, counts: Sequence[Tuple[int, int]]) -> Optional[Tuple[int, str]]:
        """Makes the word in which ticket i is taken and answered at the counts of acknowledgements `counts[i]`, and the
        rest of it as late as it can be. Returns the number of the first ticket that can't be so and why, or None."""
        wrong = None
        for number, (taken, answered) in enumerate(counts):
            try:
                self.advance(taken)
                self.take()
                self.advance(answered)
                self.settle()
            except Illegal as why:
                wrong = (number, str(why))
                break
        self.advance(self.case["acks"])
        self.settle_all()
        return wrong


def flows_of(scenario: Members, heard: Callable[[Acknowledgement], None] = lambda ack: None) -> Iterator[Flow]:
    """The flows of a scenario in order, at their beginning."""
    programs = Programs(scenario)
    for number, case in enumerate(scenario["cases"]):
        yield Flow(number, case, scenario["traces"], programs, heard)


def forced(flow: Flow, counts: Sequence[Tuple[int, int]]) -> Optional[Tuple[int, str]]:
    """`flow.run_counts(counts)`: makes the one word of some counts."""
    return flow.run_counts(counts)
