#!/usr/bin/env python3
"""An agent of your own in Python, over `ccp feed`.

    examples/agent.py [--ccp PATH] [--flow N] [--mss BYTES] ACKS-FILE

It plays a recorded list of acknowledgements to the datapath, which runs the built-in programs `reno.ss` and `reno.ca`
on them. The agent, the class Reno below, reads each report and answers with a new window or another program. A line is
printed for each report and its answer, and one for the end.

ACKS-FILE has a line for each acknowledgement, as `ccp acks` prints them and `ccp fold` takes them; of the flows of a
file with `flow` lines, number N is played (0). `-` is standard input:

    ./ccp acks examples/live.json | examples/agent.py -

The recording is fixed: it shows what an agent decides, not what the link would have done with another window. Put your
own agent in the place of Reno: it needs `begin`, `report` and `fault`, and what these give is an answer of the class
Datapath. docs/frames.md has the bytes of the frames. The script needs nothing beside it, so a copy works anywhere; its
Reno is there to be changed, and the model that tests compare with `ccp` is in ccp_tools.reference.

The program is the one of --ccp, else of $CCP_PROGRAM, else what `./ccp` of this script's checkout runs, else the `ccp` on
the PATH.
Exit status: 0; 1 where a file or the program is wrong; 2 where the arguments are."""
import argparse
import os
import struct
import subprocess
import sys

LAUNCHER = os.path.join(os.path.dirname(os.path.dirname(os.path.abspath(__file__))), "ccp")
# the values of an acknowledgement, in their order
PRIMITIVES = (
    "bytes_acked packets_acked bytes_misordered packets_misordered ecn_bytes ecn_packets lost_pkts_sample now"
    " bytes_in_flight packets_in_flight bytes_pending rate_incoming rate_outgoing rtt_sample_us was_timeout"
).split()
# The built-in programs that are used, the fields of their reports, and what an answer can set: class and index.
SLOW_START, AVOIDANCE = 0, 1
FIELDS = "acked sacked loss timeout rtt inflight ecn".split()
CAP, MSS, CWND = (3, 0), (3, 1), (4, 4)
CREATE, MEASURE, UPDATE, CHANGE, FAULT, ACK, REFUSED = 1, 2, 4, 5, 6, 7, 8
NO_CAP = 2**64 - 1


class Wrong(Exception):
    """What is wrong with a file or the program."""


class Datapath:
    """A running `ccp feed` with one flow, number 0."""

    def __init__(self, program, window, mss):
        self.feed = subprocess.Popen([program, "feed"], stdin=subprocess.PIPE, stdout=subprocess.PIPE)
        self.ask(*installs(program), frame(CREATE, struct.pack("<QI", window, mss)))

    def ask(self, *frames):
        """The answers to these frames, each as (kind, body). A Create of flow 64 is always refused: it marks their
        end."""
        self.feed.stdin.write(b"".join(frames) + frame(CREATE, bytes(12), flow=64))
        self.feed.stdin.flush()
        answers = []
        while True:
            head = self.feed.stdout.read(16)
            if len(head) < 16:
                raise Wrong("the datapath ended")
            flow, length = struct.unpack("<II", head[8:])
            body = self.feed.stdout.read(length - 16)
            if flow == 64:
                return answers
            if head[0] == REFUSED:
                raise Wrong("the datapath refused a frame: reason %d" % body[0])
            answers.append((head[0], body))

    def close(self):
        self.feed.stdin.close()
        self.feed.wait()

    def ack(self, values):
        """Runs one acknowledgement, and gives its report or fault."""
        return self.ask(frame(ACK, struct.pack("<%dQ" % len(PRIMITIVES), *values)))

    def update(self, window):
        """Sets the window."""
        self.ask(frame(UPDATE, value(CWND, window), n1=1))

    def change(self, program, window, cap, mss):
        """Starts a program with a window, and sets its control variables where it has them."""
        values = [value(CWND, window)]
        if program == SLOW_START:
            values += [value(CAP, cap), value(MSS, mss)]
        self.ask(frame(CHANGE, struct.pack("<I", program) + b"".join(values), n1=len(values)))


def frame(kind, body, n1=0, flow=0):
    return struct.pack("<BBBBHHII", kind, 1, n1, 0, 0, 0, flow, 16 + len(body)) + body


def value(place, number):
    return struct.pack("<BBQ", *place, number)


def installs(program):
    """The Install frames of the built-in programs, as `campaign --wire` prints them; a scenario's own come with
    them."""
    given = b'{"version": 1, "traces": {}, "cases": []}'
    ran = subprocess.run([program, "campaign", "--wire"], input=given, stdout=subprocess.PIPE)
    lines = [line.split() for line in ran.stdout.decode().splitlines()]
    return [bytes.fromhex(line[2]) for line in lines if line[:1] == ["install"]]


def report_of(body):
    """The fields of a Measure by their names, with the program, the span, the time and the window."""
    program, _, first, end, now, cwnd, _ = struct.unpack("<IIIIQQQ", body[:40])
    report = dict(zip(FIELDS, struct.unpack("<%dQ" % len(FIELDS), body[40:])))
    report.update(program=program, first=first, end=end, now=now, cwnd=cwnd)
    return report


class Reno:
    """Reno as docs/agents.md has it. An answer is None, a window, or a program with a window and a cap."""

    def __init__(self, mss):
        self.mss, self.program, self.calm = mss, SLOW_START, 0
        self.window = mss * (2 if mss > 2190 else 3 if mss > 1095 else 4)
        self.threshold = NO_CAP

    def begin(self):
        return self.change(SLOW_START)

    def change(self, program):
        self.program = program
        return program, self.window, self.threshold

    def report(self, report):
        if self.program == SLOW_START:
            self.window = min(max(report["cwnd"], self.mss), 4096 * self.mss)
        if report["timeout"]:
            self.threshold, self.window, self.calm = self.cut(report), self.mss, 0
            return self.change(SLOW_START)
        if report["loss"] or report["ecn"]:
            return self.loss(report)
        if self.program == SLOW_START:
            return self.change(AVOIDANCE) if report["cwnd"] >= self.threshold else None
        return self.grow(report)

    def loss(self, report):
        if report["now"] < self.calm:
            return None
        self.threshold = self.window = self.cut(report)
        self.calm = report["now"] + report["rtt"]
        return self.change(AVOIDANCE)

    def grow(self, report):
        if report["acked"] == 0:
            return None
        self.window = min(self.window + max(1, self.mss * report["acked"] // self.window), 4096 * self.mss)
        return self.window

    def cut(self, report):
        flight = report["inflight"] + report["loss"] * self.mss
        return min(max(flight // 2, 2 * self.mss), 4096 * self.mss)

    def fault(self):
        return self.change(self.program)


def apply(datapath, answer, mss):
    """Sends an answer to the datapath, and gives it as text, in the form of a live text."""
    if answer is None:
        return "none"
    if isinstance(answer, int):
        datapath.update(answer)
        return "update:%d" % answer
    program, window, cap = answer
    datapath.change(program, window, cap, mss)
    return "change:%d:%d:%d" % answer


def play(datapath, agent, acks, mss):
    """Plays the acknowledgements, and prints each report with its answer."""
    apply(datapath, agent.begin(), mss)
    reports = 0
    for values in acks:
        for kind, body in datapath.ack(values):
            if kind == FAULT:
                print("fault reply=%s" % apply(datapath, agent.fault(), mss))
                continue
            reports += 1
            report = report_of(body)
            fields = " ".join("%s=%d" % (name, report[name]) for name in ("now", "cwnd", "acked", "loss", "rtt"))
            reply = apply(datapath, agent.report(report), mss)
            print("report program=%(program)d span=%(first)d..%(end)d" % report, fields, "reply=" + reply)
    print("end acks=%d reports=%d window=%d" % (len(acks), reports, agent.window))


def read_acks(lines, flow):
    """The values of each acknowledgement of a flow, in the order of the primitives."""
    acks, at, played = [], None, None
    for number, line in enumerate(lines, 1):
        words = line.split()
        if words[:1] == ["flow"]:
            at = int(words[1])
        elif words and at in (None, flow):
            played = flow
            try:
                given = {name: int(text) for name, text in (word.split("=") for word in words)}
                acks.append([given.pop(name, 0) for name in PRIMITIVES])
            except ValueError:
                raise Wrong("line %d is no acknowledgement: name=number .. is accepted" % number)
            if given:
                names = ", ".join(given), ", ".join(PRIMITIVES)
                raise Wrong("line %d: there is no %s: the names are %s" % (number, *names))
    if played is None:
        raise Wrong("there are no acknowledgements of flow %d" % flow)
    return acks


def main():
    words = argparse.ArgumentParser(description=__doc__, formatter_class=argparse.RawDescriptionHelpFormatter)
    found = LAUNCHER if os.path.isfile(LAUNCHER) else "ccp"
    words.add_argument("--ccp", default=os.environ.get("CCP_PROGRAM") or found, metavar="PATH")
    words.add_argument("--program", help=argparse.SUPPRESS)
    words.add_argument("--flow", type=int, default=0)
    words.add_argument("--mss", type=int, default=1448)
    words.add_argument("acks", metavar="ACKS-FILE")
    asked = words.parse_args()
    if asked.program:
        print("examples/agent.py: --program is now --ccp", file=sys.stderr)
        asked.ccp = asked.program
    try:
        with sys.stdin if asked.acks == "-" else open(asked.acks, encoding="utf-8") as file:
            acks = read_acks(file.read().splitlines(), asked.flow)
        agent = Reno(asked.mss)
        datapath = Datapath(asked.ccp, agent.window, asked.mss)
        play(datapath, agent, acks, asked.mss)
        datapath.close()
    except Wrong as wrong:
        sys.exit("examples/agent.py: %s: %s" % (asked.acks, wrong))
    except OSError as error:
        sys.exit("examples/agent.py: %s: %s" % (error.filename, error.strerror))


if __name__ == "__main__":
    main()
