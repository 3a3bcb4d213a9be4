"""Compares senders over recorded links: from traces to tables, plots and one report for the browser.

    ccp compare TRACE..
    ccp compare TRACE.. --senders linux-reno,linux-cubic,mine=FILE --out DIR
    ccp compare compare.toml --out DIR

    ccp compare examples/traces/*.trace --senders linux-reno,linux-cubic,delay=examples/delay.portus --out out/compare

A sender is a name or a program of your own. Where none is named they are linux-reno and linux-cubic, programs that come
with ccp, which do on each acknowledgement what Linux's senders do (docs/senders.md). NAME=FILE runs your program in
slow start and in congestion avoidance. `reno` and `cubic` are the built-in agents, which answer reports:
NAME=cubic:FILE has CUBIC as the agent that answers your program's, and NAME=reno:SLOW-START:AVOIDANCE has a program for
each; the built-in one is used where a file is left out, as in early=reno::examples/early.portus. NAME=FILE.py is an
agent outside, the class of a Python file, which drives its flows by `ccp drive` (docs/drive.md). --set NAME=1,2,4 makes
a sender for each number of a control variable that the programs declare. There may be any number of senders; a panel of
a plot shows 8 of them, and further ones come on further pages.

All senders of a trace are measured over the same seconds of it: --seconds S, else the length of the trace, at least 30
s and at most what 65,536 acknowledgements reach. Each case has so many acknowledgements that no sender ends before S,
and every figure is of those up to S. --from F leaves out the first F seconds, so that slow start doesn't count: 5, a
sixth of S where S is below 30, and 0 where it is below 10. With --acks each case has as many acknowledgements as you
say, from the first one on; their spans differ then, which --different-spans accepts.

--measured [NAME=]LOG lays a real sender beside the simulated ones, in the table and in the report: its throughput and
delay, from a link log of Mahimahi (mm-link --uplink-log) or Pantheon. The log belongs to the trace whose chances it
has, or to the only trace; it is measured up to the end of the trace's measured span. Since it counts from its first
packet, --from is 0 then, unless you say otherwise.

Where docs/fidelity.md says that figures can't be trusted, a caution with its heading is below the table and in the
report, and no figure that it is about is shown as the best. Over seeds the best one is bold if it is apart from that of
each other sender: the 95 % intervals don't meet, or Student's t for pairs over equal seeds says so at 5 %.

A case with a fault, without a report, with a window that never moved, with held reports, or whose own program was
changed by its agent is marked, with the reason, on standard error, in the table and in the report.

DIR, or where none is named a new folder ccp-out, ccp-out-2 and so on, gets compare.toml (these options), scenario.json,
table.txt, timeline.txt, acks.txt, metrics.csv, metrics.json (and groups.csv over seeds), the plots as SVG (--plots
svg,pdf), report.html with all of it, and NAME.drive, the recording of an agent outside. They come into place at the
end, for what files.json lists of an earlier comparison there; any other file of one of these names is named, and never
overwritten. A file compare.toml has the options by their names, as `senders = ["reno", "cubic"]`, and `traces`; options
beside it go before it, and its paths are relative to the folder that you are in. A program, an agent outside, or an
output folder that it names needs --trust on the command line. --dry-run writes nothing: it says how large the
comparison is, and about how long it takes. `ccp audit` checks the timeline against the scenario; that of an agent
outside is worked out from its recording.

Exit status: 0; 1 if a step fails or the audit says no; 2 if an argument is wrong."""

from .command import add_arguments, run

__all__ = ["add_arguments", "run"]
