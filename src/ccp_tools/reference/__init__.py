"""A reference model of `ccp` in Python: the datapath language, the link, Reno, CUBIC, and the words of flows.

It is written from docs/language.md, docs/link.md, docs/agents.md, docs/flow.md, docs/frames.md and docs/drive.md, not
from the program, and in the plainest way: trees are walked, lists are searched, and a run takes hundreds of times what
the program takes. It judges nothing: `ccp` is proved, and this isn't. It is there

- to say which line `ccp verify` expects in place of one that differs, and which values a fault met (`ccp explain`);
- to be compared with the program on random inputs, by tests and by `python3 -m ccp_tools.reference.generate`, so that a
  definition that says something else than the pages is seen.

Scenarios are dicts, as `ccp_tools.texts.read_scenario` returns them, and have to be ones that `ccp` accepts. Flows that
an agent outside drives are in the module `driven`, which reads the bytes of a whole input."""
from . import link
from .flow import Flow, Illegal, Programs, flows_of, forced
from .judging import Refused, judged
from .language import Fault, Meaning, State
from .modes import acks, campaign, check_summary, fold, shared, shared_acks, shared_timeline, timeline

__all__ = [
    "Fault",
    "Flow",
    "Illegal",
    "Meaning",
    "Programs",
    "Refused",
    "State",
    "acks",
    "campaign",
    "check_summary",
    "flows_of",
    "fold",
    "forced",
    "judged",
    "link",
    "shared",
    "shared_acks",
    "shared_timeline",
    "timeline",
]
