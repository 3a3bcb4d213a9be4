"""How far the figures of `ccp` stand from those of ns-3 and of the kernel's TCP.

    cases      the cases: a trace, a queue, a delay, an algorithm
    logs       what a link did, as a log, read as acknowledgements of `ccp_tools`
    model      the cases in `ccp`
    ns3        the cases in ns-3, by ns3.cc
    kernel     the cases by the kernel's senders over an emulated link, by emulator.cc and stream.py
    results    the figures of all runs as one table of data
    limits     how far they may be apart
    pages      the tables and pictures that are made of them

`bench/fidelity/run --help` shows how to measure."""
