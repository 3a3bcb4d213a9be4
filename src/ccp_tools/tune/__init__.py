"""Looks for numbers with which a program does better over training links, and shows what they do on others.

    ccp tune PROGRAM --numbers NAME=LOW..HIGH,.. --over TRACE.. [--held-out TRACE..] [OPTION].. --out DIR
    ccp tune tune.toml --out DIR

    ccp tune examples/delay.portus --numbers low=1..20,high=2..40 --order 'low<high' --over fixed.trace wave.trace \\
        --held-out train.trace --out out/tune

A number is a control variable that the program declares, as (high 4). PROGRAM is a file of the language, which runs in
slow start and in congestion avoidance, or a sender with one program of its own, as --senders of every command takes it.

The links are each trace with each queue, delay, loss and seed. The goal is power (throughput over round-trip time),
throughput, utility (the logarithm of throughput less that of the round-trip time, less ten times the loss rate) or wait
(one over 1 ms more than the mean wait). Numbers are better where the geometric mean of the goal over the training links
is higher. A floor, as 'utilization>=0.9', has to hold on each training link. Without one, throughput fills the queue
and wait sends nothing, so these two need one.

First numbers are drawn by chance, evenly on a logarithmic scale; from 60 % of the trials on they are steps around the
best. Where there are fewer choices than trials, each is tried. Equal words give equal files.

Each held-out link is printed, before and after. Without --held-out every third trace in the order of names is held out.
A gain that costs more than 5 % on a held-out link, or doesn't hold there in the mean, is no improvement.

DIR gets the program with the new numbers, table.txt (what is printed), tune.json (each trial), and tune.toml, which
makes them again.

Exit status: 0 where the new numbers are an improvement, 1 where they aren't or a step fails, 2 where an argument is
wrong."""

from .command import run
from .options import add_arguments

__all__ = ["add_arguments", "run"]
