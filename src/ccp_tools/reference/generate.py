"""Tries the program on random inputs of every mode, against the reference model.

    python3 -m ccp_tools.reference.generate [--count N] [--seed S] [--ccp PATH] [--trials LIST] [--jobs N] [--only I]

Input I of seed S is the same on every machine. Where the reference model has the mode (`fold`, `campaign`,
`timeline`, `acks`, `shared`, and `live` over the counts that it prints), the output has to be the model's. `feed` has
to answer the reports and faults that the model gives. The modes of `drive` have to write what the model writes of an
agent's frames; a program without these modes is tried on the others. `audit` has to say yes to the model's timeline,
and to name the flow in which a line was changed. A mistake that was made has to be refused at its path. Elsewhere the
lines have to be readable, and the same for each number of workers. The status has to be 0, or 3 where a refusal is
expected: out of memory (6) is a failure.

At the end a table has how many inputs each trial and each trait had. --only I runs input I alone and prints it;
--trials takes some of the trials alone.

Exit status: 0; 1 where an input failed; 2 wrong arguments."""
from __future__ import annotations

import argparse
import collections
import sys
import time
from concurrent.futures import ProcessPoolExecutor
from dataclasses import dataclass, field
from functools import partial
from random import Random
from typing import Any, Counter, Iterable, List, Optional, Sequence, Set

from .. import program as programs
from ..arguments import Parser, add_ccp, list_of, whole
from ..errors import CcpError
from ..program import Run, find_program, processors
from .inputs import DRIVEN_TRAITS, TRAITS
from .trials import NEEDED, TRIALS, Trial

# how long one run may take
SECONDS = 600.0


class Failure(Exception):
    """A run that ended as no run may."""


@dataclass
class Result:
    """What became of an input: its trial, its traits, and what is wrong, or None."""

    index: int
    name: str
    problem: Optional[str]
    traits: Set[str] = field(default_factory=set)


@dataclass(frozen=True)
class Tries:
    """How inputs are made and run: the seed, the program, and the trials to choose from."""

    seed: int
    program: str
    names: Sequence[str]

    def trial(self, index: int) -> tuple[str, Trial]:
        """Input number `index`, with the name of its trial."""
        draw = Random("%d:%d" % (self.seed, index))
        weights = [TRIALS[name][1] for name in self.names]
        name = draw.choices(list(self.names), weights)[0]
        return name, TRIALS[name][0](draw)

    def run(self, mode: str, data: bytes, **options: Any) -> Run:
        """Runs the program; any status but 0 and 3 is a Failure."""
        ran = programs.run(mode, data, program=self.program, check=False, timeout=SECONDS, **options)
        if ran.status not in (0, 3):
            raise Failure("%s ended with status %d: %s" % (mode, ran.status, ran.errors.strip()))
        return ran

    def result(self, index: int) -> Result:
        """Makes an input, and runs it."""
        name, trial = self.trial(index)
        try:
            problem = trial.judge(self.run(trial.mode, trial.data, **trial.options), self.run)
        except (Failure, CcpError) as why:
            problem = str(why)
        return Result(index, name, problem, trial.traits)


def results(tries: Tries, indices: Iterable[int], jobs: int) -> Iterable[Result]:
    """The results of inputs, in their order."""
    if jobs == 1:
        yield from map(tries.result, indices)
        return
    with ProcessPoolExecutor(jobs) as pool:
        yield from pool.map(partial(Tries.result, tries), indices, chunksize=4)


def table(found: Sequence[Result], seconds: float) -> List[str]:
    """How many inputs each trial and each trait had."""
    names: Counter[str] = collections.Counter(one.name for one in found)
    traits: Counter[str] = collections.Counter(trait for one in found for trait in one.traits)
    lines = ["%6d %s" % (names[name], name) for name in TRIALS if names[name]]
    lines += ["%6d with %s" % (traits[trait], trait) for trait in [*TRAITS, *DRIVEN_TRAITS]]
    return [*lines, "%6d inputs in %.0f s, %d failed" % (len(found), seconds, sum(bool(one.problem) for one in found))]


def main(words: Sequence[str]) -> int:
    """Runs the generator, and returns its exit status."""
    asked = parser().parse_args(words)
    program = str(find_program(asked.ccp))
    tries = Tries(asked.seed, program, asked.trials or list(TRIALS))
    unknown = [name for name in tries.names if name in NEEDED and not programs.knows_mode(NEEDED[name], program)]
    if asked.trials and unknown:
        raise CcpError("%s: it has no mode %s" % (program, NEEDED[unknown[0]]))
    tries = Tries(asked.seed, program, [name for name in tries.names if name not in unknown])
    if asked.only is not None:
        return show(tries, asked.only)
    begun = time.monotonic()
    found = []
    for result in results(tries, range(asked.count), asked.jobs):
        found.append(result)
        if result.problem:
            print("input %d of seed %d, %s: %s" % (result.index, tries.seed, result.name, result.problem), flush=True)
    print("\n".join(table(found, time.monotonic() - begun)))
    wanted = TRAITS + ([] if unknown else DRIVEN_TRAITS)
    missing = [trait for trait in wanted if not any(trait in one.traits for one in found)]
    if missing and asked.count >= 1000 and not asked.trials:
        print("no input has %s" % " or ".join(missing))
        return 1
    return int(any(one.problem for one in found))


def show(tries: Tries, index: int) -> int:
    """Runs one input, and prints it and what is wrong with it."""
    name, trial = tries.trial(index)
    print("%s: ccp %s %s" % (name, trial.mode, " ".join(programs.option_words(trial.options))))
    print(trial.data.decode("utf-8", "replace"))
    result = tries.result(index)
    print(result.problem or "as expected")
    return int(bool(result.problem))


def parser() -> argparse.ArgumentParser:
    """The parser of the generator's arguments."""
    made = Parser(prog="python3 -m ccp_tools.reference.generate", description=__doc__)
    made.add_argument("--count", type=whole(1, 10**9), default=2000, metavar="N", help="inputs (2000)")
    made.add_argument("--seed", type=whole(0, 10**9), default=1, metavar="S", help="the seed (1)")
    made.add_argument("--only", type=whole(0, 10**9), metavar="I", help="runs input I alone, and prints it")
    made.add_argument("--trials", type=list_of(trial_name), metavar="LIST", help="of %s" % ", ".join(TRIALS))
    made.add_argument("--jobs", type=whole(1, 256), default=processors(), metavar="N", help="inputs at once")
    add_ccp(made)
    return made


def trial_name(text: str) -> str:
    """The name of a trial."""
    if text not in TRIALS:
        raise argparse.ArgumentTypeError("%s is none of %s" % (text, ", ".join(TRIALS)))
    return text


if __name__ == "__main__":
    try:
        sys.exit(main(sys.argv[1:]))
    except CcpError as error:
        print("generate: %s" % error, file=sys.stderr)
        sys.exit(error.status)
