"""Says what is wrong with a scenario, a program or an input of fold, where, and how to mend it.

    ccp explain [--for MODE] [FILE]

Without a file, or with -, it reads standard input. It asks the program, and never says otherwise: what the program
refuses is refused here, with its line and column, the line itself with a caret, and a sentence; all else is accepted.
The program reads the input and runs nothing, but for the acknowledgements of fold and the frames of drive, so the
answer comes at once.

    $ ccp explain mine.json
    mine.json:7:26: refused: range cases[0].queue
         7 |    "mss": 1448, "queue": 5000,
           |                          ^^^^
      A number is outside its range, or a list has too many or too few items. Write one inside the range.
      `queue`: How many packets may wait at the link: a whole number from 1 to 4096.
      Here is 5000.
    ccp explain: refused by campaign

A fault in fold is shown at its place in the program, with the values that met there.

Warnings name what is accepted and likely meant otherwise. Of a scenario: members that ccp ignores, two members of one
name, cases of one name, what no case uses, times below a millisecond. Of a program: a local that nothing reads or that
looks like another name, a block that is never reached, a field that makes an agent answer, no report, a window that
never moves, and a sum or product of +infinity.

Without --for, a text that begins with ( is a program, one with a line --- too is an input of fold, and one that
begins with { a scenario: of drive or of audit where a line --- and frames or lines follow, of rollout where its cases
have steps or cwnd, of shared where it has that member, else of campaign.

Exit status: 0 accepted, perhaps with warnings; 1 refused; 2 wrong arguments, or no program to ask."""
from .command import add_arguments, run
from .program_warnings import Warning, warnings_of

__all__ = ["Warning", "add_arguments", "run", "warnings_of"]
