"""The refusals of the pages docs/language.md and docs/scenarios.md: of each its cause, and what to do about it.

An installed package has no pages, so the sentences stand here once more; a test compares them with the pages."""
from __future__ import annotations

from typing import Dict, Tuple

# of a program's text
OF_PROGRAMS: Dict[str, Tuple[str, str]] = {
    "SourceTooLong": (
        "The text is longer than 65,536 bytes.",
        "Shorten it; comments count too.",
    ),
    "NotText": (
        "A byte outside comments isn't allowed. The place is that of the first one.",
        "Write ASCII letters and marks, spaces, tabs and line ends. Comments can hold any bytes.",
    ),
    "Unexpected": (
        "A `)` closes nothing, or an atom is outside all lists.",
        "Count the parentheses before it, or put the atom into a list or a comment.",
    ),
    "BadNumeral": (
        "An atom begins with a digit and isn't a numeral.",
        "Write decimal digits alone, with a value below 2^64.",
    ),
    "BadName": (
        "An atom that begins with no digit isn't a word.",
        "Write a letter or `_` and then letters, digits, `_` and `.`, or one of the marks.",
    ),
    "Nesting": (
        "A `(` is inside 64 open lists.",
        "Name a part of the expression first.",
    ),
    "Unclosed": (
        "A list isn't closed. The place is that of the last `(` without its match.",
        "Add the `)` that is missing.",
    ),
    "Misplaced": (
        "A part has a form that isn't allowed there.",
        "Write one of the forms that the place takes.",
    ),
    "Twice": (
        "A word is declared twice, or `def` has a second `Report`.",
        "Remove one of the two, or choose another name.",
    ),
    "TooMany": (
        "This one is past the limit.",
        "Use at most 64 fields, 64 control variables, 64 blocks, and 8 locals in a body.",
    ),
    "Unknown": (
        "A word has no meaning where it is used.",
        "Declare it in `def`, assign it earlier in the same body, or correct its name.",
    ),
    "NotWritable": (
        "A primitive is assigned.",
        "Assign a field, a control variable, `Cwnd`, `Rate` or a local.",
    ),
    "Kind": (
        "A Num is where a Bool is required, the target of `ewma` is a Bool, or its weight isn't a numeral from 0 to"
        " 10.",
        "Compare the number, as `(> x 0)`, or write a weight in tenths.",
    ),
    "Micros": (
        "`Micros` is assigned something other than a numeral of value 0.",
        "Write `(:= Micros 0)`.",
    ),
    "TooDeep": (
        "An expression needs more than 8 temporaries.",
        "Name a part of it first, as a local.",
    ),
    "CodeTooLong": (
        "The program's count is above 256. The number is the count; there is no place.",
        "Remove blocks and commands, or name a part that occurs often.",
    ),
}

# of a scenario, its traces included
OF_SCENARIOS: Dict[str, Tuple[str, str]] = {
    "json": (
        "The bytes aren't JSON text, or more than 127 arrays and objects are open at once.",
        "Correct the text at the first place that isn't JSON.",
    ),
    "missing": (
        "A needed member isn't there.",
        "Add it.",
    ),
    "wrong": (
        "A value has the wrong type, a name is empty, too long or has bytes that names may not have, a name is that of"
        " no trace or program, or losses don't rise.",
        "Write a value of the type that the member has.",
    ),
    "range": (
        "A number is outside its range, or a list has too many or too few items.",
        "Write one inside the range.",
    ),
    "program": (
        "The text of a program is refused, as in the language.",
        "Correct the program.",
    ),
    "BadLine": (
        "A line isn't a whole number from 0 to 3,600,000 in decimal digits.",
        "Write one time in milliseconds a line.",
    ),
    "EmptyTrace": (
        "The text has no number.",
        "Write the times in milliseconds at which a packet can leave, one per line.",
    ),
    "NotRising": (
        "A time is below the one before.",
        "Sort the times.",
    ),
    "ZeroPeriod": (
        "The last time is 0, so the trace has no length.",
        "Write a last time above 0.",
    ),
    "totals": (
        "A run of all flows at once has more than 262,144 acknowledgements.",
        "Lower `acks`, or take fewer cases.",
    ),
}
