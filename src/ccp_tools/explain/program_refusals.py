"""What is wrong with a program that `ccp` refuses, and how to mend it: for each refusal the hints at its place."""
from __future__ import annotations

import re
from typing import Callable, Dict, List, Optional

from ..reference.syntax import COMMANDS, OPERATORS, RESERVED, Node, Program, is_name
from ..tables import PRIMITIVE_WORDS
from .findings import Finding, cut, did_you_mean, hints_of_file, looks_like_path, looks_like_trace, nearest
from .sentences import OF_PROGRAMS

# what people write, and what the language has in its place
INSTEAD = {
    ">=": "There is no `>=`: write `(|| (> a b) (== a b))`, or `(> a 9)` for at least 10.",
    "<=": "There is no `<=`: write `(|| (< a b) (== a b))`, or `(< a 11)` for at most 10.",
    "!=": "There is no `!=`: write `(== (== a b) false)`.",
    "<>": "There is no `<>`: write `(== (== a b) false)`.",
    "=": "A comparison is `==`, an assignment `:=`.",
    "===": "A comparison is `==`.",
    "!": "There is no `not`: write `(== b false)`, or `!if` in place of `if`.",
    "not": "There is no `not`: write `(== b false)`, or `!if` in place of `if`.",
    "&": "The operator is `&&`, or `and`.",
    "|": "The operator is `||`, or `or`.",
    "%": "There is no remainder: write `(- a (* b (/ a b)))`.",
    "mod": "There is no remainder: write `(- a (* b (/ a b)))`.",
    "abs": "There are no negative numbers: write `(- (max a b) (min a b))`.",
    "neg": "There are no negative numbers.",
    "set": "An assignment is `(:= name value)`.",
    "set!": "An assignment is `(:= name value)`.",
    "let": "An assignment is `(:= name value)`, and a new name is a local of its body.",
    "cond": "Write a block `(when condition ..)` for each condition.",
    "else": "Write a block for each case: `(when c ..)`, then `(when true ..)` without a `(fallthrough)` before it.",
    "while": "There are no loops: a program runs once for each acknowledgement.",
    "ge": "There is no `>=`: write `(|| (> a b) (== a b))`.",
    "le": "There is no `<=`: write `(|| (< a b) (== a b))`.",
    "ne": "There is no `!=`: write `(== (== a b) false)`.",
    "xor": "Write `(== (== a b) false)` of two Bools.",
}
ACK_WORD = re.compile("[a-z_]+=[0-9]+")
PREFIXES = ("Report.", "Ack.", "Flow.")

Hints = Callable[[Program, int, Optional[Node]], List[str]]


# ---- hints, by refusal: each is given the program, the place, and the node there, which may be None


def hints_of_not_text(program: Program, start: int, _node: Optional[Node]) -> List[str]:
    """A byte that the language doesn't have: a file that is no program, curly quotes, other blanks, dashes."""
    file = hints_of_file(program.text.encode("latin-1"))
    if file:
        return file
    data = program.text[start : start + 4].encode("latin-1")
    mark = first_character(data)
    if mark is None:
        return ["The byte here is 0x%02X." % data[0]] if data else []
    if mark in "\u201c\u201d\u2018\u2019\u00ab\u00bb":
        return ["This is a curly quote. The language has no quotes."]
    if mark in "\u00a0\u2007\u202f\u3000":
        return ["This is a blank that isn't the space character (U+%04X)." % ord(mark)]
    if mark == "\ufeff":
        return ["This is a byte order mark: save the file as UTF-8 without it."]
    if mark in "\u2013\u2014\u2212":
        return ["This is a dash, not the sign `-`."]
    if mark in "\u2264\u2265\u2260":
        return [INSTEAD[{"\u2264": "<=", "\u2265": ">=", "\u2260": "!="}[mark]]]
    name = "`%s` (U+%04X)" % (mark, ord(mark)) if mark.isprintable() else "U+%04X" % ord(mark)
    return ["The character here is %s." % name]


def first_character(data: bytes) -> Optional[str]:
    """The first character of bytes of UTF-8, or None."""
    for length in range(1, 5):
        try:
            return data[:length].decode("utf-8") or None
        except UnicodeDecodeError:
            continue
    return None


def hints_of_bad_name(_program: Program, _start: int, node: Optional[Node]) -> List[str]:
    """A word that is no name, such as `-5`, a quoted word, or one of another language."""
    word = node.text if node else ""
    if word in INSTEAD:
        return [INSTEAD[word]]
    if re.fullmatch(r"-[0-9.]+", word):
        return ["There are no negative numbers: to take %s away write `(- a %s)`." % (word[1:], word[1:])]
    if word.startswith((";", "//")):
        return ["A comment begins with `#`."]
    if word[:1] in "\"'`":
        return ["The language has no quotes: write the word alone."]
    if len(word) > 64:
        return ["This word has %d bytes; a word has at most 64." % len(word)]
    if re.fullmatch(r"[+][0-9]+", word):
        return ["A number has no sign: write `%s`." % word[1:]]
    if re.fullmatch(r"[+]?(inf\w*|\u221e|max)", word.lower()) or nearest(word, ["+infinity"]):
        return ["Did you mean `+infinity`?"]
    if re.fullmatch(r"-inf\w*", word.lower()):
        return ["There are no negative numbers; the least one is `0`."]
    fixed = re.sub("[^A-Za-z0-9_.]", "_", word)
    if is_name(fixed):
        return ["A name has letters, digits, `_` and `.` alone, as `%s`." % cut(fixed)]
    return []


def hints_of_bad_numeral(_program: Program, _start: int, node: Optional[Node]) -> List[str]:
    """A word that begins with a digit and is no numeral: too large, a fraction, hexadecimal, or with a unit."""
    word = node.text if node else ""
    if re.fullmatch("[0-9]+", word):
        return ["The largest number is 18446744073709551615, which `+infinity` stands for."]
    if re.fullmatch("[0-9]*[.][0-9]+", word):
        is_weight = node is not None and node.within is not None and node.within.head() == "ewma" and node.index == 1
        return [hint_of_weight(word) if is_weight else hint_of_fraction(word)]
    if re.fullmatch("0[xX][0-9a-fA-F]+", word):
        return ["Write it in decimal digits: `%d`." % int(word, 16)]
    if re.fullmatch("[0-9]+[eE][0-9]+", word) and len(word) < 8:
        return ["Write all digits: `%d`." % int(float(word))]
    if re.fullmatch("[0-9][0-9_,']*", word):
        return ["Write the digits alone: `%s`." % re.sub("[^0-9]", "", word)]
    if re.fullmatch("([0-9]+)(us|ms|s|k|K|M|G|kb|KB|MB|%)", word):
        return ["A number has no unit. Times are in microseconds, windows in bytes."]
    return ["A name begins with a letter or `_`."]


def hint_of_fraction(word: str) -> str:
    """How a fraction is written as a product and a quotient."""
    whole, _, part = word.rstrip("0").partition(".")
    over = 10 ** max(1, len(part))
    times = int(whole + part or "0") * (over // 10 ** len(part))
    return "There are no fractions: to multiply by %s write `(/ (* x %d) %d)`." % (word, times, over)


def hint_of_weight(word: str) -> str:
    """What weight of `ewma` a fraction stands for: it is that of the old value, in tenths."""
    tenths = 10 * float(word)
    if tenths > 10:
        return "The weight is in tenths: a numeral from 0 to 10, as 8 for 0.8."
    if tenths == round(tenths):
        return "The weight is that of the old value, in tenths: write `%d` for %s." % (tenths, word)
    return "The weight is that of the old value, in whole tenths: write `%d` or `%d` for %s." % (
        tenths,
        tenths + 1,
        word,
    )


def hints_of_unexpected(program: Program, start: int, node: Optional[Node]) -> List[str]:
    """What stands outside all lists: one `)` too many, acknowledgements, a scenario, a trace, a path."""
    if program.text[start : start + 1] == ")":
        return ["One `)` too many is here, or one too few `(` before it."]
    word = node.text if node else ""
    if word == "---":
        return ["A line `---` and acknowledgements belong to `fold`: `ccp fold FILE`."]
    if ACK_WORD.fullmatch(word):
        return ["This looks like an acknowledgement: `fold` reads them after the program and a line `---`."]
    if word.startswith(("{", "[")):
        return ["This looks like a scenario: `ccp campaign FILE`."]
    if word.startswith((";", "//")):
        return ["A comment begins with `#`."]
    if looks_like_trace(program.text):
        return ["This looks like a trace: a scenario holds it in its member `traces`."]
    if looks_like_path(program.text):
        shown = cut(program.text.strip())
        return ["The text is `%s`, which looks like the path of a file. Give the file's content." % shown]
    return ["Outside lists there are only comments."]


def hints_of_unclosed(_program: Program, _start: int, node: Optional[Node]) -> List[str]:
    """A list without its end."""
    head = " of `(%s ..`" % cut(node.head()) if node and node.head() else ""
    return ["The `)`%s is missing. It is the last list that isn't closed; an earlier one may lack it too." % head]


def hints_of_nesting(_program: Program, _start: int, _node: Optional[Node]) -> List[str]:
    """Lists in more levels than the language takes."""
    return ["Give a part of the expression a name of its own first: `(:= part ..)`."]


def hints_of_twice(program: Program, start: int, node: Optional[Node]) -> List[str]:
    """A name that is declared twice, with the place of the first declaration."""
    if node is None or node.within is None:
        return []
    if node.text == "Report":
        return ["Put all fields into one `(Report ..)`."]
    for other in program.nodes:
        if other.text != node.text or other is node or other.start >= start or other.within is None:
            continue
        if other.within.within is node.within.within:
            return ["`%s` is declared at %d:%d already." % (cut(node.text), *program.place(other.start))]
    return []


def hints_of_unknown(program: Program, _start: int, node: Optional[Node]) -> List[str]:
    """A name that nothing declares, with near names and the prefix that may be missing."""
    if node is None:
        return []
    word = node.text
    if word in INSTEAD:
        return [INSTEAD[word]]
    found = ["`%s` has no meaning here." % cut(word)]
    last = word.split(".")[-1]
    if last in program.fields and "Report." + last != word:
        return found + ["A field is used with its prefix: `Report.%s`." % last]
    for name in PRIMITIVE_WORDS:
        if name.split(".")[1].lower() == last.lower():
            return found + ["The primitive is `%s`." % name]
    if word.startswith("Report."):
        field = nearest(last, program.fields)
        near = ["Did you mean `Report.%s`?" % field] if field else []
        return (
            found + near + ["Fields are declared in `(Report ..)` of `def`, without the prefix: `(%s 0)`." % cut(last)]
        )
    if word.startswith(PREFIXES):
        return found + did_you_mean(word, PRIMITIVE_WORDS)
    if word in program.locals_before(node)[1]:
        return found + [
            "A local ends with its body: declare `%s` in `def`, or assign it in this body first." % cut(word)
        ]
    return found + did_you_mean(word, program.names(node))


def hints_of_not_writable(_program: Program, _start: int, node: Optional[Node]) -> List[str]:
    """An assignment to a primitive of the acknowledgement."""
    return ["`%s` comes from the acknowledgement." % cut(node.text if node else "")]


def hints_of_kind(program: Program, _start: int, node: Optional[Node]) -> List[str]:
    """A number where a Bool is needed, or the reverse."""
    if node is None or node.within is None:
        return []
    within = node.within
    if within.head() == "ewma" and node.index == 1:
        return ["The weight is in tenths: a numeral from 0 to 10, as 8 for 0.8."]
    if within.head() in (":=", "bind") and node.index == 1:
        return ["`%s` is a Bool, and `ewma` moves a Num." % cut(node.text)]
    shown = source_of(program, node)
    if node.text in ("0", "1"):
        return ["Write `%s` for %s." % ({"0": "false", "1": "true"}[node.text], node.text)]
    return ["`%s` is a number. Compare it to have a Bool: `(> %s 0)`." % (shown, shown)]


def hints_of_micros(_program: Program, _start: int, _node: Optional[Node]) -> List[str]:
    """An assignment to `Micros` of anything other than 0."""
    return ["`(:= Micros 0)` is the only assignment of `Micros`: it makes this acknowledgement the time zero."]


def hints_of_too_deep(_program: Program, _start: int, _node: Optional[Node]) -> List[str]:
    """An expression that needs more temporaries than there are."""
    return [
        "Each step down to the right of an operator needs one more temporary.",
        "Name a part first, as `(:= part ..)`, or put the deeper part on the left.",
    ]


# ---- `Misplaced`, by where the node is


def hints_of_misplaced(program: Program, _start: int, node: Optional[Node]) -> List[str]:
    """A node in a place where its kind can't be: by its level, a form, a declaration, or a part of a body."""
    if not program.forms:
        return ["There is no form at all. A program is `(def ..)` and then blocks `(when condition command ..)`."]
    if node is None or node.within is None:
        return []
    if node.within.within is None:
        return hints_of_form(program, node)
    if node.form().head() == "def":
        return hints_of_declaration(node)
    return hints_of_body(program, node)


def hints_of_form(program: Program, node: Node) -> List[str]:
    """A form of the top level that is no `def` in front and no block after it."""
    if node.index == 0:
        return ["A program begins with `(def ..)`; `(def)` alone declares nothing."]
    if node.head() == "when":
        return ["A block is `(when condition command ..)`; for always write `(when true ..)`."]
    if node.head() == "def":
        return ["There is one `def`: put all declarations into the first."]
    if node.head() in COMMANDS:
        return ["A command is in the body of a block: `(when true %s)`." % source_of(program, node)]
    return ["After `(def ..)` come blocks `(when condition command ..)` alone."]


def hints_of_declaration(node: Node) -> List[str]:
    """A part of `def` that is no declaration."""
    if node.is_list or node.within is not None and node.within.head() in ("def", "Report"):
        words = [part.text for part in node.parts]
        if len(words) == 1 and is_name(words[0]):
            return ["A value is missing: `(%s 0)`." % cut(words[0])]
        if len(words) == 2 and words[0] == "volatile" and is_name(words[1]):
            return ["A value is missing: `(volatile %s 0)`." % cut(words[1])]
        return [
            "A declaration is `(name value)` or `(volatile name value)`; the value is a numeral, `+infinity`, `true` or"
            " `false`."
        ]
    bare = node.text.split(".")[-1]
    if "." in node.text and is_name(bare):
        if node.text.startswith("Report."):
            return ["Declare it without a prefix: `(%s 0)`." % bare]
        return ["A declared name has no `.` here."]
    if node.text in RESERVED:
        return ["`%s` is a word of the language; choose another name." % node.text]
    return ["A name is expected here: letters, digits and `_`, with no digit first."]


def hints_of_body(program: Program, node: Node) -> List[str]:
    """A part of a block that is no command, no target and no value."""
    within = node.within
    assert within is not None
    if within.head() == "when" and node.index > 1:
        return hints_of_command(program, node)
    if within.head() in (":=", "bind") and node.index == 1:
        return ["The target of an assignment is a field, a control variable, `Cwnd`, `Rate`, a local or `Micros`."]
    if node.is_list:
        return hints_of_expression(program, node)
    return ["`%s` is a word of the language and no value." % cut(node.text)]


def hints_of_command(program: Program, node: Node) -> List[str]:
    """What stands as a command of a block and is none."""
    head, count = node.head(), len(node.parts) - 1
    if not node.is_list:
        if node.text in COMMANDS[2:]:
            return ["A command is a list: `(%s)`." % cut(node.text)]
        return ["A command is a list: `(:= name value)`, `(report)`, `(fallthrough)`."]
    if head in COMMANDS[:2]:
        return ["An assignment has a name and one value: `(:= name value)`; here are %d parts." % count]
    if head in COMMANDS[2:]:
        return ["`(%s)` has no parts." % head]
    if head in ("if", "!if"):
        return [
            "`if` is the value of an assignment: `(:= name (if condition value))`. For commands under a condition write"
            " a block of their own."
        ]
    if head == "when":
        return ["A block isn't in another block: close the one before it first."]
    if head in INSTEAD:
        return [INSTEAD[head]]
    if head in OPERATORS:
        return ["This is a value. To keep it write `(:= name %s)`." % source_of(program, node)]
    return ["A command is `(:= name value)`, `(report)` or `(fallthrough)`."] + did_you_mean(head, COMMANDS)


def hints_of_expression(program: Program, node: Node) -> List[str]:
    """A list that stands as a value and is none, such as an operator with one part or three."""
    head, count = node.head(), len(node.parts) - 1
    if not node.parts:
        return ["`()` is no value."]
    if head in ("if", "!if", "ewma"):
        return hints_of_special(node, head, count)
    if head in OPERATORS and count == 1 and head in ("-", "sub"):
        return ["There are no negative numbers: `-` takes two parts."]
    if head in OPERATORS and count > 2:
        return ["`%s` takes two parts, here are %d: write `(%s (%s a b) c)`." % (head, count, head, head)]
    if head in OPERATORS:
        return ["`%s` takes two parts, here %s %d." % (head, "is" if count == 1 else "are", count)]
    if head in INSTEAD:
        return [INSTEAD[head]]
    if count == 0 and (head.isdigit() or nearest(head, program.names(node)) == head):
        return ["Write `%s` without parentheses." % cut(head)]
    if len(node.parts) > 1 and head in program.names(node):
        return ["The operator comes first: `(+ a b)`."]
    return ["A list that is a value begins with an operator."] + did_you_mean(head, list(OPERATORS))


def hints_of_special(node: Node, head: str, count: int) -> List[str]:
    """The hints of a misplaced `if`, `!if` or `ewma`."""
    parts = "a weight from 0 to 10 and a value" if head == "ewma" else "a condition and a value"
    if node.within is not None and node.within.head() in (":=", "bind") and node.index == 2:
        more = []
        if head != "ewma" and count == 3:
            more = ["For an else write both: `(:= x other)`, and then `(:= x (if condition value))`."]
        return ["`%s` has two parts, %s; here are %d." % (head, parts, count)] + more
    return [
        "`%s` is the whole value of an assignment, `(:= name (%s ..))`, and can't be a part of an expression."
        % (head, head)
    ]


HINTS: Dict[str, Hints] = {
    "NotText": hints_of_not_text,
    "BadName": hints_of_bad_name,
    "BadNumeral": hints_of_bad_numeral,
    "Unexpected": hints_of_unexpected,
    "Unclosed": hints_of_unclosed,
    "Nesting": hints_of_nesting,
    "Misplaced": hints_of_misplaced,
    "Twice": hints_of_twice,
    "Unknown": hints_of_unknown,
    "NotWritable": hints_of_not_writable,
    "Kind": hints_of_kind,
    "Micros": hints_of_micros,
    "TooDeep": hints_of_too_deep,
}
REFUSAL = re.compile(r"(\w+)(?: fields| controls| locals| blocks)?(?: at ([0-9]+):([0-9]+)| [0-9]+)?")


def source_of(program: Program, node: Node) -> str:
    """The text of a node in one line."""
    return cut(re.sub(r"\s+", " ", program.text[node.start : node.end]))


def mend_of(name: str, node: Optional[Node]) -> List[str]:
    """What to do about a refusal, unless it doesn't help at this node: a name with a prefix never becomes a local, and
    a fraction isn't mended by leaving out its point."""
    if name == "Unknown" and node is not None and node.text.startswith(PREFIXES):
        return []
    if name == "BadNumeral" and node is not None and "." in node.text:
        return []
    return [OF_PROGRAMS[name][1]]


def refusal_of(text: str, reason: str) -> Finding:
    """The finding of a refusal of a program, as `Unknown at 3:36`, in a text of bytes as Latin-1."""
    matched = REFUSAL.fullmatch(reason)
    assert matched, reason
    name, line, column = matched.group(1, 2, 3)
    if line is None:
        return Finding("refused", 0, 0, reason, hints_of_size(name, text))
    program = Program(text)
    start = program.start_of(int(line), int(column))
    node = program.node_at(start)
    own = HINTS[name](program, start, node) if name in HINTS else []
    is_file = bool(hints_of_file(text.encode("latin-1")))
    mend = [] if is_file and name == "NotText" else mend_of(name, node)
    return Finding("refused", start, node.end if node else start + 1, reason, [OF_PROGRAMS[name][0], *mend, *own])


def hints_of_size(name: str, text: str) -> List[str]:
    """The hints of a refusal without a place."""
    if name == "SourceTooLong" and looks_like_trace(text):
        return ["This looks like a trace: a scenario holds it in its member `traces`, and `ccp scenario` makes one."]
    if name == "SourceTooLong":
        return hints_of_file(text.encode("latin-1")) or [*OF_PROGRAMS[name], "It has %d bytes." % len(text)]
    return list(OF_PROGRAMS[name])
