"""Tests of tools/check-docs: what of a page it runs and writes, what it leaves out, and how it counts the recipes."""
import contextlib
import io
import re

import pytest
from support import REPOSITORY, loaded


def checked(script, *lines):
    """What check-docs prints of a block of these lines, and the number of differences."""
    findings, printed = script.Findings(), io.StringIO()
    with contextlib.redirect_stdout(printed):
        script.check_block("/bin/true", "page.md", 1, lines, findings)
    return printed.getvalue(), findings.wrong


def test_a_block_is_run():
    script = loaded("check-docs")
    assert checked(script, "$ echo one", "one", "$ cat <<'END'", "two", "END", "two") == ("", 0), "as it prints"
    printed, wrong = checked(script, "$ echo one", "two")
    assert wrong == 1 and printed == "page.md:1: prints\none\n\n", printed


def test_a_block_whose_module_is_missing_is_left_out():
    script = loaded("check-docs")
    script.MODULES, script.IS_STRICT = ("no_such_module", "json"), False
    printed, wrong = checked(script, "$ python3 - <<'END'", "import no_such_module", "END", "text")
    assert (printed, wrong) == ("page.md:1: skipped: no_such_module isn't installed\n", 0), printed
    assert checked(script, "$ python3 - <<'END'", "import json", "print(json.dumps(1))", "END", "1") == (
        "",
        0,
    ), "a module that is there"


def test_a_missing_module_is_a_difference_where_nothing_may_be_missing():
    script = loaded("check-docs")
    script.MODULES, script.IS_STRICT = ("no_such_module",), True
    printed, wrong = checked(script, "$ python3 - <<'END'", "import no_such_module", "END", "text")
    assert (printed, wrong) == ("page.md:1: no_such_module isn't installed\n", 1)


def test_the_tables_are_those_of_the_definitions():
    script = loaded("check-docs")
    findings = script.Findings()
    script.check_tables(findings)
    assert findings.wrong == 0 and findings.checked["modes"] == len(script.MODES)


# ---- what --write writes


def test_documents_are_written_again_from_the_tables():
    """What a document lacks of modes, options and columns comes back, and nothing else changes."""
    script = loaded("check-docs")
    texts = {path: (REPOSITORY / path).read_text(encoding="utf-8") for path in script.WITH_TABLES}
    lacks = [
        ("docs/ccp.1", r"\.TP\n\.B soak\n.*\n", ""),
        ("docs/ccp.1", r"\.BR timeline ,\n", ""),
        ("docs/formats.md", "`live`, `rollout` [|]", "`live` |"),
        ("docs/formats.md", " <tail>", ""),
        ("docs/formats.md", " lost=<n>", ""),
    ]
    for path, found, put in lacks:
        changed, count = re.subn(found, put, texts[path], count=1)
        assert count == 1 and script.WITH_TABLES[path](changed) == texts[path], (path, found)


def test_the_costs_have_a_row_for_each_crate():
    """A new crate gets an empty row at its place, and the row of a crate that is gone goes."""
    script = loaded("check-docs")
    text = (REPOSITORY / script.COSTS).read_text(encoding="utf-8")
    row = re.search("^slot_pool,.*\n", text, re.MULTILINE).group()
    made = script.costs_with_crates(text.replace(row, "gone,1.0,,,2.0\n"))
    assert script.costs_with_crates(text) == text and made == text.replace(row, "slot_pool,,,,\n")


def test_a_row_of_a_mode_is_written_into_readme():
    """A row that differs from the tables is made anew, with an example and without links; all others stay."""
    script = loaded("check-docs")
    text = (REPOSITORY / "README.md").read_text(encoding="utf-8")
    rows = [row for row, *_ in script.rows_of_readme(text)]
    mode = script.MODES[script.rows_of_readme(text)[-1][1]]
    new = "| `%s` | %s | %s | `%s` |\n" % (mode.name, mode.reads, mode.does, mode.example)
    for changed in (text.replace(rows[-1], ""), text.replace(rows[-1], rows[-1].replace(mode.reads, "a word"))):
        made = [row for row, *_ in script.rows_of_readme(script.readme_with_tables(changed))]
        assert changed != text and made == [*rows[:-1], new]


def test_outputs_are_written_into_a_document(tmp_path):
    script = loaded("check-docs")
    script.TOP = str(tmp_path)
    page = "text\n\n```\n$ echo one; echo two\nold\n$ cat <<'END'\nthree\nEND\n```\n\n```\n$ echo four\nfour\n```\n"
    (tmp_path / "page.md").write_text(page, encoding="utf-8")
    with contextlib.redirect_stdout(io.StringIO()) as printed:
        script.write_outputs("/bin/true", "page.md", script.Findings())
    made = page.replace("old", "one\ntwo").replace("END\n```", "END\nthree\n```")
    assert (tmp_path / "page.md").read_text(encoding="utf-8") == made and printed.getvalue() == "wrote page.md\n"
    with contextlib.redirect_stdout(io.StringIO()) as printed:
        script.write_outputs("/bin/true", "page.md", script.Findings())
    assert printed.getvalue() == "", "and once more"


# ---- the recipes

RECIPE = """**A change** (for example one): 3 files. It has a reason.

| File | What changes | Needed for |
|---|---|---|
| `ccp_base/specs/Limits.antt` | a limit | |
| `ccp_base/src/ack.rt` | a field | |
| `x_agent/proofs/x/X/reply/Answers.antt` | new | proof |
| `src/ccp_tools/tables.py`, `docs/*.md` | copies | script |
| `docs/flow.md`, `rows/x.jsonl` | words | special |

Special cases: 2 files, if there is a reason.

**Another change**, without a table.

| `docs/none.md` | no row of a recipe | |
"""


def found_in(script, text):
    """What check-docs finds wrong in the recipes of a text, without the page's name."""
    findings, printed = script.Findings(), io.StringIO()
    with contextlib.redirect_stdout(printed):
        script.check_recipes(text.split("\n"), findings)
    assert findings.wrong == len(printed.getvalue().splitlines())
    return printed.getvalue().replace(script.CHANGING, "page")


def test_the_files_of_a_recipe_are_counted():
    script = loaded("check-docs")
    script.MOST_FILES = {"A change": 3}
    assert found_in(script, RECIPE) == ""
    (recipe,) = script.recipes(RECIPE.split("\n"))
    assert [recipe.count(need) for need in script.NEEDS] == [2, 1, 0, 2, 2]


@pytest.mark.parametrize(
    "old, new, line",
    [
        (": 3 files", ": 4 files", "page:1: A change: 4 files are stated, and its table has 3"),
        ("| proof |", "| script |", "page:1: A change: 3 files are stated, and its table has 2"),
        ("cases: 2", "cases: 3", "page:1: A change: 3 files for special cases are stated, and its table has 2"),
        ("`ccp_base/src/ack.rt`", "`ccp_base/src/no.rt`", "page:6: there is no ccp_base/src/no.rt"),
        ("`docs/flow.md`", "`docs/no.md`", "page:9: there is no docs/no.md"),
        ("| proof |", "| proofs |", "page:7: a file is needed for proofs: nothing, proof, number, script, special"),
        ("ack.rt`", "ack.rt`, `ccp_base/src/lib.rt`", "page:6: a row that counts is of one file, and this one of 2"),
        ("**A change**", "**A new change**", "page: there is no recipe: A change"),
    ],
)
def test_a_recipe_that_differs_from_its_table(old, new, line):
    script = loaded("check-docs")
    script.MOST_FILES = {"A change": 3}
    assert line in found_in(script, RECIPE.replace(old, new)).split("\n")


def test_a_recipe_has_a_limit():
    script = loaded("check-docs")
    script.MOST_FILES = {"A change": 2}
    assert found_in(script, RECIPE) == "page:1: A change: 3 files are more than 2\n"


EXAMPLE = """**A change** (as `max`): 4 files.

| File | What changes | Needed for |
|---|---|---|
| `low/specs/Table.antt` | its row | |
| `low/src/lib.rt` | its arm | |
| `low/specs/Limits.antt` | the greatest number | number |
| `x_agent/src/x.rt` | new | |
| `docs/page.md`, `high/src/tests.rt` | words | special |

Only use the example: `high/src/u*.rt`.

Special cases: 2 files.
"""


def found_by_example(tmp_path, text=EXAMPLE, **more):
    """What check-docs finds of a recipe whose example stands in four files of two crates, and in a third one."""
    script = loaded("check-docs")
    script.TOP = str(tmp_path)
    script.MOST_FILES = {"A change": 4}
    script.EXAMPLES = {"A change": script.Example(r"\bMax\b", outside=("other",), new=("Y", "y"))}
    sources = {
        "low/specs/Table.antt": "Max",
        "low/specs/Limits.antt": "15",
        "low/src/lib.rt": "Op::Max => 1",
        "y_agent/src/y.rt": "Max",
        "high/src/uses.rt": "Max",
        "high/src/tests.rt": "Maxima",
        "other/src/lib.rt": "Max",
        "low/must-fail/one.edit": "Max",
        "../docs/page.md": "Max",
    }
    for name, content in {**sources, **more}.items():
        (tmp_path / "crates" / name).parent.mkdir(parents=True, exist_ok=True)
        (tmp_path / "crates" / name).write_text(content, encoding="utf-8")
    return found_in(script, text).splitlines()


def test_a_recipe_has_the_files_in_which_its_example_stands(tmp_path):
    assert not found_by_example(tmp_path)


def test_a_file_that_a_recipe_lacks_is_found(tmp_path):
    """A new file in which the example stands, and an old one whose row is taken out."""
    new = {"high/specs/New.antt": "row Max", "high/specs/Other.antt": "row Maximum"}
    assert found_by_example(tmp_path, **new) == ["page:1: A change: high/specs/New.antt has the example, and no row"]
    without = EXAMPLE.replace("| `low/src/lib.rt` | its arm | |\n", "").replace("4 files", "3 files")
    (tmp_path / "crates/high/specs/New.antt").unlink()
    assert found_by_example(tmp_path, without) == ["page:1: A change: low/src/lib.rt has the example, and no row"]


def test_a_row_of_a_recipe_has_the_example_or_is_for_a_number(tmp_path):
    wrong = EXAMPLE.replace("its row | |", "its row | number |").replace("greatest number | number |", "number | |")
    assert found_by_example(tmp_path, wrong) == [
        "page:5: A change: low/specs/Table.antt has the example, so it isn't needed for a number",
        "page:7: A change: low/specs/Limits.antt doesn't have the example",
    ]


def test_a_file_that_no_longer_uses_the_example_is_found(tmp_path):
    assert found_by_example(tmp_path, **{"high/src/uses.rt": "-"}) == [
        "page:1: A change: high/src/u*.rt doesn't have the example"
    ]


def test_the_recipes_of_the_page():
    script = loaded("check-docs")
    text = (REPOSITORY / script.CHANGING).read_text(encoding="utf-8")
    assert found_in(script, text) == ""
    titles = {recipe.title for recipe in script.recipes(text.split("\n"))}
    assert titles == set(script.MOST_FILES) == set(script.EXAMPLES)
