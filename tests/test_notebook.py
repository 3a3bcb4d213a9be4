"""examples/compare.ipynb: it is stored without outputs, and runs from its first cell to its last one."""
from __future__ import annotations

import json
from pathlib import Path
from typing import Any, Dict

import pytest
from support import EXAMPLES, REPOSITORY, needs

NOTEBOOK = EXAMPLES / "compare.ipynb"


def read() -> Dict[str, Any]:
    return json.loads(NOTEBOOK.read_text(encoding="utf-8"))


def test_the_notebook_has_no_outputs_and_no_path_of_a_machine() -> None:
    cells = read()["cells"]
    assert len({cell["id"] for cell in cells}) == len(cells)
    for cell in cells:
        if cell["cell_type"] == "code":
            assert cell["outputs"] == [] and cell["execution_count"] is None, cell["id"]
    assert str(REPOSITORY) not in NOTEBOOK.read_text(encoding="utf-8")


@needs("import nbclient", "import ipykernel")
def test_the_notebook_runs(program: Path, tmp_path: Path, monkeypatch: pytest.MonkeyPatch) -> None:
    """In a copy of what it reads, since it writes its plots beside itself."""
    import nbclient
    import nbformat

    monkeypatch.setenv("PYTHONPATH", str(REPOSITORY / "src"))
    monkeypatch.setenv("CCP_PROGRAM", str(program))
    (tmp_path / "examples" / "traces").mkdir(parents=True)
    for name in ("traces/wave.trace", "delay.portus"):
        (tmp_path / "examples" / name).write_bytes((EXAMPLES / name).read_bytes())
    notebook = nbformat.reads(NOTEBOOK.read_text(encoding="utf-8"), as_version=4)
    resources = {"metadata": {"path": str(tmp_path / "examples")}}
    nbclient.NotebookClient(notebook, timeout=300, kernel_name="python3", resources=resources).execute()
    printed = {cell["id"]: cell["outputs"] for cell in notebook["cells"] if cell["cell_type"] == "code"}
    assert "linux-cubic" in printed["figures"][-1]["data"]["text/plain"]
    for plot in ("scatter", "bars"):
        assert (tmp_path / "examples" / (plot + ".pdf")).read_bytes().startswith(b"%PDF")
        assert "image/png" in printed[plot][-1]["data"]
