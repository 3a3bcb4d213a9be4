"""What stands around the program `ccp`: its texts, scenarios, traces, figures and plots.

    import ccp_tools

    scenario = ccp_tools.read_scenario("examples/campaign.json")
    table = ccp_tools.run_campaign(scenario)        # a pandas DataFrame with a row a case
    print(8 * table.acked / table.now)              # Mbit/s

The commands are `ccp compare`, `ccp scenario` and so on, or `python3 -m ccp_tools compare`; see `ccp --help`."""
from __future__ import annotations

from importlib import import_module
from pathlib import Path
from typing import TYPE_CHECKING, Any

if TYPE_CHECKING:
    from .errors import BadText, CcpError, Failed, NoProgram
    from .frames import acks, figures, run_campaign, timeline
    from .scenario_files import read_scenario, write_scenario

__all__ = [
    "BadText",
    "CcpError",
    "Failed",
    "NoProgram",
    "acks",
    "figures",
    "read_scenario",
    "run_campaign",
    "timeline",
    "write_scenario",
]

# the module of each name, which is imported when the name is first used: pandas takes half a second
MODULES = {
    **dict.fromkeys(["BadText", "CcpError", "Failed", "NoProgram"], "errors"),
    **dict.fromkeys(["acks", "figures", "run_campaign", "timeline"], "frames"),
    **dict.fromkeys(["read_scenario", "write_scenario"], "scenario_files"),
}


def __getattr__(name: str) -> Any:
    if name == "__version__":
        return version()
    if name in MODULES:
        return getattr(import_module("." + MODULES[name], __name__), name)
    raise AttributeError("module %r has no attribute %r" % (__name__, name))


def version() -> str:
    """The version of these sources: that of the file VERSION of a checkout, else the one that was installed."""
    beside = Path(__file__).resolve().parents[2] / "VERSION"
    if beside.is_file():
        return beside.read_text(encoding="utf-8").strip()
    installed = Path(__file__).with_name("VERSION")
    if installed.is_file():
        return installed.read_text(encoding="utf-8").strip()
    from importlib.metadata import PackageNotFoundError, version as version_of

    try:
        return version_of("ccp-tools")
    except PackageNotFoundError:
        return "unknown"
