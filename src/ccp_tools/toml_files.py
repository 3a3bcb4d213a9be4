"""Files of options, as compare.toml and tune.toml: read as values, and written of values."""
from __future__ import annotations

import json
from typing import Any, Dict, Mapping

from .errors import CcpError
from .files import name_of, read_text


def read_toml(path: str) -> Dict[str, Any]:
    """The values of a TOML file."""
    try:
        import tomllib
    except ImportError:
        try:
            import tomli as tomllib
        except ImportError:
            raise CcpError("%s: it needs Python 3.11 or the package python3-tomli" % name_of(path)) from None
    try:
        return dict(tomllib.loads(read_text(path)))
    except tomllib.TOMLDecodeError as error:
        raise CcpError("%s: no TOML: %s" % (name_of(path), error)) from None


def toml_lines(values: Mapping[str, Any]) -> str:
    """Values as a TOML file has them, a line each. What isn't given (None, False, or empty) is left out."""
    # 0 is a value, and equals False
    given = {name: value for name, value in values.items() if value is not False and value not in (None, [], "")}
    return "".join("%s = %s\n" % (name, json.dumps(value)) for name, value in given.items())
