"""YAML, read as texts, lists and tables alone."""

from pathlib import Path
from typing import Any

from glb_tools.options import Fault


def read_yaml(path: Path) -> Any:
    """The document; each plain value is a text, as it stands there."""
    try:
        import yaml
    except ImportError:
        raise Fault("python3-yaml is not installed: it reads this kind of file") from None
    try:
        # a country NO is no truth value
        return yaml.load(path.read_bytes(), yaml.BaseLoader)
    except yaml.MarkedYAMLError as why:
        at = (
            f", line {why.problem_mark.line + 1}, column {why.problem_mark.column + 1}"
            if why.problem_mark
            else ""
        )
        raise Fault(f"{path}{at}: {why.problem}") from None
    except (yaml.YAMLError, RecursionError, UnicodeDecodeError) as why:
        raise Fault(f"{path}: {why}") from None
