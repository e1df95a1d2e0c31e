"""Why something is not done: the errors that a user sees."""
from __future__ import annotations

from types import ModuleType


class Refusal(Exception):
    """The input is refused; the text says what in it is wrong, where, and what helps."""


class NoCell(Exception):
    """A value that no cell equals: its number among the values that were handed in, and why."""

    def __init__(self, number: int, why: str):
        super().__init__(why)
        self.number = number
        self.why = why


def need(module: str, command: str) -> ModuleType:
    """Imports a package that only some commands need. Refuses: it is missing; the line names the one of Debian."""
    import importlib

    try:
        return importlib.import_module(module)
    except ImportError as error:
        package = f"python3-{module.split('.')[0].lower()}"
        raise Refusal(f"{command} needs {module.split('.')[0]}: apt-get install {package} ({error})") from error
