"""The one error that ends a command: which file, which line, and what is wrong."""

from __future__ import annotations


class Fault(Exception):
    """A file that can't be used. Shown as one line."""

    def __init__(self, file: str, line: int | None, what: str) -> None:
        """`line` counts from 1; None where no line is to blame."""
        at = "" if line is None else f"line {line}: "
        super().__init__(f"{file}: {at}{' '.join(what.split())}")


def system_fault(file: str, error: OSError) -> Fault:
    """The fault for an error of the operating system at a file."""
    return Fault(file, None, error.strerror or str(error))
