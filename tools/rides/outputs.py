"""Files that are there whole or not at all."""

from __future__ import annotations

import os
from types import TracebackType
from typing import TextIO

from rides.faults import system_fault


class Outputs:
    """A set of files to be written. As a context: they get their names at its end, and none does after an exception.

    Each is written under a name of its own beside the final one, which ends in `.part`.
    """

    def __init__(self) -> None:
        self.files: list[tuple[str, str, TextIO]] = []
        self.made: list[str] = []

    def folder(self, path: str) -> None:
        """Makes a folder where it isn't there."""
        try:
            if not os.path.isdir(path):
                os.mkdir(path)
                self.made.append(path)
        except OSError as error:
            raise system_fault(path, error) from error

    def open(self, path: str) -> TextIO:
        """A new file that will stand under this name, in the place of an older one."""
        part = f"{path}.{os.getpid()}.part"
        try:
            if os.path.isdir(path):
                raise IsADirectoryError(0, "is a folder")
            file = open(part, "w", encoding="utf-8", newline="\n")
        except OSError as error:
            raise system_fault(path, error) from error
        self.files.append((path, part, file))
        return file

    def __enter__(self) -> Outputs:
        return self

    def __exit__(
        self, kind: type[BaseException] | None, error: BaseException | None, trace: TracebackType | None
    ) -> None:
        try:
            if kind is None:
                self.finish()
            elif isinstance(error, OSError):
                raise system_fault(error.filename or ", ".join(path for path, _, _ in self.files), error) from error
        finally:
            self.drop()

    def finish(self) -> None:
        """Closes all files and then gives them their names."""
        for path, _, file in self.files:
            try:
                file.close()
            except OSError as error:
                raise system_fault(path, error) from error
        while self.files:
            path, part, _ = self.files[0]
            try:
                os.replace(part, path)
            except OSError as error:
                raise system_fault(path, error) from error
            self.files.pop(0)
        self.made.clear()

    def drop(self) -> None:
        """Removes what has no final name yet."""
        for _, part, file in self.files:
            try:
                file.close()
            except OSError:
                pass  # the disk may be full, and the part is removed all the same
            if os.path.exists(part):
                os.remove(part)
        for path in reversed(self.made):
            os.rmdir(path)
