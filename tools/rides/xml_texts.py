"""XML files read element by element, with the lines of their faults."""

from __future__ import annotations

import os
from collections.abc import Callable
from xml.parsers import expat

from rides.faults import Fault, system_fault
from rides.texts import Progress

PIECE_BYTES = 1 << 16


class Stop(Exception):
    """Raised by a taker of elements that has seen enough."""


def read_elements(
    path: str,
    begin: Callable[[str, dict[str, str]], None],
    end: Callable[[str], None] = lambda name: None,
) -> None:
    """Calls `begin` with the name and the attributes of each element, and `end` with its name behind its content.

    A KeyError, ValueError or OverflowError that they raise says that an element isn't as it should be, and becomes a
    fault of the line.
    """
    parser = expat.ParserCreate()
    parser.StartElementHandler = begin
    parser.EndElementHandler = end
    progress = Progress(f"reading {path}")
    try:
        with open(path, "rb") as file:
            whole = os.fstat(file.fileno()).st_size
            while piece := file.read(PIECE_BYTES):
                parser.Parse(piece, False)
                progress.tell(file.tell(), whole)
            parser.Parse(b"", True)
    except Stop:
        pass
    except expat.ExpatError as error:
        raise Fault(path, error.lineno, f"not well-formed XML: {expat.ErrorString(error.code)}") from error
    except KeyError as error:
        raise Fault(path, parser.CurrentLineNumber, f"an element has no attribute {error}") from error
    except (ValueError, OverflowError) as error:
        raise Fault(path, parser.CurrentLineNumber, str(error)) from error
    except OSError as error:
        raise system_fault(path, error) from error
