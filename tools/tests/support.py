"""What the tests share: a folder of their own, the command `ride`, the program, and a strict reader of graphs."""

from __future__ import annotations

import contextlib
import io
import os
import re
import shutil
import subprocess
import tempfile
import unittest

from rides.command import main

TESTS = os.path.dirname(os.path.abspath(__file__))
TOOLS = os.path.dirname(TESTS)
DATA = os.path.join(TESTS, "data")
RIDE = os.path.join(TOOLS, "ride")
LEAFLET = "/usr/share/javascript/leaflet/leaflet.js"

PROGRAM = os.environ.get("VAUGRENIS") or shutil.which("vaugrenis")
"""The built program, by the environment or on the path."""

needs_program = unittest.skipUnless(PROGRAM, "neither VAUGRENIS nor the path names the built program")
needs_sumo = unittest.skipUnless(shutil.which("netconvert"), "sumo isn't installed")
needs_leaflet = unittest.skipUnless(os.path.exists(LEAFLET), "libjs-leaflet isn't installed")


class FolderTest(unittest.TestCase):
    """A test in an empty folder, which it leaves in the end."""

    def setUp(self) -> None:
        folder = tempfile.TemporaryDirectory(prefix="ride-test-")
        self.addCleanup(folder.cleanup)
        self.folder = folder.name

    def path(self, name: str) -> str:
        """A path in the folder."""
        return os.path.join(self.folder, name)

    def put(self, name: str, text: str) -> str:
        """Writes a file of the folder, and gives its path."""
        with open(self.path(name), "w", encoding="utf-8", newline="") as file:
            file.write(text)
        return self.path(name)

    def get(self, name: str) -> str:
        """The text of a file of the folder."""
        with open(self.path(name), encoding="utf-8", newline="") as file:
            return file.read()

    def names(self) -> set[str]:
        """What lies in the folder."""
        return set(os.listdir(self.folder))

    def ride(self, *words: str, status: int = 0) -> subprocess.CompletedProcess[str]:
        """Runs `ride` in the folder, within this process, and asks for its exit status."""
        output, errors = io.StringIO(), io.StringIO()
        with contextlib.chdir(self.folder), contextlib.redirect_stdout(output), contextlib.redirect_stderr(errors):
            try:
                found = main(list(words))
            except SystemExit as end:
                found = end.code
        self.assertEqual(found, status, errors.getvalue())
        return subprocess.CompletedProcess(words, status, output.getvalue(), errors.getvalue())

    def fault(self, *words: str) -> str:
        """The one line by which `ride` refuses; it leaves the folder as it was."""
        before = self.names()
        told = self.ride(*words, status=1)
        self.assertEqual(told.stdout, "")
        self.assertRegex(told.stderr, r"\Aride: [^\n]+\n\Z")
        self.assertEqual(self.names(), before)
        return told.stderr.removeprefix("ride: ").rstrip("\n")


def vaugrenis(folder: str, *words: str) -> subprocess.CompletedProcess[str]:
    """Runs the program in a folder."""
    return subprocess.run(
        [PROGRAM, *words], cwd=folder, stdin=subprocess.DEVNULL, capture_output=True, text=True, timeout=300
    )


def strict_graph(text: bytes) -> tuple[int, list[tuple[int, int, int]]]:
    """Nodes and roads of a `.gr` text by the rules of docs/FORMATS.md alone; AssertionError where it breaks one."""
    assert len(text) <= 2**30, "a text has at most 2^30 bytes"
    nodes, announced, roads = None, 0, []
    for line in re.findall(rb"[^\n]*\n|[^\n]+", text):
        assert len(line.removesuffix(b"\n")) <= 65_536, "a line has at most 65,536 bytes"
        line = re.sub(rb"\r?\n\Z", b"", line)
        fields = [field for field in re.split(rb"[ \t]+", line) if field]
        if not fields or fields[0].startswith(b"c"):
            continue
        assert len(fields) == 4 and all(re.fullmatch(rb"[0-9]+", field) for field in fields[2:]), line
        if nodes is None:
            assert fields[:2] == [b"p", b"sp"], line
            nodes, announced = int(fields[2]), int(fields[3])
            assert nodes <= 2_097_152 and announced <= 8_388_608, line
            continue
        assert fields[0] == b"a" and re.fullmatch(rb"[0-9]+", fields[1]), line
        tail, head, weight = (int(field) for field in fields[1:])
        assert 1 <= tail <= nodes and 1 <= head <= nodes and weight <= 4_294_967_295, line
        roads.append((tail, head, weight))
        assert len(roads) <= announced, line
    assert nodes is not None and len(roads) == announced
    return nodes, roads


def strict_places(text: bytes, nodes: int) -> dict[int, tuple[int, int]]:
    """Places by node of a `.co` text by the rules of docs/FORMATS.md alone; AssertionError where it breaks one."""
    places: dict[int, tuple[int, int]] = {}
    begun = False
    for line in text.split(b"\n")[:-1]:
        fields = [field for field in re.split(rb"[ \t]+", line.removesuffix(b"\r")) if field]
        if not fields or fields[0].startswith(b"c"):
            continue
        if not begun:
            assert fields == [b"p", b"aux", b"sp", b"co", b"%d" % nodes], line
            begun = True
            continue
        assert len(fields) == 4 and fields[0] == b"v" and re.fullmatch(rb"[0-9]+", fields[1]), line
        assert all(re.fullmatch(rb"-?[0-9]+", field) for field in fields[2:]), line
        node, place = int(fields[1]), (int(fields[2]), int(fields[3]))
        assert 1 <= node <= nodes and node not in places and max(map(abs, place)) <= 2_147_483_647, line
        places[node] = place
    assert begun and len(places) == nodes
    return places
