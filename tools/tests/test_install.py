"""The install line, and what it puts where."""

from __future__ import annotations

import os
import re
import subprocess
import unittest

from rides.command import words
from tests.support import TOOLS, FolderTest


def install(prefix: str, program: str) -> subprocess.CompletedProcess[str]:
    """Installs a program and the tool below a folder."""
    return subprocess.run(
        [os.path.join(TOOLS, "install"), prefix],
        env={**os.environ, "VAUGRENIS": program},
        stdin=subprocess.DEVNULL,
        capture_output=True,
        text=True,
    )


class InstallTest(FolderTest):
    """An installation below a folder of the test."""

    def test_the_program_and_the_tool_are_found_with_their_pages(self) -> None:
        program = self.put("built", "#!/bin/sh\necho answered\n")
        told = install(self.path("usr"), program)
        self.assertEqual((told.returncode, told.stdout, told.stderr), (0, "", ""))
        for name in ("vaugrenis.1", "ride.1"):
            self.assertTrue(self.get(f"usr/share/man/man1/{name}").startswith(".TH "))
        shell = {"PATH": f"{self.path('usr/bin')}:/usr/bin:/bin"}
        run = {"cwd": self.folder, "env": shell, "stdin": subprocess.DEVNULL, "capture_output": True, "text": True}
        self.assertEqual(subprocess.run(["/bin/sh", "-c", "vaugrenis"], **run).stdout, "answered\n")
        self.assertIn("map | trips | fleet | report", subprocess.run(["/bin/sh", "-c", "ride --help"], **run).stdout)
        fault = subprocess.run(["/bin/sh", "-c", "ride map gone.osm -o city"], **run)
        self.assertEqual((fault.returncode, fault.stderr), (1, "ride: gone.osm: No such file or directory\n"))

    def test_it_says_where_the_program_is_not_built(self) -> None:
        told = install(self.path("usr"), self.path("none"))
        self.assertEqual(told.returncode, 1)
        self.assertRegex(told.stderr, r"\Ainstall: [^\n]*none: isn't there: [^\n]+\n\Z")
        self.assertNotIn("usr", self.names())


class PagesTest(unittest.TestCase):
    """The man page and the completion know the words of the tool."""

    def test_every_option_is_described_and_completed(self) -> None:
        commands = next(action for action in words()._actions if action.dest == "command").choices
        with open(os.path.join(TOOLS, "man", "ride.1"), encoding="utf-8") as file:
            page = file.read().replace("\\-", "-")
        with open(os.path.join(TOOLS, "completion", "ride.bash"), encoding="utf-8") as file:
            completion = file.read()
        for name, command in commands.items():
            self.assertIn(f".SS {name}\n", page)
            options = {option for action in command._actions for option in action.option_strings} - {"-h"}
            completed = re.search(rf'{name}\) options="(.*)"', completion)[1].split()
            self.assertEqual(set(completed), options)
            for option in options - {"--help"}:
                self.assertIn(option, page)
