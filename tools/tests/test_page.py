"""The page of a report in headless Chromium."""

from __future__ import annotations

import os
import re
import shutil
import subprocess
import unittest

from tests.support import DATA, FolderTest, needs_leaflet

CHROMIUM = shutil.which("chromium")

PROBE = """<script>
const found = [];
function probe(moment) {
  const slider = document.getElementById("slider");
  slider.value = moment;
  slider.dispatchEvent(new Event("input"));
  const marks = document.querySelectorAll("#map path.leaflet-interactive");
  const shapes = [...marks].map((mark) => mark.getAttribute("d"));
  found.push(document.getElementById("clock").textContent + " " + new Set(shapes).size + " " + shapes.join());
}
for (const moment of [600, 1200, 600]) probe(moment);
const note = document.createElement("pre");
note.id = "found";
note.textContent = found.join("\\n");
document.body.append(note);
</script>"""
"""Moves the slider to and fro, and notes what the clock says and where the markers are."""


@unittest.skipUnless(CHROMIUM, "chromium isn't installed")
@needs_leaflet
class PageTest(FolderTest):
    """The page of the town's day, opened from the disk."""

    def setUp(self) -> None:
        super().setUp()
        words = [os.path.join(DATA, name) for name in ("town", "town.csv", "town.journal")]
        self.ride("report", *words, "-o", "report")

    def browse(self, page: str, *words: str) -> tuple[str, list[str]]:
        """The page's elements once its scripts have run, and what its console says."""
        command = [CHROMIUM, "--headless", "--no-sandbox", "--disable-gpu", "--disable-dev-shm-usage"]
        command += [f"--user-data-dir={self.path('profile')}", "--virtual-time-budget=2000"]
        command += ["--enable-logging=stderr", "--v=0", "--window-size=1400,860", *words, f"file://{self.path(page)}"]
        told = subprocess.run(command, stdin=subprocess.DEVNULL, capture_output=True, text=True, timeout=120)
        self.assertEqual(told.returncode, 0, told.stderr)
        return told.stdout, [line for line in told.stderr.splitlines() if "CONSOLE" in line]

    def test_the_slider_moves_vehicles_and_the_console_is_silent(self) -> None:
        page = self.get("report/map.html").replace("</body>", f"{PROBE}</body>")
        self.put("report/probe.html", page)
        elements, console = self.browse("report/probe.html", "--dump-dom")
        self.assertEqual(console, [])
        found = re.search(r'<pre id="found">(.*?)</pre>', elements, re.DOTALL)
        self.assertIsNotNone(found, elements[-2000:])
        early, late, again = found[1].splitlines()
        self.assertEqual(early.split()[0], "00:10:00")
        self.assertEqual(late.split()[0], "00:20:00")
        self.assertGreaterEqual(int(early.split()[1]), 5)
        self.assertNotEqual(early.split(" ", 2)[2], late.split(" ", 2)[2])
        self.assertEqual(early, again)
        self.assertEqual(elements.count('<svg class="chart"'), 2)

    def test_a_console_that_speaks_is_heard(self) -> None:
        page = self.get("report/map.html").replace("</body>", "<script>nothing.there()</script></body>")
        self.put("report/probe.html", page)
        self.assertIn("nothing is not defined", self.browse("report/probe.html", "--dump-dom")[1][0])

    def test_a_picture_can_be_taken(self) -> None:
        picture = self.path("picture.png")
        _, console = self.browse("report/map.html", f"--screenshot={picture}")
        self.assertEqual(console, [])
        self.assertGreater(os.path.getsize(picture), 20_000)
