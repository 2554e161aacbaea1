"""Lines, numbers, progress, and files that are there whole or not at all."""

from __future__ import annotations

import contextlib
import io
import os
from unittest import mock

from rides.faults import Fault
from rides.outputs import Outputs
from rides.texts import Progress, lines, number_of, table_rows
from tests.support import FolderTest


class TextTest(FolderTest):
    """Texts read line by line."""

    def test_lines(self) -> None:
        path = self.put("text", "one\r\ntwo \n\nthree\r")
        self.assertEqual(list(lines(path)), [(1, b"one"), (2, b"two "), (3, b""), (4, b"three\r")])
        self.put("text", "x" * 65_536 + "\n" + "y" * 65_536)
        self.assertEqual([len(line) for _, line in lines(path)], [65_536, 65_536])
        for text in ("x" * 65_537 + "\n", "\n" + "x" * 65_537):
            self.put("text", text)
            with self.assertRaisesRegex(Fault, "longer than 65,536 bytes"):
                list(lines(path))

    def test_numbers(self) -> None:
        self.assertEqual([number_of(field, 20) for field in (b"0", b"020", b"20")], [0, 20, 20])
        for field in (b"", b"21", b"-1", b"+1", b"1.0", b" 1", b"\xb2", b"1" * 5000):
            self.assertIsNone(number_of(field, 20), field)

    def test_tables(self) -> None:
        path = self.put("table.csv", '\ufeffName, Riders\n"Ann, Bo" , 2 \n\nCy\n"two\nlines",3\n')
        rows = list(table_rows(path, ["riders"], ["name", "spaces"]))
        self.assertEqual(
            rows,
            [
                (1, 2, {"riders": "2", "name": "Ann, Bo"}),
                (2, 4, {"riders": "", "name": "Cy"}),
                (3, 6, {"riders": "3", "name": "two\nlines"}),
            ],
        )

    def test_a_table_that_cannot_be_parted(self) -> None:
        path = self.put("table.csv", "riders\n" + "\n".join(['"'] + ["x" * 60_000] * 3))
        with self.assertRaisesRegex(Fault, "table.csv: line 5: field larger than field limit"):
            list(table_rows(path, ["riders"], []))

    def test_progress_is_told_once_it_takes_a_second(self) -> None:
        said = io.StringIO()
        with mock.patch("time.monotonic") as now, contextlib.redirect_stderr(said):
            now.return_value = 10.0
            progress = Progress("reading")
            for now.return_value, done in ((10.5, 1), (11.0, 2), (12.9, 3), (13.0, 50)):
                progress.tell(done, 100)
            now.return_value = 20.0
            progress.tell(1234, 0)
        self.assertEqual(said.getvalue(), "reading: 2 %\nreading: 50 %\nreading: 1,234\n")


class OutputTest(FolderTest):
    """Files that get their names once all are written."""

    def test_names_are_given_at_the_end(self) -> None:
        self.put("one", "old")
        with Outputs() as outputs:
            outputs.open(self.path("one")).write("new")
            outputs.folder(self.path("two"))
            outputs.open(self.path("two/three")).write("more")
            self.assertEqual(self.get("one"), "old")
        self.assertEqual((self.get("one"), self.get("two/three")), ("new", "more"))
        self.assertEqual(self.names(), {"one", "two"})

    def test_nothing_is_left_after_an_exception(self) -> None:
        self.put("one", "old")
        with self.assertRaises(KeyboardInterrupt), Outputs() as outputs:
            outputs.folder(self.path("two"))
            outputs.open(self.path("one")).write("new")
            outputs.open(self.path("two/three")).write("more")
            raise KeyboardInterrupt
        self.assertEqual(self.get("one"), "old")
        self.assertEqual(self.names(), {"one"})

    def test_a_full_disk_is_a_fault(self) -> None:
        with self.assertRaisesRegex(Fault, "one: No space left on device"), Outputs() as outputs:
            outputs.open(self.path("one"))
            raise OSError(28, "No space left on device")
        self.assertEqual(self.names(), set())

    def test_a_folder_that_cannot_be_written_to(self) -> None:
        with self.assertRaisesRegex(Fault, "gone/one: No such file or directory"), Outputs() as outputs:
            outputs.open(self.path("gone/one"))
        with self.assertRaisesRegex(Fault, "is a folder"), Outputs() as outputs:
            outputs.open(os.path.dirname(self.path("one")))
