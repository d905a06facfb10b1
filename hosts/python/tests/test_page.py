"""The page of a guardian's journal: its lines, the names of objects, and that it is written at once."""

from __future__ import annotations

import sys
import tempfile
import threading
import unittest
from pathlib import Path

HERE = Path(__file__).resolve()
sys.path.insert(0, str(HERE.parents[1]))

from argus_guardian import Guardian  # noqa: E402

# Characters that a page can't have as they are.
STRANGE = "</pre><script> &lt; \r \0"
WRITTEN = "&lt;/pre>&lt;script> &amp;lt; &#13; <wbr>"


class Pages(unittest.TestCase):
    def setUp(self) -> None:
        self.folder = tempfile.TemporaryDirectory()
        self.path = Path(self.folder.name) / "run.html"
        self.guardian = Guardian()
        self.queue = self.guardian.declare("atomic_record[name:text]")

    def tearDown(self) -> None:
        self.guardian.close()
        self.folder.cleanup()

    def page(self, **given) -> str:
        """The page that is written, and that alone."""
        self.guardian.show(self.path, **given)
        self.assertEqual([it.name for it in Path(self.folder.name).iterdir()], ["run.html"])
        return self.path.read_bytes().decode()

    def test_it_has_the_journal_as_it_is(self) -> None:
        with self.guardian.topaction() as top:
            top.create(self.queue, (STRANGE,))
        lines = [
            "0 declare atomic_record[name:text] -> o0",
            "1 begin_top -> a0",
            f'2 alter a0 o0 create {{"{WRITTEN}"}} -> done',
            "3 commit a0 -> done",
        ]
        text = "".join(f"{it}\n" for it in lines)
        self.assertIn(f'\n<pre id="listing">\n{text}</pre>\n', self.page())

    def test_it_has_the_names_of_objects(self) -> None:
        self.assertIn('\n<pre id="names" hidden>\nqueue\n</pre>\n', self.page(names=["queue"]))
        self.assertIn('\n<pre id="names" hidden>\n</pre>\n', self.page())

    def test_a_name_is_one_line(self) -> None:
        with self.assertRaisesRegex(ValueError, "a line feed is in a name"):
            self.guardian.show(self.path, ["one\ntwo"])

    def test_it_is_whole(self) -> None:
        page = self.page()
        self.assertTrue(page.startswith("<!DOCTYPE html>\n") and page.endswith("</html>\n"))
        parts = [line for line in page.splitlines() if line.startswith("@") and not line.startswith("@media")]
        self.assertEqual(parts, [])

    def test_a_later_one_takes_its_place(self) -> None:
        self.page()
        self.guardian.declare("atomic_array[int]")
        self.assertIn("\n1 declare atomic_array[int] -> o1\n</pre>", self.page())

    def test_threads_may_write_it_at_once(self) -> None:
        threads = [threading.Thread(target=self.guardian.show, args=(self.path,)) for _ in range(8)]
        for thread in threads:
            thread.start()
        for thread in threads:
            thread.join()
        self.assertTrue(self.page().endswith("</html>\n"))

    def test_nothing_is_left_where_it_cannot_be_written(self) -> None:
        with self.assertRaises(FileNotFoundError):
            self.guardian.show(self.path.parent / "none" / "run.html")
        self.path.mkdir()
        with self.assertRaises(IsADirectoryError):
            self.guardian.show(self.path)
        self.assertEqual([it.name for it in Path(self.folder.name).iterdir()], ["run.html"])


if __name__ == "__main__":
    unittest.main()
