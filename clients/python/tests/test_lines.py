"""Which lines have an answer, whatever bytes they are of."""
from __future__ import annotations

import unittest

from covetrivet.lines import is_asked


class Lines(unittest.TestCase):
    def test_what_has_an_answer(self) -> None:
        for line in b"count", b" count", b"\xff", b"#" * 1024, b"#\t", b" \t", b" " * 1024, b"@a", b"\r":
            self.assertTrue(is_asked(line), line)
        for line in b"", b"#", b"# count", b"#" * 1023, b" ", b" " * 1023, b"#~":
            self.assertFalse(is_asked(line), line)


if __name__ == "__main__":
    unittest.main()
