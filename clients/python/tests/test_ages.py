"""For how long elements have been there, as a server hears."""
from __future__ import annotations

import time
import unittest

from serving import Serving


class ServeAges(unittest.TestCase):
    def test_the_oldest_of_each_stage(self) -> None:
        with Serving(["worker packer 1", "server till eager 3 1 add"]) as server:
            it = server.client()
            begun = time.monotonic()
            it.ask("submit 1 5 6", "submit 2 5 6", "submit 2 7 8", "claim packer")
            time.sleep(2)
            it.ask("submit 2 9 9", "kill 1", "submit 4 1 1")
            names = [f'stage_oldest_seconds{{stage="{stage}"}}' for stage in (1, 2, 3, 4)]
            held, waits, empty, late = map(server.counted, names)
            most = time.monotonic() - begun
            self.assertEqual((held, empty), (0, 0))
            self.assertTrue(2 <= waits <= most, waits)
            self.assertTrue(0 < late <= most - 2, late)


if __name__ == "__main__":
    unittest.main()
