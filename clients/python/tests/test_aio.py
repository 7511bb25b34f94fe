"""A server's session for asyncio."""
from __future__ import annotations

import asyncio
import signal
import unittest
from collections.abc import Callable, Coroutine
from typing import Any

from covetrivet import Counts, Disconnected, Draft, SessionClosed, aio, refusals
from serving import Serving

HEAD = ["worker w 1", "register shop"]


class Async(unittest.TestCase):
    def over(
        self, act: Callable[[aio.Session, Serving], Coroutine[Any, Any, None]], *options: str
    ) -> None:
        async def run(server: Serving) -> None:
            async with aio.connect(server.path) as session:
                await asyncio.wait_for(act(session, server), 30)

        with Serving(HEAD, *options) as server:
            asyncio.run(run(server))

    def test_calls(self) -> None:
        async def act(session: aio.Session, _server: Serving) -> None:
            born = await asyncio.gather(*(session.submit(1, it) for it in range(50)))
            self.assertEqual([it.element for it in born], list(range(50)))
            work = await session.claim("w", wait=5)
            assert work
            self.assertEqual((work.element, work.words), (0, (0, 0, 0, 0)))
            with self.assertRaises(refusals.Busy):
                await session.claim("w")
            self.assertEqual((await session.commit("w", Draft(15, 7), work=work)).element, 0)
            with self.assertRaises(refusals.Other):
                await session.commit("w", work=work)
            self.assertGreater(len((await session.dump()).lines), 50)
            self.assertEqual(await session.count(), Counts(50, 0, 1, 0, 0))

        self.over(act)

    def test_a_call_that_is_cancelled(self) -> None:
        async def act(session: aio.Session, server: Serving) -> None:
            server.signal_session(signal.SIGSTOP)
            left = asyncio.create_task(session.submit(1, 1))
            kept = asyncio.create_task(session.submit(1, 2))
            dumped = asyncio.create_task(session.dump())
            await asyncio.sleep(0.1)
            left.cancel()
            dumped.cancel()
            server.signal_session(signal.SIGCONT)
            self.assertEqual((await session.submit(1, 3)).element, 2)
            self.assertEqual((await kept).element, 1)
            found = [(await session.read(it)).words[0] for it in range(3)]
            self.assertEqual((found, left.cancelled(), dumped.cancelled()), ([1, 2, 3], True, True))
            with self.assertRaises(asyncio.TimeoutError):
                await asyncio.wait_for(session.receive("shop", 1, wait=20), 0.1)
            self.assertEqual((await session.count()).waiting, 3)

        self.over(act)

    def test_a_server_that_ends(self) -> None:
        async def act(session: aio.Session, server: Serving) -> None:
            waiting = asyncio.create_task(session.claim("w", wait=20))
            # (its line goes out first)
            await asyncio.sleep(0)
            await session.count()
            server.signal(signal.SIGTERM)
            for call in waiting, session.count():
                with self.assertRaises(Disconnected):
                    await call
            await session.close()
            with self.assertRaises(SessionClosed):
                await session.count()

        self.over(act)

    def test_no_server(self) -> None:
        async def act(session: aio.Session, server: Serving) -> None:
            with self.assertRaises(Disconnected):
                async with aio.connect("/nowhere/it"):
                    pass
            async with aio.connect(["/nowhere/it", server.path]) as other:
                await other.submit(1, 5)
            with self.assertRaises(SessionClosed):
                async with other:
                    pass
            self.assertEqual((await session.read(0)).words[0], 5)

        self.over(act)


if __name__ == "__main__":
    unittest.main()
