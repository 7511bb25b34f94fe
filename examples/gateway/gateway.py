#!/usr/bin/env python3
"""gateway.py PORT QUEUE..: a STOMP server on 127.0.0.1, over a session. docs/STOMP.md has its rules.

PORT 0 is any free one: the first line that it prints tells which.
"""
from __future__ import annotations

import asyncio
import itertools
import sys
from collections.abc import Mapping, Sequence
from dataclasses import dataclass, field

from frames import LONGEST_BODY, VERSIONS, BadFrame, Frame, read_frame
from queues import DEAD, MOST_OUTPUTS, Message, Output, Queues, Refused, opened

# Headers of a SEND that aren't its message's.
OF_FRAME = "destination", "transaction", "receipt", "content-length"
PREFETCH, SECONDS, MOST_UNREAD = 1, 30.0, 1 << 20


@dataclass(eq=False)
class Subscription:
    """A consumer, and what it has in hand: by the token of the message, its element."""

    client: Client
    name: str
    destination: str
    ack: str
    prefetch: int
    seconds: float
    in_hand: dict[str, int] = field(default_factory=dict)


@dataclass
class Transaction:
    """What a client has said since its BEGIN: the message that it takes, and what it sends."""

    taken: str | None = None
    outputs: list[Output] = field(default_factory=list)


class Gateway:
    """What all clients share."""

    def __init__(self, queues: Queues) -> None:
        self.queues = queues
        self.subscriptions: list[Subscription] = []
        self.tokens = itertools.count(1)

    def deliver(self) -> None:
        """Hands out what waits, to who has the least in hand first."""
        for it in sorted(self.subscriptions, key=lambda it: len(it.in_hand)):
            while len(it.in_hand) < it.prefetch:
                if it.client.unread() > MOST_UNREAD:
                    asyncio.get_running_loop().call_later(0.1, self.deliver)
                    break
                found = self.queues.next_of(it.destination)
                if not found:
                    break
                element, look, message = found
                token = str(next(self.tokens))
                attempt = int(look.status.split()[1]) + 1
                told = {"root": str(look.root), "element": str(element), "attempt": str(attempt)}
                if it.ack == "auto":
                    self.queues.finish(element)
                else:
                    self.hold(it, token, element)
                it.client.send_message(it, token, {**message.headers, **told}, message.body)

    def hold(self, it: Subscription, token: str, element: int) -> None:
        it.in_hand[token] = element
        asyncio.get_running_loop().call_later(it.seconds, lambda: self.expire(it, token))

    def expire(self, it: Subscription, token: str) -> None:
        """Takes a message away from who has had it for too long."""
        if token in it.in_hand:
            self.queues.give_back(it.in_hand.pop(token))
            self.deliver()

    def leave(self, it: Subscription) -> None:
        """Has what a consumer has in hand wait again."""
        self.subscriptions.remove(it)
        while it.in_hand:
            self.queues.give_back(it.in_hand.popitem()[1])


class Client:
    """A connection."""

    def __init__(self, gateway: Gateway, reader: asyncio.StreamReader, writer: asyncio.StreamWriter) -> None:
        self.gateway, self.queues = gateway, gateway.queues
        self.reader, self.writer = reader, writer
        self.version = "1.0"
        self.is_connected = False
        self.subscriptions: dict[str, Subscription] = {}
        self.transactions: dict[str, Transaction] = {}
        self.acts = {
            "SEND": self.send, "SUBSCRIBE": self.subscribe, "UNSUBSCRIBE": self.unsubscribe, "ACK": self.ack,
            "NACK": self.nack, "BEGIN": self.begin, "COMMIT": self.commit, "ABORT": self.abort,
        }  # fmt: skip

    # ---- frames

    async def serve(self) -> None:
        frame: Frame | None = Frame("", {})
        try:
            while frame := await read_frame(self.reader, self.version):
                told = self.perform(frame)
                if "receipt" in frame.headers:
                    self.write("RECEIPT", {"receipt-id": frame.headers["receipt"], **told})
                self.gateway.deliver()
                if frame.command == "DISCONNECT":
                    break
                await self.writer.drain()
        except (BadFrame, Refused, ValueError) as why:
            # (also where no line or body ends in what a reader keeps)
            receipt = frame.headers.get("receipt") if frame else None
            self.write("ERROR", {"message": str(why), **({"receipt-id": receipt} if receipt else {})})
        except (asyncio.IncompleteReadError, asyncio.LimitOverrunError, ConnectionError):
            pass
        finally:
            self.leave()

    def leave(self) -> None:
        """What the client had in hand waits again. Its transactions haven't happened."""
        for it in self.subscriptions.values():
            self.gateway.leave(it)
        self.subscriptions.clear()
        self.gateway.deliver()
        self.writer.close()

    def perform(self, frame: Frame) -> Mapping[str, str]:
        """Does what a frame says. Returns what its receipt tells."""
        if frame.command in ("CONNECT", "STOMP"):
            return self.connect(frame)
        if not self.is_connected:
            raise BadFrame("the first frame is CONNECT or STOMP")
        if frame.command == "DISCONNECT":
            return {}
        if frame.command not in self.acts:
            raise BadFrame(f"there is no command {frame.command}")
        return self.acts[frame.command](frame) or {}

    def write(self, command: str, headers: Mapping[str, str], body: bytes = b"") -> None:
        self.writer.write(Frame(command, headers, body).coded(self.version))

    def unread(self) -> int:
        """Returns how many bytes the client hasn't read."""
        return self.writer.transport.get_write_buffer_size()

    def send_message(self, it: Subscription, token: str, headers: Mapping[str, str], body: bytes) -> None:
        of = {"subscription": it.name, "message-id": token, "destination": it.destination}
        ack = {} if it.ack == "auto" else {"ack": token}
        self.write("MESSAGE", {**headers, **of, **ack}, body)

    # ---- commands

    def connect(self, frame: Frame) -> Mapping[str, str]:
        asked = frame.headers.get("accept-version", "1.0").split(",")
        both = [it for it in VERSIONS if it in asked]
        if not both:
            raise BadFrame(f"the versions are {', '.join(VERSIONS)}")
        self.version, self.is_connected = both[-1], True
        told = {"version": self.version, "heart-beat": "0,0", "server": "covetrivet-gateway"}
        self.write("CONNECTED", told)
        return {}

    def subscribe(self, frame: Frame) -> None:
        destination = frame.header("destination")
        name = frame.header("id") if self.version != "1.0" else frame.headers.get("id", destination)
        ack = frame.headers.get("ack", "auto")
        if not self.queues.may_subscribe(destination):
            raise Refused(f"there is no destination {destination}")
        if ack not in ("auto", "client", "client-individual") or name in self.subscriptions:
            raise BadFrame("the header ack has no such value, or the id of the subscription is taken")
        prefetch = int(frame.headers.get("prefetch", PREFETCH))
        seconds = int(frame.headers.get("visibility", SECONDS * 1000)) / 1000
        it = Subscription(self, name, destination, ack, max(prefetch, 1), seconds)
        self.subscriptions[name] = it
        self.gateway.subscriptions.append(it)

    def unsubscribe(self, frame: Frame) -> None:
        name = frame.header("id", "destination")
        if name not in self.subscriptions:
            raise BadFrame(f"there is no subscription {name}")
        self.gateway.leave(self.subscriptions.pop(name))

    def send(self, frame: Frame) -> Mapping[str, str]:
        destination = frame.header("destination")
        kept = {name: value for name, value in frame.headers.items() if name not in OF_FRAME}
        output = Output(destination, Message(kept, frame.body))
        if "transaction" in frame.headers:
            self.add(self.transaction(frame), output)
            return {}
        if destination.startswith("/cancel/"):
            return {"killed": str(self.queues.cancel(int(destination.removeprefix("/cancel/"))))}
        return {"element": str(self.queues.send(output))}

    def add(self, to: Transaction, output: Output) -> None:
        if output.destination.startswith("/cancel/"):
            raise Refused("a cancel is no part of a transaction")
        if len(to.outputs) == MOST_OUTPUTS:
            raise Refused(f"a transaction sends at most {MOST_OUTPUTS} messages")
        to.outputs.append(output)

    # ---- acknowledgements

    def found(self, frame: Frame) -> tuple[Subscription, str]:
        """Returns the subscription that has the message in hand which the frame names, and its token."""
        token = frame.header("id") if self.version == "1.2" else frame.header("message-id")
        for it in self.subscriptions.values():
            if token in it.in_hand:
                return it, token
        raise Refused(f"the message {token} isn't in this client's hand: it was redelivered, or settled")

    def ack(self, frame: Frame) -> None:
        it, token = self.found(frame)
        if "transaction" in frame.headers:
            transaction = self.transaction(frame)
            if transaction.taken or it.ack == "client" and next(iter(it.in_hand)) != token:
                raise Refused("a transaction takes one message: no unit of work takes two elements")
            transaction.taken = token
            return
        # (by `client` all before it too, each by itself)
        tokens = list(it.in_hand)
        for each in tokens[: tokens.index(token) + 1] if it.ack == "client" else [token]:
            self.queues.finish(it.in_hand[each])
            del it.in_hand[each]

    def nack(self, frame: Frame) -> None:
        if "transaction" in frame.headers:
            raise Refused("a NACK is no part of a transaction")
        it, token = self.found(frame)
        if it.destination == DEAD:
            self.queues.requeue(it.in_hand[token])
        else:
            self.queues.give_back(it.in_hand[token])
        del it.in_hand[token]

    # ---- transactions

    def transaction(self, frame: Frame) -> Transaction:
        name = frame.header("transaction")
        if name not in self.transactions:
            raise BadFrame(f"there is no transaction {name}")
        return self.transactions[name]

    def begin(self, frame: Frame) -> None:
        name = frame.header("transaction")
        if name in self.transactions:
            raise BadFrame(f"the transaction {name} has begun already")
        self.transactions[name] = Transaction()

    def abort(self, frame: Frame) -> None:
        """Forgets what was said. The message stays in hand."""
        self.transaction(frame)
        del self.transactions[frame.header("transaction")]

    def commit(self, frame: Frame) -> Mapping[str, str]:
        it = self.transaction(frame)
        del self.transactions[frame.header("transaction")]
        if it.taken is None:
            if len(it.outputs) > 1:
                raise Refused("a transaction without an ACK sends one message: each is a request of its own")
            return {"element": str(self.queues.send(it.outputs[0]))} if it.outputs else {}
        for subscription in self.subscriptions.values():
            if it.taken in subscription.in_hand:
                self.queues.settle(subscription.in_hand[it.taken], it.outputs)
                del subscription.in_hand[it.taken]
                return {}
        raise Refused("the message isn't in this client's hand any more: it was redelivered")


async def listen(port: int, names: Sequence[str]) -> None:
    with opened() as session:
        gateway = Gateway(Queues(session, names))

        async def serve(reader: asyncio.StreamReader, writer: asyncio.StreamWriter) -> None:
            await Client(gateway, reader, writer).serve()

        async with await asyncio.start_server(serve, "127.0.0.1", port, limit=LONGEST_BODY + 1) as server:
            print("listens on", server.sockets[0].getsockname()[1], flush=True)
            await server.serve_forever()


if __name__ == "__main__":
    if len(sys.argv) < 3 or len(sys.argv) > 16:
        sys.exit(__doc__)
    asyncio.run(listen(int(sys.argv[1]), sys.argv[2:]))
