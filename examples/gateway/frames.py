"""Frames of STOMP 1.0, 1.1 and 1.2, as bytes and read."""
from __future__ import annotations

import asyncio
import re
from collections.abc import Mapping
from typing import NamedTuple

VERSIONS = "1.0", "1.1", "1.2"
LONGEST_LINE, MOST_HEADERS, LONGEST_BODY = 4096, 64, 1 << 20
# What stands for what in a header, by version. (1.0 has none, and neither have CONNECT and CONNECTED.)
ESCAPES: Mapping[str, Mapping[str, str]] = {
    "1.0": {},
    "1.1": {"\\n": "\n", "\\c": ":", "\\\\": "\\"},
    "1.2": {"\\n": "\n", "\\c": ":", "\\\\": "\\", "\\r": "\r"},
}
PLAIN = "CONNECT", "STOMP", "CONNECTED"


class BadFrame(Exception):
    """What came is no frame, or a client may not send it now. The text says why."""


class Frame(NamedTuple):
    """A frame."""

    command: str
    headers: Mapping[str, str]
    body: bytes = b""

    def header(self, *names: str) -> str:
        """Returns the first of these headers that is there. BadFrame where none is."""
        for it in names:
            if it in self.headers:
                return self.headers[it]
        raise BadFrame(f"{self.command} lacks the header {names[0]}")

    def coded(self, version: str) -> bytes:
        """Returns the bytes of it. A header that the version can't say is left out."""
        escapes = {raw: safe for safe, raw in ESCAPES["1.0" if self.command in PLAIN else version].items()}

        def safe(text: str) -> str:
            return "".join(escapes.get(it, it) for it in text)

        headers = [(safe(name), safe(value)) for name, value in self.headers.items()]
        lines = [f"{name}:{value}" for name, value in headers if ":" not in name and "\n" not in name + value]
        lines = [self.command, *lines, f"content-length:{len(self.body)}"]
        return "\n".join(lines).encode() + b"\n\n" + self.body + b"\0\n"


def raw(text: str, version: str) -> str:
    """Returns what a part of a header says."""

    def found(it: re.Match[str]) -> str:
        if it[0] not in ESCAPES[version]:
            raise BadFrame(f"a header has {it[0]!r}, which stands for nothing")
        return ESCAPES[version][it[0]]

    return re.sub(r"(?s)\\.?", found, text) if ESCAPES[version] else text


async def read_frame(reader: asyncio.StreamReader, version: str) -> Frame | None:
    """Reads the next frame. None where no more comes."""
    line = b""
    while not line.strip(b"\r\n\0"):
        # (line ends between frames are heart-beats)
        line = await read_line(reader)
        if not line:
            return None
    command = line.strip(b"\r\n\0").decode()
    headers: dict[str, str] = {}
    left, of = MOST_HEADERS, "1.0" if command in PLAIN else version
    while line := (await read_line(reader)).rstrip(b"\r\n"):
        name, colon, value = line.decode().partition(":")
        left -= 1
        if not colon or left < 0:
            raise BadFrame("a frame has a header without a colon, or too many")
        headers.setdefault(raw(name, of), raw(value, of))
    return Frame(command, headers, await read_body(reader, headers.get("content-length")))


async def read_line(reader: asyncio.StreamReader) -> bytes:
    line = await reader.readline()
    if len(line) > LONGEST_LINE:
        raise BadFrame(f"a line has more than {LONGEST_LINE} bytes")
    return line


async def read_body(reader: asyncio.StreamReader, length: str | None) -> bytes:
    if length is None:
        return (await reader.readuntil(b"\0"))[:-1]
    if not re.fullmatch(r"\d{1,9}", length) or int(length) > LONGEST_BODY:
        raise BadFrame(f"a body has at most {LONGEST_BODY} bytes")
    body = await reader.readexactly(int(length) + 1)
    if body[-1]:
        raise BadFrame("no byte 0 stands behind the body")
    return body[:-1]
