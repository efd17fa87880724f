"""Frames over asyncio's streams: `frames.aio`. Tested, not proved.

    reader, writer = await asyncio.open_connection(host, port)
    line = Line(writer)
    await line.send(b"hi")
    async for event in listen(reader, limit=1024):
        ...                             # bytes, Damaged, TooLong, and Cut at the end, if it ends inside a frame
"""
from __future__ import annotations

import asyncio
import io
from typing import AsyncGenerator, Union

from . import _Given, Event, Receiver, Sender, _receiver_of

__all__ = ["Line", "listen"]


def listen(reader: asyncio.StreamReader, limit: Union[int, Receiver], sentinel: int = 0, plain: bool = False) -> AsyncGenerator[Event, None]:
    """The events of a stream, as they come; `Cut` last, if it ends inside a frame.

    Raises what a read raises, after the events of what was read before. A wait that is cancelled, as by `asyncio.wait_for`, ends it. A
    `Receiver` in place of the limit keeps a frame that has begun, for the next call. A file object, whose reads would stop the loop, is a
    `TypeError`: use `frames.listen` in a thread.
    """
    if isinstance(reader, io.IOBase) or hasattr(type(reader), "in_waiting") or not callable(getattr(reader, "read", None)):
        raise TypeError(f"a reader of asyncio is needed, not a {type(reader).__name__}: use frames.listen, in a thread")
    return _listened(reader, _receiver_of(limit, sentinel, plain))


async def _listened(reader: asyncio.StreamReader, receiver: Receiver) -> AsyncGenerator[Event, None]:
    while True:
        piece = await reader.read(65536)
        if not piece:
            break
        for event in receiver.push(piece):
            yield event
    cut = receiver.finish()
    if cut is not None:
        yield cut


class Line:
    """Sends over a stream. Sends of several tasks go out one after another."""

    def __init__(self, writer: asyncio.StreamWriter, sentinel: int = 0, plain: bool = False) -> None:
        if not callable(getattr(writer, "drain", None)):
            raise TypeError(f"a writer of asyncio is needed, not a {type(writer).__name__}: of a file object or a port use frames.Sender().write")
        self._writer, self._sender, self._lock = writer, Sender(sentinel, plain), asyncio.Lock()

    async def send(self, message: _Given) -> None:
        """Sends a message, and waits until the stream takes more.

        After an exception, also if it is cancelled, the next send begins with a sentinel. Send the message again, if it has to arrive. A writer
        that is closed is a `ConnectionResetError`.
        """
        async with self._lock:
            if hasattr(self._writer, "is_closing") and self._writer.is_closing():  # which drops these bytes, and says so only once its own are out
                raise ConnectionResetError("the writer is closed")
            self._writer.write(self._sender.send(message))
            await self._writer.drain()
            self._sender.sent()
