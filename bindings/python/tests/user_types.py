"""Calls that a type checker has to take, also one by which a `bytearray` is no `bytes`. It isn't run: `.ci/bindings` hands it to mypy."""
import asyncio
import io
import pathlib
import socket
from typing import BinaryIO

import frames
from frames import aio, typed


def sends_and_receives(port: BinaryIO, line: socket.socket, changing: bytearray, view: memoryview) -> int:
    sender, receiver = frames.Sender(), frames.Receiver(8)
    sender.send(b"x"), sender.send(changing), sender.send(view)
    receiver.push(b"x"), receiver.push(changing), receiver.push(view)
    frames.unseal(changing), frames.seal(view), frames.encode(changing), frames.decode(view), frames.crc32(changing), frames.encoded_length(view)
    sender.write(port, changing)
    sender.write(line.makefile("wb"), view)
    sender.write(io.BytesIO(), changing)
    length = 0
    for event in frames.listen(port, receiver):
        if isinstance(event, bytes):
            length += len(event)
        else:
            length += event.limit if isinstance(event, frames.TooLong) else event.length
    with typed.TypedReceiver(pathlib.Path("messages.rs"), "Reading") as answers:
        answers.answers(changing), answers.answers(view)
    return length


async def sends(reader: asyncio.StreamReader, writer: asyncio.StreamWriter, changing: bytearray) -> None:
    await aio.Line(writer).send(changing)
    async for event in aio.listen(reader, 8):
        print(event)
