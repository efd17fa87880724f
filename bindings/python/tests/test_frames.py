"""Tests of the package against an encoder of its own, what misuse is refused, its wheels, and typed messages.

usage: test_frames.py [FOLDER]
"""
import array
import asyncio
import collections
import copy
import ctypes.util
import dataclasses
import decimal
import enum
import fcntl
import functools
import gc
import http.client
import io
import os
import pathlib
import pickle
import platform
import random
import select
import shutil
import signal
import socket
import struct
import subprocess
import sys
import termios
import threading
import time
import tty
import types
import typing
import warnings
import zipfile

import frames
from frames import aio, typed


def frame_of(message):
    """The shortest frame, by the rule: a code, then the bytes up to a zero, 254 at most."""
    out, run = bytearray(), bytearray()
    closed = False
    for at, byte in enumerate(message + b"\0"):
        if byte:
            run.append(byte)
            if len(run) == 254:
                out += b"\xff" + run
                run, closed = bytearray(), at + 1 == len(message)
        else:
            if not closed:
                out += bytes([len(run) + 1]) + run
            run, closed = bytearray(), False
    return bytes(out)


def count_of(n):
    """A length as postcard spells it."""
    out = bytearray()
    while n >= 128:
        out.append(n % 128 + 128)
        n //= 128
    return bytes(out + bytes([n]))


def some_message(rng):
    size = rng.choice([0, 1, 2, 5, 20, 126, 127, 128, 253, 254, 255, 300, 508, 1000])
    return bytes(rng.choice([0, 1, rng.randrange(256)]) if rng.random() < 0.3 else rng.randrange(1, 256) for _ in range(size))


def test_codec(rng):
    for _ in range(300):
        message, sentinel = some_message(rng), rng.choice([0, 0, 10, 255])
        frame = frame_of(message)
        assert frames.encode(message, sentinel) == bytes(b ^ sentinel for b in frame)
        assert frames.encoded_length(message) == len(frame)
        assert frames.decode(frames.encode(message, sentinel), sentinel) == message
        assert frames.unseal(frames.seal(message)) == message
    assert frames.crc32(b"123456789") == 0xCBF43926
    for call in (lambda: frames.decode(b"\x05ab"), lambda: frames.unseal(b"hi____")):
        try:
            call()
        except frames.Invalid:
            continue
        raise AssertionError("not refused")


def refuses(kind, call, *arguments):
    """Whether a call raises an error of this kind."""
    try:
        call(*arguments)
    except kind:
        return True
    return False


def told_of(kind, call, *arguments):
    """What a call tells that raises an error of this kind."""
    try:
        call(*arguments)
    except kind as error:
        return str(error)
    raise AssertionError(f"not refused: {arguments}")


def test_misuse():
    """No number, text or list is taken for bytes, and no limit for the length of a buffer that isn't there."""
    assert all(refuses(ValueError, frames.Receiver, limit) for limit in (0, -1, -(1 << 40)))
    assert all(refuses(TypeError, frames.Receiver, limit) for limit in (1.5, "8", None, b"8", True, float("nan")))
    assert all(refuses((MemoryError, OverflowError), frames.Receiver, 1 << bits) for bits in (62, 63, 64, 80))
    assert all("a limit is a number of bytes" in told_of(OverflowError, frames.Receiver, 1 << bits) for bits in (63, 64, 80))
    assert all(refuses(ValueError, frames.encode, b"hi", sentinel) for sentinel in (-1, 256))
    assert all(refuses(TypeError, frames.encode, b"hi", sentinel) for sentinel in (1.0, "a", None, True))
    assert refuses(TypeError, frames.Sender, True) and refuses(TypeError, frames.Receiver, 8, True)
    for plain in ("no", "false", "", 10, 1, 0, None):  # whose messages would lose what counted ones have, or who meant a sentinel
        for call in (lambda: frames.Sender(0, plain), lambda: frames.Receiver(8, 0, plain), lambda: frames.listen(io.BytesIO(), 8, plain=plain)):
            assert "plain is True or False" in told_of(TypeError, call), plain
        assert "ends is True or False" in told_of(TypeError, lambda: frames.listen(io.BytesIO(), 8, ends=plain)), plain
    sender, receiver = frames.Sender(), frames.Receiver(8)
    for call in (sender.send, receiver.push, frames.encode, frames.encoded_length, frames.decode, frames.seal, frames.unseal, frames.crc32):
        assert all(refuses(TypeError, call, message) for message in (3, True, "hi", None, [1, 2], 1.5)), call
    assert receiver.begun == 0 and receiver.push(b"\0\x04\x02hi\0") == [b"hi"]
    for message in (bytearray(b"hi"), memoryview(b"hi"), memoryview(b"h_i_")[::2], array.array("B", b"hi")):
        assert frames.encode(message) == b"\x03hi", message
    # one frame: neither none, nor what a sender writes in front of it, nor what comes after it
    assert frames.decode(b"\x03hi") == frames.decode(b"\x03hi\0") == frames.decode(b"\x09bc\x0a", 10) == b"hi"
    for frame in (b"", b"\0", b"\0\0", b"\0\x03hi", sender.send(b"hi"), b"\x03hi\0\0", b"\x03hi\0x"):
        assert refuses(frames.Invalid, frames.decode, frame), frame
    assert refuses(frames.Invalid, frames.decode, b"\x0a", 10)


def test_write():
    """A line that takes nothing, or says so by -1, is an error, and the next send begins with a sentinel."""

    class Line:
        def __init__(self, *counts):
            self.counts, self.out = list(counts), b""

        def write(self, out):
            count = self.counts.pop(0)
            self.out += out[: max(count or 0, 0)]
            return count

        def flush(self):
            pass

    for count in (0, None, -1):
        sender, line = frames.Sender(), Line(3, count, 6)
        assert refuses(OSError, sender.write, line, b"hi") and line.counts == [6], count
        sender.write(line, b"yo")
        assert line.out == b"\0\x04\x02" + b"\0\x04\x02yo\0"

    for count in (True, 99):  # of a line that returns no count: what it took isn't sent again
        sender, line = frames.Sender(), Line(count)
        assert refuses(TypeError, sender.write, line, b"hi") and sender.send(b"yo")[:1] == b"\0", count

    class Loop(io.BytesIO):
        def write(self, out):
            sender.write(io.BytesIO(), b"inside")
            return super().write(out)

    assert in_time(lambda: refuses(RuntimeError, sender.write, Loop(), b"hi")), "a write inside a write waits for itself"
    sender.write(io.BytesIO(), b"hi")

    class Sends(io.BytesIO):  # and then fails: what it sent isn't what the write sends
        def write(self, out):
            assert refuses(RuntimeError, sender.send, b"inside") and refuses(RuntimeError, sender.sent)
            raise OSError("the line failed")

    assert refuses(OSError, sender.write, Sends(), b"hi") and sender.send(b"hi") == b"\0\4\2hi\0"

    class Sealing(frames.Sender):
        def send(self, message):
            return super().send(frames.seal(message))

    line, sealing = io.BytesIO(), Sealing()
    sealing.write(line, b"hi"), sealing.write(line, b"yo")
    assert [frames.unseal(it) for it in frames.Receiver(16).push(line.getvalue())] == [b"hi", b"yo"]
    for one in (frames.Sender(), sealing, frames.Receiver(8)):
        assert all(refuses(TypeError, call, one) for call in (copy.copy, copy.deepcopy, pickle.dumps)), one


def in_time(call):
    """What a call in a thread returns, within a minute: so long may a busy machine take."""
    told = []
    thread = threading.Thread(target=lambda: told.append(call()), daemon=True)
    thread.start(), thread.join(timeout=60)
    assert told, "a call raised, or hasn't returned in a minute"
    return told[0]


def until(is_so, what):
    """Waits until something is so, at most a minute."""
    end = time.monotonic() + 60
    while not is_so():
        assert time.monotonic() < end, f"waited a minute for: {what}"
        time.sleep(0.01)


def in_child(call):
    """Calls in the child of a fork: whether it returned what is true, within a minute."""
    with warnings.catch_warnings():
        warnings.simplefilter("ignore")  # of Python 3.12 and later, that other threads may hold locks
        child = os.fork()
    if child == 0:
        signal.alarm(60)
        try:
            os._exit(0 if call() else 1)
        finally:  # what it raised is told by nobody else
            sys.excepthook(*sys.exc_info()) if sys.exc_info()[0] else None
            os._exit(2)
    return os.waitstatus_to_exitcode(os.waitpid(child, 0)[1]) if hasattr(os, "waitstatus_to_exitcode") else os.waitpid(child, 0)[1]


def test_fork(folder):
    """In the child of a fork, what another thread was inside of is interrupted, and no lock is held; a fork inside a write goes on."""
    entered, leaves = threading.Event(), threading.Event()

    def waits(*given):
        entered.set()
        return leaves.wait(60) and len(given[0])

    def while_inside(call, *calls):
        """What a child says, that begins while a thread is inside the first call."""
        entered.clear(), leaves.clear()
        thread = threading.Thread(target=call)
        thread.start()
        assert entered.wait(60)
        try:
            return [in_child(it) for it in calls]
        finally:
            leaves.set(), thread.join()

    def written():
        line = io.BytesIO()
        sender.write(line, b"yo")
        return line.getvalue() == b"\0\4\2yo\0"

    sender = frames.Sender()
    sender.write(io.BytesIO(), b"hi")
    held = types.SimpleNamespace(write=waits, flush=lambda: None)
    assert while_inside(lambda: sender.write(held, b"hi"), written, lambda: sender.send(b"yo")[:1] == b"\0", lambda: sender.sent() is None) == [0, 0, 0]
    assert sender.send(b"hi") == b"\4\2hi\0"  # and here nothing happened to it
    sender.sent()

    class Forks(io.BytesIO):
        def write(self, out):
            self.child = in_child(lambda: refuses(RuntimeError, sender.send, b"inside"))
            return super().write(out)

    line = Forks()
    sender.write(line, b"hi")
    assert line.child == 0 and line.getvalue() == b"\4\2hi\0"
    receiver, damaged = frames.Receiver(8), frames.Damaged
    try:
        frames.Damaged = lambda length: waits(b"x")
        thread = (lambda: receiver.push(b"\5a\0\4\2h"))
        skips = lambda: receiver.begun == 0 and receiver.push(b"i\0\4\2yo\0")[-1:] == [b"yo"] and receiver.finish() is None  # noqa: E731
        assert while_inside(thread, skips) == [0]
    finally:
        frames.Damaged = damaged
    assert receiver.push(b"i\0") == [b"hi"]
    if folder:
        path, answer = os.path.join(folder, "fork.rs"), typed._answer
        pathlib.Path(path).touch()
        stream = typed.TypedReceiver(path, "u8")
        try:
            typed._answer = lambda line: answer(line) if entered.is_set() else (waits(b"x"), answer(line))[1]
            assert while_inside(lambda: stream.answers(b"\2\7\0"), lambda: stream.answers(b"\2\x08\0") == [{"value": 8}]) == [0]
        finally:
            typed._answer = answer
        assert stream.answers(b"\2\x09\0") == [{"value": 9}]


def test_inside(folder):
    """A call inside a push, as a signal handler makes it between two events, is refused, and doesn't wait for itself."""
    receiver, damaged = frames.Receiver(8), frames.Damaged
    try:
        frames.Damaged = lambda length: (refuses(RuntimeError, receiver.push, b"x"), refuses(RuntimeError, receiver.finish), receiver.begun)
        assert in_time(lambda: receiver.push(b"\x05a\0\4\2hi\0")) == [(True, True, 0), b"hi"]
    finally:
        frames.Damaged = damaged
    if folder:
        path, loads = os.path.join(folder, "inside.rs"), typed._answer
        pathlib.Path(path).touch()
        receiver = typed.TypedReceiver(path, "u8")
        try:
            typed._answer = lambda line: {"refused": {"it": refuses(RuntimeError, receiver.answers, b"")}}
            assert in_time(lambda: receiver.answers(b"\2\7\0")) == [{"refused": {"it": 1}}]
        finally:
            typed._answer = loads


def test_raised(folder):
    """After what a push raises, the end of a frame isn't a message that nobody sent; typed messages are read again."""

    def fails(*_):
        raise MemoryError

    line, damaged = frames.Sender().send(b"\x09\x09\x03\x01X"), frames.Damaged
    receiver = frames.Receiver(32)
    try:
        frames.Damaged = fails
        assert refuses(MemoryError, receiver.push, b"\x05a\0" + line[:5])
    finally:
        frames.Damaged = damaged
    assert receiver.push(line[5:] + b"\4\2hi\0") == [b"hi"]
    # nor is the front of a frame one with what comes after bytes that there was no memory to take
    huge = (ctypes.c_uint8 * (1 << 60)).from_address(ctypes.addressof(ctypes.c_uint8()))
    assert receiver.push(frames.Sender().send(b"abcdefgh")[:6]) == [] and refuses(MemoryError, receiver.push, huge)
    assert receiver.push(b"XYZWV\0\4\2hi\0") == [b"hi"]
    # nor where a signal handler raises before the bytes are taken
    assert receiver.push(frames.Sender().send(b"abcdefgh")[:6]) == []
    receiver._refuse_inside = lambda: signal.default_int_handler(signal.SIGINT, None)
    assert refuses(KeyboardInterrupt, receiver.push, b"??")
    del receiver._refuse_inside
    assert receiver.push(b"XYZWV\0\4\2hi\0") == [b"hi"]
    assert receiver.push(b"\4\2h") == [] and refuses(TypeError, receiver.push, "i\0") and receiver.push(b"i\0") == [b"hi"]  # no bytes: nothing changes
    if folder:
        path, loads = os.path.join(folder, "raised.rs"), typed._answer
        pathlib.Path(path).touch()
        stream, receiver = typed.write(path, "[u8; 3]", [[9, 2, 7], [1, 2, 3]]), typed.TypedReceiver(path, "[u8; 3]")
        heard = []
        try:
            typed._answer = fails
            assert refuses(MemoryError, list, receiver.listen(io.BytesIO(stream[:8])))
        finally:
            typed._answer = loads
        heard = list(receiver.listen(io.BytesIO(stream[8:])))
        assert heard == [{"value": [9, 2, 7]}, {"value": [1, 2, 3]}], heard
        # nor is a value made of what comes before and after bytes that there was no memory to take
        pieces = [stream[:3], huge]
        source = types.SimpleNamespace(read=lambda size: pieces.pop(0))
        assert refuses(MemoryError, list, receiver.listen(source))
        assert [it for it in receiver.listen(io.BytesIO(b"\5\6\0" + stream[1:])) if "value" in it] == heard
        # nor is a stream that was answered, or wasn't, in front of the next one
        try:
            typed._answer = fails
            assert refuses(MemoryError, receiver.answers, stream)
        finally:
            typed._answer = loads
        assert receiver.answers(b"\1" * 70000) == [{"too_long": {"from": 0, "to": 70000}}]
        assert receiver.answers(stream[1:]) == heard
        left = receiver.listen(io.BytesIO(stream[1:-1]))  # nor is one that was left inside a frame
        assert next(left) == heard[0] and left.close() is None
        assert receiver.answers(b"\7\0") == [{"damaged": {"from": 0, "to": 1}}]


def stopped(call, line):
    """Whether a call was stopped by an exception in its so many-th line, as a signal handler may raise it."""
    package, left = os.path.dirname(frames.__file__), [line]

    def traced(frame, event, _):
        if os.path.dirname(frame.f_code.co_filename) != package:
            return None
        left[0] -= event == "line"
        if left[0] < 0:
            raise KeyboardInterrupt
        return traced

    sys.settrace(traced)
    try:
        call()
    except KeyboardInterrupt:
        return True
    finally:
        sys.settrace(None)
    return False


def test_stopped(folder):
    """What is stopped at any of its lines isn't inside of a call for ever."""
    path = os.path.join(folder, "stopped.rs") if folder else None
    if folder:
        pathlib.Path(path).touch()
    for line in range(1000):
        receiver, sender, out = frames.Receiver(64), frames.Sender(), io.BytesIO()
        calls = [lambda: receiver.push(b"\0\4\2hi\0\5a\0"), lambda: sender.write(out, b"one")]
        if folder:
            of_type = typed.TypedReceiver(path, "[u8; 1]")
            calls.append(lambda: of_type.answers(b"\0\2\7\0\2"))
        if not any([stopped(call, line) for call in calls]):
            break
        assert receiver.push(b"\0\4\2hi\0")[-1] == b"hi", line
        sender.write(out, b"two")
        assert list(frames.listen(io.BytesIO(out.getvalue()), 64))[-1] == b"two", line
        if folder:
            assert of_type.answers(b"\0\2\7\0") == [{"value": [7]}], line
    assert 20 < line < 999, line


def test_lengths():
    """No type is made for each length: it would cost more than the message, and stay."""
    sender, receiver = frames.Sender(), frames.Receiver(1 << 12)
    sender.send(b"x"), receiver.push(b"x\0"), frames.encode(b"x")
    gc.collect()
    gc.disable()
    before = len(ctypes.Array.__subclasses__())
    for length in range(2000, 2200):
        receiver.push(sender.send(bytes(length))), frames.decode(frames.encode(bytes(length)))
    assert len(ctypes.Array.__subclasses__()) == before
    gc.enable()
    assert len(frames._Room(9).front((1 << 32) + 5)) == 9  # no length is taken modulo 2^32, as of a frame of 4 GB


def test_threads():
    """A receiver that several threads push to tells whole messages alone, and a sender that they write by sends whole frames."""
    receiver, sender, told = frames.Receiver(64), frames.Sender(), []
    line = b"".join(sender.send(bytes([k % 250 + 1]) * 20) for k in range(500))

    def push():
        for _ in range(10):
            told.extend(receiver.push(line))

    class Slow(io.BytesIO):
        def write(self, out):
            time.sleep(0)
            return super().write(out[:3])

    out = Slow()

    def write():
        for k in range(50):
            sender.write(out, bytes([k + 1]) * 10)

    before = sys.getswitchinterval()
    sys.setswitchinterval(1e-6)
    for work in (push, write):
        threads = [threading.Thread(target=work) for _ in range(4)]
        [it.start() for it in threads], [it.join() for it in threads]
    sys.setswitchinterval(before)
    assert len(told) == 4 * 10 * 500 and all(isinstance(it, bytes) and it == it[:1] * 20 for it in told)
    assert sorted(frames.Receiver(64).push(out.getvalue())) == sorted(bytes([k + 1]) * 10 for k in range(50) for _ in range(4))


def test_waits():
    """A source that never waits costs no processor while nothing comes, and one that has nothing yet hasn't ended."""
    here, there = os.openpty()
    tty.setraw(here), tty.setraw(there)
    host, reads = Port(here, 0), []
    host.read = lambda size=1, read=host.read: (reads.append(size), read(size))[1]
    heard = frames.listen(host, limit=64, ends=False)
    late = threading.Timer(0.3, lambda: os.write(there, b"\0\x04\x02hi\0"))
    late.start()
    assert next(heard) == b"hi" and len(reads) < 50, len(reads)
    late.join(), os.close(here), os.close(there)
    for is_raw in (False, True):
        taken, given = os.pipe()
        os.set_blocking(taken, False)
        source = os.fdopen(taken, "rb", buffering=0 if is_raw else -1)
        late = threading.Timer(0.2, lambda: (os.write(given, b"\0\x04\x02hi\0\x07"), os.close(given)))
        late.start()
        assert list(frames.listen(source, limit=64)) == [b"hi", frames.Cut(1)], is_raw
        late.join(), source.close()
    for is_own in (False, True):  # of the system's socket, and of a device of one's own
        here, there = socket.socketpair()
        here.setblocking(False)
        late = threading.Timer(0.2, lambda: (there.sendall(b"\0\x04\x02hi\0\x07"), there.close()))
        late.start()
        with here, io.BufferedReader(Late(here)) if is_own else here.makefile("rb") as source:
            assert in_time(lambda: list(frames.listen(source, limit=64))) == [b"hi", frames.Cut(1)], is_own
        late.join()


class Late(io.RawIOBase):
    """A device that doesn't block, over a socket."""

    def __init__(self, socket):
        self.socket = socket

    def readable(self):
        return True

    def fileno(self):
        return self.socket.fileno()

    def readinto(self, room):
        try:
            return self.socket.recv_into(room)
        except BlockingIOError:
            return None


class Shut(socket.socket):
    """A socket that reads nothing once a stream has ended, though it stays open, as that of TLS does."""

    def recv_into(self, *given):
        return super().recv_into(*given) if select.select([self], [], [], 0)[0] else 0


def test_time_limit():
    """What has a time limit ends where a read gives nothing, though its socket doesn't block and stays open behind that."""
    stream = b"\0\x04\x02hi\0\x07"
    for limit in (None, 60):
        here, there = socket.socketpair()
        here.settimeout(limit)
        there.sendall(b"HTTP/1.1 200 OK\r\nContent-Length: %d\r\n\r\n" % len(stream) + stream)
        with here, there, http.client.HTTPResponse(here) as response:
            response.begin()
            assert in_time(lambda: list(frames.listen(response, limit=64))) == [b"hi", frames.Cut(1)], limit
        here, there = socket.socketpair()
        with Shut(fileno=here.detach()) as shut, there:
            shut.settimeout(limit)
            there.sendall(stream)
            assert in_time(lambda: list(frames.listen(shut.makefile("rb"), limit=64))) == [b"hi", frames.Cut(1)], limit


def test_aio():
    async def session():
        heard, done = [], asyncio.Event()

        async def serve(reader, writer):
            async for event in aio.listen(reader, 64):
                heard.append(event)
            writer.close()
            done.set()

        server = await asyncio.start_server(serve, "127.0.0.1", 0)
        _, writer = await asyncio.open_connection(*server.sockets[0].getsockname())
        line = aio.Line(writer)
        await asyncio.gather(*(line.send(bytes([k]) * k) for k in range(20)))
        writer.write(b"\x07ab\0" + b"\x05c")
        await writer.drain()
        writer.close()
        await done.wait()
        server.close()
        return heard

    async def cancelled(limit):  # while it waits inside of a frame; and what is heard of the rest
        line, reader = frames.Sender().send(b"\x09\x09\x03\x01X"), asyncio.StreamReader()
        reader.feed_data(line[:5])
        assert await asyncio.wait_for(refuses_to_wait(aio.listen(reader, limit)), 60)
        reader.feed_data(line[5:]), reader.feed_eof()
        return [event async for event in aio.listen(reader, limit)]

    async def misused():  # before a byte is taken
        for source in (io.BytesIO(b"ab"), Port(0, 0), b"ab"):
            assert "frames.listen" in told_of(TypeError, aio.listen, source, 8), source
        assert "frames.aio.listen" in told_of(TypeError, frames.listen, asyncio.StreamReader(), 8)
        assert refuses(ValueError, aio.listen, asyncio.StreamReader(), 0)
        assert "Sender().write" in told_of(TypeError, aio.Line, io.BytesIO())

    async def is_told_closed():  # while it still writes what came before
        here, there = socket.socketpair()
        with there:
            for it, size in ((here, socket.SO_SNDBUF), (there, socket.SO_RCVBUF)):
                it.setsockopt(socket.SOL_SOCKET, size, 4096)
            _, writer = await asyncio.open_connection(sock=here)
            line = aio.Line(writer)
            writer.write(bytes(30000))  # of which the socket takes a part
            writer.close()
            try:
                await line.send(b"this is dropped")
            except ConnectionResetError:
                return True
            finally:
                writer.transport.abort()

    async def refuses_to_wait(heard):
        try:
            await asyncio.wait_for(heard.__anext__(), 0.05)
        except asyncio.TimeoutError:
            return True

    asyncio.run(misused())
    assert asyncio.run(is_told_closed())
    assert asyncio.run(cancelled(frames.Receiver(16))) == [b"\x09\x09\x03\x01X"]
    heard = asyncio.run(session())
    assert heard[:20] == [bytes([k]) * k for k in range(20)] and heard[20:] == [frames.Damaged(3), frames.Cut(2)], heard[18:]


def test_line(rng):
    for round_number in range(100):
        plain, sentinel = round_number % 2 == 0, rng.choice([0, 10])
        sender, stream, heard = frames.Sender(sentinel, plain), bytearray(), []
        clean = False
        for _ in range(rng.randrange(8)):
            message = some_message(rng)
            out = sender.send(message)
            spelled = message if plain else count_of(len(message)) + message
            whole = bytes(b ^ sentinel for b in frame_of(spelled)) + bytes([sentinel])
            assert out == (b"" if clean else bytes([sentinel])) + whole
            clean = rng.random() < 0.7
            if clean:
                sender.sent()
                stream += out
                heard.append(message)
            elif not plain:  # it broke off
                stream += out[: rng.randrange(len(out) - 1)]
        receiver, events = frames.Receiver(1100, sentinel, plain), []
        while stream:
            n = rng.randrange(1, 40)
            events += receiver.push(stream[:n])
            del stream[:n]
        messages = [event for event in events if isinstance(event, bytes)]
        assert messages == heard, (messages, heard)


def test_listen():
    stream = b"\0\x04\x02hi\0\x05abc\0" + b"\x04\x02yo"
    assert list(frames.listen(io.BytesIO(stream), limit=8)) == [b"hi", frames.Damaged(4), frames.Cut(4)]
    assert list(frames.listen(io.BytesIO(b"\x0aabcdefghi\0"), limit=8)) == [frames.TooLong(8)]
    # a receiver of one's own keeps what has begun
    receiver = frames.Receiver(8)
    assert refuses(EOFError, list, frames.listen(Failing(stream[:3]), receiver)) and next(frames.listen(io.BytesIO(stream[3:]), receiver)) == b"hi"
    assert all(refuses(TypeError, frames.listen, io.BytesIO(stream), receiver, *more) for more in ((10,), (0, True)))
    # plain bytes: a send that broke off is heard as a front of it
    assert list(frames.listen(io.BytesIO(b"\0\x04pay\0"), limit=8, plain=True)) == [b"pay"]
    # what gives no bytes is refused before it is read, with what to write; so is a wrong limit
    one, other = socket.socketpair()
    for source, told in (("line.bin", "open(.., 'rb')"), (b"ab", "io.BytesIO"), (one, "makefile('rb')"), (io.StringIO("ab"), "'rb'"), (None, "read")):
        assert told in told_of(TypeError, frames.listen, source, 8), source
    for line, told in ((one, "makefile('wb')"), (None, "flush"), (types.SimpleNamespace(write=len, flush=len, drain=len), "frames.aio.Line")):
        assert told in told_of(TypeError, frames.Sender().write, line, b"hi"), line
    assert refuses(ValueError, frames.listen, io.BytesIO(stream), 0)
    one.close(), other.close()


class Port:
    """A serial port as pyserial's `Serial` behaves with a timeout, over a terminal."""

    def __init__(self, descriptor, timeout):
        self.descriptor, self.timeout = descriptor, timeout

    @property
    def in_waiting(self):
        return struct.unpack("I", fcntl.ioctl(self.descriptor, termios.FIONREAD, b"\0" * 4))[0]

    def read(self, size=1):
        out = b""
        while len(out) < size and select.select([self.descriptor], [], [], self.timeout)[0]:
            out += os.read(self.descriptor, size - len(out))
        return out

    def write(self, out):
        return os.write(self.descriptor, out)

    def flush(self):
        termios.tcdrain(self.descriptor)


def test_port():
    line = typing.get_type_hints(frames.Sender.write)["line"]  # the types want no more of a line than a port has
    assert {name for name in dir(line) if not name.startswith("_")} <= set(dir(Port)), dir(line)
    here, there = os.openpty()
    tty.setraw(here), tty.setraw(there)
    device, host, sender = Port(there, 0.01), Port(here, 0.01), frames.Sender()
    heard = frames.listen(host, limit=64, ends=False)
    for message in (b"first", b"", bytes(range(32))):
        sender.write(device, message)
        assert next(heard) == message
    device.write(sender.send(b"breaks off")[:6])
    sender.write(device, b"behind it")
    assert [next(heard), next(heard)] == [frames.Damaged(6), b"behind it"]
    device.write(sender.send(b"at the end")[:4])
    until(lambda: host.in_waiting == 4, "four bytes at the other end")  # the system passes them on later, on a busy machine after the read's time
    assert list(frames.listen(host, limit=64)) == [frames.Cut(4)]
    os.close(here), os.close(there)


def built(hook, folder, *settings, **variables):
    """The wheel that a hook of build_frames makes, in a folder of its own, with these variables."""
    here = os.path.dirname(os.path.dirname(os.path.abspath(__file__)))
    os.makedirs(folder, exist_ok=True)
    code = f"import sys; sys.path.insert(0, sys.argv[1]); import build_frames; print(build_frames.{hook}(sys.argv[2], dict({', '.join(settings)})))"
    done = subprocess.run([sys.executable, "-B", "-c", code, here, folder], check=True, capture_output=True, text=True, env={**os.environ, **variables})
    return os.path.join(folder, done.stdout.strip())


def runs(code, site, **variables):
    """What a program prints that sees the package of this folder alone, with no variable that names a library or a program."""
    environment = {name: value for name, value in os.environ.items() if name not in ("FRAMES_LIBRARY", "PYTHONPATH", "WIRE")}
    done = subprocess.run([sys.executable, "-B", "-c", code], check=True, capture_output=True, text=True, cwd=site, env={**environment, **variables})
    return done.stdout


def test_wheel(folder):
    program = os.path.join(folder, "a_program")
    with open(program, "wb") as file:
        file.write(b"#!/bin/sh\necho wire \"$@\" >&2\nexit 2\n")
    wheels = [built("build_wheel", os.path.join(folder, name), WIRE=program) for name in ("first", "second")]
    contents = [pathlib.Path(wheel).read_bytes() for wheel in wheels]
    assert contents[0] == contents[1], "two wheels of the same files differ"
    assert "-py3-none-manylinux_2_17_" in wheels[0], wheels[0]
    bare = built("build_wheel", os.path.join(folder, "bare"), "wire='no'")
    assert not {"frames/wire", "frames/libwire.so"} & set(zipfile.ZipFile(bare).namelist())
    # for a processor without a stored program, and for a glibc before that of the program: the library of typed messages
    environment = {name: value for name, value in os.environ.items() if name not in ("FRAMES_LIBRARY", "WIRE", "WIRE_LIBRARY")}
    package = os.path.dirname(os.path.dirname(os.path.abspath(frames.__file__)))
    for system, tag in (("platform.machine = lambda: 'aarch64'", "manylinux_2_17_aarch64.whl"), ("platform.libc_ver = lambda: ('glibc', '2.31')", f"manylinux_2_17_{platform.machine()}.whl")):
        code = f"import platform, sys; {system}; sys.path.insert(0, sys.argv[1]); import build_frames; print(build_frames.build_wheel(sys.argv[2]))"
        other = subprocess.run([sys.executable, "-B", "-c", code, package, folder], check=True, capture_output=True, text=True, env=environment).stdout.strip()
        names = zipfile.ZipFile(os.path.join(folder, other)).namelist()
        assert "frames/libwire.so" in names and "frames/wire" not in names and other.endswith(tag), (other, names)
    # what its tag wouldn't say is refused: a library or a program of another machine, and what is no library; and so is a word for no
    library, others = pathlib.Path(str(frames.library()._name)), {name: os.path.join(folder, name) for name in ("other.so", "text.so", "other")}
    foreign = bytearray(library.read_bytes())
    foreign[18:20] = struct.pack("<H", {62: 183, 183: 62}[struct.unpack_from("<H", foreign, 18)[0]])
    for name, content in (("other.so", foreign), ("text.so", b"text"), ("other", foreign)):
        pathlib.Path(others[name]).write_bytes(content)
    for told, settings, named in (
        ("other.so is no library for ", None, {"FRAMES_LIBRARY": others["other.so"]}),
        ("text.so is no library for ", None, {"FRAMES_LIBRARY": others["text.so"]}),
        ("other is no program for ", None, {"WIRE": others["other"]}),
        ("wire is yes or no, not 'No'", "wire='No'", {}),
    ):
        try:
            built("build_wheel", os.path.join(folder, "refused"), *([settings] if settings else []), **named)
        except subprocess.CalledProcessError as error:
            assert told in error.stderr and not os.listdir(os.path.join(folder, "refused")), error.stderr
        else:
            raise AssertionError(f"not refused: {told}")
    site = os.path.join(folder, "site")
    with zipfile.ZipFile(wheels[0]) as archive:
        archive.extractall(site)
        assert archive.getinfo("frames/wire").external_attr >> 16 & 0o111
    os.chmod(os.path.join(site, "frames", "wire"), 0o755)  # as pip does for what the wheel says may be run
    assert runs("import frames; print(frames.encode(b'hi').hex())", site) == "036869\n"
    typed_call = "from frames import typed\ntry: typed.write('a.rs', 'T', [])\nexcept OSError as error: print(error)"
    assert runs(typed_call, site) == "wire write a.rs T sentinel=00\n"
    # without it: by either name on the PATH, and else it is said how to get it
    os.remove(os.path.join(site, "frames", "wire"))
    for name in ("framed-json", "wire"):
        named = os.path.join(folder, "of-" + name)
        os.makedirs(named, exist_ok=True)
        os.link(program, os.path.join(named, name)), os.chmod(program, 0o755)
        assert runs(typed_call, site, PATH=named + ":/usr/bin:/bin") == "wire write a.rs T sentinel=00\n", name
    assert "./install --built DIR framed-json" in runs(typed_call, site, PATH="/usr/bin:/bin")
    try:  # an archive of this folder would have no library, nor would a wheel that is made of it
        built("build_sdist", os.path.join(folder, "source"))
    except subprocess.CalledProcessError as error:
        assert "UnsupportedOperation" in error.stderr and not os.listdir(os.path.join(folder, "source")), error.stderr
    else:
        raise AssertionError("not refused")
    # nor would one of a copy of it alone, as pip makes it before 21.3: what to do is said
    alone, made = os.path.join(folder, "alone", "python"), os.path.join(folder, "made-of-alone")
    shutil.copytree(package, alone)
    os.mkdir(made)
    code = "import sys; sys.path.insert(0, sys.argv[1]); import build_frames; print(build_frames.build_wheel(sys.argv[2]))"
    done = subprocess.run([sys.executable, "-B", "-c", code, alone, made], capture_output=True, text=True, env=environment)
    assert done.returncode and "no libframes.so" in done.stderr and "--upgrade pip" in done.stderr and not os.listdir(made), (done.stdout, done.stderr)
    named = {**environment, "FRAMES_LIBRARY": str(frames.library()._name)}
    done = subprocess.run([sys.executable, "-B", "-c", code, alone, made], capture_output=True, text=True, env=named)
    assert done.returncode == 0 and "frames/libframes.so" in zipfile.ZipFile(os.path.join(made, done.stdout.strip())).namelist(), done.stderr
    editable = built("build_editable", os.path.join(folder, "editable"))
    with zipfile.ZipFile(editable) as archive:
        pth = [archive.read(name).decode() for name in archive.namelist() if name.endswith(".pth")]
    assert pth == [os.path.dirname(os.path.dirname(os.path.abspath(frames.__file__))) + "\n"], pth


class Failing:
    """A source that gives bytes, and then fails."""

    def __init__(self, stream, failure=EOFError("the line is gone")):
        self.stream, self.failure = stream, failure

    def read(self, size):
        if not self.stream:
            raise self.failure
        piece, self.stream = self.stream[:size], self.stream[size:]
        return piece


def some_stream(rng):
    """Frames of values, what is no frame, and broken sends."""
    stream = bytearray()
    for _ in range(rng.randrange(12)):
        kind = rng.randrange(8)
        if kind < 4:
            level, light = rng.randrange(128), rng.choice([b"\0", b"\1\5", b"\1\0", b"\7"])
            stream += frame_of(bytes([level]) + light)[: rng.choice([9, 9, 9, 2])] + b"\0"
        elif kind < 7:
            stream += bytes(rng.randrange(256) for _ in range(rng.randrange(9)))
        else:
            stream += b"\1" * rng.choice([65535, 65536, 65537, 70000]) + b"\0" * rng.randrange(2)
    return bytes(stream)


class Pieces:
    """A source that gives pieces of any length."""

    def __init__(self, rng, stream):
        self.rng, self.stream = rng, stream

    def read(self, size):
        size = self.rng.choice([1, 3, size])
        piece, self.stream = self.stream[:size], self.stream[size:]
        return piece


def known(answers):
    """The answers without how much was known of what is too long, which depends on how it came."""
    return [{"too_long": answer["too_long"]["from"]} if "too_long" in answer else answer for answer in answers]


def test_both(rng, folder):
    """The library and the program return the same."""
    wire = os.environ.pop("WIRE", None)
    path = os.path.join(folder, "both.rs")
    with open(path, "w", encoding="utf-8") as file:
        file.write("#[derive(Serialize, Deserialize)]\npub enum Light { Dark, Lit(u8) }\n")
        file.write("#[derive(Serialize, Deserialize)]\npub struct Reading { pub level: i16, pub light: Light }\n")
        file.write("#[derive(Serialize, Deserialize)]\npub struct Bad { pub level: Leval }\n")
    if typed.library() is not None:
        for _ in range(40):
            stream, mark, strict = some_stream(rng), rng.choice([0, 0, 10]), rng.random() < 0.5
            answers = typed.TypedReceiver(path, "Reading", mark, strict).answers(stream)
            with typed.TypedReceiver(path, "Reading", mark, strict) as receiver:
                heard = known(receiver.listen(Pieces(rng, stream)))
                assert heard == known(answers), (stream.hex()[:200], mark, heard, answers)
            if wire:
                assert known(typed.TypedReceiver(path, "Reading", mark, strict, wire=wire).answers(stream)) == known(answers)
        for values in ([], [{"level": 1, "light": "Dark"}] * 3000, [{"level": 1}], [7, {"level": 1, "light": {"Lit": 256}}], ["\n"]):
            for type_name in ("Reading", "Light", "Bad", "No", "[u8; 2]"):
                told = []
                for program in (None, wire):
                    if program is None or wire:
                        try:
                            told.append(typed.write(path, type_name, values, 10, wire=program))
                        except (OSError, ValueError) as error:
                            told.append((type(error), str(error).replace("wire: ", "").replace(path + ": ", "")))
                assert told[0] == told[-1], told
    if wire:
        os.environ["WIRE"] = wire


def test_typed_threads(folder):
    """A typed receiver that several threads hand streams answers each of them whole."""
    path = os.path.join(folder, "threads.rs")
    pathlib.Path(path).touch()
    receiver, wrong = typed.TypedReceiver(path, "String"), []

    def answer(text):
        stream = typed.write(path, "String", [text] * 40)
        for _ in range(100):
            try:
                if receiver.answers(stream) != [{"value": text}] * 40:
                    wrong.append("other values")
            except ValueError as error:  # of a text that another thread has written over
                wrong.append(error)

    before = sys.getswitchinterval()
    sys.setswitchinterval(1e-6)
    threads = [threading.Thread(target=answer, args=(letter * 1000 * (k + 1),)) for k, letter in enumerate("abcd")]
    [it.start() for it in threads], [it.join() for it in threads]
    sys.setswitchinterval(before)
    assert not wrong, wrong[:3]


def near_the_end(left, call, *arguments):
    """Whether a call passes with so many frames of the stack left."""

    def deeper(n):
        return call(*arguments) if n == 0 else deeper(n - 1)

    depth, frame = 0, sys._getframe()
    while frame is not None:
        depth, frame = depth + 1, frame.f_back
    try:
        deeper(sys.getrecursionlimit() - depth - left)
    except (ValueError, RecursionError):
        return False
    return True


class Counted:
    """A number of another package: it is an index, and no `int`."""

    def __index__(self):
        return 7


def test_value_field(folder, wire):
    """Of a type with a field `value` no value is taken for another one: what to write is said."""
    path = os.path.join(folder, "node.rs")
    with open(path, "w", encoding="utf-8") as file:
        file.write("#[derive(Serialize, Deserialize)]\npub struct Node { pub value: Option<Box<Node>> }\n")
        file.write("#[derive(Serialize, Deserialize)]\npub struct Inner { pub value: u8 }\n")
        file.write("#[derive(Serialize, Deserialize)]\npub struct Outer { pub value: Inner }\n")
        file.write("#[derive(Serialize, Deserialize)]\npub struct Named(pub BTreeMap<String, Named>);\n")
    none, one, two = {"value": None}, {"value": {"value": None}}, {"value": {"value": {"value": None}}}

    def written(type_name, *values):
        return typed.write(path, type_name, values, wire=wire)

    assert written("Node", none) == b"\0\1\1\0" and written("Node", none, none) == b"\0\1\1\0\1\1\0"
    for values, k in (([one], 1), ([two], 1), ([none, two, one], 2)):
        try:
            written("Node", *values)
        except ValueError as error:
            assert str(error).startswith(f"value {k}: ") and "[Node; 1]" in str(error), error
        else:
            raise AssertionError(f"one of two values was sent for {values}")
    assert [written("[Node; 1]", [it]) for it in (none, one, two)] == [b"\0\1\1\0", b"\0\2\1\1\0", b"\0\3\1\1\1\0"]
    # no pair of a map is lost, if a key comes twice
    twice = b"\0" + frames.encode(b"\2\1a\1\1a\2") + b"\0"
    assert typed.TypedReceiver(path, "BTreeMap<String, u8>", wire=wire).answers(twice) == [{"value": [["a", 1], ["a", 2]]}]
    assert written("BTreeMap<String, u8>", [["a", 1], ["a", 2]]) == twice and written("BTreeMap<String, u8>", {"a": 1}) == b"\0\5\1\1a\1\0"
    # nor is it refused as a receiver returns it, where the keys are numbers
    for type_name, body in (("BTreeMap<i16, u8>", b"\2\1\2\1\3"), ("BTreeMap<bool, u8>", b"\2\1\2\1\3"), ("Vec<BTreeMap<u8, BTreeMap<u8, u8>>>", b"\1\1\7\2\1\2\1\3")):
        stream = b"\0" + frames.encode(body) + b"\0"
        answers = typed.TypedReceiver(path, type_name, wire=wire).answers(stream)
        assert written(type_name, *answers) == written(type_name, answers[0]["value"]) == stream, answers
    # of pairs of one's own likewise: none is taken for another value, a key isn't made a text, and they are one value
    assert "value 1: " in told_of(ValueError, written, "Named", typed.Pairs([["value", {}]])) and written("Named", [["value", {}]]) == b"\0\x08\1\5value\1\0"
    assert all(refuses(ValueError, written, "BTreeMap<String, u8>", typed.Pairs([[key, 1], [key, 2]])) for key in (None, 1, True))
    assert all(refuses(ValueError, written, "BTreeMap<String, u8>", typed.Pairs(it)) for it in ([[]], [["a"]], [["a", 1, 2]], ["ab"], [5]))
    assert written("BTreeMap<u8, u8>", typed.Pairs([[1, 2], [1, 3]])) == written("BTreeMap<u8, u8>", typed.Pairs([["1", 2], ["1", 3]])) == b"\0\6\2\1\2\1\3\0"
    assert refuses(TypeError, typed.write, path, "(String, u8)", typed.Pairs([["a", 1], ["a", 2]]), 0, wire)
    # what has one meaning goes out, by itself or as a receiver answers it; and nothing else does
    assert written("Inner", {"value": 7}) == written("Inner", {"value": {"value": 7}}) == b"\0\2\7\0"
    assert written("Outer", {"value": {"value": 7}}, {"value": {"value": {"value": 8}}}) == b"\0\2\7\0\2\x08\0"
    assert all(refuses(ValueError, written, *it) for it in (("Outer", {"value": 7}), ("Inner", {"value": 256}), ("Inner", {"value": 7, "more": 1})))
    assert written("u8", {"value": 7}, 8) == b"\0\2\7\0\2\x08\0" and refuses(OSError, written, "None", {"value": 7})
    # a float that is no number is a text, as a receiver answers it
    try:
        written("f32", float("nan"))
    except ValueError as error:
        assert '"NaN"' in str(error), error
    else:
        raise AssertionError("not refused")
    assert written("f32", "NaN") == written("f32", {"value": "NaN"})
    for it in (b"\1\2", bytearray(b"\1\2"), memoryview(b"\1\2")):  # bytes are digits, and what to write is said
        try:
            written("Vec<u8>", it)
        except TypeError as error:
            assert "write its `hex()`" in str(error), error
        else:
            raise AssertionError("not refused")
        assert written("Vec<u8>", it.hex()) == written("Vec<u8>", [1, 2])
    assert refuses(TypeError, written, "Vec<u8>", {1, 2}) and refuses(TypeError, written, "BTreeMap<Vec<u8>, u8>", {b"a": 3})
    # which value it is, and what to write in place of what JSON hasn't
    spelled = dataclasses.make_dataclass("Spelled", ["value"])(7)
    for it, hint in (({1, 2}, "list(..)"), (range(2), "list(..)"), (array.array("B", b"a"), "its `tolist()`"), (types.MappingProxyType({"a": 1}), "dict(..)"), (spelled, "dataclasses.asdict(..)"),
                     (enum.Enum("Light", "Dark").Dark, "its `name`"), (decimal.Decimal(3), "`float(..)`"), (Counted(), "`int(..)`")):  # fmt: skip
        for values in ((7, it), (7, {"value": it}), (7, {"value": [{"a": it}]})):
            told = told_of(TypeError, written, "u8", *values)
            assert told.startswith(f"value 2: JSON has no {type(it).__name__}: write ") and hint in told, told
    assert told_of(TypeError, written, "u8", 7, 1j) == "value 2: JSON has no complex" and told_of(ValueError, written, "f32", 7, float("inf")).startswith("value 2: ")
    assert all("a list of values is needed, not" in told_of(TypeError, typed.write, path, "u8", it, 0, wire) for it in (None, 7, spelled))
    # a key that is no text isn't made one: `None` the text "null"
    assert all(refuses(ValueError, written, "BTreeMap<String, u8>", {key: 3}) for key in (None, 1, True, 1.5, (1,)))
    assert all(refuses(ValueError, written, "BTreeMap<u8, u8>", it) for it in ({True: 3}, {1.0: 3}, {1: 2, "1": 3}))
    assert written("BTreeMap<u8, u8>", {1: 3}) == written("BTreeMap<u8, u8>", {"1": 3}) == b"\0\4\1\1\3\0"
    assert written("BTreeMap<(u8, u8), u8>", {(1, 2): 3}) == b"\0\5\1\1\2\3\0"
    # nor is a text with halves of a surrogate pair another one
    for it in ("\ud83d", "a\ud83d\ude00", {"\ude00": 1}):
        assert "half of a surrogate pair" in told_of(ValueError, written, "String", it), ascii(it)
    assert written("String", "\U0001f600\u2028\x85") == b"\0\x0b\x09" + "\U0001f600\u2028\x85".encode() + b"\0"
    # nor near the end of the stack, where json still goes on
    held = {"value": functools.reduce(lambda held, _: [held], range(12), {None: 3})}
    is_written = [near_the_end(left, written, f"{'[' * 12}BTreeMap<String, u8>{'; 1]' * 12}", held) for left in range(20, 120)]
    assert not any(is_written), "a key None is a text"
    loop, deep = [], functools.reduce(lambda held, _: [held], range(100000), 7)  # the latter deeper than json goes
    loop.append(loop)
    assert refuses(ValueError, written, "u8", loop) and refuses(ValueError, written, "u8", deep)
    try:  # no option of the program is named that a call doesn't take
        written("[Node; 1]", [functools.reduce(lambda held, _: {"value": held}, range(90), None)])
    except ValueError as error:
        assert str(error).endswith("nested too deeply"), error
    else:
        raise AssertionError("not refused")


def test_typed(folder, wire):
    path = os.path.join(folder, "lamp.rs")
    with open(path, "w", encoding="utf-8") as file:
        file.write("#[derive(Serialize, Deserialize)]\npub enum Light { Dark, Lit(u8) }\n")
        file.write("#[derive(Serialize, Deserialize)]\npub struct Reading { pub level: i16, pub light: Light }\n")
    values = [{"level": -21, "light": {"Lit": 5}}, {"level": 300, "light": "Dark"}]
    stream = typed.write(path, "Reading", values, wire=wire)
    assert stream.hex() == "00042901050003d8040100"
    stream += b"\x01\x02\x03\0"
    answers = [{"value": values[0]}, {"value": values[1]}, {"damaged": {"from": 11, "to": 14}}]
    with typed.TypedReceiver(path, "Reading", wire=wire) as receiver:
        assert list(receiver.listen(io.BytesIO(stream))) == answers
    assert typed.TypedReceiver(path, "Reading", wire=wire).answers(stream) == answers
    assert refuses(TypeError, typed.write, path, "Reading", values[0]) and refuses(TypeError, typed.write, path, "String", "hi")
    for held in (types.MappingProxyType({"hi": 1}), collections.UserDict({"hi": 1})):  # whose keys would go out
        assert "a list of values" in told_of(TypeError, typed.write, path, "String", held, 0, wire)
    assert typed.write(pathlib.Path(path), "Reading", values, wire=wire) + b"\x01\x02\x03\0" == stream
    receiver = typed.TypedReceiver(pathlib.Path(path), "Reading", wire=wire)
    heard = receiver.listen(io.BytesIO(stream))
    assert next(heard) == answers[0]
    receiver.close(), receiver.close()
    list(heard)  # ends, and raises nothing
    assert refuses(ValueError, receiver.answers, stream) and refuses(ValueError, receiver.listen, io.BytesIO(stream))
    for it in ("no", "", 256, 0, None):  # "no" is true, and would make damage of values that may be taken
        assert "strict is True or False" in told_of(TypeError, typed.TypedReceiver, path, "Reading", 0, it, wire), it
    receiver = typed.TypedReceiver(path.encode(), "Reading", strict=True, wire=wire)
    assert "ends is True or False" in told_of(TypeError, receiver.listen, io.BytesIO(stream), "no")
    assert refuses(TypeError, receiver.answers, 5) and refuses(TypeError, receiver.answers, "ab")  # which takes nothing
    assert receiver.answers(b"\x02\x81\x01\x01\0") == [{"damaged": {"from": 0, "to": 4}}], "an encoding that is too long"
    if wire:
        for call in (lambda: receiver.answers(stream), lambda: next(receiver.listen(io.BytesIO(stream)))):
            try:
                call()
            except ValueError as error:
                assert "one stream" in str(error), error
            else:
                raise AssertionError("not refused")
    receiver.close()
    assert all(refuses(TypeError, typed.write, path, "u8", values) for values in (b"ab", bytearray(b"ab"), memoryview(b"ab")))
    if not wire:  # a file with a comma in its name is one file; of several, the program is what reads them
        with_comma = os.path.join(folder, "a,b.rs")
        pathlib.Path(with_comma).write_text(pathlib.Path(path).read_text(encoding="utf-8"), encoding="utf-8")
        assert typed.write(with_comma, "Reading", values) + b"\x01\x02\x03\0" == stream
        for module in (frames, typed):
            assert refuses(OSError, module.library, ctypes.util.find_library("c")), "another library"
    for name in (None, b"u8", 5):
        assert refuses(TypeError, typed.write, path, name, [], 0, wire) and refuses(TypeError, typed.TypedReceiver, path, name, 0, False, wire), name
    assert all(refuses(TypeError, call, receiver) for call in (copy.copy, copy.deepcopy, pickle.dumps))
    if not wire:  # a process answers one stream
        with typed.TypedReceiver(path, "Reading") as receiver:
            for _ in range(2):
                assert receiver.answers(stream + b"\x07") == answers + [{"cut": {"from": 15, "to": 16}}]
        # a whole stream inside of a loop over another one is no part of it, and of two loops one goes on: no value is made of both
        def listens(*pieces):
            left = list(pieces)
            return receiver.listen(types.SimpleNamespace(read=lambda size: left.pop(0) if left else b""))

        with typed.TypedReceiver(path, "u8") as receiver:
            heard = []
            for answer in listens(b"\2\7\0\5\1", b"\2\x09\0", b"\2\x08\0"):
                heard += [answer, *receiver.answers(b"\2\6\0\5")]
            whole = [{"value": 6}, {"cut": {"from": 3, "to": 4}}]
            assert heard == [{"value": 7}, *whole, {"damaged": {"from": 3, "to": 7}}, *whole, {"value": 8}, *whole], heard
            first, second = listens(b"\2\7\0\3", b"\1\0"), listens(b"\2\1\0\2", b"\x09\0")
            assert next(first) == {"value": 7} and next(second) == {"value": 2} and "a receiver for each stream" in told_of(ValueError, next, first)
            assert list(second) == [{"value": 9}]
    # what the declarations are refused for is told, whichever call meets it; and a source's own failure comes behind what it gave
    for call in (
        lambda: typed.TypedReceiver(path, "No", wire=wire).answers(b""),
        lambda: list(typed.TypedReceiver(path, "No", wire=wire).listen(io.BytesIO(stream))),
        lambda: typed.TypedReceiver(path, "No", wire=wire).close(),
    ):
        try:
            call()
        except OSError as error:
            assert "No" in str(error), error
            continue
        raise AssertionError("not refused")
    heard = []
    try:
        for answer in typed.TypedReceiver(path, "Reading", wire=wire).listen(Failing(stream)):
            heard.append(answer)
    except EOFError:
        assert heard == answers
    else:
        raise AssertionError("not raised")
    shut = io.BytesIO()
    shut.close()
    for source, error in ((shut, ValueError), (Failing(stream, BrokenPipeError("the line is gone")), BrokenPipeError)):
        assert refuses(error, list, typed.TypedReceiver(path, "Reading", wire=wire).listen(source)), "a read that fails is taken for the end"
    with typed.TypedReceiver(path, "Reading", wire=wire) as receiver:  # left early
        assert next(receiver.listen(io.BytesIO(stream * 20000))) == answers[0]
    here, there = os.openpty()  # as they come, over a line that stays open
    tty.setraw(here), tty.setraw(there)
    device, host = Port(there, 0.01), Port(here, 0.01)
    with typed.TypedReceiver(path, "Reading", wire=wire) as receiver:
        heard = receiver.listen(host, ends=False)
        for value in values:
            device.write(typed.write(path, "Reading", [value], wire=wire))
            assert next(heard) == {"value": value}
    if wire:
        feeder = receiver._by._feeder
        feeder.join(timeout=60)
        assert not feeder.is_alive()
    os.close(here), os.close(there)
    for error, call in (
        (ValueError, lambda: typed.write(path, "Reading", [{"level": 1}], wire=wire)),
        (OSError, lambda: typed.write(path, "No", [], wire=wire)),
        (OSError, lambda: typed.write(os.path.join(folder, "none.rs"), "Reading", [], wire=wire)),
        (OSError, lambda: typed.write(path, "--help", [], wire=wire)),
        (OSError, lambda: typed.write(path, "u8\0", [], wire=wire)),
        (OSError, lambda: typed.TypedReceiver(path, "u8\ud800", wire=wire)),
        (OSError, lambda: typed.write("--help", "u8", [], wire=wire)),
    ):
        try:
            call()
        except error:
            continue
        raise AssertionError("not refused")
    # a type is UTF-8 in an ASCII locale too
    pathlib.Path(folder, "of.rs").write_text("#[derive(Serialize)] pub struct Größe(u8);\n", encoding="utf-8")
    called = f"import sys; from frames import typed; print(typed.write(sys.argv[1], 'Gr\\xf6\\xdfe', [5], wire={wire!r}))"
    plain = {**os.environ, "LC_ALL": "C", "PYTHONCOERCECLOCALE": "0", "PYTHONUTF8": "0", "PYTHONPATH": os.path.dirname(os.path.dirname(frames.__file__))}
    assert subprocess.check_output([sys.executable, "-c", called, os.path.join(folder, "of.rs")], env=plain) == b"b'\\x00\\x02\\x05\\x00'\n"
    if wire:  # likewise where SIGCHLD is ignored, as in a daemon, and no status is known
        before = signal.signal(signal.SIGCHLD, signal.SIG_IGN)
        try:
            assert refuses(ValueError, typed.write, path, "Reading", [{"level": 1}], 0, wire) and refuses(OSError, typed.write, path, "No", [], 0, wire)
            assert refuses(OSError, typed.TypedReceiver(path, "No", wire=wire).answers, b"\1\1\0")
        finally:
            signal.signal(signal.SIGCHLD, before)


def test_typed_aio(folder, wire):
    """Typed messages in a loop of asyncio, as the page says: a thread passes each on, and a wait that is cancelled loses none."""
    path = os.path.join(folder, "aio.rs")
    pathlib.Path(path).touch()
    here, there = os.openpty()
    tty.setraw(here), tty.setraw(there)

    async def session():
        loop, answers = asyncio.get_running_loop(), asyncio.Queue()
        receiver = typed.TypedReceiver(path, "u8", wire=wire)

        def passes():
            for answer in receiver.listen(Port(here, 0.05), ends=False):
                loop.call_soon_threadsafe(answers.put_nowait, answer)

        thread = threading.Thread(target=passes)
        thread.start()
        try:
            await asyncio.wait_for(answers.get(), 0.1)
        except asyncio.TimeoutError:
            pass
        os.write(there, b"\2\7\0\2\x08\0\2")
        told = [await asyncio.wait_for(answers.get(), 60) for _ in range(2)]
        receiver.close()
        await loop.run_in_executor(None, thread.join, 60)
        return told, thread.is_alive()

    assert asyncio.run(session()) == ([{"value": 7}, {"value": 8}], False)
    os.close(here), os.close(there)


def test_closed(folder, wire):
    """What comes after a receiver was closed is for the next one: no read of the first still waits for it."""
    path = os.path.join(folder, "closed.rs")
    pathlib.Path(path).touch()
    here, there = os.openpty()
    tty.setraw(here), tty.setraw(there)
    taken, given = os.pipe()
    one, other = socket.socketpair()
    pipe, of_socket = os.fdopen(taken, "rb"), one.makefile("rb")
    raw, port = os.fdopen(os.dup(here), "rb", buffering=0), Port(here, 20)
    port.fileno = lambda: here
    for source, ends, writes in ((pipe, True, given), (of_socket, True, other.fileno()), (port, False, there), (raw, False, there)):
        for value in range(1, 4):
            receiver = typed.TypedReceiver(path, "u8", wire=wire)
            heard = receiver.listen(source, ends)
            late = threading.Timer(0.3, os.write, (writes, b"\2%c\0" % value))  # by then a read that waits does so
            late.start()
            assert in_time(lambda: next(heard)) == {"value": value}, (source, value)
            time.sleep(0.1)
            receiver.close(), late.join()
    held = [b"\2\7\0"]  # a port's own bytes, of which its descriptor shows nothing

    class Holds(Port):
        in_waiting = property(lambda self: len(held) * 3)

        def fileno(self):
            return here

        def read(self, size=1):
            return held.pop()

    with typed.TypedReceiver(path, "u8", wire=wire) as receiver:
        assert in_time(lambda: next(receiver.listen(Holds(here, 20), ends=False))) == {"value": 7}
    class Tls(socket.socket):  # as a socket of `ssl`, which takes a record whole
        record = b""

        def recv_into(self, out, *_):
            self.record = self.record or self.recv(16384)
            size = min(len(out), len(self.record))
            out[:size], self.record = self.record[:size], self.record[size:]
            return size

        def pending(self):
            return len(self.record)

    this, end = socket.socketpair()
    with this, Tls(fileno=end.detach()) as of_tls, of_tls.makefile("rb", buffering=0) as source:
        this.sendall(b"\2\7\0" * 3000)
        with typed.TypedReceiver(path, "u8", wire=wire) as receiver:
            heard = receiver.listen(source)
            assert in_time(lambda: [next(heard) for _ in range(3000)]) == [{"value": 7}] * 3000
    with typed.TypedReceiver(path, "u8", wire=wire) as receiver:  # a loop that closes it ends, whatever was read
        heard = receiver.listen(io.BytesIO(b"\2\7\0" * 9))
        assert next(heard) == {"value": 7} and receiver.close() is None and list(heard) == []
    pipe.close(), of_socket.close(), raw.close(), one.close(), other.close()
    for descriptor in (given, here, there):
        os.close(descriptor)


INTERRUPTED = """
import signal, sys, time
from frames import typed

signal.signal(signal.SIGINT, signal.default_int_handler)
try:
    with typed.TypedReceiver(sys.argv[1], "u8", wire=sys.argv[2]) as receiver:
        for answer in receiver.listen(sys.stdin.buffer):
            print(answer, flush=True)
            try:
                time.sleep(20)
            finally:
                time.sleep(0.5)  # by now a program that was interrupted too has ended
except KeyboardInterrupt:
    print("interrupted")
"""


def opened():
    """The open files of this process, with what they are."""
    found = {}
    for name in os.listdir("/proc/self/fd"):
        try:
            found[name] = os.readlink(f"/proc/self/fd/{name}")
        except FileNotFoundError:  # of the folder itself
            pass
    return found


def test_closed_meanwhile(folder, wire):
    """`close` by another thread ends the loop that reads, and raises nothing there, wherever that is."""
    path, raised, hook, before = os.path.join(folder, "meanwhile.rs"), [], threading.excepthook, sys.getswitchinterval()
    pathlib.Path(path).touch()
    threading.excepthook = lambda it: raised.append(repr(it.exc_value))
    sys.setswitchinterval(1e-6)
    try:
        for k in range(30):
            taken, given = os.pipe()
            source, receiver, heard = os.fdopen(taken, "rb"), typed.TypedReceiver(path, "u8", wire=wire), []
            answers = receiver.listen(source)
            thread = threading.Thread(target=lambda: heard.extend(answers))
            thread.start()
            os.write(given, b"\2\7\0" * 2000)
            time.sleep(0.001 * (k % 15))
            receiver.close(), os.close(given), thread.join(60)
            assert not thread.is_alive() and all(it == {"value": 7} for it in heard), heard[-3:]
            source.close()
    finally:
        sys.setswitchinterval(before)
        threading.excepthook = hook
    assert raised == [], raised


def test_killed(folder):
    """A program that a signal ends, as where there is no memory, isn't the end of the stream; one that is ended by `close` is no error."""
    path, killed = os.path.join(folder, "killed.rs"), os.path.join(folder, "killed")
    pathlib.Path(path).touch()
    pathlib.Path(killed).write_text("#!/bin/sh\nread -r _\nprintf '{\"value\":7}\\n{\"val'\nkill -9 $$\n", encoding="utf-8")
    os.chmod(killed, 0o755)
    heard = []
    for call in (
        lambda receiver: receiver.answers(b"\n"),
        lambda receiver: heard.extend(receiver.listen(io.BytesIO(b"\n"))),
        lambda receiver: [heard.append(it) for it in receiver.listen(io.BytesIO(b"\n"))],
        lambda receiver: receiver.close(),
    ):
        try:
            call(typed.TypedReceiver(path, "u8", wire=killed))
        except OSError as error:
            assert "status -9" in str(error), error
        else:
            raise AssertionError("not raised")
    assert heard[-1] == {"value": 7}
    # another program, which ends as if all were well: nothing of what it says, or doesn't say, is taken for a message or for none
    for body, told in (("true", "nothing"), ("echo Usage", "Usage"), ("echo 7", "7"), ("echo '{\"a\":1,\"b\":2}'", "a"), ("echo usage >&2; exit 1", "nothing")):
        pathlib.Path(killed).write_text(f"#!/bin/sh\ncat >/dev/null\n{body}\n", encoding="utf-8")
        calls = [lambda receiver: receiver.answers(b"\2\7\0"), lambda receiver: list(receiver.listen(io.BytesIO(b"\2\7\0")))]
        calls += [] if "exit" in body else [lambda receiver: typed.write(path, "u8", [7], wire=killed), lambda receiver: typed.write(path, "u8", [], wire=killed)]
        for call in calls:
            said = told_of(OSError, call, typed.TypedReceiver(path, "u8", wire=killed))
            assert f"{killed} is another program than wire: it " in said and told in said, said
    taken, given = os.pipe()  # nor is the end of one that reads nothing that of the stream, whether that has ended or not
    for source in (io.BytesIO(b"\2\7\0" * 9), os.fdopen(taken, "rb")):
        said = told_of(OSError, list, typed.TypedReceiver(path, "u8", wire=shutil.which("true")).listen(source))
        assert "is another program than wire: it " in said, said
    os.close(given)
    source.close()
    if os.environ.get("WIRE"):  # what brings nothing is no other program's
        for stream in (b"", b"\0\0"):
            assert typed.TypedReceiver(path, "u8", wire=os.environ["WIRE"]).answers(stream) == list(typed.TypedReceiver(path, "u8", wire=os.environ["WIRE"]).listen(io.BytesIO(stream))) == []
    pathlib.Path(killed).write_text("#!/bin/sh\nread -r _\necho '{\"value\":7}'\nexec sleep 60\n", encoding="utf-8")
    with typed.TypedReceiver(path, "u8", wire=killed) as receiver:
        assert next(receiver.listen(io.BytesIO(b"\n"))) == {"value": 7}
    try:  # one that can't be started leaves no file open
        gc.collect()  # else what is left of earlier calls may be closed in between
        before = opened()
        typed.TypedReceiver(path, "u8", wire=path)
    except PermissionError:
        assert opened() == before, (before, opened())
    else:
        raise AssertionError("not raised")
    # Ctrl-C, which a terminal sends to all that runs there, is a KeyboardInterrupt, and no failure of the program
    there = subprocess.Popen([sys.executable, "-c", INTERRUPTED, path, killed], stdin=subprocess.PIPE, stdout=subprocess.PIPE, start_new_session=True)
    there.stdin.write(b"\n"), there.stdin.flush()
    assert there.stdout.readline() == b"{'value': 7}\n"
    os.killpg(there.pid, signal.SIGINT)
    assert there.stdout.read() == b"interrupted\n" and there.wait(timeout=60) == 0, there.returncode  # while its input stays open
    there.stdin.close(), there.stdout.close()


def main():
    rng = random.Random(7)
    test_codec(rng)
    test_misuse()
    test_write()
    test_lengths()
    test_line(rng)
    test_listen()
    test_port()
    test_threads()
    test_waits()
    test_time_limit()
    test_aio()
    test_inside(None)
    test_raised(None)
    test_stopped(None)
    test_fork(None)
    if len(sys.argv) > 1:
        by_library = typed.library()
        os.environ.pop("WIRE_LIBRARY", None)  # a wheel has its own, or none
        test_wheel(sys.argv[1])
        test_killed(sys.argv[1])
        wire = os.environ.pop("WIRE", None)
        if by_library is not None:
            test_typed(sys.argv[1], None)
            test_inside(sys.argv[1])
            test_raised(sys.argv[1])
            test_stopped(sys.argv[1])
            test_fork(sys.argv[1])
            test_closed_meanwhile(sys.argv[1], None)
            test_value_field(sys.argv[1], None)
            test_closed(sys.argv[1], None)
            test_typed_aio(sys.argv[1], None)
            test_typed_threads(sys.argv[1])
        if wire:
            os.environ["WIRE"] = wire
            test_typed(sys.argv[1], wire)
            test_value_field(sys.argv[1], wire)
            test_closed(sys.argv[1], wire)
            test_closed_meanwhile(sys.argv[1], wire)
            test_typed_aio(sys.argv[1], wire)
        test_both(rng, sys.argv[1])


main()
