"""Messages as frames over a line that may break, by a library whose code is proved.

If a send of a *plain* message is interrupted, a prefix of it may be received as a message that nobody sent. So messages are *counted*
without `plain=True`: their length goes first, as postcard (Rust) encodes a byte string, and no part of an interrupted one is received
as a message. A byte that changed on the line, or a start inside a frame, may still make another message: `seal` and `unseal` are
against that.

    sender, receiver = Sender(), Receiver(limit=1024)
    port.write(sender.send(b"hi"))      # if it raises, the next send begins with a sentinel
    sender.sent()                       # all of it went out
    for event in receiver.push(port.read(64)):
        ...                             # bytes, Damaged, TooLong

    for event in listen(port, limit=1024):
        ...                             # the same, and Cut at the end, if it ends inside a frame

Threads can share a receiver and a sender: each call is done as a whole, and so is each `Sender.write`. A call inside another one of the same
receiver or sender, such as from a signal handler or the line that is written to, is a `RuntimeError`. In the child of a fork, a call that
another thread was inside of is interrupted: a receiver continues after the next sentinel, and a send begins with one.

This module is tested, not proved. It passes the library bytes that don't change and buffers of its own, so nothing overlaps and no pointer
is null. What isn't bytes is a `TypeError`, a number too.
"""
from __future__ import annotations

import ctypes
import ctypes.util
import io
import os
import select
import socket
import stat
import sys
import time
import weakref
from ctypes import POINTER, Structure, addressof, byref, c_bool, c_char_p, c_size_t, c_uint8, c_uint32, c_void_p, cast
from dataclasses import dataclass
from operator import index
from threading import RLock
from typing import Any, Callable, Generator, Iterator, List, NoReturn, Optional, Protocol, Union

__all__ = [
    "Cut", "Damaged", "Event", "Invalid", "Receiver", "Sender", "TooLong",
    "crc32", "decode", "encode", "encoded_length", "library", "listen", "seal", "unseal",
]  # fmt: skip

_OK = 0
_MORE, _MESSAGE, _DAMAGED, _TOO_LONG = range(4)


class Invalid(ValueError):
    """Bytes that are no frame, or a message that doesn't end in its CRC-32."""


@dataclass(frozen=True)
class Damaged:
    """`length` bytes between two sentinels that are no frame, or whose message isn't counted."""

    length: int


@dataclass(frozen=True)
class TooLong:
    """More bytes between two sentinels than this limit."""

    limit: int


@dataclass(frozen=True)
class Cut:
    """The stream ended `length` bytes after the last sentinel."""

    length: int


Event = Union[bytes, Damaged, TooLong, Cut]
_Given = Union[bytes, bytearray, memoryview]  # what else holds bytes, such as an `array` or an `mmap`, is taken too


class _Written(Structure):
    _fields_ = [("length", c_size_t), ("status", c_uint8)]


class _Receiver(Structure):
    _fields_ = [("count", c_size_t), ("past", c_uint8), ("sentinel", c_uint8)]


class _Event(Structure):
    _fields_ = [("used", c_size_t), ("stretch", c_size_t), ("start", c_size_t), ("length", c_size_t), ("kind", c_uint8)]


class _Sender(Structure):
    _fields_ = [("clean", c_uint8), ("sentinel", c_uint8)]


_SOURCE, _BUFFER = [c_char_p, c_size_t], [c_void_p, c_size_t]
_CALLS = [
    ("encoded_length", c_size_t, _SOURCE),
    ("encode_with_sentinel", _Written, _SOURCE + _BUFFER + [c_uint8]),
    ("decode_with_sentinel", _Written, _SOURCE + _BUFFER + [c_uint8]),
    ("receiver", _Receiver, [c_uint8]),
    ("push", _Event, [POINTER(_Receiver)] + _BUFFER + _BUFFER),
    ("push_plain", _Event, [POINTER(_Receiver)] + _BUFFER + _BUFFER),
    ("finish", c_bool, [POINTER(_Receiver)]),
    ("begun", c_size_t, [POINTER(_Receiver)]),
    ("sender", _Sender, [c_uint8]),
    ("send", _Written, [POINTER(_Sender)] + _SOURCE + _BUFFER),
    ("send_plain", _Written, [POINTER(_Sender)] + _SOURCE + _BUFFER),
    ("sent", None, [POINTER(_Sender)]),
    ("crc32", c_uint32, _SOURCE),
    ("seal", _Written, _BUFFER + [c_size_t]),
    ("unseal", _Written, _SOURCE),
]
_MOST = 4096  # the bytes of a read, other than of a port
_loaded: Optional[ctypes.CDLL] = None


def _beside() -> Optional[str]:
    here = os.path.dirname(os.path.abspath(__file__))
    bindings = os.path.dirname(os.path.dirname(here))
    stored = os.path.join(os.path.dirname(bindings), "built", os.uname().machine) if hasattr(os, "uname") else here
    folders = (here, os.path.join(bindings, "c", "out"), stored)
    return next((path for path in (os.path.join(folder, "libframes.so") for folder in folders) if os.path.exists(path)), None)


def library(path: Optional[str] = None) -> ctypes.CDLL:
    """The shared object, which is loaded at the first call.

    It is the first of these: `path`; what FRAMES_LIBRARY names; one beside this file, as in a wheel; in a clone, what `make -C bindings/c` made
    or what is stored for this processor; the system's `libframes`. Raises `OSError` if there is none.
    """
    global _loaded
    if _loaded is None or path is not None:
        found = path or os.environ.get("FRAMES_LIBRARY") or _beside() or ctypes.util.find_library("frames")
        if not found:
            raise OSError("no libframes.so: on Linux, for x86-64 and aarch64, `make -C bindings/c` makes it in a clone; or name one by FRAMES_LIBRARY")
        loaded = ctypes.CDLL(found)
        for name, result, arguments in _CALLS:
            function = _of(loaded, "frames_c_" + name)
            function.restype, function.argtypes = result, arguments
        _loaded = loaded
    return _loaded


def _of(loaded: ctypes.CDLL, name: str) -> Any:
    """A function of a library, which another one hasn't."""
    try:
        return getattr(loaded, name)
    except AttributeError as error:
        raise OSError(f"another library, or an earlier one: {error}") from None


class _Room:
    """A buffer that the library writes to. It makes no type for each length, which `c_uint8 * length` does."""

    def __init__(self, length: int) -> None:
        self._held = memoryview(bytearray(max(length, 1)))
        self._first = c_uint8.from_buffer(self._held)  # while this exists the bytes stay at their address
        self.address = addressof(self._first)

    def front(self, length: int, start: int = 0) -> bytes:
        return bytes(self._held[start : start + length])  # `string_at` takes a length for one of 32 bits


def _bytes(message: _Given) -> bytes:
    """The bytes of an object that holds bytes. `bytes(3)` would be three zeros, and `bytes([1, 2])` two bytes: both are refused."""
    return message if type(message) is bytes else bytes(memoryview(message))


def encoded_length(message: _Given) -> int:
    """How many bytes the frame of a message has."""
    message = _bytes(message)
    return int(library().frames_c_encoded_length(message, len(message)))


def encode(message: _Given, sentinel: int = 0) -> bytes:
    """The shortest frame of a message, each byte XORed with the sentinel, without a sentinel after it."""
    message = _bytes(message)
    room = encoded_length(message)
    dest = _Room(room)
    written = library().frames_c_encode_with_sentinel(message, len(message), dest.address, room, _byte(sentinel))
    return dest.front(written.length)


def decode(frame: _Given, sentinel: int = 0) -> bytes:
    """The message of one frame, with or without the sentinel that ends it.

    Raises `Invalid` for all other bytes: none, a leading sentinel (as `Sender.send` may write one), bytes after the sentinel.
    """
    frame, mark = _bytes(frame), bytes([_byte(sentinel)])
    if frame[:1] in (b"", mark):
        raise Invalid("no frame: " + ("a sentinel is in front" if frame else "there are no bytes"))
    if mark in frame[:-1]:
        raise Invalid("bytes are after the sentinel that ends the frame")
    dest = _Room(len(frame))
    written = library().frames_c_decode_with_sentinel(frame, len(frame), dest.address, len(frame), sentinel)
    if written.status != _OK:
        raise Invalid(f"no frame, after {written.length} bytes of a message")
    return dest.front(written.length)


def crc32(message: _Given) -> int:
    """The CRC-32 of bytes, as in Ethernet, gzip and PNG."""
    message = _bytes(message)
    return int(library().frames_c_crc32(message, len(message)))


def seal(message: _Given) -> bytes:
    """A message and its CRC-32, as four bytes, the lowest first."""
    message = _bytes(message)
    return message + crc32(message).to_bytes(4, "little")


def unseal(message: _Given) -> bytes:
    """The message before its CRC-32. Raises `Invalid` if the last four bytes aren't that."""
    message = _bytes(message)
    written = library().frames_c_unseal(message, len(message))
    if written.status != _OK:
        raise Invalid("the sum isn't that of the message")
    return message[: written.length]


def _byte(sentinel: int) -> int:
    if isinstance(sentinel, bool):  # one that was meant for `plain`
        raise TypeError("a sentinel is a byte, not a bool")
    if not 0 <= index(sentinel) < 256:
        raise ValueError("a sentinel is a byte")
    return index(sentinel)


def _flag(name: str, value: bool) -> bool:
    if not isinstance(value, bool):  # such as "no" of a file of settings, which is true
        raise TypeError(f"{name} is True or False, not {value!r}")
    return value


class _Turn:
    """The lock of a receiver or a sender, and whether a call is inside of what it guards."""

    def __init__(self, owner: "_Single") -> None:
        self.lock, self.is_inside, self.owner = RLock(), False, weakref.ref(owner)
        _TURNS.add(self)


_TURNS: "weakref.WeakSet[_Turn]" = weakref.WeakSet()


def _forked() -> None:
    """In the child of a fork: what another thread held, which isn't there, would be held for ever, and what it did is half done."""
    for turn in list(_TURNS):
        if turn.lock.acquire(blocking=False):  # it is free, or of the thread that forked, which goes on here
            turn.lock.release()
            continue
        turn.lock, turn.is_inside, owner = RLock(), False, turn.owner()
        if owner is not None:
            owner._interrupted()


if hasattr(os, "register_at_fork"):
    os.register_at_fork(after_in_child=_forked)


class _Single:
    """Of a line there is one: a copy would have a state of its own, and not know what the other one wrote or read."""

    def _interrupted(self) -> None:
        """What a call leaves that another thread was inside of, in the child of a fork."""
        raise NotImplementedError

    def __reduce_ex__(self, protocol: Any) -> NoReturn:
        raise TypeError(f"a {type(self).__name__} isn't copied: a line has one")


class _Line(Protocol):
    """What a sender writes to: a file object, a socket's file, a port of pyserial, which is no `BinaryIO`."""

    def write(self, __out: Any) -> Optional[int]: ...

    def flush(self) -> object: ...


class Sender(_Single):
    """Makes the bytes to write for each message."""

    def __init__(self, sentinel: int = 0, plain: bool = False) -> None:
        self._state, self._turn = library().frames_c_sender(_byte(sentinel)), _Turn(self)
        self._send = library().frames_c_send_plain if _flag("plain", plain) else library().frames_c_send

    def send(self, message: _Given) -> bytes:
        """The bytes to write: a sentinel, if the last send didn't go out whole, the frame, and a sentinel.

        Call `sent` once all of them went out. If they didn't, call nothing: the next send then begins with a sentinel.
        """
        message = _bytes(message)
        with self._turn.lock:
            self._refuse_inside()
            room = len(message) + len(message) // 254 + 16
            dest = _Room(room)
            written = self._send(byref(self._state), message, len(message), dest.address, room)
            if written.status != _OK:
                raise AssertionError("the room is enough for every message")
            return dest.front(written.length)

    def sent(self) -> None:
        """Says that all bytes of the last send went out."""
        with self._turn.lock:
            self._refuse_inside()
            library().frames_c_sent(byref(self._state))

    def _refuse_inside(self) -> None:
        if self._turn.is_inside:
            raise RuntimeError("a call of a sender inside a write of its own")

    def _interrupted(self) -> None:
        self._state.clean = 0

    def write(self, line: _Line, message: _Given) -> None:
        """Sends a message over a file object or a serial port, and flushes it. Threads write one after another.

        Raises what the line raises, and `OSError` if a write takes nothing; the next send then begins with a sentinel. A call inside a write,
        from the line itself or a signal handler, is a `RuntimeError`. A writer of asyncio, or a socket itself, is a `TypeError`.
        """
        if hasattr(line, "drain"):  # its write returns no count, which would mean that it takes nothing
            raise TypeError("a writer of asyncio returns no count: use frames.aio.Line")
        if not callable(getattr(line, "write", None)) or not callable(getattr(line, "flush", None)):
            raise TypeError(f"a line has `write` and `flush`, and a {type(line).__name__} hasn't both{_instead(line, 'wb')}")
        with self._turn.lock:
            out = memoryview(self.send(message))
            try:
                try:
                    self._turn.is_inside = True
                    while out:
                        count = line.write(out)
                        if count is True or (count and count > len(out)):  # else bytes would go out twice, or be missing
                            raise TypeError(f"a write of the line returns how many bytes it took, not {count!r}")
                        if not count or count < 0:  # as a write of C says that it failed
                            raise OSError("the line takes nothing")
                        out = out[count:]
                    line.flush()
                finally:
                    self._turn.is_inside = False
            finally:  # again: before Python 3.10 a signal handler may raise just before that
                self._turn.is_inside = False
            self.sent()


class Receiver(_Single):
    """Receives the messages of a stream that comes in chunks, with at most `limit` bytes between two sentinels."""

    def __init__(self, limit: int, sentinel: int = 0, plain: bool = False) -> None:
        if isinstance(limit, bool):
            raise TypeError("a limit is a number of bytes, not a bool")
        if index(limit) < 1:
            raise ValueError("a limit is a number of bytes, 1 or more")
        if index(limit) > sys.maxsize:
            raise OverflowError("a limit is a number of bytes, no more than memory can have")
        self._limit = index(limit)
        self._state, self._buffer = library().frames_c_receiver(_byte(sentinel)), _Room(self._limit)
        self._turn = _Turn(self)
        self._push = library().frames_c_push_plain if _flag("plain", plain) else library().frames_c_push

    def push(self, piece: _Given) -> List[Event]:
        """The events of these bytes, in order: messages as `bytes`, `Damaged`, `TooLong`.

        After an exception, such as `MemoryError` or `KeyboardInterrupt`, the receiver continues after the next sentinel. After one of
        misuse nothing has changed, nor after one that a signal handler raises just before the call has begun.
        """
        is_begun = False
        try:
            view = piece if type(piece) is bytes else memoryview(piece)
            with self._turn.lock:
                self._refuse_inside()
                is_begun = True
                try:
                    try:
                        self._turn.is_inside = True
                        return self._pushed(bytes(view))  # which may find no memory for a copy
                    except BaseException:
                        self._skip()
                        raise
                    finally:
                        self._turn.is_inside = False
                finally:  # again: before Python 3.10 a signal handler may raise just before that
                    self._turn.is_inside = False
        except BaseException as error:
            if not is_begun and not isinstance(error, (BufferError, RuntimeError, TypeError, ValueError)):  # these: misuse, which changes nothing
                with self._turn.lock:
                    self._skip()
            raise

    def _skip(self) -> None:
        """What comes up to the next sentinel is no frame: it may be the end of one, the front of which is lost."""
        self._state.count, self._state.past = 0, 1

    def _pushed(self, piece: bytes) -> List[Event]:
        events: List[Event] = []
        state, room, limit = byref(self._state), self._buffer.address, self._limit
        at: int = cast(c_char_p(piece), c_void_p).value or room  # the library reads the bytes where they stand
        end = at + len(piece)
        while True:
            event = self._push(state, room, limit, at, end - at)
            at += event.used
            kind = event.kind
            if kind == _MESSAGE:
                events.append(self._buffer.front(event.length, event.start))
            elif kind == _DAMAGED:
                events.append(Damaged(event.stretch))
            elif kind == _TOO_LONG:
                events.append(TooLong(limit))
            else:
                return events

    def _refuse_inside(self) -> None:
        if self._turn.is_inside:
            raise RuntimeError("a call of a receiver inside a push of its own")

    def _interrupted(self) -> None:
        self._skip()

    @property
    def begun(self) -> int:
        """How many bytes have come since the last sentinel; 0 after `TooLong`."""
        with self._turn.lock:
            return int(library().frames_c_begun(byref(self._state)))

    def finish(self) -> Optional[Cut]:
        """Ends the stream, and begins a new one. Returns `Cut` if it ended inside a frame."""
        with self._turn.lock:
            self._refuse_inside()
            begun = int(library().frames_c_begun(byref(self._state)))
            return Cut(begun) if library().frames_c_finish(byref(self._state)) else None


def _instead(it: Any, mode: str) -> str:
    """What to write in place of what is no file object."""
    if isinstance(it, socket.socket):
        return f": write .makefile('{mode}') of it"
    if isinstance(it, (str, os.PathLike)):
        return f": write open(.., '{mode}')"
    return ": write io.BytesIO(..)" if isinstance(it, (bytes, bytearray, memoryview)) else ""


def _refuse_no_source(source: Any) -> None:
    """Raises for what gives no bytes, before anything is read."""
    if hasattr(source, "feed_eof"):
        raise TypeError("a reader of asyncio is awaited: use frames.aio.listen")
    if isinstance(source, io.TextIOBase):
        raise TypeError("a text file gives no bytes: open it with the mode 'rb', or take its `buffer`")
    if not callable(getattr(source, "read", None)):
        raise TypeError(f"a source has `read`, and a {type(source).__name__} hasn't{_instead(source, 'rb')}")


def _descriptor(source: Any) -> Optional[int]:
    """The descriptor of a pipe, a terminal or a socket, whose next bytes can be waited for; None of a file on a disk, and others."""
    try:
        descriptor = index(source.fileno())
        mode = os.fstat(descriptor).st_mode
    except (AttributeError, OSError, TypeError, ValueError):
        return None
    return descriptor if stat.S_ISCHR(mode) or stat.S_ISFIFO(mode) or stat.S_ISSOCK(mode) else None


def _is_ready(descriptor: Optional[int]) -> bool:
    """Waits until there is something to read, or the other end is gone, at most a twentieth of a second: whether there is."""
    if descriptor is not None and hasattr(select, "poll"):
        waiting = select.poll()
        waiting.register(descriptor, select.POLLIN)
        return bool(waiting.poll(50))
    time.sleep(0.01)
    return False


def _read(source: Any) -> Optional[bytes]:
    """What is there, and at least a byte; none at the end or where a port's time is over; None where a file that doesn't wait has none yet."""
    piece: Optional[bytes]
    if hasattr(source, "in_waiting"):  # a port of pyserial
        piece = source.read(max(1, source.in_waiting))
    elif hasattr(source, "read1"):
        piece = source.read1(_MOST)
    else:
        piece = source.read(_MOST)
    return piece


def _shows(source: Any, descriptor: Optional[int], ends: bool) -> bool:
    """Whether a wait for the descriptor is a wait for the source: it is blocking or a port, and no timeout of a read is the end."""
    if descriptor is None or not hasattr(select, "poll"):
        return False
    is_port, below = hasattr(source, "in_waiting"), getattr(source, "raw", source)
    is_tls = hasattr(getattr(below, "_sock", None), "pending")  # such a socket may hold bytes that came, of which the descriptor shows nothing
    is_known = is_port or (isinstance(below, (io.FileIO, socket.SocketIO)) and os.get_blocking(descriptor) and not is_tls)
    return is_known and not (ends and (is_port or os.isatty(descriptor)))


def _pieces(source: Any, ends: bool, is_over: Optional[Callable[[], bool]] = None) -> Iterator[bytes]:
    """What a file object, a socket's file or a serial port gives, as it comes, until it ends or nobody wants more.

    Where a read gives nothing and the stream goes on, it waits before it reads again, so that a source that never waits costs no processor.
    Where it may be over, it waits before it reads, if it can: a read that waits would take what comes when nobody wants it any more.
    """
    descriptor = _descriptor(source)
    is_port, below = hasattr(source, "in_waiting"), getattr(source, "raw", source)
    is_blocking = descriptor is None or not hasattr(os, "get_blocking") or os.get_blocking(descriptor)
    # of others a read of nothing is the end, though their socket doesn't block: it has a time limit, and may stay open, as that of a response
    never_waits = not is_blocking and not is_port and isinstance(below, io.FileIO)
    waits = is_over is not None and _shows(source, descriptor, ends)
    is_buffered = isinstance(source, io.BufferedReader)
    is_ready, may_hold = False, is_buffered  # the latter: bytes that came before, of which the descriptor shows nothing
    while is_over is None or not is_over():
        if waits and not may_hold and not is_ready:
            is_ready = (is_port and source.in_waiting > 0) or _is_ready(descriptor)
            continue
        piece = _read(source)
        if piece == b"" and not is_blocking and is_buffered and not never_waits:
            piece = below.read(_MOST)  # of which the buffer doesn't say whether it ended or has none yet
        may_hold = is_buffered and piece is not None and len(piece) == _MOST
        if piece:
            is_ready = False
            yield piece
        elif ends and piece is not None and (is_ready or not never_waits):
            return
        else:
            if is_ready:  # it said so, and gave nothing: an end that others may write behind
                time.sleep(0.01)
            is_ready = _is_ready(descriptor)


def _receiver_of(limit: Union[int, Receiver], sentinel: int, plain: bool) -> Receiver:
    """A new receiver, or the one that is given in place of a limit, which has a sentinel and a form of its own."""
    if not isinstance(limit, Receiver):
        return Receiver(limit, sentinel, plain)
    if _byte(sentinel) or plain:
        raise TypeError("a receiver has its own sentinel and form: give none with it")
    return limit


def listen(source: Any, limit: Union[int, Receiver], sentinel: int = 0, plain: bool = False, ends: bool = True) -> Generator[Event, None, None]:
    """The events of a file object, a socket's file or a serial port, as they come.

    It reads what is there, and at least a byte. A read of nothing ends the stream, and `Cut` may then come last. With `ends=False`, for a
    serial port with a timeout, it reads again, and waits first if the read didn't wait. A file that doesn't block and has nothing yet
    hasn't ended. A `Receiver` in place of the limit keeps a frame that has begun, for the next call.
    """
    _refuse_no_source(source)
    return _listened(source, _receiver_of(limit, sentinel, plain), _flag("ends", ends))


def _listened(source: Any, receiver: Receiver, ends: bool) -> Generator[Event, None, None]:
    for piece in _pieces(source, ends):
        yield from receiver.push(piece)
    cut = receiver.finish()
    if cut is not None:
        yield cut
