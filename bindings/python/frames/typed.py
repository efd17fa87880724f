"""Messages of declared types as JSON values, by the library `libwire` if there is one, else by the program `wire` as a process.

    with TypedReceiver("messages.rs", "Reading") as receiver:
        for answer in receiver.listen(open("line.bin", "rb")):
            ...                     # {"value": {...}}, {"damaged": {...}}, {"too_deep": {...}}, {"too_long": {...}}, {"cut": {...}}
    frame = write("messages.rs", "Reading", [{"level": -21, "light": "Dark"}])

The library reads the declarations anew in each call; it takes one file. The program is used for a folder or several files, if `wire=` or
WIRE names one, or if there is no library. Both return the same. This module is tested, not proved.
"""
from __future__ import annotations

import ctypes
import json
import os
import re
import shutil
import subprocess
import sys
import tempfile
import threading
from ctypes import POINTER, Structure, byref, c_char_p, c_size_t, c_uint8, c_void_p
from dataclasses import is_dataclass
from enum import Enum
from typing import IO, Any, Callable, Dict, Generator, Iterable, List, Mapping, NoReturn, Optional, Tuple, Union

from . import _Given, _byte, _flag, _of, _pieces, _refuse_no_source, _Room, _Single, _Turn

_Path = Union[str, "os.PathLike[str]"]
_DONE, _NO_ROOM, _WRONG, _REFUSED, _NO_MEMORY = range(5)


class _Said(Structure):
    _fields_ = [("length", c_size_t), ("used", c_size_t), ("status", c_uint8), ("inside", c_uint8)]


class _Terms(Structure):
    _fields_ = [(name, c_uint8) for name in ("sentinel", "strict", "crc32", "hex", "inside", "ends")]


_loaded: Optional[ctypes.CDLL] = None


class Pairs(List[List[Any]]):
    """The pairs of a map in which a key comes twice. Its keys are texts, as those of a dictionary; `write` takes it for that map."""


class _Members(Dict[Any, Any]):
    """An object of JSON in which a key may come twice."""

    def __init__(self, pairs: List[Tuple[Any, Any]]) -> None:
        super().__init__(pairs)
        self._pairs = pairs

    def items(self) -> Any:
        return self._pairs


def _object(pairs: List[Tuple[str, Any]]) -> Any:
    """A dictionary; of a map in which a key comes twice, all of its pairs."""
    held = dict(pairs)
    return held if len(held) == len(pairs) else Pairs(list(pair) for pair in pairs)


def _are_members(pairs: Pairs) -> bool:
    """Whether these are pairs whose keys are texts, as an object's are."""
    return all(isinstance(pair, (list, tuple)) and len(pair) == 2 and isinstance(pair[0], str) for pair in pairs)


def _as_objects(value: Any) -> Any:
    """A value in which all pairs of a map are an object again; of keys that are no texts, pairs: JSON would make texts of them, `None` "null"."""
    if isinstance(value, Pairs) and _are_members(value):
        return _Members([(key, _as_objects(held)) for key, held in value])
    if isinstance(value, dict):
        if not all(isinstance(key, str) for key in value):
            return [[_as_objects(key), _as_objects(held)] for key, held in value.items()]
        return {key: _as_objects(held) for key, held in value.items()}
    return [_as_objects(held) for held in value] if isinstance(value, (list, tuple)) else value


_DECODER = json.JSONDecoder(object_pairs_hook=_object)


def _answer(line: bytes) -> Dict[str, Any]:
    answer: Dict[str, Any] = _DECODER.decode(line.decode())
    return answer


def library(path: Optional[str] = None) -> Optional[ctypes.CDLL]:
    """The shared object of typed messages, which is loaded at the first call; None if there is none.

    It is the one at `path`, or that WIRE_LIBRARY names (none, if that is empty), or the one beside this file, as in a wheel, or of the clone
    that this file is in.
    """
    global _loaded
    if _loaded is None or path is not None:
        here = os.path.dirname(os.path.abspath(__file__))
        bindings = os.path.dirname(os.path.dirname(here))
        stored = os.path.join(os.path.dirname(bindings), "built", os.uname().machine) if hasattr(os, "uname") else here
        beside = [os.path.join(folder, "libwire.so") for folder in (here, os.path.join(bindings, "c", "out"), stored)]
        named = path if path is not None else os.environ.get("WIRE_LIBRARY")
        found = named if named is not None else next((it for it in beside if os.path.exists(it)), "")
        if not found:
            return None
        loaded = ctypes.CDLL(found)
        for function in (_of(loaded, "wire_c_read"), _of(loaded, "wire_c_write")):
            function.restype = _Said
            function.argtypes = [c_char_p, c_size_t, c_char_p, c_size_t, POINTER(_Terms), c_char_p, c_size_t, c_void_p, c_size_t]
        _loaded = loaded
    return _loaded


class _Type:
    """A type of a file of declarations, by the library."""

    def __init__(self, calls: ctypes.CDLL, declarations: str, type_name: str) -> None:
        with open(declarations, "rb") as file:
            self._declarations = file.read()
        self._name, self._calls, self._room, self._length = type_name.encode(), calls, _Room(65536), 65536

    def said(self, function: Any, terms: _Terms, given: bytes) -> Tuple[int, bytes, int, int]:
        """The status of a call, its text, how many bytes are done with, and whether what follows is inside a stretch that was answered."""
        while True:
            said = function(self._declarations, len(self._declarations), self._name, len(self._name), byref(terms), given, len(given),
                            self._room.address, self._length)  # fmt: skip
            if said.status != _NO_ROOM:
                break
            self._room, self._length = _Room(said.length), said.length
        text = self._room.front(said.length)
        if said.status == _NO_MEMORY:
            raise MemoryError
        if said.status == _WRONG:
            raise OSError(_told(text))
        return said.status, text, said.used, said.inside

    def write(self, lines: bytes, sentinel: int) -> bytes:
        status, text, _, _ = self.said(self._calls.wire_c_write, _Terms(sentinel=sentinel), lines)
        if status == _REFUSED:
            raise ValueError(_told(text))
        return bytes([sentinel]) + text


class _Stream(_Single):
    """A stream of frames of a type, as it comes."""

    def __init__(self, of: _Type, calls: ctypes.CDLL, sentinel: int, strict: bool) -> None:
        self._of, self._calls, self._terms = of, calls, _Terms(sentinel=sentinel, strict=strict)
        self._left, self._before, self._is_closed = b"", 0, False
        self._turn, self._listens = _Turn(self), object()  # the latter: the last listen that has begun
        self.push(b"")  # what the declarations are refused for

    def push(self, piece: _Given, ends: bool = False, is_whole: bool = False, turn: object = None) -> List[Dict[str, Any]]:
        """The answers that these bytes bring. Threads push one after another: the room and what is left over are one receiver's.

        A whole stream is no part of the one that a `listen` reads, which goes on after it where it was.
        """
        view = memoryview(piece)
        with self._turn.lock:
            if self._turn.is_inside:  # by a signal handler
                raise RuntimeError("a call of a receiver inside another one")
            if turn is not None and turn is not self._listens:
                raise ValueError("another listen of this receiver has begun, which reads on where this one was: make a receiver for each stream")
            kept = (self._left, self._before, self._terms.inside) if is_whole else None
            try:
                try:
                    self._turn.is_inside = True
                    if is_whole:
                        self._begin()
                    self._take(view)  # which is read again, if memory ends before it is answered
                    return self._answered(ends)
                finally:
                    self._turn.is_inside = False
                    if ends:
                        self._begin(kept)
            finally:  # again: before Python 3.10 a signal handler may raise just before that
                self._turn.is_inside = False
                if ends:
                    self._begin(kept)

    def _interrupted(self) -> None:
        self._left, self._before, self._terms.inside = b"", self._before + len(self._left), 1

    def _begin(self, kept: Optional[Tuple[bytes, int, int]] = None) -> None:
        """Begins a stream, or goes on with one that was kept."""
        self._left, self._before, self._terms.inside = kept or (b"", 0, 0)

    def _take(self, view: memoryview) -> None:
        try:
            self._left += bytes(view)
        except BaseException:  # they are lost: what comes next isn't the end of the frame that began before them
            self._interrupted()
            self._before += view.nbytes
            raise

    def _answered(self, ends: bool) -> List[Dict[str, Any]]:
        self._terms.ends = ends
        _, text, used, inside = self._of.said(self._calls.wire_c_read, self._terms, self._left)
        answers = [_answer(line) for line in text.splitlines()]
        for answer in answers:
            for what, places in answer.items():
                if what != "value":  # counted from the first byte that the call was handed
                    answer[what] = {name: place + self._before for name, place in places.items()}
        self._left, self._before, self._terms.inside = self._left[used:], self._before + used, inside
        return answers

    def listen(self, source: Any, ends: bool) -> Generator[Dict[str, Any], None, None]:
        self._listens = turn = object()
        for piece in _pieces(source, ends, lambda: self._is_closed):
            for answer in self.push(piece, turn=turn):
                if self._is_closed:  # by the loop itself, or meanwhile
                    return
                yield answer
        if not self._is_closed:
            yield from self.push(b"", ends=True, turn=turn)

    def answers(self, stream: _Given) -> List[Dict[str, Any]]:
        return self.push(stream, ends=True, is_whole=True)

    def close(self) -> None:
        self._is_closed = True


def _of_library(declarations: str, type_name: str, wire: Optional[str]) -> Optional[Tuple[_Type, ctypes.CDLL]]:
    """The type by the library, if that is what takes it."""
    if not isinstance(type_name, str):
        raise TypeError(f"a type is a text, such as 'Reading', not {type_name!r}")
    if re.search("[\0\ud800-\udfff]", type_name):  # which no argument of a program can have, nor UTF-8
        raise OSError(f"no type has the name {type_name!r}")
    if wire or os.environ.get("WIRE") or os.path.isdir(declarations) or ("," in declarations and not os.path.isfile(declarations)):
        return None
    calls = library()
    return (_Type(calls, declarations, type_name), calls) if calls is not None else None


def _wire(wire: Optional[str]) -> str:
    """The program: as it is named, or in the wheel, or on the PATH, where `./install` puts it under two names."""
    inside = os.path.join(os.path.dirname(os.path.abspath(__file__)), "wire")
    if os.access(inside, os.X_OK) and os.path.isfile(inside):
        return wire or os.environ.get("WIRE") or inside
    found = wire or os.environ.get("WIRE") or shutil.which("framed-json") or shutil.which("wire")
    if not found:
        raise FileNotFoundError("no framed-json or wire on the PATH, which reads a folder or several files, and one without libwire.so: "
                                "`./install --built DIR framed-json` puts it into a folder; or name one by WIRE")  # fmt: skip
    return found


def _command(wire: Optional[str], mode: str, declarations: str, type_name: str, sentinel: int) -> List[Union[str, bytes]]:
    """A call of the program. It would take `--help` for an option, but not if `./` or a space precedes it. A type is UTF-8 in each locale."""
    path, name = [front + word if word.startswith("-") else word for front, word in (("./", declarations), (" ", type_name))]
    return [_wire(wire), mode, path, name.encode(), f"sentinel={sentinel:02x}"]


def _closed(pipe: IO[bytes]) -> None:
    try:
        pipe.close()
    except (BrokenPipeError, ValueError):  # the latter: another thread is closing it
        pass


def write(declarations: _Path, type_name: str, values: Iterable[Any], sentinel: int = 0, wire: Optional[str] = None) -> bytes:
    """The bytes that `wire write` makes of these values: a sentinel, and a frame and a sentinel for each.

    A value may be `{"value": ..}`, as a receiver returns it. If that is also a value of the type by itself, and another one, it is a
    `ValueError`: write `[value]` of the type `[Type; 1]`, which has the same bytes and one meaning.

    A dictionary with a key that is no text goes out as its pairs, whose keys have to be of the map's type: `{None: 1}` is no map of texts.

    A value that isn't of the type is a `ValueError`. One that JSON doesn't have, such as bytes, is a `TypeError`, as is a text, bytes or a
    dictionary in place of a list of values. Wrong declarations or a wrong type are an `OSError`; if there is neither the library nor the
    program, a `FileNotFoundError`.
    """
    if isinstance(values, (str, Mapping, Pairs, bytes, bytearray, memoryview)):  # whose letters, keys, pairs and bytes would be taken for values
        raise TypeError("a list of values is needed, not a value alone")
    if not hasattr(values, "__iter__") and not hasattr(values, "__getitem__"):
        raise TypeError(f"a list of values is needed, not {'None' if values is None else f'a {type(values).__name__}'}")
    values = list(values)
    by_itself = {k: value for k, value in enumerate(values, 1) if _holds_value_alone(value)}
    _refuse_both(os.fsdecode(declarations), type_name, by_itself, wire)
    return _written(os.fsdecode(declarations), type_name, values, _byte(sentinel), wire)


def _holds_value_alone(value: Any) -> bool:
    """Whether its JSON is `{"value": ..}`."""
    if isinstance(value, Pairs):
        return len(value) == 1 and _are_members(value) and value[0][0] == "value"
    return isinstance(value, dict) and list(value) == ["value"]


def _refuse_both(declarations: str, type_name: str, values: Dict[int, Any], wire: Optional[str]) -> None:
    """Raises for the first of these values `{"value": ..}` that is of the type by itself too, and another value then."""
    of_one = f"[{type_name}; 1]"
    try:
        while values:
            try:
                alone = _written(declarations, of_one, [[value] for value in values.values()], 0, wire)
                break
            except ValueError as error:  # some are no values by themselves, as usual
                refused = {int(line) for line in re.findall(r"(?m)^(?:wire: )?line (\d+): ", str(error))}
                values = {k: value for line, (k, value) in enumerate(values.items(), 1) if refused and line not in refused}
    except (OSError, TypeError):  # said by the write itself
        return
    if values:
        told = _written(declarations, type_name, values.values(), 0, wire)
        for k, one, other in zip(values, alone[1:].split(b"\0"), told[1:].split(b"\0")):
            if one != other:
                raise ValueError(f'value {k}: {{"value": ..}} is of the type, and what it holds is another value: write [..] of the type {of_one}')


def _told(said: bytes) -> str:
    """What was said, without the word of the program that no call here takes."""
    return said.decode(errors="replace").strip().replace(": `depth=` sets the limit", "")


def _no_json(value: Any) -> NoReturn:
    hint = next((f": write {hint}" for is_one, hint in _HINTS if is_one(value)), "")
    raise TypeError(f"JSON has no {type(value).__name__}{hint}")


# what to write in place of a value that JSON doesn't have: the first that fits
_HINTS: List[Tuple[Callable[[Any], bool], str]] = [
    (lambda it: isinstance(it, (bytes, bytearray, memoryview)), "its `hex()`"),
    (lambda it: hasattr(it, "tolist"), "its `tolist()`"),  # of an array, or a number of NumPy
    (lambda it: isinstance(it, Enum), "its `name`, or its `value`"),
    (lambda it: is_dataclass(it) and not isinstance(it, type), "`dataclasses.asdict(..)` of it"),
    (lambda it: isinstance(it, Mapping), "`dict(..)` of it"),
    (lambda it: isinstance(it, Iterable), "`list(..)` of it"),
    (lambda it: hasattr(it, "__index__"), "`int(..)` of it"),
    (lambda it: hasattr(it, "__float__") and not isinstance(it, complex), "`float(..)` or `int(..)` of it"),
]


def _line(value: Any) -> bytes:
    try:
        value, is_converted = _as_objects(value), True
    except RecursionError:  # also of a list that holds itself, of which json says that
        is_converted = False
    try:
        line = json.dumps(value, allow_nan=False, ensure_ascii=False, default=_no_json).encode() + b"\n"
        if is_converted:
            return line
        raise RecursionError  # json goes deeper, and would make a text of each key
    except RecursionError:
        raise ValueError("the value is nested too deeply") from None
    except UnicodeEncodeError as error:
        raise ValueError(f"a text holds {error.object[error.start]!r}, half of a surrogate pair, which UTF-8 hasn't") from None
    except ValueError as error:
        if "JSON compliant" not in str(error):
            raise
        raise ValueError('a float that is no number is a text: write "NaN", "Infinity" or "-Infinity"') from None


def _numbered(k: int, value: Any) -> bytes:
    """The line of a value, or which one has none."""
    try:
        return _line(value)
    except (TypeError, ValueError) as error:
        raise (TypeError if isinstance(error, TypeError) else ValueError)(f"value {k}: {error}") from None


def _written(declarations: str, type_name: str, values: Iterable[Any], sentinel: int, wire: Optional[str]) -> bytes:
    lines = [_numbered(k, value) for k, value in enumerate(values, 1)]
    by_library = _of_library(declarations, type_name, wire)
    if by_library is not None:
        return by_library[0].write(b"".join(lines), sentinel)
    words = _command(wire, "write", declarations, type_name, sentinel)
    done = subprocess.run(words, input=b"".join(lines), capture_output=True)
    # where SIGCHLD is ignored, as in a daemon, Python knows no status, and says 0
    if done.returncode != 0 or (done.stderr and len(done.stdout) < 2):
        said = _told(done.stderr) or f"wire ended with status {done.returncode}"
        is_refused = done.returncode == 1 or (done.returncode == 0 and said.startswith(("line ", "wire: line ")))
        raise ValueError(said) if is_refused else OSError(said)
    mark = bytes([sentinel])
    if not (done.stdout.startswith(mark) and done.stdout.endswith(mark) and done.stdout.count(mark) == len(lines) + 1):
        raise OSError(f"{_another(words)}: it writes {_shown(done.stdout)} for {len(lines)} values")
    return done.stdout


def _another(words: List[Union[str, bytes]]) -> str:
    """That a command isn't `wire`, whose name others have too."""
    return f"{os.fsdecode(words[0])} is another program than wire"


def _shown(out: bytes) -> str:
    return repr(out[:60]) if out else "nothing"


class _Process:
    """A stream of frames of a type, by the program."""

    def __init__(self, declarations: str, type_name: str, sentinel: int, strict: bool, wire: Optional[str]) -> None:
        words = _command(wire, "read", declarations, type_name, sentinel) + (["strict"] if strict else [])
        self._words, self._mark, self._is_owed = words, bytes([sentinel]), False  # the latter: bytes came, of which `wire` says something
        self._is_early = False  # it ended before what it reads did
        said = tempfile.TemporaryFile()
        self._said: Optional[IO[bytes]] = said
        self._feeder: Optional[threading.Thread] = None
        self._failure: Optional[BaseException] = None
        self._lock, self._is_used, self._is_closed = threading.RLock(), False, False
        # in a session of its own, so that Ctrl-C at a terminal ends the caller alone, whose `close` then ends the program
        try:
            self._process = subprocess.Popen(words, stdin=subprocess.PIPE, stdout=subprocess.PIPE, stderr=said, start_new_session=True)
        except BaseException:
            said.close()
            raise

    def _begin(self) -> None:
        if self._is_used:
            raise ValueError("the program answers one stream: make another receiver")
        self._is_used = True

    def listen(self, source: Any, ends: bool) -> Generator[Dict[str, Any], None, None]:
        self._begin()
        self._feeder = threading.Thread(target=self._feed, args=(source, ends), daemon=True)
        self._feeder.start()
        has_answered = False
        while True:
            line = self._next_line()
            if not line.endswith(b"\n"):  # the end, or it was ended inside of it
                break
            has_answered = True
            yield self._answer(line)
        if self._is_closed:
            return
        self._process.wait()
        self._feeder.join(timeout=1)  # where the program stopped by itself, a read of the source may still be waiting
        self.close()
        if self._failure is not None:
            raise self._failure
        if self._is_owed and not has_answered:
            raise OSError(f"{_another(self._words)}: it prints nothing")
        if self._is_early or self._feeder.is_alive():
            raise OSError(f"{_another(self._words)}: it ended before its input did")

    def _answer(self, line: bytes) -> Dict[str, Any]:
        try:
            answer = _answer(line)
        except ValueError:
            answer = {}
        if not isinstance(answer, dict) or len(answer) != 1:
            raise OSError(f"{_another(self._words)}: it prints {_shown(line)}")
        return answer

    def _next_line(self) -> bytes:
        """The next line of the program; none at the end, or once `close` was called, in the loop or by another thread."""
        assert self._process.stdout is not None
        if self._is_closed:
            return b""
        try:
            return self._process.stdout.readline()
        except ValueError:  # it was closed meanwhile
            if not self._is_closed:
                raise
            return b""

    def answers(self, stream: _Given) -> List[Dict[str, Any]]:
        stream = bytes(memoryview(stream))
        self._begin()
        out, _ = self._process.communicate(stream)
        self.close()
        if stream.strip(self._mark) and not out:
            raise OSError(f"{_another(self._words)}: it prints nothing")
        return [self._answer(line) for line in out.splitlines()]

    def close(self) -> None:
        """Ends the program, and says what it said. Of threads that close it, as the one that reads does at the end, one says so."""
        with self._lock:
            self._is_closed, process = True, self._process
            assert process.stdin is not None and process.stdout is not None
            is_ended_here = self._feeder is not None and process.poll() is None
            if self._feeder is not None:
                process.terminate()  # which does nothing to one that has ended
            elif not process.stdout.closed:
                _closed(process.stdin)
                process.stdout.read()
            status = process.wait()
            _closed(process.stdin)  # here too: the feeder may still wait for its source, or come to it late
            _closed(process.stdout)
            said_file, self._said = self._said, None
        if said_file is not None:
            with said_file:
                said_file.seek(0)
                said = said_file.read().decode(errors="replace").strip()
            # below 0: by a signal, as of a system without memory; 0 too where SIGCHLD is ignored, and no status known
            if status > 1 or (not is_ended_here and (status < 0 or (status == 0 and said))):
                raise OSError(said or f"wire ended with status {status}")

    def _feed(self, source: Any, ends: bool) -> None:
        _held = sys.stdin  # else Python closes it as it exits, and aborts if a read of its buffer still waits here
        try:
            for piece in _pieces(source, ends, lambda: self._process.poll() is not None):
                if not self._is_taken(piece):
                    break
        except BaseException as failure:  # of the source
            self._failure = failure
        finally:
            assert self._process.stdin is not None
            self._is_early = self._process.poll() is not None
            _closed(self._process.stdin)

    def _is_taken(self, piece: bytes) -> bool:
        """Whether the program takes these bytes: not if it ended, or was closed."""
        assert self._process.stdin is not None
        self._is_owed = self._is_owed or bool(piece.strip(self._mark))
        try:
            self._process.stdin.write(piece)
            self._process.stdin.flush()
        except (BrokenPipeError, ValueError):
            return False
        return True


class TypedReceiver(_Single):
    """Receives the messages of a type, each as a dictionary of what `wire read` prints.

    A map is a dictionary if its keys can be texts and none comes twice, else a list of its pairs: `Pairs`, if a key comes twice.

    Wrong declarations, a wrong type or a failing device are an `OSError`, at the latest from `close`, which the end of a `with` block calls.
    """

    def __init__(self, declarations: _Path, type_name: str, sentinel: int = 0, strict: bool = False, wire: Optional[str] = None) -> None:
        declarations, strict = os.fsdecode(declarations), _flag("strict", strict)
        by_library = _of_library(declarations, type_name, wire)
        self._is_closed = False
        self._by: Union[_Stream, _Process]
        if by_library is not None:
            self._by = _Stream(by_library[0], by_library[1], _byte(sentinel), strict)
        else:
            self._by = _Process(declarations, type_name, _byte(sentinel), strict, wire)

    def __enter__(self) -> "TypedReceiver":
        return self

    def __exit__(self, *_: object) -> None:
        self.close()

    def listen(self, source: Any, ends: bool = True) -> Generator[Dict[str, Any], None, None]:
        """The results of all that a file object or a port gives, as they come; once.

        By the library, the next `listen` goes on with a frame that one had begun which was left; the earlier one is then a `ValueError`.
        Raises what reading the source raises, after the results of what was read.
        """
        _refuse_no_source(source)
        return self._opened().listen(source, _flag("ends", ends))

    def answers(self, stream: _Given) -> List[Dict[str, Any]]:
        """The results of a whole stream, with places from its first byte. The program reads one stream: another is a `ValueError`."""
        return self._opened().answers(stream)

    def close(self) -> None:
        """Ends the process, if there is one, and raises what it reported. What wasn't read yet is lost.

        After that `listen` and `answers` are a `ValueError`.
        """
        self._is_closed = True
        self._by.close()

    def _opened(self) -> Union[_Stream, _Process]:
        if self._is_closed:
            raise ValueError("the receiver is closed")
        return self._by
