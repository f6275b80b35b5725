"""Turrethog from Python: takes the frames of HL7 v2.4 messages off the line, reads, judges and acknowledges the messages,
escapes and unescapes their text, and lays out formatted text in lines.

    import turrethog
    message = open("examples/blood-count.hl7", "rb").read()
    verdict = turrethog.verdict(message)
    if verdict.number != turrethog.NONE:
        print(verdict.number, turrethog.words(verdict.number), verdict.place)

Everything has the name that it has in include/turrethog.h, without its prefix: turrethog_find is find, TURRETHOG_ABSENT
is ABSENT, and turrethog_segment_answer is the class SegmentAnswer, with the header's fields. What the header says of a
function holds here. Python's own are these: messages and texts are bytes; the five delimiters are one bytes of five, as
bytes 3 to 7 of a message have them; a segment's name is a str, "" where there is none; and a part of a time that was not
sent is None.

A function that writes takes the buffer as a bytearray, and writes to it as the library does. Without one it makes its
own, as large as may be needed, and what was written comes back as `written`.

Needs Python 3.8, and the shared library that python/library makes of the proved archive: it is sought at
TURRETHOG_LIBRARY, beside this file, and under target/python. It is code for x86-64 (Linux): on another machine importing
this module raises ImportError.
"""

import ctypes
import os
import platform
from dataclasses import dataclass
from typing import Any, Callable, List, Optional, Tuple, Union

Bytes = Union[bytes, bytearray, memoryview]

# ---- the version and the limits

VERSION = "0.1.0"
VERSION_NUMBER = 100

MESSAGE_LIMIT = 1048576
SEGMENT_LIMIT = 4096
ID_LIMIT = 199

# ---- the numbers: docs/NUMBERS.md, or words(number)

NONE = 0
LENGTH = 1
HEADER = 2
DELIMITER = 3
NOT_ALLOWED = 4
NOT_ENDED = 5
SEGMENT_NAME = 6
SECOND_HEADER = 7
TOO_MANY_SEGMENTS = 8
NOT_ACKNOWLEDGEABLE = 9
ACKNOWLEDGEMENT_TOO_LONG = 10
SEPARATOR = 11
UNKNOWN_ESCAPE = 12
UNCLOSED_ESCAPE = 13
NO_ROOM = 14
TEXT_TOO_LONG = 14
NULL_TEXT = 15
CALLERS_TIME = 16
CALLERS_ID = 17
ADDRESS = 19
NO_STRUCTURE = 20
SEGMENT_MISPLACED = 21
ENDED_EARLY = 22
REQUIRED_MISSING = 31
BREAKS_FORM = 32
NOT_LISTED = 33
REQUIRED_NULL = 34
VALUE_WITHOUT_TYPE = 35
REPEATED = 36
VALUE_TOO_LONG = 37
BROKEN_FRAME = 40
FRAME_TOO_LONG = 41
LAYOUT = 42

# ---- the states of an element: an empty box is not a zero, and null is neither

ABSENT = 0
EMPTY = 1
NULL = 2
PRESENT = 3

# ---- the sign of an offset

NO_OFFSET = 0
PLUS = 1
MINUS = 2

# ---- what feed stopped at

MORE = 0
FRAME = 1
DROP = 2
REFUSED = 3


# ---- what comes back


@dataclass(frozen=True)
class Answer:
    """A number of the table, its place, and the length of what was written, or the count that was asked for."""

    number: int
    place: int
    length: int


@dataclass(frozen=True)
class Written:
    """An answer, and the bytes that were written; none after a refusal."""

    number: int
    place: int
    length: int
    written: bytes


@dataclass(frozen=True)
class Element:
    """An element: its state, and where it stands, as message[start:end]."""

    number: int
    state: int
    place: int
    start: int
    end: int


@dataclass(frozen=True)
class SegmentAnswer:
    """A segment: its name, and where it stands, as message[start:end], without its CR."""

    number: int
    name: str
    place: int
    start: int
    end: int


@dataclass(frozen=True)
class Leaf:
    """A leaf of a message: its address, its state, and where it stands, as message[start:end]."""

    segment: int
    field: int
    repetition: int
    component: int
    subcomponent: int
    state: int
    start: int
    end: int


@dataclass(frozen=True)
class Leaves:
    """Every leaf of a message, in the message's order; none after a refusal."""

    number: int
    place: int
    length: int
    leaves: List[Leaf]


@dataclass(frozen=True)
class Number:
    """What an element says as a number: 12.50 is value 1250 with 2 decimals. Look at the state first."""

    number: int
    state: int
    place: int
    value: int
    decimals: int


@dataclass(frozen=True)
class Date:
    """A date; None in each part that was not sent."""

    year: Optional[int]
    month: Optional[int]
    day: Optional[int]


@dataclass(frozen=True)
class Clock:
    """A time of day; None in each part that was not sent. The fraction .05 is 5 with 2 digits."""

    hour: Optional[int]
    minute: Optional[int]
    second: Optional[int]
    fraction: Optional[int]
    digits: int


@dataclass(frozen=True)
class Offset:
    """An offset from UTC: NO_OFFSET, PLUS or MINUS. -0000 and +0000 differ."""

    sign: int
    hours: int
    minutes: int


@dataclass(frozen=True)
class Time:
    """What an element says as a time. Look at the state first."""

    number: int
    state: int
    place: int
    date: Date
    clock: Clock
    offset: Offset


@dataclass(frozen=True)
class StructureAnswer:
    """What the structure judge says; could_stand gives the names, of which there are so many."""

    number: int
    could_end: bool
    place: int
    names: int


@dataclass(frozen=True)
class VerdictAnswer:
    """The verdict on a message; place is a byte's offset for 1 to 8, else a segment's number."""

    number: int
    could_end: bool
    place: int
    field: int
    repetition: int
    names: int


@dataclass(frozen=True)
class FrameState:
    """Where a line stands between two pieces. FrameState() is the start."""

    mode: int = 0
    held: int = 0
    count: int = 0


@dataclass(frozen=True)
class Fed:
    """What feed gives back: what it stopped at, how much of the piece is done with, and the state for the next call."""

    number: int
    stop: int
    used: int
    length: int
    state: FrameState


# ---- the same, as the library lays it out


class _Answer(ctypes.Structure):
    _fields_ = [("number", ctypes.c_uint32), ("place", ctypes.c_size_t), ("length", ctypes.c_size_t)]


class _Element(ctypes.Structure):
    _fields_ = [
        ("number", ctypes.c_uint32),
        ("state", ctypes.c_uint32),
        ("place", ctypes.c_size_t),
        ("start", ctypes.c_size_t),
        ("end", ctypes.c_size_t),
    ]


class _Segment(ctypes.Structure):
    _fields_ = [
        ("number", ctypes.c_uint32),
        ("name", ctypes.c_uint32),
        ("place", ctypes.c_size_t),
        ("start", ctypes.c_size_t),
        ("end", ctypes.c_size_t),
    ]


class _Number(ctypes.Structure):
    _fields_ = [
        ("number", ctypes.c_uint32),
        ("state", ctypes.c_uint32),
        ("place", ctypes.c_size_t),
        ("value", ctypes.c_int64),
        ("decimals", ctypes.c_size_t),
    ]


class _Date(ctypes.Structure):
    _fields_ = [("year", ctypes.c_uint64), ("month", ctypes.c_uint64), ("day", ctypes.c_uint64)]


class _Clock(ctypes.Structure):
    _fields_ = [
        ("hour", ctypes.c_uint64),
        ("minute", ctypes.c_uint64),
        ("second", ctypes.c_uint64),
        ("fraction", ctypes.c_uint64),
        ("digits", ctypes.c_size_t),
    ]


class _Offset(ctypes.Structure):
    _fields_ = [("sign", ctypes.c_uint64), ("hours", ctypes.c_uint64), ("minutes", ctypes.c_uint64)]


class _Time(ctypes.Structure):
    _fields_ = [
        ("number", ctypes.c_uint32),
        ("state", ctypes.c_uint32),
        ("place", ctypes.c_size_t),
        ("date", _Date),
        ("clock", _Clock),
        ("offset", _Offset),
    ]


class _StructureAnswer(ctypes.Structure):
    _fields_ = [
        ("number", ctypes.c_uint32),
        ("could_end", ctypes.c_bool),
        ("place", ctypes.c_size_t),
        ("names", ctypes.c_size_t),
    ]


class _VerdictAnswer(ctypes.Structure):
    _fields_ = [
        ("number", ctypes.c_uint32),
        ("could_end", ctypes.c_bool),
        ("place", ctypes.c_size_t),
        ("field", ctypes.c_size_t),
        ("repetition", ctypes.c_size_t),
        ("names", ctypes.c_size_t),
    ]


class _FrameState(ctypes.Structure):
    _fields_ = [("mode", ctypes.c_uint64), ("held", ctypes.c_size_t), ("count", ctypes.c_uint64)]


class _Fed(ctypes.Structure):
    _fields_ = [
        ("number", ctypes.c_uint32),
        ("stop", ctypes.c_uint32),
        ("used", ctypes.c_size_t),
        ("length", ctypes.c_size_t),
        ("state", _FrameState),
    ]


# ---- the library


def _find_library() -> str:
    """Where the shared library is, or why there is none."""
    machine = platform.machine()
    if machine not in ("x86_64", "AMD64") or platform.system() != "Linux" or ctypes.sizeof(ctypes.c_void_p) != 8:
        raise ImportError(
            "turrethog is a library of x86-64 code for Linux, and this is a Python for %s on %s" % (machine, platform.system())
        )
    here = os.path.dirname(os.path.abspath(__file__))
    asked = os.environ.get("TURRETHOG_LIBRARY")
    places = [
        os.path.join(here, "libturrethog.so"),
        os.path.join(os.path.dirname(here), "target", "python", "libturrethog.so"),
    ]
    for place in [asked] if asked else places:
        if os.path.isfile(place):
            return place
    raise ImportError("there is no %s: python/library makes it" % (asked or " and no ".join(places)))


_MESSAGE = (ctypes.c_char_p, ctypes.c_size_t)
_BUFFER = (ctypes.c_void_p, ctypes.c_size_t)
_LOOKUP = _MESSAGE + (ctypes.c_size_t,) * 5
_TEXT = (ctypes.c_uint8,) * 5 + _MESSAGE + _BUFFER

_library = ctypes.CDLL(_find_library())


def _function(name: str, gives: Any, *takes: Any) -> Callable[..., Any]:
    function = getattr(_library, "turrethog_" + name)
    function.restype = gives
    function.argtypes = takes
    return function  # type: ignore[no-any-return]


_words = _function("words", ctypes.c_char_p, ctypes.c_uint32)
_version = _function("version", ctypes.c_uint32)
_message_limit = _function("message_limit", ctypes.c_size_t)
_segment_limit = _function("segment_limit", ctypes.c_size_t)
_id_limit = _function("id_limit", ctypes.c_size_t)
_feed = _function("feed", _Fed, _FrameState, *_MESSAGE, *_BUFFER)
_read = _function("read", _Answer, *_MESSAGE)
_segments = _function("segments", _Answer, *_MESSAGE)
_segment = _function("segment", _Segment, *_MESSAGE, ctypes.c_size_t)
_find = _function("find", _Element, *_LOOKUP)
_leaves = _function("leaves", _Answer, *_MESSAGE, *_BUFFER)
_nm = _function("nm", _Number, *_LOOKUP)
_si = _function("si", _Number, *_LOOKUP)
_dt = _function("dt", _Time, *_LOOKUP)
_tm = _function("tm", _Time, *_LOOKUP)
_ts = _function("ts", _Time, *_LOOKUP)
_escape = _function("escape", _Answer, *_TEXT)
_unescape = _function("unescape", _Answer, *_TEXT)
_format = _function("format", _Answer, *_TEXT)
_structure = _function("structure", _StructureAnswer, *_MESSAGE)
_verdict = _function("verdict", _VerdictAnswer, *_MESSAGE)
_could_stand = _function("could_stand", ctypes.c_uint32, *_MESSAGE, ctypes.c_size_t)
_acknowledge = _function("acknowledge", _Answer, *_MESSAGE, *_MESSAGE, *_MESSAGE, *_BUFFER)


# ---- from Python to the library, and back


def _bytes(given: Bytes) -> Tuple[bytes, int]:
    """The bytes, and how many. A str is refused: which bytes it is, only the caller knows."""
    if not isinstance(given, (bytes, bytearray, memoryview)):
        raise TypeError("bytes are asked for, and not %s" % type(given).__name__)
    held = bytes(given)
    return held, len(held)


def _sizes(*given: int) -> Tuple[int, ...]:
    """Numbers that the library can take. ctypes would cut a larger one, and another question would be asked."""
    for number in given:
        if not 0 <= number < 2**64:
            raise ValueError("%d is no number of 0 to 2^64-1" % number)
    return given


def _delimiters(given: Bytes) -> Tuple[int, ...]:
    held, length = _bytes(given)
    if length != 5:
        raise ValueError("the delimiters are five bytes, and these are %d" % length)
    return tuple(held)


def _lent(buffer: bytearray) -> Tuple[Any, int]:
    """A bytearray as the library writes to it. One of no bytes leads nowhere, and a pointer has to lead somewhere."""
    if not isinstance(buffer, bytearray):
        raise TypeError("a buffer is a bytearray, and not %s" % type(buffer).__name__)
    if len(buffer) == 0:
        return (ctypes.c_uint8 * 1)(), 0
    return (ctypes.c_uint8 * len(buffer)).from_buffer(buffer), len(buffer)


def _written(function: Callable[..., Any], words: Tuple[Any, ...], buffer: bytearray) -> Written:
    lent, room = _lent(buffer)
    answer = function(*words, lent, room)
    del lent
    return Written(answer.number, answer.place, answer.length, bytes(buffer[: answer.length]))


def _name(number: int) -> str:
    return number.to_bytes(3, "big").decode("ascii") if number else ""


def _figure(figure: int) -> Optional[int]:
    return None if figure == 2**64 - 1 else int(figure)


def _time(t: Any) -> Time:
    return Time(
        t.number,
        t.state,
        t.place,
        Date(_figure(t.date.year), _figure(t.date.month), _figure(t.date.day)),
        Clock(
            _figure(t.clock.hour),
            _figure(t.clock.minute),
            _figure(t.clock.second),
            _figure(t.clock.fraction),
            t.clock.digits,
        ),
        Offset(t.offset.sign, t.offset.hours, t.offset.minutes),
    )


def _number(n: Any) -> Number:
    return Number(n.number, n.state, n.place, n.value, n.decimals)


# ---- the library itself


def words(number: int) -> str:
    """A number of the table in words, for a log or a person; "" for 0, and for one that is not in the table."""
    if not 0 <= number < 2**32:
        return ""
    return str(_words(number).decode("ascii"))


def version() -> int:
    """The version of the library: VERSION_NUMBER, where this module is of the same."""
    return int(_version())


def message_limit() -> int:
    """The most bytes that a message may have: MESSAGE_LIMIT."""
    return int(_message_limit())


def segment_limit() -> int:
    """The most segments that a message may have: SEGMENT_LIMIT."""
    return int(_segment_limit())


def id_limit() -> int:
    """The most bytes that a control ID may have: ID_LIMIT."""
    return int(_id_limit())


# ---- framing


def feed(state: FrameState, piece: Bytes, buffer: bytearray) -> Fed:
    """Takes a piece of the line up to the end of the next frame, or to where one is dropped: 0, 14, 40, 41.

    The frame's bytes are gathered at the front of the buffer, buffer[:fed.length]. Hand in FrameState() when the line
    opens, and from then on the state that came back, with the same buffer; after FRAME or DROP call again with
    piece[fed.used:], and after MORE with the next piece.
    """
    held, length = _bytes(piece)
    lent, room = _lent(buffer)
    fed = _feed(_FrameState(*_sizes(state.mode, state.held, state.count)), held, length, lent, room)
    del lent
    return Fed(fed.number, fed.stop, fed.used, fed.length, FrameState(fed.state.mode, fed.state.held, fed.state.count))


# ---- reading


def read(message: Bytes) -> Answer:
    """Reads a message: 0, or 1 to 8."""
    a = _read(*_bytes(message))
    return Answer(a.number, a.place, a.length)


def segments(message: Bytes) -> Answer:
    """How many segments a message has: the length. 0, or a reading fault."""
    a = _segments(*_bytes(message))
    return Answer(a.number, a.place, a.length)


def segment(message: Bytes, segment: int) -> SegmentAnswer:
    """The name of a segment, by its number from 0, and where it stands: 0, a reading fault, or 19."""
    s = _segment(*_bytes(message), *_sizes(segment))
    return SegmentAnswer(s.number, _name(s.name), s.place, s.start, s.end)


def find(message: Bytes, segment: int, field: int, repetition: int = 0, component: int = 0, subcomponent: int = 0) -> Element:
    """An element, by segment (from 0), field, repetition, component and subcomponent (from 1; 0 is the whole).

    0, a reading fault, or 19. Its bytes are message[start:end].
    """
    e = _find(*_bytes(message), *_sizes(segment, field, repetition, component, subcomponent))
    return Element(e.number, e.state, e.place, e.start, e.end)


def leaves(message: Bytes) -> Leaves:
    """Every leaf of a message in one call, in its order, each as find has it at that address: 0, or a reading fault."""
    held, length = _bytes(message)
    rows = (ctypes.c_uint64 * (8 * max(length, 1)))() if length <= MESSAGE_LIMIT else (ctypes.c_uint64 * 8)()
    room = 8 * length if length <= MESSAGE_LIMIT else 0
    a = _leaves(held, length, rows, room)
    listed = rows[: 8 * a.length]
    return Leaves(a.number, a.place, a.length, [Leaf(*listed[i : i + 8]) for i in range(0, len(listed), 8)])


def nm(message: Bytes, segment: int, field: int, repetition: int = 0, component: int = 0, subcomponent: int = 0) -> Number:
    """The number (NM) that an element says: as find, and 32, or 37 for one of over 18 digits."""
    return _number(_nm(*_bytes(message), *_sizes(segment, field, repetition, component, subcomponent)))


def si(message: Bytes, segment: int, field: int, repetition: int = 0, component: int = 0, subcomponent: int = 0) -> Number:
    """The sequence number (SI) that an element says: as find, and 32."""
    return _number(_si(*_bytes(message), *_sizes(segment, field, repetition, component, subcomponent)))


def dt(message: Bytes, segment: int, field: int, repetition: int = 0, component: int = 0, subcomponent: int = 0) -> Time:
    """The date (DT) that an element says: as find, and 32."""
    return _time(_dt(*_bytes(message), *_sizes(segment, field, repetition, component, subcomponent)))


def tm(message: Bytes, segment: int, field: int, repetition: int = 0, component: int = 0, subcomponent: int = 0) -> Time:
    """The time of day (TM) that an element says: as find, and 32."""
    return _time(_tm(*_bytes(message), *_sizes(segment, field, repetition, component, subcomponent)))


def ts(message: Bytes, segment: int, field: int, repetition: int = 0, component: int = 0, subcomponent: int = 0) -> Time:
    """The time stamp (TS) that an element says: as find, and 32."""
    return _time(_ts(*_bytes(message), *_sizes(segment, field, repetition, component, subcomponent)))


# ---- text


def escape(delimiters: Bytes, text: Bytes, buffer: Optional[bytearray] = None) -> Written:
    """Writes text as it stands in a field: 0, 3, 14. The result has at most five bytes for each."""
    held, length = _bytes(text)
    room = bytearray(5 * length) if buffer is None else buffer
    return _written(_escape, (*_delimiters(delimiters), held, length), room)


def unescape(delimiters: Bytes, text: Bytes, buffer: Optional[bytearray] = None) -> Written:
    """What a written text says: 0, 3, 15, 4, 11, 12, 13, 14. The result is never longer than the text."""
    held, length = _bytes(text)
    room = bytearray(length) if buffer is None else buffer
    return _written(_unescape, (*_delimiters(delimiters), held, length), room)


def format(delimiters: Bytes, text: Bytes, buffer: Optional[bytearray] = None) -> Written:
    """The lines of a formatted text (FT): 0, 3, 15, 4, 11, 12, 13, 42, 14. Lines are ended by LF.

    They may be longer than the text. Without a buffer one is made, and made larger while that is what is missing.
    """
    held, length = _bytes(text)
    asked = (*_delimiters(delimiters), held, length)
    if buffer is not None:
        return _written(_format, asked, buffer)
    room = 4 * length + 256
    lines = _written(_format, asked, bytearray(room))
    while lines.number == NO_ROOM:
        room *= 4
        lines = _written(_format, asked, bytearray(room))
    return lines


# ---- judging


def structure(message: Bytes) -> StructureAnswer:
    """Judges the structure of a message: 0, a reading fault, 20, 21 or 22."""
    s = _structure(*_bytes(message))
    return StructureAnswer(s.number, s.could_end, s.place, s.names)


def verdict(message: Bytes) -> VerdictAnswer:
    """The verdict on a message: 0, a reading fault, 20, 21, 22, or the first of 31 to 37."""
    v = _verdict(*_bytes(message))
    return VerdictAnswer(v.number, v.could_end, v.place, v.field, v.repetition, v.names)


def could_stand(message: Bytes, index: int) -> str:
    """One of the names that could have stood at the place of a 21 or 22, by its number from 0; "" past the last."""
    return _name(_could_stand(*_bytes(message), *_sizes(index)))


# ---- acknowledging


def acknowledge(message: Bytes, time: Bytes, id: Bytes, buffer: Optional[bytearray] = None) -> Written:
    """Writes the acknowledgement of a message: 0, or 16, 17, 9, 10.

    time is the caller's time as a TS, id his own control ID of 1 to 199 bytes. Its letters, MSA-1, go by the verdict.
    """
    room = bytearray(MESSAGE_LIMIT) if buffer is None else buffer
    return _written(_acknowledge, (*_bytes(message), *_bytes(time), *_bytes(id)), room)
