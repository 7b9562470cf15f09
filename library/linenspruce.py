"""Linenspruce for Python: codes of units by two roads, reading a code, writing one from its fields,
messages to an account of entitlements, and the journal page of such messages.

The replies and answers are those of the tables in linenspruce.h. Every list of numbers, every page and
every length is answered, empty ones among them. What is no such list, number, room, page or array is a
TypeError or a ValueError before anything is called. For Python 3.8 and later on x86-64 Linux.
"""
import array
import ctypes
import enum
import os
import typing

# A code's bytes.
CODE = 20

# An account's places.
PLACES = 256

# A record's bytes, and where its code starts.
RECORD = 31
RECORD_CODE = 3

# The letters of a code, each at the place that is its number.
LETTERS = b"0123456789ABCDEFGHJKLMNPQRTUVWXY"


class Kind(enum.Enum):
    """The kind of a unit, by the listing's letter."""

    BUILDING = "B"
    OTHER = "F"


class Reply(typing.NamedTuple):
    """The number and the place of a reply. Number 0 is acceptance."""

    number: int
    place: int


class Fields(typing.NamedTuple):
    """The fields of a code: its reference, scale, the spans E, W, S and N, and the unit number."""

    lat: int
    lon: int
    scale: int
    east: int
    west: int
    south: int
    north: int
    number: int


class Rectangle(typing.NamedTuple):
    """A rectangle of ground by its sides: west and east are longitudes, south and north latitudes."""

    west: int
    east: int
    south: int
    north: int


class Reading(typing.NamedTuple):
    """What reading answers. After a refusal every field and every side is 0."""

    reply: Reply
    fields: Fields
    rectangle: Rectangle


class Answer(enum.Enum):
    """What a message is answered, by its number. 40 to 43 are refusals: the account, the message
    number, the code, and full. As a str it is the words, or "refused" and the number."""

    ACTIVATED = 1
    ALREADY = 2
    CANCELLED = 3
    NOT_ACTIVE = 4
    OLD = 5
    ACCOUNT = 40
    NUMBER = 41
    CODE = 42
    FULL = 43

    def __str__(self):
        return "refused %d" % self.value if self.value >= 40 else self.name.lower().replace("_", " ")


class Lent(typing.NamedTuple):
    """What a message to a lent account is answered, and the account's last number and total afterwards."""

    answer: Answer
    last: int
    total: int


class Found(enum.Enum):
    """What a look finds at an offset of a page, by its number: a record, the page's end, or a refusal: past
    the end or cut short, the mark wrong, the content wrong."""

    RECORD = 0
    END = 1
    CUT = 52
    MARK = 53
    CONTENT = 54


class Looked(typing.NamedTuple):
    """What a look answers. Of a record it tells the letter, "A" or "C", the message number, and the code as
    the page's own twenty bytes; where there is none these are "", 0 and no bytes. A bytearray keeps its
    length as long as such a view of it lives."""

    answer: Found
    letter: str
    number: int
    code: memoryview


class Replayed(typing.NamedTuple):
    """What replay answers: 0 at the page's end or a refusal, the offset where it stopped, how often each
    answer came, and the last number and the total of the account."""

    refusal: int
    offset: int
    activated: int
    already: int
    cancelled: int
    inactive: int
    old: int
    full: int
    last: int
    total: int


def _struct(kind, base=ctypes.c_uint32):
    """The struct that C has for a tuple of numbers."""
    return type("_" + kind.__name__, (ctypes.Structure,), {"_fields_": [(f, base) for f in kind._fields]})


_Reply = _struct(Reply)
_Fields = _struct(Fields)
_Rectangle = _struct(Rectangle)


class _Reading(ctypes.Structure):
    _fields_ = [("reply", _Reply), ("fields", _Fields), ("rectangle", _Rectangle)]


class _Kind(ctypes.Structure):
    _fields_ = [("letter", ctypes.c_uint8)]


class _Lent(ctypes.Structure):
    _fields_ = [("answer", ctypes.c_uint32), ("last", ctypes.c_uint64), ("total", ctypes.c_uint64)]


class _Looked(ctypes.Structure):
    _fields_ = [("answer", ctypes.c_uint32), ("letter", ctypes.c_uint32), ("number", ctypes.c_uint64)]


class _Replayed(ctypes.Structure):
    _fields_ = [("refusal", ctypes.c_uint32), ("offset", ctypes.c_size_t)]
    _fields_ += [(name, ctypes.c_uint64) for name in Replayed._fields[2:]]


def _tuple(kind, struct):
    return kind(*(getattr(struct, f) for f in kind._fields))


_ROOM = [ctypes.c_void_p, ctypes.c_size_t]
_NUMBERS = [ctypes.c_void_p, ctypes.c_size_t]
_TEXT = [ctypes.c_char_p, ctypes.c_size_t]
_PLACES = [ctypes.c_void_p, ctypes.c_size_t]
_PAGE = [ctypes.c_void_p, ctypes.c_size_t]
_library = None


def load(path=None):
    """Loads the shared library from a path, or else from the one that the environment variable
    LINENSPRUCE names, or else from target/library beside this folder. The first call does it."""
    global _library
    here = os.path.dirname(os.path.abspath(__file__))
    built = os.path.join(here, "..", "target", "library", "liblinenspruce.so")
    library = ctypes.CDLL(path or os.environ.get("LINENSPRUCE") or built)
    for road in (library.linenspruce_code_quick, library.linenspruce_code_plain):
        road.argtypes = _ROOM + _NUMBERS + [_Kind, ctypes.c_uint32]
        road.restype = _Reply
    library.linenspruce_read.argtypes = _TEXT
    library.linenspruce_read.restype = _Reading
    library.linenspruce_write.argtypes = _ROOM + [_Fields]
    library.linenspruce_write.restype = _Reply
    for message in (library.linenspruce_activate, library.linenspruce_cancel):
        message.argtypes = _PLACES * 3 + [ctypes.c_uint64] * 2 + _TEXT + [ctypes.c_uint64]
        message.restype = _Lent
    for record in (library.linenspruce_record_activation, library.linenspruce_record_cancellation):
        record.argtypes = _PAGE + [ctypes.c_size_t] + _TEXT + [ctypes.c_uint64]
        record.restype = _Reply
    library.linenspruce_look.argtypes = _PAGE + [ctypes.c_size_t]
    library.linenspruce_look.restype = _Looked
    library.linenspruce_replay.argtypes = _PAGE + _PLACES * 3
    library.linenspruce_replay.restype = _Replayed
    _library = library
    return library


def _loaded():
    return _library or load()


def _number(name, value, end=1 << 32):
    """A number that C can take as it is: an int of 0 to 4,294,967,295, or below another end, and not a
    bool."""
    if type(value) is not int:
        raise TypeError("%s is an int, not %r" % (name, value))
    if not 0 <= value < end:
        raise ValueError("%s is 0 to %d, not %d" % (name, end - 1, value))
    return value


def _room(room):
    """The caller's own bytes, lent while the result lives."""
    if not isinstance(room, bytearray):
        raise TypeError("a room is a bytearray, not %s" % type(room).__name__)
    return (ctypes.c_uint8 * len(room)).from_buffer(room)


def _listed(name, numbers, end=1 << 32):
    if isinstance(numbers, (str, bytes, bytearray, dict, set, frozenset)):
        raise TypeError("numbers are a list of ints, not %s" % type(numbers).__name__)
    return [_number(name, n, end) for n in numbers]


def _numbers(numbers):
    checked = _listed("a coordinate", numbers)
    return (ctypes.c_uint32 * len(checked))(*checked)


def _text(text):
    if not isinstance(text, (bytes, bytearray)):
        raise TypeError("a text is bytes, not %s" % type(text).__name__)
    return bytes(text)


def _page(page):
    """The caller's own bytes, to be read alone: a page may be long, and is not copied."""
    if isinstance(page, bytearray):
        return _room(page)
    if not isinstance(page, bytes):
        raise TypeError("a page is bytes or a bytearray, not %s" % type(page).__name__)
    return page


def _places(places):
    """An array of the caller's own account, lent while the result lives."""
    if not isinstance(places, array.array) or places.typecode != "Q":
        raise TypeError("an account's places are an array of typecode Q, not %s" % type(places).__name__)
    return (ctypes.c_uint64 * len(places)).from_buffer(places)


def _kind(kind):
    if not isinstance(kind, Kind):
        raise TypeError("a kind is Kind.BUILDING or Kind.OTHER, not %r" % (kind,))
    return _Kind(ord(kind.value))


def _code(road, room, numbers, kind, number):
    lent, corners, letter = _room(room), _numbers(numbers), _kind(kind)
    number = _number("a unit number", number)
    return _tuple(Reply, road(lent, len(lent), corners, len(corners), letter, number))


def code_quick(room, numbers, kind, number):
    """Codes a unit by the quick road: writes bytes 0 to 19 of the room, or refuses (1 to 7 and 31)
    and writes nothing. The numbers are the corners' latitude, longitude, latitude, .."""
    return _code(_loaded().linenspruce_code_quick, room, numbers, kind, number)


def code_plain(room, numbers, kind, number):
    """The same answer by the plain road. It is for comparison on small units: with a large thin one
    it takes very long."""
    return _code(_loaded().linenspruce_code_plain, room, numbers, kind, number)


def read(text):
    """Reads a code: its fields and its rectangle, or a refusal (11 to 18)."""
    lent = _text(text)
    told = _loaded().linenspruce_read(lent, len(lent))
    return Reading(_tuple(Reply, told.reply), _tuple(Fields, told.fields), _tuple(Rectangle, told.rectangle))


def write(room, fields):
    """Writes the code of fields into bytes 0 to 19 of the room, or refuses (21 to 25) and writes
    nothing."""
    lent = _room(room)
    if not isinstance(fields, Fields):
        raise TypeError("fields are a Fields, not %s" % type(fields).__name__)
    checked = _Fields(*(_number(name, value) for name, value in zip(Fields._fields, fields)))
    return _tuple(Reply, _loaded().linenspruce_write(lent, len(lent), checked))


def _three(high, low, active):
    """The arrays of an account, each with its length."""
    lent = [word for places in (high, low, active) for word in (_places(places), len(places))]
    if high is low or low is active or active is high:
        raise ValueError("an account's places are three arrays, each of its own")
    return lent


def _send(message, high, low, active, last, total, text, number):
    lent = _three(high, low, active)
    last, total = _number("a last number", last, 1 << 64), _number("a total", total, 1 << 64)
    text, number = _text(text), _number("a message number", number, 1 << 64)
    told = message(*lent, last, total, text, len(text), number)
    return Lent(Answer(told.answer), told.last, told.total)


def activate(high, low, active, last, total, text, number):
    """Activates a code in an account that is lent as three arrays of typecode Q, its last number and its
    total. Arrays of another length than 256 are answered too: 40."""
    return _send(_loaded().linenspruce_activate, high, low, active, last, total, text, number)


def cancel(high, low, active, last, total, text, number):
    """Cancels a code in a lent account, likewise."""
    return _send(_loaded().linenspruce_cancel, high, low, active, last, total, text, number)


def _record(record, page, offset, text, number):
    lent, offset = _room(page), _number("an offset", offset, 1 << 64)
    text, number = _text(text), _number("a message number", number, 1 << 64)
    return _tuple(Reply, record(lent, len(lent), offset, text, len(text), number))


def record_activation(page, offset, text, number):
    """Writes the record of an activation, 31 bytes, at an offset of a page, which is a bytearray, or refuses
    (41, 42 and 51) and writes nothing."""
    return _record(_loaded().linenspruce_record_activation, page, offset, text, number)


def record_cancellation(page, offset, text, number):
    """Writes the record of a cancellation, likewise."""
    return _record(_loaded().linenspruce_record_cancellation, page, offset, text, number)


def look(page, offset):
    """Looks at an offset of a page: a record, the end, or a refusal (52 to 54)."""
    lent, offset = _page(page), _number("an offset", offset, 1 << 64)
    told = _loaded().linenspruce_look(lent, len(page), offset)
    answer = Found(told.answer)
    if answer is not Found.RECORD:
        return Looked(answer, "", 0, memoryview(b""))
    start = offset + RECORD_CODE
    return Looked(answer, chr(told.letter), told.number, memoryview(page)[start:start + CODE])


def replay(page, high, low, active):
    """Replays a page from an empty account into three arrays of typecode Q. Arrays of another length than
    256 are answered too: 40."""
    lent, arrays = _page(page), _three(high, low, active)
    return _tuple(Replayed, _loaded().linenspruce_replay(lent, len(page), *arrays))


class Account:
    """An account of entitlements: three arrays, the last number and the total, as linenspruce.h has them.
    It is empty, or what another one had: numbers of 0 to 18,446,744,073,709,551,615, of any length. How
    many codes are active is asked by its attribute `total`, which every message keeps true."""

    def __init__(self, high=(0,) * PLACES, low=(0,) * PLACES, active=(0,) * PLACES, last=0, total=0):
        self.high, self.low, self.active = (
            array.array("Q", _listed("a place's number", places, 1 << 64)) for places in (high, low, active)
        )
        self.last = _number("a last number", last, 1 << 64)
        self.total = _number("a total", total, 1 << 64)

    def activate(self, text, number):
        """Activates a code, and answers an Answer."""
        return self._keep(activate(self.high, self.low, self.active, self.last, self.total, text, number))

    def cancel(self, text, number):
        """Cancels a code, likewise."""
        return self._keep(cancel(self.high, self.low, self.active, self.last, self.total, text, number))

    def replay(self, page):
        """Becomes the account that the messages of a page leave from empty, and answers a Replayed. An account
        whose arrays have another length than 256 is left as it was: 40."""
        told = replay(page, self.high, self.low, self.active)
        if told.refusal != Answer.ACCOUNT.value:
            self.last, self.total = told.last, told.total
        return told

    def _keep(self, lent):
        self.last, self.total = lent.last, lent.total
        return lent.answer

    def codes(self):
        """The active codes in the order of their places. In an account that is refused 40 they may be
        no codes."""
        places = zip(self.high, self.low, self.active)
        return [_letters(high) + _letters(low) for high, low, active in places if active]


def _letters(half):
    """The ten letters of half a code."""
    return bytes(LETTERS[half >> shift & 31] for shift in range(45, -1, -5))
