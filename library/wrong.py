"""Calls that are wrong in their types, those that only C's types let through, accounts with another total,
offsets past a page, and very long ones. Each of the first is a TypeError or a ValueError, and the room, the
page or the account stays as it was; the others have their defined replies and answers."""
from array import array

import linenspruce
from linenspruce import PLACES, RECORD, Account, Answer, Fields, Found, Kind, Lent, Replayed, Reply
from linenspruce import activate, cancel, code_plain, code_quick, look, read
from linenspruce import record_activation, record_cancellation, replay, write

SQUARE = [294250496, 857567232, 294250496, 857569280, 294252544, 857569280, 294252544, 857567232]
CASE_1 = b"0W7ARCTDHYYRA99A0001"
LONG = 100000
GOOD = Fields(294251488, 857568224, 25, 10, 9, 9, 10, 1)

NO_NUMBER = [(None, TypeError), (1.0, TypeError), ("1", TypeError), (True, TypeError), (-1, ValueError), (1 << 32, ValueError)]
NO_NUMBERS = [None, 7, "12345678", b"12345678", {1: 2}, {1, 2}, [[1, 2]], SQUARE + [None]]
NO_ROOM = [None, 20, b"." * 20, "." * 20, [0] * 20, memoryview(bytearray(20))]
NO_KIND = [None, "B", b"B", 66, True]
NO_TEXT = [None, 20, "0W7ARCTDHYYRA99A0001", [48] * 20]
NO_FIELDS = [None, tuple(GOOD), list(GOOD), GOOD._asdict()]
NO_PAGE = [None, 31, "." * 31, [0] * 31, memoryview(bytearray(31)), array("B", [0] * 31)]
NO_LONG = NO_NUMBER[:-1] + [(1 << 64, ValueError)]
NO_PLACES = [None, 256, [0] * 256, bytearray(2048), array("I", [0] * 256), array("q", [0] * 256), memoryview(array("Q", [0] * 256))]

tried = 0


def refuses(error, room, call, *words):
    """The call raises that error, and the room is as it was."""
    global tried
    tried += 1
    before = bytes(room) if isinstance(room, bytearray) else None
    try:
        call(*words)
    except error:
        assert before is None or bytes(room) == before
        return
    raise AssertionError("%s%r is not a %s" % (call.__name__, words, error.__name__))


def wrong_coding(road):
    room = bytearray(b"." * 22)
    for value, error in NO_NUMBER:
        refuses(error, room, road, room, SQUARE, Kind.BUILDING, value)
        refuses(error, room, road, room, SQUARE[:5] + [value] + SQUARE[6:], Kind.BUILDING, 1)
    for numbers in NO_NUMBERS:
        refuses(TypeError, room, road, room, numbers, Kind.BUILDING, 1)
    for other in NO_ROOM:
        refuses(TypeError, other, road, other, SQUARE, Kind.BUILDING, 1)
    for kind in NO_KIND:
        refuses(TypeError, room, road, room, SQUARE, kind, 1)


def wrong_writing():
    room = bytearray(b"." * 22)
    for value, error in NO_NUMBER:
        for name in Fields._fields:
            refuses(error, room, write, room, GOOD._replace(**{name: value}))
    for other in NO_ROOM:
        refuses(TypeError, other, write, other, GOOD)
    for fields in NO_FIELDS:
        refuses(TypeError, room, write, room, fields)


def wrong_messages(message):
    account = Account()
    account.activate(CASE_1, 1)
    good = [account.high, account.low, account.active, 1, 1, CASE_1, 2]
    before = [bytes(places) for places in good[:3]]

    def refuses_at(error, place, value):
        refuses(error, None, message, *good[:place], value, *good[place + 1:])
        assert [bytes(places) for places in good[:3]] == before

    for place in range(3):
        for other in NO_PLACES:
            refuses_at(TypeError, place, other)
        # One array twice.
        refuses_at(ValueError, place, good[(place + 1) % 3])
    for value, error in NO_LONG:
        for place in (3, 4, 6):
            refuses_at(error, place, value)
    for text in NO_TEXT:
        refuses_at(TypeError, 5, text)
    for places in NO_NUMBERS:
        refuses(TypeError, None, Account, places)
    for value, error in NO_LONG:
        refuses(error, None, Account, [0] * 255 + [value])
        refuses(error, None, Account, [0], [0], [0], value)
        refuses(error, None, Account, [0], [0], [0], 0, value)


def wrong_pages():
    page, account = bytearray(b"." * (2 * RECORD)), Account()
    lent = account.high, account.low, account.active
    for record in (record_activation, record_cancellation):
        for value, error in NO_LONG:
            refuses(error, page, record, page, value, CASE_1, 1)
            refuses(error, page, record, page, 0, CASE_1, value)
        for text in NO_TEXT:
            refuses(TypeError, page, record, page, 0, text, 1)
        # What is only read may be bytes, and what is recorded in may not.
        for other in NO_PAGE + [bytes(page)]:
            refuses(TypeError, None, record, other, 0, CASE_1, 1)
    for value, error in NO_LONG:
        refuses(error, page, look, page, value)
    for other in NO_PAGE:
        refuses(TypeError, None, look, other, 0)
        refuses(TypeError, None, replay, other, *lent)
        refuses(TypeError, None, account.replay, other)
    for place in range(3):
        for other in NO_PLACES + [lent[(place + 1) % 3]]:
            refuses((TypeError, ValueError), page, replay, page, *lent[:place], other, *lent[place + 1:])
    assert not any(map(any, lent))


def every_letter(library):
    """`B` is a building, and every other byte is other kind: with unit number 1 that is refused 6."""
    global tried
    for road in (library.linenspruce_code_quick, library.linenspruce_code_plain):
        for letter in range(256):
            room, numbers = linenspruce._room(bytearray(20)), linenspruce._numbers(SQUARE)
            reply = road(room, 20, numbers, 8, linenspruce._Kind(letter), 1)
            assert reply.number == (0 if letter == ord("B") else 6), letter
            tried += 1


def other_lengths(message, sent):
    """Accounts whose arrays have other lengths: 40, and all is as it was. The last ones name more than any
    memory has, and are not followed."""
    global tried
    for place in range(3):
        for length in (0, 1, 255, 257, 512, LONG):
            lengths = [PLACES] * 3
            lengths[place] = length
            lent = [array("Q", [7] * length) for length in lengths]
            kept = (1 << 64) - 1, (1 << 64) - 2
            assert message(*lent, *kept, CASE_1, 1) == Lent(Answer.ACCOUNT, *kept)
            assert all(set(places) <= {7} for places in lent)
            tried += 1
        for length in (1 << 32, (1 << 32) + PLACES, 1 << 61, (1 << 61) + PLACES, (1 << 64) - PLACES, (1 << 64) - 1):
            lent = [array("Q", [0] * PLACES) for _ in range(3)]
            words = [word for places in lent for word in (linenspruce._places(places), PLACES)]
            words[2 * place + 1] = length
            told = sent(*words, 5, 0, CASE_1, 20, 6)
            assert (told.answer, told.last, told.total) == (40, 5, 0)
            assert not any(map(any, lent))
            tried += 1


def other_lengths_replayed(replays):
    """A page replayed into arrays of other lengths: 40 and 0, and all is as it was, as in `other_lengths`."""
    global tried
    page = bytearray(RECORD)
    assert record_activation(page, 0, CASE_1, 1) == Reply(0, 0)
    for place in range(3):
        for length in (0, 1, 255, 257, 512, LONG):
            lengths = [PLACES] * 3
            lengths[place] = length
            lent = [array("Q", [7] * length) for length in lengths]
            account = Account(*lent, 8, 9)
            assert replay(page, *lent) == account.replay(page) == Replayed(40, *[0] * 9)
            assert all(set(places) <= {7} for places in lent) and (account.last, account.total) == (8, 9)
            tried += 2
        for length in (1 << 32, (1 << 32) + PLACES, 1 << 61, (1 << 61) + PLACES, (1 << 64) - PLACES, (1 << 64) - 1):
            lent = [array("Q", [0] * PLACES) for _ in range(3)]
            words = [word for places in lent for word in (linenspruce._places(places), PLACES)]
            words[2 * place + 1] = length
            assert replays(linenspruce._page(page), RECORD, *words).refusal == 40
            assert not any(map(any, lent))
            tried += 1


def long_pages():
    """Offsets far past the end of a page, and a page that is long."""
    global tried
    page = bytearray(b"." * LONG)
    for offset in (LONG - RECORD + 1, LONG, LONG + 1, 1 << 32, 1 << 63, (1 << 64) - RECORD, (1 << 64) - 1):
        assert record_cancellation(page, offset, CASE_1, 1) == Reply(51, 0)
        assert look(page, offset).answer is (Found.END if offset == LONG else Found.CUT)
        tried += 2
    assert page == b"." * LONG
    records = LONG // RECORD
    for number in range(1, records + 1):
        assert record_activation(page, (number - 1) * RECORD, numbered(number), number) == Reply(0, 0)
    account = Account()
    told = account.replay(page)
    full = records - PLACES
    assert told == Replayed(52, records * RECORD, PLACES, 0, 0, 0, 0, full, records, PLACES)
    assert account.replay(bytes(page[:records * RECORD])) == told._replace(refusal=0)
    assert account.codes() == [bytes(numbered(number)) for number in range(1, PLACES + 1)]
    seen = look(page, RECORD)
    assert (seen.answer, seen.letter, seen.number, seen.code) == (Found.RECORD, "A", 2, numbered(2))
    # The code is the page's own bytes.
    page[RECORD + 3] = ord(".")
    assert bytes(seen.code) == b"." + numbered(2)[1:]
    tried += records + 4


def other_totals(message):
    """Accounts of no, one and 256 active codes with every near total but their own, and such as are their own
    in the lowest bits: 40, and all is as it was."""
    global tried
    for count in (0, 1, PLACES):
        account = Account()
        for number in range(1, count + 1):
            assert account.activate(numbered(number), number) == Answer.ACTIVATED
        assert account.total == count
        lent = [account.high, account.low, account.active]
        before = [bytes(places) for places in lent]
        for total in {*range(PLACES + 2), *(count + (1 << bit) for bit in range(64))} - {count}:
            assert message(*lent, count, total, CASE_1, 1000) == Lent(Answer.ACCOUNT, count, total)
            assert [bytes(places) for places in lent] == before
            tried += 1


def numbered(number):
    """The code of a building on the ground of case 1."""
    room = bytearray(20)
    assert write(room, GOOD._replace(number=number)) == Reply(0, 0)
    return room


def no_pointer(library):
    """A null pointer with length 0."""
    global tried
    building = linenspruce._Kind(ord("B"))
    for road in (library.linenspruce_code_quick, library.linenspruce_code_plain):
        assert road(None, 0, None, 0, building, 1).number == 1
        assert road(linenspruce._room(bytearray(20)), 20, None, 0, building, 1).number == 3
    assert library.linenspruce_read(None, 0).reply.number == 11
    assert library.linenspruce_write(None, 0, linenspruce._Fields(*GOOD)).number == 21
    lent = [word for _ in range(3) for word in ((linenspruce.ctypes.c_uint64 * PLACES)(), PLACES)]
    for message in (library.linenspruce_activate, library.linenspruce_cancel):
        assert message(None, 0, None, 0, None, 0, 7, 0, None, 0, 8).answer == 40
        assert message(*lent, 7, 0, None, 0, 8).answer == 42
    for record in (library.linenspruce_record_activation, library.linenspruce_record_cancellation):
        assert record(None, 0, 0, CASE_1, 20, 1).number == 51
        assert record(None, 0, 0, None, 0, 1).number == 42
    assert library.linenspruce_look(None, 0, 0).answer == 1
    assert library.linenspruce_look(None, 0, 1).answer == 52
    assert library.linenspruce_replay(None, 0, None, 0, None, 0, None, 0).refusal == 40
    assert library.linenspruce_replay(None, 0, *lent).refusal == 0
    tried += 18


def long_ones(road):
    """More numbers than a unit has, a long text and long rooms."""
    global tried
    room = bytearray(b"." * LONG)
    assert road(room, [0] * 2050, Kind.OTHER, 0) == (3, 0)
    assert road(room, [0] * LONG, Kind.OTHER, 0) == (3, 0)
    assert road(room, [0] * (LONG + 1), Kind.OTHER, 0) == (2, 0)
    assert read(room).reply == (11, 0)
    assert room == b"." * LONG
    assert road(room, SQUARE, Kind.BUILDING, 1) == (0, 0)
    assert room == CASE_1 + b"." * (LONG - 20)
    room[:20] = b"." * 20
    assert write(room, GOOD) == (0, 0)
    assert room == CASE_1 + b"." * (LONG - 20)
    tried += 6


wrong_coding(code_quick)
wrong_coding(code_plain)
wrong_writing()
wrong_messages(activate)
wrong_messages(cancel)
wrong_pages()
for other_text in NO_TEXT:
    refuses(TypeError, None, read, other_text)
refuses(OSError, None, linenspruce.load, "no/such/library.so")
# What was loaded before is still there.
right = bytearray(20)
assert code_quick(right, tuple(SQUARE), Kind.BUILDING, 1) == Reply(0, 0) and right == CASE_1
every_letter(linenspruce.load())
other_lengths(activate, linenspruce.load().linenspruce_activate)
other_lengths(cancel, linenspruce.load().linenspruce_cancel)
other_lengths_replayed(linenspruce.load().linenspruce_replay)
long_pages()
other_totals(activate)
other_totals(cancel)
assert Account().activate(b"0" * LONG, 1) == Account().cancel(bytearray(LONG), 1) == Answer.CODE
assert [str(answer) for answer in Answer][2:6] == ["cancelled", "not active", "old", "refused 40"]
no_pointer(linenspruce.load())
long_ones(code_quick)
long_ones(code_plain)
print("library: %d wrong and long calls have their answers" % tried)
