"""The library from Python: document 01's case 1 by both roads, its code read and written again, case 5,
refusals, messages to an account, and a journal page of two messages. It prints the lines of example.out,
as example.c and example.rs do."""
from array import array

from linenspruce import CODE, PLACES, RECORD, Account, Kind, activate, cancel, code_plain, code_quick, look, read
from linenspruce import record_activation, record_cancellation, replay, write

# The square of case 1, a building with unit number 1: latitude, longitude, latitude, ..
SQUARE = [294250496, 857567232, 294250496, 857569280, 294252544, 857569280, 294252544, 857567232]

# Case 5, a strip with its chosen cell at one end: it reaches 31 steps from there at
# scale 27, so that its code has scale 26.
STRIP = [0, 0, 0, 961, 32, 961, 32, 0]

# A triangle whose third corner lies beyond 180 degrees.
BEYOND = [0, 0, 0, 960, 32, 1327104001]

# A bow-tie whose first corner is given twice: the first edge that has a length starts at corner 1.
CROSSED = [0, 0, 0, 0, 32, 960, 0, 960, 32, 0]


def dots(length):
    """A room. That of 22 is longer than a code, so that it is seen what stays as it was."""
    return bytearray(b"." * length)


def show(what, reply, room):
    print("%s %d %d [%s]" % (what, reply.number, reply.place, room.decode("ascii")))


def show_code(road, length, numbers, kind, number):
    room = dots(length)
    show(road.__name__, road(room, numbers, kind, number), room)
    return bytes(room[:CODE])


def show_write(length, fields):
    room = dots(length)
    show("write", write(room, fields), room)


def show_reading(told):
    (number, place), f, r = told
    print("read %d %d lat %d lon %d scale %d" % (number, place, f.lat, f.lon, f.scale), end=" ")
    print("east %d west %d south %d north %d number %d" % (f.east, f.west, f.south, f.north, f.number), end=" ")
    print("from west %d to east %d from south %d to north %d" % (r.west, r.east, r.south, r.north))


def accepted():
    show_code(code_quick, 22, SQUARE, Kind.BUILDING, 1)
    code = show_code(code_plain, 22, SQUARE, Kind.BUILDING, 1)
    told = read(code)
    show_reading(told)
    show_write(22, told.fields)
    show_code(code_quick, 22, STRIP, Kind.OTHER, 0)
    show_code(code_plain, 22, STRIP, Kind.OTHER, 0)


def refused_coding():
    show_code(code_quick, 22, [], Kind.BUILDING, 1)
    show_code(code_plain, 22, [], Kind.BUILDING, 1)
    show_code(code_quick, 19, SQUARE, Kind.BUILDING, 1)
    show_code(code_plain, 0, SQUARE, Kind.BUILDING, 1)
    show_code(code_quick, 22, SQUARE[:-1], Kind.BUILDING, 1)
    show_code(code_quick, 22, BEYOND, Kind.OTHER, 0)
    show_code(code_quick, 22, CROSSED, Kind.OTHER, 0)
    show_code(code_plain, 22, CROSSED, Kind.OTHER, 0)
    show_code(code_quick, 22, SQUARE, Kind.OTHER, 1)


def refused_reading_and_writing():
    fields = read(b"0W7ARCTDHYYRA99A0001").fields
    show_reading(read(b"00000000001UY112000O"))
    show_reading(read(b""))
    show_write(19, fields)
    show_write(0, fields)
    show_write(22, fields._replace(number=1048576))


# The codes of cases 1 and 5.
CASE_1, CASE_5 = b"0W7ARCTDHYYRA99A0001", b"00000000001TH1120000"


def show_answer(what, answer, account):
    codes = b" ".join(account.codes()).decode("ascii")
    print("%s %d last %d total %d [%s]" % (what, answer.value, account.last, account.total, codes))


def show_lent(what, lent, account):
    answer, account.last, account.total = lent
    show_answer(what, answer, account)


def show_activate(account, text, number):
    show_answer("activate", account.activate(text, number), account)


def show_cancel(account, text, number):
    show_answer("cancel", account.cancel(text, number), account)


def messages(account):
    """Activated twice, already, old, cancelled, not active, and the free place used again."""
    show_activate(account, CASE_1, 1)
    show_activate(account, CASE_5, 2)
    show_activate(account, CASE_1, 5)
    show_activate(account, CASE_1, 5)
    show_cancel(account, CASE_1, 6)
    show_cancel(account, CASE_1, 7)
    show_activate(account, CASE_1, 8)


def refused_messages(account):
    """A text with an O, an empty one, message numbers out of range, arrays of another length, empty
    ones, a total of 1 where two codes are active, and a code that is active twice."""
    high, low, active, none = account.high, account.low, account.active, array("Q")
    show_activate(account, b"00000000001TH112000O", 9)
    show_cancel(account, b"", 9)
    show_activate(account, CASE_5, 0)
    show_cancel(account, CASE_5, 1099511627776)
    show_lent("activate", activate(high[:255], low, active, account.last, account.total, CASE_5, 9), account)
    show_lent("cancel", cancel(none, none[:], none[:], account.last, account.total, CASE_5, 9), account)
    account.total = 1
    show_cancel(account, CASE_5, 9)
    high[2], low[2], active[2], account.total = high[1], low[1], 1, 3
    show_cancel(account, CASE_5, 9)


def full():
    """Buildings 1 to 257 of case 1's ground: the last finds the account full. The total is what counting
    finds."""
    account, fields, room = Account(), read(CASE_1).fields, bytearray(CODE)
    for number in range(1, PLACES + 2):
        write(room, fields._replace(number=number))
        answer = account.activate(room, number)
    codes = len(account.codes())
    print("activate %d last %d total %d [%d codes]" % (answer.value, account.last, account.total, codes))


def show_record(record, page, offset, text, number, shown=None):
    reply = record(page, offset, text, number)
    show(record.__name__, reply, page if shown is None else shown)


def show_look(page, offset):
    """Shows what is at an offset: the code is the page's own bytes."""
    answer, letter, number, code = look(page, offset)
    numbers = (answer.value, ord(letter or "\0"), number, bytes(code).decode("ascii"))
    print("look %d letter %d number %d [%s]" % numbers)


def show_replay(page, account, high):
    told = replay(page, high, account.low, account.active)
    account.last, account.total = told.last, told.total
    print("replay %d offset %d activated %d already %d" % told[:4], end=" ")
    print("cancelled %d not active %d old %d full %d" % told[4:8])
    codes = b" ".join(account.codes()).decode("ascii")
    print("account %d last %d total %d [%s]" % (told.refusal, account.last, account.total, codes))


def journal(page, account):
    """Two records, a look at each offset that matters, the replay up to the end, then with the two bytes
    behind it."""
    show_record(record_activation, page, 0, CASE_1, 1)
    show_record(record_cancellation, page, RECORD, CASE_5, 1099511627775)
    for offset in (0, RECORD, 2 * RECORD, 2 * RECORD + 2, 2 * RECORD + 3, 1):
        show_look(page, offset)
    show_replay(page[:2 * RECORD], account, account.high)
    show_replay(page, account, account.high)


def refused_journal(page, account):
    """Message numbers out of range, a text with an O, 30 bytes from the offset, an offset past the end, an
    empty page, then a letter that is no kind, and an array of another length."""
    show_record(record_activation, page, 0, CASE_1, 0)
    show_record(record_cancellation, page, 0, CASE_1, 1099511627776)
    show_record(record_activation, page, 0, b"00000000001TH112000O", 1)
    show_record(record_activation, page, RECORD + 3, CASE_1, 1)
    show_record(record_cancellation, page, (1 << 64) - 1, CASE_1, 1)
    show_record(record_activation, bytearray(), 0, CASE_1, 1, page)
    page[2] = ord("B")
    show_look(page, 0)
    show_replay(page[:2 * RECORD], account, account.high)
    show_replay(page[:2 * RECORD], account, account.high[:255])


accepted()
refused_coding()
refused_reading_and_writing()
kept = Account()
messages(kept)
refused_messages(kept)
full()
written = dots(2 * RECORD + 2)
journal(written, kept)
refused_journal(written, kept)
