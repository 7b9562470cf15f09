"""Answers the judge's requests (judge/README.md) by the library: a request a line on standard input,
an answer a line on standard output, for judge/gate/compare and library/try to hold against the judge's.
It knows `write`, `read`, `plain`, `quick`, `message`, `total`, `record`, `look` and `replay`, and answers `?` to
every other line."""
import re
import sys

from linenspruce import PLACES, Account, Fields, Found, Kind, code_plain, code_quick, look, read
from linenspruce import record_activation, record_cancellation, write

MESSAGES = {b"A": Account.activate, b"C": Account.cancel}
RECORDS = {b"A": record_activation, b"C": record_cancellation}
ROADS = {b"plain": code_plain, b"quick": code_quick}
KINDS = {b"B": Kind.BUILDING, b"F": Kind.OTHER}
LONGEST = 24576
DECIMAL = re.compile(rb"0|[1-9][0-9]{0,19}")
PAGE = re.compile(rb"-|([0-9A-Fa-f]{2})+")


class NoRequest(Exception):
    """A line of no such form."""


def number(word, end=1 << 32):
    if not DECIMAL.fullmatch(word) or int(word) >= end:
        raise NoRequest
    return int(word)


def room(word):
    length = number(word)
    if length > 64:
        raise NoRequest
    return bytearray(b"." * length)


def left(reply, lent):
    return b"%d %d %s" % (reply.number, reply.place, lent)


def answer_write(words):
    if len(words) != 9:
        raise NoRequest
    lent = room(words[0])
    return left(write(lent, Fields(*map(number, words[1:]))), lent)


def answer_read(text):
    reply, fields, rectangle = read(text)
    return b" ".join(b"%d" % n for n in reply + fields + rectangle)


def answer_code(road, words):
    if len(words) < 3 or words[1] not in KINDS:
        raise NoRequest
    lent = room(words[0])
    unit_number, *numbers = map(number, words[2:])
    return left(road(lent, numbers, KINDS[words[1]], unit_number), lent)


def first_numbers(count, rest):
    """So many numbers of up to 64 bits, and what follows the space after each."""
    *words, rest = parts(count, rest)
    return [number(word, 1 << 64) for word in words] + [rest]


def parts(count, rest):
    words = rest.split(b" ", count)
    if len(words) <= count:
        raise NoRequest
    return words


def account_in(rest):
    """The account that a request has, and the text after it."""
    last, total, count, rest = first_numbers(3, rest)
    account, least = Account(last=last, total=total), 0
    for _ in range(count):
        place, active, high, low, rest = first_numbers(4, rest)
        # More than 256 places cannot rise, so no count needs a bound of its own.
        if not least <= place < PLACES:
            raise NoRequest
        account.active[place], account.high[place], account.low[place] = active, high, low
        least = place + 1
    return account, rest


def account_words(account):
    kept = zip(range(PLACES), account.active, account.high, account.low)
    listed = [place for place in kept if any(place[1:])]
    numbers = (account.last, account.total, len(listed), *(n for place in listed for n in place))
    return b" ".join(b"%d" % n for n in numbers)


def answer_message(rest):
    kind, rest = parts(1, rest)
    sent, rest = first_numbers(1, rest)
    account, text = account_in(rest)
    if kind not in MESSAGES:
        raise NoRequest
    said = MESSAGES[kind](account, text, sent)
    word = b"%d" % said.value if said.value >= 40 else str(said).replace(" ", "-").encode()
    return word + b" " + account_words(account)


def answer_total(rest):
    # A space after every number, as where a text follows: the account then leaves nothing.
    account, more = account_in(rest + b" ")
    if more:
        raise NoRequest
    return b"%d" % account.total


def page_in(word):
    """The bytes of a page, which stand as hexadecimal digits; of an empty one as `-`."""
    if not PAGE.fullmatch(word):
        raise NoRequest
    return bytearray.fromhex(word.decode("ascii").strip("-"))


def answer_record(rest):
    kind, rest = parts(1, rest)
    sent, offset, rest = first_numbers(2, rest)
    word, text = parts(1, rest)
    page = page_in(word)
    if kind not in RECORDS:
        raise NoRequest
    reply = RECORDS[kind](page, offset, text, sent)
    assert reply.place == 0
    return b"%d %s" % (reply.number, page.hex().upper().encode() or b"-")


def answer_look(rest):
    offset, word = first_numbers(1, rest)
    page = page_in(word)
    # Of a page that may not be written the answer is the same.
    looked = look(page, offset)
    assert looked == look(bytes(page), offset)
    if looked.answer is Found.RECORD:
        return b"0 %s %d %s" % (looked.letter.encode(), looked.number, bytes(looked.code))
    return b"end" if looked.answer is Found.END else b"%d" % looked.answer.value


def answer_replay(word):
    page, account = page_in(word), Account(*[[7] * PLACES] * 3, 7, 7)
    told = account.replay(page)
    # What the account held before is gone.
    return b" ".join(b"%d" % n for n in told[:8]) + b" " + account_words(account)


def answer(line):
    if line.startswith(b"read "):
        return answer_read(line[5:])
    if line.startswith(b"message "):
        return answer_message(line[8:])
    if line.startswith(b"total "):
        return answer_total(line[6:])
    if line.startswith(b"record "):
        return answer_record(line[7:])
    if line.startswith(b"look "):
        return answer_look(line[5:])
    if line.startswith(b"replay "):
        return answer_replay(line[7:])
    what, *words = line.split(b" ")
    if what == b"write":
        return answer_write(words)
    if what in ROADS:
        return answer_code(ROADS[what], words)
    raise NoRequest


def answer_line(line):
    if len(line) > LONGEST:
        return b"?"
    try:
        return answer(line)
    except NoRequest:
        return b"?"


lines = sys.stdin.buffer.read().split(b"\n")
# No line starts after a line feed that ends the input.
if lines[-1] == b"":
    lines.pop()
for each in lines:
    sys.stdout.buffer.write(answer_line(each) + b"\n")
