/* Linenspruce for C and C++: codes of units by two roads, reading a code, writing one from its fields,
 * messages to an account of entitlements, and the journal page of such messages.
 *
 * Every call with pointers as described below is answered: nothing is asked of the numbers, the bytes,
 * the lengths, the offsets or the room. The answer of coding, reading, writing and recording is a reply, a
 * number and a place:
 *
 *      0   accepted; the place is 0
 *
 *   coding (linenspruce_code_quick, linenspruce_code_plain):
 *      1   the room is shorter than 20 bytes
 *      2   odd count of numbers (latitude, longitude alternate)
 *      3   fewer than 3 or more than 1,024 corners
 *      4   a coordinate above its range: latitude 663,552,000, longitude 1,327,104,000;
 *          the place is the first such corner
 *      5   an extent above 7,372,800
 *     31   the boundary is crossed: two of its edges, those of no length left out, share a point other
 *          than the corner at which one follows the other; the place is the corner where the first
 *          edge of the first such pair starts
 *      6   building with a number not in 1 to 1,048,575, or other kind with a number not 0
 *      7   no cell of levels 9 to 27 is inside
 *          (8, once a span above 31, is given no longer, and nothing else has its number)
 *
 *   reading (linenspruce_read):
 *     11   the text's length is not 20
 *     12   a byte that is no letter; the place is the first such byte
 *     13   the closing bit is 0
 *     14   a hemisphere bit is 1
 *     15   latitude degrees above 89 or longitude degrees above 179
 *     16   minutes or seconds above 59
 *     17   the scale is not 14 to 27
 *     18   E or N is below 2, W or S below 1
 *
 *   writing (linenspruce_write):
 *     21   the room is shorter than 20 bytes
 *     22   the reference is not a multiple of 32, or at or above 90 or 180 degrees
 *     23   the scale is not 14 to 27
 *     24   E or N is not 2 to 31, W or S not 1 to 31
 *     25   the unit number is above 1,048,575
 *
 * Checks run in the order of the table, and the first that refuses is told. Places count from 0;
 * where none is named the place is 0. Acceptance of coding and of writing writes bytes 0 to 19 of the
 * room and no others. A refusal writes nothing. There is no byte 0 after a code.
 *
 * An account is three arrays of 256 numbers, lent with each message, a last number and a total. Place i is
 * active where active[i] is not 0, and then holds the code whose first ten letters are high[i] and whose last
 * ten are low[i]: each ten letters as a number in base 32, first letter highest, by their places in
 * 0123456789ABCDEFGHJKLMNPQRTUVWXY. What a free place holds says nothing. The total is the number of active
 * places. An empty account is three arrays of 256 zeros with the last number 0 and the total 0. The answer to
 * a message is a number of its own:
 *
 *   a message (linenspruce_activate, linenspruce_cancel):
 *     40   refused, the account: an array whose length is not 256, one code active twice, an active place
 *          whose content is no code that reading accepts, a last number above 1,099,511,627,775, or a
 *          total that is not the count of its active places
 *     41   refused, the message number: 0 or above 1,099,511,627,775
 *     42   refused, the code: a text that reading refuses
 *      5   old: the message number is not above the last number
 *
 *   and then, to an activation:
 *      2   already: the code was active
 *     43   refused, full: the code was not active, and all 256 places are
 *      1   activated: the lowest free place has the code, and 1 in active
 *
 *   to a cancellation:
 *      4   not active: the code was not active
 *      3   cancelled: the code's place is 0 in all three arrays, and free again
 *
 * Again the first row that fits is told. Only 1 and 3 change the arrays, at that one place, and the total,
 * by one up or down; after any other answer they are what they were. 1, 2, 3, 4 and 43 use up the message
 * number: it is the last number afterwards. After 5, 40, 41 and 42 the last number is as it was handed in.
 * So the caller keeps the three arrays and, from each answer, the last number and the total, and hands them
 * in with the next message. No function is needed to ask how many codes are active: it is the total.
 *
 * A page is a message journal: bytes that the caller keeps, with records end to end, each of 31 bytes:
 *
 *   bytes 0 and 1    the mark 2A 2B
 *   byte 2           'A' for an activation, 'C' for a cancellation
 *   bytes 3 to 22    the code's twenty letters
 *   bytes 23 to 30   the message number in eight letters of base 32, high first
 *
 *   recording (linenspruce_record_activation, linenspruce_record_cancellation), a reply:
 *     41   the message number: 0 or above 1,099,511,627,775
 *     42   the code: a text that reading refuses
 *     51   fewer than 31 bytes from the offset to the page's end
 *      0   accepted: the 31 bytes from the offset on are the record, and no other byte changes
 *
 *   a look at an offset (linenspruce_look), an answer of its own:
 *      1   end: the offset is the page's length
 *     52   the offset is past the end, or fewer than 31 bytes are there
 *     53   the mark is wrong
 *     54   neither 'A' nor 'C', a code that reading refuses, a number with a byte that is no letter, or
 *          number 0
 *      0   a record
 *
 *   replay (linenspruce_replay), from the page's start and an empty account:
 *     40   an array whose length is not 256: every other number is 0, and nothing is written
 *     52, 53, 54   what a look answers at the offset where replay stopped
 *      0   the end, at the offset told
 *
 * Again the first row that fits is told. Where a look answers 0, the code of the record is the caller's own
 * twenty bytes at page + offset + 3. Recording asks no account: whether a message is old, or its code active,
 * is seen by replay. The arrays have the account afterwards that sending the page's messages one by one to
 * an empty account leaves, whatever they held before; so it is after 52, 53 and 54 too, for the messages
 * before the offset. The counts say how often each answer came: 1 to 5, and 43 as full.
 *
 * Pointers: a pointer and the length after it name that many elements of the caller's memory, aligned
 * as their type is, which nothing else writes meanwhile; a room lies apart from the numbers, a page that is
 * recorded in from the text, and the three arrays of an account from each other and from the text or the
 * page, and nothing else reads these meanwhile either. Where the length is 0 the pointer is not followed, and
 * NULL will do; and where the length of one array of an account is not 256, none of the three is followed.
 *
 * Angles are whole numbers of 1/2048 arc second, north latitude and east longitude. */
#ifndef LINENSPRUCE_H
#define LINENSPRUCE_H

#include <stddef.h>
#include <stdint.h>

#ifdef __cplusplus
extern "C" {
#endif

/* A code's bytes. */
#define LINENSPRUCE_CODE 20

/* An account's places. */
#define LINENSPRUCE_PLACES 256

/* A record's bytes, and where its code starts. */
#define LINENSPRUCE_RECORD 31
#define LINENSPRUCE_RECORD_CODE 3

/* The number and the place of the table above. */
struct linenspruce_reply {
    uint32_t number;
    uint32_t place;
};

/* The kind of a unit by the listing's letter: 'B' is a building, and every other byte is other kind.
 * A struct, so that a kind and a unit number cannot be given in each other's place. */
struct linenspruce_kind {
    uint8_t letter;
};

static const struct linenspruce_kind linenspruce_building = {'B'};
static const struct linenspruce_kind linenspruce_other = {'F'};

/* The fields of a code: its reference, scale, the spans E, W, S and N, and the unit number. */
struct linenspruce_fields {
    uint32_t lat;
    uint32_t lon;
    uint32_t scale;
    uint32_t east;
    uint32_t west;
    uint32_t south;
    uint32_t north;
    uint32_t number;
};

/* A rectangle of ground by its sides: west and east are longitudes, south and north latitudes. */
struct linenspruce_rectangle {
    uint32_t west;
    uint32_t east;
    uint32_t south;
    uint32_t north;
};

/* What reading answers. After a refusal every field and every side is 0. */
struct linenspruce_reading {
    struct linenspruce_reply reply;
    struct linenspruce_fields fields;
    struct linenspruce_rectangle rectangle;
};

/* Codes a unit by the quick road. The numbers are the corners' latitude, longitude, latitude, .. and
 * their count is of numbers, two a corner. Replies 0 to 7 and 31. */
struct linenspruce_reply linenspruce_code_quick(
    uint8_t *room, size_t room_length,
    const uint32_t *numbers, size_t numbers_count,
    struct linenspruce_kind kind, uint32_t number);

/* The same answer by the plain road, which tries the cells of each level in turn. It is for
 * comparison on small units: with a large thin one it takes very long. Replies 0 to 7 and 31. */
struct linenspruce_reply linenspruce_code_plain(
    uint8_t *room, size_t room_length,
    const uint32_t *numbers, size_t numbers_count,
    struct linenspruce_kind kind, uint32_t number);

/* Reads a code. Replies 0 and 11 to 18. */
struct linenspruce_reading linenspruce_read(const uint8_t *text, size_t text_length);

/* Writes the code of fields. Replies 0 and 21 to 25. */
struct linenspruce_reply linenspruce_write(
    uint8_t *room, size_t room_length,
    struct linenspruce_fields fields);

/* What a message is answered: a number of the table of messages, where 1 to 5 are not those of coding, and
 * the last number and the total of the account afterwards. */
struct linenspruce_lent {
    uint32_t answer;
    uint64_t last;
    uint64_t total;
};

/* Activates a code in an account: high, low, active, the last number and the total are the account, text and
 * number the message. Answers 1, 2, 5 and 40 to 43. */
struct linenspruce_lent linenspruce_activate(
    uint64_t *high, size_t high_length,
    uint64_t *low, size_t low_length,
    uint64_t *active, size_t active_length,
    uint64_t last,
    uint64_t total,
    const uint8_t *text, size_t text_length,
    uint64_t number);

/* Cancels a code in an account. Answers 3, 4, 5 and 40 to 42. */
struct linenspruce_lent linenspruce_cancel(
    uint64_t *high, size_t high_length,
    uint64_t *low, size_t low_length,
    uint64_t *active, size_t active_length,
    uint64_t last,
    uint64_t total,
    const uint8_t *text, size_t text_length,
    uint64_t number);

/* Writes the record of an activation at an offset of a page. Replies 0, 41, 42 and 51. */
struct linenspruce_reply linenspruce_record_activation(
    uint8_t *page, size_t page_length,
    size_t offset,
    const uint8_t *text, size_t text_length,
    uint64_t number);

/* Writes the record of a cancellation, likewise. */
struct linenspruce_reply linenspruce_record_cancellation(
    uint8_t *page, size_t page_length,
    size_t offset,
    const uint8_t *text, size_t text_length,
    uint64_t number);

/* What a look answers: a number of its table, the letter of the record, 'A' or 'C', and its message number.
 * Letter and number are 0 where there is no record. */
struct linenspruce_looked {
    uint32_t answer;
    uint32_t letter;
    uint64_t number;
};

/* Looks at an offset of a page. Answers 0, 1 and 52 to 54. */
struct linenspruce_looked linenspruce_look(
    const uint8_t *page, size_t page_length,
    size_t offset);

/* What replay answers: the refusal of its table or 0, the offset where it stopped, how often each answer
 * came, and the last number and the total of the account. */
struct linenspruce_replayed {
    uint32_t refusal;
    size_t offset;
    uint64_t activated;
    uint64_t already;
    uint64_t cancelled;
    uint64_t inactive;
    uint64_t old;
    uint64_t full;
    uint64_t last;
    uint64_t total;
};

/* Replays a page into the arrays of an account. Refusals 40 and 52 to 54. */
struct linenspruce_replayed linenspruce_replay(
    const uint8_t *page, size_t page_length,
    uint64_t *high, size_t high_length,
    uint64_t *low, size_t low_length,
    uint64_t *active, size_t active_length);

#ifdef __cplusplus
}
#endif

#endif
