/* Calls with an error in their types. With WRONG 0 this file compiles; with 1 to 23 the header has the
 * compiler refuse it, under -Wall -Werror. */
#include "linenspruce.h"

extern uint8_t room[20];
extern const uint8_t text[20];
extern const uint32_t numbers[8];
extern const int32_t with_sign[8];
extern const uint64_t wide[8];
extern struct linenspruce_fields fields;
extern struct linenspruce_reply reply;
extern struct linenspruce_reading reading;
extern uint64_t high[256], low[256], active[256];
extern uint32_t narrow[256];
extern const uint64_t kept[256];
extern struct linenspruce_lent lent;
extern uint8_t page[62];
extern const uint8_t stored[62];
extern struct linenspruce_looked looked;
extern struct linenspruce_replayed replayed;

void wrong(void);

void wrong(void) {
    reply = linenspruce_code_quick(room, 20, numbers, 8, linenspruce_building, 1);
    reply = linenspruce_code_plain(room, 20, numbers, 8, linenspruce_other, 0);
    reading = linenspruce_read(text, 20);
    reply = linenspruce_write(room, 20, fields);
    lent = linenspruce_activate(high, 256, low, 256, active, 256, 0, 0, text, 20, 1);
    lent = linenspruce_cancel(high, 256, low, 256, active, 256, lent.last, lent.total, text, 20, 2);
    reply = linenspruce_record_activation(page, 62, 0, text, 20, 1);
    reply = linenspruce_record_cancellation(page, 62, LINENSPRUCE_RECORD, text, 20, 2);
    looked = linenspruce_look(stored, 62, 0);
    replayed = linenspruce_replay(stored, 62, high, 256, low, 256, active, 256);
#if WRONG == 1 /* a letter for a kind */
    reply = linenspruce_code_quick(room, 20, numbers, 8, 'B', 1);
#elif WRONG == 2 /* kind and unit number in each other's place */
    reply = linenspruce_code_quick(room, 20, numbers, 8, 1, linenspruce_building);
#elif WRONG == 3 /* room and numbers in each other's place */
    reply = linenspruce_code_quick(numbers, 8, room, 20, linenspruce_building, 1);
#elif WRONG == 4 /* a room that may not be written */
    reply = linenspruce_code_plain(text, 20, numbers, 8, linenspruce_building, 1);
#elif WRONG == 5 /* numbers with a sign */
    reply = linenspruce_code_plain(room, 20, with_sign, 8, linenspruce_building, 1);
#elif WRONG == 6 /* numbers of another width */
    reply = linenspruce_code_plain(room, 20, wide, 8, linenspruce_building, 1);
#elif WRONG == 7 /* no length */
    reading = linenspruce_read(text);
#elif WRONG == 8 /* a reading taken for a reply */
    reply = linenspruce_read(text, 20);
#elif WRONG == 9 /* the fields by their address */
    reply = linenspruce_write(room, 20, &fields);
#elif WRONG == 10 /* an account's numbers of another width */
    lent = linenspruce_activate(high, 256, low, 256, narrow, 256, 0, 0, text, 20, 1);
#elif WRONG == 11 /* an account that may not be written */
    lent = linenspruce_activate(kept, 256, low, 256, active, 256, 0, 0, text, 20, 1);
#elif WRONG == 12 /* the message before last number and total */
    lent = linenspruce_cancel(high, 256, low, 256, active, 256, text, 20, 1, 0, 0);
#elif WRONG == 13 /* neither last number nor total */
    lent = linenspruce_cancel(high, 256, low, 256, active, 256, text, 20, 1);
#elif WRONG == 14 /* an answer taken for a reply */
    reply = linenspruce_cancel(high, 256, low, 256, active, 256, 0, 0, text, 20, 1);
#elif WRONG == 15 /* no total */
    lent = linenspruce_activate(high, 256, low, 256, active, 256, 0, text, 20, 1);
#elif WRONG == 16 /* the total by its address */
    lent = linenspruce_cancel(high, 256, low, 256, active, 256, lent.last, &lent.total, text, 20, 1);
#elif WRONG == 17 /* a page that may not be written */
    reply = linenspruce_record_activation(stored, 62, 0, text, 20, 1);
#elif WRONG == 18 /* the text before the offset */
    reply = linenspruce_record_cancellation(page, 62, text, 20, 0, 1);
#elif WRONG == 19 /* no offset */
    reply = linenspruce_record_activation(page, 62, text, 20, 1);
#elif WRONG == 20 /* a look taken for a reply */
    reply = linenspruce_look(stored, 62, 0);
#elif WRONG == 21 /* a look without the page's length */
    looked = linenspruce_look(stored, 0);
#elif WRONG == 22 /* the account before the page */
    replayed = linenspruce_replay(high, 256, low, 256, active, 256, stored, 62);
#elif WRONG == 23 /* a replay taken for the answer to a message */
    lent = linenspruce_replay(stored, 62, high, 256, low, 256, active, 256);
#endif
}
