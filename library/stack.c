/* How much stack a call takes: each is made on a stack of its own that was filled with one byte before, and
 * what no longer has it was used. The unit is a diagonal of 1° with 1,024 corners, narrower than a cell of
 * the finest level, so that the quick road makes its largest rooms and goes down to the last halving; the
 * plain road, which would take too long on it, is asked for a small unit. A message goes to a full account
 * and is answered 43. Of a page of as many activations the last is recorded, and looked at, and all are replayed.
 * library/try runs it. */
#define _POSIX_C_SOURCE 200809L
#include "linenspruce.h"

#include <pthread.h>
#include <stdio.h>
#include <stdlib.h>
#include <string.h>

enum { CORNERS = 1024, PLACES = LINENSPRUCE_PLACES, DEGREE = 7372800, STACK = 1 << 20, FILL = 0xA5 };

static uint32_t thin[2 * CORNERS];
static const uint32_t small[] = { 0, 0, 0, 960, 32, 960, 32, 0 };

static void *nothing(void *said) { return said; }

static void *quick(void *said) {
    uint8_t room[20];
    *(struct linenspruce_reply *)said =
        linenspruce_code_quick(room, sizeof room, thin, 2 * CORNERS, linenspruce_other, 0);
    return said;
}

static void *plain(void *said) {
    uint8_t room[20];
    *(struct linenspruce_reply *)said =
        linenspruce_code_plain(room, sizeof room, small, 8, linenspruce_other, 0);
    return said;
}

static void *read_and_write(void *said) {
    static const char text[] = "28HD5RK6WKYRR6660000";
    struct linenspruce_reading of = linenspruce_read((const uint8_t *)text, 20);
    uint8_t room[20];
    *(struct linenspruce_reply *)said = linenspruce_write(room, sizeof room, of.fields);
    return said;
}

static uint64_t high[PLACES], low[PLACES], active[PLACES];

/* The messages are numbered from 1, and each but the last adds a code: what is before one is both the last
 * number and the total. */
static struct linenspruce_lent activate(const uint8_t *code, uint64_t number) {
    uint64_t before = number - 1;
    return linenspruce_activate(high, PLACES, low, PLACES, active, PLACES, before, before, code, 20, number);
}

/* The code of a unit number. */
static void numbered(uint8_t *room, uint32_t number) {
    struct linenspruce_fields fields = { 0, 0, 27, 2, 1, 1, 2, 0 };
    fields.number = number;
    linenspruce_write(room, 20, fields);
}

static void *message(void *said) {
    uint8_t room[20];
    numbered(room, PLACES + 1);
    ((struct linenspruce_reply *)said)->number = activate(room, PLACES + 1).answer;
    return said;
}

static uint8_t page[(PLACES + 1) * LINENSPRUCE_RECORD];

static struct linenspruce_reply recorded(uint32_t number) {
    uint8_t room[20];
    numbered(room, number);
    return linenspruce_record_activation(page, sizeof page, (number - 1) * LINENSPRUCE_RECORD, room, 20, number);
}

static void *record_and_look(void *said) {
    *(struct linenspruce_reply *)said = recorded(PLACES + 1);
    ((struct linenspruce_reply *)said)->place = linenspruce_look(page, sizeof page, PLACES * LINENSPRUCE_RECORD).answer;
    return said;
}

static void *replay(void *said) {
    struct linenspruce_replayed of = linenspruce_replay(page, sizeof page, high, PLACES, low, PLACES, active, PLACES);
    ((struct linenspruce_reply *)said)->number = of.refusal;
    ((struct linenspruce_reply *)said)->place = (uint32_t)of.full;
    return said;
}

/* The bytes of stack that a thread takes which does this alone. */
static size_t taken(void *(*work)(void *), struct linenspruce_reply *said) {
    pthread_attr_t attr;
    pthread_t thread;
    void *stack;
    size_t left = 0;
    if (posix_memalign(&stack, 4096, STACK) != 0) abort();
    memset(stack, FILL, STACK);
    if (pthread_attr_init(&attr) || pthread_attr_setstack(&attr, stack, STACK)
        || pthread_create(&thread, &attr, work, said) || pthread_join(thread, NULL)) abort();
    while (left < STACK && ((unsigned char *)stack)[left] == FILL) left++;
    free(stack);
    return STACK - left;
}

int main(void) {
    struct linenspruce_reply of_quick = { 0 }, of_plain = { 0 }, of_both = { 0 }, of_message = { 0 }, none = { 0 };
    struct linenspruce_reply of_record = { 0 }, of_replay = { 0 };
    uint8_t code[20];
    size_t i, half = CORNERS / 2, own, most, sent, looked, replayed;
    for (i = 0; i < half; i++) {
        uint32_t at = (uint32_t)(i * (DEGREE - 16) / (half - 1));
        thin[2 * i] = at, thin[2 * i + 1] = at + 16;
        thin[2 * (CORNERS - 1 - i)] = at + 16, thin[2 * (CORNERS - 1 - i) + 1] = at;
    }
    for (i = 1; i <= PLACES; i++) numbered(code, (uint32_t)i), activate(code, i), recorded((uint32_t)i);
    own = taken(nothing, &none);
    most = taken(quick, &of_quick) - own;
    sent = taken(message, &of_message) - own;
    looked = taken(record_and_look, &of_record) - own;
    replayed = taken(replay, &of_replay) - own;
    printf("library: the quick road took %lu KiB of stack, the plain road %lu KiB, reading and writing %lu KiB, "
           "a message %lu KiB, recording and a look %lu KiB, replay %lu KiB\n",
           (unsigned long)(most / 1024 + 1), (unsigned long)((taken(plain, &of_plain) - own) / 1024 + 1),
           (unsigned long)((taken(read_and_write, &of_both) - own) / 1024 + 1),
           (unsigned long)(sent / 1024 + 1), (unsigned long)(looked / 1024 + 1), (unsigned long)(replayed / 1024 + 1));
    return of_quick.number != 7 || of_plain.number != 0 || of_both.number != 0 || of_message.number != 43
        || of_record.number != 0 || of_record.place != 0 || of_replay.number != 0 || of_replay.place != 1
        || most > 192 * 1024 || sent > 192 * 1024 || looked > 192 * 1024 || replayed > 288 * 1024;
}
