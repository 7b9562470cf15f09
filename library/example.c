/* The library from C: document 01's case 1 by both roads, its code read and written again, case 5,
 * refusals, messages to an account, and a journal page of two messages. It prints the lines of example.out,
 * as example.py and example.rs do. */
#include <stdio.h>
#include <string.h>

#include "linenspruce.h"

/* The square of case 1, a building with unit number 1: latitude, longitude, latitude, .. */
static const uint32_t square[] = {
    294250496, 857567232, 294250496, 857569280, 294252544, 857569280, 294252544, 857567232,
};
#define NUMBERS (sizeof square / sizeof *square)

/* Case 5, a strip with its chosen cell at one end: it reaches 31 steps from there at
 * scale 27, so that its code has scale 26. */
static const uint32_t strip[] = {0, 0, 0, 961, 32, 961, 32, 0};

/* A triangle whose third corner lies beyond 180 degrees. */
static const uint32_t beyond[] = {0, 0, 0, 960, 32, 1327104001};

/* A bow-tie whose first corner is given twice: the first edge that has a length starts at corner 1. */
static const uint32_t crossed[] = {0, 0, 0, 0, 32, 960, 0, 960, 32, 0};

/* A room that is longer than a code, so that it is seen what stays as it was. */
static uint8_t room[22];

static uint8_t *dots(void) { return memset(room, '.', sizeof room); }

static void show(const char *what, struct linenspruce_reply r, size_t length) {
    printf("%s %u %u [%.*s]\n", what, (unsigned)r.number, (unsigned)r.place, (int)length, (const char *)room);
}

static void show_reading(struct linenspruce_reading t) {
    const struct linenspruce_fields f = t.fields;
    const struct linenspruce_rectangle r = t.rectangle;
    printf("read %u %u", (unsigned)t.reply.number, (unsigned)t.reply.place);
    printf(" lat %u lon %u scale %u", (unsigned)f.lat, (unsigned)f.lon, (unsigned)f.scale);
    printf(" east %u west %u south %u north %u", (unsigned)f.east, (unsigned)f.west, (unsigned)f.south, (unsigned)f.north);
    printf(" number %u", (unsigned)f.number);
    printf(" from west %u to east %u", (unsigned)r.west, (unsigned)r.east);
    printf(" from south %u to north %u\n", (unsigned)r.south, (unsigned)r.north);
}

static void accepted(void) {
    uint8_t code[LINENSPRUCE_CODE];
    show("code_quick", linenspruce_code_quick(dots(), 22, square, NUMBERS, linenspruce_building, 1), 22);
    show("code_plain", linenspruce_code_plain(dots(), 22, square, NUMBERS, linenspruce_building, 1), 22);
    memcpy(code, room, LINENSPRUCE_CODE);
    struct linenspruce_reading told = linenspruce_read(code, LINENSPRUCE_CODE);
    show_reading(told);
    show("write", linenspruce_write(dots(), 22, told.fields), 22);
    show("code_quick", linenspruce_code_quick(dots(), 22, strip, 8, linenspruce_other, 0), 22);
    show("code_plain", linenspruce_code_plain(dots(), 22, strip, 8, linenspruce_other, 0), 22);
}

static void refused_coding(void) {
    show("code_quick", linenspruce_code_quick(dots(), 22, NULL, 0, linenspruce_building, 1), 22);
    show("code_plain", linenspruce_code_plain(dots(), 22, NULL, 0, linenspruce_building, 1), 22);
    show("code_quick", linenspruce_code_quick(dots(), 19, square, NUMBERS, linenspruce_building, 1), 19);
    show("code_plain", linenspruce_code_plain(NULL, 0, square, NUMBERS, linenspruce_building, 1), 0);
    show("code_quick", linenspruce_code_quick(dots(), 22, square, NUMBERS - 1, linenspruce_building, 1), 22);
    show("code_quick", linenspruce_code_quick(dots(), 22, beyond, 6, linenspruce_other, 0), 22);
    show("code_quick", linenspruce_code_quick(dots(), 22, crossed, 10, linenspruce_other, 0), 22);
    show("code_plain", linenspruce_code_plain(dots(), 22, crossed, 10, linenspruce_other, 0), 22);
    show("code_quick", linenspruce_code_quick(dots(), 22, square, NUMBERS, linenspruce_other, 1), 22);
}

static void refused_reading_and_writing(void) {
    struct linenspruce_fields fields = linenspruce_read((const uint8_t *)"0W7ARCTDHYYRA99A0001", 20).fields;
    show_reading(linenspruce_read((const uint8_t *)"00000000001UY112000O", 20));
    show_reading(linenspruce_read(NULL, 0));
    show("write", linenspruce_write(dots(), 19, fields), 19);
    show("write", linenspruce_write(NULL, 0, fields), 0);
    fields.number = 1048576;
    show("write", linenspruce_write(dots(), 22, fields), 22);
}

/* The codes of cases 1 and 5. */
static const char case_1[] = "0W7ARCTDHYYRA99A0001", case_5[] = "00000000001TH1120000";

/* An account. Empty at first: all of it is 0. */
#define PLACES LINENSPRUCE_PLACES
static uint64_t high[PLACES], low[PLACES], active[PLACES], last, total;

static void show_half(uint64_t half) {
    for (int shift = 45; shift >= 0; shift -= 5) putchar("0123456789ABCDEFGHJKLMNPQRTUVWXY"[half >> shift & 31]);
}

/* Shows the answer, and keeps the last number and the total for the next message. */
static void show_kept(const char *what, struct linenspruce_lent lent) {
    last = lent.last, total = lent.total;
    printf("%s %u last %llu", what, (unsigned)lent.answer, (unsigned long long)last);
    printf(" total %llu [", (unsigned long long)total);
}

/* Shows the answer and the active codes. */
static void show_lent(const char *what, struct linenspruce_lent lent) {
    const char *between = "";
    show_kept(what, lent);
    for (int i = 0; i < PLACES; i++) {
        if (active[i] == 0) continue;
        fputs(between, stdout);
        show_half(high[i]);
        show_half(low[i]);
        between = " ";
    }
    puts("]");
}

static struct linenspruce_lent activate(const void *text, size_t length, uint64_t number) {
    return linenspruce_activate(high, PLACES, low, PLACES, active, PLACES, last, total, text, length, number);
}

static struct linenspruce_lent cancel(const void *text, size_t length, uint64_t number) {
    return linenspruce_cancel(high, PLACES, low, PLACES, active, PLACES, last, total, text, length, number);
}

/* Activated twice, already, old, cancelled, not active, and the free place used again. */
static void messages(void) {
    show_lent("activate", activate(case_1, 20, 1));
    show_lent("activate", activate(case_5, 20, 2));
    show_lent("activate", activate(case_1, 20, 5));
    show_lent("activate", activate(case_1, 20, 5));
    show_lent("cancel", cancel(case_1, 20, 6));
    show_lent("cancel", cancel(case_1, 20, 7));
    show_lent("activate", activate(case_1, 20, 8));
}

/* A text with an O, an empty one, message numbers out of range, arrays of another length, empty ones, a total
 * of 1 where two codes are active, and a code that is active twice. */
static void refused_messages(void) {
    const uint8_t *code = (const uint8_t *)case_5;
    show_lent("activate", activate("00000000001TH112000O", 20, 9));
    show_lent("cancel", cancel(NULL, 0, 9));
    show_lent("activate", activate(case_5, 20, 0));
    show_lent("cancel", cancel(case_5, 20, 1099511627776));
    show_lent("activate", linenspruce_activate(high, 255, low, PLACES, active, PLACES, last, total, code, 20, 9));
    show_lent("cancel", linenspruce_cancel(NULL, 0, NULL, 0, NULL, 0, last, total, code, 20, 9));
    total = 1;
    show_lent("cancel", cancel(case_5, 20, 9));
    high[2] = high[1], low[2] = low[1], active[2] = 1, total = 3;
    show_lent("cancel", cancel(case_5, 20, 9));
}

/* Buildings 1 to 257 of case 1's ground: the last finds the account full. The total is what counting finds. */
static void full(void) {
    struct linenspruce_fields fields = linenspruce_read((const uint8_t *)case_1, 20).fields;
    struct linenspruce_lent lent = {0, 0, 0};
    int codes = 0;
    memset(active, 0, sizeof active);
    last = total = 0;
    for (fields.number = 1; fields.number <= PLACES + 1; fields.number++) {
        linenspruce_write(room, sizeof room, fields);
        lent = activate(room, LINENSPRUCE_CODE, fields.number);
        last = lent.last, total = lent.total;
    }
    for (int i = 0; i < PLACES; i++) codes += active[i] != 0;
    show_kept("activate", lent);
    printf("%d codes]\n", codes);
}

/* A page of two records and two bytes. */
#define RECORD LINENSPRUCE_RECORD
static uint8_t page[2 * RECORD + 2];

static void show_record(const char *what, struct linenspruce_reply r) {
    printf("%s %u %u [%.*s]\n", what, (unsigned)r.number, (unsigned)r.place, (int)sizeof page, (const char *)page);
}

/* Shows what is at an offset: the code is the page's own bytes. */
static void show_look(size_t offset) {
    struct linenspruce_looked looked = linenspruce_look(page, sizeof page, offset);
    const char *code = looked.answer == 0 ? (const char *)page + offset + LINENSPRUCE_RECORD_CODE : "";
    printf("look %u letter %u number %llu", (unsigned)looked.answer, (unsigned)looked.letter,
           (unsigned long long)looked.number);
    printf(" [%.20s]\n", code);
}

/* Replays the first bytes of the page, and shows the answers and the account. */
static void show_replay(size_t length, size_t places) {
    struct linenspruce_replayed r = linenspruce_replay(page, length, high, places, low, PLACES, active, PLACES);
    struct linenspruce_lent lent = {0, 0, 0};
    printf("replay %u offset %lu activated %u already %u", (unsigned)r.refusal, (unsigned long)r.offset,
           (unsigned)r.activated, (unsigned)r.already);
    printf(" cancelled %u not active %u old %u full %u\n", (unsigned)r.cancelled, (unsigned)r.inactive,
           (unsigned)r.old, (unsigned)r.full);
    lent.answer = r.refusal, lent.last = r.last, lent.total = r.total;
    show_lent("account", lent);
}

static struct linenspruce_reply record_activation(size_t offset, const void *text, uint64_t number) {
    return linenspruce_record_activation(page, sizeof page, offset, text, 20, number);
}

static struct linenspruce_reply record_cancellation(size_t offset, const void *text, uint64_t number) {
    return linenspruce_record_cancellation(page, sizeof page, offset, text, 20, number);
}

/* Two records, a look at each offset that matters, the replay up to the end, then with the two bytes behind it. */
static void journal(void) {
    memset(page, '.', sizeof page);
    show_record("record_activation", record_activation(0, case_1, 1));
    show_record("record_cancellation", record_cancellation(RECORD, case_5, 1099511627775));
    show_look(0);
    show_look(RECORD);
    show_look(2 * RECORD);
    show_look(2 * RECORD + 2);
    show_look(2 * RECORD + 3);
    show_look(1);
    show_replay(2 * RECORD, PLACES);
    show_replay(2 * RECORD + 2, PLACES);
}

/* Message numbers out of range, a text with an O, 30 bytes from the offset, an offset past the end, an empty
 * page, then a letter that is no kind, and an array of another length. */
static void refused_journal(void) {
    show_record("record_activation", record_activation(0, case_1, 0));
    show_record("record_cancellation", record_cancellation(0, case_1, 1099511627776));
    show_record("record_activation", record_activation(0, "00000000001TH112000O", 1));
    show_record("record_activation", record_activation(RECORD + 3, case_1, 1));
    show_record("record_cancellation", record_cancellation(SIZE_MAX, case_1, 1));
    show_record("record_activation", linenspruce_record_activation(NULL, 0, 0, (const uint8_t *)case_1, 20, 1));
    page[2] = 'B';
    show_look(0);
    show_replay(2 * RECORD, PLACES);
    show_replay(2 * RECORD, PLACES - 1);
}

int main(void) {
    accepted();
    refused_coding();
    refused_reading_and_writing();
    messages();
    refused_messages();
    full();
    journal();
    refused_journal();
    return 0;
}
