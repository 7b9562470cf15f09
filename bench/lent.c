// Messages to an account through the library, for what they cost:
//   lent ACTIVE COUNT [write]
// fills an account with units 1 to ACTIVE of one ground and then cancels each of the COUNT units after these,
// which are not active. Such a message changes the last number alone, so that all find the same codes. With
// the word `write` the codes of the second part are written and not sent. An answer other than the right one ends
// the program with status 1.
#include "linenspruce.h"

#include <stdbool.h>
#include <stdint.h>
#include <stdio.h>
#include <stdlib.h>
#include <string.h>

enum { places = LINENSPRUCE_PLACES, activated = 1, not_active = 4 };

static uint64_t high[places], low[places], active[places], last, total;

static struct linenspruce_fields ground;
static uint8_t code[LINENSPRUCE_CODE];

static void fail(const char *what, uint64_t number) {
    fprintf(stderr, "lent: unit %llu: %s\n", (unsigned long long)number, what);
    exit(1);
}

static void write_code(uint64_t number) {
    ground.number = (uint32_t)number;
    if (linenspruce_write(code, sizeof code, ground).number != 0) {
        fail("no code", number);
    }
}

// Sees that a message was answered as it should be, and keeps what the account comes to.
static void keep(struct linenspruce_lent lent, uint32_t answer, uint64_t number, uint64_t codes) {
    if (lent.answer != answer || lent.last != number || lent.total != codes) {
        fail("another answer", number);
    }
    last = lent.last;
    total = lent.total;
}

// The messages have the numbers of their units.
static void activate(uint64_t number) {
    keep(linenspruce_activate(high, places, low, places, active, places, last, total, code, sizeof code, number),
         activated, number, total + 1);
}

static void cancel(uint64_t number) {
    keep(linenspruce_cancel(high, places, low, places, active, places, last, total, code, sizeof code, number),
         not_active, number, total);
}

int main(int words, char **word) {
    if (words < 3) {
        fputs("usage: lent ACTIVE COUNT [write]\n", stderr);
        return 2;
    }
    uint64_t codes = strtoull(word[1], NULL, 10), count = strtoull(word[2], NULL, 10), number = 0;
    bool sent = words == 3;
    ground = linenspruce_read((const uint8_t *)"0W7ARCTDHYYRA99A0001", LINENSPRUCE_CODE).fields;
    while (number < codes) {
        write_code(++number);
        activate(number);
    }
    while (number < codes + count) {
        write_code(++number);
        if (sent) {
            cancel(number);
        }
    }
    return 0;
}
