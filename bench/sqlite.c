// The account by SQLite, as a measure for the proved one: a table of codes with a unique index, in memory.
// A message a line comes in, or `T`, which asks how many codes are active, as for the account's program, and
// the replies are the same. Lines have to be of the right form, with numbers in range and codes that reading
// accepts: a line that cannot be taken apart ends the program, and nothing else is checked. With the word `page`
// a journal page comes in, whose records are not checked at all: the answers are counted, and the end of it is
// written as the program `replay` does, without the first line and the places. A code is kept as text or, with the
// word `pair`, as two integers. README.md in this folder says what else was tried, and what it costs.
#include <sqlite3.h>

#include <stdbool.h>
#include <stdint.h>
#include <stdio.h>
#include <stdlib.h>
#include <string.h>

enum { letters = 20, places = 256, room = 1 << 16, longest_reply = 64 };
enum { record = 31, most = 1 << 20 };

// What a message is answered.
enum answer { activated, already, cancelled, not_active, old, full, answers };

static bool pair, page;
static sqlite3 *base;
static sqlite3_stmt *insert, *delete, *find, *count;

static uint64_t lines, last, counts[answers];
static int active;

static char replies[room];
static size_t written;

static void fail(const char *what) {
    fprintf(stderr, "sqlite: %s %llu: %s\n", page ? "record" : "line", (unsigned long long)lines, what);
    exit(2);
}

static void run(const char *sql) {
    if (sqlite3_exec(base, sql, NULL, NULL, NULL) != SQLITE_OK) {
        fail(sqlite3_errmsg(base));
    }
}

static sqlite3_stmt *prepared(const char *sql) {
    sqlite3_stmt *statement;
    if (sqlite3_prepare_v3(base, sql, -1, SQLITE_PREPARE_PERSISTENT, &statement, NULL) != SQLITE_OK) {
        fail(sqlite3_errmsg(base));
    }
    return statement;
}

// One thread, one transaction that is never ended, pages that hold 256 codes, no types to convert to, and
// no table beside the index: each makes SQLite cheaper.
static void open_base(void) {
    sqlite3_config(SQLITE_CONFIG_SINGLETHREAD);
    sqlite3_config(SQLITE_CONFIG_MEMSTATUS, 0);
    if (sqlite3_open(":memory:", &base) != SQLITE_OK) {
        fail("cannot open");
    }
    run("PRAGMA page_size = 8192");
    run("PRAGMA secure_delete = OFF");
    if (pair) {
        run("CREATE TABLE codes (a, b, PRIMARY KEY (a, b)) WITHOUT ROWID");
        insert = prepared("INSERT OR IGNORE INTO codes VALUES (?, ?)");
        delete = prepared("DELETE FROM codes WHERE a = ? AND b = ?");
        find = prepared("SELECT 1 FROM codes WHERE a = ? AND b = ?");
    } else {
        run("CREATE TABLE codes (code PRIMARY KEY) WITHOUT ROWID");
        insert = prepared("INSERT OR IGNORE INTO codes VALUES (?)");
        delete = prepared("DELETE FROM codes WHERE code = ?");
        find = prepared("SELECT 1 FROM codes WHERE code = ?");
    }
    count = prepared("SELECT count(*) FROM codes");
    run("BEGIN");
}

// Eight letters and two more as one integer, 6 bits for each: a letter less `0` is below 64.
static sqlite3_int64 packed(const char *eight, const char *two) {
    uint64_t bits;
    memcpy(&bits, eight, sizeof bits);
    bits -= 0x3030303030303030;
    bits = (bits | bits >> 2) & 0x0FFF0FFF0FFF0FFF;
    bits = (bits | bits >> 4) & 0x00FFFFFF00FFFFFF;
    bits = (bits | bits >> 8) & 0x0000FFFFFFFFFFFF;
    return (sqlite3_int64)(bits << 12 | (uint64_t)(two[0] - '0') << 6 | (uint64_t)(two[1] - '0'));
}

// The code is bound where it stands in the input. Of a pair the first has the letters that tell most codes
// apart, of place and of number, so that the second is hardly looked at.
static int ask(sqlite3_stmt *statement, const char *code) {
    if (pair) {
        sqlite3_bind_int64(statement, 1, packed(code + 2, code + 18));
        sqlite3_bind_int64(statement, 2, packed(code + 10, code));
    } else {
        sqlite3_bind_text(statement, 1, code, letters, SQLITE_STATIC);
    }
    int answer = sqlite3_step(statement);
    sqlite3_reset(statement);
    if (answer != SQLITE_DONE && answer != SQLITE_ROW) {
        fail(sqlite3_errmsg(base));
    }
    return answer;
}

// Whether a statement changes the table: an insertion when the code is not there, a deletion when it is.
static bool changes(sqlite3_stmt *statement, const char *code) {
    ask(statement, code);
    return sqlite3_changes(base) == 1;
}

static void write_number(uint64_t number) {
    char digits[20];
    size_t from = sizeof digits;
    do {
        digits[--from] = (char)('0' + number % 10);
        number /= 10;
    } while (number != 0);
    memcpy(replies + written, digits + from, sizeof digits - from);
    written += sizeof digits - from;
}

static void flush_replies(void) {
    if (fwrite(replies, 1, written, stdout) != written || fflush(stdout) != 0) {
        fail("cannot write");
    }
    written = 0;
}

// Writes a text that stands in quotes, so that its length is known here.
#define reply(text) (memcpy(replies + written, text, sizeof text - 1), written += sizeof text - 1)

// A message of a page is counted, and one of a line has its reply written. Where this is inlined the compiler
// knows which, so that neither pays for the other.
#define told(paged, answer, text) ((paged) ? (void)++counts[answer] : (void)reply(text))
#define inlined static inline __attribute__((always_inline))

inlined void activate(bool paged, const char *code) {
    // A full account must not grow, so that it is asked first.
    if (active == places) {
        if (ask(find, code) == SQLITE_ROW) {
            told(paged, already, " already\n");
        } else {
            told(paged, full, " refused 43 0\n");
        }
    } else if (changes(insert, code)) {
        ++active;
        told(paged, activated, " activated\n");
    } else {
        told(paged, already, " already\n");
    }
}

inlined void cancel(bool paged, const char *code) {
    if (changes(delete, code)) {
        --active;
        told(paged, cancelled, " cancelled\n");
    } else {
        told(paged, not_active, " not active\n");
    }
}

inlined void answer_sent(bool paged, char kind, uint64_t number, const char *code) {
    if (number <= last) {
        told(paged, old, " old\n");
    } else {
        last = number;
        if (kind == 'A') {
            activate(paged, code);
        } else {
            cancel(paged, code);
        }
    }
}

static void answer_message(const char *line, const char *end) {
    const char *at = line + 2;
    uint64_t number = 0;
    while (*at >= '0' && *at <= '9') {
        number = 10 * number + (uint64_t)(*at++ - '0');
    }
    if (*at++ != ' ' || end - at != letters) {
        fail("no message");
    }
    write_number(lines);
    answer_sent(false, line[0], number, at);
}

// The base is asked: `active` is there for an account that is full, and is not what is measured.
static void write_total(void) {
    if (sqlite3_step(count) != SQLITE_ROW) {
        fail(sqlite3_errmsg(base));
    }
    reply("total ");
    write_number((uint64_t)sqlite3_column_int64(count, 0));
    reply("\n");
    sqlite3_reset(count);
}

static void answer_total(void) {
    write_number(lines);
    reply(" ");
    write_total();
}

// Answers a line that ends before `end`, where a line feed or a byte 0 stands.
static void answer(const char *line, const char *end) {
    ++lines;
    if ((line[0] == 'A' || line[0] == 'C') && line[1] == ' ') {
        answer_message(line, end);
    } else if (line[0] == 'T' && end - line == 1) {
        answer_total();
    } else {
        fail("no message");
    }
    if (written > room - longest_reply) {
        flush_replies();
    }
}

static void answer_lines(void) {
    static char input[room + 1];
    size_t held = 0, more;
    // A block is answered up to its last line feed; what comes after that waits for the next one. A line
    // that fills the room leaves none for a next block and is answered as the last.
    while ((more = fread(input + held, 1, room - held, stdin)) > 0) {
        char *line = input, *end = input + held + more, *feed;
        while ((feed = memchr(line, '\n', (size_t)(end - line))) != NULL) {
            answer(line, feed);
            line = feed + 1;
        }
        held = (size_t)(end - line);
        memmove(input, line, held);
    }
    if (held > 0) {
        input[held] = 0;
        answer(input, input + held);
    }
}

#define reply_count(name, answer) (reply(name " "), write_number(counts[answer]), reply("\n"))

static void write_summary(void) {
    reply_count("activated", activated);
    reply_count("already", already);
    reply_count("cancelled", cancelled);
    reply_count("not active", not_active);
    reply_count("old", old);
    reply_count("full", full);
    reply("last ");
    write_number(last);
    reply("\n");
    write_total();
}

// A record is the mark, the kind, the code and eight letters of the number.
static void answer_page(void) {
    static char input[most + 1];
    uint8_t values[256] = {0};
    size_t length = fread(input, 1, sizeof input, stdin);
    if (length > most || length % record != 0) {
        fail("no page");
    }
    for (uint8_t value = 0; value < 32; ++value) {
        values[(uint8_t)"0123456789ABCDEFGHJKLMNPQRTUVWXY"[value]] = value;
    }
    for (const char *at = input; at != input + length; at += record) {
        uint64_t number = 0;
        ++lines;
        for (int i = 23; i < record; ++i) {
            number = number << 5 | values[(uint8_t)at[i]];
        }
        answer_sent(true, at[2], number, at + 3);
    }
    write_summary();
}

int main(int words, char **word) {
    for (int i = 1; i < words; ++i) {
        pair |= strcmp(word[i], "pair") == 0;
        page |= strcmp(word[i], "page") == 0;
    }
    open_base();
    if (page) {
        answer_page();
    } else {
        answer_lines();
    }
    flush_replies();
    return 0;
}
