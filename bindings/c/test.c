/* Tests the header's inline functions and, through them, every exported one: marked examples, refusals, damaged numbers. */
#include <stdio.h>
#include <stdlib.h>
#include <string.h>

#include "bisquecrow.h"

enum { LIMIT = BISQUECROW_DEFAULT_LIMIT, LARGEST = BISQUECROW_LARGEST };

#define CHECK(x) (checks++, (x) ? (void)0 : failed(__LINE__, #x))
#define S(text) bisquecrow_octets(text, sizeof(text) - 1)

static int checks, failures;

static void failed(int line, const char *what)
{
    fprintf(stderr, "test.c:%d: %s\n", line, what);
    failures++;
}

struct header {
    struct bisquecrow_map map;
    struct bisquecrow_loans loans;
    uint8_t block[LARGEST];
    uint8_t store[LARGEST];
};

static struct header one, two, kept;
static struct bisquecrow_walker walker;

/* A header's map is nothing yet, its loans are full of 0xAA. */
static void lend(struct header *h, size_t block, size_t store)
{
    memset(&h->map, 0xEE, sizeof h->map);
    memset(h->block, 0xAA, sizeof h->block);
    memset(h->store, 0xAA, sizeof h->store);
    h->loans.block = h->block;
    h->loans.block_length = block;
    h->loans.store = h->store;
    h->loans.store_length = store;
}

static void begin(struct header *h, size_t limit, size_t room, unsigned flags)
{
    lend(h, limit, room);
    CHECK(bisquecrow_map_begin(&h->map, &h->loans, limit, room, flags) == BISQUECROW_DONE);
}

static uint32_t feed(struct header *h, struct bisquecrow_part piece, size_t wanted)
{
    size_t taken = 99;
    uint32_t answer = bisquecrow_map_feed(&h->map, &h->loans, piece, &taken);
    CHECK(taken == wanted);
    return answer;
}

/* A header that a blank line closes. */
static void read_all(struct header *h, struct bisquecrow_part block, unsigned flags)
{
    begin(h, LIMIT, LIMIT, flags);
    CHECK(feed(h, block, block.length) == BISQUECROW_BLANK);
}

static bool is(struct bisquecrow_part part, struct bisquecrow_part text)
{
    return part.length == text.length && memcmp(part.octets, text.octets, text.length) == 0;
}

static bool has(const struct header *h, const char *name, const char *text)
{
    struct bisquecrow_part value;
    return bisquecrow_map_get(&h->map, &h->loans, bisquecrow_string(name), &value) == BISQUECROW_FOUND &&
           is(value, bisquecrow_string(text));
}

static bool writes(const struct header *h, const char *text)
{
    uint8_t out[128];
    size_t count = 99;
    memset(out, 0xBB, sizeof out);
    return bisquecrow_map_write(&h->map, &h->loans, out, sizeof out, &count) == BISQUECROW_DONE && count == strlen(text) &&
           memcmp(out, text, count) == 0 && out[count] == 0xBB;
}

/* Whether a header is what was kept of it, loans and all. */
static void keep(const struct header *h)
{
    kept = *h;
}

static bool unchanged(const struct header *h)
{
    return memcmp(h, &kept, sizeof kept) == 0;
}

static const struct bisquecrow_part M1 = {(const uint8_t *)"HTTP/1.1 200 OK\r\nETag: \"a\"\r\n\r\n", 30};
static const struct bisquecrow_part M2 = {(const uint8_t *)"A: b\r\nC: d\r\n\r\n", 14};

static void looks(void)
{
    struct bisquecrow_part part, key;
    struct bisquecrow_cursor at;
    size_t number = 99, count = 99;
    uint16_t code = 0;
    uint64_t length = 99;

    read_all(&one, M1, BISQUECROW_AWAITS);
    CHECK(bisquecrow_map_status_code(&one.map, &one.loans, &code) == BISQUECROW_FOUND && code == 200);
    CHECK(bisquecrow_map_status(&one.map, &one.loans, &part) == BISQUECROW_FOUND && is(part, S("HTTP/1.1 200 OK")));
    CHECK(part.octets == one.block);
    CHECK(bisquecrow_map_reason(&one.map, &one.loans, &part) == BISQUECROW_FOUND && is(part, S("OK")));
    CHECK(part.octets == one.block + 13);
    CHECK(has(&one, "etag", "\"a\""));
    CHECK(bisquecrow_map_get(&one.map, &one.loans, S("ETa"), &part) == BISQUECROW_MISSING);
    CHECK(bisquecrow_map_value(&one.map, &one.loans, 0, &part) == BISQUECROW_FOUND && is(part, S("\"a\"")));
    CHECK(bisquecrow_map_key(&one.map, &one.loans, 0, &part) == BISQUECROW_FOUND && is(part, S("ETag")));
    CHECK(bisquecrow_map_value(&one.map, &one.loans, 1, &part) == BISQUECROW_MISSING);
    CHECK(bisquecrow_map_key(&one.map, &one.loans, SIZE_MAX, &part) == BISQUECROW_MISSING);
    CHECK(bisquecrow_map_content_length(&one.map, &one.loans, &length) == BISQUECROW_MISSING && length == 99);
    CHECK(bisquecrow_map_record_type(&one.map, &one.loans, &code) == BISQUECROW_FOUND && code == BISQUECROW_TYPE_NONE);

    read_all(&one, S("X: 1\r\nContent-Length: 12\r\nx: 2\r\n 3\r\nWARC-Type: Revisit\r\n\r\n"), BISQUECROW_PLAIN);
    CHECK(bisquecrow_map_find(&one.map, &one.loans, S("X"), 0, &number, &part) == BISQUECROW_FOUND && number == 0 && is(part, S("1")));
    CHECK(bisquecrow_map_find(&one.map, &one.loans, S("X"), 1, &number, &part) == BISQUECROW_FOUND && number == 2 && is(part, S("2 3")));
    CHECK(part.octets == one.store);
    CHECK(bisquecrow_map_find(&one.map, &one.loans, S("X"), 3, &number, &part) == BISQUECROW_MISSING && number == 2);
    CHECK(bisquecrow_map_content_length(&one.map, &one.loans, &length) == BISQUECROW_FOUND && length == 12);
    CHECK(bisquecrow_map_record_type(&one.map, &one.loans, &code) == BISQUECROW_FOUND && code == BISQUECROW_TYPE_REVISIT);
    CHECK(bisquecrow_map_status(&one.map, &one.loans, &part) == BISQUECROW_MISSING);
    CHECK(bisquecrow_map_reason(&one.map, &one.loans, &part) == BISQUECROW_MISSING);
    CHECK(bisquecrow_map_status_code(&one.map, &one.loans, &code) == BISQUECROW_MISSING && code == BISQUECROW_TYPE_REVISIT);
    CHECK(bisquecrow_map_count(&one.map, &one.loans, &count) == BISQUECROW_DONE && count == 4);
    CHECK(bisquecrow_map_fields(&one.map, &one.loans, &at) == BISQUECROW_DONE && at.count == 4);
    CHECK(bisquecrow_next(&at, &key, &part) && is(key, S("X")) && is(part, S("1")));
    CHECK(bisquecrow_next(&at, &key, &part) && is(key, S("Content-Length")) && is(part, S("12")));
    CHECK(bisquecrow_next(&at, &key, &part) && is(key, S("x")) && is(part, S("2 3")));
    CHECK(bisquecrow_next(&at, &key, &part) && is(key, S("WARC-Type")) && is(part, S("Revisit")));
    CHECK(!bisquecrow_next(&at, &key, &part) && !bisquecrow_next(&at, &key, &part));
}

static void reads(void)
{
    size_t cut, taken = 99;
    read_all(&one, M1, BISQUECROW_AWAITS);
    for (cut = 1; cut < M1.length; cut++) {
        begin(&two, LIMIT, LIMIT, BISQUECROW_AWAITS);
        memset(two.map.table, 0xEE, sizeof two.map.table);
        CHECK(feed(&two, bisquecrow_octets(M1.octets, cut), cut) == BISQUECROW_MORE);
        CHECK(feed(&two, bisquecrow_octets(M1.octets + cut, M1.length - cut), M1.length - cut) == BISQUECROW_BLANK);
        CHECK(memcmp(&one.map, &two.map, sizeof one.map) == 0);
        CHECK(bisquecrow_map_equal(&one.map, &one.loans, &two.map, &two.loans) == BISQUECROW_YES);
    }
    begin(&one, 14, 14, BISQUECROW_PLAIN);
    CHECK(feed(&one, M2, 14) == BISQUECROW_BLANK && has(&one, "A", "b") && has(&one, "c", "d"));
    CHECK(bisquecrow_map_equal(&one.map, &one.loans, &two.map, &two.loans) == BISQUECROW_NO);
    begin(&one, 13, 13, BISQUECROW_PLAIN);
    CHECK(feed(&one, M2, 13) == BISQUECROW_BLOCK_FULL);
    CHECK(writes(&one, "\r\n"));
    CHECK(memcmp(one.block, "A: b\r\nC: d\r\n\r\xAA", 14) == 0);

    read_all(&one, S(" x\r\n\r\n"), BISQUECROW_PLAIN);
    CHECK(has(&one, "", "x"));
    read_all(&one, S("K:\r\n x\r\n\r\n"), BISQUECROW_PLAIN);
    CHECK(has(&one, "K", " x") && one.map.head[4] == 2);
    begin(&one, LIMIT, LIMIT, BISQUECROW_QUIRKS);
    CHECK(feed(&one, S("A: b\n \t\nZ"), 8) == BISQUECROW_BLANK);
    begin(&one, LIMIT, LIMIT, BISQUECROW_PLAIN);
    CHECK(feed(&one, S("A: b\n \t\nZ"), 9) == BISQUECROW_MORE);
    CHECK(bisquecrow_map_finish(&one.map, &one.loans) == BISQUECROW_INPUT && has(&one, "A", "b\n \t\nZ"));
    CHECK(bisquecrow_map_finish(&one.map, &one.loans) == BISQUECROW_WRONG_PHASE);
    CHECK(feed(&one, S("A"), 0) == BISQUECROW_WRONG_PHASE);

    /* An empty part with a null pointer takes nothing; a map of zeros is one to begin with. */
    begin(&one, 4, 4, BISQUECROW_PLAIN);
    CHECK(feed(&one, bisquecrow_octets(NULL, 0), 0) == BISQUECROW_MORE);
    lend(&two, 0, 0);
    memset(&two.map, 0, sizeof two.map);
    CHECK(writes(&two, "\r\n"));
    CHECK(bisquecrow_map_clear(&two.map, &two.loans) == BISQUECROW_DONE);

    /* Clear may come while a map is Reading. */
    begin(&one, 4, 4, BISQUECROW_AWAITS | BISQUECROW_QUIRKS);
    CHECK(one.map.head[9] == 1 && one.map.head[10] == 1 && one.map.head[12] == 1);
    CHECK(bisquecrow_map_feed(&one.map, &one.loans, S("abc"), &taken) == BISQUECROW_MORE && taken == 3);
    CHECK(bisquecrow_map_clear(&one.map, &one.loans) == BISQUECROW_DONE && one.map.head[12] == 0 && one.map.head[2] == 0);
}

static void edits(void)
{
    struct bisquecrow_part part;
    uint8_t out[32];
    size_t count = 99;
    int i;

    begin(&one, 64, 64, BISQUECROW_PLAIN);
    CHECK(bisquecrow_map_set(&one.map, &one.loans, S("A"), S("b")) == BISQUECROW_WRONG_PHASE);
    CHECK(bisquecrow_map_finish(&one.map, &one.loans) == BISQUECROW_INPUT && writes(&one, "\r\n"));
    CHECK(bisquecrow_map_append(&one.map, &one.loans, S("X"), S("a\r\nb")) == BISQUECROW_DONE && writes(&one, "X: a b\r\n\r\n"));
    CHECK(bisquecrow_map_write(&one.map, &one.loans, out, 9, &count) == BISQUECROW_SHORT_OUTPUT && count == 99);
    CHECK(bisquecrow_map_set(&one.map, &one.loans, S("x"), S("c")) == BISQUECROW_DONE && writes(&one, "x: c\r\n\r\n"));
    CHECK(bisquecrow_map_set_status(&one.map, &one.loans, S(" HTTP/1.1 204:\r\n")) == BISQUECROW_DONE);
    CHECK(bisquecrow_map_append(&one.map, &one.loans, S("Y"), S("")) == BISQUECROW_DONE);
    CHECK(bisquecrow_map_append(&one.map, &one.loans, S("y"), bisquecrow_octets(NULL, 0)) == BISQUECROW_DONE);
    CHECK(writes(&one, "HTTP/1.1 204\r\nx: c\r\nY: \r\ny: \r\n\r\n"));
    CHECK(bisquecrow_map_remove(&one.map, &one.loans, S("y:")) == BISQUECROW_DONE && writes(&one, "HTTP/1.1 204\r\nx: c\r\n\r\n"));
    CHECK(bisquecrow_map_clean(&one.map, &one.loans) == BISQUECROW_YES);
    CHECK(bisquecrow_map_status(&one.map, &one.loans, &part) == BISQUECROW_FOUND && part.octets >= one.store && part.octets < one.store + 64);
    CHECK(bisquecrow_map_reason(&one.map, &one.loans, &part) == BISQUECROW_MISSING);
    CHECK(bisquecrow_map_set(&one.map, &one.loans, S(": a"), S("v")) == BISQUECROW_DONE && has(&one, " a", "v"));
    CHECK(bisquecrow_map_clean(&one.map, &one.loans) == BISQUECROW_NO);

    /* Unedited, the block; rebuilt, what it says. */
    read_all(&one, S("A:b\r\n\r\n"), BISQUECROW_PLAIN);
    CHECK(writes(&one, "A:b\r\n\r\n"));
    CHECK(bisquecrow_map_remove(&one.map, &one.loans, S("C")) == BISQUECROW_DONE && writes(&one, "A:b\r\n\r\n"));
    CHECK(bisquecrow_map_rebuild(&one.map, &one.loans, out, sizeof out, &count) == BISQUECROW_DONE && count == 8);
    CHECK(memcmp(out, "A: b\r\n\r\n", 8) == 0);
    CHECK(bisquecrow_map_rebuild(&one.map, &one.loans, out, 7, &count) == BISQUECROW_SHORT_OUTPUT && count == 8);

    /* 6 and 5 leave all. */
    begin(&one, 4, 4, BISQUECROW_PLAIN);
    CHECK(bisquecrow_map_finish(&one.map, &one.loans) == BISQUECROW_INPUT);
    CHECK(bisquecrow_map_append(&one.map, &one.loans, S("A"), S("b")) == BISQUECROW_DONE);
    keep(&one);
    CHECK(bisquecrow_map_append(&one.map, &one.loans, S("C"), S("dd")) == BISQUECROW_STORE_FULL && unchanged(&one));
    CHECK(bisquecrow_map_set_status(&one.map, &one.loans, S("ccc")) == BISQUECROW_STORE_FULL && unchanged(&one));
    begin(&one, 512, 512, BISQUECROW_PLAIN);
    CHECK(bisquecrow_map_finish(&one.map, &one.loans) == BISQUECROW_INPUT);
    for (i = 0; i < BISQUECROW_FIELDS; i++)
        CHECK(bisquecrow_map_append(&one.map, &one.loans, S("A"), S("")) == BISQUECROW_DONE);
    keep(&one);
    CHECK(bisquecrow_map_append(&one.map, &one.loans, S("A"), S("")) == BISQUECROW_FIELDS_FULL && unchanged(&one));
    CHECK(bisquecrow_map_set(&one.map, &one.loans, S("B"), S("")) == BISQUECROW_FIELDS_FULL && unchanged(&one));
    CHECK(bisquecrow_map_set(&one.map, &one.loans, S("a"), S("b")) == BISQUECROW_DONE && writes(&one, "a: b\r\n\r\n"));
}

/* Every call over a map, the numbers of which it gives: each must give the same refusal, and leave all. */
static bool all_refuse(struct header *h, uint32_t refusal)
{
    struct bisquecrow_part part = {NULL, 7};
    struct bisquecrow_cursor at;
    uint8_t out[64];
    size_t number = 99, count = 99, taken = 99;
    uint16_t code = 99;
    uint64_t length = 99;
    const struct bisquecrow_map *m = &h->map;
    const struct bisquecrow_loans *l = &h->loans;
    bool fine = true;

    memset(out, 0xBB, sizeof out);
    keep(h);
    fine = fine && bisquecrow_map_find(m, l, S("A"), 0, &number, &part) == refusal && bisquecrow_map_get(m, l, S("A"), &part) == refusal;
    fine = fine && bisquecrow_map_value(m, l, 0, &part) == refusal && bisquecrow_map_key(m, l, 0, &part) == refusal;
    fine = fine && bisquecrow_map_status(m, l, &part) == refusal && bisquecrow_map_reason(m, l, &part) == refusal;
    fine = fine && bisquecrow_map_count(m, l, &count) == refusal && bisquecrow_map_fields(m, l, &at) == refusal;
    fine = fine && !bisquecrow_next(&at, &part, &part);
    fine = fine && bisquecrow_map_write(m, l, out, sizeof out, &count) == refusal;
    fine = fine && bisquecrow_map_rebuild(m, l, out, sizeof out, &count) == refusal;
    fine = fine && bisquecrow_map_status_code(m, l, &code) == refusal && bisquecrow_map_content_length(m, l, &length) == refusal;
    fine = fine && bisquecrow_map_record_type(m, l, &code) == refusal && bisquecrow_map_clean(m, l) == refusal;
    fine = fine && bisquecrow_map_equal(m, l, &two.map, &two.loans) == refusal;
    fine = fine && bisquecrow_map_equal(&two.map, &two.loans, m, l) == refusal;
    fine = fine && bisquecrow_map_resume(m, l, &two.map, &two.loans) == refusal;
    fine = fine && bisquecrow_map_resume(&two.map, &two.loans, m, l) == refusal;
    fine = fine && bisquecrow_map_set(&h->map, l, S("A"), S("b")) == refusal;
    fine = fine && bisquecrow_map_append(&h->map, l, S("A"), S("b")) == refusal;
    fine = fine && bisquecrow_map_remove(&h->map, l, S("A")) == refusal;
    fine = fine && bisquecrow_map_set_status(&h->map, l, S("A")) == refusal;
    if (refusal != BISQUECROW_WRONG_PHASE) {
        fine = fine && bisquecrow_map_feed(&h->map, l, S("A"), &taken) == refusal && taken == 0;
        fine = fine && bisquecrow_map_finish(&h->map, l) == refusal && bisquecrow_map_clear(&h->map, l) == refusal;
    }
    fine = fine && number == 99 && count == 99 && code == 99 && length == 99 && part.length == 7 && out[0] == 0xBB;
    return fine && unchanged(h);
}

static void refusals(void)
{
    /* Which number of the head, and what it becomes. */
    static const struct { int at; uint64_t to; } heads[] = {
        {0, 65537}, {0, UINT64_MAX}, {1, 65537}, {1, 0}, {2, 32769}, {3, 31}, {4, 32769}, {5, 257}, {5, 2}, {6, 0}, {6, 3}, {7, 16}, {8, 31},
        {8, UINT64_C(1) << 32}, {9, 2}, {10, 2}, {11, 2}, {12, 2}, {12, UINT64_MAX},
    };
    /* The same of the table: the first field's places. */
    static const struct { int at; uint32_t to; } tables[] = {{0, 22}, {1, 31}, {2, BISQUECROW_STORE}, {3, 0}, {3, UINT32_MAX}, {0, UINT32_MAX}};
    size_t i, taken = 99;

    read_all(&two, M1, BISQUECROW_AWAITS);
    memset(one.map.table, 0xEE, sizeof one.map.table);
    for (i = 0; i < sizeof heads / sizeof *heads; i++) {
        read_all(&one, M1, BISQUECROW_AWAITS);
        one.map.head[heads[i].at] = heads[i].to;
        CHECK(all_refuse(&one, BISQUECROW_BAD_MAP));
    }
    for (i = 0; i < sizeof tables / sizeof *tables; i++) {
        read_all(&one, M1, BISQUECROW_AWAITS);
        one.map.table[tables[i].at] = tables[i].to;
        CHECK(all_refuse(&one, BISQUECROW_BAD_MAP));
    }
    read_all(&one, M1, BISQUECROW_AWAITS);
    one.loans.block_length = LIMIT - 1;
    CHECK(all_refuse(&one, BISQUECROW_SHORT_LOAN));
    one.loans.block_length = LIMIT;
    one.loans.store_length = LIMIT - 1;
    CHECK(all_refuse(&one, BISQUECROW_SHORT_LOAN));
    begin(&one, LIMIT, LIMIT, BISQUECROW_PLAIN);
    CHECK(all_refuse(&one, BISQUECROW_WRONG_PHASE));
    CHECK(feed(&one, S("A: b\r\n"), 6) == BISQUECROW_MORE);

    /* 1 and 2 of begin. */
    lend(&one, 16, 16);
    keep(&one);
    CHECK(bisquecrow_map_begin(&one.map, &one.loans, 65537, 65537, BISQUECROW_PLAIN) == BISQUECROW_BAD_ROOMS && unchanged(&one));
    CHECK(bisquecrow_map_begin(&one.map, &one.loans, 2, 1, BISQUECROW_PLAIN) == BISQUECROW_BAD_ROOMS && unchanged(&one));
    CHECK(bisquecrow_map_begin(&one.map, &one.loans, 17, 17, BISQUECROW_PLAIN) == BISQUECROW_SHORT_LOAN && unchanged(&one));
    CHECK(bisquecrow_map_begin(&one.map, &one.loans, 16, 17, BISQUECROW_PLAIN) == BISQUECROW_SHORT_LOAN && unchanged(&one));
    CHECK(bisquecrow_map_begin(&one.map, &one.loans, 16, 16, BISQUECROW_PLAIN) == BISQUECROW_DONE);

    /* Lengths that are no head's or no table's. */
    {
        uint64_t n = 99;
        keep(&one);
        CHECK(bisquecrow_begin(one.map.head, 12, one.map.table, 1024, 1, 1, true, false, one.block, 16, one.store, 16) == BISQUECROW_BAD_MAP);
        CHECK(bisquecrow_begin(one.map.head, 13, one.map.table, 1023, 1, 1, true, false, one.block, 16, one.store, 16) == BISQUECROW_BAD_MAP);
        CHECK(bisquecrow_feed(one.map.head, 12, one.map.table, 1024, one.block, 16, one.store, 16, one.block + 16, 1, &n) == BISQUECROW_BAD_MAP);
        CHECK(n == 0);
        n = 99;
        CHECK(bisquecrow_feed(one.map.head, 13, one.map.table, 1020, one.block, 16, one.store, 16, one.block + 16, 1, &n) == BISQUECROW_BAD_MAP);
        CHECK(n == 0);
        CHECK(bisquecrow_clear(one.map.head, 0, one.map.table, 1024, one.block, 16, one.store, 16) == BISQUECROW_BAD_MAP);
        CHECK(unchanged(&one));
    }
    CHECK(bisquecrow_map_feed(&one.map, &one.loans, S("A: b\r\n\r\n"), &taken) == BISQUECROW_BLANK && taken == 8);
}

static void tells(void)
{
    uint16_t code = 99;
    uint64_t length = 99;
    CHECK(bisquecrow_octets_tidy(M1, BISQUECROW_AWAITS, 30) == BISQUECROW_YES);
    CHECK(bisquecrow_octets_tidy(M1, BISQUECROW_AWAITS | BISQUECROW_QUIRKS, 30) == BISQUECROW_YES);
    CHECK(bisquecrow_octets_tidy(M1, BISQUECROW_AWAITS, 29) == BISQUECROW_NO);
    CHECK(bisquecrow_octets_tidy(M1, BISQUECROW_PLAIN, 30) == BISQUECROW_NO);
    CHECK(bisquecrow_octets_tidy(M1, BISQUECROW_AWAITS, 65537) == BISQUECROW_BAD_ROOMS);
    CHECK(bisquecrow_octets_grammatical(S("WARC/1.1\r\nWARC-Type: warcinfo\r\n a\r\n\r\n")) == BISQUECROW_YES);
    CHECK(bisquecrow_octets_grammatical(M1) == BISQUECROW_NO);
    CHECK(bisquecrow_octets_grammatical(bisquecrow_octets(NULL, 0)) == BISQUECROW_NO);

    read_all(&one, S("HTTP/1.1 +204\r\nContent-Length: 18446744073709551616\r\nWARC-Type: x\r\n\r\n"), BISQUECROW_AWAITS);
    CHECK(bisquecrow_map_status_code(&one.map, &one.loans, &code) == BISQUECROW_FOUND && code == 204);
    CHECK(bisquecrow_map_content_length(&one.map, &one.loans, &length) == BISQUECROW_FOUND && length == UINT64_MAX);
    CHECK(bisquecrow_map_record_type(&one.map, &one.loans, &code) == BISQUECROW_FOUND && code == BISQUECROW_TYPE_OTHER);

    read_all(&one, M1, BISQUECROW_AWAITS);
    read_all(&two, S("HTTP/1.1 206 Partial Content\r\nETag: \"a\"\r\n\r\n"), BISQUECROW_AWAITS);
    CHECK(bisquecrow_map_resume(&one.map, &one.loans, &two.map, &two.loans) == BISQUECROW_APPEND);
    CHECK(bisquecrow_map_resume(&two.map, &two.loans, &one.map, &one.loans) == BISQUECROW_NOT_PARTIAL);
    CHECK(bisquecrow_map_equal(&one.map, &one.loans, &two.map, &two.loans) == BISQUECROW_NO);
    CHECK(bisquecrow_map_set(&two.map, &two.loans, S("ETag"), S("\"b\"")) == BISQUECROW_DONE);
    CHECK(bisquecrow_map_resume(&one.map, &one.loans, &two.map, &two.loans) == BISQUECROW_DIFFER);
    CHECK(bisquecrow_map_append(&two.map, &two.loans, S("ETag"), S("\"a\"")) == BISQUECROW_DONE);
    CHECK(bisquecrow_map_resume(&one.map, &one.loans, &two.map, &two.loans) == BISQUECROW_NO_TAG);
    /* The first map is checked whole before the second. */
    two.map.head[0] = UINT64_MAX;
    begin(&one, 16, 16, BISQUECROW_AWAITS);
    CHECK(bisquecrow_map_resume(&one.map, &one.loans, &two.map, &two.loans) == BISQUECROW_WRONG_PHASE);
    CHECK(bisquecrow_map_equal(&two.map, &two.loans, &one.map, &one.loans) == BISQUECROW_BAD_MAP);
}

static uint32_t walk(struct bisquecrow_part piece, size_t wanted, struct bisquecrow_record *record)
{
    size_t taken = 99;
    uint32_t answer = bisquecrow_walker_walk(&walker, &one.loans, piece, &taken, record);
    CHECK(taken == wanted);
    return answer;
}

static void start(uint64_t position)
{
    lend(&one, LIMIT, LIMIT);
    memset(&walker, 0xEE, sizeof walker);
    CHECK(bisquecrow_walker_start(&walker, &one.loans, LIMIT, position) == BISQUECROW_DONE);
    CHECK(bisquecrow_walker_position(&walker) == position);
}

/* What a file tells, however it is cut: its records' numbers and its bodies' octets, summed up, and the last answer. */
static uint64_t told(struct bisquecrow_part file, size_t cut, uint32_t *last)
{
    struct bisquecrow_record r;
    uint64_t sum = 0;
    size_t at = 0, end, taken = 0, i;
    uint32_t answer = BISQUECROW_MORE;
    start(0);
    while (at < file.length && !bisquecrow_refused(answer)) {
        end = at / cut * cut + cut < file.length ? at / cut * cut + cut : file.length;
        answer = bisquecrow_walker_walk(&walker, &one.loans, bisquecrow_octets(file.octets + at, end - at), &taken, &r);
        if (answer == BISQUECROW_RECORD)
            sum = sum * 31 + r.start * 7 + r.body * 5 + r.length * 3 + r.type;
        if (answer == BISQUECROW_BODY)
            for (i = 0; i < taken; i++)
                sum = sum * 31 + file.octets[at + i];
        at += taken;
        CHECK(bisquecrow_walker_position(&walker) == at);
    }
    *last = bisquecrow_refused(answer) ? answer : bisquecrow_walker_end(&walker, &one.loans);
    return sum;
}

static void walks(void)
{
    static const char file[] = "WARC/1.1\r\nWARC-Type: warcinfo\r\nContent-Length: 3\r\n\r\none\r\n\r\n"
                               "WARC/1.0\r\nContent-Length: 0\r\nWARC-Type: response\r\n\r\n\r\n\r\n";
    struct bisquecrow_part whole = S(file), value;
    struct bisquecrow_record r = {0, 0, 0, 0};
    uint16_t type = 0;
    uint64_t sum;
    uint32_t last;
    size_t cut;

    start(0);
    CHECK(walk(whole, 52, &r) == BISQUECROW_RECORD && r.start == 0 && r.body == 52 && r.length == 3 && r.type == BISQUECROW_TYPE_WARCINFO);
    CHECK(bisquecrow_map_record_type(&walker.map, &one.loans, &type) == BISQUECROW_FOUND && type == BISQUECROW_TYPE_WARCINFO);
    CHECK(bisquecrow_map_get(&walker.map, &one.loans, S("content-length"), &value) == BISQUECROW_FOUND && is(value, S("3")));
    CHECK(walk(bisquecrow_octets(file + 52, sizeof file - 53), 3, &r) == BISQUECROW_BODY);
    CHECK(walk(bisquecrow_octets(file + 55, 1), 1, &r) == BISQUECROW_MORE);
    CHECK(walk(bisquecrow_octets(file + 56, sizeof file - 57), 3, &r) == BISQUECROW_MORE && r.start == 0);
    CHECK(walk(bisquecrow_octets(file + 59, 10), 10, &r) == BISQUECROW_MORE);
    CHECK(bisquecrow_map_get(&walker.map, &one.loans, S("content-length"), &value) == BISQUECROW_WRONG_PHASE);
    CHECK(walk(bisquecrow_octets(file + 69, sizeof file - 70), sizeof file - 74, &r) == BISQUECROW_RECORD);
    CHECK(r.start == 59 && r.body == sizeof file - 5 && r.length == 0 && r.type == BISQUECROW_TYPE_RESPONSE);
    CHECK(walk(bisquecrow_octets(file + sizeof file - 5, 4), 4, &r) == BISQUECROW_MORE);
    CHECK(bisquecrow_walker_end(&walker, &one.loans) == BISQUECROW_END);
    CHECK(walk(whole, 0, &r) == BISQUECROW_END);

    sum = told(whole, whole.length, &last);
    CHECK(last == BISQUECROW_END);
    for (cut = 1; cut < whole.length; cut++) {
        CHECK(told(whole, cut, &last) == sum && last == BISQUECROW_END);
        told(bisquecrow_octets(file, cut), 5, &last);
        CHECK(last == (cut == 59 ? (uint32_t)BISQUECROW_END : (uint32_t)BISQUECROW_CUT_SHORT));
    }
    told(S("HTTP/1.1 200 OK\r\n\r\n"), 5, &last);
    CHECK(last == BISQUECROW_BAD_VERSION);
    told(S("WARC/1.1\r\n\r\n"), 5, &last);
    CHECK(last == BISQUECROW_BAD_LENGTH);
    told(S("WARC/1.1\r\nContent-Length: 1\r\n\r\nx\r\n\rx"), 5, &last);
    CHECK(last == BISQUECROW_BAD_TRAILER);

    /* A stopped walker repeats its number; a file may be too long. */
    start(0);
    CHECK(walk(S("WARC/0.9\r\n\r\n"), 12, &r) == BISQUECROW_BAD_VERSION);
    CHECK(walk(whole, 0, &r) == BISQUECROW_BAD_VERSION && bisquecrow_walker_end(&walker, &one.loans) == BISQUECROW_BAD_VERSION);
    start(UINT64_C(1) << 62);
    CHECK(walk(S("W"), 0, &r) == BISQUECROW_TOO_FAR);

    /* What a start needs: a block of the default limit, a room from there to 65,536. */
    lend(&one, LIMIT, LIMIT);
    keep(&one);
    start(0);
    CHECK(bisquecrow_walker_start(&walker, &one.loans, LIMIT - 1, 0) == BISQUECROW_BAD_ROOMS);
    CHECK(bisquecrow_walker_start(&walker, &one.loans, LARGEST + 1, 0) == BISQUECROW_BAD_ROOMS);
    CHECK(bisquecrow_walker_start(&walker, &one.loans, LIMIT + 1, 0) == BISQUECROW_SHORT_LOAN);
    one.loans.block_length = LIMIT - 1;
    CHECK(bisquecrow_walker_start(&walker, &one.loans, LIMIT, 0) == BISQUECROW_SHORT_LOAN);

    /* A walker whose loans are short stops by 2, and says so from then on. */
    CHECK(walk(S("W"), 0, &r) == BISQUECROW_SHORT_LOAN);
    one.loans.block_length = LIMIT;
    CHECK(walk(S("W"), 0, &r) == BISQUECROW_SHORT_LOAN);
}

static void damaged_walkers(void)
{
    struct bisquecrow_walker copy;
    struct bisquecrow_record r = {1, 2, 3, 4};
    uint64_t taken = 99, record[4] = {1, 2, 3, 4};
    int at;
    for (at = 0; at < 5; at++) {
        start(0);
        if (at == 0)
            walker.trail[3] = UINT64_MAX;
        if (at == 1)
            walker.map.head[12] = 2;
        if (at == 2)
            walker.map.head[6] = 3;
        if (at == 3)
            walker.map.head[9] = UINT64_MAX;
        if (at == 4)
            walker.map.head[8] = 1;
        copy = walker;
        keep(&one);
        CHECK(walk(S("WARC/1.1\r\n\r\n"), 0, &r) == BISQUECROW_BAD_MAP && r.start == 1 && r.type == 4);
        CHECK(bisquecrow_walker_end(&walker, &one.loans) == BISQUECROW_BAD_MAP);
        CHECK(memcmp(&copy, &walker, sizeof walker) == 0 && unchanged(&one));
    }
    start(0);
    copy = walker;
    CHECK(bisquecrow_walk(walker.trail, 3, walker.map.head, 13, walker.map.table, 1024, one.block, LIMIT, one.store, LIMIT, M1.octets, 30, &taken,
                          record) == BISQUECROW_BAD_MAP);
    CHECK(taken == 0 && record[0] == 1 && record[3] == 4);
    CHECK(bisquecrow_walker(walker.trail, 0, walker.map.head, 13, walker.map.table, 1024, LIMIT, 0, one.block, LIMIT, one.store, LIMIT) ==
          BISQUECROW_BAD_MAP);
    CHECK(bisquecrow_walker(walker.trail, 4, walker.map.head, 12, walker.map.table, 1024, LIMIT, 0, one.block, LIMIT, one.store, LIMIT) ==
          BISQUECROW_BAD_MAP);
    CHECK(bisquecrow_end(walker.trail, 4, walker.map.head, 13, walker.map.table, 1023, one.block, LIMIT, one.store, LIMIT) == BISQUECROW_BAD_MAP);
    CHECK(memcmp(&copy, &walker, sizeof walker) == 0);

    /* A rest over the cap is 3 as well; the walker can say so, and is stopped. */
    start(0);
    walker.trail[1] = UINT64_C(1099511627777);
    CHECK(walk(S("W"), 0, &r) == BISQUECROW_BAD_MAP);
    walker.trail[1] = 0;
    CHECK(walk(S("W"), 0, &r) == BISQUECROW_BAD_MAP);
}

static void texts(void)
{
    uint32_t n;
    for (n = 0; n < 100; n++) {
        bool known = n <= 13 || (n >= 64 && n <= 75) || (n >= 80 && n <= 83);
        CHECK((strcmp(bisquecrow_text(n), "no answer of this library") != 0) == known);
        CHECK(bisquecrow_refused(n) == (n >= 1 && n < 64));
    }
    CHECK(strcmp(bisquecrow_text(BISQUECROW_FIELDS_FULL), "a 257th field is needed") == 0);
    CHECK(strcmp(BISQUECROW_VERSION, "1.0.0") == 0);
    CHECK(BISQUECROW_VERSION_MAJOR == 1 && BISQUECROW_VERSION_MINOR == 0 && BISQUECROW_VERSION_PATCH == 0);
}

int main(void)
{
    looks();
    reads();
    edits();
    refusals();
    tells();
    walks();
    damaged_walkers();
    texts();
    printf("test: %d checks, %d failed\n", checks, failures);
    return failures == 0 ? EXIT_SUCCESS : EXIT_FAILURE;
}
