/* Calls every exported function over random and slightly damaged numbers, lengths, loans, pieces and flags, and checks of each call: it does not trap; it
   answers one of its own numbers; 1, 2, 3 and 7 exactly where document 01 says so; a call that they refuse leaves all; nothing past a loan, a limit, a room
   or a count changes; a good map stays good; what is handed out lies in its loan.

       fuzz [CALLS [SEED [table]]]                                                                                                       */
#include <signal.h>
#include <stdio.h>
#include <stdlib.h>
#include <string.h>

#include "bisquecrow.h"

enum { GUARD = 64, LOAN = 66000, OUTPUT = 2048, TEXT = 2048, HEAD = 16, TABLE = 1032, TRAIL = 8, STAGES = 21 };

#define CAP UINT64_C(1099511627776)
#define FURTHEST (UINT64_C(1) << 62)
#define UNWRITTEN UINT64_C(0x5A5A5A5A5A5A5A5A)

enum call {
    BEGIN, FEED, FINISH, CLEAR, FIND, VALUE, KEY, STATUS, REASON, FIELDS, SET, APPEND, REMOVE, SET_STATUS, WRITE, REBUILD, STATUS_CODE,
    CONTENT_LENGTH, RECORD_TYPE, CLEAN, EQUAL, RESUME, TIDY, GRAMMATICAL, WALKER, WALK, END, CALLS
};

static const char *const names[CALLS] = {
    "begin", "feed", "finish", "clear", "find", "value", "key", "status", "reason", "fields", "set", "append", "remove", "set_status", "write",
    "rebuild", "status_code", "content_length", "record_type", "clean", "equal", "resume", "tidy", "grammatical", "walker", "walk", "end",
};

/* How often each is called. */
static const unsigned weights[CALLS] = {4, 12, 2, 1, 3, 2, 2, 2, 2, 3, 4, 4, 2, 2, 2, 2, 2, 2, 2, 2, 2, 3, 2, 2, 3, 16, 2};

/* Lent memory with a guard before and behind it, and a copy of all that. */
struct lent {
    uint8_t *octets;
    uint8_t *copy;
    size_t length;
};

/* A map or a walker with its loans. */
struct side {
    struct lent trail, head, table, block, store;
};

static struct side sides[2];
static struct lent piece, key, value, out;
static uint64_t seed, state, turn;
static enum call called;
static uint64_t seen[CALLS][128];

static uint64_t rnd(void)
{
    uint64_t z = (state += UINT64_C(0x9E3779B97F4A7C15));
    z = (z ^ (z >> 30)) * UINT64_C(0xBF58476D1CE4E5B9);
    z = (z ^ (z >> 27)) * UINT64_C(0x94D049BB133111EB);
    return z ^ (z >> 31);
}

static size_t below(size_t n)
{
    return (size_t)(rnd() % n);
}

static bool one_in(size_t n)
{
    return below(n) == 0;
}

static void fail(const char *what, uint32_t answer)
{
    fprintf(stderr, "fuzz: %s answered %u: %s (seed %llu, call %llu)\n", names[called], (unsigned)answer, what, (unsigned long long)seed,
            (unsigned long long)turn);
    exit(1);
}

/* A trap is told with its call, too. */
static void trapped(int number)
{
    signal(number, SIG_DFL);
    fprintf(stderr, "fuzz: %s trapped by signal %d (seed %llu, call %llu)\n", names[called], number, (unsigned long long)seed,
            (unsigned long long)turn);
    _Exit(1);
}

/* ---- Lent memory ---- */

static void set_guards(struct lent *l)
{
    memset(l->octets - GUARD, 0xC3, GUARD);
    memset(l->octets + l->length, 0xC3, GUARD);
}

static void make(struct lent *l, size_t most, size_t length)
{
    uint8_t *memory = (uint8_t *)calloc(2, most + 2 * GUARD);
    if (memory == NULL)
        exit(2);
    l->octets = memory + GUARD;
    l->copy = memory + most + 2 * GUARD;
    l->length = length;
    set_guards(l);
}

static void copy(struct lent *l)
{
    memcpy(l->copy, l->octets - GUARD, l->length + 2 * GUARD);
}

/* Whether all but the octets from to before to are as they were, the guards among them. */
static bool same_but(const struct lent *l, size_t from, size_t to)
{
    return memcmp(l->octets - GUARD, l->copy, GUARD + from) == 0 &&
           memcmp(l->octets + to, l->copy + GUARD + to, l->length - to + GUARD) == 0;
}

static bool same(const struct lent *l)
{
    return same_but(l, 0, 0);
}

static uint64_t *numbers(const struct lent *l)
{
    return (uint64_t *)(void *)l->octets;
}

static uint32_t *entries(const struct side *s)
{
    return (uint32_t *)(void *)s->table.octets;
}

/* ---- Texts ---- */

static const char *const words[] = {
    "\r\n", "\r\n\r\n", "\n", "\r", " ", "\t", ":", ": ", "A", "a: b\r\n", "A: c\r\n", " fold\r\n", "\tx\r\n", "ETag: \"a\"\r\n", "ETag: \"b\"\r\n", "ETag",
    "HTTP/1.1 200 OK\r\n", "HTTP/1.1 206 Partial Content\r\n", "HTTP/1.1 +206\r\n", "WARC/1.1\r\n", "WARC/1.0\r\n", "WARC/1.2\r\n",
    "Content-Length: 5\r\n", "Content-Length: 0\r\n", "Content-Length: 1099511627776\r\n", "Content-Length: x\r\n", "content-length", "WARC-Type",
    "WARC-Type: warcinfo\r\n", "WARC-Type: Continuation\r\n", "warc-type: else\r\n", "hello", "\x0c", "\xff", "K:\r\n",
    "WARC/1.1\r\nWARC-Type: response\r\nContent-Length: 5\r\n\r\nhello\r\n\r\n", "WARC/1.0\r\nContent-Length: 0\r\n\r\n\r\n\r\n",
};

/* Whole headers, for a reading to end with. */
static const char *const headers[] = {
    "HTTP/1.1 200 OK\r\nETag: \"a\"\r\n\r\n", "HTTP/1.1 206 Partial Content\r\nETag: \"a\"\r\nContent-Length: 5\r\n\r\n",
    "HTTP/1.1 206 \r\nETag: \"b\"\r\n\r\n", "A: b\r\nETag: \"a\"\r\n c\r\nA: d\r\n\r\n", "WARC/1.1\r\nWARC-Type: metadata\r\nContent-Length: 5\r\n\r\n",
};

static void put(struct lent *l, const char *text)
{
    l->length = strlen(text);
    memcpy(l->octets, text, l->length);
    set_guards(l);
}

/* A text of some words and stray octets. */
static void say(struct lent *l, size_t most)
{
    size_t n = 0, count = below(most), i;
    for (i = 0; i < count; i++) {
        const char *word = words[below(sizeof words / sizeof *words)];
        size_t length = strlen(word);
        if (one_in(12)) {
            l->octets[n++] = (uint8_t)rnd();
            length = 0;
        }
        if (n + length >= TEXT)
            break;
        memcpy(l->octets + n, word, length);
        n += length;
    }
    l->length = n;
    set_guards(l);
}

/* A piece: a whole header, one of about as many fields as a map can have, or some words. */
static void say_piece(void)
{
    size_t at;
    if (one_in(3)) {
        put(&piece, headers[below(sizeof headers / sizeof *headers)]);
        return;
    }
    if (one_in(60)) {
        piece.length = 4 * (252 + below(8)) + 2;
        for (at = 0; at < piece.length; at++)
            piece.octets[at] = (uint8_t)(at + 2 < piece.length ? "a:\r\n"[at % 4] : "\r\n"[at % 2]);
        set_guards(&piece);
        return;
    }
    say(&piece, one_in(2) ? 14 : 4);
}

/* A name that fields have, or some words. */
static void say_name(void)
{
    static const char *const known[] = {"ETag", "a", "content-length", "WARC-Type", "X"};
    if (one_in(2))
        put(&key, known[below(5)]);
    else
        say(&key, 3);
}

/* ---- Maps ---- */

static size_t loan_length(void)
{
    switch (below(24)) {
    case 0: return 32768 + below(LOAN - 32768);
    case 1: case 2: case 3: return 1500 + below(1500);
    case 4: return below(8);
    default: return below(600);
    }
}

/* New loans, full of words, so that a damaged map points at some. */
static void lend(struct side *s)
{
    struct lent *loans[2];
    size_t i, at;
    loans[0] = &s->block;
    loans[1] = &s->store;
    for (i = 0; i < 2; i++) {
        loans[i]->length = loan_length();
        for (at = 0; at < loans[i]->length; at++)
            loans[i]->octets[at] = (uint8_t)(at % 61 == 0 ? 58 : 65 + at % 26);
        set_guards(loans[i]);
    }
}

static uint64_t odd_number(void)
{
    switch (below(8)) {
    case 0: return rnd();
    case 1: return UINT64_MAX - below(3);
    case 2: return (UINT64_C(1) << (8 * below(8))) - below(3);
    case 3: return 65535 + below(3);
    case 4: return FURTHEST - below(3);
    case 5: return 255 + below(4);
    default: return below(40);
    }
}

static void damage(struct side *s)
{
    uint64_t *h = numbers(&s->head), *w = numbers(&s->trail);
    uint32_t *t = entries(s);
    size_t at = below(40), i;
    switch (below(6)) {
    case 0: h[below(13)] = odd_number(); break;
    case 1: t[one_in(2) ? at : below(1024)] = (uint32_t)odd_number(); break;
    case 2: t[at] = (uint32_t)(one_in(2) ? BISQUECROW_STORE + below(64) : below(64)); break;
    case 3:
        h[5] = one_in(2) ? 255 + below(3) : below(260);
        if (one_in(2))
            memset(t, 0, BISQUECROW_TABLE * sizeof *t);
        break;
    case 4:
        i = below(4);
        w[i] = i != 3 ? odd_number() : one_in(8) ? STAGES + (one_in(2) ? 0 : rnd() >> 1) : below(STAGES);
        break;
    default: h[12] ^= 1; break;
    }
}

/* ---- What document 01 says of 3, 2 and 7 ---- */

static bool sound_head(const uint64_t *h)
{
    bool status = h[6] == 0 ? h[7] == 0 && h[8] == 0 : h[6] <= 2 && h[7] >> 32 == 0 && h[8] >> 32 == 0;
    return status && h[9] <= 1 && h[10] <= 1 && h[11] <= 1 && h[12] <= 1;
}

static bool good_place(uint64_t from, uint64_t to, bool store, const uint64_t *h)
{
    return from <= to && to <= (store ? h[4] : h[2]);
}

static bool good_entry(const uint32_t *t, const uint64_t *h)
{
    bool store = t[0] >= BISQUECROW_STORE;
    return good_place(store ? t[0] - BISQUECROW_STORE : t[0], t[1], store, h);
}

static bool good(const struct side *s)
{
    const uint64_t *h = numbers(&s->head);
    const uint32_t *t = entries(s);
    size_t i;
    if (!sound_head(h) || h[0] > h[1] || h[1] > 65536 || h[2] > h[0] || h[3] > h[2] || h[4] > h[1] || h[5] > 256)
        return false;
    if (h[6] != 0 && !good_place(h[7], h[8], h[6] == 2, h))
        return false;
    for (i = 0; i < 2 * h[5]; i++)
        if (!good_entry(t + 2 * i, h))
            return false;
    return true;
}

enum ready { ANY, READING, WHOLE };

static uint32_t first_check(const struct side *s, size_t head, size_t table, size_t block, size_t store, enum ready ready)
{
    const uint64_t *h = numbers(&s->head);
    if (head != 13 || table != 1024 || !good(s))
        return 3;
    if (block < h[0] || store < h[1])
        return 2;
    if (ready != ANY && (h[12] == 1) != (ready == READING))
        return 7;
    return 0;
}

static uint32_t rooms_check(size_t limit, size_t room, size_t block, size_t store)
{
    if (limit > room || room > 65536)
        return 1;
    return block < limit || store < room ? 2 : 0;
}

/* ---- One call ---- */

static bool among(uint32_t answer, const char *answers)
{
    char word[16];
    snprintf(word, sizeof word, " %u ", (unsigned)answer);
    return strstr(answers, word) != NULL;
}

/* The answers of each call besides 1, 2, 3 and 7. */
static const char *own_answers(enum call call)
{
    switch (call) {
    case FEED: return " 4 5 6 64 65 ";
    case FINISH: return " 5 6 66 ";
    case FIND: case VALUE: case KEY: case STATUS: case REASON: return " 68 71 72 ";
    case SET: case APPEND: return " 0 5 6 ";
    case SET_STATUS: return " 0 6 ";
    case WRITE: case REBUILD: return " 0 8 ";
    case STATUS_CODE: case CONTENT_LENGTH: return " 67 68 ";
    case RECORD_TYPE: return " 67 ";
    case CLEAN: case EQUAL: case TIDY: case GRAMMATICAL: return " 69 70 ";
    case RESUME: return " 80 81 82 83 ";
    case WALK: return " 4 5 6 9 10 11 13 64 73 74 75 ";
    case END: return " 12 75 ";
    default: return " 0 ";
    }
}

/* The arguments of the call at hand: the map's side and the other; lengths, which may be wrong; numbers that pointers take. */
static struct {
    struct side *map, *other;
    uint64_t *head, *trail;
    uint32_t *table;
    size_t head_length, table_length, trail_length, block_length, store_length, other_head, other_table;
    size_t number, limit, room;
    uint64_t position, taken, written[4];
    bool awaits, quirks;
} a;

/* What was there before the call, and what is to come of it. */
static uint64_t head_before[HEAD], trail_before[TRAIL];
static uint32_t expected;
static bool resting, stops;

static enum call some_call(void)
{
    unsigned sum = 0, pick, i;
    for (i = 0; i < CALLS; i++)
        sum += weights[i];
    pick = (unsigned)below(sum);
    for (i = 0; pick >= weights[i]; i++)
        pick -= weights[i];
    return (enum call)i;
}

static size_t wrong_now_and_then(size_t right, size_t most)
{
    if (!one_in(24))
        return right;
    return one_in(2) ? below(most + 1) : right - 1 + 2 * below(2);
}

static void choose(void)
{
    size_t i;
    a.map = &sides[below(2)];
    called = some_call();
    if (numbers(&a.map->head)[12] == 1 && one_in(2))
        called = numbers(&a.map->trail)[3] == 1 ? WALK : FEED;
    a.other = a.map == &sides[0] ? &sides[1] : &sides[0];
    if (one_in(150))
        lend(a.map);
    if (called == WALKER && one_in(2) && (a.map->block.length < 32768 || a.map->store.length < 32768)) {
        a.map->block.length = a.map->store.length = 32768 + below(4);
        set_guards(&a.map->block);
        set_guards(&a.map->store);
    }
    for (i = 0; i < 2; i++)
        if (one_in(12))
            damage(&sides[i]);
    a.head = numbers(&a.map->head);
    a.trail = numbers(&a.map->trail);
    a.table = entries(a.map);
    a.head_length = wrong_now_and_then(13, HEAD);
    a.table_length = wrong_now_and_then(1024, TABLE);
    a.trail_length = wrong_now_and_then(4, TRAIL);
    a.other_head = wrong_now_and_then(13, HEAD);
    a.other_table = wrong_now_and_then(1024, TABLE);
    a.block_length = one_in(24) ? below(a.map->block.length + 1) : a.map->block.length;
    a.store_length = one_in(24) ? below(a.map->store.length + 1) : a.map->store.length;
    a.number = one_in(8) ? (size_t)rnd() : one_in(2) ? 0 : below(6);
    a.limit = one_in(6) ? (size_t)odd_number() : below(a.block_length + 2);
    a.room = one_in(6) ? (size_t)odd_number() : one_in(2) ? 32768 : a.store_length;
    a.position = one_in(4) ? odd_number() : 0;
    a.awaits = one_in(2);
    a.quirks = one_in(3);
    say_piece();
    say_name();
    say(&value, 4);
    out.length = one_in(4) ? below(16) : below(OUTPUT);
    memset(out.octets, 0xBB, out.length);
    set_guards(&out);
}

static void remember(void)
{
    size_t i;
    for (i = 0; i < 2; i++) {
        copy(&sides[i].trail);
        copy(&sides[i].head);
        copy(&sides[i].table);
        copy(&sides[i].block);
        copy(&sides[i].store);
    }
    copy(&piece);
    copy(&key);
    copy(&value);
    copy(&out);
    memcpy(head_before, a.head, sizeof head_before);
    memcpy(trail_before, a.trail, sizeof trail_before);
    a.taken = a.written[0] = a.written[1] = a.written[2] = a.written[3] = UNWRITTEN;
}

static uint32_t check_map(enum ready ready)
{
    return first_check(a.map, a.head_length, a.table_length, a.block_length, a.store_length, ready);
}

/* A walker that is stopped or has ended says so again; numbers that are no walker's are 3 and stay; any other 3, 2 or 7 stops it. */
static uint32_t check_walker(void)
{
    uint64_t stage = a.trail[3];
    uint32_t found;
    if (a.head_length != 13 || a.table_length != 1024 || a.trail_length != 4 || stage >= STAGES || !sound_head(a.head))
        return 3;
    if (stage >= 7) {
        resting = true;
        return stage == 7 ? (uint32_t)BISQUECROW_END : (uint32_t)stage - 7;
    }
    found = a.trail[1] > CAP ? 3 : check_map(stage == 1 ? READING : WHOLE);
    stops = found != 0;
    return found;
}

/* What the first checks say of the call: 0, or its answer. */
static uint32_t expect(void)
{
    bool lengths = a.head_length == 13 && a.table_length == 1024;
    uint32_t found;
    resting = stops = false;
    switch (called) {
    case BEGIN: return lengths ? rooms_check(a.limit, a.room, a.block_length, a.store_length) : 3;
    case WALKER: return lengths && a.trail_length == 4 ? rooms_check(32768, a.room, a.block_length, a.store_length) : 3;
    case FEED: case FINISH: return check_map(READING);
    case CLEAR: return check_map(ANY);
    case TIDY: return a.limit > 65536 ? 1 : 0;
    case GRAMMATICAL: return 0;
    case WALK: case END: return check_walker();
    case EQUAL: case RESUME:
        found = check_map(WHOLE);
        return found != 0 ? found : first_check(a.other, a.other_head, a.other_table, a.other->block.length, a.other->store.length, WHOLE);
    default: return check_map(WHOLE);
    }
}

#define MAP_ a.head, a.head_length, a.table, a.table_length, a.map->block.octets, a.block_length, a.map->store.octets, a.store_length
#define OTHER_                                                                                                                      \
    numbers(&a.other->head), a.other_head, entries(a.other), a.other_table, a.other->block.octets, a.other->block.length,            \
        a.other->store.octets, a.other->store.length

static uint32_t make_call(void)
{
    uint64_t *n = a.written;
    switch (called) {
    case BEGIN:
        return bisquecrow_begin(a.head, a.head_length, a.table, a.table_length, a.limit, a.room, a.awaits, a.quirks, a.map->block.octets,
                                a.block_length, a.map->store.octets, a.store_length);
    case FEED: return bisquecrow_feed(MAP_, piece.octets, piece.length, &a.taken);
    case FINISH: return bisquecrow_finish(MAP_);
    case CLEAR: return bisquecrow_clear(MAP_);
    case FIND: return bisquecrow_find(MAP_, key.octets, key.length, a.number, &n[2], &n[0], &n[1]);
    case VALUE: return bisquecrow_value(MAP_, a.number, &n[0], &n[1]);
    case KEY: return bisquecrow_key(MAP_, a.number, &n[0], &n[1]);
    case STATUS: return bisquecrow_status(MAP_, &n[0], &n[1]);
    case REASON: return bisquecrow_reason(MAP_, &n[0], &n[1]);
    case FIELDS: return bisquecrow_fields(MAP_, &n[0]);
    case SET: return bisquecrow_set(MAP_, key.octets, key.length, value.octets, value.length);
    case APPEND: return bisquecrow_append(MAP_, key.octets, key.length, value.octets, value.length);
    case REMOVE: return bisquecrow_remove(MAP_, key.octets, key.length);
    case SET_STATUS: return bisquecrow_set_status(MAP_, value.octets, value.length);
    case WRITE: return bisquecrow_write(MAP_, out.octets, out.length, &n[0]);
    case REBUILD: return bisquecrow_rebuild(MAP_, out.octets, out.length, &n[0]);
    case STATUS_CODE: return bisquecrow_status_code(MAP_, &n[0]);
    case CONTENT_LENGTH: return bisquecrow_content_length(MAP_, &n[0]);
    case RECORD_TYPE: return bisquecrow_record_type(MAP_, &n[0]);
    case CLEAN: return bisquecrow_clean(MAP_);
    case EQUAL: return bisquecrow_equal(MAP_, OTHER_);
    case RESUME: return bisquecrow_resume(MAP_, OTHER_);
    case TIDY: return bisquecrow_tidy(piece.octets, piece.length, a.awaits, a.quirks, a.limit);
    case GRAMMATICAL: return bisquecrow_grammatical(piece.octets, piece.length);
    case WALKER:
        return bisquecrow_walker(a.trail, a.trail_length, a.head, a.head_length, a.table, a.table_length, a.room, a.position,
                                 a.map->block.octets, a.block_length, a.map->store.octets, a.store_length);
    case WALK: return bisquecrow_walk(a.trail, a.trail_length, MAP_, piece.octets, piece.length, &a.taken, n);
    case END: return bisquecrow_end(a.trail, a.trail_length, MAP_);
    default: return 0;
    }
}

/* What no call of its kind changes, whatever it answers. */
static void check_loans(uint32_t answer)
{
    const struct side *s = a.map, *o = a.other;
    bool reads = called == FEED || called == WALK, edits = called == SET || called == APPEND, walks = called >= WALKER;
    size_t limit = head_before[0] < a.block_length ? (size_t)head_before[0] : a.block_length;
    size_t room = head_before[1] < a.store_length ? (size_t)head_before[1] : a.store_length;
    if (!same(&piece) || !same(&key) || !same(&value))
        fail("a text that was only lent changed", answer);
    if (!same(&o->trail) || !same(&o->head) || !same(&o->table) || !same(&o->block) || !same(&o->store))
        fail("another map or its loans changed", answer);
    if (!same_but(&s->trail, 0, walks ? 32 : 0))
        fail("a trail changed", answer);
    if (!same_but(&s->head, 0, called <= CLEAR || edits || called == REMOVE || called == SET_STATUS || walks ? 104 : 0))
        fail("a head changed", answer);
    if (!same_but(&s->table, 0, reads || called == FINISH || edits || called == REMOVE ? 4096 : 0))
        fail("a table changed", answer);
    if (!same_but(&s->block, 0, reads ? limit : 0))
        fail("the block changed, or it changed past the limit", answer);
    if (!same_but(&s->store, 0, reads || called == FINISH || edits || called == SET_STATUS ? room : 0))
        fail("the store changed, or it changed past the room", answer);
    if (!same_but(&out, 0, called == WRITE || called == REBUILD ? out.length : 0))
        fail("something past the output changed", answer);
}

static bool unwritten(void)
{
    return a.written[0] == UNWRITTEN && a.written[1] == UNWRITTEN && a.written[2] == UNWRITTEN && a.written[3] == UNWRITTEN;
}

/* A refusal by the first checks leaves all, as those of edits and of a short output do; a walker whose numbers are a walker's is stopped by it. */
static void check_refusal(uint32_t answer)
{
    const struct side *s = a.map;
    bool edit = called >= SET && called <= SET_STATUS;
    if (expected == 0 && !(edit && answer != 0) && answer != 8)
        return;
    if (!same(&s->head) || !same(&s->table) || !same(&s->block) || !same(&s->store) || !same(&out))
        fail("refused, and something changed", answer);
    if (!same_but(&s->trail, stops ? 24 : 0, stops ? 32 : 0))
        fail("refused, and the trail changed", answer);
    if (!unwritten())
        fail("refused, and a number was written", answer);
    if (stops && called == WALK && make_call() != answer)
        fail("a stopped walker does not repeat its number", answer);
}

/* The numbers that are written with an answer. */
static void check_written(uint32_t answer)
{
    const uint64_t *n = a.written, *h = a.head;
    if (answer == BISQUECROW_IN_BLOCK && (n[0] > n[1] || n[1] > h[2]))
        fail("a place outside the block's count", answer);
    if (answer == BISQUECROW_IN_STORE && (n[0] > n[1] || n[1] > h[4]))
        fail("a place outside the store's mark", answer);
    if (answer == BISQUECROW_MISSING && !unwritten())
        fail("missing, and a number was written", answer);
    if (called == FIND && answer != BISQUECROW_MISSING && (n[2] < a.number || n[2] >= h[5]))
        fail("no number of a field", answer);
    if (called == FIELDS && n[0] != h[5])
        fail("another count of fields", answer);
    if ((called == WRITE || called == REBUILD) && answer == 0 && (n[0] > out.length || !same_but(&out, 0, (size_t)n[0])))
        fail("something past the count changed", answer);
    if ((called == STATUS_CODE && answer == BISQUECROW_FOUND && n[0] > 65535) || (called == RECORD_TYPE && n[0] > 32768))
        fail("no status code or type", answer);
}

/* What a call that is not refused by its first checks leaves of the map. */
static void check_map_after(uint32_t answer)
{
    const uint64_t *h = a.head;
    bool empty = h[2] == 0 && h[3] == 0 && h[4] == 0 && h[5] == 0 && h[6] == 0 && h[7] == 0 && h[8] == 0 && h[11] == 0;
    if (called != TIDY && called != GRAMMATICAL && !good(a.map))
        fail("a good map is good no longer", answer);
    if (called == BEGIN && (!empty || h[0] != a.limit || h[1] != a.room || h[9] != a.awaits || h[10] != a.quirks || h[12] != 1))
        fail("no empty map that is Reading", answer);
    if (called == WALKER && (!empty || h[0] != 32768 || h[1] != a.room || h[12] != 0 || a.trail[0] != a.position))
        fail("no fresh walker", answer);
    if ((called == CLEAR || (called <= FINISH && answer >= 4 && answer <= 6)) &&
        (!empty || h[0] != head_before[0] || h[1] != head_before[1] || h[12] != 0))
        fail("no empty map that is Done", answer);
}

static void check_walk(uint32_t answer)
{
    const uint64_t *n = a.written, *w = a.trail;
    if (w[0] != trail_before[0] + a.taken || (a.taken > 0 && w[0] > FURTHEST))
        fail("another position", answer);
    if (answer == BISQUECROW_BODY && (a.taken == 0 || w[1] != trail_before[1] - a.taken))
        fail("no part of the body", answer);
    if (answer == BISQUECROW_RECORD && (n[0] != w[2] || n[1] != w[0] || n[2] > CAP || n[2] != w[1] || (n[3] & (n[3] - 1)) != 0 || n[3] > 32768))
        fail("no record", answer);
    if (answer != BISQUECROW_RECORD && !unwritten())
        fail("no record, and a number was written", answer);
}

/* Damaged numbers are made good again now and then, so that most calls have good ones: an empty map over the loans as they are. */
static void mend(void)
{
    size_t block = a.map->block.length, store = a.map->store.length < 65536 ? a.map->store.length : 65536;
    if (first_check(a.map, 13, 1024, block, store, ANY) != 0 && one_in(2)) {
        memset(a.head, 0, HEAD * sizeof *a.head);
        memset(a.trail, 0, TRAIL * sizeof *a.trail);
        a.head[0] = block < store ? block : store;
        a.head[1] = store;
        a.head[12] = one_in(2);
        a.head[9] = one_in(2);
    }
    if (a.trail[3] >= 7 && one_in(4))
        memset(a.trail, 0, TRAIL * sizeof *a.trail);
}

static void once(void)
{
    uint32_t answer;
    choose();
    remember();
    expected = expect();
    answer = make_call();
    if (expected != 0 && answer != expected)
        fail("the first checks say another number", answer);
    if (expected == 0 && !among(answer, own_answers(called)))
        fail("no answer of this call, or 1, 2, 3 or 7 where nothing is wrong", answer);
    if ((called == FEED || called == WALK) && (a.taken > piece.length || (expected != 0 && a.taken != 0)))
        fail("taken is not what it can be", answer);
    check_loans(answer);
    check_refusal(answer);
    if (expected == 0) {
        check_written(answer);
        check_map_after(answer);
        if (called == WALK)
            check_walk(answer);
    }
    seen[called][answer]++;
    mend();
}

/* How often each call gave each answer. */
static void print_seen(void)
{
    unsigned i, n;
    for (i = 0; i < CALLS; i++) {
        printf("%-14s", names[i]);
        for (n = 0; n < 128; n++)
            if (seen[i][n] > 0)
                printf(" %u:%llu", n, (unsigned long long)seen[i][n]);
        printf("\n");
    }
}

int main(int argc, char **argv)
{
    uint64_t calls = argc > 1 ? strtoull(argv[1], NULL, 10) : 1000000;
    size_t i;
    seed = argc > 2 ? strtoull(argv[2], NULL, 10) : 1;
    signal(SIGSEGV, trapped);
    signal(SIGILL, trapped);
    signal(SIGFPE, trapped);
    signal(SIGABRT, trapped);
    state = seed;
    for (i = 0; i < 2; i++) {
        make(&sides[i].trail, TRAIL * sizeof(uint64_t), TRAIL * sizeof(uint64_t));
        make(&sides[i].head, HEAD * sizeof(uint64_t), HEAD * sizeof(uint64_t));
        make(&sides[i].table, TABLE * sizeof(uint32_t), TABLE * sizeof(uint32_t));
        make(&sides[i].block, LOAN, 0);
        make(&sides[i].store, LOAN, 0);
        lend(&sides[i]);
    }
    make(&piece, TEXT, 0);
    make(&key, TEXT, 0);
    make(&value, TEXT, 0);
    make(&out, OUTPUT, 0);
    for (turn = 1; turn <= calls; turn++)
        once();
    if (argc > 3)
        print_seen();
    printf("fuzz: %llu calls, seed %llu: nothing wrong\n", (unsigned long long)calls, (unsigned long long)seed);
    return 0;
}
