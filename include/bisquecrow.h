/*
 * Bisquecrow for C and C++: reads HTTP and WARC header blocks while they arrive, keeps them as a map over memory that the caller lends,
 * edits the map and writes it back; walks the records of a WARC file; says whether octets may be appended to a download.
 *
 * Memory    The caller lends a block, where the header's octets are read to, and a store, where folds and edits put text: the same two at
 *           each call over one map. Neither pointer is null, even where its length is 0. No call allocates, keeps a pointer, or touches
 *           an octet past the map's limit or room. What a call may change must not overlap anything else that is lent to it.
 * Maps      A map is numbers only: places in its two loans. One that is all 0 is a map, or a walker, to begin with. They may be kept,
 *           copied and sent, and used again with the same loans; numbers that are damaged are refused by 3, and never followed.
 * Answers   Each call answers one of enum bisquecrow_answer: 0, a refusal (1 to 13; up to 31 are kept for more) or a number from 64 on. `taken` is written at every
 *           call, and is 0 where the numbers are damaged; what other pointers take is written with the answer that it belongs to.
 * Threads   The library has no state, so any threads may call it at once. Calls that change nothing may share a map.
 * Alignment The structs have what they need: 8 for a head and a trail, 4 for a table, 1 for lent octets.
 * Stack     A call takes at most BISQUECROW_STACK octets of it.
 *
 * A header is read so:
 *
 *     static uint8_t block[BISQUECROW_DEFAULT_LIMIT], store[BISQUECROW_DEFAULT_LIMIT];
 *     struct bisquecrow_loans loans = {block, sizeof block, store, sizeof store};
 *     struct bisquecrow_map map;
 *     bisquecrow_map_begin(&map, &loans, sizeof block, sizeof store, BISQUECROW_AWAITS);
 *     bisquecrow_map_feed(&map, &loans, bisquecrow_octets(buffer, n), &taken);      again, while the answer is MORE
 *     bisquecrow_map_get(&map, &loans, bisquecrow_string("ETag"), &value);          FOUND, MISSING or a refusal
 *
 * The functions that the library exports come first, as pointers and lengths; the inline ones behind them are the same in fewer words, and
 * say what each does. Link with libbisquecrow.a (x86-64 Linux), as `pkg-config --cflags --libs bisquecrow` says.
 */
#ifndef BISQUECROW_H
#define BISQUECROW_H

#include <stdbool.h>
#include <stddef.h>
#include <stdint.h>
#include <string.h>

#define BISQUECROW_VERSION "1.0.0"
#define BISQUECROW_VERSION_MAJOR 1
#define BISQUECROW_VERSION_MINOR 0
#define BISQUECROW_VERSION_PATCH 0

#ifdef __cplusplus
extern "C" {
#endif

/* How many numbers a head, a table and a trail are, and how many fields a map has at most. */
#define BISQUECROW_HEAD 13
#define BISQUECROW_TABLE 1024
#define BISQUECROW_TRAIL 4
#define BISQUECROW_FIELDS 256

/* The limit that a header gets where its reader names none, as a walker's do; the largest limit and the largest store room. */
#define BISQUECROW_DEFAULT_LIMIT 32768
#define BISQUECROW_LARGEST 65536

/* What a call takes of the stack at most. Measured (bindings/c/stack.c): 56,440 by clean, equal, resume and the other tests, which take maps by value;
   1,240 by those that read and walk, less by edits, lookups and writing. */
#define BISQUECROW_STACK 65536

/* In a table, offsets of the store begin at this number. */
#define BISQUECROW_STORE 2147483648u

enum bisquecrow_answer {
    BISQUECROW_DONE = 0,

    BISQUECROW_BAD_ROOMS = 1,    /* limit or store room outside its range */
    BISQUECROW_SHORT_LOAN = 2,   /* block lent shorter than limit, or store than room */
    BISQUECROW_BAD_MAP = 3,      /* bad map, or numbers that are no map's; a walker's body rest over the cap */
    BISQUECROW_BLOCK_FULL = 4,   /* the block goes on and its count equals the limit: the map is empty */
    BISQUECROW_FIELDS_FULL = 5,  /* a 257th field is needed: reading, the map is empty; editing, nothing was changed */
    BISQUECROW_STORE_FULL = 6,   /* mark plus new octets exceed the room: as 5 */
    BISQUECROW_WRONG_PHASE = 7,  /* feed or finish on Done; any other call but begin and clear on Reading */
    BISQUECROW_SHORT_OUTPUT = 8, /* output shorter than the written form */
    BISQUECROW_BAD_VERSION = 9,  /* version line is not WARC/1.0 or WARC/1.1: the walker stops */
    BISQUECROW_BAD_LENGTH = 10,  /* Content-Length absent, repeated, not one or more digits, or over 1,099,511,627,776: the walker stops */
    BISQUECROW_BAD_TRAILER = 11, /* an octet after the body differs from CR LF CR LF: the walker stops */
    BISQUECROW_CUT_SHORT = 12,   /* file ends inside a record: the walker stops */
    BISQUECROW_TOO_FAR = 13,     /* an octet at position 2^62 or later would be taken: the walker stops */

    BISQUECROW_MORE = 64,        /* more is wanted */
    BISQUECROW_BLANK = 65,       /* a blank line closed the reading */
    BISQUECROW_INPUT = 66,       /* the end of input closed the reading */
    BISQUECROW_FOUND = 67,
    BISQUECROW_MISSING = 68,
    BISQUECROW_YES = 69,
    BISQUECROW_NO = 70,
    BISQUECROW_IN_BLOCK = 71,    /* octets from to before to of the block */
    BISQUECROW_IN_STORE = 72,    /* octets from to before to of the store */
    BISQUECROW_RECORD = 73,      /* a record begun */
    BISQUECROW_BODY = 74,        /* the octets taken are a part of the body */
    BISQUECROW_END = 75,         /* the file has ended */

    BISQUECROW_APPEND = 80,      /* resume's answers 0 to 3: append; */
    BISQUECROW_NO_TAG = 81,      /* either map has not exactly one ETag, or an empty one; */
    BISQUECROW_DIFFER = 82,      /* the two ETags differ; */
    BISQUECROW_NOT_PARTIAL = 83  /* the second status code is not 206 */
};

/* What a number means, in words. */
static inline const char *bisquecrow_text(uint32_t answer)
{
    switch (answer) {
    case BISQUECROW_DONE: return "done";
    case BISQUECROW_BAD_ROOMS: return "limit or store room outside its range";
    case BISQUECROW_SHORT_LOAN: return "block lent shorter than limit, or store than room";
    case BISQUECROW_BAD_MAP: return "bad map";
    case BISQUECROW_BLOCK_FULL: return "the block goes on and its count equals the limit";
    case BISQUECROW_FIELDS_FULL: return "a 257th field is needed";
    case BISQUECROW_STORE_FULL: return "mark plus new octets exceed the room";
    case BISQUECROW_WRONG_PHASE: return "feed or finish on Done, or another call but begin and clear on Reading";
    case BISQUECROW_SHORT_OUTPUT: return "output shorter than the written form";
    case BISQUECROW_BAD_VERSION: return "version line is not WARC/1.0 or WARC/1.1";
    case BISQUECROW_BAD_LENGTH: return "Content-Length absent, repeated, not one or more digits, or over 1,099,511,627,776";
    case BISQUECROW_BAD_TRAILER: return "an octet after the body differs from CR LF CR LF";
    case BISQUECROW_CUT_SHORT: return "file ends inside a record";
    case BISQUECROW_TOO_FAR: return "an octet at position 2^62 or later would be taken";
    case BISQUECROW_MORE: return "more is wanted";
    case BISQUECROW_BLANK: return "a blank line closed the reading";
    case BISQUECROW_INPUT: return "the end of input closed the reading";
    case BISQUECROW_FOUND: return "found";
    case BISQUECROW_MISSING: return "missing";
    case BISQUECROW_YES: return "yes";
    case BISQUECROW_NO: return "no";
    case BISQUECROW_IN_BLOCK: return "in the block";
    case BISQUECROW_IN_STORE: return "in the store";
    case BISQUECROW_RECORD: return "a record begun";
    case BISQUECROW_BODY: return "a part of the body";
    case BISQUECROW_END: return "the file has ended";
    case BISQUECROW_APPEND: return "append";
    case BISQUECROW_NO_TAG: return "either map has not exactly one ETag, or an empty one";
    case BISQUECROW_DIFFER: return "the two ETags differ";
    case BISQUECROW_NOT_PARTIAL: return "the second status code is not 206";
    default: return "no answer of this library";
    }
}

/* Whether an answer is a refusal. */
static inline bool bisquecrow_refused(uint32_t answer)
{
    return answer != BISQUECROW_DONE && answer < BISQUECROW_MORE;
}

/* The codes of record types, as record_type and walk answer them. */
enum bisquecrow_type {
    BISQUECROW_TYPE_NONE = 0, /* no field WARC-Type */
    BISQUECROW_TYPE_WARCINFO = 2,
    BISQUECROW_TYPE_RESPONSE = 4,
    BISQUECROW_TYPE_RESOURCE = 8,
    BISQUECROW_TYPE_REQUEST = 16,
    BISQUECROW_TYPE_METADATA = 32,
    BISQUECROW_TYPE_REVISIT = 64,
    BISQUECROW_TYPE_CONVERSION = 128,
    BISQUECROW_TYPE_CONTINUATION = 256,
    BISQUECROW_TYPE_OTHER = 32768 /* another name */
};

/* What a block may look like: a status line is expected; lines may end with LF alone, and a line of blanks ends the block. */
enum bisquecrow_flags {
    BISQUECROW_PLAIN = 0,
    BISQUECROW_AWAITS = 1,
    BISQUECROW_QUIRKS = 2
};

/* head: limit, room, count, line start, mark, fields; the status' kind (0 absent, with from and to 0; 1 block, 2 store), from and to; awaits, quirks, edited; phase
   (1 Reading, 0 Done). table: four numbers to a field, key from, key to, value from, value to. */
struct bisquecrow_map {
    uint64_t head[BISQUECROW_HEAD];
    uint32_t table[BISQUECROW_TABLE];
};

/* trail: position, what is left of the body, the position of the last header's first octet, stage. The map is that of the record. */
struct bisquecrow_walker {
    uint64_t trail[BISQUECROW_TRAIL];
    struct bisquecrow_map map;
};

struct bisquecrow_loans {
    uint8_t *block;
    size_t block_length;
    uint8_t *store;
    size_t store_length;
};

/* Octets that a call is given or hands out. What is handed out lies in a loan, and stands there until a call changes the map; what lies in a map's store
   is not to be given to an edit of that map, which writes there. */
struct bisquecrow_part {
    const uint8_t *octets;
    size_t length;
};

/* A record begun: the positions of its header's and its body's first octet, the body's length, the code of its type. */
struct bisquecrow_record {
    uint64_t start;
    uint64_t body;
    uint64_t length;
    uint16_t type;
};

/* ---- The exported functions. Each slice is a pointer that is not null and a length. ---- */

uint32_t bisquecrow_begin(uint64_t *head, size_t head_length, const uint32_t *table, size_t table_length, size_t limit, size_t room,
                          bool awaits, bool quirks, const uint8_t *block, size_t block_length, const uint8_t *store, size_t store_length);
uint32_t bisquecrow_feed(uint64_t *head, size_t head_length, uint32_t *table, size_t table_length, uint8_t *block, size_t block_length,
                         uint8_t *store, size_t store_length, const uint8_t *piece, size_t piece_length, uint64_t *taken);
uint32_t bisquecrow_finish(uint64_t *head, size_t head_length, uint32_t *table, size_t table_length, const uint8_t *block,
                           size_t block_length, uint8_t *store, size_t store_length);
uint32_t bisquecrow_clear(uint64_t *head, size_t head_length, const uint32_t *table, size_t table_length, const uint8_t *block,
                          size_t block_length, const uint8_t *store, size_t store_length);

uint32_t bisquecrow_find(const uint64_t *head, size_t head_length, const uint32_t *table, size_t table_length, const uint8_t *block,
                         size_t block_length, const uint8_t *store, size_t store_length, const uint8_t *name, size_t name_length, size_t from,
                         uint64_t *number, uint64_t *value_from, uint64_t *value_to);
uint32_t bisquecrow_value(const uint64_t *head, size_t head_length, const uint32_t *table, size_t table_length, const uint8_t *block,
                          size_t block_length, const uint8_t *store, size_t store_length, size_t number, uint64_t *from, uint64_t *to);
uint32_t bisquecrow_key(const uint64_t *head, size_t head_length, const uint32_t *table, size_t table_length, const uint8_t *block,
                        size_t block_length, const uint8_t *store, size_t store_length, size_t number, uint64_t *from, uint64_t *to);
uint32_t bisquecrow_status(const uint64_t *head, size_t head_length, const uint32_t *table, size_t table_length, const uint8_t *block,
                           size_t block_length, const uint8_t *store, size_t store_length, uint64_t *from, uint64_t *to);
uint32_t bisquecrow_reason(const uint64_t *head, size_t head_length, const uint32_t *table, size_t table_length, const uint8_t *block,
                           size_t block_length, const uint8_t *store, size_t store_length, uint64_t *from, uint64_t *to);
uint32_t bisquecrow_fields(const uint64_t *head, size_t head_length, const uint32_t *table, size_t table_length, const uint8_t *block,
                           size_t block_length, const uint8_t *store, size_t store_length, uint64_t *count);

uint32_t bisquecrow_set(uint64_t *head, size_t head_length, uint32_t *table, size_t table_length, const uint8_t *block, size_t block_length,
                        uint8_t *store, size_t store_length, const uint8_t *key, size_t key_length, const uint8_t *value,
                        size_t value_length);
uint32_t bisquecrow_append(uint64_t *head, size_t head_length, uint32_t *table, size_t table_length, const uint8_t *block,
                           size_t block_length, uint8_t *store, size_t store_length, const uint8_t *key, size_t key_length,
                           const uint8_t *value, size_t value_length);
uint32_t bisquecrow_remove(uint64_t *head, size_t head_length, uint32_t *table, size_t table_length, const uint8_t *block,
                           size_t block_length, const uint8_t *store, size_t store_length, const uint8_t *key, size_t key_length);
uint32_t bisquecrow_set_status(uint64_t *head, size_t head_length, const uint32_t *table, size_t table_length, const uint8_t *block,
                               size_t block_length, uint8_t *store, size_t store_length, const uint8_t *text, size_t text_length);

uint32_t bisquecrow_write(const uint64_t *head, size_t head_length, const uint32_t *table, size_t table_length, const uint8_t *block,
                          size_t block_length, const uint8_t *store, size_t store_length, uint8_t *out, size_t out_length,
                          uint64_t *count);
uint32_t bisquecrow_rebuild(const uint64_t *head, size_t head_length, const uint32_t *table, size_t table_length, const uint8_t *block,
                            size_t block_length, const uint8_t *store, size_t store_length, uint8_t *out, size_t out_length,
                            uint64_t *count);

uint32_t bisquecrow_status_code(const uint64_t *head, size_t head_length, const uint32_t *table, size_t table_length, const uint8_t *block,
                                size_t block_length, const uint8_t *store, size_t store_length, uint64_t *code);
uint32_t bisquecrow_content_length(const uint64_t *head, size_t head_length, const uint32_t *table, size_t table_length,
                                   const uint8_t *block, size_t block_length, const uint8_t *store, size_t store_length,
                                   uint64_t *length);
uint32_t bisquecrow_record_type(const uint64_t *head, size_t head_length, const uint32_t *table, size_t table_length, const uint8_t *block,
                                size_t block_length, const uint8_t *store, size_t store_length, uint64_t *type);

uint32_t bisquecrow_clean(const uint64_t *head, size_t head_length, const uint32_t *table, size_t table_length, const uint8_t *block,
                          size_t block_length, const uint8_t *store, size_t store_length);
uint32_t bisquecrow_equal(const uint64_t *head, size_t head_length, const uint32_t *table, size_t table_length, const uint8_t *block,
                          size_t block_length, const uint8_t *store, size_t store_length, const uint64_t *head2, size_t head2_length,
                          const uint32_t *table2, size_t table2_length, const uint8_t *block2, size_t block2_length,
                          const uint8_t *store2, size_t store2_length);
uint32_t bisquecrow_resume(const uint64_t *head, size_t head_length, const uint32_t *table, size_t table_length, const uint8_t *block,
                           size_t block_length, const uint8_t *store, size_t store_length, const uint64_t *head2, size_t head2_length,
                           const uint32_t *table2, size_t table2_length, const uint8_t *block2, size_t block2_length,
                           const uint8_t *store2, size_t store2_length);
uint32_t bisquecrow_tidy(const uint8_t *octets, size_t octets_length, bool awaits, bool quirks, size_t limit);
uint32_t bisquecrow_grammatical(const uint8_t *octets, size_t octets_length);

uint32_t bisquecrow_walker(uint64_t *trail, size_t trail_length, uint64_t *head, size_t head_length, const uint32_t *table,
                           size_t table_length, size_t room, uint64_t position, const uint8_t *block, size_t block_length,
                           const uint8_t *store, size_t store_length);
uint32_t bisquecrow_walk(uint64_t *trail, size_t trail_length, uint64_t *head, size_t head_length, uint32_t *table, size_t table_length,
                         uint8_t *block, size_t block_length, uint8_t *store, size_t store_length, const uint8_t *piece,
                         size_t piece_length, uint64_t *taken, uint64_t record[4]);
uint32_t bisquecrow_end(uint64_t *trail, size_t trail_length, uint64_t *head, size_t head_length, const uint32_t *table, size_t table_length,
                        const uint8_t *block, size_t block_length, const uint8_t *store, size_t store_length);

/* ---- The same in fewer words. ---- */

/* What a map, its two loans and a part are, as arguments. An empty part may have a null pointer; a call never gets one. An output
   is not null. */
#define BISQUECROW_MAP_(m, l)                                                                                                       \
    (m)->head, BISQUECROW_HEAD, (m)->table, BISQUECROW_TABLE, (l)->block, (l)->block_length, (l)->store, (l)->store_length
#define BISQUECROW_PART_(p) ((p).octets != NULL ? (p).octets : (const uint8_t *)""), (p).length

/* Octets to give to a call; the octets of a string that ends with 0. */
static inline struct bisquecrow_part bisquecrow_octets(const void *octets, size_t length)
{
    struct bisquecrow_part p;
    p.octets = (const uint8_t *)octets;
    p.length = length;
    return p;
}

static inline struct bisquecrow_part bisquecrow_string(const char *text)
{
    return bisquecrow_octets(text, strlen(text));
}

/* The part that an answer hands out: FOUND for one that lies in the block or in the store, any other answer as it is. */
static inline uint32_t bisquecrow_handed_(const struct bisquecrow_loans *l, uint32_t answer, uint64_t from, uint64_t to,
                                          struct bisquecrow_part *part)
{
    if (answer != BISQUECROW_IN_BLOCK && answer != BISQUECROW_IN_STORE)
        return answer;
    *part = bisquecrow_octets((answer == BISQUECROW_IN_BLOCK ? l->block : l->store) + from, (size_t)(to - from));
    return BISQUECROW_FOUND;
}

/* Makes a map an empty one that is Reading, whatever it was: 0, 1 or 2. The limit is 0 to 65,536, the room from the limit to 65,536; the block
   must have the limit, the store the room. */
static inline uint32_t bisquecrow_map_begin(struct bisquecrow_map *m, const struct bisquecrow_loans *l, size_t limit, size_t room,
                                            unsigned flags)
{
    return bisquecrow_begin(m->head, BISQUECROW_HEAD, m->table, BISQUECROW_TABLE, limit, room, (flags & BISQUECROW_AWAITS) != 0,
                            (flags & BISQUECROW_QUIRKS) != 0, l->block, l->block_length, l->store, l->store_length);
}

/* Feeds a piece of a block: MORE, BLANK or a refusal; taken gets how many of its octets were taken, by any answer. */
static inline uint32_t bisquecrow_map_feed(struct bisquecrow_map *m, const struct bisquecrow_loans *l, struct bisquecrow_part piece,
                                           size_t *taken)
{
    uint64_t n = 0;
    uint32_t answer = bisquecrow_feed(BISQUECROW_MAP_(m, l), BISQUECROW_PART_(piece), &n);
    *taken = (size_t)n;
    return answer;
}

/* Tells a map that its input has ended: INPUT or a refusal. */
static inline uint32_t bisquecrow_map_finish(struct bisquecrow_map *m, const struct bisquecrow_loans *l)
{
    return bisquecrow_finish(BISQUECROW_MAP_(m, l));
}

/* Makes a map an empty one that is Done: 0 or a refusal. */
static inline uint32_t bisquecrow_map_clear(struct bisquecrow_map *m, const struct bisquecrow_loans *l)
{
    return bisquecrow_clear(BISQUECROW_MAP_(m, l));
}

/* The first field from the number from on that has a name, with its number and its value: FOUND, MISSING or a refusal. Names compare without
   ASCII case. */
static inline uint32_t bisquecrow_map_find(const struct bisquecrow_map *m, const struct bisquecrow_loans *l, struct bisquecrow_part name,
                                           size_t from, size_t *number, struct bisquecrow_part *value)
{
    uint64_t n = 0, a = 0, e = 0;
    uint32_t answer = bisquecrow_find(BISQUECROW_MAP_(m, l), BISQUECROW_PART_(name), from, &n, &a, &e);
    answer = bisquecrow_handed_(l, answer, a, e, value);
    if (answer == BISQUECROW_FOUND)
        *number = (size_t)n;
    return answer;
}

/* The value of the first field that has a name. */
static inline uint32_t bisquecrow_map_get(const struct bisquecrow_map *m, const struct bisquecrow_loans *l, struct bisquecrow_part name,
                                          struct bisquecrow_part *value)
{
    size_t number = 0;
    return bisquecrow_map_find(m, l, name, 0, &number, value);
}

/* The value of a field and its key, by number; the status; the reason phrase of an HTTP status, which may be empty: FOUND, MISSING or a refusal. */
static inline uint32_t bisquecrow_map_value(const struct bisquecrow_map *m, const struct bisquecrow_loans *l, size_t number,
                                            struct bisquecrow_part *value)
{
    uint64_t a = 0, e = 0;
    uint32_t answer = bisquecrow_value(BISQUECROW_MAP_(m, l), number, &a, &e);
    return bisquecrow_handed_(l, answer, a, e, value);
}

static inline uint32_t bisquecrow_map_key(const struct bisquecrow_map *m, const struct bisquecrow_loans *l, size_t number,
                                          struct bisquecrow_part *key)
{
    uint64_t a = 0, e = 0;
    uint32_t answer = bisquecrow_key(BISQUECROW_MAP_(m, l), number, &a, &e);
    return bisquecrow_handed_(l, answer, a, e, key);
}

static inline uint32_t bisquecrow_map_status(const struct bisquecrow_map *m, const struct bisquecrow_loans *l,
                                             struct bisquecrow_part *status)
{
    uint64_t a = 0, e = 0;
    uint32_t answer = bisquecrow_status(BISQUECROW_MAP_(m, l), &a, &e);
    return bisquecrow_handed_(l, answer, a, e, status);
}

static inline uint32_t bisquecrow_map_reason(const struct bisquecrow_map *m, const struct bisquecrow_loans *l,
                                             struct bisquecrow_part *reason)
{
    uint64_t a = 0, e = 0;
    uint32_t answer = bisquecrow_reason(BISQUECROW_MAP_(m, l), &a, &e);
    return bisquecrow_handed_(l, answer, a, e, reason);
}

/* How many fields a map has: 0 or a refusal. */
static inline uint32_t bisquecrow_map_count(const struct bisquecrow_map *m, const struct bisquecrow_loans *l, size_t *count)
{
    uint64_t n = 0;
    uint32_t answer = bisquecrow_fields(BISQUECROW_MAP_(m, l), &n);
    if (answer == BISQUECROW_DONE)
        *count = (size_t)n;
    return answer;
}

/* All fields in order, by one call; good until a call changes the map.

       struct bisquecrow_cursor at;
       if (bisquecrow_map_fields(&map, &loans, &at) == BISQUECROW_DONE)
           while (bisquecrow_next(&at, &key, &value)) ...                                                                                */
struct bisquecrow_cursor {
    const struct bisquecrow_map *map;
    const struct bisquecrow_loans *loans;
    size_t next;
    size_t count;
};

/* A cursor at the first field: 0 or a refusal, with which the cursor has no fields. */
static inline uint32_t bisquecrow_map_fields(const struct bisquecrow_map *m, const struct bisquecrow_loans *l, struct bisquecrow_cursor *c)
{
    c->map = m;
    c->loans = l;
    c->next = 0;
    c->count = 0;
    return bisquecrow_map_count(m, l, &c->count);
}

/* The part that two numbers of a table say. */
static inline struct bisquecrow_part bisquecrow_place_(const struct bisquecrow_loans *l, uint32_t from, uint32_t to)
{
    if (from < BISQUECROW_STORE)
        return bisquecrow_octets(l->block + from, to - from);
    from -= BISQUECROW_STORE;
    return bisquecrow_octets(l->store + from, to - from);
}

/* The next field's key and value; false behind the last. */
static inline bool bisquecrow_next(struct bisquecrow_cursor *c, struct bisquecrow_part *key, struct bisquecrow_part *value)
{
    const uint32_t *t = c->map->table + 4 * c->next;
    if (c->next == c->count)
        return false;
    *key = bisquecrow_place_(c->loans, t[0], t[1]);
    *value = bisquecrow_place_(c->loans, t[2], t[3]);
    c->next += 1;
    return true;
}

/* Replaces the first match of the sanitised key and drops later ones, or appends; appends; drops all matches; sets the status: 0 or a refusal.
   Sanitised: trimmed, CR dropped, LF a space, and in keys and status lines colons dropped. The text goes into the store. */
static inline uint32_t bisquecrow_map_set(struct bisquecrow_map *m, const struct bisquecrow_loans *l, struct bisquecrow_part key,
                                          struct bisquecrow_part value)
{
    return bisquecrow_set(BISQUECROW_MAP_(m, l), BISQUECROW_PART_(key), BISQUECROW_PART_(value));
}

static inline uint32_t bisquecrow_map_append(struct bisquecrow_map *m, const struct bisquecrow_loans *l, struct bisquecrow_part key,
                                             struct bisquecrow_part value)
{
    return bisquecrow_append(BISQUECROW_MAP_(m, l), BISQUECROW_PART_(key), BISQUECROW_PART_(value));
}

static inline uint32_t bisquecrow_map_remove(struct bisquecrow_map *m, const struct bisquecrow_loans *l, struct bisquecrow_part key)
{
    return bisquecrow_remove(BISQUECROW_MAP_(m, l), BISQUECROW_PART_(key));
}

static inline uint32_t bisquecrow_map_set_status(struct bisquecrow_map *m, const struct bisquecrow_loans *l, struct bisquecrow_part text)
{
    return bisquecrow_set_status(BISQUECROW_MAP_(m, l), BISQUECROW_PART_(text));
}

/* Writes the block as it was read, or the map rebuilt where it was edited or is empty; rebuilds in any case: 0 with the count, or a refusal. Output
   past the count stays. */
static inline uint32_t bisquecrow_map_write(const struct bisquecrow_map *m, const struct bisquecrow_loans *l, uint8_t *out,
                                            size_t out_length, size_t *count)
{
    uint64_t n = 0;
    uint32_t answer = bisquecrow_write(BISQUECROW_MAP_(m, l), out, out_length, &n);
    if (answer == BISQUECROW_DONE)
        *count = (size_t)n;
    return answer;
}

static inline uint32_t bisquecrow_map_rebuild(const struct bisquecrow_map *m, const struct bisquecrow_loans *l, uint8_t *out,
                                              size_t out_length, size_t *count)
{
    uint64_t n = 0;
    uint32_t answer = bisquecrow_rebuild(BISQUECROW_MAP_(m, l), out, out_length, &n);
    if (answer == BISQUECROW_DONE)
        *count = (size_t)n;
    return answer;
}

/* The status code of an HTTP status; the content length of the first field of that name; the code of the first WARC-Type, which is
   BISQUECROW_TYPE_NONE without one: FOUND, MISSING or a refusal. */
static inline uint32_t bisquecrow_map_status_code(const struct bisquecrow_map *m, const struct bisquecrow_loans *l, uint16_t *code)
{
    uint64_t n = 0;
    uint32_t answer = bisquecrow_status_code(BISQUECROW_MAP_(m, l), &n);
    if (answer == BISQUECROW_FOUND)
        *code = (uint16_t)n;
    return answer;
}

static inline uint32_t bisquecrow_map_content_length(const struct bisquecrow_map *m, const struct bisquecrow_loans *l, uint64_t *length)
{
    return bisquecrow_content_length(BISQUECROW_MAP_(m, l), length);
}

static inline uint32_t bisquecrow_map_record_type(const struct bisquecrow_map *m, const struct bisquecrow_loans *l, uint16_t *type)
{
    uint64_t n = 0;
    uint32_t answer = bisquecrow_record_type(BISQUECROW_MAP_(m, l), &n);
    if (answer == BISQUECROW_FOUND)
        *type = (uint16_t)n;
    return answer;
}

/* Whether a map is clean: what it says is written and read back as it is. YES, NO or a refusal. */
static inline uint32_t bisquecrow_map_clean(const struct bisquecrow_map *m, const struct bisquecrow_loans *l)
{
    return bisquecrow_clean(BISQUECROW_MAP_(m, l));
}

/* Whether two maps say the same: status, keys and values by octets. YES, NO or a refusal, the first map checked whole before the second. */
static inline uint32_t bisquecrow_map_equal(const struct bisquecrow_map *m, const struct bisquecrow_loans *l,
                                            const struct bisquecrow_map *m2, const struct bisquecrow_loans *l2)
{
    return bisquecrow_equal(BISQUECROW_MAP_(m, l), BISQUECROW_MAP_(m2, l2));
}

/* Whether the second message's body may be appended to the first's: APPEND, NO_TAG, DIFFER, NOT_PARTIAL or a refusal. */
static inline uint32_t bisquecrow_map_resume(const struct bisquecrow_map *m, const struct bisquecrow_loans *l,
                                             const struct bisquecrow_map *m2, const struct bisquecrow_loans *l2)
{
    return bisquecrow_resume(BISQUECROW_MAP_(m, l), BISQUECROW_MAP_(m2, l2));
}

/* Whether octets are a tidy block for their flags and limit (1 if out of range): YES or NO. Tidy: read, found clean and rebuilt, they are the same. */
static inline uint32_t bisquecrow_octets_tidy(struct bisquecrow_part octets, unsigned flags, size_t limit)
{
    return bisquecrow_tidy(BISQUECROW_PART_(octets), (flags & BISQUECROW_AWAITS) != 0, (flags & BISQUECROW_QUIRKS) != 0, limit);
}

/* Whether octets are a header by the grammar of WARC 1.1: YES or NO. */
static inline uint32_t bisquecrow_octets_grammatical(struct bisquecrow_part octets)
{
    return bisquecrow_grammatical(BISQUECROW_PART_(octets));
}

/* Makes a walker one at a position (0 for a file's beginning), whatever it was: 0, 1 or 2. The block must have the default limit, 32,768; the room is
   from there to 65,536, and the store must have it. */
static inline uint32_t bisquecrow_walker_start(struct bisquecrow_walker *w, const struct bisquecrow_loans *l, size_t room, uint64_t position)
{
    return bisquecrow_walker(w->trail, BISQUECROW_TRAIL, w->map.head, BISQUECROW_HEAD, w->map.table, BISQUECROW_TABLE, room, position,
                             l->block, l->block_length, l->store, l->store_length);
}

/* Walks over a piece of the file: MORE, RECORD, BODY, END or a refusal, with the octets taken; call again with the rest of the piece. RECORD writes
   the record, and the walker's map is its header, which stands until the next one's first octet. The octets that BODY takes are a part of
   the body. A refusal stops the walker: it repeats its number. Damaged
   numbers are 3 and stay. */
static inline uint32_t bisquecrow_walker_walk(struct bisquecrow_walker *w, const struct bisquecrow_loans *l, struct bisquecrow_part piece,
                                              size_t *taken, struct bisquecrow_record *record)
{
    uint64_t n = 0;
    uint64_t r[4] = {0, 0, 0, 0};
    uint32_t answer = bisquecrow_walk(w->trail, BISQUECROW_TRAIL, BISQUECROW_MAP_(&w->map, l), BISQUECROW_PART_(piece), &n, r);
    *taken = (size_t)n;
    if (answer == BISQUECROW_RECORD) {
        record->start = r[0];
        record->body = r[1];
        record->length = r[2];
        record->type = (uint16_t)r[3];
    }
    return answer;
}

/* Tells a walker that the file has ended: END or a refusal. */
static inline uint32_t bisquecrow_walker_end(struct bisquecrow_walker *w, const struct bisquecrow_loans *l)
{
    return bisquecrow_end(w->trail, BISQUECROW_TRAIL, BISQUECROW_MAP_(&w->map, l));
}

/* The position that a walker has come to: that of the first octet that it has not taken. */
static inline uint64_t bisquecrow_walker_position(const struct bisquecrow_walker *w)
{
    return w->trail[0];
}

#undef BISQUECROW_MAP_
#undef BISQUECROW_PART_

#ifdef __cplusplus
}
#endif

#endif
