/* Follows a download that breaks off, and resumes it where the answer to the second request says that its body may be appended. */
#include <stdio.h>
#include <string.h>

#include "bisquecrow.h"

enum { LIMIT = BISQUECROW_DEFAULT_LIMIT };

/* A message's header: its map, and the memory that is lent for it. */
struct message {
    struct bisquecrow_map map;
    struct bisquecrow_loans loans;
    uint8_t block[LIMIT];
    uint8_t store[LIMIT];
};

static struct message first, second;

/* Reads the header of an answer that arrives in pieces; gives where its body begins, or 0 if it was refused. */
static size_t read_header(struct message *m, const char *answer, size_t cut)
{
    size_t at = 0, length = strlen(answer);
    m->loans.block = m->block;
    m->loans.block_length = LIMIT;
    m->loans.store = m->store;
    m->loans.store_length = LIMIT;
    uint32_t said = bisquecrow_map_begin(&m->map, &m->loans, LIMIT, LIMIT, BISQUECROW_AWAITS);
    if (said == BISQUECROW_DONE)
        said = BISQUECROW_MORE;
    while (said == BISQUECROW_MORE && at < length) {
        size_t n = length - at < cut ? length - at : cut, taken;
        said = bisquecrow_map_feed(&m->map, &m->loans, bisquecrow_octets(answer + at, n), &taken);
        at += taken;
    }
    if (said == BISQUECROW_BLANK)
        return at;
    fprintf(stderr, "follow: %s\n", bisquecrow_text(said));
    return 0;
}

/* Prints the status code and every field. */
static void print_header(const struct message *m)
{
    struct bisquecrow_cursor fields;
    struct bisquecrow_part key, value;
    uint16_t code;
    if (bisquecrow_map_status_code(&m->map, &m->loans, &code) == BISQUECROW_FOUND)
        printf("status %u\n", (unsigned)code);
    if (bisquecrow_map_fields(&m->map, &m->loans, &fields) == BISQUECROW_DONE)
        while (bisquecrow_next(&fields, &key, &value))
            printf("  %.*s = %.*s\n", (int)key.length, (const char *)key.octets, (int)value.length, (const char *)value.octets);
}

/* What is kept of the first answer, and the body of the second if it may be appended. */
static uint32_t follow(const char *answer, const char *again, char *kept)
{
    size_t body = read_header(&first, answer, 7);
    if (body == 0)
        return BISQUECROW_NOT_PARTIAL;
    strcpy(kept, answer + body);
    print_header(&first);
    body = read_header(&second, again, 5);
    if (body == 0)
        return BISQUECROW_NOT_PARTIAL;
    print_header(&second);
    uint32_t may = bisquecrow_map_resume(&first.map, &first.loans, &second.map, &second.loans);
    if (may == BISQUECROW_APPEND)
        strcat(kept, again + body);
    printf("%s: %s\n", bisquecrow_text(may), kept);
    return may;
}

int main(void)
{
    const char *answer = "HTTP/1.1 200 OK\r\nETag: \"a\"\r\nContent-Length: 11\r\n\r\nhello ";
    const char *same = "HTTP/1.1 206 Partial Content\r\nETag: \"a\"\r\nContent-Range: bytes 6-10/11\r\n\r\nworld";
    const char *other = "HTTP/1.1 206 Partial Content\r\nETag: \"b\"\r\nContent-Range: bytes 6-10/11\r\n\r\nthere";
    char kept[64];
    if (follow(answer, same, kept) != BISQUECROW_APPEND || strcmp(kept, "hello world") != 0)
        return 1;
    if (follow(answer, other, kept) != BISQUECROW_DIFFER || strcmp(kept, "hello ") != 0)
        return 1;
    return 0;
}
