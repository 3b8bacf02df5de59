/* Measures how much stack the calls of a reading, a walk, many edits and the rest take, on a stack that was painted before, and holds it to BISQUECROW_STACK. No
   call is recursive, so the way down to the deepest frame always takes the same. It is linked with -z now: the loader's own way to a function is no call's. */
#define _XOPEN_SOURCE 600
#include <stdio.h>
#include <stdlib.h>
#include <string.h>
#include <ucontext.h>

#include "bisquecrow.h"

enum { STACK = 1 << 20, LARGEST = BISQUECROW_LARGEST, PAINT = 0xA5 };

static uint8_t stack[STACK], block[LARGEST], store[LARGEST], block2[LARGEST], store2[LARGEST], out[2 * LARGEST];
static struct bisquecrow_map map, map2;
static struct bisquecrow_walker walker;
static const struct bisquecrow_loans loans = {block, LARGEST, store, LARGEST}, loans2 = {block2, LARGEST, store2, LARGEST};
static ucontext_t here, there;
static size_t n;
static uint16_t code;
static uint64_t length;
static struct bisquecrow_part part;
static struct bisquecrow_record record;

static const char header[] = "HTTP/1.1 206 Partial Content\r\nETag: \"a\"\r\nContent-Length: 5\r\nWARC-Type: response\r\nK: v\r\n fold\r\n\tagain\r\n x \r\n\r\n";
static const char file[] = "WARC/1.1\r\nWARC-Type: response\r\nContent-Length: 5\r\nK: v\r\n fold\r\n\r\nhello\r\n\r\n";

static void idle(void)
{
}

static void reading(void)
{
    bisquecrow_map_begin(&map, &loans, LARGEST, LARGEST, BISQUECROW_AWAITS);
    bisquecrow_map_feed(&map, &loans, bisquecrow_string(header), &n);
    bisquecrow_map_begin(&map2, &loans2, LARGEST, LARGEST, BISQUECROW_AWAITS | BISQUECROW_QUIRKS);
    bisquecrow_map_feed(&map2, &loans2, bisquecrow_octets(header, 120), &n);
}

static void finishing(void)
{
    bisquecrow_map_finish(&map2, &loans2);
}

static void looking(void)
{
    bisquecrow_map_get(&map, &loans, bisquecrow_string("Nothing"), &part);
    bisquecrow_map_get(&map, &loans, bisquecrow_string("k"), &part);
    bisquecrow_map_value(&map, &loans, 0, &part);
    bisquecrow_map_key(&map, &loans, 3, &part);
    bisquecrow_map_status(&map, &loans, &part);
    bisquecrow_map_reason(&map, &loans, &part);
    bisquecrow_map_count(&map, &loans, &n);
    bisquecrow_map_status_code(&map, &loans, &code);
    bisquecrow_map_content_length(&map, &loans, &length);
    bisquecrow_map_record_type(&map, &loans, &code);
}

static void comparing(void)
{
    bisquecrow_map_clean(&map, &loans);
    bisquecrow_map_equal(&map, &loans, &map2, &loans2);
    bisquecrow_map_resume(&map, &loans, &map2, &loans2);
    bisquecrow_octets_tidy(bisquecrow_string(header), BISQUECROW_AWAITS, LARGEST);
    bisquecrow_octets_grammatical(bisquecrow_string(file));
}

static void editing(void)
{
    int i;
    for (i = 0; i < BISQUECROW_FIELDS + 1; i++)
        bisquecrow_map_append(&map, &loans, bisquecrow_string("A"), bisquecrow_string(" long \r\n enough : to be sanitised "));
    bisquecrow_map_set(&map, &loans, bisquecrow_string("a"), bisquecrow_string("b"));
    bisquecrow_map_remove(&map, &loans, bisquecrow_string("a"));
    bisquecrow_map_set_status(&map, &loans, bisquecrow_string("HTTP/1.1 200 OK"));
}

static void writing(void)
{
    bisquecrow_map_write(&map, &loans, out, sizeof out, &n);
    bisquecrow_map_rebuild(&map, &loans, out, sizeof out, &n);
    bisquecrow_map_clear(&map, &loans);
}

static void walking(void)
{
    size_t at = 0;
    bisquecrow_walker_start(&walker, &loans, LARGEST, 0);
    while (at < sizeof file - 1) {
        bisquecrow_walker_walk(&walker, &loans, bisquecrow_octets(file + at, sizeof file - 1 - at), &n, &record);
        at += n;
    }
    bisquecrow_walker_end(&walker, &loans);
}

/* How deep a function went. */
static size_t depth(void (*call)(void))
{
    size_t clean = 0;
    memset(stack, PAINT, sizeof stack);
    getcontext(&there);
    there.uc_stack.ss_sp = stack;
    there.uc_stack.ss_size = sizeof stack;
    there.uc_link = &here;
    makecontext(&there, call, 0);
    swapcontext(&here, &there);
    while (clean < sizeof stack && stack[clean] == PAINT)
        clean++;
    return sizeof stack - clean;
}

int main(void)
{
    static const struct { const char *name; void (*call)(void); } calls[] = {
        {"reading", reading}, {"finish", finishing}, {"lookups", looking}, {"tests", comparing}, {"edits", editing}, {"writing", writing}, {"walking", walking},
    };
    size_t none = depth(idle), most = 0, i;
    for (i = 0; i < sizeof calls / sizeof *calls; i++) {
        size_t deep = depth(calls[i].call) - none;
        printf("%-8s %zu\n", calls[i].name, deep);
        most = deep > most ? deep : most;
    }
    printf("stack: at most %zu octets of %d\n", most, BISQUECROW_STACK);
    return most <= BISQUECROW_STACK ? EXIT_SUCCESS : EXIT_FAILURE;
}
