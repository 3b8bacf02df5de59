/* Walks over a file through the C library and says how many records it has: what `warc check` is held against. */
#include <stdio.h>
#include <unistd.h>

#include "bisquecrow.h"

static struct bisquecrow_walker walker;
static uint8_t block[BISQUECROW_DEFAULT_LIMIT], store[BISQUECROW_DEFAULT_LIMIT], buffer[262144];

int main(void)
{
    struct bisquecrow_loans loans = {block, sizeof block, store, sizeof store};
    struct bisquecrow_record record;
    uint32_t said = bisquecrow_walker_start(&walker, &loans, sizeof store, 0);
    unsigned long records = 0;
    ssize_t n;
    while (said == BISQUECROW_DONE && (n = read(0, buffer, sizeof buffer)) > 0) {
        size_t from = 0, taken;
        while (from < (size_t)n) {
            uint32_t step = bisquecrow_walker_walk(&walker, &loans, bisquecrow_octets(buffer + from, (size_t)n - from), &taken, &record);
            if (step < BISQUECROW_MORE)
                return 1;
            records += step == BISQUECROW_RECORD;
            from += taken;
        }
    }
    if (bisquecrow_walker_end(&walker, &loans) != BISQUECROW_END)
        return 1;
    printf("%lu records\n", records);
    return 0;
}
