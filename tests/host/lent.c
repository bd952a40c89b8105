/* Memory to lend to a call: guard bytes on both sides, and behind the last of them memory that no call may touch. */
#define _DEFAULT_SOURCE
#include "lent.h"
#include <stdio.h>
#include <stdlib.h>
#include <string.h>
#include <sys/mman.h>

/* A multiple of every page size that is in use. */
enum { PAGE = 65536 };

lent lent_make(size_t most)
{
    lent l = {0};
    uint8_t *pages = mmap(NULL, 3 * PAGE, PROT_READ | PROT_WRITE, MAP_PRIVATE | MAP_ANONYMOUS, -1, 0);
    if (pages == MAP_FAILED || 2 * GUARD + most > PAGE) {
        printf("no memory to lend\n");
        exit(1);
    }
    uint8_t *start = pages + (PAGE - (uintptr_t)pages % PAGE) % PAGE;
    l.end = start + PAGE;
    l.at = l.end;
    l.base = l.end;
    if (mprotect(l.end, PAGE, PROT_NONE) != 0) {
        printf("no memory that cannot be touched\n");
        exit(1);
    }
    return l;
}

void lent_place(lent *l, size_t length, size_t gap, uint8_t fill)
{
    l->at = l->end - gap - length;
    l->base = l->at - GUARD;
    l->length = length;
    l->fill = fill;
    memset(l->base, fill, (size_t)(l->end - l->base));
}

static bool all_are(const uint8_t *from, const uint8_t *to, uint8_t fill)
{
    return from == to || (*from == fill && memcmp(from, from + 1, (size_t)(to - from) - 1) == 0);
}

bool lent_is_guarded(const lent *l)
{
    return all_are(l->base, l->at, l->fill) && all_are(l->at + l->length, l->end, l->fill);
}

static void protect(const lent *l, int as)
{
    if (mprotect(l->end - PAGE, PAGE, as) != 0) {
        printf("no memory that can only be read\n");
        exit(1);
    }
}

void lent_shut(const lent *l)
{
    protect(l, PROT_READ);
}

void lent_open(const lent *l)
{
    protect(l, PROT_READ | PROT_WRITE);
}
