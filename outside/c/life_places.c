#define _DEFAULT_SOURCE /* MAP_ANONYMOUS */
#include "life_places.h"

#include <stdio.h>
#include <stdlib.h>
#include <string.h>
#include <sys/mman.h>
#include <unistd.h>

enum {
    PLACES_MAX = 64,
    GUARD_BYTES = 64,
    GUARD = 0xC7
};

/* An area holds guard bytes, the place, guard bytes; pages that no one may touch are not part of it. */
typedef struct placed {
    uint8_t *area;
    size_t area_bytes;
    size_t before_bytes; /* guard bytes before the place */
    size_t bytes;
    uint8_t *mapping; /* null for an allocation */
    size_t mapping_bytes;
} placed;

static placed places[PLACES_MAX];
static size_t place_count = 0;
static enum placing how = PLACING_HEAP;

static void stop(const char *why)
{
    fprintf(stderr, "life: %s\n", why);
    exit(2);
}

const char *placing_name(enum placing placing)
{
    static const char *const names[PLACINGS] = {"heap", "guard bytes", "end of a page", "start of a page"};
    return names[placing];
}

void places_use(enum placing placing)
{
    if (place_count != 0) {
        stop("memory is still placed");
    }
    how = placing;
}

/* An allocation of just these bytes and their guards. */
static placed allocated(size_t bytes, size_t guard_bytes)
{
    placed p = {NULL, bytes + 2 * guard_bytes, guard_bytes, bytes, NULL, 0};
    p.area = malloc(p.area_bytes > 0 ? p.area_bytes : 1);
    if (p.area == NULL) {
        stop("no memory");
    }
    return p;
}

/* Whole pages, and on either side one that no one may touch. */
static placed mapped(size_t bytes)
{
    const size_t page_bytes = (size_t)sysconf(_SC_PAGESIZE);
    const size_t area_bytes = (bytes / page_bytes + 1) * page_bytes;
    placed p = {NULL, area_bytes, 0, bytes, NULL, area_bytes + 2 * page_bytes};
    void *mapping = mmap(NULL, p.mapping_bytes, PROT_NONE, MAP_PRIVATE | MAP_ANONYMOUS, -1, 0);
    if (mapping == MAP_FAILED) {
        stop("no memory");
    }
    p.mapping = mapping;
    p.area = p.mapping + page_bytes;
    if (mprotect(p.area, area_bytes, PROT_READ | PROT_WRITE) != 0) {
        stop("pages cannot be used");
    }
    p.before_bytes = how == PLACING_PAGE_END ? area_bytes - bytes : 0;
    return p;
}

uint8_t *place(size_t bytes, uint8_t fill)
{
    if (place_count == PLACES_MAX) {
        stop("too many places");
    }
    placed p;
    if (how == PLACING_HEAP || how == PLACING_GUARDED) {
        p = allocated(bytes, how == PLACING_GUARDED ? GUARD_BYTES : 0);
    } else {
        p = mapped(bytes);
    }
    memset(p.area, GUARD, p.area_bytes);
    memset(p.area + p.before_bytes, fill, p.bytes);
    places[place_count] = p;
    place_count++;
    return p.area + p.before_bytes;
}

int places_intact(void)
{
    for (size_t i = 0; i < place_count; i++) {
        const placed *p = &places[i];
        for (size_t at = 0; at < p->area_bytes; at++) {
            const int inside = at >= p->before_bytes && at - p->before_bytes < p->bytes;
            if (!inside && p->area[at] != GUARD) {
                return 0;
            }
        }
    }
    return 1;
}

size_t places_mark(void)
{
    return place_count;
}

void places_release(size_t mark)
{
    while (place_count > mark) {
        place_count--;
        const placed *p = &places[place_count];
        if (p->mapping == NULL) {
            free(p->area);
        } else if (munmap(p->mapping, p->mapping_bytes) != 0) {
            stop("pages cannot be given back");
        }
    }
}
