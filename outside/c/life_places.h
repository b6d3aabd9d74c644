/* Memory of exactly the bytes asked for, so placed that a byte read or written beside it shows. The sanitizers see this program's own code;
   the library is not built with them, so guard bytes and pages that no one may touch watch over it. Lengths are in bytes. */
#ifndef LIFE_PLACES_H
#define LIFE_PLACES_H

#include <stddef.h>
#include <stdint.h>

enum placing {
    PLACING_HEAP,       /* an allocation of exactly these bytes, which the address sanitizer guards */
    PLACING_GUARDED,    /* between guard bytes, which places_intact compares */
    PLACING_PAGE_END,   /* its end at a page that no one may touch; guard bytes before it */
    PLACING_PAGE_START, /* its start next after such a page; guard bytes after its end */
    PLACINGS
};

const char *placing_name(enum placing placing);

/* How memory is placed from now on. Nothing may be placed at this time. */
void places_use(enum placing placing);

/* Memory of this length, 0 too, each byte holding fill. It is never null. */
uint8_t *place(size_t bytes, uint8_t fill);

/* 1 if every guard byte is as it was. */
int places_intact(void);

/* What is placed now, and the end of all that was placed since. */
size_t places_mark(void);
void places_release(size_t mark);

#endif
