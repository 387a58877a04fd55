// Memory that is lent to the product: between two pages that cannot be touched, with a fill around the lent bytes.
#ifndef LENT_H
#define LENT_H
#include "reference/words.h"

struct area {
    uint8_t *page; // FILE_ROOM bytes; the pages before and behind fault
    uint8_t *bytes;
    size_t count; // of the lent bytes
    uint8_t fill;
};

void open_area(struct area *a);

// count bytes of fill, at the very end of the area or at its very beginning
void lend(struct area *a, size_t count, bool at_end, uint8_t fill);

// the fill is whole but for the first so many lent bytes
bool untouched(const struct area *a, size_t but);
#endif
