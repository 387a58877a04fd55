// Guarded memory: pages without access on both sides, a fill around the lent bytes.
#include "lent.h"
#include <stdio.h>
#include <stdlib.h>
#include <string.h>
#include <sys/mman.h>
#include <unistd.h>

void open_area(struct area *a)
{
    size_t page = (size_t)sysconf(_SC_PAGESIZE), room = (FILE_ROOM + page - 1) / page * page;
    uint8_t *all = mmap(NULL, room + 2 * page, PROT_READ | PROT_WRITE, MAP_PRIVATE | MAP_ANONYMOUS, -1, 0);
    if (all == MAP_FAILED || mprotect(all, page, PROT_NONE) != 0 || mprotect(all + page + room, page, PROT_NONE) != 0) {
        fputs("no memory between guarded pages\n", stderr);
        exit(2);
    }
    a->page = all + page + (room - FILE_ROOM);
}

void lend(struct area *a, size_t count, bool at_end, uint8_t fill)
{
    a->bytes = at_end ? a->page + FILE_ROOM - count : a->page;
    a->count = count;
    a->fill = fill;
    memset(a->page, fill, FILE_ROOM);
}

static bool filled(const uint8_t *bytes, size_t count, uint8_t fill)
{
    return count == 0 || (bytes[0] == fill && memcmp(bytes, bytes + 1, count - 1) == 0);
}

bool untouched(const struct area *a, size_t but)
{
    size_t before = (size_t)(a->bytes - a->page);
    return filled(a->page, before, a->fill) && filled(a->bytes + but, FILE_ROOM - before - but, a->fill);
}
