#define _DEFAULT_SOURCE
#include "lent.h"

#include <stdio.h>
#include <stdlib.h>
#include <string.h>
#include <sys/mman.h>
#include <unistd.h>

#define GUARD 64

void broken(const char *file, int line, const char *fact)
{
    fprintf(stderr, "%s:%d: does not hold: %s\n", file, line, fact);
    abort();
}

struct lent lent_for(size_t most)
{
    size_t page = (size_t)sysconf(_SC_PAGESIZE);
    size_t own = (most + GUARD + page - 1) / page * page;
    uint8_t *start = mmap(NULL, own + page, PROT_READ | PROT_WRITE, MAP_PRIVATE | MAP_ANONYMOUS, -1, 0);
    HOLD(start != MAP_FAILED);
    HOLD(mprotect(start + own, page, PROT_NONE) == 0);
    struct lent memory = {start + own};
    return memory;
}

void *lend(const struct lent *memory, size_t bytes, uint8_t fill)
{
    memset(memory->end - bytes - GUARD, fill, bytes + GUARD);
    return memory->end - bytes;
}

static int all_are(const uint8_t *bytes, size_t count, uint8_t value)
{
    for (size_t i = 0; i < count; i++)
        if (bytes[i] != value)
            return 0;
    return 1;
}

void take_back(const struct lent *memory, size_t bytes, size_t written, uint8_t fill)
{
    HOLD(all_are(memory->end - bytes - GUARD, GUARD, fill));
    HOLD(all_are(memory->end - bytes + written, bytes - written, fill));
}
