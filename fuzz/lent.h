/* Memory that is lent to the path manager. A slice ends where a page begins that nobody may touch, so that an access past its end stops the
 * program, whoever makes it; in front of it lie guard bytes, which are looked at when it comes back. */
#ifndef LENT_H
#define LENT_H

#include <stddef.h>
#include <stdint.h>

/* Stops the program, and so the fuzzer keeps the input, where a fact does not hold. */
#define HOLD(fact) ((fact) ? (void)0 : broken(__FILE__, __LINE__, #fact))
void broken(const char *file, int line, const char *fact);

struct lent {
    uint8_t *end; /* the page that nobody may touch */
};

/* Memory for slices of up to so many bytes. */
struct lent lent_for(size_t most);

/* A slice; it and its guard hold `fill` at every byte. */
void *lend(const struct lent *memory, size_t bytes, uint8_t fill);

/* Holds that the guard, and the slice after the bytes that may have been written, are what they were. */
void take_back(const struct lent *memory, size_t bytes, size_t written, uint8_t fill);

#endif
