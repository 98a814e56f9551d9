/* The calls of the C interface over guarded memory. Each is made twice, over memory that held other bytes before and is longer the second time,
 * and has to answer the same; what the header promises of any call is held here. */
#ifndef CALLS_H
#define CALLS_H

#include "farnkuppel.h"

#define MOST_FILE 9000  /* more than a plan file can have */
#define MOST_ROOM FARNKUPPEL_WRITTEN_BYTES
#define STATE_BYTES (FARNKUPPEL_STATE_WORDS * sizeof(int32_t))

struct file {
    const uint8_t *bytes;
    size_t length;
};

struct load {
    uint32_t result;
    uint32_t answer[FARNKUPPEL_LOAD_WORDS];
    int32_t state[FARNKUPPEL_STATE_WORDS];
};

struct note {
    uint32_t result;
    uint32_t length;
    uint8_t bytes[FARNKUPPEL_NOTE_BYTES];
};

struct fix {
    uint32_t result;
    uint32_t answer[FARNKUPPEL_ANSWER_WORDS];
    uint32_t command[FARNKUPPEL_COMMAND_NUMBERS]; /* the bits of the numbers */
    int32_t state[FARNKUPPEL_STATE_WORDS];
};

struct written {
    uint32_t result;
    uint32_t answer[FARNKUPPEL_WRITE_WORDS];
    uint8_t bytes[MOST_ROOM];
};

struct distances {
    uint32_t result;
    uint32_t answer[FARNKUPPEL_DISTANCES_WORDS];
    uint32_t table[FARNKUPPEL_TABLE_ENTRIES]; /* 0 where nothing was written */
};

struct distance {
    uint32_t result;
    uint32_t answer[FARNKUPPEL_DISTANCE_WORDS];
};

struct strips {
    uint32_t result;
    uint32_t answer[FARNKUPPEL_STRIPS_WORDS];
};

struct strip {
    uint32_t result;
    uint32_t answer[FARNKUPPEL_STRIP_WORDS];
};

/* Gets the memory that is lent, and looks that the archive is the header's. Once, before any call. */
void prepare(void);

/* With a check by the same reader, which answers the same. */
struct load load_of(struct file file, uint32_t reader);

/* How many notes there are. */
uint32_t count_of(struct file file);
struct note note_of(struct file file, uint32_t number);
struct fix fix_of(const int32_t *state, uint32_t serial, const float *position);

/* Into `room` bytes, at most MOST_ROOM. */
struct written write_of(const int32_t *state, uint32_t version, size_t room);

/* The distances of a state, into a table of so many entries, at most FARNKUPPEL_TABLE_ENTRIES; and the one at the state. */
struct distances distances_of(const int32_t *state, size_t entries);
struct distance distance_of(const int32_t *state);

/* The check of a state for strips, and one strip of it. */
struct strips strips_of(const int32_t *state);
struct strip strip_of(const int32_t *state, uint32_t number);

/* Every call with one slice `cut` elements too short: refused, and nothing is written. */
void short_slices(struct file file, size_t cut);

#endif
