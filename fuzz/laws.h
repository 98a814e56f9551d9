/* What the rules (docs/RULES.md) and the header say of every file, state and fix, as far as it can be held without a second implementation. */
#ifndef LAWS_H
#define LAWS_H

#include "calls.h"

/* A part of a point, in decimetres: the point from 1, the part 0 for north, 1 for east, 2 for down. */
int32_t part_of(const int32_t *state, int32_t point, int part);

/* A file by the reader that is asked for and by every reader; the newest one's load comes back. */
struct load load_laws(struct file file, uint32_t reader);

/* The notes of a file, how many they are, those around them, and the one that is asked for. */
void note_laws(struct file file, int loads, uint32_t asked);

/* What a state writes at a version, into a buffer that is so much shorter than it could be. */
void write_laws(const int32_t *state, uint32_t version, size_t less);

/* The distances of a state, in the longest table, in one of so many entries and at the state; the longest table comes back. */
struct distances distances_laws(const int32_t *state, uint32_t entries);

/* The strips of a state, all of them and the one that is asked for; the check comes back. */
struct strips strips_laws(const int32_t *state, uint32_t asked);

/* One fix; the answer comes back. */
struct fix fix_laws(const int32_t *state, uint32_t serial, const float *position);

#endif
