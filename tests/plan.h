/* A plan file for the C tests, byte by byte: a header, then records; `close_area` puts the area length in. */
#ifndef PLAN_H
#define PLAN_H

#include <stddef.h>
#include <stdint.h>

static uint8_t file[16384];
static size_t length;

static inline void put(uint32_t value, int bytes)
{
    for (int i = bytes - 1; i >= 0; i--)
        file[length++] = (uint8_t)(value >> (8 * i));
}

static inline void begin(uint32_t version, uint32_t serial)
{
    length = 0;
    put(0x57504C, 3);
    put(version, 2);
    put(serial, 4);
    put(0, 2);
}

static inline void close_area(void)
{
    size_t area = length - 11;
    file[9] = (uint8_t)(area >> 8);
    file[10] = (uint8_t)area;
}

static inline void point(int32_t north, int32_t east, int32_t down)
{
    put(0x010C, 2);
    put((uint32_t)north, 4);
    put((uint32_t)east, 4);
    put((uint32_t)down, 4);
}

/* A record of two bytes: a radius (2), a course (3), a note (128) or a speed (129). */
static inline void pair(uint32_t kind, uint32_t value)
{
    put(kind, 1);
    put(2, 1);
    put(value, 2);
}

#endif
