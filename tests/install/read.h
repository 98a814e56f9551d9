/* The bytes of the plan that the small programs are given, for C99 and C++. */
#ifndef READ_H
#define READ_H

#include "farnkuppel.h"

#include <stdio.h>

static uint8_t file[FARNKUPPEL_FILE_BYTES + 1];

/* How many bytes the file has; 0 where it cannot be read. */
static size_t read_file(const char *name)
{
    FILE *plan = fopen(name, "rb");
    size_t length = plan ? fread(file, 1, sizeof file, plan) : 0;
    if (plan)
        fclose(plan);
    return length;
}

#endif
