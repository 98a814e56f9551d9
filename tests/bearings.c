/* Loads the plan on standard input and, where an argument is given, makes the table of its distances: for tests/bearings, which counts what that takes.
 * Leaves with 1 where either is refused. */
#include "farnkuppel.h"

#include <stdio.h>

int main(int argc, char **argv)
{
    static uint8_t file[FARNKUPPEL_FILE_BYTES + 1];
    static int32_t state[FARNKUPPEL_STATE_WORDS];
    static uint32_t table[FARNKUPPEL_TABLE_ENTRIES];
    uint32_t answer[FARNKUPPEL_LOAD_WORDS];
    size_t length = fread(file, 1, sizeof file, stdin);
    (void)argv;
    if (farnkuppel_load(file, length, FARNKUPPEL_NEWEST, state, FARNKUPPEL_STATE_WORDS, answer, FARNKUPPEL_LOAD_WORDS))
        return 1;
    return argc > 1 && farnkuppel_distances(state, FARNKUPPEL_STATE_WORDS, table, FARNKUPPEL_TABLE_ENTRIES, answer, FARNKUPPEL_DISTANCES_WORDS);
}
