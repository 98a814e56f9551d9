/* The distance to go, in a table and at a state, of small plans whose lengths are worked out by hand. A root is the floor of a square root; a corner
 * of a quarter circle takes T = R off both of its legs, and its arc is R * 1024 * 355 / 231424, rounded down. Slices are exactly as long as is said
 * of them, so that an access past their end is seen by a checker of memory. A line for each fact that does not hold; leaves with 1 where there is
 * one. */
#include "../plan.h"
#include "farnkuppel.h"

#include <inttypes.h>
#include <stdio.h>
#include <stdlib.h>
#include <string.h>

#define HOLD(fact) ((fact) ? (void)0 : broken(__LINE__, #fact))
#define UNTOUCHED 0xA5A5A5A5u

static int failures;
static int32_t state[263];

static void broken(int line, const char *fact)
{
    printf("distances.c:%d: does not hold: %s\n", line, fact);
    failures++;
}

/* ---- what is lent */

static void *exactly(size_t bytes)
{
    void *memory = bytes ? malloc(bytes) : NULL;
    if (bytes && !memory)
        exit(2);
    return memory;
}

static uint32_t *lent_words(size_t words)
{
    uint32_t *lent = exactly(words * sizeof *lent);
    for (size_t i = 0; i < words; i++)
        lent[i] = UNTOUCHED;
    return lent;
}

/* Whether all words from a place on are as they were lent. */
static int untouched(const uint32_t *lent, size_t from, size_t words)
{
    for (size_t i = from; i < words; i++)
        if (lent[i] != UNTOUCHED)
            return 0;
    return 1;
}

/* So many words of the state, UNTOUCHED behind those that it has. */
static int32_t *copy_of_state(size_t words)
{
    int32_t *copy = (int32_t *)lent_words(words);
    if (words)
        memcpy(copy, state, (words < 263 ? words : 263) * sizeof *copy);
    return copy;
}

/* The state and what lies behind it are as they were lent. */
static void take_state(int32_t *copy, size_t words)
{
    HOLD(words == 0 || memcmp(copy, state, (words < 263 ? words : 263) * sizeof *copy) == 0);
    HOLD(untouched((const uint32_t *)copy, 263, words));
    free(copy);
}

/* ---- the calls */

/* A table by slices of these lengths, so answered. Whoever asks for it frees it. */
static uint32_t *table_by(size_t states, size_t entries, size_t answers, uint32_t number)
{
    int32_t *copy = copy_of_state(states);
    uint32_t *table = lent_words(entries), *answer = lent_words(answers);
    HOLD(farnkuppel_distances(copy, states, table, entries, answer, answers) == number);
    if (number == 100)
        HOLD(untouched(answer, 0, answers));
    else
        HOLD(answer[0] == number && answer[1] == 0 && untouched(answer, 2, answers));
    free(answer);
    take_state(copy, states);
    return table;
}

/* No table: so refused, and none of it is written. */
static void no_table(size_t states, size_t entries, size_t answers, uint32_t number)
{
    uint32_t *table = table_by(states, entries, answers, number);
    HOLD(untouched(table, 0, entries));
    free(table);
}

/* The distance at the state by slices of these lengths. */
static void distance_by(size_t states, size_t answers, uint32_t number, uint32_t left)
{
    int32_t *copy = copy_of_state(states);
    uint32_t *answer = lent_words(answers);
    HOLD(farnkuppel_distance(copy, states, answer, answers) == number);
    if (number == 100)
        HOLD(untouched(answer, 0, answers));
    else
        HOLD(answer[0] == number && answer[1] == 0 && answer[2] == left && untouched(answer, 3, answers));
    free(answer);
    take_state(copy, states);
}

/* A table of so many entries has these from entry 2 on, to that of the last point, and no other. */
static void table_is(size_t entries, const uint32_t *lefts)
{
    size_t points = (size_t)state[3];
    uint32_t *table = table_by(263, entries, 2, 0);
    HOLD(table[0] == UNTOUCHED && table[1] == UNTOUCHED);
    HOLD(memcmp(table + 2, lefts, (points - 1) * sizeof *lefts) == 0);
    HOLD(untouched(table, points + 1, entries));
    free(table);
}

/* Tables of every length: from one entry more than there are points on they are taken. */
static void each_length(const uint32_t *lefts)
{
    for (size_t entries = 0; entries <= 66; entries++) {
        if (entries <= (size_t)state[3])
            no_table(263, entries, 2, 16);
        else
            table_is(entries, lefts);
    }
}

/* How far the plan is flown does not matter to a table, and the distance is its entry at the index. */
static void each_index(const uint32_t *lefts)
{
    for (state[4] = 2; state[4] <= state[3]; state[4]++) {
        table_is(65, lefts);
        distance_by(263, 3, 0, lefts[state[4] - 2]);
    }
    state[4] = 2;
}

static void lefts_are(const uint32_t *lefts)
{
    each_length(lefts);
    each_index(lefts);
}

/* ---- plans */

static void start_plan(uint32_t radius)
{
    begin(3, 7);
    if (radius)
        pair(2, radius);
}

static void point_on(int32_t north, int32_t east, uint32_t course)
{
    point(north, east, 0);
    pair(3, course);
}

static void load_plan(void)
{
    uint32_t answer[2];
    close_area();
    HOLD(farnkuppel_load(file, length, 3, state, 263, answer, 2) == 0);
}

/* Legs (300, 400), (1, 1) and (0, -1000) in north and east: 500, 1 and 1000. Up and down is not measured. */
static void lines(void)
{
    static const uint32_t lefts[] = {1501, 1001, 1000};
    start_plan(0);
    point(0, 0, -10);
    point(300, 400, 90000);
    point(301, 401, -90000);
    point(301, -599, 0);
    load_plan();
    lefts_are(lefts);
}

/* As many points as a plan can have, as far apart as they can be: the root of 2 * 1000000^2 is 1414213. */
static void longest_lines(void)
{
    uint32_t lefts[64];
    start_plan(0);
    for (int32_t i = 0; i < 64; i++) {
        lefts[i] = (uint32_t)(63 - i) * 1414213;
        point(i % 2 ? 500000 : -500000, i % 2 ? 500000 : -500000, i * i);
    }
    load_plan();
    lefts_are(lefts);
}

/* Three sides of a square of 1000 with R = 200, so that T = 200 and an arc is 314: 800 + 314, 600 + 314, 800. */
static void square(void)
{
    static const uint32_t lefts[] = {2828, 1714, 800};
    start_plan(200);
    point(0, 0, 0);
    point(1000, 0, -500);
    point(1000, 1000, 500);
    point(0, 1000, 0);
    load_plan();
    lefts_are(lefts);
}

/* A corner to the left with R = 1000, which takes all of both legs; its arc is 1570. */
static void nothing_but_an_arc(void)
{
    static const uint32_t lefts[] = {1570, 0};
    start_plan(1000);
    point(0, 0, 0);
    point(1000, 0, 0);
    point(1000, -1000, 0);
    load_plan();
    lefts_are(lefts);
}

/* An eighth of a circle with R = 1000: T = 1000 * 11585 / (16384 + 11585) is 414, the arc 1000 * 512 * 355 / 231424 is 785, and the second leg 1414
 * long. Then straight on, where there is no arc and T is 0. */
static void eighth_and_none(void)
{
    static const uint32_t lefts[] = {2000 - 414 + 785 + 1000 + 1414, 1000 + 1414, 1414};
    start_plan(1000);
    point(0, 0, 0);
    point(2000, 0, 0);
    point(3000, 1000, 0);
    point(4000, 2000, 0);
    load_plan();
    lefts_are(lefts);
}

/* The checked examples' leg of 1114 by right circles, and the same by left ones; then one of 1000 straight on, and the one of 928. */
static void dubins(void)
{
    static const uint32_t circles[] = {2228, 1114}, others[] = {1928, 928};
    start_plan(100);
    point_on(0, 0, 0);
    point_on(0, 1000, 2048);
    point_on(0, 2000, 0);
    load_plan();
    lefts_are(circles);
    start_plan(100);
    point_on(0, 0, 0);
    point_on(1000, 0, 0);
    point_on(1000, 300, 0);
    load_plan();
    lefts_are(others);
}

/* ---- a flight along the square */

static void fixed(uint32_t serial, float north, float east, uint32_t number)
{
    uint32_t answer[8];
    float command[6];
    HOLD(farnkuppel_fix(state, 263, serial, north, east, 0, answer, 8, command, 6) == number);
}

/* The table of the load holds to the end; the distance is its entry at the index, also on the circle, refused and finished. */
static void on_the_way(void)
{
    static const uint32_t lefts[] = {2828, 1714, 800};
    static const struct {
        float north, east;
        int32_t index, phase, finished;
    } fixes[] = {{50, 0, 2, 1, 0}, {80, 0, 2, 2, 0}, {100, 20, 3, 1, 0}, {100, 80, 3, 2, 0}, {80, 100, 4, 1, 0}, {0, 100, 4, 1, 1}};
    square();
    for (size_t i = 0; i < sizeof fixes / sizeof *fixes; i++) {
        fixed(7, fixes[i].north, fixes[i].east, 0);
        fixed(8, 0, 0, 15);
        fixed(7, 50001, 0, 13);
        HOLD(state[4] == fixes[i].index && state[5] == fixes[i].phase && state[6] == fixes[i].finished);
        table_is(5, lefts);
        distance_by(263, 3, 0, lefts[state[4] - 2]);
    }
}

/* ---- what is refused */

/* Words that hold no state are refused 14, whatever the table's length; 100 comes before. */
static void not_asked(void)
{
    no_table(263, 65, 2, 14);
    no_table(263, 4, 2, 14);
    no_table(263, 0, 2, 14);
    no_table(262, 65, 2, 100);
    no_table(263, 65, 1, 100);
    distance_by(263, 3, 14, 0);
    distance_by(262, 3, 100, 0);
    distance_by(263, 2, 100, 0);
}

/* One word of the square's state changed. */
static void words_that_hold_no_state(void)
{
    static const int32_t words[][2] = {
        {0, 0}, {1, 0}, {1, 3}, {1, 257}, {2, 49}, {2, 501}, {2, 10001}, {2, 65736}, {3, 2}, {3, 3}, {3, 6}, {3, 65}, {3, INT32_MIN + 4},
        {4, 1}, {4, 5}, {4, -2}, {5, 0}, {5, 3}, {5, 257}, {6, 1}, {6, 2}, {7, 500001}, {8, 0}, {72, -500001}, {138, 100001}, {11, 1},
        {75, -1}, {139, 1}, {199, 1}, {262, INT32_MIN},
    };
    for (size_t i = 0; i < sizeof words / sizeof *words; i++) {
        int before = failures;
        square();
        state[words[i][0]] = words[i][1];
        not_asked();
        if (failures > before)
            printf("distances.c: with word %" PRId32 " as %" PRId32 "\n", words[i][0], words[i][1]);
    }
    memset(state, 0, sizeof state);
    not_asked();
}

/* Slices of a sound state that are shorter or longer than they have to be, and NULL with length 0. */
static void lengths(void)
{
    square();
    no_table(0, 5, 2, 100);
    no_table(262, 4, 2, 100);
    no_table(263, 0, 1, 100);
    no_table(263, 5, 0, 100);
    no_table(263, 0, 2, 16);
    no_table(264, 4, 3, 16);
    distance_by(0, 3, 100, 0);
    distance_by(262, 3, 100, 0);
    distance_by(263, 0, 100, 0);
    distance_by(263, 2, 100, 0);
    distance_by(270, 9, 0, 2828);
    uint32_t *table = table_by(270, 70, 9, 0);
    HOLD(untouched(table, 0, 2) && table[2] == 2828 && table[3] == 1714 && table[4] == 800 && untouched(table, 5, 70));
    free(table);
}

int main(void)
{
    lines();
    longest_lines();
    square();
    nothing_but_an_arc();
    eighth_and_none();
    dubins();
    on_the_way();
    words_that_hold_no_state();
    lengths();
    return failures ? 1 : 0;
}
