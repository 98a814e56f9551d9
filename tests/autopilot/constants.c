/* Every constant of the header against a number that is written out here, at compile time; and the same numbers against what the archive answers.
 * No number below comes from the header. The desk's numbers are held against the other archive, in tests/desk; no plan is refused 17. A line for each
 * fact that does not hold; leaves with 1 where there is one. */
#include "../plan.h"
#include "farnkuppel.h"

#include <math.h>
#include <stdio.h>
#include <string.h>

#define HOLD(fact) ((fact) ? (void)0 : broken(__LINE__, #fact))
#define SAME(name, number) typedef char name##_is[(name) == (number) ? 1 : -1]

/* ---- the header's numbers */

/* the interface, sizes and ranges */
SAME(FARNKUPPEL_INTERFACE, 2);
SAME(FARNKUPPEL_NEWEST, 3);
SAME(FARNKUPPEL_CIRCLE, 4096);
SAME(FARNKUPPEL_FEWEST_POINTS, 3);
SAME(FARNKUPPEL_MOST_POINTS, 64);
SAME(FARNKUPPEL_FILE_BYTES, 8203);
SAME(FARNKUPPEL_WRITTEN_BYTES, 1167);
SAME(FARNKUPPEL_NOTE_BYTES, 32);
SAME(FARNKUPPEL_TABLE_ENTRIES, 65);
SAME(FARNKUPPEL_FIX_LEVEL, 50000);
SAME(FARNKUPPEL_FIX_DOWN, 10000);

/* stacks, which tests/stack works out of the archives */
SAME(FARNKUPPEL_STACK_INTERFACE, 8);
SAME(FARNKUPPEL_STACK_LOAD, 560);
SAME(FARNKUPPEL_STACK_FIX, 1408);
SAME(FARNKUPPEL_STACK_WRITE, 624);
SAME(FARNKUPPEL_STACK_DISTANCES, 800);
SAME(FARNKUPPEL_STACK_DISTANCE, 800);
SAME(FARNKUPPEL_STACK_REFUSAL, 1632);
SAME(FARNKUPPEL_STACK_CHECK, 1632);
SAME(FARNKUPPEL_STACK_NOTE, 1664);
SAME(FARNKUPPEL_STACK_NOTES, 1648);
SAME(FARNKUPPEL_STACK_STRIPS, 528);
SAME(FARNKUPPEL_STACK_STRIP, 528);

/* refusals */
SAME(FARNKUPPEL_ACCEPTED, 0);
SAME(FARNKUPPEL_REFUSED_FILE_TOO_SHORT, 1);
SAME(FARNKUPPEL_REFUSED_NO_MARK, 2);
SAME(FARNKUPPEL_REFUSED_NO_VERSION, 3);
SAME(FARNKUPPEL_REFUSED_NO_SERIAL, 4);
SAME(FARNKUPPEL_REFUSED_WRONG_AREA, 5);
SAME(FARNKUPPEL_REFUSED_WRONG_RECORD, 6);
SAME(FARNKUPPEL_REFUSED_TOO_NEW, 7);
SAME(FARNKUPPEL_REFUSED_POINT_COUNT, 8);
SAME(FARNKUPPEL_REFUSED_COURSE_COUNT, 9);
SAME(FARNKUPPEL_REFUSED_EQUAL_NEIGHBOURS, 10);
SAME(FARNKUPPEL_REFUSED_SHARP_CORNER, 11);
SAME(FARNKUPPEL_REFUSED_SHORT_LEG, 12);
SAME(FARNKUPPEL_REFUSED_NO_POSITION, 13);
SAME(FARNKUPPEL_REFUSED_NO_STATE, 14);
SAME(FARNKUPPEL_REFUSED_OTHER_SERIAL, 15);
SAME(FARNKUPPEL_REFUSED_NO_ROOM, 16);
SAME(FARNKUPPEL_REFUSED_NO_CASE, 17);
SAME(FARNKUPPEL_REFUSED_NOT_STRIPS, 18);
SAME(FARNKUPPEL_REFUSED_MISFIT, 100);

/* modes and phases */
SAME(FARNKUPPEL_MODE_LINES, 0);
SAME(FARNKUPPEL_MODE_FILLETS, 1);
SAME(FARNKUPPEL_MODE_DUBINS, 2);
SAME(FARNKUPPEL_PHASE_LINES_LINE, 1);
SAME(FARNKUPPEL_PHASE_FILLETS_LINE, 1);
SAME(FARNKUPPEL_PHASE_FILLETS_CIRCLE, 2);
SAME(FARNKUPPEL_PHASE_DUBINS_START_FIRST, 1);
SAME(FARNKUPPEL_PHASE_DUBINS_START_LAST, 2);
SAME(FARNKUPPEL_PHASE_DUBINS_LINE, 3);
SAME(FARNKUPPEL_PHASE_DUBINS_END_FIRST, 4);
SAME(FARNKUPPEL_PHASE_DUBINS_END_LAST, 5);

/* the words of a state */
SAME(FARNKUPPEL_STATE_WORDS, 263);
SAME(FARNKUPPEL_STATE_SERIAL, 0);
SAME(FARNKUPPEL_STATE_MODE, 1);
SAME(FARNKUPPEL_STATE_RADIUS, 2);
SAME(FARNKUPPEL_STATE_COUNT, 3);
SAME(FARNKUPPEL_STATE_INDEX, 4);
SAME(FARNKUPPEL_STATE_PHASE, 5);
SAME(FARNKUPPEL_STATE_FINISHED, 6);
SAME(FARNKUPPEL_STATE_NORTHS, 7);
SAME(FARNKUPPEL_STATE_EASTS, 71);
SAME(FARNKUPPEL_STATE_DOWNS, 135);
SAME(FARNKUPPEL_STATE_COURSES, 199);

/* answers */
SAME(FARNKUPPEL_LOAD_WORDS, 2);
SAME(FARNKUPPEL_LOAD_REFUSAL, 0);
SAME(FARNKUPPEL_LOAD_PLACE, 1);
SAME(FARNKUPPEL_WRITE_WORDS, 3);
SAME(FARNKUPPEL_WRITE_REFUSAL, 0);
SAME(FARNKUPPEL_WRITE_PLACE, 1);
SAME(FARNKUPPEL_WRITE_LENGTH, 2);
SAME(FARNKUPPEL_DISTANCES_WORDS, 2);
SAME(FARNKUPPEL_DISTANCES_REFUSAL, 0);
SAME(FARNKUPPEL_DISTANCES_PLACE, 1);
SAME(FARNKUPPEL_DISTANCE_WORDS, 3);
SAME(FARNKUPPEL_DISTANCE_REFUSAL, 0);
SAME(FARNKUPPEL_DISTANCE_PLACE, 1);
SAME(FARNKUPPEL_DISTANCE_LEFT, 2);
SAME(FARNKUPPEL_CHECK_WORDS, 2);
SAME(FARNKUPPEL_CHECK_REFUSAL, 0);
SAME(FARNKUPPEL_CHECK_PLACE, 1);
SAME(FARNKUPPEL_NOTES_WORDS, 1);
SAME(FARNKUPPEL_NOTES_COUNT, 0);
SAME(FARNKUPPEL_NOTE_WORDS, 1);
SAME(FARNKUPPEL_NOTE_LENGTH, 0);
SAME(FARNKUPPEL_STRIPS_WORDS, 4);
SAME(FARNKUPPEL_STRIPS_REFUSAL, 0);
SAME(FARNKUPPEL_STRIPS_PLACE, 1);
SAME(FARNKUPPEL_STRIPS_RULE, 2);
SAME(FARNKUPPEL_STRIPS_COUNT, 3);
SAME(FARNKUPPEL_RULE_NONE, 0);
SAME(FARNKUPPEL_RULE_EQUAL, 1);
SAME(FARNKUPPEL_RULE_BEARING, 2);
SAME(FARNKUPPEL_RULE_OPPOSITE, 3);
SAME(FARNKUPPEL_STRIP_WORDS, 3);
SAME(FARNKUPPEL_STRIP_NUMBER, 0);
SAME(FARNKUPPEL_STRIP_COURSE, 1);
SAME(FARNKUPPEL_STRIP_LENGTH, 2);
SAME(FARNKUPPEL_ANSWER_WORDS, 8);
SAME(FARNKUPPEL_ANSWER_REFUSAL, 0);
SAME(FARNKUPPEL_ANSWER_PLACE, 1);
SAME(FARNKUPPEL_ANSWER_KIND, 2);
SAME(FARNKUPPEL_ANSWER_SENSE, 3);
SAME(FARNKUPPEL_ANSWER_HEADING, 4);
SAME(FARNKUPPEL_ANSWER_INDEX, 5);
SAME(FARNKUPPEL_ANSWER_PHASE, 6);
SAME(FARNKUPPEL_ANSWER_FINISHED, 7);

/* commands */
SAME(FARNKUPPEL_COMMAND_NONE, 0);
SAME(FARNKUPPEL_COMMAND_LINE, 1);
SAME(FARNKUPPEL_COMMAND_CIRCLE, 2);
SAME(FARNKUPPEL_SENSE_NONE, 0);
SAME(FARNKUPPEL_SENSE_CLOCKWISE, 1);
SAME(FARNKUPPEL_SENSE_ANTICLOCKWISE, 0xFFFFFFFFu);
SAME(FARNKUPPEL_COMMAND_NUMBERS, 6);
SAME(FARNKUPPEL_LINE_START_NORTH, 0);
SAME(FARNKUPPEL_LINE_START_EAST, 1);
SAME(FARNKUPPEL_LINE_START_DOWN, 2);
SAME(FARNKUPPEL_LINE_DIRECTION_NORTH, 3);
SAME(FARNKUPPEL_LINE_DIRECTION_EAST, 4);
SAME(FARNKUPPEL_LINE_DIRECTION_DOWN, 5);
SAME(FARNKUPPEL_CIRCLE_CENTRE_NORTH, 0);
SAME(FARNKUPPEL_CIRCLE_CENTRE_EAST, 1);
SAME(FARNKUPPEL_CIRCLE_CENTRE_DOWN, 2);
SAME(FARNKUPPEL_CIRCLE_RADIUS, 3);

static int failures;

static void broken(int line, const char *fact)
{
    printf("constants.c:%d: does not hold: %s\n", line, fact);
    failures++;
}

/* ---- calls, with slices that are longer than they have to be: what lies behind stays as it is */

static int32_t state[264];
static uint32_t answer[9];
static float command[7];
static uint8_t written[1168];
static uint32_t table[66];

static void mark_ends(void)
{
    state[263] = -77;
    memset(answer, 0x77, sizeof answer);
    memset(table, 0x77, sizeof table);
    for (int i = 0; i < 7; i++)
        command[i] = -77;
}

static uint32_t load_by(uint32_t reader)
{
    mark_ends();
    uint32_t result = farnkuppel_load(file, length, reader, state, 264, answer, 9);
    HOLD(state[263] == -77 && answer[2] == 0x77777777 && answer[0] == result);
    return result;
}

static uint32_t fix_by(uint32_t serial, float north, float east, float down)
{
    mark_ends();
    uint32_t result = farnkuppel_fix(state, 264, serial, north, east, down, answer, 9, command, 7);
    HOLD(state[263] == -77 && answer[8] == 0x77777777 && command[6] == -77);
    HOLD(answer[0] == result && answer[1] == 0);
    return result;
}

static uint32_t write_at(uint32_t version, size_t room)
{
    mark_ends();
    uint32_t result = farnkuppel_write(state, 264, version, written, room, answer, 9);
    HOLD(answer[3] == 0x77777777 && answer[0] == result && answer[1] == 0);
    return result;
}

static uint32_t table_in(size_t entries)
{
    mark_ends();
    uint32_t result = farnkuppel_distances(state, 264, table, entries, answer, 9);
    HOLD(answer[2] == 0x77777777 && answer[0] == result && answer[1] == 0);
    HOLD(table[0] == 0x77777777 && table[1] == 0x77777777 && table[65] == 0x77777777);
    return result;
}

static uint32_t distance_left(void)
{
    mark_ends();
    uint32_t result = farnkuppel_distance(state, 264, answer, 9);
    HOLD(answer[3] == 0x77777777 && answer[0] == result && answer[1] == 0);
    return result;
}

/* The file that stands there is refused so, and leaves the empty state. */
static void refused(uint32_t reader, uint32_t number, uint32_t place)
{
    static const int32_t empty[263];
    close_area();
    HOLD(load_by(reader) == number && answer[1] == place);
    HOLD(memcmp(state, empty, sizeof empty) == 0);
}

static void loads(uint32_t reader)
{
    close_area();
    HOLD(load_by(reader) == 0 && answer[1] == 0);
}

/* The words of index, phase and finished, in the state and in the answer, after a fix that is accepted. */
static void fixed(float north, float east, float down, int32_t index, int32_t phase, int32_t finished)
{
    HOLD(fix_by(7, north, east, down) == 0);
    HOLD(state[4] == index && state[5] == phase && state[6] == finished);
    HOLD(answer[5] == (uint32_t)index && answer[6] == (uint32_t)phase && answer[7] == (uint32_t)finished);
}

/* Six numbers, with the kind and the sense of the command. */
static void commanded(uint32_t kind, uint32_t sense, float a, float b, float c, float d, float e, float f)
{
    HOLD(answer[2] == kind && answer[3] == sense);
    HOLD(command[0] == a && command[1] == b && command[2] == c);
    HOLD(command[3] == d && command[4] == e && command[5] == f);
}

/* ---- plans */

/* Points (0, 0, -10), (1000, 0, -20) and (1000, the last east, -30). */
static void corner(uint32_t radius, int32_t east)
{
    begin(2, 7);
    if (radius)
        pair(2, radius);
    point(0, 0, -10);
    point(1000, 0, -20);
    point(1000, east, -30);
    close_area();
}

/* The checked examples' leg from (0, 0) course 0 to (0, 1000) course 2048 with radius 100, and one back to course 0 behind it. */
static void dubins(uint32_t last)
{
    begin(3, 7);
    pair(2, 100);
    point(0, 0, -10);
    pair(3, 0);
    point(0, 1000, -20);
    pair(3, 2048);
    point(0, 2000, -30);
    pair(3, last);
    close_area();
}

/* So many points north of one another. */
static void row(uint32_t count)
{
    begin(3, 7);
    for (uint32_t i = 0; i < count; i++)
        point((int32_t)(1000 * i), 0, 0);
}

/* ---- the archive by the numbers above */

static void words_of_a_state(void)
{
    dubins(1);
    file[5] = 0x80;
    loads(3);
    const int32_t head[] = {INT32_MIN + 7, 2, 100, 3, 2, 1, 0};
    HOLD(memcmp(state, head, sizeof head) == 0);
    const int32_t numbers[4][3] = {{0, 0, 0}, {0, 1000, 2000}, {-10, -20, -30}, {0, 2048, 1}};
    for (int kind = 0; kind < 4; kind++)
        for (int i = 0; i < 64; i++)
            HOLD(state[7 + 64 * kind + i] == (i < 3 ? numbers[kind][i] : 0));
}

static void lines(void)
{
    corner(0, 2000);
    loads(3);
    HOLD(state[1] == 0 && state[2] == 0 && state[5] == 1);
    fixed(50, 0, 0, 2, 1, 0);
    commanded(1, 0, 0, 0, -1, 100, 0, -1);
    fixed(100, 0, -2, 3, 1, 0);
    fixed(100, 100, -2, 3, 1, 0);
    commanded(1, 0, 100, 0, -2, 0, 200, -1);
    HOLD(answer[4] == 1024);
    fixed(100, 200, -3, 3, 1, 1);
}

static void fillets(void)
{
    corner(200, 1000);
    loads(3);
    HOLD(state[1] == 1 && state[2] == 200 && state[5] == 1);
    fixed(80, 0, 0, 2, 2, 0);
    commanded(1, 0, 0, 0, -1, 100, 0, -1);
    fixed(100, 20, 0, 3, 1, 0);
    commanded(2, 1, 80, 20, -2, 20, 0, 0);
    fixed(100, 100, 0, 3, 1, 1);
    corner(200, -1000);
    loads(3);
    fixed(80, 0, 0, 2, 2, 0);
    fixed(100, 0, 0, 2, 2, 0);
    commanded(2, 4294967295, 80, -20, -2, 20, 0, 0);
}

/* z1 is (100, 100) and z2 (100, 900): on the start's circle before z1, then from there on; along the line; on the end's circle before and behind
 * point 2. */
static void dubins_phases(void)
{
    dubins(0);
    loads(3);
    HOLD(state[1] == 2 && state[5] == 1);
    fixed(0, 20, 0, 2, 1, 0);
    commanded(2, 1, 0, 10, -1, 10, 0, 0);
    fixed(0, 0, 0, 2, 2, 0);
    fixed(10, 10, 0, 2, 3, 0);
    fixed(10, 90, 0, 2, 4, 0);
    commanded(1, 0, 10, 10, -1, 0, 1, 0);
    fixed(10, 100, 0, 2, 5, 0);
    commanded(2, 1, 0, 90, -2, 10, 0, 0);
    fixed(0, 100, 0, 3, 1, 0);
}

static void headers_that_are_refused(void)
{
    corner(0, 2000);
    length = 10;
    HOLD(load_by(3) == 1 && answer[1] == 0);
    corner(0, 2000);
    file[0] = 'w';
    refused(3, 2, 0);
    begin(0, 7);
    refused(3, 3, 0);
    corner(0, 2000);
    refused(0, 3, 0);
    refused(4, 3, 0);
    begin(1, 0);
    refused(3, 4, 0);
    corner(0, 2000);
    file[10]++;
    HOLD(load_by(3) == 5 && answer[1] == 0);
}

static void records_that_are_refused(void)
{
    begin(3, 7);
    pair(4, 0);
    refused(3, 6, 11);
    begin(4, 7);
    point(0, 0, 0);
    pair(4, 0);
    refused(3, 7, 25);
    begin(3, 7);
    point(0, 0, 0);
    pair(3, 0);
    point(1000, 0, 0);
    point(1000, 1000, 0);
    refused(3, 9, 0);
    row(3);
    point(2000, 0, 500);
    refused(3, 10, 4);
    row(3);
    point(1000, 0, 0);
    refused(3, 11, 3);
    corner(1001, 1000);
    refused(3, 12, 2);
    dubins(4095);
    loads(3);
    dubins(4096);
    refused(3, 6, 65);
}

static void counts_and_lengths(void)
{
    row(2);
    refused(3, 8, 0);
    row(3);
    loads(3);
    row(64);
    loads(3);
    while (length + 4 <= 8203)
        pair(128, 0x4142);
    HOLD(length == 8203);
    loads(3);
    put(0, 1);
    refused(3, 5, 0);
    row(65);
    refused(3, 8, 0);
    begin(3, 7);
    pair(2, 100);
    for (int32_t i = 0; i < 64; i++) {
        point(1000 * i, 0, 0);
        pair(3, 0);
    }
    loads(3);
    HOLD(write_at(3, 1168) == 0 && answer[2] == 1167 && memcmp(written, file, 1167) == 0);
    HOLD(write_at(3, 1167) == 0 && answer[2] == 1167);
    HOLD(write_at(3, 1166) == 16 && answer[2] == 0);
    HOLD(write_at(2, 1168) == 7 && answer[2] == 0);
    HOLD(write_at(4, 1168) == 3 && answer[2] == 0);
}

/* 64 points 1000 apart need a table of 65 entries. */
static void distances(void)
{
    row(64);
    loads(3);
    HOLD(table_in(64) == 16 && table[2] == 0x77777777 && table[64] == 0x77777777);
    HOLD(table_in(65) == 0 && table[2] == 63000 && table[3] == 62000 && table[64] == 1000);
    HOLD(table_in(66) == 0 && table[2] == 63000 && table[64] == 1000);
    HOLD(distance_left() == 0 && answer[2] == 63000);
    state[4] = 64;
    HOLD(distance_left() == 0 && answer[2] == 1000);
    state[4] = 65;
    HOLD(table_in(66) == 14 && table[2] == 0x77777777 && distance_left() == 14 && answer[2] == 0);
}

static void fixes_that_are_refused(void)
{
    corner(0, 2000);
    loads(3);
    HOLD(fix_by(7, 50000, -50000, 10000) == 0 && fix_by(7, 0, 50000, -10000) == 0);
    HOLD(fix_by(7, nextafterf(50000, INFINITY), 0, 0) == 13 && fix_by(7, 0, nextafterf(-50000, -INFINITY), 0) == 13);
    HOLD(fix_by(7, 0, 0, nextafterf(10000, INFINITY)) == 13 && fix_by(7, 0, NAN, 0) == 13);
    commanded(0, 0, 0, 0, 0, 0, 0, 0);
    HOLD(answer[4] == 0 && answer[5] == (uint32_t)state[4] && answer[6] == 1 && answer[7] == 0);
    HOLD(fix_by(8, 0, 0, 0) == 15);
    memset(state, 0, sizeof state);
    HOLD(fix_by(0, 0, 0, 0) == 14 && write_at(1, 1168) == 14);
}

/* Slices of a length that is enough, and of one less. */
static void slices(void)
{
    corner(0, 2000);
    HOLD(farnkuppel_load(file, length, 3, state, 263, answer, 2) == 0);
    HOLD(farnkuppel_load(file, length, 3, state, 262, answer, 2) == 100);
    HOLD(farnkuppel_load(file, length, 3, state, 263, answer, 1) == 100);
    HOLD(farnkuppel_fix(state, 263, 7, 0, 0, 0, answer, 8, command, 6) == 0);
    HOLD(farnkuppel_fix(state, 262, 7, 0, 0, 0, answer, 8, command, 6) == 100);
    HOLD(farnkuppel_fix(state, 263, 7, 0, 0, 0, answer, 7, command, 6) == 100);
    HOLD(farnkuppel_fix(state, 263, 7, 0, 0, 0, answer, 8, command, 5) == 100);
    HOLD(farnkuppel_write(state, 263, 1, written, 53, answer, 3) == 0);
    HOLD(farnkuppel_write(state, 262, 1, written, 53, answer, 3) == 100);
    HOLD(farnkuppel_write(state, 263, 1, written, 53, answer, 2) == 100);
    HOLD(farnkuppel_distances(state, 263, table, 4, answer, 2) == 0);
    HOLD(farnkuppel_distances(state, 262, table, 4, answer, 2) == 100);
    HOLD(farnkuppel_distances(state, 263, table, 4, answer, 1) == 100);
    HOLD(farnkuppel_distance(state, 263, answer, 3) == 0);
    HOLD(farnkuppel_distance(state, 262, answer, 3) == 100);
    HOLD(farnkuppel_distance(state, 263, answer, 2) == 100);
}

int main(void)
{
    HOLD(farnkuppel_interface() == 2);
    words_of_a_state();
    lines();
    fillets();
    dubins_phases();
    headers_that_are_refused();
    records_that_are_refused();
    counts_and_lengths();
    distances();
    fixes_that_are_refused();
    slices();
    return failures ? 1 : 0;
}
