/* What the header says of the autopilot's functions, held against the archive: the interface's number, the places of words and numbers, sizes,
 * ranges, slices of length 0, words that hold no state. A line for each fact that does not hold; leaves with 1 where there is one. */
#include "../plan.h"
#include "farnkuppel.h"

#include <inttypes.h>
#include <math.h>
#include <stdio.h>
#include <string.h>

#define HOLD(fact) ((fact) ? (void)0 : broken(__LINE__, #fact))
#define UNTOUCHED 77
#define SERIAL 0x80000007

static int failures;

static void broken(int line, const char *fact)
{
    printf("header.c:%d: does not hold: %s\n", line, fact);
    failures++;
}

/* ---- a plan file */

/* The corner of the checked examples (docs/RULES.md, section 19), with a radius and courses or without. */
static void corner(int mode)
{
    const int parts[][3] = {{0, 0, -10}, {1000, 0, -20}, {1000, 1000, -30}};
    begin(FARNKUPPEL_NEWEST, SERIAL);
    if (mode != FARNKUPPEL_MODE_LINES)
        pair(2, 200);
    for (uint32_t i = 0; i < 3; i++) {
        point(parts[i][0], parts[i][1], parts[i][2]);
        if (mode == FARNKUPPEL_MODE_DUBINS)
            pair(3, 1024 * i + 1);
    }
    close_area();
}

/* ---- calls */

struct flight {
    int32_t state[FARNKUPPEL_STATE_WORDS];
    uint32_t answer[FARNKUPPEL_ANSWER_WORDS];
    float command[FARNKUPPEL_COMMAND_NUMBERS];
};

static uint32_t load(struct flight *flight)
{
    uint32_t answer[FARNKUPPEL_LOAD_WORDS];
    uint32_t result = farnkuppel_load(file, length, FARNKUPPEL_NEWEST, flight->state, FARNKUPPEL_STATE_WORDS, answer, FARNKUPPEL_LOAD_WORDS);
    HOLD(result == answer[FARNKUPPEL_LOAD_REFUSAL]);
    HOLD(answer[FARNKUPPEL_LOAD_PLACE] == 0);
    return result;
}

static uint32_t fix(struct flight *flight, float north, float east, float down)
{
    uint32_t result = farnkuppel_fix(flight->state, FARNKUPPEL_STATE_WORDS, SERIAL, north, east, down, flight->answer,
                                     FARNKUPPEL_ANSWER_WORDS, flight->command, FARNKUPPEL_COMMAND_NUMBERS);
    HOLD(result == flight->answer[FARNKUPPEL_ANSWER_REFUSAL]);
    HOLD(flight->answer[FARNKUPPEL_ANSWER_PLACE] == 0);
    return result;
}

static uint32_t write_plan(const int32_t *state, size_t room, uint32_t *written)
{
    static uint8_t into[FARNKUPPEL_WRITTEN_BYTES];
    uint32_t answer[FARNKUPPEL_WRITE_WORDS];
    uint32_t result = farnkuppel_write(state, FARNKUPPEL_STATE_WORDS, FARNKUPPEL_NEWEST, into, room, answer, FARNKUPPEL_WRITE_WORDS);
    HOLD(result == answer[FARNKUPPEL_WRITE_REFUSAL]);
    HOLD(answer[FARNKUPPEL_WRITE_PLACE] == 0);
    *written = answer[FARNKUPPEL_WRITE_LENGTH];
    return result;
}

static uint32_t distance(const int32_t *state, uint32_t *left)
{
    uint32_t answer[FARNKUPPEL_DISTANCE_WORDS];
    uint32_t result = farnkuppel_distance(state, FARNKUPPEL_STATE_WORDS, answer, FARNKUPPEL_DISTANCE_WORDS);
    HOLD(result == answer[FARNKUPPEL_DISTANCE_REFUSAL]);
    HOLD(answer[FARNKUPPEL_DISTANCE_PLACE] == 0);
    *left = answer[FARNKUPPEL_DISTANCE_LEFT];
    return result;
}

static uint32_t make_table(const int32_t *state, uint32_t *table, size_t entries)
{
    uint32_t answer[FARNKUPPEL_DISTANCES_WORDS];
    uint32_t result = farnkuppel_distances(state, FARNKUPPEL_STATE_WORDS, table, entries, answer, FARNKUPPEL_DISTANCES_WORDS);
    HOLD(result == answer[FARNKUPPEL_DISTANCES_REFUSAL]);
    HOLD(answer[FARNKUPPEL_DISTANCES_PLACE] == 0);
    return result;
}

/* ---- facts */

static void words_of_a_state(void)
{
    struct flight flight;
    corner(FARNKUPPEL_MODE_DUBINS);
    HOLD(load(&flight) == FARNKUPPEL_ACCEPTED);
    const int32_t wanted[][4] = {{0, 0, -10, 1}, {1000, 0, -20, 1025}, {1000, 1000, -30, 2049}, {0, 0, 0, 0}};
    const int32_t *s = flight.state;
    HOLD((uint32_t)s[FARNKUPPEL_STATE_SERIAL] == SERIAL);
    HOLD(s[FARNKUPPEL_STATE_MODE] == FARNKUPPEL_MODE_DUBINS && s[FARNKUPPEL_STATE_RADIUS] == 200 && s[FARNKUPPEL_STATE_COUNT] == 3);
    HOLD(s[FARNKUPPEL_STATE_INDEX] == 2 && s[FARNKUPPEL_STATE_PHASE] == 1 && s[FARNKUPPEL_STATE_FINISHED] == 0);
    for (int i = 0; i < FARNKUPPEL_MOST_POINTS; i++) {
        const int32_t *numbers = wanted[i < 3 ? i : 3];
        HOLD(s[FARNKUPPEL_STATE_NORTHS + i] == numbers[0] && s[FARNKUPPEL_STATE_EASTS + i] == numbers[1]);
        HOLD(s[FARNKUPPEL_STATE_DOWNS + i] == numbers[2] && s[FARNKUPPEL_STATE_COURSES + i] == numbers[3]);
    }
    HOLD(FARNKUPPEL_STATE_COURSES + FARNKUPPEL_MOST_POINTS == FARNKUPPEL_STATE_WORDS);
}

static void commands(void)
{
    struct flight flight;
    const float *c = flight.command;
    corner(FARNKUPPEL_MODE_FILLETS);
    HOLD(load(&flight) == FARNKUPPEL_ACCEPTED);
    HOLD(fix(&flight, 100, 0, -1) == FARNKUPPEL_ACCEPTED);
    HOLD(flight.answer[FARNKUPPEL_ANSWER_KIND] == FARNKUPPEL_COMMAND_LINE && flight.answer[FARNKUPPEL_ANSWER_SENSE] == FARNKUPPEL_SENSE_NONE);
    HOLD(c[FARNKUPPEL_LINE_START_NORTH] == 0 && c[FARNKUPPEL_LINE_START_EAST] == 0 && c[FARNKUPPEL_LINE_START_DOWN] == -1);
    HOLD(c[FARNKUPPEL_LINE_DIRECTION_NORTH] == 100 && c[FARNKUPPEL_LINE_DIRECTION_EAST] == 0 && c[FARNKUPPEL_LINE_DIRECTION_DOWN] == -1);
    HOLD(flight.answer[FARNKUPPEL_ANSWER_PHASE] == FARNKUPPEL_PHASE_FILLETS_CIRCLE);
    HOLD(fix(&flight, 100, 10, -1) == FARNKUPPEL_ACCEPTED);
    HOLD(flight.answer[FARNKUPPEL_ANSWER_KIND] == FARNKUPPEL_COMMAND_CIRCLE);
    HOLD(flight.answer[FARNKUPPEL_ANSWER_SENSE] == FARNKUPPEL_SENSE_CLOCKWISE);
    HOLD(c[FARNKUPPEL_CIRCLE_CENTRE_NORTH] == 80 && c[FARNKUPPEL_CIRCLE_CENTRE_EAST] == 20 && c[FARNKUPPEL_CIRCLE_CENTRE_DOWN] == -2);
    HOLD(c[FARNKUPPEL_CIRCLE_RADIUS] == 20 && c[4] == 0 && c[5] == 0);
}

static void turning_left(void)
{
    struct flight flight;
    begin(FARNKUPPEL_NEWEST, SERIAL);
    pair(2, 200);
    point(0, 0, 0);
    point(1000, 0, 0);
    point(1000, -1000, 0);
    close_area();
    HOLD(load(&flight) == FARNKUPPEL_ACCEPTED);
    HOLD(fix(&flight, 100, 0, 0) == FARNKUPPEL_ACCEPTED && fix(&flight, 100, 0, 0) == FARNKUPPEL_ACCEPTED);
    HOLD(flight.answer[FARNKUPPEL_ANSWER_SENSE] == FARNKUPPEL_SENSE_ANTICLOCKWISE);
}

/* A refused fix: no command, heading 0, and the progress of the state as it stands. */
static void refused(struct flight *flight, uint32_t number, float north, float east, float down)
{
    static const float none[FARNKUPPEL_COMMAND_NUMBERS];
    int32_t before[FARNKUPPEL_STATE_WORDS];
    memcpy(before, flight->state, sizeof before);
    HOLD(fix(flight, north, east, down) == number);
    HOLD(memcmp(before, flight->state, sizeof before) == 0);
    HOLD(memcmp(flight->command, none, sizeof none) == 0);
    HOLD(flight->answer[FARNKUPPEL_ANSWER_KIND] == FARNKUPPEL_COMMAND_NONE);
    HOLD(flight->answer[FARNKUPPEL_ANSWER_SENSE] == FARNKUPPEL_SENSE_NONE && flight->answer[FARNKUPPEL_ANSWER_HEADING] == 0);
    HOLD(flight->answer[FARNKUPPEL_ANSWER_INDEX] == (uint32_t)before[FARNKUPPEL_STATE_INDEX]);
    HOLD(flight->answer[FARNKUPPEL_ANSWER_PHASE] == (uint32_t)before[FARNKUPPEL_STATE_PHASE]);
    HOLD(flight->answer[FARNKUPPEL_ANSWER_FINISHED] == (uint32_t)before[FARNKUPPEL_STATE_FINISHED]);
}

static void ranges_of_a_fix(void)
{
    const float level = FARNKUPPEL_FIX_LEVEL, down = FARNKUPPEL_FIX_DOWN;
    struct flight flight;
    corner(FARNKUPPEL_MODE_LINES);
    HOLD(load(&flight) == FARNKUPPEL_ACCEPTED);
    HOLD(fix(&flight, -level, level, -down) == FARNKUPPEL_ACCEPTED);
    HOLD(fix(&flight, -level, -level, down) == FARNKUPPEL_ACCEPTED);
    refused(&flight, FARNKUPPEL_REFUSED_NO_POSITION, nextafterf(level, INFINITY), 0, 0);
    refused(&flight, FARNKUPPEL_REFUSED_NO_POSITION, 0, nextafterf(-level, -INFINITY), 0);
    refused(&flight, FARNKUPPEL_REFUSED_NO_POSITION, 0, 0, nextafterf(down, INFINITY));
    refused(&flight, FARNKUPPEL_REFUSED_NO_POSITION, NAN, 0, 0);
    refused(&flight, FARNKUPPEL_REFUSED_NO_POSITION, 0, -INFINITY, 0);
    flight.state[FARNKUPPEL_STATE_SERIAL] = 7;
    refused(&flight, FARNKUPPEL_REFUSED_OTHER_SERIAL, 0, 0, 0);
}

/* One word of a sound state changed. */
static void no_state(int place, int32_t value)
{
    struct flight flight;
    uint32_t written, left, table[FARNKUPPEL_TABLE_ENTRIES] = {UNTOUCHED, UNTOUCHED, UNTOUCHED};
    int before = failures;
    corner(FARNKUPPEL_MODE_DUBINS);
    HOLD(load(&flight) == FARNKUPPEL_ACCEPTED);
    flight.state[place] = value;
    refused(&flight, FARNKUPPEL_REFUSED_NO_STATE, 0, 0, 0);
    HOLD(write_plan(flight.state, FARNKUPPEL_WRITTEN_BYTES, &written) == FARNKUPPEL_REFUSED_NO_STATE && written == 0);
    HOLD(distance(flight.state, &left) == FARNKUPPEL_REFUSED_NO_STATE && left == 0);
    HOLD(make_table(flight.state, table, FARNKUPPEL_TABLE_ENTRIES) == FARNKUPPEL_REFUSED_NO_STATE && table[2] == UNTOUCHED);
    if (failures > before)
        printf("header.c: with word %d as %" PRId32 "\n", place, value);
}

static void words_that_hold_no_state(void)
{
    static const struct {
        int place;
        int32_t value;
    } words[] = {
        {FARNKUPPEL_STATE_SERIAL, 0}, {FARNKUPPEL_STATE_MODE, 3}, {FARNKUPPEL_STATE_MODE, -1}, {FARNKUPPEL_STATE_MODE, 258},
        {FARNKUPPEL_STATE_RADIUS, -200}, {FARNKUPPEL_STATE_RADIUS, 65536 + 200}, {FARNKUPPEL_STATE_COUNT, 2},
        {FARNKUPPEL_STATE_COUNT, INT32_MIN + 3}, {FARNKUPPEL_STATE_INDEX, 1}, {FARNKUPPEL_STATE_INDEX, 4},
        {FARNKUPPEL_STATE_INDEX, INT32_MIN + 2}, {FARNKUPPEL_STATE_PHASE, 0}, {FARNKUPPEL_STATE_PHASE, 6}, {FARNKUPPEL_STATE_PHASE, 257},
        {FARNKUPPEL_STATE_PHASE, -255}, {FARNKUPPEL_STATE_FINISHED, 1}, {FARNKUPPEL_STATE_FINISHED, 2}, {FARNKUPPEL_STATE_FINISHED, -1},
        {FARNKUPPEL_STATE_FINISHED, 256}, {FARNKUPPEL_STATE_NORTHS, 500001}, {FARNKUPPEL_STATE_NORTHS, INT32_MIN},
        {FARNKUPPEL_STATE_EASTS, -500001}, {FARNKUPPEL_STATE_DOWNS, 100001}, {FARNKUPPEL_STATE_COURSES, 4096}, {FARNKUPPEL_STATE_COURSES, -1},
        {FARNKUPPEL_STATE_COURSES, -65536 + 1}, {FARNKUPPEL_STATE_COURSES, INT32_MIN}, {FARNKUPPEL_STATE_EASTS - 1, 1},
        {FARNKUPPEL_STATE_DOWNS - 1, 1}, {FARNKUPPEL_STATE_COURSES - 1, -1}, {FARNKUPPEL_STATE_WORDS - 1, INT32_MIN},
    };
    for (size_t i = 0; i < sizeof words / sizeof *words; i++)
        no_state(words[i].place, words[i].value);
}

static void longest_files(void)
{
    struct flight flight;
    uint32_t written;
    begin(FARNKUPPEL_NEWEST, SERIAL);
    pair(2, 200);
    for (int i = 0; i < FARNKUPPEL_MOST_POINTS; i++) {
        point(1000 * i, 0, 0);
        pair(3, 0);
    }
    close_area();
    HOLD(length == FARNKUPPEL_WRITTEN_BYTES);
    HOLD(load(&flight) == FARNKUPPEL_ACCEPTED);
    HOLD(write_plan(flight.state, FARNKUPPEL_WRITTEN_BYTES, &written) == FARNKUPPEL_ACCEPTED && written == FARNKUPPEL_WRITTEN_BYTES);
    HOLD(write_plan(flight.state, FARNKUPPEL_WRITTEN_BYTES - 1, &written) == FARNKUPPEL_REFUSED_NO_ROOM && written == 0);
    while (length + 4 <= FARNKUPPEL_FILE_BYTES)
        pair(128, 0x4142);
    close_area();
    HOLD(length == FARNKUPPEL_FILE_BYTES);
    HOLD(load(&flight) == FARNKUPPEL_ACCEPTED);
    put(0, 1);
    close_area();
    HOLD(load(&flight) == FARNKUPPEL_REFUSED_WRONG_AREA);
}

/* The longest plan needs the longest table, and its distance is the entry at its index. */
static void longest_table(void)
{
    struct flight flight;
    uint32_t left, table[FARNKUPPEL_TABLE_ENTRIES];
    begin(FARNKUPPEL_NEWEST, SERIAL);
    for (int i = 0; i < FARNKUPPEL_MOST_POINTS; i++)
        point(1000 * i, 0, 0);
    close_area();
    HOLD(load(&flight) == FARNKUPPEL_ACCEPTED);
    HOLD(make_table(flight.state, table, FARNKUPPEL_TABLE_ENTRIES - 1) == FARNKUPPEL_REFUSED_NO_ROOM);
    HOLD(make_table(flight.state, table, FARNKUPPEL_TABLE_ENTRIES) == FARNKUPPEL_ACCEPTED);
    HOLD(table[2] == 63000 && table[FARNKUPPEL_MOST_POINTS] == 1000);
    HOLD(fix(&flight, 100, 0, 0) == FARNKUPPEL_ACCEPTED && flight.state[FARNKUPPEL_STATE_INDEX] == 3);
    HOLD(distance(flight.state, &left) == FARNKUPPEL_ACCEPTED && left == 62000 && left == table[3]);
}

/* A point more than a plan may have, and one less. */
static void counts(void)
{
    struct flight flight;
    const int numbers[] = {FARNKUPPEL_FEWEST_POINTS - 1, FARNKUPPEL_FEWEST_POINTS, FARNKUPPEL_MOST_POINTS, FARNKUPPEL_MOST_POINTS + 1};
    for (int i = 0; i < 4; i++) {
        begin(FARNKUPPEL_NEWEST, SERIAL);
        for (int at = 0; at < numbers[i]; at++)
            point(1000 * at, 0, 0);
        close_area();
        HOLD(load(&flight) == (i == 1 || i == 2 ? FARNKUPPEL_ACCEPTED : FARNKUPPEL_REFUSED_POINT_COUNT));
    }
}

static void null_to_load(void)
{
    int32_t state[FARNKUPPEL_STATE_WORDS] = {UNTOUCHED};
    uint32_t answer[FARNKUPPEL_LOAD_WORDS] = {UNTOUCHED, UNTOUCHED};
    corner(FARNKUPPEL_MODE_LINES);
    HOLD(farnkuppel_load(file, length, 0, NULL, 0, answer, FARNKUPPEL_LOAD_WORDS) == FARNKUPPEL_REFUSED_MISFIT);
    HOLD(farnkuppel_load(NULL, 0, 3, state, FARNKUPPEL_STATE_WORDS, NULL, 0) == FARNKUPPEL_REFUSED_MISFIT);
    HOLD(state[0] == UNTOUCHED && answer[0] == UNTOUCHED && answer[1] == UNTOUCHED);
    HOLD(farnkuppel_load(NULL, 0, 0, state, FARNKUPPEL_STATE_WORDS, answer, FARNKUPPEL_LOAD_WORDS) == FARNKUPPEL_REFUSED_NO_VERSION);
    HOLD(farnkuppel_load(NULL, 0, 3, state, FARNKUPPEL_STATE_WORDS, answer, FARNKUPPEL_LOAD_WORDS) == FARNKUPPEL_REFUSED_FILE_TOO_SHORT);
    HOLD(answer[FARNKUPPEL_LOAD_REFUSAL] == FARNKUPPEL_REFUSED_FILE_TOO_SHORT && answer[FARNKUPPEL_LOAD_PLACE] == 0);
    for (int i = 0; i < FARNKUPPEL_STATE_WORDS; i++)
        HOLD(state[i] == 0);
}

static void null_to_fix_and_write(void)
{
    enum { STATES = FARNKUPPEL_STATE_WORDS, ANSWERS = FARNKUPPEL_ANSWER_WORDS, NUMBERS = FARNKUPPEL_COMMAND_NUMBERS };
    struct flight flight;
    uint8_t room[FARNKUPPEL_WRITTEN_BYTES] = {UNTOUCHED};
    corner(FARNKUPPEL_MODE_LINES);
    HOLD(load(&flight) == FARNKUPPEL_ACCEPTED);
    flight.answer[0] = UNTOUCHED;
    flight.command[0] = UNTOUCHED;
    HOLD(farnkuppel_fix(NULL, 0, 7, 0, 0, 0, flight.answer, ANSWERS, flight.command, NUMBERS) == FARNKUPPEL_REFUSED_MISFIT);
    HOLD(farnkuppel_fix(flight.state, STATES, 7, 0, 0, 0, NULL, 0, flight.command, NUMBERS) == FARNKUPPEL_REFUSED_MISFIT);
    HOLD(farnkuppel_fix(flight.state, STATES, 7, 0, 0, 0, flight.answer, ANSWERS, NULL, 0) == FARNKUPPEL_REFUSED_MISFIT);
    HOLD(farnkuppel_write(NULL, 0, 3, room, sizeof room, flight.answer, FARNKUPPEL_WRITE_WORDS) == FARNKUPPEL_REFUSED_MISFIT);
    HOLD(farnkuppel_write(flight.state, STATES, 3, room, sizeof room, NULL, 0) == FARNKUPPEL_REFUSED_MISFIT);
    HOLD(flight.answer[0] == UNTOUCHED && flight.command[0] == UNTOUCHED && room[0] == UNTOUCHED);
    HOLD(farnkuppel_write(flight.state, STATES, 3, NULL, 0, flight.answer, FARNKUPPEL_WRITE_WORDS) == FARNKUPPEL_REFUSED_NO_ROOM);
    HOLD(flight.answer[FARNKUPPEL_WRITE_REFUSAL] == FARNKUPPEL_REFUSED_NO_ROOM && flight.answer[FARNKUPPEL_WRITE_LENGTH] == 0);
}

static void null_to_distances(void)
{
    enum { STATES = FARNKUPPEL_STATE_WORDS, ENTRIES = FARNKUPPEL_TABLE_ENTRIES };
    struct flight flight;
    uint32_t table[ENTRIES] = {UNTOUCHED, UNTOUCHED, UNTOUCHED}, answer[FARNKUPPEL_DISTANCE_WORDS] = {UNTOUCHED};
    corner(FARNKUPPEL_MODE_LINES);
    HOLD(load(&flight) == FARNKUPPEL_ACCEPTED);
    HOLD(farnkuppel_distances(NULL, 0, table, ENTRIES, answer, FARNKUPPEL_DISTANCES_WORDS) == FARNKUPPEL_REFUSED_MISFIT);
    HOLD(farnkuppel_distances(flight.state, STATES, table, ENTRIES, NULL, 0) == FARNKUPPEL_REFUSED_MISFIT);
    HOLD(farnkuppel_distance(NULL, 0, answer, FARNKUPPEL_DISTANCE_WORDS) == FARNKUPPEL_REFUSED_MISFIT);
    HOLD(farnkuppel_distance(flight.state, STATES, NULL, 0) == FARNKUPPEL_REFUSED_MISFIT);
    HOLD(table[2] == UNTOUCHED && answer[0] == UNTOUCHED);
    HOLD(make_table(flight.state, NULL, 0) == FARNKUPPEL_REFUSED_NO_ROOM);
}

int main(void)
{
    HOLD(farnkuppel_interface() == FARNKUPPEL_INTERFACE);
    words_of_a_state();
    commands();
    turning_left();
    ranges_of_a_fix();
    words_that_hold_no_state();
    longest_files();
    longest_table();
    counts();
    null_to_load();
    null_to_fix_and_write();
    null_to_distances();
    return failures ? 1 : 0;
}
