/* Faults to see whether the fuzzer finds them: each function of the C interface with one wrong thing planted behind it, by FAULT, the number in
 * the list of fuzz/faults. The linker puts these in the place of the proved functions (--wrap). */
#include "farnkuppel.h"

#include <math.h>
#include <string.h>

uint32_t __real_farnkuppel_load(const uint8_t *, size_t, uint32_t, int32_t *, size_t, uint32_t *, size_t);
uint32_t __real_farnkuppel_fix(int32_t *, size_t, uint32_t, float, float, float, uint32_t *, size_t, float *, size_t);
uint32_t __real_farnkuppel_write(const int32_t *, size_t, uint32_t, uint8_t *, size_t, uint32_t *, size_t);
uint32_t __real_farnkuppel_refusal(const uint8_t *, size_t, uint32_t);
uint32_t __real_farnkuppel_note(const uint8_t *, size_t, uint32_t, uint8_t *, size_t, uint32_t *, size_t);
uint32_t __real_farnkuppel_check(const uint8_t *, size_t, uint32_t, uint32_t *, size_t);
uint32_t __real_farnkuppel_notes(const uint8_t *, size_t, uint32_t *, size_t);
uint32_t __real_farnkuppel_strips(const int32_t *, size_t, uint32_t *, size_t);
uint32_t __real_farnkuppel_strip(const int32_t *, size_t, uint32_t, uint32_t *, size_t);
uint32_t __real_farnkuppel_distances(const int32_t *, size_t, uint32_t *, size_t, uint32_t *, size_t);
uint32_t __real_farnkuppel_distance(const int32_t *, size_t, uint32_t *, size_t);
uint32_t __wrap_farnkuppel_load(const uint8_t *, size_t, uint32_t, int32_t *, size_t, uint32_t *, size_t);
uint32_t __wrap_farnkuppel_fix(int32_t *, size_t, uint32_t, float, float, float, uint32_t *, size_t, float *, size_t);
uint32_t __wrap_farnkuppel_write(const int32_t *, size_t, uint32_t, uint8_t *, size_t, uint32_t *, size_t);
uint32_t __wrap_farnkuppel_refusal(const uint8_t *, size_t, uint32_t);
uint32_t __wrap_farnkuppel_note(const uint8_t *, size_t, uint32_t, uint8_t *, size_t, uint32_t *, size_t);
uint32_t __wrap_farnkuppel_check(const uint8_t *, size_t, uint32_t, uint32_t *, size_t);
uint32_t __wrap_farnkuppel_notes(const uint8_t *, size_t, uint32_t *, size_t);
uint32_t __wrap_farnkuppel_strips(const int32_t *, size_t, uint32_t *, size_t);
uint32_t __wrap_farnkuppel_strip(const int32_t *, size_t, uint32_t, uint32_t *, size_t);
uint32_t __wrap_farnkuppel_distances(const int32_t *, size_t, uint32_t *, size_t, uint32_t *, size_t);
uint32_t __wrap_farnkuppel_distance(const int32_t *, size_t, uint32_t *, size_t);

/* The speed of a record that ends at `to`. */
static unsigned speed_before(const uint8_t *file, size_t to)
{
    return file[to - 4] == 129 && file[to - 3] == 2 ? file[to - 2] * 256u + file[to - 1] : 0;
}

uint32_t __wrap_farnkuppel_load(const uint8_t *file, size_t length, uint32_t reader, int32_t *state, size_t states, uint32_t *answer,
                                size_t answers)
{
    static unsigned calls;
    uint32_t result = __real_farnkuppel_load(file, length, reader, state, states, answer, answers);
    int whole = states >= FARNKUPPEL_STATE_WORDS && answers >= FARNKUPPEL_LOAD_WORDS;
    if (FAULT == 1 && whole && result == FARNKUPPEL_REFUSED_TOO_NEW)
        state[FARNKUPPEL_STATE_WORDS - 1] = 1;
    if (FAULT == 2 && whole && result == 0 && state[FARNKUPPEL_STATE_COUNT] < FARNKUPPEL_MOST_POINTS)
        state[FARNKUPPEL_STATE_COURSES + state[FARNKUPPEL_STATE_COUNT]] = 1;
    if (FAULT == 3 && whole && result == 0 && reader == 2 && state[FARNKUPPEL_STATE_RADIUS])
        state[FARNKUPPEL_STATE_RADIUS]++;
    if (FAULT == 4 && whole && ++calls % 1000 == 0)
        answer[FARNKUPPEL_LOAD_PLACE]++;
    if (FAULT == 5 && whole && result == FARNKUPPEL_REFUSED_WRONG_RECORD)
        answer[FARNKUPPEL_LOAD_PLACE] += *(const volatile uint8_t *)(file + length) & 0;
    if (FAULT == 6 && whole && result == 0 && reader == 3 && speed_before(file, length) > 900)
        state[FARNKUPPEL_STATE_SERIAL] ^= 1;
    return result;
}

/* A fix that takes a word as a narrower number: the phase as one of 8 bits, the first course as one of 16. */
static uint32_t narrow_fix(int32_t *state, size_t states, uint32_t serial, const float *p, uint32_t *answer, size_t answers, float *command,
                           size_t commands)
{
    int32_t *phase = state + FARNKUPPEL_STATE_PHASE, *course = state + FARNKUPPEL_STATE_COURSES;
    int32_t phase_before = *phase, course_before = *course;
    if (FAULT == 19)
        *phase &= 0xFF;
    if (FAULT == 20)
        *course &= 0xFFFF;
    uint32_t result = __real_farnkuppel_fix(state, states, serial, p[0], p[1], p[2], answer, answers, command, commands);
    if (result) {
        *phase = phase_before;
        *course = course_before;
        answer[FARNKUPPEL_ANSWER_PHASE] = (uint32_t)phase_before;
    }
    return result;
}

uint32_t __wrap_farnkuppel_fix(int32_t *state, size_t states, uint32_t serial, float north, float east, float down, uint32_t *answer,
                               size_t answers, float *command, size_t commands)
{
    const float p[3] = {north, east, down};
    int whole = states >= FARNKUPPEL_STATE_WORDS && answers >= FARNKUPPEL_ANSWER_WORDS && commands >= FARNKUPPEL_COMMAND_NUMBERS;
    int last = whole && state[FARNKUPPEL_STATE_INDEX] == state[FARNKUPPEL_STATE_COUNT];
    if ((FAULT == 19 || FAULT == 20) && whole)
        return narrow_fix(state, states, serial, p, answer, answers, command, commands);
    uint32_t result = __real_farnkuppel_fix(state, states, serial, north, east, down, answer, answers, command, commands);
    if (result == FARNKUPPEL_REFUSED_MISFIT)
        return result;
    int arrived = !last && state[FARNKUPPEL_STATE_INDEX] == state[FARNKUPPEL_STATE_COUNT];
    if (FAULT == 7 && result == FARNKUPPEL_REFUSED_NO_POSITION)
        state[FARNKUPPEL_STATE_INDEX]++;
    if (FAULT == 8 && answers > FARNKUPPEL_ANSWER_WORDS)
        answer[FARNKUPPEL_ANSWER_WORDS] = 0;
    if (FAULT == 9 && answer[FARNKUPPEL_ANSWER_HEADING] == 0 && answer[FARNKUPPEL_ANSWER_KIND] == FARNKUPPEL_COMMAND_CIRCLE)
        answer[FARNKUPPEL_ANSWER_HEADING] = FARNKUPPEL_CIRCLE;
    if (FAULT == 10 && answer[FARNKUPPEL_ANSWER_PHASE] == 4)
        state[FARNKUPPEL_STATE_PHASE] = answer[FARNKUPPEL_ANSWER_PHASE] = 5;
    if (FAULT == 11 && answer[FARNKUPPEL_ANSWER_KIND] == FARNKUPPEL_COMMAND_LINE && command[FARNKUPPEL_LINE_DIRECTION_EAST] == 0)
        command[FARNKUPPEL_LINE_DIRECTION_EAST] = -0.0f;
    if (FAULT == 17 && result == 0 && arrived && state[FARNKUPPEL_STATE_MODE] == FARNKUPPEL_MODE_LINES)
        state[FARNKUPPEL_STATE_FINISHED] = answer[FARNKUPPEL_ANSWER_FINISHED] = 1;
    if (FAULT == 18 && result == 0 && last && state[FARNKUPPEL_STATE_MODE] != FARNKUPPEL_MODE_DUBINS && command[3] > 0)
        command[3] = command[0];
    return result;
}

uint32_t __wrap_farnkuppel_write(const int32_t *state, size_t states, uint32_t version, uint8_t *file, size_t room, uint32_t *answer,
                                 size_t answers)
{
    uint32_t result = __real_farnkuppel_write(state, states, version, file, room, answer, answers);
    if (FAULT == 12 && result == 0 && state[FARNKUPPEL_STATE_COUNT] == FARNKUPPEL_MOST_POINTS)
        file[10]++;
    if (FAULT == 13 && result == FARNKUPPEL_REFUSED_NO_ROOM && room)
        file[0] = 'W';
    return result;
}

uint32_t __wrap_farnkuppel_refusal(const uint8_t *file, size_t length, uint32_t reader)
{
    uint32_t result = __real_farnkuppel_refusal(file, length, reader);
    return FAULT == 14 && result == FARNKUPPEL_REFUSED_SHORT_LEG ? FARNKUPPEL_REFUSED_NO_CASE : result;
}

uint32_t __wrap_farnkuppel_note(const uint8_t *file, size_t length, uint32_t number, uint8_t *note, size_t room, uint32_t *answer,
                                size_t answers)
{
    uint32_t asked = FAULT == 15 && number == 3 ? 2 : number;
    uint32_t result = __real_farnkuppel_note(file, length, asked, note, room, answer, answers);
    if (FAULT == 16 && result == 0 && answer[FARNKUPPEL_NOTE_LENGTH] == 17)
        memset(note, 0, room);
    return result;
}

uint32_t __wrap_farnkuppel_check(const uint8_t *file, size_t length, uint32_t reader, uint32_t *answer, size_t answers)
{
    uint32_t result = __real_farnkuppel_check(file, length, reader, answer, answers);
    if (FAULT == 21 && result == FARNKUPPEL_REFUSED_SHORT_LEG)
        answer[FARNKUPPEL_CHECK_PLACE] = 0;
    return result;
}

uint32_t __wrap_farnkuppel_notes(const uint8_t *file, size_t length, uint32_t *answer, size_t answers)
{
    uint32_t result = __real_farnkuppel_notes(file, length, answer, answers);
    if (FAULT == 22 && result == 0 && answer[FARNKUPPEL_NOTES_COUNT] && speed_before(file, length))
        answer[FARNKUPPEL_NOTES_COUNT]++;
    if (FAULT == 23 && answers > FARNKUPPEL_NOTES_WORDS)
        answer[FARNKUPPEL_NOTES_WORDS] = 0;
    return result;
}

/* An answer to a check for strips. */
static uint32_t answered(uint32_t *answer, uint32_t refusal, uint32_t place, uint32_t rule, uint32_t count)
{
    answer[FARNKUPPEL_STRIPS_REFUSAL] = refusal;
    answer[FARNKUPPEL_STRIPS_PLACE] = place;
    answer[FARNKUPPEL_STRIPS_RULE] = rule;
    answer[FARNKUPPEL_STRIPS_COUNT] = count;
    return refusal;
}

/* The answer where a strip is at fault, or another. */
static uint32_t at_fault(const int32_t *state, uint32_t *answer)
{
    uint32_t count = (uint32_t)state[FARNKUPPEL_STATE_COUNT] / 2, rule = answer[FARNKUPPEL_STRIPS_RULE];
    if (FAULT == 28 && answer[FARNKUPPEL_STRIPS_PLACE] == count)
        return answered(answer, FARNKUPPEL_ACCEPTED, 0, FARNKUPPEL_RULE_NONE, count);
    if (FAULT == 29 && rule == FARNKUPPEL_RULE_EQUAL)
        answer[FARNKUPPEL_STRIPS_RULE] = FARNKUPPEL_RULE_BEARING;
    if ((FAULT == 30 && rule == FARNKUPPEL_RULE_BEARING) || (FAULT == 31 && rule == FARNKUPPEL_RULE_OPPOSITE))
        return answered(answer, FARNKUPPEL_ACCEPTED, 0, FARNKUPPEL_RULE_NONE, count);
    return FARNKUPPEL_REFUSED_NOT_STRIPS;
}

/* The answer of a strip plan, or another where courses fall by a half circle. */
static uint32_t falling(const int32_t *state, uint32_t *answer)
{
    const int32_t *courses = state + FARNKUPPEL_STATE_COURSES;
    for (uint32_t strip = 2; strip <= answer[FARNKUPPEL_STRIPS_COUNT]; strip++)
        if (FAULT == 32 && courses[2 * strip - 1] < courses[2 * strip - 3])
            return answered(answer, FARNKUPPEL_REFUSED_NOT_STRIPS, strip, FARNKUPPEL_RULE_OPPOSITE, 0);
    return FARNKUPPEL_ACCEPTED;
}

/* A check that takes the phase as a number of 8 bits. */
static uint32_t narrow_strips(const int32_t *state, size_t states, uint32_t *answer, size_t answers)
{
    int32_t copy[FARNKUPPEL_STATE_WORDS];
    if (FAULT != 33 || states < FARNKUPPEL_STATE_WORDS)
        return __real_farnkuppel_strips(state, states, answer, answers);
    memcpy(copy, state, sizeof copy);
    copy[FARNKUPPEL_STATE_PHASE] &= 0xFF;
    return __real_farnkuppel_strips(copy, FARNKUPPEL_STATE_WORDS, answer, answers);
}

uint32_t __wrap_farnkuppel_strips(const int32_t *state, size_t states, uint32_t *answer, size_t answers)
{
    uint32_t result = narrow_strips(state, states, answer, answers);
    if (result == FARNKUPPEL_REFUSED_MISFIT)
        return result;
    if (FAULT == 24 && result == FARNKUPPEL_REFUSED_NOT_STRIPS)
        return answered(answer, FARNKUPPEL_REFUSED_NO_CASE, answer[1], answer[2], 0);
    if (FAULT == 25 && result == FARNKUPPEL_REFUSED_NOT_STRIPS && state[FARNKUPPEL_STATE_MODE] == FARNKUPPEL_MODE_LINES)
        answer[FARNKUPPEL_STRIPS_PLACE] = 1;
    if (FAULT == 26 && result == FARNKUPPEL_REFUSED_NOT_STRIPS)
        answer[FARNKUPPEL_STRIPS_COUNT] = (uint32_t)state[FARNKUPPEL_STATE_COUNT] / 2;
    if (FAULT == 27 && state[FARNKUPPEL_STATE_INDEX] > 2)
        return answered(answer, FARNKUPPEL_REFUSED_NO_STATE, 0, FARNKUPPEL_RULE_NONE, 0);
    if (FAULT == 34 && answers > FARNKUPPEL_STRIPS_WORDS)
        answer[FARNKUPPEL_STRIPS_WORDS] = 0;
    if (FAULT == 35 && result == FARNKUPPEL_ACCEPTED)
        ((int32_t *)(uintptr_t)state)[FARNKUPPEL_STATE_INDEX]++;
    if (answer[FARNKUPPEL_STRIPS_PLACE] != 0)
        return at_fault(state, answer);
    return result == FARNKUPPEL_ACCEPTED ? falling(state, answer) : result;
}

/* The length of the leg to a point in three dimensions. */
static uint32_t steep_length(const int32_t *state, uint32_t point)
{
    static const int blocks[] = {FARNKUPPEL_STATE_NORTHS, FARNKUPPEL_STATE_EASTS, FARNKUPPEL_STATE_DOWNS};
    double square = 0;
    for (int part = 0; part < 3; part++) {
        const int32_t *end = state + blocks[part] + point - 1;
        square += ((double)end[0] - end[-1]) * ((double)end[0] - end[-1]);
    }
    return (uint32_t)sqrt(square);
}

uint32_t __wrap_farnkuppel_strip(const int32_t *state, size_t states, uint32_t number, uint32_t *answer, size_t answers)
{
    uint32_t result = __real_farnkuppel_strip(state, states, number, answer, answers);
    if (result == FARNKUPPEL_REFUSED_MISFIT)
        return FAULT == 38 && states >= FARNKUPPEL_STATE_WORDS ? FARNKUPPEL_ACCEPTED : result;
    if (FAULT == 36 && answer[FARNKUPPEL_STRIP_NUMBER])
        answer[FARNKUPPEL_STRIP_LENGTH] = steep_length(state, 2 * number);
    if (FAULT == 37 && number > 1 && answer[FARNKUPPEL_STRIP_NUMBER] == 0)
        __real_farnkuppel_strip(state, states, number - 1, answer, answers);
    return result;
}

/* The turn at a corner of fillets in radians; none at the first and the last point, nor in other modes. */
static double turn_at(const int32_t *state, uint32_t point)
{
    const int32_t *north = state + FARNKUPPEL_STATE_NORTHS + point - 1, *east = state + FARNKUPPEL_STATE_EASTS + point - 1;
    if (state[FARNKUPPEL_STATE_MODE] != FARNKUPPEL_MODE_FILLETS || point < 2 || point >= (uint32_t)state[FARNKUPPEL_STATE_COUNT])
        return 0;
    double before = atan2(east[0] - east[-1], north[0] - north[-1]), after = atan2(east[1] - east[0], north[1] - north[0]);
    return fabs(remainder(after - before, 6.283185307179586));
}

/* The length of the leg to a point, or another. */
static uint32_t leg_length(const int32_t *state, uint32_t point, uint32_t length)
{
    if (FAULT == 44)
        return length + (uint32_t)(state[FARNKUPPEL_STATE_RADIUS] * tan(turn_at(state, point - 1) / 2));
    if (FAULT == 46 && state[FARNKUPPEL_STATE_MODE] == FARNKUPPEL_MODE_LINES)
        return steep_length(state, point);
    return length;
}

/* The table by these lengths. */
static void sum_up(const int32_t *state, uint32_t *table)
{
    uint32_t left = 0, behind = 0;
    for (uint32_t point = (uint32_t)state[FARNKUPPEL_STATE_COUNT]; point >= 2; point--) {
        left += leg_length(state, point, table[point] - behind);
        behind = table[point];
        table[point] = left;
    }
}

/* An entry that is wrong by itself. */
static uint32_t entry(const int32_t *state, const uint32_t *table, uint32_t point)
{
    uint32_t count = (uint32_t)state[FARNKUPPEL_STATE_COUNT], index = (uint32_t)state[FARNKUPPEL_STATE_INDEX];
    if (FAULT == 43)
        return point < count ? table[point + 1] : 0;
    if (FAULT == 45)
        return table[point] - (uint32_t)(state[FARNKUPPEL_STATE_RADIUS] * turn_at(state, point));
    int past = point == index && state[FARNKUPPEL_STATE_PHASE] >= FARNKUPPEL_PHASE_DUBINS_LINE;
    return FAULT == 48 && past ? table[point] - 1 : table[point];
}

/* A table that was made, or another. */
static void spoil_table(const int32_t *state, uint32_t *table, size_t entries)
{
    uint32_t count = (uint32_t)state[FARNKUPPEL_STATE_COUNT];
    if (FAULT == 39)
        table[1] = table[2];
    if (FAULT == 40 && entries > count + 1)
        table[count + 1] = 0;
    sum_up(state, table);
    for (uint32_t point = 2; point <= count; point++)
        table[point] = entry(state, table, point);
}

uint32_t __wrap_farnkuppel_distances(const int32_t *state, size_t states, uint32_t *table, size_t entries, uint32_t *answer, size_t answers)
{
    uint32_t result = __real_farnkuppel_distances(state, states, table, entries, answer, answers);
    if (result == FARNKUPPEL_ACCEPTED)
        spoil_table(state, table, entries);
    if (FAULT == 41 && result == FARNKUPPEL_REFUSED_NO_ROOM && entries == (size_t)state[FARNKUPPEL_STATE_COUNT])
        return answer[FARNKUPPEL_DISTANCES_REFUSAL] = FARNKUPPEL_ACCEPTED;
    if (FAULT == 42 && result == FARNKUPPEL_REFUSED_NO_ROOM && entries > 2)
        table[2] = 0;
    return result;
}

uint32_t __wrap_farnkuppel_distance(const int32_t *state, size_t states, uint32_t *answer, size_t answers)
{
    uint32_t table[FARNKUPPEL_TABLE_ENTRIES], other[FARNKUPPEL_DISTANCES_WORDS];
    uint32_t result = __real_farnkuppel_distance(state, states, answer, answers);
    if (result)
        return result;
    int32_t index = state[FARNKUPPEL_STATE_INDEX], last = index == state[FARNKUPPEL_STATE_COUNT];
    __wrap_farnkuppel_distances(state, states, table, FARNKUPPEL_TABLE_ENTRIES, other, FARNKUPPEL_DISTANCES_WORDS);
    answer[FARNKUPPEL_DISTANCE_LEFT] = table[FAULT == 47 && !last ? index + 1 : index];
    return result;
}
