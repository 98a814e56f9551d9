/* The header's own functions, which call no archive: every refusal in words, and words as structs, each within its range and outside it. Slices are
 * exactly as long as is said of them, so that a read past their end is seen by a checker of memory. It is C99 and C++. A line for each fact that
 * does not hold; leaves with 1 where there is one. */
#include "farnkuppel.h"

#include <stdio.h>
#include <stdlib.h>
#include <string.h>

#define HOLD(fact) ((fact) ? (void)0 : broken(__LINE__, #fact))

static int failures;

static void broken(int line, const char *fact)
{
    printf("structs.c:%d: does not hold: %s\n", line, fact);
    failures++;
}

/* ---- refusals */

/* A row of the header as it stands there. */
struct row {
    uint32_t number;
    const char *text;
};

#define AS_STRUCT(number, name, text) {number, text},
static const struct row rows[] = {FARNKUPPEL_REFUSALS(AS_STRUCT)};
enum { ROWS = sizeof rows / sizeof *rows };

/* A word for each number, by the table of refusals, that its text cannot do without. */
static void each_is_about_its_own(void)
{
    static const struct row words[] = {
        {1, "shorter"},  {2, "WPL"},       {3, "no such version"}, {4, "serial is 0"}, {5, "area"},   {6, "record"},
        {7, "higher"},   {8, "many points"}, {9, "course"},        {10, "equal"},      {11, "corner"}, {12, "leg too short"},
        {13, "position"}, {14, "state"},   {15, "another plan"},   {16, "room"},       {17, "Dubins"}, {18, "strip"},
        {100, "memory"},
    };
    HOLD(ROWS == sizeof words / sizeof *words);
    for (size_t i = 0; i < ROWS; i++) {
        HOLD(rows[i].number == words[i].number);
        HOLD(strstr(rows[i].text, words[i].text) != NULL);
    }
}

/* Printable ASCII, no longer than a line takes, and no text twice. */
static void each_fits_a_line(void)
{
    for (size_t i = 0; i < ROWS; i++) {
        size_t bytes = strlen(rows[i].text);
        HOLD(bytes >= 3 && bytes <= 60);
        for (size_t k = 0; k < bytes; k++)
            HOLD(rows[i].text[k] >= ' ' && rows[i].text[k] <= '~');
        for (size_t k = 0; k < i; k++)
            HOLD(strcmp(rows[i].text, rows[k].text) != 0);
    }
}

static const char *text_of(uint32_t number)
{
    for (size_t i = 0; i < ROWS; i++)
        if (rows[i].number == number)
            return rows[i].text;
    return number ? "unknown refusal" : "accepted";
}

static void refusals_in_words(void)
{
    each_is_about_its_own();
    each_fits_a_line();
    for (uint32_t number = 0; number < 70000; number++)
        HOLD(strcmp(farnkuppel_refusal_name(number), text_of(number)) == 0);
    HOLD(strcmp(farnkuppel_refusal_name(0x80000001), "unknown refusal") == 0);
    HOLD(strcmp(farnkuppel_refusal_name(UINT32_MAX), "unknown refusal") == 0);
    HOLD(strcmp(farnkuppel_refusal_name(FARNKUPPEL_REFUSED_MISFIT), rows[ROWS - 1].text) == 0);
}

/* ---- memory of exactly so many elements, NULL for none */

static void *exactly(size_t bytes)
{
    void *memory = bytes ? malloc(bytes) : NULL;
    if (bytes && !memory)
        exit(2);
    return memory;
}

/* Words 200, 201 and so on, with the kind and the sense put in. */
static uint32_t *answer_of_length(size_t length, uint32_t kind, uint32_t sense)
{
    uint32_t *answer = (uint32_t *)exactly(length * sizeof(uint32_t));
    for (size_t i = 0; i < length; i++)
        answer[i] = i == 2 ? kind : i == 3 ? sense : 200 + (uint32_t)i;
    return answer;
}

/* Numbers 0.5, 1.5 and so on. */
static float *command_of_length(size_t length)
{
    float *command = (float *)exactly(length * sizeof(float));
    for (size_t i = 0; i < length; i++)
        command[i] = (float)i + 0.5f;
    return command;
}

/* Words 1000, 1001 and so on, with the count put in. */
static int32_t *state_of_length(size_t length, int32_t count)
{
    int32_t *state = (int32_t *)exactly(length * sizeof(int32_t));
    for (size_t i = 0; i < length; i++)
        state[i] = i == 3 ? count : 1000 + (int32_t)i;
    return state;
}

/* ---- answers and commands */

static void answers(void)
{
    for (size_t length = 0; length <= 9; length++) {
        uint32_t *words = answer_of_length(length, 1, 0);
        struct farnkuppel_answer answer = farnkuppel_answer_of(words, length);
        if (length < 8) {
            HOLD(answer.refusal == 100 && answer.heading == 0);
            HOLD(answer.index == 0 && answer.phase == 0 && answer.finished == 0);
        } else {
            HOLD(answer.refusal == 200 && answer.heading == 204);
            HOLD(answer.index == 205 && answer.phase == 206 && answer.finished == 207);
        }
        free(words);
    }
    uint32_t accepted[8] = {0, 0, 1, 0, 4095, 2, 1, 0};
    HOLD(farnkuppel_answer_of(accepted, 8).refusal == 0 && farnkuppel_answer_of(accepted, 8).heading == 4095);
}

static int is(struct farnkuppel_metres place, float north, float east, float down)
{
    return place.north == north && place.east == east && place.down == down;
}

static struct farnkuppel_command command_by(uint32_t kind, uint32_t sense, size_t answer_length, size_t command_length)
{
    uint32_t *answer = answer_of_length(answer_length, kind, sense);
    float *numbers = command_of_length(command_length);
    struct farnkuppel_command command = farnkuppel_command_of(answer, answer_length, numbers, command_length);
    free(numbers);
    free(answer);
    return command;
}

static int is_no_line(struct farnkuppel_command command)
{
    return is(command.start, 0, 0, 0) && is(command.direction, 0, 0, 0);
}

static int is_no_circle(struct farnkuppel_command command)
{
    return is(command.centre, 0, 0, 0) && command.radius == 0 && command.sense == 0;
}

static void a_line(struct farnkuppel_command command)
{
    HOLD(command.kind == 1 && is_no_circle(command));
    HOLD(is(command.start, 0.5f, 1.5f, 2.5f) && is(command.direction, 3.5f, 4.5f, 5.5f));
}

static void a_circle(struct farnkuppel_command command, int sense)
{
    HOLD(command.kind == 2 && is_no_line(command));
    HOLD(is(command.centre, 0.5f, 1.5f, 2.5f) && command.radius == 3.5f && command.sense == sense);
}

static void nothing(struct farnkuppel_command command)
{
    HOLD(command.kind == 0 && is_no_line(command) && is_no_circle(command));
}

static void commands(void)
{
    a_line(command_by(1, 0, 8, 6));
    a_line(command_by(1, 1, 11, 9));
    a_circle(command_by(2, 1, 8, 6), 1);
    a_circle(command_by(2, 0xFFFFFFFF, 8, 7), -1);
    a_circle(command_by(2, 0, 8, 6), 0);
    a_circle(command_by(2, 2, 8, 6), 0);
    nothing(command_by(0, 0, 8, 6));
    nothing(command_by(3, 1, 8, 6));
    nothing(command_by(UINT32_MAX, 1, 8, 6));
    for (uint32_t kind = 1; kind <= 2; kind++) {
        nothing(command_by(kind, 1, 7, 6));
        nothing(command_by(kind, 1, 8, 5));
        nothing(command_by(kind, 1, 0, 6));
        nothing(command_by(kind, 1, 8, 0));
        nothing(command_by(kind, 1, 0, 0));
    }
}

/* ---- distances */

static void distances_left(void)
{
    for (size_t length = 0; length <= 4; length++) {
        uint32_t *words = answer_of_length(length, 202, 203);
        struct farnkuppel_distance_left left = farnkuppel_distance_left_of(words, length);
        if (length < 3)
            HOLD(left.refusal == 100 && left.decimetres == 0);
        else
            HOLD(left.refusal == 200 && left.decimetres == 202);
        free(words);
    }
}

/* ---- strips */

static void strip_checks(void)
{
    for (size_t length = 0; length <= 5; length++) {
        uint32_t *words = answer_of_length(length, 202, 203);
        struct farnkuppel_strip_check check = farnkuppel_strip_check_of(words, length);
        if (length < 4)
            HOLD(check.refusal == 100 && check.place == 0 && check.rule == 0 && check.count == 0);
        else
            HOLD(check.refusal == 200 && check.place == 201 && check.rule == 202 && check.count == 203);
        free(words);
    }
}

static void strip_rows(void)
{
    for (size_t length = 0; length <= 4; length++) {
        uint32_t *words = answer_of_length(length, 202, 203);
        struct farnkuppel_strip_row row = farnkuppel_strip_row_of(words, length);
        if (length < 3)
            HOLD(row.number == 0 && row.course == 0 && row.length == 0);
        else
            HOLD(row.number == 200 && row.course == 201 && row.length == 202);
        free(words);
    }
}

/* ---- states */

static void front_words(void)
{
    int32_t *state = state_of_length(263, -5);
    state[0] = INT32_MIN + 7;
    struct farnkuppel_head head = farnkuppel_head_of(state, 263);
    HOLD(head.serial == 0x80000007 && head.mode == 1001 && head.radius == 1002 && head.count == 0xFFFFFFFB);
    struct farnkuppel_progress progress = farnkuppel_progress_of(state, 263);
    HOLD(progress.index == 1004 && progress.phase == 1005 && progress.finished == 1006);
    free(state);
}

static void points(size_t length, int32_t count, uint32_t there)
{
    int32_t *state = state_of_length(length, count);
    const uint32_t asked[] = {0, 1, 2, 3, 4, 63, 64, 65, 66, 128, 1000, 0x80000001, UINT32_MAX};
    for (size_t i = 0; i < sizeof asked / sizeof *asked; i++) {
        uint32_t number = asked[i];
        struct farnkuppel_decimetres point = farnkuppel_point_of(state, length, number);
        uint32_t course = farnkuppel_course_of(state, length, number);
        int has = number >= 1 && number <= there;
        int32_t place = has ? (int32_t)number : 0;
        HOLD(farnkuppel_has_point(state, length, number) == has);
        HOLD(point.north == (has ? 1006 + place : 0) && point.east == (has ? 1070 + place : 0));
        HOLD(point.down == (has ? 1134 + place : 0) && course == (has ? 1198 + (uint32_t)place : 0));
    }
    free(state);
}

static void too_few_words(size_t length)
{
    int32_t *state = state_of_length(length, 64);
    struct farnkuppel_head head = farnkuppel_head_of(state, length);
    struct farnkuppel_progress progress = farnkuppel_progress_of(state, length);
    HOLD(head.serial == 0 && head.mode == 0 && head.radius == 0 && head.count == 0);
    HOLD(progress.index == 0 && progress.phase == 0 && progress.finished == 0);
    free(state);
    points(length, 64, 0);
}

static void states(void)
{
    front_words();
    points(263, 3, 3);
    points(264, 64, 64);
    points(263, 0, 0);
    points(263, 65, 64);
    points(263, -1, 64);
    too_few_words(0);
    too_few_words(7);
    too_few_words(262);
}

int main(void)
{
    refusals_in_words();
    answers();
    commands();
    distances_left();
    strip_checks();
    strip_rows();
    states();
    return failures ? 1 : 0;
}
