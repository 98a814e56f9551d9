/* The autopilot's archive alone. Of each plan that it is given: its head, its third point with its course, and what a fix at north 500 m is
 * commanded. */
#include "read.h"

#include <inttypes.h>

static void show_command(struct farnkuppel_command command)
{
    if (command.kind == FARNKUPPEL_COMMAND_LINE)
        printf("line from %g %g %g by %g %g %g\n", command.start.north, command.start.east, command.start.down, command.direction.north,
               command.direction.east, command.direction.down);
    if (command.kind == FARNKUPPEL_COMMAND_CIRCLE)
        printf("circle about %g %g %g radius %g sense %d\n", command.centre.north, command.centre.east, command.centre.down, command.radius,
               command.sense);
}

static void fly(int32_t *state)
{
    uint32_t answer[FARNKUPPEL_ANSWER_WORDS];
    float command[FARNKUPPEL_COMMAND_NUMBERS];
    struct farnkuppel_head head = farnkuppel_head_of(state, FARNKUPPEL_STATE_WORDS);
    struct farnkuppel_decimetres third = farnkuppel_point_of(state, FARNKUPPEL_STATE_WORDS, 3);
    uint32_t course = farnkuppel_course_of(state, FARNKUPPEL_STATE_WORDS, 3);
    printf("plan %" PRIu32 " mode %" PRIu32 " radius %" PRIu32 " points %" PRIu32, head.serial, head.mode, head.radius, head.count);
    printf(" third %" PRId32 " %" PRId32 " %" PRId32 " course %" PRIu32 "\n", third.north, third.east, third.down, course);

    farnkuppel_fix(state, FARNKUPPEL_STATE_WORDS, head.serial, 500, 0, -100, answer, FARNKUPPEL_ANSWER_WORDS, command,
                   FARNKUPPEL_COMMAND_NUMBERS);
    struct farnkuppel_progress progress = farnkuppel_progress_of(state, FARNKUPPEL_STATE_WORDS);
    printf("%s, index %" PRIu32 ", ", farnkuppel_refusal_name(farnkuppel_answer_of(answer, FARNKUPPEL_ANSWER_WORDS).refusal), progress.index);
    show_command(farnkuppel_command_of(answer, FARNKUPPEL_ANSWER_WORDS, command, FARNKUPPEL_COMMAND_NUMBERS));
}

int main(int count, char **words)
{
    int32_t state[FARNKUPPEL_STATE_WORDS];
    uint32_t answer[FARNKUPPEL_LOAD_WORDS];
    for (int i = 1; i < count; i++) {
        size_t length = read_file(words[i]);
        if (farnkuppel_load(file, length, FARNKUPPEL_NEWEST, state, FARNKUPPEL_STATE_WORDS, answer, FARNKUPPEL_LOAD_WORDS))
            return 1;
        fly(state);
    }
    return farnkuppel_interface() == FARNKUPPEL_INTERFACE ? 0 : 1;
}
