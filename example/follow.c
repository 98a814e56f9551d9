/* Flies a simulated aircraft along a plan file: the way an autopilot calls the path manager.
 *
 *     follow PLAN
 *
 * The aircraft keeps its speed and turns at a limited rate toward the heading that each fix is answered. To standard output goes a line with the
 * metres to go at the start; then a line a second: seconds, north, east and down in metres, heading in degrees, index and phase; then one line on
 * how the flight ended. */
#include "farnkuppel.h"

#include <inttypes.h>
#include <math.h>
#include <stdio.h>

#define SPEED 25.0            /* metres a second */
#define TURN 0.6              /* radians a second, at most */
#define FIXES_A_SECOND 10
#define MOST_SECONDS 3600
#define MOST_FILE (FARNKUPPEL_FILE_BYTES + 1) /* so that a file that is too long is seen to be */

static const double circle = 6.283185307179586;

struct aircraft {
    double north, east, down; /* metres */
    double heading;           /* radians, clockwise from north */
};

/* The turn that takes one heading to another the short way, in radians. */
static double turn_to(double from, double to)
{
    double turn = fmod(to - from, circle);
    if (turn > circle / 2)
        turn -= circle;
    if (turn < -circle / 2)
        turn += circle;
    return turn;
}

static void move(struct aircraft *plane, uint32_t wanted)
{
    double most = TURN / FIXES_A_SECOND;
    double turn = turn_to(plane->heading, wanted * circle / FARNKUPPEL_CIRCLE);
    if (turn > most)
        turn = most;
    if (turn < -most)
        turn = -most;
    plane->heading += turn;
    plane->north += SPEED / FIXES_A_SECOND * cos(plane->heading);
    plane->east += SPEED / FIXES_A_SECOND * sin(plane->heading);
}

/* Over the first point, heading for the second. */
static struct aircraft over_first_point(const int32_t *state)
{
    struct farnkuppel_decimetres first = farnkuppel_point_of(state, FARNKUPPEL_STATE_WORDS, 1);
    struct farnkuppel_decimetres second = farnkuppel_point_of(state, FARNKUPPEL_STATE_WORDS, 2);
    struct aircraft plane = {first.north / 10.0, first.east / 10.0, first.down / 10.0, 0};
    plane.heading = atan2(second.east - first.east, second.north - first.north);
    return plane;
}

/* How far is left from the start of the leg that is flown: of a plan that was just loaded, all of it. */
static void show_left(const int32_t *state)
{
    uint32_t answer[FARNKUPPEL_DISTANCE_WORDS];
    farnkuppel_distance(state, FARNKUPPEL_STATE_WORDS, answer, FARNKUPPEL_DISTANCE_WORDS);
    struct farnkuppel_distance_left left = farnkuppel_distance_left_of(answer, FARNKUPPEL_DISTANCE_WORDS);
    printf("%" PRIu32 ".%" PRIu32 " metres to go\n", left.decimetres / 10, left.decimetres % 10);
}

static void show(unsigned seconds, const struct aircraft *plane, const struct farnkuppel_answer *answer)
{
    double degrees = fmod(plane->heading, circle) * 360 / circle;
    if (degrees < 0)
        degrees += 360;
    printf("%u %.1f %.1f %.1f %.0f index %" PRIu32 " phase %" PRIu32 "\n", seconds, plane->north, plane->east, plane->down, degrees,
           answer->index, answer->phase);
}

/* One fix where the aircraft is. Its command, a line or a circle, is for autopilots that steer by one (farnkuppel_command_of); this one steers by
 * the heading. */
static struct farnkuppel_answer fix(int32_t *state, const struct aircraft *plane)
{
    uint32_t serial = farnkuppel_head_of(state, FARNKUPPEL_STATE_WORDS).serial;
    uint32_t answer[FARNKUPPEL_ANSWER_WORDS];
    float command[FARNKUPPEL_COMMAND_NUMBERS];
    farnkuppel_fix(state, FARNKUPPEL_STATE_WORDS, serial, (float)plane->north, (float)plane->east, (float)plane->down, answer,
                   FARNKUPPEL_ANSWER_WORDS, command, FARNKUPPEL_COMMAND_NUMBERS);
    return farnkuppel_answer_of(answer, FARNKUPPEL_ANSWER_WORDS);
}

/* Until the manager says finished, or refuses. */
static int follow(int32_t *state)
{
    struct aircraft plane = over_first_point(state);
    struct farnkuppel_answer answer = {0, 0, 0, 0, 0};

    for (unsigned fixes = 0; fixes < MOST_SECONDS * FIXES_A_SECOND; fixes++) {
        answer = fix(state, &plane);
        if (answer.refusal) {
            printf("fix refused %" PRIu32 ": %s\n", answer.refusal, farnkuppel_refusal_name(answer.refusal));
            return 1;
        }
        if (fixes % FIXES_A_SECOND == 0)
            show(fixes / FIXES_A_SECOND, &plane, &answer);
        if (answer.finished)
            break;
        move(&plane, answer.heading);
    }
    printf("finished %" PRIu32 " index %" PRIu32 " phase %" PRIu32 "\n", answer.finished, answer.index, answer.phase);
    return answer.finished ? 0 : 1;
}

/* The bytes of a file, and how many; -1 where it cannot be read. */
static long read_file(const char *name, uint8_t *bytes, size_t room)
{
    FILE *plan = fopen(name, "rb");
    if (!plan)
        return -1;
    size_t length = fread(bytes, 1, room, plan);
    int failed = ferror(plan);
    fclose(plan);
    return failed ? -1 : (long)length;
}

int main(int count, char **words)
{
    static uint8_t file[MOST_FILE];
    int32_t state[FARNKUPPEL_STATE_WORDS];
    uint32_t answer[FARNKUPPEL_LOAD_WORDS];

    if (farnkuppel_interface() != FARNKUPPEL_INTERFACE) {
        fprintf(stderr, "follow: the archive has another interface than its header\n");
        return 2;
    }
    if (count != 2) {
        fprintf(stderr, "usage: follow PLAN\n");
        return 2;
    }
    long length = read_file(words[1], file, sizeof file);
    if (length < 0) {
        fprintf(stderr, "follow: cannot read %s\n", words[1]);
        return 2;
    }
    uint32_t refusal =
        farnkuppel_load(file, (size_t)length, FARNKUPPEL_NEWEST, state, FARNKUPPEL_STATE_WORDS, answer, FARNKUPPEL_LOAD_WORDS);
    if (refusal) {
        printf("refused %" PRIu32 " at %" PRIu32 ": %s\n", refusal, answer[FARNKUPPEL_LOAD_PLACE], farnkuppel_refusal_name(refusal));
        return 1;
    }
    show_left(state);
    return follow(state);
}
