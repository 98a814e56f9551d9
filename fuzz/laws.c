#include "laws.h"

#include "lent.h"

#include <math.h>
#include <stdlib.h>
#include <string.h>

#define HEADER 11
#define NOTE 128

static const int32_t empty[FARNKUPPEL_STATE_WORDS];
static const double circle = 6.283185307179586; /* in radians */

static int same_state(const int32_t *a, const int32_t *b)
{
    return memcmp(a, b, STATE_BYTES) == 0;
}

/* Alike but for index, phase and finished. */
static int same_plan(const int32_t *a, const int32_t *b)
{
    int32_t moved[FARNKUPPEL_STATE_WORDS];
    memcpy(moved, a, sizeof moved);
    for (int word = FARNKUPPEL_STATE_INDEX; word <= FARNKUPPEL_STATE_FINISHED; word++)
        moved[word] = b[word];
    return same_state(moved, b);
}

static int at_start(const int32_t *state)
{
    return state[FARNKUPPEL_STATE_INDEX] == 2 && state[FARNKUPPEL_STATE_PHASE] == 1 && state[FARNKUPPEL_STATE_FINISHED] == 0;
}

int32_t part_of(const int32_t *state, int32_t point, int part)
{
    static const int blocks[] = {FARNKUPPEL_STATE_NORTHS, FARNKUPPEL_STATE_EASTS, FARNKUPPEL_STATE_DOWNS};
    return state[blocks[part] + point - 1];
}

/* A part of the leg to a point, from 2. */
static int32_t leg_to(const int32_t *state, int32_t point, int part)
{
    return part_of(state, point, part) - part_of(state, point - 1, part);
}

/* ---- loads */

/* "A refused load gives number, place and the empty state", and its place by the table. */
static void place_law(struct file file, const struct load *load)
{
    uint32_t number = load->result, place = load->answer[FARNKUPPEL_LOAD_PLACE];
    HOLD(number <= FARNKUPPEL_REFUSED_SHORT_LEG || number == FARNKUPPEL_REFUSED_NO_CASE);
    HOLD(number == FARNKUPPEL_ACCEPTED ? at_start(load->state) : same_state(load->state, empty));
    if (number == FARNKUPPEL_REFUSED_WRONG_RECORD || number == FARNKUPPEL_REFUSED_TOO_NEW)
        HOLD(place >= HEADER && place < file.length);
    else if (number >= FARNKUPPEL_REFUSED_EQUAL_NEIGHBOURS)
        HOLD(place >= 2 && place <= FARNKUPPEL_MOST_POINTS);
    else
        HOLD(place == 0);
}

struct load load_laws(struct file file, uint32_t reader)
{
    struct load newest = load_of(file, FARNKUPPEL_NEWEST);
    place_law(file, &newest);
    for (uint32_t older = 1; older < FARNKUPPEL_NEWEST; older++) {
        struct load load = load_of(file, older);
        place_law(file, &load);
        /* "refuses it as too new exactly when .. Otherwise it loads it, to the same state" */
        if (newest.result == FARNKUPPEL_ACCEPTED && load.result != FARNKUPPEL_REFUSED_TOO_NEW)
            HOLD(load.result == FARNKUPPEL_ACCEPTED && same_state(load.state, newest.state));
    }
    if (reader < 1 || reader > FARNKUPPEL_NEWEST) {
        struct load load = load_of(file, reader);
        HOLD(load.result == FARNKUPPEL_REFUSED_NO_VERSION && load.answer[FARNKUPPEL_LOAD_PLACE] == 0 && same_state(load.state, empty));
    }
    return newest;
}

/* ---- notes: "a part of the caller's file, by its number from 1" */

static void one_note(struct file file, uint32_t number, const uint8_t *body, size_t length)
{
    struct note note = note_of(file, number);
    HOLD(note.length == length);
    HOLD(length == 0 || memcmp(note.bytes, body, length) == 0);
}

void note_laws(struct file file, int loads, uint32_t asked)
{
    uint32_t seen = 0;
    for (size_t at = HEADER; loads && at < file.length; at += 2 + file.bytes[at + 1]) {
        HOLD(at + 2 + file.bytes[at + 1] <= file.length);
        if (file.bytes[at] == NOTE && ++seen <= 8)
            one_note(file, seen, file.bytes + at + 2, file.bytes[at + 1]);
    }
    HOLD(count_of(file) == seen);
    one_note(file, 0, NULL, 0);
    one_note(file, seen + 1, NULL, 0);
    if (asked > seen)
        one_note(file, asked, NULL, 0);
}

/* ---- writes: "what is written at a version that can carry it loads again, by every reader of that version or later, as that plan" */

static void comes_back(const int32_t *state, const struct written *written, uint32_t version)
{
    struct file file = {written->bytes, written->answer[FARNKUPPEL_WRITE_LENGTH]};
    for (uint32_t reader = version; reader <= FARNKUPPEL_NEWEST; reader++) {
        struct load load = load_of(file, reader);
        HOLD(load.result == FARNKUPPEL_ACCEPTED && at_start(load.state) && same_plan(load.state, state));
    }
    HOLD(write_of(state, version, file.length).result == FARNKUPPEL_ACCEPTED);
    HOLD(write_of(state, version, file.length - 1).result == FARNKUPPEL_REFUSED_NO_ROOM);
}

void write_laws(const int32_t *state, uint32_t version, size_t less)
{
    struct written written = write_of(state, version, MOST_ROOM - less % (MOST_ROOM + 1));
    uint32_t number = written.result;
    HOLD(number == FARNKUPPEL_ACCEPTED || number == FARNKUPPEL_REFUSED_NO_VERSION || number == FARNKUPPEL_REFUSED_TOO_NEW
         || number == FARNKUPPEL_REFUSED_NO_STATE || number == FARNKUPPEL_REFUSED_NO_ROOM);
    if (number != FARNKUPPEL_REFUSED_NO_STATE)
        HOLD((number == FARNKUPPEL_REFUSED_NO_VERSION) == (version < 1 || version > FARNKUPPEL_NEWEST));
    if (number == FARNKUPPEL_REFUSED_TOO_NEW)
        HOLD(version <= (uint32_t)state[FARNKUPPEL_STATE_MODE]);
    if (number == FARNKUPPEL_ACCEPTED)
        comes_back(state, &written, version);
}

/* ---- strips: "points 1 and 2, 3 and 4 and so on are strips" */

static int32_t course_of(const int32_t *state, int32_t point)
{
    return state[FARNKUPPEL_STATE_COURSES + point - 1];
}

static int equal_courses(const int32_t *state, int32_t strip)
{
    return course_of(state, 2 * strip - 1) == course_of(state, 2 * strip);
}

/* Their difference, which is less than a circle, is a half circle, modulo a whole one. */
static int opposite_courses(const int32_t *state, int32_t strip)
{
    return abs(course_of(state, 2 * strip) - course_of(state, 2 * strip - 2)) == FARNKUPPEL_CIRCLE / 2;
}

static int32_t leg_part(const int32_t *state, int32_t strip, int part)
{
    return leg_to(state, 2 * strip, part);
}

/* How far the leg points to the right of the strip's course: from 0 to a unit where the course is its bearing. In doubles; the table of directions
 * is rounded too, by less than 0.03 of a unit. */
static double right_of_course(const int32_t *state, int32_t strip)
{
    double radians = atan2(leg_part(state, strip, 1), leg_part(state, strip, 0));
    return remainder(radians * (FARNKUPPEL_CIRCLE / circle) - course_of(state, 2 * strip), FARNKUPPEL_CIRCLE);
}

static int may_be_bearing(const int32_t *state, int32_t strip)
{
    double right = right_of_course(state, strip);
    return right > -0.03 && right < 1.03;
}

static int is_bearing(const int32_t *state, int32_t strip)
{
    double right = right_of_course(state, strip);
    return right > 0.03 && right < 0.97;
}

/* A strip that is not at fault. */
static void kept_law(const int32_t *state, int32_t strip)
{
    HOLD(equal_courses(state, strip));
    HOLD(may_be_bearing(state, strip));
    HOLD(strip == 1 || opposite_courses(state, strip));
}

/* The strip at fault, by the first rule that it breaks. */
static void fault_law(const int32_t *state, int32_t strip, uint32_t rule)
{
    HOLD((rule == FARNKUPPEL_RULE_EQUAL) == !equal_courses(state, strip));
    if (rule == FARNKUPPEL_RULE_BEARING)
        HOLD(!is_bearing(state, strip));
    if (rule == FARNKUPPEL_RULE_OPPOSITE)
        HOLD(may_be_bearing(state, strip) && strip > 1 && !opposite_courses(state, strip));
}

/* "18, place is the strip, or 0, rule 0, where the plan isn't Dubins or has an odd number of points" */
static void not_strips_law(const int32_t *state, uint32_t place, uint32_t rule)
{
    int32_t count = state[FARNKUPPEL_STATE_COUNT], strip = (int32_t)place;
    int none = state[FARNKUPPEL_STATE_MODE] != FARNKUPPEL_MODE_DUBINS || count % 2;
    HOLD(place <= (uint32_t)count / 2 && (place == 0) == none);
    HOLD(rule <= FARNKUPPEL_RULE_OPPOSITE && (rule == FARNKUPPEL_RULE_NONE) == none);
    for (int32_t before = 1; before < strip; before++)
        kept_law(state, before);
    if (strip)
        fault_law(state, strip, rule);
}

/* "strip number, course and length in north and east by root" */
static void row_law(const int32_t *state, uint32_t strips, uint32_t number)
{
    static const uint32_t none[FARNKUPPEL_STRIP_WORDS];
    struct strip strip = strip_of(state, number);
    if (number < 1 || number > strips) {
        HOLD(memcmp(strip.answer, none, sizeof none) == 0);
        return;
    }
    int64_t north = leg_part(state, (int32_t)number, 0), east = leg_part(state, (int32_t)number, 1);
    int64_t length = strip.answer[FARNKUPPEL_STRIP_LENGTH], square = north * north + east * east;
    HOLD(strip.answer[FARNKUPPEL_STRIP_NUMBER] == number);
    HOLD(strip.answer[FARNKUPPEL_STRIP_COURSE] == (uint32_t)course_of(state, 2 * (int32_t)number));
    HOLD(length * length <= square && square < (length + 1) * (length + 1));
}

struct strips strips_laws(const int32_t *state, uint32_t asked)
{
    struct strips found = strips_of(state);
    uint32_t number = found.result, place = found.answer[FARNKUPPEL_STRIPS_PLACE], rule = found.answer[FARNKUPPEL_STRIPS_RULE];
    uint32_t strips = found.answer[FARNKUPPEL_STRIPS_COUNT];
    HOLD(number == FARNKUPPEL_ACCEPTED || number == FARNKUPPEL_REFUSED_NO_STATE || number == FARNKUPPEL_REFUSED_NOT_STRIPS);
    uint32_t written = write_of(state, FARNKUPPEL_NEWEST, MOST_ROOM).result;
    HOLD((number == FARNKUPPEL_REFUSED_NO_STATE) == (written == FARNKUPPEL_REFUSED_NO_STATE));
    if (number == FARNKUPPEL_REFUSED_NOT_STRIPS)
        not_strips_law(state, place, rule);
    else
        HOLD(place == 0 && rule == FARNKUPPEL_RULE_NONE);
    HOLD(strips == (number == FARNKUPPEL_ACCEPTED ? (uint32_t)state[FARNKUPPEL_STATE_COUNT] / 2 : 0));
    for (uint32_t strip = 1; strip <= strips; strip++)
        kept_law(state, (int32_t)strip);
    for (uint32_t strip = 0; strip <= strips + 1; strip++)
        row_law(state, strips, strip);
    row_law(state, strips, asked);
    return found;
}

/* ---- distances: "for each index the length from there to the end" */

/* "lines: roots in north and east" */
static void line_law(const int32_t *state, int32_t point, int64_t length)
{
    int64_t north = leg_to(state, point, 0), east = leg_to(state, point, 1), square = north * north + east * east;
    HOLD(length * length <= square && square < (length + 1) * (length + 1));
}

static double level_length(const int32_t *state, int32_t point)
{
    return hypot(leg_to(state, point, 0), leg_to(state, point, 1));
}

/* The lesser way round at a corner in radians; none at the first and the last point. */
static double turn_at(const int32_t *state, int32_t point)
{
    if (point < 2 || point >= state[FARNKUPPEL_STATE_COUNT])
        return 0;
    double before = atan2(leg_to(state, point, 1), leg_to(state, point, 0));
    double after = atan2(leg_to(state, point + 1, 1), leg_to(state, point + 1, 0));
    return fabs(remainder(after - before, circle));
}

/* "each leg's root less the T of each of its own corners, plus the arc" of the one that it leads to. In doubles; a turn is the difference of two
 * bearings, each of which is up to a unit below its leg, and so up to 1.06 units off. */
static void fillet_law(const int32_t *state, int32_t point, double length)
{
    const double off = 1.2 * circle / FARNKUPPEL_CIRCLE, radius = state[FARNKUPPEL_STATE_RADIUS];
    double before = turn_at(state, point - 1), after = turn_at(state, point);
    double taken = tan(before / 2) + tan(after / 2), most_taken = tan((before + off) / 2) + tan((after + off) / 2);
    double expected = level_length(state, point) + radius * (after - taken);
    HOLD(fabs(length - expected) < 4 + radius * (most_taken - taken + off));
}

/* No path is shorter than the leg; the one by right circles is longer by two of their radii and two circles at the most. Centres are rounded, and
 * each turn is up to a unit off. */
static void dubins_law(const int32_t *state, int32_t point, double length)
{
    const double radius = state[FARNKUPPEL_STATE_RADIUS], off = 10 + radius * 0.005;
    double longer = length - level_length(state, point);
    HOLD(longer > -off && longer < off + radius * (2 + 2 * circle));
}

/* What the table has at a point, and not at the next. */
static void leg_law(const int32_t *state, int32_t point, int64_t length)
{
    int32_t mode = state[FARNKUPPEL_STATE_MODE];
    HOLD(length >= 0);
    if (mode == FARNKUPPEL_MODE_LINES)
        line_law(state, point, length);
    if (mode == FARNKUPPEL_MODE_FILLETS)
        fillet_law(state, point, (double)length);
    if (mode == FARNKUPPEL_MODE_DUBINS)
        dubins_law(state, point, (double)length);
}

/* "16 where the lent table has under N+1 entries", and 14 before it; the entries of a table that is taken are those of the longest. */
static void room_law(const int32_t *state, const struct distances *longest, size_t entries)
{
    struct distances found = distances_of(state, entries);
    int taken = longest->result == FARNKUPPEL_ACCEPTED && entries > (size_t)state[FARNKUPPEL_STATE_COUNT];
    if (taken)
        HOLD(memcmp(&found, longest, sizeof found) == 0);
    else
        HOLD(found.result == (longest->result ? longest->result : FARNKUPPEL_REFUSED_NO_ROOM));
}

/* A table that was made, and what is left at the state. */
static void table_law(const int32_t *state, const struct distances *found, uint32_t left)
{
    int32_t count = state[FARNKUPPEL_STATE_COUNT], index = state[FARNKUPPEL_STATE_INDEX];
    HOLD(index >= 2 && index <= count);
    HOLD(left == found->table[index]);
    for (int32_t point = 2; point <= count; point++)
        leg_law(state, point, (int64_t)found->table[point] - (point < count ? found->table[point + 1] : 0));
    room_law(state, found, (size_t)count);
    room_law(state, found, (size_t)count + 1);
}

struct distances distances_laws(const int32_t *state, uint32_t entries)
{
    struct distances found = distances_of(state, FARNKUPPEL_TABLE_ENTRIES);
    struct distance at = distance_of(state);
    uint32_t left = at.answer[FARNKUPPEL_DISTANCE_LEFT], written = write_of(state, FARNKUPPEL_NEWEST, MOST_ROOM).result;
    HOLD(found.result == (written == FARNKUPPEL_REFUSED_NO_STATE ? written : FARNKUPPEL_ACCEPTED));
    HOLD(at.result == found.result);
    if (found.result == FARNKUPPEL_ACCEPTED)
        table_law(state, &found, left);
    else
        HOLD(left == 0);
    room_law(state, &found, entries % (FARNKUPPEL_TABLE_ENTRIES + 1));
    return found;
}

/* ---- fixes */

/* 13: "a fix is NaN, infinite, or beyond 50,000 m (down 10,000 m)" */
static int is_position(const float *p)
{
    return fabsf(p[0]) <= FARNKUPPEL_FIX_LEVEL && fabsf(p[1]) <= FARNKUPPEL_FIX_LEVEL && fabsf(p[2]) <= FARNKUPPEL_FIX_DOWN;
}

/* "refused, it gives no command, heading 0, and the given state's index, phase and finished" */
static void refused_law(const int32_t *state, uint32_t serial, const float *position, const struct fix *fix)
{
    static const uint32_t none[FARNKUPPEL_COMMAND_NUMBERS];
    uint32_t number = fix->result;
    HOLD(same_state(fix->state, state));
    HOLD(fix->answer[FARNKUPPEL_ANSWER_KIND] == FARNKUPPEL_COMMAND_NONE && fix->answer[FARNKUPPEL_ANSWER_SENSE] == FARNKUPPEL_SENSE_NONE);
    HOLD(fix->answer[FARNKUPPEL_ANSWER_HEADING] == 0);
    HOLD(memcmp(fix->command, none, sizeof none) == 0);
    HOLD(number == FARNKUPPEL_REFUSED_NO_POSITION || number == FARNKUPPEL_REFUSED_NO_STATE || number == FARNKUPPEL_REFUSED_OTHER_SERIAL);
    if (number == FARNKUPPEL_REFUSED_OTHER_SERIAL)
        HOLD(serial != (uint32_t)state[FARNKUPPEL_STATE_SERIAL]);
    if (number == FARNKUPPEL_REFUSED_NO_POSITION)
        HOLD(serial == (uint32_t)state[FARNKUPPEL_STATE_SERIAL] && !is_position(position));
}

static int within(int32_t value, int32_t most)
{
    return value >= -most && value <= most;
}

/* 14: no fix is accepted where a word is out of its range. */
static void words_taken(const int32_t *state)
{
    int32_t mode = state[FARNKUPPEL_STATE_MODE], count = state[FARNKUPPEL_STATE_COUNT], radius = state[FARNKUPPEL_STATE_RADIUS];
    HOLD(mode >= FARNKUPPEL_MODE_LINES && mode <= FARNKUPPEL_MODE_DUBINS);
    HOLD(mode == FARNKUPPEL_MODE_LINES ? radius == 0 : radius >= 50 && radius <= 10000);
    HOLD(count >= FARNKUPPEL_FEWEST_POINTS && count <= FARNKUPPEL_MOST_POINTS);
    for (int32_t point = 1; point <= FARNKUPPEL_MOST_POINTS; point++) {
        int used = point <= count;
        int32_t course = state[FARNKUPPEL_STATE_COURSES + point - 1];
        HOLD(within(part_of(state, point, 0), used * 500000) && within(part_of(state, point, 1), used * 500000));
        HOLD(within(part_of(state, point, 2), used * 100000));
        HOLD(course >= 0 && course <= (used && mode == FARNKUPPEL_MODE_DUBINS ? 4095 : 0));
    }
}

/* ---- the end of a flight: lines and fillets run to point N, and the last leg has no corner behind it */

static int on_last_leg(const int32_t *state)
{
    return state[FARNKUPPEL_STATE_INDEX] == state[FARNKUPPEL_STATE_COUNT];
}

static int32_t last_phase(const int32_t *state)
{
    if (state[FARNKUPPEL_STATE_MODE] == FARNKUPPEL_MODE_DUBINS)
        return FARNKUPPEL_PHASE_DUBINS_END_LAST;
    int circles = state[FARNKUPPEL_STATE_MODE] == FARNKUPPEL_MODE_FILLETS && !on_last_leg(state);
    return circles ? FARNKUPPEL_PHASE_FILLETS_CIRCLE : FARNKUPPEL_PHASE_LINES_LINE;
}

static int at_end(const int32_t *state)
{
    return on_last_leg(state) && state[FARNKUPPEL_STATE_PHASE] == last_phase(state);
}

/* 14: no fix is accepted at a place that the mode lacks, nor on a state that is finished before its last place. */
static void place_taken(const int32_t *state)
{
    HOLD(state[FARNKUPPEL_STATE_INDEX] >= 2 && state[FARNKUPPEL_STATE_INDEX] <= state[FARNKUPPEL_STATE_COUNT]);
    HOLD(state[FARNKUPPEL_STATE_PHASE] >= 1 && state[FARNKUPPEL_STATE_PHASE] <= last_phase(state));
    HOLD(!state[FARNKUPPEL_STATE_FINISHED] || at_end(state));
}

static uint32_t metres_bits(int32_t decimetres)
{
    float metres = (float)decimetres / 10.0f;
    uint32_t bits;
    memcpy(&bits, &metres, sizeof bits);
    return bits;
}

/* Lines and fillets are led along the leg from point N-1 to N, from the first to the last number of the command. */
static void last_leg_law(const int32_t *state, const struct fix *fix)
{
    int32_t count = state[FARNKUPPEL_STATE_COUNT];
    HOLD(fix->answer[FARNKUPPEL_ANSWER_KIND] == FARNKUPPEL_COMMAND_LINE);
    for (int part = 0; part < 3; part++) {
        int32_t start = part_of(state, count - 1, part), end = part_of(state, count, part);
        HOLD(fix->command[FARNKUPPEL_LINE_START_NORTH + part] == metres_bits(start));
        HOLD(fix->command[FARNKUPPEL_LINE_DIRECTION_NORTH + part] == metres_bits(end - start));
    }
}

/* A fix at the last point ends a flight that has come to its last phase. */
static void end_law(const int32_t *state)
{
    float there[3];
    for (int part = 0; part < 3; part++)
        there[part] = (float)part_of(state, state[FARNKUPPEL_STATE_COUNT], part) / 10.0f;
    struct fix fix = fix_of(state, (uint32_t)state[FARNKUPPEL_STATE_SERIAL], there);
    HOLD(fix.result == FARNKUPPEL_ACCEPTED && fix.state[FARNKUPPEL_STATE_FINISHED] == 1);
}

/* "at most one phase change follows"; finished is set at the last place, where nothing else moves, and stays set. */
static void moved_law(const int32_t *before, const int32_t *after)
{
    uint32_t index = (uint32_t)after[FARNKUPPEL_STATE_INDEX] - (uint32_t)before[FARNKUPPEL_STATE_INDEX];
    uint32_t phase = (uint32_t)after[FARNKUPPEL_STATE_PHASE] - (uint32_t)before[FARNKUPPEL_STATE_PHASE];
    HOLD(same_plan(before, after));
    HOLD((index == 0 && phase <= 1) || (index == 1 && after[FARNKUPPEL_STATE_PHASE] == 1));
    HOLD(after[FARNKUPPEL_STATE_FINISHED] >= before[FARNKUPPEL_STATE_FINISHED]);
    if (after[FARNKUPPEL_STATE_FINISHED])
        HOLD(index == 0 && phase == 0 && at_end(before));
    if (before[FARNKUPPEL_STATE_FINISHED])
        HOLD(same_state(before, after));
}

/* No number of a command is NaN, infinite or -0.0. */
static void command_law(const struct fix *fix)
{
    uint32_t kind = fix->answer[FARNKUPPEL_ANSWER_KIND], sense = fix->answer[FARNKUPPEL_ANSWER_SENSE];
    int turns = sense == FARNKUPPEL_SENSE_CLOCKWISE || sense == FARNKUPPEL_SENSE_ANTICLOCKWISE;
    HOLD((kind == FARNKUPPEL_COMMAND_LINE && sense == FARNKUPPEL_SENSE_NONE) || (kind == FARNKUPPEL_COMMAND_CIRCLE && turns));
    HOLD(fix->answer[FARNKUPPEL_ANSWER_HEADING] < FARNKUPPEL_CIRCLE);
    for (int i = 0; i < FARNKUPPEL_COMMAND_NUMBERS; i++)
        HOLD((fix->command[i] >> 23 & 0xFF) != 0xFF && fix->command[i] != 0x80000000);
}

struct fix fix_laws(const int32_t *state, uint32_t serial, const float *position)
{
    struct fix fix = fix_of(state, serial, position);
    const int32_t *progress = fix.state + FARNKUPPEL_STATE_INDEX;
    HOLD(fix.answer[FARNKUPPEL_ANSWER_PLACE] == 0);
    HOLD(memcmp(fix.answer + FARNKUPPEL_ANSWER_INDEX, progress, 3 * sizeof *progress) == 0);
    if (fix.result != FARNKUPPEL_ACCEPTED) {
        refused_law(state, serial, position, &fix);
    } else {
        HOLD(serial == (uint32_t)state[FARNKUPPEL_STATE_SERIAL] && is_position(position));
        words_taken(state);
        place_taken(state);
        moved_law(state, fix.state);
        command_law(&fix);
        if (on_last_leg(state) && state[FARNKUPPEL_STATE_MODE] != FARNKUPPEL_MODE_DUBINS)
            last_leg_law(state, &fix);
        if (at_end(state))
            end_law(state);
    }
    return fix;
}
