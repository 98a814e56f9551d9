/* The path manager, for C99 and C++.
 *
 * libautopilot.a has load, fix, write and the distance to go; libdesk.a has the refusal of a file, its notes, and the strips of a plan.
 * tools/archives makes both, in target/staticlib, and tools/install puts them with this header under a prefix.
 *
 * Both are for x86-64 under Linux, by the System V calling convention. They need memset, as the C library has it, and no other symbol.
 *
 * Every function of theirs answers a refusal number, 0 for none, whatever it is given; farnkuppel_interface alone answers something else. It
 * reads and writes the memory that it is lent, up to the lengths that it is told, and no other; it keeps nothing between calls and uses no heap.
 * What each one writes is said below and is proved. What is `static inline` here is plain C that reads words: it is tested, not proved.
 *
 * Memory is lent as a slice, by two arguments: a pointer, and the number of its elements (not of bytes) as a size_t. A state, an answer, a
 * command or a note's buffer that is shorter than it has to be is refused FARNKUPPEL_REFUSED_MISFIT before anything else is looked at, and then
 * nothing at all is written. A slice may be longer: the rest of it stays as it is. Slices of one call must not overlap.
 * The pointer may be NULL where the length is 0. Such a slice is answered as any other of that length: as a state, an answer, a command or a
 * note's buffer it is too short, as a file that is read it has under 11 bytes, and as a file or a table that is written it has no room. */
#ifndef FARNKUPPEL_H
#define FARNKUPPEL_H

#include <stddef.h>
#include <stdint.h>

#ifdef __cplusplus
extern "C" {
#endif

/* The release of the whole, archives, programs and pages: the only place of its number. CHANGELOG.md says what the three numbers mean and what each
 * release brought. The number of the interface is another thing, and most releases keep it. */
#define FARNKUPPEL_RELEASE "2.3.2"

/* The number of this interface. It grows whenever a word moves or a function changes; the first interface had none. An archive answers its own by
 * farnkuppel_interface: where that is another number, nothing below holds of the archive. */
#define FARNKUPPEL_INTERFACE 2

/* ---- sizes and ranges */

/* The newest version of plan files. Readers have versions 1 to this one, and files are written at these. */
#define FARNKUPPEL_NEWEST 3

/* Courses and headings: so many to a circle, clockwise from north. */
#define FARNKUPPEL_CIRCLE 4096

/* The points of a plan. */
#define FARNKUPPEL_FEWEST_POINTS 3
#define FARNKUPPEL_MOST_POINTS 64

/* The longest file that can load: 11 bytes of header and 8,192 of records. */
#define FARNKUPPEL_FILE_BYTES 8203

/* The longest file that is written: the header, a radius (4 bytes), and 64 points (14 bytes each) with a course each (4). A buffer of this length
 * has room for every plan. */
#define FARNKUPPEL_WRITTEN_BYTES 1167

/* The most bytes that a note has. */
#define FARNKUPPEL_NOTE_BYTES 32

/* The entries of a table of distances for the longest plan: one for each index, counted from 0. A table of this length has room for every plan. */
#define FARNKUPPEL_TABLE_ENTRIES 65

/* A fix is in metres and lies from minus to plus this, both included: north and east, and down. */
#define FARNKUPPEL_FIX_LEVEL 50000
#define FARNKUPPEL_FIX_DOWN 10000

/* The stack that a call takes at the most, in bytes, whatever the plan: with its return address and that of memset, but without what memset takes
 * for itself. An argument that the caller puts on the stack counts as the caller's. tests/stack works the numbers out. */
#define FARNKUPPEL_STACK_INTERFACE 8
#define FARNKUPPEL_STACK_LOAD 560
#define FARNKUPPEL_STACK_FIX 1408
#define FARNKUPPEL_STACK_WRITE 624
#define FARNKUPPEL_STACK_DISTANCES 800
#define FARNKUPPEL_STACK_DISTANCE 800
#define FARNKUPPEL_STACK_REFUSAL 1632
#define FARNKUPPEL_STACK_CHECK 1632
#define FARNKUPPEL_STACK_NOTE 1664
#define FARNKUPPEL_STACK_NOTES 1648
#define FARNKUPPEL_STACK_STRIPS 528
#define FARNKUPPEL_STACK_STRIP 528

/* ---- refusals */

/* A row for each refusal: its number, its name and the same in words; above the row when it is given, and the place that the answer has with it,
 * 0 where none is named. The first that applies is given. A load looks at the reader's version, then in the order of the numbers, at the records
 * one after the other for 6 and 7 and at the legs for 12 and 17; what is said of a load holds of farnkuppel_check too, and of farnkuppel_refusal,
 * which has no place. A fix looks for 14, 15, 13, a write for 14, 3, 7, 16, a check for strips for 14, 18, a table of distances for 14, 16, and
 * the distance at a state for 14. */
#define FARNKUPPEL_REFUSALS(ROW) \
    /* A load: the file has under 11 bytes. */ \
    ROW(1, FILE_TOO_SHORT, "file shorter than its header") \
    /* A load: the file does not begin with WPL. */ \
    ROW(2, NO_MARK, "file does not begin with WPL") \
    /* A load: the reader's version is none of 1 to 3, or the file's is 0. A write: the version is none of 1 to 3. */ \
    ROW(3, NO_VERSION, "no such version") \
    /* A load: the file's serial is 0. */ \
    ROW(4, NO_SERIAL, "serial is 0") \
    /* A load: the area length is not the number of bytes behind the header, or over 8,192. */ \
    ROW(5, WRONG_AREA, "wrong length of the record area") \
    /* A load: a record is cut short; has a wrong length, value or position for its kind; is newer than the file's version; or is of a kind that \
     * the reader does not know, in a file that is not newer than the reader. Place: the record's offset in the file. */ \
    ROW(6, WRONG_RECORD, "record wrong or cut short") \
    /* A load: a record that the reader does not know and may not leave out, in a newer file. Place: the record's offset in the file. \
     * A write: the plan needs a higher version. Place: 0. */ \
    ROW(7, TOO_NEW, "plan needs a higher version") \
    /* A load: under 3 points, or over 64. */ \
    ROW(8, POINT_COUNT, "too few or too many points") \
    /* A load: a course without a radius, or courses at some points only. */ \
    ROW(9, COURSE_COUNT, "courses without a radius, or not at every point") \
    /* A load: neighbouring points are equal in north and east. Place: the later point, from 1. */ \
    ROW(10, EQUAL_NEIGHBOURS, "neighbouring points are equal in north and east") \
    /* A load: in lines, legs that are exactly opposite; in fillets, a turn of more than 1,792. Place: the corner's point, from 1. */ \
    ROW(11, SHARP_CORNER, "corner too sharp") \
    /* A load: in fillets, a leg that is too short for the circles at its ends; in Dubins plans, one of under three radii in north and east. \
     * Place: the leg's end point, from 1. */ \
    ROW(12, SHORT_LEG, "leg too short for its turns") \
    /* A fix: a number is NaN or infinite, or beyond the ranges above. */ \
    ROW(13, NO_POSITION, "position out of range or not a number") \
    /* A fix, a write, a check for strips or a question for a distance: the words hold no state, or one that breaks a rule. */ \
    ROW(14, NO_STATE, "state is empty or breaks a rule") \
    /* A fix: the serial that it names is not the state's. */ \
    ROW(15, OTHER_SERIAL, "serial of another plan") \
    /* A write: the buffer is shorter than the file. A table of distances: it has under N + 1 entries, of a plan of N points. */ \
    ROW(16, NO_ROOM, "no room for the file or the table") \
    /* A load: there is no Dubins path for a leg. Place: the leg's end point, from 1. */ \
    ROW(17, NO_CASE, "no Dubins path for a leg") \
    /* A check for strips, and never a load: a strip breaks a rule. Place: the first strip that does, from 1. \
     * Or the plan is not Dubins, or has an odd number of points. Place: 0. */ \
    ROW(18, NOT_STRIPS, "no strip plan") \
    /* Any call: a lent slice that has a least length is shorter. Nothing is written, so there is no place. */ \
    ROW(100, MISFIT, "lent memory is too short")

/* The numbers: FARNKUPPEL_ACCEPTED, and FARNKUPPEL_REFUSED_ with the name of each row. */
#define FARNKUPPEL_NUMBER_ROW(number, name, text) , FARNKUPPEL_REFUSED_##name = number
enum farnkuppel_refusal_number {
    FARNKUPPEL_ACCEPTED = 0
    FARNKUPPEL_REFUSALS(FARNKUPPEL_NUMBER_ROW)
};
#undef FARNKUPPEL_NUMBER_ROW

/* A refusal in words: the text of its row, "accepted" for 0, and "unknown refusal" for a number that has no row. */
static inline const char *farnkuppel_refusal_name(uint32_t number)
{
#define FARNKUPPEL_TEXT_ROW(number, name, text) \
    case number: \
        return text;
    switch (number) {
        FARNKUPPEL_REFUSALS(FARNKUPPEL_TEXT_ROW)
    case FARNKUPPEL_ACCEPTED:
        return "accepted";
    default:
        return "unknown refusal";
    }
#undef FARNKUPPEL_TEXT_ROW
}

/* ---- a state */

/* Modes. */
#define FARNKUPPEL_MODE_LINES 0
#define FARNKUPPEL_MODE_FILLETS 1
#define FARNKUPPEL_MODE_DUBINS 2

/* Phases. Lines have one; fillets have the circle at a corner too, so not where the index is the count; Dubins plans have five on each leg. */
#define FARNKUPPEL_PHASE_LINES_LINE 1
#define FARNKUPPEL_PHASE_FILLETS_LINE 1
#define FARNKUPPEL_PHASE_FILLETS_CIRCLE 2
#define FARNKUPPEL_PHASE_DUBINS_START_FIRST 1 /* on the circle at the leg's start, until short of the place where it is left */
#define FARNKUPPEL_PHASE_DUBINS_START_LAST 2  /* on the same circle, until at that place */
#define FARNKUPPEL_PHASE_DUBINS_LINE 3        /* on the straight part, until at the place where the end's circle begins */
#define FARNKUPPEL_PHASE_DUBINS_END_FIRST 4   /* on the circle at the leg's end, until short of the end point */
#define FARNKUPPEL_PHASE_DUBINS_END_LAST 5    /* on the same circle, until at the end point */

/* A state: so many int32_t, at these places. The serial, the count and the index are the bits of a uint32_t.
 * The points' numbers lie in four blocks of FARNKUPPEL_MOST_POINTS words, point 1 first in each: norths, easts and downs in decimetres, and
 * courses. What lies past the count is 0, and so are all courses but those of Dubins plans.
 * The index is the number of the point that is flown to, from 2 to the count in every mode. Finished is set by a fix at the last point or past it
 * (lines: in three dimensions, fillets: in north and east, along the last leg; Dubins: along the last course), and then stays set. It is 1 only
 * at the last index and phase: the count and 1 in lines and fillets, the count and 5 in Dubins plans.
 * The empty state, which a refused load leaves, is all 0; a fix, a write, a check for strips or a question for a distance on it is refused.
 * Words that hold anything else are refused FARNKUPPEL_REFUSED_NO_STATE. Words that an archive of another interface filled are no state here,
 * even where they are not refused: load the plan again. */
#define FARNKUPPEL_STATE_WORDS 263
#define FARNKUPPEL_STATE_SERIAL 0
#define FARNKUPPEL_STATE_MODE 1
#define FARNKUPPEL_STATE_RADIUS 2      /* decimetres, 0 for none */
#define FARNKUPPEL_STATE_COUNT 3
#define FARNKUPPEL_STATE_INDEX 4
#define FARNKUPPEL_STATE_PHASE 5
#define FARNKUPPEL_STATE_FINISHED 6    /* 0 or 1 */
#define FARNKUPPEL_STATE_NORTHS 7
#define FARNKUPPEL_STATE_EASTS 71
#define FARNKUPPEL_STATE_DOWNS 135
#define FARNKUPPEL_STATE_COURSES 199

/* ---- answers: words are uint32_t, signed numbers in two's complement */

/* To a load. */
#define FARNKUPPEL_LOAD_WORDS 2
#define FARNKUPPEL_LOAD_REFUSAL 0
#define FARNKUPPEL_LOAD_PLACE 1

/* To a write. */
#define FARNKUPPEL_WRITE_WORDS 3
#define FARNKUPPEL_WRITE_REFUSAL 0
#define FARNKUPPEL_WRITE_PLACE 1
#define FARNKUPPEL_WRITE_LENGTH 2      /* of the file; 0 where the write is refused */

/* To a question for a table of distances. */
#define FARNKUPPEL_DISTANCES_WORDS 2
#define FARNKUPPEL_DISTANCES_REFUSAL 0
#define FARNKUPPEL_DISTANCES_PLACE 1   /* 0 for every table */

/* To a question for the distance at a state. */
#define FARNKUPPEL_DISTANCE_WORDS 3
#define FARNKUPPEL_DISTANCE_REFUSAL 0
#define FARNKUPPEL_DISTANCE_PLACE 1    /* 0 for every state */
#define FARNKUPPEL_DISTANCE_LEFT 2     /* decimetres to go; 0 where the question is refused */

/* To a check: what a load by that reader has there. */
#define FARNKUPPEL_CHECK_WORDS 2
#define FARNKUPPEL_CHECK_REFUSAL 0
#define FARNKUPPEL_CHECK_PLACE 1

/* To a count of notes. */
#define FARNKUPPEL_NOTES_WORDS 1
#define FARNKUPPEL_NOTES_COUNT 0       /* 0 where the newest reader refuses the file */

/* To a note. */
#define FARNKUPPEL_NOTE_WORDS 1
#define FARNKUPPEL_NOTE_LENGTH 0       /* of the note; 0 where there is none */

/* To a check for strips. */
#define FARNKUPPEL_STRIPS_WORDS 4
#define FARNKUPPEL_STRIPS_REFUSAL 0
#define FARNKUPPEL_STRIPS_PLACE 1      /* the first strip at fault, from 1; 0 where none is named */
#define FARNKUPPEL_STRIPS_RULE 2       /* the first that the strip at this place breaks; FARNKUPPEL_RULE_NONE where the place is 0 */
#define FARNKUPPEL_STRIPS_COUNT 3      /* of strips; 0 where the check is refused */

/* The rules that a strip keeps, in the order in which they are asked. */
#define FARNKUPPEL_RULE_NONE 0
#define FARNKUPPEL_RULE_EQUAL 1        /* its two courses are equal */
#define FARNKUPPEL_RULE_BEARING 2      /* they equal the bearing of its leg: the course from its first point to its second in north and east,
                                        * rounded down to a whole unit; the units' edges are a sine table's, each under 0.03 of a unit off */
#define FARNKUPPEL_RULE_OPPOSITE 3     /* they differ by 2048, modulo 4096, from those of the strip before; not asked of the first strip */

/* To a question for a strip: zeros where the plan is no strip plan, or has no such strip. */
#define FARNKUPPEL_STRIP_WORDS 3
#define FARNKUPPEL_STRIP_NUMBER 0
#define FARNKUPPEL_STRIP_COURSE 1
#define FARNKUPPEL_STRIP_LENGTH 2      /* in north and east, in whole decimetres, rounded down */

/* To a fix. Read the refusal first: a refused fix has no command, and its heading is 0, which is north as well. Its index, phase and finished are
 * those of the state as it stands. */
#define FARNKUPPEL_ANSWER_WORDS 8
#define FARNKUPPEL_ANSWER_REFUSAL 0
#define FARNKUPPEL_ANSWER_PLACE 1      /* 0 for every fix */
#define FARNKUPPEL_ANSWER_KIND 2       /* of the command */
#define FARNKUPPEL_ANSWER_SENSE 3      /* of a circle */
#define FARNKUPPEL_ANSWER_HEADING 4
#define FARNKUPPEL_ANSWER_INDEX 5
#define FARNKUPPEL_ANSWER_PHASE 6
#define FARNKUPPEL_ANSWER_FINISHED 7

/* Kinds of command. */
#define FARNKUPPEL_COMMAND_NONE 0
#define FARNKUPPEL_COMMAND_LINE 1
#define FARNKUPPEL_COMMAND_CIRCLE 2

/* Senses, as seen from above. */
#define FARNKUPPEL_SENSE_NONE 0u       /* the command is no circle */
#define FARNKUPPEL_SENSE_CLOCKWISE 1u
#define FARNKUPPEL_SENSE_ANTICLOCKWISE 0xFFFFFFFFu

/* The command of a fix: so many floats in metres, at places that depend on its kind. A line has its start and its direction, a circle its centre,
 * its radius and two zeros, no command six zeros. The direction of a line is the whole leg, but on the straight part of a Dubins leg its length
 * is about 1. */
#define FARNKUPPEL_COMMAND_NUMBERS 6
#define FARNKUPPEL_LINE_START_NORTH 0
#define FARNKUPPEL_LINE_START_EAST 1
#define FARNKUPPEL_LINE_START_DOWN 2
#define FARNKUPPEL_LINE_DIRECTION_NORTH 3
#define FARNKUPPEL_LINE_DIRECTION_EAST 4
#define FARNKUPPEL_LINE_DIRECTION_DOWN 5
#define FARNKUPPEL_CIRCLE_CENTRE_NORTH 0
#define FARNKUPPEL_CIRCLE_CENTRE_EAST 1
#define FARNKUPPEL_CIRCLE_CENTRE_DOWN 2
#define FARNKUPPEL_CIRCLE_RADIUS 3

/* ---- words as structs
 *
 * Nothing here calls an archive. Each function takes words as the calls below leave them, with the number of elements that there are, and reads none
 * beyond. Where there are too few, what it answers is 0, but for the refusal of an answer. */

/* A place or a direction in metres. */
struct farnkuppel_metres {
    float north, east, down;
};

/* A place in decimetres. */
struct farnkuppel_decimetres {
    int32_t north, east, down;
};

/* The answer to a fix. */
struct farnkuppel_answer {
    uint32_t refusal; /* FARNKUPPEL_REFUSED_MISFIT where there are too few words, so that these never look accepted */
    uint32_t heading;
    uint32_t index, phase, finished;
};

static inline struct farnkuppel_answer farnkuppel_answer_of(const uint32_t *answer, size_t answer_length)
{
    struct farnkuppel_answer found = {FARNKUPPEL_REFUSED_MISFIT, 0, 0, 0, 0};
    if (answer_length >= FARNKUPPEL_ANSWER_WORDS) {
        found.refusal = answer[FARNKUPPEL_ANSWER_REFUSAL];
        found.heading = answer[FARNKUPPEL_ANSWER_HEADING];
        found.index = answer[FARNKUPPEL_ANSWER_INDEX];
        found.phase = answer[FARNKUPPEL_ANSWER_PHASE];
        found.finished = answer[FARNKUPPEL_ANSWER_FINISHED];
    }
    return found;
}

/* The command of a fix. What its kind does not have is 0. */
struct farnkuppel_command {
    uint32_t kind;                             /* FARNKUPPEL_COMMAND_NONE, _LINE or _CIRCLE */
    struct farnkuppel_metres start, direction; /* of a line */
    struct farnkuppel_metres centre;           /* of a circle */
    float radius;                              /* of a circle, in metres */
    int sense;                                 /* of a circle, as seen from above: 1 clockwise, -1 anticlockwise */
};

/* From the answer, which has the kind and the sense, and the numbers of the command. A kind that is none of the three is FARNKUPPEL_COMMAND_NONE. */
static inline struct farnkuppel_command farnkuppel_command_of(const uint32_t *answer, size_t answer_length, const float *command,
                                                              size_t command_length)
{
    struct farnkuppel_command found = {FARNKUPPEL_COMMAND_NONE, {0, 0, 0}, {0, 0, 0}, {0, 0, 0}, 0, 0};
    if (answer_length < FARNKUPPEL_ANSWER_WORDS || command_length < FARNKUPPEL_COMMAND_NUMBERS)
        return found;
    if (answer[FARNKUPPEL_ANSWER_KIND] == FARNKUPPEL_COMMAND_LINE) {
        found.kind = FARNKUPPEL_COMMAND_LINE;
        found.start.north = command[FARNKUPPEL_LINE_START_NORTH];
        found.start.east = command[FARNKUPPEL_LINE_START_EAST];
        found.start.down = command[FARNKUPPEL_LINE_START_DOWN];
        found.direction.north = command[FARNKUPPEL_LINE_DIRECTION_NORTH];
        found.direction.east = command[FARNKUPPEL_LINE_DIRECTION_EAST];
        found.direction.down = command[FARNKUPPEL_LINE_DIRECTION_DOWN];
    }
    if (answer[FARNKUPPEL_ANSWER_KIND] == FARNKUPPEL_COMMAND_CIRCLE) {
        found.kind = FARNKUPPEL_COMMAND_CIRCLE;
        found.centre.north = command[FARNKUPPEL_CIRCLE_CENTRE_NORTH];
        found.centre.east = command[FARNKUPPEL_CIRCLE_CENTRE_EAST];
        found.centre.down = command[FARNKUPPEL_CIRCLE_CENTRE_DOWN];
        found.radius = command[FARNKUPPEL_CIRCLE_RADIUS];
        found.sense = (answer[FARNKUPPEL_ANSWER_SENSE] == FARNKUPPEL_SENSE_CLOCKWISE) -
                      (answer[FARNKUPPEL_ANSWER_SENSE] == FARNKUPPEL_SENSE_ANTICLOCKWISE);
    }
    return found;
}

/* The answer to a question for the distance at a state. */
struct farnkuppel_distance_left {
    uint32_t refusal; /* FARNKUPPEL_REFUSED_MISFIT where there are too few words, so that these never look accepted */
    uint32_t decimetres;
};

static inline struct farnkuppel_distance_left farnkuppel_distance_left_of(const uint32_t *answer, size_t answer_length)
{
    struct farnkuppel_distance_left found = {FARNKUPPEL_REFUSED_MISFIT, 0};
    if (answer_length >= FARNKUPPEL_DISTANCE_WORDS) {
        found.refusal = answer[FARNKUPPEL_DISTANCE_REFUSAL];
        found.decimetres = answer[FARNKUPPEL_DISTANCE_LEFT];
    }
    return found;
}

/* The answer to a check for strips. */
struct farnkuppel_strip_check {
    uint32_t refusal; /* FARNKUPPEL_REFUSED_MISFIT where there are too few words, so that these never look accepted */
    uint32_t place, rule;
    uint32_t count; /* of strips */
};

static inline struct farnkuppel_strip_check farnkuppel_strip_check_of(const uint32_t *answer, size_t answer_length)
{
    struct farnkuppel_strip_check found = {FARNKUPPEL_REFUSED_MISFIT, 0, 0, 0};
    if (answer_length >= FARNKUPPEL_STRIPS_WORDS) {
        found.refusal = answer[FARNKUPPEL_STRIPS_REFUSAL];
        found.place = answer[FARNKUPPEL_STRIPS_PLACE];
        found.rule = answer[FARNKUPPEL_STRIPS_RULE];
        found.count = answer[FARNKUPPEL_STRIPS_COUNT];
    }
    return found;
}

/* A strip of a strip plan; number 0 where there is none. */
struct farnkuppel_strip_row {
    uint32_t number, course;
    uint32_t length; /* in north and east, in decimetres */
};

static inline struct farnkuppel_strip_row farnkuppel_strip_row_of(const uint32_t *answer, size_t answer_length)
{
    struct farnkuppel_strip_row found = {0, 0, 0};
    if (answer_length >= FARNKUPPEL_STRIP_WORDS) {
        found.number = answer[FARNKUPPEL_STRIP_NUMBER];
        found.course = answer[FARNKUPPEL_STRIP_COURSE];
        found.length = answer[FARNKUPPEL_STRIP_LENGTH];
    }
    return found;
}

/* What a state says of the whole plan. */
struct farnkuppel_head {
    uint32_t serial;
    uint32_t mode;
    uint32_t radius; /* decimetres, 0 for none */
    uint32_t count;  /* of points */
};

static inline struct farnkuppel_head farnkuppel_head_of(const int32_t *state, size_t state_length)
{
    struct farnkuppel_head found = {0, 0, 0, 0};
    if (state_length >= FARNKUPPEL_STATE_WORDS) {
        found.serial = (uint32_t)state[FARNKUPPEL_STATE_SERIAL];
        found.mode = (uint32_t)state[FARNKUPPEL_STATE_MODE];
        found.radius = (uint32_t)state[FARNKUPPEL_STATE_RADIUS];
        found.count = (uint32_t)state[FARNKUPPEL_STATE_COUNT];
    }
    return found;
}

/* Where on the plan the aircraft is. */
struct farnkuppel_progress {
    uint32_t index, phase, finished;
};

static inline struct farnkuppel_progress farnkuppel_progress_of(const int32_t *state, size_t state_length)
{
    struct farnkuppel_progress found = {0, 0, 0};
    if (state_length >= FARNKUPPEL_STATE_WORDS) {
        found.index = (uint32_t)state[FARNKUPPEL_STATE_INDEX];
        found.phase = (uint32_t)state[FARNKUPPEL_STATE_PHASE];
        found.finished = (uint32_t)state[FARNKUPPEL_STATE_FINISHED];
    }
    return found;
}

/* 1 where a state has a point of a number, which goes from 1 to the count, and FARNKUPPEL_MOST_POINTS at the most; else 0. */
static inline int farnkuppel_has_point(const int32_t *state, size_t state_length, uint32_t number)
{
    return number >= 1 && number <= FARNKUPPEL_MOST_POINTS && number <= farnkuppel_head_of(state, state_length).count;
}

/* A state's point by its number; zeros where it has no such point. */
static inline struct farnkuppel_decimetres farnkuppel_point_of(const int32_t *state, size_t state_length, uint32_t number)
{
    struct farnkuppel_decimetres found = {0, 0, 0};
    if (farnkuppel_has_point(state, state_length, number)) {
        found.north = state[FARNKUPPEL_STATE_NORTHS + number - 1];
        found.east = state[FARNKUPPEL_STATE_EASTS + number - 1];
        found.down = state[FARNKUPPEL_STATE_DOWNS + number - 1];
    }
    return found;
}

/* The course at a state's point by its number; 0 where it has no such point, and at every point of lines and fillets. */
static inline uint32_t farnkuppel_course_of(const int32_t *state, size_t state_length, uint32_t number)
{
    return farnkuppel_has_point(state, state_length, number) ? (uint32_t)state[FARNKUPPEL_STATE_COURSES + number - 1] : 0;
}

/* ---- in both archives */

/* The number of the interface that the archive has. A program that links both archives has the linker take the first of the two, which are the
 * same (-Wl,-z,muldefs). */
uint32_t farnkuppel_interface(void);

/* ---- in libautopilot.a */

/* Loads a plan file by a reader of a version. Reads `file`; writes the first FARNKUPPEL_STATE_WORDS of `state` (the state at the start of the
 * plan, or the empty state where the load is refused) and the first FARNKUPPEL_LOAD_WORDS of `answer`. */
uint32_t farnkuppel_load(const uint8_t *file, size_t file_length, uint32_t reader, int32_t *state, size_t state_length, uint32_t *answer,
                         size_t answer_length);

/* One position fix, in metres, for the plan with a serial. Writes the next state to `state`, by its index, phase and finished alone, and nothing
 * of it where the fix is refused; the first FARNKUPPEL_ANSWER_WORDS of `answer`; and the first FARNKUPPEL_COMMAND_NUMBERS of `command`. The
 * command is that of the index and phase before the fix: the fix that reaches a point still gets the leg to it, and the one that finishes a
 * flight the last leg, as does every fix after it. */
uint32_t farnkuppel_fix(int32_t *state, size_t state_length, uint32_t serial, float north, float east, float down, uint32_t *answer,
                        size_t answer_length, float *command, size_t command_length);

/* Writes the plan of a state as a file of a version. Reads `state`; writes the file's bytes at the front of `file`, or nothing of it where the
 * write is refused, and the first FARNKUPPEL_WRITE_WORDS of `answer`. */
uint32_t farnkuppel_write(const int32_t *state, size_t state_length, uint32_t version, uint8_t *file, size_t file_length, uint32_t *answer,
                          size_t answer_length);

/* The distance to go from each index of the plan of a state on, in decimetres: entry i of `table`, counted from 0, is the length of the leg to
 * point i and of all that follows, to the last point. Lines are measured in north and east. In fillets a leg is as long as its straight part, short
 * of the circles at both of its ends, and the arc at each corner from point i on counts; the arc at point i - 1 does not. In Dubins plans each leg has
 * its arcs. Each root and each arc is rounded down. How far the plan is flown does not matter, so that a table that is made after the load holds for
 * the whole flight.
 * Reads `state`; writes the entries 2 to the count of points of `table`, and no other, or nothing of it where the question is refused; and the first
 * FARNKUPPEL_DISTANCES_WORDS of `answer`. */
uint32_t farnkuppel_distances(const int32_t *state, size_t state_length, uint32_t *table, size_t table_length, uint32_t *answer,
                              size_t answer_length);

/* The distance to go from the index of a state on, in decimetres, without a table: the entry that a table has at that index. It is that of the whole
 * leg that is flown, wherever on it the aircraft is, and of the last leg once the flight is finished. It can be 0 where that is not refused: the
 * circle at a fillet corner can take the whole of the last leg. Reads `state`; writes the first FARNKUPPEL_DISTANCE_WORDS of `answer`. */
uint32_t farnkuppel_distance(const int32_t *state, size_t state_length, uint32_t *answer, size_t answer_length);

/* ---- in libdesk.a */

/* The number of the first refusal of a plan file for a reader of a version, 0 if it loads. Reads `file`, and writes nothing. */
uint32_t farnkuppel_refusal(const uint8_t *file, size_t length, uint32_t reader);

/* The same, with its place in the answer. Reads `file`; writes the first FARNKUPPEL_CHECK_WORDS of `answer`. */
uint32_t farnkuppel_check(const uint8_t *file, size_t file_length, uint32_t reader, uint32_t *answer, size_t answer_length);

/* How many notes a plan file has. They are numbered from 1 to so many, and each has bytes. Reads `file`; writes the first FARNKUPPEL_NOTES_WORDS of
 * `answer`. A file that the newest reader refuses has none, and that is no refusal of the call. */
uint32_t farnkuppel_notes(const uint8_t *file, size_t file_length, uint32_t *answer, size_t answer_length);

/* A note of a plan file, by its number from 1. Reads `file`; writes the note's bytes at the front of `note`, which has room for
 * FARNKUPPEL_NOTE_BYTES, and the first FARNKUPPEL_NOTE_WORDS of `answer`. There are no bytes where the newest reader refuses the file or it has
 * no such note; neither is a refusal. */
uint32_t farnkuppel_note(const uint8_t *file, size_t file_length, uint32_t number, uint8_t *note, size_t note_length, uint32_t *answer,
                         size_t answer_length);

/* Whether the plan of a state is a strip plan: a Dubins plan with an even number of points, 1 and 2, 3 and 4 and so on of which are strips, and each
 * strip keeps the three rules above. The strips are numbered from 1 to FARNKUPPEL_STRIPS_COUNT's word. How far the plan is flown does not matter.
 * Reads `state`, which farnkuppel_load of libautopilot.a filled (a program that calls both links both); writes the first FARNKUPPEL_STRIPS_WORDS
 * of `answer`. */
uint32_t farnkuppel_strips(const int32_t *state, size_t state_length, uint32_t *answer, size_t answer_length);

/* A strip of a strip plan, by its number from 1. Reads `state`; writes the first FARNKUPPEL_STRIP_WORDS of `answer`. The answer is zeros for words
 * that hold no strip plan and for a number that no strip has; neither is a refusal, and the call returns 0. It checks the whole plan at each call. */
uint32_t farnkuppel_strip(const int32_t *state, size_t state_length, uint32_t number, uint32_t *answer, size_t answer_length);

#ifdef __cplusplus
}
#endif

#endif
