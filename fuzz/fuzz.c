/* A harness for libFuzzer over the C interface: an input is a plan file and what is done with it.
 *
 *   1 byte       which reader; 128 and more: the file's mark and area length are put right first, so that its records are reached
 *   1 byte       a note's number, and how much too short slices are
 *   2 bytes      the length of the calls (big-endian, as all numbers here)
 *   the calls    each a byte for its kind (below), and its bytes
 *   the rest     the plan file
 *
 * The calls go to the state that the newest reader loads, or to the empty one where it refuses the file. */
#include "laws.h"
#include "lent.h"

#include <math.h>
#include <string.h>

enum call {
    FIX,       /* three f32: for the state's own serial */
    NAMED,     /* a serial and three f32 */
    NEAR,      /* a point (1 byte), north and east (2 bytes each): a fix so many decimetres from the point */
    FLY,       /* fixes (1 byte), metres between them (1 byte): a simulated aircraft, which heads where it is told */
    WRITE,     /* a version (1 byte), how much shorter the buffer is (2 bytes) */
    SET,       /* a word's place (2 bytes) and value: in a copy of the state */
    FIX_SET,   /* three f32: a fix on that copy */
    STRIPS,    /* a number (4 bytes): the strips of the state and of that copy, and the one with this number */
    DISTANCES, /* entries (1 byte): the distances of the state and of that copy, and a table of so many entries */
    CALLS
};

struct input {
    const uint8_t *bytes;
    size_t left;
};

struct flight {
    int32_t state[FARNKUPPEL_STATE_WORDS];
    int32_t copy[FARNKUPPEL_STATE_WORDS]; /* with words set as the input says */
    double north, east, down;             /* the aircraft, in metres */
    uint32_t heading;
    struct strips strips;                 /* of the plan as it was loaded */
    struct distances distances;           /* the same */
    uint32_t fixes_left;                  /* that it may fly on by itself, so that no input takes long */
};

/* A number of so many bytes, with zeros for those that the input does not have. */
static uint32_t number(struct input *in, int bytes)
{
    uint32_t value = 0;
    for (; bytes > 0; bytes--) {
        value = value << 8 | (in->left ? *in->bytes : 0);
        in->bytes += in->left != 0;
        in->left -= in->left != 0;
    }
    return value;
}

static void position(struct input *in, float *p)
{
    for (int i = 0; i < 3; i++) {
        uint32_t bits = number(in, 4);
        memcpy(p + i, &bits, sizeof bits);
    }
}

/* Puts the aircraft over a point, from 0. */
static void place_over(struct flight *flight, uint32_t point)
{
    int32_t number = 1 + (int32_t)(point % FARNKUPPEL_MOST_POINTS);
    flight->north = part_of(flight->state, number, 0) / 10.0;
    flight->east = part_of(flight->state, number, 1) / 10.0;
    flight->down = part_of(flight->state, number, 2) / 10.0;
}

static uint32_t serial_of(const int32_t *state)
{
    return (uint32_t)state[FARNKUPPEL_STATE_SERIAL];
}

/* A fix on the flight; a loaded plan's state is never refused 14. */
static void fly_to(struct flight *flight, uint32_t serial, const float *p)
{
    struct fix fix = fix_laws(flight->state, serial, p);
    HOLD((fix.result == FARNKUPPEL_REFUSED_NO_STATE) == (flight->state[FARNKUPPEL_STATE_COUNT] == 0));
    memcpy(flight->state, fix.state, sizeof flight->state);
    if (fix.result == FARNKUPPEL_ACCEPTED)
        flight->heading = fix.answer[FARNKUPPEL_ANSWER_HEADING];
}

static void fly_near(struct flight *flight, struct input *in)
{
    place_over(flight, number(in, 1));
    flight->north += (int16_t)number(in, 2) / 10.0;
    flight->east += (int16_t)number(in, 2) / 10.0;
    float p[3] = {(float)flight->north, (float)flight->east, (float)flight->down};
    fly_to(flight, serial_of(flight->state), p);
}

static void fly_on(struct flight *flight, struct input *in)
{
    uint32_t fixes = number(in, 1), metres = number(in, 1);
    for (; fixes > 0 && flight->fixes_left > 0; fixes--, flight->fixes_left--) {
        double angle = flight->heading * (6.283185307179586 / FARNKUPPEL_CIRCLE);
        flight->north += metres * cos(angle);
        flight->east += metres * sin(angle);
        float p[3] = {(float)flight->north, (float)flight->east, (float)flight->down};
        fly_to(flight, serial_of(flight->state), p);
    }
}

/* Words that may hold no state: a fix and a write agree on whether they do. */
static void fix_copy(struct flight *flight, struct input *in)
{
    float p[3];
    position(in, p);
    struct fix fix = fix_laws(flight->copy, serial_of(flight->copy), p);
    uint32_t written = write_of(flight->copy, FARNKUPPEL_NEWEST, MOST_ROOM).result;
    HOLD((fix.result == FARNKUPPEL_REFUSED_NO_STATE) == (written == FARNKUPPEL_REFUSED_NO_STATE));
    write_laws(flight->copy, FARNKUPPEL_NEWEST, 0);
    memcpy(flight->copy, fix.state, sizeof flight->copy);
}

/* How far a plan is flown doesn't matter to its strips. */
static void ask_strips(struct flight *flight, struct input *in)
{
    uint32_t asked = number(in, 4);
    struct strips strips = strips_laws(flight->state, asked);
    HOLD(memcmp(&strips, &flight->strips, sizeof strips) == 0);
    strips_laws(flight->copy, asked);
}

/* Nor does it to its distances. */
static void ask_distances(struct flight *flight, uint32_t entries)
{
    struct distances distances = distances_laws(flight->state, entries);
    HOLD(memcmp(&distances, &flight->distances, sizeof distances) == 0);
    distances_laws(flight->copy, entries);
}

static void one_call(struct flight *flight, struct input *in)
{
    float p[3];
    uint32_t kind = number(in, 1) % CALLS, serial = serial_of(flight->state);
    if (kind == FIX || kind == NAMED) {
        serial = kind == NAMED ? number(in, 4) : serial;
        position(in, p);
        fly_to(flight, serial, p);
    } else if (kind == NEAR) {
        fly_near(flight, in);
    } else if (kind == FLY) {
        fly_on(flight, in);
    } else if (kind == WRITE) {
        uint32_t version = number(in, 1);
        write_laws(flight->state, version, number(in, 2));
    } else if (kind == SET) {
        uint32_t place = number(in, 2) % FARNKUPPEL_STATE_WORDS;
        flight->copy[place] = (int32_t)number(in, 4);
    } else if (kind == FIX_SET) {
        fix_copy(flight, in);
    } else if (kind == STRIPS) {
        ask_strips(flight, in);
    } else {
        ask_distances(flight, number(in, 1));
    }
}

static void all_calls(const int32_t *state, struct strips strips, struct distances distances, struct input in)
{
    struct flight flight = {.strips = strips, .distances = distances, .fixes_left = 200};
    memcpy(flight.state, state, sizeof flight.state);
    memcpy(flight.copy, state, sizeof flight.copy);
    place_over(&flight, 0);
    for (int calls = 0; in.left > 0 && calls < 64; calls++)
        one_call(&flight, &in);
    ask_distances(&flight, 0);
}

/* The rest of the input as a file. */
static struct file file_of(const struct input *in, int mended)
{
    static uint8_t bytes[MOST_FILE];
    struct file file = {bytes, in->left < MOST_FILE ? in->left : MOST_FILE};
    memcpy(bytes, in->bytes, file.length);
    if (mended && file.length >= 11) {
        size_t area = file.length - 11;
        memcpy(bytes, "WPL", 3);
        bytes[9] = (uint8_t)(area >> 8);
        bytes[10] = (uint8_t)area;
    }
    return file;
}

int LLVMFuzzerInitialize(int *count, char ***arguments);
int LLVMFuzzerTestOneInput(const uint8_t *data, size_t size);

int LLVMFuzzerInitialize(int *count, char ***arguments)
{
    (void)count;
    (void)arguments;
    prepare();
    return 0;
}

int LLVMFuzzerTestOneInput(const uint8_t *data, size_t size)
{
    static const uint32_t readers[] = {0, 1, 2, 3, 4, 65537, 0x80000003, UINT32_MAX};
    struct input in = {data, size};
    if (size < 4)
        return 0;
    uint32_t which = number(&in, 1), asked = number(&in, 1), length = number(&in, 2);
    struct input calls = {in.bytes, length < in.left ? length : in.left};
    in.bytes += calls.left;
    in.left -= calls.left;
    struct file file = file_of(&in, which >= 128);
    struct load load = load_laws(file, readers[which % 8]);
    note_laws(file, load.result == FARNKUPPEL_ACCEPTED, asked);
    short_slices(file, 1 + asked);
    write_laws(load.state, FARNKUPPEL_NEWEST, 0);
    struct strips strips = strips_laws(load.state, asked);
    HOLD((strips.result == FARNKUPPEL_REFUSED_NO_STATE) == (load.result != FARNKUPPEL_ACCEPTED));
    struct distances distances = distances_laws(load.state, asked);
    all_calls(load.state, strips, distances, calls);
    return 0;
}
