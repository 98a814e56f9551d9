/* How deep calls of the C interface go, seen from outside: each is made on a stack of its own that held one byte everywhere, and the deepest byte
 * that changed is looked for.
 *
 *     stack PLAN..
 *
 * With AUTOPILOT it calls the functions of libautopilot.a, with DESK those of libdesk.a. A line for each function: its name, and the bytes from
 * the deepest one that any call changed up to the call's return address, which counts. */
#include "farnkuppel.h"

#include <math.h>
#include <stdio.h>
#include <stdlib.h>
#include <string.h>

#define AREA 32768
#define ARGUMENTS 16 /* bytes of a call's arguments on the painted stack */
#define FIXES 1500   /* of a flight */

uint8_t painted_area[AREA] __attribute__((aligned(16)));
void *painted_top = painted_area + AREA;
void *painted_back;

/* painted_X goes on in farnkuppel_X on the painted stack. Arguments in registers stay there, and those on the caller's stack are taken along. */
#define PAINTED(name) "painted_" name ":\n\tlea farnkuppel_" name "(%rip), %rax\n\tjmp on_paint\n"

__asm__(".text\n"
        "on_paint:\n"
        "\tmov %rsp, painted_back(%rip)\n"
        "\tmov %rsp, %r11\n"
        "\tmov painted_top(%rip), %rsp\n"
        "\tpushq 16(%r11)\n"
        "\tpushq 8(%r11)\n"
        "\tcall *%rax\n"
        "\tmov painted_back(%rip), %rsp\n"
        "\tret\n"
        PAINTED("interface")
#ifdef DESK
        PAINTED("refusal")
        PAINTED("check")
        PAINTED("note")
        PAINTED("notes")
        PAINTED("strips")
        PAINTED("strip")
#else
        PAINTED("load")
        PAINTED("fix")
        PAINTED("write")
        PAINTED("distances")
        PAINTED("distance")
#endif
);

uint32_t painted_interface(void);
uint32_t painted_load(const uint8_t *, size_t, uint32_t, int32_t *, size_t, uint32_t *, size_t);
uint32_t painted_fix(int32_t *, size_t, uint32_t, float, float, float, uint32_t *, size_t, float *, size_t);
uint32_t painted_write(const int32_t *, size_t, uint32_t, uint8_t *, size_t, uint32_t *, size_t);
uint32_t painted_distances(const int32_t *, size_t, uint32_t *, size_t, uint32_t *, size_t);
uint32_t painted_distance(const int32_t *, size_t, uint32_t *, size_t);
uint32_t painted_refusal(const uint8_t *, size_t, uint32_t);
uint32_t painted_check(const uint8_t *, size_t, uint32_t, uint32_t *, size_t);
uint32_t painted_notes(const uint8_t *, size_t, uint32_t *, size_t);
uint32_t painted_note(const uint8_t *, size_t, uint32_t, uint8_t *, size_t, uint32_t *, size_t);
uint32_t painted_strips(const int32_t *, size_t, uint32_t *, size_t);
uint32_t painted_strip(const int32_t *, size_t, uint32_t, uint32_t *, size_t);

struct plan {
    uint8_t bytes[FARNKUPPEL_FILE_BYTES];
    size_t length;
};

static const uint8_t fills[] = {0x5A, 0xA5}; /* a byte that is changed to one of them shows with the other */

static void see(size_t *deepest, uint8_t fill)
{
    size_t at = 0;
    while (painted_area[at] == fill)
        at++;
    if (at == 0) {
        fprintf(stderr, "stack: a call goes deeper than %d bytes\n", AREA);
        exit(2);
    }
    if (AREA - ARGUMENTS - at > *deepest)
        *deepest = AREA - ARGUMENTS - at;
}

/* Makes a call once over each fill. */
#define SEE(deepest, call)                              \
    for (int turn = 0; turn < 2; turn++) {              \
        memset(painted_area, fills[turn], AREA);        \
        call;                                           \
        see(&(deepest), fills[turn]);                   \
    }

/* ---- plans */

static void put(struct plan *plan, uint32_t value, int bytes)
{
    for (int i = bytes - 1; i >= 0; i--)
        plan->bytes[plan->length++] = (uint8_t)(value >> (8 * i));
}

static void pair(struct plan *plan, uint32_t kind, uint32_t value)
{
    put(plan, kind, 1);
    put(plan, 2, 1);
    put(plan, value, 2);
}

/* The longest plan of a mode, a zigzag, with a note. */
static void zigzag(struct plan *plan, int mode)
{
    plan->length = 0;
    put(plan, 0x57504C, 3);
    put(plan, FARNKUPPEL_NEWEST, 2);
    put(plan, 7, 4);
    put(plan, 0, 2);
    if (mode != FARNKUPPEL_MODE_LINES)
        pair(plan, 2, 200);
    for (int i = 0; i < FARNKUPPEL_MOST_POINTS; i++) {
        put(plan, 1, 1);
        put(plan, 12, 1);
        put(plan, 1000u * (uint32_t)i, 4);
        put(plan, i % 2 ? 800 : 0, 4);
        put(plan, 0u - 10u * (uint32_t)i, 4);
        if (mode == FARNKUPPEL_MODE_DUBINS)
            pair(plan, 3, 64);
    }
    pair(plan, 128, 0x4142);
    plan->bytes[9] = (uint8_t)((plan->length - 11) >> 8);
    plan->bytes[10] = (uint8_t)(plan->length - 11);
}

static int read_plan(struct plan *plan, const char *name)
{
    FILE *file = fopen(name, "rb");
    if (!file)
        return 0;
    plan->length = fread(plan->bytes, 1, sizeof plan->bytes, file);
    fclose(file);
    return 1;
}

/* ---- the functions of the two archives, by all that is done with a file */

static size_t interface_depth;

/* What an archive does with the words of a state; a fix names this serial. */
static void use_state(int32_t *state, uint32_t serial);

/* Every word of a state once at each of some values. */
static void spoil(const int32_t *state)
{
    static const int32_t values[] = {0, 1, 5, -1, 4096, 70000, INT32_MIN};
    for (int place = 0; place < FARNKUPPEL_STATE_WORDS; place++) {
        for (size_t i = 0; i < sizeof values / sizeof *values; i++) {
            int32_t spoiled[FARNKUPPEL_STATE_WORDS];
            memcpy(spoiled, state, sizeof spoiled);
            spoiled[place] = values[i];
            use_state(spoiled, (uint32_t)state[FARNKUPPEL_STATE_SERIAL]);
        }
    }
}

#ifdef DESK

static size_t refusal_depth, check_depth, note_depth, notes_depth, strips_depth, strip_depth;

static void ask(const uint8_t *file, size_t length, uint32_t number)
{
    uint8_t note[FARNKUPPEL_NOTE_BYTES];
    uint32_t answer[FARNKUPPEL_CHECK_WORDS];
    SEE(refusal_depth, painted_refusal(file, length, number))
    SEE(check_depth, painted_check(file, length, number, answer, FARNKUPPEL_CHECK_WORDS))
    SEE(check_depth, painted_check(file, length, number, answer, 0))
    SEE(notes_depth, painted_notes(file, length, answer, FARNKUPPEL_NOTES_WORDS))
    SEE(notes_depth, painted_notes(file, length, answer, 0))
    SEE(note_depth, painted_note(file, length, number, note, sizeof note, answer, FARNKUPPEL_NOTE_WORDS))
    SEE(note_depth, painted_note(file, length, number, note, 0, answer, FARNKUPPEL_NOTE_WORDS))
}

static void use(const uint8_t *file, size_t length)
{
    ask(file, length, 1);
    ask(file, length, FARNKUPPEL_NEWEST);
}

static void use_state(int32_t *state, uint32_t serial)
{
    uint32_t answer[FARNKUPPEL_STRIPS_WORDS];
    (void)serial;
    SEE(strips_depth, painted_strips(state, FARNKUPPEL_STATE_WORDS, answer, FARNKUPPEL_STRIPS_WORDS))
    SEE(strip_depth, painted_strip(state, FARNKUPPEL_STATE_WORDS, 2, answer, FARNKUPPEL_STRIP_WORDS))
}

static int32_t number_at(const uint8_t *bytes, int count)
{
    uint32_t number = 0;
    for (int i = 0; i < count; i++)
        number = number << 8 | bytes[i];
    return (int32_t)number;
}

/* One record of a plan that loads, with the state of those before it. */
static void add_record(int32_t *state, uint8_t kind, const uint8_t *body)
{
    int32_t last = state[FARNKUPPEL_STATE_COUNT] - 1;
    if (kind == 1) {
        state[FARNKUPPEL_STATE_COUNT]++;
        state[FARNKUPPEL_STATE_NORTHS + last + 1] = number_at(body, 4);
        state[FARNKUPPEL_STATE_EASTS + last + 1] = number_at(body + 4, 4);
        state[FARNKUPPEL_STATE_DOWNS + last + 1] = number_at(body + 8, 4);
    } else if (kind == 2) {
        state[FARNKUPPEL_STATE_MODE] = FARNKUPPEL_MODE_FILLETS;
        state[FARNKUPPEL_STATE_RADIUS] = number_at(body, 2);
    } else if (kind == 3) {
        state[FARNKUPPEL_STATE_MODE] = FARNKUPPEL_MODE_DUBINS;
        state[FARNKUPPEL_STATE_COURSES + last] = number_at(body, 2);
    }
}

/* The desk's archive has no load: the state of a plan is made from its records. */
static void use_whole(const struct plan *plan)
{
    int32_t state[FARNKUPPEL_STATE_WORDS] = {0};
    uint32_t answer[FARNKUPPEL_STRIPS_WORDS];
    for (uint32_t number = 0; number <= FARNKUPPEL_NEWEST + 1; number++)
        ask(plan->bytes, plan->length, number);
    state[FARNKUPPEL_STATE_SERIAL] = number_at(plan->bytes + 5, 4);
    state[FARNKUPPEL_STATE_INDEX] = 2;
    state[FARNKUPPEL_STATE_PHASE] = 1;
    for (size_t at = 11; at < plan->length; at += 2u + plan->bytes[at + 1])
        add_record(state, plan->bytes[at], plan->bytes + at + 2);
    use_state(state, 0);
    SEE(strips_depth, painted_strips(state, 0, answer, FARNKUPPEL_STRIPS_WORDS))
    SEE(strip_depth, painted_strip(state, 0, 1, answer, FARNKUPPEL_STRIP_WORDS))
    spoil(state);
}

static void print_depths(void)
{
    printf("farnkuppel_refusal %zu\nfarnkuppel_check %zu\n", refusal_depth, check_depth);
    printf("farnkuppel_note %zu\nfarnkuppel_notes %zu\n", note_depth, notes_depth);
    printf("farnkuppel_strips %zu\nfarnkuppel_strip %zu\n", strips_depth, strip_depth);
}

#else

static size_t load_depth, fix_depth, write_depth, distances_depth, distance_depth;

struct flight {
    int32_t state[FARNKUPPEL_STATE_WORDS];
    float position[3];
    uint32_t heading;
};

/* A fix by the words of a state; the second turn's is the one that moves it. */
static uint32_t fix(int32_t *state, uint32_t serial, const float *p, uint32_t *answer)
{
    int32_t before[FARNKUPPEL_STATE_WORDS];
    float command[FARNKUPPEL_COMMAND_NUMBERS];
    uint32_t result = 0;
    memcpy(before, state, sizeof before);
    SEE(fix_depth, memcpy(state, before, sizeof before);
        result = painted_fix(state, FARNKUPPEL_STATE_WORDS, serial, p[0], p[1], p[2], answer, FARNKUPPEL_ANSWER_WORDS, command,
                             FARNKUPPEL_COMMAND_NUMBERS))
    return result;
}

static void write_plan(const int32_t *state, uint32_t version, size_t room)
{
    uint8_t file[FARNKUPPEL_WRITTEN_BYTES];
    uint32_t answer[FARNKUPPEL_WRITE_WORDS];
    SEE(write_depth, painted_write(state, FARNKUPPEL_STATE_WORDS, version, file, room, answer, FARNKUPPEL_WRITE_WORDS))
    SEE(write_depth, painted_write(state, 0, version, file, room, answer, FARNKUPPEL_WRITE_WORDS))
}

static void ask_distance(const int32_t *state, size_t entries)
{
    uint32_t table[FARNKUPPEL_TABLE_ENTRIES], answer[FARNKUPPEL_DISTANCE_WORDS];
    SEE(distances_depth, painted_distances(state, FARNKUPPEL_STATE_WORDS, table, entries, answer, FARNKUPPEL_DISTANCES_WORDS))
    SEE(distances_depth, painted_distances(state, 0, table, entries, answer, FARNKUPPEL_DISTANCES_WORDS))
    SEE(distance_depth, painted_distance(state, FARNKUPPEL_STATE_WORDS, answer, FARNKUPPEL_DISTANCE_WORDS))
    SEE(distance_depth, painted_distance(state, FARNKUPPEL_STATE_WORDS, answer, 0))
}

static uint32_t load(const uint8_t *file, size_t length, uint32_t reader, int32_t *state)
{
    uint32_t answer[FARNKUPPEL_LOAD_WORDS], result = 0;
    SEE(load_depth, painted_load(file, length, reader, state, FARNKUPPEL_STATE_WORDS - 1, answer, FARNKUPPEL_LOAD_WORDS))
    SEE(load_depth, result = painted_load(file, length, reader, state, FARNKUPPEL_STATE_WORDS, answer, FARNKUPPEL_LOAD_WORDS))
    return result;
}

static void use(const uint8_t *file, size_t length)
{
    int32_t state[FARNKUPPEL_STATE_WORDS];
    uint32_t answer[FARNKUPPEL_ANSWER_WORDS];
    const float here[3] = {0, 0, 0};
    load(file, length, FARNKUPPEL_NEWEST, state);
    fix(state, (uint32_t)state[FARNKUPPEL_STATE_SERIAL], here, answer);
    write_plan(state, FARNKUPPEL_NEWEST, FARNKUPPEL_WRITTEN_BYTES);
    ask_distance(state, FARNKUPPEL_TABLE_ENTRIES);
}

/* An aircraft that heads where it is told, with fixes on the way that are refused. */
static void fly(const int32_t *start, float metres)
{
    struct flight flight = {{0}, {0, 0, 0}, 0};
    const float nowhere[3] = {NAN, 0, 0};
    uint32_t answer[FARNKUPPEL_ANSWER_WORDS];
    memcpy(flight.state, start, sizeof flight.state);
    uint32_t serial = (uint32_t)start[FARNKUPPEL_STATE_SERIAL];
    for (int i = 0; i < FIXES; i++) {
        if (fix(flight.state, serial, flight.position, answer) == FARNKUPPEL_ACCEPTED)
            flight.heading = answer[FARNKUPPEL_ANSWER_HEADING];
        if (i % 50 == 0) {
            fix(flight.state, serial + 1, flight.position, answer);
            fix(flight.state, serial, nowhere, answer);
            write_plan(flight.state, FARNKUPPEL_NEWEST, FARNKUPPEL_WRITTEN_BYTES);
            ask_distance(flight.state, FARNKUPPEL_TABLE_ENTRIES);
        }
        double angle = flight.heading * 6.283185307179586 / FARNKUPPEL_CIRCLE;
        flight.position[0] += metres * (float)cos(angle);
        flight.position[1] += metres * (float)sin(angle);
    }
}

static void use_state(int32_t *state, uint32_t serial)
{
    const float here[3] = {12.5f, -3, 40};
    uint32_t answer[FARNKUPPEL_ANSWER_WORDS];
    write_plan(state, FARNKUPPEL_NEWEST, FARNKUPPEL_WRITTEN_BYTES);
    ask_distance(state, FARNKUPPEL_TABLE_ENTRIES);
    fix(state, serial, here, answer);
}

static void use_whole(const struct plan *plan)
{
    int32_t state[FARNKUPPEL_STATE_WORDS];
    for (uint32_t version = 0; version <= FARNKUPPEL_NEWEST + 1; version++) {
        load(plan->bytes, plan->length, version, state);
        load(plan->bytes, plan->length, FARNKUPPEL_NEWEST, state);
        write_plan(state, version, FARNKUPPEL_WRITTEN_BYTES);
        write_plan(state, version, 20);
    }
    ask_distance(state, FARNKUPPEL_FEWEST_POINTS);
    fly(state, 8);
    fly(state, 40);
    spoil(state);
}

static void print_depths(void)
{
    printf("farnkuppel_load %zu\nfarnkuppel_fix %zu\nfarnkuppel_write %zu\n", load_depth, fix_depth, write_depth);
    printf("farnkuppel_distances %zu\nfarnkuppel_distance %zu\n", distances_depth, distance_depth);
}

#endif

/* A plan, every front of its first bytes, and the plan with one byte after the other changed. */
static void use_plan(const struct plan *plan)
{
    static struct plan changed;
    use_whole(plan);
    for (size_t length = 0; length <= plan->length && length < 64; length++)
        use(plan->bytes, length);
    for (size_t at = 0; at < plan->length; at++) {
        changed = *plan;
        changed.bytes[at] ^= (uint8_t)(1u << at % 8);
        use(changed.bytes, changed.length);
    }
}

int main(int count, char **names)
{
    static struct plan plan;
    for (int i = 1; i < count; i++) {
        if (!read_plan(&plan, names[i])) {
            fprintf(stderr, "stack: cannot read %s\n", names[i]);
            return 2;
        }
        use_plan(&plan);
    }
    for (int mode = FARNKUPPEL_MODE_LINES; mode <= FARNKUPPEL_MODE_DUBINS; mode++) {
        zigzag(&plan, mode);
        use_plan(&plan);
    }
    SEE(interface_depth, painted_interface())
    printf("farnkuppel_interface %zu\n", interface_depth);
    print_depths();
    return 0;
}
