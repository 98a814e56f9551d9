#include "calls.h"

#include "lent.h"

#include <string.h>

#define SPARE 3 /* so many elements more are lent the second time */
#define WORD sizeof(uint32_t)

static const uint8_t first = 0x5A, second = 0xA5;
static struct lent file_memory, state_memory, answer_memory, bytes_memory, table_memory;

void prepare(void)
{
    file_memory = lent_for(MOST_FILE);
    state_memory = lent_for(STATE_BYTES + SPARE * WORD);
    answer_memory = lent_for((FARNKUPPEL_ANSWER_WORDS + SPARE) * WORD);
    bytes_memory = lent_for(MOST_ROOM + SPARE);
    table_memory = lent_for(FARNKUPPEL_TABLE_ENTRIES * WORD);
    HOLD(farnkuppel_interface() == FARNKUPPEL_INTERFACE);
}

/* A slice that the manager only reads, and that it left as it was. */
static void *lend_copy(const struct lent *memory, const void *from, size_t bytes)
{
    void *slice = lend(memory, bytes, first);
    if (bytes)
        memcpy(slice, from, bytes);
    return slice;
}

static void take_copy(const struct lent *memory, const void *from, size_t bytes)
{
    take_back(memory, bytes, bytes, first);
    HOLD(bytes == 0 || memcmp(memory->end - bytes, from, bytes) == 0);
}

static void load_once(struct file file, uint32_t reader, size_t spare, uint8_t fill, struct load *got)
{
    size_t states = FARNKUPPEL_STATE_WORDS + spare, answers = FARNKUPPEL_LOAD_WORDS + spare;
    uint8_t *bytes = lend_copy(&file_memory, file.bytes, file.length);
    int32_t *state = lend(&state_memory, states * WORD, fill);
    uint32_t *answer = lend(&answer_memory, answers * WORD, fill);
    got->result = farnkuppel_load(bytes, file.length, reader, state, states, answer, answers);
    take_copy(&file_memory, file.bytes, file.length);
    take_back(&state_memory, states * WORD, sizeof got->state, fill);
    take_back(&answer_memory, answers * WORD, sizeof got->answer, fill);
    memcpy(got->state, state, sizeof got->state);
    memcpy(got->answer, answer, sizeof got->answer);
}

static void check_once(struct file file, uint32_t reader, size_t spare, uint8_t fill, const struct load *load)
{
    size_t answers = FARNKUPPEL_CHECK_WORDS + spare;
    uint8_t *bytes = lend_copy(&file_memory, file.bytes, file.length);
    uint32_t *answer = lend(&answer_memory, answers * WORD, fill);
    HOLD(farnkuppel_check(bytes, file.length, reader, answer, answers) == load->result);
    take_copy(&file_memory, file.bytes, file.length);
    take_back(&answer_memory, answers * WORD, FARNKUPPEL_CHECK_WORDS * WORD, fill);
    HOLD(answer[FARNKUPPEL_CHECK_REFUSAL] == load->result && answer[FARNKUPPEL_CHECK_PLACE] == load->answer[FARNKUPPEL_LOAD_PLACE]);
}

struct load load_of(struct file file, uint32_t reader)
{
    struct load got, again;
    load_once(file, reader, 0, first, &got);
    load_once(file, reader, SPARE, second, &again);
    HOLD(memcmp(&got, &again, sizeof got) == 0);
    HOLD(got.result == got.answer[FARNKUPPEL_LOAD_REFUSAL]);
    uint8_t *bytes = lend_copy(&file_memory, file.bytes, file.length);
    HOLD(farnkuppel_refusal(bytes, file.length, reader) == got.result);
    take_copy(&file_memory, file.bytes, file.length);
    check_once(file, reader, 0, first, &got);
    check_once(file, reader, SPARE, second, &got);
    return got;
}

static uint32_t count_once(struct file file, size_t spare, uint8_t fill)
{
    size_t answers = FARNKUPPEL_NOTES_WORDS + spare;
    uint8_t *bytes = lend_copy(&file_memory, file.bytes, file.length);
    uint32_t *answer = lend(&answer_memory, answers * WORD, fill);
    HOLD(farnkuppel_notes(bytes, file.length, answer, answers) == FARNKUPPEL_ACCEPTED);
    take_copy(&file_memory, file.bytes, file.length);
    take_back(&answer_memory, answers * WORD, FARNKUPPEL_NOTES_WORDS * WORD, fill);
    return answer[FARNKUPPEL_NOTES_COUNT];
}

uint32_t count_of(struct file file)
{
    uint32_t count = count_once(file, 0, first);
    HOLD(count_once(file, SPARE, second) == count);
    return count;
}

static void note_once(struct file file, uint32_t number, size_t spare, uint8_t fill, struct note *got)
{
    size_t room = FARNKUPPEL_NOTE_BYTES + spare, answers = FARNKUPPEL_NOTE_WORDS + spare;
    uint8_t *bytes = lend_copy(&file_memory, file.bytes, file.length);
    uint8_t *note = lend(&bytes_memory, room, fill);
    uint32_t *answer = lend(&answer_memory, answers * WORD, fill);
    memset(got, 0, sizeof *got);
    got->result = farnkuppel_note(bytes, file.length, number, note, room, answer, answers);
    got->length = answer[FARNKUPPEL_NOTE_LENGTH];
    HOLD(got->length <= FARNKUPPEL_NOTE_BYTES);
    take_copy(&file_memory, file.bytes, file.length);
    take_back(&bytes_memory, room, got->length, fill);
    take_back(&answer_memory, answers * WORD, WORD, fill);
    memcpy(got->bytes, note, got->length);
}

struct note note_of(struct file file, uint32_t number)
{
    struct note got, again;
    note_once(file, number, 0, first, &got);
    note_once(file, number, SPARE, second, &again);
    HOLD(memcmp(&got, &again, sizeof got) == 0);
    HOLD(got.result == FARNKUPPEL_ACCEPTED);
    return got;
}

static void fix_once(const int32_t *from, uint32_t serial, const float *p, size_t spare, uint8_t fill, struct fix *got)
{
    size_t states = FARNKUPPEL_STATE_WORDS + spare, answers = FARNKUPPEL_ANSWER_WORDS + spare;
    size_t commands = FARNKUPPEL_COMMAND_NUMBERS + spare;
    int32_t *state = lend(&state_memory, states * WORD, fill);
    memcpy(state, from, STATE_BYTES);
    uint32_t *answer = lend(&answer_memory, answers * WORD, fill);
    float *command = lend(&bytes_memory, commands * sizeof(float), fill);
    got->result = farnkuppel_fix(state, states, serial, p[0], p[1], p[2], answer, answers, command, commands);
    take_back(&state_memory, states * WORD, sizeof got->state, fill);
    take_back(&answer_memory, answers * WORD, sizeof got->answer, fill);
    take_back(&bytes_memory, commands * sizeof(float), sizeof got->command, fill);
    memcpy(got->state, state, sizeof got->state);
    memcpy(got->answer, answer, sizeof got->answer);
    memcpy(got->command, command, sizeof got->command);
}

struct fix fix_of(const int32_t *state, uint32_t serial, const float *position)
{
    struct fix got, again;
    fix_once(state, serial, position, 0, first, &got);
    fix_once(state, serial, position, SPARE, second, &again);
    HOLD(memcmp(&got, &again, sizeof got) == 0);
    HOLD(got.result == got.answer[FARNKUPPEL_ANSWER_REFUSAL]);
    return got;
}

static void write_once(const int32_t *from, uint32_t version, size_t room, size_t spare, uint8_t fill, struct written *got)
{
    size_t answers = FARNKUPPEL_WRITE_WORDS + spare;
    int32_t *state = lend_copy(&state_memory, from, STATE_BYTES);
    uint8_t *bytes = lend(&bytes_memory, room, fill);
    uint32_t *answer = lend(&answer_memory, answers * WORD, fill);
    memset(got, 0, sizeof *got);
    got->result = farnkuppel_write(state, FARNKUPPEL_STATE_WORDS, version, bytes, room, answer, answers);
    memcpy(got->answer, answer, sizeof got->answer);
    uint32_t length = got->answer[FARNKUPPEL_WRITE_LENGTH];
    HOLD(length <= room);
    take_copy(&state_memory, from, STATE_BYTES);
    take_back(&bytes_memory, room, length, fill);
    take_back(&answer_memory, answers * WORD, sizeof got->answer, fill);
    memcpy(got->bytes, bytes, length);
}

struct written write_of(const int32_t *state, uint32_t version, size_t room)
{
    struct written got, again;
    write_once(state, version, room, 0, first, &got);
    write_once(state, version, room, SPARE, second, &again);
    HOLD(memcmp(&got, &again, sizeof got) == 0);
    HOLD(got.result == got.answer[FARNKUPPEL_WRITE_REFUSAL]);
    HOLD(got.answer[FARNKUPPEL_WRITE_PLACE] == 0);
    HOLD((got.answer[FARNKUPPEL_WRITE_LENGTH] == 0) == (got.result != FARNKUPPEL_ACCEPTED));
    return got;
}

/* A state that is only read, with spare words behind it. */
static int32_t *lend_state(const int32_t *from, size_t states, uint8_t fill)
{
    int32_t *state = lend(&state_memory, states * WORD, fill);
    memcpy(state, from, STATE_BYTES);
    return state;
}

static void take_state(const int32_t *from, size_t states, uint8_t fill)
{
    take_back(&state_memory, states * WORD, STATE_BYTES, fill);
    HOLD(memcmp(state_memory.end - states * WORD, from, STATE_BYTES) == 0);
}

/* A table comes back: what was written of it is the entries 2 to so many, and a refused question writes none. */
static void take_table(const uint32_t *table, size_t entries, size_t last, uint8_t fill, uint32_t *got)
{
    HOLD(last == 0 || (last >= 2 && last < entries));
    take_back(&table_memory, entries * WORD, last ? (last + 1) * WORD : 0, fill);
    if (last == 0)
        return;
    HOLD(table[0] == fill * 0x01010101u && table[1] == fill * 0x01010101u);
    memcpy(got + 2, table + 2, (last - 1) * WORD);
}

static void distances_once(const int32_t *from, size_t entries, size_t spare, uint8_t fill, struct distances *got)
{
    size_t states = FARNKUPPEL_STATE_WORDS + spare, answers = FARNKUPPEL_DISTANCES_WORDS + spare;
    int32_t *state = lend_state(from, states, fill);
    uint32_t *table = lend(&table_memory, entries * WORD, fill);
    uint32_t *answer = lend(&answer_memory, answers * WORD, fill);
    memset(got, 0, sizeof *got);
    got->result = farnkuppel_distances(state, states, table, entries, answer, answers);
    take_state(from, states, fill);
    take_table(table, entries, got->result == FARNKUPPEL_ACCEPTED ? (size_t)from[FARNKUPPEL_STATE_COUNT] : 0, fill, got->table);
    take_back(&answer_memory, answers * WORD, sizeof got->answer, fill);
    memcpy(got->answer, answer, sizeof got->answer);
}

struct distances distances_of(const int32_t *state, size_t entries)
{
    struct distances got, again;
    distances_once(state, entries, 0, first, &got);
    distances_once(state, entries, SPARE, second, &again);
    HOLD(memcmp(&got, &again, sizeof got) == 0);
    HOLD(got.result == got.answer[FARNKUPPEL_DISTANCES_REFUSAL]);
    HOLD(got.answer[FARNKUPPEL_DISTANCES_PLACE] == 0);
    return got;
}

static void distance_once(const int32_t *from, size_t spare, uint8_t fill, struct distance *got)
{
    size_t states = FARNKUPPEL_STATE_WORDS + spare, answers = FARNKUPPEL_DISTANCE_WORDS + spare;
    int32_t *state = lend_state(from, states, fill);
    uint32_t *answer = lend(&answer_memory, answers * WORD, fill);
    got->result = farnkuppel_distance(state, states, answer, answers);
    take_state(from, states, fill);
    take_back(&answer_memory, answers * WORD, sizeof got->answer, fill);
    memcpy(got->answer, answer, sizeof got->answer);
}

struct distance distance_of(const int32_t *state)
{
    struct distance got, again;
    distance_once(state, 0, first, &got);
    distance_once(state, SPARE, second, &again);
    HOLD(memcmp(&got, &again, sizeof got) == 0);
    HOLD(got.result == got.answer[FARNKUPPEL_DISTANCE_REFUSAL]);
    HOLD(got.answer[FARNKUPPEL_DISTANCE_PLACE] == 0);
    return got;
}

static void strips_once(const int32_t *from, size_t spare, uint8_t fill, struct strips *got)
{
    size_t states = FARNKUPPEL_STATE_WORDS + spare, answers = FARNKUPPEL_STRIPS_WORDS + spare;
    int32_t *state = lend_state(from, states, fill);
    uint32_t *answer = lend(&answer_memory, answers * WORD, fill);
    got->result = farnkuppel_strips(state, states, answer, answers);
    take_state(from, states, fill);
    take_back(&answer_memory, answers * WORD, sizeof got->answer, fill);
    memcpy(got->answer, answer, sizeof got->answer);
}

struct strips strips_of(const int32_t *state)
{
    struct strips got, again;
    strips_once(state, 0, first, &got);
    strips_once(state, SPARE, second, &again);
    HOLD(memcmp(&got, &again, sizeof got) == 0);
    HOLD(got.result == got.answer[FARNKUPPEL_STRIPS_REFUSAL]);
    return got;
}

static void strip_once(const int32_t *from, uint32_t number, size_t spare, uint8_t fill, struct strip *got)
{
    size_t states = FARNKUPPEL_STATE_WORDS + spare, answers = FARNKUPPEL_STRIP_WORDS + spare;
    int32_t *state = lend_state(from, states, fill);
    uint32_t *answer = lend(&answer_memory, answers * WORD, fill);
    got->result = farnkuppel_strip(state, states, number, answer, answers);
    take_state(from, states, fill);
    take_back(&answer_memory, answers * WORD, sizeof got->answer, fill);
    memcpy(got->answer, answer, sizeof got->answer);
}

struct strip strip_of(const int32_t *state, uint32_t number)
{
    struct strip got, again;
    strip_once(state, number, 0, first, &got);
    strip_once(state, number, SPARE, second, &again);
    HOLD(memcmp(&got, &again, sizeof got) == 0);
    HOLD(got.result == FARNKUPPEL_ACCEPTED);
    return got;
}

static size_t less(size_t length, size_t cut)
{
    return cut < length ? length - cut : 0;
}

/* The slices of a call by their lengths in elements; `bytes` has elements of 1 or 4 bytes. */
struct lengths {
    size_t state, answer, bytes;
};

static uint32_t call_short(int call, const uint8_t *file, size_t length, struct lengths n, size_t element)
{
    int32_t *state = lend(&state_memory, n.state * WORD, first);
    uint32_t *answer = lend(&answer_memory, n.answer * WORD, first);
    void *bytes = lend(&bytes_memory, n.bytes * element, first);
    uint32_t result = 0;
    if (call == 0)
        result = farnkuppel_load(file, length, FARNKUPPEL_NEWEST, state, n.state, answer, n.answer);
    if (call == 1)
        result = farnkuppel_fix(state, n.state, 1, 0, 0, 0, answer, n.answer, bytes, n.bytes);
    if (call == 2)
        result = farnkuppel_write(state, n.state, FARNKUPPEL_NEWEST, bytes, n.bytes, answer, n.answer);
    if (call == 3)
        result = farnkuppel_note(file, length, 1, bytes, n.bytes, answer, n.answer);
    if (call == 4)
        result = farnkuppel_check(file, length, FARNKUPPEL_NEWEST, answer, n.answer);
    if (call == 5)
        result = farnkuppel_notes(file, length, answer, n.answer);
    if (call == 6)
        result = farnkuppel_strips(state, n.state, answer, n.answer);
    if (call == 7)
        result = farnkuppel_strip(state, n.state, 1, answer, n.answer);
    if (call == 8)
        result = farnkuppel_distances(state, n.state, bytes, n.bytes, answer, n.answer);
    if (call == 9)
        result = farnkuppel_distance(state, n.state, answer, n.answer);
    take_back(&state_memory, n.state * WORD, 0, first);
    take_back(&answer_memory, n.answer * WORD, 0, first);
    take_back(&bytes_memory, n.bytes * element, 0, first);
    return result;
}

void short_slices(struct file file, size_t cut)
{
    const size_t states = FARNKUPPEL_STATE_WORDS, numbers = FARNKUPPEL_COMMAND_NUMBERS, room = FARNKUPPEL_NOTE_BYTES;
    const size_t answers[] = {FARNKUPPEL_LOAD_WORDS,      FARNKUPPEL_ANSWER_WORDS,  FARNKUPPEL_WRITE_WORDS,  FARNKUPPEL_NOTE_WORDS,
                              FARNKUPPEL_CHECK_WORDS,     FARNKUPPEL_NOTES_WORDS,   FARNKUPPEL_STRIPS_WORDS, FARNKUPPEL_STRIP_WORDS,
                              FARNKUPPEL_DISTANCES_WORDS, FARNKUPPEL_DISTANCE_WORDS};
    const size_t elements[] = {1, sizeof(float), 1, 1, 1, 1, 1, 1, WORD, 1};
    const size_t lengths[] = {0, numbers, MOST_ROOM, room, 0, 0, 0, 0, FARNKUPPEL_TABLE_ENTRIES, 0};
    uint8_t *bytes = lend_copy(&file_memory, file.bytes, file.length);
    for (int call = 0; call < 10; call++) {
        struct lengths short_answer = {states, less(answers[call], cut), lengths[call]};
        struct lengths short_state = {less(states, cut), answers[call], lengths[call]};
        struct lengths short_bytes = {states, answers[call], less(lengths[call], cut)};
        HOLD(call_short(call, bytes, file.length, short_answer, elements[call]) == FARNKUPPEL_REFUSED_MISFIT);
        if (call < 3 || call >= 6)
            HOLD(call_short(call, bytes, file.length, short_state, elements[call]) == FARNKUPPEL_REFUSED_MISFIT);
        if (call == 1 || call == 3)
            HOLD(call_short(call, bytes, file.length, short_bytes, elements[call]) == FARNKUPPEL_REFUSED_MISFIT);
    }
    take_copy(&file_memory, file.bytes, file.length);
}
