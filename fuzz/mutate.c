/* Changes an input record by record, as libFuzzer asks for: a change of single bytes rarely keeps the lengths of a plan file right. Every
 * second time it leaves the change to libFuzzer. */
#include <stdint.h>
#include <string.h>

#define HEADER 11
#define MOST_RECORDS 600
#define MOST_BODY 40

size_t LLVMFuzzerMutate(uint8_t *data, size_t size, size_t most);
size_t LLVMFuzzerCustomMutator(uint8_t *data, size_t size, size_t most, unsigned seed);

struct draft {
    uint8_t *file;
    size_t length, most;
    uint32_t chance;
};

static uint32_t below(struct draft *draft, uint32_t n)
{
    draft->chance ^= draft->chance << 13;
    draft->chance ^= draft->chance >> 17;
    draft->chance ^= draft->chance << 5;
    return draft->chance % n;
}

/* The offset of one of the whole records, or of the file's end, if there is none. */
static size_t any_record(struct draft *draft)
{
    size_t at[MOST_RECORDS], count = 0;
    for (size_t next = HEADER; next + 2 <= draft->length && count < MOST_RECORDS; next += 2 + draft->file[next + 1])
        if (next + 2 + draft->file[next + 1] <= draft->length)
            at[count++] = next;
    return count ? at[below(draft, (uint32_t)count)] : draft->length;
}

/* `count` bytes in the place of `old` ones, where there is room. */
static void replace(struct draft *draft, size_t at, size_t old, const uint8_t *bytes, size_t count)
{
    if (draft->length - old + count > draft->most)
        return;
    memmove(draft->file + at + count, draft->file + at + old, draft->length - at - old);
    memcpy(draft->file + at, bytes, count);
    draft->length = draft->length - old + count;
}

/* A number at an edge of a range, or a small one. */
static uint32_t value(struct draft *draft)
{
    static const uint32_t edges[] = {0, 1, 49, 50, 1000, 1001, 2048, 4095, 4096, 10000, 10001, 100000, 100001, 500000, 500001};
    uint32_t size = below(draft, 2) ? edges[below(draft, sizeof edges / sizeof *edges)] : below(draft, 5000);
    return below(draft, 2) ? size : 0 - size;
}

/* Numbers of so many bytes, one behind the other. */
static void fill(struct draft *draft, uint8_t *body, size_t length, size_t bytes)
{
    for (size_t at = 0; at + bytes <= length; at += bytes) {
        uint32_t number = value(draft);
        for (size_t i = 0; i < bytes; i++)
            body[at + i] = (uint8_t)(number >> 8 * (bytes - 1 - i));
    }
}

/* A record of a kind that there is, or not, with the length that it should have. */
static void insert(struct draft *draft, size_t at)
{
    static const uint8_t kinds[] = {1, 2, 3, 128, 129, 4, 200}, lengths[] = {12, 2, 2, 0, 2, 2, 0};
    uint32_t which = below(draft, sizeof kinds);
    uint8_t record[2 + MOST_BODY] = {kinds[which], lengths[which] ? lengths[which] : (uint8_t)below(draft, MOST_BODY)};
    fill(draft, record + 2, record[1], kinds[which] == 1 ? 4 : 2);
    replace(draft, at, 0, record, 2u + record[1]);
}

/* Another body, of the same length but for notes and unknown records. */
static void change(struct draft *draft, size_t at)
{
    uint8_t record[2 + 255];
    size_t old = draft->file[at + 1];
    memcpy(record, draft->file + at, 2 + old);
    if (old == 0 || old > MOST_BODY)
        return;
    if (record[0] == 128 || record[0] > 129)
        record[1] = (uint8_t)LLVMFuzzerMutate(record + 2, old, MOST_BODY);
    else if (below(draft, 2))
        LLVMFuzzerMutate(record + 2, old, old);
    else
        fill(draft, record + 2, old, record[0] == 1 ? 4 : 2);
    replace(draft, at, 2 + old, record, 2u + record[1]);
}

static void change_records(struct draft *draft)
{
    uint8_t record[2 + 255];
    size_t at = any_record(draft);
    if (at == draft->length) {
        insert(draft, at);
        return;
    }
    size_t length = 2u + draft->file[at + 1];
    memcpy(record, draft->file + at, length);
    switch (below(draft, 6)) {
    case 0:
        replace(draft, at, length, record, 0);
        break;
    case 1:
        replace(draft, any_record(draft), 0, record, length);
        break;
    case 2:
        insert(draft, at);
        break;
    case 3:
        insert(draft, draft->length);
        break;
    default:
        change(draft, at);
    }
}

size_t LLVMFuzzerCustomMutator(uint8_t *data, size_t size, size_t most, unsigned seed)
{
    size_t start = size < 4 ? size : 4u + data[2] * 256u + data[3];
    if (seed % 2 || start + HEADER > size)
        return LLVMFuzzerMutate(data, size, most);
    struct draft draft = {data + start, size - start, most - start, seed | 1};
    for (uint32_t changes = 1 + below(&draft, 3); changes > 0; changes--)
        change_records(&draft);
    draft.file[9] = (uint8_t)((draft.length - HEADER) >> 8);
    draft.file[10] = (uint8_t)(draft.length - HEADER);
    return start + draft.length;
}
