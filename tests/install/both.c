/* Both archives in one program, in C99 and in C++. Of each plan that it is given: the refusal numbers for readers 0 to 4, which the two have to agree
 * on, and how many strips it has, which the desk's finds in the autopilot's state. */
#include "read.h"

#include <inttypes.h>

/* How many strips the plan has, 0 where it is no strip plan. */
static uint32_t strips(size_t length)
{
    int32_t state[FARNKUPPEL_STATE_WORDS];
    uint32_t loaded[FARNKUPPEL_LOAD_WORDS], answer[FARNKUPPEL_STRIPS_WORDS];
    farnkuppel_load(file, length, FARNKUPPEL_NEWEST, state, FARNKUPPEL_STATE_WORDS, loaded, FARNKUPPEL_LOAD_WORDS);
    farnkuppel_strips(state, FARNKUPPEL_STATE_WORDS, answer, FARNKUPPEL_STRIPS_WORDS);
    return farnkuppel_strip_check_of(answer, FARNKUPPEL_STRIPS_WORDS).count;
}

int main(int count, char **words)
{
    int32_t state[FARNKUPPEL_STATE_WORDS];
    uint32_t answer[FARNKUPPEL_LOAD_WORDS];
    for (int i = 1; i < count; i++) {
        size_t length = read_file(words[i]);
        for (uint32_t reader = 0; reader <= FARNKUPPEL_NEWEST + 1; reader++) {
            uint32_t refusal = farnkuppel_refusal(file, length, reader);
            if (farnkuppel_load(file, length, reader, state, FARNKUPPEL_STATE_WORDS, answer, FARNKUPPEL_LOAD_WORDS) != refusal)
                return 1;
            printf(reader ? " %" PRIu32 : "%" PRIu32, refusal);
        }
        printf(" strips %" PRIu32 "\n", strips(length));
    }
    return farnkuppel_interface() == FARNKUPPEL_INTERFACE ? 0 : 1;
}
