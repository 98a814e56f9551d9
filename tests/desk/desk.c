/* The desk's functions from C. A line for the interface. A line for each file and reader: the name, the reader, the refusal number, and the refusal
 * and place of a check. A line for a check or a count that lends another number of words than it needs: what was lent, the result, and every word
 * (- where it was not written). A line for each file whose notes are counted: the name, "has", and how many. A line for each file and note: the
 * name, the note's number, the result, the answer and the lent buffer, which held a dot at every byte. A line for each state whose strips are
 * checked, and for each strip that is asked for by its number: the result and every word; and the same where other lengths are lent.
 * Every file and state is written out below; what is expected is read off the rules: docs/RULES.md, sections 4, 5, 7 and 20. */
#include "../plan.h"
#include "farnkuppel.h"

#include <inttypes.h>
#include <stdio.h>
#include <stdlib.h>
#include <string.h>

static void note(const char *text)
{
    size_t bytes = strlen(text);
    put(128, 1);
    put((unsigned)bytes, 1);
    memcpy(file + length, text, bytes);
    length += bytes;
}

/* Memory of exactly so many bytes, so that an access past them is seen by a checker of memory. */
static void *exactly(size_t bytes)
{
    void *memory = bytes ? malloc(bytes) : NULL;
    if (bytes && !memory)
        exit(2);
    return memory;
}

static uint8_t *copy_of_file(void)
{
    uint8_t *copy = exactly(length);
    if (length)
        memcpy(copy, file, length);
    return copy;
}

static uint32_t *lent_words(size_t words)
{
    uint32_t *answer = exactly(words * sizeof *answer);
    for (size_t i = 0; i < words; i++)
        answer[i] = UINT32_MAX;
    return answer;
}

/* The words of an answer, and a line's end; what was lent is given back. */
static void print_words(uint32_t *answer, size_t words)
{
    for (size_t i = 0; i < words; i++) {
        if (answer[i] == UINT32_MAX)
            printf(" -");
        else
            printf(" %" PRIu32, answer[i]);
    }
    printf("\n");
    free(answer);
}

static void ask(const char *name, uint32_t reader)
{
    uint8_t *copy = copy_of_file();
    uint32_t *answer = lent_words(2);
    printf("%s %" PRIu32 " %" PRIu32, name, reader, farnkuppel_refusal(copy, length, reader));
    if (farnkuppel_check(copy, length, reader, answer, 2) != answer[0])
        printf(" returned otherwise");
    print_words(answer, 2);
    free(copy);
}

static void check_into(size_t words)
{
    uint8_t *copy = copy_of_file();
    uint32_t *answer = lent_words(words);
    printf("check into %zu words %" PRIu32, words, farnkuppel_check(copy, length, 3, answer, words));
    print_words(answer, words);
    free(copy);
}

static void count_into(size_t words)
{
    uint8_t *copy = copy_of_file();
    uint32_t *answer = lent_words(words);
    printf("count into %zu words %" PRIu32, words, farnkuppel_notes(copy, length, answer, words));
    print_words(answer, words);
    free(copy);
}

static void count(const char *name)
{
    uint8_t *copy = copy_of_file();
    uint32_t *answer = lent_words(1);
    printf("%s has", name);
    if (farnkuppel_notes(copy, length, answer, 1) != 0)
        printf(" not counted");
    print_words(answer, 1);
    free(copy);
}

static void ask_note_of(const char *name, uint32_t number, size_t room, size_t words)
{
    uint8_t *copy = copy_of_file();
    uint8_t *buffer = exactly(room);
    uint32_t *answer = exactly(words * sizeof *answer);
    if (room)
        memset(buffer, '.', room);
    if (words)
        answer[0] = UINT32_MAX;
    printf("%s %" PRIu32, name, number);
    printf(" %" PRIu32, farnkuppel_note(copy, length, number, buffer, room, answer, words));
    if (words && answer[0] != UINT32_MAX)
        printf(" %" PRIu32, answer[0]);
    else
        printf(" -");
    if (room)
        printf(" %.*s", (int)room, (const char *)buffer);
    printf("\n");
    free(answer);
    free(buffer);
    free(copy);
}

static void ask_note(const char *name, uint32_t number)
{
    ask_note_of(name, number, 32, 1);
}

static void ask_all(const char *name)
{
    for (uint32_t reader = 1; reader <= 3; reader++)
        ask(name, reader);
}

/* The example of the listing. */
static void lines(unsigned version)
{
    begin(version, 7);
    point(0, 0, -1000);
    point(1000, 0, -1000);
    point(1000, 2000, -1000);
    close_area();
}

static void corner(unsigned radius)
{
    begin(2, 7);
    pair(2, radius);
    point(0, 0, 0);
    point(1000, 0, 0);
    point(1000, 1000, 0);
    close_area();
}

static void dubins(int second_east)
{
    begin(3, 7);
    pair(2, 100);
    point(0, 0, 0);
    pair(3, 0);
    point(0, second_east, 0);
    pair(3, 0);
    point(0, 1000, 0);
    pair(3, 2048);
    close_area();
}

static void headers(void)
{
    lines(1);
    ask_all("lines");
    ask("lines", 0);
    ask("lines", 4);
    ask("lines", 65537);
    ask("lines", UINT32_MAX);
    length = 0;
    ask("empty", 3);
    lines(1);
    length = 10;
    ask("ten-bytes", 3);
    lines(1);
    file[0] = 'w';
    ask("other-mark", 3);
    lines(0);
    ask("version-0", 3);
    lines(1);
    memset(file + 5, 0, 4);
    ask("serial-0", 3);
    lines(1);
    file[10]++;
    ask("area-one-more", 3);
}

/* An area of 8,193 bytes is too long, whatever it holds; in one of 8,192 bytes the records decide. */
static void areas(void)
{
    lines(1);
    while (length < 11 + 8193)
        put(0, 1);
    close_area();
    ask("area-8193", 3);
    length--;
    close_area();
    ask("area-8192", 3);
}

static void records(void)
{
    lines(1);
    length--;
    close_area();
    ask("cut-record", 3);
    lines(4);
    put(200, 1);
    put(0, 1);
    close_area();
    ask_all("unknown-optional");
    lines(4);
    put(4, 1);
    put(0, 1);
    close_area();
    ask_all("unknown-kind");
    corner(200);
    ask_all("fillets");
    dubins(300);
    ask_all("dubins");
}

static void rules(void)
{
    begin(1, 7);
    point(0, 0, 0);
    point(1000, 0, 0);
    close_area();
    ask("two-points", 3);
    begin(3, 7);
    point(0, 0, 0);
    pair(3, 0);
    point(1000, 0, 0);
    point(1000, 1000, 0);
    close_area();
    ask("course-without-radius", 3);
    begin(1, 7);
    point(0, 0, 0);
    point(0, 0, 500);
    point(1000, 1000, 0);
    close_area();
    ask("equal-neighbours", 3);
    begin(1, 7);
    point(0, 0, 0);
    point(1000, 0, 0);
    point(500, 0, 0);
    close_area();
    ask("legs-opposite", 3);
    corner(1000);
    ask("radius-1000", 3);
    corner(1001);
    ask("radius-1001", 3);
    dubins(299);
    ask("ends-299-apart", 3);
}

/* A lines plan with four notes, and records that are none between them. */
static void noted(unsigned version)
{
    begin(version, 7);
    note("A");
    point(0, 0, 0);
    note("the second");
    note("a note has 32 bytes at the most.");
    pair(129, 500);
    point(1000, 0, 0);
    point(1000, 1000, 0);
    note("last");
    close_area();
}

static void notes(void)
{
    noted(3);
    for (uint32_t number = 0; number <= 5; number++)
        ask_note("noted", number);
    ask_note("noted", 257);
    ask_note("noted", 65537);
    ask_note("noted", UINT32_MAX);
    ask_note_of("room-40", 2, 40, 3);
    ask_note_of("room-31", 1, 31, 1);
    ask_note_of("no-room", 1, 0, 1);
    ask_note_of("no-answer", 1, 32, 0);
    ask_note_of("room-31-and-no-such-note", 9, 31, 1);
    count("noted");
}

/* Answers that are too short or longer than they have to be, on a file with four notes, and on one that is refused for its last record. */
static void lengths(void)
{
    noted(3);
    for (size_t words = 0; words <= 2; words++)
        count_into(words);
    put(200, 1);
    put(0, 1);
    close_area();
    for (size_t words = 0; words <= 3; words++)
        check_into(words);
    count_into(2);
}

/* As many notes as an area holds: 3 points of 14 bytes, then 2,716 notes of one byte. */
static void many_notes(void)
{
    lines(2);
    while (length + 3 <= 11 + 8192)
        note("n");
    close_area();
    count("many");
    ask_note("many", 2716);
    ask_note("many", 2717);
}

/* Files without a note, and files that the newest reader refuses. */
static void no_notes(void)
{
    lines(1);
    ask_note("lines", 1);
    count("lines");
    length = 0;
    ask_note("empty", 1);
    count("empty");
    noted(2);
    ask_note("speed-in-version-2", 1);
    count("speed-in-version-2");
    noted(3);
    memset(file + 5, 0, 4);
    ask_note("serial-0", 1);
    count("serial-0");
    noted(3);
    note("a note of 33 bytes, one too many.");
    close_area();
    ask_note("note-of-33-bytes", 1);
    count("note-of-33-bytes");
    noted(3);
    put(200, 1);
    put(0, 1);
    close_area();
    ask_note("unknown-in-version-3", 1);
    count("unknown-in-version-3");
}

/* A later file: what the newest reader does not know is no note. */
static void later_notes(void)
{
    lines(4);
    put(200, 1);
    put(2, 1);
    put(0x4142, 2);
    note("first");
    put(130, 1);
    put(0, 1);
    note("second");
    close_area();
    for (uint32_t number = 1; number <= 3; number++)
        ask_note("later", number);
    count("later");
}

/* ---- strips, of a state in words */

static int32_t state[263];

static void place(int number, int32_t north, int32_t east, int32_t course)
{
    state[FARNKUPPEL_STATE_NORTHS + number - 1] = north;
    state[FARNKUPPEL_STATE_EASTS + number - 1] = east;
    state[FARNKUPPEL_STATE_COURSES + number - 1] = course;
}

/* The start of a Dubins plan whose points are yet to be placed. */
static void start(int32_t radius, int32_t count)
{
    memset(state, 0, sizeof state);
    state[FARNKUPPEL_STATE_SERIAL] = 7;
    state[FARNKUPPEL_STATE_MODE] = 2;
    state[FARNKUPPEL_STATE_RADIUS] = radius;
    state[FARNKUPPEL_STATE_COUNT] = count;
    state[FARNKUPPEL_STATE_INDEX] = 2;
    state[FARNKUPPEL_STATE_PHASE] = 1;
}

/* Strips to the north-east, back, and to the north-east: their legs are (200, 200), (-400, -400) and (300, 300). */
static void three_strips(void)
{
    start(50, 6);
    place(1, 0, 0, 512);
    place(2, 200, 200, 512);
    place(3, 50, 350, 2560);
    place(4, -350, -50, 2560);
    place(5, -500, 100, 512);
    place(6, -200, 400, 512);
}

/* The same from the last point to the first. */
static void three_strips_back(void)
{
    start(50, 6);
    place(1, -200, 400, 2560);
    place(2, -500, 100, 2560);
    place(3, -350, -50, 512);
    place(4, 50, 350, 512);
    place(5, 200, 200, 2560);
    place(6, 0, 0, 2560);
}

/* As many strips as a plan has room for, to the north and back. The last leans by 1 of 1000, and its bearing is 2048 all the same. */
static void most_strips(void)
{
    start(100, 64);
    for (int i = 0; i < 32; i++) {
        int north = i % 2 == 0;
        place(2 * i + 1, north ? 0 : 1000, 400 * i, north ? 0 : 2048);
        place(2 * i + 2, north ? 1000 : 0, 400 * i, north ? 0 : 2048);
    }
    place(64, 0, 400 * 31 - 1, 2048);
}

/* The points behind so many go. */
static void cut_to(int count)
{
    state[FARNKUPPEL_STATE_COUNT] = count;
    for (int number = count + 1; number <= 64; number++)
        place(number, 0, 0, 0);
}

static void set_courses(int strip, int32_t first, int32_t second)
{
    state[FARNKUPPEL_STATE_COURSES + 2 * strip - 2] = first;
    state[FARNKUPPEL_STATE_COURSES + 2 * strip - 1] = second;
}

/* The front of the state, in memory of its own. */
static int32_t *copy_of_state(size_t lent)
{
    int32_t *copy = exactly(lent * sizeof *copy);
    if (lent)
        memcpy(copy, state, lent * sizeof *copy);
    return copy;
}

static void strips_into(const char *name, size_t lent, size_t room)
{
    int32_t *copy = copy_of_state(lent);
    uint32_t *answer = lent_words(room);
    printf("%s strips %" PRIu32, name, farnkuppel_strips(copy, lent, answer, room));
    print_words(answer, room);
    free(copy);
}

static void strip_into(const char *name, uint32_t number, size_t lent, size_t room)
{
    int32_t *copy = copy_of_state(lent);
    uint32_t *answer = lent_words(room);
    printf("%s strip %" PRIu32 " %" PRIu32, name, number, farnkuppel_strip(copy, lent, number, answer, room));
    print_words(answer, room);
    free(copy);
}

static void ask_strips(const char *name)
{
    strips_into(name, 263, 4);
}

static void ask_strip(const char *name, uint32_t number)
{
    strip_into(name, number, 263, 3);
}

static void strip_plans(void)
{
    three_strips();
    ask_strips("three-strips");
    for (uint32_t number = 0; number <= 4; number++)
        ask_strip("three-strips", number);
    ask_strip("three-strips", 257);
    ask_strip("three-strips", 65537);
    ask_strip("three-strips", UINT32_MAX);
    state[FARNKUPPEL_STATE_INDEX] = 6;
    state[FARNKUPPEL_STATE_PHASE] = 5;
    state[FARNKUPPEL_STATE_FINISHED] = 1;
    ask_strips("finished");
    ask_strip("finished", 2);
    three_strips_back();
    ask_strips("back");
    for (uint32_t number = 1; number <= 3; number++)
        ask_strip("back", number);
    three_strips();
    cut_to(4);
    ask_strips("two-strips");
    ask_strip("two-strips", 2);
    ask_strip("two-strips", 3);
    most_strips();
    ask_strips("most-strips");
    ask_strip("most-strips", 31);
    ask_strip("most-strips", 32);
    ask_strip("most-strips", 33);
}

/* Rule 1, also where a later rule is broken by the same strip or the same rule by a later one. */
static void courses_that_differ(void)
{
    three_strips();
    set_courses(1, 512, 513);
    ask_strips("first-differs");
    set_courses(2, 2560, 0);
    ask_strips("two-differ");
    three_strips();
    set_courses(1, 0, 512);
    ask_strips("start-differs");
    three_strips();
    set_courses(2, 512, 2560);
    ask_strips("middle-differs");
    three_strips();
    set_courses(3, 512, 511);
    ask_strips("last-differs");
    ask_strip("last-differs", 1);
}

/* Rule 2: a unit off by the courses, or by the leg, whose strip is then still opposite to the one before. (1000, 1001) is on the right of the
 * direction 512, within a unit of it, (1001, 1000) on its left. */
static void courses_off_the_leg(void)
{
    three_strips();
    set_courses(1, 511, 511);
    ask_strips("first-below");
    three_strips();
    set_courses(2, 2561, 2561);
    ask_strips("middle-above");
    three_strips();
    set_courses(3, 513, 513);
    ask_strips("last-above");
    three_strips();
    place(6, -500 + 1000, 100 + 1001, 512);
    ask_strips("leg-on-the-right");
    ask_strip("leg-on-the-right", 3);
    place(6, -500 + 1001, 100 + 1000, 512);
    ask_strips("leg-on-the-left");
    three_strips();
    place(4, 50 - 1001, 350 - 1000, 2560);
    ask_strips("middle-leg-on-the-left");
}

/* Rule 3: strips that keep the other two. */
static void courses_not_opposite(void)
{
    three_strips();
    place(3, 50, 350, 512);
    place(4, 450, 750, 512);
    ask_strips("second-goes-on");
    three_strips();
    place(6, -500, 600, 1024);
    set_courses(3, 1024, 1024);
    ask_strips("last-across");
    place(6, -500 + 1001, 100 + 1000, 511);
    set_courses(3, 511, 511);
    ask_strips("opposite-by-2047");
}

/* Plans that have no strips to look at, whatever their courses are. */
static void no_strips(void)
{
    three_strips();
    cut_to(5);
    ask_strips("odd");
    set_courses(1, 0, 1);
    ask_strips("odd-and-first-differs");
    three_strips();
    for (int strip = 1; strip <= 3; strip++)
        set_courses(strip, 0, 0);
    state[FARNKUPPEL_STATE_MODE] = 1;
    ask_strips("fillets");
    ask_strip("fillets", 1);
    state[FARNKUPPEL_STATE_MODE] = 0;
    state[FARNKUPPEL_STATE_RADIUS] = 0;
    ask_strips("lines");
    ask_strip("lines", 1);
}

/* Words that hold no state, also where there would be no strip plan. */
static void no_state(void)
{
    memset(state, 0, sizeof state);
    ask_strips("no-plan");
    ask_strip("no-plan", 1);
    three_strips();
    state[FARNKUPPEL_STATE_INDEX] = 7;
    ask_strips("index-7");
    ask_strip("index-7", 1);
    three_strips();
    set_courses(3, 512, 4608);
    ask_strips("course-4608");
    three_strips();
    place(2, 100, 100, 513);
    ask_strips("ends-141-apart");
    three_strips();
    state[FARNKUPPEL_STATE_COUNT] = 5;
    ask_strips("odd-with-a-point-behind");
    three_strips();
    state[FARNKUPPEL_STATE_MODE] = 0;
    ask_strips("lines-with-a-radius");
    three_strips();
    state[FARNKUPPEL_STATE_SERIAL] = 0;
    ask_strips("serial-0");
}

/* Slices that are too short, or longer than they have to be. */
static void strip_lengths(void)
{
    three_strips();
    for (size_t room = 0; room <= 5; room++)
        strips_into("into", 263, room);
    for (size_t room = 0; room <= 4; room++)
        strip_into("into", 2, 263, room);
    strips_into("of-262", 262, 4);
    strip_into("of-262", 2, 262, 3);
    strips_into("of-none", 0, 4);
    strip_into("of-none", 2, 0, 3);
    memset(state, 0, sizeof state);
    strips_into("no-plan-into", 263, 3);
    strip_into("no-plan-into", 1, 263, 2);
}

static void interface(void)
{
    printf("interface %" PRIu32 "\n", farnkuppel_interface());
}

int main(void)
{
    interface();
    headers();
    areas();
    records();
    rules();
    notes();
    lengths();
    many_notes();
    no_notes();
    later_notes();
    strip_plans();
    courses_that_differ();
    courses_off_the_leg();
    courses_not_opposite();
    no_strips();
    no_state();
    strip_lengths();
    return 0;
}
