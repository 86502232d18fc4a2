/* The library through corrector.h: document 01's samples, yields, lookups for each base, jobs of several confirms, every refusal, answers of every length, indexes, counts, needs, edits, FASTA, threads. */
#include "corrector.h"

#include <pthread.h>
#include <stdio.h>
#include <stdlib.h>
#include <string.h>

enum { BLOCK = 512, SET = 2 * BLOCK, OUTPUT = 64, WORK = 128, FILL = 170, THREADS = 8, CALLS = 500 };

static const uint64_t KEPT = 0xabababababababab;

/* Of the sample set's keys. */
static const uint32_t rising_counts[] = {10, 20, 30, 40, 50};

static int passed, failed;

static void check(const char *name, int right)
{
    if (right) {
        passed++;
    } else {
        failed++;
        printf("failed: %s\n", name);
    }
}

/* ---- the sample set: k = 3, keys 6, 23, 51, 58, 60 */

static void put_word(uint8_t *set, size_t word, uint64_t value)
{
    for (size_t byte = 0; byte < 8; byte++)
        set[8 * word + byte] = (uint8_t)(value >> (8 * byte));
}

static void sample_set(uint8_t *set)
{
    static const uint64_t keys[] = {6, 23, 51, 58, 60};
    memset(set, 0, SET);
    put_word(set, 0, 3);
    put_word(set, 1, 5);
    put_word(set, 63, 9);
    for (size_t i = 0; i < 5; i++)
        put_word(set, 64 + i, keys[i]);
    put_word(set, 127, 200);
}

/* ---- one call on buffers of its own, filled before it */

typedef uint64_t call(
    const uint8_t *, size_t, const uint8_t *, size_t, const uint32_t *, size_t, const uint8_t *, size_t, const uint8_t *, size_t, uint8_t *, size_t,
    uint8_t *, size_t, uint64_t *, size_t);

/* No index, no counts are offered: their length is 0, and the pointer may be any that is aligned. */
#define NO_INDEX (const uint8_t *)"", 0
#define NO_COUNTS (const uint32_t[]){0}, 0

/* A job and its length in bytes: of one entry, of a text, of an array. */
#define ENTRY(method, confirm) (const uint8_t[]){method, confirm}, 2
#define JOB(text) (const uint8_t *)(text), sizeof(text) - 1
#define ENTRIES(array) (const uint8_t *)(array), sizeof(array)

struct done {
    uint64_t number;
    uint64_t answer[CORRECTOR_CALL_NUMBERS];
    uint8_t output[OUTPUT];
    uint8_t work[WORK];
};

struct offered {
    const uint8_t *index;
    size_t index_length;
    const uint32_t *counts;
    size_t counts_length;
};

static struct done run_offered(
    call *entry, const uint8_t *set, struct offered offered, const uint8_t *job, size_t job_length, const char *input, size_t room)
{
    struct done done;
    memset(&done, FILL, sizeof done);
    done.number = entry(
        set, SET, offered.index, offered.index_length, offered.counts, offered.counts_length, job, job_length, (const uint8_t *)input, strlen(input),
        done.output, room, done.work, WORK, done.answer, CORRECTOR_CALL_NUMBERS);
    return done;
}

static struct done run_indexed(
    call *entry, const uint8_t *set, const uint8_t *index, size_t index_length, const uint8_t *job, size_t job_length, const char *input, size_t room)
{
    return run_offered(entry, set, (struct offered){index, index_length, NO_COUNTS}, job, job_length, input, room);
}

static struct done run(call *entry, const uint8_t *set, const uint8_t *job, size_t job_length, const char *input, size_t room)
{
    return run_indexed(entry, set, NO_INDEX, job, job_length, input, room);
}

static int all(const uint8_t *bytes, size_t length, uint8_t byte)
{
    for (size_t i = 0; i < length; i++)
        if (bytes[i] != byte)
            return 0;
    return 1;
}

static int gives(const struct done *done, const char *result)
{
    size_t length = strlen(result);
    return done->number == 0 && done->answer[CORRECTOR_NUMBER] == 0 && done->answer[CORRECTOR_PLACE] == 0 && done->answer[CORRECTOR_WRITTEN] == length
        && memcmp(done->output, result, length) == 0 && all(done->output + length, OUTPUT - length, 0) && all(done->work, WORK, 0);
}

/* What stays in the buffers: FILL, or 0 after refusal 11. */
static int refuses(const struct done *done, size_t room, uint64_t number, uint64_t place)
{
    uint8_t byte = number == CORRECTOR_NO_ROOM ? 0 : FILL;
    int numbers = done->number == number && done->answer[CORRECTOR_NUMBER] == number && done->answer[CORRECTOR_PLACE] == place;
    for (size_t i = CORRECTOR_WRITTEN; i < CORRECTOR_CALL_NUMBERS; i++)
        numbers = numbers && done->answer[i] == 0;
    return numbers && all(done->output, room, byte) && all(done->output + room, OUTPUT - room, FILL) && all(done->work, WORK, byte);
}

/* ---- document 01, "Sample reads"; -1 where it says no number */

static const struct sample {
    uint8_t method, confirm;
    const char *read, *result;
    int turns, lookups;
} samples[] = {
    {CORRECTOR_ONE, 1, "AACGC", "AACTC", 2, 12},
    {CORRECTOR_ONE, 1, "AACC", "AACTC", 2, 11},
    {CORRECTOR_ONE, 1, "AACGTC", "AACTC", -1, -1},
    {CORRECTOR_ONE, 1, "AACG", "AACG", -1, -1},
    {CORRECTOR_ONE, 1, "AACGCCG", "AACTCCG", -1, 16},
    {CORRECTOR_TWO, 1, "AACCG", "AACCG", -1, -1},
    {CORRECTOR_TWO, 2, "AACCG", "AACTCCG", -1, -1},
    {CORRECTOR_GRAPH, 1, "AACGCCG", "AACTCCG", 1, 21},
    {CORRECTOR_GRAPH, 1, "AACGC", "AACGC", -1, -1},
    {CORRECTOR_GAP_SIZE, 1, "AACGCCG", "AACTCCG", -1, 19},
    {CORRECTOR_ONE, 1, "AA", "AA", 0, 0},
    {CORRECTOR_ONE, 1, "", "", 0, 0},
    {CORRECTOR_ONE, 1, "AAC", "AAC", 0, 1},
};

enum { SAMPLES = sizeof samples / sizeof samples[0] };

static int counts(const struct done *done, const struct sample *sample)
{
    return (sample->turns < 0 || done->answer[CORRECTOR_TURNS] == (uint64_t)sample->turns)
        && (sample->lookups < 0 || done->answer[CORRECTOR_LOOKUPS] == (uint64_t)sample->lookups)
        && done->answer[CORRECTOR_YIELD] * done->answer[CORRECTOR_ATTEMPTS] == done->answer[CORRECTOR_ACCEPTED] * 1000;
}

static int sample_right(const uint8_t *set, const struct sample *sample)
{
    char line[16], result[16];
    struct done read = run(corrector_read, set, ENTRY(sample->method, sample->confirm), sample->read, OUTPUT);
    snprintf(line, sizeof line, "%s\n", sample->read);
    snprintf(result, sizeof result, "%s\n", sample->result);
    struct done batch = run(corrector_batch, set, ENTRY(sample->method, sample->confirm), line, OUTPUT);
    return gives(&read, sample->result) && counts(&read, sample) && gives(&batch, result) && counts(&batch, sample);
}

static void test_samples(const uint8_t *set)
{
    for (size_t i = 0; i < SAMPLES; i++)
        check(samples[i].read, sample_right(set, &samples[i]));
    struct done two = run(corrector_batch, set, JOB("\3\1"), "AACGCCG\nAA\n", OUTPUT);
    check("two lines", gives(&two, "AACTCCG\nAA\n") && two.answer[CORRECTOR_TURNS] == 1 && two.answer[CORRECTOR_LOOKUPS] == 21);
    struct done none = run(corrector_batch, set, JOB("\3\1"), "", OUTPUT);
    check("empty batch", gives(&none, ""));
}

/* ---- the yield: One mends AACGC, and attempts AACG in vain */

static int yields(const uint8_t *set, size_t mended, size_t attempts, uint64_t yield)
{
    uint8_t batch[128], output[128], work[256];
    uint64_t answer[8];
    size_t length = 0;
    for (size_t i = 0; i < attempts; i++) {
        const char *line = i < mended ? "AACGC\n" : "AACG\n";
        memcpy(batch + length, line, strlen(line));
        length += strlen(line);
    }
    return corrector_batch(set, SET, NO_INDEX, NO_COUNTS, JOB("\1\1"), batch, length, output, sizeof output, work, sizeof work, answer, 8) == 0
        && answer[CORRECTOR_ATTEMPTS] == attempts && answer[CORRECTOR_ACCEPTED] == mended && answer[CORRECTOR_YIELD] == yield;
}

static void test_yields(const uint8_t *set)
{
    check("an exact half to the even neighbour", yields(set, 1, 16, 62) && yields(set, 3, 16, 188));
    check("the nearest whole", yields(set, 2, 3, 667) && yields(set, 1, 3, 333));
    check("all, none, no attempts", yields(set, 7, 7, 1000) && yields(set, 0, 7, 0) && yields(set, 0, 0, 0));
}

/* ---- lookups for each base */

static int per_base(call *entry, const uint8_t *set, const uint8_t *job, size_t job_length, const char *input, const uint64_t *numbers)
{
    struct done done = run(entry, set, job, job_length, input, OUTPUT);
    return done.number == 0 && done.answer[CORRECTOR_LOOKUPS] == numbers[0] && done.answer[CORRECTOR_BASES] == numbers[1]
        && done.answer[CORRECTOR_QUOTIENT] == numbers[2] && done.answer[CORRECTOR_REMAINDER] == numbers[3];
}

/* Lookups, bases, quotient, remainder. */
#define FOUR(...) (const uint64_t[]){__VA_ARGS__}

static void test_per_base(const uint8_t *set)
{
    check("21 lookups for 4 bases", per_base(corrector_read, set, JOB("\3\1"), "AACGCCG", FOUR(21, 4, 5, 1)));
    check("a read of k letters has no base", per_base(corrector_read, set, JOB("\1\1"), "AAC", FOUR(1, 0, 0, 0)));
    check("shorter than k", per_base(corrector_batch, set, JOB("\1\1"), "AA\n\n", FOUR(0, 0, 0, 0)));
    check("no entries, no bases", per_base(corrector_read, set, JOB(""), "AACGCCG", FOUR(0, 0, 0, 0)));
    check("the bases of every pass", per_base(corrector_read, set, JOB("\1\1\1\1"), "AACC", FOUR(14, 3, 4, 2)));
    check("the bases of every line", per_base(corrector_batch, set, JOB("\1\1"), "AACGC\nAA\nAACGCCG\nAAC\n", FOUR(29, 6, 4, 5)));
    check("fewer lookups than bases", per_base(corrector_read, set, JOB("\1\1"), "NNNNAAC", FOUR(1, 4, 0, 1)));
}

/* ---- jobs: Two mends AACCG with confirm 2 and not with 1, whichever entry has it */

static void test_jobs(const uint8_t *set)
{
    static const struct corrector_entry rising[] = {{CORRECTOR_TWO, 1}, {CORRECTOR_TWO, 2}}, falling[] = {{CORRECTOR_TWO, 2}, {CORRECTOR_TWO, 1}};
    struct done list = run(corrector_read, set, JOB("\3\1\1\1"), "AACGC", OUTPUT);
    check("two methods", gives(&list, "AACTC"));
    struct done rise = run(corrector_read, set, ENTRIES(rising), "AACCG", OUTPUT);
    struct done fall = run(corrector_batch, set, ENTRIES(falling), "AACCG\n", OUTPUT);
    check("confirm 1, then 2", gives(&rise, "AACTCCG") && rise.answer[CORRECTOR_YIELD] == 500);
    check("confirm 2, then 1", gives(&fall, "AACTCCG\n") && fall.answer[CORRECTOR_YIELD] == 1000);
    struct done eight = run(corrector_read, set, JOB("\2\1\2\1\2\1\2\1\2\1\2\1\2\1\2\2"), "AACCG", OUTPUT);
    check("eight entries", gives(&eight, "AACTCCG"));
    struct done copied = run(corrector_batch, set, JOB(""), "AACGC\n\n", OUTPUT);
    check("no entries", gives(&copied, "AACGC\n\n") && copied.answer[CORRECTOR_LOOKUPS] == 0);
}

/* ---- refusals */

static int refused_alike(const uint8_t *set, const uint8_t *job, size_t job_length, const char *input, uint64_t number, uint64_t place)
{
    struct done read = run(corrector_read, set, job, job_length, input, OUTPUT);
    struct done batch = run(corrector_batch, set, job, job_length, input, OUTPUT);
    return refuses(&read, OUTPUT, number, place) && refuses(&batch, OUTPUT, number, place);
}

static void test_job_refusals(const uint8_t *set)
{
    enum { BYTES = 2 * CORRECTOR_MAX_ENTRIES };
    uint8_t job[BYTES + 2];
    int unknown = 1, zero = 1, half = 1;
    memset(job, 1, sizeof job);
    check("2, 9 entries", refused_alike(set, job, BYTES + 2, "\n", CORRECTOR_ENTRY_COUNT, 0));
    check("2, 8 entries and a half", refused_alike(set, job, BYTES + 1, "\n", CORRECTOR_ENTRY_COUNT, 0));
    for (size_t place = 0; place < CORRECTOR_MAX_ENTRIES; place++) {
        half = half && refused_alike(set, job, 2 * place + 1, "\n", CORRECTOR_CONFIRM_ZERO, place);
        job[2 * place + 1] = 0;
        zero = zero && refused_alike(set, job, BYTES, "\n", CORRECTOR_CONFIRM_ZERO, place);
        job[BYTES - 2] = 5;
        unknown = unknown && refused_alike(set, job, BYTES, "\n", CORRECTOR_METHOD_UNKNOWN, CORRECTOR_MAX_ENTRIES - 1);
        job[2 * place] = 0;
        unknown = unknown && refused_alike(set, job, BYTES, "\n", CORRECTOR_METHOD_UNKNOWN, place);
        memset(job, 1, sizeof job);
    }
    check("3, at each place, before 4", unknown);
    check("4, at each place", zero);
    check("4, half an entry", half);
    memset(job, 0, sizeof job);
    check("2 before 3 and 4", refused_alike(set, job, BYTES + 2, "\n", CORRECTOR_ENTRY_COUNT, 0));
}

static void test_input_refusals(const uint8_t *set)
{
    size_t length = CORRECTOR_MAX_INPUT + 1;
    char *input = malloc(length + 1);
    memset(input, '\n', length);
    input[length] = 0;
    check("1", refused_alike(set, JOB("\1\1"), input, CORRECTOR_INPUT_LENGTH, 0));
    check("1 before 4", refused_alike(set, JOB("\1\0"), input, CORRECTOR_INPUT_LENGTH, 0));
    input[WORK / 2 + 1] = 0;
    check("5", refused_alike(set, JOB("\1\1"), input, CORRECTOR_BUFFERS, 0));
    check("4 before 5", refused_alike(set, JOB("\1\0"), input, CORRECTOR_CONFIRM_ZERO, 0));
    struct done open_ended = run(corrector_batch, set, JOB("\1\1"), "AA\nAAC", OUTPUT);
    check("6, no final 10", refuses(&open_ended, OUTPUT, CORRECTOR_BATCH, 0));
    free(input);
}

static uint64_t lines(const uint8_t *set, size_t count)
{
    uint8_t batch[CORRECTOR_MAX_LINES + 1], output[sizeof batch], work[2 * sizeof batch];
    memset(batch, '\n', sizeof batch);
    return corrector_batch(
        set, SET, NO_INDEX, NO_COUNTS, ENTRY(CORRECTOR_ONE, 1), batch, count, output, sizeof output, work, sizeof work, (uint64_t[]){0}, 0);
}

static void test_lines(const uint8_t *set)
{
    check("as many lines as may be", lines(set, CORRECTOR_MAX_LINES) == 0);
    check("6, a line more", lines(set, CORRECTOR_MAX_LINES + 1) == CORRECTOR_BATCH);
}

static int not_counted(const uint8_t *set, size_t length, const uint8_t *read, size_t read_length, uint64_t refusal, uint64_t place)
{
    uint64_t answer[CORRECTOR_SOLID_NUMBERS];
    uint64_t number = corrector_count_solid(set, length, read, read_length, answer, CORRECTOR_SOLID_NUMBERS);
    return number == refusal && answer[CORRECTOR_NUMBER] == refusal && answer[CORRECTOR_PLACE] == place && answer[CORRECTOR_KMERS] == 0
        && answer[CORRECTOR_SOLID] == 0;
}

static int set_refused(const uint8_t *set, size_t length, uint64_t number, uint64_t place)
{
    struct done done;
    uint64_t opened[CORRECTOR_OPEN_NUMBERS] = {KEPT, KEPT, KEPT, KEPT};
    memset(&done, FILL, sizeof done);
    done.number = corrector_read(
        set, length, NO_INDEX, NO_COUNTS, ENTRY(CORRECTOR_ONE, 1), (const uint8_t *)"AAC", 3, done.output, OUTPUT, done.work, WORK, done.answer,
        CORRECTOR_CALL_NUMBERS);
    return refuses(&done, OUTPUT, number, place) && corrector_open(set, length, opened, CORRECTOR_OPEN_NUMBERS) == number
        && opened[CORRECTOR_NUMBER] == number && opened[CORRECTOR_PLACE] == place && opened[CORRECTOR_K] == 0 && opened[CORRECTOR_N] == 0
        && not_counted(set, length, (const uint8_t *)"AAC", 3, number, place);
}

static void test_set_refusals(void)
{
    uint8_t set[SET];
    sample_set(set);
    check("7, empty", set_refused(set, 0, CORRECTOR_SET_LENGTH, 0));
    check("7, cut", set_refused(set, SET - 1, CORRECTOR_SET_LENGTH, 0));
    set[SET - 9]++;
    check("8", set_refused(set, SET, CORRECTOR_SET_CHECK, 1));
    sample_set(set);
    check("9, a block missing", set_refused(set, BLOCK, CORRECTOR_SET_HEADER, 0));
    put_word(set, 0, 4);
    put_word(set, 63, 10);
    check("9, even k", set_refused(set, SET, CORRECTOR_SET_HEADER, 0));
    sample_set(set);
    put_word(set, 64 + 2, 52);
    put_word(set, 127, 201);
    check("10", set_refused(set, SET, CORRECTOR_SET_KEY, 2));
}

static void test_no_room(const uint8_t *set)
{
    struct done read = run(corrector_read, set, ENTRY(CORRECTOR_ONE, 1), "AACC", 4);
    check("11, read", refuses(&read, 4, CORRECTOR_NO_ROOM, 0));
    struct done batch = run(corrector_batch, set, ENTRY(CORRECTOR_ONE, 1), "AA\nAACC\n", 8);
    check("11, batch", refuses(&batch, 8, CORRECTOR_NO_ROOM, 1));
    batch = run(corrector_batch, set, ENTRY(CORRECTOR_ONE, 1), "AA\nAACC\n", 9);
    check("11, just room", batch.number == 0 && batch.answer[CORRECTOR_WRITTEN] == 9);
}

/* ---- FASTA */

static int fasta_gives(const uint8_t *set, const uint8_t *job, size_t job_length, const char *file, const char *result)
{
    size_t length = strlen(result);
    struct done done = run(corrector_fasta, set, job, job_length, file, OUTPUT), just = run(corrector_fasta, set, job, job_length, file, length);
    return gives(&done, result) && just.number == 0 && memcmp(just.output, result, length) == 0;
}

static int fasta_refused(const uint8_t *set, const uint8_t *job, size_t job_length, const char *file, size_t room, uint64_t number, uint64_t place)
{
    struct done done = run(corrector_fasta, set, job, job_length, file, room);
    return refuses(&done, room, number, place);
}

static void test_fasta(const uint8_t *set)
{
    uint8_t cut[SET];
    memcpy(cut, set, SET);
    cut[0]++;
    struct done done = run(corrector_fasta, set, JOB("\3\1"), ">a\nAACG\nCCG\n>b\n\n>c\nAA\n", OUTPUT);
    check("FASTA", gives(&done, ">a\nAACTCCG\n>b\n>c\nAA\n") && done.answer[CORRECTOR_TURNS] == 1 && done.answer[CORRECTOR_LOOKUPS] == 21
        && done.answer[CORRECTOR_BASES] == 4 && done.answer[CORRECTOR_YIELD] == 1000);
    check("no records", fasta_gives(set, JOB("\1\1"), "", "") && fasta_gives(set, JOB("\1\1"), "\n\n", ""));
    check("names, empty lines", fasta_gives(set, JOB(""), "\n>\n\n>>x > y\nA\n\nC\n", ">\n>>x > y\nAC\n"));
    check("byte 13 is a base", fasta_gives(set, JOB(""), ">a\nA\r\nC\r\n", ">a\nA\rC\r\n"));
    check("18 before the first name", fasta_refused(set, JOB("\1\1"), "\n\nAC\n>a\n", OUTPUT, CORRECTOR_SEQUENCE, 2));
    check("18 by a mark", fasta_refused(set, JOB("\1\1"), ">a>\n\nAC\nA>C\n", OUTPUT, CORRECTOR_SEQUENCE, 3));
    check("6 before 18", fasta_refused(set, JOB("\1\1"), "AC\n>a", OUTPUT, CORRECTOR_BATCH, 0));
    check("18 before 8", fasta_refused(cut, JOB("\1\1"), "AC\n", OUTPUT, CORRECTOR_SEQUENCE, 0)
        && fasta_refused(cut, JOB("\1\1"), ">a\n", OUTPUT, CORRECTOR_SET_CHECK, 0));
    check("11 by the text", fasta_refused(set, JOB("\1\1"), ">\n>a\nAACC\n", 10, CORRECTOR_NO_ROOM, 1) && fasta_gives(set, JOB("\1\1"), ">\n>a\nAACC\n", ">\n>a\nAACTC\n"));
    done = run(corrector_fasta, set, JOB("\1\377\3\1"), ">\n>\nAACAAAAAATCC\n", 14);
    check("11 by a pass result", done.number == 0 && done.answer[CORRECTOR_WRITTEN] == 11
        && fasta_refused(set, JOB("\1\377\3\1"), ">\n>\nAACAAAAAATCC\n", 13, CORRECTOR_NO_ROOM, 1));
}

/* ---- answers of every length: what is written is the start of the whole answer */

static int starts_alike(const uint64_t *answer, size_t length, const uint64_t *whole, size_t numbers, size_t room)
{
    for (size_t i = 0; i < room; i++)
        if (answer[i] != (i < length && i < numbers ? whole[i] : KEPT))
            return 0;
    return 1;
}

static int short_answers(call *entry, const uint8_t *set, size_t counted, uint8_t confirm, const char *input)
{
    struct done whole = run_offered(entry, set, (struct offered){NO_INDEX, rising_counts, counted}, ENTRY(CORRECTOR_ONE, confirm), input, OUTPUT);
    for (size_t length = 0; length <= 15; length++) {
        uint64_t answer[17];
        uint8_t output[OUTPUT], work[WORK];
        for (size_t i = 0; i < 17; i++)
            answer[i] = KEPT;
        memset(output, FILL, OUTPUT);
        memset(work, FILL, WORK);
        uint64_t number = entry(
            set, SET, NO_INDEX, rising_counts, counted, ENTRY(CORRECTOR_ONE, confirm), (const uint8_t *)input, strlen(input), output, OUTPUT, work, WORK,
            answer, length);
        if (number != whole.number || !starts_alike(answer, length, whole.answer, CORRECTOR_CALL_NUMBERS, 17)
            || memcmp(output, whole.output, OUTPUT) != 0 || memcmp(work, whole.work, WORK) != 0)
            return 0;
    }
    return 1;
}

static int short_openings(const uint8_t *set, size_t set_length, const uint64_t *whole)
{
    for (size_t length = 0; length <= 6; length++) {
        uint64_t answer[8];
        for (size_t i = 0; i < 8; i++)
            answer[i] = KEPT;
        if (corrector_open(set, set_length, answer, length) != whole[0] || !starts_alike(answer, length, whole, CORRECTOR_OPEN_NUMBERS, 8))
            return 0;
    }
    return 1;
}

static void test_answers(const uint8_t *set)
{
    static const uint64_t opened[] = {0, 0, 3, 5}, cut[] = {7, 0, 0, 0};
    uint8_t wrong[SET];
    memcpy(wrong, set, SET);
    wrong[SET - 1]++;
    static const uint64_t damaged[] = {8, 1, 0, 0};
    check("answers of open", short_openings(set, SET, opened) && short_openings(set, SET - 1, cut) && short_openings(wrong, SET, damaged));
    check("answers of read", short_answers(corrector_read, set, 0, 1, "AACGC") && short_answers(corrector_read, set, 5, 1, "AACGC"));
    check("answers of a refused read", short_answers(corrector_read, set, 0, 0, "AACGC") && short_answers(corrector_read, set, 4, 1, "AACGC"));
    check("answers of batch", short_answers(corrector_batch, set, 0, 1, "AACGC\nAACGCCG\n") && short_answers(corrector_batch, set, 5, 1, "AACGC\nAACGCCG\n"));
    check("answers of a refused batch", short_answers(corrector_batch, set, 5, 1, "AACGC"));
    check("answers of FASTA", short_answers(corrector_fasta, set, 5, 1, ">a\nAACGC\n") && short_answers(corrector_fasta, set, 5, 1, ">a\nA>\n"));
}

static int counts_solid(const uint8_t *set, size_t length, const char *read, uint64_t kmers, uint64_t solid)
{
    uint64_t answer[CORRECTOR_SOLID_NUMBERS];
    uint64_t number = corrector_count_solid(set, length, (const uint8_t *)read, strlen(read), answer, CORRECTOR_SOLID_NUMBERS);
    return number == answer[CORRECTOR_NUMBER] && number == CORRECTOR_NOT_REFUSED && answer[CORRECTOR_PLACE] == 0
        && answer[CORRECTOR_KMERS] == kmers && answer[CORRECTOR_SOLID] == solid;
}

static void test_count(const uint8_t *set)
{
    static uint8_t long_read[CORRECTOR_MAX_INPUT + 1];
    uint8_t wrong[SET];
    memcpy(wrong, set, SET);
    wrong[SET - 1]++;
    check("solid k-mers", counts_solid(set, SET, "AACTCCG", 5, 5) && counts_solid(set, SET, "AACGC", 3, 1) && counts_solid(set, SET, "AAC", 1, 1)
        && counts_solid(set, SET, "ACGT", 2, 0));
    check("no k-mers", counts_solid(set, SET, "AA", 0, 0) && counts_solid(set, SET, "", 0, 0));
    check("a count is refused", not_counted(set, SET, long_read, sizeof long_read, CORRECTOR_INPUT_LENGTH, 0)
        && not_counted(set, SET - 1, long_read, 3, CORRECTOR_SET_LENGTH, 0) && not_counted(wrong, SET, long_read, 3, CORRECTOR_SET_CHECK, 1));
}

/* ---- a set made from text: the sample set's keys, in the order of their codes, and their counts */

static const char counts_text[] = "ACT,9\nCCG,4\nCTC,7\nAAC,5\nTCC,0000000008\n";

static const uint32_t sample_counts[] = {9, 4, 7, 5, 8};

enum { ROOM = SET + 8, COUNTS = 7 };

static const uint32_t COUNT_KEPT = 0xabababab;

static void keep_counts(uint32_t *counts)
{
    for (size_t i = 0; i < COUNTS; i++)
        counts[i] = COUNT_KEPT;
}

static int all_counts(const uint32_t *counts, size_t length, uint32_t count)
{
    for (size_t i = 0; i < length; i++)
        if (counts[i] != count)
            return 0;
    return 1;
}

static int makes(const char *text, uint64_t k, uint64_t least, const uint8_t *set, size_t length, const uint32_t *list, size_t n, size_t room)
{
    uint8_t blocks[ROOM];
    uint32_t counts[COUNTS];
    uint64_t answer[CORRECTOR_MADE_NUMBERS];
    memset(blocks, FILL, ROOM);
    keep_counts(counts);
    uint64_t number = corrector_make_set((const uint8_t *)text, strlen(text), k, least, blocks, ROOM, counts, room, answer, CORRECTOR_MADE_NUMBERS);
    return number == 0 && answer[CORRECTOR_NUMBER] == 0 && answer[CORRECTOR_PLACE] == 0 && answer[CORRECTOR_LENGTH] == length
        && memcmp(blocks, set, length) == 0 && all(blocks + length, ROOM - length, 0) && memcmp(counts, list, n * sizeof *list) == 0
        && all_counts(counts + n, room - n, 0) && all_counts(counts + room, COUNTS - room, COUNT_KEPT);
}

/* Refused for want of room for the blocks, or for the counts, or otherwise: neither changes. */
static int not_made_in(const char *text, uint64_t k, uint64_t least, size_t room, size_t count_room, uint64_t refusal, uint64_t place)
{
    uint8_t blocks[ROOM];
    uint32_t counts[COUNTS];
    uint64_t answer[CORRECTOR_MADE_NUMBERS];
    memset(blocks, FILL, ROOM);
    keep_counts(counts);
    uint64_t number = corrector_make_set((const uint8_t *)text, strlen(text), k, least, blocks, room, counts, count_room, answer, CORRECTOR_MADE_NUMBERS);
    return number == refusal && answer[CORRECTOR_NUMBER] == refusal && answer[CORRECTOR_PLACE] == place && answer[CORRECTOR_LENGTH] == 0
        && all(blocks, ROOM, FILL) && all_counts(counts, COUNTS, COUNT_KEPT);
}

static int not_made(const char *text, uint64_t k, uint64_t least, size_t room, uint64_t refusal, uint64_t place)
{
    return not_made_in(text, k, least, room, COUNTS, refusal, place) && not_made_in(text, k, least, room, 0, refusal, place);
}

static int short_made(const char *text, const uint64_t *whole)
{
    for (size_t length = 0; length <= 5; length++) {
        uint8_t blocks[SET];
        uint32_t counts[COUNTS];
        uint64_t answer[8];
        for (size_t i = 0; i < 8; i++)
            answer[i] = KEPT;
        memset(blocks, FILL, SET);
        keep_counts(counts);
        if (corrector_make_set((const uint8_t *)text, strlen(text), 3, 1, blocks, SET, counts, COUNTS, answer, length) != whole[0]
            || !starts_alike(answer, length, whole, CORRECTOR_MADE_NUMBERS, 8))
            return 0;
    }
    return 1;
}

static void test_make(const uint8_t *set)
{
    static const uint64_t made[] = {0, 0, SET}, falls[] = {13, 1, 0};
    uint8_t none[BLOCK] = {3};
    put_word(none, 63, 4);
    check("a set from text", makes(counts_text, 3, 1, set, SET, sample_counts, 5, COUNTS) && corrector_set_length(5) == SET);
    check("a list that just fits", makes(counts_text, 3, 1, set, SET, sample_counts, 5, 5));
    check("no keys", makes("", 3, 0, none, BLOCK, sample_counts, 0, 0) && makes(counts_text, 3, 10, none, BLOCK, sample_counts, 0, COUNTS)
        && makes(counts_text, 3, UINT64_MAX, none, BLOCK, sample_counts, 0, 1));
    check("9 for k", not_made("A", 2, 1, 0, CORRECTOR_SET_HEADER, 0) && not_made("A", 33, 1, 0, CORRECTOR_SET_HEADER, 0)
        && not_made("A", 4294967299, 1, 0, CORRECTOR_SET_HEADER, 0));
    check("12", not_made("A", 3, 1, 0, CORRECTOR_LINE, 0) && not_made("ACT,9\nACT,99", 3, 1, 0, CORRECTOR_LINE, 1)
        && not_made("ACT,9\nCCg,1\n", 3, 5, 0, CORRECTOR_LINE, 1) && not_made("ACT,00000000009\n", 3, 1, 0, CORRECTOR_LINE, 0));
    check("13", not_made("CCG,4\nACT,9\nA\n", 3, 1, 0, CORRECTOR_NOT_RISING, 1) && not_made("ACT,4\nAGT,9\n", 3, 1, 0, CORRECTOR_NOT_RISING, 1));
    check("14", not_made(counts_text, 3, 1, SET - 1, CORRECTOR_TOO_SHORT, 0) && not_made("", 3, 1, 0, CORRECTOR_TOO_SHORT, 0));
    check("14 for the list", not_made_in(counts_text, 3, 1, ROOM, 4, CORRECTOR_TOO_SHORT, 0) && not_made_in(counts_text, 3, 1, SET, 0, CORRECTOR_TOO_SHORT, 0)
        && not_made_in("ACT,0\n", 3, 0, SET, 0, CORRECTOR_TOO_SHORT, 0));
    check("answers of make_set", short_made(counts_text, made) && short_made("CCG,4\nACT,9\n", falls));
}

/* Counts of a text whose keys are the sample set's; the passed-over line has none. */
static void test_counts(const uint8_t *set)
{
    static const char held[] = "AAA,6\nACT,4294967294\nCCG,4294967295\nCTC,4294967296\nAAC,9999999999\nTCC,7\n";
    static const uint32_t list[] = {4294967294, 4294967295, 4294967295, 4294967295, 7};
    check("counts are held", makes(held, 3, 7, set, SET, list, 5, COUNTS));
    static const char zero[] = "ACT,0\nCCG,00\nCTC,0\nAAC,0\nTCC,1\n";
    static const uint32_t zeros[] = {0, 0, 0, 0, 1};
    check("0 is a count", makes(zero, 3, 0, set, SET, zeros, 5, 5));
}

/* ---- the sample set's index: m is 3, so that entry v is the number of keys below v */

static void sample_index(uint8_t *index)
{
    static const uint64_t keys[] = {6, 23, 51, 58, 60};
    memset(index, 0, SET);
    for (uint64_t v = 0; v <= 64; v++) {
        uint64_t entry = 0;
        for (size_t i = 0; i < 5; i++)
            entry += keys[i] < v;
        put_word(index, v + v / 63, entry);
    }
    put_word(index, 63, 113);
    put_word(index, 127, 12);
}

static int indexed(const uint8_t *set, size_t set_length, size_t room, const uint64_t *numbers, const uint8_t *index)
{
    uint8_t blocks[ROOM];
    uint64_t answer[CORRECTOR_MADE_NUMBERS];
    memset(blocks, FILL, ROOM);
    uint64_t number = corrector_make_index(set, set_length, blocks, room, answer, CORRECTOR_MADE_NUMBERS);
    size_t length = (size_t)answer[CORRECTOR_LENGTH];
    return number == numbers[0] && memcmp(answer, numbers, sizeof answer) == 0 && memcmp(blocks, index, length) == 0
        && all(blocks + length, room - length, number == 0 ? 0 : FILL) && all(blocks + room, ROOM - room, FILL);
}

static void test_index(const uint8_t *set)
{
    static const uint64_t made[] = {0, 0, SET}, one[] = {0, 0, BLOCK}, cut[] = {7, 0, 0}, damaged[] = {8, 1, 0}, header[] = {9, 0, 0}, key[] = {10, 1, 0},
        too_short[] = {14, 0, 0};
    uint8_t index[SET], wrong[SET], none[BLOCK] = {1}, zeros[BLOCK] = {0};
    sample_index(index);
    check("an index", indexed(set, SET, SET, made, index) && indexed(set, SET, ROOM, made, index) && corrector_index_length(3) == SET);
    put_word(none, 63, 2);
    put_word(zeros, 63, 1);
    check("an index of no key", indexed(none, BLOCK, BLOCK, one, zeros) && corrector_index_length(1) == BLOCK);
    check("lengths of an index", corrector_index_length(5) == 17 * BLOCK && corrector_index_length(7) == 66 * BLOCK && corrector_index_length(31) == 66 * BLOCK);
    check("14 for an index", indexed(set, SET, SET - 1, too_short, index) && indexed(set, SET, 0, too_short, index));
    check("7 before 14", indexed(set, SET - 1, 0, cut, index));
    memcpy(wrong, set, SET);
    wrong[SET - 1]++;
    check("8 before 14", indexed(wrong, SET, 0, damaged, index) && indexed(wrong, SET, SET, damaged, index));
    memcpy(wrong, set, SET);
    put_word(wrong, 0, 2);
    put_word(wrong, 63, 8);
    check("9 before 14", indexed(wrong, SET, 0, header, index));
    memcpy(wrong, set, SET);
    put_word(wrong, 65, 6);
    put_word(wrong, 127, 183);
    check("10 before 14", indexed(wrong, SET, 0, key, index));
}

/* With its index a call answers, reports and leaves what it does without. */
static int alike(call *entry, const uint8_t *set, const uint8_t *index, const char *input, const struct sample *sample)
{
    struct done with = run_indexed(entry, set, index, SET, ENTRY(sample->method, sample->confirm), input, OUTPUT);
    struct done without = run(entry, set, ENTRY(sample->method, sample->confirm), input, OUTPUT);
    return memcmp(&with, &without, sizeof with) == 0;
}

static int index_wrong(const uint8_t *set, const uint8_t *index, size_t length, size_t room, uint64_t number, uint64_t place)
{
    struct done read = run_indexed(corrector_read, set, index, length, ENTRY(CORRECTOR_ONE, 1), "AACC", room);
    struct done batch = run_indexed(corrector_batch, set, index, length, ENTRY(CORRECTOR_ONE, 1), "AACC\n", room);
    return refuses(&read, room, number, place) && refuses(&batch, room, number, place);
}

static void test_offered(const uint8_t *set)
{
    uint8_t index[SET], wrong[SET];
    sample_index(index);
    int same = 1;
    for (size_t i = 0; i < SAMPLES; i++)
        same = same && alike(corrector_read, set, index, samples[i].read, &samples[i])
            && alike(corrector_batch, set, index, "AACGCCG\nAACGC\n\n", &samples[i]);
    check("an index offered", same);
    check("15, cut", index_wrong(set, index, SET - 1, OUTPUT, CORRECTOR_INDEX, 0) && index_wrong(set, index, BLOCK, OUTPUT, CORRECTOR_INDEX, 0));
    int all_told = 1;
    for (size_t at = 0; at < SET; at++) {
        memcpy(wrong, index, SET);
        wrong[at]++;
        all_told = all_told && index_wrong(set, wrong, SET, OUTPUT, CORRECTOR_INDEX, 0);
    }
    check("15, any byte", all_told);
    check("15 before 11", index_wrong(set, wrong, SET, 4, CORRECTOR_INDEX, 0));
    check("11 with an index", index_wrong(set, index, SET, 4, CORRECTOR_NO_ROOM, 0));
    memcpy(wrong, set, SET);
    put_word(wrong, 65, 6);
    put_word(wrong, 127, 183);
    check("10 before 15", index_wrong(wrong, set, SET, OUTPUT, CORRECTOR_SET_KEY, 1));
}

/* ---- counts of the sample set's keys */

static const uint32_t falling_counts[] = {50, 40, 30, 20, 10};

/* The supports with the counts as they rise and as they fall. */
static const struct supported {
    uint8_t method, confirm;
    const char *read;
    uint64_t rising, falling;
} supported[] = {
    {CORRECTOR_ONE, 1, "AACGC", 10, 50},
    {CORRECTOR_ONE, 1, "AACC", 10, 50},
    {CORRECTOR_ONE, 1, "AACGTC", 10, 50},
    {CORRECTOR_ONE, 1, "AACGCCG", 10, 50},
    {CORRECTOR_TWO, 2, "AACCG", 30, 30},
    {CORRECTOR_GRAPH, 1, "AACGCCG", 10, 10},
    {CORRECTOR_GAP_SIZE, 1, "AACGCCG", 10, 50},
};

static struct done run_counted(
    call *entry, const uint8_t *set, const uint32_t *counts, size_t length, uint8_t method, uint8_t confirm, const char *input)
{
    return run_offered(entry, set, (struct offered){NO_INDEX, counts, length}, ENTRY(method, confirm), input, OUTPUT);
}

static int tells(const struct done *done, uint64_t is_supported, uint64_t support)
{
    return done->number == 0 && done->answer[CORRECTOR_SUPPORTED] == is_supported && done->answer[CORRECTOR_SUPPORT] == support;
}

/* But for the two numbers a call answers, reports and leaves what it does without counts. */
static int supports(call *entry, const uint8_t *set, const uint32_t *counts, const struct supported *sample, const char *input, uint64_t support)
{
    struct done with = run_counted(entry, set, counts, 5, sample->method, sample->confirm, input);
    struct done without = run(entry, set, ENTRY(sample->method, sample->confirm), input, OUTPUT);
    int right = tells(&with, 1, support) && tells(&without, 0, 0);
    with.answer[CORRECTOR_SUPPORTED] = with.answer[CORRECTOR_SUPPORT] = 0;
    return right && memcmp(&with, &without, sizeof with) == 0;
}

static int supported_right(const uint8_t *set, const struct supported *sample)
{
    char line[16];
    snprintf(line, sizeof line, "%s\n", sample->read);
    return supports(corrector_read, set, rising_counts, sample, sample->read, sample->rising)
        && supports(corrector_read, set, falling_counts, sample, sample->read, sample->falling)
        && supports(corrector_batch, set, rising_counts, sample, line, sample->rising)
        && supports(corrector_batch, set, falling_counts, sample, line, sample->falling);
}

static void test_supports(const uint8_t *set)
{
    static const uint32_t zeros[5], first[] = {20, 30, 5, 5, 5}, second[] = {30, 20, 5, 5, 5};
    static const uint32_t largest[] = {UINT32_MAX, UINT32_MAX, UINT32_MAX, UINT32_MAX, UINT32_MAX};
    int right = 1;
    for (size_t i = 0; i < sizeof supported / sizeof supported[0]; i++)
        right = right && supported_right(set, &supported[i]);
    check("supports", right);
    struct done none = run_counted(corrector_read, set, rising_counts, 5, CORRECTOR_ONE, 1, "AACG");
    struct done short_read = run_counted(corrector_read, set, rising_counts, 5, CORRECTOR_ONE, 1, "AA");
    check("nothing accepted, no support", tells(&none, 0, 0) && tells(&short_read, 0, 0));
    struct done zero = run_counted(corrector_read, set, zeros, 5, CORRECTOR_ONE, 1, "AACGC");
    struct done most = run_counted(corrector_read, set, largest, 5, CORRECTOR_GRAPH, 1, "AACGCCG");
    check("0 and the largest count", tells(&zero, 1, 0) && tells(&most, 1, UINT32_MAX));
    struct done one = run_counted(corrector_batch, set, first, 5, CORRECTOR_ONE, 1, "AACGC\nCCGA\n");
    struct done other = run_counted(corrector_batch, set, second, 5, CORRECTOR_ONE, 1, "AACGC\nCCGA\n");
    check("the smallest of all lines", gives(&one, "AACTC\nCCGGA\n") && tells(&one, 1, 20) && tells(&other, 1, 20));
}

static int counts_refused(const uint8_t *set, struct offered offered, size_t room, uint64_t number, uint64_t place)
{
    struct done read = run_offered(corrector_read, set, offered, ENTRY(CORRECTOR_ONE, 1), "AACC", room);
    struct done batch = run_offered(corrector_batch, set, offered, ENTRY(CORRECTOR_ONE, 1), "AACC\n", room);
    return refuses(&read, room, number, place) && refuses(&batch, room, number, place);
}

static void test_counts_refused(const uint8_t *set)
{
    uint8_t index[SET], wrong[SET], none[SET] = {3};
    uint32_t counts[6] = {0};
    sample_index(index);
    int right = 1;
    for (size_t length = 1; length <= 6; length++)
        right = right && (length == 5 || counts_refused(set, (struct offered){NO_INDEX, counts, length}, OUTPUT, CORRECTOR_COUNTS, 0));
    check("16", right && counts_refused(set, (struct offered){index, SET, counts, 4}, OUTPUT, CORRECTOR_COUNTS, 0));
    put_word(none, 63, 4);
    struct done no_keys;
    memset(&no_keys, FILL, sizeof no_keys);
    no_keys.number = corrector_read(
        none, BLOCK, NO_INDEX, counts, 1, ENTRY(CORRECTOR_ONE, 1), (const uint8_t *)"AACC", 4, no_keys.output, OUTPUT, no_keys.work, WORK, no_keys.answer,
        CORRECTOR_CALL_NUMBERS);
    check("16, no keys", refuses(&no_keys, OUTPUT, CORRECTOR_COUNTS, 0));
    check("15 before 16", counts_refused(set, (struct offered){index, SET - 1, counts, 4}, OUTPUT, CORRECTOR_INDEX, 0));
    check("16 before 11", counts_refused(set, (struct offered){NO_INDEX, counts, 6}, 4, CORRECTOR_COUNTS, 0));
    check("11 with counts", counts_refused(set, (struct offered){index, SET, counts, 5}, 4, CORRECTOR_NO_ROOM, 0));
    memcpy(wrong, set, SET);
    put_word(wrong, 65, 6);
    put_word(wrong, 127, 183);
    check("10 before 16", counts_refused(wrong, (struct offered){NO_INDEX, counts, 4}, OUTPUT, CORRECTOR_SET_KEY, 1));
}

/* ---- what a batch will need */

struct asked {
    uint64_t number;
    uint64_t answer[CORRECTOR_NEEDS_NUMBERS];
    uint8_t work[WORK];
};

static struct asked ask(
    const uint8_t *set, size_t set_length, struct offered offered, const uint8_t *job, size_t job_length, const char *batch, size_t work_length)
{
    struct asked asked;
    memset(&asked, FILL, sizeof asked);
    asked.number = corrector_needs(
        set, set_length, offered.index, offered.index_length, offered.counts, offered.counts_length, job, job_length, (const uint8_t *)batch, strlen(batch),
        asked.work, work_length, asked.answer, CORRECTOR_NEEDS_NUMBERS);
    return asked;
}

static const struct offered nothing = {(const uint8_t *)"", 0, (const uint32_t[]){0}, 0};

/* Accepted: the work buffer is all zero, and what is behind it stays. */
static int told(const struct asked *asked, size_t work_length, uint64_t bytes, uint64_t turns, uint64_t lookups)
{
    return asked->number == 0 && asked->answer[CORRECTOR_NUMBER] == 0 && asked->answer[CORRECTOR_PLACE] == 0 && asked->answer[CORRECTOR_BYTES] == bytes
        && asked->answer[CORRECTOR_TURNS] == turns && asked->answer[CORRECTOR_LOOKUPS] == lookups && all(asked->work, work_length, 0)
        && all(asked->work + work_length, WORK - work_length, FILL);
}

static int declined(const struct asked *asked, uint64_t number, uint64_t place)
{
    int numbers = asked->number == number && asked->answer[CORRECTOR_NUMBER] == number && asked->answer[CORRECTOR_PLACE] == place;
    for (size_t i = CORRECTOR_BYTES; i < CORRECTOR_NEEDS_NUMBERS; i++)
        numbers = numbers && asked->answer[i] == 0;
    return numbers && all(asked->work, WORK, FILL);
}

/* The batch call with an output of just those bytes reports these numbers, and a byte less is 11 at the last line. */
static int booked(const uint8_t *set, const uint8_t *job, size_t job_length, const char *batch, uint64_t bytes, uint64_t turns, uint64_t lookups)
{
    struct asked asked = ask(set, SET, nothing, job, job_length, batch, strlen(batch));
    struct done real = run(corrector_batch, set, job, job_length, batch, bytes);
    struct done shorter = run(corrector_batch, set, job, job_length, batch, bytes == 0 ? 0 : bytes - 1);
    size_t lines = 0;
    for (size_t i = 0; i < strlen(batch); i++)
        lines += batch[i] == '\n';
    return told(&asked, strlen(batch), bytes, turns, lookups) && real.number == 0 && real.answer[CORRECTOR_WRITTEN] == bytes
        && real.answer[CORRECTOR_TURNS] == turns && real.answer[CORRECTOR_LOOKUPS] == lookups
        && (bytes == 0 || refuses(&shorter, bytes - 1, CORRECTOR_NO_ROOM, lines - 1));
}

static void test_needs(const uint8_t *set)
{
    check("the printed batch's needs", booked(set, JOB("\3\1"), "AACGCCG\nAA\n", 11, 1, 21));
    check("needs of each method", booked(set, JOB("\1\1"), "AACGCCG\nAACC\nAACG\n", 19, 7, 37) && booked(set, JOB("\2\2"), "AACCG\n", 8, 3, 37)
        && booked(set, JOB("\4\1"), "AACGCCG\nAACGC\n", 14, 6, 63) && booked(set, JOB("\3\1"), "AACGCCG\nAACGC\n", 14, 3, 65));
    check("needs of no letters", booked(set, JOB("\1\1"), "", 0, 0, 0) && booked(set, JOB("\1\1"), "\n\n", 2, 0, 0));
    int right = 1;
    for (size_t work = 0; work <= WORK; work++) {
        struct asked asked = ask(set, SET, nothing, JOB("\3\1"), "AACGCCG\nAA\n", work);
        right = right && (work < 11 ? declined(&asked, CORRECTOR_BUFFERS, 0) : told(&asked, work, 11, 1, 21));
    }
    check("work from the batch on", right);
    size_t length = CORRECTOR_MAX_WORK + 1;
    uint8_t *work = malloc(length);
    memset(work, FILL, length);
    uint64_t number = corrector_needs(set, SET, NO_INDEX, NO_COUNTS, JOB("\3\1"), (const uint8_t *)"AACGCCG\n", 8, work, length, (uint64_t[]){0}, 0);
    check("work over the limit of the other calls", number == 0 && all(work, length, 0));
    free(work);
}

static void test_needs_offered(const uint8_t *set)
{
    uint8_t index[SET];
    sample_index(index);
    struct asked both = ask(set, SET, (struct offered){index, SET, rising_counts, 5}, JOB("\3\1"), "AACGCCG\nAA\n", 11);
    check("needs with an index and counts", told(&both, 11, 11, 1, 21));
    struct asked cut = ask(set, SET, (struct offered){index, SET - 1, rising_counts, 4}, JOB("\3\1"), "AACGCCG\nAA\n", 11);
    struct asked few = ask(set, SET, (struct offered){index, SET, rising_counts, 4}, JOB("\3\1"), "AACGCCG\nAA\n", 11);
    check("15, then 16, of needs", declined(&cut, CORRECTOR_INDEX, 0) && declined(&few, CORRECTOR_COUNTS, 0));
}

/* Each call meets also what is checked behind it. */
static void test_needs_refused(const uint8_t *set)
{
    struct offered wrong = {set, SET, rising_counts, 4};
    struct asked second = ask(set, 0, wrong, JOB("\1\1\5\0"), "AA", 1), zero = ask(set, 0, wrong, JOB("\1\1\2\0"), "AA", 1);
    struct asked half = ask(set, 0, wrong, JOB("\1\1\2"), "AA", 1), nine = ask(set, 0, wrong, JOB("\1\1\1\1\1\1\1\1\1\1\1\1\1\1\1\1\1"), "AA", 1);
    check("2, 3 and 4 before 17", declined(&nine, CORRECTOR_ENTRY_COUNT, 0) && declined(&second, CORRECTOR_METHOD_UNKNOWN, 1)
        && declined(&zero, CORRECTOR_CONFIRM_ZERO, 1) && declined(&half, CORRECTOR_CONFIRM_ZERO, 1));
    struct asked none = ask(set, 0, wrong, JOB(""), "AA", 1), two = ask(set, 0, wrong, JOB("\1\1\2\1"), "AA", 1);
    check("17, no entries", declined(&none, CORRECTOR_NOT_ONE_ENTRY, 0));
    check("17, two entries", declined(&two, CORRECTOR_NOT_ONE_ENTRY, 0));
    struct asked alone = ask(set, SET, nothing, JOB("\3\1\3\1"), "AACGCCG\nAA\n", 11);
    check("17 alone", declined(&alone, CORRECTOR_NOT_ONE_ENTRY, 0));
    struct asked short_work = ask(set, 0, wrong, JOB("\1\1"), "AA", 1), open_ended = ask(set, 0, wrong, JOB("\1\1"), "AA", 2);
    check("5, then 6, of needs", declined(&short_work, CORRECTOR_BUFFERS, 0) && declined(&open_ended, CORRECTOR_BATCH, 0));
    struct asked empty = ask(set, 0, wrong, JOB("\1\1"), "A\n", 2), cut = ask(set, BLOCK, wrong, JOB("\1\1"), "A\n", 2);
    check("7 and 9 of needs", declined(&empty, CORRECTOR_SET_LENGTH, 0) && declined(&cut, CORRECTOR_SET_HEADER, 0));
    uint8_t damaged[SET];
    memcpy(damaged, set, SET);
    put_word(damaged, 65, 6);
    struct asked block = ask(damaged, SET, wrong, JOB("\1\1"), "A\n", 2);
    put_word(damaged, 127, 183);
    struct asked key = ask(damaged, SET, wrong, JOB("\1\1"), "A\n", 2);
    check("8 and 10 of needs", declined(&block, CORRECTOR_SET_CHECK, 1) && declined(&key, CORRECTOR_SET_KEY, 1));
}

/* Answers of every length; a batch that is too long. */
static void test_needs_answers(const uint8_t *set)
{
    static const uint64_t accepted[] = {0, 0, 11, 1, 21}, refused[] = {17, 0, 0, 0, 0}, too_long[] = {1, 0, 0, 0, 0};
    static uint8_t long_batch[CORRECTOR_MAX_INPUT + 1], work[sizeof long_batch];
    int right = 1;
    for (size_t length = 0; length <= 7; length++) {
        uint64_t answers[3][9];
        memset(answers, KEPT & 0xff, sizeof answers);
        uint64_t of_batch = corrector_needs(set, SET, NO_INDEX, NO_COUNTS, JOB("\3\1"), (const uint8_t *)"AACGCCG\nAA\n", 11, work, 11, answers[0], length);
        uint64_t of_two = corrector_needs(set, SET, NO_INDEX, NO_COUNTS, JOB("\3\1\3\1"), (const uint8_t *)"\n", 1, work, 1, answers[1], length);
        uint64_t of_long = corrector_needs(set, SET, NO_INDEX, NO_COUNTS, JOB(""), long_batch, sizeof long_batch, work, 0, answers[2], length);
        right = right && of_batch == 0 && of_two == CORRECTOR_NOT_ONE_ENTRY && of_long == CORRECTOR_INPUT_LENGTH
            && starts_alike(answers[0], length, accepted, CORRECTOR_NEEDS_NUMBERS, 9)
            && starts_alike(answers[1], length, refused, CORRECTOR_NEEDS_NUMBERS, 9)
            && starts_alike(answers[2], length, too_long, CORRECTOR_NEEDS_NUMBERS, 9);
    }
    check("answers of needs", right);
}

/* ---- document 02, W12: other programs' edits */

static const struct sheet {
    const char *read, *mended;
    uint64_t edits[6];
    size_t numbers;
    const char *letters;
    int place; /* of 19; -1: accepted */
} sheets[] = {
    {"AACGCCG", "AACTCCG", {3, 1, 1}, 3, "T", -1},
    {"AACGCCG", "AACGCCG", {0}, 0, "", -1},
    {"", "", {0}, 0, "", -1},
    {"AACGGCG", "AACTCCG", {3, 1, 1, 4, 1, 1}, 6, "TC", -1},
    {"AACTCCG", "AACTCCG", {4, 0, 0}, 3, "", -1},
    /* form */
    {"AACGCCG", "AACTCCG", {3, 1, 1, 5}, 4, "T", 1},
    {"AACGCCG", "AACTCCG", {3, 1, 1, 5, 0}, 5, "T", 1},
    {"AACGCCG", "AACTCCG", {2, 2, 2}, 3, "CT", 0},
    {"AACGCCG", "AACTCC", {3, 1, 1, 6, 1, 0}, 6, "T", 1},
    {"AACGCCG", "AACTCCG", {3, UINT64_MAX, 1}, 3, "T", 0},
    {"AACGCCG", "AACTCCG", {3, 1, 2}, 3, "T", 0},
    {"AACTCCG", "AACTCCG", {4, 0, 0, 4, 0, 0}, 6, "", 1},
    {"AACGGCG", "AACTCCG", {3, 2, 1, 4, 1, 1}, 6, "TC", 1},
    /* k-mers */
    {"AACGCCG", "AACACCG", {3, 1, 1}, 3, "A", 0},
    {"AACGGCG", "AACTACG", {3, 1, 1, 4, 1, 1}, 6, "TA", 0},
    {"AACGCGG", "AACTCAG", {3, 1, 1, 5, 1, 1}, 6, "TA", 1},
    {"AACGCCG", "AACTCCG", {4, 1, 1, 5, 0}, 5, "C", 1},
    /* joining */
    {"AACGCCG", "AACTCC", {3, 1, 1}, 3, "T", 1},
    {"AACGCCG", "AACTCCG", {3, 1, 1}, 3, "t", 1},
    {"AACGCCG", "AACTCCG", {3, 1, 1}, 3, "TC", 1},
    {"AACTCCG", "AACGCCG", {0}, 0, "", 0},
};

static uint64_t check_sheet(const uint8_t *set, size_t set_length, const struct sheet *sheet, uint64_t *answer, size_t answer_length)
{
    return corrector_check_edits(
        set, set_length, (const uint8_t *)sheet->read, strlen(sheet->read), (const uint8_t *)sheet->mended, strlen(sheet->mended), sheet->edits,
        sheet->numbers, (const uint8_t *)sheet->letters, strlen(sheet->letters), answer, answer_length);
}

static void test_edits(const uint8_t *set)
{
    for (size_t i = 0; i < sizeof sheets / sizeof *sheets; i++) {
        uint64_t answer[] = {KEPT, KEPT, KEPT};
        uint64_t number = sheets[i].place < 0 ? CORRECTOR_NOT_REFUSED : CORRECTOR_EDIT, place = sheets[i].place < 0 ? 0 : (uint64_t)sheets[i].place;
        int told = check_sheet(set, SET, &sheets[i], answer, 3) == number;
        check(sheets[i].letters, told && answer[CORRECTOR_NUMBER] == number && answer[CORRECTOR_PLACE] == place && answer[CORRECTOR_CHECK_NUMBERS] == KEPT);
        /* Shorter answers. */
        answer[0] = answer[1] = KEPT;
        told = check_sheet(set, SET, &sheets[i], answer, 1) == number && answer[0] == number && answer[1] == KEPT;
        answer[0] = KEPT;
        check("a shorter answer", told && check_sheet(set, SET, &sheets[i], answer, 0) == number && answer[0] == KEPT);
        /* The set comes before the sheet. */
        check("the set's refusal", check_sheet(set, SET - 1, &sheets[i], answer, 2) == CORRECTOR_SET_LENGTH && answer[CORRECTOR_PLACE] == 0);
    }
    /* An array of edits is its numbers. */
    struct corrector_edit edits[] = {{3, 1, 1}, {4, 1, 1}};
    uint64_t answer[CORRECTOR_CHECK_NUMBERS];
    check("an array of edits", corrector_check_edits(
        set, SET, (const uint8_t *)"AACGGCG", 7, (const uint8_t *)"AACTCCG", 7, &edits[0].position, 3 * 2, (const uint8_t *)"TC", 2,
        answer, CORRECTOR_CHECK_NUMBERS) == CORRECTOR_NOT_REFUSED);
    /* 1 for either read, before the set's 7. */
    uint8_t *reads = malloc(CORRECTOR_MAX_INPUT + 1);
    if (reads == NULL)
        abort();
    memset(reads, 'A', CORRECTOR_MAX_INPUT + 1);
    for (int mended = 0; mended < 2; mended++) {
        size_t first = CORRECTOR_MAX_INPUT + !mended, second = CORRECTOR_MAX_INPUT + mended;
        check("a read that is too long", corrector_check_edits(set, 0, reads, first, reads, second, sheets->edits, 1, reads, 0, answer, 0) == CORRECTOR_INPUT_LENGTH);
    }
    check("reads as long as may be", corrector_check_edits(
        set, SET, reads, CORRECTOR_MAX_INPUT, reads, CORRECTOR_MAX_INPUT, sheets->edits, 0, reads, 0, answer, 0) == CORRECTOR_NOT_REFUSED);
    free(reads);
}

/* ---- bridges */

static uint64_t code_of(const char *letters)
{
    return corrector_code((const uint8_t *)letters, strlen(letters));
}

/* The chain's letters, "" for none, with the lookups and the floor; behind the letters are zeros. */
static int bridges(const uint8_t *set, size_t length, const char *from, const char *to, uint64_t budget, const char *letters, uint64_t lookups, uint64_t floor)
{
    uint64_t answer[CORRECTOR_BRIDGE_NUMBERS];
    uint64_t number = corrector_bridge(set, length, code_of(from), code_of(to), budget, answer, CORRECTOR_BRIDGE_NUMBERS);
    size_t moves = strlen(letters);
    int right = number == 0 && answer[CORRECTOR_NUMBER] == 0 && answer[CORRECTOR_PLACE] == 0 && answer[CORRECTOR_MOVES] == moves
        && answer[CORRECTOR_BRIDGE_LOOKUPS] == lookups && answer[CORRECTOR_FLOOR] == floor;
    for (size_t i = 0; i < CORRECTOR_MAX_MOVES; i++)
        right = right && answer[CORRECTOR_LETTERS + i] == (i < moves ? (uint64_t)letters[i] : 0);
    return right;
}

static int no_bridge(const uint8_t *set, size_t length, uint64_t from, uint64_t to, uint64_t refusal, uint64_t place)
{
    uint64_t answer[CORRECTOR_BRIDGE_NUMBERS];
    uint64_t number = corrector_bridge(set, length, from, to, 1000, answer, CORRECTOR_BRIDGE_NUMBERS);
    int right = number == refusal && answer[CORRECTOR_NUMBER] == refusal && answer[CORRECTOR_PLACE] == place;
    for (size_t i = CORRECTOR_MOVES; i < CORRECTOR_BRIDGE_NUMBERS; i++)
        right = right && answer[i] == 0;
    return right;
}

static void test_bridge(const uint8_t *set)
{
    uint8_t wrong[SET];
    memcpy(wrong, set, SET);
    wrong[SET - 1]++;
    check("codes", code_of("AAC") == 1 && code_of("aac") == 1 && code_of("CUG") == 27 && code_of("AAN") == UINT64_MAX && code_of("") == 0
        && code_of("AAAAAAAAAAAAAAAAAAAAAAAAAAAAAAAA") == UINT64_MAX);
    check("a bridge", bridges(set, SET, "AAC", "CCG", UINT64_MAX, "TCCG", 40, 4) && bridges(set, SET, "AAC", "CCG", 40, "TCCG", 40, 4)
        && bridges(set, SET, "AAC", "ACT", 4, "T", 4, 1));
    check("a bridge, stopped", bridges(set, SET, "AAC", "CCG", 39, "TCCG", 36, 3) && bridges(set, SET, "AAC", "CCG", 16, "TCCG", 16, 1)
        && bridges(set, SET, "AAC", "CCG", 15, "", 12, 1) && bridges(set, SET, "AAC", "CCG", 3, "", 0, 1) && bridges(set, SET, "AAC", "CCG", 0, "", 0, 1));
    check("no bridge", bridges(set, SET, "CCG", "AAC", 24, "", 24, 17) && bridges(set, SET, "CCG", "AAC", 23, "", 20, 1)
        && bridges(set, SET, "AAC", "AAC", 1000, "", 40, 17));
    check("20", no_bridge(set, SET, 0, 23, CORRECTOR_NOT_SOLID, 0) && no_bridge(set, SET, 1, 0, CORRECTOR_NOT_SOLID, 1)
        && no_bridge(set, SET, 65, 0, CORRECTOR_NOT_SOLID, 0) && no_bridge(set, SET, 1, UINT64_MAX, CORRECTOR_NOT_SOLID, 1));
    check("7 and 8 before 20", no_bridge(set, 0, 0, 0, CORRECTOR_SET_LENGTH, 0) && no_bridge(wrong, SET, 0, 0, CORRECTOR_SET_CHECK, 1));
}

static void test_bridge_answers(const uint8_t *set)
{
    uint64_t whole[CORRECTOR_BRIDGE_NUMBERS];
    int right = corrector_bridge(set, SET, code_of("AAC"), code_of("CCG"), 40, whole, CORRECTOR_BRIDGE_NUMBERS) == 0;
    for (size_t length = 0; length <= CORRECTOR_BRIDGE_NUMBERS + 1; length++) {
        uint64_t answer[CORRECTOR_BRIDGE_NUMBERS + 2];
        for (size_t i = 0; i < CORRECTOR_BRIDGE_NUMBERS + 2; i++)
            answer[i] = KEPT;
        right = right && corrector_bridge(set, SET, code_of("AAC"), code_of("CCG"), 40, answer, length) == 0
            && starts_alike(answer, length, whole, CORRECTOR_BRIDGE_NUMBERS, CORRECTOR_BRIDGE_NUMBERS + 2);
    }
    check("answers of bridge", right);
}

/* ---- threads: the set is shared, the buffers are each thread's own, and its stack is what the header asks for */

static struct done alone[SAMPLES];
static struct asked alone_needs[SAMPLES];

static struct asked needs_of(const uint8_t *set, const struct sample *sample)
{
    return ask(set, SET, nothing, ENTRY(sample->method, sample->confirm), "AACGCCG\nAACGC\nAACC\n", WORK);
}

static void *in_thread(void *set)
{
    size_t *differ = calloc(1, sizeof *differ);
    for (size_t i = 0; i < CALLS * SAMPLES; i++) {
        const struct sample *sample = &samples[i % SAMPLES];
        struct done done = run(corrector_read, set, ENTRY(sample->method, sample->confirm), sample->read, OUTPUT);
        struct asked asked = needs_of(set, sample);
        *differ += memcmp(&done, &alone[i % SAMPLES], sizeof done) != 0 || memcmp(&asked, &alone_needs[i % SAMPLES], sizeof asked) != 0;
    }
    return differ;
}

static void test_threads(uint8_t *set)
{
    pthread_t threads[THREADS];
    pthread_attr_t attributes;
    for (size_t i = 0; i < SAMPLES; i++) {
        alone[i] = run(corrector_read, set, ENTRY(samples[i].method, samples[i].confirm), samples[i].read, OUTPUT);
        alone_needs[i] = needs_of(set, &samples[i]);
    }
    pthread_attr_init(&attributes);
    pthread_attr_setstacksize(&attributes, CORRECTOR_STACK);
    for (size_t i = 0; i < THREADS; i++)
        if (pthread_create(&threads[i], &attributes, in_thread, set) != 0)
            abort();
    for (size_t i = 0; i < THREADS; i++) {
        void *differ;
        pthread_join(threads[i], &differ);
        check("a thread", *(size_t *)differ == 0);
        free(differ);
    }
    pthread_attr_destroy(&attributes);
}

int main(void)
{
    uint8_t set[SET];
    sample_set(set);
    test_samples(set);
    test_yields(set);
    test_per_base(set);
    test_jobs(set);
    test_job_refusals(set);
    test_input_refusals(set);
    test_lines(set);
    test_set_refusals();
    test_no_room(set);
    test_fasta(set);
    test_answers(set);
    test_count(set);
    test_make(set);
    test_counts(set);
    test_index(set);
    test_offered(set);
    test_supports(set);
    test_counts_refused(set);
    test_needs(set);
    test_needs_offered(set);
    test_needs_refused(set);
    test_needs_answers(set);
    test_edits(set);
    test_bridge(set);
    test_bridge_answers(set);
    test_threads(set);
    printf("%d passed, %d failed\n", passed, failed);
    return failed != 0;
}
