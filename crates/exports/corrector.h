/*
 * The read corrector for C and C++ on x86-64 Linux: link libexports.a, which `rt lib` in crates/exports writes to its out/.
 *
 * Every call is proved to answer what the rules of crates/rules say and to leave every lent byte as they say, whatever it is given.
 * The formats of a set, a job, a batch, FASTA and k-mer counts are in README.md, "Formats".
 *
 * Threads. A call keeps no state and allocates nothing: it reads and writes what it is lent, and nothing else. Any number of threads
 * may call at once. They may share a set, an index, offered counts, a job and input; output, work, blocks, a maker's counts and answer must be
 * each call's own.
 *
 * Stack. A call keeps its tables on the stack: a thread that calls needs CORRECTOR_STACK bytes of it.
 *
 * Large sets. Each call opens the set and fills a table of where its keys start: 10 ms at 4 million keys, 44 at 16 million. So send batches as
 * long as may be. Lend a set of a million keys or more from memory that starts at a multiple of 2 MB and was advised by
 * `madvise(.., MADV_HUGEPAGE)` before the set was read into it: a batch by One took 17 and 9 % less time
 * with 4 and 16 million keys (docs/BENCHMARK-OLDER.md).
 *
 * Slices. A slice is a pointer and a count of elements. As for Rust's slices, the pointer must not be null and must be aligned for its
 * elements, also where the count is 0, and every element must be initialised, those of output, work, blocks and a maker's counts too. `output`,
 * `work`, `blocks`, a maker's `counts` and `answer` may overlap neither each other nor anything that is lent as const, and until the call returns
 * nothing else may write to what is lent: a file that is mapped must not be changed or cut meanwhile. Nothing checks this.
 */
#ifndef CORRECTOR_H
#define CORRECTOR_H

#include <stddef.h>
#include <stdint.h>

#ifdef __cplusplus
extern "C" {
#endif

/* Limits; what is beyond them is refused. */
enum {
    CORRECTOR_MAX_INPUT = 1048576,  /* bytes of a read, a batch or a FASTA file */
    CORRECTOR_MAX_ENTRIES = 8,      /* of a job */
    CORRECTOR_MAX_OUTPUT = 1048576, /* bytes */
    CORRECTOR_MAX_WORK = 2097152,   /* bytes */
    CORRECTOR_MAX_LINES = 1024,     /* lines of a batch */
    CORRECTOR_MAX_RECORDS = 1024,   /* records of a FASTA file */
    CORRECTOR_MAX_K = 31,
    CORRECTOR_MAX_KEYS = 16777216,  /* keys of a set */
    CORRECTOR_MAX_MOVES = 16        /* moves of a bridge */
};

/* Bytes of stack. */
enum { CORRECTOR_STACK = 1572864 };

/* Method bytes. */
enum {
    CORRECTOR_ONE = 1,
    CORRECTOR_TWO = 2,
    CORRECTOR_GRAPH = 3,
    CORRECTOR_GAP_SIZE = 4
};

/*
 * A job is bytes, as its file has them: entries of a method byte and its own confirm, which says how many bases behind a correction must
 * agree, 1 to 255. An array of these, lent by its address and its size in bytes, is a job; so is a file that was read. An entry without
 * its second byte counts as one with confirm 0. A job of 0 bytes has no methods: reads come out as they went in.
 */
struct corrector_entry {
    uint8_t method;
    uint8_t confirm;
};

/*
 * An edit of corrector_check_edits: at this position of the read, counted from 0, so many bases are taken and so many letters given for them. An
 * array of n of these is 3 * n numbers.
 */
struct corrector_edit {
    uint64_t position;
    uint64_t taken;
    uint64_t given;
};

/*
 * Why a call is refused: what it returns, and number 0 of its answer. Checked upward, so that the least that applies is told, but for 11,
 * which comes last, 17, which comes between 4 and 5, and 18, which comes between 6 and 7; corrector_make_set has an order of its own.
 */
enum corrector_refusal {
    CORRECTOR_NOT_REFUSED = 0,
    CORRECTOR_INPUT_LENGTH = 1,   /* read, batch or FASTA file over CORRECTOR_MAX_INPUT bytes */
    CORRECTOR_ENTRY_COUNT = 2,    /* over CORRECTOR_MAX_ENTRIES entries */
    CORRECTOR_METHOD_UNKNOWN = 3, /* place: the first such entry; told before any confirm is looked at */
    CORRECTOR_CONFIRM_ZERO = 4,   /* place: the first such entry */
    CORRECTOR_BUFFERS = 5,        /* output or work too long, or work shorter than corrector_work_length; of corrector_needs: work shorter than the batch */
    CORRECTOR_BATCH = 6,          /* not empty without a final byte 10, or over CORRECTOR_MAX_LINES lines; of corrector_fasta: over CORRECTOR_MAX_RECORDS records */
    CORRECTOR_SET_LENGTH = 7,     /* 0 or not a multiple of 512 */
    CORRECTOR_SET_CHECK = 8,      /* a wrong check word; place: the first such block */
    CORRECTOR_SET_HEADER = 9,     /* k, n, a header word or the number of blocks */
    CORRECTOR_SET_KEY = 10,       /* a key or a spare word; place: its index among the words of the key blocks */
    CORRECTOR_NO_ROOM = 11,       /* a result does not fit the output; place: the line or the record, 0 for a single read */
    CORRECTOR_LINE = 12,          /* a line of counts breaks the form; place: the line */
    CORRECTOR_NOT_RISING = 13,    /* the canonical code of a kept line doesn't rise; place: the line */
    CORRECTOR_TOO_SHORT = 14,     /* the buffer is too short for the blocks, or the list for the counts */
    CORRECTOR_INDEX = 15,         /* an offered index isn't the set's; checked behind 10 and before 11 */
    CORRECTOR_COUNTS = 16,        /* an offered list of counts has not one for each key; checked behind 15 and before 11 */
    CORRECTOR_NOT_ONE_ENTRY = 17, /* of corrector_needs: the job has other than one entry; checked behind 4 and before 5 */
    CORRECTOR_SEQUENCE = 18,      /* of corrector_fasta: a sequence line before the first name line, or with `>` in it; place: the first such line */
    CORRECTOR_EDIT = 19,          /* of corrector_check_edits: the sheet isn't accepted; place: the edit, or the number of edits */
    CORRECTOR_NOT_SOLID = 20      /* of corrector_bridge: an end is not solid; place: 0 for the first, else 1; checked behind 10 */
};

/*
 * The numbers of an answer. Those that do not apply are 0. As many as the answer has room for are written, from its start; the rest of
 * it stays as it was, so an answer of 0 elements is fine.
 */
enum {
    CORRECTOR_NUMBER = 0, /* of the refusal, 0 if there is none */
    CORRECTOR_PLACE = 1,  /* of the refusal, counted from 0 */
    /* corrector_open */
    CORRECTOR_K = 2,
    CORRECTOR_N = 3,
    CORRECTOR_OPEN_NUMBERS = 4, /* how many there are */
    /* corrector_count_solid */
    CORRECTOR_KMERS = 2, /* of the read */
    CORRECTOR_SOLID = 3, /* those of them that are solid */
    CORRECTOR_SOLID_NUMBERS = 4, /* how many there are */
    /* corrector_make_set and corrector_make_index */
    CORRECTOR_LENGTH = 2, /* of the blocks, in bytes */
    CORRECTOR_MADE_NUMBERS = 3, /* how many there are */
    /* corrector_read, corrector_batch and corrector_fasta */
    CORRECTOR_WRITTEN = 2, /* bytes of the output */
    CORRECTOR_TURNS = 3,
    CORRECTOR_LOOKUPS = 4,
    CORRECTOR_ATTEMPTS = 5,
    CORRECTOR_ACCEPTED = 6,
    CORRECTOR_YIELD = 7, /* accepted * 1000 / attempts to the nearest whole, an exact half to the even neighbour; 0 if there were none */
    CORRECTOR_SUPPORTED = 8, /* 1 if a support is told; 0 if nothing was accepted or no counts were offered */
    CORRECTOR_SUPPORT = 9, /* the smallest count behind the accepted corrections, which may be 0; below 2^32 */
    CORRECTOR_QUOTIENT = 10, /* lookups / bases, the whole quotient; 0 if there are no bases */
    CORRECTOR_REMAINDER = 11, /* lookups - quotient * bases, below bases; 0 if there are no bases */
    CORRECTOR_BASES = 12, /* the sum of W: over all passes, the bases beyond the first k */
    CORRECTOR_CALL_NUMBERS = 13, /* how many there are */
    /* corrector_needs; CORRECTOR_TURNS and CORRECTOR_LOOKUPS stand where they do above */
    CORRECTOR_BYTES = 2, /* that the output will be */
    CORRECTOR_NEEDS_NUMBERS = 5, /* how many there are */
    /* corrector_check_edits: number and place alone */
    CORRECTOR_CHECK_NUMBERS = 2, /* how many there are */
    /* corrector_bridge */
    CORRECTOR_MOVES = 2, /* of the chain, 0 if none was found */
    CORRECTOR_BRIDGE_LOOKUPS = 3,
    CORRECTOR_FLOOR = 4, /* no chain has fewer moves; 17: none of up to 16 moves exists */
    CORRECTOR_LETTERS = 5, /* the first of 16: the byte of each move's letter, 0 behind the last */
    CORRECTOR_BRIDGE_NUMBERS = 21 /* how many there are */
};

/* The least work buffer for an output and an input of these lengths, if both are within the limits. */
static inline size_t corrector_work_length(size_t output_length, size_t input_length)
{
    return 2 * (output_length < input_length ? input_length : output_length);
}

/* The length of a set of n keys, in bytes. */
static inline size_t corrector_set_length(size_t n)
{
    return 512 * (1 + (n + 62) / 63);
}

/* The length of an index of a set with this k, in bytes. */
static inline size_t corrector_index_length(size_t k)
{
    return 512 * ((((size_t)1 << (k < 6 ? 2 * k : 12)) + 63) / 63);
}

/*
 * The code of a k-mer by its letters, for corrector_bridge: A, C, T, G are 0, 1, 2, 3, the first letter counts most. UINT64_MAX, which is the code of
 * none, where k is over CORRECTOR_MAX_K or a byte is not A, C, G, T, U or their lower case.
 */
static inline uint64_t corrector_code(const uint8_t *letters, size_t k)
{
    uint64_t code = 0;
    for (size_t i = 0; i < k; i++)
        switch (letters[i]) {
        case 'A': case 'C': case 'G': case 'T': case 'U': case 'a': case 'c': case 'g': case 't': case 'u':
            code = 4 * code + letters[i] / 2 % 4;
            break;
        default:
            return UINT64_MAX;
        }
    return k <= CORRECTOR_MAX_K ? code : UINT64_MAX;
}

/* Whether a set is right, with its k and its number of keys n. Returns 0, or refusal 7 to 10. */
uint64_t corrector_open(
    const uint8_t *set, size_t set_length,
    uint64_t *answer, size_t answer_length);

/*
 * Corrects a read by the entries of a job, each of which reads the result of the one before. Returns 0, or the refusal.
 *
 * Afterwards: accepted, the output has the result in its first CORRECTOR_WRITTEN bytes and zeros behind it, and work is all zero;
 * refused with 11, both are all zero; refused otherwise, neither has changed.
 *
 * The set is opened at each call: many reads against one set are better sent as a batch. An index of the set, made by corrector_make_index,
 * saves a call the walk over all keys by which it would fill its own table; it changes no result and no number. An index of length 0 counts
 * as not offered.
 *
 * Counts, one for each key in the order of the keys, as corrector_make_set gives them, make a call tell how well the corrections are supported:
 * of each one the count of the k-mer that the used scenario tried (One, Two), or of every k-mer that the walk went through, its last one too (Graph,
 * GapSize), and of all these the smallest. They change no other number and no byte. The length is the number of counts; with 0 none are offered.
 */
uint64_t corrector_read(
    const uint8_t *set, size_t set_length,
    const uint8_t *index, size_t index_length,
    const uint32_t *counts, size_t counts_length,
    const uint8_t *job, size_t job_length,
    const uint8_t *read, size_t read_length,
    uint8_t *output, size_t output_length,
    uint8_t *work, size_t work_length,
    uint64_t *answer, size_t answer_length);

/*
 * The same for a batch: lines each ended by byte 10, corrected in turn; so is the output. The numbers are sums over the lines, and yield, quotient
 * and remainder are those of the sums; the support is the smallest of theirs.
 *
 * To add many calls, add their lookups and their bases and divide once. Quotients, as averages, do not add.
 */
uint64_t corrector_batch(
    const uint8_t *set, size_t set_length,
    const uint8_t *index, size_t index_length,
    const uint32_t *counts, size_t counts_length,
    const uint8_t *job, size_t job_length,
    const uint8_t *batch, size_t batch_length,
    uint8_t *output, size_t output_length,
    uint8_t *work, size_t work_length,
    uint64_t *answer, size_t answer_length);

/*
 * The same for a FASTA file: records of a name line, which starts with `>`, and its sequence lines, if any, joined without their ends; lines of no
 * bytes are skipped. The output has each name line unchanged and the corrected read in lines of 80 letters, the last possibly shorter, none for an
 * empty read. The file is empty or ends with byte 10. Bytes are taken as they are: byte 13 is a base of its line, so convert a file with CRLF ends.
 *
 * Checked behind 5: 6, that the file ends so and has no more than CORRECTOR_MAX_RECORDS records, then 18. Refusal 11 tells the first record whose text
 * (name line and read lines, each with its byte 10), or one of whose pass results, is longer than what is left of the output before its name line.
 */
uint64_t corrector_fasta(
    const uint8_t *set, size_t set_length,
    const uint8_t *index, size_t index_length,
    const uint32_t *counts, size_t counts_length,
    const uint8_t *job, size_t job_length,
    const uint8_t *file, size_t file_length,
    uint8_t *output, size_t output_length,
    uint8_t *work, size_t work_length,
    uint64_t *answer, size_t answer_length);

/*
 * What a batch will need, by a job of one entry: the exact bytes of its output, its turns and its lookups. No output is lent, and none is written.
 * Returns 0, or the refusal.
 *
 * Booking: ask this, then lend corrector_batch an output of CORRECTOR_BYTES bytes. With the same set, job and batch, and with an output and a work
 * buffer within the limits (corrector_work_length), that call is accepted exactly when its output has at least so many bytes, and then reports these
 * numbers; a shorter output is refused with 11. So it is whatever index and counts either of the two calls offers, if they pass 15 and 16. The bytes
 * may be more than CORRECTOR_MAX_OUTPUT: then no output is long enough, and the batch has to be split.
 *
 * It checks 1 to 10, 15 and 16 as corrector_batch does, but for two: 17, behind 4, says that the job has other than one entry, none or several; and 5
 * says that work is shorter than the batch, and nothing else. Work may be of any length from the batch's on. Afterwards: accepted, work is all zero;
 * refused, it has not changed. Nothing else is written but the answer.
 */
uint64_t corrector_needs(
    const uint8_t *set, size_t set_length,
    const uint8_t *index, size_t index_length,
    const uint32_t *counts, size_t counts_length,
    const uint8_t *job, size_t job_length,
    const uint8_t *batch, size_t batch_length,
    uint8_t *work, size_t work_length,
    uint64_t *answer, size_t answer_length);

/*
 * The k-mers of a read, and how many of them are solid; none where it is shorter than k. A k-mer that holds another byte than A, C, G, T, U
 * and their lower case counts as a k-mer and is not solid. Returns 0, or refusal 1 or 7 to 10.
 */
uint64_t corrector_count_solid(
    const uint8_t *set, size_t set_length,
    const uint8_t *read, size_t read_length,
    uint64_t *answer, size_t answer_length);

/*
 * Makes a set, and the list of its keys' counts, from k-mer counts as text: lines of k letters A, C, G, T, a comma, a count of 1 to 10 digits, and
 * byte 10. Lines whose count is below `least` are passed over; the canonical codes of the others must rise strictly, in the order of the lines. A
 * text of any length is taken; nothing else limits it.
 *
 * Returns 0, or a refusal: 9 for a k that is not odd from 1 to 31; then line by line 12, and 13 for a line that is kept; then 9 for over
 * CORRECTOR_MAX_KEYS kept lines; then 14, for `blocks` or `counts`. Accepted, the set stands in the first CORRECTOR_LENGTH bytes of `blocks`, and
 * the counts of its n keys, in their order, in the first n numbers of `counts`, larger ones held at 4294967295; behind both are zeros. Refused,
 * neither has changed. corrector_set_length says how many bytes n kept lines take. The list is always made: it must have room for n counts, and
 * none for none.
 */
uint64_t corrector_make_set(
    const uint8_t *text, size_t text_length,
    uint64_t k, uint64_t least,
    uint8_t *blocks, size_t blocks_length,
    uint32_t *counts, size_t counts_length,
    uint64_t *answer, size_t answer_length);

/*
 * Makes the index of a set by first letters: entry v, from 0 to 4^m, is the number of keys whose first m letters have a code below v, m being
 * the smaller of 6 and k. It is blocks as a set's are, numbered from 0, with the entries from block 0 on.
 *
 * Returns 0, or refusal 7 to 10 of the set, then 14. Accepted, the index stands in the first CORRECTOR_LENGTH bytes of `blocks`, with zeros
 * behind it; refused, `blocks` has not changed. corrector_index_length says how many bytes it takes.
 */
uint64_t corrector_make_index(
    const uint8_t *set, size_t set_length,
    uint8_t *blocks, size_t blocks_length,
    uint64_t *answer, size_t answer_length);

/*
 * Whether another program's edits turn `read` into `mended`, with solid k-mers around them. `edits` are numbers, three for an edit: position, bases
 * taken, letters given (struct corrector_edit; the length counts numbers). `letters` are those of all edits, one after the other. Neither list has a
 * limit on its length.
 *
 * Returns 0, and the sheet is accepted; or refusal 1 for either read, 7 to 10 of the set, or 19. Three judgements are made, each over all edits before
 * the next, and 19 tells as its place the first edit that offends in the first judgement that fails, counted from 0:
 *
 * - Form. An edit has three numbers, a position of at least k, and position + taken at most the read's length less 1; the letters given so far are
 *   no more than there are; and it begins behind the position of the edit before it, and not before that one's end.
 * - K-mers. In the read with all edits made, each k-mer is solid whose last base is the one before the edit's letters, one of them, or the one after.
 * - Joining. The read with all edits made is `mended`, byte for byte, and no letter is left over. Where only this fails, the place is the number of edits.
 *
 * A sheet is accepted exactly when it has these properties, whoever made it. Corrections of corrector_read need not have them.
 */
uint64_t corrector_check_edits(
    const uint8_t *set, size_t set_length,
    const uint8_t *read, size_t read_length,
    const uint8_t *mended, size_t mended_length,
    const uint64_t *edits, size_t edits_length,
    const uint8_t *letters, size_t letters_length,
    uint64_t *answer, size_t answer_length);

/*
 * The shortest bridge from one solid k-mer to another, as far as a budget of lookups lasts: a chain of 1 to CORRECTOR_MAX_MOVES moves, each of which
 * drops the k-mer's first letter and adds one at its end, to any solid k-mer; k-mers may repeat. Both ends are codes (corrector_code). Returns 0, or
 * refusal 7 to 10, then 20: an end is not solid, place 0 or 1, the first if both; a code of 4^k or more never is.
 *
 * Accepted, CORRECTOR_MOVES and CORRECTOR_LETTERS tell the shortest chain that was found, or none; CORRECTOR_BRIDGE_LOOKUPS, never more than the
 * budget, the lookups made, those of the two ends not counted; and CORRECTOR_FLOOR f that no chain of fewer than f moves exists. So a found chain is at
 * most its moves less f from the shortest there is, and where both are equal it is the shortest. f = 17: there is no chain of up to 16 moves. Otherwise
 * the budget ran out, and a larger one may tell more: no chain and f = 1, or a chain and a smaller f. Each k-mer from which the search goes on takes 4
 * lookups; the time is that of the lookups, and of opening the set.
 */
uint64_t corrector_bridge(
    const uint8_t *set, size_t set_length,
    uint64_t from, uint64_t to, uint64_t budget,
    uint64_t *answer, size_t answer_length);

#ifdef __cplusplus
}
#endif

#endif
