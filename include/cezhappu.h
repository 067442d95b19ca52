/*
 * Cezhappu: path questions answered from stored lists. The functions that a server calls, one for each operation.
 *
 * Each function takes any bytes and any numbers: there is nothing on which it fails to return, reads outside what it was lent, or writes
 * anything but what is said here. None keeps a pointer, allocates memory or uses global state, so calls may run in parallel.
 *
 * Every function begins with a job text of `length` bytes at `job`, and returns one number, which the small functions below take apart:
 * first whether something is refused and in which line of the text, then what the function at hand tells. The checks stand in the order in
 * which they are made; the first that fails is the refusal.
 *
 * A buffer is lent as a pointer and a length, counted in its own elements. It may be longer than asked for. Its named part is the front
 * that is asked for:
 *   - where nothing is refused, the named part of every buffer is written whole;
 *   - with CEZHAPPU_TOO_MANY_STANDINGS, CEZHAPPU_TOO_MANY_STATES, CEZHAPPU_TOO_MANY_PLACES and CEZHAPPU_TOO_MANY_PAIRS every named part is
 *     zeros;
 *   - with any other refusal nothing is written;
 *   - what lies beyond a named part never changes.
 *
 * What a call needs is its stack, at most so many bytes whatever it is given: the figures CEZHAPPU_..._STACK, which were measured and then
 * rounded up.
 *
 * Undefined, as for any C function: a pointer that does not lead to that many elements (a null pointer with a length above 0 too), and
 * buffers that overlap.
 */
#ifndef CEZHAPPU_H
#define CEZHAPPU_H

#include <stddef.h>
#include <stdint.h>

#ifdef __cplusplus
extern "C" {
#endif

#define CEZHAPPU_READ_STACK (256 * 1024)
#define CEZHAPPU_FIND_STACK (256 * 1024)
#define CEZHAPPU_VERDICT_STACK (256 * 1024)
#define CEZHAPPU_LINKS_STACK (256 * 1024)
#define CEZHAPPU_LISTS_STACK (512 * 1024)
#define CEZHAPPU_KEEP_STACK (256 * 1024)

/* The refusals. Reading the job text gives 1 to 7; those alone have a line. */
enum cezhappu_refusal {
    CEZHAPPU_OK = 0,
    CEZHAPPU_TEXT_TOO_LONG = 1,       /* over 8,192 bytes */
    CEZHAPPU_BAD_LINE = 2,            /* no closing byte 10, wrong opening word, missing space, or a line out of its place */
    CEZHAPPU_BAD_NAME = 3,            /* a bad or repeated name */
    CEZHAPPU_TOO_MANY_NAMES = 4,      /* a 33rd label or a 17th list */
    CEZHAPPU_NOT_IN_GRAMMAR = 5,      /* an expression that is not in the grammar */
    CEZHAPPU_UNKNOWN_LABEL = 6,       /* an expression with an unknown label */
    CEZHAPPU_EXPRESSION_LIMIT = 7,    /* an expression over 512 bytes, over 16 parentheses deep, or with over 63 label occurrences */
    CEZHAPPU_BUFFER_TOO_SHORT = 8,    /* a lent buffer that is too short */
    CEZHAPPU_TOO_MANY_STANDINGS = 9,  /* over 64 standings of the expression */
    CEZHAPPU_TOO_MANY_STATES = 10,    /* over 256 states of the rewriting, before they are merged */
    CEZHAPPU_BAD_ALLOWANCE = 11,      /* an allowance of 0 or over 4,096 */
    CEZHAPPU_TOO_MANY_PLACES = 12,    /* over 1,024 cover places, of the merged states */
    CEZHAPPU_TOO_MANY_PAIRS = 13,     /* more distinct pairs than the allowance */
    CEZHAPPU_BAD_RECORDINGS = 14,     /* no recordings or over 4,096 */
    CEZHAPPU_BAD_TABLE = 15,          /* a length no multiple of three, over 16,384 links, an end or a label out of range, or not rising */
    CEZHAPPU_BAD_START = 16,          /* a start that is no recording */
    CEZHAPPU_NO_EXPRESSION = 17       /* a chosen expression that the job does not have */
};

/* The refusal of any returned number, CEZHAPPU_OK where nothing is refused; its line, counted from 1 (0 with CEZHAPPU_TEXT_TOO_LONG). */
static inline unsigned cezhappu_refusal(uint64_t answer) { return (unsigned)(answer & 0xff); }
static inline unsigned cezhappu_line(uint64_t answer) { return (unsigned)(answer >> 8 & 0xffffff); }

/*
 * Read. It writes nothing. It tells the numbers of labels and of lists. Refusals: 1 to 7.
 */
uint64_t cezhappu_read(const uint8_t *job, size_t length);

static inline unsigned cezhappu_labels(uint64_t answer) { return (unsigned)(answer >> 32 & 0xff); }
static inline unsigned cezhappu_lists(uint64_t answer) { return (unsigned)(answer >> 40 & 0xff); }

/* The named parts of the table, in 16-bit numbers, of the flags and of the word. A state's row of the table has 16 numbers. */
#define CEZHAPPU_TABLE_LENGTH 4096
#define CEZHAPPU_TABLE_ROW 16
#define CEZHAPPU_FLAGS_LENGTH 256
#define CEZHAPPU_WORD_LENGTH 256

/*
 * Find: the greatest rewriting of the query in terms of the lists. The table gets at CEZHAPPU_TABLE_ROW * state + list the next state, the
 * flags get 1 for each accepting state, the word gets the list numbers of the shortest accepted word, first in list order; all else in the
 * named parts is zero. States are merged: two words end at one state exactly if the same words may follow them, and no complete table with
 * fewer states accepts the same words. It tells the numbers of standings and of states, and one more than the length of that word: 0 where
 * no word is accepted. Refusals: 8, then 1 to 7, 9, 10, which counts the states before they are merged.
 */
uint64_t cezhappu_find(const uint8_t *job, size_t length, uint16_t *table, size_t table_length, uint8_t *flags, size_t flags_length,
                       uint8_t *word, size_t word_length);

static inline unsigned cezhappu_standings(uint64_t answer) { return (unsigned)(answer >> 32 & 0xff); }
static inline unsigned cezhappu_states(uint64_t answer) { return (unsigned)(answer >> 40 & 0xfff); }
static inline unsigned cezhappu_word(uint64_t answer) { return (unsigned)(answer >> 52); }

/* The most pairs that can be allowed, and the 64-bit words of the workspace for each. */
#define CEZHAPPU_MOST_ALLOWANCE 4096
#define CEZHAPPU_PAIR_WORDS 18

/*
 * Verdict: whether the rewriting loses a path of the query, with so many pairs allowed. The table and the flags are those of
 * cezhappu_find. The path has `allowance` bytes: it gets the label numbers of the first missed path, and zeros behind it. The workspace
 * has CEZHAPPU_PAIR_WORDS * allowance words, and is left zero. It tells the number of distinct pairs, and one more than the length of the
 * missed path: 0 where the verdict is complete. Refusals: 11, 8, then 1 to 7, 9, 10, 12, 13.
 */
uint64_t cezhappu_verdict(const uint8_t *job, size_t length, uint64_t allowance, uint16_t *table, size_t table_length, uint8_t *flags,
                          size_t flags_length, uint8_t *path, size_t path_length, uint64_t *workspace, size_t workspace_length);

static inline unsigned cezhappu_pairs(uint64_t answer) { return (unsigned)(answer >> 32 & 0xffff); }
static inline unsigned cezhappu_missed(uint64_t answer) { return (unsigned)(answer >> 48); }

/* The most recordings, the most triples of a table, and the 64-bit words of the workspace for each recording. */
#define CEZHAPPU_MOST_RECORDINGS 4096
#define CEZHAPPU_MOST_LINKS 16384
#define CEZHAPPU_LINKS_WORDS 1
#define CEZHAPPU_LISTS_WORDS 4

/*
 * Answer from links: the recordings to which a path of the chosen expression (0 the query, 1 upward a list) leads from the start. The links
 * are `links_length` numbers, three for each link: from, label, to, strictly rising in that order. The marks have `recordings` bytes: 1 for
 * such a recording, else 0. The workspace has CEZHAPPU_LINKS_WORDS * recordings words, and is left zero. It tells the number of ones.
 * Refusals: 14, 8, then 1 to 7, 17, 15, 16, 9 (of the chosen expression).
 */
uint64_t cezhappu_answer_from_links(const uint8_t *job, size_t length, uint64_t recordings, uint64_t chosen, const uint16_t *links,
                                    size_t links_length, uint64_t start, uint8_t *marks, size_t marks_length, uint64_t *workspace,
                                    size_t workspace_length);

/*
 * Answer from lists: the recordings to which an accepted list word leads from the start. The lists are lent as links are, with list numbers
 * in place of labels. The marks are as above; the workspace has CEZHAPPU_LISTS_WORDS * recordings words, and is left zero. It tells the
 * number of ones. Refusals: 14, 8, then 1 to 7, 15, 16, 9 (of the query), 10.
 */
uint64_t cezhappu_answer_from_lists(const uint8_t *job, size_t length, uint64_t recordings, const uint16_t *lists, size_t lists_length,
                                    uint64_t start, uint8_t *marks, size_t marks_length, uint64_t *workspace, size_t workspace_length);

static inline unsigned cezhappu_ones(uint64_t answer) { return (unsigned)(answer >> 32); }

/* The named part of the output of cezhappu_keep. */
#define CEZHAPPU_KEPT_LENGTH 8728

/*
 * Keep: the table and the flags of cezhappu_find, with the lists' names, written to the output as a kept file, with zeros behind it. Of two
 * jobs with the same list names in the same order, the kept files are equal exactly where the accepted words are. It tells how many bytes
 * the kept file has. Refusals: 8, then 1 to 7, 9, 10.
 */
uint64_t cezhappu_keep(const uint8_t *job, size_t length, uint8_t *out, size_t out_length);

static inline unsigned cezhappu_kept(uint64_t answer) { return (unsigned)(answer >> 32); }

#ifdef __cplusplus
}
#endif

#endif
