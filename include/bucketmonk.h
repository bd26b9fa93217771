/* Bucketmonk: the proved solver for 2-pointer logic and the reader of its texts, for programs in C (from C99) and C++ (from C++11).
 * Link libbucketmonk_c.a. No heap is used; one call needs at most 256 KiB of stack, bucketmonk_output at most 360 KiB. Nothing is kept
 * between calls, so calls with separate memory may run at the same time.
 *
 * The library has the five functions that are declared first. The inline functions at the end call them and take structs in the place
 * of many arguments: most programs need only these. */
#ifndef BUCKETMONK_H
#define BUCKETMONK_H

#include <stddef.h>
#include <stdint.h>

#define BUCKETMONK_VERSION_MAJOR 0
#define BUCKETMONK_VERSION_MINOR 2
#define BUCKETMONK_VERSION_PATCH 0
#define BUCKETMONK_VERSION "0.2.0"

#if SIZE_MAX < 0xFFFFFFFFFFFFFFFF
#error "bucketmonk.h needs a size_t of 64 bits"
#endif

#ifdef __cplusplus
extern "C" {
#endif

/* At most so many terms, propositions and questions. */
#define BUCKETMONK_MOST 512

/* A term. Terms, propositions and questions are each numbered from 0. */
typedef struct {
    uint64_t kind;
    uint64_t number;
    int64_t offset;
} bucketmonk_term;

#define BUCKETMONK_VARIABLE 0x01    /* the address of a variable; number 0 to 65535, offset 0 */
#define BUCKETMONK_AUXILIARY 0x02   /* an auxiliary; number 0 to 65535, offset 0 */
#define BUCKETMONK_DEREFERENCE 0x03 /* *(offset + t); the number is that of t, an earlier term */

/* A proposition; left and right are the numbers of terms. */
typedef struct {
    uint64_t kind;
    uint64_t left;
    int64_t offset;
    uint64_t right;
} bucketmonk_proposition;

#define BUCKETMONK_EQUALITY 0x11          /* left = offset + right */
#define BUCKETMONK_DISEQUALITY 0x12       /* left != offset + right */
#define BUCKETMONK_BLOCK_DISEQUALITY 0x13 /* the blocks of left and right differ; offset 0 */

/* A question: left against offset + right, the numbers of terms. */
typedef struct {
    uint64_t left;
    int64_t offset;
    uint64_t right;
} bucketmonk_question;

/* What bucketmonk_solve and bucketmonk_verdict return. */
#define BUCKETMONK_SATISFIABLE 0
#define BUCKETMONK_CONTRADICTION 1
/* Of a result above 1: the number of the refusal, 1 to 9, and the place of the first fault: the number of the record in its table. For
 * 1, 2 and 3 the place is 512, for 8 it is 0.
 * 1, 2, 3: more than 512 terms, propositions, questions
 * 4: a dereference names a term not listed before it
 * 5: an atom is listed twice (place: the second listing)
 * 6, 7: a proposition, a question names a term not listed
 * 8: a table or lent array is too short
 * 9: a kind that does not exist, the number of a variable or auxiliary above 65535, an offset below -2147483648 or above 2147483647, or
 *    an offset that is not 0 where the kind has none
 * bucketmonk_refusal_text gives a text for each number. */
#define BUCKETMONK_REFUSAL(result) ((unsigned)((result) >> 16))
#define BUCKETMONK_PLACE(result) ((unsigned)((result) & 0xFFFF))

/* Answers to questions. */
#define BUCKETMONK_NEITHER 0
#define BUCKETMONK_EQUAL 1
#define BUCKETMONK_DIFFERENT 2
#define BUCKETMONK_CONTRADICTORY 3 /* the set is contradictory */

/* Whether bucketmonk_solve is asked for the blame of a contradiction. Every other number asks for it as BUCKETMONK_BLAME does. */
#define BUCKETMONK_NO_BLAME 0
#define BUCKETMONK_BLAME 1

/* Bytes of the pair bits of n terms. */
#define BUCKETMONK_PAIR_BYTES(n) (((size_t)(n) * (n) + 7) / 8)

/* Solves the set of n terms, m propositions and q questions; blame is BUCKETMONK_BLAME or BUCKETMONK_NO_BLAME.
 *
 * Needs: every pointer is valid for the length given after it (in elements), aligned for its type and not null, also where the length
 * is 0; the five lent arrays overlap nothing else. Nothing else is asked: every content of the tables and every length gets an answer.
 * Tables: n terms, m propositions, q questions, or more.
 * Lent: n representatives, n offsets, m marks (with blame and without), BUCKETMONK_PAIR_BYTES(n) pair bytes, q answers, or more.
 *
 * Leaves, where the set is satisfiable: for term k its representative (the lowest-numbered term of its class) and its offset from it;
 * marks 0; bit i * n + j of the pair bytes (lowest bit of a byte first) 1 where term i is different from term j; for question k its
 * answer. Where the set is contradictory: each term its own representative at offset 0; mark 1 for each proposition that is blamed, 0
 * for the others, or without blame 0 for all; pair bits 0; answers 3. Cells beyond those needed are unchanged. A refused call changes
 * nothing.
 *
 * A contradiction takes about as long as its verdict alone; with blame, at most three more verdicts for two propositions, and few where
 * few are blamed. */
size_t bucketmonk_solve(
    size_t n, const bucketmonk_term *terms, size_t terms_length,
    size_t m, const bucketmonk_proposition *propositions, size_t propositions_length,
    size_t q, const bucketmonk_question *questions, size_t questions_length,
    size_t blame,
    uint32_t *representatives, size_t representatives_length,
    int64_t *offsets, size_t offsets_length,
    uint8_t *marks, size_t marks_length,
    uint8_t *pairs, size_t pairs_length,
    uint8_t *answers, size_t answers_length);

/* The verdict alone on the set of n terms and m propositions: what bucketmonk_solve returns for the set without questions and with
 * enough lent memory, with blame or without.
 *
 * Needs: as bucketmonk_solve, for the tables. Leaves nothing: no memory is lent. */
size_t bucketmonk_verdict(
    size_t n, const bucketmonk_term *terms, size_t terms_length,
    size_t m, const bucketmonk_proposition *propositions, size_t propositions_length);

/* What bucketmonk_read returns: the refusal is 0 where the text is accepted, and then the three counts are those of its records;
 * else its number, 1 to 10, with the number of the faulty line, counted from 0, as the place.
 * 1 to 7: as above
 * 8: a lent table has room for less than 512 records (place 0)
 * 9: a line that is no frame, or is not ended by a line feed
 * 10: a term after a proposition or question, or a proposition after a question */
#define BUCKETMONK_READ_REFUSAL(result) ((unsigned)((result) >> 48))
#define BUCKETMONK_READ_PLACE(result) ((size_t)((result) & 0xFFFFFFFFFFFF))
#define BUCKETMONK_READ_TERMS(result) ((size_t)((result) >> 32 & 0xFFFF))
#define BUCKETMONK_READ_PROPOSITIONS(result) ((size_t)((result) >> 16 & 0xFFFF))
#define BUCKETMONK_READ_QUESTIONS(result) ((size_t)((result) & 0xFFFF))

/* Reads a text, one frame of hexadecimal digits a line, into the tables that bucketmonk_solve takes.
 *
 * Needs: as bucketmonk_solve of each pointer; the three lent tables overlap nothing else. Nothing else is asked: every text and every
 * length gets an answer.
 * Lent: room for 512 records in each table, or more.
 *
 * Leaves, where the text is accepted: its records in the tables, in order. Records beyond the counts are unchanged. A refused text
 * changes nothing. */
size_t bucketmonk_read(
    const uint8_t *text, size_t text_length,
    bucketmonk_term *terms, size_t terms_length,
    bucketmonk_proposition *propositions, size_t propositions_length,
    bucketmonk_question *questions, size_t questions_length);

/* Where the faulty line of a text stands, for tables with room for so many terms, propositions and questions: the lengths of the
 * tables in bucketmonk_read.
 *
 * Needs: as bucketmonk_solve of each pointer, start being valid for one number; start overlaps nothing else.
 * Returns the length of the line, without its line feed, and leaves its first byte's place in *start. Both are 0 where the text is
 * accepted or the room is less than 512. */
size_t bucketmonk_faulty_line(const uint8_t *text, size_t text_length, size_t terms, size_t propositions, size_t questions, size_t *start);

/* Bytes of the largest output: a verdict, 512 terms and 512 questions. */
#define BUCKETMONK_LARGEST_OUTPUT 18437

/* Writes to out what the program bucketmonk writes for a text: one frame of hexadecimal digits a line, the blamed propositions of a
 * contradiction among them.
 *
 * Needs: as bucketmonk_solve of each pointer; out overlaps nothing else. Every text and every length gets an answer.
 * Lent: BUCKETMONK_LARGEST_OUTPUT bytes, or more.
 *
 * Returns how many bytes the output has and leaves them at the start of out; the bytes beyond are unchanged. Where out is shorter than
 * BUCKETMONK_LARGEST_OUTPUT, 0 is returned and nothing is written; no output is empty. */
size_t bucketmonk_output(const uint8_t *text, size_t text_length, uint8_t *out, size_t out_length);

/* What is wrong, for the number of a refusal of any function. */
static inline const char *bucketmonk_refusal_text(unsigned number) {
    static const char *const texts[] = {
        "no such refusal",
        "more than 512 terms",
        "more than 512 propositions",
        "more than 512 questions",
        "a dereference names a term not listed before it",
        "an atom is listed twice",
        "a proposition names a term not listed",
        "a question names a term not listed",
        "a table or lent array is too short",
        "a record with a value out of range, or a line that is no frame",
        "a term after a proposition or question, or a proposition after a question",
    };
    return texts[number < sizeof texts / sizeof texts[0] ? number : 0];
}

/* Whether term i is different from term j: 1 or 0, from the pair bytes that a solved set of n terms has left; i and j are below n. */
static inline int bucketmonk_pair_bit(const uint8_t *pairs, size_t n, size_t i, size_t j) {
    size_t bit = i * n + j;
    return (pairs[bit / 8] >> (bit % 8)) & 1;
}

/* The arguments of bucketmonk_solve: its tables, and the memory that it is lent. In these two structs a null pointer stands for an array
 * of length 0, whatever length is given after it; a struct that is all zero is the set of nothing, or no memory. */
typedef struct {
    size_t n;
    const bucketmonk_term *terms;
    size_t terms_length;
    size_t m;
    const bucketmonk_proposition *propositions;
    size_t propositions_length;
    size_t q;
    const bucketmonk_question *questions;
    size_t questions_length;
} bucketmonk_tables;

typedef struct {
    uint32_t *representatives;
    size_t representatives_length;
    int64_t *offsets;
    size_t offsets_length;
    uint8_t *marks;
    size_t marks_length;
    uint8_t *pairs;
    size_t pairs_length;
    uint8_t *answers;
    size_t answers_length;
} bucketmonk_memory;

/* The structs with each null pointer replaced by one that the library's functions take; what it points to is neither read nor written. */
static inline bucketmonk_tables bucketmonk_tables_not_null(const bucketmonk_tables *given) {
    static const bucketmonk_term term = {0, 0, 0};
    static const bucketmonk_proposition proposition = {0, 0, 0, 0};
    static const bucketmonk_question question = {0, 0, 0};
    bucketmonk_tables tables = *given;
    if (tables.terms == NULL) {
        tables.terms = &term;
        tables.terms_length = 0;
    }
    if (tables.propositions == NULL) {
        tables.propositions = &proposition;
        tables.propositions_length = 0;
    }
    if (tables.questions == NULL) {
        tables.questions = &question;
        tables.questions_length = 0;
    }
    return tables;
}

static inline bucketmonk_memory bucketmonk_memory_not_null(const bucketmonk_memory *given) {
    static uint32_t representative;
    static int64_t offset;
    static uint8_t byte;
    bucketmonk_memory memory = *given;
    if (memory.representatives == NULL) {
        memory.representatives = &representative;
        memory.representatives_length = 0;
    }
    if (memory.offsets == NULL) {
        memory.offsets = &offset;
        memory.offsets_length = 0;
    }
    if (memory.marks == NULL) {
        memory.marks = &byte;
        memory.marks_length = 0;
    }
    if (memory.pairs == NULL) {
        memory.pairs = &byte;
        memory.pairs_length = 0;
    }
    if (memory.answers == NULL) {
        memory.answers = &byte;
        memory.answers_length = 0;
    }
    return memory;
}

/* bucketmonk_solve with its tables and lent memory in two structs, which are not changed. */
static inline size_t bucketmonk_solve_tables(const bucketmonk_tables *tables, size_t blame, const bucketmonk_memory *memory) {
    const bucketmonk_tables t = bucketmonk_tables_not_null(tables);
    const bucketmonk_memory lent = bucketmonk_memory_not_null(memory);
    return bucketmonk_solve(
        t.n, t.terms, t.terms_length, t.m, t.propositions, t.propositions_length, t.q, t.questions, t.questions_length,
        blame, lent.representatives, lent.representatives_length, lent.offsets, lent.offsets_length, lent.marks, lent.marks_length,
        lent.pairs, lent.pairs_length, lent.answers, lent.answers_length);
}

/* bucketmonk_verdict likewise; the questions are not looked at. */
static inline size_t bucketmonk_verdict_tables(const bucketmonk_tables *tables) {
    const bucketmonk_tables t = bucketmonk_tables_not_null(tables);
    return bucketmonk_verdict(t.n, t.terms, t.terms_length, t.m, t.propositions, t.propositions_length);
}

/* Memory that is enough for every set (39 KiB). */
typedef struct {
    uint32_t representatives[BUCKETMONK_MOST];
    int64_t offsets[BUCKETMONK_MOST];
    uint8_t marks[BUCKETMONK_MOST];
    uint8_t pairs[BUCKETMONK_PAIR_BYTES(BUCKETMONK_MOST)];
    uint8_t answers[BUCKETMONK_MOST];
} bucketmonk_full_memory;

/* All of it, to be lent. */
static inline bucketmonk_memory bucketmonk_memory_of(bucketmonk_full_memory *full) {
    const bucketmonk_memory memory = {
        full->representatives, BUCKETMONK_MOST, full->offsets, BUCKETMONK_MOST, full->marks, BUCKETMONK_MOST,
        full->pairs, sizeof full->pairs, full->answers, BUCKETMONK_MOST,
    };
    return memory;
}

/* Tables with room for every text (40 KiB). */
typedef struct {
    bucketmonk_term terms[BUCKETMONK_MOST];
    bucketmonk_proposition propositions[BUCKETMONK_MOST];
    bucketmonk_question questions[BUCKETMONK_MOST];
} bucketmonk_full_tables;

/* bucketmonk_read into such tables; a text of length 0 may be null. */
static inline size_t bucketmonk_read_tables(const uint8_t *text, size_t text_length, bucketmonk_full_tables *full) {
    static const uint8_t byte = 0;
    return bucketmonk_read(
        text == NULL && text_length == 0 ? &byte : text, text_length,
        full->terms, BUCKETMONK_MOST, full->propositions, BUCKETMONK_MOST, full->questions, BUCKETMONK_MOST);
}

/* The tables of an accepted text, from what bucketmonk_read_tables returned for it. Of a refused text, tables that are refused (8). */
static inline bucketmonk_tables bucketmonk_tables_of(const bucketmonk_full_tables *full, size_t result) {
    bucketmonk_tables tables = {1, full->terms, 0, 0, full->propositions, 0, 0, full->questions, 0};
    if (BUCKETMONK_READ_REFUSAL(result) == 0) {
        tables.n = BUCKETMONK_READ_TERMS(result);
        tables.terms_length = BUCKETMONK_MOST;
        tables.m = BUCKETMONK_READ_PROPOSITIONS(result);
        tables.propositions_length = BUCKETMONK_MOST;
        tables.q = BUCKETMONK_READ_QUESTIONS(result);
        tables.questions_length = BUCKETMONK_MOST;
    }
    return tables;
}

#ifdef __cplusplus
}
#endif

#endif
