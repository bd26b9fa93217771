/* Tests what bucketmonk.h itself has: the inline functions, by functions in the place of the library's that keep their arguments. Says
 * what fails; the status is 0 where nothing does. Valid as C and as C++. */
#include <bucketmonk.h>
#include <stdio.h>
#include <string.h>

static int failed;

static void check(const char *what, int holds) {
    if (!holds) {
        printf("header: %s\n", what);
        failed = 1;
    }
}

static bucketmonk_tables tables;
static bucketmonk_memory lent;
static size_t asked;
static const uint8_t *read_text;
static size_t read_length;

size_t bucketmonk_solve(
    size_t n, const bucketmonk_term *terms, size_t terms_length,
    size_t m, const bucketmonk_proposition *propositions, size_t propositions_length,
    size_t q, const bucketmonk_question *questions, size_t questions_length,
    size_t blame,
    uint32_t *representatives, size_t representatives_length,
    int64_t *offsets, size_t offsets_length,
    uint8_t *marks, size_t marks_length,
    uint8_t *pairs, size_t pairs_length,
    uint8_t *answers, size_t answers_length) {
    const bucketmonk_tables t = {
        n, terms, terms_length, m, propositions, propositions_length, q, questions, questions_length,
    };
    const bucketmonk_memory l = {
        representatives, representatives_length, offsets, offsets_length, marks, marks_length,
        pairs, pairs_length, answers, answers_length,
    };
    tables = t;
    lent = l;
    asked = blame;
    return 17;
}

size_t bucketmonk_verdict(
    size_t n, const bucketmonk_term *terms, size_t terms_length,
    size_t m, const bucketmonk_proposition *propositions, size_t propositions_length) {
    const bucketmonk_tables t = {n, terms, terms_length, m, propositions, propositions_length, 0, NULL, 0};
    tables = t;
    return 18;
}

size_t bucketmonk_read(
    const uint8_t *text, size_t text_length,
    bucketmonk_term *terms, size_t terms_length,
    bucketmonk_proposition *propositions, size_t propositions_length,
    bucketmonk_question *questions, size_t questions_length) {
    const bucketmonk_tables t = {0, terms, terms_length, 0, propositions, propositions_length, 0, questions, questions_length};
    tables = t;
    read_text = text;
    read_length = text_length;
    return 19;
}

static int same_tables(const bucketmonk_tables *a, const bucketmonk_tables *b) {
    return a->n == b->n && a->terms == b->terms && a->terms_length == b->terms_length
        && a->m == b->m && a->propositions == b->propositions && a->propositions_length == b->propositions_length
        && a->q == b->q && a->questions == b->questions && a->questions_length == b->questions_length;
}

static int same_memory(const bucketmonk_memory *a, const bucketmonk_memory *b) {
    return a->representatives == b->representatives && a->representatives_length == b->representatives_length
        && a->offsets == b->offsets && a->offsets_length == b->offsets_length
        && a->marks == b->marks && a->marks_length == b->marks_length
        && a->pairs == b->pairs && a->pairs_length == b->pairs_length
        && a->answers == b->answers && a->answers_length == b->answers_length;
}

static bucketmonk_full_tables rows;
static bucketmonk_full_memory cells;

static void test_arguments(void) {
    const bucketmonk_tables given = {1, rows.terms, 2, 3, rows.propositions, 4, 5, rows.questions, 6};
    const bucketmonk_tables unasked = {1, rows.terms, 2, 3, rows.propositions, 4, 0, NULL, 0};
    const bucketmonk_memory memory = {
        cells.representatives, 7, cells.offsets, 8, cells.marks, 9, cells.pairs, 10, cells.answers, 11,
    };
    const size_t numbers[5] = {BUCKETMONK_BLAME, 2, 256, SIZE_MAX, BUCKETMONK_NO_BLAME};
    for (size_t k = 0; k < 5; k++) {
        check("what bucketmonk_solve_tables returns", bucketmonk_solve_tables(&given, numbers[k], &memory) == 17);
        check("the number for blame that bucketmonk_solve_tables passes", asked == numbers[k]);
    }
    check("the numbers for blame", BUCKETMONK_NO_BLAME == 0 && BUCKETMONK_BLAME == 1);
    check("the tables that bucketmonk_solve_tables passes", same_tables(&tables, &given));
    check("the memory that bucketmonk_solve_tables passes", same_memory(&lent, &memory));
    check("what bucketmonk_verdict_tables returns", bucketmonk_verdict_tables(&given) == 18);
    check("the tables that bucketmonk_verdict_tables passes", same_tables(&tables, &unasked));
}

/* Not null and aligned for 64 bits. */
static int is_place(const void *pointer) {
    return pointer != NULL && (uintptr_t)pointer % 8 == 0;
}

static void test_null(void) {
    const bucketmonk_tables given = {1, NULL, 2, 3, NULL, 4, 5, NULL, 6};
    const bucketmonk_memory memory = {NULL, 7, NULL, 8, NULL, 9, NULL, 10, NULL, 11};
    bucketmonk_solve_tables(&given, BUCKETMONK_BLAME, &memory);
    check("null tables", is_place(tables.terms) && is_place(tables.propositions) && is_place(tables.questions));
    check("lengths of null tables", tables.terms_length + tables.propositions_length + tables.questions_length == 0);
    check("counts of null tables", tables.n == 1 && tables.m == 3 && tables.q == 5);
    check("null representatives", lent.representatives != NULL && (uintptr_t)lent.representatives % 4 == 0);
    check("null offsets", is_place(lent.offsets));
    check("null bytes", lent.marks != NULL && lent.pairs != NULL && lent.answers != NULL);
    check("lengths of null labels", lent.representatives_length + lent.offsets_length == 0);
    check("lengths of null bytes", lent.marks_length + lent.pairs_length + lent.answers_length == 0);
    bucketmonk_verdict_tables(&given);
    check("null tables for the verdict", is_place(tables.terms) && is_place(tables.propositions));
    check("lengths of null tables for the verdict", tables.terms_length + tables.propositions_length == 0);
}

static void test_full(void) {
    const bucketmonk_memory memory = {
        cells.representatives, 512, cells.offsets, 512, cells.marks, 512, cells.pairs, 32768, cells.answers, 512,
    };
    const bucketmonk_tables lent_tables = {0, rows.terms, 512, 0, rows.propositions, 512, 0, rows.questions, 512};
    const bucketmonk_tables read_tables = {10, rows.terms, 512, 20, rows.propositions, 512, 30, rows.questions, 512};
    const uint8_t text[3] = {'0', '1', '\n'};
    const bucketmonk_memory found_memory = bucketmonk_memory_of(&cells);
    const bucketmonk_tables found_tables = bucketmonk_tables_of(&rows, 10ULL << 32 | 20 << 16 | 30);
    check("bucketmonk_memory_of", same_memory(&found_memory, &memory));
    check("bucketmonk_tables_of", same_tables(&found_tables, &read_tables));
    for (size_t refusal = 1; refusal <= 10; refusal++) {
        const bucketmonk_tables refused = bucketmonk_tables_of(&rows, refusal << 48);
        check("bucketmonk_tables_of, refused", refused.n <= BUCKETMONK_MOST && refused.n > refused.terms_length);
    }
    check("what bucketmonk_read_tables returns", bucketmonk_read_tables(text, sizeof text, &rows) == 19);
    check("the text that bucketmonk_read_tables passes", read_text == text && read_length == sizeof text);
    check("the tables that bucketmonk_read_tables passes", same_tables(&tables, &lent_tables));
    bucketmonk_read_tables(NULL, 0, &rows);
    check("a null text", read_text != NULL && read_length == 0);
}

static void test_pair_bit(void) {
    for (size_t k = 0; k < 25; k++) {
        uint8_t pairs[BUCKETMONK_PAIR_BYTES(5)] = {0};
        pairs[k / 8] = (uint8_t)(1 << k % 8);
        for (size_t i = 0; i < 5; i++) {
            for (size_t j = 0; j < 5; j++) {
                check("bucketmonk_pair_bit", bucketmonk_pair_bit(pairs, 5, i, j) == (5 * i + j == k));
            }
        }
    }
}

static void test_refusal_text(void) {
    const char *none = bucketmonk_refusal_text(0);
    check("a text for no refusal", strcmp(none, "no such refusal") == 0);
    check("a text for refusal 11", strcmp(bucketmonk_refusal_text(11), none) == 0);
    check("a text for the largest number", strcmp(bucketmonk_refusal_text((unsigned)-1), none) == 0);
    for (unsigned i = 1; i <= 10; i++) {
        for (unsigned j = 0; j < i; j++) {
            check("two refusals have one text", strcmp(bucketmonk_refusal_text(i), bucketmonk_refusal_text(j)) != 0);
        }
    }
}

static void test_version(void) {
    char version[40];
    snprintf(version, sizeof version, "%d.%d.%d", BUCKETMONK_VERSION_MAJOR, BUCKETMONK_VERSION_MINOR, BUCKETMONK_VERSION_PATCH);
    check("BUCKETMONK_VERSION", strcmp(version, BUCKETMONK_VERSION) == 0);
}

int main(void) {
    test_arguments();
    test_null();
    test_full();
    test_pair_bit();
    test_refusal_text();
    test_version();
    return failed;
}
