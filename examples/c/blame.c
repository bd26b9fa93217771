/* Contradictory propositions, without blame and then with it, with memory of just the size that they need and no questions. Then one more
 * proposition, for which this memory is too short, and which names a term not listed: two refusals. */
#include <bucketmonk.h>
#include <stdio.h>

enum { TERMS = 2, PROPOSITIONS = 3 };

static void print_result(const bucketmonk_tables *tables, size_t blame, const bucketmonk_memory *lent) {
    size_t result = bucketmonk_solve_tables(tables, blame, lent);
    if (result > BUCKETMONK_CONTRADICTION) {
        unsigned refusal = BUCKETMONK_REFUSAL(result);
        printf("refused (%u): %s: place %u\n", refusal, bucketmonk_refusal_text(refusal), BUCKETMONK_PLACE(result));
        return;
    }
    puts(result == BUCKETMONK_SATISFIABLE ? "satisfiable" : "contradiction");
    size_t blamed = 0;
    for (size_t k = 0; k < tables->m; k++) {
        if (lent->marks[k] == 1) {
            printf("proposition %zu is blamed\n", k);
            blamed++;
        }
    }
    printf("%zu blamed\n", blamed);
}

int main(void) {
    const bucketmonk_term terms[TERMS] = {{BUCKETMONK_AUXILIARY, 1, 0}, {BUCKETMONK_AUXILIARY, 2, 0}};
    const bucketmonk_proposition propositions[PROPOSITIONS + 1] = {
        {BUCKETMONK_EQUALITY, 0, 0, 1},
        {BUCKETMONK_EQUALITY, 0, 0, 1},
        {BUCKETMONK_DISEQUALITY, 0, 0, 1},
        {BUCKETMONK_BLOCK_DISEQUALITY, 0, 0, 2},
    };
    uint32_t representatives[TERMS];
    int64_t offsets[TERMS];
    uint8_t marks[PROPOSITIONS + 1], pairs[BUCKETMONK_PAIR_BYTES(TERMS)];
    bucketmonk_tables tables = {TERMS, terms, TERMS, PROPOSITIONS, propositions, PROPOSITIONS + 1, 0, NULL, 0};
    bucketmonk_memory lent = {representatives, TERMS, offsets, TERMS, marks, PROPOSITIONS, pairs, sizeof pairs, NULL, 0};

    print_result(&tables, BUCKETMONK_NO_BLAME, &lent);
    print_result(&tables, BUCKETMONK_BLAME, &lent);
    tables.m = PROPOSITIONS + 1;
    print_result(&tables, BUCKETMONK_NO_BLAME, &lent);
    lent.marks_length = PROPOSITIONS + 1;
    print_result(&tables, BUCKETMONK_BLAME, &lent);
    return 0;
}
