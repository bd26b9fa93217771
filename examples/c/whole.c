/* The set of README's example: two dereferences of one address, through an equality with an offset. */
#include <bucketmonk.h>
#include <stdio.h>

enum { TERMS = 4, PROPOSITIONS = 1, QUESTIONS = 4 };

static bucketmonk_full_memory memory;

static void print_different(size_t n) {
    for (size_t i = 0; i < n; i++) {
        for (size_t j = i + 1; j < n; j++) {
            if (bucketmonk_pair_bit(memory.pairs, n, i, j)) {
                printf("term %zu is different from term %zu\n", i, j);
            }
        }
    }
}

int main(void) {
    const bucketmonk_term terms[TERMS] = {
        {BUCKETMONK_VARIABLE, 1, 0},
        {BUCKETMONK_AUXILIARY, 1, 0},
        {BUCKETMONK_DEREFERENCE, 0, 0},
        {BUCKETMONK_DEREFERENCE, 1, 4},
    };
    const bucketmonk_proposition propositions[PROPOSITIONS] = {{BUCKETMONK_EQUALITY, 1, -4, 0}};
    const bucketmonk_question questions[QUESTIONS] = {{3, 0, 2}, {0, 4, 1}, {0, 0, 1}, {2, 0, 0}};
    const bucketmonk_tables tables = {
        TERMS, terms, TERMS, PROPOSITIONS, propositions, PROPOSITIONS, QUESTIONS, questions, QUESTIONS,
    };
    const bucketmonk_memory lent = bucketmonk_memory_of(&memory);

    size_t result = bucketmonk_solve_tables(&tables, BUCKETMONK_NO_BLAME, &lent);
    if (result > BUCKETMONK_CONTRADICTION) {
        printf("refused: %s: place %u\n", bucketmonk_refusal_text(BUCKETMONK_REFUSAL(result)), BUCKETMONK_PLACE(result));
        return 1;
    }
    puts(result == BUCKETMONK_SATISFIABLE ? "satisfiable" : "contradiction");
    for (int t = 0; t < TERMS; t++) {
        printf("term %d = %lld + term %u\n", t, (long long)memory.offsets[t], (unsigned)memory.representatives[t]);
    }
    print_different(TERMS);
    static const char *const words[] = {"neither", "equal", "different", "contradictory"};
    for (int k = 0; k < QUESTIONS; k++) {
        printf("question %d: %s\n", k, words[memory.answers[k]]);
    }
    return 0;
}
