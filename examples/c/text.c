/* Reads a text from standard input and says how many records it has and the verdict on its propositions, or which line is refused. */
#include <bucketmonk.h>
#include <stdio.h>

/* An accepted text has at most 27,136 bytes, and the first 32,768 decide. */
static uint8_t text[32768];

static bucketmonk_full_tables full;

int main(void) {
    size_t length = fread(text, 1, sizeof text, stdin);
    if (ferror(stdin)) {
        perror("standard input");
        return 2;
    }
    size_t found = bucketmonk_read_tables(text, length, &full);
    unsigned refusal = BUCKETMONK_READ_REFUSAL(found);
    if (refusal != 0) {
        size_t start;
        size_t size = bucketmonk_faulty_line(text, length, BUCKETMONK_MOST, BUCKETMONK_MOST, BUCKETMONK_MOST, &start);
        printf("refused (%u): %s: line %zu: %.*s\n", refusal, bucketmonk_refusal_text(refusal), BUCKETMONK_READ_PLACE(found), (int)size,
               (const char *)text + start);
        return 1;
    }
    const bucketmonk_tables tables = bucketmonk_tables_of(&full, found);
    printf("%zu terms, %zu propositions, %zu questions: ", tables.n, tables.m, tables.q);
    puts(bucketmonk_verdict_tables(&tables) == BUCKETMONK_SATISFIABLE ? "satisfiable" : "contradiction");
    return 0;
}
