/* Writes to standard output what the program bucketmonk writes for the text on standard input. */
#include <bucketmonk.h>
#include <stdio.h>

/* The first 32,768 bytes of a text decide. */
static uint8_t text[32768];

static uint8_t out[BUCKETMONK_LARGEST_OUTPUT];

int main(void) {
    size_t length = fread(text, 1, sizeof text, stdin);
    if (ferror(stdin)) {
        perror("standard input");
        return 1;
    }
    size_t size = bucketmonk_output(text, length, out, sizeof out);
    if (fwrite(out, 1, size, stdout) != size || fflush(stdout) != 0) {
        perror("standard output");
        return 1;
    }
    return 0;
}
