/* The text program in C: frames from standard input, answers to standard output. */
#include "endrusp.h"
#include <stdio.h>

/* One byte more than is run tells all there is to know of a longer input. */
enum { LONGEST = 65536 + 1 };

static uint8_t input[LONGEST];
static uint8_t out[11 * LONGEST + 11];

int main(void)
{
    size_t length = fread(input, 1, sizeof input, stdin);
    if (ferror(stdin)) {
        fputs("standard input cannot be read\n", stderr);
        return 1;
    }
    size_t written = endrusp_run(input, length, out, sizeof out);
    if (written == ENDRUSP_NO_ROOM) {
        fputs("the buffer has no room\n", stderr);
        return 1;
    }
    if (fwrite(out, 1, written, stdout) != written || fflush(stdout) != 0) {
        fputs("standard output cannot be written\n", stderr);
        return 1;
    }
    return 0;
}
