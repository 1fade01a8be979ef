/* Exported check on heap buffers of exactly a table's length.
 *
 * Standard input, numbers of 32 bits with the high byte first: the length of a
 * table and its bytes, repeated until the input ends. Standard output: a line
 * with exported check's number for each table.
 *
 * Built with -fsanitize=address, and run under valgrind's memcheck, which looks
 * at every access of the static library's machine code too. */
#include <stddef.h>
#include <stdint.h>
#include <stdio.h>
#include <stdlib.h>
#include <string.h>

#include "spb.h"

static void fail(const char *what) {
    fprintf(stderr, "exact: %s\n", what);
    exit(1);
}

static int read_length(size_t *length) {
    uint8_t bytes[4];
    if (fread(bytes, 1, sizeof bytes, stdin) != sizeof bytes) {
        return 0;
    }
    *length = (size_t)bytes[0] << 24 | (size_t)bytes[1] << 16 | (size_t)bytes[2] << 8 | bytes[3];
    return 1;
}

int main(void) {
    size_t length;
    while (read_length(&length)) {
        uint8_t *table = malloc(length);
        uint8_t *before = malloc(length);
        if (length != 0 && (table == NULL || before == NULL)) {
            fail("no memory");
        }
        if (length != 0 && fread(table, 1, length, stdin) != length) {
            fail("the input ends inside a table");
        }
        if (length != 0) {
            memcpy(before, table, length);
        }
        uint32_t number = spb_check(table, length);
        if (length != 0 && memcmp(before, table, length) != 0) {
            fail("the table was changed");
        }
        printf("%u\n", (unsigned)number);
        fflush(stdout);
        free(before);
        free(table);
    }
    return 0;
}
