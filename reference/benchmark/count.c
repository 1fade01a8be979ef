/* Calls one function of the library so many times on one table, for
 * reference/count-instructions. The VID asked for is the table's first. */
#include <stdint.h>
#include <stdio.h>
#include <stdlib.h>
#include <string.h>

#include "../../include/spb.h"

/* crates/bench_calls */
uint32_t bench_path(const uint8_t *table, size_t length, uint32_t vid, uint32_t from, uint32_t to);
uint32_t bench_tree(const uint8_t *table, size_t length, uint32_t vid, uint32_t from);
uint32_t bench_trees(const uint8_t *table, size_t length, uint32_t count);
uint32_t bench_entries(const uint8_t *table, size_t length, uint32_t bridge);

enum { FROM = 0, TO = 37, BRIDGE = 5, TREES = 64 };

/* The VID of the first VID record: bridges and half-links have 3 words, a VID record 1. */
static uint32_t first_vid(const uint8_t *table, size_t length) {
    for (size_t at = 0; at + 4 <= length; at += 12) {
        if (table[at] >> 4 == 3) {
            return (uint32_t)(table[at] & 15) << 8 | table[at + 1];
        }
    }
    return 0;
}

static uint64_t called(const char *name, const uint8_t *table, size_t length, uint32_t vid) {
    if (strcmp(name, "check") == 0) return spb_check(table, length);
    if (strcmp(name, "cost") == 0) return spb_path_cost(table, length, vid, FROM, TO);
    if (strcmp(name, "path") == 0) return bench_path(table, length, vid, FROM, TO);
    if (strcmp(name, "tree") == 0) return bench_tree(table, length, vid, FROM);
    if (strcmp(name, "trees") == 0) return bench_trees(table, length, TREES);
    if (strcmp(name, "entries") == 0) return bench_entries(table, length, BRIDGE);
    fprintf(stderr, "count: no function '%s'\n", name);
    exit(2);
}

int main(int words, char **word) {
    static uint8_t table[SPB_LONGEST_TABLE];
    if (words != 4) {
        fprintf(stderr, "usage: count TABLE FUNCTION TIMES\n");
        return 2;
    }
    FILE *file = fopen(word[1], "rb");
    if (file == NULL) {
        perror(word[1]);
        return 1;
    }
    size_t length = fread(table, 1, SPB_LONGEST_TABLE, file);
    fclose(file);
    uint32_t vid = first_vid(table, length);
    uint64_t sum = 0;
    for (long i = atol(word[3]); i > 0; i--) {
        sum += called(word[2], table, length, vid);
    }
    printf("%llu\n", (unsigned long long)sum);
    return 0;
}
