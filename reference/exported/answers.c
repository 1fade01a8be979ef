/* Answers for the comparer of the exported functions, from the static library.
 *
 * Standard input, numbers of 32 bits with the high byte first: the length of a
 * table, its bytes, the number of questions, and for each VID, from and to.
 * Standard output: exported check in 32 bits, then exported path cost in 64 bits
 * for each question. Repeated until the input ends. Before that the functions are
 * called with no table at all, a null pointer and the length 0: refused with 1.
 *
 * A table lies at the end of a readable page with a closed page behind it, so
 * that reading or writing past it ends the program. */
#include <stddef.h>
#include <stdint.h>
#include <stdio.h>
#include <stdlib.h>
#include <sys/mman.h>
#include <unistd.h>

#include "spb.h"

/* A table's bytes before a closed page. */
struct guarded {
    uint8_t *pages;
    size_t size;
    uint8_t *table;
};

static void fail(const char *what) {
    fprintf(stderr, "answers: %s\n", what);
    exit(1);
}

static int read_bytes(void *into, size_t count) {
    return count == 0 || fread(into, 1, count, stdin) == count;
}

static int read_number(uint32_t *number) {
    uint8_t bytes[4];
    if (!read_bytes(bytes, sizeof bytes)) {
        return 0;
    }
    *number = (uint32_t)bytes[0] << 24 | (uint32_t)bytes[1] << 16 | (uint32_t)bytes[2] << 8 | bytes[3];
    return 1;
}

static void write_number(uint64_t number, int bytes) {
    for (int place = bytes - 1; place >= 0; place--) {
        putchar((int)(number >> (8 * place) & 0xFF));
    }
}

static struct guarded read_table(size_t length) {
    size_t page = (size_t)sysconf(_SC_PAGESIZE);
    size_t readable = (length / page + 1) * page;
    struct guarded guarded = {NULL, readable + page, NULL};
    guarded.pages = mmap(NULL, guarded.size, PROT_READ | PROT_WRITE, MAP_PRIVATE | MAP_ANONYMOUS, -1, 0);
    if (guarded.pages == MAP_FAILED) {
        fail("no memory");
    }
    guarded.table = guarded.pages + readable - length;
    if (!read_bytes(guarded.table, length)) {
        fail("the input ends inside a table");
    }
    if (mprotect(guarded.pages, readable, PROT_READ) != 0 || mprotect(guarded.pages + readable, page, PROT_NONE) != 0) {
        fail("the pages cannot be closed");
    }
    return guarded;
}

#ifndef CHECK_ONLY
static void refuse_no_table(void) {
    if (spb_check(NULL, 0) != 1 || spb_path_cost(NULL, 0, 1, 0, 0) != SPB_REFUSED + 1) {
        fail("no table is not refused with 1");
    }
}

static void answer_question(const uint8_t *table, size_t length) {
    uint32_t vid, from, to;
    if (!read_number(&vid) || !read_number(&from) || !read_number(&to)) {
        fail("the input ends inside a question");
    }
    write_number(spb_path_cost(table, length, vid, from, to), 8);
}
#endif

int main(void) {
    uint32_t length, questions;
#ifndef CHECK_ONLY
    refuse_no_table();
#endif
    while (read_number(&length)) {
        struct guarded guarded = read_table(length);
        write_number(spb_check(guarded.table, length), 4);
        if (!read_number(&questions)) {
            fail("the input ends before the questions");
        }
#ifdef CHECK_ONLY
        if (questions != 0) {
            fail("path cost is not built yet");
        }
#else
        for (uint32_t question = 0; question < questions; question++) {
            answer_question(guarded.table, length);
        }
#endif
        fflush(stdout);
        munmap(guarded.pages, guarded.size);
    }
    return 0;
}
