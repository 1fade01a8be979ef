/* Measures the stack that the exported functions use, on the table files given
 * as arguments. Each call runs in a thread of its own whose stack has 256 KiB
 * and a closed page below it: more than that ends the program. The stack is
 * filled beforehand, and what is no longer filled afterwards was used; what a
 * thread uses that calls nothing is told beside it. */
#include <pthread.h>
#include <stddef.h>
#include <stdint.h>
#include <stdio.h>
#include <stdlib.h>
#include <string.h>
#include <sys/mman.h>
#include <unistd.h>

#include "spb.h"

/* A table of one word too many is refused by its length, and has to fit too. */
enum { STACK = 256 * 1024, FILL = 0xA5, MOST_BYTES = SPB_LONGEST_TABLE + 4 };

struct work {
    const uint8_t *table;
    size_t length;
    uint64_t sum;
};

static void fail(const char *what) {
    fprintf(stderr, "stack: %s\n", what);
    exit(1);
}

static void *call_nothing(void *argument) {
    return argument;
}

static void *call_check(void *argument) {
    struct work *work = argument;
    work->sum += spb_check(work->table, work->length);
    return NULL;
}

static void *call_path_cost(void *argument) {
    struct work *work = argument;
    for (uint32_t vid = 1; vid <= 20; vid++) {
        work->sum += spb_path_cost(work->table, work->length, vid, 0, 63);
    }
    return NULL;
}

/* The bytes of a filled stack that a thread has used. */
static size_t used_by(void *(*call)(void *), struct work *work) {
    size_t page = (size_t)sysconf(_SC_PAGESIZE);
    uint8_t *pages = mmap(NULL, STACK + page, PROT_READ | PROT_WRITE, MAP_PRIVATE | MAP_ANONYMOUS, -1, 0);
    if (pages == MAP_FAILED || mprotect(pages, page, PROT_NONE) != 0) {
        fail("no memory for a stack");
    }
    uint8_t *stack = pages + page;
    memset(stack, FILL, STACK);
    pthread_attr_t attributes;
    pthread_t thread;
    if (pthread_attr_init(&attributes) != 0 || pthread_attr_setstack(&attributes, stack, STACK) != 0 ||
        pthread_create(&thread, &attributes, call, work) != 0 || pthread_join(thread, NULL) != 0) {
        fail("no thread");
    }
    pthread_attr_destroy(&attributes);
    size_t unused = 0;
    while (unused < STACK && stack[unused] == FILL) {
        unused++;
    }
    munmap(pages, STACK + page);
    return STACK - unused;
}

static size_t read_file(const char *name, uint8_t *into) {
    FILE *file = fopen(name, "rb");
    if (file == NULL) {
        fail(name);
    }
    size_t length = fread(into, 1, MOST_BYTES, file);
    fclose(file);
    return length;
}

int main(int count, char **names) {
    static uint8_t table[MOST_BYTES];
    size_t nothing = 0, check = 0, path_cost = 0;
    if (count < 2) {
        fail("usage: stack TABLE...");
    }
    for (int i = 1; i < count; i++) {
        struct work work = {table, read_file(names[i], table), 0};
        size_t n = used_by(call_nothing, &work), c = used_by(call_check, &work), p = used_by(call_path_cost, &work);
        nothing = n > nothing ? n : nothing;
        check = c > check ? c : check;
        path_cost = p > path_cost ? p : path_cost;
    }
    printf("stack: a thread alone %zu bytes, with spb_check %zu, with spb_path_cost %zu, of %d\n", nothing, check, path_cost, STACK);
    if (check <= nothing || path_cost <= nothing || check >= STACK || path_cost >= STACK) {
        fail("a call used no stack, or all of it");
    }
    return 0;
}
