/* A screen over the library libspb.a: two bridges of a plan side by side. For a
 * VID it shows what the chosen path to every bridge costs from the one and from
 * the other, and whether the path back costs the same.
 *
 * usage: side-by-side TABLE VID LEFT RIGHT
 *
 * TABLE is a file that holds a table's bytes. Exit status: 0 where the screen was
 * shown, 1 where the table or a name was refused, 2 where it could not be asked. */
#include <errno.h>
#include <inttypes.h>
#include <stdint.h>
#include <stdio.h>
#include <stdlib.h>
#include <string.h>

#include "spb.h"

/* One byte more than the longest table, so that a longer file is seen to be too
 * long. */
enum { MOST_BYTES = SPB_LONGEST_TABLE + 1, NO_NAME = 11, NO_PATH = 12 };

static const char *const refusals[] = {
    [1] = "the table's length is 0, above 9,540 bytes, or no multiple of 4",
    [2] = "a record's kind is unknown or lower than that of the record before",
    [3] = "a record's words are not all there, or the table ends with no end record",
    [4] = "a zero bit is set",
    [5] = "there is one record more of a kind than the limit",
    [6] = "a value is outside its range, or the end count is wrong",
    [7] = "a bridge or VID that a record names has no record, or a record's two bridges are equal",
    [8] = "a record repeats an earlier one",
    [9] = "a third half-link of a link number, or a second that is no mirror of the first",
    [10] = "words follow the end record",
    [NO_NAME] = "the table lacks the VID or the bridge",
    [NO_PATH] = "no path",
};

struct plan {
    uint8_t bytes[MOST_BYTES];
    size_t length;
    uint32_t vid;
};

static int refuse(uint64_t number) {
    printf("refused %" PRIu64 ": %s\n", number, refusals[number]);
    return 1;
}

static uint64_t cost(const struct plan *plan, uint32_t from, uint32_t to) {
    return spb_path_cost(plan->bytes, plan->length, plan->vid, from, to);
}

static int is_refused(uint64_t cost, uint64_t number) {
    return cost == SPB_REFUSED + number;
}

/* A column: the cost of the path, or that there is none. */
static void show_cost(uint64_t cost) {
    if (is_refused(cost, NO_PATH)) {
        printf("  %12s", refusals[NO_PATH]);
    } else {
        printf("  %12" PRIu64, cost);
    }
}

static void show_bridge(const struct plan *plan, uint32_t bridge, uint32_t left, uint32_t right) {
    uint64_t from_left = cost(plan, left, bridge), from_right = cost(plan, right, bridge);
    int agree = from_left == cost(plan, bridge, left) && from_right == cost(plan, bridge, right);
    printf("%6" PRIu32, bridge);
    show_cost(from_left);
    show_cost(from_right);
    printf("  %s\n", agree ? "agree" : "DIFFER");
}

static int show(const struct plan *plan, uint32_t left, uint32_t right) {
    uint32_t number = spb_check(plan->bytes, plan->length);
    if (number != 0) {
        return refuse(number);
    }
    if (is_refused(cost(plan, left, right), NO_NAME)) {
        return refuse(NO_NAME);
    }
    printf("VID %" PRIu32 "\n%6s  %9s %2" PRIu32 "  %9s %2" PRIu32 "  %s\n", plan->vid, "bridge", "from", left, "from", right,
           "directions");
    for (uint32_t bridge = 0; !is_refused(cost(plan, left, bridge), NO_NAME); bridge++) {
        show_bridge(plan, bridge, left, right);
    }
    return 0;
}

/* A decimal number of 32 bits and nothing else. */
static int read_number(const char *text, uint32_t *number) {
    char *end;
    errno = 0;
    unsigned long value = strtoul(text, &end, 10);
    *number = (uint32_t)value;
    return text[0] >= '0' && text[0] <= '9' && *end == '\0' && errno == 0 && value <= UINT32_MAX;
}

static int read_plan(const char *name, struct plan *plan) {
    FILE *file = fopen(name, "rb");
    if (file == NULL) {
        return 0;
    }
    plan->length = fread(plan->bytes, 1, MOST_BYTES, file);
    int whole = !ferror(file);
    fclose(file);
    return whole;
}

int main(int count, char **words) {
    static struct plan plan;
    uint32_t left, right;
    if (count != 5 || !read_number(words[2], &plan.vid) || !read_number(words[3], &left) || !read_number(words[4], &right)) {
        fprintf(stderr, "usage: side-by-side TABLE VID LEFT RIGHT\n");
        return 2;
    }
    if (!read_plan(words[1], &plan)) {
        fprintf(stderr, "side-by-side: %s: %s\n", words[1], strerror(errno));
        return 2;
    }
    return show(&plan, left, right);
}
