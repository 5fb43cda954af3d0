/* Document 01's sheet of five entries with the effect lengths alone, from C: every export of the reading copy; prints each number and its
 * values. */
#include "smelvock_reading.h"
#include <stdio.h>

#define FAN 4u
#define LIMIT 5u
#define WORDS (2u * (3u + 2u * FAN))

static uint32_t leaves[WORDS], inners[WORDS], homes[LIMIT];
static uint32_t head[SMELVOCK_READ_HEAD_WORDS];
#define HEAD head, SMELVOCK_READ_HEAD_WORDS
#define TREE HEAD, leaves, WORDS, inners, WORDS, homes, LIMIT
#define END SMELVOCK_READ_NONE

static void make(uint32_t fan, uint32_t length) {
    uint32_t number = smelvock_read_new(fan, LIMIT, length, TREE);
    printf("new %u: fan %u, seats' word %u\n", number, head[0], head[20]);
}

static void insert(uint32_t id, uint32_t length) {
    smelvock_read_inserted r = smelvock_read_insert(TREE, id, length);
    printf("insert %u %u %u\n", r.number, r.id, r.position);
}

static void split(uint32_t id, uint32_t length, uint32_t before) {
    smelvock_read_number r = smelvock_read_split(TREE, id, length, before);
    printf("split %u %u\n", r.number, r.value);
}

static void set(uint32_t id, uint32_t length) {
    printf("set %u\n", smelvock_read_set(TREE, id, length));
}

static void lookup(uint32_t index) {
    smelvock_read_looked r = smelvock_read_lookup(TREE, index);
    printf("lookup %u %u %u %u\n", r.number, r.id, r.offset, r.position);
}

static void compare(uint32_t id, uint32_t other) {
    smelvock_read_number r = smelvock_read_compare(TREE, id, other);
    printf("compare %u %u\n", r.number, r.value);
}

/* The entries from that one on, with their positions. */
static void row(uint32_t first) {
    printf("row");
    for (uint32_t id = first; id != END; id = smelvock_read_next(TREE, id).value)
        printf(" %u at %u", id, smelvock_read_rank(TREE, id).value);
    printf("\n");
}

int main(void) {
    head[20] = 7;
    make(FAN, 3);
    insert(END, 0);
    insert(0, 5);
    lookup(0);
    lookup(5);
    lookup(8);
    split(0, 1, 1);
    insert(1, 1);
    row(2);
    insert(END, 0);
    split(0, 3, 0);
    split(0, 2, 0);
    split(0, 0, 1);
    split(0, 1, 2);
    compare(3, 0);
    compare(0, 0);
    compare(1, 2);
    compare(2, 5);
    lookup(7);
    set(1, 7);
    lookup(9);
    set(5, 1);
    set(0, 4294967295u);
    printf("next %u, rank %u\n", smelvock_read_next(TREE, 5).number, smelvock_read_rank(TREE, END).number);
    printf("35 words: %u\n", smelvock_read_rank(head, 35, leaves, WORDS, inners, WORDS, homes, LIMIT, 0).number);
    printf("short: %u\n", smelvock_read_rank(HEAD, leaves, WORDS - 1, inners, WORDS, homes, LIMIT, 0).number);
    printf("reset %u\n", smelvock_read_reset(TREE, 2));
    row(0);
    lookup(1);
    make(3, 2);
    printf("rank of no tree: %u\n", smelvock_read_rank(TREE, 0).number);
    return 0;
}
