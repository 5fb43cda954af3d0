/* A sheet of room codes that aren't known yet, from C: every export of the planning tree; prints each number and its values. */
#include "smelvock_planning.h"
#include <stdio.h>

#define FAN 4u
#define LIMIT 6u
#define WORDS (3u * (3u + 3u * FAN))

static uint32_t leaves[WORDS], inners[WORDS], homes[LIMIT];
static uint32_t head[SMELVOCK_PLAN_HEAD_WORDS];
#define HEAD head, SMELVOCK_PLAN_HEAD_WORDS
#define TREE HEAD, leaves, WORDS, inners, WORDS, homes, LIMIT
#define END SMELVOCK_PLAN_NONE

static void insert(uint32_t id, uint32_t lowest, uint32_t highest) {
    smelvock_plan_inserted r = smelvock_plan_insert(TREE, id, lowest, highest);
    printf("insert %u %u %u\n", r.number, r.id, r.position);
}

static void split(uint32_t id, uint32_t lowest, uint32_t highest, uint32_t before) {
    smelvock_plan_number r = smelvock_plan_split(TREE, id, lowest, highest, before);
    printf("split %u %u\n", r.number, r.value);
}

static void set(uint32_t id, uint32_t lowest, uint32_t highest) {
    printf("set %u\n", smelvock_plan_set(TREE, id, lowest, highest));
}

/* Where an entry can stand. */
static void stands(uint32_t id) {
    smelvock_plan_number from = smelvock_plan_earliest(TREE, id), to = smelvock_plan_latest(TREE, id);
    printf("entry %u: %u %u to %u %u\n", id, from.number, from.value, to.number, to.value);
}

/* Which entries could hold a position. */
static void holds(uint32_t position) {
    smelvock_plan_number from = smelvock_plan_first_at(TREE, position), to = smelvock_plan_last_at(TREE, position);
    printf("position %u: %u %u to %u %u\n", position, from.number, from.value, to.number, to.value);
}

static void make(uint32_t fan, uint32_t lowest, uint32_t highest) {
    uint32_t number = smelvock_plan_new(fan, LIMIT, lowest, highest, TREE);
    printf("new %u: fan %u, seats' word %u\n", number, head[0], head[20]);
}

/* The entries from that one on. */
static void row(uint32_t first) {
    printf("count %u:", smelvock_plan_count(TREE).value);
    for (uint32_t id = first; id != END; id = smelvock_plan_next(TREE, id).value) {
        smelvock_plan_bounds b = smelvock_plan_lengths(TREE, id);
        printf(" %u (%u to %u)", id, b.lowest, b.highest);
    }
    printf(", audit %u\n", smelvock_plan_audit(TREE).value);
}

int main(void) {
    head[20] = 7;
    make(FAN, 5, 5);
    insert(END, 4, 8);
    insert(END, 1, 1);
    stands(2);
    for (uint32_t position = 8; position < 15; position++)
        holds(position);
    split(1, 1, 3, 1);
    split(1, 0, 4, 0);
    split(1, 2, 1, 0);
    split(1, 3, 5, 0);
    split(1, 0, 0, 0);
    split(1, 4, 5, 0);
    split(1, 1, 2, 2);
    row(0);
    set(1, 0, 5);
    set(1, 6, 5);
    set(4, 6, 5);
    holds(5);
    holds(13);
    insert(0, 0, 0);
    insert(1, 9, 2);
    insert(1, 4294967290u, 4294967290u);
    insert(1, 2, 9);
    row(4);
    insert(1, 1, 1);
    insert(1, 2, 1);
    split(1, 0, 1, 0);
    insert(6, 1, 1);
    printf("next %u, lengths %u\n", smelvock_plan_next(TREE, 6).number, smelvock_plan_lengths(TREE, END).number);
    printf("35 words: %u\n", smelvock_plan_count(head, 35, leaves, WORDS, inners, WORDS, homes, LIMIT).number);
    printf("short: %u\n", smelvock_plan_count(HEAD, leaves, WORDS - 1, inners, WORDS, homes, LIMIT).number);
    leaves[3 + 1] = leaves[3 + 2] + 1;
    printf("a lowest above its highest: audit %u\n", smelvock_plan_audit(TREE).value);
    printf("reset %u", smelvock_plan_reset(TREE, 2, 1));
    printf(" %u\n", smelvock_plan_reset(TREE, 1, 2));
    row(0);
    make(FAN, 2, 1);
    make(3, 2, 1);
    printf("count of no tree: %u\n", smelvock_plan_count(TREE).number);
    return 0;
}
