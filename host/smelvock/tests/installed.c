/* A tree of each kind by the installed headers and archives; what it prints is what README says of these calls. */
#include <smelvock.h>
#include <smelvock_planning.h>
#include <smelvock_reading.h>
#include <stdio.h>

#define FAN 8u
#define LIMIT 4u
/* One node for four entries; the full tree's is the longest. */
#define WORDS (3u + 4u * FAN)

typedef struct {
    uint32_t head[SMELVOCK_HEAD_WORDS], leaves[WORDS], inners[WORDS], homes[LIMIT];
} tree;
#define LENT(t) t.head, SMELVOCK_HEAD_WORDS, t.leaves, WORDS, t.inners, WORDS, t.homes, LIMIT

int main(void) {
    static tree full, plan, copy;
    smelvock_cursor_at nowhere = {0, 0, 0};
    uint32_t made = smelvock_new(FAN, LIMIT, (smelvock_length){3, 3, 1}, LENT(full));
    smelvock_inserted put = smelvock_insert(LENT(full), 1, nowhere, (smelvock_length){2, 0, 2});
    smelvock_located found = smelvock_locate(LENT(full), SMELVOCK_PREPARE, 4);
    printf("full tree %u: id %u at %u, found %u with offset %u, effect %u, prepare %u\n", made, put.id, put.position,
        smelvock_id(LENT(full), found.at).value, found.offset, found.position, found.prepare);

    made = smelvock_plan_new(FAN, LIMIT, 5, 5, LENT(plan));
    uint32_t code = smelvock_plan_insert(LENT(plan), SMELVOCK_PLAN_NONE, 4, 8).id;
    uint32_t end = smelvock_plan_insert(LENT(plan), SMELVOCK_PLAN_NONE, 1, 1).id;
    printf("planning tree %u: id %u from %u to %u, position 10 in %u to %u, code %u\n", made, end, smelvock_plan_earliest(LENT(plan), end).value,
        smelvock_plan_latest(LENT(plan), end).value, smelvock_plan_first_at(LENT(plan), 10).value, smelvock_plan_last_at(LENT(plan), 10).value, code);

    made = smelvock_read_new(FAN, LIMIT, 3, LENT(copy));
    put.position = smelvock_read_insert(LENT(copy), SMELVOCK_READ_NONE, 5).position;
    smelvock_read_looked looked = smelvock_read_lookup(LENT(copy), 4);
    printf("reading copy %u: at %u, found %u with offset %u at %u\n", made, put.position, looked.id, looked.offset, looked.position);
    return 0;
}
