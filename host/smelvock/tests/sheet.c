/* Document 01's sheet of five entries, P1 to P12, from C, and every export once; prints each number and its values. */
#include "smelvock.h"
#include <stdio.h>

#define FAN 4u
#define LIMIT 5u
#define WORDS (2u * (3u + 4u * FAN))

static uint32_t leaves[WORDS], inners[WORDS], homes[LIMIT];
static uint32_t head[SMELVOCK_HEAD_WORDS];
#define HEAD head, SMELVOCK_HEAD_WORDS
#define AREAS leaves, WORDS, inners, WORDS, homes, LIMIT

static const smelvock_cursor_at nowhere;

static smelvock_cursor_at at(uint32_t id) {
    return smelvock_cursor(HEAD, AREAS, id).at;
}

static void insert(uint32_t end, smelvock_cursor_at before, smelvock_length lengths) {
    smelvock_inserted r = smelvock_insert(HEAD, AREAS, end, before, lengths);
    printf("insert %u %u %u\n", r.number, r.id, r.position);
}

static void locate(uint32_t view, uint32_t index) {
    smelvock_located r = smelvock_locate(HEAD, AREAS, view, index);
    uint32_t id = r.number ? 0 : smelvock_id(HEAD, AREAS, r.at).value;
    printf("locate %u %u %u %u %u, %u slots\n", r.number, id, r.offset, r.position, r.prepare, r.examined);
}

static void select_at(uint32_t view, uint32_t index) {
    smelvock_selected r = smelvock_char_index_to_entry(HEAD, AREAS, view, index);
    printf("char_index_to_entry %u %u %u %u, %u slots\n", r.number, r.at.leaf, r.at.slot, r.offset, r.examined);
}

static void split(uint32_t id, smelvock_length lengths) {
    smelvock_divided r = smelvock_split_entry(HEAD, AREAS, at(id), lengths, 1);
    printf("split_entry %u %u %u %u %u %u\n", r.number, r.id, r.first.leaf, r.first.slot, r.second.leaf, r.second.slot);
}

static void lengths(uint32_t id) {
    smelvock_measured r = smelvock_lengths(HEAD, AREAS, at(id));
    printf("lengths %u %u %u %u\n", r.number, r.lengths.prepare, r.lengths.effect, r.lengths.lines);
}

/* A sound sheet only loses its finger; then a stale sum, place, home and unused slot, a word each; then a len that no sound sheet has. */
static void repair(void) {
    smelvock_number r = smelvock_repair(HEAD, AREAS);
    printf("repair %u %u, finger %u\n", r.number, r.value, head[SMELVOCK_PRESENT]);
    uint32_t root = head[SMELVOCK_ROOT] * (WORDS / 2u);
    inners[root + 4] += 1, leaves[2] += 1, homes[0] += 1, leaves[WORDS / 2u - 1] += 1;
    printf("stale: audit %u", smelvock_audit(HEAD, AREAS).value);
    r = smelvock_repair(HEAD, AREAS);
    printf(", repair %u %u, audit %u\n", r.number, r.value, smelvock_audit(HEAD, AREAS).value);
    inners[root + 4] += 1, leaves[0] -= 1;
    uint32_t sum = inners[root + 4];
    r = smelvock_repair(HEAD, AREAS);
    printf("an entry lost: repair %u %u, sum kept %u", r.number, r.value, inners[root + 4] == sum);
    leaves[0] += 1;
    printf(", then %u\n", smelvock_repair(HEAD, AREAS).value);
}

/* One line end more than an entry may have is refused by 10, whatever else is wrong: here the fan, the cursor, a full tree. */
static void overlong(smelvock_cursor_at old) {
    static const smelvock_length many = {0, 0, SMELVOCK_LINE_ENDS + 1};
    uint32_t fresh[SMELVOCK_HEAD_WORDS] = {7};
    printf("65536 line ends: %u", smelvock_new(3, LIMIT, many, fresh, SMELVOCK_HEAD_WORDS, AREAS));
    printf(" %u", smelvock_reset(HEAD, AREAS, many));
    printf(" %u", smelvock_insert(HEAD, AREAS, 1, nowhere, many).number);
    printf(" %u", smelvock_split_entry(HEAD, AREAS, old, many, 0).number);
    printf(" %u", smelvock_set_lengths(HEAD, AREAS, old, many));
    printf(" %u, then %u\n", smelvock_update(HEAD, AREAS, old, many).number, fresh[SMELVOCK_FAN]);
}

static void print(void) {
    static uint8_t page[SMELVOCK_PAGE_BYTES + 1];
    page[SMELVOCK_PAGE_BYTES] = '!';
    smelvock_number r = smelvock_print(HEAD, AREAS, page, SMELVOCK_PAGE_BYTES - 1);
    printf("2749 bytes: %u %u %u\n", r.number, r.value, page[0]);
    r = smelvock_print(HEAD, AREAS, page, sizeof page);
    printf("print %u %u\n", r.number, r.value);
    uint32_t line = SMELVOCK_PAGE_BYTES / SMELVOCK_PAGE_LINES, blank = 0;
    for (uint32_t i = LIMIT * line; i < SMELVOCK_PAGE_BYTES; i++)
        blank += page[i] == (i % line == line - 1 ? '\n' : ' ');
    printf("%.*sblank %u, then %c\n", (int)(LIMIT * line), (const char *)page, blank / line, page[SMELVOCK_PAGE_BYTES]);
}

/* A cursor from before a reset, in a sheet of as many entries; then the stamp goes round. */
static void stamps(smelvock_cursor_at before) {
    for (uint32_t i = 0; i < 2; i++)
        insert(1, nowhere, (smelvock_length){1, 1, 0});
    printf("stamp %u %u: %u\n", head[SMELVOCK_STAMP], head[SMELVOCK_STAMP + 1], smelvock_id(HEAD, AREAS, before).number);
    head[SMELVOCK_STAMP] = head[SMELVOCK_STAMP + 1] = UINT32_MAX;
    smelvock_cursor_at last = at(0);
    printf("stamp %u: %u", last.stamp == UINT64_MAX, smelvock_id(HEAD, AREAS, last).number);
    printf(" %u", smelvock_reset(HEAD, AREAS, (smelvock_length){1, 0, 0}));
    printf(", then %u %u: %u %u\n", head[SMELVOCK_STAMP], head[SMELVOCK_STAMP + 1], smelvock_id(HEAD, AREAS, last).number,
           smelvock_id(HEAD, AREAS, at(0)).number);
}

static uint32_t insert_for(uint32_t seat) {
    return smelvock_insert_for(HEAD, AREAS, seat, 1, nowhere, (smelvock_length){2, 2, 0}).number;
}

/* Five entries of which seat 1 has a right to one and seat 7 to two; a seat too many, none, and shares that sum too high. */
static void seats(void) {
    static const uint32_t shares[SMELVOCK_SEATS] = {0, 1, 0, 0, 0, 0, 0, 2}, all[SMELVOCK_SEATS] = {LIMIT};
    static const smelvock_length one = {2, 2, 0}, half = {1, 1, 0};
    const uint32_t *charges = head + SMELVOCK_CHARGES;
    uint32_t made = smelvock_new_with_shares(FAN, LIMIT, one, shares, HEAD, AREAS);
    printf("new_with_shares %u %u %u\n", made, head[SMELVOCK_SEATED], head[SMELVOCK_SHARES + 7]);
    printf("seat 0: %u", insert_for(0));
    printf(" %u %u\n", insert_for(0), smelvock_split_entry_for(HEAD, AREAS, 0, at(0), half, 0).number);
    smelvock_divided parted = smelvock_split_entry_for(HEAD, AREAS, 7, at(0), half, 0);
    printf("seat 7: %u %u, then %u\n", parted.number, parted.id, insert_for(7));
    printf("seat 7: %u", insert_for(7));
    printf(", seat 1: %u", insert_for(1));
    printf(", charges %u %u %u, audit %u\n", charges[0], charges[1], charges[7], smelvock_audit(HEAD, AREAS).value);
    printf("seat 8: %u, nobody: %u", insert_for(SMELVOCK_SEATS), smelvock_insert(HEAD, AREAS, 1, nowhere, one).number);
    uint32_t reset = smelvock_reset(HEAD, AREAS, one);
    printf(", reset %u: charge %u, share %u\n", reset, charges[7], head[SMELVOCK_SHARES + 7]);
    made = smelvock_new_with_shares(FAN, LIMIT, one, all, HEAD, AREAS);
    printf("shares of the limit: %u, then %u\n", made, head[SMELVOCK_FAN]);
    made = smelvock_new(FAN, LIMIT, one, HEAD, AREAS);
    printf("new %u %u, seat 0: %u\n", made, head[SMELVOCK_SEATED], insert_for(0));
}

/* Edit 1 rests on 0, 2 on 0 and 1, 3 on nothing else. */
static void edits(void) {
    static const uint32_t parents[4][2] = {{SMELVOCK_NONE, SMELVOCK_NONE}, {0, SMELVOCK_NONE}, {1, 1}, {SMELVOCK_NONE, SMELVOCK_NONE}};
    static uint32_t area[SMELVOCK_EDITS + 1];
    uint8_t file[4 * 16] = {0};
    for (uint32_t e = 0; e < 4; e++)
        for (uint32_t i = 0; i < 8; i++)
            file[16 * e + i] = (uint8_t)(parents[e][i / 4] >> (8 * (i % 4)));
    printf("edits_check %u %u\n", smelvock_edits_check(file, sizeof file), smelvock_edits_check(file, sizeof file - 1));
    smelvock_number r = smelvock_edits_difference(file, sizeof file, area, SMELVOCK_EDITS - 1, 2, 0);
    printf("511 words: %u %u %u\n", r.number, r.value, area[0]);
    area[2] = 7;
    r = smelvock_edits_difference(file, sizeof file, area, SMELVOCK_EDITS, 2, 0);
    printf("edits_difference %u %u: %u %u, then %u\n", r.number, r.value, area[0], area[1], area[2]);
    printf("edit 4: %u\n", smelvock_edits_difference(file, sizeof file, area, SMELVOCK_EDITS, 2, 4).number);
    file[16] = 1;
    printf("its own parent: %u\n", smelvock_edits_check(file, sizeof file));
}

int main(void) {
    printf("new %u\n", smelvock_new(FAN, LIMIT, (smelvock_length){3, 3, 0}, HEAD, AREAS));
    insert(1, nowhere, (smelvock_length){2, 0, 0});
    insert(0, at(0), (smelvock_length){0, 5, 0});
    locate(SMELVOCK_PREPARE, 0);
    locate(SMELVOCK_PREPARE, 5);
    smelvock_standing after = smelvock_next(HEAD, AREAS, at(1));
    printf("next %u %u\n", after.number, after.at.leaf == SMELVOCK_NONE);
    locate(SMELVOCK_EFFECT, 0);
    locate(SMELVOCK_EFFECT, 8);
    split(0, (smelvock_length){1, 1, 0});
    insert(0, at(1), (smelvock_length){1, 1, 0});
    printf("cursor %u %u\n", at(4).leaf, at(4).slot);
    insert(1, nowhere, (smelvock_length){0, 0, 0});
    split(0, (smelvock_length){3, 0, 0});
    printf("row");
    for (smelvock_cursor_at c = smelvock_first(HEAD, AREAS).at; c.leaf != SMELVOCK_NONE; c = smelvock_next(HEAD, AREAS, c).at)
        printf(" %u", smelvock_id(HEAD, AREAS, c).value);
    printf("\n");
    print();

    locate(SMELVOCK_EFFECT, 8);
    select_at(SMELVOCK_EFFECT, 6);
    select_at(SMELVOCK_EFFECT, 9);
    smelvock_number updated = smelvock_update(HEAD, AREAS, at(3), (smelvock_length){4, 2, 7});
    printf("update %u %u\n", updated.number, updated.value);
    printf("set_lengths %u\n", smelvock_set_lengths(HEAD, AREAS, at(3), (smelvock_length){1, 1, 4}));
    lengths(3);
    printf("set_lengths %u\n", smelvock_set_lengths(HEAD, AREAS, at(4), (smelvock_length){1, 1, 2}));
    smelvock_number rank = smelvock_entry_to_char_index(HEAD, AREAS, SMELVOCK_EFFECT, at(4));
    printf("entry_to_char_index %u %u\n", rank.number, rank.value);
    rank = smelvock_entry_to_char_index(HEAD, AREAS, SMELVOCK_LINES, at(4));
    printf("entry_to_char_index %u %u\n", rank.number, rank.value);
    locate(SMELVOCK_LINES, 3);
    locate(SMELVOCK_LINES, 5);
    locate(SMELVOCK_LINES, 6);
    split(3, (smelvock_length){0, 0, 5});
    split(3, (smelvock_length){0, 0, 4});
    split(3, (smelvock_length){0, 0, 0});
    split(3, (smelvock_length){1, 1, 4});
    smelvock_number order = smelvock_cmp(HEAD, AREAS, at(0), at(3));
    printf("cmp %u %u\n", order.number, order.value);
    printf("len %u %u\n", smelvock_len(HEAD).number, smelvock_len(HEAD).value);
    printf("is_empty %u %u\n", smelvock_is_empty(HEAD).number, smelvock_is_empty(HEAD).value);
    printf("audit %u %u\n", smelvock_audit(HEAD, AREAS).number, smelvock_audit(HEAD, AREAS).value);
    repair();
    smelvock_cursor_at good = at(4), old = good, astray = good, past = good;
    old.stamp -= 1, astray.leaf = head[SMELVOCK_LEAVES], past.slot = FAN;
    printf("stamp, leaf, slot: %u %u %u\n", smelvock_id(HEAD, AREAS, old).number, smelvock_id(HEAD, AREAS, astray).number,
           smelvock_id(HEAD, AREAS, past).number);
    printf("cmp of bad cursors: %u %u %u\n", smelvock_cmp(HEAD, AREAS, past, old).number,
           smelvock_cmp(HEAD, AREAS, old, past).number, smelvock_cmp(HEAD, AREAS, good, astray).number);
    printf("view 3: %u\n", smelvock_locate(HEAD, AREAS, 3, 0).number);
    printf("flag 2: %u\n", smelvock_split_entry(HEAD, AREAS, good, (smelvock_length){0, 0, 0}, 2).number);
    overlong(old);
    printf("35 words: %u\n", smelvock_len(head, SMELVOCK_HEAD_WORDS - 1).number);
    printf("short: %u\n", smelvock_first(HEAD, leaves, WORDS - 1, inners, WORDS, homes, LIMIT).number);
    uint32_t reset = smelvock_reset(HEAD, AREAS, (smelvock_length){1, 0, SMELVOCK_LINE_ENDS});
    printf("reset %u %u %u\n", reset, head[SMELVOCK_ENTRIES], head[SMELVOCK_PRESENT]);
    insert(1, nowhere, (smelvock_length){1, 1, 0});
    split(0, (smelvock_length){0, 0, 35});
    lengths(2);
    lengths(0);
    stamps(good);
    seats();
    edits();
    return 0;
}
