/* The planning tree through C linkage: libsmelvock_planning.a, which `rt lib` writes, for x86-64 Linux.
 *
 * Its entries' lengths aren't known yet: each has a lowest and a highest one. Calls go by id alone; there are no line ends and no seats.
 * The caller lends a head of thirty-six words and three areas of words, each as a pointer and its count. Fan 4 to 32, limit 1 to 65,536.
 * The leaf area and the inner area each need max(1, limit / (fan / 2)) nodes of 3 + 3 * fan words, homes needs limit words. Head and areas
 * may not overlap. A tree's head is made by smelvock_plan_new or smelvock_plan_reset and written by the calls; its words are those that
 * smelvock.h names, the seats' among them, which smelvock_plan_new sets to 0 and which are of no account otherwise. A tree of smelvock.h
 * has wider slots: no call takes the other's.
 *
 * A choice of lengths is a length for each entry, not below its lowest and not above its highest one. An entry stands at the sum of the
 * chosen lengths before it, and could hold a position if under some choice it stands at or below the position, and that with its own length
 * is above it.
 *
 * Every call ends, writes only in head and areas, and answers a number: 0, or that of its refusal.
 *    1  fan or limit outside its values       8  the tree holds its limit
 *    2  an area is too short                  9  a link of an unsound tree leads outside
 *    4  no such entry                        10  a flag above 1, or a head that is not thirty-six words
 *    5  position at or past the highest      17  a split moves nothing, or leaves nothing behind, in either length
 *       total                                20  a lowest length is above the highest, given or left by a split
 *    6  a split moves more than the entry
 *       has, in either length
 *    7  the lowest or the highest total
 *       would pass 4,294,967,295
 * A call tests 10 before all others, then 1, 2, 4, 5, 6, 17, 20, 7, 8. On an unsound tree it may also answer 13 or 14, where the entry found
 * isn't in a leaf or slot in use. Refused: the other values are 0 and, but for 9, head and areas are as they were. */
#ifndef SMELVOCK_PLANNING_H
#define SMELVOCK_PLANNING_H

#include <stddef.h>
#include <stdint.h>

#ifdef __cplusplus
extern "C" {
#endif

/* The id that stands for the end in smelvock_plan_insert, and for none after the last entry in smelvock_plan_next. */
#define SMELVOCK_PLAN_NONE 4294967295u
#define SMELVOCK_PLAN_HEAD_WORDS 36

typedef struct {
    uint32_t number, value;
} smelvock_plan_number;

typedef struct {
    uint32_t number, id, position;
} smelvock_plan_inserted;

typedef struct {
    uint32_t number, lowest, highest;
} smelvock_plan_bounds;

#define SMELVOCK_PLAN_TREE                                                                                                          \
    const uint32_t *head, size_t head_words, const uint32_t *leaves, size_t leaf_words, const uint32_t *inners, size_t inner_words, \
        const uint32_t *homes, size_t home_words
#define SMELVOCK_PLAN_TREE_LOOKED                                                                                             \
    uint32_t *head, size_t head_words, const uint32_t *leaves, size_t leaf_words, const uint32_t *inners, size_t inner_words, \
        const uint32_t *homes, size_t home_words
#define SMELVOCK_PLAN_TREE_WRITTEN \
    uint32_t *head, size_t head_words, uint32_t *leaves, size_t leaf_words, uint32_t *inners, size_t inner_words, uint32_t *homes, size_t home_words

/* A tree of one entry, id 0; what the head holds before is of no account to new. A refused new leaves zeros in a head of thirty-six
 * words. */
uint32_t smelvock_plan_new(uint32_t fan, uint32_t limit, uint32_t lowest, uint32_t highest, SMELVOCK_PLAN_TREE_WRITTEN);
/* The same with the head's own fan and limit. */
uint32_t smelvock_plan_reset(SMELVOCK_PLAN_TREE_WRITTEN, uint32_t lowest, uint32_t highest);

/* A new entry before the entry id, or at the end where id is SMELVOCK_PLAN_NONE: its id, and its latest position. */
smelvock_plan_inserted smelvock_plan_insert(SMELVOCK_PLAN_TREE_WRITTEN, uint32_t id, uint32_t lowest, uint32_t highest);

/* Takes lengths out of the entry id into a new one just before it (before 1) or after it (0); value: the new id. What is left of the
 * entry has the rest of its lowest and of its highest length. */
smelvock_plan_number smelvock_plan_split(SMELVOCK_PLAN_TREE_WRITTEN, uint32_t id, uint32_t lowest, uint32_t highest, uint32_t before);

/* Gives an entry other lengths. */
uint32_t smelvock_plan_set(SMELVOCK_PLAN_TREE_WRITTEN, uint32_t id, uint32_t lowest, uint32_t highest);

/* An entry's lengths. */
smelvock_plan_bounds smelvock_plan_lengths(SMELVOCK_PLAN_TREE, uint32_t id);

/* value: the number of entries. */
smelvock_plan_number smelvock_plan_count(SMELVOCK_PLAN_TREE);

/* value: the id of the entry after it, SMELVOCK_PLAN_NONE after the last. */
smelvock_plan_number smelvock_plan_next(SMELVOCK_PLAN_TREE, uint32_t id);

/* value: the least and the greatest position at which the entry can stand. */
smelvock_plan_number smelvock_plan_earliest(SMELVOCK_PLAN_TREE, uint32_t id);
smelvock_plan_number smelvock_plan_latest(SMELVOCK_PLAN_TREE, uint32_t id);

/* value: the id of the first and of the last entry that could hold the position. The head keeps where it was found. */
smelvock_plan_number smelvock_plan_first_at(SMELVOCK_PLAN_TREE_LOOKED, uint32_t position);
smelvock_plan_number smelvock_plan_last_at(SMELVOCK_PLAN_TREE_LOOKED, uint32_t position);

/* value: 1 if the tree is sound, else 0. */
smelvock_plan_number smelvock_plan_audit(SMELVOCK_PLAN_TREE);

#ifdef __cplusplus
}
#endif

#endif
