/* The reading copy through C linkage: libsmelvock_reading.a, which `rt lib` writes, for x86-64 Linux.
 *
 * Its entries have one length each, the effect length of the full tree that it copies (smelvock.h). Calls go by id alone; there are no line
 * ends and no seats. The caller lends a head of thirty-six words and three areas of words, each as a pointer and its count. Fan 4 to 32,
 * limit 1 to 65,536. The leaf area and the inner area each need max(1, limit / (fan / 2)) nodes of 3 + 2 * fan words, homes needs limit
 * words. Head and areas may not overlap. A tree's head is made by smelvock_read_new or smelvock_read_reset and written by the calls; its
 * words are those that smelvock.h names, the seats' among them, which smelvock_read_new sets to 0 and which are of no account otherwise. A
 * tree of smelvock.h has wider slots: no call takes the other's.
 *
 * Given the same calls with the effect lengths, the copy answers as the full tree without seats does in the effect view, as long as no call
 * is refused there on account of another length (10, or 6 or 7 where the effect length gives no cause) and none here by 17.
 *
 * Every call ends, writes only in head and areas, and answers a number: 0, or that of its refusal.
 *    1  fan or limit outside its values       7  the total would pass 4,294,967,295
 *    2  an area is too short                  8  the tree holds its limit
 *    4  no such entry                         9  a link of an unsound tree leads outside
 *    5  position at or past the total        10  a flag above 1, or a head that is not thirty-six words
 *    6  a split moves more than the entry    17  a split moves nothing, or leaves nothing behind
 *       has
 * A call tests 10 before all others, then 1, 2, 4, 5, 6, 17, 7, 8. On an unsound tree it may also answer 13 or 14, where the entry found
 * isn't in a leaf or slot in use. Refused: the other values are 0 and, but for 9, head and areas are as they were. */
#ifndef SMELVOCK_READING_H
#define SMELVOCK_READING_H

#include <stddef.h>
#include <stdint.h>

#ifdef __cplusplus
extern "C" {
#endif

/* The id that stands for the end in smelvock_read_insert, and for none after the last entry in smelvock_read_next. */
#define SMELVOCK_READ_NONE 4294967295u
#define SMELVOCK_READ_HEAD_WORDS 36

typedef struct {
    uint32_t number, value;
} smelvock_read_number;

typedef struct {
    uint32_t number, id, position;
} smelvock_read_inserted;

typedef struct {
    uint32_t number, id, offset, position;
} smelvock_read_looked;

#define SMELVOCK_READ_TREE                                                                                                          \
    const uint32_t *head, size_t head_words, const uint32_t *leaves, size_t leaf_words, const uint32_t *inners, size_t inner_words, \
        const uint32_t *homes, size_t home_words
#define SMELVOCK_READ_TREE_LOOKED                                                                                             \
    uint32_t *head, size_t head_words, const uint32_t *leaves, size_t leaf_words, const uint32_t *inners, size_t inner_words, \
        const uint32_t *homes, size_t home_words
#define SMELVOCK_READ_TREE_WRITTEN \
    uint32_t *head, size_t head_words, uint32_t *leaves, size_t leaf_words, uint32_t *inners, size_t inner_words, uint32_t *homes, size_t home_words

/* A tree of one entry, id 0; what the head holds before is of no account to new. A refused new leaves zeros in a head of thirty-six
 * words. */
uint32_t smelvock_read_new(uint32_t fan, uint32_t limit, uint32_t length, SMELVOCK_READ_TREE_WRITTEN);
/* The same with the head's own fan and limit. */
uint32_t smelvock_read_reset(SMELVOCK_READ_TREE_WRITTEN, uint32_t length);

/* A new entry before the entry id, or at the end where id is SMELVOCK_READ_NONE: its id, and its position. */
smelvock_read_inserted smelvock_read_insert(SMELVOCK_READ_TREE_WRITTEN, uint32_t id, uint32_t length);

/* Takes a length out of the entry id into a new one just before it (before 1) or after it (0); value: the new id. */
smelvock_read_number smelvock_read_split(SMELVOCK_READ_TREE_WRITTEN, uint32_t id, uint32_t length, uint32_t before);

/* Gives an entry another length. */
uint32_t smelvock_read_set(SMELVOCK_READ_TREE_WRITTEN, uint32_t id, uint32_t length);

/* The entry that holds a position, the offset into it, and its own position. The head keeps where it was found. */
smelvock_read_looked smelvock_read_lookup(SMELVOCK_READ_TREE_LOOKED, uint32_t index);

/* value: the lengths before the entry. */
smelvock_read_number smelvock_read_rank(SMELVOCK_READ_TREE, uint32_t id);

/* value: the id of the entry after it, SMELVOCK_READ_NONE after the last. */
smelvock_read_number smelvock_read_next(SMELVOCK_READ_TREE, uint32_t id);

/* value: 0, 1 or 2: the entry id stands before the entry other, is it, or stands after it. */
smelvock_read_number smelvock_read_compare(SMELVOCK_READ_TREE, uint32_t id, uint32_t other);

#ifdef __cplusplus
}
#endif

#endif
