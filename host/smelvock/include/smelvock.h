/* PrepareEffectTree through C linkage: libsmelvock.a, which `rt lib` writes, for x86-64 Linux.
 *
 * The caller lends a head of thirty-six words and three areas of words, each as a pointer and its count. Fan 4 to 32, limit 1 to
 * 65,536. The leaf area and the inner area each need max(1, limit / (fan / 2)) nodes of 3 + 4 * fan words, homes needs limit
 * words. A buffer to print in needs 2,750 bytes a page, a page for every 50 entries. Head, areas and buffer may not overlap. A
 * tree's head is made by smelvock_new or smelvock_reset and written by the calls. The two calls on files of edits, at the end, take
 * no tree.
 *
 * Every call ends, writes only in head, areas and buffer, and answers a number: 0, or that of its refusal.
 *    1  fan or limit outside its values       7  a view's total would pass 4,294,967,295
 *    2  an area is too short                  8  the tree holds its limit
 *    3  the cursor's stamp is wrong           9  a link of an unsound tree leads outside
 *    4  no such entry or edit                10  more than 65,535 line ends, a view above 2, a flag above 1, or a
 *    5  position at or past the total            head that is not thirty-six words; a seat above 7, a seat in a
 *    6  a split moves more than the entry        tree without seats, or none in a seated one
 *       has                                  12  the buffer is below 2,750 bytes a page
 *   17  a split moves nothing, or leaves     13  the cursor's leaf is not in use
 *       nothing behind, in every length      14  the cursor's slot is at or past its leaf's len
 *   18  the seat is at or over its share,    19  the shares sum to the limit or more
 *       and the free entries don't           21  no sound tree agrees with what
 *       outnumber the other seats' unused        smelvock_repair trusts
 *       shares
 * A tree's call tests 10 before all others, and a cursor for 3, 13 and 14 in this order, before 4 to 8, 17 and 18; smelvock_cmp tests
 * the first cursor whole, then the second. 17 stands between 6 and 8; 18 stands for 8 in a seated tree; 19 and 21 come after 1 and 2.
 * Of a file of edits: 10 the rest of a record isn't zero, 11 the file's length isn't a multiple of 16, 12 the list area is below
 * 512 words, 15 a parent isn't smaller than its edit, 16 more than 512 edits.
 * Refused: the other values are 0 and, but for 9, head, areas and buffer are as they were. */
#ifndef SMELVOCK_H
#define SMELVOCK_H

#include <stddef.h>
#include <stdint.h>

#ifdef __cplusplus
extern "C" {
#endif

#define SMELVOCK_PREPARE 0u
#define SMELVOCK_EFFECT 1u
#define SMELVOCK_LINES 2u
/* The leaf of the cursor after the last entry, and the parent of an edit that has none. */
#define SMELVOCK_NONE 4294967295u
/* The seats of a seated tree, 0 to 7, and the seat of a call that names none. */
#define SMELVOCK_SEATS 8u
#define SMELVOCK_NOBODY 4294967295u
/* The lines of a page of the sheet, an entry each, and its bytes. */
#define SMELVOCK_PAGE_LINES 50u
#define SMELVOCK_PAGE_BYTES 2750u
/* The most line ends of an entry. */
#define SMELVOCK_LINE_ENDS 65535u

/* The words of a head. The finger (present 0 or 1, then nine words) is a tree's memory of its last lookup; its words are of no
 * account where absent. The stamp, two words, the low one first, counts the entries made since smelvock_new, over every reset; it
 * goes round. Seated is 0 or 1; the shares of seats 0 to 7 and the entries charged to each follow, and are of no account where it is
 * 0. */
enum {
    SMELVOCK_FAN, SMELVOCK_LIMIT, SMELVOCK_ROOT, SMELVOCK_LEVELS, SMELVOCK_LEAVES, SMELVOCK_INNERS, SMELVOCK_ENTRIES,
    SMELVOCK_PRESENT, SMELVOCK_FINGER, SMELVOCK_STAMP = 17, SMELVOCK_SEATED = 19, SMELVOCK_SHARES = 20,
    SMELVOCK_CHARGES = 28, SMELVOCK_HEAD_WORDS = 36
};

/* An entry's place, current until the next insertion, split or reset; the stamp is that of the head at issue. */
typedef struct {
    uint32_t leaf, slot;
    uint64_t stamp;
} smelvock_cursor_at;

/* An entry's visible characters in either version, and its visible line ends. */
typedef struct {
    uint32_t prepare, effect, lines;
} smelvock_length;

typedef struct {
    uint32_t number, value;
} smelvock_number;

typedef struct {
    uint32_t number;
    smelvock_length lengths;
} smelvock_measured;

typedef struct {
    uint32_t number;
    smelvock_cursor_at at;
} smelvock_standing;

typedef struct {
    uint32_t number;
    smelvock_cursor_at at;
    uint32_t offset, examined;
} smelvock_selected;

typedef struct {
    uint32_t number;
    smelvock_cursor_at at;
    uint32_t offset, position, prepare, examined;
} smelvock_located;

typedef struct {
    uint32_t number, id, position;
} smelvock_inserted;

typedef struct {
    uint32_t number, id;
    smelvock_cursor_at first, second;
} smelvock_divided;

#define SMELVOCK_HEAD const uint32_t *head, size_t head_words
#define SMELVOCK_HEAD_WRITTEN uint32_t *head, size_t head_words
#define SMELVOCK_AREAS \
    const uint32_t *leaves, size_t leaf_words, const uint32_t *inners, size_t inner_words, const uint32_t *homes, size_t home_words
#define SMELVOCK_AREAS_WRITTEN \
    uint32_t *leaves, size_t leaf_words, uint32_t *inners, size_t inner_words, uint32_t *homes, size_t home_words

#define SMELVOCK_GIVEN head, head_words, leaves, leaf_words, inners, inner_words, homes, home_words
#define SMELVOCK_CURSOR uint32_t leaf, uint32_t slot, uint64_t stamp
#define SMELVOCK_LENGTHS uint32_t prepare, uint32_t effect, uint32_t lines

/* The library's calls. Those whose names end in _words take cursors and lengths number by number, for a struct that is handed over by
 * value goes through memory, which costs time; below, each has a function with structs. */
uint32_t smelvock_new_words(
    uint32_t fan, uint32_t limit, SMELVOCK_LENGTHS, const uint32_t *shares, size_t share_words, SMELVOCK_HEAD_WRITTEN, SMELVOCK_AREAS_WRITTEN);
uint32_t smelvock_reset_words(SMELVOCK_HEAD_WRITTEN, SMELVOCK_AREAS_WRITTEN, SMELVOCK_LENGTHS);
smelvock_number smelvock_id_words(SMELVOCK_HEAD, SMELVOCK_AREAS, SMELVOCK_CURSOR);
smelvock_measured smelvock_lengths_words(SMELVOCK_HEAD, SMELVOCK_AREAS, SMELVOCK_CURSOR);
smelvock_number smelvock_entry_to_char_index_words(SMELVOCK_HEAD, SMELVOCK_AREAS, uint32_t view, SMELVOCK_CURSOR);
smelvock_standing smelvock_next_words(SMELVOCK_HEAD, SMELVOCK_AREAS, SMELVOCK_CURSOR);
smelvock_number smelvock_cmp_words(SMELVOCK_HEAD, SMELVOCK_AREAS, SMELVOCK_CURSOR, uint32_t other_leaf, uint32_t other_slot, uint64_t other_stamp);
smelvock_inserted smelvock_insert_words(
    SMELVOCK_HEAD_WRITTEN, SMELVOCK_AREAS_WRITTEN, uint32_t seat, uint32_t end, SMELVOCK_CURSOR, SMELVOCK_LENGTHS);
smelvock_divided smelvock_split_entry_words(
    SMELVOCK_HEAD_WRITTEN, SMELVOCK_AREAS_WRITTEN, uint32_t seat, SMELVOCK_CURSOR, SMELVOCK_LENGTHS, uint32_t before);
/* update where summed is 1; where it is 0, set_lengths, with 0 for the position. */
smelvock_number smelvock_resize(SMELVOCK_HEAD_WRITTEN, SMELVOCK_AREAS_WRITTEN, SMELVOCK_CURSOR, SMELVOCK_LENGTHS, uint32_t summed);

/* A tree of one entry, id 0, without seats; what the head holds before is of no account to new. A refused new leaves zeros in a head of
 * thirty-six words. */
static inline uint32_t smelvock_new(uint32_t fan, uint32_t limit, smelvock_length lengths, SMELVOCK_HEAD_WRITTEN, SMELVOCK_AREAS_WRITTEN) {
    return smelvock_new_words(fan, limit, lengths.prepare, lengths.effect, lengths.lines, NULL, 0, SMELVOCK_GIVEN);
}

/* The same with eight seats, each with a share of the entries; the shares may sum to limit - 1. Every entry but the first is charged to
 * the seat that smelvock_insert_for or smelvock_split_entry_for names, until a reset. A seat below its share always gets its entry; one
 * that isn't gets it while the free entries outnumber the other seats' unused shares. */
static inline uint32_t smelvock_new_with_shares(
    uint32_t fan, uint32_t limit, smelvock_length lengths, const uint32_t shares[SMELVOCK_SEATS], SMELVOCK_HEAD_WRITTEN, SMELVOCK_AREAS_WRITTEN) {
    return smelvock_new_words(fan, limit, lengths.prepare, lengths.effect, lengths.lines, shares, SMELVOCK_SEATS, SMELVOCK_GIVEN);
}
static inline uint32_t smelvock_reset(SMELVOCK_HEAD_WRITTEN, SMELVOCK_AREAS_WRITTEN, smelvock_length lengths) {
    return smelvock_reset_words(SMELVOCK_GIVEN, lengths.prepare, lengths.effect, lengths.lines);
}

/* value: the number of entries; 0, for a tree is never empty. */
smelvock_number smelvock_len(SMELVOCK_HEAD);
smelvock_number smelvock_is_empty(SMELVOCK_HEAD);

/* The entry at a cursor: its id, its lengths, its position in a view. */
static inline smelvock_number smelvock_id(SMELVOCK_HEAD, SMELVOCK_AREAS, smelvock_cursor_at at) {
    return smelvock_id_words(SMELVOCK_GIVEN, at.leaf, at.slot, at.stamp);
}
static inline smelvock_measured smelvock_lengths(SMELVOCK_HEAD, SMELVOCK_AREAS, smelvock_cursor_at at) {
    return smelvock_lengths_words(SMELVOCK_GIVEN, at.leaf, at.slot, at.stamp);
}
static inline smelvock_number smelvock_entry_to_char_index(SMELVOCK_HEAD, SMELVOCK_AREAS, uint32_t view, smelvock_cursor_at at) {
    return smelvock_entry_to_char_index_words(SMELVOCK_GIVEN, view, at.leaf, at.slot, at.stamp);
}

/* The cursor of an entry, of the first, and of the one after a cursor's. */
smelvock_standing smelvock_cursor(SMELVOCK_HEAD, SMELVOCK_AREAS, uint32_t id);
smelvock_standing smelvock_first(SMELVOCK_HEAD, SMELVOCK_AREAS);
static inline smelvock_standing smelvock_next(SMELVOCK_HEAD, SMELVOCK_AREAS, smelvock_cursor_at at) {
    return smelvock_next_words(SMELVOCK_GIVEN, at.leaf, at.slot, at.stamp);
}

/* value: 0, 1, 2 as a stands before, is or stands after b. */
static inline smelvock_number smelvock_cmp(SMELVOCK_HEAD, SMELVOCK_AREAS, smelvock_cursor_at a, smelvock_cursor_at b) {
    return smelvock_cmp_words(SMELVOCK_GIVEN, a.leaf, a.slot, a.stamp, b.leaf, b.slot, b.stamp);
}

/* The entry that holds a position of a view, a character or a line end, and the offset into it; locate also its effect position
 * (position) and its prepare position, in every view. Both say how many slots they examined, at most fan * (levels + 2). */
smelvock_located smelvock_locate(SMELVOCK_HEAD_WRITTEN, SMELVOCK_AREAS, uint32_t view, uint32_t index);
static inline smelvock_selected smelvock_char_index_to_entry(SMELVOCK_HEAD_WRITTEN, SMELVOCK_AREAS, uint32_t view, uint32_t index) {
    smelvock_located found = smelvock_locate(SMELVOCK_GIVEN, view, index);
    smelvock_selected selected = {found.number, found.at, found.offset, found.examined};
    return selected;
}

/* Gives an entry lengths; update also answers its effect position. */
static inline uint32_t smelvock_set_lengths(SMELVOCK_HEAD_WRITTEN, SMELVOCK_AREAS_WRITTEN, smelvock_cursor_at at, smelvock_length lengths) {
    return smelvock_resize(SMELVOCK_GIVEN, at.leaf, at.slot, at.stamp, lengths.prepare, lengths.effect, lengths.lines, 0).number;
}
static inline smelvock_number smelvock_update(SMELVOCK_HEAD_WRITTEN, SMELVOCK_AREAS_WRITTEN, smelvock_cursor_at at, smelvock_length lengths) {
    return smelvock_resize(SMELVOCK_GIVEN, at.leaf, at.slot, at.stamp, lengths.prepare, lengths.effect, lengths.lines, 1);
}

/* A new entry before a cursor, or at the end where end is 1 and the cursor is of no account: its id, and its effect position. In a
 * seated tree for a seat. */
static inline smelvock_inserted smelvock_insert_for(
    SMELVOCK_HEAD_WRITTEN, SMELVOCK_AREAS_WRITTEN, uint32_t seat, uint32_t end, smelvock_cursor_at before, smelvock_length lengths) {
    return smelvock_insert_words(SMELVOCK_GIVEN, seat, end, before.leaf, before.slot, before.stamp, lengths.prepare, lengths.effect, lengths.lines);
}
static inline smelvock_inserted smelvock_insert(
    SMELVOCK_HEAD_WRITTEN, SMELVOCK_AREAS_WRITTEN, uint32_t end, smelvock_cursor_at before, smelvock_length lengths) {
    return smelvock_insert_for(SMELVOCK_GIVEN, SMELVOCK_NOBODY, end, before, lengths);
}

/* Takes lengths out of an entry into a new one just before it (before 1) or after it (0): its id, and both cursors in order. Each of
 * the two keeps or gets some length, line ends among them, else it is 17. In a seated tree for a seat. */
static inline smelvock_divided smelvock_split_entry_for(
    SMELVOCK_HEAD_WRITTEN, SMELVOCK_AREAS_WRITTEN, uint32_t seat, smelvock_cursor_at at, smelvock_length lengths, uint32_t before) {
    return smelvock_split_entry_words(SMELVOCK_GIVEN, seat, at.leaf, at.slot, at.stamp, lengths.prepare, lengths.effect, lengths.lines, before);
}
static inline smelvock_divided smelvock_split_entry(
    SMELVOCK_HEAD_WRITTEN, SMELVOCK_AREAS_WRITTEN, smelvock_cursor_at at, smelvock_length lengths, uint32_t before) {
    return smelvock_split_entry_for(SMELVOCK_GIVEN, SMELVOCK_NOBODY, at, lengths, before);
}

/* Prints the entries in order from the start of the buffer on; value: the number of pages. A line is 55 bytes: id, prepare position,
 * effect position, prepare length and effect length, each right-justified in 10 columns, one blank between, then a line feed. The
 * last page is filled up with lines of 54 blanks and a line feed; bytes past it don't change. */
smelvock_number smelvock_print(SMELVOCK_HEAD, SMELVOCK_AREAS, uint8_t *page, size_t page_bytes);

/* value: 1 if the tree is sound, else 0. */
smelvock_number smelvock_audit(SMELVOCK_HEAD, SMELVOCK_AREAS);

/* Puts a stored tree right. It trusts the head but for its finger, which may be any words, its flag too; each node's len and child
 * numbers in use (in a leaf the ids), and the lengths in leaf slots. It rewrites inner sums, parents, places, homes and unused slots, and
 * drops the finger; seats, nodes out of use and the rest of the areas stay. value: the number of area words that differ from before, 0
 * for a sound tree. Afterwards smelvock_audit answers 1. 21 exactly if no sound tree agrees with what is trusted; never 9. Takes time
 * linear in nodes times fan, and 385 KiB of stack. */
smelvock_number smelvock_repair(SMELVOCK_HEAD_WRITTEN, SMELVOCK_AREAS_WRITTEN);

/* A file of edits has 16-byte records and no header; a record's place from 0 is the edit's number. The first two little-endian u32
 * are its parents, SMELVOCK_NONE for none, and may be equal; the rest is zero. An edit rests on itself and on whatever a chain of
 * parents leads to. The most edits of a file, and the words that a list area needs: */
#define SMELVOCK_EDITS 512u

/* 0 for an accepted file; else 11, 16, or the first bad record's 10 or 15. */
uint32_t smelvock_edits_check(const uint8_t *file, size_t file_bytes);

/* Lists the edits that the first rests on and the second doesn't, each once, in rising number, at the front of the area; value: their
 * count. Words after them don't change. 11, 12, then what check answers, then 4; refused, the area is as it was. */
smelvock_number smelvock_edits_difference(const uint8_t *file, size_t file_bytes, uint32_t *area, size_t area_words, uint32_t first, uint32_t second);

#ifdef __cplusplus
}
#endif

#endif
