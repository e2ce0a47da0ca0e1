/*
 * Fenpiling: voxel ground models as shared, interned octree nodes, for C and C++.
 *
 * A model is the id of its root in an arena. Whoever relies on a model holds its root; an edit makes a new root and touches none that someone
 * holds. The caller owns all memory: an arena is a state, which goes by value, and three tables, which are lent to each call as an address
 * and a length in elements. Nothing is kept between calls and nothing is allocated.
 *
 * Every function is proved to end and to stay inside what it is lent, on any arguments, and to answer as its comment says; the two interns, release,
 * the edit and the entering of a reading say so of well-formed tables, and every call keeps those well formed. What the caller has to see to: an address
 * leads to as many elements as the length beside it says, no two tables or parts of a list overlap, and no two threads use one arena at once. And the
 * state goes along: after every call that answers `slots`, refused or not,
 *
 *     arena.slots = answer.slots;
 *
 * An older number no longer fits the tables.
 *
 * An answer's `no` is 0 where the call is accepted, else the number of `enum fenpiling_refusal` that applies, the lowest if several do; 13 and 14 count
 * as between 2 and 3. A refusal answers id INVALID, value 0 and counts 0, the state's `slots` as they were, and changes nothing lent. From the last two of
 * these one call departs: fenpiling_enter_reading, where it refuses a bar on its way.
 *
 * The functions stand in libfenpiling.a (tools/library builds it), for x86-64 Linux.
 */
#ifndef FENPILING_H
#define FENPILING_H

#include <stdbool.h>
#include <stddef.h>
#include <stdint.h>

#ifdef __cplusplus
extern "C" {
#endif

/* ---- Numbers */

/* The slots of an arena; slot 0 is never given out. */
#define FENPILING_MIN_CAPACITY 2
#define FENPILING_MAX_CAPACITY 65536

/* The elements of the three tables of an arena of so many slots: children of 64 bits, facts of the nodes of 32, finding table of 16. */
#define FENPILING_KIDS_LENGTH(capacity) (8 * (size_t)(capacity))
#define FENPILING_FACTS_LENGTH(capacity) (11 * (size_t)(capacity))
#define FENPILING_FIND_LENGTH(capacity) (5 * (size_t)(capacity))

/* A cube of depth d has 2^d cells along each axis, 8^d in all. */
#define FENPILING_MAX_DEPTH 6
#define FENPILING_CUBE_LENGTH(depth) ((size_t)1 << (3 * (depth)))

/* Where cell (x, y, z) stands in an expanded cube. */
#define FENPILING_CUBE_INDEX(depth, x, y, z) \
    (((size_t)(y) << (2 * (depth))) + ((size_t)(z) << (depth)) + (size_t)(x))

/* A record of the surveyor's instrument has so many bytes; an edge is 2^-k metres, with k at most this. */
#define FENPILING_RECORD_LENGTH 40
#define FENPILING_MAX_EDGE 6

/* The caller's holds on one node. */
#define FENPILING_MAX_HOLDS 1000000

/* The highest generation that packing accepts. */
#define FENPILING_MAX_GENERATION 0x7FFE

/* The longest text of an id, in bytes. */
#define FENPILING_TEXT_LENGTH 41

/* No model, nothing there: a root that every arena accepts, with no node; its counts are 0. */
#define FENPILING_EMPTY UINT64_C(0)

/* No id: what a refusal answers. */
#define FENPILING_INVALID UINT64_C(0xFFFFFFFFFFFFFFFF)

/* What the number of an answer says: given exactly if the words beside it hold, and none that is tested before it applies: 1, 2, 13, 14, then 3 to 12,
 * then 15. */
enum fenpiling_refusal {
    FENPILING_ACCEPTED = 0,
    FENPILING_SIZE = 1,        /* the capacity is out of range, or a table's length isn't the one for that capacity; or the parts of a list differ in length */
    FENPILING_DEPTH = 2,       /* the depth is above 6, or k is; or a child number is asked at a level not below the depth */
    FENPILING_POSITION = 3,    /* a coordinate is below 0 or at least 2^depth, or a path code is 2^30 or more */
    FENPILING_NOT_LIVE = 4,    /* an id is neither EMPTY nor live */
    FENPILING_FEW_HOLDS = 5,   /* the caller has fewer holds than the call would take */
    FENPILING_ZERO_LEAF = 6,   /* a leaf of value 0 */
    FENPILING_ALL_EMPTY = 7,   /* eight EMPTY children */
    FENPILING_TALL = 8,        /* the new branch would be taller than 6, or a root to edit or to compare is taller than the depth */
    FENPILING_CUBE = 9,        /* the expansion buffer is not 8^depth long */
    FENPILING_MANY_HOLDS = 10, /* a hold on a node that already has 1,000,000 */
    FENPILING_FULL = 11,       /* more nodes of the result are not yet live than there are free slots (capacity - 1 - live) */
    FENPILING_GENERATION = 12, /* packing with a generation above 0x7FFE */
    FENPILING_RECORD = 13,     /* a record is not 40 bytes long, or of no known kind; a spare bit or byte or a pause's value is not zero; a bar's second x is
                                * below its first */
    FENPILING_NOT_FINITE = 14, /* a number of a record is a NaN or infinite */
    FENPILING_SHORT_LIST = 15  /* more cells differ than the list has places */
};

/* The kinds of readings. */
enum fenpiling_kind {
    FENPILING_PAUSE = 0, /* changes nothing */
    FENPILING_SHOT = 1,  /* a point */
    FENPILING_BAR = 2    /* a point and a second x: every cell from the one to the other */
};

/* ---- What goes by value */

/* An arena's state: its capacity, which stays, and a number that says which slots are to be given out next. A fresh arena has its first one:
 *
 *     fenpiling_arena arena = {CAPACITY, fenpiling_fresh(CAPACITY, ...).slots};
 *
 * `slots` is the lowest slot never given out, plus 2^32 times the number of freed slots. */
typedef struct fenpiling_arena {
    size_t capacity;
    uint64_t slots;
} fenpiling_arena;

/* How many nodes of an arena are live, by its state, a fenpiling_arena. The argument is evaluated twice. */
#define FENPILING_LIVE(arena) ((size_t)((arena).slots & UINT32_MAX) - 1 - (size_t)((arena).slots >> 32))

/* The place of a cell. */
typedef struct fenpiling_cell {
    int32_t x;
    int32_t y;
    int32_t z;
} fenpiling_cell;

/* The eight children of a branch: child i is the octant of x bit i & 1, y bit i >> 1 & 1, z bit i >> 2. */
typedef struct fenpiling_children {
    uint64_t ids[8];
} fenpiling_children;

/* A call that answers no id: the number, and the state's slots afterwards. Accepted or refused, pass these next: `arena.slots = answer.slots`. */
typedef struct fenpiling_answer {
    uint32_t no;
    uint64_t slots;
} fenpiling_answer;

/* A call that answers a node: the number, its id or INVALID, and the state's slots afterwards. Accepted or refused, pass these next:
 * `arena.slots = made.slots`. */
typedef struct fenpiling_made {
    uint32_t no;
    uint64_t id;
    uint64_t slots;
} fenpiling_made;

/* The two counts of a node: the holds of callers, and the child places of live branches that name it. */
typedef struct fenpiling_counted {
    uint32_t no;
    uint64_t holds;
    uint64_t places;
} fenpiling_counted;

/* The value of a cell, 0 where nothing is there. */
typedef struct fenpiling_looked {
    uint32_t no;
    uint16_t value;
} fenpiling_looked;

/* The comparison of two models: how many cells differ, and how many pairs of ids were opened to find them. */
typedef struct fenpiling_compared {
    uint32_t no;
    uint32_t count;
    uint32_t opened;
} fenpiling_compared;

/* What a record says. The numbers are in metres; those that the kind does not use are 0, and so is a pause's value. Of a refused record all but the number is 0. */
typedef struct fenpiling_reading {
    uint32_t no;
    uint32_t kind;
    uint16_t value;
    double x;
    double y;
    double z;
    double second_x;
} fenpiling_reading;

/* A packed id, or INVALID. */
typedef struct fenpiling_packed {
    uint32_t no;
    uint64_t id;
} fenpiling_packed;

/* The text of an id: `length` bytes, then zeros; a text of 41 bytes has no zero after it. */
typedef struct fenpiling_id_text {
    char bytes[FENPILING_TEXT_LENGTH];
    size_t length;
} fenpiling_id_text;

/* The cell of a path code, or 0, 0, 0. */
typedef struct fenpiling_decoded {
    uint32_t no;
    int32_t x;
    int32_t y;
    int32_t z;
} fenpiling_decoded;

/* The number of a child, 0 to 7, or 0. */
typedef struct fenpiling_child {
    uint32_t no;
    size_t index;
} fenpiling_child;

/* ---- The arena */

/* Makes a fresh arena over the tables, whatever they hold: every slot cleared with generation 0, none given out. The capacity and the slots that it
 * answers are its state. It ends all earlier ids over these tables, by agreement: nothing detects their use. Refusal: 1, and then the slots answered are of
 * no use. */
fenpiling_answer fenpiling_fresh(size_t capacity, uint64_t *kids, size_t kids_length, uint32_t *facts, size_t facts_length,
                                 uint16_t *find, size_t find_length);

/* The live leaf of that value if there is one, else a fresh one; the caller gets one hold on it. Refusals: 1, 6, 10, 11. */
fenpiling_made fenpiling_intern_leaf(fenpiling_arena arena, uint64_t *kids, size_t kids_length, uint32_t *facts, size_t facts_length,
                                     uint16_t *find, size_t find_length, uint16_t value);

/* The live branch of those eight children if there is one, else a fresh one; the caller gets one hold on it. It uses up one of the caller's holds for
 * each place with a child that isn't EMPTY: on a branch that was there those holds end, on a fresh one they become its places. Refusals: 1, 4, 5, 7,
 * 8, 10, 11. */
fenpiling_made fenpiling_intern_branch(fenpiling_arena arena, uint64_t *kids, size_t kids_length, uint32_t *facts, size_t facts_length,
                                       uint16_t *find, size_t find_length, fenpiling_children children);

/* One more hold on the node, for the caller. EMPTY is accepted and changes nothing. Refusals: 1, 4, 10. */
fenpiling_answer fenpiling_hold(fenpiling_arena arena, const uint64_t *kids, size_t kids_length, uint32_t *facts, size_t facts_length,
                                const uint16_t *find, size_t find_length, uint64_t id);

/* Takes one of the caller's holds. A node with no hold and no place left is recycled, its slot put on top of the freed ones, and then its children
 * lose a place each, in octant order, and go the same way; the slot freed last is given out first. EMPTY is accepted and changes nothing. The id of
 * a node that is gone is refused by every call for the next 32,765 recyclings of its slot; after 32,766 it may match again and then names another node:
 * keep an id only together with a hold. Refusals: 1, 4, 5. */
fenpiling_answer fenpiling_release(fenpiling_arena arena, uint64_t *kids, size_t kids_length, uint32_t *facts, size_t facts_length,
                                   uint16_t *find, size_t find_length, uint64_t id);

/* The holds and places of a node; both 0 for EMPTY. Refusals: 1, 4. */
fenpiling_counted fenpiling_counts(fenpiling_arena arena, const uint64_t *kids, size_t kids_length, const uint32_t *facts,
                                   size_t facts_length, const uint16_t *find, size_t find_length, uint64_t id);

/* Are state and tables well formed? Yes exactly then, and no with tables of other lengths. The facts are used to count in, and are afterwards as they
 * were. It can't see that a hold count was changed from outside to another one in range: only the calls know how many holds were granted. */
bool fenpiling_check(fenpiling_arena arena, const uint64_t *kids, size_t kids_length, uint32_t *facts, size_t facts_length,
                     const uint16_t *find, size_t find_length);

/* ---- Models */

/* The value of a cell of the model: down from the id to EMPTY (0), a leaf (its value) or level `depth` (the stored value, a branch's average).
 * Refusals: 1, 2, 3, 4. */
fenpiling_looked fenpiling_get_at_depth(fenpiling_arena arena, const uint64_t *kids, size_t kids_length, const uint32_t *facts,
                                        size_t facts_length, const uint16_t *find, size_t find_length, uint64_t id, uint32_t depth,
                                        fenpiling_cell position);

/* Writes the 8^depth values of the model into the cube, each what lookup answers; FENPILING_CUBE_INDEX says where a cell stands. The answer is the
 * number. Refusals: 1, 2, 4, 9. */
uint32_t fenpiling_to_vec(fenpiling_arena arena, const uint64_t *kids, size_t kids_length, const uint32_t *facts, size_t facts_length,
                          const uint16_t *find, size_t find_length, uint64_t id, uint32_t depth, uint16_t *cube, size_t cube_length);

/* The model that has this value in one cell and in all others the values of `root`, tidily made: eight times one leaf is that leaf. The root is not used
 * up; the caller gets one new hold on the answer, none on EMPTY. Where the cell has the value already the answer is the old root. Any two orders of
 * edits of different cells, all at one depth, each made from the answer of the one before and all accepted, end in the same id, if both start from EMPTY or
 * from one tidy root that stays held, the end of the first is held until the second is there, and no fresh arena is made meanwhile. Refusals: 1, 2, 3, 4,
 * 8, 10, 11. */
fenpiling_made fenpiling_set_voxel(fenpiling_arena arena, uint64_t *kids, size_t kids_length, uint32_t *facts, size_t facts_length,
                                   uint16_t *find, size_t find_length, uint64_t root, uint32_t depth, fenpiling_cell position,
                                   uint16_t value);

/* Lists the cells of a cube of the depth in which two models differ, by what lookup answers: each once, in rising path code, from the list's first place
 * on. The list has three parts of one length. At the same place stand the cell's path code in `codes` (fenpiling_decode_child_index_path gives the cell), its
 * value in the left model in `lefts`, and its value in the right one in `rights`. The answer's `count` is the number of cells listed; places past the last stay
 * as they were. The tables are only read, and no hold is granted or taken.
 *
 * The answer's `opened` is the number of pairs of ids that were opened. A pair is opened if its ids differ and at least one is a branch other than EMPTY,
 * starting with the roots; then the pairs at its eight places are looked at in the same way, where a leaf or EMPTY stands for its own eight children. Equal ids
 * are passed over unopened.
 *
 * Refusals: 1, also where the list's parts differ in length; 2; 4 for either root; 8 for a root taller than the depth; last 15, exactly if more cells differ
 * than the list has places, and so never with FENPILING_CUBE_LENGTH(depth) places. A refusal answers count 0 and opened 0, and no place of the list changes. */
fenpiling_compared fenpiling_compare(fenpiling_arena arena, const uint64_t *kids, size_t kids_length, const uint32_t *facts,
                                     size_t facts_length, const uint16_t *find, size_t find_length, uint64_t left, uint64_t right,
                                     uint32_t depth, uint32_t *codes, size_t codes_length, uint16_t *lefts, size_t lefts_length,
                                     uint16_t *rights, size_t rights_length);

/* ---- Readings in metres, as a surveyor's instrument writes them. A record is 40 bytes, all numbers low byte first: kind (4 bytes), value (2), two zero
 * bytes, then x, y, z and second x, each an f64 (8). A shot uses x, y and z, a bar all four, a pause none; numbers that are not used are all zero bits,
 * so that minus zero there is refused with 13, and a NaN too. A bar's two x are compared as numbers: a NaN is below nothing. */

/* What the record says. Refusals: 13, then 14. */
fenpiling_reading fenpiling_parse_reading(const uint8_t *record, size_t record_length);

/* The model with the reading entered, where a cell's edge is 2^-k metres: a coordinate lies in the cell of its product with 2^k, rounded down; minus zero in
 * cell 0. A shot is an edit of its cell, and value 0 digs it out. A bar edits every cell from its first x to its second, in rising order, and releases each
 * passing root after the next is made. A pause changes nothing: its answer is the old root, once more held. The root is not used up; the caller gets one new
 * hold on the answer, none on EMPTY.
 *
 * Refusals, in the order in which they are tested: 1, 2, 13, 14, 3 (the whole bar first), 4, 8, 10, 11; of a pause 1, 2, 13, 4, 10 alone. Where an edit of a
 * bar is refused, with 10 or 11, the answer is that number with INVALID. The old root and its holds stay, every live node has the id, the content and
 * the counts that it had, and no other is live. But slots were given out and freed again on the way: generations, the freed slots and their order, the
 * highest slot given out and the finding table may have moved, and with them the state's slots. So after a refusal too, pass the slots answered next. Every
 * other refusal changes nothing lent. */
fenpiling_made fenpiling_enter_reading(fenpiling_arena arena, uint64_t *kids, size_t kids_length, uint32_t *facts, size_t facts_length,
                                       uint16_t *find, size_t find_length, uint64_t root, uint32_t depth, uint32_t k,
                                       const uint8_t *record, size_t record_length);

/* ---- Ids: bit 63 leaf, 55 to 62 types, 47 to 54 mask, 32 to 46 generation, 0 to 31 index. Any 64 bits are taken. */

/* The id of a leaf, with types and mask 0; the id of a branch. Refusal: 12. */
fenpiling_packed fenpiling_new_leaf(uint32_t index, uint16_t generation);
fenpiling_packed fenpiling_new_branch(uint32_t index, uint16_t generation, uint8_t types, uint8_t mask);

/* The fields. Types (bit i: child i is a leaf) and mask (bit i: child i isn't EMPTY) of an id with bit 63 set are 0. */
uint32_t fenpiling_index(uint64_t id);
uint16_t fenpiling_generation(uint64_t id);
uint8_t fenpiling_types(uint64_t id);
uint8_t fenpiling_mask(uint64_t id);

/* Is the mask's bit for the child set? No for a child above 7, and for an id with bit 63 set. */
bool fenpiling_has_child(uint64_t id, uint8_t child);

/* Bit 63 set, as in INVALID too; bit 63 clear, as in EMPTY too. */
bool fenpiling_is_leaf(uint64_t id);
bool fenpiling_is_branch(uint64_t id);

/* Raw 2^64 - 1; anything else; raw 0. */
bool fenpiling_is_invalid(uint64_t id);
bool fenpiling_is_valid(uint64_t id);
bool fenpiling_is_empty(uint64_t id);

/* The text, as Id(EMPTY), Id(INVALID), Id(L, i: 00000001, g: 0000) or Id(B, i: 00000002, g: 0000, m: 01, t: 01). It never refuses. */
fenpiling_id_text fenpiling_text(uint64_t id);

/* ---- Paths */

/* The path code of a cell: of the low ten bits of each axis, bit n of x to 3n, of y to 3n + 1, of z to 3n + 2. It never refuses. */
uint32_t fenpiling_encode_child_index_path(int32_t x, int32_t y, int32_t z);

/* The cell of a path code, the inverse. Refusal: 3. */
fenpiling_decoded fenpiling_decode_child_index_path(uint32_t code);

/* The number of the child at a level of a depth: bit depth - 1 - level of x, plus twice that of y, plus four times that of z. Refusals: 2, 3. */
fenpiling_child fenpiling_child_index2(int32_t x, int32_t y, int32_t z, uint32_t level, uint32_t depth);

#ifdef __cplusplus
}
#endif

#endif
