/*
 * Comparisons from bytes, held to plain arrays: a fuzz target for libFuzzer.
 *
 * The first byte says the depth of two models in an arena of 512 slots, EMPTY at first. The others are records of 5 bytes: what is done, x, y, z, and a value.
 * A record edits the left or the right model, makes the left one what the right one is, as at a month's end, or compares the two, at their depth or at a greater
 * one. Beside each model goes a plain array of its cells in path code order. A comparison is made with a list that has one place too few, with just enough,
 * with more than a cube has cells, and with the sides exchanged. Answer and list have to be those of the arrays, and the pairs opened those of a walk over the
 * tables, of which no byte may change. The list's parts lie between canaries.
 */
#include "shared.h"

#define RECORD 5

enum { EDIT_LEFT, EDIT_RIGHT, MONTH_END, COMPARE, KINDS };
enum { LEFT, RIGHT, SIDES };

/* A model: its depth, its root, which has one hold, and its cells by path code; these are all 0 between inputs. */
typedef struct model {
    uint32_t depth;
    uint64_t root;
    uint16_t cells[FENPILING_CUBE_LENGTH(DEPTH)];
} model;

static model models[SIDES];

/* The list that is lent. Outside of comparisons every place is full of canaries. */
#define PLACES (FENPILING_CUBE_LENGTH(DEPTH) + 1)

static struct {
    unsigned char before_codes[CANARIES];
    uint32_t codes[PLACES];
    unsigned char before_lefts[CANARIES];
    uint16_t lefts[PLACES];
    unsigned char before_rights[CANARIES];
    uint16_t rights[PLACES];
    unsigned char after_rights[CANARIES];
} list;

/* The cells in which the arrays differ. */
static struct {
    size_t count;
    uint32_t codes[PLACES];
    uint16_t values[SIDES][PLACES];
} expected;

#define BLOCK FENPILING_CUBE_LENGTH(3)

/* How many bits count and pairs opened have is fed back too. */
__attribute__((used, section("__libfuzzer_extra_counters"))) static unsigned char sizes[2][32];

static unsigned bits_in(uint32_t number)
{
    unsigned bits = 0;
    for (; number != 0; number >>= 1)
        bits++;
    return bits;
}

static int is_branch(uint64_t id)
{
    return id != FENPILING_EMPTY && !fenpiling_is_leaf(id);
}

/* Place i of an id. */
static uint64_t part(uint64_t id, size_t i)
{
    return is_branch(id) ? lent.kids[8 * (size_t)fenpiling_index(id) + i] : id;
}

/* The pairs opened, starting with this one. */
static uint32_t opened(uint64_t left, uint64_t right)
{
    uint32_t pairs = 1;
    if (left == right || (!is_branch(left) && !is_branch(right)))
        return 0;
    for (size_t i = 0; i < 8; i++)
        pairs += opened(part(left, i), part(right, i));
    return pairs;
}

/* Finds the differing cells of a cube of a depth not less than the models': a cell of theirs is a row of cells there. Blocks in which the arrays are equal are
 * passed over at once, since instrumented code is slow. */
static void expect(uint32_t depth)
{
    const uint16_t *left = models[LEFT].cells, *right = models[RIGHT].cells;
    size_t cells = FENPILING_CUBE_LENGTH(models[LEFT].depth), row = FENPILING_CUBE_LENGTH(depth) / cells, block = cells < BLOCK ? cells : BLOCK;
    expected.count = 0;
    for (size_t start = 0; start < cells; start += block) {
        if (memcmp(left + start, right + start, block * sizeof *left) == 0)
            continue;
        for (size_t code = start; code < start + block; code++)
            for (size_t i = 0; left[code] != right[code] && i < row; i++) {
                expected.codes[expected.count] = (uint32_t)(row * code + i);
                expected.values[LEFT][expected.count] = left[code];
                expected.values[RIGHT][expected.count] = right[code];
                expected.count++;
            }
    }
}

/* Are these bytes canaries, all like the first? */
static int is_clean(const void *start, size_t bytes)
{
    const unsigned char *first = start;
    return bytes == 0 || (*first == CANARY && memcmp(first, first + 1, bytes - 1) == 0);
}

/* Demands that nothing was written from this place of the list on, up to one more than a cube of the depth has cells, nor outside the list. */
static void demand_untouched(size_t from, uint32_t depth)
{
    size_t places = FENPILING_CUBE_LENGTH(depth) + 1 - from;
    demand(canaries_live(list.before_codes) && canaries_live(list.before_lefts) && canaries_live(list.before_rights) &&
               canaries_live(list.after_rights),
           "nothing is written outside the list");
    demand(is_clean(list.codes + from, places * sizeof *list.codes) && is_clean(list.lefts + from, places * sizeof *list.lefts) &&
               is_clean(list.rights + from, places * sizeof *list.rights),
           "places past the last stay as they were");
}

static fenpiling_compared compare(fenpiling_arena arena, int left, int right, uint32_t depth, size_t places)
{
    keep();
    fenpiling_compared compared = fenpiling_compare(arena, TABLES, models[left].root, models[right].root, depth, list.codes, places,
                                                    list.lefts, places, list.rights, places);
    demand_canaries();
    demand(kept(), "a comparison changes no table");
    feed_back(compared.no, models[right].root, arena);
    sizes[0][bits_in(compared.count)] = 1;
    sizes[1][bits_in(compared.opened)] = 1;
    return compared;
}

/* Compares with so many places, which are enough, and clears the list. */
static void demand_listed(fenpiling_arena arena, int left, int right, uint32_t depth, size_t places)
{
    fenpiling_compared compared = compare(arena, left, right, depth, places);
    size_t count = expected.count;
    demand(compared.no == FENPILING_ACCEPTED, "a comparison with enough places is accepted");
    demand(compared.count == count, "the count is that of the plain arrays");
    demand(compared.opened == opened(models[left].root, models[right].root), "the pairs opened are those of a walk over the tables");
    demand(compared.opened <= (uint64_t)models[left].depth * count, "no more pairs are opened than lead to differing cells");
    demand(memcmp(list.codes, expected.codes, count * sizeof *list.codes) == 0, "the path codes are those of the plain arrays");
    demand(memcmp(list.lefts, expected.values[left], count * sizeof *list.lefts) == 0, "the left values are those of the left array");
    demand(memcmp(list.rights, expected.values[right], count * sizeof *list.rights) == 0, "the right values are those of the right array");
    demand_untouched(count, depth);
    memset(list.codes, CANARY, count * sizeof *list.codes);
    memset(list.lefts, CANARY, count * sizeof *list.lefts);
    memset(list.rights, CANARY, count * sizeof *list.rights);
}

static void demand_compared(fenpiling_arena arena, uint32_t depth)
{
    expect(depth);
    if (expected.count > 0) {
        fenpiling_compared refused = compare(arena, LEFT, RIGHT, depth, expected.count - 1);
        demand(refused.no == FENPILING_SHORT_LIST && refused.count == 0 && refused.opened == 0, "one place too few is refused with 15");
        demand_untouched(0, depth);
    }
    demand_listed(arena, LEFT, RIGHT, depth, expected.count);
    demand_listed(arena, LEFT, RIGHT, depth, FENPILING_CUBE_LENGTH(depth) + 1);
    demand_listed(arena, RIGHT, LEFT, depth, expected.count);
}

/* Gives back the hold of a model's root, and takes another root. */
static fenpiling_arena replace(fenpiling_arena arena, model *side, uint64_t root)
{
    fenpiling_answer released = fenpiling_release(arena, TABLES, side->root);
    demand(released.no == FENPILING_ACCEPTED, "the old root can be released");
    side->root = root;
    arena.slots = released.slots;
    return arena;
}

static fenpiling_arena edit(fenpiling_arena arena, model *side, const uint8_t *record)
{
    int32_t cells = INT32_C(1) << side->depth;
    fenpiling_cell cell = {record[1] % cells, record[2] % cells, record[3] % cells};
    uint16_t value = (uint16_t)(record[4] % 4 * 0x5555);
    fenpiling_made made = fenpiling_set_voxel(arena, TABLES, side->root, side->depth, cell, value);
    demand(made.no == FENPILING_ACCEPTED || made.no == FENPILING_FULL, "an edit inside the cube is refused with 11 alone");
    arena.slots = made.slots;
    if (made.no == FENPILING_ACCEPTED) {
        side->cells[fenpiling_encode_child_index_path(cell.x, cell.y, cell.z)] = value;
        return replace(arena, side, made.id);
    }
    return arena;
}

static fenpiling_arena end_month(fenpiling_arena arena)
{
    fenpiling_answer held = fenpiling_hold(arena, TABLES, models[RIGHT].root);
    demand(held.no == FENPILING_ACCEPTED, "the right root can be held");
    memcpy(models[LEFT].cells, models[RIGHT].cells, FENPILING_CUBE_LENGTH(models[LEFT].depth) * sizeof *models[LEFT].cells);
    arena.slots = held.slots;
    return replace(arena, &models[LEFT], models[RIGHT].root);
}

static void play(uint32_t depth, const uint8_t *data, size_t size)
{
    fenpiling_arena arena = fresh_arena();
    for (int side = LEFT; side < SIDES; side++) {
        models[side].depth = depth;
        models[side].root = FENPILING_EMPTY;
    }
    for (size_t i = 0; i + RECORD <= size; i += RECORD) {
        const uint8_t *record = data + i;
        switch (record[0] % KINDS) {
        case EDIT_LEFT: arena = edit(arena, &models[LEFT], record); break;
        case EDIT_RIGHT: arena = edit(arena, &models[RIGHT], record); break;
        case MONTH_END: arena = end_month(arena); break;
        case COMPARE: demand_compared(arena, depth + record[1] % (DEPTH + 1 - depth)); break;
        }
    }
    demand_compared(arena, depth);
    demand_well_formed(arena);
    for (int side = LEFT; side < SIDES; side++) {
        arena = replace(arena, &models[side], FENPILING_EMPTY);
        memset(models[side].cells, 0, FENPILING_CUBE_LENGTH(depth) * sizeof *models[side].cells);
    }
    demand(FENPILING_LIVE(arena) == 0, "nothing is live when the last root is released");
}

int LLVMFuzzerInitialize(int *count, char ***words)
{
    (void)count;
    (void)words;
    memset(&list, CANARY, sizeof list);
    return 0;
}

int LLVMFuzzerTestOneInput(const uint8_t *data, size_t size)
{
    if (size > 0)
        play(data[0] % (DEPTH + 1), data + 1, size - 1);
    return 0;
}
