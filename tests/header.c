/* Every function of the header once or more, with answers known beforehand. It is C99 and C++11. */
#include <fenpiling.h>

#include <math.h>
#include <stdio.h>
#include <string.h>

static int failures;

#define HOLDS(claim) \
    do { \
        if (!(claim)) { \
            printf("%s:%d: not so: %s\n", __FILE__, __LINE__, #claim); \
            failures++; \
        } \
    } while (0)

#define CAPACITY 16

static uint64_t kids[FENPILING_KIDS_LENGTH(CAPACITY)];
static uint32_t facts[FENPILING_FACTS_LENGTH(CAPACITY)];
static uint16_t find[FENPILING_FIND_LENGTH(CAPACITY)];

#define TABLES kids, FENPILING_KIDS_LENGTH(CAPACITY), facts, FENPILING_FACTS_LENGTH(CAPACITY), find, FENPILING_FIND_LENGTH(CAPACITY)

static int has_text(uint64_t id, const char *expected)
{
    fenpiling_id_text text = fenpiling_text(id);
    return text.length == strlen(expected) && memcmp(text.bytes, expected, text.length) == 0;
}

static void ids(void)
{
    fenpiling_packed leaf = fenpiling_new_leaf(1, 0);
    fenpiling_packed branch = fenpiling_new_branch(2, 0x7FFE, 0x0F, 0x81);
    HOLDS(leaf.no == FENPILING_ACCEPTED && leaf.id == UINT64_C(0x8000000000000001));
    HOLDS(fenpiling_new_branch(2, 0, 1, 1).id == UINT64_C(0x0080800000000002));
    HOLDS(fenpiling_new_leaf(1, FENPILING_MAX_GENERATION + 1).no == FENPILING_GENERATION);
    HOLDS(fenpiling_new_leaf(1, FENPILING_MAX_GENERATION + 1).id == FENPILING_INVALID);
    HOLDS(fenpiling_index(branch.id) == 2 && fenpiling_generation(branch.id) == 0x7FFE);
    HOLDS(fenpiling_types(branch.id) == 0x0F && fenpiling_mask(branch.id) == 0x81);
    HOLDS(fenpiling_has_child(branch.id, 7) && !fenpiling_has_child(branch.id, 6) && !fenpiling_has_child(branch.id, 8));
    HOLDS(fenpiling_is_leaf(leaf.id) && !fenpiling_is_leaf(branch.id));
    HOLDS(fenpiling_is_branch(branch.id) && !fenpiling_is_branch(leaf.id));
    HOLDS(fenpiling_is_invalid(FENPILING_INVALID) && !fenpiling_is_invalid(leaf.id));
    HOLDS(fenpiling_is_valid(leaf.id) && !fenpiling_is_valid(FENPILING_INVALID));
    HOLDS(fenpiling_is_empty(FENPILING_EMPTY) && !fenpiling_is_empty(leaf.id));
    HOLDS(has_text(FENPILING_EMPTY, "Id(EMPTY)") && has_text(FENPILING_INVALID, "Id(INVALID)"));
    HOLDS(has_text(leaf.id, "Id(L, i: 00000001, g: 0000)"));
    HOLDS(has_text(branch.id, "Id(B, i: 00000002, g: 7FFE, m: 81, t: 0F)"));
}

static void paths(void)
{
    fenpiling_decoded cell = fenpiling_decode_child_index_path(4 + 9);
    fenpiling_child child = fenpiling_child_index2(32, 0, 1, 5, 6);
    HOLDS(fenpiling_encode_child_index_path(1023, 1023, 1023) == 1073741823);
    HOLDS(fenpiling_encode_child_index_path(-1, 0, 0) == 153391689);
    HOLDS(cell.no == FENPILING_ACCEPTED && cell.x == 3 && cell.y == 0 && cell.z == 1);
    HOLDS(fenpiling_decode_child_index_path(UINT32_C(1) << 30).no == FENPILING_POSITION);
    HOLDS(child.no == FENPILING_ACCEPTED && child.index == 4);
    HOLDS(fenpiling_child_index2(32, 0, 1, 6, 6).no == FENPILING_DEPTH);
}

/* A state's number: the lowest slot never given out, and how many are freed. */
static uint64_t slots(uint64_t next, uint64_t freed)
{
    return next + (freed << 32);
}

static void arenas(void)
{
    fenpiling_answer answer = fenpiling_fresh(CAPACITY + 1, TABLES);
    HOLDS(answer.no == FENPILING_SIZE && answer.slots == slots(1, 0));
    answer = fenpiling_fresh(CAPACITY, TABLES);
    HOLDS(answer.no == FENPILING_ACCEPTED && answer.slots == slots(1, 0));
    fenpiling_arena arena = {CAPACITY, answer.slots};
    HOLDS(FENPILING_LIVE(arena) == 0 && fenpiling_check(arena, TABLES));

    fenpiling_made leaf = fenpiling_intern_leaf(arena, TABLES, 80);
    HOLDS(leaf.no == FENPILING_ACCEPTED && has_text(leaf.id, "Id(L, i: 00000001, g: 0000)") && leaf.slots == slots(2, 0));
    arena.slots = leaf.slots;
    HOLDS(FENPILING_LIVE(arena) == 1);
    answer = fenpiling_hold(arena, TABLES, leaf.id);
    HOLDS(answer.no == FENPILING_ACCEPTED && answer.slots == arena.slots);

    fenpiling_children children = {{leaf.id, 0, 0, 0, 0, 0, 0, 0}};
    fenpiling_made branch = fenpiling_intern_branch(arena, TABLES, children);
    HOLDS(branch.no == FENPILING_ACCEPTED && has_text(branch.id, "Id(B, i: 00000002, g: 0000, m: 01, t: 01)"));
    arena.slots = branch.slots;
    fenpiling_counted counts = fenpiling_counts(arena, TABLES, leaf.id);
    HOLDS(counts.no == FENPILING_ACCEPTED && counts.holds == 1 && counts.places == 1);
    HOLDS(fenpiling_check(arena, TABLES));

    fenpiling_cell here = {0, 0, 0}, there = {0, 1, 0};
    HOLDS(fenpiling_get_at_depth(arena, TABLES, branch.id, 1, here).value == 80);
    HOLDS(fenpiling_get_at_depth(arena, TABLES, branch.id, 0, here).value == 10);
    HOLDS(fenpiling_get_at_depth(arena, TABLES, branch.id, 0, there).no == FENPILING_POSITION);

    fenpiling_made edited = fenpiling_set_voxel(arena, TABLES, branch.id, 1, there, 7);
    HOLDS(edited.no == FENPILING_ACCEPTED && edited.slots == slots(5, 0));
    arena.slots = edited.slots;
    HOLDS(FENPILING_LIVE(arena) == 4);
    uint16_t cube[FENPILING_CUBE_LENGTH(1)];
    HOLDS(fenpiling_to_vec(arena, TABLES, edited.id, 1, cube, 7) == FENPILING_CUBE);
    HOLDS(fenpiling_to_vec(arena, TABLES, edited.id, 1, cube, 8) == FENPILING_ACCEPTED);
    HOLDS(cube[FENPILING_CUBE_INDEX(1, 0, 0, 0)] == 80 && cube[FENPILING_CUBE_INDEX(1, 0, 1, 0)] == 7);
    HOLDS(cube[FENPILING_CUBE_INDEX(1, 1, 0, 0)] == 0 && FENPILING_CUBE_INDEX(1, 0, 1, 0) == 4);

    answer = fenpiling_release(arena, TABLES, edited.id);
    HOLDS(answer.no == FENPILING_ACCEPTED && answer.slots == slots(5, 2));
    arena.slots = answer.slots;
    HOLDS(FENPILING_LIVE(arena) == 2 && fenpiling_check(arena, TABLES));
    answer = fenpiling_release(arena, TABLES, edited.id);
    HOLDS(answer.no == FENPILING_NOT_LIVE && answer.slots == arena.slots);
    for (size_t word = 0; word < FENPILING_FACTS_LENGTH(1); word++) {
        /* Of slot 0, which is never given out: the ten words of its row, the last of which is the first entry of the freed slots, and its hash. */
        size_t at = word < 10 ? word : FENPILING_FACTS_LENGTH(CAPACITY) - 1;
        facts[at]++;
        HOLDS(!fenpiling_check(arena, TABLES));
        facts[at]--;
    }
    HOLDS(fenpiling_check(arena, TABLES));
    arena.slots++;
    HOLDS(!fenpiling_check(arena, TABLES));
}

/* A record as it lies in the memory of this machine, which has the low byte first. */
typedef struct record {
    uint32_t kind;
    uint16_t value;
    uint16_t zero;
    double x, y, z, second_x;
} record;

static fenpiling_reading parse(record what)
{
    return fenpiling_parse_reading((const uint8_t *)&what, sizeof what);
}

static fenpiling_made enter(fenpiling_arena arena, uint64_t root, record what)
{
    return fenpiling_enter_reading(arena, TABLES, root, 1, 2, (const uint8_t *)&what, sizeof what);
}

static void records(void)
{
    const record pause = {FENPILING_PAUSE, 0, 0, 0.0, 0.0, 0.0, 0.0};
    const record shot = {FENPILING_SHOT, 9, 0, 0.25, 0.5, -0.0, 0.0};
    const record bar = {FENPILING_BAR, 7, 0, 0.125, 0.25, 0.5, 0.75};
    HOLDS(sizeof(record) == FENPILING_RECORD_LENGTH);

    fenpiling_reading reading = parse(shot);
    HOLDS(reading.no == FENPILING_ACCEPTED && reading.kind == FENPILING_SHOT && reading.value == 9);
    HOLDS(reading.x == 0.25 && reading.y == 0.5 && reading.z == 0.0 && signbit(reading.z) && reading.second_x == 0.0);
    reading = parse(bar);
    HOLDS(reading.no == FENPILING_ACCEPTED && reading.kind == FENPILING_BAR && reading.value == 7);
    HOLDS(reading.x == 0.125 && reading.y == 0.25 && reading.z == 0.5 && reading.second_x == 0.75);
    reading = parse(pause);
    HOLDS(reading.no == FENPILING_ACCEPTED && reading.kind == FENPILING_PAUSE && reading.value == 0);

    record wrong = pause;
    wrong.value = 1;
    HOLDS(parse(wrong).no == FENPILING_RECORD);
    wrong = shot;
    wrong.zero = 256;
    reading = parse(wrong);
    HOLDS(reading.no == FENPILING_RECORD && reading.kind == 0 && reading.value == 0 && reading.x == 0.0);
    wrong = shot;
    wrong.second_x = -0.0;
    HOLDS(parse(wrong).no == FENPILING_RECORD);
    wrong = bar;
    wrong.kind = 3;
    HOLDS(parse(wrong).no == FENPILING_RECORD);
    wrong = bar;
    wrong.second_x = 0.0;
    HOLDS(parse(wrong).no == FENPILING_RECORD);
    wrong = bar;
    wrong.second_x = (double)NAN;
    reading = parse(wrong);
    HOLDS(reading.no == FENPILING_NOT_FINITE && reading.kind == 0 && reading.value == 0 && reading.second_x == 0.0);
    HOLDS(fenpiling_parse_reading((const uint8_t *)&shot, FENPILING_RECORD_LENGTH - 1).no == FENPILING_RECORD);
}

static void readings(void)
{
    const record pause = {FENPILING_PAUSE, 0, 0, 0.0, 0.0, 0.0, 0.0};
    const record shot = {FENPILING_SHOT, 9, 0, 0.25, 0.25, -0.0, 0.0};
    const record bar = {FENPILING_BAR, 7, 0, 0.125, 0.25, 0.0, 0.375};
    fenpiling_cell cell[2] = {{0, 1, 0}, {1, 1, 0}};

    fenpiling_arena arena = {CAPACITY, fenpiling_fresh(CAPACITY, TABLES).slots};
    fenpiling_made barred = enter(arena, FENPILING_EMPTY, bar);
    arena.slots = barred.slots;
    HOLDS(barred.no == FENPILING_ACCEPTED && FENPILING_LIVE(arena) == 2);
    HOLDS(fenpiling_get_at_depth(arena, TABLES, barred.id, 1, cell[0]).value == 7);
    HOLDS(fenpiling_get_at_depth(arena, TABLES, barred.id, 1, cell[1]).value == 7);
    fenpiling_made shown = enter(arena, barred.id, shot);
    arena.slots = shown.slots;
    HOLDS(shown.no == FENPILING_ACCEPTED && FENPILING_LIVE(arena) == 4);
    HOLDS(fenpiling_get_at_depth(arena, TABLES, shown.id, 1, cell[0]).value == 7);
    HOLDS(fenpiling_get_at_depth(arena, TABLES, shown.id, 1, cell[1]).value == 9);
    fenpiling_made paused = enter(arena, shown.id, pause);
    HOLDS(paused.no == FENPILING_ACCEPTED && paused.id == shown.id && paused.slots == arena.slots);
    HOLDS(fenpiling_counts(arena, TABLES, shown.id).holds == 2);

    record outside = shot;
    outside.z = 0.5;
    HOLDS(enter(arena, shown.id, outside).no == FENPILING_POSITION && enter(arena, FENPILING_INVALID, shot).no == FENPILING_NOT_LIVE);
    HOLDS(fenpiling_enter_reading(arena, TABLES, shown.id, 1, FENPILING_MAX_EDGE + 1, NULL, 0).no == FENPILING_DEPTH);
    HOLDS(fenpiling_enter_reading(arena, TABLES, shown.id, 1, FENPILING_MAX_EDGE, NULL, 0).no == FENPILING_RECORD);

    /* Two slots are left: enough for the first cell of another bar, and not for the second. The state moves, and what is live stays. */
    for (uint16_t value = 100; FENPILING_LIVE(arena) < CAPACITY - 3; value++)
        arena.slots = fenpiling_intern_leaf(arena, TABLES, value).slots;
    HOLDS(arena.slots == slots(CAPACITY - 2, 0));
    record another = bar;
    another.value = 8;
    fenpiling_made refused = enter(arena, shown.id, another);
    HOLDS(refused.no == FENPILING_FULL && refused.id == FENPILING_INVALID && refused.slots == slots(CAPACITY, 2));
    arena.slots = refused.slots;
    HOLDS(FENPILING_LIVE(arena) == CAPACITY - 3);
    HOLDS(fenpiling_counts(arena, TABLES, shown.id).holds == 2 && fenpiling_check(arena, TABLES));
}

#define LIST 4

static uint32_t codes[LIST];
static uint16_t lefts[LIST], rights[LIST];

/* Fills the list with numbers that no comparison here writes. */
static void fill_list(void)
{
    for (size_t i = 0; i < LIST; i++) {
        codes[i] = UINT32_C(1000000) + (uint32_t)i;
        lefts[i] = (uint16_t)(2000 + i);
        rights[i] = (uint16_t)(3000 + i);
    }
}

/* Is the list as it was filled, from this place on? */
static int is_filled_from(size_t place)
{
    int filled = 1;
    for (size_t i = place; i < LIST; i++)
        filled &= codes[i] == UINT32_C(1000000) + i && lefts[i] == 2000 + i && rights[i] == 3000 + i;
    return filled;
}

/* Compares with so many places of a list just filled. */
static fenpiling_compared compare(fenpiling_arena arena, uint64_t left, uint64_t right, uint32_t depth, size_t places)
{
    fill_list();
    return fenpiling_compare(arena, TABLES, left, right, depth, codes, places, lefts, places, rights, places);
}

static int is_refused(fenpiling_compared compared, uint32_t no)
{
    return compared.no == no && compared.count == 0 && compared.opened == 0 && is_filled_from(0);
}

static void comparisons(void)
{
    const fenpiling_cell cell[3] = {{1, 0, 0}, {0, 1, 0}, {3, 2, 1}}; /* their codes are 1, 2 and 29 */
    fenpiling_arena arena = {CAPACITY, fenpiling_fresh(CAPACITY, TABLES).slots};
    fenpiling_made first = fenpiling_set_voxel(arena, TABLES, FENPILING_EMPTY, 2, cell[0], 5);
    arena.slots = first.slots;
    fenpiling_made october = fenpiling_set_voxel(arena, TABLES, first.id, 2, cell[1], 5);
    arena.slots = october.slots;
    fenpiling_made second = fenpiling_set_voxel(arena, TABLES, october.id, 2, cell[0], 9);
    arena.slots = second.slots;
    fenpiling_made november = fenpiling_set_voxel(arena, TABLES, second.id, 2, cell[2], 7);
    arena.slots = november.slots;
    HOLDS(first.no + october.no + second.no + november.no == FENPILING_ACCEPTED);

    /* one place too few, just enough, and more */
    HOLDS(is_refused(compare(arena, october.id, november.id, 2, 1), FENPILING_SHORT_LIST));
    for (size_t places = 2; places <= LIST; places++) {
        fenpiling_compared compared = compare(arena, october.id, november.id, 2, places);
        HOLDS(compared.no == FENPILING_ACCEPTED && compared.count == 2 && compared.opened == 3);
        HOLDS(codes[0] == 1 && lefts[0] == 5 && rights[0] == 9);
        HOLDS(codes[1] == 29 && lefts[1] == 0 && rights[1] == 7);
        HOLDS(is_filled_from(2));
    }
    fenpiling_compared back = compare(arena, november.id, october.id, 2, 2);
    HOLDS(back.no == FENPILING_ACCEPTED && back.count == 2 && back.opened == 3);
    HOLDS(codes[0] == 1 && lefts[0] == 9 && rights[0] == 5 && codes[1] == 29 && lefts[1] == 7 && rights[1] == 0);
    fenpiling_compared same = compare(arena, october.id, october.id, 2, 0);
    HOLDS(same.no == FENPILING_ACCEPTED && same.count == 0 && same.opened == 0);
    same = fenpiling_compare(arena, TABLES, FENPILING_EMPTY, FENPILING_EMPTY, 6, NULL, 0, NULL, 0, NULL, 0);
    HOLDS(same.no == FENPILING_ACCEPTED && same.count == 0 && same.opened == 0);
    HOLDS(compare(arena, FENPILING_EMPTY, october.id, 6, 2).no == FENPILING_SHORT_LIST);

    fill_list();
    HOLDS(is_refused(fenpiling_compare(arena, TABLES, 1, 1, 7, codes, 3, lefts, 2, rights, 3), FENPILING_SIZE));
    HOLDS(is_refused(fenpiling_compare(arena, TABLES, 1, 1, 7, codes, 3, lefts, 3, rights, 4), FENPILING_SIZE));
    HOLDS(is_refused(compare(arena, 1, 1, 7, LIST), FENPILING_DEPTH));
    HOLDS(is_refused(compare(arena, october.id, FENPILING_INVALID, 1, LIST), FENPILING_NOT_LIVE));
    HOLDS(is_refused(compare(arena, FENPILING_INVALID, october.id, 1, LIST), FENPILING_NOT_LIVE));
    HOLDS(is_refused(compare(arena, october.id, FENPILING_EMPTY, 1, 0), FENPILING_TALL));
    HOLDS(is_refused(compare(arena, FENPILING_EMPTY, october.id, 1, 0), FENPILING_TALL));
    HOLDS(fenpiling_check(arena, TABLES));
}

int main(void)
{
    ids();
    paths();
    arenas();
    records();
    readings();
    comparisons();
    return failures == 0 ? 0 : 1;
}
