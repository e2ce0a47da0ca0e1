/* Month-end envelopes of a ground model: the root of a month is held, digging goes on, and the old root reads as before. At the next month's end the two are
 * compared: the planner pays by the cells that have changed. */
#include <fenpiling.h>

#include <inttypes.h>
#include <stdio.h>
#include <stdlib.h>

#define CAPACITY 512
#define DEPTH 6
#define EDGE 2 /* cells of 2^-2 metres */
#define CLAY 5
#define CHANGES 100 /* the most cells of a month that are listed */
#define ROCK 9

/* One arena: its state and the tables that are lent to each call. What a call answers as slots goes into the state at once, whether it is refused or not. */
static fenpiling_arena arena = {CAPACITY, 0};
static uint64_t kids[FENPILING_KIDS_LENGTH(CAPACITY)];
static uint32_t facts[FENPILING_FACTS_LENGTH(CAPACITY)];
static uint16_t find[FENPILING_FIND_LENGTH(CAPACITY)];
static uint16_t cube[FENPILING_CUBE_LENGTH(DEPTH)];
static uint32_t codes[CHANGES];
static uint16_t before[CHANGES], after[CHANGES];

#define TABLES kids, FENPILING_KIDS_LENGTH(CAPACITY), facts, FENPILING_FACTS_LENGTH(CAPACITY), find, FENPILING_FIND_LENGTH(CAPACITY)

/* Ends the program where a call was refused. */
static void accept(uint32_t no, const char *call)
{
    if (no != FENPILING_ACCEPTED) {
        printf("%s refused with %" PRIu32 "\n", call, no);
        exit(1);
    }
}

static void hold(uint64_t root)
{
    fenpiling_answer answer = fenpiling_hold(arena, TABLES, root);
    arena.slots = answer.slots;
    accept(answer.no, "hold");
}

static void release(uint64_t root)
{
    fenpiling_answer answer = fenpiling_release(arena, TABLES, root);
    arena.slots = answer.slots;
    accept(answer.no, "release");
}

/* The model with one cell changed. The old root's hold is given back, so that a model that nobody else holds goes. */
static uint64_t set(uint64_t root, int32_t x, int32_t y, int32_t z, uint16_t value)
{
    fenpiling_cell cell = {x, y, z};
    fenpiling_made made = fenpiling_set_voxel(arena, TABLES, root, DEPTH, cell, value);
    arena.slots = made.slots;
    accept(made.no, "edit");
    release(root);
    return made.id;
}

/* A record of the surveyor's instrument, as it lies in the memory of this machine, which has the low byte first. */
typedef struct record {
    uint32_t kind;
    uint16_t value;
    uint16_t zero;
    double x, y, z, second_x;
} record;

/* The model with a reading entered. Where a bar is refused on its way, the slots have moved too. */
static uint64_t enter(uint64_t root, record reading)
{
    fenpiling_made made = fenpiling_enter_reading(arena, TABLES, root, DEPTH, EDGE, (const uint8_t *)&reading, sizeof reading);
    arena.slots = made.slots;
    accept(made.no, "reading");
    release(root);
    return made.id;
}

static uint16_t value_at(uint64_t root, int32_t x, int32_t y, int32_t z)
{
    fenpiling_cell cell = {x, y, z};
    fenpiling_looked looked = fenpiling_get_at_depth(arena, TABLES, root, DEPTH, cell);
    accept(looked.no, "lookup");
    return looked.value;
}

/* How many cells of the model have the value. */
static size_t cells_of(uint64_t root, uint16_t value)
{
    size_t count = 0;
    accept(fenpiling_to_vec(arena, TABLES, root, DEPTH, cube, FENPILING_CUBE_LENGTH(DEPTH)), "expansion");
    for (size_t i = 0; i < FENPILING_CUBE_LENGTH(DEPTH); i++)
        count += cube[i] == value;
    return count;
}

static void show(const char *name, uint64_t root)
{
    fenpiling_id_text text = fenpiling_text(root);
    fenpiling_counted counts = fenpiling_counts(arena, TABLES, root);
    accept(counts.no, "counts");
    printf("%-8s %.*s, holds %" PRIu64 ", clay %zu, rock %zu\n", name, (int)text.length, text.bytes, counts.holds,
           cells_of(root, CLAY), cells_of(root, ROCK));
}

/* Lists the cells in which a later model differs from an earlier one. */
static void show_changes(uint64_t earlier, uint64_t later)
{
    fenpiling_compared compared =
        fenpiling_compare(arena, TABLES, earlier, later, DEPTH, codes, CHANGES, before, CHANGES, after, CHANGES);
    accept(compared.no, "comparison");
    printf("%" PRIu32 " cells have changed, %" PRIu32 " pairs opened\n", compared.count, compared.opened);
    for (uint32_t i = 0; i < compared.count; i++) {
        fenpiling_decoded cell = fenpiling_decode_child_index_path(codes[i]);
        printf("  (%d, %d, %d): %u, now %u\n", (int)cell.x, (int)cell.y, (int)cell.z, (unsigned)before[i], (unsigned)after[i]);
    }
}

int main(void)
{
    fenpiling_answer fresh = fenpiling_fresh(CAPACITY, TABLES);
    arena.slots = fresh.slots;
    accept(fresh.no, "fresh arena");

    /* October: a block of clay of 4 by 4 by 4 cells, with one cell of rock. */
    uint64_t model = FENPILING_EMPTY;
    for (int32_t x = 0; x < 4; x++)
        for (int32_t y = 0; y < 4; y++)
            for (int32_t z = 0; z < 4; z++)
                model = set(model, x, y, z, CLAY);
    model = set(model, 1, 2, 3, ROCK);

    /* The month-end envelope is a root with a hold of its own. */
    uint64_t october = model;
    hold(october);
    show("October", october);

    /* November: the rock is dug out, and more is found. */
    model = set(model, 1, 2, 3, 0);
    model = set(model, 40, 50, 60, ROCK);
    model = set(model, 41, 50, 60, ROCK);
    show("November", model);
    show("October", october);
    printf("cell (1, 2, 3): %u in October, %u now\n", (unsigned)value_at(october, 1, 2, 3), (unsigned)value_at(model, 1, 2, 3));
    show_changes(october, model);

    /* A cell outside the cube is refused, and nothing changes. */
    fenpiling_cell outside = {64, 0, 0};
    fenpiling_made refused = fenpiling_set_voxel(arena, TABLES, model, DEPTH, outside, ROCK);
    arena.slots = refused.slots;
    printf("cell (64, 0, 0): refusal %" PRIu32 ", %zu nodes live\n", refused.no, FENPILING_LIVE(arena));

    /* December: the instrument reads a seam of rock from x = 5 metres to 7.4, and every cell on its way is rock. */
    record seam = {FENPILING_BAR, ROCK, 0, 5.0, 3.1, 7.6, 7.4};
    model = enter(model, seam);
    show("December", model);

    printf("well formed: %s\n", fenpiling_check(arena, TABLES) ? "yes" : "no");

    /* With its last hold October goes, and its id is refused. */
    release(october);
    printf("October released: %zu nodes live, its id refused with %" PRIu32 "\n", FENPILING_LIVE(arena),
           fenpiling_counts(arena, TABLES, october).no);
    release(model);
    printf("December released: %zu nodes live, well formed: %s\n", FENPILING_LIVE(arena), fenpiling_check(arena, TABLES) ? "yes" : "no");
    return 0;
}
