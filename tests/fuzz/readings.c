/*
 * Readings from bytes, held to floats, to single edits and to a plain cube: a fuzz target for libFuzzer.
 *
 * The bytes are records of the surveyor's instrument, 40 bytes each; a cut last one is taken as it is. Each is read and entered at depth 6 in an arena of 512
 * slots, from EMPTY, with the old root released after each that is accepted; the edge is 2^-0 metres for the first record, 2^-1 for the second, and so on to 2^-7,
 * which is refused, and round again. On a copy of the tables single calls do what the record asks for by a reading of it in floats. After each record answer,
 * state and every byte of the tables have to be the same; every few the arena is checked, at the end the whole expansion is compared with a plain cube,
 * and everything released.
 */
#include "shared.h"

#include <math.h>

#define RECORD FENPILING_RECORD_LENGTH
#define EDGES (FENPILING_MAX_EDGE + 2)

static uint64_t bits_of(double number)
{
    uint64_t bits;
    memcpy(&bits, &number, sizeof bits);
    return bits;
}

/* What a record says, by floats. */
static fenpiling_reading read_record(const uint8_t *record, size_t length)
{
    const fenpiling_reading nothing = {0, 0, 0, 0.0, 0.0, 0.0, 0.0};
    fenpiling_reading said = nothing, refused = nothing;
    refused.no = FENPILING_RECORD;
    if (length != RECORD || record[6] != 0 || record[7] != 0)
        return refused;
    memcpy(&said.kind, record, sizeof said.kind);
    memcpy(&said.value, record + 4, sizeof said.value);
    memcpy(&said.x, record + 8, sizeof said.x);
    memcpy(&said.y, record + 16, sizeof said.y);
    memcpy(&said.z, record + 24, sizeof said.z);
    memcpy(&said.second_x, record + 32, sizeof said.second_x);
    int unused = 0; /* from this byte on */
    switch (said.kind) {
    case FENPILING_PAUSE: unused = 4; break;
    case FENPILING_SHOT: unused = 32; break;
    case FENPILING_BAR: unused = RECORD; break;
    default: return refused;
    }
    for (int i = unused; i < RECORD; i++)
        if (record[i] != 0)
            return refused;
    if (said.kind == FENPILING_BAR && said.second_x < said.x)
        return refused;
    refused.no = FENPILING_NOT_FINITE;
    if (!isfinite(said.x) || !isfinite(said.y) || !isfinite(said.z) || !isfinite(said.second_x))
        return refused;
    return said;
}

static int same_reading(fenpiling_reading a, fenpiling_reading b)
{
    return a.no == b.no && a.kind == b.kind && a.value == b.value && bits_of(a.x) == bits_of(b.x) && bits_of(a.y) == bits_of(b.y) &&
           bits_of(a.z) == bits_of(b.z) && bits_of(a.second_x) == bits_of(b.second_x);
}

/* The cell of a number, or -1. */
static int32_t cell_of(double number, uint32_t k)
{
    double cell = floor(ldexp(number, (int)k));
    return cell >= 0 && cell < SIDE ? (int32_t)cell : -1;
}

/* The cells that a reading edits: none if it is refused before the first edit. */
typedef struct row {
    int32_t first, last, y, z;
} row;

static const row no_row = {0, -1, 0, 0};

static row row_of(fenpiling_reading said, uint32_t k)
{
    double last = said.kind == FENPILING_BAR ? said.second_x : said.x;
    row cells = {cell_of(said.x, k), cell_of(last, k), cell_of(said.y, k), cell_of(said.z, k)};
    return cells.first < 0 || cells.last < 0 || cells.y < 0 || cells.z < 0 ? no_row : cells;
}

/* The record entered by single calls on the copied tables. */
static fenpiling_made by_single_calls(fenpiling_arena arena, uint64_t root, uint32_t k, fenpiling_reading said, row *cells)
{
    fenpiling_made made = {0, FENPILING_INVALID, arena.slots};
    *cells = no_row;
    made.no = k > FENPILING_MAX_EDGE ? FENPILING_DEPTH : said.no;
    if (made.no != FENPILING_ACCEPTED)
        return made;
    made.id = root;
    if (said.kind == FENPILING_PAUSE) {
        fenpiling_answer held = fenpiling_hold(arena, LEND(copy), root);
        demand(held.no == FENPILING_ACCEPTED, "the root can be held");
        made.slots = held.slots;
        return made;
    }
    *cells = row_of(said, k);
    if (cells->last < cells->first) {
        made.no = FENPILING_POSITION;
        made.id = FENPILING_INVALID;
    }
    for (int32_t x = cells->first; made.no == FENPILING_ACCEPTED && x <= cells->last; x++) {
        fenpiling_cell cell = {x, cells->y, cells->z};
        uint64_t passing = made.id;
        made = fenpiling_set_voxel(arena, LEND(copy), passing, DEPTH, cell, said.value);
        arena.slots = made.slots;
        if (x > cells->first) {
            fenpiling_answer released = fenpiling_release(arena, LEND(copy), passing);
            demand(released.no == FENPILING_ACCEPTED, "a passing root can be released");
            arena.slots = made.slots = released.slots;
        }
    }
    return made;
}

/* Sets the cells of the plain cube, or sees that they read as there. */
static void set_row(row cells, uint16_t value)
{
    for (int32_t x = cells.first; x <= cells.last; x++)
        plain[FENPILING_CUBE_INDEX(DEPTH, x, cells.y, cells.z)] = value;
}

static void demand_row(fenpiling_arena arena, uint64_t root, row cells)
{
    for (int32_t x = cells.first; x <= cells.last; x++) {
        fenpiling_cell cell = {x, cells.y, cells.z};
        fenpiling_looked looked = fenpiling_get_at_depth(arena, TABLES, root, DEPTH, cell);
        demand(looked.no == FENPILING_ACCEPTED && looked.value == plain[FENPILING_CUBE_INDEX(DEPTH, x, cells.y, cells.z)],
               "a cell of the reading reads as in the plain cube");
    }
}

static void play(const uint8_t *data, size_t size)
{
    fenpiling_arena arena = fresh_arena();
    uint64_t root = FENPILING_EMPTY;
    size_t records = (size + RECORD - 1) / RECORD;

    for (size_t i = 0; i < records; i++) {
        const uint8_t *record = data + RECORD * i;
        size_t left = size - RECORD * i, length = left < RECORD ? left : RECORD;
        uint32_t k = (uint32_t)(i % EDGES);
        fenpiling_reading said = fenpiling_parse_reading(record, length);
        demand(same_reading(said, read_record(record, length)), "a record says what floats make of it");
        demand(left <= RECORD || fenpiling_parse_reading(record, left).no == FENPILING_RECORD, "what is longer is no record");

        row cells;
        keep();
        fenpiling_made made = fenpiling_enter_reading(arena, TABLES, root, DEPTH, k, record, length);
        demand_canaries();
        fenpiling_made expected = by_single_calls(arena, root, k, said, &cells);
        demand(made.no == expected.no && made.id == expected.id, "the answer is that of single calls");
        demand(made.slots == expected.slots && kept(), "state and tables are those of single calls");
        size_t live = FENPILING_LIVE(arena);
        arena.slots = made.slots;
        demand(made.no == FENPILING_ACCEPTED || FENPILING_LIVE(arena) == live, "a refusal leaves as many nodes live");
        if (made.no == FENPILING_ACCEPTED) {
            set_row(cells, said.value);
            fenpiling_answer released = fenpiling_release(arena, TABLES, root);
            demand(released.no == FENPILING_ACCEPTED, "the old root can be released");
            arena.slots = released.slots;
            root = made.id;
        }
        demand_row(arena, root, cells);
        if (i % CHECKED == 0 || i + 1 == records)
            demand_well_formed(arena);
        feed_back(made.no, root, arena);
    }

    finish(arena, root);
    for (size_t i = 0; i < records; i++) {
        size_t left = size - RECORD * i;
        fenpiling_reading said = read_record(data + RECORD * i, left < RECORD ? left : RECORD);
        if (said.no == FENPILING_ACCEPTED && said.kind != FENPILING_PAUSE && i % EDGES <= FENPILING_MAX_EDGE)
            set_row(row_of(said, (uint32_t)(i % EDGES)), 0);
    }
}

int LLVMFuzzerTestOneInput(const uint8_t *data, size_t size)
{
    play(data, size);
    return 0;
}

/* Makes a number lie in the cube: its low bytes say in which cell and where. */
static void put_inside(uint8_t *at, uint32_t k)
{
    double number = ldexp((at[0] % SIDE) + (at[1] % 4) / 4.0, -(int)k);
    memcpy(at, &number, sizeof number);
}

/* Changes the bytes as libFuzzer does. Then most inputs get records of known kinds with numbers inside the cube, since few others would have any, and some few
 * values, so that leaves and octants meet their like. */
size_t LLVMFuzzerCustomMutator(uint8_t *data, size_t size, size_t max_size, unsigned seed)
{
    size = LLVMFuzzerMutate(data, size, max_size);
    for (size_t i = 0; i + RECORD <= size; i += RECORD) {
        uint8_t *record = data + i;
        uint32_t k = (uint32_t)(i / RECORD % EDGES);
        unsigned change = seed % 16 + (unsigned)(i / RECORD);
        if (change % 8 == 0)
            continue;
        record[0] %= 3;
        memset(record + 1, 0, 3);
        memset(record + 6, 0, 2);
        if (seed % 3 == 0) {
            record[4] %= 4;
            record[5] = 0;
        }
        if (record[0] == FENPILING_PAUSE)
            memset(record + 4, 0, RECORD - 4);
        for (size_t number = 8; record[0] != FENPILING_PAUSE && change % 8 != 1 && number < RECORD; number += 8)
            if (number < 32 || record[0] == FENPILING_BAR)
                put_inside(record + number, k);
            else
                memset(record + number, 0, 8);
    }
    return size;
}
