/*
 * Edits from bytes, held to a plain cube: a fuzz target for libFuzzer, and a teller for single files.
 *
 * The bytes are the records of the program `edits`: x, y, z and value, each u16, low byte first. Each record is an edit at depth 6 in an arena of
 * 512 slots, from EMPTY, with the old root released after each accepted edit. The tables lie between canaries. After each record the cell is looked up
 * and every few the arena is checked; at the end the whole expansion is compared, and everything released.
 *
 * Compiled with -DTELL it is a program that prints, of the file named, what the program `edits` has to print.
 */
#include "shared.h"

#define RECORD 8

/* An edit makes at most so many nodes: one at each level. */
#define PATH (DEPTH + 1)

static unsigned u16_at(const uint8_t *data)
{
    return data[0] | (unsigned)data[1] << 8;
}

/* Plays the records, and prints what the program prints if `told` is there. */
static void play(const uint8_t *data, size_t size, FILE *told)
{
    fenpiling_arena arena = fresh_arena();
    uint64_t root = FENPILING_EMPTY;
    size_t records = size / RECORD;

    for (size_t i = 0; i < records; i++) {
        const uint8_t *record = data + RECORD * i;
        unsigned x = u16_at(record), y = u16_at(record + 2), z = u16_at(record + 4), value = u16_at(record + 6);
        fenpiling_cell cell = {(int32_t)x, (int32_t)y, (int32_t)z};
        int inside = x < SIDE && y < SIDE && z < SIDE;
        size_t at = inside ? FENPILING_CUBE_INDEX(DEPTH, x, y, z) : 0;

        keep();
        fenpiling_made made = fenpiling_set_voxel(arena, TABLES, root, DEPTH, cell, (uint16_t)value);
        demand_canaries();
        demand((made.no == FENPILING_POSITION) == !inside, "3 exactly for a cell outside the cube");
        if (made.no == FENPILING_ACCEPTED) {
            if (plain[at] == value)
                demand(made.id == root, "a cell that has the value already leaves the root");
            plain[at] = (uint16_t)value;
            arena.slots = made.slots;
            fenpiling_answer answer = fenpiling_release(arena, TABLES, root);
            demand(answer.no == FENPILING_ACCEPTED, "the old root can be released");
            arena.slots = answer.slots;
            root = made.id;
        } else {
            demand(made.no == FENPILING_POSITION || made.no == FENPILING_FULL, "an edit of a held root is refused with 3 or 11 alone");
            demand(made.no == FENPILING_POSITION || CAPACITY - 1 - FENPILING_LIVE(arena) < PATH, "11 only where a path may not fit");
            demand(made.id == FENPILING_INVALID && made.slots == arena.slots && kept(), "a refusal changes nothing");
        }
        demand_canaries();
        if (inside) {
            fenpiling_looked looked = fenpiling_get_at_depth(arena, TABLES, root, DEPTH, cell);
            demand(looked.no == FENPILING_ACCEPTED && looked.value == plain[at], "the cell reads as in the plain cube");
        }
        if (i % CHECKED == 0 || i + 1 == records)
            demand_well_formed(arena);
        feed_back(made.no, root, arena);
        if (told) {
            fenpiling_id_text text = fenpiling_text(root);
            fprintf(told, "%zu %" PRIu32 " %.*s\n", i + 1, made.no, (int)text.length, text.bytes);
        }
    }
    if (told) {
        if (size % RECORD != 0)
            fprintf(told, "short %zu\n", size % RECORD);
        fprintf(told, "live %zu\n", FENPILING_LIVE(arena));
    }

    finish(arena, root);
    for (size_t i = 0; i < records; i++) {
        const uint8_t *record = data + RECORD * i;
        unsigned x = u16_at(record), y = u16_at(record + 2), z = u16_at(record + 4);
        if (x < SIDE && y < SIDE && z < SIDE)
            plain[FENPILING_CUBE_INDEX(DEPTH, x, y, z)] = 0;
    }
}

#ifdef TELL

int main(int count, char **words)
{
    static uint8_t data[1 << 20];
    FILE *file = count == 2 ? fopen(words[1], "rb") : NULL;
    if (!file) {
        fprintf(stderr, "usage: tell FILE\n");
        return 2;
    }
    size_t size = fread(data, 1, sizeof data, file);
    fclose(file);
    play(data, size, stdout);
    return 0;
}

#else

int LLVMFuzzerTestOneInput(const uint8_t *data, size_t size)
{
    play(data, size, NULL);
    return 0;
}

/* Changes the bytes as libFuzzer does. Then most inputs get cells inside the cube, since few others would have any, and some few values, so that leaves
 * and octants meet their like. */
size_t LLVMFuzzerCustomMutator(uint8_t *data, size_t size, size_t max_size, unsigned seed)
{
    size = LLVMFuzzerMutate(data, size, max_size);
    for (size_t i = 0; i + RECORD <= size; i += RECORD) {
        for (size_t axis = i; seed % 8 != 0 && axis < i + 6; axis += 2) {
            data[axis] %= SIDE;
            data[axis + 1] = 0;
        }
        if (seed % 3 == 0) {
            data[i + 6] %= 4;
            data[i + 7] = 0;
        }
    }
    return size;
}

#endif
