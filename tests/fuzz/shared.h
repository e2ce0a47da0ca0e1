/*
 * What the fuzz targets share: an arena of 512 slots between canaries and a copy of its tables, a plain cube of depth 6, and what is fed back to libFuzzer.
 *
 * The library comes compiled from its prover, so that its code has no coverage instrumentation: only the targets have. What the library does is fed back
 * as counters of what it answers: numbers, live nodes, slots given out and freed, masks of roots.
 */
#include <fenpiling.h>

#include <inttypes.h>
#include <stdio.h>
#include <stdlib.h>
#include <string.h>

#define CAPACITY 512
#define DEPTH 6
#define SIDE 64

/* The arena is checked after the first of so many records, and after the last. */
#define CHECKED 8

#define CANARIES 64
#define CANARY 0xA5

static struct {
    unsigned char before_kids[CANARIES];
    uint64_t kids[FENPILING_KIDS_LENGTH(CAPACITY)];
    unsigned char before_facts[CANARIES];
    uint32_t facts[FENPILING_FACTS_LENGTH(CAPACITY)];
    unsigned char before_find[CANARIES];
    uint16_t find[FENPILING_FIND_LENGTH(CAPACITY)];
    unsigned char before_cube[CANARIES];
    uint16_t cube[FENPILING_CUBE_LENGTH(DEPTH)];
    unsigned char after_cube[CANARIES];
} lent, copy;

#define LEND(tables) \
    tables.kids, FENPILING_KIDS_LENGTH(CAPACITY), tables.facts, FENPILING_FACTS_LENGTH(CAPACITY), tables.find, FENPILING_FIND_LENGTH(CAPACITY)
#define TABLES LEND(lent)

/* The cube as a plain array; all 0 between inputs. */
static uint16_t plain[FENPILING_CUBE_LENGTH(DEPTH)];

/* libFuzzer reads this section as coverage. */
enum { NUMBERS = 16, MASKS = 256, COUNTERS = NUMBERS + MASKS + 3 * CAPACITY };
__attribute__((used, section("__libfuzzer_extra_counters"))) static unsigned char counters[COUNTERS];

static void feed_back(uint32_t no, uint64_t root, fenpiling_arena arena)
{
    unsigned char *counter = counters;
    counter[no % NUMBERS]++;
    counter += NUMBERS;
    counter[fenpiling_mask(root)] = 1;
    counter += MASKS;
    counter[FENPILING_LIVE(arena) % CAPACITY] = 1;
    counter += CAPACITY;
    counter[(uint32_t)arena.slots % CAPACITY] = 1;
    counter += CAPACITY;
    counter[(arena.slots >> 32) % CAPACITY] = 1;
}

static void demand(int holds, const char *what)
{
    if (!holds) {
        fprintf(stderr, "not so: %s\n", what);
        abort();
    }
}

static int canaries_live(const unsigned char *canaries)
{
    int live = 1;
    for (int i = 0; i < CANARIES; i++)
        live &= canaries[i] == CANARY;
    return live;
}

static void demand_canaries(void)
{
    demand(canaries_live(lent.before_kids) && canaries_live(lent.before_facts) && canaries_live(lent.before_find) &&
               canaries_live(lent.before_cube) && canaries_live(lent.after_cube),
           "nothing is written outside what is lent");
}

/* Keeps the arena's tables, to compare. */
static void keep(void)
{
    memcpy(copy.kids, lent.kids, sizeof lent.kids);
    memcpy(copy.facts, lent.facts, sizeof lent.facts);
    memcpy(copy.find, lent.find, sizeof lent.find);
}

static int kept(void)
{
    return memcmp(copy.kids, lent.kids, sizeof lent.kids) == 0 && memcmp(copy.facts, lent.facts, sizeof lent.facts) == 0 &&
           memcmp(copy.find, lent.find, sizeof lent.find) == 0;
}

/* A fresh arena over tables full of canaries. */
static fenpiling_arena fresh_arena(void)
{
    memset(&lent, CANARY, sizeof lent);
    fenpiling_answer answer = fenpiling_fresh(CAPACITY, TABLES);
    demand(answer.no == FENPILING_ACCEPTED, "a fresh arena is accepted");
    fenpiling_arena arena = {CAPACITY, answer.slots};
    return arena;
}

static void demand_well_formed(fenpiling_arena arena)
{
    keep();
    demand(fenpiling_check(arena, TABLES), "the arena is well formed");
    demand(kept(), "the check changes nothing");
}

/* Expands the root, compares the cube, and releases all. */
static inline void finish(fenpiling_arena arena, uint64_t root)
{
    demand(fenpiling_to_vec(arena, TABLES, root, DEPTH, lent.cube, FENPILING_CUBE_LENGTH(DEPTH)) == FENPILING_ACCEPTED,
           "the expansion is accepted");
    demand_canaries();
    demand(memcmp(lent.cube, plain, sizeof plain) == 0, "the expansion is the plain cube");
    fenpiling_answer answer = fenpiling_release(arena, TABLES, root);
    arena.slots = answer.slots;
    demand(answer.no == FENPILING_ACCEPTED && FENPILING_LIVE(arena) == 0, "nothing is live when the last root is released");
    demand(fenpiling_check(arena, TABLES), "the emptied arena is well formed");
}

#ifndef TELL
int LLVMFuzzerTestOneInput(const uint8_t *data, size_t size);
size_t LLVMFuzzerCustomMutator(uint8_t *data, size_t size, size_t max_size, unsigned seed);
size_t LLVMFuzzerMutate(uint8_t *data, size_t size, size_t max_size);
#endif
