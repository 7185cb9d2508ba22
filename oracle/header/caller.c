/* A caller, in C and in C++: a line of 40 cells, a wave, one step; then two numbers put by hand, the readings, a save and the way back. */
#include <inttypes.h>
#include <stdio.h>

#include "cichowiej.h"

#define CELLS 40
#define DOUBLES 2000
#define SAVE 20000

static cichowiej_study study;
static double doubles[DOUBLES];
static uint32_t ids[CELLS];
static uint8_t saved[SAVE];

static void show(const char *name, uint32_t refusal, double x)
{
    uint64_t bits;
    memcpy(&bits, &x, sizeof bits);
    printf("%s: refusal %" PRIu32 ", %016" PRIX64 "\n", name, refusal, bits);
}

static void step_a_wave(void)
{
    const cichowiej_lengths lengths = cichowiej_store_lengths(1, 1, CELLS, 0);
    size_t at, others = 0;
    if (cichowiej_doubles(lengths) > DOUBLES || lengths.ids > CELLS)
        return;
    study.stores = cichowiej_stores_in(lengths, doubles, ids);
    printf("open: refusal %" PRIu32 "\n", cichowiej_study_open(&study, 1, 1, CELLS, 0, CICHOWIEJ_CONSTANTS_OLD, 1.0, 1.0, 1.0, 1.0));
    printf("slab: refusal %" PRIu32 "\n", cichowiej_study_slab_z(&study, 10, 30));
    printf("step: refusal %" PRIu32 "\n", cichowiej_study_step(&study, 3.0));
    for (at = 0; at < lengths.aux; at++) {
        uint64_t bits;
        memcpy(&bits, &study.stores.aux[at], sizeof bits);
        if (at != CICHOWIEJ_LINE_SOURCE && bits != 0)
            others++;
    }
    show("line at 6", 0, study.stores.aux[CICHOWIEJ_LINE_SOURCE]);
    printf("others that are not +0.0: %zu\n", others);
    show("time", cichowiej_block_steps(study.block), cichowiej_block_time(study.block));
}

static void read_fields(void)
{
    double reading, energy;
    uint32_t refusal;
    study.stores.e[CICHOWIEJ_PART_X * CELLS + cichowiej_cell(1, 1, 0, 0, 5)] = 2.0;
    study.stores.h[CICHOWIEJ_PART_Y * CELLS + cichowiej_cell(1, 1, 0, 0, 5)] = 3.0;
    refusal = cichowiej_study_plane_reading(&study, 5, &reading);
    show("plane 5", refusal, reading);
    refusal = cichowiej_study_plane_reading(&study, 40, &reading);
    show("plane 40", refusal, reading);
    refusal = cichowiej_study_total_energy(&study, &energy);
    show("energy", refusal, energy);
}

static void save_and_rewind(void)
{
    size_t length;
    uint32_t refusal = cichowiej_study_save_length(&study, &length);
    printf("save length: refusal %" PRIu32 ", %zu\n", refusal, length);
    if (length > SAVE)
        return;
    refusal = cichowiej_study_save(&study, saved, length);
    printf("save: refusal %" PRIu32 ", %.2s\n", refusal, (const char *)saved);
    printf("save, no room: refusal %" PRIu32 "\n", cichowiej_study_save(&study, saved, length - 1));
    study.stores.e[5] = 0.0;
    refusal = cichowiej_study_rewind(&study, saved, length - 1);
    show("rewind, short", refusal, study.stores.e[5]);
    refusal = cichowiej_study_rewind(&study, saved, length);
    show("rewind", refusal, study.stores.e[5]);
}

int main(void)
{
    step_a_wave();
    read_fields();
    save_and_rewind();
    return 0;
}
