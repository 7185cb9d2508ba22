/* What a study may have at the most: the engine takes just that, and the header's own judge of sizes says the same. */
#include "check.h"

/* an opening without stores: sizes and slots that are taken come as far as BAD_STORE */
static uint32_t opened(size_t nx, size_t ny, size_t nz, size_t pole_slots)
{
    static cichowiej_study study;
    return cichowiej_study_open(&study, nx, ny, nz, pole_slots, CICHOWIEJ_CONSTANTS_OLD, 1.0, 1.0, 1.0, 1.0);
}

static void sides(void)
{
    const size_t most = CICHOWIEJ_MAX_SIDE;
    CHECK(opened(most, 1, 1, 0) == CICHOWIEJ_BAD_STORE && opened(most + 1, 1, 1, 0) == CICHOWIEJ_BAD_SIZE);
    CHECK(opened(1, most, 1, 0) == CICHOWIEJ_BAD_STORE && opened(1, most + 1, 1, 0) == CICHOWIEJ_BAD_SIZE);
    CHECK(opened(1, 1, most, 0) == CICHOWIEJ_BAD_STORE && opened(1, 1, most + 1, 0) == CICHOWIEJ_BAD_SIZE);
    CHECK(opened(0, 1, 1, 0) == CICHOWIEJ_BAD_SIZE && opened(1, 0, 1, 0) == CICHOWIEJ_BAD_SIZE && opened(1, 1, 0, 0) == CICHOWIEJ_BAD_SIZE);
}

static void cells(void)
{
    const size_t side = CICHOWIEJ_MAX_SIDE, planes = CICHOWIEJ_MAX_CELLS / (side * side);
    CHECK(side * side * planes == CICHOWIEJ_MAX_CELLS);
    CHECK(opened(side, side, planes, 0) == CICHOWIEJ_BAD_STORE && opened(side, side, planes + 1, 0) == CICHOWIEJ_BAD_SIZE);
}

static void slots(void)
{
    const size_t most = CICHOWIEJ_MAX_POLE_SLOTS;
    CHECK(opened(1, 1, 1, most) == CICHOWIEJ_BAD_STORE && opened(1, 1, 1, most + 1) == CICHOWIEJ_BAD_STUDY);
}

/* the header's judge of sizes, and lengths of 0 for sizes that are refused */
static void sizes(void)
{
    static const size_t some[] = {0, 1, 2, 31, 64, 65, 511, 512, 513, (size_t)1 << 31, SIZE_MAX};
    size_t x, y, z, slot;
    for (x = 0; x < LENGTH(some); x++)
        for (y = 0; y < LENGTH(some); y++)
            for (z = 0; z < LENGTH(some); z++)
                for (slot = 0; slot < 6; slot++) {
                    const bool fit = opened(some[x], some[y], some[z], slot) == CICHOWIEJ_BAD_STORE;
                    const cichowiej_lengths lengths = cichowiej_store_lengths(some[x], some[y], some[z], slot);
                    CHECK(cichowiej_sizes_fit(some[x], some[y], some[z], slot) == fit);
                    CHECK((cichowiej_doubles(lengths) != 0) == fit && (lengths.ids != 0) == fit && (lengths.aux != 0) == fit);
                    CHECK((lengths.tables != 0) == fit && (lengths.poles != 0) == fit);
                }
}

static void full(void)
{
    static held study;
    const cichowiej_material glass = plain(4.0, 0.0, 1.0);
    uint32_t id, count;
    open_held(&study, 1, 1, 1, 0);
    for (count = 1; count < CICHOWIEJ_MAX_MATERIALS; count++) {
        CHECK(cichowiej_study_add_material(&study.study, &glass, &id) == CICHOWIEJ_ACCEPTED && id == count);
        CHECK(cichowiej_block_material_count(study.study.block) == count + 1);
    }
    CHECK(cichowiej_study_add_material(&study.study, &glass, &id) == CICHOWIEJ_FULL && id == 0);
}

static void order(void)
{
    static held study;
    open_held(&study, 1, 1, 1, 0);
    CHECK(cichowiej_study_set_boundary_lossy(&study.study, 1, CICHOWIEJ_MAX_ORDER, 1.0) == CICHOWIEJ_ACCEPTED);
    CHECK(cichowiej_study_set_boundary_lossy(&study.study, 1, CICHOWIEJ_MAX_ORDER + 1, 1.0) == CICHOWIEJ_BAD_ORDER);
}

/* the last step that the clock has, with the steps put into the block */
static void clock_spent(void)
{
    static held study;
    open_held(&study, 1, 1, 1, 0);
    cichowiej_put_number(study.study.block + CICHOWIEJ_AT_STEPS, 4, CICHOWIEJ_MAX_STEPS - 1);
    CHECK(cichowiej_study_step(&study.study, 0.0) == CICHOWIEJ_ACCEPTED);
    CHECK(cichowiej_block_steps(study.study.block) == CICHOWIEJ_MAX_STEPS);
    CHECK(cichowiej_study_step(&study.study, 0.0) == CICHOWIEJ_SPENT_CLOCK);
}

void limits(void)
{
    sides();
    cells();
    slots();
    sizes();
    full();
    order();
    clock_spent();
}
