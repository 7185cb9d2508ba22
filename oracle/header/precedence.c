/* Of several refusals the one that the header puts first is answered. */
#include "check.h"

static held judged;

static cichowiej_study *opened_whole(void)
{
    open_held(&judged, 3, 4, 5, 1);
    return &judged.study;
}

/* each fault in turn taken away from a call that has them all */
static void opening(void)
{
    cichowiej_study *s = opened_whole();
    s->stores.lengths.e++;
    CHECK(cichowiej_study_open(s, 0, 4, 5, 5, CICHOWIEJ_CONSTANTS_OLD, 0.0, 1.0, 1.0, 1.0) == CICHOWIEJ_BAD_SIZE);
    CHECK(cichowiej_study_open(s, 3, 4, 5, 5, CICHOWIEJ_CONSTANTS_OLD, 0.0, 1.0, 1.0, 1.0) == CICHOWIEJ_BAD_SPACING);
    CHECK(cichowiej_study_open(s, 3, 4, 5, 5, CICHOWIEJ_CONSTANTS_OLD, 1.0, 1.0, 1.0, 1.0) == CICHOWIEJ_BAD_STUDY);
    CHECK(cichowiej_study_open(s, 3, 4, 5, 1, CICHOWIEJ_CONSTANTS_OLD, 1.0, 1.0, 1.0, 1.0) == CICHOWIEJ_BAD_STORE);
    s->stores.lengths.e--;
    CHECK(cichowiej_study_open(s, 3, 4, 5, 1, CICHOWIEJ_CONSTANTS_OLD, 1.0, 1.0, 1.0, 1.0) == CICHOWIEJ_ACCEPTED);
}

/* the block's faults come one behind the other, and before those of a call */
static void record_first(void)
{
    cichowiej_study *s = opened_whole();
    s->block[CICHOWIEJ_AT_LAYER_ON] = 2;
    cichowiej_put_number(s->block + CICHOWIEJ_AT_NX, 2, 0);
    cichowiej_put_double(s->block + CICHOWIEJ_AT_DX, 0.0);
    s->block[CICHOWIEJ_AT_POLE_SLOTS] = CICHOWIEJ_MAX_POLE_SLOTS + 1;
    s->stores.lengths.aux++;
    CHECK(cichowiej_study_slab_z(s, 3, 2) == CICHOWIEJ_BAD_STUDY);
    s->block[CICHOWIEJ_AT_LAYER_ON] = 0;
    CHECK(cichowiej_study_slab_z(s, 3, 2) == CICHOWIEJ_BAD_SIZE);
    cichowiej_put_number(s->block + CICHOWIEJ_AT_NX, 2, 3);
    CHECK(cichowiej_study_slab_z(s, 3, 2) == CICHOWIEJ_BAD_SPACING);
    cichowiej_put_double(s->block + CICHOWIEJ_AT_DX, 1.0);
    CHECK(cichowiej_study_slab_z(s, 3, 2) == CICHOWIEJ_BAD_STUDY);
    s->block[CICHOWIEJ_AT_POLE_SLOTS] = 1;
    CHECK(cichowiej_study_slab_z(s, 3, 2) == CICHOWIEJ_BAD_STORE);
    s->stores.lengths.aux--;
    CHECK(cichowiej_study_slab_z(s, 3, 2) == CICHOWIEJ_BAD_REGION);
}

static void block_length(void)
{
    cichowiej_study *s = opened_whole();
    CHECK(cichowiej_set_periodic(s->block, CICHOWIEJ_BLOCK_LENGTH - 1, true, true, true) == CICHOWIEJ_BAD_STUDY);
    CHECK(cichowiej_set_periodic(s->block, CICHOWIEJ_BLOCK_LENGTH, true, true, true) == CICHOWIEJ_ACCEPTED);
}

/* the record's own, the bytes' length, bytes that are no material, TOO_MANY_POLES, BAD_POLE, FULL */
static void adding(void)
{
    cichowiej_study *s = opened_whole();
    uint8_t bytes[CICHOWIEJ_MATERIAL_LENGTH + 1] = {0};
    cichowiej_material wet = debye(2.0, 3.0);
    uint32_t count;
    for (count = 1; count < CICHOWIEJ_MAX_MATERIALS; count++)
        CHECK(cichowiej_study_add_material(s, &wet, NULL) == CICHOWIEJ_ACCEPTED);
    wet.pole_count = 2;
    wet.poles[0].tau = 0.0;
    wet.poles[1] = wet.poles[0];
    wet.poles[1].tag = 9;
    cichowiej_pack_material(&wet, bytes);
    cichowiej_put_double(s->block + CICHOWIEJ_AT_DT, 0.0);
    CHECK(cichowiej_add_material(s->block, sizeof s->block, bytes, sizeof bytes, NULL, 0) == CICHOWIEJ_BAD_SPACING);
    cichowiej_put_double(s->block + CICHOWIEJ_AT_DT, 1.0);
    CHECK(cichowiej_add_material(s->block, sizeof s->block, bytes, sizeof bytes, NULL, 0) == CICHOWIEJ_BAD_STORE);
    CHECK(cichowiej_study_add_material(s, &wet, NULL) == CICHOWIEJ_BAD_STUDY);
    wet.poles[1].tag = CICHOWIEJ_DEBYE;
    CHECK(cichowiej_study_add_material(s, &wet, NULL) == CICHOWIEJ_TOO_MANY_POLES);
    wet.pole_count = 1;
    CHECK(cichowiej_study_add_material(s, &wet, NULL) == CICHOWIEJ_BAD_POLE);
    wet.poles[0].tau = 3.0;
    CHECK(cichowiej_study_add_material(s, &wet, NULL) == CICHOWIEJ_FULL);
}

static void stores_before_the_calls_own(void)
{
    cichowiej_study *s = opened_whole();
    double reading;
    s->stores.lengths.media++;
    CHECK(cichowiej_study_put_box(s, 0, 0, 0, 0, 0, 0, cichowiej_library(7), NULL) == CICHOWIEJ_BAD_STORE);
    CHECK(cichowiej_study_set_boundary_lossy(s, 1, 9, 1.0) == CICHOWIEJ_BAD_STORE);
    CHECK(cichowiej_study_save(s, NULL, 0) == CICHOWIEJ_BAD_STORE);
    s->stores.lengths.media--;
    CHECK(cichowiej_study_put_box(s, 0, 0, 0, 0, 0, 0, cichowiej_library(7), NULL) == CICHOWIEJ_NO_SUCH_MATERIAL);
    CHECK(cichowiej_study_set_boundary_lossy(s, 1, 9, 1.0) == CICHOWIEJ_BAD_ORDER);
    CHECK(cichowiej_study_save(s, NULL, 0) == CICHOWIEJ_NO_ROOM);
    s->stores.lengths.h++;
    CHECK(cichowiej_study_plane_reading(s, 9, &reading) == CICHOWIEJ_BAD_STORE);
}

static void stepping(void)
{
    cichowiej_study *s = opened_whole();
    const cichowiej_material wet = debye(2.0, 3.0);
    CHECK(cichowiej_study_add_material(s, &wet, NULL) == CICHOWIEJ_ACCEPTED);
    CHECK(cichowiej_study_build_dispersion(s) == CICHOWIEJ_ACCEPTED);
    cichowiej_put_number(s->block + CICHOWIEJ_AT_STEPS, 4, CICHOWIEJ_MAX_STEPS);
    s->stores.ids[7] = 2;
    s->stores.lengths.psi_h++;
    CHECK(cichowiej_study_step(s, 0.0) == CICHOWIEJ_BAD_STORE);
    s->stores.lengths.psi_h--;
    CHECK(cichowiej_study_step(s, 0.0) == CICHOWIEJ_STALE_MATERIAL);
    s->stores.ids[7] = 1;
    CHECK(cichowiej_study_step(s, 0.0) == CICHOWIEJ_SPENT_CLOCK);
}

/* the save's own faults, bytes behind it, and then the lengths of stores and block */
static void rewinding(void)
{
    static uint8_t save[SAVE];
    cichowiej_study *s = opened_whole();
    size_t length = 0;
    CHECK(cichowiej_study_save_length(s, &length) == CICHOWIEJ_ACCEPTED && cichowiej_study_save(s, save, SAVE) == CICHOWIEJ_ACCEPTED);
    s->stores.lengths.ids++;
    save[0]++;
    CHECK(cichowiej_study_rewind(s, save, length + 1) == CICHOWIEJ_BAD_MARK);
    save[0]--;
    CHECK(cichowiej_study_rewind(s, save, length + 1) == CICHOWIEJ_TRAILING);
    CHECK(cichowiej_study_rewind(s, save, length) == CICHOWIEJ_BAD_STORE);
    s->stores.lengths.ids--;
    memset(s->block, 0xFF, sizeof s->block);
    CHECK(cichowiej_study_rewind(s, save, length) == CICHOWIEJ_ACCEPTED);
}

void precedence(void)
{
    opening();
    record_first();
    block_length();
    adding();
    stores_before_the_calls_own();
    stepping();
    rewinding();
}
