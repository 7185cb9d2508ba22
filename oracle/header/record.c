/* The block's fields, each read after a call that gave it a value that no other field has. */
#include "check.h"

static held filed;

static void sizes_and_spacings(void)
{
    cichowiej_study *s = &filed.study;
    lend(&filed, 300, 1, 1, 0);
    CHECK(cichowiej_study_open(s, 300, 1, 1, 0, CICHOWIEJ_CONSTANTS_OLD, 1.5, 2.5, 3.5, 4.5) == CICHOWIEJ_ACCEPTED);
    CHECK(cichowiej_block_nx(s->block) == 300 && cichowiej_block_ny(s->block) == 1 && cichowiej_block_nz(s->block) == 1);
    CHECK(cichowiej_study_box_region(s, 257, 299, 0, 0, 0, 0) == CICHOWIEJ_ACCEPTED);
    CHECK(cichowiej_block_region(s->block).i0 == 257 && cichowiej_block_region(s->block).i1 == 299);
    lend(&filed, 1, 299, 2, 0);
    CHECK(cichowiej_study_open(s, 1, 299, 2, 0, CICHOWIEJ_CONSTANTS_OLD, 1.5, 2.5, 3.5, 4.5) == CICHOWIEJ_ACCEPTED);
    CHECK(cichowiej_block_nx(s->block) == 1 && cichowiej_block_ny(s->block) == 299 && cichowiej_block_nz(s->block) == 2);
    CHECK(cichowiej_study_box_region(s, 0, 0, 258, 298, 0, 1) == CICHOWIEJ_ACCEPTED);
    CHECK(cichowiej_block_region(s->block).j0 == 258 && cichowiej_block_region(s->block).j1 == 298);
    lend(&filed, 2, 1, 298, 3);
    CHECK(cichowiej_study_open(s, 2, 1, 298, 3, CICHOWIEJ_CONSTANTS_OLD, 1.5, 2.5, 3.5, 4.5) == CICHOWIEJ_ACCEPTED);
    CHECK(cichowiej_block_nx(s->block) == 2 && cichowiej_block_ny(s->block) == 1 && cichowiej_block_nz(s->block) == 298);
    CHECK(cichowiej_study_slab_z(s, 259, 297) == CICHOWIEJ_ACCEPTED);
    CHECK(cichowiej_block_region(s->block).k0 == 259 && cichowiej_block_region(s->block).k1 == 297);
    CHECK(cichowiej_block_dx(s->block) == 1.5 && cichowiej_block_dy(s->block) == 2.5);
    CHECK(cichowiej_block_dz(s->block) == 3.5 && cichowiej_block_dt(s->block) == 4.5);
}

static void flags(void)
{
    static double given[6 * 22];
    cichowiej_study *s = &filed.study;
    uint32_t axis;
    open_held(&filed, 7, 7, 7, 0);
    CHECK(cichowiej_block_periodic(s->block) == 0 && cichowiej_block_active(s->block) == 0 && !cichowiej_block_layer_on(s->block));
    for (axis = 0; axis < 8; axis++) {
        const bool x = (axis & CICHOWIEJ_AXIS_X) != 0, y = (axis & CICHOWIEJ_AXIS_Y) != 0, z = (axis & CICHOWIEJ_AXIS_Z) != 0;
        CHECK(cichowiej_study_set_boundary_conductor(s) == CICHOWIEJ_ACCEPTED && !cichowiej_block_layer_on(s->block));
        CHECK(cichowiej_study_set_periodic(s, x, y, z) == CICHOWIEJ_ACCEPTED);
        CHECK(cichowiej_block_periodic(s->block) == axis && cichowiej_block_active(s->block) == 0);
        CHECK(cichowiej_study_set_boundary_cpml(s, x, y, z, 2, given, 6 * 21, NULL) == CICHOWIEJ_ACCEPTED);
        CHECK(cichowiej_block_periodic(s->block) == 0 && cichowiej_block_active(s->block) == axis);
        CHECK(cichowiej_block_layer_on(s->block));
    }
}

static void counts(void)
{
    cichowiej_study *s = &filed.study;
    const cichowiej_material wet = debye(2.0, 3.0);
    uint32_t id;
    open_held(&filed, 2, 2, 2, 3);
    for (id = 1; id < 6; id++)
        CHECK(cichowiej_study_add_material(s, &wet, NULL) == CICHOWIEJ_ACCEPTED);
    CHECK(cichowiej_block_built_count(s->block) == 0);
    CHECK(cichowiej_study_build_dispersion(s) == CICHOWIEJ_ACCEPTED);
    CHECK(cichowiej_study_add_material(s, &wet, NULL) == CICHOWIEJ_ACCEPTED);
    CHECK(cichowiej_block_built_count(s->block) == 6 && cichowiej_block_pole_slots(s->block) == 3);
    CHECK(cichowiej_block_material_count(s->block) == 7);
}

static void region(void)
{
    cichowiej_study *s = &filed.study;
    cichowiej_region r;
    open_held(&filed, 8, 8, 8, 0);
    r = cichowiej_block_region(s->block);
    CHECK(r.kind == CICHOWIEJ_NO_REGION && r.i0 + r.i1 + r.j0 + r.j1 + r.k0 + r.k1 == 0);
    CHECK(cichowiej_study_box_region(s, 1, 2, 3, 4, 5, 6) == CICHOWIEJ_ACCEPTED);
    r = cichowiej_block_region(s->block);
    CHECK(r.kind == CICHOWIEJ_BOX && r.i0 == 1 && r.i1 == 2 && r.j0 == 3 && r.j1 == 4 && r.k0 == 5 && r.k1 == 6);
}

static void clock_moved(void)
{
    static const double samples[300] = {0.0};
    cichowiej_study *s = &filed.study;
    lend(&filed, 1, 1, 1, 0);
    CHECK(cichowiej_study_open(s, 1, 1, 1, 0, CICHOWIEJ_CONSTANTS_OLD, 1.0, 1.0, 1.0, 0.5) == CICHOWIEJ_ACCEPTED);
    CHECK(cichowiej_study_run(s, samples, LENGTH(samples)) == CICHOWIEJ_ACCEPTED);
    CHECK(cichowiej_block_time(s->block) == 150.0 && cichowiej_block_steps(s->block) == 300);
    cichowiej_put_number(s->block + CICHOWIEJ_AT_STEPS, 4, 0x01020304);
    CHECK(cichowiej_study_step(s, 0.0) == CICHOWIEJ_ACCEPTED);
    CHECK(cichowiej_block_time(s->block) == 150.5 && cichowiej_block_steps(s->block) == 0x01020305);
}

/* each entry is the bytes that were handed over, and what is past the count is zero */
static void entries(void)
{
    uint8_t bytes[CICHOWIEJ_MATERIAL_LENGTH];
    cichowiej_study *s = &filed.study;
    uint32_t id;
    size_t at;
    open_held(&filed, 1, 1, 1, 1);
    for (id = 1; id < CICHOWIEJ_MAX_MATERIALS; id++) {
        const cichowiej_material wet = debye(id, 0.5 * id);
        const uint8_t *entry = s->block + CICHOWIEJ_AT_MATERIALS + CICHOWIEJ_MATERIAL_LENGTH * id;
        for (at = 0; entry + at < s->block + CICHOWIEJ_BLOCK_LENGTH; at++)
            CHECK(entry[at] == 0);
        CHECK(cichowiej_study_add_material(s, &wet, NULL) == CICHOWIEJ_ACCEPTED);
        cichowiej_pack_material(&wet, bytes);
        CHECK(memcmp(entry, bytes, sizeof bytes) == 0);
        CHECK(entry + CICHOWIEJ_MATERIAL_LENGTH <= s->block + CICHOWIEJ_BLOCK_LENGTH);
    }
    CHECK(CICHOWIEJ_AT_MATERIALS + CICHOWIEJ_MAX_MATERIALS * CICHOWIEJ_MATERIAL_LENGTH == CICHOWIEJ_BLOCK_LENGTH);
}

void record(void)
{
    sizes_and_spacings();
    flags();
    counts();
    region();
    clock_moved();
    entries();
}
