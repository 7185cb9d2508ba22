/* Every refusal, met by a call that has to meet just that one and is accepted without the fault. */
#include "check.h"

static held refused;

static cichowiej_study *refusing(void)
{
    open_held(&refused, 3, 4, 5, 1);
    return &refused.study;
}

static void of_the_record(void)
{
    cichowiej_study *s = refusing();
    CHECK(cichowiej_study_open(s, 3, 0, 5, 1, CICHOWIEJ_CONSTANTS_OLD, 1.0, 1.0, 1.0, 1.0) == CICHOWIEJ_BAD_SIZE);
    CHECK(cichowiej_study_open(s, 3, 4, 5, 1, CICHOWIEJ_CONSTANTS_OLD, 1.0, 0.0, 1.0, 1.0) == CICHOWIEJ_BAD_SPACING);
    CHECK(cichowiej_study_open(s, 3, 4, 5, 1, CICHOWIEJ_CONSTANTS_OLD, 1.0, 1.0, 1.0, -1.0) == CICHOWIEJ_BAD_SPACING);
    CHECK(cichowiej_study_open(s, 3, 4, 5, CICHOWIEJ_MAX_POLE_SLOTS + 1, CICHOWIEJ_CONSTANTS_OLD, 1.0, 1.0, 1.0, 1.0)
          == CICHOWIEJ_BAD_STUDY);
    CHECK(cichowiej_study_open(s, 3, 4, 6, 1, CICHOWIEJ_CONSTANTS_OLD, 1.0, 1.0, 1.0, 1.0) == CICHOWIEJ_BAD_STORE);
    CHECK(cichowiej_study_set_periodic(s, true, true, true) == CICHOWIEJ_ACCEPTED);
    s->block[CICHOWIEJ_AT_PERIODIC] = 2;
    CHECK(cichowiej_study_set_periodic(s, true, true, true) == CICHOWIEJ_BAD_STUDY);
}

static void of_materials(void)
{
    cichowiej_study *s = refusing();
    cichowiej_material wet = debye(2.0, 3.0);
    uint32_t id = 9, cells = 9, count;
    wet.pole_count = 2;
    wet.poles[1] = wet.poles[0];
    CHECK(cichowiej_study_add_material(s, &wet, &id) == CICHOWIEJ_TOO_MANY_POLES && id == 0);
    wet.pole_count = 1;
    wet.poles[0].tau = 0.0;
    CHECK(cichowiej_study_add_material(s, &wet, &id) == CICHOWIEJ_BAD_POLE && id == 0);
    wet.poles[0].tau = 3.0;
    CHECK(cichowiej_study_put_box(s, 0, 0, 0, 0, 0, 0, cichowiej_library(1), &cells) == CICHOWIEJ_NO_SUCH_MATERIAL && cells == 0);
    CHECK(cichowiej_study_add_material(s, &wet, &id) == CICHOWIEJ_ACCEPTED && id == 1);
    CHECK(cichowiej_study_put_box(s, 0, 0, 0, 0, 0, 0, cichowiej_library(1), NULL) == CICHOWIEJ_ACCEPTED);
    CHECK(cichowiej_study_build_dispersion(s) == CICHOWIEJ_ACCEPTED);
    CHECK(cichowiej_study_add_material(s, &wet, &id) == CICHOWIEJ_ACCEPTED && id == 2);
    CHECK(cichowiej_study_assign_material_halfspace_z(s, 1, 2) == CICHOWIEJ_ACCEPTED);
    CHECK(cichowiej_study_step(s, 0.0) == CICHOWIEJ_ACCEPTED);
    CHECK(cichowiej_study_assign_material_halfspace_z(s, 2, 4) == CICHOWIEJ_ACCEPTED);
    CHECK(cichowiej_study_step(s, 0.0) == CICHOWIEJ_STALE_MATERIAL);
    CHECK(cichowiej_study_build_dispersion(s) == CICHOWIEJ_ACCEPTED);
    CHECK(cichowiej_study_step(s, 0.0) == CICHOWIEJ_ACCEPTED);
    for (count = 3; count < CICHOWIEJ_MAX_MATERIALS; count++)
        CHECK(cichowiej_study_add_material(s, &wet, NULL) == CICHOWIEJ_ACCEPTED);
    CHECK(cichowiej_study_add_material(s, &wet, NULL) == CICHOWIEJ_FULL);
}

static void of_regions_and_walls(void)
{
    cichowiej_study *s = refusing();
    double reading;
    CHECK(cichowiej_study_slab_z(s, 3, 2) == CICHOWIEJ_BAD_REGION && cichowiej_study_slab_z(s, 3, 5) == CICHOWIEJ_BAD_REGION);
    CHECK(cichowiej_study_slab_z(s, 3, 3) == CICHOWIEJ_ACCEPTED && cichowiej_study_slab_z(s, 3, 4) == CICHOWIEJ_ACCEPTED);
    CHECK(cichowiej_study_injector_z(s, 4) == CICHOWIEJ_ACCEPTED && cichowiej_study_injector_z(s, 5) == CICHOWIEJ_BAD_REGION);
    CHECK(cichowiej_study_box_region(s, 0, 2, 0, 3, 0, 4) == CICHOWIEJ_ACCEPTED);
    CHECK(cichowiej_study_box_region(s, 0, 3, 0, 3, 0, 4) == CICHOWIEJ_BAD_REGION);
    CHECK(cichowiej_study_box_region(s, 0, 2, 0, 4, 0, 4) == CICHOWIEJ_BAD_REGION);
    CHECK(cichowiej_study_set_boundary_lossy(s, 1, 9, 1.0) == CICHOWIEJ_BAD_ORDER);
    CHECK(cichowiej_study_set_boundary_lossy(s, 1, 8, 1.0) == CICHOWIEJ_ACCEPTED);
    CHECK(cichowiej_study_plane_reading(s, 4, &reading) == CICHOWIEJ_ACCEPTED);
    CHECK(cichowiej_study_plane_reading(s, 5, &reading) == CICHOWIEJ_NO_SUCH_PLANE);
}

static void of_the_clock(void)
{
    cichowiej_study *s = refusing();
    const double samples[2] = {0.0, 0.0};
    cichowiej_put_number(s->block + CICHOWIEJ_AT_STEPS, 4, CICHOWIEJ_MAX_STEPS - 1);
    CHECK(cichowiej_study_run(s, samples, 2) == CICHOWIEJ_SPENT_CLOCK);
    CHECK(cichowiej_study_run(s, samples, 1) == CICHOWIEJ_ACCEPTED);
    CHECK(cichowiej_study_step(s, 0.0) == CICHOWIEJ_SPENT_CLOCK);
}

static void of_saves(void)
{
    static uint8_t save[SAVE];
    cichowiej_study *s = refusing();
    size_t length = 0;
    CHECK(cichowiej_study_save_length(s, &length) == CICHOWIEJ_ACCEPTED && length > 0 && length + 1 < SAVE);
    CHECK(cichowiej_study_save(s, save, length - 1) == CICHOWIEJ_NO_ROOM);
    CHECK(cichowiej_study_save(s, save, length) == CICHOWIEJ_ACCEPTED);
    CHECK(cichowiej_study_rewind(s, save, length - 1) == CICHOWIEJ_SHORT);
    CHECK(cichowiej_study_rewind(s, save, length + 1) == CICHOWIEJ_TRAILING);
    CHECK(cichowiej_study_rewind(s, save, length) == CICHOWIEJ_ACCEPTED);
    save[0]++;
    CHECK(cichowiej_study_rewind(s, save, length) == CICHOWIEJ_BAD_MARK);
    save[0]--;
    save[2]++;
    CHECK(cichowiej_study_rewind(s, save, length) == CICHOWIEJ_BAD_RECORD);
    save[2]--;
    CHECK(cichowiej_study_rewind(s, save, length) == CICHOWIEJ_ACCEPTED);
}

void refusals(void)
{
    of_the_record();
    of_materials();
    of_regions_and_walls();
    of_the_clock();
    of_saves();
}
