/* Which axes the absorbing layer is active on, and the conductivity of the lossy walls. */
#include "check.h"

static held walled;

/* the answer, which the block holds too */
static uint32_t active_on(bool x, bool y, bool z, size_t thickness)
{
    static double given[6 * 600];
    cichowiej_study *s = &walled.study;
    uint32_t active = 77;
    CHECK(cichowiej_study_set_boundary_cpml(s, x, y, z, thickness, given, s->stores.lengths.tables, &active) == CICHOWIEJ_ACCEPTED);
    CHECK(cichowiej_block_active(s->block) == active && cichowiej_block_layer_on(s->block));
    return active;
}

/* an axis needs 2 thickness + 2 cells */
static void thick_enough(void)
{
    open_held(&walled, 21, 22, 1, 0);
    CHECK(active_on(true, true, true, 10) == CICHOWIEJ_AXIS_Y);
    CHECK(active_on(true, true, true, 9) == CICHOWIEJ_AXIS_X + CICHOWIEJ_AXIS_Y);
    CHECK(active_on(true, true, true, 0) == 0 && active_on(true, true, true, SIZE_MAX) == 0);
    CHECK(active_on(true, false, true, 10) == 0 && active_on(true, false, true, 9) == CICHOWIEJ_AXIS_X);
    open_held(&walled, 1, 4, 22, 0);
    CHECK(active_on(true, true, true, 10) == CICHOWIEJ_AXIS_Z && active_on(true, true, false, 1) == CICHOWIEJ_AXIS_Y);
}

/* an axis that is asked for is periodic no more, active or not; the others stay */
static void periodic_no_more(void)
{
    open_held(&walled, 4, 3, 4, 0);
    CHECK(cichowiej_study_set_periodic(&walled.study, true, true, true) == CICHOWIEJ_ACCEPTED);
    CHECK(active_on(true, true, false, 1) == CICHOWIEJ_AXIS_X);
    CHECK(cichowiej_block_periodic(walled.study.block) == CICHOWIEJ_AXIS_Z);
    CHECK(cichowiej_study_set_boundary_lossy(&walled.study, 1, 1, 1.0) == CICHOWIEJ_ACCEPTED);
    CHECK(cichowiej_block_periodic(walled.study.block) == CICHOWIEJ_AXIS_Z);
    CHECK(cichowiej_study_set_boundary_periodic(&walled.study) == CICHOWIEJ_ACCEPTED);
    CHECK(cichowiej_block_periodic(walled.study.block) == CICHOWIEJ_AXIS_X + CICHOWIEJ_AXIS_Y + CICHOWIEJ_AXIS_Z);
    CHECK(cichowiej_study_set_boundary_conductor(&walled.study) == CICHOWIEJ_ACCEPTED);
    CHECK(cichowiej_block_periodic(walled.study.block) == 0);
}

static double sigma_at(size_t i)
{
    return walled.study.stores.media[CICHOWIEJ_PART_SIGMA * walled.study.stores.lengths.ids + i];
}

/* the thickness is cut to half of the axis, and an axis of one cell or a periodic one has none: sigma then stays */
static void lossy(void)
{
    const cichowiej_put wet = cichowiej_numbers(1.0, 1.0, 0.75);
    open_held(&walled, 5, 1, 1, 0);
    CHECK(cichowiej_study_put_box(&walled.study, 0, 5, 0, 1, 0, 1, wet, NULL) == CICHOWIEJ_ACCEPTED);
    CHECK(cichowiej_study_set_periodic(&walled.study, true, false, false) == CICHOWIEJ_ACCEPTED);
    CHECK(cichowiej_study_set_boundary_lossy(&walled.study, 2, 2, 8.0) == CICHOWIEJ_ACCEPTED && sigma_at(2) == 0.75);
    CHECK(cichowiej_study_set_periodic(&walled.study, false, false, false) == CICHOWIEJ_ACCEPTED);
    CHECK(cichowiej_study_set_boundary_lossy(&walled.study, 0, 2, 8.0) == CICHOWIEJ_ACCEPTED && sigma_at(2) == 0.75);
    CHECK(cichowiej_study_set_boundary_lossy(&walled.study, 2, 2, 8.0) == CICHOWIEJ_ACCEPTED);
    CHECK(sigma_at(0) == 8.0 && sigma_at(1) == 2.0 && same_bits(sigma_at(2), 0.0) && sigma_at(3) == 2.0 && sigma_at(4) == 8.0);
    open_held(&walled, 4, 1, 1, 0);
    CHECK(cichowiej_study_set_boundary_lossy(&walled.study, 9, 1, 8.0) == CICHOWIEJ_ACCEPTED);
    CHECK(sigma_at(0) == 8.0 && sigma_at(1) == 4.0 && sigma_at(2) == 4.0 && sigma_at(3) == 8.0);
    CHECK(cichowiej_wall_sigma(2, 1, 8.0, 1) == 4.0 && cichowiej_wall_sigma(2, 1, 8.0, 2) == 0.0);
    CHECK(cichowiej_stronger(2.0, 3.0) == 3.0 && cichowiej_stronger(3.0, 2.0) == 3.0);
}

void walls(void)
{
    thick_enough();
    periodic_no_more();
    lossy();
}
