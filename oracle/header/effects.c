/* What each call clears or overwrites, and that it leaves every other store. */
#include "check.h"

static held before_call, after_call;
static double handed[6 * (4 + 5 + 6)];

/* the stores that a call has changed, added */
enum { IN_E = 1, IN_H = 2, IN_MEDIA = 4, IN_PSI_E = 8, IN_PSI_H = 16, IN_TABLES = 32, IN_POLES = 64, IN_AUX = 128, IN_IDS = 256 };
enum { IN_LAYER = IN_PSI_E + IN_PSI_H + IN_TABLES };

/* every store full, a material with a pole built, a layer on z, x periodic, a slab, three steps done */
static void standing(void)
{
    cichowiej_study *s = &before_call.study;
    const cichowiej_material wet = debye(2.0, 3.0);
    const double samples[3] = {1.0, 2.0, 3.0};
    size_t at;
    for (at = 0; at < LENGTH(handed); at++)
        handed[at] = 0.125;
    open_held(&before_call, 4, 5, 6, 1);
    CHECK(cichowiej_study_add_material(s, &wet, NULL) == CICHOWIEJ_ACCEPTED);
    CHECK(cichowiej_study_build_dispersion(s) == CICHOWIEJ_ACCEPTED && cichowiej_study_slab_z(s, 2, 3) == CICHOWIEJ_ACCEPTED);
    CHECK(cichowiej_study_set_boundary_cpml(s, false, false, true, 1, handed, LENGTH(handed), NULL) == CICHOWIEJ_ACCEPTED);
    CHECK(cichowiej_study_set_periodic(s, true, false, false) == CICHOWIEJ_ACCEPTED);
    CHECK(cichowiej_study_run(s, samples, 3) == CICHOWIEJ_ACCEPTED);
    fill(&before_call, 2);
}

static cichowiej_study *again(void)
{
    copy_held(&after_call, &before_call);
    return &after_call.study;
}

static unsigned changed(void)
{
    unsigned stores = 0;
    size_t store;
    for (store = 0; store < STORES; store++)
        stores |= same_store(&before_call, &after_call, store) ? 0u : 1u << store;
    return stores;
}

static bool all_zero(const double *store, size_t length)
{
    size_t at;
    for (at = 0; at < length; at++)
        if (!same_bits(store[at], 0.0))
            return false;
    return true;
}

/* memories +0.0 and tables as an opening leaves them */
static bool layer_opened(void)
{
    static held opened;
    const cichowiej_stores *s = &after_call.study.stores;
    open_held(&opened, 4, 5, 6, 1);
    return all_zero(s->psi_e, s->lengths.psi_e) && all_zero(s->psi_h, s->lengths.psi_h) && same_store(&opened, &after_call, 5);
}

/* the steps run on, and no call but a step, a region, opening and rewind writes the time */
static bool clock_kept(void)
{
    return memcmp(after_call.study.block + CICHOWIEJ_AT_TIME, before_call.study.block + CICHOWIEJ_AT_TIME,
                  CICHOWIEJ_AT_CONSTANTS - CICHOWIEJ_AT_TIME)
           == 0;
}

static void of_materials_and_dispersion(void)
{
    const cichowiej_put air = cichowiej_numbers(1.5, 2.5, 3.5);
    const cichowiej_material paper = plain(4.0, 0.0, 1.0);
    CHECK(cichowiej_study_put_box(again(), 0, 2, 0, 2, 0, 2, air, NULL) == CICHOWIEJ_ACCEPTED && changed() == IN_MEDIA && clock_kept());
    CHECK(cichowiej_study_add_material(again(), &paper, NULL) == CICHOWIEJ_ACCEPTED && changed() == 0 && clock_kept());
    CHECK(cichowiej_block_built_count(after_call.study.block) == 2);
    CHECK(cichowiej_study_put_box(again(), 0, 2, 0, 2, 0, 2, cichowiej_library(1), NULL) == CICHOWIEJ_ACCEPTED
          && changed() == IN_MEDIA + IN_IDS);
    CHECK(cichowiej_study_assign_material_halfspace_z(again(), 1, 3) == CICHOWIEJ_ACCEPTED && changed() == IN_MEDIA + IN_IDS);
    CHECK(cichowiej_study_build_dispersion(again()) == CICHOWIEJ_ACCEPTED && changed() == IN_POLES && clock_kept());
    CHECK(all_zero(after_call.study.stores.poles, after_call.study.stores.lengths.poles));
}

/* without a pole in any material dispersion goes off, and the poles are cleared all the same */
static void of_dispersion_off(void)
{
    static held bare;
    open_held(&bare, 2, 2, 2, 1);
    fill(&bare, 1);
    CHECK(cichowiej_study_build_dispersion(&bare.study) == CICHOWIEJ_ACCEPTED && cichowiej_block_built_count(bare.study.block) == 0);
    CHECK(all_zero(bare.study.stores.poles, bare.study.stores.lengths.poles));
}

static void of_walls(void)
{
    CHECK(cichowiej_study_set_periodic(again(), false, true, false) == CICHOWIEJ_ACCEPTED && changed() == 0 && clock_kept());
    CHECK(cichowiej_block_active(after_call.study.block) == CICHOWIEJ_AXIS_Z && cichowiej_block_layer_on(after_call.study.block));
    CHECK(cichowiej_study_set_boundary_periodic(again()) == CICHOWIEJ_ACCEPTED && changed() == IN_LAYER && layer_opened());
    CHECK(cichowiej_block_active(after_call.study.block) == 0 && !cichowiej_block_layer_on(after_call.study.block) && clock_kept());
    CHECK(cichowiej_study_set_boundary_conductor(again()) == CICHOWIEJ_ACCEPTED && changed() == IN_LAYER && layer_opened());
    CHECK(cichowiej_block_active(after_call.study.block) == 0 && !cichowiej_block_layer_on(after_call.study.block) && clock_kept());
    CHECK(cichowiej_study_set_boundary_lossy(again(), 1, 1, 8.0) == CICHOWIEJ_ACCEPTED);
    CHECK(changed() == IN_LAYER + IN_MEDIA && layer_opened());
    CHECK(cichowiej_block_active(after_call.study.block) == 0 && !cichowiej_block_layer_on(after_call.study.block) && clock_kept());
    CHECK(cichowiej_block_periodic(after_call.study.block) == CICHOWIEJ_AXIS_X);
    CHECK(memcmp(after_call.study.stores.media, before_call.study.stores.media, 2 * 120 * sizeof(double)) == 0);
    CHECK(cichowiej_study_set_boundary_cpml(again(), true, false, false, 1, handed, LENGTH(handed), NULL) == CICHOWIEJ_ACCEPTED);
    CHECK(changed() == IN_LAYER && clock_kept() && cichowiej_block_active(after_call.study.block) == CICHOWIEJ_AXIS_X);
    CHECK(all_zero(after_call.study.stores.psi_e, after_call.study.stores.lengths.psi_e));
    CHECK(all_zero(after_call.study.stores.psi_h, after_call.study.stores.lengths.psi_h));
}

/* the line cleared and time +0.0; the steps run on */
static bool region_set(void)
{
    return changed() == IN_AUX && all_zero(after_call.study.stores.aux, after_call.study.stores.lengths.aux)
           && same_bits(cichowiej_block_time(after_call.study.block), 0.0) && cichowiej_block_steps(after_call.study.block) == 3;
}

static void of_regions(void)
{
    CHECK(cichowiej_study_slab_z(again(), 1, 4) == CICHOWIEJ_ACCEPTED && region_set());
    CHECK(cichowiej_study_injector_z(again(), 1) == CICHOWIEJ_ACCEPTED && region_set());
    CHECK(cichowiej_study_box_region(again(), 1, 2, 1, 2, 1, 2) == CICHOWIEJ_ACCEPTED && region_set());
}

static void of_fields(void)
{
    const cichowiej_stores *s = &after_call.study.stores;
    double answer;
    CHECK(cichowiej_study_reset_fields(again()) == CICHOWIEJ_ACCEPTED);
    CHECK(changed() == IN_E + IN_H + IN_PSI_E + IN_PSI_H + IN_POLES && clock_kept());
    CHECK(all_zero(s->e, s->lengths.e) && all_zero(s->h, s->lengths.h) && all_zero(s->psi_e, s->lengths.psi_e));
    CHECK(all_zero(s->psi_h, s->lengths.psi_h) && all_zero(s->poles, s->lengths.poles));
    CHECK(cichowiej_block_region(after_call.study.block).kind == CICHOWIEJ_SLAB);
    CHECK(cichowiej_study_total_energy(again(), &answer) == CICHOWIEJ_ACCEPTED && same_held(&before_call, &after_call));
    CHECK(cichowiej_study_plane_reading(again(), 1, &answer) == CICHOWIEJ_ACCEPTED && same_held(&before_call, &after_call));
    CHECK(cichowiej_study_step(again(), 1.0) == CICHOWIEJ_ACCEPTED && changed() == IN_E + IN_H + IN_PSI_E + IN_PSI_H + IN_POLES + IN_AUX);
}

/* over bytes and numbers that mean nothing */
static void of_opening(void)
{
    const cichowiej_stores *s = &after_call.study.stores;
    size_t at;
    lend(&after_call, 4, 5, 6, 1);
    CHECK(cichowiej_study_open(&after_call.study, 4, 5, 6, 1, CICHOWIEJ_CONSTANTS_OLD, 1.0, 1.0, 1.0, 1.0) == CICHOWIEJ_ACCEPTED);
    CHECK(layer_opened());
    CHECK(all_zero(s->e, s->lengths.e) && all_zero(s->h, s->lengths.h) && all_zero(s->poles, s->lengths.poles));
    CHECK(all_zero(s->aux, s->lengths.aux) && all_zero(s->media + CICHOWIEJ_PART_SIGMA * 120, 120));
    for (at = 0; at < 120; at++)
        CHECK(s->media[CICHOWIEJ_PART_EPS_R * 120 + at] == 1.0 && s->media[CICHOWIEJ_PART_MU_R * 120 + at] == 1.0 && s->ids[at] == 0);
    CHECK(cichowiej_block_material_count(after_call.study.block) == 1 && cichowiej_block_built_count(after_call.study.block) == 0);
    CHECK(cichowiej_block_periodic(after_call.study.block) == 0 && cichowiej_block_active(after_call.study.block) == 0);
    CHECK(!cichowiej_block_layer_on(after_call.study.block) && cichowiej_block_steps(after_call.study.block) == 0);
    CHECK(cichowiej_block_region(after_call.study.block).kind == CICHOWIEJ_NO_REGION);
    CHECK(same_bits(cichowiej_block_time(after_call.study.block), 0.0));
}

void effects(void)
{
    standing();
    of_materials_and_dispersion();
    of_dispersion_off();
    of_walls();
    of_regions();
    of_fields();
    of_opening();
}
