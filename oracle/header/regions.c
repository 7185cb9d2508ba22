/* The kinds of region and their corners, and the incident wave's line. */
#include "check.h"

static held lit;

static bool region_is(uint32_t kind, size_t i1, size_t j1, size_t k0, size_t k1)
{
    const cichowiej_region r = cichowiej_block_region(lit.study.block);
    return r.kind == kind && r.i0 == 0 && r.i1 == i1 && r.j0 == 0 && r.j1 == j1 && r.k0 == k0 && r.k1 == k1;
}

static void kinds(void)
{
    cichowiej_study *s = &lit.study;
    open_held(&lit, 3, 4, 9, 0);
    CHECK(region_is(CICHOWIEJ_NO_REGION, 0, 0, 0, 0));
    CHECK(cichowiej_study_slab_z(s, 5, 6) == CICHOWIEJ_ACCEPTED && region_is(CICHOWIEJ_SLAB, 2, 3, 5, 6));
    CHECK(cichowiej_study_injector_z(s, 7) == CICHOWIEJ_ACCEPTED && region_is(CICHOWIEJ_INJECTOR, 2, 3, 7, 8));
    CHECK(cichowiej_study_box_region(s, 0, 1, 0, 2, 3, 4) == CICHOWIEJ_ACCEPTED && region_is(CICHOWIEJ_BOX, 1, 2, 3, 4));
}

/* a number that does not lie in the line's ex at the plane where the wave enters leaves hy below that plane */
static void pad(void)
{
    const size_t k0 = 3, nz = 8, line = nz + 2 * CICHOWIEJ_LINE_PAD;
    size_t at;
    for (at = 0; at < line; at++) {
        open_held(&lit, 1, 1, nz, 0);
        CHECK(cichowiej_study_injector_z(&lit.study, k0) == CICHOWIEJ_ACCEPTED);
        CHECK(lit.study.stores.lengths.aux == 2 * line);
        lit.study.stores.aux[at] = 1.0;
        CHECK(cichowiej_study_step(&lit.study, 0.0) == CICHOWIEJ_ACCEPTED);
        CHECK((lit.study.stores.h[CICHOWIEJ_PART_Y * nz + k0 - 1] != 0.0) == (at == CICHOWIEJ_LINE_PAD + k0));
    }
}

/* the sample is all that a first step puts into the line, and without a region it goes unused */
static void source(void)
{
    size_t at;
    open_held(&lit, 1, 1, 8, 0);
    CHECK(cichowiej_study_step(&lit.study, 3.0) == CICHOWIEJ_ACCEPTED);
    for (at = 0; at < lit.study.stores.lengths.aux; at++)
        CHECK(same_bits(lit.study.stores.aux[at], 0.0));
    CHECK(cichowiej_study_slab_z(&lit.study, 2, 5) == CICHOWIEJ_ACCEPTED);
    CHECK(cichowiej_study_step(&lit.study, 3.0) == CICHOWIEJ_ACCEPTED);
    for (at = 0; at < lit.study.stores.lengths.aux; at++)
        CHECK(same_bits(lit.study.stores.aux[at], at == CICHOWIEJ_LINE_SOURCE ? 3.0 : 0.0));
}

void regions(void)
{
    kinds();
    pad();
    source();
}
