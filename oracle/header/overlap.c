/* The tables handed over as given too: those of active axes stay as they are, the others go back to opening. */
#include "check.h"

void overlap(void)
{
    static held same, apart;
    const size_t length = cichowiej_store_lengths(4, 5, 6, 0).tables;
    uint32_t axes, active;
    for (axes = 0; axes < 8; axes++) {
        const bool x = (axes & CICHOWIEJ_AXIS_X) != 0, y = (axes & CICHOWIEJ_AXIS_Y) != 0, z = (axes & CICHOWIEJ_AXIS_Z) != 0;
        open_held(&same, 4, 5, 6, 0);
        fill(&same, 1);
        copy_held(&apart, &same);
        CHECK(cichowiej_study_set_boundary_cpml(&apart.study, x, y, z, 1, same.study.stores.tables, length, &active) == CICHOWIEJ_ACCEPTED);
        CHECK(active == axes);
        CHECK(cichowiej_study_set_boundary_cpml(&same.study, x, y, z, 1, same.study.stores.tables, length, &active) == CICHOWIEJ_ACCEPTED);
        CHECK(active == axes && same_held(&same, &apart));
    }
}
