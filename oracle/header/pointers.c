/* NULL with length 0, and room for a further answer. */
#include "check.h"

static held lent_to;

static void no_room(void)
{
    const cichowiej_material paper = plain(2.0, 0.0, 1.0);
    static const double given[6 * 6] = {0.0};
    cichowiej_study *s = &lent_to.study;
    open_held(&lent_to, 2, 2, 2, 0);
    CHECK(cichowiej_study_add_material(s, &paper, NULL) == CICHOWIEJ_ACCEPTED);
    CHECK(cichowiej_study_set_boundary_cpml(s, true, true, true, 1, given, LENGTH(given), NULL) == CICHOWIEJ_ACCEPTED);
    CHECK(cichowiej_study_total_energy(s, NULL) == CICHOWIEJ_ACCEPTED && cichowiej_study_plane_reading(s, 0, NULL) == CICHOWIEJ_ACCEPTED);
    CHECK(cichowiej_study_save_length(s, NULL) == CICHOWIEJ_ACCEPTED && cichowiej_study_save(s, NULL, 0) == CICHOWIEJ_NO_ROOM);
    CHECK(cichowiej_study_rewind(s, NULL, 0) == CICHOWIEJ_SHORT);
    CHECK(cichowiej_ade_coeffs(CICHOWIEJ_DEBYE, 1.0, 1.0, 0.0, 1.0, 1.0, NULL, 0) == CICHOWIEJ_BAD_STORE);
    CHECK(cichowiej_set_periodic(NULL, 0, true, true, true) == CICHOWIEJ_BAD_STUDY);
    CHECK(cichowiej_add_material(s->block, sizeof s->block, NULL, 0, NULL, 0) == CICHOWIEJ_BAD_STORE);
}

static void no_stores(void)
{
    static cichowiej_study bare; /* its stores are NULL, its lengths 0 */
    static uint8_t save[SAVE];
    size_t length = 0;
    CHECK(cichowiej_study_open(&bare, 2, 2, 2, 0, CICHOWIEJ_CONSTANTS_OLD, 1.0, 1.0, 1.0, 1.0) == CICHOWIEJ_BAD_STORE);
    open_held(&lent_to, 2, 2, 2, 0);
    CHECK(cichowiej_study_save_length(&lent_to.study, &length) == CICHOWIEJ_ACCEPTED);
    CHECK(cichowiej_study_save(&lent_to.study, save, length) == CICHOWIEJ_ACCEPTED);
    CHECK(cichowiej_study_rewind(&bare, save, length) == CICHOWIEJ_BAD_STORE);
    memcpy(bare.block, lent_to.study.block, sizeof bare.block);
    CHECK(cichowiej_study_step(&bare, 0.0) == CICHOWIEJ_BAD_STORE && cichowiej_study_reset_fields(&bare) == CICHOWIEJ_BAD_STORE);
}

/* air into all eight cells */
static uint32_t put_air(uint32_t cells[2])
{
    cichowiej_study *s = &lent_to.study;
    return cichowiej_put_box(s->block, sizeof s->block, 0, 2, 0, 2, 0, 2, false, 0, 1.0, 1.0, 0.0, s->stores.media, 24, s->stores.ids, 8, cells,
                             2);
}

/* the first element alone is written, by a refused call with 0 */
static void answers(void)
{
    cichowiej_study *s = &lent_to.study;
    double two[2] = {77.0, 77.0};
    size_t lengths[2] = {77, 77};
    uint32_t cells[2] = {77, 77};
    open_held(&lent_to, 2, 2, 2, 0);
    CHECK(cichowiej_plane_reading(s->block, sizeof s->block, 0, s->stores.e, 24, s->stores.h, 24, two, 2) == CICHOWIEJ_ACCEPTED);
    CHECK(two[0] == 0.0 && two[1] == 77.0);
    two[0] = 77.0;
    CHECK(cichowiej_plane_reading(s->block, sizeof s->block, 2, s->stores.e, 24, s->stores.h, 24, two, 2) == CICHOWIEJ_NO_SUCH_PLANE);
    CHECK(same_bits(two[0], 0.0) && two[1] == 77.0);
    CHECK(cichowiej_save_length(s->block, sizeof s->block, lengths, 2) == CICHOWIEJ_ACCEPTED && lengths[0] != 77 && lengths[1] == 77);
    CHECK(put_air(cells) == CICHOWIEJ_ACCEPTED && cells[0] == 8 && cells[1] == 77);
    s->block[CICHOWIEJ_AT_PERIODIC] = 2;
    CHECK(put_air(cells) == CICHOWIEJ_BAD_STUDY && cells[0] == 0 && cells[1] == 77);
}

void pointers(void)
{
    no_room();
    no_stores();
    answers();
}
