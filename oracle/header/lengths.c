/* Every length that the header gives: just that is taken, one element fewer and one more are not. */
#include "check.h"

static held lent;

static void of_stores(size_t nx, size_t ny, size_t nz, size_t pole_slots)
{
    cichowiej_study *s = &lent.study;
    size_t store;
    lend(&lent, nx, ny, nz, pole_slots);
    for (store = 0; store < STORES; store++) {
        (*length_of(&lent, store))--;
        CHECK(cichowiej_study_open(s, nx, ny, nz, pole_slots, CICHOWIEJ_CONSTANTS_OLD, 1.0, 1.0, 1.0, 1.0) == CICHOWIEJ_BAD_STORE);
        (*length_of(&lent, store)) += 2;
        CHECK(cichowiej_study_open(s, nx, ny, nz, pole_slots, CICHOWIEJ_CONSTANTS_OLD, 1.0, 1.0, 1.0, 1.0) == CICHOWIEJ_BAD_STORE);
        (*length_of(&lent, store))--;
        CHECK(cichowiej_study_open(s, nx, ny, nz, pole_slots, CICHOWIEJ_CONSTANTS_OLD, 1.0, 1.0, 1.0, 1.0) == CICHOWIEJ_ACCEPTED);
    }
}

/* an opening into a room of this many bytes */
static uint32_t into(size_t block_length)
{
    static uint8_t room[CICHOWIEJ_BLOCK_LENGTH + 1];
    const cichowiej_stores *s = &lent.study.stores;
    return cichowiej_open(room, block_length, 2, 3, 4, 1, CICHOWIEJ_CONSTANTS_OLD, 1.0, 1.0, 1.0, 1.0, s->e, s->lengths.e, s->h,
                          s->lengths.h, s->media, s->lengths.media, s->psi_e, s->lengths.psi_e, s->psi_h, s->lengths.psi_h, s->tables,
                          s->lengths.tables, s->poles, s->lengths.poles, s->aux, s->lengths.aux, s->ids, s->lengths.ids);
}

static void of_bytes(void)
{
    uint8_t bytes[CICHOWIEJ_MATERIAL_LENGTH + 1];
    const cichowiej_material paper = plain(2.0, 0.0, 1.0);
    uint8_t *block = lent.study.block;
    open_held(&lent, 2, 3, 4, 1);
    CHECK(into(CICHOWIEJ_BLOCK_LENGTH - 1) == CICHOWIEJ_BAD_STORE && into(CICHOWIEJ_BLOCK_LENGTH + 1) == CICHOWIEJ_BAD_STORE);
    CHECK(into(CICHOWIEJ_BLOCK_LENGTH) == CICHOWIEJ_ACCEPTED);
    cichowiej_pack_material(&paper, bytes);
    CHECK(cichowiej_add_material(block, sizeof lent.study.block, bytes, CICHOWIEJ_MATERIAL_LENGTH - 1, NULL, 0) == CICHOWIEJ_BAD_STORE);
    CHECK(cichowiej_add_material(block, sizeof lent.study.block, bytes, CICHOWIEJ_MATERIAL_LENGTH + 1, NULL, 0) == CICHOWIEJ_BAD_STORE);
    CHECK(cichowiej_add_material(block, sizeof lent.study.block, bytes, CICHOWIEJ_MATERIAL_LENGTH, NULL, 0) == CICHOWIEJ_ACCEPTED);
}

/* given_length is that of tables */
static void of_given(void)
{
    static double given[6 * 9 + 1];
    cichowiej_study *s = &lent.study;
    size_t length = s->stores.lengths.tables;
    open_held(&lent, 2, 3, 4, 1);
    CHECK(length < LENGTH(given));
    CHECK(cichowiej_study_set_boundary_cpml(s, true, true, true, 1, given, length - 1, NULL) == CICHOWIEJ_BAD_STORE);
    CHECK(cichowiej_study_set_boundary_cpml(s, true, true, true, 1, given, length + 1, NULL) == CICHOWIEJ_BAD_STORE);
    CHECK(cichowiej_study_set_boundary_cpml(s, true, true, true, 1, given, length, NULL) == CICHOWIEJ_ACCEPTED);
}

/* the largest study's lengths, without wrapping */
static void of_the_largest(void)
{
    const cichowiej_lengths l = cichowiej_store_lengths(512, 512, 4, 4);
    CHECK(l.e == 3145728 && l.psi_h == 6291456 && l.poles == 28311552 && l.ids == 1048576 && l.tables == 6168 && l.aux == 104);
    CHECK(cichowiej_doubles(l) == 3u * 3145728 + 2u * 6291456 + 28311552 + 6168 + 104);
}

void lengths(void)
{
    of_stores(1, 1, 1, 0);
    of_stores(2, 3, 5, 0);
    of_stores(5, 3, 2, 1);
    of_stores(1, 7, 1, 4);
    of_bytes();
    of_given();
    of_the_largest();
}
