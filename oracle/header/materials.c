/* A material by named fields: what the engine makes of its bytes, and which cells a call reaches. */
#include "check.h"

static held sheet;

/* the three numbers and the id of a cell */
static bool cell_has(size_t cell, double eps_r, double mu_r, double sigma, uint32_t id)
{
    const cichowiej_stores *s = &sheet.study.stores;
    const size_t cells = s->lengths.ids;
    return s->media[CICHOWIEJ_PART_EPS_R * cells + cell] == eps_r && s->media[CICHOWIEJ_PART_MU_R * cells + cell] == mu_r
           && s->media[CICHOWIEJ_PART_SIGMA * cells + cell] == sigma && s->ids[cell] == id;
}

/* one cell in a grid of three different sides, and no other */
static void one_cell(void)
{
    const cichowiej_material paper = plain(2.0, 3.0, 5.0);
    const cichowiej_put air = cichowiej_numbers(7.0, 11.0, 13.0);
    const size_t at = cichowiej_cell(3, 4, 2, 3, 1), beside = cichowiej_cell(3, 4, 1, 2, 4);
    cichowiej_study *s = &sheet.study;
    size_t cell;
    uint32_t id = 0, cells = 9;
    open_held(&sheet, 3, 4, 5, 0);
    CHECK(cichowiej_study_add_material(s, &paper, &id) == CICHOWIEJ_ACCEPTED && id == 1);
    CHECK(cichowiej_study_put_box(s, 2, 3, 3, 4, 1, 2, cichowiej_library(id), &cells) == CICHOWIEJ_ACCEPTED && cells == 1);
    CHECK(cichowiej_study_put_box(s, 1, 2, 2, 3, 4, 5, air, NULL) == CICHOWIEJ_ACCEPTED);
    for (cell = 0; cell < s->stores.lengths.ids; cell++)
        if (cell == at)
            CHECK(cell_has(cell, 2.0, 5.0, 3.0, 1));
        else if (cell == beside)
            CHECK(cell_has(cell, 7.0, 11.0, 13.0, 0));
        else
            CHECK(cell_has(cell, 1.0, 1.0, 0.0, 0));
}

/* ends beyond the grid are cut, an empty and a backward range hold nothing, and a half-space begins at its plane */
static void ranges(void)
{
    const cichowiej_material paper = plain(2.0, 3.0, 5.0);
    cichowiej_study *s = &sheet.study;
    const cichowiej_put put = cichowiej_library(1);
    size_t cell;
    uint32_t cells = 9;
    open_held(&sheet, 2, 2, 3, 0);
    CHECK(cichowiej_study_add_material(s, &paper, NULL) == CICHOWIEJ_ACCEPTED);
    CHECK(cichowiej_study_put_box(s, 1, 1, 0, 2, 0, 3, put, &cells) == CICHOWIEJ_ACCEPTED && cells == 0);
    CHECK(cichowiej_study_put_box(s, 0, 2, 1, 0, 0, 3, put, &cells) == CICHOWIEJ_ACCEPTED && cells == 0);
    CHECK(cichowiej_study_put_box(s, 0, 2, 0, 2, 3, SIZE_MAX, put, &cells) == CICHOWIEJ_ACCEPTED && cells == 0);
    for (cell = 0; cell < 12; cell++)
        CHECK(cell_has(cell, 1.0, 1.0, 0.0, 0));
    CHECK(cichowiej_study_assign_material_halfspace_z(s, 1, 2) == CICHOWIEJ_ACCEPTED);
    for (cell = 0; cell < 12; cell++)
        CHECK(cell < 8 ? cell_has(cell, 1.0, 1.0, 0.0, 0) : cell_has(cell, 2.0, 5.0, 3.0, 1));
    CHECK(cichowiej_study_put_box(s, 0, SIZE_MAX, 0, SIZE_MAX, 0, SIZE_MAX, put, &cells) == CICHOWIEJ_ACCEPTED && cells == 12);
    for (cell = 0; cell < 12; cell++)
        CHECK(cell_has(cell, 2.0, 5.0, 3.0, 1));
}

/* the call with everything named: three numbers or a material into i 1 to 9, j 0 to 2, k from 1 on, of 4x3x2 cells */
static uint32_t put_six(bool library, uint32_t id, double number, uint32_t *cells)
{
    cichowiej_study *s = &sheet.study;
    const cichowiej_stores *lent = &s->stores;
    *cells = 9;
    return cichowiej_put_box(s->block, CICHOWIEJ_BLOCK_LENGTH, 1, 9, 0, 2, 1, SIZE_MAX, library, id, number, number, number, lent->media,
                             lent->lengths.media, lent->ids, lent->lengths.ids, cells, 1);
}

/* cells of the six that have these numbers and this id, and cells beside them that have not those of vacuum */
static void six_have(double eps_r, double mu_r, double sigma, uint32_t id)
{
    size_t i, j, k;
    for (k = 0; k < 2; k++)
        for (j = 0; j < 3; j++)
            for (i = 0; i < 4; i++)
                if (i >= 1 && j < 2 && k == 1)
                    CHECK(cell_has(cichowiej_cell(4, 3, i, j, k), eps_r, mu_r, sigma, id));
                else
                    CHECK(cell_has(cichowiej_cell(4, 3, i, j, k), 1.0, 1.0, 0.0, 0));
}

static double not_a_number(void)
{
    static const uint8_t bytes[8] = {0, 0, 0, 0, 0, 0, 0xF8, 0x7F};
    return cichowiej_get_double(bytes);
}

/* what is not asked for is not looked at: an id that no material has with three numbers, numbers that are none with a material */
static void what_is_put(void)
{
    const cichowiej_material paper = plain(2.0, 3.0, 5.0);
    const cichowiej_put numbers = cichowiej_numbers(7.0, 11.0, 13.0), material = cichowiej_library(3);
    uint32_t cells;
    CHECK(!numbers.library && numbers.id == 0 && numbers.eps_r == 7.0 && numbers.mu_r == 11.0 && numbers.sigma == 13.0);
    CHECK(material.library && material.id == 3 && material.eps_r == 0.0 && material.mu_r == 0.0 && material.sigma == 0.0);
    open_held(&sheet, 4, 3, 2, 0);
    CHECK(put_six(false, 4000000000u, 7.0, &cells) == CICHOWIEJ_ACCEPTED && cells == 6);
    six_have(7.0, 7.0, 7.0, 0);
    CHECK(put_six(true, 1, not_a_number(), &cells) == CICHOWIEJ_NO_SUCH_MATERIAL && cells == 0);
    six_have(7.0, 7.0, 7.0, 0);
    CHECK(cichowiej_study_add_material(&sheet.study, &paper, NULL) == CICHOWIEJ_ACCEPTED);
    CHECK(put_six(true, 1, not_a_number(), &cells) == CICHOWIEJ_ACCEPTED && cells == 6);
    six_have(2.0, 5.0, 3.0, 1);
    CHECK(put_six(false, 0, 11.0, &cells) == CICHOWIEJ_ACCEPTED && cells == 6);
    six_have(11.0, 11.0, 11.0, 1);
    sheet.study.stores.lengths.ids--;
    CHECK(put_six(false, 0, 13.0, &cells) == CICHOWIEJ_BAD_STORE && cells == 0);
    CHECK(put_six(true, 2, 13.0, &cells) == CICHOWIEJ_BAD_STORE && cells == 0);
    sheet.study.stores.lengths.ids++;
    CHECK(put_six(true, 2, 13.0, &cells) == CICHOWIEJ_NO_SUCH_MATERIAL && cells == 0);
    six_have(11.0, 11.0, 11.0, 1);
}

static bool same_pole(const cichowiej_pole *a, const cichowiej_pole *b)
{
    return a->tag == b->tag && a->delta_eps == b->delta_eps && a->omega0 == b->omega0 && a->gamma == b->gamma
           && a->omega_p == b->omega_p && a->tau == b->tau;
}

/* read back from the block: what was handed over, and nothing of the places and fields that are not meant */
static void read_back(void)
{
    const cichowiej_pole lorentz = {CICHOWIEJ_LORENTZ, 2.0, 3.0, 5.0, 0.0, 0.0}, drude = {CICHOWIEJ_DRUDE, 0.0, 0.0, 7.0, 11.0, 0.0};
    const cichowiej_pole water = {CICHOWIEJ_DEBYE, 13.0, 0.0, 0.0, 0.0, 17.0}, none = {CICHOWIEJ_NO_POLE, 0.0, 0.0, 0.0, 0.0, 0.0};
    cichowiej_material all = plain(19.0, 23.0, 29.0), back;
    cichowiej_study *s = &sheet.study;
    open_held(&sheet, 1, 1, 1, CICHOWIEJ_MAX_POLE_SLOTS);
    back = cichowiej_block_material(s->block, 0);
    CHECK(back.eps_inf == 1.0 && back.sigma == 0.0 && back.mu_r == 1.0 && back.pole_count == 0 && same_pole(&back.poles[0], &none));
    all.pole_count = 3;
    all.poles[0] = lorentz;
    all.poles[1] = drude;
    all.poles[2] = water;
    all.poles[0].tau = all.poles[1].tau = all.poles[2].gamma = 31.0;
    CHECK(cichowiej_study_add_material(s, &all, NULL) == CICHOWIEJ_ACCEPTED);
    CHECK(cichowiej_study_set_periodic(s, true, true, true) == CICHOWIEJ_ACCEPTED);
    back = cichowiej_block_material(s->block, 1);
    CHECK(back.eps_inf == 19.0 && back.sigma == 23.0 && back.mu_r == 29.0 && back.pole_count == 3);
    CHECK(same_pole(&back.poles[0], &lorentz) && same_pole(&back.poles[1], &drude) && same_pole(&back.poles[2], &water));
    CHECK(same_pole(&back.poles[CICHOWIEJ_MAX_POLE_SLOTS - 1], &none));
}

/* a tag and a count that no byte holds are refused and not cut to some other */
static void not_packed(void)
{
    cichowiej_material wrong = debye(2.0, 3.0);
    cichowiej_study *s = &sheet.study;
    open_held(&sheet, 1, 1, 1, CICHOWIEJ_MAX_POLE_SLOTS);
    wrong.poles[0].tag = CICHOWIEJ_NO_POLE;
    CHECK(cichowiej_study_add_material(s, &wrong, NULL) == CICHOWIEJ_BAD_STUDY);
    wrong.poles[0].tag = CICHOWIEJ_DEBYE + 1;
    CHECK(cichowiej_study_add_material(s, &wrong, NULL) == CICHOWIEJ_BAD_STUDY);
    wrong.poles[0].tag = 256 + CICHOWIEJ_DEBYE;
    CHECK(cichowiej_study_add_material(s, &wrong, NULL) == CICHOWIEJ_BAD_STUDY);
    wrong.poles[0].tag = CICHOWIEJ_DEBYE;
    wrong.poles[1] = wrong.poles[2] = wrong.poles[3] = wrong.poles[0];
    wrong.pole_count = CICHOWIEJ_MAX_POLE_SLOTS + 1;
    CHECK(cichowiej_study_add_material(s, &wrong, NULL) == CICHOWIEJ_TOO_MANY_POLES);
    wrong.pole_count = 256;
    CHECK(cichowiej_study_add_material(s, &wrong, NULL) == CICHOWIEJ_TOO_MANY_POLES);
    wrong.pole_count = 256 + 1;
    CHECK(cichowiej_study_add_material(s, &wrong, NULL) == CICHOWIEJ_TOO_MANY_POLES);
    wrong.pole_count = CICHOWIEJ_MAX_POLE_SLOTS;
    CHECK(cichowiej_study_add_material(s, &wrong, NULL) == CICHOWIEJ_ACCEPTED);
}

void materials(void)
{
    one_cell();
    ranges();
    what_is_put();
    read_back();
    not_packed();
}
