/* The two sets of constants: what the functions answer, and that a study goes by the set it was opened with. */
#include "check.h"

static held chosen, other;

/* decimal numbers as the papers have them: C reads the double that is nearest */
static void stated(void)
{
    CHECK(cichowiej_eps0() == 8.854187817e-12 && cichowiej_eps0_2019() == 8.8541878128e-12);
    CHECK(cichowiej_mu0() == 4.0 * 3.14159265358979323846 * 1e-7 && cichowiej_mu0_2019() == 1.25663706212e-6);
    CHECK(cichowiej_c0() == 1.0 / cichowiej_root(cichowiej_eps0() * cichowiej_mu0()) && cichowiej_c0_2019() == 299792458.0);
}

/* one cell of 1 m on each side, opened with these constants */
static cichowiej_study *opened_with(held *to, size_t set)
{
    lend(to, 1, 1, 1, 0);
    CHECK(cichowiej_study_open(&to->study, 1, 1, 1, 0, set, 1.0, 1.0, 1.0, 1.0) == CICHOWIEJ_ACCEPTED);
    CHECK(cichowiej_block_constants(to->study.block) == set);
    return &to->study;
}

/* the energy of ex alone is eps0/2, and of hx alone mu0/2 */
static void in_the_energy(size_t set, double eps0, double mu0)
{
    cichowiej_study *s = opened_with(&chosen, set);
    double energy = -1.0;
    s->stores.e[CICHOWIEJ_PART_X] = 1.0;
    CHECK(cichowiej_study_total_energy(s, &energy) == CICHOWIEJ_ACCEPTED && same_bits(energy, 0.5 * eps0));
    s->stores.e[CICHOWIEJ_PART_X] = 0.0;
    s->stores.h[CICHOWIEJ_PART_X] = 1.0;
    CHECK(cichowiej_study_total_energy(s, &energy) == CICHOWIEJ_ACCEPTED && same_bits(energy, 0.5 * mu0));
}

/* one plane above another: ex of the upper one alone, in cells of 1 m and a step of 1 s, gives hy between them 1/mu0 */
static void in_the_step(size_t set, double mu0)
{
    cichowiej_study *s = &chosen.study;
    double hy;
    lend(&chosen, 1, 1, 2, 0);
    CHECK(cichowiej_study_open(s, 1, 1, 2, 0, set, 1.0, 1.0, 1.0, 1.0) == CICHOWIEJ_ACCEPTED);
    CHECK(cichowiej_study_set_periodic(s, true, true, false) == CICHOWIEJ_ACCEPTED);
    s->stores.e[2 * CICHOWIEJ_PART_X + cichowiej_cell(1, 1, 0, 0, 1)] = 1.0;
    CHECK(cichowiej_study_step(s, 0.0) == CICHOWIEJ_ACCEPTED);
    hy = s->stores.h[2 * CICHOWIEJ_PART_Y + cichowiej_cell(1, 1, 0, 0, 0)];
    CHECK(same_bits(hy, -1.0 / mu0));
}

/* another set is no set: in an opening, and in a block whose size and spacings are judged before it */
static void no_set(void)
{
    const size_t none = CICHOWIEJ_CONSTANTS_2019 + 1;
    cichowiej_study *s = opened_with(&chosen, CICHOWIEJ_CONSTANTS_2019);
    copy_held(&other, &chosen);
    CHECK(cichowiej_study_open(s, 1, 1, 1, 0, none, 0.0, 1.0, 1.0, 1.0) == CICHOWIEJ_BAD_SPACING);
    s->stores.lengths.e++;
    CHECK(cichowiej_study_open(s, 1, 1, 1, 0, none, 1.0, 1.0, 1.0, 1.0) == CICHOWIEJ_BAD_STUDY);
    CHECK(cichowiej_study_open(s, 1, 1, 1, 0, (size_t)256, 1.0, 1.0, 1.0, 1.0) == CICHOWIEJ_BAD_STUDY);
    s->stores.lengths.e--;
    CHECK(same_held(&chosen, &other));
    s->block[CICHOWIEJ_AT_CONSTANTS] = (uint8_t)none;
    CHECK(cichowiej_study_step(s, 0.0) == CICHOWIEJ_BAD_STUDY);
    cichowiej_put_number(s->block + CICHOWIEJ_AT_NX, 2, 0);
    CHECK(cichowiej_study_step(s, 0.0) == CICHOWIEJ_BAD_SIZE);
}

void constants(void)
{
    stated();
    in_the_energy(CICHOWIEJ_CONSTANTS_OLD, cichowiej_eps0(), cichowiej_mu0());
    in_the_energy(CICHOWIEJ_CONSTANTS_2019, cichowiej_eps0_2019(), cichowiej_mu0_2019());
    in_the_step(CICHOWIEJ_CONSTANTS_OLD, cichowiej_mu0());
    in_the_step(CICHOWIEJ_CONSTANTS_2019, cichowiej_mu0_2019());
    no_set();
}
