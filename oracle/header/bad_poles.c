/* Poles that cannot be stepped, since a1, a2 or a3 is not finite: BAD_POLE as they are added, BAD_RECORD in a save; and which poles of a
   block are judged, and by what. That a block with such a pole is BAD_STUDY in every call, wrappers.c has. */
#include "check.h"

static held poled, before_it;

/* one cell, all spacings 1.0 */
static cichowiej_study *with_slots(size_t pole_slots, size_t constants)
{
    lend(&poled, 1, 1, 1, pole_slots);
    CHECK(cichowiej_study_open(&poled.study, 1, 1, 1, pole_slots, constants, 1.0, 1.0, 1.0, 1.0) == CICHOWIEJ_ACCEPTED);
    return &poled.study;
}

/* the answer to a material that is to be added: refused, it has changed nothing, and its id is 0 */
static uint32_t adding_answers(cichowiej_material material)
{
    uint32_t id = 77, refusal;
    copy_held(&before_it, &poled);
    refusal = cichowiej_study_add_material(&poled.study, &material, &id);
    if (refusal == CICHOWIEJ_ACCEPTED)
        CHECK(id + 1 == cichowiej_block_material_count(poled.study.block));
    else
        CHECK(id == 0 && same_held(&poled, &before_it));
    return refusal;
}

/* a relaxation time of 0, with no slot, with one, and where no material more may stand */
static void no_time_to_relax(void)
{
    uint32_t count;
    with_slots(0, CICHOWIEJ_CONSTANTS_OLD);
    CHECK(adding_answers(debye(2.0, 0.0)) == CICHOWIEJ_TOO_MANY_POLES);
    with_slots(1, CICHOWIEJ_CONSTANTS_OLD);
    CHECK(adding_answers(debye(2.0, 0.0)) == CICHOWIEJ_BAD_POLE);
    for (count = 1; count < CICHOWIEJ_MAX_MATERIALS; count++)
        CHECK(adding_answers(debye(2.0, 3.0)) == CICHOWIEJ_ACCEPTED);
    CHECK(adding_answers(debye(2.0, 0.0)) == CICHOWIEJ_BAD_POLE);
    CHECK(adding_answers(debye(2.0, 3.0)) == CICHOWIEJ_FULL);
}

/* each place of a material, and each kind of pole: with gamma -2/dt a denominator is 0 */
static void every_place(void)
{
    size_t place;
    with_slots(CICHOWIEJ_MAX_POLE_SLOTS, CICHOWIEJ_CONSTANTS_2019);
    for (place = 0; place < CICHOWIEJ_MAX_POLE_SLOTS; place++) {
        cichowiej_material all = debye(2.0, 3.0);
        all.pole_count = CICHOWIEJ_MAX_POLE_SLOTS;
        all.poles[1] = all.poles[2] = all.poles[3] = all.poles[0];
        CHECK(adding_answers(all) == CICHOWIEJ_ACCEPTED);
        all.poles[place].tag = CICHOWIEJ_LORENTZ;
        all.poles[place].omega0 = 1.0;
        all.poles[place].gamma = -2.0;
        CHECK(adding_answers(all) == CICHOWIEJ_BAD_POLE);
        all.poles[place].tag = CICHOWIEJ_DRUDE;
        all.poles[place].omega_p = 1.0;
        CHECK(adding_answers(all) == CICHOWIEJ_BAD_POLE);
        all.poles[place].gamma = -1.0;
        CHECK(adding_answers(all) == CICHOWIEJ_ACCEPTED);
        all.poles[place].omega_p = 1e200;
        CHECK(adding_answers(all) == CICHOWIEJ_BAD_POLE);
    }
}

/* with a tau of 3DA269973FB889A1 a3 of 1.7e308 is beyond the largest double by the older constants, and below it by those of 2019 */
static double edge_tau(void)
{
    static const uint8_t bytes[8] = {0xA1, 0x89, 0xB8, 0x3F, 0x97, 0x69, 0xA2, 0x3D};
    return cichowiej_get_double(bytes);
}

static void edges(void)
{
    with_slots(1, CICHOWIEJ_CONSTANTS_OLD);
    CHECK(adding_answers(debye(2.0, 0x1p-1023)) == CICHOWIEJ_ACCEPTED);
    CHECK(adding_answers(debye(2.0, 0x1p-1024)) == CICHOWIEJ_BAD_POLE);
    CHECK(adding_answers(debye(1.7e308, edge_tau())) == CICHOWIEJ_BAD_POLE);
    CHECK(cichowiej_debye_coeffs(1.7e308, edge_tau(), cichowiej_eps0(), 1.0).refusal == CICHOWIEJ_BAD_POLE);
    with_slots(1, CICHOWIEJ_CONSTANTS_2019);
    CHECK(adding_answers(debye(1.7e308, edge_tau())) == CICHOWIEJ_ACCEPTED);
    CHECK(cichowiej_debye_coeffs(1.7e308, edge_tau(), cichowiej_eps0_2019(), 1.0).refusal == CICHOWIEJ_ACCEPTED);
    CHECK(cichowiej_study_build_dispersion(&poled.study) == CICHOWIEJ_ACCEPTED);
    CHECK(cichowiej_study_step(&poled.study, 1.0) == CICHOWIEJ_ACCEPTED);
}

static uint32_t answered(cichowiej_study *s)
{
    return cichowiej_study_set_periodic(s, false, false, false);
}

/* a block's poles go by its constants and its dt, and are judged after its size and spacings */
static void by_the_record(void)
{
    cichowiej_study *s = with_slots(1, CICHOWIEJ_CONSTANTS_2019);
    CHECK(adding_answers(debye(1.7e308, edge_tau())) == CICHOWIEJ_ACCEPTED && answered(s) == CICHOWIEJ_ACCEPTED);
    s->block[CICHOWIEJ_AT_CONSTANTS] = CICHOWIEJ_CONSTANTS_OLD;
    CHECK(answered(s) == CICHOWIEJ_BAD_STUDY);
    cichowiej_put_double(s->block + CICHOWIEJ_AT_DT, 0.5);
    CHECK(answered(s) == CICHOWIEJ_ACCEPTED);
    cichowiej_put_double(s->block + CICHOWIEJ_AT_DT, 2.0);
    CHECK(answered(s) == CICHOWIEJ_BAD_STUDY);
    cichowiej_put_double(s->block + CICHOWIEJ_AT_DT, 0.0);
    CHECK(answered(s) == CICHOWIEJ_BAD_SPACING);
    cichowiej_put_number(s->block + CICHOWIEJ_AT_NX, 2, 0);
    CHECK(answered(s) == CICHOWIEJ_BAD_SIZE);
}

/* a place and a material past their counts are zeros, by which a Debye pole could not be stepped: they are judged once they are counted */
static void blank(void)
{
    cichowiej_study *s = with_slots(CICHOWIEJ_MAX_POLE_SLOTS, CICHOWIEJ_CONSTANTS_OLD);
    uint8_t *material = s->block + CICHOWIEJ_AT_MATERIALS + CICHOWIEJ_MATERIAL_LENGTH, *next;
    uint32_t count;
    CHECK(answered(s) == CICHOWIEJ_ACCEPTED);
    for (count = 0; count < CICHOWIEJ_MAX_POLE_SLOTS; count++) {
        next = material + CICHOWIEJ_MATERIAL_AT_POLES + count * CICHOWIEJ_POLE_LENGTH;
        s->block[CICHOWIEJ_AT_MATERIAL_COUNT] = 2;
        CHECK(answered(s) == CICHOWIEJ_ACCEPTED);
        next[CICHOWIEJ_POLE_AT_TAG] = CICHOWIEJ_DEBYE;
        material[CICHOWIEJ_MATERIAL_AT_POLE_COUNT]++;
        CHECK(answered(s) == CICHOWIEJ_BAD_STUDY);
        cichowiej_put_double(next + CICHOWIEJ_POLE_AT_SECOND, 3.0);
        CHECK(answered(s) == CICHOWIEJ_ACCEPTED);
    }
}

/* ML is judged once it is whole, and before the mark of CI behind it */
static void in_a_save(void)
{
    static uint8_t saved[SAVE];
    const size_t library = 6 + CICHOWIEJ_AT_MATERIALS + 6, tau = library + CICHOWIEJ_MATERIAL_LENGTH + AT_TAU;
    const size_t behind = library + 2 * CICHOWIEJ_MATERIAL_LENGTH;
    cichowiej_study *s = with_slots(1, CICHOWIEJ_CONSTANTS_OLD);
    size_t length = 0;
    CHECK(adding_answers(debye(2.0, 3.0)) == CICHOWIEJ_ACCEPTED);
    CHECK(cichowiej_study_save_length(s, &length) == CICHOWIEJ_ACCEPTED);
    CHECK(cichowiej_study_save(s, saved, sizeof saved) == CICHOWIEJ_ACCEPTED);
    CHECK(memcmp(saved + behind, "CI", 2) == 0 && cichowiej_get_double(saved + tau) == 3.0);
    copy_held(&before_it, &poled);
    cichowiej_put_double(saved + tau, 0.0);
    CHECK(cichowiej_study_rewind(s, saved, length) == CICHOWIEJ_BAD_RECORD);
    saved[behind]++;
    CHECK(cichowiej_study_rewind(s, saved, length) == CICHOWIEJ_BAD_RECORD);
    CHECK(cichowiej_study_rewind(s, saved, behind) == CICHOWIEJ_BAD_RECORD);
    CHECK(cichowiej_study_rewind(s, saved, behind - 1) == CICHOWIEJ_SHORT);
    cichowiej_put_double(saved + tau, 3.0);
    CHECK(cichowiej_study_rewind(s, saved, behind) == CICHOWIEJ_SHORT);
    CHECK(cichowiej_study_rewind(s, saved, length) == CICHOWIEJ_BAD_MARK);
    CHECK(same_held(&poled, &before_it));
    saved[behind]--;
    CHECK(cichowiej_study_rewind(s, saved, length) == CICHOWIEJ_ACCEPTED);
}

void bad_poles(void)
{
    no_time_to_relax();
    every_place();
    edges();
    by_the_record();
    blank();
    in_a_save();
}
