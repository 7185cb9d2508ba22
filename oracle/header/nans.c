/* A block and a material's bytes may hold any NaN; what is written is the one; a save may hold that one alone. */
#include "check.h"

static held odd, after_odd;
static const uint8_t the_nan[8] = {0, 0, 0, 0, 0, 0, 0xF8, 0x7F};
/* a quiet one with a payload, a signalling one, and both with the sign set */
static const uint8_t others[4][8] = {{1, 2, 3, 4, 5, 6, 0xF8, 0x7F},
                                     {1, 0, 0, 0, 0, 0, 0xF0, 0x7F},
                                     {1, 2, 3, 4, 5, 6, 0xF8, 0xFF},
                                     {1, 0, 0, 0, 0, 0, 0xF0, 0xFF}};

/* a study with a NaN in its time and in its material 1 */
static void with_nan(const uint8_t *nan)
{
    const cichowiej_material wet = debye(2.0, 3.0);
    open_held(&odd, 2, 2, 2, 1);
    CHECK(cichowiej_study_add_material(&odd.study, &wet, NULL) == CICHOWIEJ_ACCEPTED);
    memcpy(odd.study.block + CICHOWIEJ_AT_TIME, nan, 8);
    memcpy(odd.study.block + CICHOWIEJ_AT_MATERIALS + CICHOWIEJ_MATERIAL_LENGTH + CICHOWIEJ_MATERIAL_AT_SIGMA, nan, 8);
    copy_held(&after_odd, &odd);
}

static void readings(void)
{
    static uint8_t save[SAVE];
    double answer;
    size_t length = 0;
    CHECK(cichowiej_study_total_energy(&after_odd.study, &answer) == CICHOWIEJ_ACCEPTED && same_held(&odd, &after_odd));
    CHECK(cichowiej_study_plane_reading(&after_odd.study, 0, &answer) == CICHOWIEJ_ACCEPTED && same_held(&odd, &after_odd));
    CHECK(cichowiej_study_save_length(&after_odd.study, &length) == CICHOWIEJ_ACCEPTED && same_held(&odd, &after_odd));
    CHECK(cichowiej_study_save(&after_odd.study, save, sizeof save) == CICHOWIEJ_ACCEPTED && same_held(&odd, &after_odd));
    CHECK(memcmp(save + 6 + CICHOWIEJ_AT_TIME, the_nan, 8) == 0);
    CHECK(cichowiej_study_rewind(&after_odd.study, save, length) == CICHOWIEJ_ACCEPTED);
    CHECK(memcmp(after_odd.study.block + CICHOWIEJ_AT_TIME, the_nan, 8) == 0);
    memcpy(save + 6 + CICHOWIEJ_AT_TIME, odd.study.block + CICHOWIEJ_AT_TIME, 8);
    CHECK(cichowiej_study_rewind(&after_odd.study, save, length)
          == (memcmp(odd.study.block + CICHOWIEJ_AT_TIME, the_nan, 8) == 0 ? CICHOWIEJ_ACCEPTED : CICHOWIEJ_BAD_RECORD));
}

/* the clock's bytes are written, and a NaN elsewhere stays as it is */
static void stepped_with(uint32_t (*take)(cichowiej_study *))
{
    const uint8_t *block = after_odd.study.block, *old = odd.study.block;
    copy_held(&after_odd, &odd);
    CHECK(take(&after_odd.study) == CICHOWIEJ_ACCEPTED);
    CHECK(memcmp(block, old, CICHOWIEJ_AT_TIME) == 0 && memcmp(block + CICHOWIEJ_AT_TIME, the_nan, 8) == 0);
    CHECK(cichowiej_block_steps(block) == 1);
    CHECK(memcmp(block + CICHOWIEJ_AT_CONSTANTS, old + CICHOWIEJ_AT_CONSTANTS, CICHOWIEJ_BLOCK_LENGTH - CICHOWIEJ_AT_CONSTANTS) == 0);
}

static uint32_t take_step(cichowiej_study *study)
{
    return cichowiej_study_step(study, 1.0);
}

static uint32_t take_run(cichowiej_study *study)
{
    const double sample = 1.0;
    return cichowiej_study_run(study, &sample, 1);
}

/* the other calls write the whole block anew */
static void edited(void)
{
    const size_t sigma = CICHOWIEJ_AT_MATERIALS + CICHOWIEJ_MATERIAL_LENGTH + CICHOWIEJ_MATERIAL_AT_SIGMA;
    copy_held(&after_odd, &odd);
    CHECK(cichowiej_study_set_periodic(&after_odd.study, true, false, false) == CICHOWIEJ_ACCEPTED);
    CHECK(memcmp(after_odd.study.block + CICHOWIEJ_AT_TIME, the_nan, 8) == 0);
    CHECK(memcmp(after_odd.study.block + sigma, the_nan, 8) == 0);
    copy_held(&after_odd, &odd);
    CHECK(cichowiej_study_slab_z(&after_odd.study, 1, 0) == CICHOWIEJ_BAD_REGION && same_held(&odd, &after_odd));
}

/* a NaN among the spacings is a spacing that is not finite, and not a block that is no record */
static void spacing(const uint8_t *nan)
{
    copy_held(&after_odd, &odd);
    memcpy(after_odd.study.block + CICHOWIEJ_AT_DY, nan, 8);
    CHECK(cichowiej_study_set_periodic(&after_odd.study, true, false, false) == CICHOWIEJ_BAD_SPACING);
}

/* a material may have a NaN among its three numbers, and not in its pole */
static void added(const uint8_t *nan)
{
    const cichowiej_material wet = debye(2.0, 3.0);
    const size_t entry = CICHOWIEJ_AT_MATERIALS + 2 * CICHOWIEJ_MATERIAL_LENGTH;
    uint8_t material[CICHOWIEJ_MATERIAL_LENGTH];
    copy_held(&after_odd, &odd);
    cichowiej_pack_material(&wet, material);
    memcpy(material + CICHOWIEJ_MATERIAL_AT_MU_R, nan, 8);
    CHECK(cichowiej_add_material(after_odd.study.block, CICHOWIEJ_BLOCK_LENGTH, material, sizeof material, NULL, 0) == CICHOWIEJ_ACCEPTED);
    CHECK(memcmp(after_odd.study.block + entry + CICHOWIEJ_MATERIAL_AT_MU_R, the_nan, 8) == 0);
    copy_held(&after_odd, &odd);
    memcpy(material + AT_TAU, nan, 8);
    CHECK(cichowiej_add_material(after_odd.study.block, CICHOWIEJ_BLOCK_LENGTH, material, sizeof material, NULL, 0) == CICHOWIEJ_BAD_POLE);
    CHECK(same_held(&odd, &after_odd));
}

static void with_each(const uint8_t *nan)
{
    with_nan(nan);
    readings();
    stepped_with(take_step);
    stepped_with(take_run);
    edited();
    spacing(nan);
    added(nan);
}

void nans(void)
{
    size_t at;
    with_each(the_nan);
    for (at = 0; at < LENGTH(others); at++)
        with_each(others[at]);
}
