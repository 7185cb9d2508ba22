/* The save: its length, the bytes beyond it, and the way back. */
#include "check.h"

static held kept, other;
static uint8_t room[SAVE];

static void there_and_back(void)
{
    const cichowiej_material wet = debye(2.0, 3.0);
    size_t length = 0, at;
    open_held(&kept, 3, 4, 5, 2);
    CHECK(cichowiej_study_add_material(&kept.study, &wet, NULL) == CICHOWIEJ_ACCEPTED);
    CHECK(cichowiej_study_box_region(&kept.study, 0, 1, 1, 2, 2, 3) == CICHOWIEJ_ACCEPTED);
    fill(&kept, 2);
    CHECK(cichowiej_study_step(&kept.study, 1.0) == CICHOWIEJ_ACCEPTED);
    CHECK(cichowiej_study_save_length(&kept.study, &length) == CICHOWIEJ_ACCEPTED && length < SAVE);
    memset(room, 77, sizeof room);
    CHECK(cichowiej_study_save(&kept.study, room, length - 1) == CICHOWIEJ_NO_ROOM);
    for (at = 0; at < sizeof room; at++)
        CHECK(room[at] == 77);
    CHECK(cichowiej_study_save(&kept.study, room, sizeof room) == CICHOWIEJ_ACCEPTED && room[length - 1] != 77);
    for (at = length; at < sizeof room; at++)
        CHECK(room[at] == 77);
    lend(&other, 3, 4, 5, 2);
    memcpy(other.doubles + cichowiej_doubles(other.study.stores.lengths), kept.doubles + cichowiej_doubles(kept.study.stores.lengths),
           (DOUBLES - cichowiej_doubles(kept.study.stores.lengths)) * sizeof(double));
    memcpy(other.ids, kept.ids, sizeof kept.ids);
    memset(other.study.stores.ids, 0, other.study.stores.lengths.ids * sizeof(uint32_t));
    CHECK(cichowiej_study_rewind(&other.study, room, length) == CICHOWIEJ_ACCEPTED && same_held(&kept, &other));
}

/* document 01's sample, and a refused length */
static void known_length(void)
{
    size_t length = 77;
    open_held(&kept, 1, 1, 1, 0);
    CHECK(cichowiej_study_save_length(&kept.study, &length) == CICHOWIEJ_ACCEPTED && length == 1389);
    kept.study.block[CICHOWIEJ_AT_ACTIVE] = 1;
    CHECK(cichowiej_study_save_length(&kept.study, &length) == CICHOWIEJ_BAD_STUDY && length == 0);
}

/* the first part without its last byte, the constants', as an older library wrote it: 73 bytes in its length */
static void older(void)
{
    static uint8_t old[SAVE], again[SAVE];
    const size_t constants = 6 + CICHOWIEJ_AT_CONSTANTS;
    size_t length = 0;
    open_held(&kept, 3, 4, 5, 2);
    fill(&kept, 1);
    CHECK(cichowiej_study_save_length(&kept.study, &length) == CICHOWIEJ_ACCEPTED);
    CHECK(cichowiej_study_save(&kept.study, room, sizeof room) == CICHOWIEJ_ACCEPTED && room[constants] == CICHOWIEJ_CONSTANTS_OLD);
    memcpy(old, room, constants);
    memcpy(old + constants, room + constants + 1, length - constants - 1);
    cichowiej_put_number(old + 2, 4, 73);
    lend(&other, 3, 4, 5, 2);
    CHECK(cichowiej_study_rewind(&other.study, old, length - 2) == CICHOWIEJ_SHORT);
    CHECK(cichowiej_study_rewind(&other.study, old, length - 1) == CICHOWIEJ_ACCEPTED);
    CHECK(cichowiej_block_constants(other.study.block) == CICHOWIEJ_CONSTANTS_OLD);
    CHECK(cichowiej_study_save(&other.study, again, sizeof again) == CICHOWIEJ_ACCEPTED && memcmp(again, room, length) == 0);
}

void saves(void)
{
    there_and_back();
    known_length();
    older();
}
