/* Runs, and what a step writes into the block. */
#include "check.h"

static held walked, beside;

static void standing_still(void)
{
    const cichowiej_material wet = debye(2.0, 3.0);
    open_held(&walked, 3, 3, 3, 1);
    CHECK(cichowiej_study_add_material(&walked.study, &wet, NULL) == CICHOWIEJ_ACCEPTED);
    CHECK(cichowiej_study_build_dispersion(&walked.study) == CICHOWIEJ_ACCEPTED);
    CHECK(cichowiej_study_slab_z(&walked.study, 0, 1) == CICHOWIEJ_ACCEPTED);
    fill(&walked, 2);
    copy_held(&beside, &walked);
}

/* nothing changes, also where no step is left; a stale material is refused all the same */
static void no_samples(void)
{
    standing_still();
    CHECK(cichowiej_study_run(&walked.study, NULL, 0) == CICHOWIEJ_ACCEPTED && same_held(&walked, &beside));
    cichowiej_put_number(walked.study.block + CICHOWIEJ_AT_STEPS, 4, CICHOWIEJ_MAX_STEPS);
    copy_held(&beside, &walked);
    CHECK(cichowiej_study_run(&walked.study, NULL, 0) == CICHOWIEJ_ACCEPTED && same_held(&walked, &beside));
    CHECK(cichowiej_study_step(&walked.study, 1.0) == CICHOWIEJ_SPENT_CLOCK && same_held(&walked, &beside));
    walked.study.stores.ids[0] = 2;
    copy_held(&beside, &walked);
    CHECK(cichowiej_study_run(&walked.study, NULL, 0) == CICHOWIEJ_STALE_MATERIAL && same_held(&walked, &beside));
}

static void as_many_steps(void)
{
    const double samples[3] = {1.0, -2.0, 0.5};
    standing_still();
    CHECK(cichowiej_study_run(&walked.study, samples, 3) == CICHOWIEJ_ACCEPTED);
    CHECK(cichowiej_study_step(&beside.study, 1.0) == CICHOWIEJ_ACCEPTED);
    CHECK(cichowiej_study_step(&beside.study, -2.0) == CICHOWIEJ_ACCEPTED);
    CHECK(!same_held(&walked, &beside));
    CHECK(cichowiej_study_step(&beside.study, 0.5) == CICHOWIEJ_ACCEPTED && same_held(&walked, &beside));
    CHECK(cichowiej_block_steps(walked.study.block) == 3 && cichowiej_block_time(walked.study.block) == 3.0);
}

/* a step writes the clock and no other byte of the block */
static void clock_alone(void)
{
    const uint8_t *block = walked.study.block, *old = beside.study.block;
    standing_still();
    CHECK(cichowiej_study_step(&walked.study, 1.0) == CICHOWIEJ_ACCEPTED);
    CHECK(memcmp(block, old, CICHOWIEJ_AT_TIME) == 0);
    CHECK(memcmp(block + CICHOWIEJ_AT_CONSTANTS, old + CICHOWIEJ_AT_CONSTANTS, CICHOWIEJ_BLOCK_LENGTH - CICHOWIEJ_AT_CONSTANTS) == 0);
    CHECK(cichowiej_block_steps(block) == 1 && cichowiej_block_time(block) == 1.0);
}

void steps(void)
{
    no_samples();
    as_many_steps();
    clock_alone();
}
