/* Each wrapper does what the function does to which the stores are listed, and hands over the length of every store that it lends; and by
   each a block is refused that has a pole which cannot be stepped. */
#include "check.h"

#define BLOCK s->block, CICHOWIEJ_BLOCK_LENGTH
#define LENT(store) s->stores.store, s->stores.lengths.store

/* what a call answers beside its refusal */
typedef struct answer {
    uint32_t number;
    size_t length;
    double reading;
    uint8_t save[SAVE];
} answer;

typedef uint32_t call(cichowiej_study *s, answer *to);

static double given_tables[6 * (4 + 5 + 6)];
static const double samples_taken[3] = {1.0, -2.0, 0.5};
static uint8_t save_taken[SAVE];
static size_t save_taken_length;

static cichowiej_material material_taken;
static uint8_t bytes_taken[CICHOWIEJ_MATERIAL_LENGTH];

/* a call in both forms: by its wrapper, and with the stores listed */
#define BOTH(name, wrapped, listed)                                \
    static uint32_t wrapped_##name(cichowiej_study *s, answer *to) \
    {                                                              \
        (void)to;                                                  \
        return wrapped;                                            \
    }                                                              \
    static uint32_t listed_##name(cichowiej_study *s, answer *to)  \
    {                                                              \
        (void)to;                                                  \
        return listed;                                             \
    }

#define FIELDS LENT(e), LENT(h)
#define LAYER LENT(psi_e), LENT(psi_h), LENT(tables)
#define ALL FIELDS, LENT(media), LAYER, LENT(poles), LENT(aux), LENT(ids)

BOTH(open, cichowiej_study_open(s, 4, 5, 6, 1, CICHOWIEJ_CONSTANTS_2019, 1.5, 2.5, 3.5, 4.5),
     cichowiej_open(BLOCK, 4, 5, 6, 1, CICHOWIEJ_CONSTANTS_2019, 1.5, 2.5, 3.5, 4.5, ALL))
BOTH(put_numbers, cichowiej_study_put_box(s, 0, 1, 1, 3, 2, 5, cichowiej_numbers(2.0, 3.0, 5.0), &to->number),
     cichowiej_put_box(BLOCK, 0, 1, 1, 3, 2, 5, false, 0, 2.0, 3.0, 5.0, LENT(media), LENT(ids), &to->number, 1))
BOTH(add_material, cichowiej_study_add_material(s, &material_taken, &to->number),
     cichowiej_add_material(BLOCK, bytes_taken, CICHOWIEJ_MATERIAL_LENGTH, &to->number, 1))
BOTH(put_library, cichowiej_study_put_box(s, 0, 1, 1, 3, 2, 5, cichowiej_library(1), &to->number),
     cichowiej_put_box(BLOCK, 0, 1, 1, 3, 2, 5, true, 1, 0.0, 0.0, 0.0, LENT(media), LENT(ids), &to->number, 1))
BOTH(assign_halfspace, cichowiej_study_assign_material_halfspace_z(s, 1, 4),
     cichowiej_assign_material_halfspace_z(BLOCK, 1, 4, LENT(media), LENT(ids)))
BOTH(build, cichowiej_study_build_dispersion(s), cichowiej_build_dispersion(BLOCK, LENT(poles)))
BOTH(set_periodic, cichowiej_study_set_periodic(s, false, true, false), cichowiej_set_periodic(BLOCK, false, true, false))
BOTH(periodic, cichowiej_study_set_boundary_periodic(s), cichowiej_set_boundary_periodic(BLOCK, LAYER))
BOTH(conductor, cichowiej_study_set_boundary_conductor(s), cichowiej_set_boundary_conductor(BLOCK, LAYER))
BOTH(lossy, cichowiej_study_set_boundary_lossy(s, 2, 3, 8.0), cichowiej_set_boundary_lossy(BLOCK, 2, 3, 8.0, LAYER, LENT(media)))
BOTH(cpml, cichowiej_study_set_boundary_cpml(s, false, true, true, 1, given_tables, LENGTH(given_tables), &to->number),
     cichowiej_set_boundary_cpml(BLOCK, false, true, true, 1, given_tables, LENGTH(given_tables), LAYER, &to->number, 1))
BOTH(slab, cichowiej_study_slab_z(s, 1, 4), cichowiej_slab_z(BLOCK, 1, 4, LENT(aux)))
BOTH(injector, cichowiej_study_injector_z(s, 3), cichowiej_injector_z(BLOCK, 3, LENT(aux)))
BOTH(box_region, cichowiej_study_box_region(s, 0, 1, 2, 3, 4, 5), cichowiej_box_region(BLOCK, 0, 1, 2, 3, 4, 5, LENT(aux)))
BOTH(step, cichowiej_study_step(s, 7.0), cichowiej_step(BLOCK, 7.0, ALL))
BOTH(run, cichowiej_study_run(s, samples_taken, LENGTH(samples_taken)), cichowiej_run(BLOCK, samples_taken, LENGTH(samples_taken), ALL))
BOTH(reset, cichowiej_study_reset_fields(s), cichowiej_reset_fields(BLOCK, FIELDS, LENT(psi_e), LENT(psi_h), LENT(poles)))
BOTH(energy, cichowiej_study_total_energy(s, &to->reading), cichowiej_total_energy(BLOCK, FIELDS, LENT(media), &to->reading, 1))
BOTH(plane, cichowiej_study_plane_reading(s, 5, &to->reading), cichowiej_plane_reading(BLOCK, 5, FIELDS, &to->reading, 1))
BOTH(save_length, cichowiej_study_save_length(s, &to->length), cichowiej_save_length(BLOCK, &to->length, 1))
BOTH(save, cichowiej_study_save(s, to->save, SAVE), cichowiej_save(BLOCK, ALL, to->save, SAVE))
BOTH(rewind, cichowiej_study_rewind(s, save_taken, save_taken_length), cichowiej_rewind(BLOCK, save_taken, save_taken_length, ALL))

/* both forms of each call, and the stores that it is lent: e 1, h 2, media 4, .. in the order of the parameters */
static const struct {
    call *wrapped, *listed;
    unsigned lent;
} calls[] = {
    {wrapped_open, listed_open, 0x1FF},
    {wrapped_put_numbers, listed_put_numbers, 0x104},
    {wrapped_add_material, listed_add_material, 0},
    {wrapped_put_library, listed_put_library, 0x104},
    {wrapped_assign_halfspace, listed_assign_halfspace, 0x104},
    {wrapped_build, listed_build, 0x040},
    {wrapped_set_periodic, listed_set_periodic, 0},
    {wrapped_periodic, listed_periodic, 0x038},
    {wrapped_conductor, listed_conductor, 0x038},
    {wrapped_lossy, listed_lossy, 0x03C},
    {wrapped_cpml, listed_cpml, 0x038},
    {wrapped_slab, listed_slab, 0x080},
    {wrapped_injector, listed_injector, 0x080},
    {wrapped_box_region, listed_box_region, 0x080},
    {wrapped_step, listed_step, 0x1FF},
    {wrapped_run, listed_run, 0x1FF},
    {wrapped_reset, listed_reset, 0x05B},
    {wrapped_energy, listed_energy, 0x007},
    {wrapped_plane, listed_plane, 0x003},
    {wrapped_save_length, listed_save_length, 0},
    {wrapped_save, listed_save, 0x1FF},
    {wrapped_rewind, listed_rewind, 0x1FF},
};

static held in_use, by_wrapper, by_list;

/* a study with something of everything, and a save of it before its stores were filled */
static void used(void)
{
    cichowiej_study *s = &in_use.study;
    size_t at;
    material_taken = debye(2.0, 3.0);
    cichowiej_pack_material(&material_taken, bytes_taken);
    for (at = 0; at < LENGTH(given_tables); at++)
        given_tables[at] = 0.125 + (double)at / 512.0;
    open_held(&in_use, 4, 5, 6, 1);
    CHECK(cichowiej_study_add_material(s, &material_taken, NULL) == CICHOWIEJ_ACCEPTED);
    CHECK(cichowiej_study_build_dispersion(s) == CICHOWIEJ_ACCEPTED && cichowiej_study_slab_z(s, 2, 3) == CICHOWIEJ_ACCEPTED);
    CHECK(cichowiej_study_set_boundary_cpml(s, true, true, true, 1, given_tables, LENGTH(given_tables), NULL) == CICHOWIEJ_ACCEPTED);
    CHECK(cichowiej_study_save_length(s, &save_taken_length) == CICHOWIEJ_ACCEPTED);
    CHECK(cichowiej_study_save(s, save_taken, sizeof save_taken) == CICHOWIEJ_ACCEPTED);
    fill(&in_use, 2);
}

static void both_ways(size_t which)
{
    static answer wrapped, listed;
    memset(&wrapped, 77, sizeof wrapped);
    memset(&listed, 77, sizeof listed);
    copy_held(&by_wrapper, &in_use);
    copy_held(&by_list, &in_use);
    CHECK(calls[which].wrapped(&by_wrapper.study, &wrapped) == CICHOWIEJ_ACCEPTED);
    CHECK(calls[which].listed(&by_list.study, &listed) == CICHOWIEJ_ACCEPTED);
    CHECK(same_held(&by_wrapper, &by_list));
    CHECK(wrapped.number == listed.number && wrapped.length == listed.length && same_bits(wrapped.reading, listed.reading));
    CHECK(memcmp(wrapped.save, listed.save, SAVE) == 0);
}

/* with one store said to be longer, a call that is lent it is refused, and any other is not */
static void each_length(size_t which)
{
    static answer unused;
    size_t store;
    for (store = 0; store < STORES; store++) {
        const bool lent = (calls[which].lent >> store & 1) != 0;
        copy_held(&by_wrapper, &in_use);
        (*length_of(&by_wrapper, store))++;
        CHECK(calls[which].wrapped(&by_wrapper.study, &unused) == (lent ? CICHOWIEJ_BAD_STORE : CICHOWIEJ_ACCEPTED));
    }
}

/* 0, or what stood there before the call */
static bool silent(const answer *to)
{
    static answer before;
    memset(&before, 77, sizeof before);
    return (to->number == 0 || to->number == before.number) && (to->length == 0 || to->length == before.length)
           && (same_bits(to->reading, 0.0) || same_bits(to->reading, before.reading)) && memcmp(to->save, before.save, SAVE) == 0;
}

/* with a relaxation time of 0 in its material the block is BAD_STUDY, and nothing is written; an opening and a rewind do not look at it */
static void bad_pole_in(size_t which)
{
    const size_t tau = CICHOWIEJ_AT_MATERIALS + CICHOWIEJ_MATERIAL_LENGTH + AT_TAU;
    const bool looks_at_it = calls[which].wrapped != wrapped_open && calls[which].wrapped != wrapped_rewind;
    static answer to;
    memset(&to, 77, sizeof to);
    copy_held(&by_wrapper, &in_use);
    cichowiej_put_double(by_wrapper.study.block + tau, 0.0);
    copy_held(&by_list, &by_wrapper);
    CHECK(calls[which].wrapped(&by_wrapper.study, &to) == (looks_at_it ? CICHOWIEJ_BAD_STUDY : CICHOWIEJ_ACCEPTED));
    CHECK(!looks_at_it || (same_held(&by_wrapper, &by_list) && silent(&to)));
}

void wrappers(void)
{
    size_t which;
    used();
    for (which = 0; which < LENGTH(calls); which++) {
        both_ways(which);
        each_length(which);
        bad_pole_in(which);
    }
}
