/* Studies that hold their own arrays. */
#include "check.h"

void lend(held *to, size_t nx, size_t ny, size_t nz, size_t pole_slots)
{
    cichowiej_lengths lengths = cichowiej_store_lengths(nx, ny, nz, pole_slots);
    CHECK(cichowiej_doubles(lengths) < DOUBLES && lengths.ids < IDS);
    to->study.stores = cichowiej_stores_in(lengths, to->doubles, to->ids);
    memset(to->study.block, 0xA5, sizeof to->study.block);
    memset(to->doubles, 0xA5, sizeof to->doubles);
    memset(to->ids, 0xA5, sizeof to->ids);
}

void open_held(held *to, size_t nx, size_t ny, size_t nz, size_t pole_slots)
{
    lend(to, nx, ny, nz, pole_slots);
    CHECK(cichowiej_study_open(&to->study, nx, ny, nz, pole_slots, CICHOWIEJ_CONSTANTS_OLD, 1.0, 1.0, 1.0, 1.0) == CICHOWIEJ_ACCEPTED);
}

size_t *length_of(held *of, size_t store)
{
    cichowiej_lengths *l = &of->study.stores.lengths;
    size_t *all[STORES];
    all[0] = &l->e;
    all[1] = &l->h;
    all[2] = &l->media;
    all[3] = &l->psi_e;
    all[4] = &l->psi_h;
    all[5] = &l->tables;
    all[6] = &l->poles;
    all[7] = &l->aux;
    all[8] = &l->ids;
    return all[store];
}

void fill(held *to, uint32_t materials)
{
    size_t at;
    for (at = 0; at < DOUBLES; at++)
        to->doubles[at] = 1.0 + (double)at / 1024.0;
    for (at = 0; at < IDS; at++)
        to->ids[at] = (uint32_t)at % materials;
}

void copy_held(held *to, const held *from)
{
    *to = *from;
    to->study.stores = cichowiej_stores_in(from->study.stores.lengths, to->doubles, to->ids);
}

static const double *doubles_of(const held *of, size_t store)
{
    const cichowiej_stores *s = &of->study.stores;
    const double *all[STORES - 1];
    all[0] = s->e;
    all[1] = s->h;
    all[2] = s->media;
    all[3] = s->psi_e;
    all[4] = s->psi_h;
    all[5] = s->tables;
    all[6] = s->poles;
    all[7] = s->aux;
    return all[store];
}

bool same_store(const held *a, const held *b, size_t store)
{
    size_t length = *length_of((held *)a, store);
    if (store == STORES - 1)
        return memcmp(a->study.stores.ids, b->study.stores.ids, length * sizeof(uint32_t)) == 0;
    return memcmp(doubles_of(a, store), doubles_of(b, store), length * sizeof(double)) == 0;
}

bool same_held(const held *a, const held *b)
{
    return memcmp(a->study.block, b->study.block, sizeof a->study.block) == 0
           && memcmp(a->doubles, b->doubles, sizeof a->doubles) == 0 && memcmp(a->ids, b->ids, sizeof a->ids) == 0;
}

uint32_t axis_number(size_t axis)
{
    return axis == 0 ? CICHOWIEJ_AXIS_X : axis == 1 ? CICHOWIEJ_AXIS_Y : CICHOWIEJ_AXIS_Z;
}

cichowiej_material plain(double eps_inf, double sigma, double mu_r)
{
    cichowiej_material material;
    memset(&material, 0xA5, sizeof material);
    material.eps_inf = eps_inf;
    material.sigma = sigma;
    material.mu_r = mu_r;
    material.pole_count = 0;
    return material;
}

cichowiej_material debye(double delta_eps, double tau)
{
    cichowiej_material material = plain(2.0, 0.5, 1.5);
    material.pole_count = 1;
    material.poles[0].tag = CICHOWIEJ_DEBYE;
    material.poles[0].delta_eps = delta_eps;
    material.poles[0].tau = tau;
    return material;
}

bool same_bits(double a, double b)
{
    return memcmp(&a, &b, sizeof a) == 0;
}
