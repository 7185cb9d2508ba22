/* The order inside the tables. */
#include "check.h"

#define NX 4
#define NY 5
#define NZ 6
#define TABLES (6 * (NX + NY + NZ))

static held layered;
static const size_t along[3] = {NX, NY, NZ};

static size_t place(size_t axis, size_t part, size_t at)
{
    return cichowiej_table_place(NX, NY, NZ, axis_number(axis), part, at);
}

/* kinv 1.0, b and c +0.0 */
static bool as_opened(size_t axis)
{
    const double *tables = layered.study.stores.tables;
    bool holds = true;
    size_t at;
    for (at = 0; at < along[axis]; at++)
        holds = holds && same_bits(tables[place(axis, CICHOWIEJ_PART_KINV_E, at)], 1.0)
                && same_bits(tables[place(axis, CICHOWIEJ_PART_B_E, at)], 0.0)
                && same_bits(tables[place(axis, CICHOWIEJ_PART_C_E, at)], 0.0)
                && same_bits(tables[place(axis, CICHOWIEJ_PART_KINV_H, at)], 1.0)
                && same_bits(tables[place(axis, CICHOWIEJ_PART_B_H, at)], 0.0)
                && same_bits(tables[place(axis, CICHOWIEJ_PART_C_H, at)], 0.0);
    return holds;
}

static bool as_given(size_t axis, const double *given)
{
    const size_t first = place(axis, CICHOWIEJ_PART_KINV_E, 0);
    return memcmp(layered.study.stores.tables + first, given + first, 6 * along[axis] * sizeof *given) == 0;
}

/* a layer on each axis alone: its tables are those handed in, and the others are as opened */
static void axis_by_axis(void)
{
    static double given[TABLES];
    cichowiej_study *s = &layered.study;
    size_t at, on, axis;
    for (at = 0; at < TABLES; at++)
        given[at] = 2.0 + (double)at;
    open_held(&layered, NX, NY, NZ, 0);
    CHECK(s->stores.lengths.tables == TABLES && as_opened(0) && as_opened(1) && as_opened(2));
    for (on = 0; on < 3; on++) {
        CHECK(cichowiej_study_set_boundary_cpml(s, on == 0, on == 1, on == 2, 1, given, TABLES, NULL) == CICHOWIEJ_ACCEPTED);
        for (axis = 0; axis < 3; axis++)
            CHECK(axis == on ? as_given(axis, given) : as_opened(axis));
    }
}

/* the fields that a step leaves with one number of an axis' tables changed */
static void step_with(held *to, size_t axis, size_t part, size_t cell, double number)
{
    static double given[TABLES];
    size_t at;
    open_held(to, NX, NY, NZ, 0);
    memcpy(given, to->study.stores.tables, sizeof given);
    given[place(axis, part, cell)] = number;
    CHECK(cichowiej_study_set_boundary_cpml(&to->study, true, true, true, 1, given, TABLES, NULL) == CICHOWIEJ_ACCEPTED);
    memset(to->doubles, 0, (size_t)((char *)to->study.stores.tables - (char *)to->doubles));
    for (at = 0; at < to->study.stores.lengths.e; at++) {
        to->study.stores.e[at] = (double)(at * at % 101);
        to->study.stores.h[at] = (double)(at * at % 97) * 1e-9;
        to->study.stores.media[at] = 1.0;
    }
    CHECK(cichowiej_study_step(&to->study, 0.0) == CICHOWIEJ_ACCEPTED);
}

/* a number of the electric half changes e alone, one of the magnetic half h too (and then e, by h); c alone wakes a memory */
static void halves(void)
{
    static held still, moved;
    size_t axis;
    for (axis = 0; axis < 3; axis++) {
        step_with(&still, axis, CICHOWIEJ_PART_KINV_E, 2, 1.0);
        step_with(&moved, axis, CICHOWIEJ_PART_KINV_E, 2, 3.0);
        CHECK(!same_store(&still, &moved, 0) && same_store(&still, &moved, 1) && same_store(&still, &moved, 3));
        step_with(&moved, axis, CICHOWIEJ_PART_KINV_H, 2, 3.0);
        CHECK(!same_store(&still, &moved, 1) && same_store(&still, &moved, 4));
        step_with(&moved, axis, CICHOWIEJ_PART_C_E, 2, 3.0);
        CHECK(!same_store(&still, &moved, 0) && same_store(&still, &moved, 1) && !same_store(&still, &moved, 3));
        step_with(&moved, axis, CICHOWIEJ_PART_C_H, 2, 3.0);
        CHECK(!same_store(&still, &moved, 1) && !same_store(&still, &moved, 4));
        step_with(&moved, axis, CICHOWIEJ_PART_B_E, 2, 3.0);
        CHECK(same_store(&still, &moved, 0) && same_store(&still, &moved, 1));
        step_with(&moved, axis, CICHOWIEJ_PART_B_H, 2, 3.0);
        CHECK(same_store(&still, &moved, 0) && same_store(&still, &moved, 1));
    }
}

/* the number at one cell along z reaches the cells of that plane alone: with c there, ex's memory for z wakes in it */
static void one_plane(void)
{
    static held woken;
    const size_t cells = NX * NY * NZ;
    size_t i, j, k;
    step_with(&woken, 2, CICHOWIEJ_PART_C_E, 3, 2.0);
    for (k = 0; k < NZ; k++)
        for (j = 0; j < NY; j++)
            for (i = 0; i < NX; i++) {
                const double memory = woken.study.stores.psi_e[CICHOWIEJ_PART_PSI_XZ * cells + cichowiej_cell(NX, NY, i, j, k)];
                CHECK(k == 3 || memory == 0.0);
            }
    CHECK(woken.study.stores.psi_e[CICHOWIEJ_PART_PSI_XZ * cells + cichowiej_cell(NX, NY, 1, 1, 3)] != 0.0);
}

void tables(void)
{
    axis_by_axis();
    halves();
    one_plane();
}
