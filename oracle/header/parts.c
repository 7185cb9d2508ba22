/* The order inside the stores of a number for each cell: each memory takes up the derivative that it is named after. */
#include "check.h"

#define SIDE 5

static held grown;

/* a field whose six derivatives across its components are six numbers: 3 and 5 of z along y and x, and so on */
static void sloped(double *field)
{
    const size_t cells = SIDE * SIDE * SIDE;
    size_t i, j, k;
    for (k = 0; k < SIDE; k++)
        for (j = 0; j < SIDE; j++)
            for (i = 0; i < SIDE; i++) {
                const size_t cell = cichowiej_cell(SIDE, SIDE, i, j, k);
                field[CICHOWIEJ_PART_Z * cells + cell] = 3.0 * (double)j + 5.0 * (double)i;
                field[CICHOWIEJ_PART_Y * cells + cell] = 7.0 * (double)k + 11.0 * (double)i;
                field[CICHOWIEJ_PART_X * cells + cell] = 13.0 * (double)k + 17.0 * (double)j;
            }
}

/* what a memory of 1.0 becomes in an inner cell: b + c times its derivative */
static void grown_by(const double *psi, double b, double c)
{
    const double *inner = psi + cichowiej_cell(SIDE, SIDE, 2, 2, 2);
    const size_t cells = SIDE * SIDE * SIDE;
    CHECK(inner[CICHOWIEJ_PART_PSI_XY * cells] == b + c * 3.0);
    CHECK(inner[CICHOWIEJ_PART_PSI_XZ * cells] == b + c * 7.0);
    CHECK(inner[CICHOWIEJ_PART_PSI_YZ * cells] == b + c * 13.0);
    CHECK(inner[CICHOWIEJ_PART_PSI_YX * cells] == b + c * 5.0);
    CHECK(inner[CICHOWIEJ_PART_PSI_ZX * cells] == b + c * 11.0);
    CHECK(inner[CICHOWIEJ_PART_PSI_ZY * cells] == b + c * 17.0);
}

static void layer(void)
{
    static double given[18 * SIDE];
    uint32_t active = 0;
    size_t axis, at;
    open_held(&grown, SIDE, SIDE, SIDE, 0);
    for (axis = 0; axis < 3; axis++)
        for (at = 0; at < SIDE; at++) {
            const uint32_t number = axis_number(axis);
            given[cichowiej_table_place(SIDE, SIDE, SIDE, number, CICHOWIEJ_PART_KINV_E, at)] = 1.0;
            given[cichowiej_table_place(SIDE, SIDE, SIDE, number, CICHOWIEJ_PART_B_E, at)] = 0.5;
            given[cichowiej_table_place(SIDE, SIDE, SIDE, number, CICHOWIEJ_PART_C_E, at)] = 4.0;
            given[cichowiej_table_place(SIDE, SIDE, SIDE, number, CICHOWIEJ_PART_KINV_H, at)] = 1.0;
            given[cichowiej_table_place(SIDE, SIDE, SIDE, number, CICHOWIEJ_PART_B_H, at)] = 0.25;
            given[cichowiej_table_place(SIDE, SIDE, SIDE, number, CICHOWIEJ_PART_C_H, at)] = 8.0;
        }
    CHECK(cichowiej_study_set_boundary_cpml(&grown.study, true, true, true, 1, given, LENGTH(given), &active) == CICHOWIEJ_ACCEPTED);
    CHECK(active == CICHOWIEJ_AXIS_X + CICHOWIEJ_AXIS_Y + CICHOWIEJ_AXIS_Z);
}

static void memories(void)
{
    cichowiej_stores *s = &grown.study.stores;
    size_t at;
    layer();
    sloped(s->h);
    for (at = 0; at < s->lengths.psi_e; at++)
        s->psi_e[at] = 1.0;
    CHECK(cichowiej_study_step(&grown.study, 0.0) == CICHOWIEJ_ACCEPTED);
    grown_by(s->psi_e, 0.5, 4.0);
    layer();
    sloped(s->e);
    for (at = 0; at < s->lengths.psi_h; at++)
        s->psi_h[at] = 1.0;
    CHECK(cichowiej_study_step(&grown.study, 0.0) == CICHOWIEJ_ACCEPTED);
    grown_by(s->psi_h, 0.25, 8.0);
}

/* the plane reading takes ex and hy of its plane */
static void plane(void)
{
    cichowiej_stores *s = &grown.study.stores;
    double reading = 0.0;
    lend(&grown, 2, 3, 4, 0);
    CHECK(cichowiej_study_open(&grown.study, 2, 3, 4, 0, CICHOWIEJ_CONSTANTS_OLD, 2.0, 3.0, 5.0, 1.0) == CICHOWIEJ_ACCEPTED);
    s->e[CICHOWIEJ_PART_X * s->lengths.ids + cichowiej_cell(2, 3, 1, 2, 3)] = 7.0;
    s->h[CICHOWIEJ_PART_Y * s->lengths.ids + cichowiej_cell(2, 3, 1, 2, 3)] = 11.0;
    CHECK(cichowiej_study_plane_reading(&grown.study, 3, &reading) == CICHOWIEJ_ACCEPTED && reading == 7.0 * 11.0 * 6.0);
    CHECK(cichowiej_study_plane_reading(&grown.study, 2, &reading) == CICHOWIEJ_ACCEPTED && reading == 0.0);
}

void parts(void)
{
    memories();
    plane();
}
