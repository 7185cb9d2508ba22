/*
 * Cichowiej: a time-domain field solver (FDTD on a Yee grid) as C functions.
 *
 * A study is a record and nine stores. The record goes in and comes out as a block of bytes; the stores are the caller's arrays. Each
 * array is handed over as a pointer and a length, the number of its elements. Nothing is allocated and nothing is kept between calls.
 *
 * The stores: e and h, the fields; media, each cell's eps_r, mu_r and sigma; psi_e and psi_h, the absorbing layer's memories; tables, its
 * coefficients along each axis; poles, the polarizations; aux, the line of the incident wave; ids (uint32_t, the others double), each
 * cell's material. How long each is says cichowiej_store_lengths; in what order its numbers stand, the CICHOWIEJ_PART_* and the
 * functions that the comment on them names.
 *
 * This header has, in this order: the numbers; the functions of the library; helpers, which are written out here in C: the lengths of
 * the stores, a material and a block by named fields, and a study as one struct with a wrapper for each call, so that no caller has to
 * list nine arrays in their order (cichowiej_study and what follows it).
 *
 * Refusals. A call on a study answers the number of its refusal, CICHOWIEJ_ACCEPTED where there is none. A refused call changes neither
 * block nor stores nor the bytes lent for a save, and what it answers further is 0. Of several refusals the first is answered:
 *
 *   - in every call but an opening and a rewind: BAD_STUDY for a block that is no record, before anything else is looked at (another
 *     length, a flag that is not 0 or 1, another region kind, a counted place with another tag, bytes that have to be zero and are not);
 *   - then what the record says: BAD_SIZE, BAD_SPACING, BAD_STUDY (constants, pole slots, a count or a region's corners out of range,
 *     more poles in a material than slots or any in material 0, a pole that is BAD_POLE with the record's dt and constants, an active
 *     axis with the layer off); then BAD_STORE for what is lent; then the call's own, which stand beside it in their order;
 *   - an opening and a rewind do not look at what the block holds: their arguments are judged first, and last, as BAD_STORE, the
 *     lengths of stores and block.
 *
 * Pointers. Each is valid for as many elements as its length says, aligned for their type, and NULL only where the length is 0. What a
 * call may write (a pointer without const) overlaps nothing else that is handed to the same call: no two stores, no store and a block,
 * no store and room for an answer. cichowiej_set_boundary_cpml says what comes of the one overlap that is easily made.
 *
 * Lengths. block_length is CICHOWIEJ_BLOCK_LENGTH and material_length CICHOWIEJ_MATERIAL_LENGTH. Those of the stores are what
 * cichowiej_store_lengths answers; given_length is that of tables. Room for a further answer (id, active, energy, reading, length) has
 * one element: the answer goes into the first, any other is left, and with none the answer is dropped. samples_length is the number of
 * steps. The out_length of a save is the save's length or more, save_length in a rewind just that.
 *
 * NaN. A block and a material's bytes are arguments and no save: every NaN in them is read as the NaN. Where one is written, to a block
 * or a save, it is 7FF8000000000000. Only in the bytes of a save is any other refused, as BAD_RECORD.
 *
 * The block is written by accepted calls alone. A step and a run write the clock in it, the bytes from CICHOWIEJ_AT_TIME up to
 * CICHOWIEJ_AT_CONSTANTS, and nothing else; the readings and the save write nothing; any other call writes it whole.
 */
#ifndef CICHOWIEJ_H
#define CICHOWIEJ_H

#include <stdbool.h>
#include <stddef.h>
#include <stdint.h>
#include <string.h>

#ifdef __cplusplus
extern "C" {
#endif

/* ==== numbers */

/* ---- what a study may have at the most */
#define CICHOWIEJ_MAX_SIDE 512          /* cells along one axis; the least is 1 */
#define CICHOWIEJ_MAX_CELLS 1048576     /* nx ny nz */
#define CICHOWIEJ_MAX_POLE_SLOTS 4      /* and as many places for poles has a material */
#define CICHOWIEJ_MAX_MATERIALS 16      /* the vacuum, which is material 0, among them */
#define CICHOWIEJ_MAX_ORDER 8           /* of the lossy walls */
#define CICHOWIEJ_MAX_STEPS 4294967295u /* in the clock */

/* ---- refusals */
#define CICHOWIEJ_ACCEPTED 0
#define CICHOWIEJ_BAD_SIZE 1         /* nx, ny, nz from 1 to MAX_SIDE each, at most MAX_CELLS cells */
#define CICHOWIEJ_BAD_SPACING 2      /* dx, dy, dz, dt finite and above 0 */
#define CICHOWIEJ_BAD_STUDY 3        /* the record contradicts itself, or the block (or a material's bytes) holds none */
#define CICHOWIEJ_BAD_STORE 4        /* something lent has another length than it has to have */
#define CICHOWIEJ_FULL 5             /* MAX_MATERIALS stand */
#define CICHOWIEJ_TOO_MANY_POLES 6   /* open with more pole slots, MAX_POLE_SLOTS at most */
#define CICHOWIEJ_NO_SUCH_MATERIAL 7 /* the id is at or above the material count */
#define CICHOWIEJ_STALE_MATERIAL 8   /* a cell has a material that was added after dispersion was built: build it again */
#define CICHOWIEJ_BAD_REGION 9       /* i0 <= i1 < nx, j0 <= j1 < ny, k0 <= k1 < nz */
#define CICHOWIEJ_BAD_ORDER 10       /* an order of MAX_ORDER at most */
#define CICHOWIEJ_SPENT_CLOCK 11     /* fewer steps are left up to MAX_STEPS than are asked for: open anew */
#define CICHOWIEJ_NO_ROOM 12         /* fewer bytes lent than the save takes: ask cichowiej_save_length */
#define CICHOWIEJ_SHORT 13           /* the save is cut off: copy it anew, whole */
#define CICHOWIEJ_BAD_MARK 14        /* another mark where a part of the save has to begin: no save, or a damaged one */
#define CICHOWIEJ_BAD_RECORD 15      /* a part of another length, or with a field or a NaN that no save has: a damaged save. Or a pole that
                                        is BAD_POLE: libraries before this refusal saved such ones */
#define CICHOWIEJ_TRAILING 16        /* bytes behind the save's end: hand over the save alone */
#define CICHOWIEJ_NO_SUCH_PLANE 17   /* k is at or above nz */
#define CICHOWIEJ_BAD_POLE 19        /* a1, a2 or a3 is not finite: a relaxation time of 0, say, or a number far too large */

/* ---- sets of constants: which eps0, mu0 and c0 a study has, chosen as it is opened */
#define CICHOWIEJ_CONSTANTS_OLD 0  /* the older SI values: cichowiej_eps0 and its like */
#define CICHOWIEJ_CONSTANTS_2019 1 /* CODATA 2018, after the SI of 2019: cichowiej_eps0_2019 and its like */

/* ---- axes, added where several are meant: the answer of cichowiej_set_boundary_cpml, cichowiej_block_periodic, .._active */
#define CICHOWIEJ_AXIS_X 1
#define CICHOWIEJ_AXIS_Y 2
#define CICHOWIEJ_AXIS_Z 4

/* ---- kinds of region */
#define CICHOWIEJ_NO_REGION 0
#define CICHOWIEJ_SLAB 1
#define CICHOWIEJ_INJECTOR 2
#define CICHOWIEJ_BOX 3

/* ---- tags of poles. Each has its numbers in this order: first, second, third */
#define CICHOWIEJ_NO_POLE 0
#define CICHOWIEJ_LORENTZ 1 /* delta_eps, omega0, gamma */
#define CICHOWIEJ_DRUDE 2   /* omega_p, gamma; the third is zero in a material, unused in cichowiej_ade_coeffs */
#define CICHOWIEJ_DEBYE 3   /* delta_eps, tau; likewise */

/* ---- lengths of arrays; those of the stores are cichowiej_store_lengths' to say */
#define CICHOWIEJ_BLOCK_LENGTH 2074   /* bytes of a block */
#define CICHOWIEJ_MATERIAL_LENGTH 125 /* bytes of a material */
#define CICHOWIEJ_POLE_LENGTH 25      /* bytes of a pole's place in a material */
#define CICHOWIEJ_COEFFS_LENGTH 3     /* doubles: a1, a2, a3 */

/* ---- where a field of the block begins, in bytes. All numbers have their lowest byte first */
#define CICHOWIEJ_AT_NX 0              /* nx, ny, nz: uint16_t each */
#define CICHOWIEJ_AT_NY 2
#define CICHOWIEJ_AT_NZ 4
#define CICHOWIEJ_AT_PERIODIC 6        /* of x, y, z: a byte each, 0 or 1 */
#define CICHOWIEJ_AT_ACTIVE 9          /* likewise: the axes on which the layer absorbs */
#define CICHOWIEJ_AT_LAYER_ON 12       /* a byte, 0 or 1 */
#define CICHOWIEJ_AT_BUILT_COUNT 13    /* a byte: the material count when dispersion was built, 0 where it is off */
#define CICHOWIEJ_AT_POLE_SLOTS 14     /* a byte */
#define CICHOWIEJ_AT_MATERIAL_COUNT 15 /* a byte */
#define CICHOWIEJ_AT_REGION_KIND 16    /* a byte */
#define CICHOWIEJ_AT_I0 17             /* the region's corners: uint16_t each, zero where there is none */
#define CICHOWIEJ_AT_I1 19
#define CICHOWIEJ_AT_J0 21
#define CICHOWIEJ_AT_J1 23
#define CICHOWIEJ_AT_K0 25
#define CICHOWIEJ_AT_K1 27
#define CICHOWIEJ_AT_DX 29             /* dx, dy, dz, dt, time: double each */
#define CICHOWIEJ_AT_DY 37
#define CICHOWIEJ_AT_DZ 45
#define CICHOWIEJ_AT_DT 53
#define CICHOWIEJ_AT_TIME 61
#define CICHOWIEJ_AT_STEPS 69          /* uint32_t */
#define CICHOWIEJ_AT_CONSTANTS 73      /* a byte */
#define CICHOWIEJ_AT_MATERIALS 74      /* MAX_MATERIALS of them, MATERIAL_LENGTH bytes each; those past the material count are zero */

/* ---- where a field of a material begins, in its bytes */
#define CICHOWIEJ_MATERIAL_AT_EPS_INF 0     /* eps_inf, sigma, mu_r: double each. cichowiej_put_box has another order */
#define CICHOWIEJ_MATERIAL_AT_SIGMA 8
#define CICHOWIEJ_MATERIAL_AT_MU_R 16
#define CICHOWIEJ_MATERIAL_AT_POLE_COUNT 24 /* a byte */
#define CICHOWIEJ_MATERIAL_AT_POLES 25      /* MAX_POLE_SLOTS places, POLE_LENGTH bytes each; those past the pole count are zero */

/* ---- where a field of a pole begins, in its place */
#define CICHOWIEJ_POLE_AT_TAG 0   /* a byte */
#define CICHOWIEJ_POLE_AT_FIRST 1 /* three numbers: double each */
#define CICHOWIEJ_POLE_AT_SECOND 9
#define CICHOWIEJ_POLE_AT_THIRD 17

/* ---- the parts of a store, each with a number for every cell: part p of a cell is element p N + cichowiej_cell(..), N = nx ny nz.
   The parts of poles are those of cichowiej_part_p, .._p_before and .._dp; ids has one part */
#define CICHOWIEJ_PART_X 0      /* of e: ex, ey, ez. Of h: hx, hy, hz */
#define CICHOWIEJ_PART_Y 1
#define CICHOWIEJ_PART_Z 2
#define CICHOWIEJ_PART_EPS_R 0  /* of media */
#define CICHOWIEJ_PART_MU_R 1
#define CICHOWIEJ_PART_SIGMA 2
#define CICHOWIEJ_PART_PSI_XY 0 /* of psi_e and of psi_h: the memory of the component x for the derivative along y; and so on */
#define CICHOWIEJ_PART_PSI_XZ 1
#define CICHOWIEJ_PART_PSI_YZ 2
#define CICHOWIEJ_PART_PSI_YX 3
#define CICHOWIEJ_PART_PSI_ZX 4
#define CICHOWIEJ_PART_PSI_ZY 5

/* ---- the parts of an axis in tables, each with a number for every cell along the axis: see cichowiej_table_place */
#define CICHOWIEJ_PART_KINV_E 0
#define CICHOWIEJ_PART_B_E 1
#define CICHOWIEJ_PART_C_E 2
#define CICHOWIEJ_PART_KINV_H 3
#define CICHOWIEJ_PART_B_H 4
#define CICHOWIEJ_PART_C_H 5

/* ---- the line of the incident wave, in aux: ex and then hy, each at LINE_PAD places, the nz planes, and LINE_PAD places more */
#define CICHOWIEJ_LINE_PAD 24   /* plane k is at the place LINE_PAD + k */
#define CICHOWIEJ_LINE_SOURCE 6 /* the place to whose ex the sample of a step is added */

/* ==== the functions of the library */

/* ---- constants of vacuum: CONSTANTS_OLD, c0 as 1/sqrt(eps0 mu0); CONSTANTS_2019, c0 as it is stated */
double cichowiej_eps0(void);
double cichowiej_mu0(void);
double cichowiej_c0(void);
double cichowiej_eps0_2019(void);
double cichowiej_mu0_2019(void);
double cichowiej_c0_2019(void);

/* ---- bare arithmetic: refuses nothing */
double cichowiej_root(double x);
/* c0 dt sqrt(1/dx^2 + 1/dy^2 + 1/dz^2); the largest dt for which that is not above 1 (dt is unused); whether it is not above 1 */
double cichowiej_cfl_number(double c0, double dx, double dy, double dz, double dt);
double cichowiej_max_stable_dt(double c0, double dx, double dy, double dz, double dt);
bool cichowiej_is_stable(double c0, double dx, double dy, double dz, double dt);
double cichowiej_powi(double u, size_t n);
/* sigma_max ((t - d) / t)^order at d cells from a wall whose layer is t cells thick, +0.0 beyond it */
double cichowiej_wall_sigma(size_t t, size_t order, double sigma_max, size_t d);
/* v where v > s, else s */
double cichowiej_stronger(double s, double v);

/* ---- a pole's a1, a2, a3 into out. BAD_STORE for another out_length than COEFFS_LENGTH, BAD_STUDY for a tag that is none of the three,
   BAD_POLE where one of the numbers is not finite; nothing is then written. What first, second and third are stands beside the tags;
   cichowiej_lorentz_coeffs and its like name them */
uint32_t cichowiej_ade_coeffs(uint32_t tag, double first, double second, double third, double eps0, double dt, double *out,
                              size_t out_length);

/* ---- opening. Block and stores may hold anything before, and are written whole: fields, memories, poles and line +0.0, eps_r and mu_r
   1.0, sigma +0.0, ids 0, in the tables kinv 1.0, b and c +0.0; material 0, vacuum, alone; nothing periodic or active, the layer and
   dispersion off, no region, time +0.0, no steps. constants is CONSTANTS_OLD or CONSTANTS_2019, and stays as it was chosen until a
   rewind, which brings the save's. BAD_SIZE, BAD_SPACING, BAD_STUDY (pole_slots, constants), BAD_STORE (stores and block) */
uint32_t cichowiej_open(uint8_t *block, size_t block_length, size_t nx, size_t ny, size_t nz, size_t pole_slots, size_t constants,
                        double dx, double dy, double dz, double dt, double *e, size_t e_length, double *h, size_t h_length,
                        double *media, size_t media_length, double *psi_e, size_t psi_e_length, double *psi_h, size_t psi_h_length,
                        double *tables, size_t tables_length, double *poles, size_t poles_length, double *aux, size_t aux_length,
                        uint32_t *ids, size_t ids_length);

/* ---- materials. Boxes hold the cells from i0 up to, not with, i1, and likewise on y and z; upper ends are cut to the grid, and an empty
   or backward range holds no cell */
/* puts a material behind those that stand, and its id into id; no cell has it yet, and what is built stays. After the record's own
   faults: BAD_STORE for another length of the material's bytes, BAD_STUDY for bytes that are no material, TOO_MANY_POLES, BAD_POLE with
   the study's dt and constants, FULL */
uint32_t cichowiej_add_material(uint8_t *block, size_t block_length, const uint8_t *material, size_t material_length, uint32_t *id,
                                size_t id_length);
/* puts three numbers or, where library is true, a material into each cell of the box; how many cells these are, those that had it already
   among them, goes into cells. Three numbers overwrite eps_r, mu_r and sigma, and the ids are left, so that a cell keeps the poles of the
   material it has; id is then not looked at. A material overwrites them by its eps_inf, mu_r and sigma, and the ids by id; the numbers are
   then not looked at. Its poles do nothing before cichowiej_build_dispersion. NO_SUCH_MATERIAL for a material alone, also where the box is
   empty; cells is then 0, as in every refusal */
uint32_t cichowiej_put_box(uint8_t *block, size_t block_length, size_t i0, size_t i1, size_t j0, size_t j1, size_t k0, size_t k1,
                           bool library, uint32_t id, double eps_r, double mu_r, double sigma, double *media, size_t media_length,
                           uint32_t *ids, size_t ids_length, uint32_t *cells, size_t cells_length);
/* a material in every cell from plane k0 on, as put_box puts it */
uint32_t cichowiej_assign_material_halfspace_z(uint8_t *block, size_t block_length, uint32_t id, size_t k0, double *media,
                                               size_t media_length, uint32_t *ids, size_t ids_length);
/* from now on the poles of all materials that stand act; a material added later needs another call. The whole of poles becomes +0.0.
   Where no material has a pole, dispersion goes off: a step then leaves poles as it is */
uint32_t cichowiej_build_dispersion(uint8_t *block, size_t block_length, double *poles, size_t poles_length);

/* ---- walls and the absorbing layer. A wall that is not periodic conducts. Each set_boundary clears both memories to +0.0 and puts the
   tables back to what opening gives them */
/* the flags of all three axes, and nothing else: layer, memories and tables stay */
uint32_t cichowiej_set_periodic(uint8_t *block, size_t block_length, bool x, bool y, bool z);
/* all axes periodic; the layer goes off, and no axis is active */
uint32_t cichowiej_set_boundary_periodic(uint8_t *block, size_t block_length, double *psi_e, size_t psi_e_length, double *psi_h,
                                         size_t psi_h_length, double *tables, size_t tables_length);
/* no axis periodic; the layer goes off, and no axis is active */
uint32_t cichowiej_set_boundary_conductor(uint8_t *block, size_t block_length, double *psi_e, size_t psi_e_length, double *psi_h,
                                          size_t psi_h_length, double *tables, size_t tables_length);
/* the periodic flags stay; the layer goes off, and no axis is active. The thickness is cut to half of the cells along an axis, and is 0
   along a periodic one. Unless it is 0 along all three, sigma is overwritten in every cell, +0.0 away from the walls: what a material
   or three numbers of cichowiej_put_box put there is lost, and what they put there later takes the place of this. BAD_ORDER */
uint32_t cichowiej_set_boundary_lossy(uint8_t *block, size_t block_length, size_t thickness, size_t order, double sigma_max,
                                      double *psi_e, size_t psi_e_length, double *psi_h, size_t psi_h_length, double *tables,
                                      size_t tables_length, double *media, size_t media_length);
/* the layer goes on, and is active on each axis that is asked for, if thickness is not 0 and the axis has 2 thickness + 2 cells or more;
   which these are goes into active. An axis that is asked for is periodic no more, active or not; the other flags stay. given has the
   order of tables: the part of an active axis is copied to tables, that of any other is not looked at. given and tables are two arrays.
   Handed the same one as both, the call keeps the parts of active axes as they stand; the others still go back to opening */
uint32_t cichowiej_set_boundary_cpml(uint8_t *block, size_t block_length, bool x, bool y, bool z, size_t thickness,
                                     const double *given, size_t given_length, double *psi_e, size_t psi_e_length, double *psi_h,
                                     size_t psi_h_length, double *tables, size_t tables_length, uint32_t *active,
                                     size_t active_length);

/* ---- the wave's region; its corners belong to it. Each call takes the place of a region that stands, clears aux to +0.0 and puts the
   time to +0.0; steps run on, and the fields stay. Only opening and rewind end a region. BAD_REGION */
/* all of x and y, from plane k0 to plane k1 */
uint32_t cichowiej_slab_z(uint8_t *block, size_t block_length, size_t k0, size_t k1, double *aux, size_t aux_length);
/* all of x and y, from plane k0 to the last; the wave enters at k0 and is not taken out */
uint32_t cichowiej_injector_z(uint8_t *block, size_t block_length, size_t k0, double *aux, size_t aux_length);
uint32_t cichowiej_box_region(uint8_t *block, size_t block_length, size_t i0, size_t i1, size_t j0, size_t j1, size_t k0,
                              size_t k1, double *aux, size_t aux_length);

/* ---- the step: h, then e, and with them the memories of active axes, poles where dispersion is built, aux where there is a region; time
   grows by dt. The sample is what the wave's source gives at time + dt; without a region it is unused. STALE_MATERIAL, SPENT_CLOCK */
uint32_t cichowiej_step(uint8_t *block, size_t block_length, double sample, double *e, size_t e_length, double *h, size_t h_length,
                        const double *media, size_t media_length, double *psi_e, size_t psi_e_length, double *psi_h,
                        size_t psi_h_length, const double *tables, size_t tables_length, double *poles, size_t poles_length,
                        double *aux, size_t aux_length, const uint32_t *ids, size_t ids_length);
/* a step for each sample: all of them or, where the call is refused, none. SPENT_CLOCK where the clock has not as many steps left. With
   no samples the study stays, and the call is refused where a step would be, but for SPENT_CLOCK */
uint32_t cichowiej_run(uint8_t *block, size_t block_length, const double *samples, size_t samples_length, double *e,
                       size_t e_length, double *h, size_t h_length, const double *media, size_t media_length, double *psi_e,
                       size_t psi_e_length, double *psi_h, size_t psi_h_length, const double *tables, size_t tables_length,
                       double *poles, size_t poles_length, double *aux, size_t aux_length, const uint32_t *ids, size_t ids_length);

/* ---- fields and readings */
/* e, h, both memories and the whole of poles become +0.0; aux, the region and the clock stay, and so do media, ids and tables */
uint32_t cichowiej_reset_fields(uint8_t *block, size_t block_length, double *e, size_t e_length, double *h, size_t h_length,
                                double *psi_e, size_t psi_e_length, double *psi_h, size_t psi_h_length, double *poles,
                                size_t poles_length);
uint32_t cichowiej_total_energy(const uint8_t *block, size_t block_length, const double *e, size_t e_length, const double *h,
                                size_t h_length, const double *media, size_t media_length, double *energy, size_t energy_length);
/* the sum of ex hy over plane k, times dx dy. NO_SUCH_PLANE */
uint32_t cichowiej_plane_reading(const uint8_t *block, size_t block_length, size_t k, const double *e, size_t e_length, const double *h,
                                 size_t h_length, double *reading, size_t reading_length);

/* ---- the save: the study as bytes, which are the same wherever they were written */
/* how many bytes the save takes goes into length */
uint32_t cichowiej_save_length(const uint8_t *block, size_t block_length, size_t *length, size_t length_length);
/* the save is written to the front of out; bytes beyond its length are left. NO_ROOM */
uint32_t cichowiej_save(const uint8_t *block, size_t block_length, const double *e, size_t e_length, const double *h,
                        size_t h_length, const double *media, size_t media_length, const double *psi_e, size_t psi_e_length,
                        const double *psi_h, size_t psi_h_length, const double *tables, size_t tables_length,
                        const double *poles, size_t poles_length, const double *aux, size_t aux_length, const uint32_t *ids,
                        size_t ids_length, uint8_t *out, size_t out_length);
/* takes up the study that was saved: block and stores, which may hold anything before, are written whole. The save is judged first, part
   by part (SHORT, BAD_MARK, BAD_RECORD), then TRAILING, then BAD_STORE unless the stores have the lengths of the saved study and the
   block its own. A save of an older library, whose first part has no byte for the constants, is taken with CONSTANTS_OLD; saved again
   it is a byte longer */
uint32_t cichowiej_rewind(uint8_t *block, size_t block_length, const uint8_t *save, size_t save_length, double *e, size_t e_length,
                          double *h, size_t h_length, double *media, size_t media_length, double *psi_e, size_t psi_e_length,
                          double *psi_h, size_t psi_h_length, double *tables, size_t tables_length, double *poles,
                          size_t poles_length, double *aux, size_t aux_length, uint32_t *ids, size_t ids_length);

/* ==== helpers: C in this header, no part of the library. They allocate nothing and run on hosts of either byte order */

/* ---- numbers as bytes, the lowest first */
static inline void cichowiej_put_number(uint8_t *to, size_t width, uint64_t number)
{
    size_t at;
    for (at = 0; at < width; at++)
        to[at] = (uint8_t)(number >> (8 * at) & 255);
}

static inline uint64_t cichowiej_get_number(const uint8_t *from, size_t width)
{
    uint64_t number = 0;
    size_t at;
    for (at = width; at > 0; at--)
        number = number << 8 | from[at - 1];
    return number;
}

static inline size_t cichowiej_get_short(const uint8_t *from)
{
    return (size_t)cichowiej_get_number(from, sizeof(uint16_t));
}

/* a NaN keeps its bits */
static inline void cichowiej_put_double(uint8_t *to, double number)
{
    uint64_t bits;
    memcpy(&bits, &number, sizeof bits);
    cichowiej_put_number(to, sizeof bits, bits);
}

static inline double cichowiej_get_double(const uint8_t *from)
{
    uint64_t bits = cichowiej_get_number(from, sizeof bits);
    double number;
    memcpy(&number, &bits, sizeof number);
    return number;
}

/* ---- how many elements each store has */
typedef struct cichowiej_lengths {
    size_t e, h, media, psi_e, psi_h, tables, poles, aux, ids;
} cichowiej_lengths;

static inline bool cichowiej_side_fits(size_t n)
{
    return n >= 1 && n <= CICHOWIEJ_MAX_SIDE;
}

/* whether opening takes these sizes and pole slots */
static inline bool cichowiej_sizes_fit(size_t nx, size_t ny, size_t nz, size_t pole_slots)
{
    return cichowiej_side_fits(nx) && cichowiej_side_fits(ny) && cichowiej_side_fits(nz) && nx * ny * nz <= CICHOWIEJ_MAX_CELLS
           && pole_slots <= CICHOWIEJ_MAX_POLE_SLOTS;
}

/* for sizes and pole slots that opening takes; for any other all lengths are 0 */
static inline cichowiej_lengths cichowiej_store_lengths(size_t nx, size_t ny, size_t nz, size_t pole_slots)
{
    bool fit = cichowiej_sizes_fit(nx, ny, nz, pole_slots);
    size_t cells = fit ? nx * ny * nz : 0;
    cichowiej_lengths lengths;
    lengths.e = 3 * cells;
    lengths.h = 3 * cells;
    lengths.media = 3 * cells;
    lengths.psi_e = 6 * cells;
    lengths.psi_h = 6 * cells;
    lengths.tables = fit ? 6 * (nx + ny + nz) : 0;
    lengths.poles = (6 * pole_slots + 3) * cells;
    lengths.aux = fit ? 2 * (nz + 2 * CICHOWIEJ_LINE_PAD) : 0;
    lengths.ids = cells;
    return lengths;
}

/* ---- where a number stands in its store */
static inline size_t cichowiej_cell(size_t nx, size_t ny, size_t i, size_t j, size_t k)
{
    return i + j * nx + k * nx * ny;
}

/* of poles. component: PART_X, PART_Y, PART_Z. p; p one step before; dp, the change of p in a step, of all slots together */
static inline size_t cichowiej_part_p(size_t slot, size_t component)
{
    return 3 * slot + component;
}

static inline size_t cichowiej_part_p_before(size_t pole_slots, size_t slot, size_t component)
{
    return 3 * pole_slots + 3 * slot + component;
}

static inline size_t cichowiej_part_dp(size_t pole_slots, size_t component)
{
    return 6 * pole_slots + component;
}

/* of tables: x, y and z one behind the other. axis: AXIS_X, AXIS_Y, AXIS_Z; at: the cell along it */
static inline size_t cichowiej_table_place(size_t nx, size_t ny, size_t nz, uint32_t axis, size_t part, size_t at)
{
    size_t before = axis == CICHOWIEJ_AXIS_X ? 0 : axis == CICHOWIEJ_AXIS_Y ? nx : nx + ny;
    size_t along = axis == CICHOWIEJ_AXIS_X ? nx : axis == CICHOWIEJ_AXIS_Y ? ny : nz;
    return 6 * before + part * along + at;
}

/* ---- a pole's coefficients: refusal is the answer of cichowiej_ade_coeffs, and where it is not ACCEPTED the three are 0.0. In a step
   eps0 is that of the study's constants */
typedef struct cichowiej_coeffs {
    uint32_t refusal;
    double a1, a2, a3;
} cichowiej_coeffs;

static inline cichowiej_coeffs cichowiej_coeffs_of(uint32_t tag, double first, double second, double third, double eps0, double dt)
{
    double out[CICHOWIEJ_COEFFS_LENGTH] = {0.0, 0.0, 0.0};
    cichowiej_coeffs coeffs;
    coeffs.refusal = cichowiej_ade_coeffs(tag, first, second, third, eps0, dt, out, CICHOWIEJ_COEFFS_LENGTH);
    coeffs.a1 = out[0];
    coeffs.a2 = out[1];
    coeffs.a3 = out[2];
    return coeffs;
}

static inline cichowiej_coeffs cichowiej_lorentz_coeffs(double delta_eps, double omega0, double gamma, double eps0, double dt)
{
    return cichowiej_coeffs_of(CICHOWIEJ_LORENTZ, delta_eps, omega0, gamma, eps0, dt);
}

static inline cichowiej_coeffs cichowiej_drude_coeffs(double omega_p, double gamma, double eps0, double dt)
{
    return cichowiej_coeffs_of(CICHOWIEJ_DRUDE, omega_p, gamma, 0.0, eps0, dt);
}

static inline cichowiej_coeffs cichowiej_debye_coeffs(double delta_eps, double tau, double eps0, double dt)
{
    return cichowiej_coeffs_of(CICHOWIEJ_DEBYE, delta_eps, tau, 0.0, eps0, dt);
}

/* ---- a material by named fields. A pole has the numbers of its tag, LORENTZ delta_eps, omega0, gamma; DRUDE omega_p, gamma; DEBYE
   delta_eps, tau; its other fields are not looked at, nor are places past the pole count */
typedef struct cichowiej_pole {
    uint32_t tag;
    double delta_eps, omega0, gamma, omega_p, tau;
} cichowiej_pole;

typedef struct cichowiej_material {
    double eps_inf, sigma, mu_r;
    uint32_t pole_count;
    cichowiej_pole poles[CICHOWIEJ_MAX_POLE_SLOTS];
} cichowiej_material;

static inline cichowiej_pole cichowiej_no_pole(void)
{
    cichowiej_pole pole;
    pole.tag = CICHOWIEJ_NO_POLE;
    pole.delta_eps = pole.omega0 = pole.gamma = pole.omega_p = pole.tau = 0.0;
    return pole;
}

/* what does not fit into a byte becomes 255, which no call takes for a tag or a pole count */
static inline uint8_t cichowiej_as_byte(uint32_t number)
{
    return (uint8_t)(number > 255 ? 255 : number);
}

static inline void cichowiej_pack_pole(const cichowiej_pole *pole, uint8_t *to)
{
    bool lorentz = pole->tag == CICHOWIEJ_LORENTZ, drude = pole->tag == CICHOWIEJ_DRUDE, debye = pole->tag == CICHOWIEJ_DEBYE;
    to[CICHOWIEJ_POLE_AT_TAG] = cichowiej_as_byte(pole->tag);
    cichowiej_put_double(to + CICHOWIEJ_POLE_AT_FIRST, lorentz || debye ? pole->delta_eps : drude ? pole->omega_p : 0.0);
    cichowiej_put_double(to + CICHOWIEJ_POLE_AT_SECOND, lorentz ? pole->omega0 : drude ? pole->gamma : debye ? pole->tau : 0.0);
    cichowiej_put_double(to + CICHOWIEJ_POLE_AT_THIRD, lorentz ? pole->gamma : 0.0);
}

static inline cichowiej_pole cichowiej_unpack_pole(const uint8_t *from)
{
    double first = cichowiej_get_double(from + CICHOWIEJ_POLE_AT_FIRST);
    double second = cichowiej_get_double(from + CICHOWIEJ_POLE_AT_SECOND);
    cichowiej_pole pole = cichowiej_no_pole();
    pole.tag = from[CICHOWIEJ_POLE_AT_TAG];
    if (pole.tag == CICHOWIEJ_LORENTZ) {
        pole.delta_eps = first;
        pole.omega0 = second;
        pole.gamma = cichowiej_get_double(from + CICHOWIEJ_POLE_AT_THIRD);
    } else if (pole.tag == CICHOWIEJ_DRUDE) {
        pole.omega_p = first;
        pole.gamma = second;
    } else if (pole.tag == CICHOWIEJ_DEBYE) {
        pole.delta_eps = first;
        pole.tau = second;
    }
    return pole;
}

/* the bytes that cichowiej_add_material takes, CICHOWIEJ_MATERIAL_LENGTH of them. A pole count above MAX_POLE_SLOTS is packed as it is, so
   that adding the material is refused */
static inline void cichowiej_pack_material(const cichowiej_material *material, uint8_t *to)
{
    const cichowiej_pole none = cichowiej_no_pole();
    size_t at;
    cichowiej_put_double(to + CICHOWIEJ_MATERIAL_AT_EPS_INF, material->eps_inf);
    cichowiej_put_double(to + CICHOWIEJ_MATERIAL_AT_SIGMA, material->sigma);
    cichowiej_put_double(to + CICHOWIEJ_MATERIAL_AT_MU_R, material->mu_r);
    to[CICHOWIEJ_MATERIAL_AT_POLE_COUNT] = cichowiej_as_byte(material->pole_count);
    for (at = 0; at < CICHOWIEJ_MAX_POLE_SLOTS; at++)
        cichowiej_pack_pole(at < material->pole_count ? &material->poles[at] : &none,
                            to + CICHOWIEJ_MATERIAL_AT_POLES + CICHOWIEJ_POLE_LENGTH * at);
}

static inline cichowiej_material cichowiej_unpack_material(const uint8_t *from)
{
    cichowiej_material material;
    size_t at;
    material.eps_inf = cichowiej_get_double(from + CICHOWIEJ_MATERIAL_AT_EPS_INF);
    material.sigma = cichowiej_get_double(from + CICHOWIEJ_MATERIAL_AT_SIGMA);
    material.mu_r = cichowiej_get_double(from + CICHOWIEJ_MATERIAL_AT_MU_R);
    material.pole_count = from[CICHOWIEJ_MATERIAL_AT_POLE_COUNT];
    for (at = 0; at < CICHOWIEJ_MAX_POLE_SLOTS; at++)
        material.poles[at] = cichowiej_unpack_pole(from + CICHOWIEJ_MATERIAL_AT_POLES + CICHOWIEJ_POLE_LENGTH * at);
    return material;
}

/* ---- what a block holds that an accepted call has written. Each is handed the whole block; of any other bytes the answer means nothing */
static inline size_t cichowiej_block_nx(const uint8_t *block)
{
    return cichowiej_get_short(block + CICHOWIEJ_AT_NX);
}

static inline size_t cichowiej_block_ny(const uint8_t *block)
{
    return cichowiej_get_short(block + CICHOWIEJ_AT_NY);
}

static inline size_t cichowiej_block_nz(const uint8_t *block)
{
    return cichowiej_get_short(block + CICHOWIEJ_AT_NZ);
}

static inline uint32_t cichowiej_axes_of(const uint8_t *flags)
{
    return (flags[0] != 0 ? CICHOWIEJ_AXIS_X : 0u) + (flags[1] != 0 ? CICHOWIEJ_AXIS_Y : 0u) + (flags[2] != 0 ? CICHOWIEJ_AXIS_Z : 0u);
}

/* axes, added */
static inline uint32_t cichowiej_block_periodic(const uint8_t *block)
{
    return cichowiej_axes_of(block + CICHOWIEJ_AT_PERIODIC);
}

static inline uint32_t cichowiej_block_active(const uint8_t *block)
{
    return cichowiej_axes_of(block + CICHOWIEJ_AT_ACTIVE);
}

static inline bool cichowiej_block_layer_on(const uint8_t *block)
{
    return block[CICHOWIEJ_AT_LAYER_ON] != 0;
}

static inline uint32_t cichowiej_block_built_count(const uint8_t *block)
{
    return block[CICHOWIEJ_AT_BUILT_COUNT];
}

static inline size_t cichowiej_block_pole_slots(const uint8_t *block)
{
    return block[CICHOWIEJ_AT_POLE_SLOTS];
}

static inline size_t cichowiej_block_constants(const uint8_t *block)
{
    return block[CICHOWIEJ_AT_CONSTANTS];
}

static inline uint32_t cichowiej_block_material_count(const uint8_t *block)
{
    return block[CICHOWIEJ_AT_MATERIAL_COUNT];
}

static inline double cichowiej_block_dx(const uint8_t *block)
{
    return cichowiej_get_double(block + CICHOWIEJ_AT_DX);
}

static inline double cichowiej_block_dy(const uint8_t *block)
{
    return cichowiej_get_double(block + CICHOWIEJ_AT_DY);
}

static inline double cichowiej_block_dz(const uint8_t *block)
{
    return cichowiej_get_double(block + CICHOWIEJ_AT_DZ);
}

static inline double cichowiej_block_dt(const uint8_t *block)
{
    return cichowiej_get_double(block + CICHOWIEJ_AT_DT);
}

static inline double cichowiej_block_time(const uint8_t *block)
{
    return cichowiej_get_double(block + CICHOWIEJ_AT_TIME);
}

static inline uint32_t cichowiej_block_steps(const uint8_t *block)
{
    return (uint32_t)cichowiej_get_number(block + CICHOWIEJ_AT_STEPS, sizeof(uint32_t));
}

/* the corners belong to the region; all are 0 where there is none */
typedef struct cichowiej_region {
    uint32_t kind;
    size_t i0, i1, j0, j1, k0, k1;
} cichowiej_region;

static inline cichowiej_region cichowiej_block_region(const uint8_t *block)
{
    cichowiej_region region;
    region.kind = block[CICHOWIEJ_AT_REGION_KIND];
    region.i0 = cichowiej_get_short(block + CICHOWIEJ_AT_I0);
    region.i1 = cichowiej_get_short(block + CICHOWIEJ_AT_I1);
    region.j0 = cichowiej_get_short(block + CICHOWIEJ_AT_J0);
    region.j1 = cichowiej_get_short(block + CICHOWIEJ_AT_J1);
    region.k0 = cichowiej_get_short(block + CICHOWIEJ_AT_K0);
    region.k1 = cichowiej_get_short(block + CICHOWIEJ_AT_K1);
    return region;
}

/* id: below CICHOWIEJ_MAX_MATERIALS */
static inline cichowiej_material cichowiej_block_material(const uint8_t *block, uint32_t id)
{
    return cichowiej_unpack_material(block + CICHOWIEJ_AT_MATERIALS + (size_t)CICHOWIEJ_MATERIAL_LENGTH * id);
}

/* ---- the nine stores as one: where each begins, and how many elements it really has */
typedef struct cichowiej_stores {
    double *e, *h, *media, *psi_e, *psi_h, *tables, *poles, *aux;
    uint32_t *ids;
    cichowiej_lengths lengths;
} cichowiej_stores;

/* how many doubles eight of the stores have together; the ninth is ids */
static inline size_t cichowiej_doubles(cichowiej_lengths lengths)
{
    return lengths.e + lengths.h + lengths.media + lengths.psi_e + lengths.psi_h + lengths.tables + lengths.poles + lengths.aux;
}

/* the stores laid out, none over another, in two arrays of the caller's: cichowiej_doubles(lengths) doubles and lengths.ids ids */
static inline cichowiej_stores cichowiej_stores_in(cichowiej_lengths lengths, double *doubles, uint32_t *ids)
{
    cichowiej_stores stores;
    stores.lengths = lengths;
    stores.e = doubles;
    stores.h = stores.e + lengths.e;
    stores.media = stores.h + lengths.h;
    stores.psi_e = stores.media + lengths.media;
    stores.psi_h = stores.psi_e + lengths.psi_e;
    stores.tables = stores.psi_h + lengths.psi_h;
    stores.poles = stores.tables + lengths.tables;
    stores.aux = stores.poles + lengths.poles;
    stores.ids = ids;
    return stores;
}

/* ---- a study: its block and its stores. Before the first call set the stores; what the block holds is opening's or rewind's to write.
   A copy of the struct has a block of its own, and the same stores. A wrapper hands over what the function of its name takes and
   answers what that answers; say NULL for a further answer that is not wanted */
typedef struct cichowiej_study {
    uint8_t block[CICHOWIEJ_BLOCK_LENGTH];
    cichowiej_stores stores;
} cichowiej_study;

/* a store as the two arguments that a function takes for it, and all nine in the order of the parameters */
#define CICHOWIEJ_LENT(store) study->stores.store, study->stores.lengths.store
#define CICHOWIEJ_LENT_BLOCK study->block, CICHOWIEJ_BLOCK_LENGTH
#define CICHOWIEJ_LENT_LAYER CICHOWIEJ_LENT(psi_e), CICHOWIEJ_LENT(psi_h), CICHOWIEJ_LENT(tables)
#define CICHOWIEJ_LENT_FIELDS CICHOWIEJ_LENT(e), CICHOWIEJ_LENT(h)
#define CICHOWIEJ_LENT_ALL                                                                                                               \
    CICHOWIEJ_LENT_FIELDS, CICHOWIEJ_LENT(media), CICHOWIEJ_LENT_LAYER, CICHOWIEJ_LENT(poles), CICHOWIEJ_LENT(aux), CICHOWIEJ_LENT(ids)

static inline uint32_t cichowiej_study_open(cichowiej_study *study, size_t nx, size_t ny, size_t nz, size_t pole_slots,
                                            size_t constants, double dx, double dy, double dz, double dt)
{
    return cichowiej_open(CICHOWIEJ_LENT_BLOCK, nx, ny, nz, pole_slots, constants, dx, dy, dz, dt, CICHOWIEJ_LENT_ALL);
}

static inline uint32_t cichowiej_study_add_material(cichowiej_study *study, const cichowiej_material *material, uint32_t *id)
{
    uint8_t bytes[CICHOWIEJ_MATERIAL_LENGTH];
    cichowiej_pack_material(material, bytes);
    return cichowiej_add_material(CICHOWIEJ_LENT_BLOCK, bytes, CICHOWIEJ_MATERIAL_LENGTH, id, id != NULL);
}

/* what cichowiej_put_box puts into a cell: three numbers, or a material. What is not put is 0 in it, and not looked at */
typedef struct cichowiej_put {
    bool library;
    uint32_t id;
    double eps_r, mu_r, sigma;
} cichowiej_put;

static inline cichowiej_put cichowiej_numbers(double eps_r, double mu_r, double sigma)
{
    cichowiej_put what = {false, 0, eps_r, mu_r, sigma};
    return what;
}

static inline cichowiej_put cichowiej_library(uint32_t id)
{
    cichowiej_put what = {true, id, 0.0, 0.0, 0.0};
    return what;
}

static inline uint32_t cichowiej_study_put_box(cichowiej_study *study, size_t i0, size_t i1, size_t j0, size_t j1, size_t k0, size_t k1,
                                               cichowiej_put what, uint32_t *cells)
{
    return cichowiej_put_box(CICHOWIEJ_LENT_BLOCK, i0, i1, j0, j1, k0, k1, what.library, what.id, what.eps_r, what.mu_r, what.sigma,
                             CICHOWIEJ_LENT(media), CICHOWIEJ_LENT(ids), cells, cells != NULL);
}

static inline uint32_t cichowiej_study_assign_material_halfspace_z(cichowiej_study *study, uint32_t id, size_t k0)
{
    return cichowiej_assign_material_halfspace_z(CICHOWIEJ_LENT_BLOCK, id, k0, CICHOWIEJ_LENT(media), CICHOWIEJ_LENT(ids));
}

static inline uint32_t cichowiej_study_build_dispersion(cichowiej_study *study)
{
    return cichowiej_build_dispersion(CICHOWIEJ_LENT_BLOCK, CICHOWIEJ_LENT(poles));
}

static inline uint32_t cichowiej_study_set_periodic(cichowiej_study *study, bool x, bool y, bool z)
{
    return cichowiej_set_periodic(CICHOWIEJ_LENT_BLOCK, x, y, z);
}

static inline uint32_t cichowiej_study_set_boundary_periodic(cichowiej_study *study)
{
    return cichowiej_set_boundary_periodic(CICHOWIEJ_LENT_BLOCK, CICHOWIEJ_LENT_LAYER);
}

static inline uint32_t cichowiej_study_set_boundary_conductor(cichowiej_study *study)
{
    return cichowiej_set_boundary_conductor(CICHOWIEJ_LENT_BLOCK, CICHOWIEJ_LENT_LAYER);
}

static inline uint32_t cichowiej_study_set_boundary_lossy(cichowiej_study *study, size_t thickness, size_t order, double sigma_max)
{
    return cichowiej_set_boundary_lossy(CICHOWIEJ_LENT_BLOCK, thickness, order, sigma_max, CICHOWIEJ_LENT_LAYER, CICHOWIEJ_LENT(media));
}

static inline uint32_t cichowiej_study_set_boundary_cpml(cichowiej_study *study, bool x, bool y, bool z, size_t thickness,
                                                         const double *given, size_t given_length, uint32_t *active)
{
    return cichowiej_set_boundary_cpml(CICHOWIEJ_LENT_BLOCK, x, y, z, thickness, given, given_length, CICHOWIEJ_LENT_LAYER, active,
                                       active != NULL);
}

static inline uint32_t cichowiej_study_slab_z(cichowiej_study *study, size_t k0, size_t k1)
{
    return cichowiej_slab_z(CICHOWIEJ_LENT_BLOCK, k0, k1, CICHOWIEJ_LENT(aux));
}

static inline uint32_t cichowiej_study_injector_z(cichowiej_study *study, size_t k0)
{
    return cichowiej_injector_z(CICHOWIEJ_LENT_BLOCK, k0, CICHOWIEJ_LENT(aux));
}

static inline uint32_t cichowiej_study_box_region(cichowiej_study *study, size_t i0, size_t i1, size_t j0, size_t j1, size_t k0,
                                                  size_t k1)
{
    return cichowiej_box_region(CICHOWIEJ_LENT_BLOCK, i0, i1, j0, j1, k0, k1, CICHOWIEJ_LENT(aux));
}

static inline uint32_t cichowiej_study_step(cichowiej_study *study, double sample)
{
    return cichowiej_step(CICHOWIEJ_LENT_BLOCK, sample, CICHOWIEJ_LENT_ALL);
}

static inline uint32_t cichowiej_study_run(cichowiej_study *study, const double *samples, size_t samples_length)
{
    return cichowiej_run(CICHOWIEJ_LENT_BLOCK, samples, samples_length, CICHOWIEJ_LENT_ALL);
}

static inline uint32_t cichowiej_study_reset_fields(cichowiej_study *study)
{
    return cichowiej_reset_fields(CICHOWIEJ_LENT_BLOCK, CICHOWIEJ_LENT_FIELDS, CICHOWIEJ_LENT(psi_e), CICHOWIEJ_LENT(psi_h),
                                  CICHOWIEJ_LENT(poles));
}

static inline uint32_t cichowiej_study_total_energy(const cichowiej_study *study, double *energy)
{
    return cichowiej_total_energy(CICHOWIEJ_LENT_BLOCK, CICHOWIEJ_LENT_FIELDS, CICHOWIEJ_LENT(media), energy, energy != NULL);
}

static inline uint32_t cichowiej_study_plane_reading(const cichowiej_study *study, size_t k, double *reading)
{
    return cichowiej_plane_reading(CICHOWIEJ_LENT_BLOCK, k, CICHOWIEJ_LENT_FIELDS, reading, reading != NULL);
}

static inline uint32_t cichowiej_study_save_length(const cichowiej_study *study, size_t *length)
{
    return cichowiej_save_length(CICHOWIEJ_LENT_BLOCK, length, length != NULL);
}

static inline uint32_t cichowiej_study_save(const cichowiej_study *study, uint8_t *out, size_t out_length)
{
    return cichowiej_save(CICHOWIEJ_LENT_BLOCK, CICHOWIEJ_LENT_ALL, out, out_length);
}

static inline uint32_t cichowiej_study_rewind(cichowiej_study *study, const uint8_t *save, size_t save_length)
{
    return cichowiej_rewind(CICHOWIEJ_LENT_BLOCK, save, save_length, CICHOWIEJ_LENT_ALL);
}

#undef CICHOWIEJ_LENT
#undef CICHOWIEJ_LENT_BLOCK
#undef CICHOWIEJ_LENT_LAYER
#undef CICHOWIEJ_LENT_FIELDS
#undef CICHOWIEJ_LENT_ALL

#ifdef __cplusplus
}
#endif

#endif
