/* What the checks share: a claim that is counted where it fails, and a study that holds its own arrays. */
#ifndef CHECK_H
#define CHECK_H

#include "cichowiej.h"

/* says where, and counts, if the claim does not hold */
#define CHECK(claim) check((claim), #claim, __FILE__, __LINE__)
#define LENGTH(array) (sizeof(array) / sizeof(array)[0])

void check(bool holds, const char *claim, const char *file, int line);

/* room for the largest study of the checks, and an element more for a store that is said to be longer than it has to be */
#define DOUBLES 30000
#define IDS 600
#define SAVE 300000

typedef struct held {
    cichowiej_study study;
    double doubles[DOUBLES];
    uint32_t ids[IDS];
} held;

/* stores of the lengths that these sizes ask for, every number in them and the block's bytes odd */
void lend(held *to, size_t nx, size_t ny, size_t nz, size_t pole_slots);
/* the same, opened with all spacings 1.0 */
void open_held(held *to, size_t nx, size_t ny, size_t nz, size_t pole_slots);
/* the lengths of the nine stores in the order of the library's parameters, to be changed too */
#define STORES 9
size_t *length_of(held *of, size_t store);
/* any number put into every element of the eight stores of doubles, each another, and ids below `materials` */
void fill(held *to, uint32_t materials);
void copy_held(held *to, const held *from);
/* the same bits in block and stores */
bool same_held(const held *a, const held *b);
bool same_store(const held *a, const held *b, size_t store);
/* AXIS_X, AXIS_Y, AXIS_Z for 0, 1, 2 */
uint32_t axis_number(size_t axis);
/* a material without poles */
cichowiej_material plain(double eps_inf, double sigma, double mu_r);
/* a material with one Debye pole */
cichowiej_material debye(double delta_eps, double tau);
/* where its tau stands in the bytes of a material: the second number of the first pole */
#define AT_TAU (CICHOWIEJ_MATERIAL_AT_POLES + CICHOWIEJ_POLE_AT_SECOND)
/* the same bits */
bool same_bits(double a, double b);

/* the themes */
void limits(void);
void refusals(void);
void precedence(void);
void record(void);
void materials(void);
void poles(void);
void bad_poles(void);
void lengths(void);
void parts(void);
void tables(void);
void walls(void);
void regions(void);
void effects(void);
void steps(void);
void saves(void);
void constants(void);
void pointers(void);
void wrappers(void);
void bytes(void);
void nans(void);
void overlap(void);

#endif
