/* Poles: the coefficients of each kind by the textbook's formulas, and a step that moves the polarizations of all places by them. */
#include "check.h"

#define DT 0.25

static bool same_coeffs(cichowiej_coeffs k, double a1, double a2, double a3)
{
    return k.refusal == CICHOWIEJ_ACCEPTED && same_bits(k.a1, a1) && same_bits(k.a2, a2) && same_bits(k.a3, a3);
}

static void coefficients(void)
{
    const double eps0 = 3.0, delta_eps = 5.0, omega0 = 1.1, gamma = 0.7, omega_p = 1.3, tau = 1.7;
    const double denom = 1.0 + gamma * DT / 2.0, a2 = -(1.0 - gamma * DT / 2.0) / denom;
    const double lorentz = delta_eps * omega0 * omega0, drude = omega_p * omega_p;
    CHECK(same_coeffs(cichowiej_lorentz_coeffs(delta_eps, omega0, gamma, eps0, DT), (2.0 - omega0 * omega0 * DT * DT) / denom, a2,
                      eps0 * lorentz * DT * DT / denom));
    CHECK(same_coeffs(cichowiej_drude_coeffs(omega_p, gamma, eps0, DT), 2.0 / denom, a2, eps0 * drude * DT * DT / denom));
    CHECK(same_coeffs(cichowiej_debye_coeffs(delta_eps, tau, eps0, DT), 1.0 - DT / tau, 0.0, eps0 * delta_eps * DT / tau));
}

/* a Debye pole, in room for so many numbers */
static uint32_t coeffs_into(double *out, size_t length, uint32_t tag, double tau)
{
    return cichowiej_ade_coeffs(tag, 2.0, tau, 0.0, 1.0, 1.0, out, length);
}

/* a room of another length, another tag, a pole that cannot be stepped, in this order: nothing is written */
static void no_coefficients(void)
{
    double out[CICHOWIEJ_COEFFS_LENGTH + 1];
    size_t at;
    for (at = 0; at < LENGTH(out); at++)
        out[at] = 77.0;
    CHECK(coeffs_into(out, CICHOWIEJ_COEFFS_LENGTH - 1, CICHOWIEJ_NO_POLE, 0.0) == CICHOWIEJ_BAD_STORE);
    CHECK(coeffs_into(out, CICHOWIEJ_COEFFS_LENGTH + 1, CICHOWIEJ_NO_POLE, 0.0) == CICHOWIEJ_BAD_STORE);
    CHECK(coeffs_into(out, CICHOWIEJ_COEFFS_LENGTH - 1, CICHOWIEJ_DEBYE, 0.0) == CICHOWIEJ_BAD_STORE);
    CHECK(coeffs_into(out, CICHOWIEJ_COEFFS_LENGTH + 1, CICHOWIEJ_DEBYE, 1.0) == CICHOWIEJ_BAD_STORE);
    CHECK(coeffs_into(out, CICHOWIEJ_COEFFS_LENGTH, CICHOWIEJ_NO_POLE, 0.0) == CICHOWIEJ_BAD_STUDY);
    CHECK(coeffs_into(out, CICHOWIEJ_COEFFS_LENGTH, CICHOWIEJ_DEBYE + 1, 1.0) == CICHOWIEJ_BAD_STUDY);
    CHECK(coeffs_into(out, CICHOWIEJ_COEFFS_LENGTH, CICHOWIEJ_DEBYE, 0.0) == CICHOWIEJ_BAD_POLE);
    for (at = 0; at < LENGTH(out); at++)
        CHECK(out[at] == 77.0);
    CHECK(coeffs_into(out, CICHOWIEJ_COEFFS_LENGTH, CICHOWIEJ_DEBYE, 1.0) == CICHOWIEJ_ACCEPTED && out[0] == 0.0);
    CHECK(coeffs_into(out, CICHOWIEJ_COEFFS_LENGTH, CICHOWIEJ_LORENTZ, 1.0) == CICHOWIEJ_ACCEPTED && out[0] == 1.0 && out[3] == 77.0);
}

/* by the helpers: the refusal, and three zeros */
static bool no_coeffs(cichowiej_coeffs k, uint32_t refusal)
{
    return k.refusal == refusal && same_bits(k.a1, 0.0) && same_bits(k.a2, 0.0) && same_bits(k.a3, 0.0);
}

static void no_coefficients_by_name(void)
{
    CHECK(no_coeffs(cichowiej_lorentz_coeffs(2.0, 1.0, -2.0, 1.0, 1.0), CICHOWIEJ_BAD_POLE));
    CHECK(no_coeffs(cichowiej_drude_coeffs(1.0, -2.0, 1.0, 1.0), CICHOWIEJ_BAD_POLE));
    CHECK(no_coeffs(cichowiej_debye_coeffs(2.0, 0.0, 1.0, 1.0), CICHOWIEJ_BAD_POLE));
    CHECK(no_coeffs(cichowiej_coeffs_of(CICHOWIEJ_NO_POLE, 2.0, 1.0, 1.0, 1.0, 1.0), CICHOWIEJ_BAD_STUDY));
}

/* one that is not finite is enough: a1 by the square of omega0, a2 by gamma dt, a3 by the square of omega_p */
static void one_of_three(void)
{
    CHECK(cichowiej_lorentz_coeffs(0.0, 1e160, 0.5, 1.0, 1.0).refusal == CICHOWIEJ_BAD_POLE);
    CHECK(cichowiej_lorentz_coeffs(0.0, 1e150, 0.5, 1.0, 1.0).refusal == CICHOWIEJ_ACCEPTED);
    CHECK(cichowiej_drude_coeffs(1.0, 1e308, 1.0, 2.0).refusal == CICHOWIEJ_BAD_POLE);
    CHECK(cichowiej_drude_coeffs(1.0, 1e308, 1.0, 1.0).refusal == CICHOWIEJ_ACCEPTED);
    CHECK(cichowiej_drude_coeffs(1e160, 0.5, 1.0, 1.0).refusal == CICHOWIEJ_BAD_POLE);
    CHECK(cichowiej_drude_coeffs(1e150, 0.5, 1.0, 1.0).refusal == CICHOWIEJ_ACCEPTED);
}

static cichowiej_material four_poles(void)
{
    const cichowiej_pole lorentz = {CICHOWIEJ_LORENTZ, 5.0, 1.1, 0.7, 0.0, 0.0}, drude = {CICHOWIEJ_DRUDE, 0.0, 0.0, 0.6, 1.3, 0.0};
    const cichowiej_pole water = {CICHOWIEJ_DEBYE, 3.0, 0.0, 0.0, 0.0, 1.7}, second = {CICHOWIEJ_LORENTZ, 2.0, 0.9, 0.4, 0.0, 0.0};
    cichowiej_material material = plain(2.0, 0.5, 1.5);
    material.pole_count = 4;
    material.poles[0] = lorentz;
    material.poles[1] = drude;
    material.poles[2] = water;
    material.poles[3] = second;
    return material;
}

/* p, p before and dp of component c at a cell after a step, from what stood there before it */
static void cell_moved(const held *before, const held *after, size_t c, size_t cell)
{
    const double eps0 = cichowiej_eps0(), *old = before->study.stores.poles, *now = after->study.stores.poles;
    const size_t cells = before->study.stores.lengths.ids, slots = CICHOWIEJ_MAX_POLE_SLOTS;
    cichowiej_coeffs k[4];
    double dp = 0.0;
    size_t slot;
    k[0] = cichowiej_lorentz_coeffs(5.0, 1.1, 0.7, eps0, DT);
    k[1] = cichowiej_drude_coeffs(1.3, 0.6, eps0, DT);
    k[2] = cichowiej_debye_coeffs(3.0, 1.7, eps0, DT);
    k[3] = cichowiej_lorentz_coeffs(2.0, 0.9, 0.4, eps0, DT);
    for (slot = 0; slot < LENGTH(k); slot++) {
        const size_t p = cichowiej_part_p(slot, c) * cells + cell, q = cichowiej_part_p_before(slots, slot, c) * cells + cell;
        const double moved = k[slot].a1 * old[p] + k[slot].a2 * old[q] + k[slot].a3 * before->study.stores.e[c * cells + cell];
        CHECK(same_bits(now[p], moved) && same_bits(now[q], old[p]));
        dp += moved - old[p];
    }
    CHECK(same_bits(now[cichowiej_part_dp(slots, c) * cells + cell], dp));
}

static void stepped(void)
{
    static held before, after;
    const cichowiej_material material = four_poles();
    cichowiej_study *s = &before.study;
    size_t c, cell;
    lend(&before, 2, 3, 2, CICHOWIEJ_MAX_POLE_SLOTS);
    CHECK(cichowiej_study_open(s, 2, 3, 2, CICHOWIEJ_MAX_POLE_SLOTS, CICHOWIEJ_CONSTANTS_OLD, 1.0, 1.0, 1.0, DT) == CICHOWIEJ_ACCEPTED);
    CHECK(cichowiej_study_add_material(s, &material, NULL) == CICHOWIEJ_ACCEPTED);
    CHECK(cichowiej_study_build_dispersion(s) == CICHOWIEJ_ACCEPTED);
    fill(&before, 1);
    for (cell = 0; cell < s->stores.lengths.ids; cell++)
        s->stores.ids[cell] = 1;
    copy_held(&after, &before);
    CHECK(cichowiej_study_step(&after.study, 0.0) == CICHOWIEJ_ACCEPTED);
    for (c = CICHOWIEJ_PART_X; c <= CICHOWIEJ_PART_Z; c++)
        for (cell = 0; cell < s->stores.lengths.ids; cell++)
            cell_moved(&before, &after, c, cell);
}

/* the poles of a material that is in every cell do nothing before dispersion is built */
static void not_built(void)
{
    static held before, after;
    const cichowiej_material material = debye(2.0, 3.0);
    open_held(&before, 2, 2, 2, 1);
    CHECK(cichowiej_study_add_material(&before.study, &material, NULL) == CICHOWIEJ_ACCEPTED);
    fill(&before, 2);
    copy_held(&after, &before);
    CHECK(cichowiej_study_step(&after.study, 0.0) == CICHOWIEJ_ACCEPTED);
    CHECK(same_store(&before, &after, 6) && !same_store(&before, &after, 0));
    CHECK(cichowiej_study_build_dispersion(&before.study) == CICHOWIEJ_ACCEPTED);
    CHECK(cichowiej_study_step(&before.study, 0.0) == CICHOWIEJ_ACCEPTED);
    CHECK(before.study.stores.poles[1] != 0.0);
}

void poles(void)
{
    coefficients();
    no_coefficients();
    no_coefficients_by_name();
    one_of_three();
    stepped();
    not_built();
}
