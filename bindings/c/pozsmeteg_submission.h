/* Over pozsmeteg.h: the version, how long scratch has to be, and a submission's lists in one struct, so that a call has a few
 * arguments. Nothing here has to be linked, and the calls of pozsmeteg.h stay as they are: what refuses what, and what is left
 * behind, is said there.
 *
 * Units: metres, seconds, m/s and m/s2; times are GPS seconds past 2000-01-01 12:00, keys the same as whole seconds; coefficients
 * are fully normalised; positions and velocities are Earth-fixed; each accelerometer's x axis points towards the other satellite. */
#ifndef POZSMETEG_SUBMISSION_H
#define POZSMETEG_SUBMISSION_H

#include "pozsmeteg.h"

#define POZSMETEG_VERSION "0.1.0"

/* ---- lengths, in numbers; a count beyond its bound, which every call refuses, counts as the bound */

static inline size_t pozsmeteg_at_most(size_t count, size_t bound) {
    return count < bound ? count : bound;
}

/* L, how many coefficients of one kind a field of the degree has; 0 beyond 180. */
static inline size_t pozsmeteg_places(size_t degree) {
    return degree > 180 ? 0 : (degree + 1) * (degree + 2) / 2;
}

/* A field: GM, radius, all C, all S. */
static inline size_t pozsmeteg_field_length(size_t degree) {
    return 2 + 2 * pozsmeteg_places(degree);
}

/* The scratch of pozsmeteg_legendre_new and pozsmeteg_partials, and a prepared work list. */
static inline size_t pozsmeteg_field_scratch(size_t degree) {
    return 8 * pozsmeteg_places(degree);
}

/* The scratch of pozsmeteg_fit_orbit, with so many added fields. */
static inline size_t pozsmeteg_fit_scratch(size_t degree, size_t fields) {
    return 2 * pozsmeteg_at_most(fields, 32) * pozsmeteg_places(degree) + pozsmeteg_field_scratch(degree) + 150000;
}

/* The scratch of pozsmeteg_residuals. */
static inline size_t pozsmeteg_residuals_scratch(size_t degree, size_t fields, size_t observations) {
    return pozsmeteg_fit_scratch(degree, fields) + 10 * pozsmeteg_at_most(observations, 100000);
}

/* The scratch of pozsmeteg_sheet. */
static inline size_t pozsmeteg_sheet_scratch(size_t degree, size_t fields, size_t nodes, size_t observations) {
    size_t windows = nodes ? pozsmeteg_at_most(nodes, 64) - 1 : 0;
    return pozsmeteg_residuals_scratch(degree, fields, observations) + 49200 * windows;
}

/* The scratch of pozsmeteg_detrend and pozsmeteg_band_pass. */
static inline size_t pozsmeteg_column_scratch(size_t times) {
    return 8 * pozsmeteg_at_most(times, 100000);
}

/* ---- a submission; no pointer is null, also that of an empty list */

typedef struct {
    const double *list;
    size_t length;
} pozsmeteg_numbers;

/* Values beside their whole seconds: six a key for states (position, velocity), one for accelerometer values. */
typedef struct {
    const int64_t *keys;
    size_t keys_length;
    const double *values;
    size_t values_length;
} pozsmeteg_keyed;

typedef struct {
    size_t degree;
    pozsmeteg_numbers field, a, b;         /* the static field, and the Legendre tables of pozsmeteg_legendre_new */
    pozsmeteg_numbers field_times, added;  /* the added fields' times, and these end to end */
    pozsmeteg_keyed states_c, acc_c, states_d, acc_d;
    pozsmeteg_numbers nodes, obs_times, obs_values;
    const uint8_t *good;                   /* a byte for each observation, 0 where it is not good */
    size_t good_length;
} pozsmeteg_submission;

/* What a sheet is written to: four lists of `length` places, which has to be the number of observations; and how many epochs were
 * kept, and are final. */
typedef struct {
    double *times, *raws, *detrended, *passed;
    size_t length, kept, final_count;
} pozsmeteg_sheet_lists;

/* How long the scratch of a submission's sheet has to be. */
static inline size_t pozsmeteg_scratch_of(const pozsmeteg_submission *s) {
    return pozsmeteg_sheet_scratch(s->degree, s->field_times.length, s->nodes.length, s->obs_times.length);
}

#define POZSMETEG_LIST(numbers) (numbers).list, (numbers).length
#define POZSMETEG_KEYED(keyed) (keyed).keys, (keyed).keys_length, (keyed).values, (keyed).values_length
#define POZSMETEG_REACH(s) POZSMETEG_LIST((s)->nodes), (s)->states_c.keys, (s)->states_c.keys_length, (s)->states_d.keys, (s)->states_d.keys_length, \
    (s)->acc_c.keys, (s)->acc_c.keys_length, (s)->acc_d.keys, (s)->acc_d.keys_length, POZSMETEG_LIST((s)->field_times), POZSMETEG_LIST((s)->obs_times)

/* pozsmeteg_sheet of a submission. The two counts are 0 after any refusal. */
static inline uint8_t pozsmeteg_sheet_of(const pozsmeteg_submission *s, pozsmeteg_sheet_lists *out, double *scratch, size_t scratch_length) {
    size_t counts[2] = {0, 0};
    uint8_t number = pozsmeteg_sheet(
        s->degree, POZSMETEG_LIST(s->field), POZSMETEG_LIST(s->a), POZSMETEG_LIST(s->b), POZSMETEG_LIST(s->field_times), POZSMETEG_LIST(s->added),
        POZSMETEG_KEYED(s->states_c), POZSMETEG_KEYED(s->states_d), POZSMETEG_KEYED(s->acc_c), POZSMETEG_KEYED(s->acc_d), POZSMETEG_LIST(s->nodes),
        POZSMETEG_LIST(s->obs_times), POZSMETEG_LIST(s->obs_values), s->good, s->good_length, out->times, out->length, out->raws, out->length,
        out->detrended, out->length, out->passed, out->length, counts, 2, scratch, scratch_length);
    out->kept = counts[0];
    out->final_count = counts[1];
    return number;
}

/* pozsmeteg_horizon of a submission, into *time; -1.0 where there is none. */
static inline uint8_t pozsmeteg_horizon_of(const pozsmeteg_submission *s, double *time) {
    return pozsmeteg_horizon(POZSMETEG_REACH(s), time, 1);
}

/* pozsmeteg_final_count of a submission and the times of its kept epochs, into *count. */
static inline uint8_t pozsmeteg_final_count_of(const pozsmeteg_submission *s, const double *kept, size_t kept_length, size_t *count) {
    return pozsmeteg_final_count(POZSMETEG_REACH(s), kept, kept_length, count, 1);
}

#endif
