/* Range-acceleration residuals of a satellite pair: the calls of libexports.a (tools/staticlib; x86-64). A version, the lengths of
 * scratch as functions and a struct of a submission's lists are in pozsmeteg_submission.h, units too; example.c uses them.
 *
 * A list is a pointer and its length; a pointer is never null, also for an empty list, and is aligned for its type. Lists that a
 * call writes (those without const) overlap no other list of the same call. No call allocates, keeps a pointer, or has a state, so
 * calls may run side by side, each on its own lists. 32 KB of stack are enough for any of them (18.9 KB were measured).
 *
 * Leave the processor's floating-point mode as C starts it: round to nearest, and no flush of subnormal numbers to zero, neither of
 * results nor of operands. A program built with -ffast-math starts in another mode, and then refusals and bits are not those
 * promised here: a time of -2^-1074 is accepted.
 *
 * Answers are the refusals' numbers of the specification, 0 for acceptance:
 *    1 degree not 2 to 180                         6 a time of the arc is not covered by the fields
 *    2 a count outside its bound                   7 fewer states found than a tenth of the steps
 *    3 lengths disagree, or scratch too short      8 no state at the arc's start
 *    4 an input not finite, or a time or key       9 least squares has a pivot below 1e-12
 *      outside its bound                          10 a number to be handed out is not finite
 *    5 a list of times or keys not strictly rising
 * The lowest number that applies is answered. After 1 to 5 every list is as it was. After 6 to 10 every output and the scratch are
 * +0.0 (counts 0). After acceptance the outputs hold the answer and the scratch is +0.0, all of it. What a call answers besides the
 * number, a count or an rms, goes into a list too, an output like any other: a length other than the one named is 3.
 *
 * N is the degree, L = (N + 1)(N + 2)/2. A field is 2 + 2 L numbers: GM, radius, all C, all S, by degree and then order. Added
 * fields stand end to end, one for each of their times. States are six numbers for each key: position, velocity. Keys are whole
 * seconds, 0 to 2^31; times are seconds, 0 to 2^31. */
#ifndef POZSMETEG_H
#define POZSMETEG_H

#include <stddef.h>
#include <stdint.h>

#ifdef __cplusplus
extern "C" {
#endif

/* ---- elementary numbers; they refuse nothing and answer NaN where there is none. No other call hands out a NaN */

/* The double nearest the square root, ties to even; NaN below zero, -0.0 for -0.0. */
double pozsmeteg_root(double x);

/* NaN for an x that is not finite or beyond 2^20 either way. */
double pozsmeteg_sine(double x);
double pozsmeteg_cosine(double x);

/* The angle of the point (x, y), -pi to pi; +0.0 for two zeros of any sign. */
double pozsmeteg_arctangent(double y, double x);

/* NaN beyond 1 either way. */
double pozsmeteg_arcsine(double v);

/* c times a to the n, by halving n. */
double pozsmeteg_power(double a, uint32_t n, double c);

/* ---- fields */

/* The Legendre recursion's tables of degree N, which the calls below take as a and b.
 * Lengths: a and b L each, scratch at least 8 L. Refuses 1, 3. */
uint8_t pozsmeteg_legendre_new(size_t degree, double *a, size_t a_length, double *b, size_t b_length,
                               double *scratch, size_t scratch_length);

/* The potential and its derivatives by radius, latitude and longitude, into the four places of out.
 * Lengths: field 2 + 2 L, a and b L, out 4, scratch at least 8 L. Refuses 1, 3, 4, 10. */
uint8_t pozsmeteg_partials(size_t degree, const double *field, size_t field_length, const double *a, size_t a_length,
                           const double *b, size_t b_length, double r, double lat, double lon,
                           double *out, size_t out_length, double *scratch, size_t scratch_length);

/* What many evaluations at one degree share, into a work list of at least 8 L numbers: the first 2 L, the caller's C and S, stay,
 * and so does what stands behind 4 L + N + 1. Refuses 1, 3. */
uint8_t pozsmeteg_prepare(size_t degree, double *work, size_t work_length);

/* As pozsmeteg_partials, from a prepared work list with C and S in front. Lengths: a and b L, work at least 8 L, out 4. Refuses 1,
 * 3, 4 where gm, radius, r, lat or lon is not finite, and 10. The numbers in a, b and work are not looked at beforehand. */
uint8_t pozsmeteg_partials_prepared(size_t degree, double gm, double radius, const double *a, size_t a_length,
                                    const double *b, size_t b_length, const double *work, size_t work_length,
                                    double r, double lat, double lon, double *out, size_t out_length);

/* ---- fits */

/* A dynamic orbit fitted to the positions of `states` at every fifth of its steps of 2 s, from t0 on.
 * Lengths: field 2 + 2 L, a and b L, added 2 + 2 L for each of 2 to 32 times, states 6 for each of at most 200,000 keys, out
 * 6 (steps + 1) with at most 5,302 steps, rms 1, scratch at least 2 times_length L + 8 L + 150,000. t0 is from -2^31 to 2^31, node
 * a time, period finite. Refuses 1 to 10. Left behind: position and velocity at each step in out, the rms of the misfits in
 * rms[0]. */
uint8_t pozsmeteg_fit_orbit(size_t degree, const double *field, size_t field_length, const double *a, size_t a_length,
                            const double *b, size_t b_length, const double *times, size_t times_length,
                            const double *added, size_t added_length, const int64_t *keys, size_t keys_length,
                            const double *states, size_t states_length, double t0, size_t steps, double node, double period,
                            double *out, size_t out_length, double *rms, size_t rms_length,
                            double *scratch, size_t scratch_length);

/* ---- epochs */

/* The records of the kept epochs of M observations, in their order; the count of them goes into counts[0]. An observation is kept
 * when its byte in `good` is not 0, its time is covered by the fields, and all four lists have its whole second.
 * Lengths: the model's as above; cstates and dstates 6 for each key, caccs and daccs 1, at most 200,000 keys each; obsvalues, good
 * and the five outputs M, at most 100,000 (an entry of outterms is five numbers, of outmids and outvels three); counts 1; scratch
 * at least 2 times_length L + 8 L + 150,000 + 10 M. Refuses 1 to 5 and 10. Left behind: record k at place k of the five outputs,
 * +0.0 after the last. */
uint8_t pozsmeteg_residuals(size_t degree, const double *field, size_t field_length, const double *a, size_t a_length,
                            const double *b, size_t b_length, const double *times, size_t times_length,
                            const double *added, size_t added_length, const int64_t *ckeys, size_t ckeys_length,
                            const double *cstates, size_t cstates_length, const int64_t *dkeys, size_t dkeys_length,
                            const double *dstates, size_t dstates_length, const int64_t *cacckeys, size_t cacckeys_length,
                            const double *caccs, size_t caccs_length, const int64_t *dacckeys, size_t dacckeys_length,
                            const double *daccs, size_t daccs_length, const double *obstimes, size_t obstimes_length,
                            const double *obsvalues, size_t obsvalues_length, const uint8_t *good, size_t good_length,
                            double *outtimes, size_t outtimes_length, double *outresiduals, size_t outresiduals_length,
                            double (*outterms)[5], size_t outterms_length, double (*outmids)[3], size_t outmids_length,
                            double (*outvels)[3], size_t outvels_length, size_t *counts, size_t counts_length,
                            double *scratch, size_t scratch_length);

/* ---- the whole path */

/* The sheet of a submission: both satellites fitted between the nodes, the residuals of the kept epochs, detrended by revolutions,
 * passed through the band. counts[0] gets the number of kept epochs, counts[1] F, how many of them are final.
 * Lengths: as pozsmeteg_residuals; at most 64 nodes; the four outputs M; counts 2; scratch at least 2 times_length L + 8 L +
 * 150,000 + 49,200 (nodes_length - 1, or 0) + 10 M. Refuses 1 to 5, and 10 where a published number is not finite. Left behind:
 * time, raw residual, detrended residual and passed value of each kept epoch, +0.0 after the last. No appended data changes the
 * first F entries of the four lists. */
uint8_t pozsmeteg_sheet(size_t degree, const double *field, size_t field_length, const double *a, size_t a_length,
                        const double *b, size_t b_length, const double *times, size_t times_length,
                        const double *added, size_t added_length, const int64_t *ckeys, size_t ckeys_length,
                        const double *cstates, size_t cstates_length, const int64_t *dkeys, size_t dkeys_length,
                        const double *dstates, size_t dstates_length, const int64_t *cacckeys, size_t cacckeys_length,
                        const double *caccs, size_t caccs_length, const int64_t *dacckeys, size_t dacckeys_length,
                        const double *daccs, size_t daccs_length, const double *nodes, size_t nodes_length,
                        const double *obstimes, size_t obstimes_length, const double *obsvalues, size_t obsvalues_length,
                        const uint8_t *good, size_t good_length, double *outtimes, size_t outtimes_length,
                        double *outraws, size_t outraws_length, double *outdetrended, size_t outdetrended_length,
                        double *outpassed, size_t outpassed_length, size_t *counts, size_t counts_length,
                        double *scratch, size_t scratch_length);

/* ---- detrending and the band-pass */

/* The revolutions between neighbouring nodes that have 50 epochs or more: the places of each one's epochs in `times`, the end
 * excluded, its first node and its period. The count goes into counts[0].
 * Lengths: at most 100,000 times and 64 nodes; the four outputs one shorter than nodes (0 for no node); counts 1. Refuses 2 to 5.
 * Left behind: 0 and +0.0 after the last revolution. No scratch. */
uint8_t pozsmeteg_revolutions(const double *times, size_t times_length, const double *nodes, size_t nodes_length,
                              size_t *firsts, size_t firsts_length, size_t *ends, size_t ends_length,
                              double *starts, size_t starts_length, double *periods, size_t periods_length,
                              size_t *counts, size_t counts_length);

/* Each range's values less a bias, a trend and the waves of one and two turns, in place. Ranges of zeros, singular and empty ones
 * are passed over. Lengths: values as times (at most 100,000); ends, starts and periods as firsts (at most 63), each range with
 * first <= end and within the times, else 2; starts are rising times, periods finite; scratch at least 8 numbers a time. Refuses 2
 * to 5 and 10. */
uint8_t pozsmeteg_detrend(const double *times, size_t times_length, double *values, size_t values_length,
                          const size_t *firsts, size_t firsts_length, const size_t *ends, size_t ends_length,
                          const double *starts, size_t starts_length, const double *periods, size_t periods_length,
                          double *scratch, size_t scratch_length);

/* Each run of the times (steps of at most 3.0 s) through the band from 1 to 10 mHz, forward and backward; runs of 64 samples or
 * fewer give +0.0. Lengths: x and out as times (at most 100,000), scratch at least 8 numbers a time. Refuses 2 to 5 and 10. */
uint8_t pozsmeteg_band_pass(const double *times, size_t times_length, const double *x, size_t x_length,
                            double *out, size_t out_length, double *scratch, size_t scratch_length);

/* ---- which entries are final */

/* The horizon: the largest node z with z + 1,804 at most the last entry of each of the six lists. Its time goes into out[0], -1.0
 * where there is none, as where one of these lists is empty.
 * Lengths: at most 64 nodes, 200,000 keys each, 32 fields and 100,000 observed times; out 1. Refuses 2 to 5. No scratch. */
uint8_t pozsmeteg_horizon(const double *nodes, size_t nodes_length, const int64_t *cstates, size_t cstates_length,
                          const int64_t *dstates, size_t dstates_length, const int64_t *caccs, size_t caccs_length,
                          const int64_t *daccs, size_t daccs_length, const double *fields, size_t fields_length,
                          const double *observed, size_t observed_length, double *out, size_t out_length);

/* F: how many of the kept epochs at the times `kept` stand in runs that end more than 3.0 s before the horizon; 0 without one. It
 * goes into counts[0]. Lengths: as pozsmeteg_horizon; at most 100,000 kept times; counts 1. Refuses 2 to 5. No scratch. */
uint8_t pozsmeteg_final_count(const double *nodes, size_t nodes_length, const int64_t *cstates, size_t cstates_length,
                              const int64_t *dstates, size_t dstates_length, const int64_t *caccs, size_t caccs_length,
                              const int64_t *daccs, size_t daccs_length, const double *fields, size_t fields_length,
                              const double *observed, size_t observed_length, const double *kept, size_t kept_length,
                              size_t *counts, size_t counts_length);

/* How many entries the final part of a published list has, which begins where the list does: count, or 0 for a shorter list.
 * Refuses nothing. */
size_t pozsmeteg_final_entries(const double *list, size_t list_length, size_t count);

#ifdef __cplusplus
}
#endif

#endif
