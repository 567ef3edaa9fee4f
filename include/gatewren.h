/*
 * Gatewren: Carlson's elliptic integrals RC, RF, RD, RG and RJ and Bulirsch's cel on doubles, proved to the last bit, the leaves they
 * stand on, the swing time and the verdict of the knee bench, the work lists of its controller with their reports, the check of
 * other laboratories' tables, and decimal numbers as people write them.
 *
 * Link libgatewren.a (tools/build gatewren) or libgatewren.so (./gatewren shared). Neither wants the C maths library.
 * The code counts on what IEEE 754 and C start with: rounding to nearest, and subnormal numbers kept.
 */
#ifndef GATEWREN_H
#define GATEWREN_H

#include <stddef.h>
#include <stdint.h>

#define GATEWREN_VERSION "0.4.0"
#define GATEWREN_VERSION_MAJOR 0
#define GATEWREN_VERSION_MINOR 4
#define GATEWREN_VERSION_PATCH 0

#ifdef __cplusplus
extern "C" {
#endif

/* What an entry returns: 0, or the number for which it refused. docs/REFUSALS.md has the order in which an entry tests. */
enum gatewren_outcome {
    GATEWREN_ANSWERED = 0,
    GATEWREN_NAN_GIVEN = 1,     /* an argument is NaN */
    GATEWREN_BELOW_ZERO = 2,    /* an argument is below zero that must not be */
    GATEWREN_ZEROS = 3,         /* too many zeros: two of RF's or RJ's x, y, z, or both of RD's x, y */
    GATEWREN_ZERO_GIVEN = 4,    /* RC's y, RJ's p, or cel's kc or p is zero */
    GATEWREN_Z_NOT_ABOVE = 5,   /* RD's z is zero or less */
    GATEWREN_NO_RESULT = 6,     /* RF, RD, RJ or cel ends without a finite result */
    GATEWREN_RC_NO_RESULT = 7,  /* RC ends so */
    GATEWREN_RG_NO_RESULT = 8,  /* RG ends so */
    GATEWREN_AGM_SPENT = 9,     /* the cap of 40 on RD's or RG's mean is spent */
    GATEWREN_TOO_DEEP = 10,     /* a fifth nested RJ call would be needed */
    GATEWREN_OUT_OF_RANGE = 11, /* a swing's length is not 1 to 10,000,000 or its gravity not 1 to 20,000,000 */
    GATEWREN_HEIGHT = 12,       /* a swing's height is not 1 to 2 * length - 1 */
    GATEWREN_SUM_TOO_LARGE = 13, /* the step log's total would pass 2^64 - 1 */
    GATEWREN_LIST_CUT = 14,     /* a work list stops inside a job */
    GATEWREN_NUMBER_BAD = 15,   /* a work list has a number over 64 bits or not in its shortest form */
    GATEWREN_UNKNOWN_FUNCTION = 16, /* a job's function is none of those that work lists know */
    GATEWREN_NO_ROOM = 17,      /* a job is longer than what is left of the buffer */
    GATEWREN_TOO_MANY = 18,     /* more than 2^32 - 1 calls in all, in a report's list or in two reports joined */
    GATEWREN_SEVERAL_INFINITE = 19, /* more than one of cel's arguments is infinite */
    GATEWREN_A_OR_B_INFINITE = 20, /* cel's a or b is infinite */
    GATEWREN_WRONG_SIGN = 21,   /* RJ's p has the wrong sign for this entry */
    GATEWREN_NUMBERS_DIFFER = 22, /* a table's claims and its work list's jobs differ in number */
    GATEWREN_OUTSIDE_PROFILE = 23, /* an argument of a profile's entry is neither zero nor of size from 2^-64 to 2^64 */
    GATEWREN_AMPLITUDE = 24,    /* a peak is not from 1 to 2^53 */
    GATEWREN_TOO_LARGE = 25,    /* a decimal number is beyond the largest double */
    GATEWREN_NO_NUMBER = 26     /* a text is no decimal number */
};

/* Which formula gave a value. A call that rescales, or hands its whole answer to another function, has that one's road. */
enum gatewren_road {
    GATEWREN_CLOSED = 1,        /* a formula */
    GATEWREN_INFINITE = 2,      /* the rule for an infinite argument gave the zero */
    GATEWREN_AGM = 3,           /* the arithmetic-geometric mean */
    GATEWREN_DUPLICATION = 4,   /* duplication */
    GATEWREN_JOINT = 5,         /* RG's duplication of RF and RD in one loop */
    GATEWREN_TAYLOR = 6,        /* the expansion near RJ's zero */
    GATEWREN_REDUCTION = 7,     /* the reduction of RJ with p below zero */
    GATEWREN_LOOP = 8           /* cel's loop */
};

/*
 * The entries. Every argument is answered, whatever its bits, in one of two ways:
 *   0 is returned, *value is a finite number, *rounds the rounds gone through, *road a number of the list above, and *rescalings
 *   how often arguments were rescaled, rounds and rescalings over the call and all it calls; or
 *   a number of the list of refusals is returned, and none of the four places is touched.
 * The four point to places apart from each other, none of them null.
 * The same arguments give the same 64 bits, rounds, road and rescalings on every machine.
 */

/* RC(x, y); for y below zero its Cauchy principal value. Returns 0, 1, 2, 4 or 7. */
uint32_t gatewren_rc(double x, double y,
                     double *value, uint32_t *rounds, uint32_t *road, uint32_t *rescalings);

/* RF(x, y, z). Returns 0, 1, 2, 3 or 6. */
uint32_t gatewren_rf(double x, double y, double z,
                     double *value, uint32_t *rounds, uint32_t *road, uint32_t *rescalings);

/* RD(x, y, z). Returns 0, 1, 2, 3, 5, 6 or 9. */
uint32_t gatewren_rd(double x, double y, double z,
                     double *value, uint32_t *rounds, uint32_t *road, uint32_t *rescalings);

/* RG(x, y, z). Returns 0, 1, 2, 8 or 9. */
uint32_t gatewren_rg(double x, double y, double z,
                     double *value, uint32_t *rounds, uint32_t *road, uint32_t *rescalings);

/* RJ(x, y, z, p) for p above zero. Returns 0, 1, 2, 3, 4, 6, 9, 10 or 21; 21 where p is below zero. */
uint32_t gatewren_rj_positive(double x, double y, double z, double p,
                              double *value, uint32_t *rounds, uint32_t *road, uint32_t *rescalings);

/* RJ(x, y, z, p) for p below zero, its Cauchy principal value. The same numbers; 21 where p is above zero. */
uint32_t gatewren_rj_negative(double x, double y, double z, double p,
                              double *value, uint32_t *rounds, uint32_t *road, uint32_t *rescalings);

/* Bulirsch's cel(kc, p, a, b); for p below zero its Cauchy principal value. Returns 0, 1, 4, 6, 19 or 20. */
uint32_t gatewren_cel(double kc, double p, double a, double b,
                      double *value, uint32_t *rounds, uint32_t *road, uint32_t *rescalings);

/*
 * The bench profile: x, y, z of RF, RG and RJ in any order, and x, y of RD, with one answer. Every argument must be zero or of
 * size from 2^-64 to 2^64, RJ's p above zero; -0 is taken for +0, and the entry above answers of the sorted arguments. Two calls
 * that are in size, the arguments of the second being those of the first times 4^k, are answered alike but for the value's power
 * of two. As the entries above, with 23 beside their numbers: 23 comes after 1 to 5, and before 21.
 */

/* RC(x, y). Returns 0, 1, 2, 4, 7 or 23. */
uint32_t gatewren_profile_rc(double x, double y,
                             double *value, uint32_t *rounds, uint32_t *road, uint32_t *rescalings);

/* RF(x, y, z). Returns 0, 1, 2, 3, 6 or 23. */
uint32_t gatewren_profile_rf(double x, double y, double z,
                             double *value, uint32_t *rounds, uint32_t *road, uint32_t *rescalings);

/* RD(x, y, z). Returns 0, 1, 2, 3, 5, 6, 9 or 23. */
uint32_t gatewren_profile_rd(double x, double y, double z,
                             double *value, uint32_t *rounds, uint32_t *road, uint32_t *rescalings);

/* RG(x, y, z). Returns 0, 1, 2, 8, 9 or 23. */
uint32_t gatewren_profile_rg(double x, double y, double z,
                             double *value, uint32_t *rounds, uint32_t *road, uint32_t *rescalings);

/* RJ(x, y, z, p) for p above zero. Returns 0, 1, 2, 3, 4, 6, 9, 10, 21 or 23; 21 where p is below zero and all are in size. */
uint32_t gatewren_profile_rj(double x, double y, double z, double p,
                             double *value, uint32_t *rounds, uint32_t *road, uint32_t *rescalings);

/*
 * The knee bench: whole micrometres, and micrometres per second squared.
 */

/* The period of an ideal swing in seconds: equivalent length, release height above the low point, gravity. As an entry answers:
   0 with the four written, road and rescalings being RF's, or 11 or 12 with none touched. */
uint32_t gatewren_swing(uint64_t length, uint64_t height, uint64_t gravity,
                        double *value, uint32_t *rounds, uint32_t *road, uint32_t *rescalings);

/* Adds to *total the steps between n successive readings of a 16-bit counter, each the later less the earlier modulo 65,536;
   none or one adds 0. Right if fewer than 65,536 steps lie between two readings. Returns 0; or 13, and *total is as it was.
   total is not null and points to none of the readings; readings may be null only where n is 0. */
uint32_t gatewren_steps(uint64_t *total, const uint16_t *readings, size_t n);

/* What gatewren_drag writes as its verdict. */
enum gatewren_verdict {
    GATEWREN_PASSES = 1,        /* at most the limit above the ideal swing, or on it */
    GATEWREN_DRAGS = 2          /* more */
};

/* The verdict on a knee: the swing's three numbers, the time of one whole swing and the excess that is allowed, both in nanoseconds.
   0 with the four written: the verdict, decided by the exact fractions; whether time less the ideal period is below zero, 1 or 0; its
   size in nanoseconds, rounded half to even; and the ideal period in seconds. Or gatewren_swing's 11 or 12 with none touched. */
uint32_t gatewren_drag(uint64_t length, uint64_t height, uint64_t gravity, uint64_t time, uint64_t limit,
                       uint32_t *verdict, uint32_t *below, uint64_t *excess, double *period);

/* The logarithmic decrement ln(a/b) of two successive peaks, the quotient rounded once. 0 with it written, or 24 with it untouched. */
uint32_t gatewren_decay(uint64_t a, uint64_t b, double *decrement);

/*
 * The same with one struct for the four places, where the compiler has `inline` (C99, C++): nothing is added to the library. The
 * struct is filled where 0 is returned, and else not touched.
 */
typedef struct gatewren_answer {
    double value;
    uint32_t rounds, road, rescalings;
} gatewren_answer;

#if defined(__cplusplus) || (defined(__STDC_VERSION__) && __STDC_VERSION__ >= 199901L)
static inline uint32_t gatewren_rc_answer(double x, double y, gatewren_answer *answer)
{
    return gatewren_rc(x, y, &answer->value, &answer->rounds, &answer->road, &answer->rescalings);
}

static inline uint32_t gatewren_rf_answer(double x, double y, double z, gatewren_answer *answer)
{
    return gatewren_rf(x, y, z, &answer->value, &answer->rounds, &answer->road, &answer->rescalings);
}

static inline uint32_t gatewren_rd_answer(double x, double y, double z, gatewren_answer *answer)
{
    return gatewren_rd(x, y, z, &answer->value, &answer->rounds, &answer->road, &answer->rescalings);
}

static inline uint32_t gatewren_rg_answer(double x, double y, double z, gatewren_answer *answer)
{
    return gatewren_rg(x, y, z, &answer->value, &answer->rounds, &answer->road, &answer->rescalings);
}

static inline uint32_t gatewren_rj_positive_answer(double x, double y, double z, double p, gatewren_answer *answer)
{
    return gatewren_rj_positive(x, y, z, p, &answer->value, &answer->rounds, &answer->road, &answer->rescalings);
}

static inline uint32_t gatewren_rj_negative_answer(double x, double y, double z, double p, gatewren_answer *answer)
{
    return gatewren_rj_negative(x, y, z, p, &answer->value, &answer->rounds, &answer->road, &answer->rescalings);
}

static inline uint32_t gatewren_cel_answer(double kc, double p, double a, double b, gatewren_answer *answer)
{
    return gatewren_cel(kc, p, a, b, &answer->value, &answer->rounds, &answer->road, &answer->rescalings);
}

static inline uint32_t gatewren_profile_rc_answer(double x, double y, gatewren_answer *answer)
{
    return gatewren_profile_rc(x, y, &answer->value, &answer->rounds, &answer->road, &answer->rescalings);
}

static inline uint32_t gatewren_profile_rf_answer(double x, double y, double z, gatewren_answer *answer)
{
    return gatewren_profile_rf(x, y, z, &answer->value, &answer->rounds, &answer->road, &answer->rescalings);
}

static inline uint32_t gatewren_profile_rd_answer(double x, double y, double z, gatewren_answer *answer)
{
    return gatewren_profile_rd(x, y, z, &answer->value, &answer->rounds, &answer->road, &answer->rescalings);
}

static inline uint32_t gatewren_profile_rg_answer(double x, double y, double z, gatewren_answer *answer)
{
    return gatewren_profile_rg(x, y, z, &answer->value, &answer->rounds, &answer->road, &answer->rescalings);
}

static inline uint32_t gatewren_profile_rj_answer(double x, double y, double z, double p, gatewren_answer *answer)
{
    return gatewren_profile_rj(x, y, z, p, &answer->value, &answer->rounds, &answer->road, &answer->rescalings);
}

static inline uint32_t gatewren_swing_answer(uint64_t length, uint64_t height, uint64_t gravity, gatewren_answer *answer)
{
    return gatewren_swing(length, height, gravity, &answer->value, &answer->rounds, &answer->road, &answer->rescalings);
}
#endif

/*
 * Work lists in packed form: jobs one after another, each its function's number (RF 1, RC 2, RD 3, RG 4, RJ 5, cel 6) and the 64 bits of
 * each of its arguments, all as numbers in groups of seven bits, low group first, top bit set while more follow, shortest form only.
 */

/* A job: its function's number and the bits of its arguments, the unused ones 0. */
typedef struct gatewren_job {
    uint64_t function;
    uint64_t arguments[4];
} gatewren_job;

/* What gatewren_read_job returns at the list's end. */
#define GATEWREN_NOTHING_LEFT UINT32_MAX

/* No job is longer than this many bytes, or shorter than 3. */
#define GATEWREN_LONGEST_JOB 41

/* Writes the job at *place and moves *place past it; arguments beyond the function's own are passed over. Returns 0; or 16 or 17,
   tested in that order, and then no byte and not *place has changed. 17 is returned exactly when the job is longer than what is left.
   bytes may be null only where length is 0; bytes, place and job lie apart. A place beyond the length is as one at its end. */
uint32_t gatewren_write_job(uint8_t *bytes, size_t length, size_t *place, const gatewren_job *job);

/* Reads the job at *place and moves *place past it. Returns 0; or 14, 15 or 16, or GATEWREN_NOTHING_LEFT where no byte is left, and
   then *place and *job are as they were. The same of the pointers as above. */
uint32_t gatewren_read_job(const uint8_t *bytes, size_t length, size_t *place, gatewren_job *job);

/*
 * Reports of work lists: for each function the calls, how often each number for no was given, the rounds of the values in all and the
 * most in one call, and the exact sum of the values. The same jobs in another order, or cut into lists whose reports are joined in any
 * order, give the same report, word for word.
 *
 * A report is GATEWREN_REPORT_WORDS words that a program owns. Words that are all zero are the report of no list; else a report is
 * what gatewren_report_list and gatewren_report_join leave, and no other words are one. What stands in which word is not promised.
 * No pointer to a report is null, and each points to that many words.
 */
#define GATEWREN_REPORT_WORDS 384

/* Adds the answers to a whole work list. Returns 0; or the list's own 14, 15 or 16; or 18 where the list is sound and its jobs and
   the report's calls are more than 2^32 - 1 together. Unless 0 is returned the report is as it was.
   list may be null only where length is 0; the two lie apart. */
uint32_t gatewren_report_list(uint64_t *report, const uint8_t *list, size_t length);

/* Adds another report, so that the first is that of both lists. Returns 0; or 18 where the calls of both are more than 2^32 - 1, and
   then the report is as it was. other lies apart from report: a report is not joined to itself, but to a copy. */
uint32_t gatewren_report_join(uint64_t *report, const uint64_t *other);

/* What stands in it, by the function's number in work lists (RF 1, RC 2, RD 3, RG 4, RJ 5, cel 6). Any other function has none of
   it: 0, and +0 as its sum. */

/* The calls, refused ones too. */
uint64_t gatewren_report_calls(const uint64_t *report, uint32_t function);

/* How many of them were refused with this number; 0 for what is no number for no. */
uint64_t gatewren_report_refused(const uint64_t *report, uint32_t function, uint32_t number);

/* The rounds of its values in all. */
uint64_t gatewren_report_rounds(const uint64_t *report, uint32_t function);

/* The most rounds of one value. */
uint32_t gatewren_report_most(const uint64_t *report, uint32_t function);

/* The exact sum of its values, rounded once: an infinity where that overflows, +0 for zero. */
double gatewren_report_sum(const uint64_t *report, uint32_t function);

/*
 * Checking the tables of others: a work list, and for each of its jobs a claim of two words: 0 and the value's bits, or 1 and the
 * refusal's number. No claim of another kind is met.
 */

/* What gatewren_check_table returns for a bad row. */
#define GATEWREN_BAD_ROW UINT32_MAX

/* Holds each claim against our answer to its job. Returns 0 exactly if each is the same refusal, or a finite value at most `tolerance`
   steps between neighbouring doubles from ours, zeros of both signs being one; else GATEWREN_BAD_ROW, and *row is the first bad row,
   counted from 0. The list's own 14, 15 and 16 come first, then 22 where words is not twice the number of jobs. *row is touched for a
   bad row alone. list may be null only where length is 0, claims only where words is; row lies apart from both and is not null. */
uint32_t gatewren_check_table(const uint8_t *list, size_t length, const uint64_t *claims, size_t words, uint64_t tolerance,
                              uint64_t *row);

/*
 * Numbers as people write them. A decimal is an optional minus, digits, optionally a point and digits, optionally e or E, an optional
 * sign and digits: -1.5, 0.25, 1e-3, 6.02E+23. Its digits are at most 800, zeros in front and at the end not counted, and its power
 * of ten is one of 32 bits with a sign. Beside these inf, -inf and nan are numbers. Nothing else is: no blank, no plus in front, no
 * point without a digit on either side, no Infinity.
 */

/* No text that gatewren_write_decimal writes is longer than this many bytes. */
#define GATEWREN_DECIMAL_BYTES 24

/* Reads a text that is one number and nothing else. Returns 0, and *value is the double nearest to it, of two equally near the even one;
   a text below the smallest double gives a zero, with its sign. Or 25 where the nearest would be an infinity, and nothing is touched. Or
   26 where the text is no number, and *place is the place, counted from 0, of the first byte that makes it none, or the text's length
   where it ends too soon. *value is touched for 0 alone, *place for 26 alone. text may be null only where length is 0; text, value and
   place lie apart, and the last two are not null. */
uint32_t gatewren_read_decimal(const uint8_t *text, size_t length, double *value, size_t *place);

/* Writes the shortest decimal that gatewren_read_decimal reads back as x, of those the one nearest to x, and returns its length. There is
   no NUL at its end. Where length is below GATEWREN_DECIMAL_BYTES nothing is written and 0 is returned, whatever x is. Up to 17 digits
   before the point and up to four zeros after it are written out, as 250, 0.001 and 1.370171633266872; all else has a power, as 6.02e23
   and 5e-324. Beside these -0, inf, -inf, and nan for each NaN. text may be null only where length is 0. */
size_t gatewren_write_decimal(double x, uint8_t *text, size_t length);

/*
 * The leaves. A leaf always returns a number; where the exact result is none, that is a NaN, and which NaN is left open.
 */

/* The square root, rounded once. -0 has root -0, a number below zero NaN. */
double gatewren_sqrt(double x);

/* a times b plus c, rounded once. */
double gatewren_mul_add(double a, double b, double c);

/* a to the power -3/2, rounded once. A zero of either sign gives +infinity, +infinity gives +0, a number below zero NaN. */
double gatewren_pow_neg_3_2(double a);

/* The arc tangent, by one whole-number rule within one unit of the exact one: every finite number, and both infinities. */
double gatewren_atan(double x);

/* The natural logarithm, likewise: every finite number above zero; 1 gives +0. A zero of either sign gives -infinity, +infinity
 * itself, a number below zero NaN. */
double gatewren_ln(double x);

/* The natural logarithm of 1 + x, likewise, for x from -3/4 to 3/4; all else gives NaN. */
double gatewren_ln_1p(double x);

#ifdef __cplusplus
}
#endif

#endif
