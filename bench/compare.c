// Times the kernel against MPFR, in one process, case by case the same operands in the same memory, and stops where an
// answer differs. Prints one line a row, fields apart by tabs; bench/table.py makes the table and the plot of them.
//
//     compare [rounds] [word ..]      only the rows whose name has every word
#include <mpfr.h>
#include <stdio.h>
#include <stdlib.h>
#include <string.h>
#include <time.h>

#include "sheafbuckle.h"

// the kernel's sum of two aligned runs of limbs, exported for this program alone
bool bench_run_add_into(uint64_t *target, size_t target_count, const uint64_t *operand, size_t operand_count, bool carry);

enum { LIMBS = 64, CASES = 256, MOST_ROUNDS = 1001 };

static const mpfr_rnd_t rounding[4] = {MPFR_RNDN, MPFR_RNDZ, MPFR_RNDU, MPFR_RNDD};

typedef struct {
    sheafbuckle_number number;
    uint64_t limbs[LIMBS];
    size_t count;
    mpfr_t mpfr; // over the same limbs
} operand;

typedef struct {
    uint8_t mode;
    operand x, y;
} pair;

static pair sets[2][CASES];
static pair *cases = sets[0];
static const size_t case_count = CASES;
static uint64_t target_precision;
static size_t target_count;
static uint64_t target[LIMBS];
static mpfr_t answer;

// ---- random numbers: splitmix64 from a fixed seed

static uint64_t seed = 20261115;

static uint64_t any(void) {
    uint64_t z = (seed += 0x9e3779b97f4a7c15u);
    z = (z ^ (z >> 30)) * 0xbf58476d1ce4e5b9u;
    z = (z ^ (z >> 27)) * 0x94d049bb133111ebu;
    return z ^ (z >> 31);
}

// from low to high, both possible
static int64_t between(int64_t low, int64_t high) { return low + (int64_t)(any() % (uint64_t)(high - low + 1)); }

static size_t limbs_for(uint64_t precision) { return (precision + 63) / 64; }

// ---- operands

static uint64_t spare(uint64_t precision) { return (64 - precision % 64) % 64; }

// the limbs of a number in its form: the top bit 1, the spare bits 0
static void in_form(operand *o) {
    o->count = limbs_for(o->number.precision);
    o->limbs[o->count - 1] |= (uint64_t)1 << 63;
    o->limbs[0] = o->limbs[0] >> spare(o->number.precision) << spare(o->number.precision);
}

static void share(operand *o) {
    int kind = o->number.zero ? MPFR_ZERO_KIND : MPFR_REGULAR_KIND;
    mpfr_custom_init_set(o->mpfr, o->number.negative ? -kind : kind, o->number.exponent, (mpfr_prec_t)o->number.precision, o->limbs);
}

static void random_operand(operand *o, uint64_t precision, int32_t exponent, bool negative) {
    o->number = (sheafbuckle_number){.precision = precision, .exponent = exponent, .negative = negative, .zero = false};
    for (size_t i = 0; i < LIMBS; i++) o->limbs[i] = any();
    in_form(o);
}

// long runs of ones and of zeros
static void run_operand(operand *o, uint64_t precision, int32_t exponent, bool negative) {
    random_operand(o, precision, exponent, negative);
    uint64_t bit = any() & 1;
    int64_t left = between(1, (int64_t)precision);
    for (int64_t i = (int64_t)(64 * o->count) - 1; i >= 0; i--) {
        uint64_t mask = (uint64_t)1 << (i % 64);
        o->limbs[i / 64] = bit ? o->limbs[i / 64] | mask : o->limbs[i / 64] & ~mask;
        if (--left == 0) {
            bit ^= 1;
            left = between(1, any() % 4 ? 200 : 4);
        }
    }
    in_form(o);
}

// ---- shapes of pairs

typedef enum { EQUAL, NEAR, FAR, CANCEL } shape;
static const char *const shape_name[] = {"equal exponents", "small gap", "far", "cancellation"};

static void exchange(pair *c) {
    operand o = c->x;
    c->x = c->y;
    c->y = o;
}

static void make_pair(pair *c, shape s, uint64_t px, uint64_t py, uint64_t pt) {
    bool negative = any() & 1;
    int32_t top = (int32_t)between(-1000, 1000);
    int64_t least = px < py ? (int64_t)px : (int64_t)py;
    int64_t most = px > py ? (int64_t)px : (int64_t)py;
    if ((int64_t)pt > most) most = (int64_t)pt;
    int64_t gap = 0;
    if (s == NEAR) gap = between(1, least < 63 ? least : 63);
    if (s == FAR) gap = between(most + 66, most + 1066);
    c->mode = (uint8_t)(any() % 4);
    random_operand(&c->x, px, top, negative);
    random_operand(&c->y, py, (int32_t)(top - gap), negative);
    if (s == CANCEL) {
        // alike but for a few digits at the end
        operand low = c->y;
        memcpy(c->y.limbs, c->x.limbs, sizeof c->y.limbs);
        int64_t few = between(1, least - 1 < 8 ? least - 1 : 8);
        c->y.limbs[0] ^= low.limbs[c->y.count - 1] >> (64 - few) << spare(py);
        in_form(&c->y);
    }
    if (any() & 1) exchange(c);
    share(&c->x);
    share(&c->y);
}

// ---- the timed loops; the sums of the ternary values keep the work, and must be alike

typedef long (*loop)(long turns);

static int sign(int t) { return (t > 0) - (t < 0); }

#define LOOP(name, call)                                            \
    static long name(long turns) {                                  \
        long kept = 0;                                              \
        for (long t = 0; t < turns; t++)                            \
            for (size_t i = 0; i < case_count; i++) {               \
                const pair *c = &cases[i];                          \
                kept += call;                                       \
            }                                                       \
        return kept;                                                \
    }

LOOP(kernel_add, sheafbuckle_add(c->mode, c->x.number, c->x.limbs, c->x.count, c->y.number, c->y.limbs, c->y.count, target_precision, target, target_count).ternary)
LOOP(mpfr_adds, sign(mpfr_add(answer, c->x.mpfr, c->y.mpfr, rounding[c->mode])))
LOOP(kernel_subtract, sheafbuckle_subtract(c->mode, c->x.number, c->x.limbs, c->x.count, c->y.number, c->y.limbs, c->y.count, target_precision, target, target_count).ternary)
LOOP(mpfr_subtracts, sign(mpfr_sub(answer, c->x.mpfr, c->y.mpfr, rounding[c->mode])))
LOOP(kernel_reround, sheafbuckle_reround(c->mode, c->x.number, c->x.limbs, c->x.count, target_precision, target, target_count).ternary)
LOOP(mpfr_sets, sign(mpfr_set(answer, c->x.mpfr, rounding[c->mode])))

LOOP(kernel_compare, sheafbuckle_compare(c->x.number, c->x.limbs, c->x.count, c->y.number, c->y.limbs, c->y.count).order)
LOOP(mpfr_compares, sign(mpfr_cmp(c->x.mpfr, c->y.mpfr)))

static long bits_of(double d) {
    long b;
    memcpy(&b, &d, sizeof b);
    return b >> 8;
}

LOOP(kernel_to_double, bits_of(sheafbuckle_to_double(c->mode, c->x.number, c->x.limbs, c->x.count).value))
LOOP(mpfr_to_double, bits_of(mpfr_get_d(c->x.mpfr, rounding[c->mode])))

// runs of limbs: every operand is added into one target, which begins at 0
static size_t run_count;
static uint64_t run_target[2][LIMBS];

static long kernel_run(long turns) {
    long kept = 0;
    memset(run_target[0], 0, sizeof run_target[0]);
    for (long t = 0; t < turns; t++)
        for (size_t i = 0; i < case_count; i++) kept += bench_run_add_into(run_target[0], run_count, cases[i].x.limbs, run_count, false);
    return kept;
}

static long gmp_run(long turns) {
    long kept = 0;
    memset(run_target[1], 0, sizeof run_target[1]);
    for (long t = 0; t < turns; t++)
        for (size_t i = 0; i < case_count; i++) kept += (long)mpn_add_n(run_target[1], run_target[1], cases[i].x.limbs, (mp_size_t)run_count);
    return kept;
}

// the kernel on the two sets of cases
static loop own;

static long own_first(long turns) {
    cases = sets[0];
    return own(turns);
}

static long own_second(long turns) {
    cases = sets[1];
    return own(turns);
}

// ---- comparing answers

static void print_number(const char *name, const operand *o) {
    fprintf(stderr, "%s: precision %lu exponent %d %s%s limbs", name, (unsigned long)o->number.precision, o->number.exponent, o->number.negative ? "-" : "+", o->number.zero ? "zero" : "");
    for (size_t i = o->count; i-- > 0;) fprintf(stderr, " %016lx", (unsigned long)o->limbs[i]);
    fprintf(stderr, "\n");
}

static void differs(const char *what, const pair *c) {
    fprintf(stderr, "the answers differ: %s, mode %d, target precision %lu\n", what, c->mode, (unsigned long)target_precision);
    print_number("x", &c->x);
    print_number("y", &c->y);
    exit(1);
}

// The named differences: a zero's sign under down; a refusal 6 or 7 where MPFR overflows or underflows.
static void same_sum(const char *what, const pair *c, sheafbuckle_sum s, int ternary) {
    if (mpfr_overflow_p() || mpfr_underflow_p()) {
        if (s.rule != (mpfr_overflow_p() ? 6 : 7) || s.place != 3 || !s.number.zero) differs(what, c);
        return;
    }
    if (s.rule != 0 || s.ternary != sign(ternary) || s.number.precision != target_precision) differs(what, c);
    if (s.number.zero != (mpfr_zero_p(answer) != 0)) differs(what, c);
    if (s.number.zero) {
        for (size_t i = 0; i < target_count; i++)
            if (target[i] != 0) differs(what, c);
        if (c->mode != 3 && s.number.negative != (mpfr_signbit(answer) != 0)) differs(what, c);
        return;
    }
    if (s.number.negative != (mpfr_signbit(answer) != 0) || s.number.exponent != mpfr_get_exp(answer)) differs(what, c);
    if (memcmp(target, mpfr_custom_get_significand(answer), 8 * target_count) != 0) differs(what, c);
}

typedef enum { ADD, SUBTRACT, REROUND } operation;
static const char *const operation_name[] = {"add", "subtract", "re-round"};

static sheafbuckle_sum both(operation f, const pair *c) {
    sheafbuckle_sum s;
    int t;
    mpfr_clear_flags();
    memset(target, 0x5a, sizeof target);
    if (f == ADD) {
        s = sheafbuckle_add(c->mode, c->x.number, c->x.limbs, c->x.count, c->y.number, c->y.limbs, c->y.count, target_precision, target, target_count);
        t = mpfr_add(answer, c->x.mpfr, c->y.mpfr, rounding[c->mode]);
    } else if (f == SUBTRACT) {
        s = sheafbuckle_subtract(c->mode, c->x.number, c->x.limbs, c->x.count, c->y.number, c->y.limbs, c->y.count, target_precision, target, target_count);
        t = mpfr_sub(answer, c->x.mpfr, c->y.mpfr, rounding[c->mode]);
    } else {
        s = sheafbuckle_reround(c->mode, c->x.number, c->x.limbs, c->x.count, target_precision, target, target_count);
        t = mpfr_set(answer, c->x.mpfr, rounding[c->mode]);
    }
    same_sum(operation_name[f], c, s, t);
    return s;
}

static void same_order(const pair *c) {
    sheafbuckle_order o = sheafbuckle_compare(c->x.number, c->x.limbs, c->x.count, c->y.number, c->y.limbs, c->y.count);
    if (o.rule != 0 || o.order != sign(mpfr_cmp(c->x.mpfr, c->y.mpfr))) differs("compare", c);
}

// a double under a mode, with 53 bits and MPFR's own exponents: these say where the kernel refuses, by 12 above and by 13 below
typedef struct {
    double value;
    int ternary, rule;
} selected;

static mpfr_t fifty_three;

static selected select_double(const operand *o, int mode) {
    mpfr_clear_flags();
    int ternary = mpfr_set(fifty_three, o->mpfr, rounding[mode]);
    if (mpfr_overflow_p()) return (selected){0.0, 0, 12};
    if (mpfr_regular_p(fifty_three) && mpfr_get_exp(fifty_three) > 1024) return (selected){0.0, 0, 12};
    if (mpfr_regular_p(fifty_three) && mpfr_get_exp(fifty_three) < -1021) return (selected){0.0, 0, 13};
    return (selected){mpfr_get_d(fifty_three, MPFR_RNDN), sign(ternary), 0};
}

static bool same_bits(double a, double b) { return memcmp(&a, &b, sizeof a) == 0; }

static void same_double(const pair *c) {
    selected s = select_double(&c->x, c->mode);
    sheafbuckle_double d = sheafbuckle_to_double(c->mode, c->x.number, c->x.limbs, c->x.count);
    if (d.rule != s.rule || d.place != 0 || d.ternary != s.ternary || !same_bits(d.value, s.value)) differs("to double", c);
}

static void same_pair(const pair *c) {
    selected down = select_double(&c->x, SHEAFBUCKLE_DOWN), up = select_double(&c->x, SHEAFBUCKLE_UP);
    int rule = down.rule ? down.rule : up.rule;
    sheafbuckle_pair e = sheafbuckle_enclose(c->x.number, c->x.limbs, c->x.count);
    if (e.rule != rule || !same_bits(e.lower, rule ? 0.0 : down.value) || !same_bits(e.upper, rule ? 0.0 : up.value)) differs("enclosing pair", c);
}

static void same_read(const pair *c, double d) {
    uint64_t limb = 5;
    sheafbuckle_read r = sheafbuckle_from_double(d, &limb, 1);
    mpfr_set_d(fifty_three, d, MPFR_RNDN);
    if (!mpfr_number_p(fifty_three)) {
        if (r.rule != 14 || r.place != 1 || limb != 5) differs("from double", c);
        return;
    }
    bool zero = mpfr_zero_p(fifty_three) != 0;
    if (r.rule != 0 || r.number.precision != 53 || r.number.zero != zero || r.number.negative != (mpfr_signbit(fifty_three) != 0)) differs("from double", c);
    if (r.number.exponent != (zero ? 0 : mpfr_get_exp(fifty_three))) differs("from double", c);
    if (limb != (zero ? 0 : *(uint64_t *)mpfr_custom_get_significand(fifty_three))) differs("from double", c);
}

static double any_double(void) {
    uint64_t bits = any();
    double d;
    if (any() % 8 == 0) bits &= ~((uint64_t)0x7ff << 52); // subnormal
    if (any() % 8 == 0) bits |= (uint64_t)0x7ff << 52; // infinite or NaN
    if (any() % 8 == 0) bits = bits >> 52 << 52; // no fraction
    memcpy(&d, &bits, sizeof d);
    return d;
}

static void set_target(uint64_t precision) {
    target_precision = precision;
    target_count = limbs_for(precision);
    mpfr_set_prec(answer, (mpfr_prec_t)precision);
}

// ---- timing

static double now(void) {
    struct timespec t;
    clock_gettime(CLOCK_THREAD_CPUTIME_ID, &t); // not the time that other programs take
    return 1e9 * (double)t.tv_sec + (double)t.tv_nsec;
}

static int by_size(const void *a, const void *b) {
    double x = *(const double *)a, y = *(const double *)b;
    return (x > y) - (x < y);
}

static int rounds = 101;

static double median(double *a, int n) {
    qsort(a, (size_t)n, sizeof *a, by_size);
    return n % 2 ? a[n / 2] : (a[n / 2 - 1] + a[n / 2]) / 2;
}

typedef struct {
    double kernel, mpfr, ratio; // ns a call, ns a call, median of the rounds' ratios
} measured;

static double timed(loop f, long turns, long *kept) {
    double from = now();
    *kept = f(turns);
    return (now() - from) / ((double)turns * (double)case_count);
}

// kernel and MPFR by turns, so that what else the machine does falls on both
static measured measure(loop kernel, loop other, bool alike) {
    static double a[MOST_ROUNDS], b[MOST_ROUNDS], r[MOST_ROUNDS];
    long k, m, turns = 1;
    timed(kernel, 1, &k);
    while (timed(other, turns, &m) * (double)turns * (double)case_count < 1e5) turns *= 2;
    for (int i = 0; i < rounds; i++) {
        if (i % 2) {
            b[i] = timed(other, turns, &m);
            a[i] = timed(kernel, turns, &k);
        } else {
            a[i] = timed(kernel, turns, &k);
            b[i] = timed(other, turns, &m);
        }
        if (alike && k != m) {
            fprintf(stderr, "the ternary values differ as the loops are timed\n");
            exit(1);
        }
        r[i] = a[i] / b[i];
    }
    return (measured){median(a, rounds), median(b, rounds), median(r, rounds)};
}

// ---- rows

static int words;
static char **word;

static bool wanted(const char *name) {
    for (int i = 0; i < words; i++)
        if (strstr(name, word[i]) == NULL) return false;
    return true;
}

static void row(const char *group, const char *name, double bar, loop kernel, loop other, bool alike) {
    measured m = measure(kernel, other, alike);
    printf("%s\t%s\t%.1f\t%.1f\t%.2f\t%.1f\n", group, name, m.kernel, m.mpfr, m.ratio, bar);
    fflush(stdout);
}

static const loop kernel[] = {kernel_add, kernel_subtract, kernel_reround};
static const loop other[] = {mpfr_adds, mpfr_subtracts, mpfr_sets};

static void sum_row(const char *group, operation f, uint64_t px, uint64_t py, uint64_t pt, shape s, double bar) {
    char name[100];
    if (f == REROUND)
        snprintf(name, sizeof name, "%s %lu -> %lu", operation_name[f], (unsigned long)px, (unsigned long)pt);
    else
        snprintf(name, sizeof name, "%s %lu,%lu -> %lu, %s", operation_name[f], (unsigned long)px, (unsigned long)py, (unsigned long)pt, shape_name[s]);
    if (!wanted(name)) return;
    set_target(pt);
    for (size_t i = 0; i < case_count; i++) make_pair(&cases[i], s, px, py, pt);
    for (size_t i = 0; i < case_count; i++) both(f, &cases[i]);
    row(group, name, bar, kernel[f], other[f], true);
}

static void sum_rows(void) {
    static const uint64_t precision[] = {2, 53, 64, 113, 128, 256, 1024, 4096};
    for (operation f = ADD; f <= SUBTRACT; f++)
        for (size_t i = 0; i < sizeof precision / sizeof *precision; i++)
            for (shape s = EQUAL; s <= (f == ADD ? FAR : CANCEL); s++) {
                uint64_t p = precision[i];
                sum_row("sums", f, p, p, p, s, p < 1024 ? 3.0 : 2.0);
            }
    for (operation f = ADD; f <= SUBTRACT; f++)
        for (shape s = EQUAL; s <= (f == ADD ? FAR : CANCEL); s++) {
            sum_row("mixed", f, 4096, 4096, 53, s, 1.2);
            sum_row("mixed", f, 53, 53, 4096, s, 2.0);
            sum_row("mixed", f, 128, 128, 53, s, 3.0);
        }
    sum_row("others", REROUND, 4096, 4096, 53, EQUAL, 2.0);
}

// the kernel's own times, 4096,4096 -> 53 over 128,128 -> 53
static void own_row(operation f, shape s) {
    char name[100];
    snprintf(name, sizeof name, "%s 4096,4096 -> 53 over 128,128 -> 53, %s", operation_name[f], shape_name[s]);
    if (!wanted(name)) return;
    set_target(53);
    for (size_t i = 0; i < case_count; i++) {
        make_pair(&sets[0][i], s, 4096, 4096, 53);
        make_pair(&sets[1][i], s, 128, 128, 53);
    }
    own = f == ADD ? kernel_add : kernel_subtract;
    row("own", name, 1.3, own_first, own_second, false);
    cases = sets[0];
}

static void own_rows(void) {
    for (operation f = ADD; f <= SUBTRACT; f++)
        for (shape s = EQUAL; s <= FAR; s++) own_row(f, s);
}

static void order_rows(void) {
    static const uint64_t precision[] = {53, 128, 1024, 4096};
    for (size_t i = 0; i < sizeof precision / sizeof *precision; i++)
        for (shape s = EQUAL; s <= CANCEL; s++) {
            uint64_t p = precision[i];
            char name[100];
            snprintf(name, sizeof name, "compare %lu,%lu, %s", (unsigned long)p, (unsigned long)p, shape_name[s]);
            if (s == FAR || !wanted(name)) continue;
            for (size_t j = 0; j < case_count; j++) {
                make_pair(&cases[j], s, p, p, p);
                same_order(&cases[j]);
            }
            row("others", name, p < 1024 ? 3.0 : 2.0, kernel_compare, mpfr_compares, true);
        }
}

static void double_rows(void) {
    static const uint64_t precision[] = {2, 53, 64, 128, 1024, 4096};
    for (size_t i = 0; i < sizeof precision / sizeof *precision; i++) {
        char name[100];
        snprintf(name, sizeof name, "to double %lu", (unsigned long)precision[i]);
        if (!wanted(name)) continue;
        for (size_t j = 0; j < case_count; j++) {
            make_pair(&cases[j], EQUAL, precision[i], precision[i], 53);
            same_double(&cases[j]);
        }
        row("others", name, 1.0, kernel_to_double, mpfr_to_double, true);
    }
}

static void run_rows(void) {
    static const size_t count[] = {1, 2, 4, 16, 64};
    for (size_t i = 0; i < sizeof count / sizeof *count; i++) {
        char name[100];
        run_count = count[i];
        snprintf(name, sizeof name, "aligned run of %lu limbs", (unsigned long)run_count);
        if (!wanted(name)) continue;
        for (size_t j = 0; j < case_count; j++) make_pair(&cases[j], EQUAL, 4096, 4096, 53);
        if (kernel_run(1) != gmp_run(1) || memcmp(run_target[0], run_target[1], 8 * run_count) != 0) {
            fprintf(stderr, "the answers differ: %s\n", name);
            exit(1);
        }
        row("runs", name, run_count < 16 ? 3.0 : 2.0, kernel_run, gmp_run, true);
    }
}

// sums and differences that a given column fixes: the digits below the last one kept are ones, or zeros, down to the column before
static void depth_row(operation f, uint64_t depth) {
    char name[100];
    snprintf(name, sizeof name, "%s 4096,4096 -> 53, depth %lu", operation_name[f], (unsigned long)depth);
    if (!wanted(name)) return;
    uint64_t turn = f == ADD ? ~(uint64_t)0 : 0;
    set_target(53);
    for (size_t i = 0; i < case_count; i++) {
        pair *c = &cases[i];
        do {
            make_pair(c, EQUAL, 4096, 4096, 53);
            if (depth > 1) {
                c->y.limbs[63] = (c->y.limbs[63] & ~(uint64_t)0xfff) | ((c->x.limbs[63] ^ turn) & 0xfff);
                for (uint64_t k = 1; k + 1 < depth; k++) c->y.limbs[63 - k] = c->x.limbs[63 - k] ^ turn;
            }
        } while (both(f, c).depth != depth);
    }
    row("depth", name, 2.0, kernel[f], other[f], true);
}

static void depth_rows(void) {
    for (operation f = ADD; f <= SUBTRACT; f++)
        for (uint64_t depth = 1; depth <= 64; depth *= 2) depth_row(f, depth);
}

// ---- answers compared, untimed: every precision, gaps of all sizes, runs of ones and zeros, the ends of the exponents

static void compare_answers(long count) {
    pair c;
    for (long i = 0; i < count; i++) {
        uint64_t p[3];
        for (int j = 0; j < 3; j++) p[j] = (uint64_t)(any() % 4 ? between(2, 200) : between(2, 4096));
        int64_t gap = any() % 4 ? between(0, 130) : between(0, 9000);
        if (any() % 16 == 0) gap = 0;
        int64_t top = between(-100, 100);
        if (any() % 8 == 0) top = 1073741823 - between(0, 2);
        if (any() % 8 == 0) top = -1073741823 + gap + between(0, 70);
        c.mode = (uint8_t)(any() % 4);
        (any() % 2 ? random_operand : run_operand)(&c.x, p[0], (int32_t)top, any() & 1);
        (any() % 2 ? random_operand : run_operand)(&c.y, p[1], (int32_t)(top - gap), any() & 1);
        if (any() % 8 == 0) {
            for (size_t k = 1; k <= c.y.count; k++) c.y.limbs[c.y.count - k] = k <= c.x.count ? c.x.limbs[c.x.count - k] : 0;
            if (any() % 2) c.y.limbs[any() % c.y.count] ^= (uint64_t)1 << (any() % 64);
            in_form(&c.y);
        }
        if (any() % 32 == 0) c.x.number.zero = true, c.x.number.exponent = 0;
        if (any() % 32 == 0) c.y.number.zero = true, c.y.number.exponent = 0;
        if (any() & 1) exchange(&c);
        share(&c.x);
        share(&c.y);
        set_target(p[2]);
        for (operation f = ADD; f <= REROUND; f++) both(f, &c);
        same_order(&c);
        if (!c.x.number.zero && any() % 4) {
            c.x.number.exponent = (int32_t)(any() % 2 ? between(-1100, 1100) : any() % 2 ? between(1023, 1025) : between(-1023, -1020));
            share(&c.x);
        }
        same_double(&c);
        same_pair(&c);
        same_read(&c, any_double());
    }
    printf("compared\t%ld\n", 7 * count);
    fflush(stdout);
}

int main(int argc, char **argv) {
    if (argc > 1) rounds = atoi(argv[1]);
    if (rounds < 1 || rounds > MOST_ROUNDS) return 2;
    words = argc > 2 ? argc - 2 : 0;
    word = argv + 2;
    mpfr_init2(answer, 4096);
    mpfr_init2(fifty_three, 53);
    printf("versions\tMPFR %s, GMP %s\n", mpfr_get_version(), gmp_version);
    printf("rounds\t%d\n", rounds);
    compare_answers(100000);
    sum_rows();
    own_rows();
    order_rows();
    double_rows();
    run_rows();
    depth_rows();
    return 0;
}
