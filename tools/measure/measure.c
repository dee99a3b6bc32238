/* Measures the proved exp and tanh, linked from the library's archive, against an independent value of higher precision on bit patterns:
 * double (53 digits) for every input, and MPFR (200 digits) wherever the float nearest to that is in doubt.
 * For each function: how many floats lie between the result and the correctly rounded value, how far the result is from the true value in units of
 * the float spacing there, and the worst inputs. Every stated fact is tried on every pattern as well.
 *
 * usage: measure STRIDE   1 takes all 2^32 patterns (minutes, with progress), 10007 a quick sample.   exit 1: above 2 floats, or a fact is broken */
#include <math.h>
#include <pthread.h>
#include <stdint.h>
#include <stdio.h>
#include <stdlib.h>
#include <string.h>

#ifdef HAS_MPFR_H
#include <mpfr.h>
#else
/* What is used of MPFR 4, for machines that have its library (which gcc brings) and no header. */
typedef struct { long precision; int sign; long exponent; unsigned long *digits; } mpfr_t[1];
enum { MPFR_RNDN };
void mpfr_init2(mpfr_t, long), mpfr_clear(mpfr_t), mpfr_free_cache(void);
int mpfr_set_flt(mpfr_t, float, int), mpfr_tanh(mpfr_t, const mpfr_t, int), mpfr_exp(mpfr_t, const mpfr_t, int);
float mpfr_get_flt(const mpfr_t, int);
#endif

float wavenet_exp(float x);
float wavenet_tanh(float x);

#define BINS 40
#define THREADS 2
typedef struct { uint64_t floats[4], bins[BINS + 1], broken; double worst; uint32_t worst_at, far_at; int far; } Tally;
typedef struct { int which; uint64_t from, to, stride; Tally tally; } Work;

static uint64_t done;
static float of_bits(uint32_t b) { float f; memcpy(&f, &b, 4); return f; }
static uint32_t to_bits(float f) { uint32_t b; memcpy(&b, &f, 4); return b; }
/* floats in order: their number from the most negative one up */
static int64_t place(float f) { uint32_t b = to_bits(f); return b & 0x80000000u ? -(int64_t)(b & 0x7fffffffu) : (int64_t)b; }

/* the float nearest to the true value, by MPFR; ties cannot be, as exp and tanh are irrational but at 0 */
static float by_mpfr(int which, float x) {
    mpfr_t a, r;
    mpfr_init2(a, 200);
    mpfr_init2(r, 200);
    mpfr_set_flt(a, x, MPFR_RNDN);
    if (which) mpfr_tanh(r, a, MPFR_RNDN); else mpfr_exp(r, a, MPFR_RNDN);
    float f = mpfr_get_flt(r, MPFR_RNDN);
    mpfr_clear(a);
    mpfr_clear(r);
    return f;
}

/* the C library's double is within a few of its own last digits; a margin of 2^-46 is sixty-four of them */
static float nearest(int which, float x, double *value) {
    double v = which ? tanh(x) : exp(x);
    *value = v;
    float low = (float)(v * (1 - 0x1p-46)), high = (float)(v * (1 + 0x1p-46));
    return low == high ? low : by_mpfr(which, x);
}

static int holds(int which, float x, float y) {
    if (isnan(x)) return isnan(y);
    if (isnan(y)) return 0;
    if (!which) return !signbit(y) && (x < 89 || y == INFINITY) && (x > -104 || to_bits(y) == 0) && (x != 0 || y == 1);
    float m = fabsf(x);
    return fabsf(y) <= 1 && (m > 0x1p-13f || to_bits(y) == to_bits(x)) && (m < 10 || y == copysignf(1, x)) && (signbit(x) || to_bits(wavenet_tanh(-x)) == (to_bits(y) ^ 0x80000000u));
}

static void one(Work *w, uint32_t b) {
    Tally *t = &w->tally;
    float x = of_bits(b), y = w->which ? wavenet_tanh(x) : wavenet_exp(x);
    if (!holds(w->which, x, y)) t->broken++;
    if (isnan(x)) return;
    double v;
    float right = nearest(w->which, x, &v);
    int64_t far = llabs(place(y) - place(right));
    t->floats[far > 3 ? 3 : far]++;
    if (far > t->far) { t->far = (int)far; t->far_at = b; }
    if (isinf(right) || isinf(y)) return;
    int e;
    frexp(v, &e);
    double error = fabs((double)y - v) / ldexp(1, (e < -125 ? -125 : e) - 24);
    t->bins[error >= 1 ? BINS : (int)(error * BINS)]++;
    if (error > t->worst) { t->worst = error; t->worst_at = b; }
}

static void *run(void *p) {
    Work *w = p;
    uint64_t count = 0;
    for (uint64_t b = w->from; b < w->to; b += w->stride) {
        one(w, (uint32_t)b);
        if (++count == 1 << 20) { __atomic_add_fetch(&done, count * (w->stride / THREADS), __ATOMIC_RELAXED); count = 0;
            if (w->from == 0) fprintf(stderr, "\r%s: %3.0f %%  ", w->which ? "tanh" : "exp", 100.0 * (double)done / 4294967296.0); }
    }
    mpfr_free_cache();
    return 0;
}

static int report(int which, uint64_t stride) {
    Work w[THREADS];
    pthread_t id[THREADS];
    done = 0;
    for (int i = 0; i < THREADS; i++) {
        /* interleaved, so that both threads have as much to do */
        w[i] = (Work){ which, (uint64_t)i * stride, 4294967296ull, stride * THREADS, { { 0 } } };
        pthread_create(&id[i], 0, run, &w[i]);
    }
    Tally t = { { 0 } };
    for (int i = 0; i < THREADS; i++) {
        pthread_join(id[i], 0);
        Tally *u = &w[i].tally;
        for (int k = 0; k < 4; k++) t.floats[k] += u->floats[k];
        for (int k = 0; k <= BINS; k++) t.bins[k] += u->bins[k];
        t.broken += u->broken;
        if (u->worst > t.worst) { t.worst = u->worst; t.worst_at = u->worst_at; }
        if (u->far > t.far) { t.far = u->far; t.far_at = u->far_at; }
    }
    fprintf(stderr, "\r");
    printf("%s floats %llu %llu %llu %llu farthest %d at %08x worst %.4f at %08x broken %llu\n", which ? "tanh" : "exp", (unsigned long long)t.floats[0],
           (unsigned long long)t.floats[1], (unsigned long long)t.floats[2], (unsigned long long)t.floats[3], t.far, t.far_at, t.worst, t.worst_at, (unsigned long long)t.broken);
    printf("%s bins", which ? "tanh" : "exp");
    for (int k = 0; k <= BINS; k++) printf(" %llu", (unsigned long long)t.bins[k]);
    printf("\n");
    fflush(stdout);
    return t.far > 2 || t.broken;
}

int main(int argc, char **argv) {
    uint64_t stride = argc > 1 ? strtoull(argv[1], 0, 10) : 10007;
    if (stride == 0) { fprintf(stderr, "usage: measure STRIDE (1: every pattern)\n"); return 2; }
    int bad = report(0, stride);
    return report(1, stride) | bad;
}
