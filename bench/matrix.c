/* The proved reduction, with U and V and of R alone, Popov form and determinant beside plain C of the same method, in one run.
 *
 * matrix figures  prints a line of figures for each input and service: see HEAD; says on standard error how far it is
 * matrix cells KIND P N D  prints the coefficients of an input, for other programs to time
 * matrix compare  only compares result, U, V and the counts of steps, those of R alone with the whole reduction too;
 *                 prints 'N passed, M failed'
 */
#include "moorbesen.h"
#include "plain.h"

#include <stdbool.h>
#include <stdio.h>
#include <stdlib.h>
#include <string.h>
#include <time.h>

/* crates/matrix_bench: a slice is a pointer and then a length */
struct alone_reply {
    size_t number, place, rank;
    uint64_t count;
};
struct alone_reply matrix_bench_alone(uint32_t p, size_t n, size_t m, size_t d, const uint16_t *a, size_t a_len, uint16_t *r,
                                      size_t r_len);

enum { MOST = 8, WIDTH = 64, PLACES = MOST * MOST * WIDTH };
enum kind { RANDOM, COLUMN, HALF_RANK, TRIANGULAR, KINDS };
static const char *const names[KINDS] = {"random", "column", "half rank", "triangular"};

/* The inputs of the table, of every kind, and those that show the growth, which are random: with n at the greatest
 * degree, and with the degree at the greatest n. */
enum { MODULI = 2, SIZES = 3, DEGREES = 2, GROWING = 6 };
enum { INPUTS = KINDS * MODULI * SIZES * DEGREES + MOST + GROWING };
static const uint32_t moduli[MODULI] = {65521, 929};
static const unsigned sizes[SIZES] = {2, 4, 8};
static const unsigned degrees[DEGREES] = {15, 63};
static const unsigned growing[GROWING] = {1, 3, 7, 15, 31, 63};

/* A shape, the same number of rows and columns, and the input. */
struct input {
    enum kind kind;
    uint32_t p;
    unsigned n, d;
    uint16_t a[PLACES];
};

/* What a program wrote. */
struct output {
    uint16_t r[PLACES], u[MOST * PLACES], v[PLACES];
    struct counts counts;
    bool done;
};

/* xorshift; set anew for every input, so that an input does not depend on those before it */
static uint64_t state;

static uint16_t residue(uint32_t p)
{
    state ^= state << 13;
    state ^= state >> 7;
    state ^= state << 17;
    return (uint16_t)((state >> 32) % p);
}

/* A polynomial of exactly this degree, so that the degrees are the ones the table names. */
static void polynomial(uint16_t *cell, unsigned degree, uint32_t p)
{
    for (unsigned e = 0; e < degree; e++)
        cell[e] = residue(p);
    cell[degree] = (uint16_t)(1 + residue(p - 1));
}

/* A factor of a product, n rows by s columns: all random, or unit triangular. */
static void factor(uint16_t *x, unsigned n, unsigned s, unsigned degree, uint32_t p, bool triangular, bool lower)
{
    memset(x, 0, PLACES * sizeof *x);
    for (unsigned i = 0; i < n; i++)
        for (unsigned j = 0; j < s; j++) {
            uint16_t *cell = x + (i * s + j) * WIDTH;
            if (triangular && i == j)
                cell[0] = 1;
            else if (!triangular || (lower ? i > j : i < j))
                polynomial(cell, degree, p);
        }
}

/* The product of n by s and s by n, of degrees that sum to at most the degree of the input. */
static void product(struct input *in, const uint16_t *x, unsigned dx, unsigned s, const uint16_t *y, unsigned dy)
{
    for (unsigned i = 0; i < in->n; i++)
        for (unsigned j = 0; j < in->n; j++) {
            uint16_t *cell = in->a + (i * in->n + j) * (in->d + 1);
            for (unsigned t = 0; t < s; t++)
                for (unsigned f = 0; f <= dx; f++)
                    for (unsigned g = 0; g <= dy; g++) {
                        uint64_t term = (uint64_t)x[(i * s + t) * WIDTH + f] * y[(t * in->n + j) * WIDTH + g];
                        cell[f + g] = (uint16_t)((cell[f + g] + term) % in->p);
                    }
        }
}

static void fill(struct input *in)
{
    static uint16_t x[PLACES], y[PLACES];
    const unsigned n = in->n, d = in->d, half = d / 2;
    const uint32_t p = in->p;
    state = UINT64_C(88172645463325252);
    memset(in->a, 0, sizeof in->a);
    switch (in->kind) {
    case HALF_RANK:
        factor(x, n, n / 2, half, p, false, false);
        factor(y, n / 2, n, d - half, p, false, false);
        product(in, x, half, n / 2, y, d - half);
        break;
    case TRIANGULAR:
        factor(x, n, n, half, p, true, true);
        factor(y, n, n, half, p, true, false);
        product(in, x, half, n, y, half);
        break;
    default:
        for (unsigned i = 0; i < n; i++)
            for (unsigned j = 0; j < n; j++) {
                uint16_t *cell = in->a + (i * n + j) * (d + 1);
                if (in->kind == RANDOM || j == 0)
                    polynomial(cell, d, p);
                else
                    cell[0] = i == j;
            }
    }
}

static size_t places(const struct input *in)
{
    return (size_t)in->n * in->n * (in->d + 1);
}

/* The programs stand in files of their own, so no call is inlined. */
static void proved_reduction(const struct input *in, struct output *out)
{
    const size_t n = in->n, w = places(in);
    struct moorbesen_reply reply = moorbesen_reduce(in->p, n, n, in->d, in->a, w, out->r, w, out->u, n * w, out->v, w);
    out->done = reply.number == 0;
    out->counts = (struct counts){reply.count, 0};
}

static void plain_reduction(const struct input *in, struct output *out)
{
    out->counts = plain_reduce(in->p, in->n, in->n, in->d, in->a, out->r, out->u, out->v);
    out->done = true;
}

static void proved_alone(const struct input *in, struct output *out)
{
    const size_t n = in->n, w = places(in);
    struct alone_reply reply = matrix_bench_alone(in->p, n, n, in->d, in->a, w, out->r, w);
    out->done = reply.number == 0;
    out->counts = (struct counts){reply.count, 0};
}

static void plain_alone(const struct input *in, struct output *out)
{
    out->counts = plain_reduce(in->p, in->n, in->n, in->d, in->a, out->r, NULL, NULL);
    out->done = true;
}

static void proved_popov_form(const struct input *in, struct output *out)
{
    const size_t n = in->n, w = places(in);
    struct moorbesen_popov_reply reply = moorbesen_popov(in->p, n, n, in->d, in->a, w, out->r, w, out->u, n * w, out->v, w);
    out->done = reply.number == 0;
    out->counts = (struct counts){reply.first, reply.second};
}

static void plain_popov_form(const struct input *in, struct output *out)
{
    out->counts = plain_popov(in->p, in->n, in->n, in->d, in->a, out->r, out->u, out->v);
    out->done = true;
}

static size_t determinant_places(const struct input *in)
{
    return MOORBESEN_DETERMINANT_PLACES(in->n, in->d);
}

static void proved_determinant(const struct input *in, struct output *out)
{
    struct moorbesen_determinant_reply reply =
        moorbesen_determinant(in->p, in->n, in->n, in->d, in->a, places(in), out->r, determinant_places(in));
    out->done = reply.number == 0;
    out->counts = (struct counts){0, 0};
}

static void plain_determinant_of(const struct input *in, struct output *out)
{
    plain_determinant(in->p, in->n, in->d, in->a, out->r);
    out->counts = (struct counts){0, 0};
    out->done = true;
}

enum { PLAIN, PROVED, PROGRAMS };
typedef void program(const struct input *in, struct output *out);
struct service {
    const char *name;
    program *programs[PROGRAMS];
    size_t (*result)(const struct input *in); /* places of the result */
    bool transforms;                          /* whether U and V are written too */
};
enum { TIMED = 4, SERVICES }; /* the last is only compared */
static const struct service services[SERVICES] = {
    {"reduction", {plain_reduction, proved_reduction}, places, true},
    {"R alone", {plain_alone, proved_alone}, places, false},
    {"Popov form", {plain_popov_form, proved_popov_form}, places, true},
    {"determinant", {plain_determinant_of, proved_determinant}, determinant_places, false},
    {"R alone in the reduction", {proved_reduction, proved_alone}, places, false},
};
static struct output outputs[PROGRAMS];

/* The outputs are filled differently first, so that a place left unwritten shows, even if both programs leave it. */
static bool same(const struct service *service, const struct input *in)
{
    const struct output *plain = &outputs[PLAIN], *proved = &outputs[PROVED];
    const size_t result = service->result(in) * sizeof *in->a, v = service->transforms ? places(in) * sizeof *in->a : 0;
    for (int i = 0; i < PROGRAMS; i++) {
        memset(&outputs[i], 0xfe + i, sizeof outputs[i]);
        service->programs[i](in, &outputs[i]);
    }
    return proved->done && proved->counts.first == plain->counts.first && proved->counts.second == plain->counts.second &&
           memcmp(proved->r, plain->r, result) == 0 && memcmp(proved->u, plain->u, in->n * v) == 0 &&
           memcmp(proved->v, plain->v, v) == 0;
}

/* Processor time, in microseconds, so that other work on the machine is not counted. */
static double now(void)
{
    struct timespec t;
    clock_gettime(CLOCK_PROCESS_CPUTIME_ID, &t);
    return (double)t.tv_sec * 1e6 + (double)t.tv_nsec * 1e-3;
}

/* Microseconds for so many calls. */
static double timed(program *program, struct output *out, const struct input *in, unsigned calls)
{
    double start = now();
    for (unsigned i = 0; i < calls; i++)
        program(in, out);
    return now() - start;
}

/* Prints microseconds per call of the proved function and of plain C. The best of several rounds counts, since other
 * work on the machine only ever adds time; the programs take turns, so that a slow spell meets both. */
static void print_times(const struct service *service, const struct input *in)
{
    enum { ROUNDS = 15 };
    const double least = 5000; /* microseconds of a round */
    double best[PROGRAMS] = {1e18, 1e18};
    unsigned calls[PROGRAMS];
    for (int i = 0; i < PROGRAMS; i++)
        for (calls[i] = 1; timed(service->programs[i], &outputs[i], in, calls[i]) < least;)
            calls[i] *= 2;
    for (int round = 0; round < ROUNDS; round++)
        for (int i = 0; i < PROGRAMS; i++) {
            double each = timed(service->programs[i], &outputs[i], in, calls[i]) / calls[i];
            best[i] = each < best[i] ? each : best[i];
        }
    printf("%.3f,%.3f\n", best[PROVED], best[PLAIN]);
    fflush(stdout);
}

#define HEAD "series,service,input,p,n,d,first,second,proved,C\n"

/* Whether figures are to be printed, how many inputs there were, and how many comparisons agreed and how many did not. */
struct results {
    bool figures;
    int inputs, passed, failed;
};

/* All services for one input, of the table or of a series that shows the growth. */
static void input(struct results *results, const char *series, enum kind kind, uint32_t p, unsigned n, unsigned d)
{
    static struct input in;
    in.kind = kind;
    in.p = p;
    in.n = n;
    in.d = d;
    fill(&in);
    results->inputs++;
    if (results->figures)
        fprintf(stderr, "figures: matrix %d of %d, %s p=%u n=%u d=%u\n", results->inputs, INPUTS, names[kind], p, n, d);
    for (int i = 0; i < SERVICES; i++) {
        const bool agrees = same(&services[i], &in);
        agrees ? results->passed++ : results->failed++;
        if (!agrees)
            fprintf(stderr, "%s of %s p=%u n=%u d=%u: results differ\n", services[i].name, names[kind], p, n, d);
        if (results->figures && i < TIMED) {
            const struct counts counts = outputs[PLAIN].counts;
            printf("%s,%s,%s,%u,%u,%u,%llu,%llu,", series, services[i].name, names[kind], p, n, d,
                   (unsigned long long)counts.first, (unsigned long long)counts.second);
            print_times(&services[i], &in);
        }
    }
}

static void all_inputs(struct results *results)
{
    for (int kind = 0; kind < KINDS; kind++)
        for (int i = 0; i < MODULI; i++)
            for (int j = 0; j < SIZES; j++)
                for (int k = 0; k < DEGREES; k++)
                    input(results, "table", kind, moduli[i], sizes[j], degrees[k]);
    for (unsigned n = 1; n <= MOST; n++)
        input(results, "n", RANDOM, moduli[0], n, WIDTH - 1);
    for (int k = 0; k < GROWING; k++)
        input(results, "d", RANDOM, moduli[0], MOST, growing[k]);
}

/* The coefficients of an input, in their places. */
static int cells(char **arguments)
{
    static struct input in;
    while (in.kind < KINDS && strcmp(names[in.kind], arguments[0]) != 0)
        in.kind++;
    in.p = (uint32_t)strtoul(arguments[1], NULL, 10);
    in.n = (unsigned)strtoul(arguments[2], NULL, 10);
    in.d = (unsigned)strtoul(arguments[3], NULL, 10);
    if (in.kind == KINDS || in.p < 2 || in.n > MOST || in.d >= WIDTH)
        return 1;
    fill(&in);
    for (size_t i = 0; i < places(&in); i++)
        printf("%u ", in.a[i]);
    return 0;
}

int main(int argc, char **argv)
{
    if (argc == 6 && strcmp(argv[1], "cells") == 0)
        return cells(argv + 2);
    struct results results = {.figures = argc == 2 && strcmp(argv[1], "figures") == 0};
    if (results.figures)
        printf(HEAD);
    all_inputs(&results);
    if (!results.figures)
        printf("%d passed, %d failed\n", results.passed, results.failed);
    return results.failed != 0;
}
