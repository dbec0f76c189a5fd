/* The row operation and the product of `poly` beside plain C of the same method, in one run.
 *
 * poly figures  prints a line of figures for each input: nanoseconds per place (row) or per pair of places (product);
 *               says on standard error how far it is
 * poly compare  only compares results on mixed inputs; prints 'N passed, M failed'
 */
#include <stdbool.h>
#include <stdint.h>
#include <stdio.h>
#include <string.h>
#include <time.h>

/* crates/poly_bench: a slice is a pointer and then a length */
bool poly_bench_add(uint16_t *a, size_t a_len, uint16_t *b, size_t b_len, uint32_t c, size_t e, uint32_t p, uint32_t rounds);
bool poly_bench_product(const uint16_t *a, size_t a_len, const uint16_t *b, size_t b_len, uint16_t *out, size_t out_len,
                        uint32_t p, uint32_t rounds);

enum { MOST = 1024, MODULI = 4, LENGTHS = 5 };
static const uint32_t moduli[MODULI] = {2, 3, 929, 65521};
static const size_t lengths[LENGTHS] = {1, 2, 16, 64, 512};

__attribute__((noinline)) static void plain_add(uint16_t *a, const uint16_t *b, size_t n, uint32_t c, size_t e, uint32_t p)
{
    for (size_t i = 0; i < n; i++)
        a[e + i] = (uint16_t)((a[e + i] + c * b[i]) % p);
}

__attribute__((noinline)) static void plain_product(const uint16_t *a, const uint16_t *b, size_t n, uint16_t *out, uint32_t p)
{
    memset(out, 0, (2 * n - 1) * sizeof *out);
    for (size_t i = 0; i < n; i++)
        for (size_t j = 0; j < n; j++)
            out[i + j] = (uint16_t)((out[i + j] + (uint32_t)a[i] * b[j]) % p);
}

static void mix(uint16_t *a, size_t n, uint32_t seed, uint32_t p)
{
    for (size_t i = 0; i < n; i++) {
        a[i] = (uint16_t)(seed % p);
        seed = (seed * 25173 + 13849) % 65536;
    }
}

/* Processor time, in nanoseconds, so that other work on the machine is not counted. */
static double now(void)
{
    struct timespec t;
    clock_gettime(CLOCK_PROCESS_CPUTIME_ID, &t);
    return (double)t.tv_sec * 1e9 + (double)t.tv_nsec;
}

static uint16_t a1[MOST], a2[MOST], b[MOST], out1[2 * MOST], out2[2 * MOST];

static double least(double x, double y)
{
    return x < y ? x : y;
}

/* One line of figures, the best of some turns; with few rounds a comparison only. Returns whether the results agree. */
static bool row(size_t n, uint32_t p, uint32_t rounds, bool product, bool show)
{
    enum { TURNS = 10 };
    uint32_t c = 12345 % p;
    double proved = 1e18, plain = 1e18;
    bool taken = true;
    mix(a1, n, 7, p);
    mix(a2, n, 7, p);
    mix(b, n, 40001, p);
    for (int turn = 0; turn < TURNS; turn++) {
        double t0 = now();
        taken = taken && (product ? poly_bench_product(a1, n, b, n, out1, 2 * n - 1, p, rounds) : poly_bench_add(a1, n, b, n, c, 0, p, rounds));
        double t1 = now();
        for (uint32_t r = 0; r < rounds; r++) {
            if (product)
                plain_product(a2, b, n, out2, p);
            else
                plain_add(a2, b, n, c, 0, p);
        }
        proved = least(proved, t1 - t0);
        plain = least(plain, now() - t1);
    }
    bool same = taken && memcmp(a1, a2, n * sizeof *a1) == 0 && (!product || memcmp(out1, out2, (2 * n - 1) * sizeof *out1) == 0);
    if (show) {
        double places = (double)rounds * (double)n * (product ? (double)n : 1.0);
        printf("%s,%u,%zu,%.4f,%.4f\n", product ? "product" : "row", p, n, proved / places, plain / places);
    }
    return same;
}

/* p = 9 and p = 65,537 are refused and nothing is touched; so is a source that does not fit. */
static int refusals(void)
{
    int bad = 0;
    static const uint32_t refused[] = {0, 1, 9, 65537, 4294967295u};
    for (size_t i = 0; i < sizeof refused / sizeof *refused; i++) {
        mix(a1, 16, 7, 65521);
        mix(a2, 16, 7, 65521);
        bad += poly_bench_add(a1, 16, b, 16, 1, 0, refused[i], 1) || memcmp(a1, a2, 32) != 0;
        bad += poly_bench_product(b, 16, b, 16, a1, 16, refused[i], 1) || memcmp(a1, a2, 32) != 0;
    }
    bad += poly_bench_add(a1, 16, b, 16, 1, 1, 7, 1) || memcmp(a1, a2, 32) != 0;
    bad += poly_bench_product(b, 16, b, 16, a1, 30, 7, 1) || memcmp(a1, a2, 32) != 0;
    return bad;
}

int main(int argc, char **argv)
{
    bool show = argc > 1 && strcmp(argv[1], "figures") == 0;
    if (show)
        printf("operation,p,places,proved,C\n");
    int passed = 0, failed = 0;
    for (int product = 0; product < 2; product++)
        for (int i = 0; i < MODULI; i++)
            for (int j = 0; j < LENGTHS; j++) {
                size_t n = lengths[j];
                uint32_t work = (uint32_t)(product ? n * n : n);
                if (show)
                    fprintf(stderr, "figures: poly %d of %d, %s p=%u n=%zu\n", passed + failed + 1, 2 * MODULI * LENGTHS,
                            product ? "product" : "row", moduli[i], n);
                bool same = row(n, moduli[i], show ? 4000000 / work + 1 : 3, product, show && n >= 16 && moduli[i] > 3);
                same ? passed++ : failed++;
            }
    int bad = refusals();
    failed += bad;
    passed += 12 - bad;
    if (!show)
        printf("%d passed, %d failed\n", passed, failed);
    return failed != 0;
}
