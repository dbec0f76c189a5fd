/* Reads p, n, d and the coefficients of a matrix, and prints microseconds of its determinant by FLINT. */
#include <flint/nmod_poly.h>
#include <flint/nmod_poly_mat.h>

#include <stdio.h>
#include <time.h>

/* Microseconds for so many determinants. */
static double timed(nmod_poly_t determinant, const nmod_poly_mat_t a, unsigned long calls)
{
    clock_t start = clock();
    for (unsigned long call = 0; call < calls; call++)
        nmod_poly_mat_det(determinant, a);
    return (double)(clock() - start) * 1e6 / CLOCKS_PER_SEC;
}

int main(void)
{
    enum { ROUNDS = 15, LEAST = 5000 }; /* rounds, and microseconds of a round */
    unsigned long p, n, d, coefficient, calls = 1;
    nmod_poly_mat_t a;
    nmod_poly_t determinant;
    double best = 1e18;

    if (scanf("%lu %lu %lu", &p, &n, &d) != 3)
        return 1;
    nmod_poly_mat_init(a, (slong)n, (slong)n, p);
    nmod_poly_init(determinant, p);
    for (unsigned long i = 0; i < n * n * (d + 1); i++) {
        const unsigned long cell = i / (d + 1);
        if (scanf("%lu", &coefficient) != 1)
            return 1;
        nmod_poly_set_coeff_ui(nmod_poly_mat_entry(a, (slong)(cell / n), (slong)(cell % n)), (slong)(i % (d + 1)), coefficient);
    }
    while (timed(determinant, a, calls) < LEAST)
        calls *= 2;
    for (int round = 0; round < ROUNDS; round++) {
        double each = timed(determinant, a, calls) / (double)calls;
        best = each < best ? each : best;
    }
    printf("%f\n", best);
    return 0;
}
