/* Reduces the matrix of W1 (paper 01), makes one step of the reduction, and works out the Popov form and the
 * determinant. bindings/rust/examples/reduce.rs prints the same text. */
#include "moorbesen.h"

#include <inttypes.h>
#include <stdio.h>

enum { P = 7, N = 2, M = 2, D = 2 };
enum { A_LEN = MOORBESEN_MATRIX_PLACES(N, M, D), U_LEN = MOORBESEN_U_PLACES(N, D), V_LEN = MOORBESEN_V_PLACES(N, D) };
enum { DET_LEN = MOORBESEN_DETERMINANT_PLACES(N, D) };

/* The rows (1, x) and (x, 1 + x^2). */
static const uint16_t a[A_LEN] = {1, 0, 0, 0, 1, 0, 0, 1, 0, 1, 0, 1};
static uint16_t r[A_LEN], u[U_LEN], v[V_LEN], det[DET_LEN];

static void print_polynomial(size_t places, const uint16_t *polynomial)
{
    for (size_t e = 0; e < places; e++)
        printf(" %u", polynomial[e]);
    printf("\n");
}

/* Prints a matrix cell by cell. */
static void print_matrix(const char *name, size_t rows, size_t columns, size_t places, const uint16_t *cell)
{
    for (size_t i = 1; i <= rows; i++)
        for (size_t j = 1; j <= columns; j++, cell += places) {
            printf("%s%zu%zu =", name, i, j);
            print_polynomial(places, cell);
        }
}

static void print_result_and_transforms(const char *result)
{
    print_matrix(result, N, M, D + 1, r);
    print_matrix("u", N, N, N * (D + 1), u);
    print_matrix("v", N, N, D + 1, v);
}

/* Says so if the call was refused. */
static int refused(size_t number, size_t place)
{
    if (number != MOORBESEN_DONE)
        printf("refused with number %zu, place %zu\n", number, place);
    return number != MOORBESEN_DONE;
}

int main(void)
{
    struct moorbesen_reply reduced = moorbesen_reduce(P, N, M, D, a, A_LEN, r, A_LEN, u, U_LEN, v, V_LEN);
    if (refused(reduced.number, reduced.place))
        return 1;
    printf("rank %zu after %" PRIu64 " steps, independent rows", reduced.rank, reduced.count);
    for (size_t i = 1; i <= N; i++)
        if (MOORBESEN_HAS_ROW(reduced.rows, i))
            printf(" %zu", i);
    printf("\n");
    print_result_and_transforms("r");

    struct moorbesen_reply stepped = moorbesen_step(P, N, M, D, a, A_LEN, r, A_LEN);
    if (refused(stepped.number, stepped.place))
        return 1;
    printf("after %" PRIu64 " step\n", stepped.count);
    print_matrix("r", N, M, D + 1, r);

    struct moorbesen_popov_reply formed = moorbesen_popov(P, N, M, D, a, A_LEN, r, A_LEN, u, U_LEN, v, V_LEN);
    if (refused(formed.number, formed.place))
        return 1;
    printf("Popov form of rank %zu after %" PRIu64 " + %" PRIu64 " steps\n", formed.rank, formed.first, formed.second);
    print_result_and_transforms("p");

    struct moorbesen_determinant_reply found = moorbesen_determinant(P, N, M, D, a, A_LEN, det, DET_LEN);
    if (refused(found.number, found.place))
        return 1;
    printf("determinant =");
    print_polynomial(DET_LEN, det);
    return 0;
}
