/* The weak Popov form, the Popov form and the determinant of a polynomial matrix, in
 * plain C: the baselines of the benchmark.
 *
 * A has n rows by m columns over the residues modulo p. p is a prime up to 65521,
 * n and m are 1 to 8, d is 0 to 63, and every coefficient of A is below p; none
 * of this is checked. Cells stand row after row, constant term first:
 *
 *   a, r   n*m*(d+1) places, d+1 for each cell
 *   u      n*n*n*(d+1) places, n*(d+1) for each cell
 *   v      n*n*(d+1) places, d+1 for each cell
 *
 * Every place of r, u and v is written. The arrays must not overlap. */

#ifndef PLAIN_H
#define PLAIN_H

#include <stdint.h>

/* The number of steps of the first kind and of the second. */
struct counts {
    uint64_t first, second;
};

/* R in weak Popov form, with U*A = R and V*R = A; or R alone, if u and v are NULL. */
struct counts plain_reduce(uint32_t p, unsigned n, unsigned m, unsigned d,
                           const uint16_t *a, uint16_t *r, uint16_t *u, uint16_t *v);

/* The same with R in Popov form. */
struct counts plain_popov(uint32_t p, unsigned n, unsigned m, unsigned d,
                          const uint16_t *a, uint16_t *r, uint16_t *u, uint16_t *v);

/* The determinant of a matrix of n rows and n columns, in n*d+1 places, as in section 3
 * of the report: the last column is parted from the others, the others are brought to
 * weak Popov form, and one of their rows becomes zero; the entry that the column has
 * there is a factor, and the row is taken out. */
void plain_determinant(uint32_t p, unsigned n, unsigned d, const uint16_t *a, uint16_t *product);

#endif
