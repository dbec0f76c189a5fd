/* Moorbesen for programs in C: the weak Popov form of a matrix of polynomials over Z/p, one step of it, the Popov form
 * and the determinant.
 *
 * Link with target/staticlib/libmoorbesen.a, which `tools/library moorbesen` makes.
 *
 * A matrix has n rows and m columns. A cell is a polynomial of degree at most d, in d + 1 places, constant term
 * first; zeros are never left out. Cells stand row after row, in each row column after column. A coefficient is a
 * number below p.
 *
 *   p        a prime, 2 to 65,521
 *   n, m     1 to 8 each
 *   d        0 to 63
 *
 * Each buffer is passed as a pointer and its length in places. The caller answers for two things only, which no
 * function can see: that each pointer is good for its length, and that no buffer that is written overlaps another.
 * All else is checked. A call that is refused writes nothing. A call that is done writes every place of every buffer
 * but the input, whatever stood there before.
 */
#ifndef MOORBESEN_H
#define MOORBESEN_H

#include <stddef.h>
#include <stdint.h>

#ifdef __cplusplus
extern "C" {
#endif

/* The lengths of the buffers: of the input A and the result R or P, of U, of V, and of a determinant. A cell of U takes
 * n*(d+1) places. */
#define MOORBESEN_MATRIX_PLACES(n, m, d) ((size_t)(n) * (size_t)(m) * ((size_t)(d) + 1))
#define MOORBESEN_U_PLACES(n, d) ((size_t)(n) * (size_t)(n) * (size_t)(n) * ((size_t)(d) + 1))
#define MOORBESEN_V_PLACES(n, d) MOORBESEN_MATRIX_PLACES(n, n, d)
#define MOORBESEN_DETERMINANT_PLACES(n, d) ((size_t)(n) * (size_t)(d) + 1)

/* The field `number` of an answer. The checks run in this order, and the first that applies is the answer. */
enum {
    MOORBESEN_DONE = 0,       /* nothing is refused */
    MOORBESEN_MODULUS = 1,    /* p is not a prime in 2 to 65,521 */
    MOORBESEN_SHAPE = 2,      /* n or m is outside 1 to 8 */
    MOORBESEN_DEGREE = 3,     /* d is outside 0 to 63 */
    MOORBESEN_SQUARE = 4,     /* a determinant is asked for, and n and m differ */
    MOORBESEN_LENGTH = 5,     /* the length of a buffer is not the one above */
    MOORBESEN_COEFFICIENT = 6 /* a coefficient of the input is p or more */
};

/* The answer of the reduction and of the single step. In a refusal all fields but the first two are 0. */
struct moorbesen_reply {
    /* 0 if the call is done, else the number of the refusal. */
    size_t number;
    /* Of refusal 5 the first buffer whose length is wrong, counted from 1 in the order of the arguments. Of refusal 6
     * the index of the first coefficient that is too large, counted from 0. Else 0. */
    size_t place;
    /* The rank of A: the number of rows of R that are not zero. Of the single step 0. */
    size_t rank;
    /* The number of steps made: of the single step 1, or 0 where no step applies. */
    uint64_t count;
    /* The rows of A that are listed as independent, those whose rows in R are not zero: bit i - 1 stands for row i,
     * counted from 1. Of the single step 0. */
    size_t rows;
};

/* Whether row i, counted from 1, is in the list `rows` of an answer. */
#define MOORBESEN_HAS_ROW(rows, i) ((rows) >> ((i) - 1) & 1)

/* The answer of the Popov form. In a refusal all fields but the first two are 0. */
struct moorbesen_popov_reply {
    /* As above. */
    size_t number;
    size_t place;
    /* The rank of A: the number of rows of P that are not zero. */
    size_t rank;
    /* The number of steps of the first kind, those that lead to weak Popov form. */
    uint64_t first;
    /* The number of steps of the second kind, those that lower the degrees beside the pivots. */
    uint64_t second;
};

/* The answer of the determinant. */
struct moorbesen_determinant_reply {
    /* As above. */
    size_t number;
    size_t place;
};

/* Writes R, the weak Popov form of A that the steps reach in their fixed order, and the matrices U and V with
 * U*A = R, V*R = A and U*V = V*U = identity.
 *
 *   a   MOORBESEN_MATRIX_PLACES(n, m, d), only read
 *   r   MOORBESEN_MATRIX_PLACES(n, m, d)
 *   u   MOORBESEN_U_PLACES(n, d)
 *   v   MOORBESEN_V_PLACES(n, d)
 */
struct moorbesen_reply moorbesen_reduce(uint32_t p, size_t n, size_t m, size_t d, const uint16_t *a, size_t a_len,
                                        uint16_t *r, size_t r_len, uint16_t *u, size_t u_len, uint16_t *v, size_t v_len);

/* Writes the matrix after one step of the reduction of A, or A itself where A is in weak Popov form.
 *
 *   a   MOORBESEN_MATRIX_PLACES(n, m, d), only read
 *   r   MOORBESEN_MATRIX_PLACES(n, m, d)
 */
struct moorbesen_reply moorbesen_step(uint32_t p, size_t n, size_t m, size_t d, const uint16_t *a, size_t a_len,
                                      uint16_t *r, size_t r_len);

/* Writes P, the Popov form of A, into r, and the matrices U and V with U*A = P, V*P = A and U*V = V*U = identity.
 * Two matrices of the same p, n, m and d have equal Popov forms exactly when a polynomial matrix with a polynomial
 * inverse, multiplied from the left, turns the one into the other. The buffers are those of moorbesen_reduce. */
struct moorbesen_popov_reply moorbesen_popov(uint32_t p, size_t n, size_t m, size_t d, const uint16_t *a, size_t a_len,
                                             uint16_t *r, size_t r_len, uint16_t *u, size_t u_len, uint16_t *v,
                                             size_t v_len);

/* Writes the determinant of A, which has to be square, constant term first.
 *
 *   a   MOORBESEN_MATRIX_PLACES(n, n, d), only read
 *   r   MOORBESEN_DETERMINANT_PLACES(n, d)
 */
struct moorbesen_determinant_reply moorbesen_determinant(uint32_t p, size_t n, size_t m, size_t d, const uint16_t *a,
                                                         size_t a_len, uint16_t *r, size_t r_len);

#ifdef __cplusplus
}
#endif

#endif
