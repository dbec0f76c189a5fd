/* A call of a proved function on its way through a pipe: its service, its numbers and the lengths of its buffers, and then the
 * buffers. Back come the numbers of the reply, and the buffers as they are at exit. */
#include <stddef.h>
#include <stdint.h>

enum { NUMBERS = 5, BUFFERS = 4 };

struct call {
    uint64_t service, number[NUMBERS], length[BUFFERS];
};

struct reply {
    uint64_t number[NUMBERS];
};

#if defined POLY_BENCH
enum { ADD, PRODUCT };
_Bool poly_bench_add(uint16_t *a, size_t a_len, uint16_t *b, size_t b_len, uint32_t c, size_t e, uint32_t p, uint32_t rounds);
_Bool poly_bench_product(const uint16_t *a, size_t a_len, const uint16_t *b, size_t b_len, uint16_t *out, size_t out_len, uint32_t p,
                         uint32_t rounds);
#elif defined MATRIX_BENCH
enum { ALONE };
struct alone_reply {
    size_t number, place, rank;
    uint64_t count;
};
struct alone_reply matrix_bench_alone(uint32_t p, size_t n, size_t m, size_t d, const uint16_t *a, size_t a_len, uint16_t *r,
                                      size_t r_len);
#else
#include "moorbesen.h"
enum { REDUCE, STEP, POPOV, DETERMINANT };
#endif
