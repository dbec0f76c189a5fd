/* Answers calls from standard input by the proved library, as a program for x86-64 that needs no C library: the kit's emulator runs it. */
#include "call.h"

enum { ROOM = 70000, SYS_READ = 0, SYS_WRITE = 1, SYS_EXIT = 60 };

static struct call call;
static struct reply reply;
static uint16_t buffer[BUFFERS][ROOM];

static long system_call(long number, long a, void *b, size_t c)
{
    long result;
    __asm__ volatile("syscall" : "=a"(result) : "a"(number), "D"(a), "S"(b), "d"(c) : "rcx", "r11", "memory");
    return result;
}

/* Reads or writes all of a part of memory. The end of the input, or anything amiss, ends this program. */
static void transfer(long number, void *start, size_t size)
{
    for (size_t done = 0; done < size;) {
        long some = system_call(number, number, (char *)start + done, size - done);
        if (some <= 0)
            system_call(SYS_EXIT, 1, 0, 0);
        done += (size_t)some;
    }
}

/* The compiler may call these. */
void *memcpy(void *to, const void *from, size_t size)
{
    for (size_t i = 0; i < size; i++)
        ((volatile char *)to)[i] = ((const char *)from)[i];
    return to;
}

void *memset(void *to, int byte, size_t size)
{
    for (size_t i = 0; i < size; i++)
        ((volatile char *)to)[i] = (char)byte;
    return to;
}

static void answer(void)
{
    uint64_t *x = call.number;
    size_t *l = (size_t *)call.length;
    uint16_t(*b)[ROOM] = buffer;
#if defined POLY_BENCH
    if (call.service == ADD)
        reply.number[0] = poly_bench_add(b[0], l[0], b[1], l[1], (uint32_t)x[1], x[2], (uint32_t)x[0], (uint32_t)x[3]);
    else
        reply.number[0] = poly_bench_product(b[0], l[0], b[1], l[1], b[2], l[2], (uint32_t)x[0], (uint32_t)x[3]);
#elif defined MATRIX_BENCH
    struct alone_reply r = matrix_bench_alone((uint32_t)x[0], x[1], x[2], x[3], b[0], l[0], b[1], l[1]);
    reply = (struct reply){{r.number, r.place, r.rank, r.count}};
#else
    uint32_t p = (uint32_t)x[0];
    if (call.service == POPOV) {
        struct moorbesen_popov_reply r = moorbesen_popov(p, x[1], x[2], x[3], b[0], l[0], b[1], l[1], b[2], l[2], b[3], l[3]);
        reply = (struct reply){{r.number, r.place, r.rank, r.first, r.second}};
    } else if (call.service == DETERMINANT) {
        struct moorbesen_determinant_reply r = moorbesen_determinant(p, x[1], x[2], x[3], b[0], l[0], b[1], l[1]);
        reply = (struct reply){{r.number, r.place}};
    } else {
        struct moorbesen_reply r = call.service == REDUCE
                                       ? moorbesen_reduce(p, x[1], x[2], x[3], b[0], l[0], b[1], l[1], b[2], l[2], b[3], l[3])
                                       : moorbesen_step(p, x[1], x[2], x[3], b[0], l[0], b[1], l[1]);
        reply = (struct reply){{r.number, r.place, r.rank, r.count, r.rows}};
    }
#endif
}

__attribute__((force_align_arg_pointer)) void _start(void)
{
    for (;;) {
        transfer(SYS_READ, &call, sizeof call);
        for (int i = 0; i < BUFFERS; i++) {
            if (call.length[i] > ROOM)
                system_call(SYS_EXIT, 1, 0, 0);
            transfer(SYS_READ, buffer[i], 2 * call.length[i]);
        }
        answer();
        transfer(SYS_WRITE, &reply, sizeof reply);
        for (int i = 0; i < BUFFERS; i++)
            transfer(SYS_WRITE, buffer[i], 2 * call.length[i]);
    }
}
