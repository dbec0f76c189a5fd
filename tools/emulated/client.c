/* The functions of the library for this machine's processor: each hands its call to a server. Every thread has one of its own, which
 * its first call starts. */
#define _GNU_SOURCE
#include "call.h"

#include <fcntl.h>
#include <stdio.h>
#include <stdlib.h>
#include <string.h>
#include <unistd.h>

struct buffer {
    uint16_t *start;
    size_t length;
    int lent; /* to be written */
};

static _Thread_local int to_server = -1, from_server = -1;

static void stop(const char *what)
{
    fprintf(stderr, "the proved library under the emulator: %s\n", what);
    abort();
}

static void start_server(void)
{
    int in[2], out[2];
    if (pipe2(in, O_CLOEXEC) || pipe2(out, O_CLOEXEC))
        stop("no pipe");
    if (fork() == 0) {
        dup2(in[0], 0);
        dup2(out[1], 1);
        execl(EMULATOR, EMULATOR, SERVER, (char *)0);
        _exit(127);
    }
    close(in[0]), close(out[1]);
    to_server = in[1], from_server = out[0];
}

static void put(const void *start, size_t size)
{
    for (size_t done = 0; done < size;) {
        ssize_t some = write(to_server, (const char *)start + done, size - done);
        if (some <= 0)
            stop("it does not take a call");
        done += (size_t)some;
    }
}

static void get(void *start, size_t size)
{
    for (size_t done = 0; done < size;) {
        ssize_t some = read(from_server, (char *)start + done, size - done);
        if (some <= 0)
            stop("it does not answer");
        done += (size_t)some;
    }
}

/* A buffer that is not lent to be written has to come back as it went. */
static void get_back(struct buffer b)
{
    uint16_t *start = b.lent ? b.start : malloc(2 * b.length + 1);
    get(start, 2 * b.length);
    if (!b.lent && memcmp(start, b.start, 2 * b.length))
        stop("the input was written");
    if (!b.lent)
        free(start);
}

static struct reply ask(struct call call, const struct buffer *b)
{
    struct reply reply;
    if (to_server < 0)
        start_server();
    for (int i = 0; i < BUFFERS; i++)
        call.length[i] = b[i].length;
    put(&call, sizeof call);
    for (int i = 0; i < BUFFERS; i++)
        put(b[i].start, 2 * b[i].length);
    get(&reply, sizeof reply);
    for (int i = 0; i < BUFFERS; i++)
        get_back(b[i]);
    return reply;
}

#if defined POLY_BENCH
_Bool poly_bench_add(uint16_t *a, size_t a_len, uint16_t *b, size_t b_len, uint32_t c, size_t e, uint32_t p, uint32_t rounds)
{
    struct buffer lent[BUFFERS] = {{a, a_len, 1}, {b, b_len, 1}};
    return ask((struct call){ADD, {p, c, e, rounds}, {0}}, lent).number[0] & 1;
}

_Bool poly_bench_product(const uint16_t *a, size_t a_len, const uint16_t *b, size_t b_len, uint16_t *out, size_t out_len, uint32_t p,
                         uint32_t rounds)
{
    struct buffer lent[BUFFERS] = {{(uint16_t *)a, a_len, 0}, {(uint16_t *)b, b_len, 0}, {out, out_len, 1}};
    return ask((struct call){PRODUCT, {p, 0, 0, rounds}, {0}}, lent).number[0] & 1;
}
#elif defined MATRIX_BENCH
struct alone_reply matrix_bench_alone(uint32_t p, size_t n, size_t m, size_t d, const uint16_t *a, size_t a_len, uint16_t *r,
                                      size_t r_len)
{
    struct buffer lent[BUFFERS] = {{(uint16_t *)a, a_len, 0}, {r, r_len, 1}};
    struct reply x = ask((struct call){ALONE, {p, n, m, d}, {0}}, lent);
    return (struct alone_reply){x.number[0], x.number[1], x.number[2], x.number[3]};
}
#else
struct moorbesen_reply moorbesen_reduce(uint32_t p, size_t n, size_t m, size_t d, const uint16_t *a, size_t a_len, uint16_t *r,
                                        size_t r_len, uint16_t *u, size_t u_len, uint16_t *v, size_t v_len)
{
    struct buffer lent[BUFFERS] = {{(uint16_t *)a, a_len, 0}, {r, r_len, 1}, {u, u_len, 1}, {v, v_len, 1}};
    struct reply x = ask((struct call){REDUCE, {p, n, m, d}, {0}}, lent);
    return (struct moorbesen_reply){x.number[0], x.number[1], x.number[2], x.number[3], x.number[4]};
}

struct moorbesen_reply moorbesen_step(uint32_t p, size_t n, size_t m, size_t d, const uint16_t *a, size_t a_len, uint16_t *r, size_t r_len)
{
    struct buffer lent[BUFFERS] = {{(uint16_t *)a, a_len, 0}, {r, r_len, 1}};
    struct reply x = ask((struct call){STEP, {p, n, m, d}, {0}}, lent);
    return (struct moorbesen_reply){x.number[0], x.number[1], x.number[2], x.number[3], x.number[4]};
}

struct moorbesen_popov_reply moorbesen_popov(uint32_t p, size_t n, size_t m, size_t d, const uint16_t *a, size_t a_len, uint16_t *r,
                                             size_t r_len, uint16_t *u, size_t u_len, uint16_t *v, size_t v_len)
{
    struct buffer lent[BUFFERS] = {{(uint16_t *)a, a_len, 0}, {r, r_len, 1}, {u, u_len, 1}, {v, v_len, 1}};
    struct reply x = ask((struct call){POPOV, {p, n, m, d}, {0}}, lent);
    return (struct moorbesen_popov_reply){x.number[0], x.number[1], x.number[2], x.number[3], x.number[4]};
}

struct moorbesen_determinant_reply moorbesen_determinant(uint32_t p, size_t n, size_t m, size_t d, const uint16_t *a, size_t a_len,
                                                         uint16_t *r, size_t r_len)
{
    struct buffer lent[BUFFERS] = {{(uint16_t *)a, a_len, 0}, {r, r_len, 1}};
    struct reply x = ask((struct call){DETERMINANT, {p, n, m, d}, {0}}, lent);
    return (struct moorbesen_determinant_reply){x.number[0], x.number[1]};
}
#endif
