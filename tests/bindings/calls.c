/* Makes the calls of calls.txt, whose path is the argument, through the C header. Each answer has its number and
 * place. In a refusal all else is 0 and no buffer is touched; else every place is written, and none outside. The last
 * line is 'N passed, M failed'. */
#include "moorbesen.h"

#include <inttypes.h>
#include <stdbool.h>
#include <stdio.h>
#include <string.h>

/* Buffers are longer than any length of the list, so that a place written behind the end shows. */
enum { INPUT, RESULT, U, V, BUFFERS, ROOM = 640, GUARD = 16 };
struct buffer {
    uint16_t places[ROOM];
};

struct call {
    char services[8];
    uint32_t p;
    size_t n, m, d, lengths[BUFFERS], from, number, place;
};

/* Number, place, and the three numbers of an answer that are 0 in a refusal. */
struct told {
    uint64_t number, place, others[3];
};

static struct told call_service(char service, const struct call *c, struct buffer *buffers)
{
    uint16_t *const a = buffers[INPUT].places + GUARD, *const r = buffers[RESULT].places + GUARD;
    uint16_t *const u = buffers[U].places + GUARD, *const v = buffers[V].places + GUARD;
    const size_t *l = c->lengths;
    if (service == 'p') {
        struct moorbesen_popov_reply x =
            moorbesen_popov(c->p, c->n, c->m, c->d, a, l[INPUT], r, l[RESULT], u, l[U], v, l[V]);
        return (struct told){x.number, x.place, {x.rank, x.first, x.second}};
    }
    if (service == 'd') {
        struct moorbesen_determinant_reply x = moorbesen_determinant(c->p, c->n, c->m, c->d, a, l[INPUT], r, l[RESULT]);
        return (struct told){x.number, x.place, {0, 0, 0}};
    }
    struct moorbesen_reply x =
        service == 's' ? moorbesen_step(c->p, c->n, c->m, c->d, a, l[INPUT], r, l[RESULT])
                       : moorbesen_reduce(c->p, c->n, c->m, c->d, a, l[INPUT], r, l[RESULT], u, l[U], v, l[V]);
    return (struct told){x.number, x.place, {x.rank, x.count, x.rows}};
}

/* Whether the buffer holds numbers below p in the places of its length, and elsewhere what it held before. */
static bool written(const struct buffer *after, const struct buffer *before, size_t length, uint32_t p)
{
    for (size_t i = 0; i < ROOM; i++) {
        const bool inside = i >= GUARD && i < GUARD + length;
        if (inside ? after->places[i] >= p : after->places[i] != before->places[i])
            return false;
    }
    return true;
}

static bool as_listed(char service, const struct call *c)
{
    struct buffer before[BUFFERS], after[BUFFERS];
    memset(before, 0xff, sizeof before);
    for (size_t i = 0; i < c->lengths[INPUT]; i++)
        before[INPUT].places[GUARD + i] = (uint16_t)(i < c->from ? c->p - 1 : c->p);
    memcpy(after, before, sizeof before);
    struct told told = call_service(service, c, after);
    if (told.number != c->number || told.place != c->place)
        return false;
    if (told.number != MOORBESEN_DONE)
        return told.others[0] == 0 && told.others[1] == 0 && told.others[2] == 0 && memcmp(after, before, sizeof before) == 0;
    bool good = memcmp(&after[INPUT], &before[INPUT], sizeof before[INPUT]) == 0;
    for (int i = RESULT; i < (service == 's' || service == 'd' ? U : BUFFERS); i++)
        good = good && written(&after[i], &before[i], c->lengths[i], c->p);
    return good;
}

int main(int argc, char **argv)
{
    FILE *list = argc > 1 ? fopen(argv[1], "r") : NULL;
    char line[200];
    int passed = 0, failed = list == NULL;
    while (list != NULL && fgets(line, sizeof line, list) != NULL) {
        struct call c;
        int fields = sscanf(line, "%7s %" SCNu32 " %zu %zu %zu %zu %zu %zu %zu %zu %zu %zu", c.services, &c.p, &c.n, &c.m, &c.d,
                            &c.lengths[INPUT], &c.lengths[RESULT], &c.lengths[U], &c.lengths[V], &c.from, &c.number, &c.place);
        if (fields < 1 || c.services[0] == '#')
            continue;
        bool read = fields == 12;
        for (const char *service = c.services; *service != 0; service++) {
            if (read && as_listed(*service, &c)) {
                passed++;
            } else {
                failed++;
                printf("%c: not as listed: %s", *service, line);
            }
        }
    }
    printf("%d passed, %d failed\n", passed, failed);
    return failed != 0;
}
