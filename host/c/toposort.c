/* Document 01's cases P1 to P4 and a refusal of each number, through include/mizhakkon.h. Valid as C99 and as C++. */
#include <stdio.h>
#include <string.h>

#include "mizhakkon.h"

#define EMPTY 0xAA /* lies in the lent bytes, and past them, before a call */
#define ROOM 16

struct wanted {
    uint16_t number;
    uint32_t address;
    uint16_t count;
    uint16_t nodes[3];
};

static int compared, differ;

static void expect(const char *name, const char *what, long right, long given)
{
    if (right != given) {
        printf("%s: %s is %ld, %ld is right\n", name, what, given, right);
        differ++;
    }
}

/* The byte that belongs at place i of the memory for the nodes. */
static uint8_t right_byte(const struct wanted *w, size_t lent, size_t i)
{
    if (i >= lent)
        return EMPTY;
    if (i / 2 >= w->count)
        return 0;
    return (uint8_t)(w->nodes[i / 2] >> (i % 2 * 8));
}

static void run(const char *name, uint32_t nodes, const uint8_t *edges, size_t edges_len, size_t lent, struct wanted w)
{
    uint8_t out[ROOM], counts[4];
    uint64_t answer;
    size_t i;

    memset(out, EMPTY, sizeof out);
    memset(counts, EMPTY, sizeof counts);
    answer = toposort(nodes, edges, edges_len, out, lent, counts, 3);
    compared++;
    expect(name, "the number", w.number, mizhakkon_number(answer));
    expect(name, "the section", 0, mizhakkon_section(answer));
    expect(name, "the address", (long)w.address, (long)mizhakkon_address(answer));
    if ((answer == MIZHAKKON_ACCEPTED) != (w.number == 0))
        expect(name, "accepted", w.number == 0, answer == MIZHAKKON_ACCEPTED);
    for (i = 0; i < ROOM; i++)
        expect(name, "a byte of the nodes", right_byte(&w, lent, i), out[i]);
    expect(name, "the count", w.count, counts[0] + 256 * counts[1]);
    expect(name, "the byte after the count", 0, counts[2]);
    expect(name, "the byte past the lent counts", EMPTY, counts[3]);
}

static const uint8_t joined[] = {0, 0, 2, 0, 1, 0, 2, 0};             /* 0>2 1>2 */
static const uint8_t ring[] = {0, 0, 1, 0, 1, 0, 2, 0, 2, 0, 1, 0};   /* 0>1 1>2 2>1 */
static const uint8_t to_none[] = {0, 0, 2, 0};                        /* 0>2 */
static const uint8_t from_none[] = {0, 0, 1, 0, 2, 0, 0, 0};          /* 0>1 2>0 */
static const uint8_t many[4 * (MIZHAKKON_MAX_EDGES + 1)] = {0};       /* 0>0 throughout */

static const struct wanted nothing = {0, 0, 0, {0, 0, 0}};
static const struct wanted order = {0, 0, 3, {1, 0, 2}};
static const struct wanted cycle = {MIZHAKKON_CYCLE, 0, 2, {1, 2, 0}};
static const struct wanted self = {MIZHAKKON_CYCLE, 0, 1, {0, 0, 0}};
static const struct wanted bad_first = {MIZHAKKON_NO_NODE, 0, 0, {0, 0, 0}};
static const struct wanted bad_second = {MIZHAKKON_NO_NODE, 1, 0, {0, 0, 0}};
static const struct wanted cut = {MIZHAKKON_CUT, 1, 0, {0, 0, 0}};
static const struct wanted too_many_nodes = {MIZHAKKON_TOO_MANY, MIZHAKKON_MAX_NODES, 0, {0, 0, 0}};
static const struct wanted too_many_edges = {MIZHAKKON_TOO_MANY, MIZHAKKON_MAX_EDGES, 0, {0, 0, 0}};
static const struct wanted no_room = {MIZHAKKON_NO_ROOM, 0, 0, {0, 0, 0}};

int main(void)
{
    run("P1", 0, joined, 0, 0, nothing);
    run("P2", 3, joined, sizeof joined, 6, order);
    run("P2, longer output", 3, joined, sizeof joined, 11, order);
    run("P3", 3, ring, sizeof ring, 6, cycle);
    run("P3, longer output", 3, ring, sizeof ring, 10, cycle);
    run("P4", 2, to_none, sizeof to_none, 4, bad_first);
    run("1", 3, joined, 7, 6, cut);
    run("2, nodes", MIZHAKKON_MAX_NODES + 1, joined, 7, 6, too_many_nodes);
    run("2, edges", 1, many, sizeof many, 2, too_many_edges);
    run("2,048 edges", 1, many, sizeof many - 4, 2, self);
    run("62, from", 2, from_none, sizeof from_none, 4, bad_second);
    run("76", 3, joined, sizeof joined, 5, no_room);
    run("76 before 61", 3, ring, sizeof ring, 5, no_room);
    printf("toposort.c: %d compared, %d differ\n", compared, differ);
    return differ != 0;
}
