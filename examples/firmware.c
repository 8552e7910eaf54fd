/*
 * Judges a walk over plan P by all kinds, and carries a walk on over plan C, a ring of four points. docs/MODEL.md has both.
 * Then both calls on V, a one-way plan: 0 leads to 1, 2 and 3, 1 leads to 3, and 2 leads to 0 and 1. The same bytes are
 * refused as a two-way plan. At the end both calls with a point of C or V out of service.
 */
#include <stdio.h>

#include "vezhanip.h"

enum { POINTS = 4, PLAN_BYTES = 8 * POINTS, UNWRITTEN = 255 };

static const uint64_t none_barred = 0;

static const char *const kind_names[] = {"Generic", "BFS", "DFS", "LexBFS", "LexDFS", "MNS", "MCS"};

/* The set that bars point v alone. */
static uint64_t bar(unsigned v)
{
    return (uint64_t)1 << v;
}

/* How many of the points are not barred. */
static size_t count_unbarred(uint64_t barred)
{
    size_t count = 0;

    for (unsigned v = 0; v < POINTS; v++) {
        count += (barred >> v & 1u) == 0;
    }
    return count;
}

/* Puts into row u that u leads to v; nothing into row v. */
static void set_one_way(uint8_t *plan, unsigned u, unsigned v)
{
    plan[8 * u + v / 8] |= (uint8_t)(1u << v % 8);
}

/* Puts the link between u and v into both rows. */
static void set_link(uint8_t *plan, unsigned u, unsigned v)
{
    set_one_way(plan, u, v);
    set_one_way(plan, v, u);
}

static void print_points(const uint8_t *points, size_t count)
{
    for (size_t i = 0; i < count; i++) {
        printf(" %u", (unsigned)points[i]);
    }
}

static void print_judgement(const char *plan, uint8_t kind, const uint8_t *walk, size_t walk_len, uint32_t code)
{
    printf("%s, walk", plan);
    print_points(walk, walk_len);
    if (code == VEZHANIP_OK) {
        printf(": %s passes\n", kind_names[kind]);
    } else if (VEZHANIP_HAS_FAILED(code)) {
        printf(": %s fails with %u, %u, %u\n", kind_names[kind],
               (unsigned)VEZHANIP_FAULT_A(code),
               (unsigned)VEZHANIP_FAULT_B(code),
               (unsigned)VEZHANIP_FAULT_C(code));
    } else {
        printf(": %s is refused with %u\n", kind_names[kind], (unsigned)code);
    }
}

/* Of the output, the points that are not barred are written, and the bytes after them stay. */
static void print_carried_on(const char *plan, uint8_t kind, uint64_t barred, const uint8_t *preference,
                             const uint8_t *output, uint32_t code)
{
    size_t written = count_unbarred(barred);

    printf("%s, preference list", plan);
    print_points(preference, POINTS);
    if (code == VEZHANIP_OK) {
        printf(": %s gives", kind_names[kind]);
        print_points(output, written);
        if (written < POINTS) {
            printf(", then still");
            print_points(output + written, POINTS - written);
        }
        printf("\n");
    } else {
        printf(": %s is refused with %u\n", kind_names[kind], (unsigned)code);
    }
}

static void judge(const char *name, uint8_t kind, const uint8_t *plan, uint64_t barred,
                  const uint8_t *walk, size_t walk_len)
{
    uint32_t code = vezhanip_judge(kind, plan, PLAN_BYTES, barred, walk, walk_len);

    print_judgement(name, kind, walk, walk_len, code);
}

static void judge_one_way(const char *name, uint8_t kind, const uint8_t *plan, uint64_t barred,
                          const uint8_t *walk, size_t walk_len)
{
    uint32_t code = vezhanip_judge_one_way(kind, plan, PLAN_BYTES, barred, walk, walk_len);

    print_judgement(name, kind, walk, walk_len, code);
}

static void carry_on(const char *name, uint8_t kind, const uint8_t *plan, uint64_t barred, const uint8_t *preference)
{
    uint8_t output[POINTS] = {UNWRITTEN, UNWRITTEN, UNWRITTEN, UNWRITTEN};
    uint32_t code = vezhanip_carry_on(kind, plan, PLAN_BYTES, barred, preference, POINTS,
                                      output, sizeof output, 0);

    print_carried_on(name, kind, barred, preference, output, code);
}

static void carry_on_one_way(const char *name, uint8_t kind, const uint8_t *plan, uint64_t barred,
                             const uint8_t *preference)
{
    uint8_t output[POINTS] = {UNWRITTEN, UNWRITTEN, UNWRITTEN, UNWRITTEN};
    uint32_t code = vezhanip_carry_on_one_way(kind, plan, PLAN_BYTES, barred, preference, POINTS,
                                              output, sizeof output, 0);

    print_carried_on(name, kind, barred, preference, output, code);
}

int main(void)
{
    static const uint8_t walk[POINTS] = {0, 1, 2, 3};
    static const uint8_t opposite[] = {0, 2};
    static const uint8_t preference[POINTS] = {3, 2, 1, 0};
    uint8_t p[PLAN_BYTES] = {0};
    uint8_t c[PLAN_BYTES] = {0};
    uint8_t v[PLAN_BYTES] = {0};

    set_link(p, 0, 1);
    set_link(p, 0, 2);
    set_link(p, 1, 3);
    for (uint8_t kind = VEZHANIP_GENERIC; kind <= VEZHANIP_MCS; kind++) {
        judge("P", kind, p, none_barred, walk, POINTS);
    }

    set_link(c, 0, 1);
    set_link(c, 1, 2);
    set_link(c, 2, 3);
    set_link(c, 0, 3);
    carry_on("C", VEZHANIP_BFS, c, none_barred, preference);
    carry_on("C", VEZHANIP_DFS, c, none_barred, preference);

    set_one_way(v, 0, 1);
    set_one_way(v, 0, 2);
    set_one_way(v, 0, 3);
    set_one_way(v, 1, 3);
    set_one_way(v, 2, 0);
    set_one_way(v, 2, 1);
    for (uint8_t kind = VEZHANIP_GENERIC; kind <= VEZHANIP_MCS; kind++) {
        judge_one_way("V", kind, v, none_barred, walk, POINTS);
    }
    carry_on_one_way("V", VEZHANIP_BFS, v, none_barred, preference);
    carry_on_one_way("V", VEZHANIP_MCS, v, none_barred, preference);
    judge("V as a two-way plan", VEZHANIP_MCS, v, none_barred, walk, POINTS);
    carry_on("V as a two-way plan", VEZHANIP_MCS, v, none_barred, preference);

    /* The first three points of the walk, with point 3 in service and without it. */
    judge("C", VEZHANIP_BFS, c, none_barred, walk, 3);
    judge("C without 3", VEZHANIP_BFS, c, bar(3), walk, 3);
    judge_one_way("V without 3", VEZHANIP_MCS, v, bar(3), walk, 3);
    /* The triple shows a point that is in service. */
    judge("C", VEZHANIP_BFS, c, none_barred, opposite, sizeof opposite);
    judge("C without 1", VEZHANIP_BFS, c, bar(1), opposite, sizeof opposite);
    carry_on("C without 1", VEZHANIP_BFS, c, bar(1), preference);
    carry_on_one_way("V without 1", VEZHANIP_MCS, v, bar(1), preference);
    /* A walk that names a barred point, and a barred point that the plan does not have. */
    judge("C without 3", VEZHANIP_BFS, c, bar(3), walk, POINTS);
    judge("C without 4", VEZHANIP_BFS, c, bar(4), walk, POINTS);
    return 0;
}
