/*
 * Judging and carrying on walks over a plan. docs/MODEL.md explains plans,
 * walks, the seven searches, fault triples and refusals, with examples.
 *
 * Lists
 *
 * Plan:             8 * n bytes for n points, n from 0 to 64: one row for each
 *                   point, eight bytes a row, lowest byte first. A plan is
 *                   two-way or one-way. The functions for one-way plans have
 *                   names that end in _one_way.
 *                   Two-way: bit v of row u (value 2^v) is set when u and v are
 *                   linked. Every link is in both of its rows.
 *                   One-way: bit v of row u is set when u leads to v. Whether v
 *                   leads to u is in row v.
 *                   No point is linked to itself or leads to itself.
 * Walk:             up to n distinct points in the order in which they were
 *                   placed, one byte each, each below n.
 * Preference list:  all n points, each once, one byte each, barred or not.
 *
 * Lengths are in bytes, and each pointer must lead to as many bytes as its
 * length says. No pointer may be NULL, not even that of an empty list: pass any
 * non-null pointer there, nothing is read through it. The output list must not
 * overlap another list of the same call. Apart from that, any values may be
 * passed; anything that is not as described here is refused, with a number.
 *
 * Barred points
 *
 * A point that is out of service is barred. Every function takes the set of the
 * barred points, a 64-bit word, after the plan: bit v (value 2^v) is set when
 * point v is barred. 0 bars none. No bit at or above n may be set. Write
 * (uint64_t)1 << v for a bit; 1 << v is an int, which is too narrow.
 * Barred points and their links count as removed: the answer is the one for the
 * plan without them. The other points keep their numbers. A walk must not name
 * a barred point, and none is ever written or shown. In a preference list the
 * barred points are passed over. n is the number of all points, barred or not.
 *
 * Kind
 *
 * The kind is one byte. C converts a wider value silently: 256 becomes 0, which
 * is Generic (compilers warn about such a constant, and about a variable only
 * with -Wconversion). Check a wider value before the call.
 *
 * Concurrency, stack, target
 *
 * The functions keep no state between calls and have no writable globals. Calls
 * may run at the same time, in threads and in interrupt handlers, as long as
 * none of them is given a list that another one is writing.
 * No recursion, no heap. Stack: 3,544 bytes for judge, 3,656 for carry-on,
 * without the frames of the caller and of memset and memcpy, as measured with
 * the older kit (rattle-kit-5b), and not again since.
 * The archive libfirmware.a is for x86-64 Linux (ELF, System V ABI). It needs
 * memset, and nothing else.
 */
#ifndef VEZHANIP_H
#define VEZHANIP_H

/*
 * The version of this interface. Additions raise the minor number; 1.1.0 adds
 * MCS, kind 6; 1.2.0 adds one-way plans. A change that callers must follow
 * raises the major number; 2.0.0 adds the barred set, a parameter of all four
 * functions. Programs made for 1.x must pass it (0 bars none) and be compiled
 * again. The functions kept their names, so the linker does not notice if this
 * is forgotten.
 */
#define VEZHANIP_VERSION_MAJOR 2
#define VEZHANIP_VERSION_MINOR 0
#define VEZHANIP_VERSION_PATCH 0
#define VEZHANIP_VERSION                                         \
    (VEZHANIP_VERSION_MAJOR * 10000 + VEZHANIP_VERSION_MINOR * 100 \
     + VEZHANIP_VERSION_PATCH)

#include <stddef.h>
#include <stdint.h>

#ifdef __cplusplus
extern "C" {
#endif

/* Kinds of search. */
#define VEZHANIP_GENERIC 0u
#define VEZHANIP_BFS     1u
#define VEZHANIP_DFS     2u
#define VEZHANIP_LEX_BFS 3u
#define VEZHANIP_LEX_DFS 4u
#define VEZHANIP_MNS     5u
#define VEZHANIP_MCS     6u

/* The walk passes, or the carry-on is finished. */
#define VEZHANIP_OK 0u

/* Refusals. A refused call changes no list. */
#define VEZHANIP_BAD_KIND           1u  /* kind above 6 */
#define VEZHANIP_BAD_PLAN_SIZE      2u  /* more than 64 rows, or bytes not a multiple of eight */
#define VEZHANIP_LINK_OUTSIDE       3u  /* a bit at or above n in some row */
#define VEZHANIP_SELF_LINK          4u  /* a point linked to itself */
#define VEZHANIP_ONE_WAY_LINK       5u  /* two-way plans only: a link in one row and not in the other */
#define VEZHANIP_WALK_TOO_LONG      6u  /* walk longer than n, or k above n */
#define VEZHANIP_BAD_PREFERENCE     7u  /* preference list's length is not n */
#define VEZHANIP_POINT_OUTSIDE      8u  /* a point that is n or more */
#define VEZHANIP_POINT_TWICE        9u  /* a point twice in one list */
#define VEZHANIP_OUTPUT_TOO_SHORT  10u  /* output list shorter than n */
#define VEZHANIP_START_FAILS       12u  /* the first k points of the output do not pass */
#define VEZHANIP_BARRED_OUTSIDE    23u  /* a bit at or above n in the barred set */
#define VEZHANIP_POINT_BARRED      24u  /* a barred point in the walk, or among the first k points of the output */

/*
 * A failed walk: VEZHANIP_FAILED + 65536 * a + 256 * b + c, where a, b, c is
 * its first fault triple. In a fault triple a is placed before b, c is placed
 * after b or not placed at all, and a is linked to c and not to b. In MCS c
 * also has more neighbours placed before b than b has. In the other kinds no
 * point d excuses b. An excuse d is linked to b and placed before b, and
 *
 *   Generic  no further condition
 *   BFS      it is placed before a
 *   DFS      it is placed after a
 *   LexBFS   it is placed before a and not linked to c
 *   LexDFS   it is placed after a and not linked to c
 *   MNS      it is not linked to c
 *
 * In a one-way plan "linked to" means "leads to" here: a leads to c and not to
 * b, and an excuse d leads to b and, where the table says so, not to c. The
 * neighbours of a point are the points that lead to it.
 *
 * The first triple has the earliest placed b, then the earliest placed a, then
 * the first c: placed points come first, in the order of the walk, then the
 * unplaced ones, by number. So c may be a point that is not in the walk. It is
 * never a barred point: triples with a barred c do not count.
 */
#define VEZHANIP_FAILED          16777216u
#define VEZHANIP_HAS_FAILED(code) ((code) >= VEZHANIP_FAILED)
#define VEZHANIP_FAULT_A(code)    ((uint8_t)((code) >> 16 & 255u))
#define VEZHANIP_FAULT_B(code)    ((uint8_t)((code) >> 8 & 255u))
#define VEZHANIP_FAULT_C(code)    ((uint8_t)((code) & 255u))

/*
 * Judges a walk over a two-way plan without its barred points. Returns
 * VEZHANIP_OK, a failure, or the first refusal that applies, in the order 1, 2,
 * 3, 4, 5, 23, 6, 8, 9, 24. Reads both lists, writes none.
 */
uint32_t vezhanip_judge(uint8_t kind,
                        const uint8_t *plan, size_t plan_len,
                        uint64_t barred,
                        const uint8_t *walk, size_t walk_len);

/*
 * Judges a walk over a one-way plan: as vezhanip_judge, but without refusal 5.
 * A plan whose links all go both ways gets the same answer from both.
 */
uint32_t vezhanip_judge_one_way(uint8_t kind,
                                const uint8_t *plan, size_t plan_len,
                                uint64_t barred,
                                const uint8_t *walk, size_t walk_len);

/*
 * Carries a walk on over a two-way plan without its barred points until all its
 * other points are placed. The first k bytes of the output are the walk so far.
 * At each step, of the points that the search offers, the one that comes last
 * in the preference list is placed.
 *
 * Returns VEZHANIP_OK, or the first refusal that applies, in the order 1, 2, 3,
 * 4, 5, 23, 6, 10, 7, 8, 9, 24, 12. Reads the plan, the preference list and
 * output[0] to output[k - 1]. On VEZHANIP_OK output[k] to output[m - 1] are
 * written, where m is the number of points that are not barred; the bytes
 * before and after them stay as they were. The output needs n bytes, whatever
 * is barred.
 */
uint32_t vezhanip_carry_on(uint8_t kind,
                           const uint8_t *plan, size_t plan_len,
                           uint64_t barred,
                           const uint8_t *preference, size_t preference_len,
                           uint8_t *output, size_t output_len,
                           size_t k);

/*
 * Carries a walk on over a one-way plan: as vezhanip_carry_on, but without
 * refusal 5. A plan whose links all go both ways gets the same answer and the
 * same output from both.
 */
uint32_t vezhanip_carry_on_one_way(uint8_t kind,
                                   const uint8_t *plan, size_t plan_len,
                                   uint64_t barred,
                                   const uint8_t *preference,
                                   size_t preference_len,
                                   uint8_t *output, size_t output_len,
                                   size_t k);

#ifdef __cplusplus
}
#endif

#endif
