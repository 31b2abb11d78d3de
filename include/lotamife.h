/* Lotamife: maximum-weight matching with a certificate. The C interface of liblotamife.a.
 *
 * Both calls keep nothing between calls and have no global state: they read what they are given, write only the lists and numbers named
 * below, allocate nothing, call nothing outside the archive but the C library's memory functions, and always return.
 * They may be called from several threads at once, as long as no thread writes a list that another call has.
 *
 * Edges stand in three lists of one length m: edge e joins nodes first[e] and second[e] and weighs weight[e]. Nodes are 0 to n-1.
 * Edge e has end 2e (its first node) and end 2e+1 (its second). Groups are n to 2n-1.
 *
 * A pointer is followed by the length of its list, in entries. It points to that many entries, is aligned for them and is not NULL, also
 * where the length is 0. A list that a call writes shares no memory with any other list or number of the call.
 */
#ifndef LOTAMIFE_H
#define LOTAMIFE_H

#include <stdbool.h>
#include <stddef.h>
#include <stdint.h>

#ifdef __cplusplus
extern "C" {
#endif

/* The largest problem that is taken. */
#define LOTAMIFE_MAX_NODES 64
#define LOTAMIFE_MAX_EDGES 2048
#define LOTAMIFE_MAX_WEIGHT 1000000000

/* The entry of mates and parents that names nothing. */
#define LOTAMIFE_MISSING 65535

/* Answers. Refusals (1 to 6) are tried in this order: NODES, EDGES, BUFFER, then edge by edge END, LOOP, WEIGHT. */
enum {
    LOTAMIFE_DONE = 0,   /* plan: the plan is finished, and its certificate passes */
    LOTAMIFE_YES = 0,    /* check: all conditions hold */
    LOTAMIFE_NODES = 1,  /* n is over 64 */
    LOTAMIFE_EDGES = 2,  /* first_len is over 2,048 */
    LOTAMIFE_END = 3,    /* an edge names a node of n or more; place: the edge */
    LOTAMIFE_LOOP = 4,   /* an edge joins a node to itself; place: the edge */
    LOTAMIFE_WEIGHT = 5, /* a weight is beyond 1,000,000,000 either way; place: the edge */
    LOTAMIFE_BUFFER = 6, /* mates, duals or parents is too short, or the three edge lists are of unequal length */
    LOTAMIFE_STEPS = 7,  /* plan: the budget is spent and the run has not ended */
    LOTAMIFE_FAULT = 8,  /* plan: the search met something that should not be */
    /* check: NO, and the first condition that fails */
    LOTAMIFE_NO_MATE = 11,
    LOTAMIFE_NO_PARENT = 12,
    LOTAMIFE_NO_DUAL = 13,
    LOTAMIFE_NO_EDGE = 14,
    LOTAMIFE_NO_TIGHT = 15,
    LOTAMIFE_NO_FREE = 16,
    LOTAMIFE_NO_FULL = 17
};

/* Finds a matching of the largest weight; with max_cardinality, it goes for as many pairs as possible and then for weight.
 * DONE carries the proof that no matching (with max_cardinality: none of as many pairs or more) weighs more. That none has more pairs
 * is not proved.

 *
 * Answers DONE, 1 to 6, STEPS or FAULT.
 * mates   at least n entries: the mate of a node is the end at its partner, or LOTAMIFE_MISSING
 * duals   at least 2n entries: of nodes, then of groups
 * parents at least 2n entries: the group directly around a node or group, or LOTAMIFE_MISSING
 * The three are written over their whole length, whatever the answer and whatever they held: cleared (LOTAMIFE_MISSING, 0,
 * LOTAMIFE_MISSING), and then, only on DONE, the first n, 2n and 2n entries filled.
 * *place is always written: the edge for END, LOOP and WEIGHT, else 0.
 * *steps is always written: the steps completed; 0 for 1 to 6, the budget for STEPS.
 * A budget of 8*n*(n+1) is what a site file has that names none. */
uint32_t lotamife_plan(size_t n,
    const uint16_t *first, size_t first_len,
    const uint16_t *second, size_t second_len,
    const int64_t *weight, size_t weight_len,
    bool max_cardinality, uint32_t budget,
    uint16_t *mates, size_t mates_len,
    int64_t *duals, size_t duals_len,
    uint16_t *parents, size_t parents_len,
    uint32_t *place, uint32_t *steps);

/* Judges a certificate, whoever made it. Answers YES, 1 to 6, or NO with the first failing condition (11 to 17).
 *
 * Reads the first n, 2n and 2n entries of mates, duals and parents and writes nothing but *place, which is always written:
 * the edge for END, LOOP and WEIGHT, else 0. */
uint32_t lotamife_check(size_t n,
    const uint16_t *first, size_t first_len,
    const uint16_t *second, size_t second_len,
    const int64_t *weight, size_t weight_len,
    bool max_cardinality,
    const uint16_t *mates, size_t mates_len,
    const int64_t *duals, size_t duals_len,
    const uint16_t *parents, size_t parents_len,
    uint32_t *place);

#ifdef __cplusplus
}
#endif

#endif
