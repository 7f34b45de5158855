/* The pod table check, for firmware in C. Link with crates/pod_c/out/libpod_c.a (rt lib in crates/pod_c), or on a Cortex-M4
 * with target/firmware/libpod_c.a (firmware/build).
 *
 * Every call is answered: there is no precondition beyond what C itself asks, that each pointer is good for its length
 * and that the lent buffers do not overlap. A buffer of length 0 may come with any pointer that isn't null. */
#ifndef POD_H
#define POD_H

#include <stdint.h>

#ifdef __cplusplus
extern "C" {
#endif

/* A length or the number of a state: 64 bits on every processor, as in the proofs. size_t may have only 32. */
typedef uint64_t pod_size;

/* The fields of an answer, in the order in which they stand in `answer`. */
enum pod_field {
    POD_NUMBER,  /* 0, or the number of the refusal */
    POD_TABLE,   /* the table refused, 1 or 2 */
    POD_NEEDED,  /* after 20 to 22 and 27 the length that the buffer must have */
    POD_ROUNDS,  /* the largest rank */
    POD_KEPT,    /* how many pairs are kept */
    POD_VERDICT, /* 1 if the second table strongly simulates the first from the start states */
    POD_RANK,    /* the rank of the pair (s, t) */
    POD_WRITTEN, /* bytes written to flow (rank 0), to tree, or to out */
    POD_FIELDS
};

/* Checks the table `first` against `second` and shows the pair (s, t). An accepted table has at most 4,487 bytes.
 * An entry of weight 0 counts in the length that `flow` must have, and nowhere else.
 * A code that `first` lists and `second` does not is answered by every state of `second` with a step to itself, which
 * has the place 255 in a flow.
 * ranks: at least states x states numbers. flow, tree: see the refusals 21 and 22.
 * answer: at least POD_FIELDS numbers; a shorter one gets nothing, and then nothing else is touched. */
void pod_check(const uint8_t *first, pod_size first_len,
               const uint8_t *second, pod_size second_len,
               pod_size s, pod_size t,
               uint16_t *ranks, pod_size ranks_len,
               uint8_t *flow, pod_size flow_len,
               uint8_t *tree, pod_size tree_len,
               uint32_t *answer, pod_size answer_len);

/* Checks one table by itself: number and table (1) of its refusal, or all zeros. */
void pod_check_table(const uint8_t *table, pod_size len, uint32_t *answer, pod_size answer_len);

/* Widens a table of the old layout, in which a code and the count of codes have 1 byte: writes the same table with 2
 * bytes for each of them to the start of `out`. A check of it gives the ranks of the old table.
 * old: what is no old table is refused with 1 to 10 and table 1. An accepted one has at most 2,437 bytes.
 * out: one that is shorter than the wide table gives 27; 2,949 bytes are always enough. Nothing beyond the wide table
 * is touched, and after a refusal nothing at all.
 * answer: as for pod_check. */
void pod_widen(const uint8_t *old, pod_size old_len, uint8_t *out, pod_size out_len,
               uint32_t *answer, pod_size answer_len);

#ifdef __cplusplus
}
#endif

#endif
