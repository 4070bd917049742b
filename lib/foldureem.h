/* foldureem: judges a proposal for a case of the balancing market. Link with libfoldureem.a; nothing else is needed but the C library.
 *
 * Written by hand: keep it in step with crates/foldureem_c/src/lib.rt and crates/foldureem/src/told.rt, which nothing compares with it.
 *
 * Both calls are stateless and may run in several threads at once. A buffer of length 0 may be NULL, no other pointer may.
 * `out` and `verdict` overlap no other buffer. Not to be called from a signal handler, nor in the child after a fork of a
 * process with threads. */
#ifndef FOLDUREEM_H
#define FOLDUREEM_H

#include <stddef.h>
#include <stdint.h>

#ifdef __cplusplus
extern "C" {
#endif

/* No listing is longer. */
#define FOLDUREEM_LISTING 65536

/* The number of a verdict where there was no memory: the proposal was not judged. */
#define FOLDUREEM_NO_MEMORY UINT32_MAX

/* The question that got a no, as docs/REFUSALS.md numbers them; number, layer and place are 0 where the proposal is taken. */
typedef struct {
    uint32_t number;
    uint32_t layer;
    uint64_t place;
    uint64_t length; /* how many bytes of the listing were written to `out` */
} foldureem_verdict;

/* Loads the case, submits the proposal, and writes the listing to `out` where the proposal is taken; then no
 * selection within the limits is better. The scale is that of netting where word 7 of the proposal is 1, else that of activation.
 * Where `out` is too short for the listing, the verdict is 20 5 and the bytes needed. Where the number is not 0, `out` keeps its bytes. */
void foldureem_verify(const uint8_t *case_bytes, size_t case_length, const uint8_t *proposal_bytes, size_t proposal_length,
                      uint8_t *out, size_t out_length, foldureem_verdict *verdict);

/* How many of many proposals are taken. `files` holds a case, its proposal, the next case, its proposal and so on, one behind
 * the other; `ends` says where each of these files ends in it. Memory is asked for once, whatever the number of
 * pairs. SIZE_MAX where there was no memory. */
size_t foldureem_count(const uint8_t *files, size_t files_length, const size_t *ends, size_t ends_length);

#ifdef __cplusplus
}
#endif

#endif
