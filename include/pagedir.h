/* The page directory: the public calls of the static library.
 *
 * Each function but pd_audit, which has no refusal, returns the number of its refusal, 0 for none, and a refusal leaves
 * every lent word as it was, the answer words too. PD_NONE stands where an answer has no value.
 *
 * A lent stretch is live for the whole call, aligned as its type asks, initialised throughout (to any values: a call
 * may read every word that it is lent), and apart from every other stretch of the same call.
 */
#ifndef PAGEDIR_H
#define PAGEDIR_H

#include <stddef.h>
#include <stdint.h>

#ifdef __cplusplus
extern "C" {
#endif

/* No page and no slot. */
#define PD_NONE UINT32_C(4294967295)

/* The length in words that pd_form asks for these settings: refusals 1, 2, 3. */
uint32_t pd_words(uint32_t policy, uint32_t capacity, uint32_t first, uint32_t second, uint32_t answer[1]);

/* Writes a fresh directory over the n words: refusals 1, 2, 3, 4. */
uint32_t pd_form(uint32_t policy, uint32_t capacity, uint32_t first, uint32_t second, uint32_t *words, size_t n);

/* 1 if the n words are a sound directory, else 0: no refusal. */
uint32_t pd_audit(const uint32_t *words, size_t n);

/* Asks for a page, 1 hit, 2 loaded or 3 swapped, its slot, the page put out or PD_NONE, and the marks cleared: refusals 5, 6. */
uint32_t pd_request(uint32_t *words, size_t n, uint32_t page, uint32_t answer[4]);

/* Where a page is, 0 absent, 1 held or 2 remembered, and its slot or PD_NONE: refusals 5, 6. */
uint32_t pd_look(const uint32_t *words, size_t n, uint32_t page, uint32_t answer[2]);

/* Writes a list's pages, front first, to the result, and how many to the answer: refusals 5, 9, 8. */
uint32_t pd_report(const uint32_t *words, size_t n, uint32_t list, uint32_t *result, size_t rn, uint32_t answer[1]);

/* Asks for the pages of a trace in turn, hits, loads and swaps to the answer: refusals 5, 7, 6. */
uint32_t pd_replay(uint32_t *words, size_t n, const uint32_t *trace, size_t tn, uint32_t answer[3]);

/* Writes the LRU hits at each capacity from 1 to the largest, and the LRU list at the largest: refusals 2, 7, 6, 8. */
uint32_t pd_curve(uint32_t largest, const uint32_t *trace, size_t tn, uint32_t *result, size_t rn, uint32_t *work,
                  size_t wn);

/* Reads a trace text, policy, capacity, first, second and count to the answer: the refusal 7, 8 or 10 is the low half, its line the high half. */
uint64_t pd_read(const uint8_t *text, size_t n, uint32_t *trace, size_t tn, uint32_t answer[5]);

/* Writes a trace text, and its length in bytes to the answer: refusals 7, 8. */
uint32_t pd_write(uint32_t policy, uint32_t capacity, uint32_t first, uint32_t second, const uint32_t *trace, size_t tn,
                  uint8_t *text, size_t n, uint32_t answer[1]);

#ifdef __cplusplus
}
#endif

#endif
