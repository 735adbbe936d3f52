/* Hinz's rules in plain C, written apart from the library, to test it and to measure it by. Answers are those of towers.h, or as said
 * below; refusal k of document 01 is 2^64 - k. */
#ifndef HINZ_H
#define HINZ_H

#include <stddef.h>
#include <stdint.h>

uint64_t hinz_shortest(const uint8_t *task, size_t len);
uint64_t hinz_routes(const uint8_t *task, size_t len);
uint64_t hinz_gather(const uint8_t *position, size_t n, uint8_t peg);
/* Run in two ways: by counting, and with the topmost disc of each peg and the disc beneath each disc. */
uint64_t hinz_run(const uint8_t *task, size_t len, uint64_t route, uint64_t first, uint8_t *out, size_t out_len);
uint64_t hinz_run_stacks(const uint8_t *task, size_t len, uint64_t route, uint64_t first, uint8_t *out, size_t out_len);
/* The shortest lengths of many tasks of n discs. */
uint64_t hinz_batch(uint64_t n, const uint8_t *tasks, size_t tasks_len, uint64_t *out, size_t out_len);
/* Move: disc, from and to, as the three bytes of a number. */
uint64_t hinz_move(const uint8_t *task, size_t len, uint64_t route, uint64_t index);
/* Place: 1, with the position in out. */
uint64_t hinz_place(const uint8_t *task, size_t len, uint64_t route, uint64_t index, uint8_t *out, size_t out_len);
/* Locate: the index of a position that is on route 0, else 0. */
uint64_t hinz_locate(const uint8_t *task, size_t len, const uint8_t *position, size_t position_len);
/* The checker: which of the routes letter pairs are. */
uint64_t hinz_check(const uint8_t *task, size_t len, const uint8_t *letters, size_t letters_len);

#endif
