/* towers.h: three-peg tower boards (Tower of Hanoi) of 0 to 60 discs.
 *
 * Link with libtowers.a. Its target is x86-64-v2 with the System V calling convention (Linux, ELF), and no other. Each function is proved
 * to answer exactly what is said here, on every input.
 *
 * Discs are numbered 1 to n, disc 1 the smallest. Pegs are 0, 1 and 2, as letters 'A', 'B' and 'C'. A position is n bytes: byte
 * d - 1 holds the peg of disc d. A task is 2n bytes: the start's n bytes, then the goal's n bytes. It is one buffer, and what is looked at
 * is its length: a start of 3 bytes and a goal of 1 are 4 bytes, a task of two discs, and no fault. Where the two come from different
 * places, compare their lengths before you join them.
 *
 * A call answers one number. A refused call answers TOWER_REFUSED(k), that is 2^64 - k, where k is the first fault in the order that
 * the function states; it then writes nothing. A call with no fault is never refused, and its answer is below 2^60.
 *
 * The functions read the bytes that they are given and write nowhere but to `out`. They never allocate, block, or keep a pointer, and
 * they have no state: any number of threads may call them. A pointer may be null where its length is 0. `out` must not overlap
 * what is read.
 */
#ifndef TOWERS_H
#define TOWERS_H

#include <stddef.h>
#include <stdint.h>

#ifdef __cplusplus
extern "C" {
#endif

/* The version of this header and of the library that comes with it, as towers.pc has it. The first number rises where your code must
 * change, the second with a new function, the third otherwise. */
#define TOWER_VERSION "1.0.0"

/* The most discs of a position. */
#define TOWER_LIMIT 60

/* The answer of a call that is refused with number k. */
#define TOWER_REFUSED(k) (UINT64_MAX - (uint64_t)(k) + 1)

/* The refusals. */
#define TOWER_ODD_LENGTH TOWER_REFUSED(1)       /* the task has an odd number of bytes */
#define TOWER_TOO_MANY_DISCS TOWER_REFUSED(2)   /* more than TOWER_LIMIT discs */
#define TOWER_NOT_A_PEG TOWER_REFUSED(3)        /* a byte, or the peg, above 2 */
#define TOWER_NO_SUCH_ROUTE TOWER_REFUSED(4)    /* the route number is not below the count of shortest routes */
#define TOWER_NO_SUCH_INDEX TOWER_REFUSED(5)    /* the index is above the length */
#define TOWER_SHORT_BUFFER TOWER_REFUSED(6)     /* moves remain and `out` has fewer than 2 bytes; or fewer entries than tasks */
#define TOWER_NOT_WHOLE_TASKS TOWER_REFUSED(13) /* the length of the tasks is not a multiple of 2n; with n = 0, not 0 */

/* Whether an answer, or an entry of tower_batch, is a refusal; TOWER_NUMBER is then its number, one of those above. (The library has more
 * numbers, up to 20, which no function here answers.) */
#define TOWER_IS_REFUSED(answer) ((uint64_t)(answer) >= TOWER_REFUSED(20))
#define TOWER_NUMBER(answer) ((unsigned)(0 - (uint64_t)(answer)))

/* The fewest moves that lead from the task's start to its goal.
 * Refuses with TOWER_ODD_LENGTH, TOWER_TOO_MANY_DISCS, TOWER_NOT_A_PEG, in this order: the task faults. */
uint64_t tower_shortest(const uint8_t *task, size_t task_len);

/* How many lists of moves do it in so many: 1 or 2. Where there are two, route 0 is the direct one, route 1 the
 * detour, which takes the largest moving disc by way of the third peg.
 * Refuses with the task faults. */
uint64_t tower_routes(const uint8_t *task, size_t task_len);

/* The fewest moves that stack all discs of a position on one peg.
 * Refuses with TOWER_TOO_MANY_DISCS, then TOWER_NOT_A_PEG for a byte of the position or for the peg. */
uint64_t tower_gather(const uint8_t *position, size_t position_len, uint8_t peg);

/* Writes the moves of a shortest route, from index `first` on, as two letters each, from and then to: as many moves as remain, or as
 * fit into `out`, whichever is fewer. Answers how many. Bytes of `out` after the last move stay as they were.
 * Index 0 is the first move, and `first` may be the length, where no move remains.
 * Refuses with the task faults, then TOWER_NO_SUCH_ROUTE, TOWER_NO_SUCH_INDEX, TOWER_SHORT_BUFFER. */
uint64_t tower_run(const uint8_t *task, size_t task_len, uint64_t route, uint64_t first, uint8_t *out, size_t out_len);

/* Plans many tasks of n discs in one call. `tasks` holds them end to end, 2n bytes each; entry i of `out` becomes what tower_shortest
 * answers for bytes 2ni to 2n(i + 1) - 1: the fewest moves, or TOWER_NOT_A_PEG where one of these bytes is above 2, which changes no
 * other entry. Answers how many tasks there are. Entries of `out` after theirs stay as they were. `out_len` counts entries, not bytes.
 * Refuses with TOWER_TOO_MANY_DISCS, TOWER_NOT_WHOLE_TASKS where `tasks_len` is not a multiple of 2n (with n = 0, not 0),
 * TOWER_SHORT_BUFFER where `out_len` is below the number of tasks, in this order. With n = 0 there are no tasks. */
uint64_t tower_batch(uint64_t n, const uint8_t *tasks, size_t tasks_len, uint64_t *out, size_t out_len);

#ifdef __cplusplus
}
#endif

#endif
