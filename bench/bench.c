/* Measures the library beside tests/hinz.c in one run: the same inputs, alternating rounds, medians. Runs are measured beside both of
 * that file's: the one with the topmost disc of each peg and the disc beneath each disc, as the library's, and the one by counting.
 * Batches are measured beside as many of the library's own single calls too.
 * Move, Place, Locate, the checker, the letters of Parts and the plays of a session, which are no C calls, come from crates/pace. Letters
 * are measured beside a memset of as many bytes, plays beside what each cannot do without: three fewests, of tests/hinz.c. */
#include <inttypes.h>
#include <stdio.h>
#include <stdlib.h>
#include <string.h>
#include <time.h>

#include "hinz.h"
#include "random.h"
#include "towers.h"

enum { ROUNDS = 101, TASKS = 4096, RUN_BYTES = 8 << 20, PARTS_CALLS = 16, PLAYS = 4096, CHECKED = 1 << 20 };

typedef uint64_t shortest_fn(const uint8_t *task, size_t len);
typedef uint64_t run_fn(const uint8_t *task, size_t len, uint64_t route, uint64_t first, uint8_t *out, size_t out_len);
typedef uint64_t batch_fn(uint64_t n, const uint8_t *tasks, size_t tasks_len, uint64_t *out, size_t out_len);
typedef uint64_t plays_fn(const uint8_t *task, size_t len, const uint8_t *plays, size_t plays_len);
typedef uint64_t check_fn(const uint8_t *task, size_t len, const uint8_t *letters, size_t letters_len);
typedef uint64_t call_fn(size_t i);

/* crates/pace: disc, from and to of a move, as the three bytes of a number; 1 for a place; the index of a position that is on route 0.
 * Each is 0 where the call refuses. */
uint64_t pace_move(const uint8_t *task, size_t len, uint64_t route, uint64_t index);
uint64_t pace_place(const uint8_t *task, size_t len, uint64_t route, uint64_t index, uint8_t *out, size_t out_len);
uint64_t pace_locate(const uint8_t *task, size_t len, const uint8_t *position, size_t position_len);

/* crates/pace: the number of the route that letter pairs are, or refusal k as 2^64 - k. */
uint64_t pace_check(const uint8_t *task, size_t len, const uint8_t *letters, size_t letters_len);

/* crates/pace: how many letters Parts wrote, or 0 where it refuses. */
uint64_t pace_parts(const uint8_t *task, size_t len, uint64_t route, uint64_t first, uint8_t *out, size_t out_len);

/* crates/pace: how many plays, each a from and a to, are accepted on a task. */
uint64_t pace_plays(const uint8_t *task, size_t len, const uint8_t *plays, size_t plays_len);

static double seconds(void)
{
    struct timespec t;
    clock_gettime(CLOCK_MONOTONIC, &t);
    return (double)t.tv_sec + (double)t.tv_nsec * 1e-9;
}

static int by_size(const void *a, const void *b)
{
    double x = *(const double *)a, y = *(const double *)b;
    return (x > y) - (x < y);
}

static double median(double *values)
{
    qsort(values, ROUNDS, sizeof *values, by_size);
    return values[ROUNDS / 2];
}

static uint8_t tasks[TASKS][2 * TOWER_LIMIT];
static uint64_t sink;

static void make_tasks(size_t n)
{
    for (size_t i = 0; i < TASKS; i++)
        for (size_t d = 0; d < 2 * n; d++)
            tasks[i][d] = (uint8_t)(any() % 3);
}

/* Nanoseconds a call, over all tasks. */
static double time_shortest(shortest_fn *f, size_t n)
{
    double begun = seconds();
    for (size_t i = 0; i < TASKS; i++)
        sink += f(tasks[i], 2 * n);
    return (seconds() - begun) * 1e9 / TASKS;
}

/* Of a time less is better, of a rate more. */
enum kind { TIME, RATE };

/* A line of the table: both medians, and how many times as fast the library is. */
static void row(const char *label, double *ours, double *theirs, enum kind kind, const char *unit)
{
    double a = median(ours), b = median(theirs);
    printf("%-28s %9.1f %9.1f %7.2f  %s\n", label, a, b, kind == TIME ? b / a : a / b, unit);
}

/* The heads of the columns. */
static void heading(const char *beside)
{
    printf("%-28s %9s %9s %7s\n", "", "library", beside, "ratio");
}

static void bench_shortest(size_t n)
{
    char label[64];
    double ours[ROUNDS], theirs[ROUNDS];
    make_tasks(n);
    for (int r = 0; r < ROUNDS; r++) {
        ours[r] = time_shortest(tower_shortest, n);
        theirs[r] = time_shortest(hinz_shortest, n);
    }
    snprintf(label, sizeof label, "shortest, %zu discs", n);
    row(label, ours, theirs, TIME, "ns a call");
}

/* The same tasks end to end, for one call of a batch. */
static uint8_t week[TASKS * 2 * TOWER_LIMIT];

static uint64_t by_calls(uint64_t n, const uint8_t *all, size_t all_len, uint64_t *out, size_t out_len)
{
    size_t size = 2 * (size_t)n;
    for (size_t i = 0; i < out_len; i++)
        out[i] = tower_shortest(all + i * size, size);
    return all_len / size;
}

/* Nanoseconds a task. */
static double time_batch(batch_fn *f, size_t n, uint64_t *out)
{
    double begun = seconds();
    uint64_t count = f(n, week, TASKS * 2 * n, out, TASKS);
    double taken = seconds() - begun;
    if (count != TASKS) {
        fprintf(stderr, "bench: a batch was refused\n");
        exit(1);
    }
    return taken * 1e9 / TASKS;
}

static void bench_batch(const char *label, size_t n, batch_fn *other)
{
    static uint64_t lengths[TASKS], other_lengths[TASKS];
    double ours[ROUNDS], theirs[ROUNDS];
    make_tasks(n);
    for (size_t i = 0; i < TASKS; i++)
        memcpy(week + i * 2 * n, tasks[i], 2 * n);
    for (int r = 0; r < ROUNDS; r++) {
        ours[r] = time_batch(tower_batch, n, lengths);
        theirs[r] = time_batch(other, n, other_lengths);
    }
    if (memcmp(lengths, other_lengths, sizeof lengths) != 0) {
        fprintf(stderr, "bench: %s: the entries differ\n", label);
        exit(1);
    }
    row(label, ours, theirs, TIME, "ns a task");
}

/* Million moves a second, filling a buffer from random indexes of random tasks of 60 discs. */
static double time_run(run_fn *f, const uint64_t *first, uint8_t *out, size_t bytes)
{
    uint64_t moves = 0;
    double begun = seconds();
    for (size_t i = 0; i < RUN_BYTES / bytes; i++)
        moves += f(tasks[i], 2 * TOWER_LIMIT, 0, first[i], out, bytes);
    double taken = seconds() - begun;
    sink += moves;
    return (double)moves / taken * 1e-6;
}

static void bench_run(const char *label, size_t bytes, uint8_t *out, run_fn *other)
{
    static uint64_t first[TASKS];
    double ours[ROUNDS], theirs[ROUNDS];
    make_tasks(TOWER_LIMIT);
    for (size_t i = 0; i < TASKS; i++)
        first[i] = any() % hinz_shortest(tasks[i], 2 * TOWER_LIMIT);
    for (int r = 0; r < ROUNDS; r++) {
        ours[r] = time_run(tower_run, first, out, bytes);
        theirs[r] = time_run(other, first, out, bytes);
    }
    row(label, ours, theirs, RATE, "million moves a second");
}

/* Move and Place at an index of each task's route 0, and Locate of the position there. hinz_locate looks for the place on a route only
 * where there are two. */
static uint64_t indexes[TASKS];
static uint8_t places[TASKS][TOWER_LIMIT], hinz_places[TASKS][TOWER_LIMIT];

static uint64_t our_move(size_t i)
{
    return pace_move(tasks[i], 2 * TOWER_LIMIT, 0, indexes[i]);
}

static uint64_t their_move(size_t i)
{
    return hinz_move(tasks[i], 2 * TOWER_LIMIT, 0, indexes[i]);
}

static uint64_t our_place(size_t i)
{
    return pace_place(tasks[i], 2 * TOWER_LIMIT, 0, indexes[i], places[i], TOWER_LIMIT);
}

static uint64_t their_place(size_t i)
{
    return hinz_place(tasks[i], 2 * TOWER_LIMIT, 0, indexes[i], hinz_places[i], TOWER_LIMIT);
}

static uint64_t our_locate(size_t i)
{
    return pace_locate(tasks[i], 2 * TOWER_LIMIT, places[i], TOWER_LIMIT);
}

static uint64_t their_locate(size_t i)
{
    return hinz_locate(tasks[i], 2 * TOWER_LIMIT, places[i], TOWER_LIMIT);
}

/* Nanoseconds a call, one for each task. */
static double time_calls(call_fn *f, uint64_t *answers)
{
    double begun = seconds();
    for (size_t i = 0; i < TASKS; i++)
        answers[i] = f(i);
    return (seconds() - begun) * 1e9 / TASKS;
}

/* Answers and positions that differ are no measurement. */
static void bench_calls(const char *label, call_fn *our, call_fn *their)
{
    static uint64_t answers[TASKS], hinz_answers[TASKS];
    double ours[ROUNDS], theirs[ROUNDS];
    for (int r = 0; r < ROUNDS; r++) {
        ours[r] = time_calls(our, answers);
        theirs[r] = time_calls(their, hinz_answers);
    }
    if (memcmp(answers, hinz_answers, sizeof answers) != 0 || memcmp(places, hinz_places, sizeof places) != 0) {
        fprintf(stderr, "bench: %s: the answers differ\n", label);
        exit(1);
    }
    row(label, ours, theirs, TIME, "ns a call");
}

static void bench_indexes(void)
{
    make_tasks(TOWER_LIMIT);
    for (size_t i = 0; i < TASKS; i++)
        indexes[i] = any() % hinz_shortest(tasks[i], 2 * TOWER_LIMIT);
    bench_calls("move, 60 discs", our_move, their_move);
    bench_calls("place, 60 discs", our_place, their_place);
    bench_calls("locate, 60 discs", our_locate, their_locate);
}

/* Million moves a second: a list of letter pairs. */
static double time_check(check_fn *f, const uint8_t *task, size_t n, const uint8_t *letters, size_t moves, uint64_t must)
{
    double begun = seconds();
    uint64_t answer = f(task, 2 * n, letters, 2 * moves);
    double taken = seconds() - begun;
    if (answer != must) {
        fprintf(stderr, "bench: a list is answered with %" PRIu64 "\n", answer);
        exit(1);
    }
    return (double)moves / taken * 1e-6;
}

static void bench_list(const char *label, const uint8_t *task, size_t n, const uint8_t *letters, size_t moves, uint64_t must)
{
    double ours[ROUNDS], theirs[ROUNDS];
    for (int r = 0; r < ROUNDS; r++) {
        ours[r] = time_check(pace_check, task, n, letters, moves, must);
        theirs[r] = time_check(hinz_check, task, n, letters, moves, must);
    }
    row(label, ours, theirs, RATE, "million moves a second");
}

/* The one route of a tower of 20 discs, which is accepted, and as many moves and one more of a random task of 60, which are 16. */
static void bench_check(uint8_t *letters)
{
    uint8_t tower[40] = {0};
    memset(tower + 20, 2, 20);
    if (tower_run(tower, 40, 0, 0, letters, 2 * CHECKED) != CHECKED - 1) {
        fprintf(stderr, "bench: a tower of 20 discs has another length\n");
        exit(1);
    }
    bench_list("check, 20 discs, accepted", tower, 20, letters, CHECKED - 1, 0);
    make_tasks(TOWER_LIMIT);
    if (tower_run(tasks[0], 2 * TOWER_LIMIT, 0, 0, letters, 2 * CHECKED) != CHECKED) {
        fprintf(stderr, "bench: a random task of 60 discs has too few moves\n");
        exit(1);
    }
    bench_list("check, 60 discs, 16", tasks[0], TOWER_LIMIT, letters, CHECKED, TOWER_REFUSED(16));
}

/* As Parts fills the buffer, but with one letter. */
static uint64_t fill(const uint8_t *task, size_t len, uint64_t route, uint64_t first, uint8_t *out, size_t out_len)
{
    memset(out, "GXTS"[(task[len - 1] + route + first) % 4], out_len);
    return out_len;
}

/* Million letters a second, filling the buffer from random indexes of random tasks of 60 discs that leave as many moves. */
static double time_parts(run_fn *f, const uint64_t *first, uint8_t *out, size_t bytes)
{
    uint64_t letters = 0;
    double begun = seconds();
    for (size_t i = 0; i < PARTS_CALLS; i++) {
        letters += f(tasks[i], 2 * TOWER_LIMIT, 0, first[i], out, bytes);
        sink += out[first[i] % bytes];
    }
    double taken = seconds() - begun;
    if (letters != PARTS_CALLS * bytes) {
        fprintf(stderr, "bench: a buffer was not filled\n");
        exit(1);
    }
    return (double)letters / taken * 1e-6;
}

static void bench_parts(const char *label, size_t bytes, uint8_t *out)
{
    uint64_t first[PARTS_CALLS];
    double ours[ROUNDS], theirs[ROUNDS];
    make_tasks(TOWER_LIMIT);
    for (size_t i = 0; i < PARTS_CALLS; i++) {
        uint64_t moves = hinz_shortest(tasks[i], 2 * TOWER_LIMIT);
        if (moves <= bytes) {
            fprintf(stderr, "bench: a random task of 60 discs has too few moves\n");
            exit(1);
        }
        first[i] = any() % (moves - bytes);
    }
    for (int r = 0; r < ROUNDS; r++) {
        ours[r] = time_parts(pace_parts, first, out, bytes);
        theirs[r] = time_parts(fill, first, out, bytes);
    }
    row(label, ours, theirs, RATE, "million letters a second");
}

/* Makes the plays on a bare position. A record is checked by the fewest from its start and from where it stands; the mark takes one
 * more. */
static uint64_t three_fewests(const uint8_t *task, size_t len, const uint8_t *plays, size_t plays_len)
{
    uint8_t held[2 * TOWER_LIMIT];
    memcpy(held, task, len);
    for (size_t i = 0; i < plays_len; i += 2) {
        uint8_t *disc = memchr(held, plays[i], len / 2);
        sink += hinz_shortest(task, len) + hinz_shortest(held, len);
        *disc = plays[i + 1];
        sink += hinz_shortest(held, len);
    }
    return plays_len / 2;
}

/* Thousand plays a second: a session on a random task of 60 discs, along its route 0. */
static double time_plays(plays_fn *f, const uint8_t *plays)
{
    double begun = seconds();
    uint64_t made = f(tasks[0], 2 * TOWER_LIMIT, plays, 2 * PLAYS);
    double taken = seconds() - begun;
    if (made != PLAYS) {
        fprintf(stderr, "bench: a play was not accepted\n");
        exit(1);
    }
    return PLAYS / taken * 1e-3;
}

static void bench_plays(const char *label)
{
    static uint8_t plays[2 * PLAYS];
    double ours[ROUNDS], theirs[ROUNDS];
    make_tasks(TOWER_LIMIT);
    if (tower_run(tasks[0], 2 * TOWER_LIMIT, 0, 0, plays, sizeof plays) != PLAYS) {
        fprintf(stderr, "bench: a random task of 60 discs has too few moves\n");
        exit(1);
    }
    for (size_t i = 0; i < sizeof plays; i++)
        plays[i] -= 'A';
    for (int r = 0; r < ROUNDS; r++) {
        ours[r] = time_plays(pace_plays, plays);
        theirs[r] = time_plays(three_fewests, plays);
    }
    row(label, ours, theirs, RATE, "thousand plays a second");
}

int main(void)
{
    uint8_t *out = malloc(4 << 20);
    if (!out)
        return 2;
    printf("The ratio says how many times as fast the library is: above 1, ours is faster. Medians of %d alternating rounds.\n", ROUNDS);
    printf("Lengths and runs, a round: %d random tasks for shortest; %d MiB for run, from random indexes, 60 discs.\n", TASKS, RUN_BYTES >> 20);
    heading("hinz.c");
    bench_shortest(10);
    bench_shortest(30);
    bench_shortest(60);
    bench_run("run, 64 KiB, by stacks", 64 << 10, out, hinz_run_stacks);
    bench_run("run, 4 MiB, by stacks", 4 << 20, out, hinz_run_stacks);
    bench_run("run, 64 KiB, by counting", 64 << 10, out, hinz_run);
    bench_run("run, 4 MiB, by counting", 4 << 20, out, hinz_run);
    printf("Batches, a round: one call with %d random tasks; beside it as many calls of tower_shortest, or one of hinz.c.\n", TASKS);
    heading("other");
    bench_batch("batch, 10 discs, by calls", 10, by_calls);
    bench_batch("batch, 60 discs, by calls", 60, by_calls);
    bench_batch("batch, 10 discs, by hinz.c", 10, hinz_batch);
    bench_batch("batch, 60 discs, by hinz.c", 60, hinz_batch);
    printf("Moves, places and locates, a round: %d random tasks of 60 discs, at a random index of each.\n", TASKS);
    heading("hinz.c");
    bench_indexes();
    printf("Lists of letter pairs, a round: one call with %d moves, the whole route of a tower, or with one more, the first of a random task.\n", CHECKED - 1);
    heading("hinz.c");
    bench_check(out);
    printf("Letters, a round: %d calls of parts into 4 MiB, from random indexes, 60 discs.\n", PARTS_CALLS);
    heading("memset");
    bench_parts("parts, 4 MiB, by memset", 4 << 20, out);
    printf("Plays, a round: a session of %d plays along a random task of 60 discs; beside it three fewests of hinz.c a play.\n", PLAYS);
    heading("hinz.c");
    bench_plays("plays, 60 discs");
    free(out);
    return sink == 0;
}
