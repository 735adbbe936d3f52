/* Compares the library's five calls with tests/hinz.c, answers and every byte of the buffers, on valid and damaged inputs. What is lent
 * ends where a page begins that may not be touched; built with HEAP, for valgrind, it is a block of the heap of just its size. The moves,
 * places, locates and checks of hinz.c, which the bench measures by, are held to the library's run and lengths. */
#include <inttypes.h>
#include <stdio.h>
#include <stdlib.h>
#include <string.h>
#include <sys/mman.h>
#include <unistd.h>

#include "hinz.h"
#include "random.h"
#include "towers.h"

enum { LONGEST = 300, MOST_BYTES = 4000, MOST_ENTRIES = 500 };

static uint64_t below(uint64_t n)
{
    return any() % n;
}

/* Where a task and a buffer are lent from. */
static uint8_t *task_area, *out_area;

#ifdef HEAP

/* Nothing stands in front of a buffer: valgrind sees what is touched there. */
enum { ROUNDS = 100000, FRAMED = 0 };

/* A block of so many bytes, until the next one is lent from there. */
static uint8_t *lend(uint8_t **area, size_t len)
{
    free(*area);
    *area = malloc(len);
    if (len && !*area) {
        perror("malloc");
        exit(2);
    }
    return *area;
}

#else

/* In front of a buffer stand bytes that have to stay. */
enum { ROUNDS = 300000, FRAMED = 1 };

/* So many bytes, at most a page of them, in front of a page that may not be touched. */
static uint8_t *lend(uint8_t **area, size_t len)
{
    if (!*area) {
        size_t page = (size_t)sysconf(_SC_PAGESIZE);
        uint8_t *p = mmap(NULL, 2 * page, PROT_READ | PROT_WRITE, MAP_PRIVATE | MAP_ANONYMOUS, -1, 0);
        if (p == MAP_FAILED || mprotect(p + page, page, PROT_NONE)) {
            perror("mmap");
            exit(2);
        }
        *area = p + page;
    }
    return *area - len;
}

#endif

static uint64_t calls, refusals, ties, moves, entries, bad_entries, refused_with[17];

static void same(const char *call, uint64_t ours, uint64_t theirs)
{
    calls++;
    if (TOWER_IS_REFUSED(ours)) {
        refusals++;
        refused_with[TOWER_NUMBER(ours)]++;
    }
    if (ours != theirs) {
        printf("%s: %" PRIu64 ", and %" PRIu64 " by hinz.c\n", call, ours, theirs);
        exit(1);
    }
}

/* Most tasks are valid: few discs or many, ends alike from some disc on; some are damaged in a byte or in their length. */
static size_t make_task(uint8_t *task)
{
    size_t n = below(3) ? below(7) : below(63);
    for (size_t i = 0; i < 2 * n; i++)
        task[i] = (uint8_t)below(3);
    if (n && !below(3))
        for (size_t d = below(n); d < n; d++)
            task[n + d] = task[d];
    size_t len = 2 * n;
    if (len && !below(16))
        task[below(len)] = (uint8_t)(any() >> 8);
    if (!below(16))
        task[len++] = (uint8_t)below(3);
    return len;
}

/* Where a run begins: mostly on the route, and close to its ends. */
static uint64_t make_first(uint64_t length)
{
    switch (below(8)) {
    case 0:
        return 0;
    case 1:
        return length;
    case 2:
        return length + 1;
    case 3:
        return any();
    case 4:
        return length - below(length < 40 ? length + 1 : 40);
    default:
        return below(length + 1);
    }
}

/* Given is the task, or null where it has no bytes. */
static void compare_run(const uint8_t *given, const uint8_t *task, size_t len)
{
    static uint8_t before[LONGEST], theirs[LONGEST], stacks[LONGEST];
    size_t room = below(4) ? below(LONGEST + 1) : below(4);
    uint64_t length = hinz_shortest(task, len);
    uint64_t first = make_first(TOWER_IS_REFUSED(length) ? 0 : length);
    uint64_t route = below(8) ? below(3) : any();
    size_t front = FRAMED ? LONGEST - room : 0;
    uint8_t *frame = lend(&out_area, front + room), *out = frame + front;
    for (size_t i = 0; i < LONGEST; i++)
        before[i] = (uint8_t)any();
    memcpy(frame, before + LONGEST - room - front, front + room);
    memcpy(theirs, before + LONGEST - room, room);
    memcpy(stacks, before + LONGEST - room, room);
    uint64_t answer = tower_run(given, len, route, first, room || below(2) ? out : NULL, room);
    same("tower_run", answer, hinz_run(task, len, route, first, theirs, room));
    if (answer != hinz_run_stacks(task, len, route, first, stacks, room) || memcmp(theirs, stacks, room)) {
        printf("hinz.c: its two runs differ\n");
        exit(1);
    }
    if (memcmp(frame, before + LONGEST - room - front, front) || memcmp(out, theirs, room)) {
        printf("tower_run: bytes differ\n");
        exit(1);
    }
    moves += TOWER_IS_REFUSED(answer) ? 0 : answer;
}

/* Mostly boards of few discs; those about the limit; and numbers that are a board's but for one high bit, or whose double is. */
static uint64_t make_discs(void)
{
    switch (below(8)) {
    case 0:
        return below(64);
    case 1:
        return ((uint64_t)1 << 63) + below(64);
    case 2:
        return ((uint64_t)1 << (8 + below(56))) + below(64);
    case 3:
        return any();
    default:
        return below(7);
    }
}

/* How many bytes of tasks: mostly whole tasks, as they fit. */
static size_t make_length(uint64_t n)
{
    size_t size = n <= TOWER_LIMIT ? 2 * (size_t)n : 1 + below(20);
    if (!below(8))
        return below(MOST_BYTES + 1);
    size_t most = size ? MOST_BYTES / size : 0;
    size_t len = size * below(most < 40 ? most + 1 : 40);
    return below(8) ? len : len + below(4);
}

/* How many entries there is room for: mostly enough, sometimes one too few. */
static size_t make_room(size_t count)
{
    size_t room = below(4) ? count + below(3) : below(MOST_ENTRIES + 1);
    if (count && !below(8))
        room = count - 1;
    return room < MOST_ENTRIES ? room : MOST_ENTRIES;
}

/* Each entry is what the single call answers for its task. */
static void compare_entries(uint64_t n, const uint8_t *tasks, const uint64_t *out, uint64_t count)
{
    for (uint64_t i = 0; i < count; i++) {
        if (out[i] != tower_shortest(tasks + i * 2 * n, 2 * n)) {
            printf("tower_batch: entry %" PRIu64 " is not what tower_shortest answers\n", i);
            exit(1);
        }
        bad_entries += out[i] == TOWER_NOT_A_PEG;
    }
    entries += count;
}

/* Every entry of the buffer and every number in front of it. */
static void compare_batch(void)
{
    static uint8_t made[MOST_BYTES + 4];
    static uint64_t theirs[MOST_ENTRIES];
    uint64_t n = make_discs();
    size_t len = make_length(n), room = make_room(n && n <= TOWER_LIMIT ? len / (2 * (size_t)n) : 0);
    size_t front = FRAMED ? MOST_ENTRIES - room : 0, size = (front + room) * sizeof theirs[0];
    uint8_t *tasks = lend(&task_area, len);
    uint64_t *frame = (uint64_t *)(void *)lend(&out_area, size), *out = frame + front, *same_frame = theirs + MOST_ENTRIES - room - front;
    unsigned seldom = below(2) ? 16 : 1000;
    for (size_t i = 0; i < len; i++)
        tasks[i] = made[i] = (uint8_t)(below(seldom) ? below(3) : any() >> 8);
    for (size_t i = 0; i < MOST_ENTRIES; i++)
        theirs[i] = any();
    memcpy(frame, same_frame, size);
    uint64_t answer = tower_batch(n, len || below(2) ? tasks : NULL, len, room || below(2) ? out : NULL, room);
    same("tower_batch", answer, hinz_batch(n, made, len, theirs + MOST_ENTRIES - room, room));
    if (memcmp(frame, same_frame, size) || memcmp(tasks, made, len)) {
        printf("tower_batch: entries or tasks differ\n");
        exit(1);
    }
    compare_entries(n, made, out, TOWER_IS_REFUSED(answer) ? 0 : answer);
}

static void hold(int same, const char *call)
{
    if (!same) {
        printf("hinz.c: its %s goes another way than the library\n", call);
        exit(1);
    }
}

/* The position after so many moves of a route is found again: at its index where it is on route 0. */
static void hold_locate(const uint8_t *task, size_t len, uint64_t index, const uint8_t *position)
{
    uint8_t on_zero[TOWER_LIMIT];
    size_t n = len / 2;
    hinz_place(task, len, 0, index, on_zero, n);
    hold(hinz_locate(task, len, position, n) == (memcmp(on_zero, position, n) ? 0 : index), "locate");
}

/* Any position is off where the library's lengths by way of it do not add up. One byte too few is refused with 7, a byte above 2 with 3. */
static void hold_off(const uint8_t *task, size_t len)
{
    uint8_t there[2 * TOWER_LIMIT], back[2 * TOWER_LIMIT], *position = there + len / 2;
    size_t n = len / 2;
    memcpy(there, task, n);
    for (size_t d = 0; d < n; d++)
        back[d] = position[d] = (uint8_t)below(3);
    memcpy(back + n, task + n, n);
    if (tower_shortest(there, len) + tower_shortest(back, len) != tower_shortest(task, len))
        hold(hinz_locate(task, len, position, n) == 0, "off");
    if (n == 0)
        return;
    hold(hinz_locate(task, len, position, n - 1) == TOWER_REFUSED(7), "refusal");
    position[below(n)] = 3;
    hold(hinz_locate(task, len, position, n) == TOWER_REFUSED(3), "refusal");
}

/* The move at an index is the run's, and takes the place there to the next; the last place is the goal. */
static void hold_steps(const uint8_t *task, size_t len)
{
    uint8_t pair[2], place[TOWER_LIMIT], next[TOWER_LIMIT];
    size_t n = len / 2;
    uint64_t length = hinz_shortest(task, len), route = below(3);
    uint64_t index = make_first(TOWER_IS_REFUSED(length) ? 0 : length);
    uint64_t ran = tower_run(task, len, route, index, pair, sizeof pair);
    uint64_t move = hinz_move(task, len, route, index), placed = hinz_place(task, len, route, index, place, n);
    if (TOWER_IS_REFUSED(ran)) {
        hold(move == ran && placed == ran, "refusal");
        return;
    }
    hold(placed == 1, "place");
    hold_locate(task, len, index, place);
    hold_off(task, len);
    if (ran == 0) {
        hold(move == TOWER_NO_SUCH_INDEX && !memcmp(place, task + n, n), "last place");
        return;
    }
    uint8_t from = pair[0] - 'A', to = pair[1] - 'A';
    uint8_t *disc = memchr(place, from, n);
    hold(disc && move == (uint64_t)(disc - place + 1) * 65536 + from * 256u + to, "move");
    *disc = to;
    hold(hinz_place(task, len, route, index + 1, next, n) == 1 && !memcmp(place, next, n), "place");
}

/* What the library's run writes in full is accepted with its route's number. A letter too few or in lower case is 14; a move from a peg to
 * itself is 15, at the end too; a move too few is 16, as is a move more and back. */
static void hold_check(const uint8_t *task, size_t len)
{
    static uint8_t letters[2 * MOST_BYTES];
    uint64_t length = tower_shortest(task, len), count = tower_routes(task, len);
    if (TOWER_IS_REFUSED(length)) {
        hold(hinz_check(task, len, letters, 0) == length, "refusal");
        return;
    }
    if (length == 0 || length > MOST_BYTES / 2) {
        hold(hinz_check(task, len, letters, 0) == (length ? TOWER_REFUSED(16) : 0), "empty list");
        return;
    }
    uint64_t route = below(count);
    size_t end = 2 * (size_t)tower_run(task, len, route, 0, letters, sizeof letters), place = below(end);
    hold(hinz_check(task, len, letters, end) == route, "number");
    hold(hinz_check(task, len, letters, end - 1) == TOWER_REFUSED(14), "odd length");
    hold(hinz_check(task, len, letters, end - 2) == TOWER_REFUSED(16), "shorter list");
    letters[place] += 'a' - 'A';
    hold(hinz_check(task, len, letters, end) == TOWER_REFUSED(14), "lower case");
    letters[place] -= 'a' - 'A';
    letters[end] = letters[end + 1] = letters[end - 1];
    hold(hinz_check(task, len, letters, end + 2) == TOWER_REFUSED(15), "move to itself");
    letters[end + 1] = letters[end - 2];
    letters[end + 2] = letters[end - 2];
    letters[end + 3] = letters[end - 1];
    hold(hinz_check(task, len, letters, end + 4) == TOWER_REFUSED(16), "longer list");
}

/* Every refusal of the five calls was met. */
static void all_refused(void)
{
    static const unsigned numbers[] = {1, 2, 3, 4, 5, 6, 13};
    for (size_t i = 0; i < sizeof numbers / sizeof numbers[0]; i++)
        if (!refused_with[numbers[i]]) {
            printf("no call was refused with %u\n", numbers[i]);
            exit(1);
        }
}

int main(void)
{
    for (int i = 0; i < ROUNDS; i++) {
        uint8_t made[128];
        size_t len = make_task(made);
        uint8_t *task = lend(&task_area, len);
        memcpy(task, made, len);
        const uint8_t *given = len || below(2) ? task : NULL;
        uint8_t peg = (uint8_t)(below(8) ? below(3) : any() >> 8);
        uint64_t count = tower_routes(given, len);
        ties += count == 2;
        same("tower_shortest", tower_shortest(given, len), hinz_shortest(task, len));
        same("tower_routes", count, hinz_routes(task, len));
        same("tower_gather", tower_gather(given, len, peg), hinz_gather(task, len, peg));
        compare_run(given, task, len);
        hold_steps(task, len);
        hold_check(task, len);
        if (memcmp(task, made, len)) {
            printf("a task's bytes changed\n");
            return 1;
        }
        if (i % 4 == 0)
            compare_batch();
    }
    all_refused();
    printf("%" PRIu64 " calls agree: %" PRIu64 " refused, %" PRIu64 " ties, %" PRIu64 " moves; %" PRIu64 " entries of batches, %" PRIu64 " of them refused\n", calls, refusals, ties, moves, entries, bad_entries);
    return 0;
}
