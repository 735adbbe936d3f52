/* Plans a list of items: prints each item's fewest moves, how many shortest routes there are, and the first route. The fewest of items
 * of one size that stand together come from one call. */
#include <inttypes.h>
#include <stdio.h>
#include <string.h>

#include "towers.h"

/* The pegs of discs 1 to n at the start and at the goal. */
struct item {
    const char *name;
    const char *start;
    const char *goal;
};

static const struct item items[] = {
    {"one disc", "A", "C"},
    {"two discs", "AA", "CC"},
    {"a tie", "BA", "AB"},
    {"no such peg", "AD", "AA"},
    {"two discs back", "CC", "AA"},
    {"a detour", "BBA", "AAB"},
    {"still", "ABC", "ABC"},
    {"six discs", "ABCAAB", "BCABBA"},
    {"two sizes", "AAA", "C"},
};

enum { ITEMS = sizeof items / sizeof items[0] };

/* How many discs an item has, or 0 where its start and its goal are not of one size, 1 to TOWER_LIMIT. */
static size_t discs_of(const struct item *item)
{
    size_t n = strlen(item->start);
    return n <= TOWER_LIMIT && strlen(item->goal) == n ? n : 0;
}

/* The bytes of an item's task: 2n of them. */
static void put_task(const struct item *item, size_t n, uint8_t *task)
{
    for (size_t d = 0; d < n; d++) {
        task[d] = (uint8_t)(item->start[d] - 'A');
        task[n + d] = (uint8_t)(item->goal[d] - 'A');
    }
}

/* Prints the moves of route 0, some at a time. */
static void print_route(const uint8_t *task, size_t len)
{
    uint8_t moves[32];
    uint64_t first = 0;
    for (;;) {
        uint64_t count = tower_run(task, len, 0, first, moves, sizeof moves);
        if (count == 0 || TOWER_IS_REFUSED(count))
            break;
        for (uint64_t i = 0; i < count; i++)
            printf(" %c%c", moves[2 * i], moves[2 * i + 1]);
        first += count;
    }
    printf("\n");
}

static void print_item(const char *name, const uint8_t *task, size_t len, uint64_t fewest)
{
    if (TOWER_IS_REFUSED(fewest)) {
        printf("%s: refused %u\n", name, TOWER_NUMBER(fewest));
        return;
    }
    printf("%s: fewest %" PRIu64 ", routes %" PRIu64 ":", name, fewest, tower_routes(task, len));
    print_route(task, len);
}

/* Plans so many items of n discs in one call. An item with a bad byte is refused by itself. */
static void plan_items(const struct item *some, size_t count, size_t n)
{
    uint8_t tasks[ITEMS * 2 * TOWER_LIMIT];
    uint64_t fewest[ITEMS];
    for (size_t i = 0; i < count; i++)
        put_task(&some[i], n, tasks + i * 2 * n);
    uint64_t planned = tower_batch(n, tasks, count * 2 * n, fewest, ITEMS);
    if (TOWER_IS_REFUSED(planned)) {
        printf("%s: the call is refused %u\n", some->name, TOWER_NUMBER(planned));
        return;
    }
    for (size_t i = 0; i < planned; i++)
        print_item(some[i].name, tasks + i * 2 * n, 2 * n, fewest[i]);
}

int main(void)
{
    for (size_t i = 0, count; i < ITEMS; i += count) {
        size_t n = discs_of(&items[i]);
        count = 1;
        if (n == 0) {
            printf("%s: start and goal must have the same number of discs, 1 to %d\n", items[i].name, TOWER_LIMIT);
            continue;
        }
        while (i + count < ITEMS && discs_of(&items[i + count]) == n)
            count++;
        plan_items(&items[i], count, n);
    }
    return 0;
}
