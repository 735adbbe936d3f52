/* Hinz's rules in plain C. Lengths: one pass over both positions, with a table for the third peg and no branch on a peg. Runs: a route
 * is a list of tower shifts, a single move being the shift of a tower of one disc. In a shift, move j is that of the disc whose number
 * is one more than the trailing zeros of j, and each disc goes round the pegs in one direction; `hinz_run_stacks` has no use of that but
 * for disc 1, and keeps the topmost disc of each peg and the disc beneath each disc (001, section 1). A single move or position: after
 * the plan one pass down the discs, by how many moves of a gathering are left. The checker walks along the letters once. */
#include <string.h>

#include "hinz.h"

enum { LIMIT = 60, BLOCKS = 4 * LIMIT + 3 };

static const uint8_t third[3][3] = {{0, 2, 1}, {2, 1, 0}, {1, 0, 2}};

/* next[s][x] is the peg s steps after x. */
static const uint8_t next[3][3] = {{0, 1, 2}, {1, 2, 0}, {2, 0, 1}};

static uint64_t refused(unsigned k)
{
    return (uint64_t)0 - k;
}

static int only_pegs(const uint8_t *p, size_t n)
{
    unsigned above = 0;
    for (size_t i = 0; i < n; i++)
        above |= p[i] > 2;
    return !above;
}

static uint64_t task_fault(const uint8_t *task, size_t len)
{
    if (len % 2)
        return refused(1);
    if (len / 2 > LIMIT)
        return refused(2);
    return only_pegs(task, len) ? 0 : refused(3);
}

uint64_t hinz_gather(const uint8_t *position, size_t n, uint8_t peg)
{
    if (n > LIMIT)
        return refused(2);
    if (!only_pegs(position, n) || peg > 2)
        return refused(3);
    uint64_t sum = 0;
    unsigned target = peg;
    for (size_t d = n; d-- > 0;) {
        sum |= (uint64_t)(position[d] != target) << d;
        target = third[target][position[d]];
    }
    return sum;
}

/* The largest disc that moves, 0 for none, its pegs, the third peg, the lengths of the direct and the detour, and of the gathering that
 * each begins with. */
struct plan {
    size_t m;
    unsigned a, b, c;
    uint64_t direct, detour, to_c, to_b;
};

static struct plan plan_of(const uint8_t *start, const uint8_t *goal, size_t n)
{
    struct plan p = {0};
    while (n > 0 && start[n - 1] == goal[n - 1])
        n--;
    if (n == 0)
        return p;
    p.m = n;
    p.a = start[n - 1];
    p.b = goal[n - 1];
    p.c = third[p.a][p.b];
    unsigned sc = p.c, tc = p.c, sb = p.b, ta = p.a;
    uint64_t to_c = 0, from_c = 0, to_b = 0, from_a = 0;
    for (size_t d = n - 1; d-- > 0;) {
        unsigned x = start[d], y = goal[d];
        to_c |= (uint64_t)(x != sc) << d;
        from_c |= (uint64_t)(y != tc) << d;
        to_b |= (uint64_t)(x != sb) << d;
        from_a |= (uint64_t)(y != ta) << d;
        sc = third[sc][x];
        tc = third[tc][y];
        sb = third[sb][x];
        ta = third[ta][y];
    }
    p.direct = to_c + 1 + from_c;
    p.detour = to_b + ((uint64_t)1 << (n - 1)) + 1 + from_a;
    p.to_c = to_c;
    p.to_b = to_b;
    return p;
}

static uint64_t shortest(const struct plan *p)
{
    return p->direct < p->detour ? p->direct : p->detour;
}

static uint64_t routes(const struct plan *p)
{
    return p->m > 0 && p->direct == p->detour ? 2 : 1;
}

/* The plan of a task, or its fault. */
static uint64_t planned(const uint8_t *task, size_t len, struct plan *p)
{
    uint64_t fault = task_fault(task, len);
    if (!fault)
        *p = plan_of(task, task + len / 2, len / 2);
    return fault;
}

uint64_t hinz_shortest(const uint8_t *task, size_t len)
{
    struct plan p;
    uint64_t fault = planned(task, len, &p);
    return fault ? fault : shortest(&p);
}

uint64_t hinz_routes(const uint8_t *task, size_t len)
{
    struct plan p;
    uint64_t fault = planned(task, len, &p);
    return fault ? fault : routes(&p);
}

/* What all tasks of a batch share is looked at once. */
uint64_t hinz_batch(uint64_t n, const uint8_t *tasks, size_t tasks_len, uint64_t *out, size_t out_len)
{
    if (n > LIMIT)
        return refused(2);
    size_t size = 2 * (size_t)n, count = size ? tasks_len / size : 0;
    if (count * size != tasks_len)
        return refused(13);
    if (out_len < count)
        return refused(6);
    for (size_t i = 0; i < count; i++, tasks += size) {
        if (!only_pegs(tasks, size)) {
            out[i] = refused(3);
            continue;
        }
        struct plan p = plan_of(tasks, tasks + n, n);
        out[i] = shortest(&p);
    }
    return count;
}

/* The shift of a tower of k discs, 2^k - 1 moves; or, k being 1, the move of any one disc. `disc` is the smallest of them. */
struct block {
    uint8_t disc, k, from, to;
};

struct route {
    size_t count;
    struct block blocks[BLOCKS];
};

static void add(struct route *r, size_t disc, size_t k, unsigned from, unsigned to)
{
    struct block b = {(uint8_t)disc, (uint8_t)k, (uint8_t)from, (uint8_t)to};
    r->blocks[r->count++] = b;
}

static uint64_t moves_of(struct block b)
{
    return ((uint64_t)1 << b.k) - 1;
}

/* The target of each disc below k, where disc k has target `target`. */
static void targets(const uint8_t *p, size_t k, unsigned target, uint8_t *to)
{
    for (size_t d = k; d-- > 0;) {
        to[d] = (uint8_t)target;
        target = third[target][p[d]];
    }
}

/* Smallest disc first: each that is not on its target goes there, and the tower of the smaller ones follows it. */
static void gathering(struct route *r, const uint8_t *p, size_t k, unsigned target)
{
    uint8_t to[LIMIT];
    targets(p, k, target, to);
    for (size_t d = 0; d < k; d++)
        if (p[d] != to[d]) {
            add(r, d, 1, p[d], to[d]);
            add(r, 0, d, third[p[d]][to[d]], to[d]);
        }
}

/* The gathering run backwards. */
static void spreading(struct route *r, const uint8_t *p, size_t k, unsigned target)
{
    uint8_t to[LIMIT];
    targets(p, k, target, to);
    for (size_t d = k; d-- > 0;)
        if (p[d] != to[d]) {
            add(r, 0, d, to[d], third[p[d]][to[d]]);
            add(r, d, 1, to[d], p[d]);
        }
}

static void route_of(struct route *r, const uint8_t *start, const uint8_t *goal, const struct plan *p, int detour)
{
    r->count = 0;
    if (p->m == 0)
        return;
    size_t k = p->m - 1;
    gathering(r, start, k, detour ? p->b : p->c);
    if (detour) {
        add(r, k, 1, p->a, p->c);
        add(r, 0, k, p->b, p->a);
        add(r, k, 1, p->c, p->b);
    } else {
        add(r, k, 1, p->a, p->b);
    }
    spreading(r, goal, k, detour ? p->a : p->c);
}

/* The route that a call of Run asks for, or the call's fault. */
static uint64_t run_route(const uint8_t *task, size_t len, uint64_t route, uint64_t first, size_t out_len, struct route *r)
{
    struct plan p;
    uint64_t fault = planned(task, len, &p);
    if (fault)
        return fault;
    if (route >= routes(&p))
        return refused(4);
    if (first > shortest(&p))
        return refused(5);
    if (first < shortest(&p) && out_len < 2)
        return refused(6);
    route_of(r, task, task + len / 2, &p, route == 1 || p.detour < p.direct);
    return 0;
}

/* How each disc of a block goes round the pegs, and where it is after the block's first `done` moves. */
static void turns(struct block b, uint64_t done, uint8_t *step, uint8_t *at)
{
    unsigned forward = (b.to + 3u - b.from) % 3;
    for (unsigned i = 0; i < b.k; i++) {
        uint64_t moves = (done + ((uint64_t)1 << i)) >> (i + 1);
        step[i] = (uint8_t)((b.k - 1 - i) % 2 ? 3 - forward : forward);
        at[i] = (uint8_t)((b.from + step[i] * (moves % 3)) % 3);
    }
}

/* Writes moves of a block after the first `done`, at most `room`, and says how many. */
static uint64_t shift(struct block b, uint64_t done, uint8_t *out, uint64_t room)
{
    uint64_t left = moves_of(b) - done;
    uint64_t count = left < room ? left : room;
    uint8_t at[LIMIT], step[LIMIT];
    turns(b, done, step, at);
    for (uint64_t j = done + 1; j <= done + count; j++) {
        int i = __builtin_ctzll(j);
        unsigned from = at[i], to = next[step[i]][from];
        *out++ = (uint8_t)('A' + from);
        *out++ = (uint8_t)('A' + to);
        at[i] = (uint8_t)to;
    }
    return count;
}

uint64_t hinz_run(const uint8_t *task, size_t len, uint64_t route, uint64_t first, uint8_t *out, size_t out_len)
{
    struct route r;
    uint64_t fault = run_route(task, len, route, first, out_len, &r);
    if (fault)
        return fault;
    uint64_t written = 0, room = out_len / 2;
    for (size_t i = 0; i < r.count && written < room; i++) {
        uint64_t moves = moves_of(r.blocks[i]);
        if (first >= moves) {
            first -= moves;
            continue;
        }
        written += shift(r.blocks[i], first, out + 2 * written, room - written);
        first = 0;
    }
    return written;
}

/* The topmost disc of each peg and the disc beneath each disc, n + 1 for none. Discs are numbered from 1. */
struct stacks {
    uint8_t top[3], beneath[LIMIT + 1];
};

static void stack_up(struct stacks *s, const uint8_t *p, size_t n)
{
    s->top[0] = s->top[1] = s->top[2] = (uint8_t)(n + 1);
    for (size_t d = n; d > 0; d--) {
        s->beneath[d] = s->top[p[d - 1]];
        s->top[p[d - 1]] = (uint8_t)d;
    }
}

static void carry(struct stacks *s, unsigned from, unsigned to, uint8_t *out)
{
    uint8_t disc = s->top[from];
    s->top[from] = s->beneath[disc];
    s->beneath[disc] = s->top[to];
    s->top[to] = disc;
    out[0] = (uint8_t)('A' + from);
    out[1] = (uint8_t)('A' + to);
}

/* Writes moves of a block as `shift` does: every second move is disc 1's, round the pegs; between them the smaller of the two other
 * topmost discs goes onto the larger, without a branch on which that is. */
static uint64_t shift_stacks(struct stacks *s, struct block b, uint64_t done, uint8_t *out, uint64_t room)
{
    uint64_t left = moves_of(b) - done;
    uint64_t count = left < room ? left : room;
    if (b.k == 1) {
        carry(s, b.from, b.to, out);
        return 1;
    }
    unsigned forward = (b.to + 3u - b.from) % 3, step = b.k % 2 ? forward : 3 - forward;
    unsigned small = s->top[0] == 1 ? 0 : s->top[1] == 1 ? 1 : 2;
    for (uint64_t j = done + 1; j <= done + count; j++, out += 2) {
        if (j & 1) {
            unsigned to = next[step][small];
            carry(s, small, to, out);
            small = to;
        } else {
            unsigned x = next[1][small], y = next[2][small];
            int less = s->top[x] < s->top[y];
            carry(s, less ? x : y, less ? y : x, out);
        }
    }
    return count;
}

uint64_t hinz_run_stacks(const uint8_t *task, size_t len, uint64_t route, uint64_t first, uint8_t *out, size_t out_len)
{
    struct route r;
    uint64_t fault = run_route(task, len, route, first, out_len, &r);
    if (fault)
        return fault;
    uint8_t at[LIMIT], step[LIMIT];
    for (size_t d = 0; d < len / 2; d++)
        at[d] = task[d];
    size_t i = 0;
    for (; i < r.count && first >= moves_of(r.blocks[i]); i++) {
        first -= moves_of(r.blocks[i]);
        for (unsigned d = 0; d < r.blocks[i].k; d++)
            at[r.blocks[i].disc + d] = r.blocks[i].to;
    }
    if (i < r.count)
        turns(r.blocks[i], first, step, at + r.blocks[i].disc);
    struct stacks s;
    stack_up(&s, at, len / 2);
    uint64_t written = 0, room = out_len / 2;
    for (; i < r.count && written < room; i++, first = 0)
        written += shift_stacks(&s, r.blocks[i], first, out + 2 * written, room - written);
    return written;
}

/* A place on a route: so many moves are left of gathering the k smallest discs on a target. They are gathered from a position or, as in a
 * shift, from a tower on one peg, 3 for none. A spreading is the gathering of the goal's discs, backwards. */
struct place {
    const uint8_t *position;
    unsigned tower, target;
    size_t k;
    uint64_t left;
    int backwards;
};

/* The place after so many moves, of a plan in which a disc moves. */
static struct place place_at(const uint8_t *start, const uint8_t *goal, const struct plan *p, int detour, uint64_t index)
{
    size_t k = p->m - 1;
    struct place at = {start, 3, detour ? p->b : p->c, k, 0, 0};
    uint64_t first = detour ? p->to_b : p->to_c, shift = ((uint64_t)1 << k) - 1;
    if (index <= first) {
        at.left = first - index;
        return at;
    }
    index -= first + 1;
    if (detour && index <= shift) {
        at.tower = p->b;
        at.target = p->a;
        at.left = shift - index;
        return at;
    }
    at.position = goal;
    at.target = detour ? p->a : p->c;
    at.left = detour ? index - shift - 1 : index;
    at.backwards = 1;
    return at;
}

/* Where the k smallest discs are. A disc that is not on its target waits while 2^d moves or more are left; then it is there, and the
 * smaller ones follow it as a tower. */
static void discs_at(struct place at, uint8_t *out)
{
    size_t d = at.k;
    while (at.tower == 3 && d > 0) {
        unsigned x = at.position[--d], z = third[at.target][x];
        uint64_t own = (uint64_t)(x != at.target) << d;
        if (own > at.left) {
            out[d] = (uint8_t)at.target;
            at.tower = z;
        } else {
            out[d] = (uint8_t)x;
            at.left -= own;
            at.target = z;
        }
    }
    while (d > 0) {
        d--;
        unsigned x = at.tower, y = at.target, waits = at.left >> d & 1, z = third[x][y];
        out[d] = (uint8_t)(waits ? x : y);
        at.tower = waits ? x : z;
        at.target = waits ? z : y;
    }
}

/* Disc, from and to as the three bytes of a number. */
static uint64_t bytes_of(size_t disc, unsigned from, unsigned to)
{
    return disc * 65536u + from * 256u + to;
}

/* The next move, where one is left: that of the disc whose power of two is the last in what is left. */
static uint64_t move_of(struct place at)
{
    size_t disc = (size_t)__builtin_ctzll(at.left), d = at.k;
    unsigned x = at.tower;
    while (at.tower == 3 && d > disc) {
        x = at.position[--d];
        uint64_t own = (uint64_t)(x != at.target) << d;
        if (own > at.left)
            at.tower = third[at.target][x];
        else if (d > disc) {
            at.left -= own;
            at.target = third[at.target][x];
        }
    }
    while (d > disc) {
        x = at.tower;
        unsigned waits = at.left >> --d & 1, z = third[x][at.target];
        if (!waits)
            at.tower = z;
        else if (d > disc)
            at.target = z;
    }
    return at.backwards ? bytes_of(disc + 1, at.target, x) : bytes_of(disc + 1, x, at.target);
}

/* The plan of a task that has the route, and whether that is a detour; or the fault. */
static uint64_t opened(const uint8_t *task, size_t len, uint64_t route, struct plan *p, int *detour)
{
    uint64_t fault = planned(task, len, p);
    if (fault)
        return fault;
    if (route >= routes(p))
        return refused(4);
    *detour = route == 1 || p->detour < p->direct;
    return 0;
}

uint64_t hinz_move(const uint8_t *task, size_t len, uint64_t route, uint64_t index)
{
    struct plan p;
    int detour;
    uint64_t fault = opened(task, len, route, &p, &detour);
    if (fault)
        return fault;
    if (index >= shortest(&p))
        return refused(5);
    struct place at = place_at(task, task + len / 2, &p, detour, index);
    if (at.backwards)
        at.left++;
    if (at.left > 0)
        return move_of(at);
    return bytes_of(p.m, at.tower < 3 ? p.c : p.a, detour && at.tower == 3 ? p.c : p.b);
}

/* Writes the position after so many moves of a route. */
static void put_place(const uint8_t *task, size_t n, const struct plan *p, int detour, uint64_t index, uint8_t *out)
{
    for (size_t d = 0; d < n; d++)
        out[d] = task[d];
    if (p->m == 0)
        return;
    struct place at = place_at(task, task + n, p, detour, index);
    discs_at(at, out);
    if (at.tower < 3)
        out[p->m - 1] = (uint8_t)p->c;
    else if (at.backwards)
        out[p->m - 1] = (uint8_t)p->b;
}

uint64_t hinz_place(const uint8_t *task, size_t len, uint64_t route, uint64_t index, uint8_t *out, size_t out_len)
{
    struct plan p;
    int detour;
    uint64_t fault = opened(task, len, route, &p, &detour);
    if (fault)
        return fault;
    if (index > shortest(&p))
        return refused(5);
    if (out_len < len / 2)
        return refused(6);
    put_place(task, len / 2, &p, detour, index, out);
    return 1;
}

uint64_t hinz_locate(const uint8_t *task, size_t len, const uint8_t *position, size_t position_len)
{
    struct plan p, there, back;
    size_t n = len / 2;
    uint64_t fault = planned(task, len, &p);
    if (fault)
        return fault;
    if (position_len != n)
        return refused(7);
    if (!only_pegs(position, n))
        return refused(3);
    there = plan_of(task, position, n);
    back = plan_of(position, task + n, n);
    if (shortest(&there) + shortest(&back) != shortest(&p))
        return 0;
    if (routes(&p) == 2) {
        uint8_t at[LIMIT];
        put_place(task, n, &p, 0, shortest(&there), at);
        if (memcmp(at, position, n) != 0)
            return 0;
    }
    return shortest(&there);
}

/* Makes the moves that are legal, writes the position after them, and returns how many they are. Discs 1 and 2 are known by the letters of
 * their pegs (NONE where there is no disc 2), and each may go to any peg without a smaller disc; of the larger discs the topmost of each peg
 * and the one beneath each are kept, disc 3 as 2 and so on, n for none. Slower were: disc 1 alone apart, one move at a time or two; with
 * that, sets of discs as bits, and bytes in the arrays. */
static size_t walk(uint8_t *position, size_t n, const uint8_t *letters, size_t count)
{
    enum { NONE = 256 };
    uint64_t top[3] = {n, n, n}, beneath[LIMIT], small, second = NONE;
    size_t i = 0;
    if (n == 0)
        return 0;
    for (size_t d = n; d-- > 2;) {
        beneath[d] = top[position[d]];
        top[position[d]] = d;
    }
    if (n > 1)
        second = (uint64_t)'A' + position[1];
    for (small = (uint64_t)'A' + position[0]; i < count; i++) {
        uint64_t from = letters[2 * i], to = letters[2 * i + 1];
        if (to - 'A' > 2 || to == small)
            break;
        if (from == small) {
            small = to;
            continue;
        }
        if (to == second)
            break;
        if (from == second) {
            second = to;
            continue;
        }
        if (from - 'A' > 2)
            break;
        uint64_t disc = top[from - 'A'], larger = top[to - 'A'];
        if (larger <= disc)
            break;
        top[from - 'A'] = beneath[disc];
        beneath[disc] = larger;
        top[to - 'A'] = disc;
    }
    position[0] = (uint8_t)(small - 'A');
    if (n > 1)
        position[1] = (uint8_t)(second - 'A');
    for (uint8_t peg = 0; peg < 3; peg++)
        for (uint64_t d = top[peg]; d < n; d = beneath[d])
            position[d] = peg;
    return i;
}

static int only_letters(const uint8_t *letters, size_t len)
{
    for (size_t i = 0; i < len; i++)
        if ((uint8_t)(letters[i] - 'A') > 2)
            return 0;
    return 1;
}

uint64_t hinz_check(const uint8_t *task, size_t len, const uint8_t *letters, size_t letters_len)
{
    struct plan p;
    uint64_t fault = planned(task, len, &p);
    if (fault)
        return fault;
    if (letters_len % 2)
        return refused(14);
    uint8_t position[LIMIT];
    size_t n = len / 2;
    if (n)
        memcpy(position, task, n);
    size_t made = walk(position, n, letters, letters_len / 2);
    if (made < letters_len / 2)
        return only_letters(letters + 2 * made, letters_len - 2 * made) ? refused(15) : refused(14);
    if (made != shortest(&p) || (n && memcmp(position, task + n, n)))
        return refused(16);
    if (routes(&p) == 1)
        return 0;
    uint8_t first[2];
    hinz_run(task, len, 0, 0, first, sizeof first);
    return memcmp(first, letters, sizeof first) != 0;
}
