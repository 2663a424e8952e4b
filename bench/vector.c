/* vector - the program `blocks` of document 01, beyond that document's form:  vector < records > lines
 *
 * It does the same job as peer.c with vectors by hand, to show how far a decoder can go.  It gains
 * most where rows are long, that is for foldings of two and three connection sets.
 * - Slots are renumbered so that each group's bits lie side by side in a word: a group is a shift
 *   away, and one multiplication carries a choice on to all the groups it reaches.
 * - A word is told by its flips, the slots where it leaves the nearest word (the nearer bit in each
 *   slot).  A flip adds 1024 * |level| to the distance, so distance = floor + 1024 * cost, where
 *   cost is the sum of |level| over the flips.  The walk adds and compares only these costs.
 * - A key is cost << 8 | pattern: one comparison orders by distance, equals by smaller pattern.
 * - Rows are merged slot after slot for four levels of the tree at once, a level in each lane of a
 *   vector, by merging networks without branches.  A row is its own mirror image (flip all slots),
 *   so that only the lower half of each merge is done.
 * - Rows are dealt into a list for each setting of the frozen bits, so that the walk meets nothing
 *   but candidates; only if the walk needs it, and only up to the keys that can still pass.
 * Every visit is still made, one by one. */
#include <stdint.h>
#include <stdio.h>
#include <string.h>
#ifdef __SSE2__
#include <emmintrin.h>
#endif

enum { RECORD = 144, PIECE = 512, LIMIT = 2047 };
#define COST (~0xff)            /* the cost part of a key */
#define END (1 << 30)           /* stands behind the last candidate of a list, */
#define MORE (END - 1)          /*   or behind the last one that can pass if more follow */
#define UNIT 0x3f800000         /* added to the keys in rows: as floats they lie in 1..2 */
#define INLINE static inline __attribute__((always_inline))

typedef int32_t quad __attribute__((vector_size(16), may_alias));  /* one for each of four levels */

/* Fixed tables. */
static const uint64_t has_bit[6] = {            /* the indices that have a one in each bit */
    0xaaaaaaaaaaaaaaaau, 0xccccccccccccccccu, 0xf0f0f0f0f0f0f0f0u,
    0xff00ff00ff00ff00u, 0xffff0000ffff0000u, 0xffffffff00000000u};
static uint8_t byte_map[256];           /* the map between d and x on a byte */
static uint8_t start_of[4][256][256];   /* [k][frozen][d bits] -> where their list starts */
static uint64_t spread_of[4][64];       /* [k][group] -> a one in each group it reaches */
static uint8_t slot_of[7][64][64];      /* [n][folding][new index] -> slot */

/* A level of the tree. */
struct level {
    const uint8_t *start;       /* [d bits of the group] -> where their list starts, in pairs */
    int32_t *lists;
    uint64_t spread;
    int32_t shift;              /* place of the group's bits in a word */
    int32_t allow;              /* what keys may lie above best */
    const int32_t *row;         /* the sorted row: every fourth number */
    int32_t nearest, free;      /* pattern without flips; how many indices are not frozen */
    int32_t place;              /* on the first way down: place in the row */
    int32_t cost;               /* the node that the walk is in: cost and word on arrival, */
    uint64_t d;
    const int32_t *next;        /*   and its second candidate */
};
static struct level level[64], *last;   /* in the order of the walk; the last in use */
static quad rows[512];
static int32_t lists[4096 + 8];

/* The code in use, and the swaps that renumber the bits of a word. */
static int code_n, code_folding, k, levels, swaps, swap_shift[6];
static uint64_t code_mask, swap_bits[6];
static uint16_t code_place[64];         /* slot -> 64 * place in the group + level */

/* The walk. */
static int32_t best;                    /* key of the best word, without pattern */
static uint64_t best_d;
static int64_t visits, allowance;
static struct level *built;             /* lists are ready from here on */

static uint64_t map_word(uint64_t d)
{
    for (int b = 0; b < 6; b++)
        d ^= (d & has_bit[b]) >> (1 << b);
    return d;
}

static void fill_tables(void)
{
    for (int i = 0; i < 256; i++)
        byte_map[i] = (uint8_t)map_word((uint64_t)i);
    for (int kk = 0; kk < 4; kk++) {
        for (int frozen = 0; frozen < 1 << (1 << kk); frozen++) {
            /* start: the frozen bits closed up to a number, times the length of a list */
            uint8_t *start = start_of[kk][frozen];
            int place = (1 << kk) - __builtin_popcount((unsigned)frozen);
            for (int b = 0; b < 8; b++) {
                int mine = frozen >> b & 1 ? 1 << place++ : 0;
                for (int i = 0; i < 1 << b; i++)
                    start[i + (1 << b)] = (uint8_t)(start[i] ^ mine);
            }
        }
        for (int g = 0; g < 64 >> kk; g++)
            for (int h = 0; h <= g; h++)
                if ((h & g) == h)
                    spread_of[kk][g] |= (uint64_t)1 << (h << kk);
    }
    for (int n = 1; n <= 6; n++)        /* folding's bits of the slot lowest, the others above */
        for (int f = 0; f < 1 << n; f++)
            for (int at = 0, g = 0, others = (1 << n) - 1 - f; at < 1 << n; g = (g - others) & others)
                for (int p = 0, i = 0; i < 1 << __builtin_popcount((unsigned)f); i++, p = (p - f) & f)
                    slot_of[n][f][at++] = (uint8_t)(g | p);
}

INLINE uint64_t swap(uint64_t w, int i)
{
    uint64_t t = (w >> swap_shift[i] ^ w) & swap_bits[i];
    return w ^ t ^ t << swap_shift[i];
}

/* A word of new indices as a word of slots. */
static uint64_t by_slot(uint64_t w)
{
    for (int i = swaps; i-- > 0;)
        w = swap(w, i);
    return w;
}

static void set_code(int n, int folding, uint64_t mask)
{
    int bit[6] = {0, 1, 2, 3, 4, 5};    /* the slot's bit at each bit of the new index */
    code_n = n, code_folding = folding, code_mask = mask;
    k = __builtin_popcount((unsigned)folding);
    levels = 1 << (n - k);
    swaps = 0;
    for (int to = 0; to < n; to++) {
        int from = to;
        while (1 << bit[from] != slot_of[n][folding][1 << to])
            from++;
        if (from == to)
            continue;
        bit[from] = bit[to];
        swap_shift[swaps] = (1 << from) - (1 << to);
        swap_bits[swaps] = has_bit[to] & ~has_bit[from];
        mask = swap(mask, swaps++);
    }
    int group = 1 << k, size = 1 << group;
    for (int i = 0; i < 1 << n; i++)
        code_place[slot_of[n][folding][i]] = (uint16_t)((i & (group - 1)) * 64 + levels - 1 - (i >> k));
    last = &level[levels - 1];
    for (int g = 0; g < levels; g++) {
        struct level *v = last - g;
        int frozen = (int)(mask >> (g << k)) & (size - 1);
        v->start = start_of[k][frozen];
        v->free = group - __builtin_popcount((unsigned)frozen);
        v->lists = lists + 2 * size * (v - level);
        v->row = (int32_t *)(rows + (v - level) / 4 * size) + (v - level) % 4;
        v->spread = spread_of[k][g];
        v->shift = g << k;
    }
}

/* ------------------------------------------------------------------------- rows, by merging */

#ifdef __SSE2__
INLINE quad lower(quad a, quad b) { return (quad)_mm_min_ps((__m128)a, (__m128)b); }
INLINE quad upper(quad a, quad b) { return (quad)_mm_max_ps((__m128)a, (__m128)b); }
#else
INLINE quad lower(quad a, quad b) { quad m = a < b; return (a & m) | (b & ~m); }
INLINE quad upper(quad a, quad b) { quad m = a < b; return (b & m) | (a & ~m); }
#endif

/* The stages of distance count/2, .. 2, 1 of a merging network. */
INLINE void stages(quad *r, const int count)
{
    for (int d = count / 2; d > 0; d /= 2)
        for (int i = 0; i < count; i++)
            if (!(i & d)) {
                quad t = r[i];
                r[i] = lower(t, r[i + d]);
                r[i + d] = upper(t, r[i + d]);
            }
}

/* Adds a slot to a row: merges the m keys at a with the same keys plus step (above 0) to 2m keys.
 * Only the lower m are merged; the i-th key from below and the i-th from above make `both`. */
INLINE void add_slot(quad *a, const int m, quad step, quad *both)
{
    const int h = m / 2, q = m / 4, far = m / 16;
    *both += step;
    if (m == 1)
        a[1] = a[0] + step;
    if (m == 2)
        a[1] = lower(a[1], a[0] + step);
    if (m == 4) {
        quad t = a[0] + step, x = lower(a[2], a[1] + step), y = upper(a[1], lower(a[3], t));
        a[1] = lower(a[1], t);
        a[2] = lower(x, y);
        a[3] = upper(x, y);
    }
    /* a[i] against a[m-1-i] + step, then the stages of distance h and q; what is known to be in
     * order is left out. */
    for (int i = 0; m > 4 && i < q / 2; i++) {
        const int j = q - 1 - i, y = q + i, z = h - 1 - i;
        quad a0 = a[i], a1 = a[j], a2 = a[y], a3 = a[z];
        quad b0 = lower(a[i + h], a3 + step), b1 = lower(a[j + h], a2 + step);
        quad b2 = upper(a2, lower(a[y + h], a1 + step)), b3 = upper(a3, lower(a[z + h], a0 + step));
        a2 = lower(a2, a1 + step);
        a3 = lower(a3, a0 + step);
        a[j] = lower(a1, a3), a[z] = upper(a1, a3), a[y] = a2;
        a[i + h] = lower(b0, b2), a[y + h] = upper(b0, b2);
        a[j + h] = lower(b1, b3), a[z + h] = upper(b1, b3);
    }
    /* The stages of distance q/2 down to 4 ... */
    for (int g = 0; far > 1 && g < m; g += 4 * far)
        for (int i = g; i < g + 4; i++) {
            quad r[8];
            for (int e = 0; e < far; e++)
                r[e] = a[i + 4 * e];
            stages(r, far);
            for (int e = 0; e < far; e++)
                a[i + 4 * e] = r[e];
        }
    /* ... then 2 and 1, and the mirror image. */
    for (int i = 0; m > 1 && i < m; i += 4) {
        quad r[4];
        for (int e = 0; e < 4 && e < m; e++)
            r[e] = a[i + e];
        if (m > 8)
            stages(r, 4);
        if (m == 8)
            stages(r, 2), stages(r + 2, 2);
        for (int e = 0; e < 4 && e < m; e++) {
            a[i + e] = r[e];
            a[2 * m - 1 - i - e] = *both - r[e];
        }
    }
}

/* Sorts the rows of all levels.  Gives the nearest word, and the floor, its distance. */
static uint64_t build_rows(const int16_t *in, int32_t *floor)
{
    static int32_t slots[8 * 64] __attribute__((aligned(16)));
    int32_t least[64] __attribute__((aligned(16))), sum = 0;
    const int group = 1 << k;
    uint64_t nearest = 0;
#pragma GCC unroll 8
    for (int i = 0; i < 1 << code_n; i++)
        slots[code_place[i]] = in[i];
    for (int l = 0; l < levels; l += 4) {
        quad *a = rows + (l / 4 << group), step[8], low = {0}, key = {UNIT, UNIT, UNIT, UNIT};
        for (int p = 0; p < group; p++) {
            quad x = *(quad *)&slots[64 * p + l], one = x > 0, minus = x >> 31, size = (x ^ minus) - minus;
            key |= one & 1 << p;
            step[p] = (size << 8) + ((one ^ 1 << p) - one);     /* the flip sets or clears bit p */
            low += (size - 256) * (size - 256);
        }
        quad both = key + key;
        a[0] = key;
        add_slot(a, 1, step[0], &both);
        if (k > 0)
            add_slot(a, 2, step[1], &both);
        if (k > 1) {
            add_slot(a, 4, step[2], &both);
            add_slot(a, 8, step[3], &both);
        }
        if (k > 2) {
            add_slot(a, 16, step[4], &both);
            add_slot(a, 32, step[5], &both);
            add_slot(a, 64, step[6], &both);
            add_slot(a, 128, step[7], &both);
        }
        *(quad *)&least[l] = low;
        for (int e = 0; e < 4; e++)
            level[l + e].nearest = key[e] & 0xff;
    }
    for (int l = levels - 1; l >= 0; l--) {
        struct level *v = &level[l];
        /* partial distance > best distance means: cost > best cost + floor of the levels below / 1024 */
        v->allow = sum >> 10 << 8 | 0xff;
        sum += least[l];
        nearest |= (uint64_t)v->nearest << v->shift;
    }
    *floor = sum;
    return nearest;
}

/* --------------------------------------------------------------------------------- the walk */

/* Deals a row into lists; the change of the group's d bits takes the place of the pattern. */
static void build_lists(struct level *v)
{
    const int size = 1 << (1 << k), each = 1 << v->free;
    const int32_t most = best + v->allow + UNIT;
    uint16_t next[256];
    for (int s = 0; s < size; s += each)
        next[s] = (uint16_t)(2 * s);
    for (int i = 0; i < size && v->row[4 * i] <= most; i++) {
        int32_t key = v->row[4 * i];
        int change = byte_map[(key & 0xff) ^ v->nearest];
        v->lists[next[v->start[change]]++] = ((key - UNIT) & COST) | change;
    }
    for (int s = 0; s < size; s += each)
        v->lists[next[s]] = next[s] == 2 * s + each ? END : MORE;
}

INLINE int start_at(const struct level *v, uint64_t d)
{
    return v->start[(uint8_t)(d >> v->shift)];
}

/* The node's list.  If nothing is frozen there is but one, and no need to wait for d. */
INLINE const int32_t *list_at(const struct level *v, uint64_t d)
{
    return v->free == 1 << k ? v->lists : v->lists + 2 * start_at(v, d);
}

static void keep(int32_t cost, uint64_t d)
{
    d = by_slot(d);
    if (cost < best || d < best_d) {
        best = cost;
        best_d = d;
    }
}

/* A node from candidate c on; there is a best word.  d is the word without flips from here on.
 * The way down to first candidates is a loop, the other candidates are walked by recursion. */
static void walk(struct level *v, const int32_t *c, int32_t cost, uint64_t d)
{
    struct level *const top = v;
    int32_t limit = best;
    int64_t count = 1;
    for (; cost + *c <= limit + v->allow; count++) {
        v->next = c + 1;
        v->cost = cost;
        v->d = d;
        cost += *c & COST;
        d ^= (uint64_t)(*c & 0xff) * v->spread;
        if (v++ == last) {
            keep(cost, d);
            limit = best;
            break;
        }
        c = list_at(v, d);
    }
    while (v > top) {
        v--;
        for (c = v->next; *c != END; c++) {
            count++;
            if (v->cost + *c > limit + v->allow)
                break;
            cost = v->cost + (*c & COST);
            d = v->d ^ (uint64_t)(*c & 0xff) * v->spread;
            if (v == last) {
                keep(cost, d);
            } else {
                visits += count;
                count = 0;
                if (visits > allowance)
                    best = -END;        /* so that nothing passes any more */
                walk(v + 1, list_at(v + 1, d), cost, d);
            }
            limit = best;
        }
    }
    visits += count;
}

/* The whole walk: the first way down finds a word, then the nodes on it, the last one first. */
static void search(uint64_t d)
{
    int32_t cost = 0;
    for (struct level *v = level; v <= last; v++) {
        const int32_t *key = v->row;
        v->d = d;
        v->cost = cost;
        if (v->free < 1 << k) {
            int start = start_at(v, d), change;
            while (v->start[change = byte_map[(*key & 0xff) ^ v->nearest]] != start)
                key += 4;
            cost += (*key - UNIT) & COST;
            d ^= (uint64_t)change * v->spread;
        }
        v->place = (int32_t)(key - v->row);
    }
    best = cost;
    best_d = by_slot(d);
    visits = levels;
    built = last + 1;
    for (int l = levels - 1; l >= 0; l--) {
        struct level *v = &level[l];
        if (v->free == 0)
            continue;
        /* there is a second candidate; does it pass? */
        int32_t most = best - v->cost + v->allow + UNIT;
        const int32_t *key = v->row + v->place + 4;
        int start = start_at(v, v->d);
        while (*key <= most && v->start[byte_map[(*key & 0xff) ^ v->nearest]] != start)
            key += 4;
        if (*key > most) {
            visits++;
            continue;
        }
        while (built > v)
            build_lists(--built);
        walk(v, v->lists + 2 * start + 1, v->cost, v->d);
    }
}

/* ------------------------------------------------------------------------------ the records */

static uint32_t le32(const uint8_t *p)
{
    return p[0] | (uint32_t)p[1] << 8 | (uint32_t)p[2] << 16 | (uint32_t)p[3] << 24;
}

/* The bits of d at unfrozen indices closed up, run after run. */
static uint64_t message_of(uint64_t d)
{
    uint64_t free = ~code_mask & ~(uint64_t)0 >> (64 - (1 << code_n)), message = 0;
    for (int at = 0; free;) {
        int low = __builtin_ctzll(free);
        uint64_t above = ~(free >> low);
        int length = above ? __builtin_ctzll(above) : 64;
        uint64_t run = ~(uint64_t)0 >> (64 - length);
        message |= (d >> low & run) << at;
        at += length;
        free &= ~(run << low);
    }
    return message;
}

/* 0 and the message and distance (visits are in `visits`), or the number of a refusal. */
static int decode(const uint8_t *r, uint64_t *message, int32_t *distance)
{
    int n = r[0], folding = r[1], bad = r[2] | r[3];
    uint64_t mask = le32(r + 8) | (uint64_t)le32(r + 12) << 32;
    int16_t in[64];
    if (n < 1 || n > 6)
        return 1;
    for (int i = 0; i < 64; i++)
        in[i] = (int16_t)(r[16 + 2 * i] | r[17 + 2 * i] << 8);
    for (int i = 1 << n; i < 64; i++)
        bad |= in[i];
    if (bad)
        return 12;
    if (n < 6 && mask >> (1 << n))
        return 3;
    if (folding >> n)
        return 4;
    if (__builtin_popcount((unsigned)folding) > 3)
        return 5;
    for (int i = 0; i < 64; i++)
        bad |= (uint16_t)(in[i] + LIMIT) > 2 * LIMIT;
    if (bad)
        return 6;
    if (n != code_n || folding != code_folding || mask != code_mask)
        set_code(n, folding, mask);
    allowance = le32(r + 4);
    search(map_word(build_rows(in, distance)));
    if (visits > allowance)
        return 8;
    *message = message_of(best_d);
    *distance += (best >> 8) * 1024;
    return 0;
}

static char *put_number(char *p, uint32_t number)
{
    char digits[10];
    int i = 10;
    do
        digits[--i] = (char)('0' + number % 10);
    while (number /= 10);
    memcpy(p, digits + i, (size_t)(10 - i));
    return p + 10 - i;
}

static char *put_line(char *p, uint32_t number, const uint8_t *record, size_t size)
{
    uint64_t message = 0;
    int32_t distance = 0;
    int refusal = size < RECORD ? 13 : decode(record, &message, &distance);
    p = put_number(p, number);
    if (refusal) {
        memcpy(p, " refused ", 9);
        p = put_number(p + 9, (uint32_t)refusal);
    } else {
        memcpy(p, " found ", 7);
        p += 7;
        for (int i = 60; i >= 0; i -= 4)
            *p++ = "0123456789abcdef"[message >> i & 15];
        *p++ = ' ';
        p = put_number(p, (uint32_t)distance);
        *p++ = ' ';
        p = put_number(p, (uint32_t)visits);
    }
    *p++ = '\n';
    return p;
}

int main(void)
{
    static uint8_t piece[PIECE * RECORD];
    static char text[PIECE * 64];
    uint32_t number = 0;
    size_t want, got;
    fill_tables();
    do {
        char *p = text;
        want = RECORD * (size_t)(UINT32_MAX - number < PIECE ? UINT32_MAX - number : PIECE);
        got = fread(piece, 1, want, stdin);     /* less only at the end of the input */
        for (size_t at = 0; at < got; at += RECORD)
            p = put_line(p, number++, piece + at, got - at);
        if (fwrite(text, 1, (size_t)(p - text), stdout) != (size_t)(p - text))
            return 1;
    } while (want > 0 && got == want);
    return ferror(stdin) || fflush(stdout) ? 1 : 0;
}
