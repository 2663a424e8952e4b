/* peer - the program `blocks` of document 01, in that document's own form:  peer < records > lines
 *
 * For each level of the tree the whole sorted row of patterns, by branch distance, is built,
 * slot by slot, by merging two sorted halves.  Then a depth-first recursion over the levels makes
 * every visit, one by one, in the document's order.  Plain C11, no code for vectors.
 *
 * What makes it fast within that form:
 * - An entry of a row is cost << 8 | pattern, where the cost is what the branch distance has above
 *   that of the row's first pattern (at most 1024 * 2047 for each of eight slots: 32 bits hold it).
 *   One comparison orders by branch distance, equals by smaller pattern.
 * - A slot doubles a row: to the patterns with the slot's nearer bit come the same with the farther
 *   one, each `step` higher.  These two halves are merged without branches, up to eight levels side
 *   by side.  An entry and that of the opposite pattern always have the same sum: the upper half of
 *   the merged row is the mirror image of the lower half, and only the lower half is merged.
 * - The word is d with every undecided group filled so that its codeword bits would be 0.  So the
 *   change that a pattern makes to the word depends on nothing decided before: it is one product.
 * - The way down to a node's first candidate is a loop; the recursion is for the other candidates.
 * - What depends on n, folding and mask alone is kept while records of the same code follow. */
#include <stdint.h>
#include <stdio.h>
#include <string.h>

enum { RECORD = 144, PIECE = 512, LANES = 8, LIMIT = 2047 };
_Static_assert(8 * 1024 * LIMIT < 1 << 24, "the cost of eight slots has 24 bits in an entry");
#define NONE (1 << 30)          /* more than any distance */
#define INLINE static inline __attribute__((always_inline))

/* A level of the tree, and its node that the walk is in. */
struct level {
    _Alignas(64) int32_t first; /* branch distance of the row's first pattern, */
    int32_t second;             /*   and what the second costs above it, 0 if some index is frozen */
    uint64_t change;            /* what the row's first pattern changes in the word */
    uint64_t frozen;            /* the group's frozen indices */
    uint64_t word;              /* node: the word on arrival */
    int32_t partial;            /* node: partial distance with the row's first pattern */
    int32_t candidates;         /* how many each node has */
    const uint32_t *row;
    const uint32_t *place;      /* node: its first candidate, if that is not the row's first */
    uint64_t spread;            /* parts of the group's smallest index */
};
static struct level tree[65];   /* tree[left]: `left` levels are left, this one counted */
static uint32_t rows[8 * 256];  /* the sorted rows, one after the other */

/* Fixed tables. */
static uint64_t parts_of[64];           /* [j] -> its parts: all i whose one bits are one in j */
static uint64_t filling_of[64][256];    /* [folding][pattern] -> filling of the group of index 0 */
static char tens[200], hex[512];        /* two digits of each number */

/* The code in use. */
static int code_n, code_folding, groups, group_size;
static uint64_t code_mask;
static const uint64_t *filling;         /* filling_of[folding] */
static uint8_t slots[64][8];            /* [group] -> its slots, rising */
static uint32_t slot_bit[64];           /* [slot] -> its bit in the pattern */
static struct { uint64_t bits; int above; } run[32];    /* runs of unfrozen indices: ones there, */
static int runs;                        /*   and how far above its message bits each lies */

/* The walk. */
static int32_t best;                    /* distance of the best word */
static uint64_t best_word;
static uint64_t visits, allowance;

static int ones(uint64_t w)
{
    return w ? 1 + ones(w & (w - 1)) : 0;
}

static void fill_tables(void)
{
    tree[0].first = NONE;               /* ends the way down */
    for (int j = 0; j < 64; j++)
        for (int i = 0; i < 64; i++)
            if ((i & j) == i)
                parts_of[j] |= (uint64_t)1 << i;
    for (int f = 0; f < 64; f++)        /* (i - f) & f is the next part of f, after f comes 0 */
        for (int p = 0, i = 0; ones((uint64_t)f) <= 3 && p < 1 << ones((uint64_t)f); p++) {
            for (int u = 0; u < 1 << p; u++)
                filling_of[f][u | 1 << p] = filling_of[f][u] ^ parts_of[i];
            i = (i - f) & f;
        }
    for (int i = 0; i < 100; i++)
        tens[2 * i] = (char)('0' + i / 10), tens[2 * i + 1] = (char)('0' + i % 10);
    for (int i = 0; i < 512; i++)
        hex[i] = "0123456789abcdef"[i & 1 ? i >> 1 & 15 : i >> 5];
}

static void set_code(int n, int folding, uint64_t mask)
{
    const int others = (1 << n) - 1 - folding;
    code_n = n, code_folding = folding, code_mask = mask;
    group_size = 1 << ones((uint64_t)folding);
    groups = (1 << n) / group_size;
    filling = filling_of[folding];
    for (int g = 0, smallest = 0; g < groups; g++, smallest = (smallest - others) & others) {
        struct level *v = &tree[g + 1];
        uint64_t group = 0;
        for (int p = 0, i = 0; p < group_size; p++, i = (i - folding) & folding) {
            slots[g][p] = (uint8_t)(smallest | i);
            slot_bit[smallest | i] = (uint32_t)1 << p;
            group |= (uint64_t)1 << (smallest | i);
        }
        v->frozen = mask & group;
        v->candidates = 1 << (group_size - ones(v->frozen));
        v->row = rows + ((size_t)g << group_size);
        v->spread = parts_of[smallest];
    }
    runs = 0;
    for (int i = 0, k = 0; i < 1 << n; i++)
        if (!(mask >> i & 1)) {
            if (i == 0 || mask >> (i - 1) & 1)
                run[runs].bits = 0, run[runs++].above = i - k;
            run[runs - 1].bits |= (uint64_t)1 << i;
            k++;
        }
}

/* ------------------------------------------------------------------------- rows, by merging */
/* Builds rows of `size` entries for the next `lanes` groups.  The m entries for the slots so far
 * stand at the end of each row's place.  A merge puts the lower half of the 2m entries before
 * them, then its mirror image over them. */
INLINE void build(uint32_t *row, const int lanes, const int size, uint8_t (*slot)[8],
                  struct level *v, const uint64_t *near, const uint32_t *step)
{
    uint32_t both[LANES];               /* sum of an entry and its mirror image */
    for (int e = 0; e < lanes; e++) {   /* the first two slots: four entries */
        uint32_t *end = row + e * size + size, least;
        uint32_t s = step[slot[e][0]], t = step[slot[e][1]];
        uint64_t sum = 0;
        for (int p = 0; 1 << p < size; p++)
            sum += near[slot[e][p]];
        v[e].first = (int32_t)(sum >> 8);
        least = sum & 0xff;
        end[-4] = least;
        end[-3] = least + (s < t ? s : t);
        end[-2] = least + (s < t ? t : s);
        end[-1] = least + s + t;
        both[e] = least + end[-1];
    }
    for (int p = 2, m = 4; m < size; p++, m *= 2) {
        const uint32_t *half = row + size - m, *mirror = row + size - 1;
        uint32_t *to = row + size - 2 * m;
        size_t i[LANES];                /* how many came from the half with the nearer bit */
        for (int e = 0; e < lanes; e++)
            i[e] = (size_t)(e * size), both[e] += step[slot[e][p]];
        for (; to < half; to++, mirror--)       /* the farther half from its end, mirrored */
            for (int e = 0; e < lanes; e++) {
                uint32_t nearer = half[i[e]], farther = both[e] - mirror[i[e]];
                i[e] += nearer < farther;
                to[e * size] = farther < nearer ? farther : nearer;
            }
        to = row + size - 4;
        for (const uint32_t *from = row + size - 2 * m; from < half; from += 4, to -= 4)
            for (int e = 0; e < lanes * size; e += size) {
                const uint32_t sum = both[e / size];
                uint32_t a = sum - from[e], b = sum - from[e + 1];
                uint32_t c = sum - from[e + 2], d = sum - from[e + 3];
                to[e] = d, to[e + 1] = c, to[e + 2] = b, to[e + 3] = a;
            }
    }
}

INLINE void build_all(const int size, const uint64_t *near, const uint32_t *step)
{
    switch (groups) {
    case 1: build(rows, 1, size, slots, tree + 1, near, step); break;
    case 2: build(rows, 2, size, slots, tree + 1, near, step); break;
    case 4: build(rows, 4, size, slots, tree + 1, near, step); break;
    default:
        for (int g = 0; g < groups; g += LANES)
            build(rows + g * size, LANES, size, slots + g, tree + 1 + g, near, step);
    }
}

static void build_rows(const int16_t *received)
{
    uint64_t near[64];                  /* cost << 8 | pattern of the nearer bit */
    uint32_t step[64];                  /* what the farther bit adds to an entry */
    for (int i = 0; i < 1 << code_n; i++) {
        int32_t x = received[i], minus = -(x < 0), size = (x ^ minus) - minus;
        uint32_t bit = slot_bit[i], one = -(uint32_t)(x > 0);
        near[i] = (uint32_t)((size - 256) * (size - 256)) << 8 | (bit & one);
        step[i] = ((uint32_t)size << 18) + ((bit ^ one) - one);
    }
    switch (group_size) {
    case 2: build_all(4, near, step); break;
    case 4: build_all(16, near, step); break;
    case 8: build_all(256, near, step); break;
    default:
        for (int g = 0; g < groups; g++) {
            tree[g + 1].first = (int32_t)(near[g] >> 8);
            rows[2 * g] = near[g] & 0xff, rows[2 * g + 1] = (near[g] & 0xff) + step[g];
        }
    }
    for (struct level *v = tree + 1, *end = v + groups; v < end; v++) {
        v->second = v->frozen ? 0 : (int32_t)(v->row[1] >> 8);
        v->change = filling[v->row[0] & 0xff] * v->spread;
    }
}

/* --------------------------------------------------------------------------------- the walk */
/* The word if the node takes this entry: a candidate, unless it is 1 at a frozen index. */
INLINE uint64_t word_of(const struct level *v, uint32_t entry)
{
    return v->word ^ filling[entry & 0xff] * v->spread;
}

INLINE void keep(int32_t distance, uint64_t word)
{
    if (distance < best || word < best_word)
        best = distance, best_word = word;
}

/* A node, and all below it. */
static void walk(struct level *v, int32_t partial, uint64_t word)
{
    struct level *const top = v;
    int32_t limit = best, total;
    const uint32_t *c;
    for (; (total = partial + v->first) <= limit; v--) {        /* down, to first candidates */
        v->partial = total;
        v->word = word;
        word ^= v->change;
        if (word & v->frozen) {
            c = v->row;
            do
                word = word_of(v, *++c), total = v->partial + (int32_t)(*c >> 8);
            while (word & v->frozen && total <= limit);
            if (total > limit)
                break;
            v->place = c;
        }
        partial = total;
    }
    uint64_t count = (uint64_t)(top - v);
    if (v == tree)
        keep(partial, word), limit = best;
    else
        count++;                        /* the visit that left this node */
    while (++v <= top) {                /* up again, to each node's other candidates */
        if (v->partial + v->second > limit) {
            count++;                    /* the second one leaves the node */
            continue;
        }
        c = (v->word ^ v->change) & v->frozen ? v->place : v->row;
        for (int32_t others = v->candidates - 1; others; others--) {
            uint64_t filled;
            do
                filled = word_of(v, *++c), total = v->partial + (int32_t)(*c >> 8);
            while (filled & v->frozen && total <= limit);
            count++;
            if (total > limit)
                break;
            if (v == tree + 1) {
                keep(total, filled);
            } else if (total + v[-1].first > limit) {
                count++;                /* the next node is left at its first visit */
            } else {
                visits += count;
                count = 0;
                if (visits > allowance)
                    best = -1;          /* refusal 8: nothing passes any more */
                walk(v - 1, total, filled);
            }
            limit = best;
        }
    }
    visits += count;
}

/* ------------------------------------------------------------------------------ the records */
static uint32_t le32(const uint8_t *p)
{
    return p[0] | (uint32_t)p[1] << 8 | (uint32_t)p[2] << 16 | (uint32_t)p[3] << 24;
}

/* 0 and the message (distance and visits are in `best` and `visits`), or the refusal's number. */
static int decode(const uint8_t *record, uint64_t *message)
{
    int n = record[0], folding = record[1], not_zero = record[2] | record[3], outside = 0;
    uint64_t mask = le32(record + 8) | (uint64_t)le32(record + 12) << 32;
    int16_t received[64];
    if (n < 1 || n > 6) return 1;
    for (int i = 0; i < 64; i++) {
        received[i] = (int16_t)(record[16 + 2 * i] | record[17 + 2 * i] << 8);
        outside |= (uint16_t)(received[i] + LIMIT) > 2 * LIMIT;
    }
    for (int i = 1 << n; i < 64; i++)
        not_zero |= received[i];
    if (not_zero) return 12;
    if (n < 6 && mask >> (1 << n)) return 3;
    if (folding >> n) return 4;
    if (ones((uint64_t)folding) > 3) return 5;
    if (outside) return 6;
    if (n != code_n || folding != code_folding || mask != code_mask)
        set_code(n, folding, mask);
    build_rows(received);
    allowance = le32(record + 4);
    visits = 0;
    best = NONE - 1;
    walk(&tree[groups], 0, 0);
    if (visits > allowance) return 8;
    for (int i = 0; i < runs; i++)
        *message |= (best_word & run[i].bits) >> run[i].above;
    return 0;
}

static char *put_number(char *p, uint32_t number, char after)
{
    char digits[20] = "";
    int at = 10;
    for (; number >= 100; number /= 100)
        memcpy(digits + (at -= 2), tens + 2 * (number % 100), 2);
    memcpy(digits + (at -= 2), tens + 2 * number, 2);
    at += number < 10;
    digits[10] = after;
    memcpy(p, digits + at, 11);         /* what is too much will be written over */
    return p + 11 - at;
}

static char *put_line(char *p, uint32_t number, const uint8_t *record, size_t size)
{
    uint64_t message = 0;
    int refusal = size < RECORD ? 13 : decode(record, &message);
    p = put_number(p, number, ' ');
    if (refusal) {
        memcpy(p, "refused ", 8);
        return put_number(p + 8, (uint32_t)refusal, '\n');
    }
    memcpy(p, "found ", 6);
    for (int i = 0; i < 8; i++)
        memcpy(p + 6 + 2 * i, hex + 2 * (message >> (56 - 8 * i) & 255), 2);
    p[22] = ' ';
    p = put_number(p + 23, (uint32_t)best, ' ');
    return put_number(p, (uint32_t)visits, '\n');
}

int main(void)
{
    static uint8_t piece[PIECE * RECORD];
    static char text[PIECE * 64];       /* a line has at most 56 characters */
    uint32_t number = 0;
    size_t want, got;
    fill_tables();
    do {
        char *p = text;
        want = RECORD * (size_t)(UINT32_MAX - number < PIECE ? UINT32_MAX - number : PIECE);
        got = fread(piece, 1, want, stdin);     /* less only at the end of the input */
        for (size_t at = 0; at < got; at += RECORD)
            p = put_line(p, number++, piece + at, got - at);
        if (fwrite(text, 1, (size_t)(p - text), stdout) != (size_t)(p - text))
            return 1;
    } while (want > 0 && got == want);
    return ferror(stdin) || fflush(stdout) ? 1 : 0;
}
