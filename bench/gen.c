/* gen - deterministic makers of files: document 01's 144-byte records, document 02's 24-byte requests.
 *
 *   gen mix   SEED COUNT [MOST]           all n, foldings, masks, damages; allowances
 *                                         up to MOST (default 200000) where walks may be long
 *   gen rm    SEED COUNT FOLDING SIGMA [ALLOWANCE]
 *                                         RM(64,57); SIGMA is the noise in levels, 0 is clean
 *   gen code  SEED COUNT N [SIGMA [MOST]] one random mask and folding for the whole file
 *   gen requests   SEED COUNT             all n, foldings, masks, messages, damages
 *   gen rmrequests SEED COUNT             RM(64,57), all of them good
 *
 * FOLDING "any" with rm means a random folding of 0..3 ones for each record.
 * The same arguments always give the same bytes: whole-number arithmetic only.
 */
#include <stdint.h>
#include <stdio.h>
#include <stdlib.h>
#include <string.h>

enum { LIMIT = 2047 };          /* the greatest magnitude of a level */

static uint64_t state;

/* splitmix64 */
static uint64_t rnd(void)
{
    uint64_t z = (state += 0x9e3779b97f4a7c15u);
    z = (z ^ z >> 30) * 0xbf58476d1ce4e5b9u;
    z = (z ^ z >> 27) * 0x94d049bb133111ebu;
    return z ^ z >> 31;
}

static uint32_t below(uint32_t n) { return (uint32_t)((rnd() >> 32) * n >> 32); }

/* A sample near to Gaussian with the given deviation: twelve uniforms added. */
static int noise(int sigma)
{
    int64_t sum = 0;
    for (int i = 0; i < 6; i++) {
        uint64_t r = rnd();
        sum += (int64_t)(r & 0xffffff) + (int64_t)(r >> 40);
    }
    sum -= 6 * (int64_t)0xffffff;
    return (int)(sum * sigma / 0x1000000);
}

struct record {
    int n, folding, byte2, byte3;
    uint32_t allowance;
    uint64_t mask;
    int level[64];
};

static uint64_t ones(int n) { return n == 6 ? ~(uint64_t)0 : ((uint64_t)1 << (1 << n)) - 1; }

static int count(uint64_t w)
{
    int c = 0;
    for (; w; w &= w - 1)
        c++;
    return c;
}

/* x_i is the sum of d_j over all j that hold i. */
static uint64_t encode(uint64_t d)
{
    static const uint64_t low[6] = {
        0x5555555555555555u, 0x3333333333333333u, 0x0f0f0f0f0f0f0f0fu,
        0x00ff00ff00ff00ffu, 0x0000ffff0000ffffu, 0x00000000ffffffffu};
    for (int b = 0; b < 6; b++)
        d ^= d >> (1 << b) & low[b];
    return d;
}

/* Bytes 0 to 15, the same in a record and in a request. */
static void put_fields(uint8_t *b, const struct record *r)
{
    b[0] = (uint8_t)r->n, b[1] = (uint8_t)r->folding;
    b[2] = (uint8_t)r->byte2, b[3] = (uint8_t)r->byte3;
    for (int i = 0; i < 4; i++)
        b[4 + i] = (uint8_t)(r->allowance >> 8 * i);
    for (int i = 0; i < 8; i++)
        b[8 + i] = (uint8_t)(r->mask >> 8 * i);
}

static void put(const struct record *r)
{
    uint8_t b[144];
    put_fields(b, r);
    for (int i = 0; i < 64; i++) {
        b[16 + 2 * i] = (uint8_t)r->level[i];
        b[17 + 2 * i] = (uint8_t)((unsigned)r->level[i] >> 8);
    }
    fwrite(b, 1, sizeof b, stdout);
}

static void put_request(const struct record *r, uint64_t message)
{
    uint8_t b[24];
    put_fields(b, r);
    for (int i = 0; i < 8; i++)
        b[16 + i] = (uint8_t)(message >> 8 * i);
    fwrite(b, 1, sizeof b, stdout);
}

static int clip(int v) { return v < -LIMIT ? -LIMIT : v > LIMIT ? LIMIT : v; }

static void noisy_word(struct record *r, int sigma)
{
    uint64_t x = encode(rnd() & ~r->mask & ones(r->n));
    for (int i = 0; i < 1 << r->n; i++)
        r->level[i] = clip((x >> i & 1 ? 256 : -256) + (sigma ? noise(sigma) : 0));
}

/* A folding of at most three ones below n. */
static int some_folding(int n)
{
    int f;
    do
        f = (int)below(1u << n);
    while (count((uint64_t)f) > 3);
    return f;
}

static uint64_t some_mask(int n)
{
    uint64_t all = ones(n), m = 0;
    int size = 1 << n, kind = (int)below(16), limit;
    switch (kind) {
    case 0: return 0;
    case 1: return all;
    case 2: return all & ~((uint64_t)1 << below((uint32_t)size));
    case 3: return (uint64_t)1 << below((uint32_t)size);
    case 4: /* the first few frozen */
        limit = (int)below((uint32_t)size);
        return limit ? all >> (size - limit) : 0;
    case 5: /* the last few frozen */
        limit = (int)below((uint32_t)size);
        return limit ? all & ~(all >> limit) : 0;
    case 6: case 7: case 8: /* Reed-Muller: few ones in the index are frozen */
        limit = (int)below((uint32_t)n + 1);
        for (int i = 0; i < size; i++)
            if (count((uint64_t)i) < limit)
                m |= (uint64_t)1 << i;
        return m;
    default: /* any density in sixteenths */
        limit = 1 + (int)below(15);
        for (int i = 0; i < size; i++)
            if ((int)below(16) < limit)
                m |= (uint64_t)1 << i;
        return m;
    }
}

static void some_levels(struct record *r)
{
    static const int sigmas[] = {0, 5, 20, 40, 60, 80, 100, 120, 150, 200, 300, 500};
    static const int sets[][5] = {
        {-256, 256, 0, 256, -256}, {0, 0, 0, 0, 0}, {-1, 0, 1, 0, 1}, {-256, 256, -256, 256, 256},
        {-LIMIT, LIMIT, 0, LIMIT, -LIMIT}, {-300, -100, 100, 300, 200}, {-255, -256, 255, 256, 257},
        {1, 2, 3, 4, -5}, {128, -128, 64, -64, 32}, {512, 256, -512, -256, 0}};
    int size = 1 << r->n, kind = (int)below(10), set = (int)below(10);
    if (kind < 5) {
        noisy_word(r, sigmas[below(12)]);
        if (kind == 4) /* a few levels of 0, or rounded to a step of 64 */
            for (int i = 0; i < size; i++)
                r->level[i] = below(8) ? r->level[i] / 64 * 64 : 0;
    } else if (kind < 7) {
        for (int i = 0; i < size; i++)
            r->level[i] = (int)below(2 * LIMIT + 1) - LIMIT;
    } else if (kind < 9) {
        for (int i = 0; i < size; i++)
            r->level[i] = sets[set][below(5)];
    } else {
        int width = 1 + (int)below(40);
        for (int i = 0; i < size; i++)
            r->level[i] = (int)below((uint32_t)(2 * width + 1)) - width;
    }
}

static uint32_t some_allowance(int n, uint32_t most)
{
    if (n <= 3 && below(4) == 0)
        return below(2) ? 0xffffffffu : (uint32_t)rnd();
    if (below(16) == 0)
        return below(8);
    if (below(5) == 0)
        return most;
    uint32_t a = 1;
    while (a < most && below(10))
        a = a * 3 + below(3);
    return a < most ? a : most;
}

/* One damage; several may be laid over each other. */
static void damage(struct record *r)
{
    int size = r->n >= 1 && r->n <= 6 ? 1 << r->n : 64;
    int slot;
    switch (below(10)) {
    case 0: {
        static const int bad[] = {0, 7, 8, 16, 64, 128, 254, 255, 71, 134};
        r->n = bad[below(10)];
        break;
    }
    case 1: r->byte2 = 1 << below(8); break;
    case 2: r->byte3 = 1 << below(8); break;
    case 3: /* a level beyond N */
        if (size < 64)
            r->level[size + (int)below((uint32_t)(64 - size))] = below(2) ? 1 << below(15) : -1 - (int)below(32768);
        break;
    case 4: /* mask at or above N */
        if (size < 64)
            r->mask |= (uint64_t)1 << (below(3) ? size + (int)below((uint32_t)(64 - size)) : size);
        break;
    case 5: /* folding at or above n */
        if (r->n <= 6)
            r->folding |= 1 << (below(3) ? r->n + (int)below((uint32_t)(8 - r->n)) : r->n);
        break;
    case 6: r->folding |= (int)below(256); break;
    case 7: r->folding = (1 << (r->n & 7)) - 1; break;
    default: {
        static const int edge[] = {LIMIT, LIMIT + 1, -LIMIT, -LIMIT - 1, LIMIT - 1, 1 - LIMIT, 32767, -32768, 1025, -1025};
        slot = (int)below(4);
        slot = slot == 0 ? 0 : slot == 1 ? size - 1 : (int)below((uint32_t)size);
        r->level[slot] = edge[below(10)];
    }
    }
}

static void mixed(uint32_t most)
{
    struct record r;
    memset(&r, 0, sizeof r);
    r.n = 1 + (int)below(6);
    if (below(3) == 0)
        r.n = 6;
    r.folding = some_folding(r.n);
    r.mask = some_mask(r.n);
    r.allowance = some_allowance(r.n, most);
    some_levels(&r);
    if (below(12) == 0)
        for (uint32_t k = 1 + below(3); k; k--)
            damage(&r);
    put(&r);
}

/* A message on either side of its border: of `bits` bits, or with a one at or above that. */
static uint64_t some_message(int bits)
{
    uint64_t all = bits ? ~(uint64_t)0 >> (64 - bits) : 0, message = rnd() & all;
    uint32_t kind = below(16);
    switch (kind) {
    case 0: return 0;
    case 1: return all;
    case 2: return all ^ all >> 1;      /* its highest bit alone */
    case 3: return bits < 64 ? (uint64_t)1 << bits : message;
    case 4: return bits < 64 ? message | (uint64_t)1 << (bits + (int)below((uint32_t)(64 - bits))) : message;
    case 5: return rnd();
    default: return message;
    }
}

static void mixed_request(void)
{
    struct record r;
    memset(&r, 0, sizeof r);
    r.n = 1 + (int)below(6);
    r.folding = some_folding(r.n);
    r.mask = some_mask(r.n);
    r.allowance = (uint32_t)rnd();
    r.allowance >>= below(32);
    uint64_t message = some_message(count(ones(r.n) & ~r.mask));
    if (below(6) == 0)                  /* those of levels change nothing */
        for (uint32_t k = 1 + below(3); k; k--)
            damage(&r);
    put_request(&r, message);
}

int main(int argc, char **argv)
{
    if (argc < 4) {
        fprintf(stderr, "gen mix|rm|code|requests|rmrequests SEED COUNT ...\n");
        return 2;
    }
    state = strtoull(argv[2], NULL, 0) * 0xd1342543de82ef95u + 1;
    uint64_t total = strtoull(argv[3], NULL, 0);
    if (!strcmp(argv[1], "mix")) {
        uint32_t most = argc > 4 ? (uint32_t)strtoul(argv[4], NULL, 0) : 200000;
        for (; total; total--)
            mixed(most);
    } else if (!strcmp(argv[1], "rm") && argc > 5) {
        int any = !strcmp(argv[4], "any"), sigma = atoi(argv[5]);
        struct record r = {.n = 6, .mask = 0x0000000100010117u};
        r.allowance = argc > 6 ? (uint32_t)strtoul(argv[6], NULL, 0) : 0xffffffffu;
        r.folding = (int)strtol(argv[4], NULL, 0);
        for (; total; total--) {
            if (any)
                r.folding = some_folding(6);
            noisy_word(&r, sigma);
            put(&r);
        }
    } else if (!strcmp(argv[1], "code") && argc > 4) {
        struct record r = {.n = atoi(argv[4])};
        int sigma = argc > 5 ? atoi(argv[5]) : 100;
        if (r.n < 1 || r.n > 6)
            return 2;
        r.allowance = argc > 6 ? (uint32_t)strtoul(argv[6], NULL, 0) : 200000;
        r.folding = some_folding(r.n);
        do
            r.mask = rnd() & ones(r.n);
        while (r.mask == ones(r.n));
        for (; total; total--) {
            noisy_word(&r, sigma);
            put(&r);
        }
    } else if (!strcmp(argv[1], "requests")) {
        for (; total; total--)
            mixed_request();
    } else if (!strcmp(argv[1], "rmrequests")) {
        struct record r = {.n = 6, .folding = 7, .allowance = 16, .mask = 0x0000000100010117u};
        for (; total; total--)
            put_request(&r, rnd() >> 7);        /* 57 bits */
    } else {
        fprintf(stderr, "gen mix|rm|code|requests|rmrequests SEED COUNT ...\n");
        return 2;
    }
    return fflush(stdout) ? 1 : 0;
}
