/* make - the program `make` of document 02, K2:  make < requests > records 2> numbers
 *
 * Written from documents 01 and 02.  Plain C11, no code for vectors.
 *
 * What makes it fast:
 * - A message goes to the unfrozen indices in six steps: in step k a bit moves up by 2^k or stays.
 *   Which bits move depends on the mask alone and is kept while requests of the same mask follow.
 * - A codeword takes six steps as well: step k adds to each index without bit k the one that has it.
 * - The levels of eight slots are copied from a table of all bytes of a codeword. */
#include <stdint.h>
#include <stdio.h>
#include <string.h>

enum { REQUEST = 24, RECORD = 144, FIELDS = 16, PIECE = 1024 };

static uint8_t levels_of[256][16];      /* [byte of a codeword] -> the levels of its slots */

/* The mask in use; at first nothing is frozen, and nothing moves. */
static uint64_t code_mask;
static int frozen;                      /* how many indices are */
static uint64_t moved[6];               /* [k] -> where a bit is that step k has moved */

static int ones(uint64_t w)
{
    int count = 0;
    for (; w; w &= w - 1)
        count++;
    return count;
}

static uint64_t le(const uint8_t *p, int bytes)
{
    uint64_t number = 0;
    while (bytes--)
        number = number << 8 | p[bytes];
    return number;
}

/* The ideal level of bit 1 is 256, bytes 0 and 1; that of bit 0 is -256, bytes 0 and 255. */
static void fill_levels(void)
{
    for (int byte = 0; byte < 256; byte++)
        for (int i = 0; i < 8; i++)
            levels_of[byte][2 * i + 1] = byte >> i & 1 ? 1 : 255;
}

/* A message bit must rise by the number of frozen indices below its own.  Step k is for bit k of
 * that number; the steps are taken from the last to the first, so they are undone here in turn. */
static void set_mask(uint64_t mask)
{
    uint64_t places = ~mask;            /* where the message's bits are after steps 5 to k */
    uint64_t counted = mask << 1;       /* each one stands for 2^k frozen indices below it */
    for (int k = 0; k < 6; k++) {
        uint64_t odd = counted;         /* bit k of the number of frozen indices below */
        for (int shift = 1; shift < 64; shift *= 2)
            odd ^= odd << shift;
        moved[k] = places & odd;
        places = (places ^ moved[k]) | moved[k] >> (1 << k);
        counted &= ~odd;
    }
    code_mask = mask;
    frozen = ones(mask);
}

/* The information word: bit 0 of the message at the smallest unfrozen index, and so on. */
static uint64_t place(uint64_t message)
{
    for (int k = 5; k >= 0; k--)
        message = (message & ~moved[k]) | (message << (1 << k) & moved[k]);
    return message & ~code_mask;
}

/* x_i is the sum of all d_j such that every one bit of i is also one in j. */
static uint64_t codeword(uint64_t d)
{
    static const uint64_t without[6] = {    /* the indices without bit k */
        0x5555555555555555u, 0x3333333333333333u, 0x0f0f0f0f0f0f0f0fu,
        0x00ff00ff00ff00ffu, 0x0000ffff0000ffffu, 0x00000000ffffffffu};
    for (int k = 0; k < 6; k++)
        d ^= d >> (1 << k) & without[k];
    return d;
}

/* 0 and the request's record, or the refusal's number. */
static int answer(const uint8_t *request, size_t size, uint8_t *record)
{
    if (size < REQUEST) return 13;
    int n = request[0], folding = request[1];
    uint64_t mask = le(request + 8, 8), message = le(request + 16, 8);
    if (n < 1 || n > 6) return 1;
    if (request[2] || request[3]) return 12;
    int slots = 1 << n;
    if (slots < 64 && mask >> slots) return 3;
    if (folding >> n) return 4;
    if (ones((uint64_t)folding) > 3) return 5;
    if (mask != code_mask)
        set_mask(mask);
    if (slots - frozen < 64 && message >> (slots - frozen)) return 9;
    uint64_t x = codeword(place(message));
    memcpy(record, request, FIELDS);
    for (int i = 0; i < slots; i += 8)
        memcpy(record + FIELDS + 2 * i, levels_of[x >> i & 255], 16);
    memset(record + FIELDS + 2 * slots, 0, (size_t)(RECORD - FIELDS - 2 * slots));
    return 0;
}

static char *put_number(char *p, int number)
{
    if (number > 9)
        *p++ = (char)('0' + number / 10);
    *p++ = (char)('0' + number % 10);
    *p++ = '\n';
    return p;
}

int main(void)
{
    static uint8_t requests[PIECE * REQUEST], records[PIECE * RECORD];
    static char numbers[PIECE * 3];
    uint32_t count = 0;
    size_t want, got;
    fill_levels();
    do {
        uint8_t *record = records;
        char *p = numbers;
        want = REQUEST * (size_t)(UINT32_MAX - count < PIECE ? UINT32_MAX - count : PIECE);
        got = fread(requests, 1, want, stdin);  /* less only at the end of the input */
        if (ferror(stdin))
            got -= got % REQUEST;               /* a request that a failed read has cut */
        for (size_t at = 0; at < got; at += REQUEST, count++) {
            int refusal = answer(requests + at, got - at, record);
            if (refusal)
                p = put_number(p, refusal);
            else
                record += RECORD;
        }
        fwrite(numbers, 1, (size_t)(p - numbers), stderr);      /* where it fails, the records still come */
        size_t size = (size_t)(record - records);
        if (fwrite(records, 1, size, stdout) != size)
            return 1;
    } while (want > 0 && got == want);
    return ferror(stdin) || fflush(stdout) ? 1 : 0;
}
