/* Compares the proved signature with one in C: the answers must agree, and the times of both are printed. */
#include <stdint.h>
#include <stdio.h>
#include <stdlib.h>
#include <string.h>
#include <time.h>

enum { LONGEST = 1521, MESSAGES = 1000, RUNS = 9, OCTETS_PER_RUN = 1 << 25 };

typedef uint32_t signature_fn(const uint8_t *octets, size_t count);

signature_fn selomuvia_signature;

static uint32_t table[8][256];

/* table[j][k]: the remainder of the octet k followed by j zero octets */
static void fill_tables(void)
{
    for (uint32_t k = 0; k < 256; k++) {
        uint32_t r = k << 24;
        for (int j = 0; j < 8; j++) {
            for (int bit = 0; bit < 8; bit++)
                r = r << 1 ^ (r >> 31 ? 0xF4ACFB13 : 0);
            table[j][k] = r;
        }
    }
}

/* Eight octets a turn, from the highest address down, on a little-endian machine.
   The rows of low come first, since they need not wait for the register. */
__attribute__((noinline)) static uint32_t c_signature(const uint8_t *octets, size_t count)
{
    uint32_t r = 1, low, high;
    while (count >= 8) {
        count -= 8;
        memcpy(&low, octets + count, 4);
        memcpy(&high, octets + count + 4, 4);
        high ^= r;
        r = table[3][low >> 24] ^ table[2][low >> 16 & 255] ^ table[1][low >> 8 & 255] ^ table[0][low & 255]
          ^ table[7][high >> 24] ^ table[6][high >> 16 & 255] ^ table[5][high >> 8 & 255] ^ table[4][high & 255];
    }
    while (count > 0)
        r = r << 8 ^ table[0][r >> 24 ^ octets[--count]];
    return r ? r : 1;
}

static void randomize(uint8_t *octets, size_t count)
{
    static uint32_t x = 1;
    for (size_t i = 0; i < count; i++) {
        x ^= x << 13, x ^= x >> 17, x ^= x << 5;
        octets[i] = (uint8_t)(x >> 24);
    }
}

static void check_answers(void)
{
    uint8_t message[LONGEST];
    for (size_t i = 0; i < MESSAGES; i++) {
        size_t count = i * LONGEST / (MESSAGES - 1);
        randomize(message, count);
        uint32_t c = c_signature(message, count), proved = selomuvia_signature(message, count);
        if (c != proved) {
            fprintf(stderr, "message %zu, %zu octets: C says %08X, the proved code %08X\n", i, count, c, proved);
            exit(1);
        }
    }
}

/* The nanoseconds an octet of one run. Each answer is part of the next message, where that enters first:
   so no call can be left out, or begin before the last one ends. */
static double run(signature_fn *signature, uint8_t *message, size_t count)
{
    struct timespec start, end;
    size_t calls = OCTETS_PER_RUN / count;
    clock_gettime(CLOCK_MONOTONIC, &start);
    for (size_t i = 0; i < calls; i++) {
        uint64_t answer = signature(message, count) * UINT64_C(0x100000001);
        memcpy(message + count - 8, &answer, 8);
    }
    clock_gettime(CLOCK_MONOTONIC, &end);
    return ((end.tv_sec - start.tv_sec) * 1e9 + (end.tv_nsec - start.tv_nsec)) / ((double)calls * count);
}

static int by_size(const void *a, const void *b)
{
    double x = *(const double *)a, y = *(const double *)b;
    return (x > y) - (x < y);
}

/* The medians of both at one length, from runs in turn; the first run of each is the warm-up. */
static void measure(size_t count)
{
    uint8_t message[LONGEST];
    double c[RUNS + 1], proved[RUNS + 1];
    randomize(message, count);
    for (int i = 0; i <= RUNS; i++) {
        c[i] = run(c_signature, message, count);
        proved[i] = run(selomuvia_signature, message, count);
    }
    qsort(c + 1, RUNS, sizeof *c, by_size);
    qsort(proved + 1, RUNS, sizeof *proved, by_size);
    double c_median = c[1 + RUNS / 2], proved_median = proved[1 + RUNS / 2];
    printf("%6zu  %11.3f  %16.3f  %5.2f\n", count, c_median, proved_median, proved_median / c_median);
}

int main(void)
{
    fill_tables();
    check_answers();
    printf("both agree on %d messages\n", MESSAGES);
    printf("octets  C, ns/octet  proved, ns/octet  ratio\n");
    measure(32);
    measure(LONGEST);
    return 0;
}
