// Times pg_wire's `check` against `check_bytewise`, in one run: pieces of a size, one behind another in a buffer of
// 16 KiB. Each line is the median of nine measurements, taken in turn.
#include <stdint.h>
#include <stdio.h>
#include <stdlib.h>
#include <time.h>

uint16_t pg_check(const uint8_t *bytes, size_t len);
uint16_t pg_check_bytewise(const uint8_t *bytes, size_t len);

enum { BUFFER = 16384, TIMES = 9 };

static uint8_t buffer[BUFFER];
static volatile uint16_t sink;

typedef uint16_t (*sum_of)(const uint8_t *, size_t);

static double now(void) {
    struct timespec t;
    clock_gettime(CLOCK_MONOTONIC, &t);
    return (double)t.tv_sec + (double)t.tv_nsec * 1e-9;
}

// Millions of bytes a second.
static double rate_of(sum_of sum, size_t size, int rounds) {
    size_t pieces = BUFFER / size;
    uint16_t all = 0;
    double start = now();
    for (int round = 0; round < rounds; round++)
        for (size_t i = 0; i < pieces; i++)
            all ^= sum(buffer + i * size, size);
    double seconds = now() - start;
    sink = all;
    return (double)rounds * (double)(pieces * size) / seconds / 1e6;
}

static int by_value(const void *a, const void *b) {
    double x = *(const double *)a, y = *(const double *)b;
    return (x > y) - (x < y);
}

// The ratio of the medians at this size.
static double compare(size_t size) {
    double bytewise[TIMES], sliced[TIMES];
    rate_of(pg_check_bytewise, size, 200);
    rate_of(pg_check, size, 200);
    for (int i = 0; i < TIMES; i++) {
        bytewise[i] = rate_of(pg_check_bytewise, size, 1500);
        sliced[i] = rate_of(pg_check, size, 6000);
    }
    qsort(bytewise, TIMES, sizeof *bytewise, by_value);
    qsort(sliced, TIMES, sizeof *sliced, by_value);
    double slow = bytewise[TIMES / 2], fast = sliced[TIMES / 2];
    printf("%6zu bytes: check_bytewise %5.0f MB/s, check %5.0f MB/s, ratio %.2f (%.0f to %.0f, %.0f to %.0f)\n", size, slow,
           fast, fast / slow, bytewise[0], bytewise[TIMES - 1], sliced[0], sliced[TIMES - 1]);
    return fast / slow;
}

int main(void) {
    for (size_t i = 0; i < BUFFER; i++)
        buffer[i] = (uint8_t)(i * 167 + i / 256);
    if (pg_check((const uint8_t *)"123456789", 9) != 0x29B1 || pg_check(buffer, BUFFER) != pg_check_bytewise(buffer, BUFFER)) {
        puts("the two functions differ");
        return 1;
    }
    compare(54);
    compare(56);
    double ratio = compare(BUFFER);
    if (ratio < 4.0) {
        puts("check is less than 4 times as fast at 16 KiB");
        return 1;
    }
    return 0;
}
